"""What a guard answers, by the rules: which engine a node serves, and what it has accepted from one."""

MOST = 2**64 - 1  # of generations and births
NOT_UNDER = ("open 3", "stage 1 2", "finish", "unite")  # some of what no engine asks under its generation


class Guard:
    """The guard of a node of this birth: generation, membership, and the accepted truncation as (generation, epoch, lo, hi)."""

    def __init__(self, birth=0):
        self.generation, self.birth, self.is_member, self.accepted = 0, birth, False, ()

    def words(self, word, *numbers):
        return " ".join([word, *map(str, numbers)])

    def declined(self):
        return self.words("stale", self.generation) if self.is_member else self.words("fresh", self.birth)

    def is_under(self, generation, birth):
        return self.is_member and (generation, birth) == (self.generation, self.birth)

    def status(self, front):
        return self.words("status", self.generation, self.birth, int(self.is_member), *front, *self.accepted)

    def fence(self, _front, generation):
        if not self.is_member or generation <= self.generation:
            return self.declined()
        self.generation = generation
        return self.words("fenced", generation, self.birth, *self.accepted)

    def propose(self, _front, generation, birth, *cut):
        is_older = self.accepted and self.accepted[0] == generation and self.accepted[1] > cut[0]
        if not self.is_under(generation, birth) or is_older:
            return self.declined()
        self.accepted = (generation, *cut)
        return self.words("accepted", generation, birth, cut[0])

    def admit(self, front, generation, birth, epoch, complete, *accepted):
        if self.is_member:
            return "member"
        if birth != self.birth:
            return self.words("stranger", self.birth)
        if front[0] != epoch or front[1] < complete:
            return self.words("behind", *front[:2])
        self.generation, self.is_member, self.accepted = generation, True, accepted
        return self.words("admitted", generation, birth)


def a_cut(choose):
    low = choose.randrange(4)
    return choose.randrange(1, 4), low, low + choose.randrange(3)


def a_request(guard, front, choose):
    """The word and the numbers of some engine's request: mostly such as are carried out, or nearly so."""
    generation = choose.choice((guard.generation, guard.generation + 1, max(guard.generation - 1, 0), choose.randrange(9), MOST - choose.randrange(3)))
    generation, birth = min(generation, MOST), choose.choice((guard.birth, guard.birth, guard.birth, choose.randrange(3)))
    word = choose.choice(("status", "fence", "propose", "propose", "admit", "admit"))
    if word == "status":
        return word, ()
    if word == "fence":
        return word, (generation,)
    if word == "propose":
        return word, (generation, birth, *a_cut(choose))
    pair = choose.choice(((), (choose.randrange(5), *a_cut(choose))))
    return word, (generation, birth, front[0] + (choose.randrange(5) == 0), max(front[1] + choose.randrange(-1, 2), 0), *pair)
