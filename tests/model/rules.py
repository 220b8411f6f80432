"""The laws of a sound log, and what a set of facts means, written from the rules alone.

Each answer is computed again from the whole list or set, as its definition says. So this is slow, and keeps no state.
"""

from model.facts import PAGE_LEN, Advance, Cut, Record, of_kind


# Sound logs


def is_alive(cuts, view, record):
    """In the view of an epoch."""
    return (
        record.epoch <= view
        and all(cut.hi < record.number for cut in cuts if cut.epoch == record.epoch)
        and all(record.number <= cut.lo for cut in cuts if record.epoch < cut.epoch <= view)
    )


def counted(log):
    """The first truncation of each epoch."""
    return list({cut.epoch: cut for cut in reversed(of_kind(Cut, log))}.values())


def greatest_below(records, cuts, epoch, number, page=None):
    """The greatest number below a record's own that is alive in its epoch's view, of its page or of all, or 0."""
    below = [r for r in records if r.number < number and page in (None, r.page) and is_alive(cuts, epoch, r)]
    return max((r.number for r in below), default=0)


def is_begun(cuts, epoch):
    """Whether there is a truncation of each epoch up to this one."""
    return set(range(1, epoch + 1)) <= {cut.epoch for cut in cuts}


def is_past(log, cut, reader):
    """Whether a reader has moved past what a truncation leaves, by an advance of an earlier epoch."""
    return any(a.reader == reader and a.epoch < cut.epoch and a.point > cut.lo for a in of_kind(Advance, log))


def is_another(fact, other):
    """Whether two facts differ that have one key, or are truncations of one epoch."""
    if isinstance(fact, Record) and isinstance(other, Record):
        return fact.key() == other.key() and fact != other
    return isinstance(fact, Cut) and isinstance(other, Cut) and fact.epoch == other.epoch and fact != other


def broken_law(roster, log, place):
    """The least law that the fact at a place (from 0) breaks, or None."""
    fact, cuts, records = log[place], counted(log), of_kind(Record, log)
    readers = range(1, roster + 1)
    if any(is_another(fact, other) for other in log[:place]):
        return 1
    if isinstance(fact, Record):
        if not is_begun(cuts, fact.epoch) or any(c.epoch == fact.epoch and fact.number <= c.hi for c in cuts):
            return 2
        if fact.back != greatest_below(records, cuts, *fact.key()):
            return 3
        if fact.block_back != greatest_below(records, cuts, *fact.key(), fact.page):
            return 4
    if isinstance(fact, Advance):
        if fact.reader not in readers or not is_begun(cuts, fact.epoch):
            return 5
        later = [c for c in cuts if c.epoch > fact.epoch and c.lo < fact.point]
        if any(all(is_past(log, cut, reader) for reader in readers) for cut in later):
            return 5
    return None


def first_fault(roster, log):
    """The least place, from 1, that breaks a law, with the least law that it breaks, or None."""
    laws = ((place + 1, broken_law(roster, log, place)) for place in range(len(log)))
    return next((fault for fault in laws if fault[1] is not None), None)


# What a set of facts means


class Meaning:
    """The numbers, the kept facts and the pages of a set of facts."""

    def __init__(self, roster, facts):
        self.cuts = frozenset(of_kind(Cut, facts))
        self.epoch = max(k for k in range(len(self.cuts) + 1) if is_begun(self.cuts, k))
        records, advances = of_kind(Record, facts), of_kind(Advance, facts)
        alive = sorted(filter(self.is_alive, records), key=lambda r: r.number)
        numbers = {0}
        for record in alive:
            if record.back in numbers:
                numbers.add(record.number)
        self.backlinks = {r.number: r.back for r in alive}
        self.linked = [r for r in alive if r.number in numbers]
        self.complete = max(numbers)
        self.points = tuple(
            max((a.point for a in advances if a.reader == reader and a.epoch <= self.epoch), default=0)
            for reader in range(1, roster + 1)
        )
        self.min = min(self.points)
        self.waits = frozenset(a for a in advances if a.epoch > self.epoch)
        self.anchor = max(n for n in numbers if n <= self.min)
        self.kept = frozenset(r for r in records if self.is_waiting(r) or (self.is_alive(r) and r.number > self.anchor))

    def is_waiting(self, record):
        return record.epoch > self.epoch

    def is_alive(self, record):
        return is_alive(self.cuts, self.epoch, record)

    def gap(self):
        """What is missing first, or None: the record at the end of the backlinks of the least alive one above the complete point, by its
        number, else the truncation for which records wait, by its epoch."""
        number = min((n for n in self.backlinks if n > self.complete), default=None)
        while number in self.backlinks:
            number = self.backlinks[number]
        if number is not None:
            return "record", number
        return ("truncation", self.epoch + 1) if any(map(self.is_waiting, self.kept)) else None

    def page(self, page, point):
        image = bytearray(PAGE_LEN)
        for record in self.linked:
            if record.page == page and record.number <= point:
                if record.init:
                    image = bytearray(PAGE_LEN)
                for patch in record.patches:
                    image[patch.offset : patch.offset + len(patch.content())] = patch.content()
        return bytes(image)

    def parts(self):
        """All that two sets of one meaning have in common."""
        images = {page: self.page(page, self.anchor) for page in {r.page for r in self.linked}}
        pages = frozenset((page, image) for page, image in images.items() if any(image))
        return self.cuts, self.points, self.waits, self.anchor, pages, self.kept

    def has_settled(self, record):
        """Whether a record is of a known epoch, and dead or at or below the anchor."""
        return not self.is_waiting(record) and (not self.is_alive(record) or record.number <= self.anchor)


def are_past(meaning, cut, but=None):
    """Whether each reader, but the one left out, has a point above what a truncation leaves, known or waiting in an earlier epoch."""
    waiting = {w.reader for w in meaning.waits if w.epoch < cut.epoch and w.point > cut.lo}
    readers = range(1, len(meaning.points) + 1)
    return all(r in waiting or meaning.points[r - 1] > cut.lo for r in readers if r != but)


def is_refused_cut(meaning, cut):
    """For the other one of its epoch, for the minimum, or for a waiting advance."""
    known = [other for other in meaning.cuts if other.epoch == cut.epoch]
    return known != [cut] if known else cut.lo < meaning.min or are_past(meaning, cut)


def is_refused_advance(meaning, advance):
    """For its reader, or for a truncation of a later epoch that it contradicts."""
    roster = len(meaning.points)
    return not 1 <= advance.reader <= roster or any(
        roster == 1 or (cut.epoch > meaning.epoch and are_past(meaning, cut, advance.reader))
        for cut in meaning.cuts
        if cut.epoch > advance.epoch and cut.lo < advance.point
    )


def is_refused_record(meaning, record):
    """For the other record under its key, where it is compared at all."""
    return not meaning.has_settled(record) and any(is_another(record, other) for other in meaning.kept)


def is_refused(meaning, fact):
    """Whether a segment that means this refuses a fact. Of the facts of one sound log it refuses none."""
    rule = {Cut: is_refused_cut, Advance: is_refused_advance, Record: is_refused_record}[type(fact)]
    return rule(meaning, fact)


def is_at_most(a, b):
    """Whether meaning b covers meaning a."""
    return (
        a.cuts <= b.cuts
        and all(low <= high for low, high in zip(a.points, b.points))
        and all(w in b.waits or (w.epoch <= b.epoch and w.point <= b.points[w.reader - 1]) for w in a.waits)
        and a.anchor <= b.anchor
        and all(record in b.kept or b.has_settled(record) for record in a.kept)
    )


def uncovered(meaning, anchor, keys):
    """What of a summary the facts of a meaning do not answer for: the anchor, else the least key, or None."""
    if anchor > meaning.anchor:
        return f"anchor {anchor}"
    held = {record.key() for record in meaning.kept}
    for epoch, number in sorted(keys):
        named = Record(epoch, number, 0, 0, 0, False, ())
        if (epoch, number) not in held and not meaning.has_settled(named):
            return f"key {epoch} {number}"
    return None
