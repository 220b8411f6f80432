"""A model of how takers of a node's lock sleep and are woken (crates/node_lock/src/sleepers.rt), written by hand from that code.

It plays every schedule of the atomic steps of a few threads, each of which takes the state and gives it back some times. A park
may return for no reason. Where no thread can go on and one has not ended, a wake was lost. Nothing ties the model to the code: it says
that the form is right, and not that the code has it. Two simpler forms that lose a wake-up are beside it, so that the model can fail.
"""

from typing import NamedTuple

import pytest

TAKE, READ, ASK, LOOK, PARK, ASLEEP, HELD, GIVE, TEST, SWAP, RING, WAKE, ENDED = range(13)
FIRST = (0, 0, 0)  # whether the state is taken, whether somebody asks to be woken, and how often it was rung


class Taker(NamedTuple):
    at: int
    left: int
    heard: int = 0
    slept: bool = False


class Form(NamedTuple):
    """Which of two parts a form of the lock has."""

    asks_for_others: bool = True
    looks_again: bool = True


def next_turn(taker):
    return Taker(TAKE, taker.left - 1) if taker.left > 1 else Taker(ENDED, 0)


def after(form, state, taker):
    """Each outcome of the taker's next step, a state and a taker; a wake is none of these."""
    taken, asks, rings = state
    at = taker.at
    if at == TAKE:
        yield (state, taker._replace(at=READ)) if taken else ((1, asks, rings), taker._replace(at=HELD))
    elif at == READ:
        yield state, taker._replace(at=ASK, heard=rings)
    elif at == ASK:
        yield (taken, 1, rings), taker._replace(at=LOOK if form.looks_again else PARK)
    elif at == LOOK:
        yield state, taker._replace(at=PARK if taken else TAKE)
    elif at == PARK:
        yield state, taker._replace(at=TAKE, slept=True)
        if rings == taker.heard:
            yield state, taker._replace(at=ASLEEP, slept=True)
    elif at == HELD:
        yield (taken, 1 if taker.slept and form.asks_for_others else asks, rings), taker._replace(at=GIVE, slept=False)
    elif at == GIVE:
        yield (0, asks, rings), taker._replace(at=TEST)
    elif at == TEST:
        yield state, taker._replace(at=SWAP) if asks else next_turn(taker)
    elif at == SWAP:
        yield (taken, 0, rings), taker._replace(at=RING) if asks else next_turn(taker)
    elif at == RING:
        yield (taken, asks, rings + 1), taker._replace(at=WAKE)


def woken(takers):
    """Each way in which a wake ends: it wakes one of those that sleep, where one sleeps."""
    wakes = [(*takers[:at], it._replace(at=TAKE), *takers[at + 1 :]) for at, it in enumerate(takers) if it.at == ASLEEP]
    return wakes or [takers]


def successors(form, state, takers):
    for at, taker in enumerate(takers):
        before, later = takers[:at], takers[at + 1 :]
        if taker.at == WAKE:
            yield from ((state, ones) for ones in woken((*before, next_turn(taker), *later)))
        yield from ((next_state, (*before, changed, *later)) for next_state, changed in after(form, state, taker))


def fault(form, threads, turns):
    """What some schedule ends in that it may not, or None."""
    first = FIRST, (Taker(TAKE, turns),) * threads
    seen, waiting = {first}, [first]
    while waiting:
        state, takers = waiting.pop()
        if sum(it.at in (HELD, GIVE) for it in takers) > 1:
            return "two have the state"
        found = {(state, tuple(sorted(ones))) for state, ones in successors(form, state, takers)}
        if not found and any(it.at != ENDED for it in takers):
            return "one sleeps for good"
        waiting += found - seen
        seen |= found
    return None


SIZES = [(2, 3), (3, 1), (3, 2), (4, 1)]  # threads, turns of each


@pytest.mark.parametrize("threads, turns", SIZES)
def test_no_wake_is_lost(threads, turns):
    assert fault(Form(), threads, turns) is None


@pytest.mark.parametrize("form", [Form(asks_for_others=False), Form(looks_again=False)], ids=["asks for itself alone", "looks once"])
def test_a_simpler_form_loses_a_wake(form):
    assert any(fault(form, *size) for size in SIZES[:2])
