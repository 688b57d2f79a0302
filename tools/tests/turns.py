#!/usr/bin/env python3
"""turns.py SEATS CALLS BELLS PLACES

Walks all interleavings of waiting and waking in the lock (`crates/cycle_lock/src/turns`), as single steps that have one order.

No clause of the lock can speak of waking. So it is walked, for few seats with few calls each, that no seat sleeps on: a state in which
no seat can step, and one has not made its calls, is a wake-up that was lost. That a word is compared and a seat sleeps on it is one
step, as the system has it; that all who sleep on a word wake is another. No sleep ends by itself here, though the system may end one.
A seat that stands back, or looks again before it sleeps, draws and looks later, and a later step is walked, too.

A seat that finds the lock taken leaves its call at a place, if that is free. Else it looks whether calls wait, and draws a ticket. If
some waited, it claims in its turn those that wait then, and answers them. Behind its turn it passes that on, and rings. A run of lines
draws a ticket at once, and claims none. Whether a seat that was woken is tired of waiting is left open.
"""

import argparse
import sys
from enum import Enum, auto
from typing import Iterator, NamedTuple


class At(Enum):
    """What a seat does next."""

    BEGIN = auto()
    """It begins a call or a run, if it has some to make: it draws a ticket, or looks at the next one."""
    FREE = auto()
    """It looks at the ticket that is served. If that is the one that it noted, it draws one, and else takes its place."""
    MARK = auto()
    """It has its place, and sets its bit."""
    PUBLISH = auto()
    """It publishes its call."""
    SIGNAL = auto()
    """It makes its bell odd, and notes it."""
    COLLECT = auto()
    """It looks whether it was answered."""
    NEXT = auto()
    """It looks at the next ticket."""
    AGAIN = auto()
    """It looks at the ticket that is served."""
    REST = auto()
    """It sleeps at its place, if the bell is as it noted it."""
    RESTS = auto()
    """It does nothing until it is woken."""
    WITHDRAW = auto()
    """It takes its call back, unless that is claimed."""
    UNMARK = auto()
    """It clears its bit, and its place is free."""
    LOOK = auto()
    """It looks whether calls wait. If none does, its turn is for itself alone."""
    DRAW = auto()
    """It draws a ticket."""
    BELL = auto()
    """It looks at its ticket's bell."""
    SERVED = auto()
    """It looks at the ticket that is served."""
    SLEEP = auto()
    """It sleeps on its bell, if that is as it noted it."""
    ASLEEP = auto()
    """It does nothing until it is woken."""
    BITS = auto()
    """It has the turn, and looks which calls wait."""
    CLAIM = auto()
    """It claims the next of them, if that still waits."""
    CLEAR = auto()
    """It clears the bit of what it claimed."""
    ANSWER = auto()
    """It answers the next of its claims."""
    PASS_ON = auto()
    """It passes the turn on to the next ticket."""
    DRAWN = auto()
    """It looks whether the next ticket was drawn."""
    RING = auto()
    """It raises the bell of the next ticket."""
    WAKE = auto()
    """It wakes all who sleep on that bell."""
    LEAVE = auto()
    """It looks which calls wait, and is to ring at the first of these."""
    KNOCK = auto()
    """It looks at the bell of the next place where it is to ring, and raises it if it is odd."""
    ROUSE = auto()
    """It wakes who sleeps there."""


class Wrong(Enum):
    """How a lock may be wrong."""

    LOOKS_AT_THE_BELL_LAST = auto()
    """The ticket that is served is looked at first, and then the bell."""
    LOOKS_BEFORE_IT_PASSES_ON = auto()
    """Whether the next ticket was drawn is looked at before the turn is passed on."""
    RAISES_NO_BELL = auto()
    """Who sleeps on the bell is woken, and the bell stays as it was."""
    RINGS_ITS_OWN_BELL = auto()
    """A turn rings the bell of the ticket that ends."""
    WAKES_ONE = auto()
    """One of those who sleep on the bell is woken."""
    MAKES_ITS_BELL_ODD_LAST = auto()
    """Who waits at a place looks at the lock first, and then makes its bell odd."""
    LEAVES_THE_PLACES = auto()
    """A turn rings nobody at a place behind it, but those whose calls it made."""
    RINGS_NO_CLAIM = auto()
    """A turn does not ring those whose calls it made."""
    LEAVES_THE_BELL_ODD = auto()
    """Who sleeps at a place is woken, and the bell stays as it was."""


class Call(Enum):
    """What lies at a place."""

    NONE = auto()
    COMING = auto()
    WAITS = auto()
    CLAIMED = auto()
    ANSWERED = auto()


class Seat(NamedTuple):
    """What it does next, how many calls it has still to begin, its ticket, what it noted of a bell or a ticket, the places whose calls it
    may claim, those that it claimed, those where it is to ring, whether it makes a run, or was woken at its place, and whether its turn is
    for itself alone."""

    at: At
    calls: int
    ticket: int = 0
    noted: int = 0
    bits: tuple[int, ...] = ()
    claims: tuple[int, ...] = ()
    rings: tuple[int, ...] = ()
    run: bool = False
    alone: bool = False


class Place(NamedTuple):
    """A place: what lies there, its bit, its bell, and the seat whose call it is."""

    call: Call = Call.NONE
    bit: bool = False
    bell: int = 0
    seat: int = 0


class State(NamedTuple):
    """The next ticket, the ticket that is served, the bells, the places, and the seats."""

    drawn: int
    served: int
    bells: tuple[int, ...]
    places: tuple[Place, ...]
    seats: tuple[Seat, ...]

    def seated(self, number: int, seat: Seat) -> "State":
        return self._replace(seats=(*self.seats[:number], seat, *self.seats[number + 1 :]))

    def placed(self, number: int, place: Place) -> "State":
        return self._replace(places=(*self.places[:number], place, *self.places[number + 1 :]))

    def bits(self) -> tuple[int, ...]:
        return tuple(number for number, place in enumerate(self.places) if place.bit)


class Walked(NamedTuple):
    """How many states there are, one in which a wake-up is lost, and one in which two have the turn."""

    states: int
    lost: State | None = None
    doubled: State | None = None


IN_TURN = (At.BITS, At.CLAIM, At.CLEAR, At.ANSWER, At.PASS_ON)


class Lock:
    """The steps of a lock, as it is or wrong in one way."""

    def __init__(self, wrong: Wrong | None = None) -> None:
        self.wrong = wrong
        self.looks = [At.BELL, At.SERVED]
        self.ends = [At.PASS_ON, At.DRAWN]
        self.waiting = [At.SIGNAL, At.COLLECT, At.NEXT, At.AGAIN, At.REST]
        if wrong is Wrong.LOOKS_AT_THE_BELL_LAST:
            self.looks.reverse()
        if wrong is Wrong.LOOKS_BEFORE_IT_PASSES_ON:
            self.ends.reverse()
        if wrong is Wrong.MAKES_ITS_BELL_ODD_LAST:
            self.waiting = [At.COLLECT, At.NEXT, At.AGAIN, At.SIGNAL, At.REST]
        parts = {
            self.begins: (At.BEGIN, At.FREE, At.LOOK, At.DRAW),
            self.publishes: (At.MARK, At.PUBLISH),
            self.waits_at_place: (At.SIGNAL, At.COLLECT, At.NEXT, At.AGAIN, At.REST, At.WITHDRAW, At.UNMARK),
            self.waits_for_turn: (At.BELL, At.SERVED, At.SLEEP),
            self.serves: (At.BITS, At.CLAIM, At.CLEAR, At.ANSWER),
            self.ends_turn: (At.PASS_ON, At.DRAWN, At.RING, At.WAKE),
            self.rings: (At.LEAVE, At.KNOCK, At.ROUSE),
        }
        self.steps_at = {at: part for part, stages in parts.items() for at in stages}

    def steps(self, state: State, number: int) -> Iterator[State]:
        """What a state may become by the next step of this seat; nothing, where it has none."""
        seat = state.seats[number]
        if seat.at in self.steps_at:
            yield from self.steps_at[seat.at](state, number, seat)

    def place_of(self, state: State, number: int) -> int:
        return number % len(state.places)

    def begins(self, state: State, number: int, seat: Seat) -> Iterator[State]:
        """A call is begun: by a ticket, where the lock is free or the place is taken."""
        if seat.at is At.BEGIN and seat.calls:
            yield state.seated(number, Seat(At.FREE, seat.calls - 1, noted=state.drawn))
            yield state.seated(number, Seat(At.DRAW, seat.calls - 1, run=True, alone=True))
        elif seat.at is At.LOOK:
            yield state.seated(number, seat._replace(at=At.DRAW, alone=not state.bits()))
        elif seat.at is At.DRAW:
            yield state._replace(drawn=state.drawn + 1).seated(number, seat._replace(at=self.looks[0], ticket=state.drawn))
        elif seat.at is At.FREE:
            at = self.place_of(state, number)
            if seat.noted == state.served or state.places[at].call is not Call.NONE:
                yield state.seated(number, Seat(At.LOOK, seat.calls))
            else:
                taken = state.places[at]._replace(call=Call.COMING, seat=number)
                yield state.placed(at, taken).seated(number, Seat(At.MARK, seat.calls))

    def publishes(self, state: State, number: int, seat: Seat) -> Iterator[State]:
        at = self.place_of(state, number)
        if seat.at is At.MARK:
            yield state.placed(at, state.places[at]._replace(bit=True)).seated(number, seat._replace(at=At.PUBLISH))
        else:
            yield state.placed(at, state.places[at]._replace(call=Call.WAITS)).seated(number, seat._replace(at=self.waiting[0]))

    def waits_at_place(self, state: State, number: int, seat: Seat) -> Iterator[State]:
        """A seat whose call lies at a place looks for its reply, and whether the lock is free, and sleeps."""
        at = self.place_of(state, number)
        place, following = state.places[at], self.after(seat)
        if seat.at is At.SIGNAL:
            odd = place._replace(bell=place.bell | 1)
            yield state.placed(at, odd).seated(number, following._replace(ticket=odd.bell))
        elif seat.at is At.COLLECT and place.call is Call.ANSWERED:
            yield state.placed(at, place._replace(call=Call.NONE)).seated(number, Seat(At.BEGIN, seat.calls))
        elif seat.at is At.COLLECT:
            yield state.seated(number, following)
            if seat.run:
                yield state.seated(number, seat._replace(at=At.WITHDRAW))
        elif seat.at is At.NEXT:
            yield state.seated(number, following._replace(noted=state.drawn))
        elif seat.at is At.AGAIN:
            yield state.seated(number, seat._replace(at=At.WITHDRAW) if seat.noted == state.served else following._replace(noted=0))
        elif seat.at is At.REST:
            yield state.seated(number, seat._replace(at=At.RESTS) if seat.ticket == place.bell else following)
        elif seat.at is At.WITHDRAW and place.call is Call.WAITS:
            yield state.placed(at, place._replace(call=Call.COMING)).seated(number, seat._replace(at=At.UNMARK))
        elif seat.at is At.WITHDRAW:
            yield state.seated(number, seat._replace(at=At.REST, noted=0))
        elif seat.at is At.UNMARK:
            yield state.placed(at, place._replace(call=Call.NONE, bit=False)).seated(number, Seat(At.LOOK, seat.calls))

    def after(self, seat: Seat) -> Seat:
        """The seat at the next of the steps with which it waits at a place."""
        if seat.at not in self.waiting:
            return seat
        return seat._replace(at=self.waiting[(self.waiting.index(seat.at) + 1) % len(self.waiting)])

    def waits_for_turn(self, state: State, number: int, seat: Seat) -> Iterator[State]:
        """A seat with a ticket has looked or tried to sleep."""
        bell = state.bells[seat.ticket % len(state.bells)]
        if seat.at is At.SLEEP:
            yield state.seated(number, seat._replace(at=At.ASLEEP if seat.noted == bell else self.looks[0], noted=0))
        elif seat.at is At.SERVED and state.served == seat.ticket:
            yield state.seated(number, seat._replace(at=self.ends[0] if seat.alone else At.BITS, noted=0))
        else:
            at = self.looks[1] if seat.at is self.looks[0] else At.SLEEP
            yield state.seated(number, seat._replace(at=at, noted=bell if seat.at is At.BELL else seat.noted))

    def serves(self, state: State, number: int, seat: Seat) -> Iterator[State]:
        """In its turn a seat claims the calls that wait, and answers them."""
        if seat.at is At.BITS:
            yield state.seated(number, self.claiming(seat._replace(bits=state.bits())))
        elif seat.at is At.CLAIM:
            at, rest = seat.bits[0], seat._replace(bits=seat.bits[1:])
            if state.places[at].call is Call.WAITS:
                claimed = state.places[at]._replace(call=Call.CLAIMED)
                yield state.placed(at, claimed).seated(number, rest._replace(at=At.CLEAR, claims=(*seat.claims, at)))
            else:
                yield state.seated(number, self.claiming(rest))
        elif seat.at is At.CLEAR:
            at = seat.claims[-1]
            yield state.placed(at, state.places[at]._replace(bit=False)).seated(number, self.claiming(seat))
        else:
            at, left = seat.claims[0], seat.claims[1:]
            rings = seat.rings if self.wrong is Wrong.RINGS_NO_CLAIM else (*seat.rings, at)
            ended = seat._replace(at=At.ANSWER if left else self.ends[0], claims=left, rings=rings)
            yield state.placed(at, state.places[at]._replace(call=Call.ANSWERED)).seated(number, ended)

    def claiming(self, seat: Seat) -> Seat:
        return seat._replace(at=At.CLAIM if seat.bits else At.ANSWER if seat.claims else self.ends[0])

    def ends_turn(self, state: State, number: int, seat: Seat) -> Iterator[State]:
        """The turn is passed on, or the next ticket looked at. Behind both the seat rings: the next ticket's bell, where that was drawn."""
        if seat.at is At.RING:
            yield self.raised(state, seat).seated(number, seat._replace(at=At.WAKE))
        elif seat.at is At.WAKE:
            yield from self.wakes(state, number, seat)
        else:
            noted = int(state.drawn > seat.ticket + 1) if seat.at is At.DRAWN else seat.noted
            state = state._replace(served=state.served + 1) if seat.at is At.PASS_ON else state
            following = self.ends[1] if seat.at is self.ends[0] else At.RING if noted else At.LEAVE
            yield state.seated(number, self.ringing(seat._replace(at=following, noted=noted if following is self.ends[1] else 0)))

    def bell_rung(self, state: State, seat: Seat) -> int:
        return (seat.ticket + (self.wrong is not Wrong.RINGS_ITS_OWN_BELL)) % len(state.bells)

    def raised(self, state: State, seat: Seat) -> State:
        bell = self.bell_rung(state, seat)
        raised = state.bells[bell] + (self.wrong is not Wrong.RAISES_NO_BELL)
        return state._replace(bells=(*state.bells[:bell], raised, *state.bells[bell + 1 :]))

    def wakes(self, state: State, number: int, seat: Seat) -> Iterator[State]:
        """Who sleeps on the bell wakes. A run then rings at a place, too."""
        bell = self.bell_rung(state, seat)
        asleep = [at for at, one in enumerate(state.seats) if one.at is At.ASLEEP and one.ticket % len(state.bells) == bell]
        state = state.seated(number, self.ringing(seat._replace(at=At.LEAVE if seat.run else At.KNOCK)))
        for woken in [[at] for at in asleep] if self.wrong is Wrong.WAKES_ONE and asleep else [asleep]:
            after = state
            for at in woken:
                after = after.seated(at, after.seats[at]._replace(at=self.looks[0]))
            yield after

    def ringing(self, seat: Seat) -> Seat:
        """The seat, which has made its call where it is to ring nowhere."""
        if seat.at is At.LEAVE and self.wrong is Wrong.LEAVES_THE_PLACES:
            seat = seat._replace(at=At.KNOCK)
        return Seat(At.BEGIN, seat.calls) if seat.at is At.KNOCK and not seat.rings else seat

    def rings(self, state: State, number: int, seat: Seat) -> Iterator[State]:
        """A seat rings at the first place where a call waits, and at those whose calls it made."""
        if seat.at is At.LEAVE:
            yield state.seated(number, self.ringing(seat._replace(at=At.KNOCK, rings=(*state.bits()[:1], *seat.rings))))
            return
        at = seat.rings[0]
        place, left = state.places[at], self.ringing(seat._replace(at=At.KNOCK, rings=seat.rings[1:]))
        if seat.at is At.KNOCK and place.bell % 2:
            raised = place._replace(bell=place.bell + (self.wrong is not Wrong.LEAVES_THE_BELL_ODD))
            yield state.placed(at, raised).seated(number, seat._replace(at=At.ROUSE))
        elif seat.at is At.KNOCK:
            yield state.seated(number, left)
        else:
            sleeper = state.seats[place.seat]
            if sleeper.at is At.RESTS and self.place_of(state, place.seat) == at:
                state = state.seated(place.seat, sleeper._replace(at=self.waiting[0], run=True))
            yield state.seated(number, left)

    def walk(self, seats: int, calls: int, bells: int, places: int) -> Walked:
        """Walks all states from the one in which no ticket was drawn, until it finds a bad one."""
        start = State(0, 0, (0,) * bells, (Place(),) * places, (Seat(At.BEGIN, calls),) * seats)
        seen, left = {start}, [start]
        while left:
            state = left.pop()
            if sum(seat.at in IN_TURN for seat in state.seats) > 1:
                return Walked(len(seen), doubled=state)
            after = [step for number in range(seats) for step in self.steps(state, number)]
            if not after and any(seat.at is not At.BEGIN for seat in state.seats):
                return Walked(len(seen), lost=state)
            new = [step for step in dict.fromkeys(after) if step not in seen]
            seen.update(new)
            left.extend(new)
        return Walked(len(seen))


def main(words: list[str]) -> int:
    parser = argparse.ArgumentParser(description="Walks all interleavings of waiting and waking in the lock, and of locks that are wrong.")
    sizes = {"seats": "seats there are", "calls": "calls each makes", "bells": "bells there are", "places": "places there are"}
    for name, text in sizes.items():
        parser.add_argument(name, type=int, help=f"how many {text}")
    asked = parser.parse_args(words)
    for wrong in [None, *Wrong]:
        walked = Lock(wrong).walk(asked.seats, asked.calls, asked.bells, asked.places)
        found = "a wake-up is lost" if walked.lost else "two have the turn" if walked.doubled else "all calls are made"
        print(f"{wrong.name.lower().replace('_', ' ') if wrong else 'the lock'}: {walked.states} states, {found}", flush=True)
    return 0


if __name__ == "__main__":
    sys.exit(main(sys.argv[1:]))
