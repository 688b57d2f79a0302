"""How many keys of a name are tried: a bound on guesses that does not keep out who has the right key.

Only the service knows whether a key is right, so each sign-in counts as a guess before the service is asked, and no longer once it was
right. Guesses wait in lanes. In each lane a few may be asked at once, and then one every two seconds; so a lane never stands still:

- **a home**: a name at an address from which it has signed in since the gateway was started. Nobody elsewhere has a part in it, so guesses
  from elsewhere can't keep the holder out.
- **the rest of a name**: all other addresses together. One guess waits for each network (/24 of IPv4, /48 of IPv6) and address, and the
  next one is drawn by lot: first a network, then one of its addresses. So among guessers from k other networks the holder at a new address
  waits k turns on average.

A lane belongs to a name, so wrong keys of one name do not slow other names at the same address.

What a guesser gets: 43,200 keys of a name a day from all of the internet, and as many from each home. Of a key of 16 random letters and
digits (36 to the 16th, 8e24) that is one in 1e20 a day. A key of four digits is found in a day.
"""

import asyncio
import random
import time
from ipaddress import ip_address
from typing import NamedTuple

PACE = 2.0
"""The seconds between two guesses in a lane, once its first few are used up."""
AT_ONCE = 4
"""The guesses of a home that need not wait: mistyped keys, and sign-ins at the same time."""
MOST_HOMES = 16
"""The homes of a name; the one that was used longest ago is forgotten first."""
MOST_WAITING = 1024
"""The guesses of all names that may wait at the same time. One more sends away one of the network that has most."""
MOST_LANES = 4096
"""The names whose guesses are counted at the same time. One more drops the oldest that nobody waits for, which costs one guess too many."""


class Slowed(Exception):
    """A guess got no turn: ask again after so many seconds."""

    def __init__(self, seconds: float) -> None:
        super().__init__()
        self.seconds = seconds


class Place(NamedTuple):
    """Where a guess comes from."""

    network: str
    address: str


def place_of(address: str) -> Place:
    """The network and the address of a peer; of IPv6 a /64 counts as one address, since one user has all of it."""
    try:
        found = ip_address(address.partition("%")[0])
    except ValueError:
        return Place(address, address)
    if found.version == 6 and (mapped := getattr(found, "ipv4_mapped", None)) is not None:
        found = mapped
    size = 32 if found.version == 4 else 128
    network, alone = (8, 0) if found.version == 4 else (80, 64)
    whole = int(found)
    return Place(f"{size}:{whole >> network}", f"{size}:{whole >> alone}")


class Lane:
    """Guesses that are asked one after another. `debt` is how many were asked and are not paid off by time."""

    def __init__(self, at_once: int) -> None:
        self.at_once = at_once
        self.debt, self.at = 0.0, time.monotonic()
        self.waiting: dict[str, dict[str, asyncio.Future[None]]] = {}
        self.is_due = False

    def pay(self) -> None:
        now = time.monotonic()
        self.debt, self.at = max(self.debt - (now - self.at) / PACE, 0.0), now

    @property
    def left(self) -> float:
        """The seconds until one more may be asked."""
        self.pay()
        return max(self.debt - (self.at_once - 1), 0.0) * PACE

    @property
    def is_free(self) -> bool:
        """Whether a guess need not wait."""
        return not self.waiting and not self.left

    def take(self) -> None:
        self.debt += 1

    def give_back(self) -> None:
        """A guess was right, or could not be asked: it counts no more."""
        self.pay()
        self.debt = max(self.debt - 1, 0.0)
        self.draw()

    def draw(self) -> None:
        """Gives turns to guesses that wait, by lot, as many as there are, and comes back for the others."""
        while self.waiting and not self.left:
            network = random.choice([*self.waiting])
            address = random.choice([*self.waiting[network]])
            waiter = self.waiting[network][address]
            self.leave(Place(network, address))
            if not waiter.done():
                self.take()
                waiter.set_result(None)
        if self.waiting and not self.is_due:
            self.is_due = True
            asyncio.get_running_loop().call_later(self.left, self.come_back)

    def come_back(self) -> None:
        self.is_due = False
        self.draw()

    def leave(self, place: Place) -> None:
        self.waiting[place.network].pop(place.address)
        if not self.waiting[place.network]:
            del self.waiting[place.network]

    def send_away(self, place: Place) -> None:
        """Ends the waiting of a guess, which gets no turn."""
        waiter = self.waiting[place.network][place.address]
        self.leave(place)
        if not waiter.done():
            waiter.set_exception(Slowed(self.left + PACE))

    async def turn(self, place: Place, seconds: float) -> None:
        """Waits for a turn, which is taken then."""
        if place.address in self.waiting.get(place.network, {}):
            raise Slowed(self.left + PACE)
        waiter: asyncio.Future[None] = asyncio.get_running_loop().create_future()
        self.waiting.setdefault(place.network, {})[place.address] = waiter
        self.draw()
        try:
            await asyncio.wait_for(waiter, seconds)
        except asyncio.TimeoutError:
            raise Slowed(self.left + PACE) from None
        finally:
            if self.waiting.get(place.network, {}).get(place.address) is waiter:
                self.leave(place)


class Guesses:
    """The lanes of all names. A guess waits for its turn at most so many seconds."""

    def __init__(self, wait: float) -> None:
        self.wait = wait
        self.rest: dict[str, Lane] = {}
        self.homes: dict[str, dict[str, Lane]] = {}
        self.waiting: dict[str, list[tuple[Lane, Place]]] = {}
        """The guesses that wait, by their networks."""

    def lane(self, name: str, place: Place) -> Lane:
        """The lane of a name at a place."""
        home = self.homes.get(name, {}).get(place.address)
        if home is not None:
            return home
        if name not in self.rest and len(self.rest) >= MOST_LANES:
            del self.rest[next(it for it, lane in self.rest.items() if not lane.waiting)]
        return self.rest.setdefault(name, Lane(1))

    async def turn(self, name: str, place: Place) -> Lane:
        """Waits for the turn of a guess, which counts as wrong from then on; the lane that it is in."""
        lane = self.lane(name, place)
        if lane.is_free:
            lane.take()
            return lane
        if sum(map(len, self.waiting.values())) >= MOST_WAITING:
            most = max(self.waiting.values(), key=len)
            other, its_place = most[0]
            other.send_away(its_place)
            self.forget(other, its_place)
        self.waiting.setdefault(place.network, []).append((lane, place))
        try:
            await lane.turn(place, self.wait)
        finally:
            self.forget(lane, place)
        return lane

    def forget(self, lane: Lane, place: Place) -> None:
        """A guess waits no more."""
        waiting = self.waiting.get(place.network, [])
        if (lane, place) in waiting:
            waiting.remove((lane, place))
        if not waiting:
            self.waiting.pop(place.network, None)

    def right(self, name: str, place: Place) -> None:
        """The key was right: the address is a home of the name."""
        homes = self.homes.setdefault(name, {})
        homes[place.address] = homes.pop(place.address) if place.address in homes else Lane(AT_ONCE)
        if len(homes) > MOST_HOMES:
            del homes[next(iter(homes))]
