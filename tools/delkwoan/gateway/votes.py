"""Who has voted on the proposal through this gateway, and how the last cycle ended: of votes the service tells no more than how many are
left, and the voter alone."""

from typing import Any

ENDS = {"executed": "executed", "cancelled": "cancelled", "nothing": "nothing"}
"""The replies that end a cycle, which may be that of no vote."""
HAS_ACCEPTED = "20"
"""The refusal of a second ACCEPT."""


class Votes:
    """The votes on one version, and the end of one cycle, by the replies that came through this gateway since it began."""

    def __init__(self) -> None:
        self.end = (0, "")
        self.begin(0, 0)

    def begin(self, cycle: int, version: int) -> None:
        self.cycle, self.version = cycle, version
        self.accepted: list[str] = []
        self.declined: str | None = None
        self.left: int | None = None

    def is_on(self, cycle: int, version: int) -> bool:
        """Whether a vote is on the last version that had one, which it becomes if it is later."""
        if (cycle, version) > (self.cycle, self.version):
            self.begin(cycle, version)
        return (cycle, version) == (self.cycle, self.version)

    def take(self, name: str, line: str, reply: str) -> None:
        """Takes in the reply to a line that is a vote, or that may end a cycle."""
        words = reply.partition("\n")[0].split(" ")
        if words[0] == "no":
            verb, *numbers = line.split(" ")
            if verb == "ACCEPT" and words[2] == HAS_ACCEPTED and self.is_on(*map(int, numbers)):
                self.accept(name)
            return
        kind, cycle = words[2], int(words[3])
        if kind in ENDS:
            self.end = (cycle, ENDS[kind])
        if kind not in ("accepted", "executed", "declined") or not self.is_on(cycle, int(words[4])):
            return
        if kind == "declined":
            self.declined = name
            return
        left = int(words[5]) if kind == "accepted" else 0
        self.left = left if self.left is None else min(self.left, left)
        self.accept(name)

    def accept(self, name: str) -> None:
        if name not in self.accepted:
            self.accepted.append(name)

    def ended(self, cycle: int) -> str | None:
        """How a cycle ended, if that came through this gateway."""
        return self.end[1] if self.end[0] == cycle else None

    def vote_of(self, name: str) -> str | None:
        """What a member voted on the version, if that came through this gateway; a proposal that it declined stands no more."""
        return "declined" if name == self.declined else "accepted" if name in self.accepted else None

    def told(self) -> dict[str, Any]:
        return {"cycle": self.cycle, "version": self.version, "accepted": self.accepted, "declined": self.declined, "left": self.left}

    def told_of(self, name: str) -> dict[str, Any]:
        return {"cycle": self.cycle, "version": self.version, "vote": self.vote_of(name)}
