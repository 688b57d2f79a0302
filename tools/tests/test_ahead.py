"""Lines that are sent ahead of their replies are answered and kept as if typed one by one."""

import random
import socket
import sys
import time
import unittest

from running import PATIENCE, TOOLS
from serving import InService, Kept
from test_side_by_side import KEYS, Known, members_lines, operators_lines

sys.path.insert(0, str(TOOLS))

from delkwoan.replies import count_of

DAY = "2026-03-02"
LINES = 1_000
MANY = 200
"""More lines than are made together."""


def typed(port: int, lines: list[str]) -> str:
    """The replies to lines of which each waits for the reply to the one before."""
    with socket.create_connection(("127.0.0.1", port), PATIENCE) as connection:
        file = connection.makefile("rwb")
        told = ""
        for line in lines:
            file.write(line.encode() + b"\n")
            file.flush()
            head = file.readline().decode()
            told += head + "".join(file.readline().decode() for _ in range(count_of(head.rstrip("\n"))))
        return told


def sent(port: int, pieces: list[bytes], pause: float) -> str:
    """The replies to pieces of lines."""
    with socket.create_connection(("127.0.0.1", port), PATIENCE) as connection:
        connection.setsockopt(socket.IPPROTO_TCP, socket.TCP_NODELAY, 1)
        for piece in pieces:
            connection.sendall(piece)
            time.sleep(pause)
        connection.shutdown(socket.SHUT_WR)
        return b"".join(iter(lambda: connection.recv(65536), b"")).decode()


def pieces_of(lines: list[str], chance: random.Random) -> list[bytes]:
    """The lines' bytes, cut anywhere."""
    text = "".join(line + "\n" for line in lines).encode()
    cuts = sorted({0, len(text), *(chance.randrange(len(text)) for _ in range(len(lines) // 8))})
    return [text[one:other] for one, other in zip(cuts, cuts[1:])]


def chosen(port: int, chance: random.Random) -> tuple[list[str], str]:
    """Random lines of all speakers, many of which are accepted, and their replies, each waited for."""
    known, lines, told, speaker = Known(), list[str](), "", ""
    with socket.create_connection(("127.0.0.1", port), PATIENCE) as connection:
        file = connection.makefile("rwb")
        for _ in range(LINES):
            if not speaker or chance.random() < 0.1:
                speaker = chance.choice([*KEYS])
                lines.append(f"HELLO {speaker} {KEYS[speaker]}")
            else:
                lines.append(chance.choice(operators_lines(known) if speaker == "OPS" else members_lines(known, chance, speaker)))
            reply = known.ask(file, lines[-1])
            known.learn(reply)
            told += reply
    return lines, told


def many_lines() -> list[str]:
    """Lines of one member that hang on one another, more than are made together, and the other's answers to them."""
    trades = [f"TRADE A B P {count} {DAY}" for count in range(1, MANY + 1)]
    mixed = [line for number in range(1, MANY + 1) for line in (f"AFFIRM {number}", "NETS P", f"HOLD {number}", f"HOLD {number}", "WHAT")]
    ends = [f"{word} {number}" for number in range(1, MANY + 1) for word in ("FREE", "END", "END")]
    return ["HELLO A KA", *trades, "HELLO B KB", *mixed, "HELLO A KA", "STATEMENT", "HELLO B KB", *ends, "BYE"]


class AtOnce(InService):
    """With one seat, so that all records have the same."""

    def begin(self, name: str) -> None:
        self.kill()
        self.journal = self.folder / name
        self.start("--seats", "1")

    def assert_same(self, lines: list[str], replies: str, records: list[Kept]) -> None:
        """Lines that were typed with these replies and records have them also in one piece, and in many."""
        whole = "".join(line + "\n" for line in lines).encode()
        for name, pieces in (("whole", [whole]), ("pieces", pieces_of(lines, random.Random(1)))):
            self.begin(name)
            self.assertEqual(sent(self.port, pieces, 0.001), replies)
            self.kill()
            self.assertEqual(self.records(), records)
            self.journal.unlink()

    def test_random_lines(self) -> None:
        for seed in range(3):
            with self.subTest(seed=seed):
                self.begin(f"typed{seed}")
                lines, replies = chosen(self.port, random.Random(seed))
                self.kill()
                self.assert_same(lines, replies, self.records())

    def test_many_lines_of_one_member(self) -> None:
        self.begin("typed")
        lines = many_lines()
        replies = typed(self.port, lines)
        self.kill()
        self.assertEqual(len(self.records()), 5 * MANY)
        self.assert_same(lines, replies, self.records())


if __name__ == "__main__":
    unittest.main()
