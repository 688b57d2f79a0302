"""What no caller may bring about: an answer 500, a traceback for each thing that a peer does wrong, figures of a damaged journal.

FUZZED in the environment says how many calls are made up, in place of some thousands.
"""

import asyncio
import json
import logging
import os
import random
import re
import socket
import sys
import tempfile
import unittest
from collections import Counter
from contextlib import asynccontextmanager
from pathlib import Path
from typing import Any, AsyncIterator, Callable

from gateways import MODULES, InGateway
from running import EXAMPLES, PATIENCE, TOOLS
from serving import ROSTER, InService
from test_packaging import python_with

sys.path.insert(0, str(TOOLS))

from delkwoan import own_part
from delkwoan.checker import Fault
from delkwoan.gateway import logs
from delkwoan.gateway.calls import CALLS, POSTING
from delkwoan.gateway.follower import Fill, Follower

FUZZED = int(os.environ.get("FUZZED", "3000"))
CONNECTIONS = 200
"""The peers that send two bytes each."""


class Texts(unittest.TestCase):
    """The texts of a member's own test: each that is malformed has a fault with its row."""

    def test_bad_plans(self) -> None:
        cases = {"ok 1 plan 1 1 x": 1, "": 1, "ok": 1, "ok 1 plan 1 1 1": 2, "ok 1 plan x 1 0": 1, "ok 1 plan 1 1 00": 1}
        cases |= {"ok 1 plan 1 1 0 0": 1, "ok 1 plan 1 1 -1": 1, "ok 1 plan 1 1 0\nend 1": 2}
        for text, row in cases.items():
            with self.assertRaisesRegex(Fault, rf"^plan row {row}: bad-line$"):
                own_part.read_plan(text.encode())

    def test_bad_proofs(self) -> None:
        for head in ("ok 1 proof 1 1 2026-01-01 free 1 x", "ok 1 proof 1 1 2026-01-01 free x 0", "ok 1 proof 1 1 2026-99-01 free 1 0", "ok"):
            with self.assertRaisesRegex(Fault, r"^proof row 1: bad-line$"):
                own_part.read_proof(head.encode())


class Damaged(unittest.TestCase):
    """A journal whose slots, base or records lead elsewhere has no figures, and one that is mended has them again."""

    def setUp(self) -> None:
        folder = tempfile.TemporaryDirectory()
        self.addCleanup(folder.cleanup)
        self.file = Path(folder.name) / "journal"

    def slotted(self, offset: int, size: int, rest: bytes = b"") -> bytes:
        """A journal whose selected slot has this offset, with this length of a base behind the slots."""
        return b"OTCJRNLC\0" + offset.to_bytes(8, "little") + bytes(8) + size.to_bytes(4, "little") + rest

    def test_what_is_damaged_has_no_figures(self) -> None:
        right = self.slotted(25, 0, b"\0")
        cases = [b"", b"OTCJRNLC", b"OTCJRNLC\0" + bytes(15), b"ANOTHER!" + bytes(40), self.slotted(25, 1 << 31), self.slotted(25, 2, b"\0\0\0")]
        cases += [self.slotted(offset, 0, b"\0") for offset in (0, 24, 27, 1000, 1 << 31, (1 << 63) - 1, 1 << 63, (1 << 64) - 1)]
        cases += [right[:-1] + b"\1\xff\xff\xff\xff", right[:-1] + b"\1\xff\xff\xff\x0f"]
        for number, bytes_of in enumerate(cases):
            follower = Follower(str(self.file))
            self.file.write_bytes(bytes_of)
            self.assertIsNone(follower.fill(), f"case {number}")
            self.file.write_bytes(right)
            self.assertEqual(follower.fill(), Fill(30, 268_435_456 - 30, 0, 100_000), f"case {number}")


class Keeping(logging.Handler):
    """Keeps what a log gets."""

    def __init__(self) -> None:
        super().__init__()
        self.got: list[str] = []
        self.setFormatter(logging.Formatter("%(levelname)s %(message)s"))

    def emit(self, record: logging.LogRecord) -> None:
        self.got.append(self.format(record))


class Lines(unittest.TestCase):
    """What the log gets."""

    def setUp(self) -> None:
        handler = Keeping()
        handler.addFilter(logs.Sparing())
        self.got = handler.got
        self.library, self.own = logging.Logger("uvicorn.error"), logging.Logger("delkwoan.gateway")
        for logger in (self.library, self.own):
            logger.addHandler(handler)

    def meet(self, number: int) -> None:
        """A fault of the gateway, always at the same place."""
        try:
            raise ValueError("two\nlines")
        except ValueError as fault:
            self.own.error("a fault of the gateway: %s", number, exc_info=fault)

    def test_a_peer_that_is_wrong_again_and_again(self) -> None:
        try:
            raise ValueError("bytes of a peer\n2026-12-02 WARNING none")
        except ValueError as fault:
            for _ in range(1000):
                self.library.warning("Invalid HTTP request received.", exc_info=fault)
        self.assertEqual(self.got, ["WARNING Invalid HTTP request received. (ValueError)"] * 10)

    def test_a_fault_again_and_again(self) -> None:
        """Its traceback is there once; another one has its own."""
        for number in range(1000):
            self.meet(number)
        first, *others = self.got
        self.assertIn("\nTraceback (most recent call last):\n", first)
        self.assertEqual(others, [f"ERROR a fault of the gateway: {number} (ValueError)" for number in range(1, 10)])
        try:
            raise KeyError
        except KeyError as fault:
            self.own.error("a fault of the gateway: %s", 0, exc_info=fault)
        self.assertIn("\nTraceback", self.got[-1])

    def test_own_lines_pass(self) -> None:
        for _ in range(100):
            self.own.warning("wrong key: name %s", "A")
        self.assertEqual(self.got, ["WARNING wrong key: name A"] * 100)

    def test_kinds_are_bounded(self) -> None:
        for number in range(5_000):
            self.library.warning(f"of its own {number}")
        self.assertEqual(len(self.got), 256 + 10)


class AtTheGateway(InGateway):
    def test_two_bytes_of_many(self) -> None:
        """No traceback is logged, and few lines of it."""
        self.start("--seats", "5")
        self.open("--seats", "1")
        for _ in range(CONNECTIONS):
            with socket.create_connection(("127.0.0.1", self.gate), PATIENCE) as peer:
                peer.sendall(b"\x16\x03")
                peer.shutdown(socket.SHUT_WR)
                while peer.recv(4096):
                    pass
        self.assertEqual(self.caller().ask("GET", "/healthz").status, 200)
        lines = self.logged().splitlines()
        self.assertEqual([line for line in lines if not re.fullmatch(r"2\d{3}-\S+ \S+ WARNING Invalid HTTP request received\. \(\w+\)", line)], [])
        self.assertLessEqual(len(lines), 20)

    def test_a_plan_and_a_journal_that_are_bad(self) -> None:
        self.start("--seats", "5")
        spoilt = self.folder / "spoilt"
        spoilt.write_bytes(b"OTCJRNLC\0" + b"\xff" * 20)
        self.open("--seats", "1", "--roster", ROSTER, "--journal", spoilt)
        proof = "ok 1 proof 1 1 2026-01-01 free 1 0\n"
        answered = self.caller("A").ask("POST", "/api/check", {"notes": "", "proof": proof, "plan": "ok 1 plan 1 1 x"})
        self.assertEqual((answered.status, answered.content), (422, {"error": "fault", "told": "plan row 1: bad-line"}))
        figures = self.caller().ask("GET", "/metrics")
        self.assertEqual((figures.status, "delkwoan_journal_bytes" in figures.content), (200, False))
        self.assertEqual(self.logged(), "")


class InProcess(InService):
    """The gateway's application in this process, over a service, called without a network in between."""

    def setUp(self) -> None:
        super().setUp()
        if python_with(*MODULES) != sys.executable and Path(python_with(*MODULES)).resolve() != Path(sys.executable).resolve():
            raise unittest.SkipTest("this Python has not all modules of the gateway")

    def play(self, scene: Callable[[Any, Any], Any]) -> None:
        """Plays a scene with the gateway's parts and its application."""
        from argparse import Namespace

        from delkwoan.gateway import server, serving

        words: dict[str, Any] = {"service": ("127.0.0.1", self.port), "seats": 2, "wait": float(PATIENCE), "calls": str(self.folder / "calls")}
        absent: dict[str, Any] = {"idle": None, "patience": None, "journal": str(self.journal), "roster": str(ROSTER)}
        parts = serving.parts_of(Namespace(**words, **absent))._replace(stage=None)

        async def run() -> None:
            application = server.routed(parts)
            async with application.router.lifespan_context(application):
                await scene(parts, application)

        asyncio.run(run())

    def as_answered(self, parts: Any, chance: random.Random) -> None:
        """Has replies of example sessions, and refusals, take the place of a service's."""
        from delkwoan.gateway.connection import BadKey, Lost, Unsent
        from delkwoan.gateway.fields import Reply

        class Connection:
            position = 7

            @property
            def is_open(self) -> bool:
                return chance.random() < 0.5

            async def ask(self, lines: list[str], _: float | None = None) -> list[Reply]:
                if chance.random() < 0.02:
                    raise chance.choice([Lost, Unsent])()
                refused = chance.random() < 0.3
                return [Reply(chance.choice(REFUSED if refused else REPLIED.get(line.split(" ")[0], REFUSED)), 7) for line in lines]

            async def greet(self, name: str, key: str) -> None:
                if key not in (f"K{name}", "KO"):
                    raise BadKey
                if chance.random() < 0.02:
                    raise Unsent

            async def say(self, speaker: tuple[str, str], lines: list[str], seconds: float | None = None) -> list[Reply]:
                await self.greet(*speaker)
                return await self.ask(lines, seconds)

            async def probe(self) -> None:
                await self.ask([""])

        @asynccontextmanager
        async def seat(_: bool = False) -> AsyncIterator[Connection]:
            yield Connection()

        parts.desk.seats.seat = seat

    async def ask(self, application: Any, method: str, path: str, headers: dict[str, str], body: bytes) -> tuple[int, bytes]:
        """The status and the content of an answer."""
        from urllib.parse import quote, unquote

        fields = [(name.lower().encode(), value.encode("latin-1", "replace")) for name, value in headers.items()]
        scope: dict[str, Any] = {"type": "http", "asgi": {"version": "3.0"}, "http_version": "1.1", "method": method, "scheme": "http", "path": unquote(path)}
        scope |= {"raw_path": quote(path).encode(), "query_string": b"", "root_path": "", "headers": fields, "client": ("127.0.0.1", 1), "server": ("x", 1)}
        given = [{"type": "http.request", "body": body, "more_body": False}]
        got: list[dict[str, Any]] = []

        async def receive() -> dict[str, Any]:
            return given.pop() if given else {"type": "http.disconnect"}

        async def send(message: dict[str, Any]) -> None:
            got.append(message)

        await application(scope, receive, send)
        return int(got[0]["status"]), b"".join(it.get("body", b"") for it in got[1:])

    def test_a_fault_that_nobody_foresaw(self) -> None:
        """It is answered as JSON, and the next call is served."""
        self.start("--seats", "3")

        async def scene(parts: Any, application: Any) -> None:
            session = parts.sessions.open("A", "KA", False)
            headers = {"Authorization": f"Bearer {session.token}"}
            question, parts.desk.question = parts.desk.question, None
            with self.assertLogs("delkwoan.gateway", logging.ERROR) as logged:
                answered = await self.ask(application, "GET", "/api/statement", headers, b"")
            self.assertEqual((answered[0], json.loads(answered[1]), len(logged.output)), (500, {"error": "internal"}, 1))
            parts.desk.question = question
            self.assertEqual((await self.ask(application, "GET", "/api/statement", headers, b""))[0], 200)

        self.play(scene)

    def test_a_session_that_ends_while_its_key_is_refused(self) -> None:
        """Two calls with a key that is none any more: the second finds its session ended by the first."""
        self.start("--seats", "3")

        async def scene(parts: Any, application: Any) -> None:
            session = parts.sessions.open("A", "WRONG", False)
            headers = {"Authorization": f"Bearer {session.token}"}
            asked = [self.ask(application, "GET", "/api/statement", headers, b"") for _ in range(8)]
            self.assertEqual({status for status, _ in await asyncio.gather(*asked)}, {401})

        self.play(scene)

    def make_up(self, count: int, seed: int, with_service: bool) -> None:
        """None is answered 500, whatever its method, path, headers and body are, and none is left without an answer."""
        statuses: Counter[int] = Counter()
        chance = random.Random(seed)
        made = Made(chance)

        async def scene(parts: Any, application: Any) -> None:
            if not with_service:
                self.as_answered(parts, chance)
            logging.getLogger("delkwoan.gateway").setLevel(logging.ERROR)
            for number in range(count):
                sessions = [parts.sessions.open(name, f"K{name}" if name != "OPS" else "KO", name == "OPS") for name in ("A", "B", "OPS")]
                method, path, headers, body = made.call([session.token for session in sessions])
                status, content = await self.ask(application, method, path, headers, body)
                self.assertTrue(100 <= status < 500 or (status, content) == (503, b'{"error":"no-seat"}'), (number, method, path, body[:300], status, content))
                statuses[status] += 1
                for session in sessions:
                    parts.sessions.close(session)
                parts.guesses.rest.clear()
                parts.guesses.homes.clear()

        self.play(scene)
        self.assertEqual(sum(statuses.values()), count)
        self.assertTrue(all(statuses[it] for it in (200, 401, 404, 409, 422)), statuses)
        if "FUZZED" in os.environ:
            print(f"{count} made-up calls: {dict(sorted(statuses.items()))}")

    def test_made_up_calls(self) -> None:
        self.start("--seats", "3")
        self.make_up(200, 20261202, True)

    def test_many_made_up_calls(self) -> None:
        """Whatever a service answers."""
        self.make_up(FUZZED, 1, False)


WORDS: list[Any] = ["A", "B", "C", "OPS", "P", "1", "2", "0", "out", "in", "free", "hybrid", "conservative", "2026-03-02", "-", "", " ", "x" * 65, "\0", "\n"]
WORDS += ["\ud800", "é", "%0A", "a b", "01", "-1", "10" * 12, "9" * 400, "A\r\nBYE", "../..", "{cycle}", "\u2028", "99-99-99", "0000-00-00", "2026-02-30"]
VALUES: list[Any] = [*WORDS, None, True, False, 0, -1, 1, 7, 10**18, 10**19, 10**4000, 1.5, 1e308, [], {}, [[]], [{}], {"a": 1}, [None], ["A"]]
NAMES = ["seller", "buyer", "product", "amount", "day", "other", "side", "floor", "ceiling", "cycle", "mode", "rows", "potentials", "member", "value"]
NAMES += ["name", "key", "roster", "notes", "proof", "plan", "more", "", "\ud800"]
OWN = ["/api/session", "/api/cycle", "/api/rehearsal", "/api/votes", "/api/roster", "/api/check", "/healthz", "/metrics", "/", "/api", "/openapi.json", "/none", "//", "/page/x"]
REFUSED = ["no 7 3 bad-line", "no 7 11 unknown-trade", "no 7 14 not-operator", "no 7 16 wrong-cycle 1", "no 7 17 wrong-phase none", "no 7 21 cycle-broken 2"]
REFUSED += ["no 7 26 stopped", "no 7 27 disk-fault", "no 7 25 journal-full 268435456", "no 7 28 memory"]
REPLIED: dict[str, list[str]] = {}
"""The replies to each command in the example sessions."""
for file in EXAMPLES.glob("*.session"):
    replies = re.split(r"\n(?=ok |no )", file.with_suffix(".replies").read_text().rstrip("\n"))
    for line, reply in zip(file.read_text().splitlines(), replies):
        REPLIED.setdefault(line.split(" ")[0], []).append(reply)
RIGHT = {
    "roster": ROSTER.read_text(),
    "notes": "trade 1 A B P 10 2026-03-02 live -\n1 TOL B P out 9 -\n",
    "proof": "ok 9 proof 1 1 2026-01-01 free 5 4\npot P A 1\npot P B 0\npair P A B 0 none 10 10 - none\npair P B A 0 none 0 0 - none\n",
    "plan": "ok 9 plan 1 1 1\nend 1\n",
}


class Made:
    """Calls that are made up: near to right ones, and far from them."""

    def __init__(self, chance: random.Random) -> None:
        self.chance = chance

    def spoilt(self, text: str) -> str:
        """A text with a few of its words, lines or characters changed."""
        for _ in range(self.chance.randrange(4)):
            lines = text.split("\n")
            at = self.chance.randrange(len(lines))
            words = lines[at].split(" ")
            kind = self.chance.randrange(5)
            if kind == 0:
                words[self.chance.randrange(len(words))] = str(self.chance.choice(WORDS))
            elif kind == 1:
                words.insert(self.chance.randrange(len(words) + 1), str(self.chance.choice(WORDS)))
            elif kind == 2:
                del words[self.chance.randrange(len(words))]
            lines[at] = " ".join(words)
            if kind == 3:
                lines.insert(at, self.chance.choice(lines))
            elif kind == 4:
                del lines[at]
            text = "\n".join(lines)
        return text

    def fields(self, names: list[str]) -> dict[str, Any]:
        """Of some of these names, and perhaps others, values that mostly are words."""
        chance = self.chance
        some = [name for name in names if chance.random() < 0.9] + [chance.choice(NAMES) for _ in range(chance.randrange(-3, 2))]
        fields = {name: chance.choice(WORDS[:15] if chance.random() < 0.7 else VALUES) for name in some}
        for name in {"rows", "potentials"} & {*names}:
            fields[name] = [self.fields(["product", "seller", "buyer", "amount", "member", "value"][: chance.randrange(7)]) for _ in range(chance.randrange(3))]
        return fields

    def body(self, path: str, names: list[str]) -> bytes:
        chance = self.chance
        if chance.random() < 0.1:
            return chance.choice([b"", b"{", b"null", b"[" * 3000, b"1e999", b"NaN", b'"\\ud800"', chance.randbytes(40), b"\xff\xfe{}", b"9" * 5000])
        if path == "/api/check":
            given: dict[str, Any] = {name: self.spoilt(text) for name, text in RIGHT.items() if chance.random() < 0.95}
            return json.dumps({**given, **(self.fields([]) if chance.random() < 0.1 else {})}).encode()
        return json.dumps(self.fields(names)).encode()

    def call(self, tokens: list[str]) -> tuple[str, str, dict[str, str], bytes]:
        """A method, a path, headers and a body."""
        chance = self.chance
        call = chance.choice([*CALLS, POSTING])
        method, path = call.method, call.path
        names = [*call.body, *(["rows", "potentials"] if call is POSTING else [])]
        if chance.random() < 0.45:
            path = "/api/check" if chance.random() < 0.5 else chance.choice(OWN)
            method = {"/api/check": "POST", "/api/session": "POST", "/api/rehearsal": "POST"}.get(path, "GET")
            names = ["name", "key"] if path == "/api/session" else ["cycle"] if path == "/api/rehearsal" else []
        path = re.sub(r"\{\w+\}", lambda _: str(chance.choice(WORDS[:15] if chance.random() < 0.8 else WORDS)).encode("utf-8", "replace").hex("%"), path)
        path = re.sub(r"%?([0-9a-f]{2})(?=%|$|/)", r"%\1", path) if "%" in path else path
        if chance.random() < 0.03:
            method = chance.choice(["GET", "POST", "PUT", "DELETE", "HEAD", "OPTIONS", "PATCH", "TRACE", "CONNECT", ""])
        token = chance.choice(tokens) if chance.random() < 0.97 else chance.choice(["", "x", "é", "Bearer"])
        headers = {"Authorization": f"Bearer {token}"} if chance.random() < 0.97 else {}
        if chance.random() < 0.3:
            headers["Idempotency-Key"] = chance.choice(["1", "2", "k" * 128, "k" * 129, "", "é", "\n", str(chance.random())])
        return method, path, headers, self.body(path, names)


if __name__ == "__main__":
    unittest.main()
