"""A peer of the gateway that sends request behind request and takes few answers: it is read no further than it is answered, the
gateway's memory stays, and others are served."""

import os
import re
import socket
import threading
import unittest
from pathlib import Path
from unittest import mock

from gateways import MODULES, InGateway
from running import PATIENCE
from test_packaging import python_with

MOST = 100 << 20
"""The bytes that the gateway's memory may grow by: far more than it takes, and far less than it took when it read all."""
CALLS, SENDS = 20, 40
"""How many calls of another peer are answered meanwhile at least, and how often the first one sends as much as it can."""
MOST_OPEN = 32
"""The requests that the gateway may have of a peer, or a few more."""


def request(method: str, more: str = "", body: str = "") -> bytes:
    kind = "Content-Type: application/json\r\n" if body else ""
    return f"{method} /api/session HTTP/1.1\r\nHost: x\r\n{kind}{more}\r\n{body}".encode()


class Flood(threading.Thread):
    """Sends one request after another over a connection for as long as it may, and takes so many bytes of answers after each piece."""

    def __init__(self, port: int, request: bytes, takes: int) -> None:
        super().__init__(daemon=True)
        self.peer = socket.create_connection(("127.0.0.1", port), PATIENCE)
        self.peer.settimeout(0.05)
        self.text = memoryview(request * (1 + (1 << 18) // len(request)))
        self.takes = takes
        self.sends = 0
        self.is_over = threading.Event()

    def run(self) -> None:
        at = 0
        while not self.is_over.is_set():
            try:
                at = (at + self.peer.send(self.text[at:])) % len(self.text)
            except TimeoutError:
                pass
            except OSError:
                return
            self.sends += 1
            try:
                self.peer.recv(self.takes) if self.takes else None
            except OSError:
                pass

    def end(self) -> None:
        self.is_over.set()
        self.join()
        self.peer.close()


class Pipelines(InGateway):
    """With all that makes the gateway faster, of what this machine has."""

    WITHOUT = ""
    """A module that the gateway shall not find."""

    def setUp(self) -> None:
        python_with(*MODULES, self.WITHOUT or "httptools")
        super().setUp()
        self.start("--seats", "5")
        if self.WITHOUT:
            without = self.folder / "without"
            without.mkdir()
            (without / f"{self.WITHOUT}.py").write_text("raise ImportError\n")
            patch = mock.patch.dict(os.environ, PYTHONPATH=str(without))
            patch.start()
            self.addCleanup(patch.stop)
        self.open()
        self.member = self.caller("A")

    def memory(self, name: str = "VmRSS") -> int:
        """The gateway's memory, or the most that it had (VmHWM)."""
        assert self.gateway is not None
        found = re.search(rf"^{name}:\s+(\d+) kB$", Path(f"/proc/{self.gateway.pid}/status").read_text(), re.MULTILINE)
        assert found is not None
        return 1024 * int(found[1])

    def floods(self, request: bytes, takes: int) -> None:
        """It sends on for as long as others call, and is not ended."""
        before, calls = self.memory(), 0
        flood = Flood(self.gate, request, takes)
        self.addCleanup(flood.end)
        flood.start()
        while calls < CALLS or flood.sends < SENDS:
            self.assertEqual(self.member.say("NETS P").status, 200)
            self.assertLess(self.memory("VmHWM") - before, MOST)
            calls += 1
        self.assertTrue(flood.is_alive())
        self.assertLess(self.figure("delkwoan_requests"), MOST_OPEN)

    def figure(self, name: str) -> float:
        found = re.search(rf"^{name} (\S+)$", str(self.caller().ask("GET", "/metrics").content), re.MULTILINE)
        assert found is not None
        return float(found[1])

    def test_one_that_takes_no_answer(self) -> None:
        self.floods(request("GET"), 0)

    def test_one_that_takes_few(self) -> None:
        self.floods(request("POST", "Content-Length: 2\r\n", "{}"), 64)

    def test_one_that_takes_all(self) -> None:
        self.floods(request("POST", "Transfer-Encoding: chunked\r\n", "1\r\n{\r\n1\r\n}\r\n0\r\n\r\n"), 1 << 20)

    def test_a_member_whose_calls_wait_for_the_service(self) -> None:
        """The next is read while one waits."""
        affirm = request("POST", f"Authorization: Bearer {self.member.token}\r\nContent-Length: 2\r\n", "{}")
        self.floods(affirm.replace(b"/api/session", b"/api/trades/9/affirm"), 1 << 20)


class WithoutHttptools(Pipelines):
    """With the other reader of HTTP, which is always there."""

    WITHOUT = "httptools"


class WithoutUvloop(Pipelines):
    """With Python's own loop, where the one above has the faster one."""

    WITHOUT = "uvloop"


if __name__ == "__main__":
    unittest.main()
