"""Peers of the gateway that say nothing, half of something, or take nothing: others are served as before, and no seat is held."""

import re
import resource
import socket
import time
import unittest

from gateways import MODULES, Caller, InGateway
from running import PATIENCE
from test_bad_input import reset
from test_packaging import python_with

SILENT = 1_000
PATIENT = 2
"""The seconds of a gateway's patience: more than a busy machine takes for what is not silent."""
HALVES = [b"G", b"GET /healthz HTTP/1.1\r\nHost: x\r\n", b"POST /api/session HTTP/1.1\r\nHost: x\r\nContent-Type: application/json\r\nContent-Length: 40\r\n\r\n{"]
"""What is sent of a request: its first byte, a part of its head, and its head with a part of its body."""
UPGRADE = b"GET /api/follow HTTP/1.1\r\nHost: x\r\nUpgrade: websocket\r\nConnection: Upgrade\r\n"
UPGRADE += b"Sec-WebSocket-Version: 13\r\nSec-WebSocket-Key: dGhlIHNhbXBsZSBub25jZQ==\r\n\r\n"


def many_files() -> None:
    """Lets this process have a connection to each silent peer."""
    least, most = resource.getrlimit(resource.RLIMIT_NOFILE)
    if most < 2 * SILENT:
        raise unittest.SkipTest("too few open files")
    resource.setrlimit(resource.RLIMIT_NOFILE, (max(least, min(most, 4 * SILENT)), most))


class Silence(InGateway):
    def connect(self, text: bytes = b"") -> socket.socket:
        connection = socket.create_connection(("127.0.0.1", self.gate), PATIENCE)
        self.addCleanup(connection.close)
        connection.sendall(text)
        return connection

    def busy(self) -> float:
        """How many seats the calls have."""
        found = re.search(r"^delkwoan_seats_busy (\S+)$", str(self.caller().ask("GET", "/metrics").content), re.MULTILINE)
        assert found is not None
        return float(found[1])

    def slowest(self, caller: Caller, first: int) -> float:
        """The seconds of the slowest of a hundred trades, from this number on."""
        slowest = 0.0
        for number in range(first, first + 100):
            begun = time.monotonic()
            self.assertEqual(caller.say(f"TRADE A B P {number} 2026-03-02").text, f"ok {number} trade {number}")
            slowest = max(slowest, time.monotonic() - begun)
        return slowest

    def test_a_thousand_silent_peers_beside_normal_use(self) -> None:
        """No call waits for a seat that they have; how long one takes at all is the machine's matter, and is measured before."""
        many_files()
        self.start("--seats", "5")
        self.open()
        caller = self.caller("A")
        alone = self.slowest(caller, 1)
        silent = [self.connect() for _ in range(SILENT)] + [self.connect(half) for half in HALVES * 20]
        self.assertLess(self.slowest(caller, 101), 5 + 10 * alone)
        self.assertEqual(self.busy(), 0)
        self.assertEqual(len(silent), SILENT + 60)

    def test_each_is_ended_in_its_time(self) -> None:
        """Those that say nothing, or half of a request; a body that does not come is told so. One that is served is not ended."""
        self.start("--seats", "5")
        self.open("--patience", str(PATIENT))
        caller = self.caller("A")
        self.assertEqual(self.connect().recv(64), b"")
        self.assertEqual([self.connect(half).recv(12) for half in HALVES], [b"", b"", b"HTTP/1.1 408"])
        self.hold()
        time.sleep(0.1)
        assert self.service is not None
        waiting = self.connect(f"GET /api/nets/P HTTP/1.1\r\nHost: x\r\nAuthorization: Bearer {caller.token}\r\n\r\n".encode())
        time.sleep(4 * PATIENT)
        self.service.send_signal(18)
        self.assertEqual(waiting.recv(12), b"HTTP/1.1 200")

    def test_pages_that_are_gone_before_they_listen(self) -> None:
        """Each asks for a WebSocket, and is gone at once or a moment later. Others are served, and no log is filled with it."""
        python_with(*MODULES, "websockets")
        self.start("--seats", "5")
        self.open()
        for count in range(300):
            page = self.connect(UPGRADE)
            time.sleep(count % 4 / 1000)
            (reset if count % 3 else socket.socket.close)(page)
        self.assertEqual(self.caller("A").say("NETS P").status, 200)
        assert self.gateway is not None
        self.gateway.terminate()
        self.assertEqual((self.gateway.wait(PATIENCE), self.logged()), (0, ""))

    def test_one_that_takes_nothing_of_an_answer(self) -> None:
        """Its answers fill all room. It has no seat meanwhile, and is ended."""
        self.start("--seats", "5")
        self.open("--patience", str(PATIENT))
        caller = self.caller("A")
        for number in range(1, 401):
            caller.say(f"TRADE A B P {number} 2026-03-02")
        greedy = socket.socket()
        self.addCleanup(greedy.close)
        greedy.setsockopt(socket.SOL_SOCKET, socket.SO_RCVBUF, 4096)
        greedy.connect(("127.0.0.1", self.gate))
        greedy.settimeout(1)
        asked = f"GET /api/statement HTTP/1.1\r\nHost: x\r\nAuthorization: Bearer {caller.token}\r\n\r\n".encode()
        greedy.sendall(asked * 200)
        end = time.monotonic() + PATIENCE
        while self.busy():
            self.assertLess(time.monotonic(), end)
        caller.close()
        self.assertEqual(caller.say("NETS P").status, 200)
        while time.monotonic() < end:
            try:
                greedy.sendall(asked)
            except ConnectionError:
                return
            except OSError:
                pass
            time.sleep(0.2)
        self.fail("it is not ended")


if __name__ == "__main__":
    unittest.main()
