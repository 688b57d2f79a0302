"""What pages of other origins may do at the gateway, what each answer says of itself, and what is left to a session whose key was changed."""

import base64
import os
import socket
import struct
import unittest
from typing import NamedTuple

from gateways import InGateway
from running import EXAMPLES, PATIENCE
from test_packaging import python_with

SIGN_IN = b'{"name": "A", "key": "%s"}'
TYPE = "application/json"
NOT_SIGNED_IN = 4401


class Case(NamedTuple):
    """A sign-in with this Origin and Content-Type, where HERE is the gateway's own host and port; and its status and error."""

    origin: str
    kind: str
    status: int
    error: str = ""


CASES = [
    Case("", TYPE, 201),
    Case("http://HERE", TYPE, 201),
    Case("https://HERE", TYPE, 201),
    Case("", "Application/JSON; charset=utf-8", 201),
    Case("http://evil.example", TYPE, 403, "other-origin"),
    Case("http://HERE.evil.example", TYPE, 403, "other-origin"),
    Case("http://127.0.0.1:1", TYPE, 403, "other-origin"),
    Case("null", TYPE, 403, "other-origin"),
    Case("http://[", TYPE, 403, "other-origin"),
    Case("http://evil.example", "text/plain", 403, "other-origin"),
    Case("", "text/plain", 415, "not-json"),
    Case("", "application/x-www-form-urlencoded", 415, "not-json"),
    Case("", "multipart/form-data; boundary=x", 415, "not-json"),
    Case("", "", 415, "not-json"),
]
ANSWERS: list[tuple[str, str, dict[str, str]]] = [
    *(("GET", path, dict[str, str]()) for path in ("/", "/page/main.js", "/api", "/openapi.json", "/healthz", "/metrics", "/none", "/api/statement")),
    ("DELETE", "/api/trades", {}),
    ("POST", "/api/session", {"Origin": "http://evil.example"}),
]
"""Calls, with any answer: also one that is not found, not allowed, not signed in, or refused."""


class Following:
    """A page that follows the history over a WebSocket."""

    def __init__(self, port: int, origin: str = "") -> None:
        self.socket = socket.create_connection(("127.0.0.1", port), PATIENCE)
        self.file = self.socket.makefile("rb")
        key = base64.b64encode(os.urandom(16)).decode()
        lines = ["GET /api/follow HTTP/1.1", f"Host: 127.0.0.1:{port}", "Upgrade: websocket", "Connection: Upgrade"]
        lines += ["Sec-WebSocket-Version: 13", f"Sec-WebSocket-Key: {key}", *([f"Origin: {origin}"] if origin else []), "", ""]
        self.socket.sendall("\r\n".join(lines).encode())
        self.status = int(self.file.readline().split()[1])
        while self.file.readline().strip():
            pass

    def say(self, text: str) -> None:
        """One frame, masked by zeros."""
        self.socket.sendall(bytes([0x81, 0x80 | len(text)]) + bytes(4) + text.encode())

    def closed_by(self) -> int:
        """The code of the close frame, behind whatever comes before it."""
        while True:
            head = self.file.read(2)
            content = self.file.read(head[1] & 0x7F)
            if head[0] & 0xF == 8:
                code: int = struct.unpack("!H", content[:2])[0]
                return code


class Origins(InGateway):
    def test_sign_ins_sockets_and_headers(self) -> None:
        self.start("--seats", "5")
        self.open()
        here = f"127.0.0.1:{self.gate}"
        caller = self.caller()
        for case in CASES:
            sent = {name: value for name, value in (("Origin", case.origin.replace("HERE", here)), ("Content-Type", case.kind)) if value}
            for key in (b"KA", b"WRONG"):
                if key == b"KA" or case.status != 201:
                    with self.subTest(case=case, key=key):
                        caller.http.request("POST", "/api/session", SIGN_IN % key, sent)
                        response = caller.http.getresponse()
                        content = response.read().decode()
                        self.assertEqual((response.status, f'"error":"{case.error}"' in content), (case.status, bool(case.error)), content)
        self.assertNotIn("wrong key", self.logged())
        for method, path, headers in ANSWERS:
            with self.subTest(method=method, path=path):
                caller.http.request(method, path, headers=headers)
                response = caller.http.getresponse()
                response.read()
                told = [response.headers[name] for name in ("X-Content-Type-Options", "Cache-Control")]
                self.assertEqual((told, "frame-ancestors 'none'" in str(response.headers["Content-Security-Policy"])), (["nosniff", "no-store"], True))
        python_with("websockets")
        for origin, status in (("", 101), (f"http://{here}", 101), ("http://evil.example", 403), ("null", 403)):
            with self.subTest(origin=origin):
                following = Following(self.gate, origin)
                self.addCleanup(following.socket.close)
                self.assertEqual(following.status, status)


class ChangedKeys(InGateway):
    def test_a_session_ends_with_its_key(self) -> None:
        """Whatever it asks next, and if it only listens, also where the gateway could answer by itself."""
        self.roster = self.folder / "roster.csv"
        self.roster.write_bytes((EXAMPLES / "roster.csv").read_bytes())
        self.start("--seats", "6")
        self.open("--seats", "2", "--roster", self.roster)
        callers = {name: self.caller(name) for name in ("A", "B", "C", "OPS")}
        following = Following(self.gate)
        self.addCleanup(following.socket.close)
        following.say(self.caller("A").token)
        calls = [("OPS", "GET", "/api/votes"), ("A", "GET", "/api/session"), ("B", "GET", "/api/roster"), ("C", "POST", "/api/check")]
        self.assertEqual([callers[name].ask(method, path).status for name, method, path in calls], [200, 200, 200, 422])
        self.kill()
        self.roster.write_text(self.roster.read_text().replace(",K", ",NEW"))
        self.start("--seats", "6")
        self.assertEqual([callers[name].ask(method, path).status for name, method, path in calls], [401] * 4)
        self.assertEqual(following.closed_by(), NOT_SIGNED_IN)


if __name__ == "__main__":
    unittest.main()
