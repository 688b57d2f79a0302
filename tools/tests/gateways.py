"""A gateway in front of a service, for the tests, and who calls it over HTTP."""

import http.client
import json
import ssl
import subprocess
import sys
import time
from email.message import Message
from pathlib import Path
from typing import Any, Callable, NamedTuple

from running import PATIENCE, TOOLS
from serving import ROSTER, InService, free_port
from test_packaging import python_with

sys.path.insert(0, str(TOOLS))

from delkwoan.gateway.calls import CALLS, POSTING, Call

MODULES = ("starlette", "uvicorn", "prometheus_client")


class Answered(NamedTuple):
    """An answer's status, its headers, and its content as JSON, or else as text."""

    status: int
    headers: Message
    content: Any

    @property
    def text(self) -> str:
        """The reply's text."""
        return str(self.content["reply"])

    @property
    def error(self) -> str:
        return str(self.content["error"])


def call_of(line: str, is_operator: bool = False) -> Call:
    """The call that a line is."""
    verb = line.split(" ")[0]
    found = [call for call in (*CALLS, POSTING) if call.verb == verb]
    return found[-1] if is_operator else found[0]


class Caller:
    """A connection to a gateway, and the token of its session once it has signed in."""

    def __init__(self, port: int, context: ssl.SSLContext | None = None) -> None:
        self.http = http.client.HTTPConnection("127.0.0.1", port, timeout=PATIENCE)
        if context is not None:
            self.http = http.client.HTTPSConnection("127.0.0.1", port, timeout=PATIENCE, context=context)
        self.token = ""
        self.name = ""

    def close(self) -> None:
        self.http.close()

    def ask(self, method: str, path: str, body: Any = None, key: str = "") -> Answered:
        headers = {"Authorization": f"Bearer {self.token}"} if self.token else {}
        headers |= {"Idempotency-Key": key} if key else {}
        headers |= {} if body is None else {"Content-Type": "application/json"}
        sent = body if isinstance(body, bytes) or body is None else json.dumps(body).encode()
        try:
            self.http.request(method, path, sent, headers)
            response = self.http.getresponse()
            content = response.read()
        except (OSError, http.client.HTTPException):
            self.http.close()
            raise
        is_json = response.headers.get_content_type() == "application/json"
        return Answered(response.status, response.headers, json.loads(content) if is_json else content.decode())

    def sign_in(self, name: str, key: str | None = None) -> Answered:
        answered = self.ask("POST", "/api/session", {"name": name, "key": f"K{name}" if key is None else key})
        if answered.status == 201:
            self.token, self.name = answered.content["token"], name
        return answered

    def say(self, line: str, key: str = "", more: dict[str, Any] | None = None) -> Answered:
        """The answer to the call that a line is; more fields go into its body."""
        call = call_of(line, self.name == "OPS")
        fields = dict(zip(call.words, line.split(" ")[1:]))
        body: dict[str, Any] = {name: None if fields[name] == "-" else fields[name] for name in call.body}
        return self.ask(call.method, call.path.format(**fields), None if call.is_question else {**body, **(more or {})}, key)


class InGateway(InService):
    """Tests with a service and a gateway in front of it, from `open` on."""

    python: str

    @classmethod
    def setUpClass(cls) -> None:
        super().setUpClass()
        cls.python = python_with(*MODULES)

    def setUp(self) -> None:
        super().setUp()
        self.gate = free_port()
        self.roster = ROSTER
        self.context: ssl.SSLContext | None = None
        self.gateway: subprocess.Popen[bytes] | None = None
        self.addCleanup(self.shut)

    def words(self, journal: Path | None = None) -> list[str | Path]:
        program, form, _, *rest = super().words(journal)
        return [program, form, self.roster, *rest]

    @property
    def service_address(self) -> str:
        """Where the gateway finds the service."""
        return self.address

    def open(self, *options: str | Path) -> None:
        """Starts a gateway, which gives up no peer and no call on a slow machine unless it is told, and waits until a call gets a seat."""
        given = {"--seats": "4", "--patience": str(PATIENCE), "--wait": str(PATIENCE)}
        absent = [word for option in given if option not in options for word in (option, given[option])]
        words: list[str | Path] = [self.python, TOOLS / "gateway", *absent, *options, self.service_address, f"127.0.0.1:{self.gate}", self.folder / "calls"]
        self.errors = open(self.folder / "errors", "ab")
        self.addCleanup(self.errors.close)
        self.gateway = subprocess.Popen(words, stdin=subprocess.DEVNULL, stdout=subprocess.DEVNULL, stderr=self.errors)
        self.wait_healthy()

    def wait_healthy(self) -> None:
        end = time.monotonic() + PATIENCE
        while True:
            try:
                if self.caller().ask("GET", "/healthz").status == 200:
                    return
            except OSError:
                pass
            assert self.gateway is not None
            self.assertTrue(self.gateway.poll() is None and time.monotonic() < end, self.logged())
            time.sleep(0.05)

    def seated(self, ask: Callable[[], Answered]) -> Answered:
        """What is answered over a seat: it is asked again where none was free in the time that the gateway was given."""
        end = time.monotonic() + PATIENCE
        while (answered := ask()).status == 503:
            self.assertLess(time.monotonic(), end, answered)
        return answered

    def shut(self) -> None:
        if self.gateway is not None:
            self.gateway.kill()
            self.gateway.wait()
            self.gateway = None

    def logged(self) -> str:
        return (self.folder / "errors").read_text()

    def caller(self, name: str = "") -> Caller:
        """Who calls the gateway, signed in where a name is given."""
        caller = Caller(self.gate, self.context)
        self.addCleanup(caller.close)
        if name:
            answered = caller.sign_in(name, "KO" if name == "OPS" else f"K{name}")
            self.assertEqual(answered.status, 201, answered)
        return caller
