"""TLS in front of the calls: by the gateway itself, and by the HAProxy file, with certificates of the clients."""

import os
import shutil
import socket
import ssl
import subprocess
import time
import unittest
from pathlib import Path

from gateways import Caller, InGateway
from running import PATIENCE, ROOT, run
from serving import free_port

FILE = ROOT / "packaging/haproxy.cfg"
SILENCE = 30
"""The seconds of the file's `timeout client`."""
MOST_ASKED = 50
"""How many requests are made until two came within the proxy's ten seconds."""
HAPROXY = shutil.which("haproxy", path=f"{os.environ.get('PATH', '')}:/usr/sbin")


class Certificates:
    """An authority of its own, with certificates for the server, for a client, and for a client of another authority."""

    def __init__(self, folder: Path) -> None:
        self.folder = folder
        if shutil.which("openssl") is None:
            raise unittest.SkipTest("no openssl")
        for authority in ("authority", "other"):
            self.openssl("req", "-x509", *self.fresh(authority), "-subj", f"/CN={authority}", "-days", "2")
        self.sign("server", "authority", "subjectAltName=IP:127.0.0.1")
        self.sign("client", "authority", "extendedKeyUsage=clientAuth")
        self.sign("stranger", "other", "extendedKeyUsage=clientAuth")

    def openssl(self, *words: str) -> None:
        done = run(["openssl", *words], folder=self.folder)
        if done.status:
            raise RuntimeError(done.errors.decode())

    def fresh(self, name: str) -> list[str]:
        return ["-newkey", "ec", "-pkeyopt", "ec_paramgen_curve:prime256v1", "-nodes", "-keyout", f"{name}.key", "-out", f"{name}.pem"]

    def sign(self, name: str, authority: str, extension: str) -> None:
        signer = ["-CA", f"{authority}.pem", "-CAkey", f"{authority}.key"]
        self.openssl("req", "-x509", *self.fresh(name), "-subj", f"/CN={name}", "-days", "2", "-addext", extension, *signer)

    def __getitem__(self, name: str) -> Path:
        return self.folder / name

    def context(self, client: str = "") -> ssl.SSLContext:
        """What a client trusts, and its certificate if it has one."""
        context = ssl.create_default_context(cafile=str(self["authority.pem"]))
        if client:
            context.load_cert_chain(self[f"{client}.pem"], self[f"{client}.key"])
        return context


class Secured(InGateway):
    def setUp(self) -> None:
        super().setUp()
        self.certificates = Certificates(self.folder)
        self.start("--seats", "5")

    def is_let_in(self, port: int, client: str) -> bool:
        caller = Caller(port, self.certificates.context(client))
        self.addCleanup(caller.close)
        try:
            return caller.sign_in("A").status == 201
        except (OSError, ssl.SSLError):
            return False

    def wait_listening(self, port: int) -> None:
        end = time.monotonic() + PATIENCE
        while time.monotonic() < end:
            try:
                socket.create_connection(("127.0.0.1", port), PATIENCE).close()
                return
            except OSError:
                time.sleep(0.05)
        self.fail("nobody listens")


class Itself(Secured):
    def test_by_itself(self) -> None:
        words: list[str | Path] = ["--certificate", self.certificates["server.pem"], "--key", self.certificates["server.key"]]
        self.context = self.certificates.context("client")
        self.open(*words, "--clients", self.certificates["authority.pem"])
        self.assertEqual([self.is_let_in(self.gate, client) for client in ("client", "", "stranger")], [True, False, False])
        with socket.create_connection(("127.0.0.1", self.gate), PATIENCE) as plain:
            plain.sendall(b"GET /healthz HTTP/1.1\r\nHost: x\r\n\r\n")
            self.assertNotIn(b"position", plain.recv(4096))

    def test_a_certificate_that_is_none(self) -> None:
        words: list[str | Path] = [self.python, ROOT / "tools/gateway", "--certificate", self.folder / "none", "--key", self.folder / "none", self.address]
        ran = run([*words, f"127.0.0.1:{self.gate}", self.folder / "calls"])
        self.assertEqual((ran.status, ran.errors), (11, b"file fault\n"))


class Proxied(Secured):
    def proxy(self, **more: str) -> int:
        """HAProxy by its file and these settings, in front of the gateway; where it listens."""
        if HAPROXY is None:
            raise unittest.SkipTest("no haproxy")
        port = free_port()
        both = self.certificates["server.both"]
        both.write_bytes(self.certificates["server.pem"].read_bytes() + self.certificates["server.key"].read_bytes())
        settings = {"LISTEN": f"127.0.0.1:{port}", "GATEWAY": f"127.0.0.1:{self.gate}", "CERTIFICATE": str(both)}
        settings |= {"CLIENTS": str(self.certificates["authority.pem"]), "PATH": os.environ.get("PATH", ""), "PATIENCE": f"{PATIENCE}s", **more}
        proxy = subprocess.Popen([HAPROXY, "-f", FILE], env=settings, stdout=subprocess.DEVNULL, stderr=subprocess.DEVNULL)
        self.addCleanup(proxy.wait)
        self.addCleanup(proxy.kill)
        self.wait_listening(port)
        return port

    def test_by_the_file(self) -> None:
        self.open()
        port = self.proxy()
        self.assertEqual([self.is_let_in(port, client) for client in ("client", "", "stranger")], [True, False, False])
        caller = Caller(port, self.certificates.context("client"))
        self.addCleanup(caller.close)
        self.assertEqual(caller.sign_in("A").status, 201)
        self.assertEqual(caller.say("TRADE A B P 10 2026-03-02").text, "ok 1 trade 1")
        self.assertEqual(caller.ask("GET", "/metrics").status, 404)
        self.assertEqual(caller.sign_in("A", "WRONG").status, 401)
        self.assertIn("wrong key: name A, address 127.0.0.1\n", self.logged())

    def test_an_address_that_a_client_makes_up_is_not_believed(self) -> None:
        """Neither before the proxy, which sets it anew, nor at the gateway, whose wrong keys count for the proxy's peer."""
        self.open()
        caller = Caller(self.proxy(), self.certificates.context("client"))
        self.addCleanup(caller.close)
        caller.http.request("POST", "/api/session", b'{"name": "A", "key": "WRONG"}', {"X-Forwarded-For": "10.1.2.3", "Content-Type": "application/json"})
        self.assertEqual(caller.http.getresponse().status, 401)
        self.assertNotIn("10.1.2.3", self.logged())

    def connected(self, port: int) -> ssl.SSLSocket:
        """A connection through the proxy, over which nothing has gone yet."""
        plain = socket.create_connection(("127.0.0.1", port), PATIENCE)
        self.addCleanup(plain.close)
        secured = self.certificates.context("client").wrap_socket(plain, server_hostname="127.0.0.1")
        self.addCleanup(secured.close)
        return secured

    def test_a_peer_that_is_slow_with_its_head(self) -> None:
        """It is ended long before one that is silent at all."""
        self.open()
        slow = self.connected(self.proxy(PATIENCE="1s"))
        slow.settimeout(SILENCE - 5)
        slow.sendall(b"GET /healthz HTTP/1.1\r\n")
        self.assertEqual(slow.recv(12), b"HTTP/1.1 408")

    def test_one_connection_of_an_address_too_many(self) -> None:
        """Three are let in, as soon as the one that looked for the proxy is gone, and then none until one of them is gone."""
        self.open()
        port = self.proxy(MOST_CONNECTIONS="3")
        peers = [self.let_in(port) for _ in range(3)]
        for _ in range(3):
            with self.assertRaises(OSError):
                self.connected(port)
        peers[0].close()
        self.let_in(port)

    def let_in(self, port: int) -> ssl.SSLSocket:
        """A connection, once the proxy has seen that earlier ones are gone."""
        end = time.monotonic() + PATIENCE
        while True:
            try:
                return self.connected(port)
            except OSError:
                self.assertLess(time.monotonic(), end)
                time.sleep(0.05)

    def test_too_many_requests(self) -> None:
        """Of two in ten seconds the second is denied, however slow this machine is: it is asked until two came so."""
        self.open()
        caller = Caller(self.proxy(MOST_REQUESTS="1"), self.certificates.context("client"))
        self.addCleanup(caller.close)
        answers = [caller.ask("GET", "/healthz").status]
        while answers[-1] == 200 and len(answers) < MOST_ASKED:
            answers.append(caller.ask("GET", "/healthz").status)
        self.assertEqual((answers[0], answers[-1]), (200, 429))


if __name__ == "__main__":
    unittest.main()
