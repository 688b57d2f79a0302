"""The command compress-gateway: a page and an API over HTTP in front of a service, for members and the operator."""

import importlib.util
import logging
import os
import resource
import socket
from argparse import Namespace
from typing import NoReturn

from ..address import Address, named_address
from ..ending import Stop, run
from ..wait_ready import MOST_SEATS, seconds_of
from ..words import Once, Words, plain
from .logs import Sparing

PACKAGES = {"starlette": "starlette", "uvicorn": "uvicorn", "prometheus_client": "prometheus-client"}
"""The modules that are wanted, and their packages."""

def seats_of(text: str) -> int:
    if not (text.isascii() and text.isdigit() and 0 < int(text) <= MOST_SEATS):
        raise ValueError(text)
    return int(text)


def words() -> Words:
    parser = Words(
        "compress-gateway",
        "A page and an API over HTTP in front of a service: calls of many members over few connections, each with a seat of the service. "
        "`/` is the page, `/api` lists the calls, and `/openapi.json` has their forms.",
    )
    seats = "how many connections to the service to have, each of which takes a seat; 3 where it is absent"
    parser.add_argument("--seats", metavar="N", action=Once, type=seats_of, help=seats)
    wait = "how long a call may wait for a seat; 10 where it is absent"
    parser.add_argument("--wait", metavar="SECONDS", action=Once, type=seconds_of, help=wait)
    idle = "how long a session may go without a call; 1800 where it is absent"
    parser.add_argument("--idle", metavar="SECONDS", action=Once, type=seconds_of, help=idle)
    patience = "how long a peer may take for a request, and three times as long for an answer or between requests; 20 where it is absent"
    parser.add_argument("--patience", metavar="SECONDS", action=Once, type=seconds_of, help=patience)
    journal = "the service's journal, whose figures are shown where it may be read; with a roster that has keys, proposals are rehearsed over copies of it"
    parser.add_argument("--journal", metavar="FILE", action=Once, type=plain, help=journal)
    roster = "a roster, whose names, roles and products the page shows to who is signed in; no key of it goes out"
    parser.add_argument("--roster", metavar="FILE", action=Once, type=plain, help=roster)
    certificate = "the certificate for TLS, with those between it and its root"
    parser.add_argument("--certificate", metavar="FILE", action=Once, type=plain, help=certificate)
    parser.add_argument("--key", metavar="FILE", action=Once, type=plain, help="the certificate's private key")
    authority = "the certificates that have to have signed those of the clients, without which nobody is let in"
    parser.add_argument("--clients", metavar="FILE", action=Once, type=plain, help=authority)
    parser.add_argument("service", metavar="HOST:PORT", type=named_address, help="where the service listens")
    parser.add_argument("address", metavar="HOST:PORT", type=named_address, help="where to listen")
    calls = "the file of calls with an Idempotency-Key; it is made where there is none"
    parser.add_argument("calls", metavar="FILE", type=plain, help=calls)
    return parser


def read_words(line: list[str]) -> Namespace:
    parser = words()
    given = parser.parse_args(line)
    if (given.certificate is None) != (given.key is None) or (given.clients and not given.certificate):
        parser.error("a certificate with its key")
    return given


def need() -> None:
    lacking = {module: package for module, package in PACKAGES.items() if importlib.util.find_spec(module) is None}
    if lacking:
        packages = " ".join(f"python3-{package}" for package in lacking.values())
        raise Stop(11, f"no {', '.join(lacking)}: install {packages}, for /usr/bin/python3")


def many_files() -> None:
    """Lets as many files be open as the system allows, where it may be asked: each peer is one."""
    try:
        _, most = resource.getrlimit(resource.RLIMIT_NOFILE)
        resource.setrlimit(resource.RLIMIT_NOFILE, (most, most))
    except (OSError, ValueError):
        pass


def listener(address: Address) -> socket.socket:
    try:
        family = socket.getaddrinfo(*address, type=socket.SOCK_STREAM, flags=socket.AI_PASSIVE)[0][0]
        return socket.create_server(address, family=family, backlog=2048)
    except (OSError, ValueError):
        raise Stop(10, "listener fault") from None


def main(line: list[str]) -> int:
    given = read_words(line)
    need()
    logging.basicConfig(format="%(asctime)s %(levelname)s %(message)s", level=logging.WARNING)
    for handler in logging.getLogger().handlers:
        handler.addFilter(Sparing())
    os.umask(0o077)
    many_files()
    bound = listener(given.address)
    from .serving import serve

    serve(given, bound)
    return 0


def command() -> NoReturn:
    run(main)
