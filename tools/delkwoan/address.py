"""Addresses of a service, as `127.0.0.1:7000` or `[::1]:7000`."""

from typing import NamedTuple


class Address(NamedTuple):
    """A host's name or number, and a port."""

    host: str
    port: int


def address_of(text: str) -> Address | None:
    """The address that a text names; None where it is out of form."""
    host, colon, port = text.rpartition(":")
    if not host or not colon or not (port.isascii() and port.isdigit()) or len(port) > 5 or int(port) > 65535:
        return None
    is_bracketed = host.startswith("[") and host.endswith("]")
    if (":" in host) != is_bracketed:
        return None
    return Address(host[1:-1] if is_bracketed else host, int(port))


def named_address(text: str) -> Address:
    """The address that a text names; a ValueError where it is out of form."""
    address = address_of(text)
    if address is None:
        raise ValueError(text)
    return address
