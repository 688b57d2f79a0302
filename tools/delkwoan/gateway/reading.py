"""How far a peer is read ahead of its answers: the gateway has a few requests of it at a time, whatever it sends.

uvicorn reads on after each answer, and makes requests of all that it has read. So a peer that sends faster than it is answered would
fill the memory. Here what was read is taken in by pieces, each after the requests before it are answered, and nothing is read until then.
"""

import asyncio
from typing import Any

from uvicorn.protocols.http.auto import AutoHTTPProtocol
from uvicorn.protocols.http.flow_control import HIGH_WATER_LIMIT, FlowControl

READ = 16_384
"""The bytes that are read at once; uvloop reads up to 262,144."""
PIECE = 256
"""The bytes that httptools gets at once if requests may end in them: it makes a request of each, and can't stop after one."""
MOST_HEAD = 16_384
"""The bytes of a request's head, or of the fields after its body; h11 has the same bound."""

NOTHING = memoryview(b"")

room = memoryview(bytearray(READ))
"""Where each read goes, of which its protocol makes a copy at once."""


class Flow(FlowControl):
    """Whether a peer is read from and written to. Nothing is read while something that was read before waits."""

    def __init__(self, transport: asyncio.Transport) -> None:
        super().__init__(transport)
        self.transport = transport
        self.is_held = False

    def hold(self) -> None:
        self.is_held = self.read_paused = True
        self.transport.pause_reading()

    def let_go(self) -> None:
        self.is_held = False
        self.resume_reading()

    def resume_reading(self) -> None:
        if not self.is_held:
            super().resume_reading()


class OneByOne(asyncio.BufferedProtocol):
    """What is put before a protocol of uvicorn, which has its `cycle`: the request that was taken in last."""

    transport: asyncio.Transport
    flow: Flow
    cycle: Any
    unread = NOTHING

    def connection_made(self, transport: asyncio.BaseTransport) -> None:
        super().connection_made(transport)
        self.flow = Flow(self.transport)

    def connection_lost(self, fault: Exception | None) -> None:
        self.unread = NOTHING
        super().connection_lost(fault)

    def get_buffer(self, _: int) -> memoryview:
        return room

    def buffer_updated(self, size: int) -> None:
        self.data_received(bytes(room[:size]))

    def data_received(self, data: bytes) -> None:
        """Keeps what was read; uvloop reads by itself, and more at once."""
        self.unread = memoryview(bytes(self.unread) + data)
        self.read_on()

    @property
    def is_busy(self) -> bool:
        """Whether a whole request waits for its answer."""
        return self.cycle is not None and not self.cycle.more_body and not self.cycle.response_complete

    @property
    def piece(self) -> int:
        """How many bytes may be taken in at once."""
        return len(self.unread)

    def read_on(self) -> None:
        """Takes in what was read, up to a request that has to be answered before the next one."""
        while self.unread and not self.is_busy:
            size = self.piece
            piece, self.unread = self.unread[:size], self.unread[size:]
            self.take(bytes(piece))
            if self.transport.is_closing() or self.transport.get_protocol() is not self:
                self.unread = NOTHING  # it is over, or goes on as a WebSocket
        if self.unread:
            self.flow.hold()
        elif self.cycle is None or len(self.cycle.body) <= HIGH_WATER_LIMIT:
            self.flow.let_go()

    def take(self, piece: bytes) -> None:
        above: Any = super()
        above.data_received(piece)

    def on_response_complete(self) -> None:
        above: Any = super()
        above.on_response_complete()
        self.read_on()
        if self.is_busy:
            above._unset_keepalive_if_required()  # the next request's time is none of silence


class InPieces(OneByOne):
    """The same before httptools, whose requests behind the one that is answered stand in `pipeline`."""

    pipeline: Any
    headers: list[tuple[bytes, bytes]]
    left = 0
    """How many bytes of a body are still to come, if its head says how long it is."""
    besides = 0
    """How many bytes came since the last byte of a body."""

    @property
    def is_busy(self) -> bool:
        return bool(self.pipeline) or super().is_busy

    @property
    def piece(self) -> int:
        return max(PIECE, self.left)

    def take(self, piece: bytes) -> None:
        above: Any = super()
        self.besides += len(piece)
        above.take(piece)
        if self.besides > MOST_HEAD and not self.transport.is_closing():
            above.send_400_response("The request's head is too long.")

    def on_headers_complete(self) -> None:
        above: Any = super()
        fields = dict(self.headers)
        length = fields.get(b"content-length", b"")
        self.left = int(length) if length.isdigit() and b"transfer-encoding" not in fields else 0
        self.besides = 0
        above.on_headers_complete()

    def on_body(self, body: bytes) -> None:
        above: Any = super()
        self.left = max(0, self.left - len(body))
        self.besides = 0
        if not isinstance(self.cycle.body, bytearray):
            self.cycle.body = bytearray(self.cycle.body)  # to which the next piece is put without a copy of those before
        above.on_body(body)

    def on_message_complete(self) -> None:
        above: Any = super()
        self.left = self.besides = 0
        above.on_message_complete()


def protocol() -> Any:
    """The protocol of each peer: by httptools if it is installed, else by h11."""
    before = InPieces if hasattr(AutoHTTPProtocol, "on_message_begin") else OneByOne
    return type("Peer", (before, AutoHTTPProtocol), {})
