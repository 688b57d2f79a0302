"""The peers of the gateway: how many are connected, and how many of their requests are not answered yet."""

from typing import Any


class Peers:
    """What uvicorn knows of them, once it serves."""

    def __init__(self) -> None:
        self.state: Any = None

    @property
    def connected(self) -> int:
        return len(self.state.connections) if self.state is not None else 0

    @property
    def requests(self) -> int:
        """Those that are served, pages that listen among them, and those that wait behind another of their peer."""
        if self.state is None:
            return 0
        return len(self.state.tasks) + sum(len(getattr(peer, "pipeline", ())) for peer in self.state.connections)
