"""A service that answers as a test says, for what the program can't be brought to at will."""

import socket
import threading


class Scripted:
    """Greets everybody, has a history of `position` changes and no trades, and answers a line by its command with `replies`; a command
    that is `late` only when it is time."""

    def __init__(self) -> None:
        self.position = 0
        self.replies: dict[str, str] = {}
        self.lines: list[str] = []
        self.late, self.is_time = set[str](), threading.Event()
        self.open: list[socket.socket] = []
        self.listener = socket.create_server(("127.0.0.1", 0))
        self.port: int = self.listener.getsockname()[1]
        threading.Thread(target=self.accept, daemon=True).start()

    def accept(self) -> None:
        while True:
            try:
                near, _ = self.listener.accept()
            except OSError:
                return
            self.open.append(near)
            threading.Thread(target=self.serve, args=[near], daemon=True).start()

    def serve(self, near: socket.socket) -> None:
        try:
            for line in near.makefile():
                near.sendall(f"{self.reply(line.rstrip())}\n".encode())
        except OSError:
            pass
        near.close()

    def reply(self, line: str) -> str:
        verb, *words = line.split(" ")
        if not verb:
            return f"no {self.position} 3 bad-line 0"
        if verb == "HELLO":
            return f"ok {self.position} hello {words[0]}"
        if verb == "LIMITS":
            return f"no {self.position} 14 not-operator" if words == ["-"] else f"no {self.position} 5 unknown-product"
        if verb == "STATEMENT":
            return f"ok {self.position} statement 0"
        self.lines.append(line)
        if verb in self.late:
            self.is_time.wait()
        return self.replies[verb].format(self.position)

    def end(self) -> None:
        """Ends all connections; new ones are taken."""
        gone, self.open = self.open, []
        for near in gone:
            try:
                near.shutdown(socket.SHUT_RDWR)
            except OSError:
                pass  # the other side ended it before

    def close(self) -> None:
        self.listener.close()
        self.end()
