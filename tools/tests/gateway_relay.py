"""A relay between a gateway and a service, which loses replies or lines, for the tests."""

import socket
import threading


class Relay:
    """Stands between a gateway and a service, and loses the reply to a line, or the line itself, with the connection."""

    def __init__(self, service: int) -> None:
        self.service = service
        self.listener = socket.create_server(("127.0.0.1", 0))
        self.port: int = self.listener.getsockname()[1]
        self.losing, self.is_sent, self.is_closing = "", True, True
        self.lost = threading.Event()
        threading.Thread(target=self.accept, daemon=True).start()

    def lose(self, line: str, is_sent: bool, is_closing: bool = True) -> None:
        """The next such line: is it sent on, and is the connection closed, or does it stay without a reply?"""
        self.losing, self.is_sent, self.is_closing = line, is_sent, is_closing
        self.lost.clear()

    def accept(self) -> None:
        while True:
            try:
                near, _ = self.listener.accept()
            except OSError:
                return
            threading.Thread(target=self.relay, args=[near], daemon=True).start()

    def relay(self, near: socket.socket) -> None:
        try:
            far = socket.create_connection(("127.0.0.1", self.service))
        except OSError:
            near.close()
            return
        silent, ended = threading.Event(), threading.Event()
        threading.Thread(target=self.reply, args=[far, near, silent, ended], daemon=True).start()
        try:
            for line in near.makefile("rb"):
                if self.losing and line.decode().startswith(self.losing):
                    self.losing = ""
                    silent.set()
                    if self.is_sent:
                        far.sendall(line)
                        far.shutdown(socket.SHUT_WR)
                        ended.wait()  # the service ends a session whose text has ended once it has answered all of it
                    self.lost.set()
                    if self.is_closing:
                        break
                else:
                    far.sendall(line)
        except OSError:
            pass
        for end in (near, far):
            self.shut(end)

    def reply(self, far: socket.socket, near: socket.socket, silent: threading.Event, ended: threading.Event) -> None:
        try:
            while piece := far.recv(65_536):
                if not silent.is_set():
                    near.sendall(piece)
        except OSError:
            pass
        if not silent.is_set():
            self.shut(near)
        ended.set()

    def shut(self, end: socket.socket) -> None:
        try:
            end.shutdown(socket.SHUT_RDWR)
        except OSError:
            pass
