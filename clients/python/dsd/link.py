"""A link over TCP: packets in both directions, one behind another, with nothing between them (docs/FORMATS.md, 'Links')."""
from __future__ import annotations

import socket

from .binary import Reader, Truncated
from .faults import LinkEnded
from .values import Value

# What the server keeps for a connection on the way weighs at most half of this (docs/LIMITS.md), and one packet may tell all.
MOST_HEARD = 33_554_432
PIECE = 65_536


class Link:
    """One link, dialled at HOST:PORT. Its two directions may be used by two threads, each by one."""

    def __init__(self, address: str, seconds: float | None = None, most_bytes: int = MOST_HEARD):
        host, _, port = address.rpartition(":")
        self.socket = socket.create_connection((host.strip("[]"), int(port)), timeout=seconds)
        self.socket.settimeout(None)
        self.socket.setsockopt(socket.IPPROTO_TCP, socket.TCP_NODELAY, 1)
        self.reader = Reader(most_bytes)

    def send(self, packet: bytes) -> None:
        try:
            self.socket.sendall(packet)
        except OSError as fault:
            raise LinkEnded("sending: %s" % fault) from fault

    def packet(self) -> Value | None:
        """The next packet as a value, or None at the link's end."""
        while (value := self.reader.next()) is None:
            try:
                piece = self.socket.recv(PIECE)
            except OSError as fault:
                raise LinkEnded("reading: %s" % fault) from fault
            if not piece:
                self._is_whole()
                return None
            self.reader.push(piece)
        return value

    def _is_whole(self) -> None:
        try:
            self.reader.end()
        except Truncated as fault:
            raise LinkEnded("inside a packet") from fault

    def finish(self) -> None:
        """Says that nothing more is sent: the server takes back what we asserted, and ends the link."""
        self._shut(socket.SHUT_WR)

    def close(self) -> None:
        """Ends the link at once, also for a thread that waits for a packet."""
        self._shut(socket.SHUT_RDWR)
        self.socket.close()

    def _shut(self, halves: int) -> None:
        try:
            self.socket.shutdown(halves)
        except OSError:
            pass  # it is ended already, which is what was wanted
