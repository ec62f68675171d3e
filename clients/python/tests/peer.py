"""A server of a few lines, which hears and says what a test writes down, packet by packet, in text."""
from __future__ import annotations

import queue
import socket
import threading

from dsd.binary import Reader, written
from dsd.text import read_text, shown

SECONDS = 60
REFERENCE = '<ref {oid: "room" sig: #[vgnwS7jmM3JdWhWKJoK71Q==]}>'


class Peer:
    """The server's end of one link after another. A script is a list of lines: `> PACKET` is what has to come, `< PACKET` is
    said then, `<< HEX` as bytes, `end` ends the link, and `next` waits for another one. It runs in a thread of its own."""

    def __init__(self, *script: str):
        self.listener = socket.create_server(("127.0.0.1", 0))
        self.listener.settimeout(SECONDS)
        self.address = "127.0.0.1:%d" % self.listener.getsockname()[1]
        self.found: queue.Queue = queue.Queue()
        self.thread = threading.Thread(target=self._run, args=(script,), daemon=True)
        self.thread.start()

    def _run(self, script: tuple[str, ...]) -> None:
        link = None
        try:
            link, reader = self._accepted()
            for line in script:
                word, _, rest = line.partition(" ")
                if word == ">":
                    self._hears(link, reader, rest)
                elif word in ("<", "<<"):
                    link.sendall(written(read_text(rest)) if word == "<" else bytes.fromhex(rest))
                elif word == "end":
                    link.close()
                else:
                    link, reader = self._accepted()
            while link.fileno() >= 0 and link.recv(65536):
                pass
        except Exception as fault:
            self.found.put("%s: %s" % (type(fault).__name__, fault))
        finally:
            if link is not None:
                link.close()

    def _accepted(self) -> tuple[socket.socket, Reader]:
        link, _ = self.listener.accept()
        link.settimeout(SECONDS)
        return link, Reader()

    def _hears(self, link: socket.socket, reader: Reader, wanted: str) -> None:
        while (value := reader.next()) is None:
            piece = link.recv(65536)
            if not piece:
                raise AssertionError("the link ends in place of %s" % wanted)
            reader.push(piece)
        if shown(value) != shown(read_text(wanted)):
            raise AssertionError("%s comes in place of %s" % (shown(value), wanted))

    def findings(self) -> list[str]:
        """What came otherwise than the script has it, once it is through."""
        self.thread.join(SECONDS)
        self.listener.close()
        found = ["the script isn't through"] if self.thread.is_alive() else []
        while not self.found.empty():
            found.append(self.found.get())
        return found
