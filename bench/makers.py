"""Clients of a server that count what comes to them, makers of changes, and the delays of these."""
import socket
import statistics
import struct
import time

from server import client
from client import asserts, observes, own, record, retracts, syncs, written

# how an assertion and a retraction begin in a turn; no value that is sent here has them in it
ASSERTED, RETRACTED = b"\xb4\xb3\x01A", b"\xb4\xb3\x01R"
ENTITY = 2


class Counted:
    """A link on which what comes is counted."""

    def __init__(self, link):
        self.link = link
        self.asserted = self.retracted = 0
        self.last = b""

    def take(self):
        """Reads what is there, or waits for some."""
        piece = self.link.recv(1 << 20)
        if not piece:
            raise ConnectionError("the server left")
        data = self.last + piece
        self.asserted += data.count(ASSERTED)
        self.retracted += data.count(RETRACTED)
        self.last = data[-len(ASSERTED) + 1:]

    def wait(self, asserted=0, retracted=0):
        while self.asserted < asserted or self.retracted < retracted:
            self.take()


class Link(Counted):
    """A link that has resolved the room."""

    def __init__(self, server, minted):
        self.connection = client.Connection(server.address)
        super().__init__(self.connection.link)
        self.room = self.connection.resolve(minted, 1, 1)

    def do(self, *events):
        self.link.sendall(written(events))

    def settle(self):
        """Waits until all is done that it sent before anything was told to it."""
        self.connection.send(syncs(self.room, own(client.DONE)))
        while self.connection.event()[0] != client.DONE:
            pass

    def cut(self):
        self.link.setsockopt(socket.SOL_SOCKET, socket.SO_LINGER, struct.pack("ii", 1, 0))
        self.link.close()


def observer(server, minted):
    link = Link(server, minted)
    link.do(observes(link.room, "Change", 1, ENTITY, 2))
    link.settle()
    return link


VALUES = (record("Change", 0), record("Change", 1))


class Maker:
    """What makes changes on a link, by two turns that take each other's fact back."""

    def __init__(self, link, room=1, values=VALUES):
        self.link, self.made = link, 0
        self.turns = [written((asserts(room, values[n], 10 + n), retracts(room, 11 - n))) for n in (0, 1)]

    def make(self, count):
        """Sends so many changes."""
        turns = (self.turns[n % 2] for n in range(self.made, self.made + count))
        self.made += count
        self.link.sendall(b"".join(turns))


def maker_of(server, minted, values=VALUES):
    """A link of its own with the fact that the first change takes back."""
    link = Link(server, minted)
    link.do(asserts(link.room, values[1], 11))
    return Maker(link.link, link.room, values)


def delays_told(delays):
    ordered = sorted(delays)
    return "%.0f, %.0f" % (statistics.median(ordered) * 1e6, ordered[len(ordered) * 99 // 100] * 1e6)


def one_by_one(maker, seer, count):
    """The delays of changes of which each one is seen before the next one is made."""
    delays, seen = [], seer.asserted
    for n in range(1, count + 1):
        begin = time.perf_counter()
        maker.make(1)
        seer.wait(asserted=seen + n)
        delays.append(time.perf_counter() - begin)
    return delays
