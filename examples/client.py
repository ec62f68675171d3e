#!/usr/bin/env python3
"""A room on a server of dataspaces, and what a program says and hears there, with nothing but the standard library.

    examples/client.py [--older] ADDR REF NAME

ADDR is HOST:PORT, as `dsd serve` has it. REF is the text of a signed reference to the room, as `dsd mint` prints it. Who comes
and who goes is printed as it comes, `+ "ann"` and `- "ann"`. Each line of the input is said to all who are there, and is
printed as `"ann": "hello"` by all of them. At the end of the input the client goes. With --older it speaks the older dialect,
which says the same with other labels and other patterns: who speaks which makes no difference to the others.

A program that connects speaks in turns, which are sequences of events `[oid event]`, and hears such turns. Oid 0 is the
server's gatekeeper, to which references are given; what they stand for gets a number of its own. What the server tells comes
to our own objects, whose numbers are ours to choose. docs/FORMATS.md has all of this."""
import base64
import collections
import contextlib
import json
import re
import socket
import struct
import sys
import threading
from dataclasses import dataclass

# ---- values
#
# Booleans, integers of any size, doubles, strings, byte strings and sequences are Python's bool, int, float, str, bytes and
# tuple. Python takes 1, 1.0 and True for equal, and a symbol and a string: two values are the same where `written` is.


class Symbol(str):
    pass


@dataclass(slots=True)
class Record:
    label: object
    fields: tuple


@dataclass(slots=True)
class Set:
    """Elements in any order, none twice."""
    items: tuple


@dataclass(slots=True)
class Dictionary:
    """Pairs of a key and a value in any order, no key twice."""
    entries: tuple


@dataclass(slots=True)
class Embedded:
    """In a packet a reference: (0, n) is object n of the one that sends it, and (1, n) object n of the one that gets it."""
    inside: object


def record(name, *fields):
    return Record(Symbol(name), fields)


# ---- values in the binary form


def written(value):
    """The canonical form of a value. Elements and entries ascend in it, so that equal values have one form."""
    if isinstance(value, bool):
        return b"\x81" if value else b"\x80"
    if isinstance(value, int):
        size = (value if value >= 0 else ~value).bit_length() // 8 + 1
        return atom(0xB0, value.to_bytes(size, "big", signed=True) if value else b"")
    if isinstance(value, float):
        return b"\x87\x08" + struct.pack(">d", value)
    if isinstance(value, str):
        return atom(0xB3 if isinstance(value, Symbol) else 0xB1, value.encode())
    if isinstance(value, bytes):
        return atom(0xB2, value)
    if isinstance(value, Record):
        return compound(0xB4, map(written, (value.label, *value.fields)))
    if isinstance(value, (tuple, list)):
        return compound(0xB5, map(written, value))
    if isinstance(value, Set):
        return compound(0xB6, sorted(map(written, value.items)))
    if isinstance(value, Dictionary):
        pairs = sorted((written(key), written(it)) for key, it in value.entries)
        return compound(0xB7, (key + it for key, it in pairs))
    return b"\x86" + written(value.inside)


def atom(tag, body):
    """Behind the tag stands how many bytes follow: seven bits a byte, the lowest first."""
    count, left = b"", len(body)
    while left >= 128:
        count += bytes([left % 128 + 128])
        left //= 128
    return bytes([tag]) + count + bytes([left]) + body


def compound(tag, parts):
    return bytes([tag]) + b"".join(parts) + b"\x84"


def read(data, at=0):
    """The value that begins there, and where it ends. An IndexError says that it isn't whole yet."""
    tag = data[at]
    if 0xB0 <= tag <= 0xB3:
        size, at = read_count(data, at + 1)
        body = data[at:at + size]
        if len(body) < size:
            raise IndexError
        return ATOMS[tag](body), at + size
    if 0xB4 <= tag <= 0xB7:
        parts, at = [], at + 1
        while data[at] != 0x84:
            part, at = read(data, at)
            parts.append(part)
        return COMPOUNDS[tag](parts), at + 1
    if tag == 0x86:
        inside, at = read(data, at + 1)
        return Embedded(inside), at
    if tag == 0x87 and data[at + 9] >= 0:
        return struct.unpack(">d", data[at + 2:at + 10])[0], at + 10
    if tag in (0x80, 0x81):
        return tag == 0x81, at + 1
    raise ValueError("what comes is no value: tag %02x" % tag)


def read_count(data, at):
    count = data[at] & 127
    shift = 7
    while data[at] >= 128:
        at += 1
        count |= (data[at] & 127) << shift
        shift += 7
    return count, at + 1


ATOMS = {
    0xB0: lambda body: int.from_bytes(body, "big", signed=True),
    0xB1: lambda body: body.decode(),
    0xB2: bytes,
    0xB3: lambda body: Symbol(body.decode()),
}
COMPOUNDS = {
    0xB4: lambda parts: Record(parts[0], tuple(parts[1:])),
    0xB5: tuple,
    0xB6: lambda parts: Set(tuple(parts)),
    0xB7: lambda parts: Dictionary(tuple(zip(parts[::2], parts[1::2]))),
}

# ---- values as text, in the form in which the program prints them

TOKEN = re.compile(r"""\#\[[^]]*\] | \#xd?"[^"]*" | "(?:[^"\\]|\\.)*" | \|(?:[^|\\]|\\.)*\| | \#[tf:{] | [<>\[\]{}] |
    [^\s,:<>\[\]{}"|\#]+""", re.X)
CLOSED_BY = {"<": ">", "[": "]", "#{": "}", "{": "}"}
OPENED_BY = {"<": 0xB4, "[": 0xB5, "#{": 0xB6, "{": 0xB7}


def read_text(text):
    tokens = iter(TOKEN.findall(text))
    try:
        return value_of(next(tokens), tokens)
    except (IndexError, StopIteration):
        raise ValueError("the reference is cut off") from None


def value_of(token, tokens):
    """The value that begins with this token, of which more may be taken from the others."""
    if token in CLOSED_BY:
        ending = iter(lambda: next(tokens), CLOSED_BY[token])
        return COMPOUNDS[OPENED_BY[token]]([value_of(it, tokens) for it in ending])
    if token == "#:":
        return Embedded(value_of(next(tokens), tokens))
    if token.startswith("#xd"):
        return struct.unpack(">d", bytes.fromhex(token[4:-1]))[0]
    if token.startswith("#x"):
        return bytes.fromhex(token[3:-1])
    if token.startswith("#["):
        return base64.b64decode(token[2:-1])
    if token.startswith('"'):
        return json.loads(token, strict=False)
    if token.startswith("|"):
        return Symbol(json.loads('"%s"' % token[1:-1].replace(r"\|", "|").replace('"', r"\""), strict=False))
    if token in ("#t", "#f"):
        return token == "#t"
    return int(token) if re.fullmatch("[+-]?[0-9]+", token) else Symbol(token)


def shown(value):
    """A string as text has it. Of another value that somebody puts in its place, how Python has it."""
    return json.dumps(value, ensure_ascii=False) if isinstance(value, str) else repr(value)


# ---- turns


def own(entity):
    """A reference to an object of our own."""
    return Embedded((0, entity))


def asserts(oid, value, handle):
    """The value stands at that object until the handle, a number of ours that isn't in use, is retracted, or we go."""
    return (oid, record("A", value, handle))


def retracts(oid, handle):
    return (oid, record("R", handle))


def says(oid, body):
    """A message: it is heard once, and doesn't stand."""
    return (oid, record("M", body))


def syncs(oid, peer):
    """Asks that object to say `#t` to the peer, once it has done all that we sent it before."""
    return (oid, record("S", peer))


def observes(oid, label, count, entity, handle):
    """Our object is told of each record with this label that stands there: of its first so many fields, as a sequence."""
    fields = Dictionary(tuple((n, record("bind", record("_"))) for n in range(count)))
    pattern = record("group", record("rec", Symbol(label)), fields)
    return asserts(oid, record("Observe", pattern, own(entity)), handle)


def observes_exactly(oid, label, count, entity, handle):
    """The same of records with exactly so many fields, in the older grammar of patterns."""
    pattern = record("rec", Symbol(label), (record("bind", record("_")),) * count)
    return asserts(oid, record("Observe", pattern, own(entity)), handle)


# the labels of events in the older dialect: a connection speaks one of both, and is told in the one that it speaks
OLDER = {"A": "assert", "R": "retract", "M": "message", "S": "sync"}
NEWER = {older: newer for newer, older in OLDER.items()}


def relabelled(events, labels):
    return tuple((oid, record(labels[event.label], *event.fields)) for oid, event in events)


class Connection:
    """A link to a server: packets in both directions, one behind another."""

    def __init__(self, address, older=False):
        self.older = older
        host, _, port = address.rpartition(":")
        self.link = socket.create_connection((host.strip("[]"), int(port)))
        self.link.setsockopt(socket.IPPROTO_TCP, socket.TCP_NODELAY, 1)
        self.received, self.at = b"", 0
        self.told = collections.deque()

    def send(self, *events):
        """Sends one turn, which is done as a whole, or not at all."""
        self.link.sendall(written(relabelled(events, OLDER) if self.older else events))

    def packet(self):
        """The next packet, or None at the link's end."""
        while True:
            try:
                packet, self.at = read(self.received, self.at)
                return packet
            except IndexError:
                piece = self.link.recv(65536)
                if not piece:
                    return None
                self.received, self.at = self.received[self.at:] + piece, 0

    def event(self):
        """The next event, as (oid, event), or None at the link's end. An error is the last thing that a server says."""
        while not self.told:
            packet = self.packet()
            if packet is None:
                return None
            if isinstance(packet, tuple):
                self.told.extend(relabelled(packet, NEWER) if self.older else packet)
            elif isinstance(packet, Record) and packet.label == "error":
                raise ConnectionError("%s %s" % packet.fields)
        return self.told.popleft()

    def resolve(self, reference, entity, handle):
        """Gives the gatekeeper a signed reference, and waits for the answer at that object of ours: by which oid we speak to
        what it stands for."""
        self.send(asserts(0, record("resolve", reference, own(entity)), handle))
        while (told := self.event()) is not None:
            oid, event = told
            if oid == entity and event.label == "A":
                answer = event.fields[0]
                if answer.label == "accepted":
                    return answer.fields[0].inside[1]
                raise ConnectionError("the reference is rejected")
        raise ConnectionError("the server left")


# ---- the room

# our objects, which are told: the answer to the reference, who is there, what is said, and that we are gone
ANSWER, PRESENCE, SPEECH, DONE = 1, 2, 3, 4
# our handles; 1 is that of the reference
RESOLVED, WATCHING, HEARING, BEING = 1, 2, 3, 4


def enter(connection, reference, name):
    """Comes into the room, and sees and hears what is there from then on."""
    room = connection.resolve(reference, ANSWER, RESOLVED)
    sees = observes_exactly if connection.older else observes
    connection.send(
        sees(room, "Present", 1, PRESENCE, WATCHING),
        sees(room, "Says", 2, SPEECH, HEARING),
        asserts(room, record("Present", name), BEING),
    )
    return room


def leave(connection, room):
    """Goes, and asks to be told once that is done."""
    connection.send(retracts(room, BEING), syncs(room, own(DONE)))


def lines(connection):
    """What comes, line by line, until we are gone or the server is."""
    there = {}
    while (told := connection.event()) is not None and told[0] != DONE:
        oid, event = told
        if oid == PRESENCE and event.label == "A":
            (name,), handle = event.fields
            there[handle] = name
            yield "+ " + shown(name)
        elif oid == PRESENCE and event.label == "R":
            yield "- " + shown(there.pop(event.fields[0]))
        elif oid == SPEECH and event.label == "M":
            name, text = event.fields[0]
            yield "%s: %s" % (shown(name), shown(text))


def speak(connection, room, name):
    """Says each line of the input, and leaves at its end. Where the server has left, `lines` ends."""
    with contextlib.suppress(OSError):
        for line in sys.stdin:
            connection.send(says(room, record("Says", name, line.rstrip("\n"))))
        leave(connection, room)


def main():
    words = [word for word in sys.argv[1:] if word != "--older"]
    if len(words) != 3:
        sys.exit(__doc__)
    address, reference, name = words
    try:
        connection = Connection(address, older="--older" in sys.argv)
        room = enter(connection, read_text(reference), name)
        threading.Thread(target=speak, args=(connection, room, name), daemon=True).start()
        for line in lines(connection):
            print(line, flush=True)
    except (OSError, ValueError) as fault:
        sys.exit("client: %s" % fault)


if __name__ == "__main__":
    main()
