"""What a client can make the server do that costs much: each kind as actions, which bench/hostile does by a script and over
links. `room` is the number that each connection has for the dataspace, 0 in a script and 1 over links, and what a connection
is told of first has the number behind it. Handles count from 10."""
import dataclasses
import typing

from client_values import bytes_of
from events import assertion, exported, many_caveats, message, observation, observation_by, own, retraction
from values import integer, record, sequence, string

# a turn has so many events at most, and so many facts a connection has here
EVENTS, A_CONNECTION = 1_024, 4_000
GATE, WATCHED = 0, 2
FIRST = 10


# ---- actions


@dataclasses.dataclass
class Open:
    """So many connections come, to a dataspace, or to the gatekeeper alone."""
    count: int
    place: int = 1


@dataclasses.dataclass
class Send:
    """A connection, counted from 1, sends a turn."""
    connection: int
    events: list


@dataclasses.dataclass
class Settle:
    """What was sent is done: by so many turns in a script, and over links until all were answered behind it."""
    turns: int = 1_000_000


@dataclasses.dataclass
class Circle:
    """What never ends is let be: for so many turns in a script, and over links for so many seconds."""
    turns: int
    seconds: int


@dataclasses.dataclass
class Close:
    connection: int


@dataclasses.dataclass
class Mark:
    """What comes behind it is what is measured."""


@dataclasses.dataclass
class Kind:
    """What it is; its actions, by a size; the sizes in a script and over links; and the watcher that is there, in text."""
    what: str
    actions: typing.Callable
    in_script: int
    over_links: int
    watcher: str = ""


# ---- events


def turn(events):
    """What a link carries of a turn."""
    return sequence(*events)


def asserted(connection, oid, values):
    """A connection asserts values, in as few turns as it may."""
    values = list(values)
    for start in range(0, len(values), EVENTS):
        ahead = values[start:start + EVENTS]
        yield Send(connection, [assertion(it, FIRST + start + n, oid) for n, it in enumerate(ahead)])


def pulses(connection, oid, values, first=FIRST):
    """In one turn each value is asserted and taken back."""
    events = []
    for handle, value in enumerate(values, first):
        events += [assertion(value, handle, oid), retraction(handle, oid)]
    return Send(connection, events)


def observing(pattern, observer):
    """An observation by a pattern in text."""
    return record("Observe", bytes_of(pattern), observer)


def facts(first, count, room, make):
    """So many facts, by as many connections from this one on as they need. They come to the dataspace here."""
    connections = -(-count // A_CONNECTION)
    yield Open(connections)
    for k in range(connections):
        yield from asserted(first + k, room, map(make, range(k * A_CONNECTION, min(count, (k + 1) * A_CONNECTION))))
    yield Settle()


# ---- askings

CLIENTS = 32


def askings(size, room):
    """Each connection asks the gatekeeper for what isn't bound, and one goes. Over links the witness is one of them."""
    each, clients = size // CLIENTS, CLIENTS - room
    yield Open(clients, GATE)
    for k in range(1, clients + 1):
        yield from asserted(k, GATE, (record("resolve", integer(k * each + n), own(1)) for n in range(each)))
    yield Settle()
    yield Close(1)
    yield Settle()


# ---- pulses


def watcher(behaviour):
    """A watcher that makes something of who observes at dataspace 1, and so of itself, and asserts that at dataspace 2."""
    return "<watch 1 <group <rec Observe> {1: <bind <_>>}> %d %s>" % (WATCHED, behaviour)


def told_of(pattern, room):
    """A connection comes to where the watcher asserts, is told of it by this pattern, and observes no more."""
    yield Open(1, WATCHED)
    yield Send(1, [assertion(observing(pattern, own(1)), FIRST, room)])
    yield Settle(100)
    yield Send(1, [retraction(FIRST, room)])


def nesting(size, room):
    """A watcher makes of what it made what nests one level deeper, each time that it goes round."""
    yield from told_of("<group <rec tuple> {0: <bind <_>>}>", room)
    again = observing("<bind <group <rec tuple> {0: <group <rec tuple> {}>}>>", exported(room + 1))
    yield Send(1, [assertion(again, FIRST + 1, room)])
    yield Mark()
    yield pulses(1, room, [record("tuple", record("tuple"))], FIRST + 2)
    yield Circle(size, size)


AT_ONCE, NODES, TURNS = 64, 100, 2_000


def in_flight(size, room):
    """So many packets, whose pulses a watcher sends round for ever."""
    yield from told_of("<bind <_>>", room)
    again = observing("<bind <group <rec x> {}>>", exported(room + 1))
    yield Send(1, [assertion(again, FIRST + 1, room)])
    yield Settle(100)
    yield Mark()
    heavy = sequence(*[sequence()] * NODES)
    for n in range(size):
        yield pulses(1, room, (record("x", integer(n * AT_ONCE + at), heavy) for at in range(AT_ONCE)), FIRST + 2)
        # the dataspace's own turn, and in a script no turn of the watcher
        yield Settle(1)
    yield Circle(TURNS, 1)


# ---- the dearest packet


FIELDS = 10


def shape(n):
    """A pattern that asks for these fields, whatever stands there, and captures nothing."""
    return "<group <rec Fact> {%s}>" % " ".join("%d: <_>" % i for i in range(FIELDS) if n >> i & 1)


def first_shapes(size, room):
    """Among so many facts of one label, observations each of which is the first of its shape."""
    yield from facts(1, size, room, lambda n: record("Fact", *[integer(n)] * FIELDS))
    last = -(-size // A_CONNECTION) + 1
    yield Open(1)
    yield Mark()
    yield from asserted(last, room, (observing(shape(n), own(1)) for n in range(EVENTS)))
    yield Settle()


def inside(n):
    """A pattern that asks for a constant where no list of the facts has it."""
    return "<group <rec Fact> {0: <group <arr> {0: <lit %d>}>}>" % n


def late_constants(size, room):
    """Among so many facts of one label, observations of a shape that is known, each of a constant that isn't."""
    yield from facts(1, size, room, lambda n: record("Fact", sequence(integer(n))))
    last = -(-size // A_CONNECTION) + 1
    yield Open(1)
    yield Send(last, [assertion(observing(inside(-1), own(1)), FIRST + EVENTS, room)])
    yield Settle()
    yield Mark()
    yield from asserted(last, room, (observing(inside(n), own(1)) for n in range(EVENTS)))
    yield Settle()


def attenuated(room, caveats):
    """Connection 3 is told of an object of connection 2, with these caveats, as the first thing: connection 1 puts them there."""
    yield Open(3)
    yield Send(1, [assertion(observation("Ref", 1), FIRST, room)])
    yield Send(3, [assertion(observation("Less", 1), FIRST, room)])
    yield Send(2, [assertion(record("Ref", own(5)), FIRST, room)])
    yield Settle()
    yield Send(1, [assertion(record("Less", exported(room + 1, *caveats)), FIRST + 1, room)])
    yield Settle()


def caveats(size, room):
    """Messages to an object by a reference with as many caveats as there may be, nearly as heavy as they may be."""
    yield from attenuated(room, many_caveats())
    yield Mark()
    yield Send(3, [message(room + 1, record("Present", integer(n))) for n in range(size)])
    yield Settle()


def heavy_values(size, room):
    """Values that together weigh nearly what a connection may assert, which one observes."""
    nodes = sequence(*[sequence()] * 76)
    yield Open(2)
    yield Send(1, [assertion(observation("Heavy", 1), FIRST, room)])
    yield Settle()
    yield Mark()
    yield from asserted(2, room, (record("Heavy", sequence(integer(n), nodes)) for n in range(size)))
    yield Settle()


FEW = 16


def heavy_references(size, room):
    """Pulses of observations by references of nearly 64 KiB, of which no two are the same. Each captures a few facts."""
    yield from attenuated(room, many_caveats()[:-1])
    yield Send(1, [assertion(record("Present", integer(n)), FIRST + 2 + n, room) for n in range(FEW)])
    yield Settle()
    yield Mark()
    refused = (record("reject", record("lit", string("a%d" % n))) for n in range(size // 2))
    yield pulses(3, room, (observation_by("Present", exported(room + 1, it)) for it in refused), FIRST + 1)
    yield Settle()


# ---- the kinds

def nothing(size, room):
    yield Open(1)
    yield Mark()
    yield Circle(size, size)


ASKED = 131_072
KINDS = {
    "nothing": Kind("nothing, for so many seconds", nothing, 0, 4),
    "askings": Kind("askings at the gatekeeper by 32 connections, of which one goes", askings, ASKED, ASKED),
    "nesting": Kind("a pulse that nests deeper each time: turns, or seconds", nesting, 20_000, 20, watcher("tuple")),
    "in_flight": Kind("packets, each of 64 pulses that go round for ever", in_flight, 1_000, 200, watcher("each")),
    "first_shapes": Kind("1,024 first observations of a shape, at so many facts", first_shapes, 4_000, 4_000),
    "late_constants": Kind("1,024 late observations of a constant, at so many facts", late_constants, 4_000, 4_000),
    "caveats": Kind("messages by a reference with many caveats", caveats, EVENTS, EVENTS),
    "heavy_values": Kind("values that weigh much", heavy_values, EVENTS, EVENTS),
    "heavy_references": Kind("events of observations by references of nearly 64 KiB", heavy_references, EVENTS // 2, EVENTS // 2),
}
