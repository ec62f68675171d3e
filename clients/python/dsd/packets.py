"""Packets: turns, error packets, and what says nothing (docs/FORMATS.md, 'Packets').

A turn is a sequence of events, each aimed at an object. The server numbers its objects and we ours; in a value a reference says
whose object it names, as seen by the one that sends it."""
from __future__ import annotations

from collections.abc import Iterable
from dataclasses import dataclass
from typing import Union

from .binary import MOST_BYTES, written
from .faults import Refusal, ServerFault, TooLarge, refusal
from .values import Dictionary, Embedded, Record, Set, Symbol, Value, embedded_in

# of a turn that is sent: docs/LIMITS.md
MOST_EVENTS = 1_024
# numbers of objects and handles end here
MOST_NUMBER = (1 << 63) - 1

# ---- references


@dataclass(frozen=True, slots=True)
class Own(Embedded):
    """An object of ours, as we name it."""

    @property
    def number(self) -> int:
        return self.inside[1]


@dataclass(frozen=True, slots=True)
class Reference(Embedded):
    """An object of the server's, as we name it, with further caveats maybe. It was heard on one link, the `link`th of its
    connection: on the next one the number stands for something else."""

    link: int = 0

    @property
    def number(self) -> int:
        return self.inside[1]

    def attenuated(self, *caveats: Value) -> "Reference":
        """The same object by a reference that gives less: these caveats stand behind those that it has."""
        return Reference(self.inside + caveats, self.link)


def own(number: int) -> Own:
    return Own((0, number))


# ---- events


@dataclass(frozen=True, slots=True)
class Assert:
    """The value stands at the object until its handle is retracted, or its sender goes."""

    value: Value
    handle: int


@dataclass(frozen=True, slots=True)
class Retract:
    """The assertion under this handle is taken back."""

    handle: int


@dataclass(frozen=True, slots=True)
class Message:
    """The value is heard once."""

    body: Value


@dataclass(frozen=True, slots=True)
class Sync:
    """The peer is to be sent `#t`, once the object has done all that it was sent before."""

    peer: Embedded


Event = Union[Assert, Retract, Message, Sync]
Turn = tuple[tuple[int, Event], ...]

# The labels of events in both dialects. A connection speaks one, and is told in the one that it speaks.
NEWER = {"A": Assert, "R": Retract, "M": Message, "S": Sync}
OLDER = {"assert": Assert, "retract": Retract, "message": Message, "sync": Sync}


def event_value(event: Event, older: bool = False) -> Record:
    """An event as a value."""
    labels = OLDER if older else NEWER
    label = next(it for it, kind in labels.items() if kind is type(event))
    return Record(Symbol(label), tuple(getattr(event, name) for name in event.__slots__))


def turn_bytes(events: Iterable[tuple[int, Event]], older: bool = False) -> bytes:
    """A turn in the binary form. One that the server wouldn't take for its size isn't made."""
    turn = tuple((oid, event_value(event, older)) for oid, event in events)
    if len(turn) > MOST_EVENTS:
        raise TooLarge("a turn has at most %d events" % MOST_EVENTS)
    made = written(turn)
    if len(made) > MOST_BYTES:
        raise TooLarge("a packet has at most %d bytes" % MOST_BYTES)
    return made


# ---- what is heard


def is_number(value: Value) -> bool:
    """Whether a value is the number of an object or a handle."""
    return type(value) is int and 0 <= value <= MOST_NUMBER


def is_reference(it: Embedded) -> bool:
    """Whether an embedded value names an object of its sender's, or, with caveats maybe, of its receiver's."""
    inside = it.inside
    if not isinstance(inside, tuple) or len(inside) < 2 or not is_number(inside[1]) or type(inside[0]) is not int:
        return False
    return inside[0] == 1 or inside[0] == 0 and len(inside) == 2


def event_of(value: Value, older: bool = False) -> Event:
    """The event that a value is, in this dialect."""
    labels = OLDER if older else NEWER
    if isinstance(value, Record) and isinstance(value.label, Symbol) and value.label in labels:
        kind = labels[value.label]
        if len(value.fields) == len(kind.__slots__):
            event = kind(*value.fields)
            if _is_whole(event):
                return event
    raise ServerFault("what comes is no event: %r" % (value,))


def _is_whole(event: Event) -> bool:
    if isinstance(event, Assert):
        return is_number(event.handle) and all(map(is_reference, embedded_in(event.value)))
    if isinstance(event, Retract):
        return is_number(event.handle)
    if isinstance(event, Message):
        return all(map(is_reference, embedded_in(event.body)))
    return isinstance(event.peer, Embedded) and is_reference(event.peer)


def packet_of(value: Value, older: bool = False) -> Turn | Refusal | None:
    """What a value is as a packet: a turn, an error, or nothing, where it is `#f` or an extension."""
    if value is False:
        return None
    if isinstance(value, Record):
        if isinstance(value.label, Symbol) and value.label == "error":
            if len(value.fields) == 2 and isinstance(value.fields[0], str) and not isinstance(value.fields[0], Symbol):
                return refusal(*value.fields)
            raise ServerFault("what comes is no error packet: %r" % (value,))
        return None
    if isinstance(value, tuple):
        return tuple(_aimed(it, older) for it in value)
    raise ServerFault("what comes is no packet: %r" % (value,))


def _aimed(value: Value, older: bool) -> tuple[int, Event]:
    if isinstance(value, tuple) and len(value) == 2 and is_number(value[0]):
        return value[0], event_of(value[1], older)
    raise ServerFault("what comes is no event at an object: %r" % (value,))


def as_heard(value: Value, link: int) -> Value:
    """A value that came, with each reference as we name it: what the server calls its own is the server's to us."""
    if isinstance(value, Embedded):
        side, number, *caveats = value.inside
        return own(number) if side == 1 else Reference((1, number, *caveats), link)
    if isinstance(value, Record):
        return Record(as_heard(value.label, link), tuple(as_heard(it, link) for it in value.fields))
    if isinstance(value, tuple):
        return tuple(as_heard(it, link) for it in value)
    if isinstance(value, Set):
        return Set(tuple(as_heard(it, link) for it in value.items))
    if isinstance(value, Dictionary):
        return Dictionary(tuple((as_heard(key, link), as_heard(it, link)) for key, it in value.entries))
    return value
