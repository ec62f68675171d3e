"""Values, and their order (docs/FORMATS.md, 'Values').

Booleans, integers, doubles, strings, byte strings and sequences are Python's bool, int, float, str, bytes and tuple; the other
kinds stand below. Python takes 1, 1.0 and True for equal, and a symbol and a string: `same` tells whether two values are one."""
from __future__ import annotations

import struct
from collections.abc import Iterator
from dataclasses import dataclass
from typing import Union


class Symbol(str):
    """A symbol, which is another value than the string of these characters."""

    __slots__ = ()

    def __repr__(self) -> str:
        return "Symbol(%s)" % str.__repr__(self)


@dataclass(frozen=True, slots=True)
class Record:
    """A label, which may be any value, and fields."""

    label: "Value"
    fields: tuple


@dataclass(frozen=True, slots=True)
class Set:
    """Elements in any order, none twice."""

    items: tuple


@dataclass(frozen=True, slots=True)
class Dictionary:
    """Pairs of a key and a value in any order, no key twice."""

    entries: tuple

    def get(self, key: "Value") -> Union["Value", None]:
        """The value under a key, or None, which is no value."""
        return next((value for it, value in self.entries if same(it, key)), None)


@dataclass(frozen=True, slots=True)
class Embedded:
    """In a packet a reference: (0, n) is object n of the one that sends it, (1, n) object n of the one that gets it."""

    inside: "Value"


Value = Union[bool, float, int, str, bytes, Symbol, Record, tuple, Set, Dictionary, Embedded]


def record(name: str, *fields: "Value") -> Record:
    """A record whose label is the symbol of this name."""
    return Record(Symbol(name), fields)


def dictionary(entries: dict) -> Dictionary:
    """A dictionary of Python's as one of ours."""
    return Dictionary(tuple(entries.items()))


# ---- the order of values

BOOLEAN, DOUBLE, INTEGER, STRING, BYTES, SYMBOL, RECORD, SEQUENCE, SET, DICTIONARY, EMBEDDED = range(11)


def order(value: "Value") -> tuple:
    """What values are ordered by: the rank of the kind, and what counts within the kind. Equal of the same value alone."""
    if isinstance(value, bool):
        return BOOLEAN, value
    if isinstance(value, int):
        return INTEGER, value
    if isinstance(value, float):
        return DOUBLE, _double(value)
    if isinstance(value, Symbol):
        return SYMBOL, value.encode()
    if isinstance(value, str):
        return STRING, value.encode()
    if isinstance(value, bytes):
        return BYTES, value
    if isinstance(value, Record):
        return RECORD, order(value.label), tuple(map(order, value.fields))
    if isinstance(value, (tuple, list)):
        return SEQUENCE, tuple(map(order, value))
    if isinstance(value, Set):
        return SET, tuple(sorted(map(order, value.items)))
    if isinstance(value, Dictionary):
        return DICTIONARY, tuple(sorted((order(key), order(it)) for key, it in value.entries))
    if isinstance(value, Embedded):
        return EMBEDDED, order(value.inside)
    raise TypeError("%r is no value" % (value,))


def _double(value: float) -> int:
    """By totalOrder of IEEE 754: a clear sign bit is set, and where it is set all bits are flipped."""
    (bits,) = struct.unpack(">Q", struct.pack(">d", value))
    return bits ^ (1 << 63) if bits < 1 << 63 else bits ^ ((1 << 64) - 1)


def same(one: "Value", other: "Value") -> bool:
    """Whether two values are one, by their kinds and what they hold."""
    return order(one) == order(other)


def parts(value: "Value") -> Iterator["Value"]:
    """The values right inside a value. What an embedded value has inside is its own."""
    if isinstance(value, Record):
        yield value.label
        yield from value.fields
    elif isinstance(value, (tuple, list)):
        yield from value
    elif isinstance(value, Set):
        yield from value.items
    elif isinstance(value, Dictionary):
        for entry in value.entries:
            yield from entry


def embedded_in(value: "Value") -> Iterator[Embedded]:
    """The embedded values in a value that aren't inside another one, in no order that counts."""
    waiting = [value]
    while waiting:
        value = waiting.pop()
        if isinstance(value, Embedded):
            yield value
        else:
            waiting.extend(parts(value))
