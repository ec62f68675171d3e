"""The binary form of values (docs/FORMATS.md, 'Binary spelling' and 'Canonical form').

`written` gives the canonical form of a value, `read` the one value that bytes spell, and a `Reader` the values of a stream,
which may come in any pieces. What is at fault is told by a class for each kind of fault, with the place where it stands."""
from __future__ import annotations

import struct
from collections.abc import Iterable

from .faults import DsdError, TooLarge
from .values import Dictionary, Embedded, Record, Set, Symbol, Value

# what the server reads: docs/LIMITS.md
MOST_DEPTH = 64
MOST_BYTES = 262_144
INTEGER_BYTES = 16

FALSE, TRUE, END, EMBEDDED, DOUBLE = 0x80, 0x81, 0x84, 0x86, 0x87
INTEGER, STRING, BYTES, SYMBOL = 0xB0, 0xB1, 0xB2, 0xB3
RECORD, SEQUENCE, SET, DICTIONARY = 0xB4, 0xB5, 0xB6, 0xB7

# ---- faults


class BinaryFault(DsdError, ValueError):
    """Bytes that begin with no value. `place` is the offset of the tag of the innermost value in which the fault lies."""

    number = 0

    def __init__(self, place: int):
        super().__init__("%s at %d" % (type(self).__name__, place))
        self.place = place


class Truncated(BinaryFault):
    """The bytes end before the value does."""

    number = 1


class BadTag(BinaryFault):
    """A byte that begins no value stands where one is due."""

    number = 2


class LongVarint(BinaryFault):
    """A count that isn't in its shortest form, or is 2^64 or more."""

    number = 3


class LongInteger(BinaryFault):
    """An integer that isn't in the fewest bytes."""

    number = 4


class TooWide(BinaryFault):
    """An integer of more than 16 bytes."""

    number = 5


class BadUtf8(BinaryFault):
    """A string or a symbol that isn't UTF-8."""

    number = 6


class Duplicate(BinaryFault):
    """A set with equal elements, or a dictionary with equal keys."""

    number = 7


class TooDeep(BinaryFault):
    """A tag that would open one level more than may be."""

    number = 8


class TooLong(BinaryFault):
    """A value of more bytes than may be."""

    number = 9


FAULTS: dict[int, type[BinaryFault]] = {
    it.number: it
    for it in (Truncated, BadTag, LongVarint, LongInteger, TooWide, BadUtf8, Duplicate, TooDeep, TooLong)
}

# ---- writing


def written(value: Value) -> bytes:
    """The canonical form of a value: elements and entries ascend by their bytes, so that equal values have one form."""
    if isinstance(value, bool):
        return b"\x81" if value else b"\x80"
    if isinstance(value, int):
        return _atom(INTEGER, _integer(value))
    if isinstance(value, float):
        return b"\x87\x08" + struct.pack(">d", value)
    if isinstance(value, str):
        return _atom(SYMBOL if isinstance(value, Symbol) else STRING, value.encode())
    if isinstance(value, bytes):
        return _atom(BYTES, value)
    if isinstance(value, Record):
        return _compound(RECORD, map(written, (value.label, *value.fields)))
    if isinstance(value, (tuple, list)):
        return _compound(SEQUENCE, map(written, value))
    if isinstance(value, Set):
        return _compound(SET, _ascending([(written(it), b"") for it in value.items]))
    if isinstance(value, Dictionary):
        return _compound(DICTIONARY, _ascending([(written(key), written(it)) for key, it in value.entries]))
    if isinstance(value, Embedded):
        return b"\x86" + written(value.inside)
    raise TypeError("%r is no value" % (value,))


def _integer(value: int) -> bytes:
    if value == 0:
        return b""
    size = (value if value >= 0 else ~value).bit_length() // 8 + 1
    if size > INTEGER_BYTES:
        raise TooLarge("an integer has at most 128 bits")
    return value.to_bytes(size, "big", signed=True)


def _atom(tag: int, body: bytes) -> bytes:
    """Behind the tag stands how many bytes follow: seven bits a byte, the lowest first."""
    count, left = bytearray([tag]), len(body)
    while left >= 128:
        count.append(left % 128 + 128)
        left //= 128
    count.append(left)
    return bytes(count) + body


def _compound(tag: int, spelled: Iterable[bytes]) -> bytes:
    return bytes([tag]) + b"".join(spelled) + b"\x84"


def _ascending(pairs: list[tuple[bytes, bytes]]) -> list[bytes]:
    pairs.sort()
    for (key, _), (following, _) in zip(pairs, pairs[1:]):
        if key == following:
            raise ValueError("an element or a key stands twice")
    return [key + value for key, value in pairs]


# ---- reading


class _Open:
    """A compound, or an embedded value, that isn't whole yet."""

    __slots__ = ("tag", "place", "parts")

    def __init__(self, tag: int, place: int):
        self.tag, self.place, self.parts = tag, place, []

    def may_end(self) -> bool:
        """Whether a record has its label, and each key of a dictionary its value."""
        return {RECORD: len(self.parts) > 0, DICTIONARY: len(self.parts) % 2 == 0, EMBEDDED: False}.get(self.tag, True)

    def value(self) -> Value:
        """The compound, which is whole now."""
        if self.tag == RECORD:
            return Record(self.parts[0], tuple(self.parts[1:]))
        if self.tag == SEQUENCE:
            return tuple(self.parts)
        keys = self.parts if self.tag == SET else self.parts[::2]
        if len({written(key) for key in keys}) < len(keys):
            raise Duplicate(self.place)
        if self.tag == SET:
            return Set(tuple(keys))
        return Dictionary(tuple(zip(keys, self.parts[1::2])))


class Reader:
    """Values one behind another, of bytes that are pushed as they come. Each byte is looked at once.

    A value of more bytes, or of more levels, than may be is a fault, so that what is kept of a stream is bounded."""

    def __init__(self, most_bytes: int = MOST_BYTES, most_depth: int = MOST_DEPTH):
        self.most_bytes, self.most_depth = most_bytes, most_depth
        self._data = bytearray()
        self._dropped = 0  # so many bytes came before those that are kept
        self._at = 0  # the next token begins at this one of those that are kept
        self._stop = 0  # and what may be looked at ends here
        self._begin = 0  # where the value under way begins, counted over all bytes
        self._open: list[_Open] = []
        self._root: Value | None = None

    def push(self, piece: bytes) -> None:
        """More of the stream."""
        del self._data[:self._at]
        self._dropped, self._at = self._dropped + self._at, 0
        self._data += piece

    def next(self) -> Value | None:
        """The next value, or None while it isn't whole."""
        most = self._begin + self.most_bytes - self._dropped
        self._stop = min(len(self._data), most)
        while self._root is None and self._at < self._stop and self._token():
            pass
        if self._root is None:
            if self._stop == most:
                raise TooLong(self._begin)
            return None
        value, self._root = self._root, None
        self._begin = self._dropped + self._at
        return value

    def end(self) -> None:
        """Nothing more comes: a value that isn't whole is cut off."""
        if self._open or self._at < len(self._data):
            raise Truncated(self._place())

    def _place(self) -> int:
        return self._dropped + self._at

    def _token(self) -> bool:
        """Takes one token, and tells whether it is there as a whole."""
        tag = self._data[self._at]
        if INTEGER <= tag <= SYMBOL:
            return self._atom(tag)
        if RECORD <= tag <= DICTIONARY or tag == EMBEDDED:
            self._opened(tag)
        elif tag == END:
            self._closed()
        elif tag in (FALSE, TRUE):
            self._at += 1
            self._complete(tag == TRUE)
        elif tag == DOUBLE:
            return self._double()
        else:
            raise BadTag(self._place())
        return True

    def _double(self) -> bool:
        if self._at + 1 < self._stop and self._data[self._at + 1] != 8:
            raise BadTag(self._place())
        if self._at + 10 > self._stop:
            return False
        (value,) = struct.unpack_from(">d", self._data, self._at + 2)
        self._at += 10
        self._complete(value)
        return True

    def _atom(self, tag: int) -> bool:
        counted = self._count()
        if counted is None:
            return False
        size, begin = counted
        if tag == INTEGER and size > INTEGER_BYTES:
            raise TooWide(self._place())
        if begin + size > self._stop:
            return False
        value = self._value_of(tag, bytes(self._data[begin:begin + size]))
        self._at = begin + size
        self._complete(value)
        return True

    def _count(self) -> tuple[int, int] | None:
        """How many bytes an atom has, and where they begin, or None while the count isn't whole."""
        count = 0
        for n in range(10):
            at = self._at + 1 + n
            if at >= self._stop:
                return None
            byte = self._data[at]
            count |= (byte & 127) << 7 * n
            if byte < 128:
                if n > 0 and byte == 0 or count >= 1 << 64:
                    break
                return count, at + 1
        raise LongVarint(self._place())

    def _value_of(self, tag: int, body: bytes) -> Value:
        if tag == BYTES:
            return body
        if tag == INTEGER:
            value = int.from_bytes(body, "big", signed=True)
            if _integer(value) != body:
                raise LongInteger(self._place())
            return value
        try:
            text = body.decode()
        except UnicodeDecodeError:
            raise BadUtf8(self._place()) from None
        return Symbol(text) if tag == SYMBOL else text

    def _opened(self, tag: int) -> None:
        if len(self._open) >= self.most_depth:
            raise TooDeep(self._place())
        self._open.append(_Open(tag, self._place()))
        self._at += 1

    def _closed(self) -> None:
        if not self._open or not self._open[-1].may_end():
            raise BadTag(self._place())
        value = self._open.pop().value()
        self._at += 1
        self._complete(value)

    def _complete(self, value: Value) -> None:
        """A value is whole: it is a part of what is open, or the one that is waited for."""
        while self._open and self._open[-1].tag == EMBEDDED:
            self._open.pop()
            value = Embedded(value)
        if self._open:
            self._open[-1].parts.append(value)
        else:
            self._root = value


def read(data: bytes, at: int = 0) -> tuple[Value, int]:
    """The value that begins there, and where it ends. A place in a fault is counted from there."""
    reader = Reader(most_bytes=len(data) + 1)
    reader.push(data[at:])
    value = reader.next()
    if value is None:
        raise Truncated(reader._place())
    return value, at + reader._place()
