"""The text form of values (docs/FORMATS.md, 'Text'): `shown` prints a value, `read_text` reads one."""
from __future__ import annotations

import base64
import json
import re
import struct

from .binary import MOST_DEPTH, written
from .faults import DsdError
from .values import Dictionary, Embedded, Record, Set, Symbol, Value, order

# ---- faults


class TextFault(DsdError, ValueError):
    """A text that is no value. `place` is the offset, in bytes of UTF-8, at which the token at fault begins."""

    number = 0

    def __init__(self, place: int):
        super().__init__("%s at %d" % (type(self).__name__, place))
        self.place = place


class Unexpected(TextFault):
    """A character or a token that can't stand there, or the end where no value was begun."""

    number = 10


class BadEscape(TextFault):
    """An escape that is none, or a surrogate without its fellow."""

    number = 11


class DecimalDouble(TextFault):
    """A number with a fraction or an exponent: doubles are written by their bits."""

    number = 12


class BadBytes(TextFault):
    """Digits of a byte string or a double that are foreign, too few or too many."""

    number = 13


class Unclosed(TextFault):
    """The text ends inside a token, a compound, an embedded value or an annotation."""

    number = 14


class TooWide(TextFault):
    """An integer outside 128 bits."""

    number = 15


class TooDeep(TextFault):
    """A mark that would open one level more than may be."""

    number = 16


class Duplicate(TextFault):
    """A set with equal elements, or a dictionary with equal keys."""

    number = 17


class BadUtf8(TextFault):
    """The text as a whole isn't UTF-8."""

    number = 18


# ---- printing

BARE = re.compile(r"[A-Za-z0-9~!$%^&*?_=+\-/.]+")
WHOLE = re.compile(r"[+-]?[0-9]+")
DECIMAL = re.compile(r"[+-]?[0-9]+(?:\.[0-9]+)?(?:[eE][+-]?[0-9]+)?")


def shown(value: Value) -> str:
    """A value as text, in the one form in which the server prints it too."""
    if isinstance(value, bool):
        return "#t" if value else "#f"
    if isinstance(value, int):
        return str(value)
    if isinstance(value, float):
        return '#xd"%s"' % struct.pack(">d", value).hex()
    if isinstance(value, Symbol):
        bare = BARE.fullmatch(value) and not DECIMAL.fullmatch(value)
        return str(value) if bare else _quoted(value, "|")
    if isinstance(value, str):
        return _quoted(value, '"')
    if isinstance(value, bytes):
        return "#[%s]" % base64.b64encode(value).decode()
    if isinstance(value, Record):
        return "<%s>" % " ".join(map(shown, (value.label, *value.fields)))
    if isinstance(value, (tuple, list)):
        return "[%s]" % " ".join(map(shown, value))
    if isinstance(value, Set):
        return "#{%s}" % " ".join(map(shown, sorted(value.items, key=order)))
    if isinstance(value, Dictionary):
        entries = sorted(value.entries, key=lambda entry: order(entry[0]))
        return "{%s}" % " ".join("%s: %s" % (shown(key), shown(it)) for key, it in entries)
    if isinstance(value, Embedded):
        return "#:%s" % shown(value.inside)
    raise TypeError("%r is no value" % (value,))


def _quoted(text: str, quote: str) -> str:
    """Between quotes, with the escapes of JSON; of the two quotes the one that isn't around it stands as it is."""
    inside = json.dumps(text, ensure_ascii=False)[1:-1]
    if quote == "|":
        inside = inside.replace(r"\"", '"').replace("|", r"\|")
    return quote + inside + quote


# ---- reading

SPACE = " \t\r\n"
ENDS = {"<": ">", "[": "]", "#{": "}", "{": "}"}
ESCAPES = {"\\": "\\", "/": "/", "b": "\b", "f": "\f", "n": "\n", "r": "\r", "t": "\t"}
HEX = "0123456789abcdefABCDEF"
BASE64 = "ABCDEFGHIJKLMNOPQRSTUVWXYZabcdefghijklmnopqrstuvwxyz0123456789+/"


def read_text(text: str, most_depth: int = MOST_DEPTH) -> Value:
    """The one value that a text spells: white space and comments may stand around it, and nothing else."""
    reader = _Text(text, most_depth)
    value = reader.next()
    reader.gap()
    if reader.at < len(text):
        raise Unexpected(reader.place(reader.at))
    return value


class _Text:
    """A text, and how far it is read. `innermost` is what is open, which decides whether a comma is white space."""

    def __init__(self, text: str, most_depth: int = MOST_DEPTH):
        self.text, self.most_depth = text, most_depth
        self.at = 0
        self.innermost = ""
        try:
            text.encode()
        except UnicodeEncodeError:
            raise BadUtf8(0) from None

    def place(self, at: int) -> int:
        return len(self.text[:at].encode())

    def fault(self, kind: type[TextFault], at: int) -> TextFault:
        return kind(self.place(at))

    def gap(self) -> None:
        """Passes over white space and comments."""
        spaces = SPACE + ("," if self.innermost in ("[", "#{", "{") else "")
        while self.at < len(self.text):
            two = self.text[self.at:self.at + 2]
            if two[0] == "#" and len(two) == 2 and two[1] in " \t!\r\n":
                self.at += 1
                while self.at < len(self.text) and self.text[self.at] not in "\r\n":
                    self.at += 1
            elif two[0] in spaces:
                self.at += 1
            else:
                return

    def next(self, depth: int = 0, opened: int | None = None) -> Value:
        """The value that begins behind the gap; `opened` is where that begins in which it stands."""
        self.gap()
        begin, text = self.at, self.text
        if begin >= len(text):
            raise self.fault(Unexpected, begin) if opened is None else self.fault(Unclosed, opened)
        mark = text[begin]
        if mark == "@":
            return self.annotated(depth)
        if mark == "#":
            return self.hashed(begin, depth)
        if mark in "<[{":
            return self.compound(begin, mark, depth)
        if mark in '"|':
            self.at += 1
            string = self.string(begin, mark)
            return Symbol(string) if mark == "|" else string
        return self.bare(begin)

    def annotated(self, depth: int) -> Value:
        begin, outer = self.at, self.innermost
        self.at += 1
        self.next(depth, begin)
        self.innermost = outer
        return self.next(depth, begin)

    def hashed(self, begin: int, depth: int) -> Value:
        two = self.text[begin:begin + 2]
        if two == "#":
            raise self.fault(Unclosed, begin)
        if two in ("#t", "#f"):
            self.at += 2
            return two == "#t"
        if two == "#{":
            return self.compound(begin, two, depth)
        if two == "#:":
            return self.embedded(begin, depth)
        if two == "#[":
            return self.base64(begin)
        if two == '#"':
            return self.ascii(begin)
        if two == "#x":
            return self.hexadecimal(begin)
        raise self.fault(Unexpected, begin)

    def embedded(self, begin: int, depth: int) -> Value:
        if depth >= self.most_depth:
            raise self.fault(TooDeep, begin)
        self.at += 2
        return Embedded(self.next(depth + 1, begin))

    # ---- compounds

    def compound(self, begin: int, mark: str, depth: int) -> Value:
        if depth >= self.most_depth:
            raise self.fault(TooDeep, begin)
        self.at += len(mark)
        outer, self.innermost = self.innermost, mark
        parts = []
        while not self.closes(begin, mark):
            parts.append(self.next(depth + 1, begin))
            self.innermost = mark
            if mark == "{":
                self.colon(begin)
                parts.append(self.next(depth + 1, begin))
                self.innermost = mark
        if mark == "<" and not parts:
            raise self.fault(Unexpected, self.at)
        self.at += 1
        self.innermost = outer
        return self.made(begin, mark, parts)

    def closes(self, begin: int, mark: str) -> bool:
        self.gap()
        if self.at >= len(self.text):
            raise self.fault(Unclosed, begin)
        return self.text[self.at] == ENDS[mark]

    def colon(self, begin: int) -> None:
        self.gap()
        if self.at >= len(self.text):
            raise self.fault(Unclosed, begin)
        if self.text[self.at] != ":":
            raise self.fault(Unexpected, self.at)
        self.at += 1

    def made(self, begin: int, mark: str, parts: list) -> Value:
        if mark == "<":
            return Record(parts[0], tuple(parts[1:]))
        if mark == "[":
            return tuple(parts)
        keys = parts if mark == "#{" else parts[::2]
        if len({written(key) for key in keys}) < len(keys):
            raise self.fault(Duplicate, begin)
        return Set(tuple(keys)) if mark == "#{" else Dictionary(tuple(zip(keys, parts[1::2])))

    # ---- atoms

    def character(self, begin: int) -> str:
        """The next character of a token that goes on."""
        if self.at >= len(self.text):
            raise self.fault(Unclosed, begin)
        self.at += 1
        return self.text[self.at - 1]

    def string(self, begin: int, quote: str) -> str:
        made = []
        while (it := self.character(begin)) != quote:
            made.append(self.escaped(begin, quote) if it == "\\" else it)
        return "".join(made)

    def escaped(self, begin: int, quote: str) -> str:
        mark = self.character(begin)
        if mark == quote:
            return quote
        if mark != "u":
            if mark not in ESCAPES:
                raise self.fault(BadEscape, begin)
            return ESCAPES[mark]
        unit = self.digits(begin, 4, BadEscape)
        if 0xDC00 <= unit < 0xE000:
            raise self.fault(BadEscape, begin)
        if 0xD800 <= unit < 0xDC00:
            if self.character(begin) != "\\" or self.character(begin) != "u":
                raise self.fault(BadEscape, begin)
            low = self.digits(begin, 4, BadEscape)
            if not 0xDC00 <= low < 0xE000:
                raise self.fault(BadEscape, begin)
            unit = 0x10000 + (unit - 0xD800 << 10) + (low - 0xDC00)
        return chr(unit)

    def digits(self, begin: int, count: int, kind: type[TextFault]) -> int:
        number = 0
        for _ in range(count):
            it = self.character(begin)
            if it not in HEX:
                raise self.fault(kind, begin)
            number = number * 16 + int(it, 16)
        return number

    def ascii(self, begin: int) -> bytes:
        self.at += 2
        made = bytearray()
        while (it := self.character(begin)) != '"':
            if it == "\\":
                mark = self.character(begin)
                if mark == "x":
                    made.append(self.digits(begin, 2, BadEscape))
                elif mark == '"' or mark in ESCAPES:
                    made += ESCAPES.get(mark, mark).encode()
                else:
                    raise self.fault(BadEscape, begin)
            elif " " <= it <= "~":
                made += it.encode()
            else:
                raise self.fault(BadBytes, begin)
        return bytes(made)

    def hexadecimal(self, begin: int) -> Value:
        """A byte string, or a double by its bits."""
        self.at += 2
        mark = self.character(begin)
        double = mark == "d"
        if double:
            mark = self.character(begin)
        if mark != '"':
            raise self.fault(Unexpected, begin)
        digits = ""
        while (it := self.character(begin)) != '"':
            if it not in HEX + SPACE:
                raise self.fault(BadBytes, begin)
            digits += it.strip(SPACE)
        if len(digits) % 2 or double and len(digits) != 16:
            raise self.fault(BadBytes, begin)
        body = bytes.fromhex(digits)
        return struct.unpack(">d", body)[0] if double else body

    def base64(self, begin: int) -> bytes:
        self.at += 2
        digits = ""
        while (it := self.character(begin)) != "]":
            it = {"-": "+", "_": "/"}.get(it, it)
            if it not in BASE64 + "=" + SPACE:
                raise self.fault(BadBytes, begin)
            digits += it.strip(SPACE)
        bare = digits.rstrip("=")
        padding = len(digits) - len(bare)
        whole = bare + "=" * (-len(bare) % 4)
        if "=" in bare or len(bare) % 4 == 1 or padding and len(digits) != len(whole):
            raise self.fault(BadBytes, begin)
        body = base64.b64decode(whole)
        if base64.b64encode(body).decode() != whole:
            raise self.fault(BadBytes, begin)
        return body

    def bare(self, begin: int) -> Value:
        while self.at < len(self.text) and (self.text[self.at] >= "\x80" or BARE.fullmatch(self.text[self.at])):
            self.at += 1
        token = self.text[begin:self.at]
        if not token:
            raise self.fault(Unexpected, begin)
        if WHOLE.fullmatch(token):
            return self.integer(begin, token)
        if DECIMAL.fullmatch(token):
            raise self.fault(DecimalDouble, begin)
        return Symbol(token)

    def integer(self, begin: int, token: str) -> int:
        digits = token.lstrip("+-").lstrip("0")
        value = int(("-" if token[0] == "-" else "") + (digits or "0")) if len(digits) < 40 else 1 << 127
        if not -(1 << 127) <= value < 1 << 127:
            raise self.fault(TooWide, begin)
        return value
