"""Which values bytes spell, one behind another, and the fault that ends them: by docs/FORMATS.md, with no part of the program."""

WINDOW, LEVELS = 262_144, 64
BAD_TAG, LONG_VARINT, LONG_INTEGER, TOO_WIDE, BAD_UTF8, DUPLICATE, TOO_DEEP, TOO_LONG = range(2, 10)


class Waits(Exception):
    """The bytes end before the value does."""


class Fault(Exception):
    """Its number, and its place."""


def byte_at(data, at):
    if at >= len(data):
        raise Waits
    return data[at]


def count_at(data, at, tag):
    """A count, and where it ends. It has ten bytes at most, the tenth of which is 1."""
    count = shift = 0
    while True:
        byte = byte_at(data, at)
        count |= (byte & 127) << shift
        at += 1
        if (byte == 0 and shift) or (shift == 63 and byte != 1):
            raise Fault(LONG_VARINT, tag)
        if byte < 128:
            return count, at
        shift += 7


def is_long(body):
    return body[:1] == b"\0" and (len(body) == 1 or body[1] < 128) or body[:1] == b"\xff" and body[1:2] >= b"\x80"


def atom_at(data, at):
    count, begin = count_at(data, at + 1, at)
    if data[at] == 0xB0 and count > 16:
        raise Fault(TOO_WIDE, at)
    if count > len(data) - begin:
        raise Waits
    body = data[begin:begin + count]
    if data[at] == 0xB0 and is_long(body):
        raise Fault(LONG_INTEGER, at)
    if data[at] in (0xB1, 0xB3):
        try:
            body.decode()
        except UnicodeDecodeError:
            raise Fault(BAD_UTF8, at) from None
    return data[at:begin + count], begin + count


def parts_at(data, at, depth):
    """The canonical forms of a compound's parts, and where its end stands."""
    parts, tag = [], data[at]
    at += 1
    while True:
        is_due = (tag == 0xB4 and not parts) or (tag == 0xB7 and len(parts) % 2 == 1)
        if byte_at(data, at) == 0x84 and not is_due:
            return parts, at
        part, at = value_at(data, at, depth)
        parts.append(part)


def compound_at(data, at, depth):
    parts, end = parts_at(data, at, depth)
    tag = data[at]
    if tag == 0xB6:
        parts = [(part,) for part in sorted(parts)]
    elif tag == 0xB7:
        parts = sorted(zip(parts[::2], parts[1::2]))
    else:
        parts = [(part,) for part in parts]
    if tag in (0xB6, 0xB7) and len({part[0] for part in parts}) < len(parts):
        raise Fault(DUPLICATE, at)
    return bytes([tag]) + b"".join(map(b"".join, parts)) + b"\x84", end + 1


def value_at(data, at, depth=0):
    """The canonical form of the value that begins there, and where it ends."""
    tag = byte_at(data, at)
    if 0xB0 <= tag <= 0xB3:
        return atom_at(data, at)
    if tag in (0x80, 0x81):
        return data[at:at + 1], at + 1
    if tag == 0x87:
        if byte_at(data, at + 1) != 8:
            raise Fault(BAD_TAG, at)
        byte_at(data, at + 9)
        return data[at:at + 10], at + 10
    if tag != 0x86 and not 0xB4 <= tag <= 0xB7:
        raise Fault(BAD_TAG, at)
    if depth == LEVELS:
        raise Fault(TOO_DEEP, at)
    if tag == 0x86:
        inside, end = value_at(data, at + 1, depth + 1)
        return b"\x86" + inside, end
    return compound_at(data, at, depth + 1)


def spelled(data):
    """The places at which the whole values end, and the fault behind them as its number and its place, or none."""
    ends, at = [], 0
    while True:
        window = data[at:at + WINDOW]
        try:
            _, size = value_at(window, 0)
        except Waits:
            return ends, (TOO_LONG, at) if len(window) == WINDOW else None
        except Fault as fault:
            return ends, (fault.args[0], at + fault.args[1])
        at += size
        ends.append(at)
