"""Values in the binary form, as the benchmarks make them."""


def length(n):
    out = b""
    while n >= 128:
        out += bytes([n % 128 + 128])
        n //= 128
    return out + bytes([n])


def atom(tag, body):
    return bytes([tag]) + length(len(body)) + body


def integer(n):
    return atom(0xB0, n.to_bytes(n.bit_length() // 8 + 1, "big") if n else b"")


def string(text):
    return atom(0xB1, text.encode())


def byte_string(body):
    return atom(0xB2, body)


def symbol(name):
    return atom(0xB3, name.encode())


def record(label, *fields):
    return b"\xb4" + symbol(label) + b"".join(fields) + b"\x84"


def sequence(*items):
    return b"\xb5" + b"".join(items) + b"\x84"


def set_of(*items):
    return b"\xb6" + b"".join(items) + b"\x84"


def dictionary(*pairs):
    return b"\xb7" + b"".join(key + value for key, value in pairs) + b"\x84"


def embedded(value):
    return b"\x86" + value
