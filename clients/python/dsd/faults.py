"""What can go wrong, each cause as a class of its own. All of them are a `DsdError`.

A `Refusal` is what the server says before it ends a link (docs/FORMATS.md, 'Packets'); the faults of the binary form stand
in `binary`, and those of the text form in `text`."""
from __future__ import annotations


class DsdError(Exception):
    """Whatever this package tells by an exception of its own."""


class Rejected(DsdError):
    """The gatekeeper rejects a signed reference. It doesn't tell why."""


class LinkEnded(DsdError):
    """The server, or the network, ended the link without an error packet."""


class Unreachable(LinkEnded):
    """Nobody answers at the address."""


class Disconnected(DsdError):
    """There is no link now, or none any more, by which this could be said."""


class TimedOut(DsdError):
    """An answer didn't come within the time that was given for it."""


class ServerFault(DsdError):
    """The server sent what no server may send."""


class Behind(DsdError):
    """What came for an iterator wasn't taken, up to the bound on what waits for it."""


class TooLarge(DsdError):
    """What is to be sent is more than the server takes, so it isn't sent."""


class Stale(DsdError):
    """A reference that was heard on an earlier link, where its number stood for something else."""


class CallbackFailed(DsdError):
    """A callback raised, which ended the connection: its exception is the cause of this one."""


# ---- what the server refuses


class Refusal(DsdError):
    """An error packet: the last that a server sends. One whose message has no class of its own is a plain `Refusal`."""

    def __init__(self, message: str, detail: object):
        super().__init__("%s %s" % (message, detail))
        self.message, self.detail = message, detail


class _Numbered(Refusal):
    """A refusal with a number of its own, behind which others say more: they become attributes of these names."""

    MESSAGE, NUMBER = "", 0
    NAMES: tuple[str, ...] = ()

    def __init__(self, *numbers: int):
        super().__init__(self.MESSAGE, (*((self.NUMBER,) if self.NUMBER else ()), *numbers))
        for name, number in zip(self.NAMES, numbers):
            setattr(self, name, number)


class BadBytes(_Numbered):
    """What was sent is no value: `kind` is the number of the fault (`binary.FAULTS`), `place` where it stands."""

    MESSAGE, NAMES = "bad bytes", ("kind", "place")


class BadPacket(_Numbered):
    """What was sent is a value and no packet, or a turn of another dialect than the connection's."""

    MESSAGE, NUMBER = "bad packet", 30


class UnknownOid(_Numbered):
    """No object of the server's has this number here."""

    MESSAGE, NUMBER, NAMES = "unknown oid", 31, ("oid",)


class HandleInUse(_Numbered):
    """An assertion under a handle that stands."""

    MESSAGE, NUMBER, NAMES = "handle in use", 32, ("handle",)


class UnknownHandle(_Numbered):
    """A retraction of a handle that doesn't stand."""

    MESSAGE, NUMBER, NAMES = "unknown handle", 33, ("handle",)


class LimitPassed(_Numbered):
    """A packet goes past the limit of this number (docs/LIMITS.md), with what was counted."""

    MESSAGE, NUMBER, NAMES = "limit", 34, ("limit", "counted")


class Overrun(_Numbered):
    """Too much is held for the connection, or waits for it: `which` it is (docs/LIMITS.md), and what was counted."""

    MESSAGE, NUMBER, NAMES = "overrun", 35, ("which", "counted")


class Spread(_Numbered):
    """What the connection did would make a dataspace want, or send, so much."""

    MESSAGE, NUMBER, NAMES = "spread", 36, ("weight",)


REFUSALS: dict[str, type[_Numbered]] = {
    it.MESSAGE: it
    for it in (BadBytes, BadPacket, UnknownOid, HandleInUse, UnknownHandle, LimitPassed, Overrun, Spread)
}


def refusal(message: str, detail: object) -> Refusal:
    """The refusal that an error packet tells."""
    kind = REFUSALS.get(message)
    if kind is None or not isinstance(detail, tuple) or not all(type(it) is int for it in detail):
        return Refusal(message, detail)
    front = (kind.NUMBER,) if kind.NUMBER else ()
    numbers = detail[len(front):]
    if detail[:len(front)] != front or len(numbers) != len(kind.NAMES):
        return Refusal(message, detail)
    return kind(*numbers)
