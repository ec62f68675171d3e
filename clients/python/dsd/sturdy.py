"""Signed references: text by which whoever has it is let in (docs/FORMATS.md, 'Signed references')."""
from __future__ import annotations

import hashlib
import hmac
from dataclasses import dataclass

from .binary import written
from .faults import DsdError, TooLarge
from .text import read_text, shown
from .values import Dictionary, Record, Symbol, Value, embedded_in, record

SIGNATURE_BYTES = 16
# of one reference: docs/LIMITS.md
MOST_CAVEATS = 32


class NoReference(DsdError, ValueError):
    """A value that is no signed reference."""


def link_of(key: bytes, value: Value) -> bytes:
    """The front of the HMAC over BLAKE2s of a value's canonical form: what each link of the chain is."""
    return hmac.new(key, written(value), hashlib.blake2s).digest()[:SIGNATURE_BYTES]


@dataclass(frozen=True)
class SturdyReference:
    """What it is to, the caveats, the oldest first, and the last link of the chain. Immutable: `attenuated` makes another."""

    oid: Value
    signature: bytes
    caveats: tuple = ()

    @classmethod
    def mint(cls, oid: Value, key: bytes) -> "SturdyReference":
        """A reference without caveats, by the key of a binding."""
        return cls(oid, link_of(key, oid))

    @classmethod
    def from_text(cls, text: str) -> "SturdyReference":
        return cls.from_value(read_text(text))

    @classmethod
    def from_value(cls, value: Value) -> "SturdyReference":
        if not isinstance(value, Record) or not isinstance(value.label, Symbol) or value.label != "ref" \
                or len(value.fields) != 1 or not isinstance(value.fields[0], Dictionary):
            raise NoReference("a signed reference is a record ref of a dictionary")
        oid, signature, caveats = map(value.fields[0].get, map(Symbol, ("oid", "sig", "caveats")))
        caveats = () if caveats is None else caveats
        if oid is None or not isinstance(signature, bytes) or not isinstance(caveats, tuple):
            raise NoReference("a signed reference has an oid, a signature and maybe caveats")
        if any(embedded_in((oid, caveats))):
            raise NoReference("in a signed reference nothing is embedded")
        return cls(oid, signature, caveats)

    def attenuated(self, *caveats: Value) -> "SturdyReference":
        """The reference with these caveats behind its own. It wants no key, and who has it alone can't take them away."""
        if len(self.caveats) + len(caveats) > MOST_CAVEATS:
            raise TooLarge("a reference has at most %d caveats" % MOST_CAVEATS)
        if any(embedded_in(caveats)):
            raise NoReference("in a signed reference nothing is embedded")
        signature = self.signature
        for caveat in caveats:
            signature = link_of(signature, caveat)
        return SturdyReference(self.oid, signature, self.caveats + caveats)

    def is_signed_by(self, key: bytes) -> bool:
        """Whether it was minted under this key and attenuated so."""
        link = link_of(key, self.oid)
        for caveat in self.caveats:
            link = link_of(link, caveat)
        return hmac.compare_digest(link, self.signature)

    def value(self) -> Record:
        entries = [(Symbol("oid"), self.oid), (Symbol("sig"), self.signature)]
        if self.caveats:
            entries.append((Symbol("caveats"), self.caveats))
        return record("ref", Dictionary(tuple(entries)))

    def text(self) -> str:
        return shown(self.value())
