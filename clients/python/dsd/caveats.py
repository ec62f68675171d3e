"""Caveats, which stand behind a reference so that it gives less (docs/FORMATS.md, 'Caveats').

What is sent through the reference passes them, the newest first. The words of their patterns are those of a language of their
own: `literal` takes any value here, and a record has exactly the fields that are listed."""
from __future__ import annotations

from .values import Dictionary, Record, Symbol, Value, record

ANYTHING: Record = record("_")
# what matches a value of this kind
BOOLEAN, DOUBLE, INTEGER, STRING, BYTES, SYMBOL, EMBEDDED = map(
    Symbol, ("Boolean", "Double", "SignedInteger", "String", "ByteString", "Symbol", "Embedded"))

# ---- caveats


def reject(pattern: Value) -> Record:
    """Refuses what matches, and lets all else pass."""
    return record("reject", pattern)


def rewrite(pattern: Value, template: Record) -> Record:
    """Makes the template of what matches, and refuses all else."""
    return record("rewrite", pattern, template)


def first_of(*rewrites: Record) -> Record:
    """What the first of these rewrites makes that matches; refuses where none does."""
    return record("or", rewrites)


def only(pattern: Value) -> Record:
    """Lets pass what matches, as it is, and refuses all else."""
    return rewrite(bind(pattern), bound(0))


# ---- patterns


def bind(pattern: Value = ANYTHING) -> Record:
    """Binds the value that the pattern matches: a template takes it by its number, from 0."""
    return record("bind", pattern)


def every(*patterns: Value) -> Record:
    """Matches what all of these match."""
    return record("and", patterns)


def negation(pattern: Value) -> Record:
    """Matches what the pattern doesn't, and binds nothing."""
    return record("not", pattern)


# ---- templates


def bound(number: int) -> Record:
    """The value that the pattern bound under this number."""
    return record("ref", number)


def attenuated(template: Record, *caveats: Record) -> Record:
    """The reference that the template gives, with these caveats behind its own."""
    return record("attenuate", template, caveats)


# ---- both, patterns of patterns and templates of templates


def literal(value: Value) -> Record:
    return record("lit", value)


def fields(label: str, *inside: Value) -> Record:
    """A record of this label with exactly these fields."""
    return record("rec", Symbol(label), inside)


def items(*inside: Value) -> Record:
    """A sequence of exactly these items."""
    return record("arr", inside)


def entries(inside: dict) -> Record:
    """As a pattern a dictionary with these keys, and maybe others; as a template one with these alone."""
    return record("dict", Dictionary(tuple(inside.items())))
