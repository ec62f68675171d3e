"""Patterns of observations (docs/FORMATS.md, 'Dataspace patterns'), in the newer grammar.

A pattern with a slip in it is answered by nothing, and not by an error: these calls make none. The patterns of caveats are
another language, and stand in `caveats`."""
from __future__ import annotations

from .values import Dictionary, Record, Symbol, Value, record

# matches everything, and captures nothing
ANYTHING: Record = record("_")


def bind(pattern: Record = ANYTHING) -> Record:
    """Captures the value that the pattern matches."""
    return record("bind", pattern)


# matches everything, and captures it
CAPTURE: Record = bind()


def literal(value: Value) -> Record:
    """Matches this atom, or this reference, alone."""
    return record("lit", value)


def fields(label: str, *patterns: Record) -> Record:
    """Matches each record of this label whose first fields match these; it may have more."""
    return record("group", record("rec", Symbol(label)), Dictionary(tuple(enumerate(patterns))))


def items(*patterns: Record) -> Record:
    """Matches each sequence whose first items match these; it may have more."""
    return record("group", record("arr"), Dictionary(tuple(enumerate(patterns))))


def entries(patterns: dict) -> Record:
    """Matches each dictionary that has these keys, their values matching; it may have more."""
    return record("group", record("dict"), Dictionary(tuple(patterns.items())))
