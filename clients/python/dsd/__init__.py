"""A client of dsd, a server of Syndicate dataspaces.

    with dsd.connect("127.0.0.1:7000") as connection:
        room = connection.resolve(dsd.SturdyReference.from_text(text))
        connection.root.observe(room, patterns.fields("Present", patterns.CAPTURE), asserted=print)
        connection.root.assert_(room, dsd.record("Present", "ann"))

The modules stand one upon another, and may be read in this order: `values`, `binary` and `text` have values and their two
forms, `packets` what goes over a link, `patterns`, `caveats` and `sturdy` what stands in it, `link` the bytes of a link, `facets`
and `connection` what a program works with; `faults` has what can go wrong."""
from . import caveats, faults, patterns
from .connection import Connection, Reconnect, Resolved, connect
from .facets import Asserted, Fact, Facet, Retracted, Said, Watch
from .faults import DsdError
from .packets import Own, Reference
from .sturdy import SturdyReference
from .text import read_text, shown
from .values import Dictionary, Embedded, Record, Set, Symbol, Value, dictionary, record, same

__all__ = [
    "Asserted", "Connection", "Dictionary", "DsdError", "Embedded", "Fact", "Facet", "Own", "Reconnect", "Record", "Reference",
    "Resolved", "Retracted", "Said", "Set", "SturdyReference", "Symbol", "Value", "Watch", "caveats", "connect", "dictionary",
    "faults", "patterns", "read_text", "record", "same", "shown",
]
