"""The repository's tables of cases, crates/dsd_rows/data/tables, whose README says how they are written."""
from __future__ import annotations

import os
import re
from collections.abc import Iterator

TOP = os.path.abspath(os.path.join(os.path.dirname(__file__), "..", "..", ".."))
TABLES = os.path.join(TOP, "crates", "dsd_rows", "data", "tables")
FORM = re.compile(rb"%\((\d+) (.*?)%\)|%([0-9a-fA-F]{2})", re.S)


def expanded(side: bytes) -> bytes:
    """A column of a table as it is meant: a byte in hexadecimal, and a text that stands so often."""
    def meant(form: re.Match) -> bytes:
        if form[3]:
            return bytes.fromhex(form[3].decode())
        return expanded(form[2]) * int(form[1])

    return FORM.sub(meant, side)


def cases(name: str) -> Iterator[tuple[bytes, bytes]]:
    """The cases of a table: input and answer."""
    with open(os.path.join(TABLES, name), "rb") as file:
        for line in file.read().split(b"\n"):
            if line and not line.startswith(b"# "):
                given, _, wanted = line.partition(b"=>")
                yield expanded(given.strip()), expanded(wanted.strip())


def of_hex(side: bytes) -> bytes:
    return bytes.fromhex(side.decode())
