"""What the repository's pages spell in bytes."""
from __future__ import annotations

import os
import re

from tables import TOP

ROWS = re.compile(r"^(\w+) ?(.*)\n((?: +[0-9a-f]{2}(?: [0-9a-f]{2})*\n)+)", re.M)


def spelled() -> list[tuple[str, str, bytes]]:
    """The rows of docs/CLIENTS.md: a word, what it stands for, and the bytes below it."""
    with open(os.path.join(TOP, "docs", "CLIENTS.md"), encoding="utf-8") as file:
        page = file.read()
    blocks = "".join(re.findall(r"^```\n(.*?)^```", page, re.S | re.M))
    return [(word, said, bytes.fromhex(rows)) for word, said, rows in ROWS.findall(blocks)]
