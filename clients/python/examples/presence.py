#!/usr/bin/env python3
"""Who is in a room, as each comes and goes: presence.py ADDR REF

Ann observes who is there. Bo comes and crashes, which takes nothing more than the end of his link."""
import os
import sys

sys.path.insert(0, os.path.join(os.path.dirname(os.path.abspath(__file__)), ".."))
import dsd  # noqa: E402
from dsd import patterns  # noqa: E402


def main(address: str, text: str) -> None:
    reference = dsd.SturdyReference.from_text(text)
    with dsd.connect(address) as ann, dsd.connect(address) as bo:
        room = ann.resolve(reference)
        people = ann.root.watch(room, patterns.fields("Present", patterns.CAPTURE))
        ann.root.assert_(room, dsd.record("Present", "ann"))
        print("+", dsd.shown(next(people).captures[0]))
        bo.root.assert_(bo.resolve(reference), dsd.record("Present", "bo"))
        print("+", dsd.shown(next(people).captures[0]))
        bo.close()
        gone = next(people)
        assert isinstance(gone, dsd.Retracted)
        print("-", dsd.shown(gone.captures[0]))


if __name__ == "__main__":
    main(*sys.argv[1:])
