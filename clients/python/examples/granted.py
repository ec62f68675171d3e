#!/usr/bin/env python3
"""Access that gives less: granted.py ADDR REF

Ann puts a caveat behind her reference, without any key, and gives the new one to a visitor: who comes by it can be seen in the
room, and can't speak there. What the caveat refuses lands nowhere."""
import os
import sys

sys.path.insert(0, os.path.join(os.path.dirname(os.path.abspath(__file__)), ".."))
import dsd  # noqa: E402
from dsd import caveats, patterns  # noqa: E402

SPEECH = caveats.fields("Says", caveats.ANYTHING, caveats.ANYTHING)


def main(address: str, text: str) -> None:
    reference = dsd.SturdyReference.from_text(text)
    granted = reference.attenuated(caveats.reject(SPEECH))
    print(granted.text())
    with dsd.connect(address) as ann, dsd.connect(address) as visitor:
        room = ann.resolve(reference)
        people = ann.root.watch(room, patterns.fields("Present", patterns.CAPTURE))
        ears = ann.root.watch(room, patterns.fields("Says", patterns.CAPTURE, patterns.CAPTURE))
        ann.sync(room)
        there = visitor.resolve(granted)
        visitor.message(there, dsd.record("Says", "visitor", "hello"))
        visitor.root.assert_(there, dsd.record("Present", "visitor"))
        print("ann sees", dsd.shown(next(people).captures[0]))
        ann.message(room, dsd.record("Says", "ann", "welcome"))
        print("ann hears", *map(dsd.shown, next(ears).captures))
        try:
            visitor.resolve(dsd.SturdyReference(granted.oid, granted.signature))
        except dsd.faults.Rejected:
            print("without its caveat the reference is rejected")


if __name__ == "__main__":
    main(*sys.argv[1:])
