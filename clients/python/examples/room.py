#!/usr/bin/env python3
"""What is said in a room, by whom and to all: room.py ADDR REF"""
import os
import sys

sys.path.insert(0, os.path.join(os.path.dirname(os.path.abspath(__file__)), ".."))
import dsd  # noqa: E402
from dsd import patterns  # noqa: E402

SAID = patterns.fields("Says", patterns.CAPTURE, patterns.CAPTURE)


def main(address: str, text: str) -> None:
    reference = dsd.SturdyReference.from_text(text)
    with dsd.connect(address) as ann, dsd.connect(address) as bo:
        rooms = [it.resolve(reference) for it in (ann, bo)]
        ears = [it.root.watch(room, SAID) for it, room in zip((ann, bo), rooms)]
        bo.sync(rooms[1])  # what is said before Bo observes he doesn't hear
        ann.message(rooms[0], dsd.record("Says", "ann", "hello, Bo"))
        name, words = next(ears[1]).captures
        print("bo hears", dsd.shown(name), dsd.shown(words))
        bo.message(rooms[1], dsd.record("Says", "bo", "hello, Ann"))
        for _ in range(2):
            name, words = next(ears[0]).captures
            print("ann hears", dsd.shown(name), dsd.shown(words))


if __name__ == "__main__":
    main(*sys.argv[1:])
