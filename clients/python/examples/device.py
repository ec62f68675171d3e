#!/usr/bin/env python3
"""The state of a device, which others observe: device.py ADDR REF

A lamp says what it is; a panel shows each change. A change is one turn, so nobody sees the lamp in two states, or in none."""
import os
import sys

sys.path.insert(0, os.path.join(os.path.dirname(os.path.abspath(__file__)), ".."))
import dsd  # noqa: E402
from dsd import patterns  # noqa: E402

SIGNS = {dsd.Asserted: "+", dsd.Retracted: "-"}


def lamp(state: str) -> dsd.Record:
    return dsd.record("Lamp", "hall", dsd.Symbol(state))


def main(address: str, text: str) -> None:
    reference = dsd.SturdyReference.from_text(text)
    with dsd.connect(address) as device, dsd.connect(address) as panel:
        wall = panel.resolve(reference)
        shown = panel.root.watch(wall, patterns.fields("Lamp", patterns.literal("hall"), patterns.CAPTURE))
        panel.sync(wall)  # what comes and goes before the panel observes it doesn't see
        room = device.resolve(reference)
        with device.root.facet() as powered:
            state = powered.assert_(room, lamp("off"))
            powered.replace(state, lamp("on"))
        for _ in range(4):
            change = next(shown)
            print(SIGNS[type(change)], dsd.shown(change.captures[0]))


if __name__ == "__main__":
    main(*sys.argv[1:])
