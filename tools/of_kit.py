"""The kit's command `rt` as a module. Each crate's sum and what is below it are reckoned once, where the kit reckons them anew
for each way that leads to the crate."""
import importlib.machinery
import importlib.util
import os
import shutil
import sys

KIT = os.path.dirname(os.path.dirname(os.path.realpath(shutil.which("rt") or "rt")))
REMEMBERED = {}


def reckoned_once(kind, name):
    """Has a method that takes nothing remember what it answered for a crate."""
    plain, known = getattr(kind, name), REMEMBERED.setdefault(name, {})

    def call(crate):
        if crate.folder not in known:
            known[crate.folder] = plain(crate)
        return known[crate.folder]

    setattr(kind, name, call)


def forget():
    """From now on sums are those of the texts as they stand now."""
    REMEMBERED["stamp"].clear()


def kit(shares=True):
    """The module. Its crates have the files that stand beside a program. Later kits share what they prove among checkouts,
    unless that isn't wanted."""
    sys.path.insert(0, os.path.join(KIT, "bin"))
    words, sys.argv = sys.argv, ["rt"]
    loader = importlib.machinery.SourceFileLoader("rt_of_kit", os.path.join(KIT, "bin", "rt"))
    module = importlib.util.module_from_spec(importlib.util.spec_from_loader("rt_of_kit", loader))
    loader.exec_module(module)
    sys.argv = words
    made = module.rtlib.Crate.__init__

    def make(self, *given, **named):
        made(self, *given, **named)
        module.read_files(self)

    module.rtlib.Crate.__init__ = make
    for name in "stamp", "below":
        reckoned_once(module.rtlib.Crate, name)
    if not shares and hasattr(module, "share_work"):
        module.share_work(False)
    return module
