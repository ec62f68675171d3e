"""Sessions over loopback with the built program, for the scripts of tools/ that try it: what connections are told, clients of the
examples in processes of their own, and a script's parts, one after another."""
import argparse
import os
import signal
import socket
import struct
import subprocess
import sys

from server import TOP, client, is_built

CLIENT = os.path.join(TOP, "examples", "client.py")
# a part that takes longer has failed, on however busy a machine
SECONDS = 120
SERVED = "<served %d %d>\n"


# ---- connections


def told(connection):
    """The next event."""
    event = connection.event()
    if event is None:
        raise ConnectionError("the server left")
    return event


def entered(connection, minted, *observations):
    """Resolves the room and observes there; gives the room's oid once that is done."""
    room = connection.resolve(minted, client.ANSWER, client.RESOLVED)
    connection.send(*(observe(room) for observe in observations), client.syncs(room, client.own(client.DONE)))
    while told(connection)[0] != client.DONE:
        pass
    return room


def cut(connection):
    """Closes the link without a word, by a reset."""
    connection.link.setsockopt(socket.SOL_SOCKET, socket.SO_LINGER, struct.pack("ii", 1, 0))
    connection.link.close()


def left(server, served, others=0):
    """Finds whether the server ends well, so many links having been served."""
    ended = server.ended()
    if ended != (0, SERVED % (served, others), ""):
        yield "the server ended with %s, and not with %s" % (ended, SERVED % (served, others))


class Guest:
    """A process of examples/client.py."""

    def __init__(self, server, text, name):
        words = [sys.executable, CLIENT, server.address, text, name]
        self.name = name
        self.process = subprocess.Popen(words, stdin=subprocess.PIPE, stdout=subprocess.PIPE, text=True)

    def say(self, text):
        self.process.stdin.write(text + "\n")
        self.process.stdin.flush()

    def prints(self, *lines):
        """Finds whether these are the next lines that it prints."""
        for line in lines:
            printed = self.process.stdout.readline().rstrip("\n")
            if printed != line:
                yield "%s: %r is printed in place of %r" % (self.name, printed, line)

    def leaves(self):
        self.process.stdin.close()
        yield from self.prints('- "%s"' % self.name, "")
        if self.process.wait():
            yield "%s ended with %d" % (self.name, self.process.returncode)


# ---- parts


def ring(*_):
    raise TimeoutError("it didn't end within %d seconds" % SECONDS)


def findings(part):
    signal.alarm(SECONDS)
    try:
        yield from part()
    except Exception as fault:
        yield "%s: %s" % (type(fault).__name__, fault)
    finally:
        signal.alarm(0)


def try_all(usage, parts, long=()):
    """Tries the parts that the words name, or all, and those that take minutes where `--long` is among the words. Prints what isn't
    as it should be, a line each, and ends with 1 where something isn't."""
    reader = argparse.ArgumentParser(usage=usage)
    reader.add_argument("--long", action="store_true")
    reader.add_argument("part", nargs="*")
    args = reader.parse_args()
    named = {part.__name__: part for part in [*parts, *long]}
    if not set(args.part) <= set(named):
        reader.error("the parts are %s" % ", ".join(named))
    if not is_built():
        sys.exit("%s: the program isn't built: rt ci builds it" % os.path.relpath(sys.argv[0], TOP))
    signal.signal(signal.SIGALRM, ring)
    failed = 0
    for part in [named[it] for it in args.part] or [*parts, *(long if args.long else ())]:
        for found in findings(part):
            failed += 1
            print("%s: %s" % (part.__name__.replace("_", " "), found), flush=True)
    sys.exit(1 if failed else 0)
