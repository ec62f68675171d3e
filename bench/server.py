"""A server of the built program, to which benchmarks and checks speak over loopback."""
import os
import socket
import subprocess
import sys
import time

TOP = os.path.dirname(os.path.dirname(os.path.abspath(__file__)))
sys.path.insert(0, os.path.join(TOP, "examples"))
import client  # noqa: E402

# the built program, or another that the environment names
PROGRAM = os.environ.get("DSD") or os.path.join(TOP, "crates", "dsd", "out", "dsd")
ROOM = os.path.join(TOP, "examples", "room.config")
OID, KEY = '"room"', "000102030405060708090a0b0c0d0e0f"
# so long it may take to begin, and to end
SECONDS = 60
LISTENS = "0A"


def use(program):
    """From now on servers are of this program."""
    global PROGRAM
    PROGRAM = program


def is_built():
    return os.access(PROGRAM, os.X_OK)


def reference_text():
    """The text of a signed reference to the room."""
    run = subprocess.run([PROGRAM, "mint", OID, KEY], capture_output=True, text=True, check=True)
    return run.stdout.rstrip("\n")


def reference():
    return client.read_text(reference_text())


def free_port(host="127.0.0.1"):
    with socket.socket(socket.AF_INET6 if ":" in host else socket.AF_INET) as probe:
        probe.bind((host, 0))
        return probe.getsockname()[1]


def is_listened_at(port):
    """Whether somebody listens there. It is looked up, since a link that is tried counts."""
    rows = []
    for name in filter(os.path.exists, ("/proc/net/tcp", "/proc/net/tcp6")):
        with open(name, encoding="ascii") as file:
            rows += [line.split() for line in file][1:]
    return any(row[1].endswith(":%04X" % port) and row[3] == LISTENS for row in rows)


class Server:
    """`dsd serve`, or another word that serves, on a port of its own, or on one that another server had. Where it still runs at
    the end of the block, it is killed."""

    def __init__(self, connections, config=ROOM, workers=2, environment=(), host="127.0.0.1", word="serve", port=None):
        self.port = port or free_port(host)
        self.address = ("[%s]:%d" if ":" in host else "%s:%d") % (host, self.port)
        words = [PROGRAM, word, self.address, config, str(workers), str(connections)]
        self.process = subprocess.Popen(
            words, stdin=subprocess.DEVNULL, stdout=subprocess.PIPE, stderr=subprocess.PIPE, text=True,
            env=dict(os.environ, **dict(environment)))

    def __enter__(self):
        deadline = time.monotonic() + SECONDS
        while not is_listened_at(self.port):
            if self.process.poll() is not None or time.monotonic() > deadline:
                raise ConnectionError("the server doesn't listen: %s" % (self.ended(),))
            time.sleep(0.005)
        return self

    def __exit__(self, *_):
        self.kill()

    def kill(self):
        self.process.kill()
        self.process.communicate()

    def lives(self):
        return self.process.poll() is None

    def ended(self):
        """How it ended, and what it wrote. One that doesn't end is killed."""
        try:
            out, said = self.process.communicate(timeout=SECONDS)
        except subprocess.TimeoutExpired:
            self.process.kill()
            out, said = self.process.communicate()
        return self.process.returncode, out, said

    def memory(self):
        """What the process has in memory, and had at most, in KiB."""
        with open("/proc/%d/status" % self.process.pid, encoding="ascii") as file:
            rows = dict(line.split(":", 1) for line in file)
        return int(rows["VmRSS"].split()[0]), int(rows["VmHWM"].split()[0])

    def seconds(self):
        """Processor time of the process."""
        with open("/proc/%d/stat" % self.process.pid, encoding="ascii") as file:
            fields = file.read().rpartition(")")[2].split()
        return (int(fields[11]) + int(fields[12])) / os.sysconf("SC_CLK_TCK")
