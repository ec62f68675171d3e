"""Runs the program on a script, and tells what that took; counts the instructions of a command."""
import os
import re
import subprocess
import sys
import tempfile
import time

TOP = os.path.dirname(os.path.dirname(os.path.abspath(__file__)))
# the built program, or another that the environment names
PROGRAM = os.environ.get("DSD") or os.path.join(TOP, "crates", "dsd", "out", "dsd")
# the memory is looked at so often, in seconds
OFTEN = 0.002
COLLECTED = re.compile(r"^summary: (\d+)|^totals: (\d+)", re.M)


def needs_program():
    if not os.access(PROGRAM, os.X_OK):
        sys.exit("%s: the program isn't built: .ci/run builds it" % os.path.relpath(sys.argv[0], TOP))


def most_memory(process, before):
    """The most bytes that the process had in memory until now. What it is told of once it has ended has the
    memory of this process in it too."""
    try:
        with open("/proc/%d/status" % process.pid, encoding="ascii") as file:
            rows = dict(line.split(":", 1) for line in file)
        return max(before, int(rows["VmHWM"].split()[0]) * 1024)
    except (OSError, KeyError):
        return before


def run(words, data=b""):
    """Seconds by the clock, seconds of processor time, and the most memory in bytes, of the program with these
    words and this input."""
    with tempfile.TemporaryFile() as file:
        file.write(data)
        file.seek(0)
        begin, peak, ended = time.monotonic(), 0, 0
        child = subprocess.Popen([PROGRAM, *words], stdin=file, stdout=subprocess.DEVNULL)
        while not ended:
            time.sleep(OFTEN)
            peak = most_memory(child, peak)
            ended, status, usage = os.wait4(child.pid, os.WNOHANG)
        took = time.monotonic() - begin
    if status != 0:
        sys.exit("dsd %s ended with status %d" % (" ".join(words), os.waitstatus_to_exitcode(status)))
    return took, usage.ru_utime + usage.ru_stime, peak


def counted(command, data=b""):
    """How many instructions this command takes with this input, by callgrind."""
    with tempfile.TemporaryDirectory() as folder:
        out = os.path.join(folder, "out")
        under = ["valgrind", "--tool=callgrind", "--callgrind-out-file=" + out, *command]
        subprocess.run(under, input=data, stdout=subprocess.DEVNULL, stderr=subprocess.DEVNULL, check=True)
        with open(out, encoding="utf-8") as file:
            return max(int(one or other) for one, other in COLLECTED.findall(file.read()))
