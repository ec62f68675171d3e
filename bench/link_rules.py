"""What has to come of sessions over links in memory, and the sweeps of them that bench/links runs.

All of it is computed from the cases, by the rules of docs/FORMATS.md and docs/MACHINE.md and by the
definitions of crates/srv_turns/specs (Reading, Rounds, Writing), with a decoder of its own.
"""
import collections

from values import dictionary, embedded, integer, record, sequence, string, symbol

# ---- what is sent


def turn(*events):
    """A turn whose events are aimed at object 0."""
    return sequence(*(sequence(integer(0), event) for event in events))


# `<Observe <group <rec Present> {0: <bind <_>>}> #:[0 1]>`
FIRST_FIELD = dictionary((integer(0), record("bind", record("_"))))
PATTERN = record("group", record("rec", symbol("Present")), FIRST_FIELD)
OBSERVATION = record("Observe", PATTERN, embedded(sequence(integer(0), integer(1))))

# An assertion and an observation that matches it, the retraction of the assertion, and `#f`.
FACT = record("Present", string("ann"))
ASSERTS = turn(record("A", FACT, integer(1)), record("A", OBSERVATION, integer(2)))
RETRACTS = turn(record("R", integer(1)))
STREAM = ASSERTS + RETRACTS + b"\x80"

# An observation alone.
WATCHES = turn(record("A", OBSERVATION, integer(1)))

# A call of this number is never made.
NEVER = 1 << 32

# One connection over a link: its bytes, the most that a take gives, the take that fails and the put
# that does. Takes and puts are counted from 0.
Link = collections.namedtuple("Link", "bytes piece take put", defaults=(1 << 16, NEVER, NEVER))

# A connection that watches while others come, send the stream and go: how many do before its writer
# runs, and how many at rests of its writer, one at each; the put that fails; the sink's room.
Watch = collections.namedtuple("Watch", "before rests put room", defaults=(NEVER, 4096))

Linked = collections.namedtuple("Linked", (
    "reader_steps", "writer_steps", "reader_end", "bytes_left", "takes_failed",
    "writer_end", "held", "finishes", "puts_failed"))
Watched = collections.namedtuple("Watched", (
    "writer_steps", "writer_end", "held", "finishes", "puts_failed", "others_that_ended_clean"))


def line_of(case):
    """The case as a line of the program's input."""
    if isinstance(case, Link):
        spelled = case.bytes.hex() or "-"
        words = ["link", spelled, WATCHES.hex(), case.piece, case.take, case.put, 4096, 0, 0]
    else:
        words = ["watch", STREAM.hex(), WATCHES.hex(), 1, NEVER, case.put]
        words += [case.room, case.before, case.rests]
    return " ".join(map(str, words)) + "\n"


# ---- what bytes spell, by docs/FORMATS.md, as far as a byte 00 can spoil this stream

ATOMS = {0xB0: "integer", 0xB1: "string", 0xB2: "bytes", 0xB3: "symbol"}
COMPOUNDS = {0xB4: "record", 0xB5: "sequence", 0xB6: "set", 0xB7: "dictionary"}


class Waits(Exception):
    """The bytes end before the value does."""


class Bad(Exception):
    """A fault: its number and its place, or neither for a value that is no packet."""


def byte_at(b, at):
    if at >= len(b):
        raise Waits
    return b[at]


def value_at(b, at):
    """The value that begins there, as its kind and what it holds, and where it ends."""
    tag = byte_at(b, at)
    if tag in (0x80, 0x81):
        return ("bool", tag == 0x81), at + 1
    if tag == 0x86:
        inside, end = value_at(b, at + 1)
        return ("embedded", inside), end
    if tag in ATOMS:
        return atom_at(b, at)
    if tag in COMPOUNDS:
        return compound_at(b, at)
    raise Bad(2, at)


def atom_at(b, at):
    end = at + 2 + byte_at(b, at + 1)
    byte_at(b, end - 1)
    kind, body = ATOMS[b[at]], b[at + 2:end]
    if kind != "integer":
        return (kind, body), end
    number = int.from_bytes(body, "big", signed=True)
    if b[at:end] != integer(number):
        raise Bad(4, at)
    return (kind, number), end


def compound_at(b, at):
    kind, parts, end = COMPOUNDS[b[at]], [], at + 1
    while True:
        # a label, or the value of a key
        is_due = (kind == "record" and not parts) or (kind == "dictionary" and len(parts) % 2 == 1)
        if byte_at(b, end) == 0x84 and not is_due:
            return (kind, parts), end + 1
        part, end = value_at(b, end)
        parts.append(part)


def change(event):
    """What an event does, `A` or `R`, and its handle. The stream has no other events."""
    kind, parts = event
    if kind == "sequence" and [part[0] for part in parts] == ["integer", "record"]:
        label, *fields = parts[1][1]
        if label == ("symbol", b"A") and len(fields) == 2 and fields[1][0] == "integer":
            return "A", fields[1][1]
        if label == ("symbol", b"R") and len(fields) == 1 and fields[0][0] == "integer":
            return "R", fields[0][1]
    raise Bad


def read(b):
    """The turns that the bytes spell, each as it is spelled and as its events' changes; the fault
    that ends them, if one does; and how many bytes are undecided."""
    turns, at = [], 0
    try:
        while True:
            (kind, held), end = value_at(b, at)
            if kind == "sequence":
                turns.append((b[at:end], [change(event) for event in held]))
            elif (kind, held) != ("bool", False):
                raise Bad
            at = end
    except Waits:
        return turns, None, len(b) - at
    except Bad as fault:
        return turns, fault.args, len(b) - at


# ---- what has to come of a link


def pair(step, reply):
    return "%s=%s;" % (step, reply)


def work(is_told):
    """Work up to the first that isn't done: one batch, where the dataspace is told of anything."""
    return (pair("Work", "Ran") if is_told else "") + pair("Work", "Idle")


def fault_word(fault):
    return "BadBytes(%d, %d)" % fault if fault else "BadPacket"


def error_packet(fault):
    if fault:
        return record("error", string("bad bytes"), sequence(*map(integer, fault)))
    return record("error", string("bad packet"), sequence(integer(30)))


def taken_of(case):
    """How many bytes a reader takes, and why no more: a take fails, the link ends, or a fault
    stands in them."""
    taken, takes = 0, 0
    while read(case.bytes[:taken])[1] is None:
        if takes == case.take:
            return taken, "ReadFault"
        if taken == len(case.bytes):
            return taken, "end"
        taken, takes = min(taken + case.piece, len(case.bytes)), takes + 1
    return taken, "fault"


def packet_steps(turns):
    """The steps of these turns, each with its work; and whether rows of the connection are left,
    which its end takes back."""
    steps, rows = "", set()
    for spelled, changes in turns:
        steps += pair("Packet 1 " + spelled.hex(), "Taken") + work(changes)
        for kind, handle in changes:
            (rows.add if kind == "A" else rows.remove)(handle)
    return steps, bool(rows)


def last_step(fault, has_rows):
    """A fault is bad, and is refused. Else the connection is closed, which is work for its
    dataspace where it has rows there."""
    if fault is None:
        return pair("Close 1", "Taken") + work(has_rows)
    return pair("Bad 1 " + fault_word(fault), "Refused " + fault_word(fault))


def linked(case):
    """What has to come of a connection over a link: of its reader, and then of its writer.

    The reader: a packet step for each whole turn in what it takes, each with its work; then the
    last step; and nothing behind it. The writer: the connection has ended, so it is sent the error
    packet that tells the fault, where it ended for one, and then it is gone. Where the put of that
    packet fails, the writer closes the connection, which is gone.
    """
    taken, why = taken_of(case)
    turns, fault, undecided = read(case.bytes[:taken])
    steps, has_rows = packet_steps(turns)
    steps += last_step(fault, has_rows)
    if why == "fault":
        end = "Refused(%s)" % fault_word(fault)
    elif why == "ReadFault":
        end = why
    else:
        end = "Cut" if undecided else "Clean"
    reads = (end, len(case.bytes) - taken, int(why == "ReadFault"))
    sent = b"" if fault is None else error_packet(fault)
    writes = (pair("Turn 17", "Sent " + sent.hex()) if sent else "") + pair("Turn 17", "Gone")
    if sent and case.put == 0:
        return Linked(steps, writes + pair("Close 1", "Gone"), *reads, "WriteFault", b"", 1, 1)
    return Linked(steps, writes, *reads, "Ended", sent, 1, 0)


# ---- what has to come of a connection that watches


def told_by(number):
    """The packets by which the watcher is told that `ann` is there, and that she is no more, where
    so many others came before.

    Handle 1 is that of the observation. For each of the others four are drawn: for its two rows,
    then for the row by which the dataspace tells the watcher, and for the one by which it tells
    that connection itself, which observes too.
    """
    handle = 4 + 4 * number
    told = record("A", sequence(string("ann")), integer(handle)), record("R", integer(handle))
    return [sequence(sequence(integer(1), event)) for event in told]


def watched(case):
    """What has to come of the writer of a connection that watches.

    It makes turns until nothing waits, puts at once what they send, and rests; and then again.
    Where a put fails, it closes the connection and ends. When all others have come and gone, the
    connection is closed at the next rest: then it is gone, and the writer ends.
    """
    steps, held, puts, told = "", b"", 0, 0
    for rests in range(case.rests + 2):
        come = case.before + min(rests, case.rests)
        packets = [packet for number in range(told, come) for packet in told_by(number)]
        told, is_gone = come, rests > case.rests
        steps += "".join(pair("Turn 17", "Sent " + packet.hex()) for packet in packets)
        steps += pair("Turn 17", "Gone" if is_gone else "Idle")
        piece = b"".join(packets)
        if piece and (puts == case.put or len(held + piece) > case.room):
            steps += pair("Close 1", "Taken")
            return Watched(steps, "WriteFault", held, 1, 1, told)
        held, puts = held + piece, puts + bool(piece)
    return Watched(steps, "Ended", held, 1, 0, told)


def wanted(case):
    return linked(case) if isinstance(case, Link) else watched(case)


# ---- sweeps


def cuts():
    """The link ends after each number of bytes. The end is clean where no byte is undecided."""
    return [Link(STREAM[:size]) for size in range(len(STREAM) + 1)]


def pieces():
    """A take gives at most so many bytes, for each number. All is as with one piece."""
    return [Link(STREAM, piece) for piece in range(1, len(STREAM) + 1)]


def takes():
    """Each take fails in turn, until none is left to fail, at pieces of several sizes. The turns
    stand that are whole in what was taken, and the connection is closed."""
    sizes = (1, 2, 3, 5, 8, 13, 21, 34, 64, len(ASSERTS), len(ASSERTS) + 1, len(STREAM))
    cases = []
    for piece in sizes:
        made = -(-len(STREAM) // piece) + 1
        cases += [Link(STREAM, piece, take) for take in range(made + 1)]
    return cases


def faults():
    """A byte 00 in the place of each byte in turn, at pieces of several sizes. Where that is a
    fault, the turns before it stand, it is refused by its number and place, and nothing follows."""
    spoiled = [STREAM[:at] + b"\0" + STREAM[at + 1:] for at in range(len(STREAM))]
    return [Link(b, piece) for piece in (1, 64, len(STREAM)) for b in spoiled]


def put_faults():
    """Each put of a watcher's writer fails in turn, until none is left to fail; and so does that of
    the packet which tells a fault."""
    cases = []
    for before in range(3):
        for rests in range(5):
            made = min(before, 1) + rests
            cases += [Watch(before, rests, put) for put in range(made + 1)]
    fronts = (b"", ASSERTS, STREAM)
    return cases + [Link(front + b"\0", put=put) for front in fronts for put in (0, 1)]


def rooms():
    """A watcher's sink has room for so many bytes, for each number, until four puts fit. It holds
    whole puts, as many as fit."""
    size = sum(len(packet) for number in range(4) for packet in told_by(number))
    return [Watch(1, 3, NEVER, room) for room in range(size + 1)]


SWEEPS = {
    "cuts": cuts,
    "pieces": pieces,
    "takes": takes,
    "faults": faults,
    "puts": put_faults,
    "rooms": rooms,
}
