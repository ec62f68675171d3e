"""Events of scripts, and of the turns that connections send in them, as the benchmarks make them: in the
binary form."""
from values import byte_string, dictionary, embedded, integer, record, sequence, symbol

# so many events a turn has at most
EVENTS = 500


def opened(count):
    """So many connections come to the first dataspace."""
    return record("open", integer(1)) * count


def drained():
    return record("drain", integer(1_000_000))


def sent(connection, events):
    """A turn."""
    return record("bytes", integer(connection), byte_string(sequence(*events)))


def assertion(value, handle, oid=0):
    return sequence(integer(oid), record("A", value, integer(handle)))


def retraction(handle, oid=0):
    return sequence(integer(oid), record("R", integer(handle)))


def message(oid, value):
    return sequence(integer(oid), record("M", value))


def own(entity):
    """A reference to an object of the connection's own."""
    return embedded(sequence(integer(0), integer(entity)))


def exported(oid, *caveats):
    return embedded(sequence(integer(1), integer(oid), *caveats))


def many_caveats():
    """As many caveats as a reference may have, nearly as heavy as they may be. They let pass all that is sent here."""
    literals = sequence(*(record("lit", integer(n)) for n in range(11)))
    return [record("reject", record("and", literals))] * 32


def observation_by(label, observer):
    """Of the records of a label, which are captured by their first field."""
    bound = dictionary((integer(0), record("bind", record("_"))))
    pattern = record("group", record("rec", symbol(label)), bound)
    return record("Observe", pattern, observer)


def observation(label, entity):
    return observation_by(label, own(entity))
