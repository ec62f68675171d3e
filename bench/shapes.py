"""What stands in a dataspace, and what comes and goes there: the kinds that bench/space and bench/index
measure. Values are texts, in which #:[17 n] is object n of a connection."""
import dataclasses
import typing

# so many different values come and go, one after another
COMING = 1_000
FEW, MANY = (10, 1_000, 10_000, 100_000), (10, 1_000, 4_096, 10_000)


@dataclasses.dataclass
class Kind:
    """A kind: what it is about, what stands there, by how many others, and what comes and goes then, by what
    it shows."""
    what: str
    stands: typing.Callable
    comes: typing.Callable
    others: tuple = FEW
    # what stands there beside the others
    beside: tuple = ()
    # `+` for what stands in the dataspace, `m` for the map
    mark: str = "+"
    word: str = "changes"
    # a value that comes and goes makes two changes, and one that is looked up is one look-up
    parts: int = 2


def fact(n, m):
    return "<Load %d %d>" % (n, m)


def observing(pattern, entity):
    return "<Observe %s #:[17 %d]>" % (pattern, entity)


def loads(fields, label="Load"):
    return "<group <rec %s> {%s}>" % (label, fields)


def of_number(n, label="Load"):
    """A pattern of the facts of a number."""
    return loads("0: <lit %d> 1: <bind <_>>" % n, label)


def observation(n, entity):
    return observing(of_number(n), entity)


def spread(others):
    """Some of the numbers of the others, from the first to the last."""
    return range(1, others + 1, max(1, others // COMING))


# ---- others that a change doesn't concern


def observations(others):
    return (observation(n, n) for n in range(1, others + 1))


def facts(others):
    return (fact(n, n) for n in range(1, others + 1))


def other_labels(others):
    return (observing(of_number(n, "Load%d" % n), n) for n in range(1, others + 1))


def other_fields(others):
    return (observing(loads("0: <lit 0> %d: <bind <_>>" % (n + 1)), n) for n in range(1, others + 1))


def facts_of_one(others):
    return {"": [fact(0, n) for n in range(COMING)]}


# ---- observations that come late


def facts_in_tens(others):
    """Ten of each number."""
    return (fact(n // 10, n) for n in range(others))


ALL = loads("1: <bind <_>>")


def late(others, beside):
    """Observations that come last, of which each wants none, ten or all of the facts."""
    made = {
        "wants none": of_number(others),
        "wants ten": of_number(0),
        "wants all": ALL,
        "wants none, of another label": of_number(0, "Other"),
    }
    return {"%s, %s" % (what, beside): [observing(pattern, 1)] for what, pattern in made.items()}


# ---- shapes that are made to cost much


def constants(count):
    """One observation of so many constants."""
    return [observing(loads(" ".join("%d: <lit 0>" % n for n in range(count))), 0)]


def with_constants(count):
    return {"it is wanted": [zeros(count)], "it lacks the last": [zeros(count - 1)], "it has two": [zeros(2)]}


def zeros(fields):
    return "<Load %s>" % " ".join(["0"] * fields)


def deep(steps):
    """One observation of what stands so many steps deep in sequences. A step nests two levels: an observation
    that nests forty-eight has a path of twenty-three."""
    pattern = "<lit 0>"
    for _ in range(steps):
        pattern = "<group <arr> {0: %s}>" % pattern
    return [observing(pattern, 0)]


def nested(inside, steps):
    return "[" * steps + str(inside) + "]" * steps


def with_depth(steps):
    return {"it is wanted": [nested(0, steps)], "another stands there": [nested(1, steps)],
            "it isn't so deep": [nested(0, steps - 1)]}


# how many constants each shape has; by their weight a connection may have 4,096 shapes with two, and 1,000
# with seventeen
HEAVY = {4_096: 2, 1_000: 17}


def heavy(others):
    """Shapes that differ in the last place alone at which a constant is to stand."""
    count = HEAVY.get(others, 2)
    same = " ".join("%d: <lit 0>" % n for n in range(count - 1))
    return (observing(loads("%s %d: <lit 0>" % (same, count + n), "L"), 0) for n in range(others))


def heavy_fact(others, fields, value):
    """It has what is the same in these shapes, and behind that so many fields."""
    count = HEAVY.get(others, 2)
    return ["<L %s>" % " ".join(["0"] * count + [str(value)] * fields)]


def with_heavy(others):
    return {
        "it has another label": ["<Other 0>"],
        "it has none of the last places": heavy_fact(others, 0, 0),
        "it has all the last places, with others": heavy_fact(others, others, 1),
        "it has all the last places, and all want it": heavy_fact(others, others, 0),
    }


KINDS = {
    "observations": Kind(
        "a fact that one observer wants, beside observations of the same shape",
        observations, lambda others: {"": [fact(n, 0) for n in spread(others)]}),
    "facts": Kind(
        "a fact that one observer wants, beside facts of the same label and a hundred observers",
        facts, lambda others: {"": [fact(n, 0) for n in range(1, 101)]},
        beside=tuple(observation(n, n) for n in range(1, 101))),
    "labels": Kind(
        "a fact that one observer wants, beside observations each of another label",
        other_labels, facts_of_one, MANY, beside=(observation(0, 0),)),
    "fields": Kind(
        "a fact that one observer wants, beside observations of the same label, each of another field",
        other_fields, facts_of_one, MANY, beside=(observation(0, 0),)),
    "wanted": Kind(
        "an observation that wants one fact, beside facts and an observer of the same shape",
        facts, lambda others: {"": [observation(n, n) for n in spread(others)]}, beside=(observation(0, 0),)),
    "late": Kind(
        "an observation that comes to facts, where its shape has an observer already",
        facts_in_tens, lambda others: late(others, "a shape that is known"),
        beside=(observation(-1, 0), observing(ALL, 0), observing(of_number(0, "Other"), 0))),
    "first": Kind(
        "an observation that comes to facts, the first of its shape",
        facts_in_tens, lambda others: late(others, "a shape that is new")),
    "constants": Kind(
        "a fact beside an observation of so many constants", constants, with_constants, (10, 100, 1_000)),
    "deep": Kind(
        "a fact beside an observation of what stands so many steps deep", deep, with_depth, (1, 5, 23)),
    "crowd": Kind(
        "a fact that all the others observe", lambda others: (observation(0, n) for n in range(others)),
        lambda others: {"": [fact(0, 0)]}, (10, 100, 1_000, 10_000)),
    "all": Kind(
        "beside an observation of everything, and other observations among the facts", observations,
        lambda others: {"an observation": [observation(0, 0)], "a fact that nobody else wants": [fact(0, 0)]},
        # as many as may be wanted by their weight
        (10, 1_000, 10_000, 25_000), beside=(observing("<bind <_>>", 0),)),
    "heavy": Kind(
        "a fact beside shapes that differ in the last constant's place alone", heavy, with_heavy,
        tuple(HEAVY)),
    "map": Kind(
        "a look-up in an ordered map of as many facts",
        facts, lambda others: {"": [fact(n, n) for n in spread(others)]}, mark="m", word="lookups", parts=1),
}
