"""Facets: scopes of a connection, whose facts, observations and objects go with them.

What calls back is called by the connection's own thread, or by the one that retracts an observation, one event after another,
while nothing else is done on the connection: so it shouldn't wait. It may assert, retract, observe, say and close facets."""
from __future__ import annotations

import collections
from collections.abc import Callable, Iterator
from dataclasses import dataclass
from typing import TYPE_CHECKING, Optional, Union

from .faults import Behind, Disconnected
from .packets import Assert, Own, Reference, Retract, own
from .values import Record, Value, record

if TYPE_CHECKING:
    from .connection import Connection, Resolved

Target = Union["Resolved", Reference]
Called = Optional[Callable[[Value], None]]

# what the server keeps for a connection that takes nothing: docs/LIMITS.md
MOST_WAITING = 65_536


class Fact:
    """A value that stands at a target while its facet does, or until it is retracted."""

    def __init__(self, facet: "Facet", target: Target, value: Value, handle: int):
        self.facet, self.target, self.value, self.handle = facet, target, value, handle
        self.said = False  # on the link that there is now
        self.told: Object | None = None  # of an observation the object that it tells

    @property
    def stands(self) -> bool:
        return self.handle in self.facet.facts


class Object:
    """An object of ours: it is told of what comes and goes there, and of what is said."""

    def __init__(self, number: int, asserted: Called = None, retracted: Called = None, said: Called = None):
        self.reference: Own = own(number)
        self.standing: dict[int, Value] = {}
        self.asserted, self.retracted, self.said = asserted, retracted, said

    def comes(self, handle: int, value: Value) -> None:
        self.standing[handle] = value
        if self.asserted is not None:
            self.asserted(value)

    def goes(self, handle: int) -> None:
        value = self.standing.pop(handle)
        if self.retracted is not None:
            self.retracted(value)

    def forget(self) -> None:
        """Nothing stands there any more."""
        for handle in list(self.standing):
            if handle in self.standing:
                self.goes(handle)

    def hears(self, body: Value) -> None:
        if self.said is not None:
            self.said(body)


class _During(Object):
    """For each value that stands there, a facet which goes with it."""

    def __init__(self, number: int, facet: "Facet", body: Callable[["Facet", Value], None]):
        super().__init__(number)
        self.facet, self.body = facet, body
        self.inside: dict[int, Facet] = {}

    def comes(self, handle: int, value: Value) -> None:
        super().comes(handle, value)
        self.inside[handle] = self.facet.facet()
        self.body(self.inside[handle], value)

    def goes(self, handle: int) -> None:
        super().goes(handle)
        self.inside.pop(handle).close()


@dataclass(frozen=True)
class Asserted:
    """What was captured of a fact that came."""

    captures: Value


@dataclass(frozen=True)
class Retracted:
    """What was captured of a fact that went."""

    captures: Value


@dataclass(frozen=True)
class Said:
    """What was captured of a message."""

    captures: Value


Change = Union[Asserted, Retracted, Said]


class Watch(Iterator):
    """What an observation is told, one change after another. It ends with its facet, and raises what ends the connection."""

    def __init__(self, facet: "Facet"):
        self._facet, self._connection = facet, facet.connection
        self._waiting: collections.deque[Change] = collections.deque()

    def put(self, change: Change) -> None:
        if len(self._waiting) >= MOST_WAITING:
            raise Behind("%d changes wait for an iterator" % MOST_WAITING)
        self._waiting.append(change)
        self._connection.news.notify_all()

    def __next__(self) -> Change:
        with self._connection.news:
            self._connection.wait_for(lambda: self._waiting or not self._facet.is_open)
            if not self._waiting:
                raise StopIteration
            return self._waiting.popleft()


class Facet:
    """A scope. Who closes it takes back all that was asserted in it, and in those inside it. It is a context manager."""

    def __init__(self, connection: "Connection", outer: Optional["Facet"] = None):
        self.connection, self.outer = connection, outer
        self.is_open = True
        self.facts: dict[int, Fact] = {}
        self.objects: dict[int, Object] = {}
        self.inside: list[Facet] = []

    def __enter__(self) -> "Facet":
        return self

    def __exit__(self, *_: object) -> None:
        self.close()

    def facet(self) -> "Facet":
        """A facet inside this one."""
        with self.connection.lock:
            self._must_be_open()
            made = Facet(self.connection, self)
            self.inside.append(made)
            return made

    # ---- facts

    def assert_(self, target: Target, value: Value) -> Fact:
        """The value stands at the target from now on; on a new link it is asserted anew."""
        with self.connection.lock:
            self._must_be_open()
            fact = Fact(self, target, value, self.connection.next_handle())
            self.connection.stand(fact)
            self.facts[fact.handle] = fact
            return fact

    def retract(self, fact: Fact) -> None:
        """Takes a fact of this facet back. One that is gone already stays so. What an observation has told goes with it."""
        with self.connection.lock:
            if self.facts.pop(fact.handle, None) is None:
                return
            self.connection.take_back([fact])
            if fact.told is not None:
                self._let_go(fact.told)

    def replace(self, fact: Fact, value: Value) -> Fact:
        """Takes a fact back and asserts another one at its target, in one turn: nobody sees neither of them, or both."""
        with self.connection.lock:
            self._must_be_open()
            made = Fact(self, fact.target, value, self.connection.next_handle())
            self.connection.replace(fact, made)
            self.facts.pop(fact.handle, None)
            self.facts[made.handle] = made
            return made

    # ---- what is told

    def object(self, asserted: Called = None, retracted: Called = None, said: Called = None) -> Own:
        """A reference to an object of ours, for values: by it others assert and say something to us."""
        with self.connection.lock:
            self._must_be_open()
            return self._kept(Object(self.connection.next_object(), asserted, retracted, said)).reference

    def observe(self, target: Target, pattern: Record, asserted: Called = None, retracted: Called = None,
                said: Called = None) -> Fact:
        """Calls back with what the pattern captures of facts that come and go at the target, and of messages. It ends where
        the fact is retracted that is given here."""
        return self._observed(target, pattern, lambda number: Object(number, asserted, retracted, said))

    def during(self, target: Target, pattern: Record, body: Callable[["Facet", Value], None]) -> Fact:
        """For each list of captures that stands, calls back with a facet that goes when it does."""
        return self._observed(target, pattern, lambda number: _During(number, self, body))

    def watch(self, target: Target, pattern: Record) -> Watch:
        """An iterator over what an observation is told. Each change waits there until it is taken."""
        watch = Watch(self)
        self.observe(target, pattern, *(lambda it, kind=kind: watch.put(kind(it)) for kind in (Asserted, Retracted, Said)))
        return watch

    def _observed(self, target: Target, pattern: Record, make: Callable[[int], Object]) -> Fact:
        with self.connection.lock:
            self._must_be_open()
            told = make(self.connection.next_object())
            fact = self.assert_(target, record("Observe", pattern, told.reference))
            fact.told = self._kept(told)
            return fact

    def _kept(self, made: Object) -> Object:
        self.objects[made.reference.number] = made
        self.connection.objects[made.reference.number] = made
        return made

    def _let_go(self, told: Object) -> None:
        del self.objects[told.reference.number], self.connection.objects[told.reference.number]
        told.forget()

    # ---- the end

    def close(self) -> None:
        """Ends the facet, and those inside it, and takes back their facts. A second time it does nothing."""
        with self.connection.lock:
            if self.is_open:
                facts = self._ended()
                if self.outer is not None:
                    self.outer.inside.remove(self)
                self.connection.take_back(facts)

    def _ended(self) -> list[Fact]:
        """Ends all inside, and then this one; the facts that are to be taken back."""
        facts = [fact for it in reversed(self.inside) for fact in it._ended()]
        facts += self.facts.values()
        for number in self.objects:
            del self.connection.objects[number]
        self.inside, self.facts, self.objects, self.is_open = [], {}, {}, False
        self.connection.news.notify_all()
        return facts

    def _must_be_open(self) -> None:
        self.connection.must_live()
        if not self.is_open:
            raise Disconnected("the facet is closed")


def assertion(fact: Fact) -> Assert:
    return Assert(fact.value, fact.handle)


def retraction(fact: Fact) -> Retract:
    return Retract(fact.handle)
