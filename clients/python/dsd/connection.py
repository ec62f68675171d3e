"""A connection to a server: signed references resolved, facts that stand while facets do, and links made anew (docs/CLIENTS.md).

One thread of the connection's own hears; whatever other threads do is sent at once. Where a link ends and `reconnect` is given,
another one is dialled, the references are resolved there and the facts asserted anew; what was heard is gone until it is heard
again."""
from __future__ import annotations

import itertools
import threading
from collections.abc import Callable, Iterator
from dataclasses import dataclass

from .faults import (
    CallbackFailed, Disconnected, DsdError, LinkEnded, Refusal, Rejected, ServerFault, Stale, TimedOut, Unreachable,
)
from .facets import Facet, Fact, Object, Target, assertion, retraction
from .link import MOST_HEARD, Link
from .packets import (
    MOST_EVENTS, Assert, Event, Message, Own, Reference, Retract, Sync, as_heard, packet_of, turn_bytes,
)
from .sturdy import SturdyReference
from .values import Record, Symbol, Value, embedded_in, record

GATEKEEPER = 0
# so long an answer, a dial and the end of a link are waited for
SECONDS = 30.0


@dataclass(frozen=True)
class Reconnect:
    """How often a link is dialled anew: after the first so many seconds, then twice as long each time up to the most."""

    first: float = 0.1
    most: float = 10.0
    tries: int = 1_000_000

    def delays(self) -> Iterator[float]:
        delay = self.first
        for _ in range(self.tries):
            yield delay
            delay = min(2 * delay, self.most)


class Resolved:
    """What a signed reference stands for. Its number is another one on each link."""

    def __init__(self, reference: SturdyReference, answer: Object, handle: int):
        self.reference, self.answer, self.handle = reference, answer, handle
        self.number: int | None = None
        self.known = False  # it was accepted, on this link or on an earlier one

    def asked(self) -> Assert:
        return Assert(record("resolve", self.reference.value(), self.answer.reference), self.handle)


class Connection:
    """A connection, and its outermost facet, `root`. It is a context manager, which raises at its end what ended it."""

    def __init__(self, address: str, *, reconnect: Reconnect | None = None, seconds: float = SECONDS,
                 most_bytes: int = MOST_HEARD, lost: Callable[[list[Fact]], None] | None = None):
        self.address, self.reconnect, self.seconds, self.most_bytes = address, reconnect, seconds, most_bytes
        self.lost = lost
        self.lock = threading.RLock()
        self.news = threading.Condition(self.lock)
        self.objects: dict[int, Object] = {}
        self.root = Facet(self)
        self._facts: dict[int, Fact] = {}
        self._resolved: list[Resolved] = []
        self._numbers, self._handles = itertools.count(1), itertools.count(1)
        self._count = 0
        self._stop, self._over = threading.Event(), False
        self._fault: DsdError | None = None
        self._link: Link | None = self._dialled()
        self._thread = threading.Thread(target=self._run, name="dsd", daemon=True)
        self._thread.start()

    def __enter__(self) -> "Connection":
        return self

    def __exit__(self, kind: object, *_: object) -> None:
        self.close()
        if kind is None and self._fault is not None:
            raise self._fault

    # ---- what is done from outside

    def resolve(self, reference: SturdyReference, seconds: float | None = None) -> Resolved:
        """Gives the gatekeeper a signed reference, and waits for the answer: what it stands for, or `Rejected`."""
        self._must_not_wait_for_itself()
        with self.lock:
            self.must_live()
            answer = Object(self.next_object())
            resolved = Resolved(reference, answer, self.next_handle())
            answer.asserted = lambda value: self._answered(resolved, value)
            self.objects[answer.reference.number] = answer
            self._resolved.append(resolved)
            self._send_if_linked([(GATEKEEPER, resolved.asked())])
            try:
                self.wait_for(lambda: resolved.known or resolved not in self._resolved, seconds or self.seconds)
            except TimedOut:
                self._let_go(resolved)
                self._send_if_linked([(GATEKEEPER, Retract(resolved.handle))])
                raise
            if not resolved.known:
                raise Rejected(reference.text())
            return resolved

    def message(self, target: Target, body: Value) -> None:
        """Says something, which is heard once. Where there is no link it isn't kept."""
        with self.lock:
            self.must_live()
            self._must_be_current(body)
            self._send([(self._oid(target), Message(body))])

    def sync(self, target: Target, seconds: float | None = None) -> None:
        """Waits until the target has done all that was sent to it before."""
        self._must_not_wait_for_itself()
        with self.lock:
            self.must_live()
            answers: list[Value] = []
            answer, count = Object(self.next_object(), said=answers.append), self._count
            self.objects[answer.reference.number] = answer
            try:
                self._send([(self._oid(target), Sync(answer.reference))])
                self.wait_for(lambda: answers or self._count != count or self._link is None, seconds or self.seconds)
            finally:
                del self.objects[answer.reference.number]
            if not answers:
                raise self._fault or LinkEnded("before a sync was answered")

    def close(self) -> None:
        """Goes: all that was asserted is taken back, since the link ends. Waits until it has ended."""
        with self.lock:
            self._stop.set()
            if self.root.is_open:
                self.root._ended()
            if self._link is not None:
                self._link.finish()
        if threading.current_thread() is not self._thread:
            self._thread.join(self.seconds)
            if self._thread.is_alive() and self._link is not None:
                self._link.close()
                self._thread.join()

    def wait(self, seconds: float | None = None) -> None:
        """Waits until the connection is closed, and raises what ended it."""
        self._must_not_wait_for_itself()
        with self.lock:
            self.news.wait_for(lambda: self._over, seconds)
            if self._fault is not None:
                raise self._fault

    # ---- for facets

    def next_handle(self) -> int:
        return next(self._handles)

    def next_object(self) -> int:
        return next(self._numbers)

    def must_live(self) -> None:
        if self._fault is not None:
            raise Disconnected("the connection has ended") from self._fault
        if self._over or self._stop.is_set():
            raise Disconnected("the connection is closed")

    def stand(self, fact: Fact) -> None:
        """The fact stands from now on. It is said now, or as soon as its target has a number."""
        self._must_be_current(fact.value)
        self._say([fact])
        self._facts[fact.handle] = fact

    def take_back(self, facts: list[Fact]) -> None:
        """The facts stand no more."""
        said = [fact for fact in facts if fact.said and self._link is not None]
        events = [(self._oid(fact.target), retraction(fact)) for fact in said]
        for fact in facts:
            self._facts.pop(fact.handle, None)
            fact.said = False
        for first in range(0, len(events), MOST_EVENTS):
            self._send_if_linked(events[first:first + MOST_EVENTS])

    def replace(self, old: Fact, new: Fact) -> None:
        self._must_be_current(new.value)
        if old.said:
            oid = self._oid(new.target)
            events = [(oid, retraction(old)), (oid, assertion(new))]
            packet = turn_bytes(events)
            old.said, new.said = False, self._put(packet)
        else:
            self._say([new])
        self._facts.pop(old.handle, None)
        self._facts[new.handle] = new

    def wait_for(self, there: Callable[[], object], seconds: float | None = None) -> None:
        """Waits for news, until something is there or the connection ends; the lock is held. Raises what ended it."""
        if not self.news.wait_for(lambda: there() or self._over, seconds):
            raise TimedOut("no answer within %s seconds" % seconds)
        if not there() and self._fault is not None:
            raise self._fault

    def _must_not_wait_for_itself(self) -> None:
        if threading.current_thread() is self._thread:
            raise RuntimeError("what is called back can't wait for an answer: the thread that hears it is its own")

    # ---- sending

    def _oid(self, target: Target) -> int:
        """By which number the target is spoken to on this link."""
        if isinstance(target, Reference):
            if self._link is None or target.link != self._count:
                raise Stale("the reference was heard on another link")
            return target.number
        if self._link is None or target.number is None:
            raise Disconnected("there is no link")
        return target.number

    def _must_be_current(self, value: Value) -> None:
        """References in a value are objects of ours, or were heard on this link."""
        for it in embedded_in(value):
            if isinstance(it, Reference):
                self._oid(it)
            elif not isinstance(it, Own):
                raise TypeError("only a reference is embedded in what is said: %r" % (it,))

    def _say(self, facts: list[Fact]) -> None:
        """Asserts those of these facts whose targets have a number, in turns of a size that the server takes."""
        for fact in facts:
            if isinstance(fact.target, Reference) or fact.target.number is not None and self._link is not None:
                packet = turn_bytes([(self._oid(fact.target), assertion(fact))])
                fact.said = self._put(packet)
            else:
                turn_bytes([(0, assertion(fact))])  # tells now what can't be said later

    def _send(self, events: list[tuple[int, Event]]) -> None:
        self.must_live()
        if self._link is None:
            raise Disconnected("there is no link")
        self._link.send(turn_bytes(events))

    def _send_if_linked(self, events: list[tuple[int, Event]]) -> None:
        """Sends what needs no sending where the link ends: the end takes it back, or it is said anew."""
        if self._link is not None:
            self._put(turn_bytes(events))

    def _put(self, packet: bytes) -> bool:
        """Sends, and tells whether there was a link. That one has ended is seen, and told, by the thread that hears."""
        if self._link is None:
            return False
        try:
            self._link.send(packet)
        except LinkEnded:
            return False
        return True

    # ---- hearing, in the thread of its own

    def _run(self) -> None:
        fault: DsdError | None = None
        try:
            while True:
                ended = self._hear()
                if self._stop.is_set():
                    break
                if self.reconnect is None:
                    raise ended
                with self.lock:
                    self._unlinked()
                if not self._linked_again(ended):
                    break
        except DsdError as told:
            fault = told
        except Exception as told:
            fault = CallbackFailed("%s: %s" % (type(told).__name__, told))
            fault.__cause__ = told
        with self.lock:
            self._fault, self._over = fault, True
            if self._link is not None:
                self._link.close()
            self._link = None
            self.news.notify_all()

    def _hear(self) -> LinkEnded:
        """Does what each packet tells, up to the link's end."""
        assert self._link is not None
        link = self._link
        try:
            while (value := link.packet()) is not None:
                with self.lock:
                    self._take(value)
        except LinkEnded as ended:
            return ended
        return LinkEnded("the server left")

    def _take(self, value: Value) -> None:
        packet = packet_of(value)
        if isinstance(packet, Refusal):
            raise packet
        for oid, event in packet or ():
            if isinstance(event, Sync):
                self._answer(event)
            elif oid in self.objects:
                self._told(self.objects[oid], event)
        self.news.notify_all()

    def _answer(self, event: Sync) -> None:
        peer = as_heard(event.peer, self._count)
        if isinstance(peer, Reference):
            self._send_if_linked([(peer.number, Message(True))])

    def _told(self, told: Object, event: Event) -> None:
        if isinstance(event, Assert):
            if event.handle in told.standing:
                raise ServerFault("a handle that stands is asserted: %d" % event.handle)
            told.comes(event.handle, as_heard(event.value, self._count))
        elif isinstance(event, Message):
            told.hears(as_heard(event.body, self._count))
        elif event.handle in told.standing:
            told.goes(event.handle)
        else:
            raise ServerFault("a handle that doesn't stand is retracted: %d" % event.handle)

    def _answered(self, resolved: Resolved, value: Value) -> None:
        """What the gatekeeper says of a reference. Facts that wait for its number are said now."""
        label = value.label if isinstance(value, Record) and isinstance(value.label, Symbol) else None
        if label == "rejected":
            self._let_go(resolved)
            if resolved.known:
                raise Rejected(resolved.reference.text())
        elif label == "accepted" and len(value.fields) == 1 and isinstance(value.fields[0], Reference):
            resolved.number, resolved.known = value.fields[0].number, True
            self._say([fact for fact in self._facts.values() if fact.target is resolved])
        else:
            raise ServerFault("what comes is no answer to a reference: %r" % (value,))

    def _let_go(self, resolved: Resolved) -> None:
        self._resolved.remove(resolved)
        del self.objects[resolved.answer.reference.number]

    # ---- links

    def _dialled(self) -> Link:
        try:
            link = Link(self.address, self.seconds, self.most_bytes)
        except OSError as fault:
            raise Unreachable("%s: %s" % (self.address, fault)) from fault
        self._count += 1
        return link

    def _unlinked(self) -> None:
        """The link has ended: what was heard on it stands no more, and neither do facts at, or with, what was heard."""
        assert self._link is not None
        self._link.close()
        self._link = None
        for it in self._resolved:
            it.number = None
        for fact in self._facts.values():
            fact.said = False
        for told in list(self.objects.values()):
            told.forget()
        gone = [it for it in self._facts.values() if any(isinstance(ref, Reference) for ref in embedded_in((it.value,)))
                or isinstance(it.target, Reference)]
        for fact in gone:
            del self._facts[fact.handle], fact.facet.facts[fact.handle]
        self.news.notify_all()
        if gone and self.lost is None:
            raise Stale("%d facts at references that were heard went with the link" % len(gone))
        if gone:
            self.lost(gone)

    def _linked_again(self, ended: LinkEnded) -> bool:
        """Dials until there is a link, and asks for what is resolved; false where the connection is closed meanwhile."""
        assert self.reconnect is not None
        for delay in self.reconnect.delays():
            if self._stop.wait(delay):
                return False
            try:
                link = self._dialled()
            except Unreachable as again:
                ended = again
            else:
                return self._greeted(link)
        raise ended

    def _greeted(self, link: Link) -> bool:
        """Asks for what is resolved on a link that is new. One that has ended already is seen by who hears."""
        with self.lock:
            self._link = link
            for it in self._resolved:
                self._send_if_linked([(GATEKEEPER, it.asked())])
            return not self._stop.is_set()


def connect(address: str, **options) -> Connection:
    """A connection to the server at HOST:PORT."""
    return Connection(address, **options)
