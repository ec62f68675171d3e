"""Connections, against a peer that follows a script."""
import threading
import unittest

import dsd
from dsd import faults, patterns
from dsd.connection import Reconnect
from dsd.packets import MOST_EVENTS, Retract, turn_bytes
from dsd.values import Embedded
from peer import REFERENCE, SECONDS, Peer

RESOLVE = "> [[0 <A <resolve %s #:[0 1]> 1>]]" % REFERENCE
# the room has another number on each link of a test
ROOM, ROOM_AGAIN = "< [[1 <A <accepted #:[0 3]> 2>]]", "< [[1 <A <accepted #:[0 8]> 2>]]"
AGAIN = Reconnect(first=0.01, most=0.02, tries=20)
PRESENT = patterns.fields("Present", patterns.CAPTURE)
OBSERVE = "<Observe <group <rec Present> {0: <bind <_>>}> #:[0 %d]>"


class Case(unittest.TestCase):
    def start(self, *script, **options):
        """A connection to a peer with this script, which has resolved the room."""
        self.peer = Peer(RESOLVE, ROOM, *script)
        self.connection = dsd.connect(self.peer.address, seconds=SECONDS, **options)
        self.room = self.connection.resolve(dsd.SturdyReference.from_text(REFERENCE))
        return self.connection.root

    def tearDown(self):
        self.connection.close()
        self.assertEqual(self.peer.findings(), [])

    def ends_with(self, kind):
        """The connection has ended, or ends, for this fault; whoever goes on is told."""
        with self.assertRaises(kind) as caught:
            self.connection.wait(SECONDS)
        with self.assertRaises(faults.Disconnected) as after:
            self.connection.root.assert_(self.room, 1)
        self.assertIs(after.exception.__cause__, caught.exception)
        return caught.exception


class Facets(Case):
    def test_facts_go_with_their_facet(self):
        root = self.start(
            "> [[3 <A 1 2>]]", "> [[3 <A 2 3>]]", "> [[3 <A 3 4>]]", "> [[3 <R 4>] [3 <R 3>]]", "> [[3 <S #:[0 2]>]]",
            "< [[2 <M #t>]]")
        stays = root.assert_(self.room, 1)
        with root.facet() as outer:
            goes = outer.assert_(self.room, 2)
            inner = outer.facet()
            inner.assert_(self.room, 3)
        self.assertEqual((stays.stands, goes.stands, inner.is_open), (True, False, False))
        outer.close()
        with self.assertRaises(faults.Disconnected):
            inner.assert_(self.room, 4)
        self.connection.sync(self.room)

    def test_facts_are_taken_back_and_replaced_in_one_turn(self):
        root = self.start("> [[3 <A off 2>]]", "> [[3 <R 2>] [3 <A on 3>]]", "> [[3 <R 3>]]", "> [[3 <M bye>]]")
        off = root.assert_(self.room, dsd.Symbol("off"))
        on = root.replace(off, dsd.Symbol("on"))
        root.retract(on)
        root.retract(on)
        self.connection.message(self.room, dsd.Symbol("bye"))

    def test_many_facts_are_taken_back_in_turns_that_may_be(self):
        many = MOST_EVENTS + 1
        turns = ["> [%s]" % " ".join("[3 <R %d>]" % (n + 2) for n in range(*part)) for part in ((0, 1024), (1024, many))]
        root = self.start(*("> [[3 <A %d %d>]]" % (n, n + 2) for n in range(many)), *turns)
        with root.facet() as facet:
            for n in range(many):
                facet.assert_(self.room, n)


class Observing(Case):
    def test_callbacks_are_told_of_what_comes_goes_and_is_said(self):
        root = self.start(
            "> [[3 <A %s 2>]]" % (OBSERVE % 2), '< [[2 <A ["ann"] 5>] [2 <A ["bo"] 6>]]', '< [[2 <R 5>] [2 <M ["cy"]>]]',
            "> [[3 <S #:[0 3]>]]", "< [[9 <M 1>] [3 <M #t>]]")
        told = []
        root.observe(self.room, PRESENT, *(lambda it, sign=sign: told.append((sign, *it)) for sign in "+-!"))
        self.connection.sync(self.room)
        self.assertEqual(told, [("+", "ann"), ("+", "bo"), ("-", "ann"), ("!", "cy")])

    def test_who_observes_no_more_has_nothing_left(self):
        root = self.start(
            "> [[3 <A %s 2>]]" % (OBSERVE % 2), '< [[2 <A ["ann"] 5>]]', "> [[3 <S #:[0 3]>]]", "< [[3 <M #t>]]", "> [[3 <R 2>]]",
            '< [[2 <R 5>] [2 <A ["bo"] 6>]]', "> [[3 <S #:[0 4]>]]", "< [[4 <M #t>]]")
        gone = []
        observation = root.observe(self.room, PRESENT, retracted=gone.append)
        self.connection.sync(self.room)
        root.retract(observation)
        self.assertEqual(gone, [("ann",)])
        self.connection.sync(self.room)
        self.assertEqual(gone, [("ann",)])

    def test_an_iterator_gives_each_change_and_ends_with_its_facet(self):
        root = self.start(
            "> [[3 <A %s 2>]]" % (OBSERVE % 2), '< [[2 <A ["ann"] 5>] [2 <M ["bo"]>] [2 <R 5>]]', "> [[3 <R 2>]]")
        facet = root.facet()
        changes = facet.watch(self.room, PRESENT)
        wanted = [dsd.Asserted(("ann",)), dsd.Said(("bo",)), dsd.Retracted(("ann",))]
        self.assertEqual([next(changes) for _ in wanted], wanted)
        threading.Timer(0.1, facet.close).start()
        self.assertEqual(list(changes), [])

    def test_during_a_fact_there_is_a_facet(self):
        root = self.start(
            "> [[3 <A %s 2>]]" % (OBSERVE % 2), "< [[2 <A [#:[0 7]] 5>]]", "> [[7 <A <Knock #:[1 7] #:[0 3]> 3>]]",
            "< [[3 <A hello 9>]]", "< [[2 <R 5>]]", "> [[7 <R 3>]]", "> [[3 <S #:[0 4]>]]", "< [[4 <M #t>]]")
        told = []

        def knock(facet, captures):
            answers = facet.object(asserted=told.append)
            facet.assert_(captures[0], dsd.record("Knock", captures[0], answers))

        root.during(self.room, PRESENT, knock)
        with self.connection.news:
            self.connection.news.wait_for(lambda: told and not root.inside, SECONDS)
        self.connection.sync(self.room)
        self.assertEqual(told, ["hello"])

    def test_a_sync_of_the_servers_is_answered(self):
        self.start("> [[3 <S #:[0 2]>]]", "< [[5 <S #:[0 4]>] [2 <M #t>]]", "> [[4 <M #t>]]")
        self.connection.sync(self.room)


class Refused(Case):
    def test_a_reference_that_is_rejected_leaves_the_connection(self):
        self.start("> [[0 <A <resolve <ref {oid: 1 sig: #[]}> #:[0 2]> 2>]]", '< [[2 <A <rejected "refused"> 4>]]', "> [[3 <M 1>]]")
        with self.assertRaises(faults.Rejected):
            self.connection.resolve(dsd.SturdyReference(1, b""))
        self.connection.message(self.room, 1)

    def test_an_error_packet_ends_the_connection_with_its_class(self):
        root = self.start("> [[3 <A 1 2>]]", '< <error "limit" [34 4 4097]>', "end", reconnect=AGAIN)
        facet = root.facet()
        facet.assert_(self.room, 1)
        fault = self.ends_with(faults.LimitPassed)
        self.assertEqual((fault.limit, fault.counted), (4, 4097))
        for does in (self.connection.message, lambda *_: self.connection.sync(self.room)):
            with self.assertRaises(faults.Disconnected) as caught:
                does(self.room, 1)
            self.assertIs(caught.exception.__cause__, fault)
        facet.close()
        self.assertFalse(facet.is_open)

    def test_who_waits_is_told_what_ends_the_connection(self):
        root = self.start("> [[3 <A %s 2>]]" % (OBSERVE % 2), "> [[3 <S #:[0 3]>]]", '< <error "spread" [36 5]>', "end")
        changes = root.watch(self.room, PRESENT)
        with self.assertRaises(faults.Spread):
            self.connection.sync(self.room)
        with self.assertRaises(faults.Spread):
            next(changes)
        self.ends_with(faults.Spread)

    def test_a_callback_that_raises_ends_the_connection(self):
        root = self.start("> [[3 <A %s 2>]]" % (OBSERVE % 2), "< [[2 <A [1] 5>]]")
        root.observe(self.room, PRESENT, asserted=lambda captures: captures[1])
        self.assertIsInstance(self.ends_with(faults.CallbackFailed).__cause__, IndexError)

    def test_a_callback_can_not_wait_for_an_answer(self):
        root = self.start("> [[3 <A %s 2>]]" % (OBSERVE % 2), "< [[2 <A [1] 5>]]")
        root.observe(self.room, PRESENT, asserted=lambda _: self.connection.sync(self.room))
        self.assertIsInstance(self.ends_with(faults.CallbackFailed).__cause__, RuntimeError)

    def test_what_no_server_may_send_ends_the_connection(self):
        for said in ("[[1 <A 5 2>]]", "[[1 <R 5>]]", "[[1 <A 5 6>]]", "5", "[[1 <assert 5 6>]]"):
            with self.subTest(said=said):
                self.start("< " + said)
                self.ends_with(faults.ServerFault)
                self.assertEqual(self.peer.findings(), [])

    def test_bytes_that_are_no_value_end_the_connection(self):
        self.start("<< 00")
        # it stands behind the answer of 35 bytes
        self.assertEqual(self.ends_with(dsd.binary.BadTag).place, 35)

    def test_a_packet_of_more_bytes_than_may_be_ends_the_connection(self):
        self.start('< "%s"' % ("a" * 200), most_bytes=100)
        self.ends_with(dsd.binary.TooLong)

    def test_what_is_too_large_is_not_sent(self):
        root = self.start("> [[3 <M 1>]]")
        with self.assertRaises(faults.TooLarge):
            root.assert_(self.room, bytes(300_000))
        with self.assertRaises(TypeError):
            root.assert_(self.room, Embedded((0, 1)))
        self.assertEqual(root.facts, {})
        self.connection.message(self.room, 1)

    def test_an_answer_that_does_not_come_is_timed_out(self):
        self.start("> [[3 <S #:[0 2]>]]")
        with self.assertRaises(faults.TimedOut):
            self.connection.sync(self.room, 0.1)
        self.assertEqual(list(self.connection.objects), [1])

    def test_nobody_at_the_address(self):
        self.start()
        self.peer.listener.close()
        with self.assertRaises(faults.Unreachable):
            dsd.connect("127.0.0.1:1")


class Ends(Case):
    def test_the_end_of_the_link_ends_the_connection(self):
        self.start("end")
        self.ends_with(faults.LinkEnded)

    def test_an_end_inside_a_packet_is_one_too(self):
        self.start("<< b581", "end")
        self.ends_with(faults.LinkEnded)

    def test_the_end_of_a_block_raises_what_ended_it(self):
        self.start("end")
        with self.assertRaises(faults.LinkEnded):
            with self.connection:
                self.connection.news.acquire()
                self.connection.news.wait_for(lambda: self.connection._over, SECONDS)
                self.connection.news.release()

    def test_who_closes_is_told_nothing(self):
        root = self.start("> [[3 <A 1 2>]]")
        root.assert_(self.room, 1)
        self.connection.close()
        self.connection.wait(SECONDS)
        with self.assertRaises(faults.Disconnected):
            self.connection.message(self.room, 1)


class Again(Case):
    def test_references_are_resolved_and_facts_asserted_anew(self):
        root = self.start(
            "> [[3 <A 1 2>]]", "> [[3 <A 2 3>]]", "> [[3 <A %s 4>]]" % (OBSERVE % 2), '< [[2 <A ["ann"] 5>]]', "> [[3 <R 2>]]", "end",
            "next", RESOLVE, ROOM_AGAIN, "> [[8 <A 2 3>]]", "> [[8 <A %s 4>]]" % (OBSERVE % 2), '< [[2 <A ["bo"] 5>]]',
            "> [[8 <S #:[0 3]>]]", "< [[3 <M #t>]]", reconnect=AGAIN)
        gone = root.assert_(self.room, 1)
        root.assert_(self.room, 2)
        changes = root.watch(self.room, PRESENT)
        self.assertEqual(next(changes), dsd.Asserted(("ann",)))
        root.retract(gone)
        self.assertEqual([next(changes), next(changes)], [dsd.Retracted(("ann",)), dsd.Asserted(("bo",))])
        self.connection.sync(self.room)

    def test_what_is_done_without_a_link_is_said_on_the_next(self):
        root = self.start("> [[3 <A 1 2>]]", "end", reconnect=Reconnect(first=0.5, most=0.5, tries=20))
        one = root.assert_(self.room, 1)
        with self.connection.news:
            self.connection.news.wait_for(lambda: self.connection._link is None, SECONDS)
        root.retract(one)
        two = root.assert_(self.room, 2)
        root.replace(two, 3)
        with self.assertRaises(faults.Disconnected):
            self.connection.message(self.room, 5)
        with self.assertRaises(faults.Disconnected):
            self.connection.sync(self.room)
        self.assertEqual(self.peer.findings(), [])
        self.peer = Peer(RESOLVE, ROOM_AGAIN, "> [[8 <A 3 4>]]", "> [[8 <S #:[0 3]>]]", "< [[3 <M #t>]]")
        self.connection.address = self.peer.address
        with self.connection.news:
            self.connection.news.wait_for(lambda: self.room.number, SECONDS)
        self.connection.sync(self.room)

    def test_references_that_were_heard_go_with_the_link(self):
        lost = []
        root = self.start(
            "> [[3 <A %s 2>]]" % (OBSERVE % 2), "< [[2 <A [#:[0 7]] 5>]]", "> [[7 <A 1 3>]]", "> [[3 <A [#:[1 7]] 4>]]", "end",
            "next", RESOLVE, ROOM_AGAIN, "> [[8 <A %s 2>]]" % (OBSERVE % 2), "> [[8 <M 1>]]", reconnect=AGAIN, lost=lost.extend)
        changes = root.watch(self.room, PRESENT)
        heard = next(changes).captures[0]
        facts = [root.assert_(heard, 1), root.assert_(self.room, (heard,))]
        self.assertIsInstance(next(changes), dsd.Retracted)
        with self.connection.news:
            self.connection.news.wait_for(lambda: self.room.number, SECONDS)
        self.assertEqual(lost, facts)
        self.assertEqual([it.stands for it in facts], [False, False])
        for target, value in (heard, 1), (self.room, heard):
            with self.assertRaises(faults.Stale):
                root.assert_(target, value)
        self.connection.message(self.room, 1)

    def test_lost_facts_that_nobody_is_told_of_end_the_connection(self):
        root = self.start(
            "> [[3 <A %s 2>]]" % (OBSERVE % 2), "< [[2 <A [#:[0 7]] 5>]]", "> [[7 <A 1 3>]]", "end", reconnect=AGAIN)
        root.assert_(next(root.watch(self.room, PRESENT)).captures[0], 1)
        self.ends_with(faults.Stale)

    def test_a_reference_that_is_rejected_then_ends_the_connection(self):
        self.start("end", "next", RESOLVE, '< [[1 <A <rejected "refused"> 2>]]', reconnect=AGAIN)
        self.ends_with(faults.Rejected)

    def test_tries_are_bounded(self):
        self.start("end", reconnect=Reconnect(first=0.01, most=0.01, tries=3))
        self.peer.listener.close()
        self.ends_with(faults.Unreachable)


class Sizes(unittest.TestCase):
    def test_a_retraction_weighs_less_than_a_turn_may(self):
        self.assertLess(len(turn_bytes([(1 << 62, Retract(1 << 62))] * MOST_EVENTS)), dsd.binary.MOST_BYTES)


if __name__ == "__main__":
    unittest.main()
