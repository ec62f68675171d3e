"""Packets and signed references, against what docs/CLIENTS.md has in bytes, and the tables of docs/FORMATS.md."""
import unittest

from dsd import caveats, faults, packets
from dsd.binary import read, written
from dsd.packets import Assert, Message, Own, Reference, Retract, Sync, as_heard, own, packet_of, turn_bytes
from dsd.sturdy import NoReference, SturdyReference
from dsd.text import read_text, shown
from dsd.values import Embedded, Symbol, record
from pages import spelled

# The table of docs/FORMATS.md, 'Packets': a packet for each fault, and what is read of it.
REFUSALS = (
    ('<error "bad bytes" [8 65]>', faults.BadBytes, {"kind": 8, "place": 65}),
    ('<error "bad packet" [30]>', faults.BadPacket, {}),
    ('<error "unknown oid" [31 9]>', faults.UnknownOid, {"oid": 9}),
    ('<error "handle in use" [32 7]>', faults.HandleInUse, {"handle": 7}),
    ('<error "unknown handle" [33 7]>', faults.UnknownHandle, {"handle": 7}),
    ('<error "limit" [34 3 1025]>', faults.LimitPassed, {"limit": 3, "counted": 1025}),
    ('<error "overrun" [35 1 65537]>', faults.Overrun, {"which": 1, "counted": 65537}),
    ('<error "spread" [36 33554433]>', faults.Spread, {"weight": 33554433}),
)
NO_PACKETS = (
    "#t", "5", '"a"', "[[0]]", "[[0 5]]", "[[0 <A 1>]]", "[[0 <A 1 -1>]]", "[[-1 <R 1>]]", "[[0 <R 9223372036854775808>]]",
    "[[0 <B 1>]]", "[[0 <M #:5>]]", "[[0 <M #:[2 1]>]]", "[[0 <M #:[0 1 <reject <_>>]>]]", "[[0 <S 1>]]", "[[0 <S #:[0]>]]",
    '[[0 <"A" 1 1>]]', '[[0 <assert 1 1>]]', "<error a 1>", '<error "a">', "[[#f <R 1>]]", "[[0 <R 1> 2]]", "[[0 <A 1 #t>]]",
)


class Session(unittest.TestCase):
    def test_each_packet_of_the_session_is_read_and_made(self):
        rows = [(said, given) for word, said, given in spelled() if word in ("client", "server")]
        self.assertGreater(len(rows), 8)
        for said, given in rows:
            self.assertEqual(written(read_text(said)), given)
            packet = packet_of(read(given)[0])
            if isinstance(packet, tuple):
                self.assertEqual(turn_bytes(packet), given)
            else:
                self.assertEqual((type(packet), packet.oid), (faults.UnknownOid, 9))

    def test_both_dialects_say_the_same(self):
        turn = ((0, Assert(5, 1)), (0, Retract(1)), (0, Message(5)), (0, Sync(own(3))))
        made = turn_bytes(turn, older=True)
        self.assertEqual(made, written(read_text("[[0 <assert 5 1>] [0 <retract 1>] [0 <message 5>] [0 <sync #:[0 3]>]]")))
        self.assertEqual(shown(read(turn_bytes(turn))[0]), "[[0 <A 5 1>] [0 <R 1>] [0 <M 5>] [0 <S #:[0 3]>]]")
        heard = packet_of(read(made)[0], older=True)
        self.assertEqual([type(event) for _, event in heard], [Assert, Retract, Message, Sync])
        with self.assertRaises(faults.ServerFault):
            packet_of(read(made)[0])


class Packets(unittest.TestCase):
    def test_refusals_have_a_class_each(self):
        self.assertEqual(len({kind for _, kind, _ in REFUSALS}), len(REFUSALS))
        for text, kind, wanted in REFUSALS:
            told = packet_of(read_text(text))
            self.assertIs(type(told), kind)
            self.assertEqual({name: getattr(told, name) for name in wanted}, wanted)
            self.assertEqual((told.message, told.detail), read_text(text).fields)

    def test_another_refusal_is_a_plain_one(self):
        for text in '<error "gone" 5>', '<error "limit" [34]>', '<error "limit" [35 1 2]>', '<error "unknown oid" [31 "a"]>':
            told = packet_of(read_text(text))
            self.assertIs(type(told), faults.Refusal, text)
            self.assertEqual((told.message, told.detail), read_text(text).fields)

    def test_what_says_nothing_is_passed_over(self):
        for text in "#f", "<hello 1>", "<<error> 1>", '<"error" 1 2>':
            self.assertIsNone(packet_of(read_text(text)))
        self.assertEqual(packet_of(()), ())

    def test_what_is_no_packet_is_the_servers_fault(self):
        for text in NO_PACKETS:
            with self.assertRaises(faults.ServerFault, msg=text):
                packet_of(read_text(text))

    def test_references_change_sides(self):
        heard = as_heard(read_text("<a #:[0 5] [#:[1 6] {#:[0 7]: #{#:[0 8]}}]>"), 3)
        self.assertEqual(shown(heard), "<a #:[1 5] [#:[0 6] {#:[1 7]: #{#:[1 8]}}]>")
        self.assertEqual(heard.fields[0], Reference((1, 5), 3))
        self.assertEqual(heard.fields[1][0], Own((0, 6)))
        given = heard.fields[0].attenuated(caveats.reject(caveats.ANYTHING))
        self.assertEqual(shown(given), "#:[1 5 <reject <_>>]")

    def test_turns_that_are_too_large_are_not_made(self):
        event = (0, Retract(1))
        self.assertTrue(turn_bytes([event] * 1_024))
        with self.assertRaises(faults.TooLarge):
            turn_bytes([event] * 1_025)
        empty = len(turn_bytes([(0, Message(bytes(100_000)))])) - 100_000
        self.assertEqual(len(turn_bytes([(0, Message(bytes(packets.MOST_BYTES - empty)))])), packets.MOST_BYTES)
        with self.assertRaises(faults.TooLarge):
            turn_bytes([(0, Message(bytes(packets.MOST_BYTES - empty + 1)))])


class Sturdy(unittest.TestCase):
    def setUp(self):
        rows = spelled()
        self.given = {word: given for word, _, given in rows}
        self.said = {word: said for word, said, _ in rows}
        self.reference = SturdyReference.mint("room", self.given["key"])

    def test_the_reference_of_the_page_is_made(self):
        no_speech = caveats.reject(caveats.fields("Says", caveats.ANYTHING, caveats.ANYTHING))
        self.assertEqual(written(no_speech), self.given["caveat"])
        made = self.reference.attenuated(no_speech)
        self.assertEqual((made.text(), written(made.value())), (self.said["reference"], self.given["reference"]))
        self.assertTrue(made.is_signed_by(self.given["key"]))
        self.assertFalse(made.is_signed_by(bytes(16)))
        self.assertFalse(SturdyReference(made.oid, made.signature).is_signed_by(self.given["key"]))

    def test_two_caveats_at_once_or_one_after_the_other(self):
        one, other = (caveats.reject(caveats.literal(it)) for it in (1, 2))
        made = self.reference.attenuated(one, other)
        self.assertEqual(made, self.reference.attenuated(one).attenuated(other))
        self.assertNotEqual(made.signature, self.reference.attenuated(other, one).signature)

    def test_text_is_read_back(self):
        made = self.reference.attenuated(caveats.only(caveats.STRING))
        self.assertEqual(SturdyReference.from_text(made.text()), made)
        self.assertEqual(SturdyReference.from_text(made.text().replace("oid:", "since: 5 oid:")), made)

    def test_what_is_no_reference_is_refused(self):
        for text in ('<ref {}>', '<ref {oid: 1}>', '<ref {oid: 1 sig: "a"}>', '<sturdy {oid: 1 sig: #[]}>', "5", '<ref 1>',
                     '<"ref" {oid: 1 sig: #[]}>', '<ref {oid: #:1 sig: #[]}>', '<ref {oid: 1 sig: #[] caveats: 5}>',
                     '<ref {oid: 1 sig: #[] caveats: [#:1]}>', '<ref {oid: 1 sig: #[]} 2>', '<ref {"oid": 1 sig: #[]}>'):
            with self.assertRaises(NoReference, msg=text):
                SturdyReference.from_text(text)

    def test_a_reference_has_32_caveats_at_most(self):
        many = [caveats.reject(caveats.literal(n)) for n in range(33)]
        self.assertEqual(len(self.reference.attenuated(*many[:32]).caveats), 32)
        with self.assertRaises(faults.TooLarge):
            self.reference.attenuated(*many)
        with self.assertRaises(NoReference):
            self.reference.attenuated(record("reject", Embedded(1)))

    def test_the_words_of_caveats_are_those_of_the_table(self):
        made = caveats.first_of(
            caveats.rewrite(caveats.every(caveats.bind(), caveats.negation(caveats.STRING)), caveats.bound(0)),
            caveats.rewrite(caveats.items(caveats.bind(caveats.EMBEDDED)), caveats.attenuated(caveats.bound(0))),
            caveats.rewrite(caveats.entries({Symbol("a"): caveats.INTEGER}), caveats.literal(5)))
        self.assertEqual(shown(made), "<or [<rewrite <and [<bind <_>> <not String>]> <ref 0>>"
                         " <rewrite <arr [<bind Embedded>]> <attenuate <ref 0> []>>"
                         " <rewrite <dict {a: SignedInteger}> <lit 5>>]>")


if __name__ == "__main__":
    unittest.main()
