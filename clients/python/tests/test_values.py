"""The codecs, against the repository's tables of cases."""
import math
import unittest

from dsd import binary, text
from dsd.binary import Reader, read, written
from dsd.faults import TooLarge
from dsd.text import read_text, shown
from dsd.values import Dictionary, Embedded, Record, Set, Symbol, embedded_in, same
from tables import cases, of_hex


class Binary(unittest.TestCase):
    def test_bytes_are_read(self):
        for given, wanted in self.some("binary"):
            data = of_hex(given)
            value, end = read(data)
            self.assertEqual((shown(value), end), (wanted.decode(), len(data)))

    def test_canonical_forms_are_written(self):
        for given, wanted in self.some("canonical"):
            self.assertEqual(written(read_text(given.decode())), of_hex(wanted))

    def test_faults_are_told(self):
        for given, wanted in self.some("binary_faults"):
            with self.assertRaises(binary.BinaryFault) as caught:
                read(of_hex(given))
            self.assertEqual(str(caught.exception), wanted.decode())

    def test_fronts_are_truncated(self):
        for given, wanted in self.some("binary_fronts"):
            data, places = of_hex(given), [int(it) for it in wanted.split(b",")]
            self.assertEqual(len(places), len(data) - 1)
            for size, place in enumerate(places, 1):
                with self.assertRaises(binary.Truncated) as caught:
                    read(data[:size])
                self.assertEqual(caught.exception.place, place)

    def test_a_stream_gives_the_same_byte_by_byte(self):
        stream, wanted = b"", []
        for given, printed in self.some("binary"):
            stream += of_hex(given)
            wanted.append(printed.decode())
        for size in 1, 7, len(stream):
            reader, found = Reader(), []
            for at in range(0, len(stream), size):
                reader.push(stream[at:at + size])
                while (value := reader.next()) is not None:
                    found.append(shown(value))
            reader.end()
            self.assertEqual(found, wanted)

    def test_a_value_of_more_bytes_than_may_be_is_too_long(self):
        reader = Reader(most_bytes=6)
        reader.push(b"\xb2\x04abcd" + b"\xb2\x05abcde")
        self.assertEqual(reader.next(), b"abcd")
        with self.assertRaises(binary.TooLong) as caught:
            reader.next()
        self.assertEqual(caught.exception.place, 6)

    def test_the_end_of_a_stream_in_a_value_is_told(self):
        reader = Reader()
        reader.push(b"\x80\xb5\x80")
        self.assertEqual((reader.next(), reader.next()), (False, None))
        with self.assertRaises(binary.Truncated) as caught:
            reader.end()
        self.assertEqual(caught.exception.place, 3)

    def test_what_is_no_value_is_not_written(self):
        for value, fault in ((None, TypeError), (1 << 127, TooLarge), (-(1 << 127) - 1, TooLarge), (Set((1, 1)), ValueError),
                             (Dictionary(((1, 2), (1, 3))), ValueError), ("\ud800", ValueError)):
            with self.assertRaises(fault):
                written(value)

    def some(self, name):
        found = list(cases(name))
        self.assertGreater(len(found), 10, name)
        for case in found:
            with self.subTest(table=name, given=case[0]):
                yield case


class Text(unittest.TestCase):
    some = Binary.some

    def test_values_are_printed(self):
        for given, wanted in self.some("printed"):
            self.assertEqual(shown(read_text(given.decode())), wanted.decode())

    def test_texts_are_read(self):
        for given, wanted in self.some("texts"):
            data, spelled = of_hex(wanted), []
            while data:
                value, end = read(data)
                spelled.append(shown(value))
                data = data[end:]
            reader, found = text._Text(given.decode()), []
            reader.gap()
            while reader.at < len(reader.text):
                found.append(shown(reader.next()))
                reader.gap()
            self.assertEqual(found, spelled)

    def test_faults_are_told(self):
        for given, wanted in self.some("text_faults"):
            with self.assertRaises(text.TextFault) as caught:
                read_text(given.decode(errors="surrogateescape"))
            self.assertEqual(str(caught.exception), wanted.decode())

    def test_more_than_one_value_is_refused(self):
        for given in "1 2", "#t#f", "[] ]":
            with self.assertRaises(text.Unexpected):
                read_text(given)


class Kinds(unittest.TestCase):
    def test_values_of_two_kinds_are_two_values(self):
        alike = [True, 1, 1.0, "1", Symbol("1"), b"1", (1,), Set((1,)), Dictionary(((1, 1),)), Record(1, ()), Embedded(1)]
        for n, one in enumerate(alike):
            for m, other in enumerate(alike):
                self.assertEqual(same(one, other), n == m, (one, other))

    def test_doubles_go_by_their_bits(self):
        self.assertTrue(same(math.nan, math.nan))
        self.assertFalse(same(0.0, -0.0))

    def test_entries_are_found_by_key(self):
        entries = Dictionary(((1, "number"), (True, "truth"), (Symbol("a"), "symbol"), ("a", "string")))
        self.assertEqual([entries.get(it) for it in (1, True, Symbol("a"), "a", 1.0)],
                         ["number", "truth", "symbol", "string", None])

    def test_embedded_values_are_found_at_every_level(self):
        value = read_text("<a #:1 [#:2 {#:3: #{#:4}}] #:#:5>")
        self.assertEqual(sorted(shown(it) for it in embedded_in(value)), ["#:#:5", "#:1", "#:2", "#:3", "#:4"])


if __name__ == "__main__":
    unittest.main()
