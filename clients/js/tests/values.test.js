/** The codecs, against the repository's tables of cases. */
import assert from "node:assert/strict";
import { test } from "node:test";

import {
  BinaryFault, Dictionary, Double, Embedded, Reader, Record, TextFault, TextReader, Unwritable, ValueSet,
  binaryFaults, embeddedIn, hexOf, read, readText, same, shown, textFaults, written,
} from "../preserves.js";
import { cases, ofHex, textIn } from "./tables.js";

test("bytes are read", () => {
  for (const [given, wanted] of cases("binary")) {
    const bytes = ofHex(given);
    const [value, end] = read(bytes);
    assert.deepEqual([shown(value), end], [textIn(wanted), bytes.length]);
  }
});

test("canonical forms are written", () => {
  for (const [given, wanted] of cases("canonical")) {
    assert.equal(hexOf(written(readText(given))), hexOf(ofHex(wanted)), textIn(given));
  }
});

/** @param {() => unknown} does @param {Function} kind @param {string} wanted */
function fails(does, kind, wanted) {
  assert.throws(does, (fault) => {
    assert.ok(fault instanceof kind, String(fault));
    assert.equal(fault.message, wanted);
    return true;
  }, wanted);
}

test("faults of bytes are told", () => {
  for (const [given, wanted] of cases("binary_faults")) fails(() => read(ofHex(given)), BinaryFault, textIn(wanted));
});

test("fronts are truncated", () => {
  for (const [given, wanted] of cases("binary_fronts")) {
    const bytes = ofHex(given), places = textIn(wanted).split(", ");
    assert.equal(places.length, bytes.length - 1);
    places.forEach((place, n) => fails(() => read(bytes.slice(0, n + 1)), BinaryFault, `Truncated at ${place}`));
  }
});

test("a stream gives the same in any pieces", () => {
  const rows = cases("binary");
  const stream = Uint8Array.from(rows.flatMap(([given]) => [...ofHex(given)]));
  for (const size of [1, 7, stream.length]) {
    const reader = new Reader(), found = [];
    for (let at = 0; at < stream.length; at += size) {
      reader.push(stream.subarray(at, at + size));
      for (let it = reader.next(); it !== undefined; it = reader.next()) found.push(shown(it));
    }
    reader.end();
    assert.deepEqual(found, rows.map(([, printed]) => textIn(printed)));
  }
});

test("a value of more bytes than may be is too long", () => {
  const reader = new Reader({ mostBytes: 6 });
  reader.push(Uint8Array.of(0xb2, 4, 1, 2, 3, 4, 0xb2, 5, 1, 2, 3, 4, 5));
  assert.deepEqual(reader.next(), Uint8Array.of(1, 2, 3, 4));
  fails(() => reader.next(), binaryFaults.TooLong, "TooLong at 6");
});

test("the end of a stream in a value is told", () => {
  const reader = new Reader();
  reader.push(Uint8Array.of(0x80, 0xb5, 0x80));
  assert.deepEqual([reader.next(), reader.next()], [false, undefined]);
  fails(() => reader.end(), binaryFaults.Truncated, "Truncated at 3");
});

test("values are printed", () => {
  for (const [given, wanted] of cases("printed")) assert.equal(shown(readText(given)), textIn(wanted));
});

test("texts are read", () => {
  for (const [given, wanted] of cases("texts")) {
    const spelled = new Reader(), reader = new TextReader(given);
    spelled.push(ofHex(wanted));
    for (reader.gap(); reader.at < reader.text.length; reader.gap()) {
      assert.equal(shown(reader.next()), shown(spelled.next()), reader.text);
    }
    assert.equal(spelled.next(), undefined);
    spelled.end();
  }
});

test("faults of texts are told", () => {
  for (const [given, wanted] of cases("text_faults")) fails(() => readText(given), TextFault, textIn(wanted));
});

test("more than one value is refused", () => {
  for (const given of ["1 2", "#t#f", "[] ]"]) assert.throws(() => readText(given), textFaults.Unexpected);
});

test("what is no value isn't written", () => {
  for (const it of [null, undefined, 1.5, 2 ** 53, 1n << 127n, -(1n << 127n) - 1n, "\ud800", Symbol("local"), {},
    new ValueSet([1, 1]), new Dictionary([[1, 2], [1n, 3]])]) {
    assert.throws(() => written(it), Unwritable, String(it));
  }
});

test("values of two kinds are two values", () => {
  const one = Uint8Array.of(49);
  const alike = [true, new Double(1), 1, "1", one, Symbol.for("1"), new Record(1, []), [1], new ValueSet([1]),
    new Dictionary([[1, 1]]), new Embedded(1)];
  alike.forEach((it, n) => alike.forEach((other, m) => assert.equal(same(it, other), n === m)));
});

test("an integer is one value as a number and as a bigint", () => {
  assert.ok(same(5, 5n));
  assert.equal(hexOf(written(5n)), hexOf(written(5)));
  assert.equal(read(written(2n ** 53n))[0], 2n ** 53n);
  assert.equal(read(written(2n ** 53n - 1n))[0], 2 ** 53 - 1);
});

test("doubles go by their bits", () => {
  assert.ok(same(new Double(NaN), new Double(NaN)));
  assert.ok(!same(new Double(0), new Double(-0)));
  assert.equal(read(written(new Double(1.5)))[0].number, 1.5);
});

test("entries are found by key", () => {
  const entries = new Dictionary([[1, "number"], [true, "truth"], [Symbol.for("a"), "symbol"], ["a", "string"]]);
  assert.deepEqual([1n, true, Symbol.for("a"), "a", new Double(1)].map((it) => entries.get(it)),
    ["number", "truth", "symbol", "string", undefined]);
});

test("embedded values are found at every level", () => {
  const found = [...embeddedIn(readText("<a #:1 [#:2 {#:3: #{#:4}}] #:#:5>"))].map(shown);
  assert.deepEqual(found, ["#:1", "#:2", "#:3", "#:4", "#:#:5"]);
});
