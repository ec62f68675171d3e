/** Packets and signed references, against what docs/CLIENTS.md has in bytes, and the tables of docs/FORMATS.md. */
import assert from "node:assert/strict";
import { test } from "node:test";

import * as caveats from "../caveats.js";
import * as faults from "../faults.js";
import { Assert, Message, Own, Reference, Retract, Sync, asHeard, packetOf, turnBytes } from "../packets.js";
import { Embedded, MOST_BYTES, bytesOfHex, hexOf, read, readText, record, shown, written } from "../preserves.js";
import { SturdyReference } from "../sturdy.js";
import { textOf } from "./tables.js";

/** The rows of docs/CLIENTS.md: a word, what it stands for, and the bytes below it. */
const blocks = [...textOf("docs/CLIENTS.md").matchAll(/^```\n(.*?)^```/gms)].map((it) => it[1]).join("");
const rows = [...blocks.matchAll(/^(\w+) ?(.*)\n((?: +[0-9a-f]{2}(?: [0-9a-f]{2})*\n)+)/gm)]
  .map(([, word, said, bytes]) => ({ word, said, hex: bytes.replace(/\s/g, "") }));
const row = Object.fromEntries(rows.map((it) => [it.word, it]));

test("each packet of the session is read and made", () => {
  const session = rows.filter(({ word }) => word === "client" || word === "server");
  assert.ok(session.length > 8);
  for (const { said, hex } of session) {
    assert.equal(hexOf(written(readText(said))), hex);
    const packet = packetOf(read(bytesOfHex(hex))[0]);
    if (Array.isArray(packet)) assert.equal(hexOf(turnBytes(packet)), hex);
    else assert.deepEqual([packet instanceof faults.UnknownOid, packet.oid], [true, 9]);
  }
});

test("refusals have a class each", () => {
  for (const [text, kind, wanted] of [
    ['<error "bad bytes" [8 65]>', faults.BadBytes, { kind: 8, place: 65 }],
    ['<error "bad packet" [30]>', faults.BadPacket, {}],
    ['<error "unknown oid" [31 9]>', faults.UnknownOid, { oid: 9 }],
    ['<error "handle in use" [32 7]>', faults.HandleInUse, { handle: 7 }],
    ['<error "unknown handle" [33 7]>', faults.UnknownHandle, { handle: 7 }],
    ['<error "limit" [34 3 1025]>', faults.LimitPassed, { limit: 3, counted: 1025 }],
    ['<error "overrun" [35 1 65537]>', faults.Overrun, { which: 1, counted: 65537 }],
    ['<error "spread" [36 33554433]>', faults.Spread, { weight: 33554433 }],
  ]) {
    const told = packetOf(readText(text));
    assert.equal(told.constructor, kind, text);
    assert.equal(told.name, kind.name);
    for (const [name, number] of Object.entries(wanted)) assert.equal(told[name], number);
  }
});

test("another refusal is a plain one", () => {
  for (const text of ['<error "gone" 5>', '<error "limit" [34]>', '<error "limit" [35 1 2]>', '<error "unknown oid" [31 "a"]>',
    '<error "constructor" [1]>']) {
    const told = packetOf(readText(text));
    assert.equal(told.constructor, faults.Refusal, text);
    assert.equal(shown(told.detail), shown(readText(text).fields[1]));
  }
});

test("what says nothing is passed over", () => {
  for (const text of ["#f", "<hello 1>", "<<error> 1>", '<"error" 1 2>', "[]"]) assert.deepEqual(packetOf(readText(text)), []);
});

test("what is no packet is the server's fault", () => {
  for (const text of ["#t", "5", '"a"', "[[0]]", "[[0 5]]", "[[0 <A 1>]]", "[[0 <A 1 -1>]]", "[[-1 <R 1>]]",
    "[[0 <R 9223372036854775808>]]", "[[0 <B 1>]]", "[[0 <M #:5>]]", "[[0 <M #:[2 1]>]]", "[[0 <M #:[0 1 <reject <_>>]>]]",
    "[[0 <S 1>]]", "[[0 <S #:[0]>]]", '[[0 <"A" 1 1>]]', "[[0 <assert 1 1>]]", "<error a 1>", '<error "a">', "[[#f <R 1>]]",
    "[[0 <R 1> 2]]", "[[0 <A 1 #t>]]", "[[0 <toString>]]"]) {
    assert.throws(() => packetOf(readText(text)), faults.ServerFault, text);
  }
});

test("references change sides", () => {
  const heard = asHeard(readText("<a #:[0 5] [#:[1 6] {#:[0 7]: #{#:[0 8]}}]>"), 3);
  assert.equal(shown(heard), "<a #:[1 5] [#:[0 6] {#:[1 7]: #{#:[1 8]}}]>");
  assert.ok(heard.fields[0] instanceof Reference && heard.fields[0].link === 3);
  assert.ok(heard.fields[1][0] instanceof Own);
  assert.equal(shown(heard.fields[0].attenuated(caveats.reject(caveats.ANYTHING))), "#:[1 5 <reject <_>>]");
});

test("turns that are too large aren't made", () => {
  const many = (count) => Array.from({ length: count }, () => [0, new Retract(1)]);
  assert.ok(turnBytes(many(1_024)).length > 0);
  assert.throws(() => turnBytes(many(1_025)), faults.TooLarge);
  const said = (size) => turnBytes([[0, new Message(new Uint8Array(size))]]);
  const most = MOST_BYTES - (said(100_000).length - 100_000);
  assert.equal(said(most).length, MOST_BYTES);
  assert.throws(() => said(most + 1), faults.TooLarge);
  assert.equal(shown(read(turnBytes([[2, new Assert(5, 1)], [2, new Sync(new Own(3))]]))[0]), "[[2 <A 5 1>] [2 <S #:[0 3]>]]");
});

// ---- signed references

const plain = SturdyReference.mint("room", bytesOfHex(row.key.hex));

test("the reference of the page is made", () => {
  const noSpeech = caveats.reject(caveats.fields("Says", caveats.ANYTHING, caveats.ANYTHING));
  assert.equal(hexOf(written(noSpeech)), row.caveat.hex);
  const made = plain.attenuated(noSpeech);
  assert.deepEqual([made.text(), hexOf(written(made.value()))], [row.reference.said, row.reference.hex]);
  assert.ok(made.isSignedBy(bytesOfHex(row.key.hex)));
  assert.ok(!made.isSignedBy(new Uint8Array(16)));
  assert.ok(!new SturdyReference(made.oid, made.signature).isSignedBy(bytesOfHex(row.key.hex)));
});

test("two caveats at once or one after the other", () => {
  const [one, other] = [1, 2].map((it) => caveats.reject(caveats.literal(it)));
  assert.equal(plain.attenuated(one, other).text(), plain.attenuated(one).attenuated(other).text());
  assert.notEqual(hexOf(plain.attenuated(one, other).signature), hexOf(plain.attenuated(other, one).signature));
});

test("text is read back", () => {
  const made = plain.attenuated(caveats.only(caveats.STRING));
  assert.equal(SturdyReference.fromText(made.text()).text(), made.text());
  assert.equal(SturdyReference.fromText(made.text().replace("oid:", "since: 5 oid:")).text(), made.text());
});

test("what is no reference is refused", () => {
  for (const text of ["<ref {}>", "<ref {oid: 1}>", '<ref {oid: 1 sig: "a"}>', "<sturdy {oid: 1 sig: #[]}>", "5", "<ref 1>",
    '<"ref" {oid: 1 sig: #[]}>', "<ref {oid: #:1 sig: #[]}>", "<ref {oid: 1 sig: #[] caveats: 5}>",
    "<ref {oid: 1 sig: #[] caveats: [#:1]}>", "<ref {oid: 1 sig: #[]} 2>", '<ref {"oid": 1 sig: #[]}>']) {
    assert.throws(() => SturdyReference.fromText(text), faults.NoReference, text);
  }
});

test("a reference has 32 caveats at most", () => {
  const many = Array.from({ length: 33 }, (_, n) => caveats.reject(caveats.literal(n)));
  assert.equal(plain.attenuated(...many.slice(0, 32)).caveats.length, 32);
  assert.throws(() => plain.attenuated(...many), faults.TooLarge);
  assert.throws(() => plain.attenuated(record("reject", new Embedded(1))), faults.NoReference);
});

test("the words of caveats are those of the table", () => {
  const made = caveats.firstOf(
    caveats.rewrite(caveats.every(caveats.bind(), caveats.negation(caveats.STRING)), caveats.bound(0)),
    caveats.rewrite(caveats.items(caveats.bind(caveats.EMBEDDED)), caveats.attenuated(caveats.bound(0))),
    caveats.rewrite(caveats.entries([[Symbol.for("a"), caveats.INTEGER]]), caveats.literal(5)));
  assert.equal(shown(made), "<or [<rewrite <and [<bind <_>> <not String>]> <ref 0>>"
    + " <rewrite <arr [<bind Embedded>]> <attenuate <ref 0> []>>"
    + " <rewrite <dict {a: SignedInteger}> <lit 5>>]>");
});
