/** The hash and the code, against the repository's tables, which another program made. */
import assert from "node:assert/strict";
import { test } from "node:test";

import { blake2s, hmac } from "../blake2s.js";
import { hexOf } from "../preserves.js";
import { cases, ofHex, textIn } from "./tables.js";

test("digests are those of the table", () => {
  for (const [given, wanted] of cases("blake2s")) {
    const [keyed, size, , ...rest] = ofHex(given);
    const digest = blake2s(Uint8Array.from(rest.slice(keyed)), Uint8Array.from(rest.slice(0, keyed)), size);
    assert.equal(hexOf(digest).padEnd(64, "0"), textIn(wanted).replaceAll(" ", ""));
  }
});

test("codes are those of the table", () => {
  for (const [given, wanted] of cases("hmac")) {
    const [keyed, ...rest] = ofHex(given);
    const code = hmac(Uint8Array.from(rest.slice(0, keyed)), Uint8Array.from(rest.slice(keyed)));
    assert.equal(hexOf(code), textIn(wanted).replaceAll(" ", ""));
  }
});
