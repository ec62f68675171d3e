/**
 * Patterns of observations (docs/FORMATS.md, 'Dataspace patterns'), in the newer grammar. A pattern with a slip in it is answered
 * by nothing, and not by an error: these calls make none.
 *
 * @typedef {import("./preserves.js").Value} Value
 * @typedef {import("./preserves.js").Record} Pattern
 */
import { Dictionary, record } from "./preserves.js";

/** Matches everything, and captures nothing. */
export const ANYTHING = record("_");

/** Captures the value that the pattern matches. @param {Pattern} [pattern] */
export const bind = (pattern = ANYTHING) => record("bind", pattern);

/** Matches everything, and captures it. */
export const CAPTURE = bind();

/** Matches this atom, or this reference, alone. @param {Value} value */
export const literal = (value) => record("lit", value);

const numbered = (patterns) => new Dictionary(patterns.map((it, n) => [n, it]));

/** Matches each record of this label whose first fields match these; it may have more. */
export const fields = (/** @type {string} */ label, /** @type {Pattern[]} */ ...patterns) =>
  record("group", record("rec", Symbol.for(label)), numbered(patterns));

/** Matches each sequence whose first items match these; it may have more. */
export const items = (/** @type {Pattern[]} */ ...patterns) => record("group", record("arr"), numbered(patterns));

/** Matches each dictionary that has these keys, their values matching; it may have more. @param {[Value, Pattern][]} patterns */
export const entries = (patterns) => record("group", record("dict"), new Dictionary(patterns));
