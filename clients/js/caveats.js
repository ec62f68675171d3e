/**
 * Caveats, which stand behind a reference so that it gives less (docs/FORMATS.md, 'Caveats'). What is sent through the reference
 * passes them, the newest first. The words of their patterns are those of a language of their own: `literal` takes any value
 * here, and a record has exactly the fields that are listed.
 *
 * @typedef {import("./preserves.js").Value} Value
 */
import { Dictionary, record } from "./preserves.js";

export const ANYTHING = record("_");
/** What matches a value of a kind. */
export const [BOOLEAN, DOUBLE, INTEGER, STRING, BYTES, SYMBOL, EMBEDDED] = [
  "Boolean", "Double", "SignedInteger", "String", "ByteString", "Symbol", "Embedded",
].map((name) => Symbol.for(name));

// ---- caveats

/** Refuses what matches, and lets all else pass. @param {Value} pattern */
export const reject = (pattern) => record("reject", pattern);

/** Makes the template of what matches, and refuses all else. @param {Value} pattern @param {Value} template */
export const rewrite = (pattern, template) => record("rewrite", pattern, template);

/** What the first of these rewrites makes that matches; refuses where none does. @param {...Value} rewrites */
export const firstOf = (...rewrites) => record("or", rewrites);

/** Lets pass what matches, as it is, and refuses all else. @param {Value} pattern */
export const only = (pattern) => rewrite(bind(pattern), bound(0));

// ---- patterns

/** Binds the value that the pattern matches: a template takes it by its number, from 0. @param {Value} [pattern] */
export const bind = (pattern = ANYTHING) => record("bind", pattern);

/** Matches what all of these match. @param {...Value} patterns */
export const every = (...patterns) => record("and", patterns);

/** Matches what the pattern doesn't, and binds nothing. @param {Value} pattern */
export const negation = (pattern) => record("not", pattern);

// ---- templates

/** The value that the pattern bound under this number. @param {number} number */
export const bound = (number) => record("ref", number);

/** The reference that the template gives, with these caveats behind its own. @param {Value} template @param {...Value} caveats */
export const attenuated = (template, ...caveats) => record("attenuate", template, caveats);

// ---- both, patterns of patterns and templates of templates

/** @param {Value} value */
export const literal = (value) => record("lit", value);

/** A record of this label with exactly these fields. @param {string} label @param {...Value} inside */
export const fields = (label, ...inside) => record("rec", Symbol.for(label), inside);

/** A sequence of exactly these items. @param {...Value} inside */
export const items = (...inside) => record("arr", inside);

/** As a pattern a dictionary with these keys, and maybe others; as a template one with these alone. */
export const entries = (/** @type {[Value, Value][]} */ inside) => record("dict", new Dictionary(inside));
