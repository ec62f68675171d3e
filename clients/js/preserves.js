/**
 * Values, their binary form and their text form (docs/FORMATS.md, 'Values', 'Binary spelling', 'Canonical form' and 'Text').
 *
 * Booleans, strings, sequences, byte strings and symbols are the language's boolean, string, Array, Uint8Array and symbol, a
 * symbol by its name: `Symbol.for("Present")`. An integer is a number where a number holds it exactly, and a bigint beyond. The
 * other kinds are the classes below. `same` tells whether two values are one.
 *
 * @typedef {boolean | number | bigint | Double | string | Uint8Array | symbol | Record | Value[] | ValueSet | Dictionary
 *   | Embedded} Value
 */

// What the server reads: docs/LIMITS.md.
export const MOST_DEPTH = 64;
export const MOST_BYTES = 262_144;
const INTEGER_BYTES = 16;

// ---- kinds that the language lacks

/** A label, which may be any value, and fields. */
export class Record {
  /** @param {Value} label @param {Value[]} fields */
  constructor(label, fields) {
    this.label = label;
    this.fields = fields;
  }

  /** Whether the label is the symbol of this name. @param {string} name */
  is(name) {
    return this.label === Symbol.for(name);
  }
}

/** Elements in any order, none twice. */
export class ValueSet {
  /** @param {Value[]} items */
  constructor(items) {
    this.items = items;
  }
}

/** Pairs of a key and a value in any order, no key twice. */
export class Dictionary {
  /** @param {[Value, Value][]} entries */
  constructor(entries) {
    this.entries = entries;
  }

  /** The value under a key, or undefined. @param {Value} key @returns {Value | undefined} */
  get(key) {
    return this.entries.find(([it]) => same(it, key))?.[1];
  }
}

/** In a packet a reference: [0, n] is object n of the one that sends it, [1, n] object n of the one that gets it. */
export class Embedded {
  /** @param {Value} inside */
  constructor(inside) {
    this.inside = inside;
  }
}

/** A double, which is a pattern of 64 bits. */
export class Double {
  /** @param {number} number @param {bigint} [bits] */
  constructor(number, bits) {
    const view = new DataView(new ArrayBuffer(8));
    view.setFloat64(0, number);
    this.bits = bits ?? view.getBigUint64(0);
  }

  /** @param {bigint} bits */
  static ofBits(bits) {
    return new Double(0, bits);
  }

  get number() {
    const view = new DataView(new ArrayBuffer(8));
    view.setBigUint64(0, this.bits);
    return view.getFloat64(0);
  }
}

/** A record whose label is the symbol of this name. @param {string} name @param {...Value} fields */
export function record(name, ...fields) {
  return new Record(Symbol.for(name), fields);
}

/** A dictionary whose keys are the symbols of these names. @param {{[name: string]: Value}} entries */
export function dictionary(entries) {
  return new Dictionary(Object.entries(entries).map(([name, value]) => [Symbol.for(name), value]));
}

// ---- faults

/** Whatever this package tells by an error of its own. */
export class DsdError extends Error {
  constructor(message, options) {
    super(message, options);
    this.name = new.target.name;
  }
}

/** What is to be sent is more than the server takes, or no value, so it isn't sent. */
export class Unwritable extends DsdError {}

/** Bytes that begin with no value. `place` is the offset of the tag of the innermost value in which the fault lies. */
export class BinaryFault extends DsdError {
  constructor(place) {
    super(`${new.target.name} at ${place}`);
    this.place = place;
  }
}

/** A text that is no value. `place` is the offset, in bytes of UTF-8, at which the token at fault begins. */
export class TextFault extends DsdError {
  constructor(place) {
    super(`${new.target.name} at ${place}`);
    this.place = place;
  }
}

/** A class for each of these names, which knows its number: they count from the first one. */
function kinds(Base, first, names) {
  return Object.fromEntries(names.map((name, n) => {
    const kind = { [name]: class extends Base {} }[name];
    return [name, Object.assign(kind, { number: first + n })];
  }));
}

/** The faults of the binary form, as docs/FORMATS.md has them, and `TooLong`, of a value of more bytes than may be. */
export const binaryFaults = kinds(BinaryFault, 1, [
  "Truncated", "BadTag", "LongVarint", "LongInteger", "TooWide", "BadUtf8", "Duplicate", "TooDeep", "TooLong",
]);

/** The faults of the text form, as docs/FORMATS.md has them. */
export const textFaults = kinds(TextFault, 10, [
  "Unexpected", "BadEscape", "DecimalDouble", "BadBytes", "Unclosed", "TooWide", "TooDeep", "Duplicate", "BadUtf8",
]);

// ---- bytes

const encoder = new TextEncoder();
const decoder = new TextDecoder("utf-8", { fatal: true, ignoreBOM: true });

/** @param {string} text @returns {Uint8Array} */
function utf8(text) {
  if (/\p{Surrogate}/u.test(text)) throw new Unwritable("half of a pair of surrogates is no text");
  return encoder.encode(text);
}

/** @param {Uint8Array[]} pieces @returns {Uint8Array} */
function joined(pieces) {
  const all = new Uint8Array(pieces.reduce((sum, it) => sum + it.length, 0));
  let at = 0;
  for (const piece of pieces) {
    all.set(piece, at);
    at += piece.length;
  }
  return all;
}

/** Byte by byte; a proper prefix comes first. @param {Uint8Array} one @param {Uint8Array} other */
function compareBytes(one, other) {
  for (let n = 0; n < one.length && n < other.length; n++) {
    if (one[n] !== other[n]) return one[n] - other[n];
  }
  return one.length - other.length;
}

/** @param {Uint8Array} bytes @returns {string} */
export function hexOf(bytes) {
  return Array.from(bytes, (it) => it.toString(16).padStart(2, "0")).join("");
}

/** @param {string} text @returns {Uint8Array} */
export function bytesOfHex(text) {
  return Uint8Array.from(text.match(/../g) ?? [], (it) => parseInt(it, 16));
}

// ---- kinds, and the order of values

const KINDS = [
  "boolean", "double", "integer", "string", "bytes", "symbol", "record", "sequence", "set", "dictionary", "embedded",
];

/** The kind of a value, which is its rank in the order of values. @param {Value} value @returns {string} */
export function kindOf(value) {
  const kind = { boolean: "boolean", bigint: "integer", string: "string" }[typeof value];
  if (kind !== undefined) return kind;
  if (typeof value === "number" && Number.isSafeInteger(value)) return "integer";
  if (typeof value === "symbol" && Symbol.keyFor(value) !== undefined) return "symbol";
  if (value instanceof Uint8Array) return "bytes";
  if (Array.isArray(value)) return "sequence";
  if (value instanceof Record) return "record";
  if (value instanceof Double) return "double";
  if (value instanceof ValueSet) return "set";
  if (value instanceof Dictionary) return "dictionary";
  if (value instanceof Embedded) return "embedded";
  throw new Unwritable(`no value: ${String(value)}`);
}

/** By totalOrder of IEEE 754: a clear sign bit is set, and where it is set all bits are flipped. @param {Double} it */
function totalOrder(it) {
  const sign = 1n << 63n;
  return it.bits < sign ? it.bits ^ sign : it.bits ^ ((1n << 64n) - 1n);
}

const ordered = (one, other) => (one < other ? -1 : one > other ? 1 : 0);

/** Item by item; a proper prefix comes first. */
function compareLists(one, other) {
  for (let n = 0; n < one.length && n < other.length; n++) {
    const found = compare(one[n], other[n]);
    if (found !== 0) return found;
  }
  return one.length - other.length;
}

const ascending = (it) => [...it.items].sort(compare);
const ascendingEntries = (it) => [...it.entries].sort(([one], [other]) => compare(one, other));
const nameOf = (symbol) => Symbol.keyFor(symbol) ?? "";

const ORDERS = {
  boolean: (one, other) => Number(one) - Number(other),
  double: (one, other) => ordered(totalOrder(one), totalOrder(other)),
  integer: ordered,
  string: (one, other) => compareBytes(utf8(one), utf8(other)),
  bytes: compareBytes,
  symbol: (one, other) => compareBytes(utf8(nameOf(one)), utf8(nameOf(other))),
  record: (one, other) => compare(one.label, other.label) || compareLists(one.fields, other.fields),
  sequence: compareLists,
  set: (one, other) => compareLists(ascending(one), ascending(other)),
  dictionary: (one, other) => compareLists(ascendingEntries(one), ascendingEntries(other)),
  embedded: (one, other) => compare(one.inside, other.inside),
};

/**
 * The order of values: below, at or above zero where the one comes before the other, is it or comes behind it.
 * @param {Value} one @param {Value} other @returns {number}
 */
export function compare(one, other) {
  const kind = kindOf(one);
  const rank = KINDS.indexOf(kind) - KINDS.indexOf(kindOf(other));
  return rank !== 0 ? rank : ORDERS[kind](one, other);
}

/** Whether two values are one. @param {Value} one @param {Value} other */
export function same(one, other) {
  return compare(one, other) === 0;
}

/** The embedded values in a value that aren't inside another one. @param {Value} value @returns {Generator<Embedded>} */
export function* embeddedIn(value) {
  if (value instanceof Embedded) {
    yield value;
    return;
  }
  const inside = value instanceof Record ? [value.label, ...value.fields]
    : value instanceof ValueSet ? value.items
      : value instanceof Dictionary ? value.entries.flat(1)
        : Array.isArray(value) ? value : [];
  for (const it of inside) yield* embeddedIn(it);
}

/**
 * A value with each of its embedded values turned into another.
 * @param {Value} value @param {(it: Embedded) => Value} turn @returns {Value}
 */
export function mapEmbedded(value, turn) {
  const inside = (it) => mapEmbedded(it, turn);
  if (value instanceof Embedded) return turn(value);
  if (value instanceof Record) return new Record(inside(value.label), value.fields.map(inside));
  if (value instanceof ValueSet) return new ValueSet(value.items.map(inside));
  if (value instanceof Dictionary) return new Dictionary(value.entries.map(([key, it]) => [inside(key), inside(it)]));
  return Array.isArray(value) ? value.map(inside) : value;
}

// ---- the binary form: writing

const FALSE = 0x80, TRUE = 0x81, END = 0x84, EMBEDDED = 0x86, DOUBLE = 0x87;
const INTEGER = 0xb0, STRING = 0xb1, BYTES = 0xb2, SYMBOL = 0xb3;
const RECORD = 0xb4, SEQUENCE = 0xb5, SET = 0xb6, DICTIONARY = 0xb7;

const compound = (tag, pieces) => joined([Uint8Array.of(tag), ...pieces, Uint8Array.of(END)]);

const WRITERS = {
  boolean: (it) => Uint8Array.of(it ? TRUE : FALSE),
  double: (it) => joined([Uint8Array.of(DOUBLE, 8), bytesOfHex(it.bits.toString(16).padStart(16, "0"))]),
  integer: (it) => atom(INTEGER, integerBytes(BigInt(it))),
  string: (it) => atom(STRING, utf8(it)),
  bytes: (it) => atom(BYTES, it),
  symbol: (it) => atom(SYMBOL, utf8(nameOf(it))),
  record: (it) => compound(RECORD, [it.label, ...it.fields].map(written)),
  sequence: (it) => compound(SEQUENCE, it.map(written)),
  set: (it) => compound(SET, byBytes(it.items.map((item) => [written(item)]))),
  dictionary: (it) => compound(DICTIONARY, byBytes(it.entries.map((entry) => entry.map(written)))),
  embedded: (it) => joined([Uint8Array.of(EMBEDDED), written(it.inside)]),
};

/**
 * The canonical form of a value: elements and entries ascend by their bytes, so that equal values have one form.
 * @param {Value} value @returns {Uint8Array}
 */
export function written(value) {
  return WRITERS[kindOf(value)](value);
}

/** Behind the tag stands how many bytes follow: seven bits a byte, the lowest first. */
function atom(tag, body) {
  const head = [tag];
  let left = body.length;
  for (; left >= 128; left = Math.floor(left / 128)) head.push((left % 128) + 128);
  return joined([Uint8Array.of(...head, left), body]);
}

/** Two's complement in the fewest bytes, the highest first; 0 has none. @param {bigint} value */
function integerBytes(value) {
  if (value === 0n) return new Uint8Array(0);
  let size = 1;
  while (BigInt.asIntN(8 * size, value) !== value) size++;
  if (size > INTEGER_BYTES) throw new Unwritable("an integer has at most 128 bits");
  return bytesOfHex(BigInt.asUintN(8 * size, value).toString(16).padStart(2 * size, "0"));
}

/** The parts of a set or a dictionary, of which each begins with its key. @param {Uint8Array[][]} parts */
function byBytes(parts) {
  parts.sort(([one], [other]) => compareBytes(one, other));
  for (let n = 1; n < parts.length; n++) {
    if (compareBytes(parts[n - 1][0], parts[n][0]) === 0) throw new Unwritable("an element or a key stands twice");
  }
  return parts.flat();
}

/** Whether none of these is twice there. @param {Value[]} keys */
function areDistinct(keys) {
  return new Set(keys.map((it) => hexOf(written(it)))).size === keys.length;
}

// ---- the binary form: reading

/** A compound, or an embedded value, that isn't whole yet. */
class Open {
  constructor(tag, place) {
    this.tag = tag;
    this.place = place;
    /** @type {Value[]} */
    this.parts = [];
  }

  /** Whether a record has its label, and each key of a dictionary its value. */
  mayEnd() {
    if (this.tag === RECORD) return this.parts.length > 0;
    if (this.tag === DICTIONARY) return this.parts.length % 2 === 0;
    return this.tag !== EMBEDDED;
  }

  /** The compound, which is whole now. */
  value() {
    const { tag, parts } = this;
    if (tag === RECORD) return new Record(parts[0], parts.slice(1));
    if (tag === SEQUENCE) return parts;
    const keys = tag === SET ? parts : parts.filter((_, n) => n % 2 === 0);
    if (!areDistinct(keys)) throw new binaryFaults.Duplicate(this.place);
    return tag === SET ? new ValueSet(keys) : new Dictionary(keys.map((key, n) => [key, parts[2 * n + 1]]));
  }
}

/**
 * Values one behind another, of bytes that are pushed as they come. Each byte is looked at once. A value of more bytes, or of
 * more levels, than may be is a fault, so that what is kept of a stream is bounded.
 */
export class Reader {
  /** @param {{mostBytes?: number, mostDepth?: number}} [options] */
  constructor({ mostBytes = MOST_BYTES, mostDepth = MOST_DEPTH } = {}) {
    this.mostBytes = mostBytes;
    this.mostDepth = mostDepth;
    this.data = new Uint8Array(0);
    this.dropped = 0; // so many bytes came before those that are kept
    this.at = 0; // the next token begins at this one of those that are kept
    this.stop = 0; // and what may be looked at ends here
    this.begin = 0; // where the value under way begins, counted over all bytes
    /** @type {Open[]} */
    this.open = [];
    /** @type {Value | undefined} */
    this.root = undefined;
  }

  /** More of the stream. @param {Uint8Array} piece */
  push(piece) {
    this.data = joined([this.data.subarray(this.at), piece]);
    this.dropped += this.at;
    this.at = 0;
  }

  /** Where the next token begins, counted over all bytes. */
  get place() {
    return this.dropped + this.at;
  }

  /** The next value, or undefined while it isn't whole. @returns {Value | undefined} */
  next() {
    const most = this.begin + this.mostBytes - this.dropped;
    this.stop = Math.min(this.data.length, most);
    while (this.root === undefined && this.at < this.stop && this.token());
    if (this.root === undefined) {
      if (this.stop === most) throw new binaryFaults.TooLong(this.begin);
      return undefined;
    }
    const value = this.root;
    this.root = undefined;
    this.begin = this.place;
    return value;
  }

  /** Nothing more comes: a value that isn't whole is cut off. */
  end() {
    if (this.open.length > 0 || this.at < this.data.length) throw new binaryFaults.Truncated(this.place);
  }

  /** Takes one token, and tells whether it is there as a whole. */
  token() {
    const tag = this.data[this.at];
    if (tag >= INTEGER && tag <= SYMBOL) return this.atom(tag);
    if (tag === DOUBLE) return this.double();
    if (tag === EMBEDDED || (tag >= RECORD && tag <= DICTIONARY)) this.opened(tag);
    else if (tag === END) this.closed();
    else if (tag === FALSE || tag === TRUE) this.taken(this.at + 1, tag === TRUE);
    else throw new binaryFaults.BadTag(this.place);
    return true;
  }

  double() {
    if (this.at + 1 < this.stop && this.data[this.at + 1] !== 8) throw new binaryFaults.BadTag(this.place);
    if (this.at + 10 > this.stop) return false;
    const bits = new DataView(this.data.buffer, this.data.byteOffset + this.at + 2).getBigUint64(0);
    this.taken(this.at + 10, Double.ofBits(bits));
    return true;
  }

  atom(tag) {
    const counted = this.count();
    if (counted === undefined) return false;
    const [size, begin] = counted;
    if (tag === INTEGER && size > INTEGER_BYTES) throw new binaryFaults.TooWide(this.place);
    if (begin + size > this.stop) return false;
    this.taken(begin + size, this.valueOf(tag, this.data.slice(begin, begin + size)));
    return true;
  }

  /** How many bytes an atom has, and where they begin, or undefined while the count isn't whole. */
  count() {
    let count = 0n;
    for (let n = 0; n < 10; n++) {
      const at = this.at + 1 + n;
      if (at >= this.stop) return undefined;
      const byte = this.data[at];
      count |= BigInt(byte & 127) << BigInt(7 * n);
      if (byte < 128) {
        if ((n > 0 && byte === 0) || count >= 1n << 64n) break;
        return [Number(count), at + 1];
      }
    }
    throw new binaryFaults.LongVarint(this.place);
  }

  valueOf(tag, body) {
    if (tag === BYTES) return body;
    if (tag === INTEGER) return this.integer(body);
    try {
      const text = decoder.decode(body);
      return tag === SYMBOL ? Symbol.for(text) : text;
    } catch (fault) {
      if (!(fault instanceof TypeError)) throw fault;
      throw new binaryFaults.BadUtf8(this.place);
    }
  }

  integer(body) {
    const value = body.length === 0 ? 0n : BigInt.asIntN(8 * body.length, BigInt(`0x${hexOf(body)}`));
    if (integerBytes(value).length !== body.length) throw new binaryFaults.LongInteger(this.place);
    return narrowed(value);
  }

  opened(tag) {
    if (this.open.length >= this.mostDepth) throw new binaryFaults.TooDeep(this.place);
    this.open.push(new Open(tag, this.place));
    this.at += 1;
  }

  closed() {
    const innermost = this.open.at(-1);
    if (!innermost?.mayEnd()) throw new binaryFaults.BadTag(this.place);
    this.open.pop();
    this.taken(this.at + 1, innermost.value());
  }

  /** A value is whole: it is a part of what is open, or the one that is waited for. */
  taken(end, value) {
    this.at = end;
    while (this.open.at(-1)?.tag === EMBEDDED) {
      this.open.pop();
      value = new Embedded(value);
    }
    if (this.open.length > 0) this.open.at(-1).parts.push(value);
    else this.root = value;
  }
}

/** A number where a number holds it exactly. @param {bigint} value */
function narrowed(value) {
  const number = Number(value);
  return Number.isSafeInteger(number) ? number : value;
}

/** The value with which bytes begin, and where it ends. @param {Uint8Array} bytes @returns {[Value, number]} */
export function read(bytes) {
  const reader = new Reader({ mostBytes: bytes.length + 1 });
  reader.push(bytes);
  const value = reader.next();
  if (value === undefined) throw new binaryFaults.Truncated(reader.place);
  return [value, reader.place];
}

// ---- the text form: printing

const BARE = /^[A-Za-z0-9~!$%^&*?_=+\-/.]+$/;
const WHOLE = /^[+-]?[0-9]+$/;
const DECIMAL = /^[+-]?[0-9]+(\.[0-9]+)?([eE][+-]?[0-9]+)?$/;

const spaced = (parts) => parts.map(shown).join(" ");

const PRINTERS = {
  boolean: (it) => (it ? "#t" : "#f"),
  double: (it) => `#xd"${it.bits.toString(16).padStart(16, "0")}"`,
  integer: (it) => it.toString(),
  string: (it) => quoted(it, '"'),
  bytes: (it) => `#[${base64Of(it)}]`,
  symbol: (it) => (BARE.test(nameOf(it)) && !DECIMAL.test(nameOf(it)) ? nameOf(it) : quoted(nameOf(it), "|")),
  record: (it) => `<${spaced([it.label, ...it.fields])}>`,
  sequence: (it) => `[${spaced(it)}]`,
  set: (it) => `#{${spaced(ascending(it))}}`,
  dictionary: (it) => `{${ascendingEntries(it).map(([key, value]) => `${shown(key)}: ${shown(value)}`).join(" ")}}`,
  embedded: (it) => `#:${shown(it.inside)}`,
};

/** A value as text, in the one form in which the server prints it too. @param {Value} value @returns {string} */
export function shown(value) {
  return PRINTERS[kindOf(value)](value);
}

/** Between quotes, with the escapes of JSON; of the two quotes the one that isn't around it stands as it is. */
function quoted(text, quote) {
  const inside = JSON.stringify(text).slice(1, -1);
  return quote + (quote === "|" ? inside.replaceAll('\\"', '"').replaceAll("|", "\\|") : inside) + quote;
}

const BASE64 = "ABCDEFGHIJKLMNOPQRSTUVWXYZabcdefghijklmnopqrstuvwxyz0123456789+/";

/** @param {Uint8Array} bytes */
function base64Of(bytes) {
  let made = "";
  for (let n = 0; n < bytes.length; n += 3) {
    const group = bytes.subarray(n, n + 3);
    const bits = ((group[0] << 16) | ((group[1] ?? 0) << 8) | (group[2] ?? 0)) >>> 0;
    const digits = [18, 12, 6, 0].map((shift) => BASE64[(bits >> shift) & 63]);
    made += digits.map((it, place) => (place <= group.length ? it : "=")).join("");
  }
  return made;
}

// ---- the text form: reading

const SPACE = " \t\r\n";
const ENDS = { "<": ">", "[": "]", "#{": "}", "{": "}" };
const ESCAPES = { "\\": "\\", "/": "/", b: "\b", f: "\f", n: "\n", r: "\r", t: "\t" };

/**
 * The one value that a text spells: white space and comments may stand around it, and nothing else.
 * @param {string | Uint8Array} text @returns {Value}
 */
export function readText(text) {
  const reader = new TextReader(text);
  const value = reader.next();
  reader.gap();
  if (reader.at < reader.text.length) throw reader.fault("Unexpected", reader.at);
  return value;
}

/** A text, and how far it is read. `innermost` is what is open, which decides whether a comma is white space. */
export class TextReader {
  /** @param {string | Uint8Array} text */
  constructor(text, mostDepth = MOST_DEPTH) {
    this.mostDepth = mostDepth;
    this.at = 0;
    this.innermost = "";
    try {
      this.text = typeof text === "string" ? decoder.decode(utf8(text)) : decoder.decode(text);
    } catch (fault) {
      if (!(fault instanceof TypeError || fault instanceof Unwritable)) throw fault;
      throw new textFaults.BadUtf8(0);
    }
  }

  /** @param {string} kind @param {number} at */
  fault(kind, at) {
    return new textFaults[kind](utf8(this.text.slice(0, at)).length);
  }

  /** Passes over white space and comments. */
  gap() {
    const spaces = SPACE + (["[", "#{", "{"].includes(this.innermost) ? "," : "");
    for (; this.at < this.text.length; this.at++) {
      const [one, following = ""] = this.text.slice(this.at, this.at + 2);
      if (one === "#" && following !== "" && " \t!\r\n".includes(following)) {
        while (this.at + 1 < this.text.length && !"\r\n".includes(this.text[this.at + 1])) this.at++;
      } else if (!spaces.includes(one)) {
        return;
      }
    }
  }

  /** The value that begins behind the gap; `opened` is where that begins in which it stands. @returns {Value} */
  next(depth = 0, opened = undefined) {
    this.gap();
    const begin = this.at;
    if (begin >= this.text.length) throw opened === undefined ? this.fault("Unexpected", begin) : this.fault("Unclosed", opened);
    const mark = this.text[begin];
    if (mark === "@") return this.annotated(depth);
    if (mark === "#") return this.hashed(begin, depth);
    if (mark in ENDS) return this.compound(begin, mark, depth);
    if (mark !== '"' && mark !== "|") return this.bare(begin);
    this.at += 1;
    const text = this.string(begin, mark);
    return mark === "|" ? Symbol.for(text) : text;
  }

  annotated(depth) {
    const begin = this.at;
    this.at += 1;
    this.next(depth, begin);
    return this.next(depth, begin);
  }

  hashed(begin, depth) {
    const two = this.text.slice(begin, begin + 2);
    if (two === "#") throw this.fault("Unclosed", begin);
    if (two === "#{") return this.compound(begin, two, depth);
    if (two === "#:") return this.embedded(begin, depth);
    this.at += 2;
    if (two === "#t" || two === "#f") return two === "#t";
    if (two === "#[") return this.base64(begin);
    if (two === '#"') return this.ascii(begin);
    if (two === "#x") return this.hexadecimal(begin);
    throw this.fault("Unexpected", begin);
  }

  embedded(begin, depth) {
    if (depth >= this.mostDepth) throw this.fault("TooDeep", begin);
    this.at += 2;
    return new Embedded(this.next(depth + 1, begin));
  }

  compound(begin, mark, depth) {
    if (depth >= this.mostDepth) throw this.fault("TooDeep", begin);
    this.at += mark.length;
    const outer = this.innermost;
    this.innermost = mark;
    const parts = [];
    while (!this.closes(begin, mark)) {
      parts.push(this.next(depth + 1, begin));
      if (mark === "{") {
        this.colon(begin);
        parts.push(this.next(depth + 1, begin));
      }
    }
    if (mark === "<" && parts.length === 0) throw this.fault("Unexpected", this.at);
    this.at += 1;
    this.innermost = outer;
    return this.made(begin, mark, parts);
  }

  closes(begin, mark) {
    this.gap();
    if (this.at >= this.text.length) throw this.fault("Unclosed", begin);
    return this.text[this.at] === ENDS[mark];
  }

  colon(begin) {
    this.gap();
    if (this.at >= this.text.length) throw this.fault("Unclosed", begin);
    if (this.text[this.at] !== ":") throw this.fault("Unexpected", this.at);
    this.at += 1;
  }

  made(begin, mark, parts) {
    if (mark === "<") return new Record(parts[0], parts.slice(1));
    if (mark === "[") return parts;
    const keys = mark === "#{" ? parts : parts.filter((_, n) => n % 2 === 0);
    if (!areDistinct(keys)) throw this.fault("Duplicate", begin);
    return mark === "#{" ? new ValueSet(keys) : new Dictionary(keys.map((key, n) => [key, parts[2 * n + 1]]));
  }

  // ---- atoms

  /** The next character of a token that goes on. */
  character(begin) {
    if (this.at >= this.text.length) throw this.fault("Unclosed", begin);
    return this.text[this.at++];
  }

  string(begin, quote) {
    let made = "";
    for (let it = this.character(begin); it !== quote; it = this.character(begin)) {
      made += it === "\\" ? this.escaped(begin, quote) : it;
    }
    return made;
  }

  escaped(begin, quote) {
    const mark = this.character(begin);
    if (mark === quote) return quote;
    if (mark !== "u") {
      if (!(mark in ESCAPES)) throw this.fault("BadEscape", begin);
      return ESCAPES[mark];
    }
    const high = this.digits(begin, 4);
    if (high < 0xd800 || high > 0xdfff) return String.fromCharCode(high);
    if (high > 0xdbff || this.character(begin) !== "\\" || this.character(begin) !== "u") throw this.fault("BadEscape", begin);
    const low = this.digits(begin, 4);
    if (low < 0xdc00 || low > 0xdfff) throw this.fault("BadEscape", begin);
    return String.fromCharCode(high, low);
  }

  /** So many hexadecimal digits of an escape. */
  digits(begin, count) {
    let number = 0;
    for (let n = 0; n < count; n++) {
      const it = this.character(begin);
      if (!/^[0-9a-fA-F]$/.test(it)) throw this.fault("BadEscape", begin);
      number = number * 16 + parseInt(it, 16);
    }
    return number;
  }

  ascii(begin) {
    const made = [];
    for (let it = this.character(begin); it !== '"'; it = this.character(begin)) {
      if (it !== "\\") {
        if (it < " " || it > "~") throw this.fault("BadBytes", begin);
        made.push(it.charCodeAt(0));
        continue;
      }
      const mark = this.character(begin);
      if (mark === "x") made.push(this.digits(begin, 2));
      else if (mark === '"' || mark in ESCAPES) made.push((ESCAPES[mark] ?? mark).charCodeAt(0));
      else throw this.fault("BadEscape", begin);
    }
    return Uint8Array.from(made);
  }

  /** The characters up to the end of a token, of which all that aren't white space are of a kind. */
  body(begin, end, kind) {
    let made = "";
    for (let it = this.character(begin); it !== end; it = this.character(begin)) {
      if (SPACE.includes(it)) continue;
      if (!kind.test(it)) throw this.fault("BadBytes", begin);
      made += it;
    }
    return made;
  }

  /** A byte string, or a double by its bits. */
  hexadecimal(begin) {
    let mark = this.character(begin);
    const double = mark === "d";
    if (double) mark = this.character(begin);
    if (mark !== '"') throw this.fault("Unexpected", begin);
    const digits = this.body(begin, '"', /^[0-9a-fA-F]$/);
    if (digits.length % 2 !== 0 || (double && digits.length !== 16)) throw this.fault("BadBytes", begin);
    return double ? Double.ofBits(BigInt(`0x${digits}`)) : bytesOfHex(digits);
  }

  base64(begin) {
    const digits = this.body(begin, "]", /^[A-Za-z0-9+/_=-]$/).replaceAll("-", "+").replaceAll("_", "/");
    const bare = digits.replace(/=+$/, "");
    const whole = bare + "=".repeat(-bare.length & 3);
    const bytes = [];
    for (let n = 0; n < bare.length; n += 4) {
      const group = Array.from(bare.slice(n, n + 4), (it) => BASE64.indexOf(it));
      const bits = group.reduce((sum, it, place) => sum | (it << (18 - 6 * place)), 0);
      bytes.push(...[bits >> 16, (bits >> 8) & 255, bits & 255].slice(0, group.length - 1));
    }
    const made = Uint8Array.from(bytes);
    const padded = digits !== bare && digits !== whole;
    if (bare.includes("=") || padded || base64Of(made) !== whole) throw this.fault("BadBytes", begin);
    return made;
  }

  bare(begin) {
    while (this.at < this.text.length && (this.text[this.at] >= "\x80" || BARE.test(this.text[this.at]))) this.at++;
    const token = this.text.slice(begin, this.at);
    if (token === "") throw this.fault("Unexpected", begin);
    if (WHOLE.test(token)) return this.integer(begin, token);
    if (DECIMAL.test(token)) throw this.fault("DecimalDouble", begin);
    return Symbol.for(token);
  }

  integer(begin, token) {
    const digits = token.replace(/^[+-]/, "").replace(/^0+(?=.)/, "");
    const value = digits.length < 40 ? BigInt(digits) * (token[0] === "-" ? -1n : 1n) : 1n << 127n;
    if (BigInt.asIntN(128, value) !== value) throw this.fault("TooWide", begin);
    return narrowed(value);
  }
}
