/**
 * Packets: turns, error packets, and what says nothing (docs/FORMATS.md, 'Packets'). A turn is a list of events, each aimed at an
 * object. In a value a reference says whose object it names, as seen by the one that sends it.
 *
 * @typedef {import("./preserves.js").Value} Value
 * @typedef {Assert | Retract | Message | Sync} Event
 */
import { TooLarge, ServerFault, refusal } from "./faults.js";
import { Embedded, MOST_BYTES, Record, embeddedIn, mapEmbedded, record, shown, written } from "./preserves.js";

// Of a turn that is sent: docs/LIMITS.md.
export const MOST_EVENTS = 1_024;
// Numbers of objects and handles end here.
const MOST_NUMBER = (1n << 63n) - 1n;

// ---- references

/** An object of ours, as we name it. */
export class Own extends Embedded {
  /** @param {number | bigint} number */
  constructor(number) {
    super([0, number]);
    this.number = number;
  }
}

/**
 * An object of the server's, as we name it, with further caveats maybe. It was heard on one link, the `link`th of its connection:
 * on the next one the number stands for something else.
 */
export class Reference extends Embedded {
  /** @param {number | bigint} number @param {Value[]} caveats @param {number} link */
  constructor(number, caveats, link) {
    super([1, number, ...caveats]);
    this.number = number;
    this.caveats = caveats;
    this.link = link;
  }

  /** The same object by a reference that gives less. @param {...Value} caveats */
  attenuated(...caveats) {
    return new Reference(this.number, [...this.caveats, ...caveats], this.link);
  }
}

// ---- events

/** The value stands at the object until its handle is retracted, or its sender goes. */
export class Assert {
  /** @param {Value} value @param {number | bigint} handle */
  constructor(value, handle) {
    this.value = value;
    this.handle = handle;
  }

  record() {
    return record("A", this.value, this.handle);
  }
}

/** The assertion under this handle is taken back. */
export class Retract {
  /** @param {number | bigint} handle */
  constructor(handle) {
    this.handle = handle;
  }

  record() {
    return record("R", this.handle);
  }
}

/** The value is heard once. */
export class Message {
  /** @param {Value} body */
  constructor(body) {
    this.body = body;
  }

  record() {
    return record("M", this.body);
  }
}

/** The peer is to be sent `#t`, once the object has done all that it was sent before. */
export class Sync {
  /** @param {Embedded} peer */
  constructor(peer) {
    this.peer = peer;
  }

  record() {
    return record("S", this.peer);
  }
}

/**
 * A turn in the binary form. One that the server wouldn't take for its size isn't made.
 * @param {[number | bigint, Event][]} events
 */
export function turnBytes(events) {
  if (events.length > MOST_EVENTS) throw new TooLarge(`a turn has at most ${MOST_EVENTS} events`);
  const made = written(events.map(([oid, event]) => [oid, event.record()]));
  if (made.length > MOST_BYTES) throw new TooLarge(`a packet has at most ${MOST_BYTES} bytes`);
  return made;
}

// ---- what is heard

/** Whether a value is the number of an object or a handle. @param {Value} value */
const isNumber = (value) => (typeof value === "number" || typeof value === "bigint") && value >= 0 && value <= MOST_NUMBER;

/** Whether an embedded value names an object of its sender's, or, with caveats maybe, of its receiver's. */
function isReference({ inside }) {
  if (!Array.isArray(inside) || !isNumber(inside[1])) return false;
  return inside[0] === 1 || (inside[0] === 0 && inside.length === 2);
}

const areReferences = (value) => [...embeddedIn(value)].every(isReference);

/** How each event is made of the fields of its record, where they are those of one. */
const EVENTS = {
  A: ([value, handle]) => (isNumber(handle) && areReferences(value) ? new Assert(value, handle) : undefined),
  R: ([handle]) => (isNumber(handle) ? new Retract(handle) : undefined),
  M: ([body]) => (areReferences(body) ? new Message(body) : undefined),
  S: ([peer]) => (peer instanceof Embedded && isReference(peer) ? new Sync(peer) : undefined),
};
const FIELDS = { A: 2, R: 1, M: 1, S: 1 };

/** The event at an object that a value is. @param {Value} value @returns {[number | bigint, Event]} */
function aimed(value) {
  if (Array.isArray(value) && value.length === 2 && isNumber(value[0]) && value[1] instanceof Record) {
    const [oid, { label, fields }] = value;
    const name = typeof label === "symbol" ? Symbol.keyFor(label) : undefined;
    const event = FIELDS[name] === fields.length ? EVENTS[name](fields) : undefined;
    if (event !== undefined) return [oid, event];
  }
  throw new ServerFault(`what comes is no event at an object: ${shown(value)}`);
}

/**
 * What a value is as a packet: the events of a turn, of which `#f` and an extension have none, or a refusal.
 * @param {Value} value @returns {[number | bigint, Event][] | import("./faults.js").Refusal}
 */
export function packetOf(value) {
  if (value === false) return [];
  if (Array.isArray(value)) return value.map(aimed);
  if (value instanceof Record && !value.is("error")) return [];
  if (value instanceof Record && value.fields.length === 2 && typeof value.fields[0] === "string") {
    return refusal(value.fields[0], value.fields[1]);
  }
  throw new ServerFault(`what comes is no packet: ${shown(value)}`);
}

/**
 * A value that came on a link, with each reference as we name it: what the server calls its own is the server's to us.
 * @param {Value} value @param {number} link
 */
export function asHeard(value, link) {
  return mapEmbedded(value, ({ inside: [side, number, ...caveats] }) =>
    side === 1 ? new Own(number) : new Reference(number, caveats, link));
}
