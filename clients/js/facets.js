/**
 * Facets: scopes of a connection, whose facts, observations and objects go with them. What calls back may assert, retract,
 * observe, say and close facets; where it throws, the connection ends.
 *
 * @typedef {import("./preserves.js").Value} Value
 * @typedef {import("./packets.js").Reference | import("./dsd.js").Resolved} Target
 * @typedef {(value: Value) => void} Called
 * @typedef {{asserted?: Called, retracted?: Called, said?: Called}} Calls
 * @typedef {{kind: "asserted" | "retracted" | "said", captures: Value}} Change
 */
import { Behind, Disconnected } from "./faults.js";
import { Assert, Own, Retract } from "./packets.js";
import { record } from "./preserves.js";

// What the server keeps for a connection that takes nothing: docs/LIMITS.md.
const MOST_WAITING = 65_536;

/** A value that stands at a target while its facet does, or until it is retracted. */
export class Fact {
  /** @param {Facet} facet @param {Target} target @param {Value} value @param {number} handle */
  constructor(facet, target, value, handle) {
    this.facet = facet;
    this.target = target;
    this.value = value;
    this.handle = handle;
    this.said = false; // on the link that there is now
    /** @type {ToldObject | undefined} */
    this.told = undefined; // of an observation the object that it tells
  }

  get stands() {
    return this.facet.facts.has(this.handle);
  }

  assertion() {
    return new Assert(this.value, this.handle);
  }

  retraction() {
    return new Retract(this.handle);
  }
}

/** An object of ours: it is told of what comes and goes there, and of what is said. */
export class ToldObject {
  /** @param {number} number @param {Calls} calls */
  constructor(number, calls = {}) {
    this.reference = new Own(number);
    this.calls = calls;
    /** @type {Map<number | bigint, Value>} */
    this.standing = new Map();
  }

  comes(handle, value) {
    this.standing.set(handle, value);
    this.calls.asserted?.(value);
  }

  goes(handle) {
    const value = this.standing.get(handle);
    this.standing.delete(handle);
    this.calls.retracted?.(value);
  }

  hears(body) {
    this.calls.said?.(body);
  }

  /** Nothing stands there any more. */
  forget() {
    for (const handle of [...this.standing.keys()]) {
      if (this.standing.has(handle)) this.goes(handle);
    }
  }
}

/** For each value that stands there, a facet which goes with it. */
class During extends ToldObject {
  /** @param {number} number @param {Facet} facet @param {(facet: Facet, captures: Value) => void} body */
  constructor(number, facet, body) {
    super(number);
    this.facet = facet;
    this.body = body;
    /** @type {Map<number | bigint, Facet>} */
    this.inside = new Map();
  }

  comes(handle, value) {
    super.comes(handle, value);
    this.inside.set(handle, this.facet.facet());
    this.body(this.inside.get(handle), value);
  }

  goes(handle) {
    super.goes(handle);
    this.inside.get(handle).close();
    this.inside.delete(handle);
  }
}

/** What an observation is told, as an async iterator. It ends with its facet, and throws what ends the connection. */
export class Watch {
  /** @param {Facet} facet */
  constructor(facet) {
    this.facet = facet;
    /** @type {Change[]} */
    this.waiting = [];
  }

  /** @param {Change} change */
  put(change) {
    if (this.waiting.length >= MOST_WAITING) throw new Behind(`${MOST_WAITING} changes wait for an iterator`);
    this.waiting.push(change);
  }

  /** @returns {Promise<IteratorResult<Change>>} */
  async next() {
    await this.facet.connection.waitFor(() => this.waiting.length > 0 || !this.facet.isOpen);
    const value = this.waiting.shift();
    return value === undefined ? { done: true, value } : { done: false, value };
  }

  [Symbol.asyncIterator]() {
    return this;
  }
}

/** A scope. Who closes it takes back all that was asserted in it, and in those inside it. */
export class Facet {
  /** @param {import("./dsd.js").Connection} connection @param {Facet} [outer] */
  constructor(connection, outer) {
    this.connection = connection;
    this.outer = outer;
    this.isOpen = true;
    /** @type {Map<number, Fact>} */
    this.facts = new Map();
    /** @type {Map<number, ToldObject>} */
    this.objects = new Map();
    /** @type {Set<Facet>} */
    this.inside = new Set();
  }

  /** A facet inside this one. */
  facet() {
    this.mustBeOpen();
    const made = new Facet(this.connection, this);
    this.inside.add(made);
    return made;
  }

  // ---- facts

  /** The value stands at the target from now on; on a new link it is asserted anew. @param {Target} target @param {Value} value */
  assert(target, value) {
    this.mustBeOpen();
    const fact = new Fact(this, target, value, this.connection.nextHandle());
    this.connection.stand(fact);
    this.facts.set(fact.handle, fact);
    return fact;
  }

  /**
   * Takes a fact of this facet back. One that is gone already stays so. What an observation has told goes with it.
   * @param {Fact} fact
   */
  retract(fact) {
    if (!this.facts.delete(fact.handle)) return;
    this.connection.takeBack([fact]);
    if (fact.told !== undefined) {
      this.objects.delete(fact.told.reference.number);
      this.connection.objects.delete(fact.told.reference.number);
      fact.told.forget();
    }
  }

  /**
   * Takes a fact back and asserts another one at its target, in one turn: nobody sees neither of them, or both.
   * @param {Fact} fact @param {Value} value
   */
  replace(fact, value) {
    this.mustBeOpen();
    const made = new Fact(this, fact.target, value, this.connection.nextHandle());
    this.connection.replace(fact, made);
    this.facts.delete(fact.handle);
    this.facts.set(made.handle, made);
    return made;
  }

  // ---- what is told

  /** A reference to an object of ours, for values: by it others assert and say something to us. @param {Calls} calls */
  object(calls) {
    this.mustBeOpen();
    return this.kept(new ToldObject(this.connection.nextObject(), calls)).reference;
  }

  /**
   * Calls back with what the pattern captures of facts that come and go at the target, and of messages. It ends where the fact is
   * retracted that is given here.
   * @param {Target} target @param {Value} pattern @param {Calls} calls
   */
  observe(target, pattern, calls) {
    return this.observed(target, pattern, (number) => new ToldObject(number, calls));
  }

  /**
   * For each list of captures that stands, calls back with a facet that goes when it does.
   * @param {Target} target @param {Value} pattern @param {(facet: Facet, captures: Value) => void} body
   */
  during(target, pattern, body) {
    return this.observed(target, pattern, (number) => new During(number, this, body));
  }

  /** An async iterator over what an observation is told. @param {Target} target @param {Value} pattern */
  watch(target, pattern) {
    const watch = new Watch(this);
    const put = (kind) => (captures) => watch.put({ kind, captures });
    this.observe(target, pattern, { asserted: put("asserted"), retracted: put("retracted"), said: put("said") });
    return watch;
  }

  observed(target, pattern, make) {
    this.mustBeOpen();
    const told = make(this.connection.nextObject());
    const fact = this.assert(target, record("Observe", pattern, told.reference));
    fact.told = this.kept(told);
    return fact;
  }

  kept(made) {
    this.objects.set(made.reference.number, made);
    this.connection.objects.set(made.reference.number, made);
    return made;
  }

  // ---- the end

  /** Ends the facet, and those inside it, and takes back their facts. A second time it does nothing. */
  close() {
    if (!this.isOpen) return;
    const facts = this.end();
    this.outer?.inside.delete(this);
    this.connection.takeBack(facts);
    this.connection.tellNews();
  }

  /** Ends all inside, and then this one; the facts that are to be taken back. @returns {Fact[]} */
  end() {
    const facts = [...[...this.inside].reverse().flatMap((it) => it.end()), ...this.facts.values()];
    for (const number of this.objects.keys()) this.connection.objects.delete(number);
    for (const it of [this.inside, this.facts, this.objects]) it.clear();
    this.isOpen = false;
    return facts;
  }

  mustBeOpen() {
    this.connection.mustLive();
    if (!this.isOpen) throw new Disconnected("the facet is closed");
  }
}
