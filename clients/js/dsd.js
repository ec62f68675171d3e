/**
 * A client of dsd, a server of Syndicate dataspaces.
 *
 *     const connection = await connect(tcp("127.0.0.1:7000"));
 *     const room = await connection.resolve(SturdyReference.fromText(text));
 *     connection.root.observe(room, patterns.fields("Present", patterns.CAPTURE), { asserted: console.log });
 *     connection.root.assert(room, record("Present", "ann"));
 *
 * `preserves.js` has values and their two forms, `packets.js` what goes over a link, `patterns.js`, `caveats.js` and `sturdy.js`
 * what stands in it, `facets.js` and this file what a program works with; `faults.js` has what can go wrong. docs/CLIENTS.md has
 * the steps that a client takes.
 *
 * @typedef {import("./preserves.js").Value} Value
 * @typedef {import("./facets.js").Target} Target
 *
 * @typedef {object} Listener  What hears a link.
 * @property {(bytes: Uint8Array) => void} bytes  called with what comes, in any pieces
 * @property {(ended: LinkEnded) => void} end  called once, when nothing comes any more
 *
 * @typedef {object} Transport  A link that is open: bytes in both directions, without losses and in order.
 * @property {(bytes: Uint8Array) => void} send  keeps the bytes until they are gone
 * @property {() => void} finish  says that nothing more is sent; the server ends the link then
 * @property {() => void} close  ends the link at once
 *
 * @typedef {(listener: Listener) => Promise<Transport>} Dial  Makes a link, or rejects with `Unreachable`; called anew for each
 *   link. Its listener is called only behind the promise's own callbacks.
 *
 * @typedef {object} Options
 * @property {Reconnect} [reconnect]  how a link is dialled anew where one ends; without it that ends the connection
 * @property {number} [seconds]  how long an answer, and the end of a link, are waited for
 * @property {number} [mostBytes]  of a packet that comes
 * @property {(facts: Fact[]) => void} [lost]  told of facts at, or with, references that went with a link
 *
 * @typedef {{first: number, most: number, tries: number}} Reconnect  Seconds before the first try, and at most, and how often.
 */
import {
  CallbackFailed, Disconnected, LinkEnded, Refusal, Rejected, ServerFault, Stale, TimedOut, Unreachable,
} from "./faults.js";
import { Fact, Facet, ToldObject } from "./facets.js";
import { Assert, MOST_EVENTS, Message, Own, Reference, Retract, Sync, asHeard, packetOf, turnBytes } from "./packets.js";
import { DsdError, Reader, Record, embeddedIn, record } from "./preserves.js";
import { SturdyReference } from "./sturdy.js";

export * as caveats from "./caveats.js";
export * as faults from "./faults.js";
export * as patterns from "./patterns.js";
export * from "./preserves.js";
export { Fact, Facet, Own, Reference, SturdyReference };

const GATEKEEPER = 0;
const SECONDS = 30;
// What the server keeps for a connection on the way weighs at most half of this (docs/LIMITS.md), and one packet may tell all.
const MOST_HEARD = 33_554_432;
/** @type {Reconnect} */
export const RECONNECT = { first: 0.1, most: 10, tries: 1_000_000 };

/** What a signed reference stands for. Its number is another one on each link. */
export class Resolved {
  /** @param {SturdyReference} reference @param {ToldObject} answer @param {number} handle */
  constructor(reference, answer, handle) {
    this.reference = reference;
    this.answer = answer;
    this.handle = handle;
    /** @type {number | bigint | undefined} */
    this.number = undefined;
    this.known = false; // it was accepted, on this link or on an earlier one
  }

  /** @returns {[number, Assert]} */
  asked() {
    return [GATEKEEPER, new Assert(record("resolve", this.reference.value(), this.answer.reference), this.handle)];
  }
}

/** A connection, whose outermost facet is `root`. `connect` makes one. */
export class Connection {
  /** @param {Dial} dial @param {Options} options */
  constructor(dial, { reconnect, seconds = SECONDS, mostBytes = MOST_HEARD, lost } = {}) {
    this.dial = dial;
    this.reconnect = reconnect;
    this.seconds = seconds;
    this.mostBytes = mostBytes;
    this.lost = lost;
    /** @type {Map<number | bigint, ToldObject>} */
    this.objects = new Map();
    /** @type {Map<number, Fact>} */
    this.facts = new Map();
    /** @type {Set<Resolved>} */
    this.resolved = new Set();
    this.root = new Facet(this);
    this.objectsMade = 0;
    this.handlesMade = 0;
    this.links = 0;
    /** @type {Transport | undefined} */
    this.link = undefined;
    this.isClosing = false;
    this.isOver = false;
    /** @type {DsdError | undefined} */
    this.fault = undefined;
    /** @type {Set<() => void>} */
    this.waiters = new Set();
  }

  // ---- what is done from outside

  /**
   * Gives the gatekeeper a signed reference, and waits for the answer: what it stands for, or `Rejected`.
   * @param {SturdyReference} reference @param {number} [seconds] @returns {Promise<Resolved>}
   */
  async resolve(reference, seconds = this.seconds) {
    this.mustLive();
    const answer = new ToldObject(this.nextObject());
    const resolved = new Resolved(reference, answer, this.nextHandle());
    answer.calls = { asserted: (value) => this.answered(resolved, value) };
    this.objects.set(answer.reference.number, answer);
    this.resolved.add(resolved);
    this.sendIfLinked([resolved.asked()]);
    try {
      await this.waitFor(() => resolved.known || !this.resolved.has(resolved), seconds);
    } catch (fault) {
      if (fault instanceof TimedOut) {
        this.letGo(resolved);
        this.sendIfLinked([[GATEKEEPER, new Retract(resolved.handle)]]);
      }
      throw fault;
    }
    if (!resolved.known) throw new Rejected(reference.text());
    return resolved;
  }

  /** Says something, which is heard once. Where there is no link it isn't kept. @param {Target} target @param {Value} body */
  message(target, body) {
    this.mustLive();
    this.mustBeCurrent(body);
    this.send([[this.oid(target), new Message(body)]]);
  }

  /** Waits until the target has done all that was sent to it before. @param {Target} target @param {number} [seconds] */
  async sync(target, seconds = this.seconds) {
    this.mustLive();
    let isAnswered = false;
    const links = this.links;
    const answer = new ToldObject(this.nextObject(), { said: () => (isAnswered = true) });
    this.objects.set(answer.reference.number, answer);
    try {
      this.send([[this.oid(target), new Sync(answer.reference)]]);
      await this.waitFor(() => isAnswered || this.links !== links || this.link === undefined, seconds);
    } finally {
      this.objects.delete(answer.reference.number);
    }
    if (!isAnswered) throw this.fault ?? new LinkEnded("before a sync was answered");
  }

  /** Goes: all that was asserted is taken back, since the link ends. Waits until it has ended, and throws what ended it before. */
  async close() {
    this.isClosing = true;
    if (this.root.isOpen) this.root.end();
    if (this.link === undefined) this.over(undefined);
    else this.link.finish();
    this.tellNews();
    const timer = setTimeout(() => this.link?.close(), 1000 * this.seconds);
    await this.wait().finally(() => clearTimeout(timer));
  }

  /** Waits until the connection is closed, and throws what ended it. */
  async wait() {
    await this.waitFor(() => this.isOver);
    if (this.fault !== undefined) throw this.fault;
  }

  // ---- for facets

  nextObject() {
    return ++this.objectsMade;
  }

  nextHandle() {
    return ++this.handlesMade;
  }

  mustLive() {
    if (this.fault !== undefined) throw new Disconnected("the connection has ended", { cause: this.fault });
    if (this.isOver || this.isClosing) throw new Disconnected("the connection is closed");
  }

  /** The fact stands from now on. It is said now, or as soon as its target has a number. @param {Fact} fact */
  stand(fact) {
    this.mustBeCurrent(fact.value);
    this.say(fact);
    this.facts.set(fact.handle, fact);
  }

  /** The facts stand no more. @param {Fact[]} facts */
  takeBack(facts) {
    /** @type {[number | bigint, Retract][]} */
    const events = facts.filter((it) => it.said && this.link !== undefined).map((it) => [this.oid(it.target), it.retraction()]);
    for (const fact of facts) {
      this.facts.delete(fact.handle);
      fact.said = false;
    }
    for (let n = 0; n < events.length; n += MOST_EVENTS) this.sendIfLinked(events.slice(n, n + MOST_EVENTS));
  }

  /** @param {Fact} old @param {Fact} made */
  replace(old, made) {
    this.mustBeCurrent(made.value);
    if (old.said) {
      const oid = this.oid(made.target);
      this.send([[oid, old.retraction()], [oid, made.assertion()]]);
      old.said = false;
      made.said = true;
    } else {
      this.say(made);
    }
    this.facts.delete(old.handle);
    this.facts.set(made.handle, made);
  }

  // ---- waiting

  /**
   * Waits until something is there or the connection ends, and throws what ended it.
   * @param {() => boolean} isThere @param {number} [seconds]
   */
  async waitFor(isThere, seconds) {
    let timer;
    if (!isThere() && !this.isOver) {
      await new Promise((resolve, reject) => {
        const look = () => {
          if (!isThere() && !this.isOver) return;
          this.waiters.delete(look);
          resolve(undefined);
        };
        this.waiters.add(look);
        if (seconds === undefined) return;
        timer = setTimeout(() => {
          this.waiters.delete(look);
          reject(new TimedOut(`no answer within ${seconds} seconds`));
        }, 1000 * seconds);
      }).finally(() => clearTimeout(timer));
    }
    if (!isThere() && this.fault !== undefined) throw this.fault;
  }

  tellNews() {
    for (const look of [...this.waiters]) look();
  }

  // ---- sending

  /** By which number the target is spoken to on this link. @param {Target} target */
  oid(target) {
    if (target instanceof Reference) {
      if (this.link === undefined || target.link !== this.links) throw new Stale("the reference was heard on another link");
    } else if (this.link === undefined || target.number === undefined) {
      throw new Disconnected("there is no link");
    }
    return target.number;
  }

  /** References in a value are objects of ours, or were heard on this link. @param {Value} value */
  mustBeCurrent(value) {
    for (const it of embeddedIn(value)) {
      if (it instanceof Reference) this.oid(it);
      else if (!(it instanceof Own)) throw new TypeError("only a reference is embedded in what is said");
    }
  }

  /** Asserts a fact whose target has a number. @param {Fact} fact */
  say(fact) {
    const isKnown = fact.target instanceof Reference || (fact.target.number !== undefined && this.link !== undefined);
    // one that waits is written too, so that what can't be said is told now
    const packet = turnBytes([[isKnown ? this.oid(fact.target) : GATEKEEPER, fact.assertion()]]);
    if (!isKnown) return;
    this.link?.send(packet);
    fact.said = true;
  }

  /** @param {[number | bigint, import("./packets.js").Event][]} events */
  send(events) {
    this.mustLive();
    if (this.link === undefined) throw new Disconnected("there is no link");
    this.link.send(turnBytes(events));
  }

  /** Sends what needs no sending where the link has ended: the end takes it back, or it is said anew. */
  sendIfLinked(/** @type {[number | bigint, import("./packets.js").Event][]} */ events) {
    this.link?.send(turnBytes(events));
  }

  // ---- hearing

  /** @param {Value} value */
  take(value) {
    const packet = packetOf(value);
    if (packet instanceof Refusal) throw packet;
    for (const [oid, event] of packet) {
      const told = this.objects.get(oid);
      if (event instanceof Sync) this.answer(event);
      else if (told !== undefined) this.tell(told, event);
    }
    this.tellNews();
  }

  /** @param {Sync} event */
  answer(event) {
    const peer = asHeard(event.peer, this.links);
    if (peer instanceof Reference) this.sendIfLinked([[peer.number, new Message(true)]]);
  }

  /** @param {ToldObject} told @param {Assert | Retract | Message} event */
  tell(told, event) {
    if (event instanceof Message) {
      told.hears(asHeard(event.body, this.links));
      return;
    }
    const stands = told.standing.has(event.handle);
    if (event instanceof Assert) {
      if (stands) throw new ServerFault(`a handle that stands is asserted: ${event.handle}`);
      told.comes(event.handle, asHeard(event.value, this.links));
    } else {
      if (!stands) throw new ServerFault(`a handle that doesn't stand is retracted: ${event.handle}`);
      told.goes(event.handle);
    }
  }

  /** What the gatekeeper says of a reference. Facts that wait for its number are said now. */
  answered(/** @type {Resolved} */ resolved, /** @type {Value} */ value) {
    if (value instanceof Record && value.is("rejected")) {
      this.letGo(resolved);
      if (resolved.known) throw new Rejected(resolved.reference.text());
    } else if (value instanceof Record && value.is("accepted") && value.fields[0] instanceof Reference) {
      resolved.number = value.fields[0].number;
      resolved.known = true;
      for (const fact of this.facts.values()) if (fact.target === resolved) this.say(fact);
    } else {
      throw new ServerFault("what comes is no answer to a reference");
    }
  }

  /** @param {Resolved} resolved */
  letGo(resolved) {
    this.resolved.delete(resolved);
    this.objects.delete(resolved.answer.reference.number);
  }

  // ---- links

  /** Dials, and asks for what is resolved. */
  async open() {
    const reader = new Reader({ mostBytes: this.mostBytes });
    /** @type {Transport | undefined} */
    let link;
    const listener = {
      bytes: (bytes) => this.ifCurrent(link, () => {
        reader.push(bytes);
        for (let it = reader.next(); it !== undefined && this.link === link; it = reader.next()) this.take(it);
      }),
      end: (ended) => this.ifCurrent(link, () => this.ended(ended)),
    };
    link = await this.dial(listener);
    if (this.isClosing) {
      link.close();
      return;
    }
    this.links += 1;
    this.link = link;
    for (const it of this.resolved) this.sendIfLinked([it.asked()]);
  }

  /** Does what a link tells, where it is the one that there is now; what goes wrong ends the connection. */
  ifCurrent(/** @type {Transport | undefined} */ link, /** @type {() => void} */ does) {
    if (link === undefined || this.link !== link) return;
    try {
      does();
    } catch (fault) {
      this.over(fault instanceof DsdError ? fault : new CallbackFailed(String(fault), { cause: fault }));
    }
  }

  /** @param {LinkEnded} ended */
  ended(ended) {
    this.link = undefined;
    if (this.isClosing) this.over(undefined);
    else if (this.reconnect === undefined) this.over(ended);
    else {
      this.forget();
      this.openAgain(this.reconnect, ended).catch((fault) => this.over(fault));
    }
  }

  /** What was heard on the link stands no more, and neither do facts at, or with, what was heard. */
  forget() {
    for (const it of this.resolved) it.number = undefined;
    for (const fact of this.facts.values()) fact.said = false;
    for (const told of [...this.objects.values()]) told.forget();
    const isHeard = (it) => it instanceof Reference;
    const gone = [...this.facts.values()].filter((it) => isHeard(it.target) || [...embeddedIn(it.value)].some(isHeard));
    for (const fact of gone) {
      this.facts.delete(fact.handle);
      fact.facet.facts.delete(fact.handle);
    }
    this.tellNews();
    if (gone.length === 0) return;
    if (this.lost === undefined) throw new Stale(`${gone.length} facts at references that were heard went with the link`);
    this.lost(gone);
  }

  /** @param {Reconnect} reconnect @param {LinkEnded} ended */
  async openAgain({ first, most, tries }, ended) {
    let delay = first;
    for (let n = 0; n < tries; n++) {
      if (await this.isClosedWithin(delay)) return;
      delay = Math.min(2 * delay, most);
      try {
        await this.open();
        return;
      } catch (fault) {
        if (!(fault instanceof Unreachable)) throw fault;
        ended = fault;
      }
    }
    throw ended;
  }

  /** Waits so long, or until the connection is closed; tells which. @param {number} seconds */
  async isClosedWithin(seconds) {
    try {
      await this.waitFor(() => this.isClosing, seconds);
    } catch (fault) {
      if (!(fault instanceof TimedOut)) throw fault;
    }
    return this.isClosing;
  }

  /** The connection is over. @param {DsdError | undefined} fault */
  over(fault) {
    if (this.isOver) return;
    this.fault = fault;
    this.isOver = true;
    this.link?.close();
    this.link = undefined;
    this.tellNews();
  }
}

/** A connection over links that are dialled so. @param {Dial} dial @param {Options} [options] */
export async function connect(dial, options) {
  const connection = new Connection(dial, options);
  await connection.open();
  return connection;
}
