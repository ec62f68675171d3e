/**
 * What can go wrong on a connection, each cause as a class of its own. All of them are a `DsdError`. A `Refusal` is what the
 * server says before it ends a link (docs/FORMATS.md, 'Packets').
 */
import { DsdError, shown } from "./preserves.js";

/** The gatekeeper rejects a signed reference. It doesn't tell why. */
export class Rejected extends DsdError {}
/** The server, or the network, ended the link without an error packet. */
export class LinkEnded extends DsdError {}
/** Nobody answers at the address. */
export class Unreachable extends LinkEnded {}
/** There is no link now, or none any more, by which this could be said. */
export class Disconnected extends DsdError {}
/** An answer didn't come within the time that was given for it. */
export class TimedOut extends DsdError {}
/** The server sent what no server may send. */
export class ServerFault extends DsdError {}
/** What came for an iterator wasn't taken, up to the bound on what waits for it. */
export class Behind extends DsdError {}
/** What is to be sent is more than the server takes, so it isn't sent. */
export class TooLarge extends DsdError {}
/** A reference that was heard on an earlier link, where its number stood for something else. */
export class Stale extends DsdError {}
/** A callback threw, which ended the connection: its error is the cause of this one. */
export class CallbackFailed extends DsdError {}
/** A value that is no signed reference. */
export class NoReference extends DsdError {}

/** An error packet: the last that a server sends. One whose message has no class of its own is a plain `Refusal`. */
export class Refusal extends DsdError {
  /** @param {string} message @param {import("./preserves.js").Value} detail */
  constructor(message, detail) {
    super(`${message} ${shown(detail)}`);
    this.detail = detail;
  }
}

/** A refusal whose detail is numbers: behind its own stand those that become properties of these names. */
function numbered(name, own, names) {
  const kind = { [name]: class extends Refusal {} }[name];
  return { kind, own, names };
}

const KINDS = {
  "bad bytes": numbered("BadBytes", [], ["kind", "place"]),
  "bad packet": numbered("BadPacket", [30], []),
  "unknown oid": numbered("UnknownOid", [31], ["oid"]),
  "handle in use": numbered("HandleInUse", [32], ["handle"]),
  "unknown handle": numbered("UnknownHandle", [33], ["handle"]),
  "limit": numbered("LimitPassed", [34], ["limit", "counted"]),
  "overrun": numbered("Overrun", [35], ["which", "counted"]),
  "spread": numbered("Spread", [36], ["weight"]),
};

/** What was sent is no value: `kind` is the number of the fault (`binaryFaults`), `place` where it stands. */
export const BadBytes = KINDS["bad bytes"].kind;
/** What was sent is a value and no packet, or a turn of another dialect than the connection's. */
export const BadPacket = KINDS["bad packet"].kind;
/** No object of the server's has this number here: `oid`. */
export const UnknownOid = KINDS["unknown oid"].kind;
/** An assertion under a handle that stands: `handle`. */
export const HandleInUse = KINDS["handle in use"].kind;
/** A retraction of a handle that doesn't stand: `handle`. */
export const UnknownHandle = KINDS["unknown handle"].kind;
/** A packet goes past the limit of this number (docs/LIMITS.md), `limit`, with what was `counted`. */
export const LimitPassed = KINDS["limit"].kind;
/** Too much is held for the connection, or waits for it: `which` it is (docs/LIMITS.md), and what was `counted`. */
export const Overrun = KINDS["overrun"].kind;
/** What the connection did would make a dataspace want, or send, so much: `weight`. */
export const Spread = KINDS["spread"].kind;

/** The refusal that an error packet tells. @param {string} message @param {import("./preserves.js").Value} detail */
export function refusal(message, detail) {
  const known = Object.hasOwn(KINDS, message) ? KINDS[message] : undefined;
  if (known === undefined || !Array.isArray(detail)) return new Refusal(message, detail);
  const { kind, own, names } = known;
  const numbers = detail.slice(own.length);
  const fits = own.every((it, n) => it === detail[n]) && numbers.length === names.length
    && numbers.every((it) => typeof it === "number" || typeof it === "bigint");
  if (!fits) return new Refusal(message, detail);
  return Object.assign(new kind(message, detail), Object.fromEntries(names.map((name, n) => [name, numbers[n]])));
}
