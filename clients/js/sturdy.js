/** Signed references: text by which whoever has it is let in (docs/FORMATS.md, 'Signed references'). */
import { hmac } from "./blake2s.js";
import { NoReference, TooLarge } from "./faults.js";
import { Dictionary, Record, dictionary, embeddedIn, hexOf, readText, record, shown, written } from "./preserves.js";

const SIGNATURE_BYTES = 16;
// Of one reference: docs/LIMITS.md.
const MOST_CAVEATS = 32;

/** @typedef {import("./preserves.js").Value} Value */

/** What each link of the chain is. @param {Uint8Array} key @param {Value} value */
const linkOf = (key, value) => hmac(key, written(value)).slice(0, SIGNATURE_BYTES);

/** What it is to, the caveats, the oldest first, and the last link of the chain. `attenuated` makes another one. */
export class SturdyReference {
  /** @param {Value} oid @param {Uint8Array} signature @param {Value[]} caveats */
  constructor(oid, signature, caveats = []) {
    if ([...embeddedIn([oid, caveats])].length > 0) throw new NoReference("in a signed reference nothing is embedded");
    this.oid = oid;
    this.signature = signature;
    this.caveats = caveats;
  }

  /** A reference without caveats, by the key of a binding. @param {Value} oid @param {Uint8Array} key */
  static mint(oid, key) {
    return new SturdyReference(oid, linkOf(key, oid));
  }

  /** @param {string} text */
  static fromText(text) {
    return SturdyReference.fromValue(readText(text));
  }

  /** @param {Value} value */
  static fromValue(value) {
    if (!(value instanceof Record && value.is("ref") && value.fields.length === 1 && value.fields[0] instanceof Dictionary)) {
      throw new NoReference("a signed reference is a record ref of a dictionary");
    }
    const [oid, signature, caveats = []] = ["oid", "sig", "caveats"].map((it) => value.fields[0].get(Symbol.for(it)));
    if (oid === undefined || !(signature instanceof Uint8Array) || !Array.isArray(caveats)) {
      throw new NoReference("a signed reference has an oid, a signature and maybe caveats");
    }
    return new SturdyReference(oid, signature, caveats);
  }

  /**
   * The reference with these caveats behind its own. It wants no key, and who has it alone can't take them away.
   * @param {...Value} caveats
   */
  attenuated(...caveats) {
    if (this.caveats.length + caveats.length > MOST_CAVEATS) {
      throw new TooLarge(`a reference has at most ${MOST_CAVEATS} caveats`);
    }
    return new SturdyReference(this.oid, caveats.reduce(linkOf, this.signature), [...this.caveats, ...caveats]);
  }

  /** Whether it was minted under this key and attenuated so. @param {Uint8Array} key */
  isSignedBy(key) {
    return hexOf(this.caveats.reduce(linkOf, linkOf(key, this.oid))) === hexOf(this.signature);
  }

  value() {
    const caveats = this.caveats.length > 0 ? { caveats: this.caveats } : {};
    return record("ref", dictionary({ oid: this.oid, sig: this.signature, ...caveats }));
  }

  text() {
    return shown(this.value());
  }
}
