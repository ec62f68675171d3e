/** The repository's tables of cases, crates/dsd_rows/data/tables, whose README says how they are written. */
import { readFileSync } from "node:fs";
import { fileURLToPath } from "node:url";

const TOP = new URL("../../../", import.meta.url);

/** The text of a file of the repository. @param {string} path */
export function textOf(path) {
  return readFileSync(fileURLToPath(new URL(path, TOP)), "utf-8");
}

// A column is kept as a string of one character for each byte.
const FORM = /%\((\d+) (.*?)%\)|%([0-9a-fA-F]{2})/gs;

/** A column of a table as it is meant: a byte in hexadecimal, and a text that stands so often. @param {string} side */
function expanded(side) {
  return side.replace(FORM, (_, times, repeated, byte) =>
    byte === undefined ? expanded(repeated).repeat(Number(times)) : String.fromCharCode(parseInt(byte, 16)));
}

/** @param {string} side */
const bytesOf = (side) => Uint8Array.from(side, (it) => it.charCodeAt(0));
const trimmed = (side) => side.replace(/^[ \t]+|[ \t]+$/g, "");

/** The cases of a table: input and answer as bytes. @param {string} name @returns {[Uint8Array, Uint8Array][]} */
export function cases(name) {
  const file = readFileSync(fileURLToPath(new URL(`crates/dsd_rows/data/tables/${name}`, TOP)), "latin1");
  const found = file.split("\n").filter((line) => line !== "" && !line.startsWith("# ")).map((line) => {
    const at = line.indexOf("=>");
    return [line.slice(0, at), line.slice(at + 2)].map((side) => bytesOf(expanded(trimmed(side))));
  });
  if (found.length < 11) throw new Error(`${name} has ${found.length} cases`);
  return found;
}

/** @param {Uint8Array} bytes */
export const textIn = (bytes) => new TextDecoder("utf-8", { fatal: true, ignoreBOM: true }).decode(bytes);

/** The bytes that a column has in hexadecimal. @param {Uint8Array} side */
export function ofHex(side) {
  return Uint8Array.from(textIn(side).replaceAll(" ", "").match(/../g) ?? [], (it) => parseInt(it, 16));
}
