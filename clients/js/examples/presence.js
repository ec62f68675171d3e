/**
 * Who is in a room, as each comes and goes: node presence.js ADDR REF
 *
 * Ann observes who is there. Bo comes and crashes, which takes nothing more than the end of his link.
 */
import { SturdyReference, connect, patterns, record, shown } from "../dsd.js";
import { tcp } from "../tcp.js";

const [address, text] = process.argv.slice(2);
const reference = SturdyReference.fromText(text);
const ann = await connect(tcp(address));
const bo = await connect(tcp(address));

const room = await ann.resolve(reference);
const people = ann.root.watch(room, patterns.fields("Present", patterns.CAPTURE));
ann.root.assert(room, record("Present", "ann"));
const signs = { asserted: "+", retracted: "-" };
const print = async () => {
  const { kind, captures } = (await people.next()).value;
  console.log(signs[kind], shown(captures[0]));
};
await print();
bo.root.assert(await bo.resolve(reference), record("Present", "bo"));
await print();
await bo.close();
await print();
await ann.close();
