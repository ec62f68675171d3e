/**
 * Access that gives less: node granted.js ADDR REF
 *
 * Ann puts a caveat behind her reference, without any key, and gives the new one to a visitor: who comes by it can be seen in the
 * room, and can't speak there. What the caveat refuses lands nowhere.
 */
import { SturdyReference, caveats, connect, faults, patterns, record, shown } from "../dsd.js";
import { tcp } from "../tcp.js";

const [address, text] = process.argv.slice(2);
const reference = SturdyReference.fromText(text);
const granted = reference.attenuated(caveats.reject(caveats.fields("Says", caveats.ANYTHING, caveats.ANYTHING)));
console.log(granted.text());

const ann = await connect(tcp(address));
const visitor = await connect(tcp(address));
const room = await ann.resolve(reference);
const people = ann.root.watch(room, patterns.fields("Present", patterns.CAPTURE));
const ears = ann.root.watch(room, patterns.fields("Says", patterns.CAPTURE, patterns.CAPTURE));
await ann.sync(room);
const there = await visitor.resolve(granted);
visitor.message(there, record("Says", "visitor", "hello"));
visitor.root.assert(there, record("Present", "visitor"));
console.log("ann sees", ...(await people.next()).value.captures.map(shown));
ann.message(room, record("Says", "ann", "welcome"));
console.log("ann hears", ...(await ears.next()).value.captures.map(shown));
try {
  await visitor.resolve(new SturdyReference(granted.oid, granted.signature));
} catch (fault) {
  if (!(fault instanceof faults.Rejected)) throw fault;
  console.log("without its caveat the reference is rejected");
}
await visitor.close();
await ann.close();
