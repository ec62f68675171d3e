/**
 * The state of a device, which others observe: node device.js ADDR REF
 *
 * A lamp says what it is; a panel shows each change. A change is one turn, so nobody sees the lamp in two states, or in none.
 */
import { SturdyReference, connect, patterns, record, shown } from "../dsd.js";
import { tcp } from "../tcp.js";

const [address, text] = process.argv.slice(2);
const reference = SturdyReference.fromText(text);
const device = await connect(tcp(address));
const panel = await connect(tcp(address));
const lamp = (state) => record("Lamp", "hall", Symbol.for(state));

const wall = await panel.resolve(reference);
const changes = panel.root.watch(wall, patterns.fields("Lamp", patterns.literal("hall"), patterns.CAPTURE));
await panel.sync(wall); // what comes and goes before the panel observes it doesn't see
const room = await device.resolve(reference);
const powered = device.root.facet();
const off = powered.assert(room, lamp("off"));
powered.replace(off, lamp("on"));
powered.close();

const signs = { asserted: "+", retracted: "-" };
for (let n = 0; n < 4; n++) {
  const { kind, captures } = (await changes.next()).value;
  console.log(signs[kind], shown(captures[0]));
}
await device.close();
await panel.close();
