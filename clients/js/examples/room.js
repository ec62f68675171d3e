/** What is said in a room, by whom and to all: node room.js ADDR REF */
import { SturdyReference, connect, patterns, record, shown } from "../dsd.js";
import { tcp } from "../tcp.js";

const [address, text] = process.argv.slice(2);
const reference = SturdyReference.fromText(text);
const SAID = patterns.fields("Says", patterns.CAPTURE, patterns.CAPTURE);

/** Comes into the room, and hears what is said there from then on. */
async function guest() {
  const connection = await connect(tcp(address));
  const room = await connection.resolve(reference);
  const ears = connection.root.watch(room, SAID);
  await connection.sync(room);
  return { connection, room, ears };
}

const ann = await guest();
const bo = await guest();
const print = async (name, { ears }) => {
  const { captures } = (await ears.next()).value;
  console.log(`${name} hears`, ...captures.map(shown));
};
ann.connection.message(ann.room, record("Says", "ann", "hello, Bo"));
await print("bo", bo);
bo.connection.message(bo.room, record("Says", "bo", "hello, Ann"));
await print("ann", ann);
await print("ann", ann);
await bo.connection.close();
await ann.connection.close();
