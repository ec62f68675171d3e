/** Connections, against a peer whose packets a test writes down in text. */
import assert from "node:assert/strict";
import { test } from "node:test";

import {
  Embedded, Reader, SturdyReference, binaryFaults, bytesOfHex, connect, faults, patterns, readText, record, shown, written,
} from "../dsd.js";
import { MOST_EVENTS } from "../packets.js";

const REFERENCE = '<ref {oid: "room" sig: #[vgnwS7jmM3JdWhWKJoK71Q==]}>';
const RESOLVE = `[[0 <A <resolve ${REFERENCE} #:[0 1]> 1>]]`;
const PRESENT = patterns.fields("Present", patterns.CAPTURE);
const OBSERVE = "<Observe <group <rec Present> {0: <bind <_>>}> #:[0 2]>";
const AGAIN = { first: 0.01, most: 0.02, tries: 20 };

/** The server's end of links in memory, one after another. */
class Peer {
  constructor() {
    this.heard = [];
    this.isThere = true;
    this.dial = async (listener) => {
      if (!this.isThere) throw new faults.Unreachable("nobody");
      const reader = new Reader();
      this.listener = listener;
      let isEnded = false;
      this.end = () => {
        if (!isEnded) queueMicrotask(() => listener.end(new faults.LinkEnded("the server left")));
        isEnded = true;
      };
      return {
        send: (bytes) => {
          reader.push(bytes);
          for (let it = reader.next(); it !== undefined; it = reader.next()) this.heard.push(shown(it));
        },
        finish: this.end,
        close: this.end,
      };
    };
  }

  /** Says a packet. @param {string} text */
  says(text) {
    this.listener.bytes(written(readText(text)));
  }

  /** Finds that these packets came, and no others, since it was asked last. @param {...string} wanted */
  hears(...wanted) {
    assert.deepEqual(this.heard.splice(0), wanted.map((it) => shown(readText(it))));
  }
}

const soon = () => new Promise((resolve) => setTimeout(resolve, 100));

/** A connection to a peer which has resolved the room, by the number 3. */
async function start(options = {}) {
  const peer = new Peer();
  const connection = await connect(peer.dial, { seconds: 5, ...options });
  const resolving = connection.resolve(SturdyReference.fromText(REFERENCE));
  peer.hears(RESOLVE);
  peer.says("[[1 <A <accepted #:[0 3]> 2>]]");
  return { peer, connection, root: connection.root, room: await resolving };
}

/** The connection has ended, or ends, for this fault; whoever goes on is told. */
async function endsWith(connection, room, kind) {
  let cause;
  await assert.rejects(connection.wait(), (fault) => (cause = fault) instanceof kind);
  assert.throws(() => connection.root.assert(room, 1), (fault) => fault instanceof faults.Disconnected && fault.cause === cause);
  await assert.rejects(connection.close(), kind);
  return cause;
}

test("facts go with their facet", async () => {
  const { peer, connection, root, room } = await start();
  const stays = root.assert(room, 1), outer = root.facet(), goes = outer.assert(room, 2), inner = outer.facet();
  inner.assert(room, 3);
  peer.hears("[[3 <A 1 2>]]", "[[3 <A 2 3>]]", "[[3 <A 3 4>]]");
  outer.close();
  outer.close();
  peer.hears("[[3 <R 4>] [3 <R 3>]]");
  assert.deepEqual([stays.stands, goes.stands, inner.isOpen], [true, false, false]);
  assert.throws(() => inner.assert(room, 4), faults.Disconnected);
  await connection.close();
  peer.hears();
});

test("facts are taken back and replaced in one turn", async () => {
  const { peer, connection, root, room } = await start();
  const off = root.assert(room, Symbol.for("off")), on = root.replace(off, Symbol.for("on"));
  root.retract(on);
  root.retract(on);
  connection.message(room, Symbol.for("bye"));
  peer.hears("[[3 <A off 2>]]", "[[3 <R 2>] [3 <A on 3>]]", "[[3 <R 3>]]", "[[3 <M bye>]]");
  await connection.close();
});

test("many facts are taken back in turns that may be", async () => {
  const { peer, connection, root, room } = await start();
  const facet = root.facet(), handles = Array.from({ length: MOST_EVENTS + 1 }, (_, n) => facet.assert(room, n).handle);
  peer.heard = [];
  facet.close();
  const turn = (some) => `[${some.map((it) => `[3 <R ${it}>]`).join(" ")}]`;
  peer.hears(turn(handles.slice(0, MOST_EVENTS)), turn(handles.slice(MOST_EVENTS)));
  await connection.close();
});

test("callbacks are told of what comes, goes and is said", async () => {
  const { peer, connection, root, room } = await start();
  const told = [], note = (sign) => ([name]) => told.push(sign + name);
  root.observe(room, PRESENT, { asserted: note("+"), retracted: note("-"), said: note("!") });
  peer.hears(`[[3 <A ${OBSERVE} 2>]]`);
  peer.says('[[2 <A ["ann"] 5>] [2 <A ["bo"] 6>]]');
  peer.says('[[9 <M 1>] [2 <R 5>] [2 <M ["cy"]>]]');
  assert.deepEqual(told, ["+ann", "+bo", "-ann", "!cy"]);
  await connection.close();
});

test("who observes no more has nothing left", async () => {
  const { peer, connection, root, room } = await start();
  const gone = [];
  const observation = root.observe(room, PRESENT, { retracted: ([name]) => gone.push(name) });
  peer.says('[[2 <A ["ann"] 5>]]');
  root.retract(observation);
  peer.hears(`[[3 <A ${OBSERVE} 2>]]`, "[[3 <R 2>]]");
  peer.says('[[2 <R 5>] [2 <A ["bo"] 6>]]');
  assert.deepEqual(gone, ["ann"]);
  await connection.close();
});

test("an iterator gives each change and ends with its facet", async () => {
  const { peer, connection, root, room } = await start();
  const facet = root.facet(), changes = facet.watch(room, PRESENT), found = [];
  const reading = (async () => {
    for await (const { kind, captures } of changes) found.push(kind, ...captures);
  })();
  peer.says('[[2 <A ["ann"] 5>] [2 <M ["bo"]>] [2 <R 5>]]');
  await soon();
  facet.close();
  await reading;
  assert.deepEqual(found, ["asserted", "ann", "said", "bo", "retracted", "ann"]);
  await connection.close();
});

test("during a fact there is a facet", async () => {
  const { peer, connection, root, room } = await start();
  const told = [];
  root.during(room, PRESENT, (facet, [object]) => {
    const answers = facet.object({ asserted: (it) => told.push(shown(it)) });
    facet.assert(object, record("Knock", object, answers));
  });
  peer.says("[[2 <A [#:[0 7]] 5>]]");
  peer.says("[[3 <A hello 9>]]");
  peer.says("[[2 <R 5>]]");
  peer.hears(`[[3 <A ${OBSERVE} 2>]]`, "[[7 <A <Knock #:[1 7] #:[0 3]> 3>]]", "[[7 <R 3>]]");
  assert.deepEqual(told, ["hello"]);
  await connection.close();
});

test("syncs are asked, and answered", async () => {
  const { peer, connection, room } = await start();
  peer.says("[[5 <S #:[0 4]>]]");
  const synced = connection.sync(room);
  peer.hears("[[4 <M #t>]]", "[[3 <S #:[0 2]>]]");
  peer.says("[[2 <M #t>]]");
  await synced;
  await assert.rejects(connection.sync(room, 0.05), faults.TimedOut);
  assert.deepEqual([...connection.objects.keys()], [1]);
  await connection.close();
});

test("a reference that is rejected leaves the connection", async () => {
  const { peer, connection, room } = await start();
  const resolving = connection.resolve(new SturdyReference(1, new Uint8Array(0)));
  peer.says('[[2 <A <rejected "refused"> 4>]]');
  await assert.rejects(resolving, faults.Rejected);
  peer.hears("[[0 <A <resolve <ref {oid: 1 sig: #[]}> #:[0 2]> 2>]]");
  connection.message(room, 1);
  peer.hears("[[3 <M 1>]]");
  await connection.close();
});

test("an error packet ends the connection with its class", async () => {
  const { peer, connection, root, room } = await start({ reconnect: AGAIN });
  const changes = root.watch(room, PRESENT), facet = root.facet();
  facet.assert(room, 1);
  const waiting = [connection.sync(room), changes.next()].map((it) => assert.rejects(it, faults.LimitPassed));
  peer.says('<error "limit" [34 4 4097]>');
  await Promise.all(waiting);
  const fault = await endsWith(connection, room, faults.LimitPassed);
  assert.deepEqual([fault.limit, fault.counted], [4, 4097]);
  assert.throws(() => connection.message(room, 1), (it) => it instanceof faults.Disconnected && it.cause === fault);
  facet.close();
  assert.equal(facet.isOpen, false);
});

test("a callback that throws ends the connection", async () => {
  const { peer, connection, root, room } = await start();
  root.observe(room, PRESENT, { asserted: () => { throw new RangeError("so it is"); } });
  peer.says("[[2 <A [1] 5>]]");
  assert.ok((await endsWith(connection, room, faults.CallbackFailed)).cause instanceof RangeError);
});

test("what no server may send ends the connection", async () => {
  for (const said of ["[[1 <A 5 2>]]", "[[1 <R 5>]]", "[[1 <A 5 6>]]", "5", "[[1 <assert 5 6>]]"]) {
    const { peer, connection, room } = await start();
    peer.says(said);
    await endsWith(connection, room, faults.ServerFault);
  }
});

test("bytes that are no value, and packets that are too long, end the connection", async () => {
  const { peer, connection, room } = await start();
  peer.listener.bytes(bytesOfHex("00"));
  // it stands behind the answer of 35 bytes
  assert.equal((await endsWith(connection, room, binaryFaults.BadTag)).place, 35);
  const other = await start({ mostBytes: 100 });
  other.peer.says(`"${"a".repeat(200)}"`);
  await endsWith(other.connection, other.room, binaryFaults.TooLong);
});

test("what is too large isn't sent", async () => {
  const { peer, connection, root, room } = await start();
  assert.throws(() => root.assert(room, new Uint8Array(300_000)), faults.TooLarge);
  assert.throws(() => root.assert(room, new Embedded([0, 1])), TypeError);
  assert.equal(root.facts.size, 0);
  peer.hears();
  await connection.close();
});

test("the end of the link ends the connection", async () => {
  const { peer, connection, room } = await start();
  peer.end();
  await endsWith(connection, room, faults.LinkEnded);
});

test("who closes is told nothing", async () => {
  const { connection, room } = await start();
  await connection.close();
  await connection.wait();
  assert.throws(() => connection.message(room, 1), faults.Disconnected);
});

// ---- links made anew

/** The peer is dialled again, and answers there with another number. */
async function again(peer) {
  peer.end();
  await soon();
  assert.equal(peer.heard.shift(), shown(readText(RESOLVE)));
  peer.says("[[1 <A <accepted #:[0 8]> 2>]]");
}

test("references are resolved and facts asserted anew", async () => {
  const { peer, connection, root, room } = await start({ reconnect: AGAIN });
  const gone = root.assert(room, 1), told = [];
  root.assert(room, 2);
  root.observe(room, PRESENT, { asserted: ([it]) => told.push(`+${it}`), retracted: ([it]) => told.push(`-${it}`) });
  root.retract(gone);
  peer.says('[[2 <A ["ann"] 5>]]');
  peer.heard = [];
  await again(peer);
  peer.hears("[[8 <A 2 3>]]", `[[8 <A ${OBSERVE} 4>]]`);
  peer.says('[[2 <A ["bo"] 5>]]');
  assert.deepEqual(told, ["+ann", "-ann", "+bo"]);
  await connection.close();
});

test("what is done without a link is said on the next", async () => {
  const { peer, connection, root, room } = await start({ reconnect: AGAIN });
  const one = root.assert(room, 1);
  peer.isThere = false;
  peer.end();
  await soon();
  root.retract(one);
  root.replace(root.assert(room, 2), 3);
  assert.throws(() => connection.message(room, 5), faults.Disconnected);
  await assert.rejects(connection.sync(room), faults.Disconnected);
  peer.heard = [];
  peer.isThere = true;
  await soon();
  peer.says("[[1 <A <accepted #:[0 8]> 2>]]");
  peer.hears(RESOLVE, "[[8 <A 3 4>]]");
  await connection.close();
});

test("references that were heard go with the link", async () => {
  const lost = [];
  const { peer, connection, root, room } = await start({ reconnect: AGAIN, lost: (facts) => lost.push(...facts) });
  let heard;
  root.observe(room, PRESENT, { asserted: ([it]) => (heard = it) });
  peer.says("[[2 <A [#:[0 7]] 5>]]");
  const facts = [root.assert(heard, 1), root.assert(room, [heard])];
  peer.hears(`[[3 <A ${OBSERVE} 2>]]`, "[[7 <A 1 3>]]", "[[3 <A [#:[1 7]] 4>]]");
  await again(peer);
  peer.hears(`[[8 <A ${OBSERVE} 2>]]`);
  assert.deepEqual(lost, facts);
  assert.deepEqual(facts.map((it) => it.stands), [false, false]);
  for (const [target, value] of [[heard, 1], [room, heard]]) assert.throws(() => root.assert(target, value), faults.Stale);
  await connection.close();
});

test("lost facts that nobody is told of end the connection", async () => {
  const { peer, connection, root, room } = await start({ reconnect: AGAIN });
  root.observe(room, PRESENT, { asserted: ([it]) => root.assert(it, 1) });
  peer.says("[[2 <A [#:[0 7]] 5>]]");
  peer.end();
  await endsWith(connection, room, faults.Stale);
});

test("a reference that is rejected then ends the connection", async () => {
  const { peer, connection, room } = await start({ reconnect: AGAIN });
  peer.end();
  await soon();
  peer.says('[[1 <A <rejected "refused"> 2>]]');
  await endsWith(connection, room, faults.Rejected);
});

test("tries are bounded", async () => {
  const { peer, connection, room } = await start({ reconnect: { first: 0.01, most: 0.01, tries: 3 } });
  peer.isThere = false;
  peer.end();
  await endsWith(connection, room, faults.Unreachable);
});
