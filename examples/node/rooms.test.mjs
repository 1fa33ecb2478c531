// A chat moves a message from one room to another, in one commit, while a screen listens to both rooms: it is never seen in both or in none.
//
//   node --test examples/node/rooms.test.mjs
import assert from "node:assert/strict";
import { test } from "node:test";
import { database, documents, keep, replay, snapshots, transaction } from "./fsemu.mjs";

const listenTo = (targetId, collectionId) => ({
  session: "screen",
  listen: { database, addTarget: { targetId, query: { parent: documents, structuredQuery: { from: [{ collectionId }] } } } },
});

const text = { text: { stringValue: "hello" } };

const move = (id, from, to, more = {}) => ({
  session: "chat",
  id,
  commit: { database, writes: [{ update: { name: `${documents}/${to}/m`, fields: text } }, { delete: `${documents}/${from}/m` }], ...more },
});

// The steps that a script makes by hand, in an order of its own: each shard is matched, and the screen is raised.
const steps = [{ match: 0 }, { match: 1 }, { match: 2 }, { match: 3 }, { raise: "screen" }];
const orders = (left) => (left.length === 0 ? [[]] : left.flatMap((step, i) => orders(left.filter((_, j) => j !== i)).map((rest) => [step, ...rest])));

test("a message is in just one room, in whatever order shards are matched", () => {
  orders(steps).forEach((order, i) => {
    const lines = [
      { session: "chat", id: "1", commit: { database, writes: [{ update: { name: `${documents}/red/m`, fields: text } }] } },
      listenTo(1, "red"),
      listenTo(2, "blue"),
      { manual: true },
      move("2", "red", "blue"),
      { settle: "2" },
      ...order,
      { manual: false },
    ];
    const counts = snapshots(replay(lines), "screen").map(({ targets }) => Object.values(targets).flatMap(Object.keys).length);
    // The first snapshot is of the first room alone; the last has both rooms, and the message moved.
    if (!counts.every((count) => count === 1)) assert.fail(`${counts} messages are seen. Run it again by: ${keep(`rooms_${i}`, lines)}`);
    assert.equal(counts.length, 3);
  });
});

test("a blocked request names its blocker, and is answered after that one has ended", () => {
  const begun = [
    { session: "chat", id: "1", beginTransaction: { database } },
    { session: "chat", id: "2", getDocument: { name: `${documents}/red/m`, transaction: transaction(1) } },
    { session: "other", id: "3", commit: { database, writes: [{ update: { name: `${documents}/red/m`, fields: text } }] } },
  ];
  assert.deepEqual(replay(begun).at(-1), { held: "1", id: "3", session: "other" });

  const done = [...begun, { session: "chat", id: "4", commit: { database, writes: [], transaction: transaction(1) } }];
  assert.deepEqual(replay(done).map((reply) => reply.id), ["1", "2", "4", "3"]);
});
