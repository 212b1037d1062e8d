// Two runs beside each other: where they first differ, and in what.

const assert = require("assert");
const test = require("node:test");
const { SENT, namesOf, valuesOf } = require("./page.js");

const { Run, differingReplies, doneWords, firstDifference } = namesOf("run", [
  "Run", "differingReplies", "doneWords", "firstDifference",
]);

const run = new Run(valuesOf(SENT));

// The same run with other moves.
function others(change) {
  const copy = JSON.parse(JSON.stringify(SENT));
  change(copy);
  return new Run(valuesOf(copy));
}

test("runs that are the same differ nowhere", () => {
  assert.equal(firstDifference(run, others(() => {})), null);
});

test("the first move that isn't the same", () => {
  const other = others((it) => (it.moves[3] = it.moves[1]));
  assert.deepEqual([firstDifference(run, other), firstDifference(other, run)], [4, 4]);
});

test("where one of them ends", () => {
  const shorter = others((it) => Object.assign(it, { last: 3, moves: it.moves.slice(0, 3) }));
  assert.deepEqual([firstDifference(run, shorter), firstDifference(shorter, run)], [4, 4]);
  assert.equal(doneWords(shorter, 4), "it ended at 3");
  assert.equal(doneWords(shorter, 0), "0: it begins here");
  assert.match(doneWords(run, 4), /^4: tick 1/);
});

test("what there is at a place", () => {
  const other = others((it) => (it.tasks[0].tracks.pc = { 0: 0, 4: 9 }));
  assert.deepEqual(differingReplies(run, other, 3), []);
  const [[mine, theirs], ...more] = differingReplies(run, other, 4);
  assert.match(mine, /^task worker core 0 pc 0 /);
  assert.match(theirs, /^task worker core 0 pc 9 /);
  assert.deepEqual(more, []);
  assert.equal(firstDifference(run, others((it) => (it.tasks[0].tracks.pc = { 0: 7 }))), 0);
});
