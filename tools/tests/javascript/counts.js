// How long something was so, how full, and how many waited: counted by hand in the run of `page.js`,
// in which the worker runs up to 1, waits up to 3 and runs on, and the one tick is the move to 4.

const assert = require("assert");
const test = require("node:test");
const { SENT, namesOf, valuesOf } = require("./page.js");

const { Run, coreTotals, fullest, lengthOf, taskTotals, waitsAt, waitRows, levelRows, loadRows } =
  namesOf("run", [
    "Run", "coreTotals", "fullest", "lengthOf", "taskTotals", "waitsAt", "waitRows", "levelRows",
    "loadRows",
  ]);

const run = new Run(valuesOf(SENT));

test("a length in moves and ticks", () => {
  assert.deepEqual(lengthOf(run, 0, 5), { moves: 5, ticks: 1 });
  assert.deepEqual(lengthOf(run, 1, 3), { moves: 2, ticks: 0 });
  assert.deepEqual(lengthOf(run, 3, 4), { moves: 1, ticks: 1 });
});

test("what tasks do, how often and how long", () => {
  const told = (at, first, last) => taskTotals(run, at, first, last).map((it) => {
    const { name, times, moves, ticks, longest } = it;
    return [name, times, moves, ticks, longest.from, longest.moves, longest.ticks];
  });
  assert.deepEqual(told(0, 0, 5), [
    ["on a core", 2, 3, 1, 3, 2, 1],
    ["waits at recv:jobs", 1, 2, 0, 1, 2, 0],
  ]);
  assert.deepEqual(told(1, 0, 5), [
    ["ready, not on a core", 2, 3, 1, 3, 2, 1],
    ["on a core", 1, 2, 0, 1, 2, 0],
  ]);
  // (a part of it: what was so before counts from its beginning on)
  assert.deepEqual(told(0, 2, 3), [
    ["waits at recv:jobs", 1, 1, 0, 2, 1, 0],
    ["on a core", 1, 0, 0, 3, 0, 0],
  ]);
});

test("how long a core is busy, and what it makes", () => {
  const { busy, idle, own } = coreTotals(run, 0, 0, 5);
  assert.deepEqual([busy.moves, busy.ticks, idle.times, own], [5, 1, 0, 3]);
  assert.equal(coreTotals(run, 0, 2, 5).own, 1);
});

test("how full an object is, and who waits there", () => {
  const [jobs] = run.objects;
  assert.deepEqual(fullest(run, jobs, 0, 5), { level: 1, text: "1/1", from: 3 });
  assert.deepEqual(fullest(run, jobs, 0, 2), { level: 0, text: "0/1", from: 0 });
  assert.deepEqual(waitsAt(run, jobs, 0, 5), { waits: 1, most: 1, from: 1 });
  assert.deepEqual(waitsAt(run, jobs, 3, 5), { waits: 0, most: 0, from: null });
});

test("rows of tables", () => {
  const texts = (rows) => rows.map((row) => row.map((it) => it.from ?? it));
  assert.deepEqual(texts(waitRows(run, 0, 3))[1], [
    "worker", "waits at recv:jobs", 1, "0 ticks, 2 moves", 1, "0 ticks, 2 moves",
  ]);
  assert.equal(waitRows(run, 0, 2)[1][1], "waits at recv:jobs, to the end");
  assert.deepEqual(texts(levelRows(run, 0, 5)), [["queue jobs", "1/1", 3, 1, 1, 1]]);
  const busy = "1 tick, 5 moves (100%)";
  assert.deepEqual(loadRows(run, 0, 5), [["core 0", busy, "0 ticks, 0 moves (0%)", "-", "-", 3]]);
});
