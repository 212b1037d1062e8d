// Which lanes there are, how they are laid out, and what is marked in them.

const assert = require("assert");
const test = require("node:test");
const { SENT, namesOf, valuesOf } = require("./page.js");

const { Run, lanesOf, laidOut, marksOf } = namesOf("run", ["Run", "lanesOf", "laidOut", "marksOf"]);

const run = new Run(valuesOf(SENT));

test("a lane for each thing, from top to bottom", () => {
  const found = lanesOf(run).map(({ kind, label }) => [kind, label]);
  assert.deepEqual(found, [
    ["flags", "marks"],
    ["head", "cores"],
    ["core", "core 0"],
    ["hand", "by hand"],
    ["head", "tasks"],
    ["task", "worker"],
    ["task", "producer"],
    ["head", "objects"],
    ["level", "jobs"],
    ["waiting", "  receive"],
    ["waiting", "  send"],
  ]);
});

test("lanes with nothing to show are left out, and others stand one below the other", () => {
  const lanes = laidOut(lanesOf(run));
  const labels = lanes.map(({ label }) => label.trim());
  // (nothing was marked by hand yet, and nobody waits to send)
  const there = ["cores", "core 0", "tasks", "worker", "producer", "objects", "jobs", "receive"];
  assert.deepEqual(labels, there);
  lanes.forEach(({ top }, at) => {
    assert.equal(top, at ? lanes[at - 1].top + lanes[at - 1].height : 0);
  });
});

test("what is done by hand has a lane of its own", () => {
  const lanes = lanesOf(run);
  lanes.find(({ kind }) => kind === "hand").marks = marksOf(run, 0, 5).hands;
  assert.equal(laidOut(lanes)[2].label, "by hand");
});

test("ticks, arrows and what was done by hand, behind a place up to another", () => {
  const arrow = { place: 3, kind: 0, core: 0, tasks: [0] };
  const byHand = { place: 5, text: "*poke reg worker 3 7 |trim 1" };
  assert.deepEqual(marksOf(run, -1, 5), {
    ticks: [4],
    wakings: [arrow],
    wakingPlaces: [3],
    hands: [byHand],
  });
  assert.deepEqual(marksOf(run, 3, 4), { ticks: [4], wakings: [], wakingPlaces: [], hands: [] });
});

test("an interrupt has its sign", () => {
  const moves = [[3, null, null, null, "isr send jobs 41 -> 1", [], "isr send jobs 41 -> 1"]];
  const told = new Run(valuesOf({ ...SENT, last: 1, moves, trims: [] }));
  assert.deepEqual(marksOf(told, 0, 1).hands, [{ place: 1, text: "!isr send jobs 41 -> 1" }]);
});
