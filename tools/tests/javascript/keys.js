// What keys do, and how one comes to what was found.

const assert = require("assert");
const test = require("node:test");
const { SENT, namesOf, valuesOf } = require("./page.js");

const { Run, Search, Viewer } = namesOf("run", ["Run", "Search", "Viewer"]);

// A viewer with nothing to draw on, at a place of the run.
function viewer(place) {
  const run = new Run(valuesOf(SENT));
  const timeline = { span: 4, scale: 60, ticks: [2, 4], wakingPlaces: [3] };
  timeline.hand = { marks: [{ place: 5 }] };
  timeline.whole = () => 20;
  const it = Object.create(Viewer.prototype);
  const panels = { run, place, timeline, search: new Search(run) };
  return Object.assign(it, panels, { went: [], go: (at) => it.went.push(at) });
}

// Where keys lead from a place.
function led(place, ...keys) {
  const it = viewer(place);
  for (const key of keys) it.keys()[key]();
  return it.went;
}

test("keys that move", () => {
  const moves = {
    ArrowLeft: 1,
    ArrowRight: 3,
    "Shift ArrowLeft": -8,
    "Shift ArrowRight": 12,
    PageUp: -1,
    PageDown: 5,
    Home: 0,
    End: 5,
  };
  for (const key in moves) assert.deepEqual(led(2, key), [moves[key]], key);
});

test("keys for the next of a kind, and the one before", () => {
  assert.deepEqual(led(2, "]"), [4]);
  assert.deepEqual(led(4, "]"), []);
  assert.deepEqual(led(4, "["), [2]);
  assert.deepEqual(led(2, "["), []);
  assert.deepEqual([led(0, "w"), led(5, "W"), led(3, "w", "W")], [[3], [3], []]);
  assert.deepEqual([led(0, "e"), led(5, "E")], [[5], []]);
});

test("keys that zoom", () => {
  const it = viewer(2);
  const scales = [];
  it.zoom = (scale) => scales.push(scale);
  for (const key of ["+", "=", "-", "0", "a"]) it.keys()[key]();
  assert.deepEqual(scales, [90, 90, 40, 20, 20]);
});

test("what was found, forward and back, around the ends", () => {
  const it = viewer(2);
  assert.deepEqual(it.search.find("producer"), [1, 2, 3]);
  it.keys().n();
  it.place = 3;
  it.keys().n();
  it.keys().N();
  it.place = 1;
  it.keys().N();
  assert.deepEqual(it.went, [3, 1, 2, 3]);
  assert.deepEqual([it.search.said(2), it.search.said(4)], ["2 of 3", "3 found"]);
  assert.deepEqual([it.search.find("nothing"), it.search.said(2)], [[], "none"]);
  assert.deepEqual([it.search.find(" "), it.search.said(2)], [[], ""]);
});

test("rows are found by tick and core, in any case", () => {
  const search = new Search(new Run(valuesOf(SENT)));
  assert.deepEqual(search.find("TICK 1"), [4, 5]);
  assert.deepEqual(search.find("core 0 tick 0"), [1, 2, 3]);
  assert.deepEqual(search.find("woke Worker"), [3]);
});
