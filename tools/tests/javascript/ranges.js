// Ranges of places: what holds from where to where, and how that grows and is cut.

const assert = require("assert");
const test = require("node:test");
const { SENT, namesOf, valuesOf } = require("./page.js");

const { Run, Segments, Track, coreSegments, countUpTo, lastUpTo, levelSegments, taskSegments } =
  namesOf("run", [
    "Run", "Segments", "Track", "coreSegments", "countUpTo", "lastUpTo", "levelSegments",
    "taskSegments",
  ]);

test("the last that isn't behind a place", () => {
  const places = [2, 5, 5, 9];
  assert.deepEqual([1, 2, 4, 5, 8, 9, 10].map((it) => lastUpTo(places, it)), [0, 0, 0, 2, 2, 3, 3]);
  assert.deepEqual([1, 2, 4, 5, 9].map((it) => countUpTo(places, it)), [0, 1, 1, 3, 4]);
  assert.equal(countUpTo([], 3), 0);
});

test("a track holds each value up to the next", () => {
  const track = new Track([7, 3, 8, 1, 9], 10);
  assert.deepEqual(track.places, [10, 13, 14]);
  assert.deepEqual([10, 12, 13, 14, 99].map((it) => track.at(it)), [7, 7, 8, 9, 9]);
  track.cut(13);
  assert.deepEqual([13, 99].map((it) => track.at(it)), [8, 8]);
  // (what came before ends where this one begins, with what is there)
  track.prepend(new Track([4, 2, 7], 8));
  assert.deepEqual([8, 9, 10, 12, 13].map((it) => track.at(it)), [4, 4, 7, 7, 8]);
});

test("moves are there behind the first place, up to the last", () => {
  const run = new Run(valuesOf(SENT));
  assert.deepEqual([0, 6].map((it) => run.move(it)), [null, null]);
  assert.equal(run.move(3).name, "producer 1 send jobs 0 -> 1");
  assert.deepEqual([run.trimsAt(4), run.trimsAt(5)], [[], ["trim 1"]]);
});

test("segments of a core, a task and an object", () => {
  const run = new Run(valuesOf(SENT));
  const texts = ({ places, shown }) => places.map((it, at) => [it, shown[at].text]);
  assert.deepEqual(texts(coreSegments(run, 0)), [[0, "worker"], [1, "producer"], [3, "worker"]]);
  const worker = taskSegments(run, 0);
  assert.deepEqual(texts(worker), [[0, "core 0"], [1, "recv:jobs"], [3, "core 0 (woken)"]]);
  assert.deepEqual(worker.shown.map(({ style }) => style), ["runs", "waits", "runs"]);
  assert.deepEqual(texts(levelSegments(run, run.objects[0])), [[0, "0/1"], [3, "1/1"]]);
});

// A run of nothing but a value, which is another one at each of these places.
function counted(first, last, values) {
  const run = new Run(valuesOf({ first, last, cores: { it: values } }));
  return [run, new Segments(run, run.cores, ({ it }) => it)];
}

test("segments that show the same are one", () => {
  const [, segments] = counted(0, 9, { 0: "a", 2: "a", 5: "b", 7: "b", 8: "a" });
  assert.deepEqual(segments.places, [0, 5, 8]);
  assert.deepEqual(segments.shown, ["a", "b", "a"]);
});

test("segments are taken anew behind a place", () => {
  const [run, segments] = counted(0, 5, { 0: "a", 3: "b", 5: "c" });
  Object.assign(run, counted(0, 6, { 0: "a", 3: "b", 4: "a", 6: "d" })[0]);
  segments.tracks = run.cores;
  segments.renew(3);
  assert.deepEqual(segments.places, [0, 3, 4, 6]);
  assert.deepEqual(segments.shown, ["a", "b", "a", "d"]);
});

test("segments grow before the first place", () => {
  for (const [before, places] of [["b", [3, 4, 6]], ["a", [3, 6]]]) {
    const [run, segments] = counted(5, 7, { 5: before, 6: "c" });
    Object.assign(run, counted(3, 7, { 3: "a", 4: before, 6: "c" })[0]);
    segments.tracks = run.cores;
    segments.prepend(5);
    assert.deepEqual(segments.places, places);
  }
});
