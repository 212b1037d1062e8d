// What one types to come to a place.

const assert = require("assert");
const test = require("node:test");
const { namesOf } = require("./page.js");

const { linesTo, shownLines, wayTo } = namesOf("run", ["linesTo", "shownLines", "wayTo"]);

// Lines, each with how many moves were done behind it, and how many of them stayed as they are.
const WAY = {
  prompt: "rdbg sh it.json",
  program: "rdbg run --app it.json",
  base: 0,
  lines: [
    ["step 0", 1, 1],
    ["until tick 5 9", 7, 4],
    ["back 3", 4, 4],
    ["step 1", 5, 5],
  ],
};

test("the lines up to the first behind which the moves stay", () => {
  assert.deepEqual(linesTo(WAY, 0), []);
  assert.deepEqual(linesTo(WAY, 1), ["step 0"]);
  assert.deepEqual(linesTo(WAY, 3), ["step 0", "until tick 5 9", "back 4"]);
  assert.deepEqual(linesTo(WAY, 4), ["step 0", "until tick 5 9", "back 3"]);
  assert.deepEqual(linesTo(WAY, 5), ["step 0", "until tick 5 9", "back 3", "step 1"]);
  assert.equal(linesTo(WAY, 6), null);
});

test("where one types, and the way back from the end", () => {
  assert.equal(wayTo(WAY, 1).where, "rdbg sh it.json (or rdbg run --app it.json)");
  assert.equal(wayTo(WAY, 0).note, "This is boot: there is nothing to type.");
  const back = "From the end of the run, at 5: back 4 (or, in sh, goto 1).";
  assert.equal(wayTo(WAY, 1).note, back);
  assert.equal(wayTo(WAY, 5).note, "This is the end of the run.");
  assert.match(wayTo({ ...WAY, base: 2 }, 1).note, /a trim dropped the records before place 2/);
});

test("at a server, whose lines aren't known", () => {
  const way = { server: "rdbg sh --connect 4711", known: false, done: 5 };
  assert.deepEqual(wayTo(way, 3).lines, ["goto 3"]);
  assert.equal(wayTo(way, 3).where, way.server);
  assert.match(wayTo(way, 5).note, /^The server was at this place/);
});

test("of many lines the last are shown", () => {
  const lines = Array.from({ length: 203 }, (_, at) => `tick ${at}`);
  const shown = shownLines(lines).split("\n");
  assert.equal(shown[0], "(3 earlier lines not shown; Copy copies all)");
  assert.deepEqual([shown.length, shown[1], shown[200]], [201, "tick 3", "tick 202"]);
  assert.equal(shownLines(["tick", "tick"]), "tick\ntick");
});
