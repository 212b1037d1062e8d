// How lanes are arranged, and by what tasks are told apart without colours.

const assert = require("assert");
const test = require("node:test");
const { SENT, namesOf, valuesOf } = require("./page.js");

const { Arrangement, LETTERS, Run, bandsOf, laidOut, lanesOf, nameIn, signOf } = namesOf("run", [
  "Arrangement", "LETTERS", "Run", "bandsOf", "laidOut", "lanesOf", "nameIn", "signOf",
]);

// The names of the lanes that are there once something was done, from top to bottom.
function names(act) {
  const lanes = lanesOf(new Run(valuesOf(SENT)));
  const it = new Arrangement();
  act(it, lanes);
  return laidOut(lanes, it).map(({ label, isPinned }) => (isPinned ? "^" : "") + label.trim());
}

const OBJECTS = ["objects", "jobs", "receive"];

test("as they come", () => {
  const wanted = ["cores", "core 0", "tasks", "worker", "producer", ...OBJECTS];
  assert.deepEqual(names(() => {}), wanted);
});

test("pinned lanes stand above the others, with what goes with them", () => {
  const wanted = ["^jobs", "^receive", "^worker", "cores", "core 0", "tasks", "producer", "objects"];
  assert.deepEqual(names((it) => ["queue jobs", "task worker"].forEach((key) => it.pin(key))), wanted);
  const none = names((it) => ["task worker", "task worker"].forEach((key) => it.pin(key)));
  assert.ok(!none.some((name) => name.startsWith("^")));
  // (names that nothing has, as a link may have them, do nothing)
  assert.deepEqual(names((it) => it.pin("task nobody")), names(() => {}));
});

test("a group that is folded has its head alone, and its pinned lanes", () => {
  assert.deepEqual(names((it) => it.fold("tasks")), ["cores", "core 0", "tasks", ...OBJECTS]);
  const wanted = ["^worker", "cores", "core 0", "tasks", ...OBJECTS];
  assert.deepEqual(names((it) => it.pin("task worker") ?? it.fold("tasks")), wanted);
  assert.deepEqual(names((it) => ["tasks", "tasks"].forEach((key) => it.fold(key))), names(() => {}));
});

test("others than some are left out", () => {
  assert.deepEqual(names((it) => it.filter("WORK, queue")), ["cores", "tasks", "worker", ...OBJECTS]);
  assert.deepEqual(names((it) => it.filter("  ")), names(() => {}));
});

test("orders", () => {
  const tasks = (act) => names(act).slice(3, 5);
  assert.deepEqual(tasks((it) => it.sortBy("by name")), ["producer", "worker"]);
  assert.deepEqual(tasks((it) => it.sortBy("by priority")), ["worker", "producer"]);
  assert.deepEqual(tasks((it) => it.sortBy("by first move")), ["worker", "producer"]);
  assert.deepEqual(tasks((it, all) => it.move(all, "task worker", 1)), ["producer", "worker"]);
  assert.deepEqual(tasks((it, all) => it.move(all, "task worker", -1)), ["worker", "producer"]);
  assert.deepEqual(names((it, all) => it.move(all, "tasks", 1)), names(() => {}));
});

test("32 tasks have letters and bands of their own", () => {
  const all = Array.from({ length: 32 }, (_, at) => at);
  assert.equal(LETTERS.length, 32);
  assert.equal(new Set(all.map(signOf)).size, 32);
  assert.equal(new Set(all.map((at) => bandsOf(at).join())).size, 32);
  assert.equal(new Set([...all, ...all.map((at) => at + 32)].map(signOf)).size, 64);
});

test("a name, as far as there is room", () => {
  const told = [0, 1, 4, 5, 7, 8].map((most) => nameIn(most, "producer", "B"));
  assert.deepEqual(told, ["", "B", "B", "B pr\u2026", "B prod\u2026", "producer"]);
});
