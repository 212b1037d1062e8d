// A room's page: a run that grows, and lines that are made of what is chosen.

const assert = require("assert");
const test = require("node:test");
const { SENT, namesOf, valuesOf } = require("./page.js");

const {
  DONE, KeyboardControl, LiveRun, StepsInTurn, Watches, breakWords, choicesOf, coreInTurn, idleWords, kindOf,
  nextWords, wheelWords,
} = namesOf("room", [
  "DONE", "KeyboardControl", "LiveRun", "StepsInTurn", "Watches", "breakWords", "choicesOf", "coreInTurn",
  "idleWords", "kindOf", "nextWords", "wheelWords",
]);

// A run that was followed from a place on, where the target is at `done`.
function liveRun(first, done, more = {}) {
  const moves = SENT.moves.slice(first);
  const from = (track) => {
    const [, value] = Object.entries(track).filter(([at]) => Number(at) <= first).pop();
    const behind = Object.entries(track).filter(([at]) => Number(at) > first);
    return Object.fromEntries([[first, value], ...behind]);
  };
  const cut = (tracks) => {
    return Object.fromEntries(Object.entries(tracks).map(([name, it]) => [name, from(it)]));
  };
  const things = (list) => list.map((it) => ({ ...it, tracks: cut(it.tracks) }));
  const { last, cores, tasks, objects, trims } = SENT;
  const block = { first, last, moves, cores: cut(cores) };
  const blocks = [valuesOf({ ...block, tasks: things(tasks), objects: things(objects) })];
  return new LiveRun({ blocks, trims, done, undone: last - done, known: [0, last], toCome: 0, ...more });
}

test("what is at the target", () => {
  const run = liveRun(0, 3);
  assert.ok(run.hasDone);
  assert.equal(coreInTurn(run), 0);
  assert.equal(run.missing, 0);
});

test("the core in turn is the next that is busy", () => {
  const cores = { running: { 0: [null, "a", "b"] }, turn: { 0: 0, 1: 2, 2: 3 } };
  const known = { trims: [], undone: 0, known: [0, 2], toCome: 0 };
  const at = (done) => new LiveRun({ blocks: [valuesOf({ last: 2, cores })], done, ...known });
  assert.deepEqual([0, 1, 2].map((it) => coreInTurn(at(it))), [1, 2, 1]);
});

test("a step of the core in turn waits for the move before, where that one was made", async () => {
  let done = 0;
  const said = [];
  const isDone = [true, false, true];
  const steps = new StepsInTurn(async () => {
    said.push(done);
    return isDone[said.length - 1];
  });
  const rest = () => new Promise((resolve) => setTimeout(resolve));
  isDone.forEach(() => steps.ask());
  await rest();
  assert.deepEqual(said, [0]);
  done = 1;
  steps.hear();
  await rest();
  assert.deepEqual(said, [0, 1, 1]);
});

test("keys that move the target need the switch, which is off at first", () => {
  const state = { textContent: "" };
  const attributes = {};
  const button = {
    addEventListener: (kind, act) => (button[kind] = act),
    querySelector: () => state,
    setAttribute: (name, value) => (attributes[name] = value),
  };
  const control = new KeyboardControl(button);
  const pressed = [];
  const keys = control.guard({ s: () => pressed.push("s"), 0: () => pressed.push("0") });
  const seen = () => [attributes["aria-pressed"], state.textContent, pressed.join("")];
  keys.s();
  assert.deepEqual(seen(), ["false", "off", ""]);
  button.click();
  keys.s();
  keys[0]();
  assert.deepEqual(seen(), ["true", "on", "s0"]);
  button.click();
  keys.s();
  assert.deepEqual(seen(), ["false", "off", "s0"]);
});

test("earlier moves come before the first", () => {
  const run = liveRun(2, 5);
  assert.equal(run.missing, 2);
  const all = valuesOf(SENT);
  const shorter = (flat) => flat.filter((_, at) => at === 0);
  const tracks = (of) => Object.fromEntries(Object.entries(of).map(([key, it]) => [key, shorter(it)]));
  const things = (list) => list.map((it) => ({ ...it, tracks: tracks(it.tracks) }));
  const moves = all.moves.slice(0, 2);
  const block = { ...all, last: 2, moves, cores: tracks(all.cores), tasks: things(all.tasks) };
  run.prepend({ ...block, objects: things(all.objects) });
  assert.equal(run.missing, 0);
  assert.deepEqual([1, 2, 3].map((it) => run.move(it).name.split(" ")[0]), [
    "worker", "producer", "producer",
  ]);
  assert.deepEqual([0, 3].map((it) => run.value(run.cores.running, it)), [["worker"], ["worker"]]);
});

test("moves in place of others that were taken back", () => {
  const run = liveRun(0, 3);
  const move = [0, 0, 0, 0, "recv jobs max -> 1", [], "worker 0 recv jobs max -> 1"];
  run.more({
    cut: 3,
    last: 4,
    cores: { turn: [[4, 1]] },
    tasks: [{ phase: [[4, "run"]] }, {}],
    objects: [{ items: [[4, []]] }],
    moves: [move],
    done: 4,
    undone: 0,
    known: [0, 4],
    toCome: 0,
  });
  assert.deepEqual([run.last, run.trims, run.move(4).name], [4, [], move[6]]);
  const [worker] = run.tasks;
  assert.deepEqual([3, 4].map((it) => run.value(worker.tracks.phase, it)), ["again:max", "run"]);
  assert.deepEqual(run.value(run.objects[0].tracks.items, 4), []);
});

test("moves behind a place that isn't here are none of this run's", () => {
  const run = liveRun(2, 5);
  run.more({ cut: 7, last: 8, cores: {}, tasks: [], objects: [], moves: [[]] });
  assert.equal(run.last, 5);
  run.more({ cut: 1, last: 2, cores: {}, tasks: [], objects: [], moves: [[]] });
  assert.deepEqual([run.last, run.isOld, run.hasDone], [5, true, false]);
});

test("what can be chosen for a word", () => {
  const room = { tasks: ["t0", "t1"], objects: [["queue", "q0"], ["group", "g0"]] };
  assert.deepEqual(choicesOf(room, "task"), ["t0", "t1"]);
  assert.deepEqual(choicesOf(room, "queue"), ["q0"]);
  assert.deepEqual(choicesOf(room, "stream"), []);
  assert.deepEqual(choicesOf(room, "action"), ["none", "bits", "inc", "set", "setif"]);
  assert.equal(choicesOf(room, "number"), null);
});

test("the next instruction of a task, where it is known", () => {
  const run = liveRun(0, 5);
  run.tasks[0].code = [["recv jobs max", 5, 0, 1]];
  assert.deepEqual([nextWords(run, 0, 0), nextWords(run, 0, 3), nextWords(run, 1, 0)], [
    "recv jobs max", "", "",
  ]);
});

test("who has the wheel", () => {
  assert.equal(wheelWords("ann", undefined), "The wheel is free: anyone can move.");
  assert.equal(wheelWords("ann", { name: "ann" }), "You have the wheel: only you can move.");
  const away = "bob has the wheel and is away: your moves are refused.";
  assert.equal(wheelWords("ann", { name: "bob", isHere: false }), away);
});

test("how a notice is marked", () => {
  const kinds = {
    "ann: step 0 -> ok at 1": "mine",
    "bob: step 0 -> ok at 1": "others",
    "bob says: step 0": "said",
    "bob to you: look": "private",
    "ann to bob: look": "private",
    "no: bob is away; here: ann (session 1)": "refused",
    "bob is away and still has the wheel": "others",
  };
  for (const text in kinds) assert.equal(kindOf(text, "ann"), kinds[text], text);
});

test("who is idle, and for how long", () => {
  assert.deepEqual([0, 1, 75].map(idleWords), ["idle", "idle for 1 min", "idle for 75 min"]);
});

test("the watch of a breakpoint", () => {
  const watches = Object.create(Watches.prototype);
  watches.conditions = { 0: "count jobs > 0", 3: "pc worker = 2" };
  assert.equal(watches.numberOf(breakWords({ task: "worker", number: "2" })), "3");
  assert.equal(watches.numberOf(breakWords({ task: "worker", number: "20" })), undefined);
});

test("which replies a notice tells already", () => {
  const told = ["ok at 5", "ok at 5 met", "ok wheel"];
  const replies = ["at 5 met: asleep", "ok watch 0\n`continue` runs there", "queue jobs 0/1"];
  assert.deepEqual([...told, ...replies].map((it) => DONE.test(it)), [
    true, true, true, false, false, false,
  ]);
});
