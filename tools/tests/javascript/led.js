// What led to a wait, who could end it, and what is first in the lanes.

const assert = require("assert");
const test = require("node:test");
const { SENT, namesOf, valuesOf } = require("./page.js");

const { Painter, Run, isEnding, ledTo, touchAt, waitAt } = namesOf("run", [
  "Painter", "Run", "isEnding", "ledTo", "touchAt", "waitAt",
]);

const LAST = "waits at recv:jobs with no limit of time (portMAX_DELAY)";

// The run in which the worker waits again, for what was taken by somebody else, or by hand.
function takenBack() {
  const [worker, producer] = SENT.tasks;
  const [jobs] = SENT.objects;
  const phase = { ...worker.tracks.phase, 4: "run", 7: "wait:recv:jobs:max" };
  const got = [0, 0, 0, 0, "select set -> 1", [], "worker 0 select set -> 1"];
  const waits = [0, 0, 0, 0, "recv jobs max", [], "worker 0 recv jobs max"];
  const items = { ...jobs.tracks.items, 5: [] };
  return {
    ...SENT,
    last: 7,
    tasks: [
      { ...worker, tracks: { ...worker.tracks, phase } },
      { ...producer, code: [["data 41"], ["send jobs 0"], ["send jobs max"]] },
    ],
    objects: [{ ...jobs, tracks: { ...jobs.tracks, items } }],
    moves: [...SENT.moves, got, waits],
  };
}

test("the last moves that touched an object, in their order", () => {
  const { moves, keys } = ledTo(new Run(valuesOf(takenBack())), 7);
  assert.deepEqual(moves.map(({ place, text, flag }) => [place, text, flag]), [
    [3, "producer put something into jobs (send jobs 0 -> 1)", "put"],
    [5, "an edit took something from jobs (poke reg worker 3 7)", "took"],
    [6, "worker got what it was waiting for (select set -> 1)", "got"],
    [7, `worker ${LAST}`, "waits"],
  ]);
  assert.deepEqual(keys, ["marks", "task worker", "queue jobs", "task producer"]);
});

test("who could end a wait", () => {
  const run = new Run(valuesOf(takenBack()));
  const whole = "These tasks could end the wait, as far as this page can tell: producer (ready), ";
  assert.equal(ledTo(run, 7).ends, `${whole}whose next instruction is send jobs max.`);
  run.tasks[1].code = [["send jobs 0"], ["data 41"], ["end"]];
  assert.equal(ledTo(run, 7).ends, `${whole}whose script contains send jobs 0.`);
  run.tasks[1].code = [["send others 0"]];
  assert.match(ledTo(run, 7).ends, /^No other task /);
  run.tasks[1].code = [];
  assert.equal(ledTo(run, 7).ends, "");
});

test("nobody waits, or with an end", () => {
  assert.equal(ledTo(new Run(valuesOf(SENT)), 0), null);
  const ends = takenBack();
  ends.tasks[0].tracks.phase[7] = "wait:recv:jobs:12";
  assert.equal(waitAt(new Run(valuesOf(ends)), 7), null);
});

// A run of one task, which waits at place 1, of whose tracks and objects this is.
function waiting(phase, notes, objects = []) {
  const tracks = { core: { 0: null }, pc: { 0: 0 }, phase: { 0: "run", 1: phase }, notes };
  const tasks = [{ name: "t", priority: 1, tracks }];
  const moves = [[0, 0, 0, 0, "x", [], "t 0 x"], [1, null, null, null, "", [], "tick"]];
  return new Run(valuesOf({ last: 2, cores: { tick: { 0: 0 } }, tasks, objects, moves }));
}

test("each kind of what a task waits for", () => {
  const note = waiting("wait:note:1:max", { 0: "0:idle,0:idle", 2: "0:idle,5:received" });
  assert.equal(touchAt(note, waitAt(note, 1), 2), 1);
  for (const [word, kind, list, names, signs] of [
    ["group", "group", "wishes", { bits: { 0: 1, 1: 3, 2: 2 } }, [1, -1]],
    ["set", "set", "wait", { handles: { 0: [], 1: ["a"], 2: [] } }, [1, -1]],
    ["sread", "stream", "reader", { trigger: { 0: 1 }, bytes: { 0: "", 1: "41", 2: "" } }, [1, -1]],
    ["mwrite", "message", "writer", { held: { 0: 0, 2: 5 }, messages: { 0: [], 2: ["41"] } }, [0, 1]],
    ["send", "queue", "send", { items: { 0: ["41"], 1: ["42"] } }, [1, 0]],
  ]) {
    const tracks = { ...names, [list]: { 0: null } };
    const run = waiting(`wait:${word}:it:max`, { 0: "" }, [{ kind, name: "it", most: 9, tracks }]);
    const wait = waitAt(run, 1);
    assert.deepEqual([1, 2].map((place) => touchAt(run, wait, place)), signs, word);
  }
});

test("which instructions end a wait", () => {
  const isIt = (word, list, texts, more = {}) => {
    const object = { kind: "queue", name: "it", tracks: { [list]: { 0: null }, ...more } };
    const run = waiting(`wait:${word}:it:max`, { 0: "" }, [object]);
    return texts.filter((text) => isEnding(run, waitAt(run, 1), 1, text));
  };
  const queue = ["send it 0", "front(it, max)", "over it", "give it", "peek it 0", "qreset it"];
  queue.push("recv it 5", "take it max", "send other 0");
  assert.deepEqual(isIt("recv", "recv", queue, { set: { 0: null } }), queue.slice(0, 5));
  assert.deepEqual(isIt("recv", "recv", queue, { set: { 0: "all" } }), ["peek it 0"]);
  assert.deepEqual(isIt("send", "send", queue), ["give it", "qreset it", "recv it 5"]);
  const buffer = ["sread it 8 0", "query t 0 1 bits", "sreset it", "notify t 1 0 inc"];
  assert.deepEqual(isIt("swrite", "writer", buffer), buffer.slice(0, 2));
  const notes = ["query(t, 1, 5, bits)", "notify t RX 0 inc", "notify t 0 0 inc", "notify u 1 0 inc"];
  const run = waiting("wait:note:1:max", { 0: "0:idle,0:idle" });
  assert.deepEqual(notes.filter((it) => isEnding(run, waitAt(run, 1), 1, it)), notes.slice(0, 2));
});

test("who has a mutex gives it", () => {
  const still = { core: { 0: null }, pc: { 0: 1 }, notes: { 0: "0:idle" } };
  const code = [["take lock max"], ["give lock"]];
  const tasks = [
    { name: "t", priority: 2, code, tracks: { ...still, phase: { 0: "run", 2: "wait:send:lock:max" } } },
    { name: "u", priority: 1, code, tracks: { ...still, phase: { 0: "run" } } },
  ];
  const lists = { recv: { 0: [] }, send: { 0: [], 2: ["t"] }, set: { 0: null } };
  const lock = { kind: "queue", name: "lock", most: 1, tracks: { items: { 0: [], 1: ["00"] }, ...lists } };
  const moves = [
    [0, 0, 1, 0, "take lock max -> 1", [], "u 0 take lock max"],
    [0, 0, 0, 0, "take lock max", [], "t 0 take lock max"],
  ];
  const run = { last: 2, cores: { tick: { 0: 0 } }, tasks, objects: [lock], moves };
  const led = ledTo(new Run(valuesOf(run)), 2);
  const wait = "t waits at send:lock with no limit of time (portMAX_DELAY)";
  const said = led.moves.map(({ text, flag }) => [text, flag]);
  assert.deepEqual(said, [["u took lock (take lock max -> 1)", "took"], [wait, "waits"]]);
  assert.match(led.ends, /: u \(ready\), whose next instruction is give lock\.$/);
});

test("tasks of one colour differ in every room by letter, name or bands", () => {
  const drawn = (task, width) => {
    const painter = Object.create(Painter.prototype);
    const seen = [];
    Object.assign(painter, { letter: 7, text: (...it) => seen.push(it), fill: (...it) => seen.push(it) });
    painter.runner({ text: `task_${task}`, sign: "AI"[task / 8], colour: task }, 0, 0, width, 19);
    return JSON.stringify(seen.filter((it) => it[0] !== ""));
  };
  for (let width = 3; width < 120; width++) {
    assert.notEqual(drawn(0, width), drawn(8, width), width);
    const bands = (task) => JSON.stringify(JSON.parse(drawn(task, width)).filter((it) => it.length === 5));
    assert.notEqual(bands(0), bands(8), width);
  }
});
