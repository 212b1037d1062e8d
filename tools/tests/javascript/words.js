// What pages say in words.

const assert = require("assert");
const test = require("node:test");
const { SENT, namesOf, valuesOf } = require("./page.js");

const {
  Run, bytesWords, contentWords, counted, effectWords, joined, levelOf, moveCells, moveSentence, noteWords,
  objectReply, orNobody, phaseWords, registerWords, repliesAt, seatWords, spaced, waitingNames,
} = namesOf("run", [
  "Run", "bytesWords", "contentWords", "counted", "effectWords", "joined", "levelOf", "moveCells", "moveSentence",
  "noteWords", "objectReply", "orNobody", "phaseWords", "registerWords", "repliesAt", "seatWords",
  "spaced", "waitingNames",
]);

test("a list, and what is none", () => {
  assert.deepEqual(["a", "b"].map((it) => joined([it, "c"])), ["a,c", "b,c"]);
  assert.equal(spaced(["a", "b"]), "a, b");
  assert.deepEqual([joined([]), joined(null), spaced([])], ["-", "-", "-"]);
  assert.deepEqual([null, undefined, "", 0].map(orNobody), ["-", "-", "-", "0"]);
  assert.deepEqual([0, 1, 2].map((it) => counted(it, "move")), ["0 moves", "1 move", "2 moves"]);
});

test("each phase that a task can have", () => {
  const words = {
    run: "run",
    "again:max": "woken, tries again with no limit of time (portMAX_DELAY)",
    "again:7": "woken, tries again until tick 7",
    "given:5": "woken, given bits 5",
    "wait:recv:jobs:10": "waits at recv:jobs until tick 10",
    "wait:group:g0:max": "waits at group:g0 with no limit of time (portMAX_DELAY)",
    "wait:note:0:max": "waits at note:0 with no limit of time (portMAX_DELAY)",
    ended: "ended",
    "failed:BadBits": "failed: BadBits",
  };
  for (const phase in words) assert.equal(phaseWords(phase), words[phase]);
});

test("where a task is", () => {
  assert.equal(seatWords(0, "run"), "core 0");
  for (const phase of ["run", "again:max", "given:5"]) assert.equal(seatWords(null, phase), "ready");
  for (const phase of ["wait:recv:jobs:10", "ended", "failed:BadBits", null]) {
    assert.equal(seatWords(null, phase), "-");
  }
});

test("what a task holds that isn't as at boot", () => {
  assert.deepEqual(registerWords("0,5,0,0,0,0,0,4294967295"), ["r1=5", "r7=4294967295"]);
  assert.deepEqual(noteWords("0:idle,3:received"), ["note 1=3:received"]);
  assert.deepEqual([registerWords(null), noteWords(null)], [[], []]);
});

test("bytes, of which only so many are shown", () => {
  assert.equal(bytesWords("0a".repeat(16)), "0a".repeat(16));
  assert.equal(bytesWords("0a".repeat(17)), `${"0a".repeat(16)}.. (17 bytes)`);
});

// Of each kind: what it holds, how much that is, and what the target says of it.
const OBJECTS = [
  ["queue", { items: ["41", "42"], recv: [], send: ["t0"], set: "s" }, [2, "2/4"],
    "41, 42, in set s", "queue it 2/4 items 41,42 recv - send t0 set s"],
  ["set", { handles: ["q0", "q0"], wait: [] }, [2, "2/4 handles"],
    "q0, q0", "set it 2/4 handles q0,q0 wait -"],
  ["stream", { trigger: 2, bytes: "4142", reader: "t0", writer: null }, [2, "2/4 bytes"],
    "4142, trigger 2", "stream it 2/4 trigger 2 bytes 4142 reader t0 writer -"],
  ["message", { held: 5, messages: ["41"], reader: null, writer: null }, [5, "1 in 5/4 bytes"],
    "41", "message it 5/4 messages 41 reader - writer -"],
  ["group", { bits: 20, wishes: [["t0", 3, "all", "keep"]] }, [20, "bits 20"],
    "0x14", "group it bits 20 wait t0:3:all:keep"],
];

test("objects of each kind", () => {
  for (const [kind, it, level, content, reply] of OBJECTS) {
    assert.deepEqual(levelOf(kind, it, 4), level);
    assert.equal(contentWords(kind, it), content);
    assert.equal(objectReply({ kind, name: "it", most: 4 }, it), reply);
  }
});

test("who waits", () => {
  assert.deepEqual(waitingNames("recv", ["a", "b"]), ["a", "b"]);
  assert.deepEqual(waitingNames("reader", "a"), ["a"]);
  assert.deepEqual(waitingNames("reader", null), []);
  assert.deepEqual(waitingNames("wishes", [["a", 18, "any", "clear"]]), ["a (any of 0x12, clear)"]);
});

test("moves, as rows and in sentences", () => {
  const run = new Run(valuesOf(SENT));
  const said = [1, 2, 3, 4, 5].map((place) => moveSentence(run, run.move(place)));
  assert.deepEqual(said, [
    "1: core 0: worker 0 recv jobs max, left core 0 (waits), producer took core 0",
    "2: core 0: producer 0 data 41, data 41",
    "3: core 0: producer 1 send jobs 0 -> 1, jobs 1/1, woke worker (core 0)",
    "4: tick 1",
    "5: poke reg worker 3 7, then trim 1",
  ]);
  const sent = ["3", "0", "0", "producer", "1", "send jobs 0 -> 1", "jobs 1/1, woke worker (core 0)"];
  assert.deepEqual(moveCells(run, run.move(3)), sent);
  assert.deepEqual(moveCells(run, run.move(4)), ["4", "1", "", "tick", "", "", ""]);
  const edit = ["5", "1", "", "edit", "", "poke reg worker 3 7", "then trim 1"];
  assert.deepEqual(moveCells(run, run.move(5)), edit);
});

test("a wait with no limit of time, as an effect", () => {
  const effects = [["left core 0 (waits with no limit of time)"], ["a took core 0"]];
  const said = "left core 0 (waits with no limit of time: portMAX_DELAY), a took core 0";
  assert.equal(effectWords({ effects }), said);
});

test("the replies of the target to views of a place", () => {
  assert.deepEqual(repliesAt(new Run(valuesOf(SENT)), 3), [
    "cores worker ready producer tick 0 turn 1",
    "task worker core 0 pc 0 phase again:max regs 0,0,0,0,0,0,0,0 data - notes 0:idle",
    "task producer core - pc 2 phase run regs 1,0,0,0,0,0,0,0 data 41 notes 0:idle",
    "queue jobs 1/1 items 41 recv - send - set -",
  ]);
});
