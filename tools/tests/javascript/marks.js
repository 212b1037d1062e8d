// What the extension of VS Code marks while one types, with a stand-in for VS Code, and rdbg itself
// or a stand-in for that, too.

const assert = require("assert");
const childProcess = require("child_process");
const test = require("node:test");
const { begin, marksIn, output, user } = require("vscode");
const extension = require("../../editors/vscode");

const SETTING = "rdbg.check.program";
const RIGHT = `cores 2
queue jobs length 2 item 1

task worker priority 2
loop
    recv jobs portMAX_DELAY
end
`;
const WRONG = RIGHT.replace("recv jobs", "recv jbos");
const NEAR = "queue 'jbos' is not defined (did you mean 'jobs'?)";
// (a loaded machine starts a program late)
const PATIENCE = 60000;
const PAUSE = 300;

const sleep = (time) => new Promise((resolve) => setTimeout(resolve, time));

async function until(holds) {
  for (const begun = Date.now(); !holds(); await sleep(10)) {
    assert(Date.now() - begun < PATIENCE, "it doesn't come");
  }
}

// What rdbg prints of a text with these faults.
const answered = (...faults) => JSON.stringify({ files: [{ faults }] });

// Puts what answers when the test says so in the place of rdbg: the runs that were begun.
function held(context) {
  const runs = [];
  context.mock.method(childProcess, "execFile", (program, words, answer) => {
    const run = { program, words, isEnded: false, at: Date.now() };
    run.print = (printed, complaint = "") => answer(null, printed, complaint);
    run.answer = (message) => run.print(answered({ line: 1, column: 1, severity: "error", message }));
    runs.push(run);
    const stdin = { on: () => {}, end: (text) => (run.text = text) };
    return { stdin, kill: () => (run.isEnded = true) };
  });
  return runs;
}

const messages = (document) => (marksIn(document) || []).map((it) => it[5]);
// What came by a promise has been heard.
const heard = () => sleep(1);

test("marks after opening and after a change, and none after a mend", async (context) => {
  begin(context, extension).activate();
  const document = user.open(WRONG);
  await until(() => marksIn(document));
  assert.deepEqual(marksIn(document).map((it) => it.slice(0, 5)), [[5, 9, 5, 13, "Error"]]);
  assert(messages(document)[0].endsWith(NEAR), messages(document)[0]);

  user.type(document, WRONG.replace("cores 2", "cores 0"));
  await until(() => marksIn(document).length === 2);
  assert.deepEqual(marksIn(document).map((it) => it[0]).sort(), [0, 5]);

  user.type(document, RIGHT);
  await until(() => !marksIn(document).length);
  assert.deepEqual(output, []);
});

test("a note, and a column, which counts characters, of which some are two to VS Code", async (context) => {
  begin(context, extension).activate();
  const text = WRONG.replace("\n\n", "\nmutex log\n\n").replace("recv", "/* \u{1F600}\u{1F600} */ recv");
  const document = user.open(text.replace(/\n/g, "\r\n"));
  await until(() => marksIn(document));
  const places = marksIn(document).map((it) => it.slice(0, 5)).sort();
  assert.deepEqual(places, [[2, 0, 2, 5, "Information"], [6, 20, 6, 24, "Error"]]);
});

test("what is open already, and what isn't checked", async (context) => {
  const runs = held(context);
  const { activate } = begin(context, extension);
  user.open("open");
  user.open("{}", { languageId: "json", name: "a.json" });
  user.open("of a commit", { scheme: "git" });
  user.open("of no file", { scheme: "untitled", name: "Untitled-1" });
  activate();
  await until(() => runs.length === 2);
  await sleep(PAUSE + 50);
  assert.deepEqual(runs.map((it) => it.text), ["open", "of no file"]);
  for (const { program, words } of runs) {
    assert(program.endsWith("/editors/vscode/adapter"), program);
    assert.deepEqual(words, ["check", "--json", "--name", "text.fw", "-"]);
  }
});

test("one run after a pause, of the text as it is then", async (context) => {
  const runs = held(context);
  begin(context, extension).activate();
  const document = user.open("cores 1");
  await sleep(PAUSE / 2);
  const changed = Date.now();
  for (const text of ["cores ", "cores 2"]) user.type(document, text);
  await until(() => runs.length);
  assert(runs[0].at - changed >= PAUSE - 5, `${runs[0].at - changed}`);
  await sleep(PAUSE + 50);
  assert.deepEqual(runs.map((it) => it.text), ["cores 2"]);
});

test("an answer that a change has made stale is dropped, and what gives it is ended", async (context) => {
  const runs = held(context);
  begin(context, extension).activate();
  const document = user.open("old");
  await until(() => runs.length === 1);
  user.type(document, "new");
  assert(runs[0].isEnded);
  runs[0].answer("of the old text, before the new one is checked");
  await heard();
  assert.equal(marksIn(document), undefined);

  await until(() => runs.length === 2);
  user.type(document, "newest");
  await until(() => runs.length === 3);
  runs[2].answer("of the newest text");
  await heard();
  runs[1].answer("of the new text, behind the newest one");
  await heard();
  assert.deepEqual(messages(document), ["of the newest text"]);
  assert.deepEqual(runs.map((it) => it.isEnded), [true, true, false]);
});

test("each document has runs of its own", async (context) => {
  const runs = held(context);
  begin(context, extension).activate();
  const one = user.open("one", { name: "one.fw" });
  const other = user.open("other", { name: "other.fw" });
  await until(() => runs.length === 2);
  runs[1].answer("of the other");
  runs[0].answer("of the one");
  await heard();
  assert.deepEqual([one, other].map(messages), [["of the one"], ["of the other"]]);
});

test("closing takes the marks away, and what comes after it marks nothing", async (context) => {
  const runs = held(context);
  begin(context, extension).activate();
  const document = user.open("open");
  await until(() => runs.length === 1);
  runs[0].answer("wrong");
  await heard();
  assert.deepEqual(messages(document), ["wrong"]);
  user.type(document, "changed");
  await until(() => runs.length === 2);
  user.close(document);
  assert(runs[1].isEnded);
  assert.equal(marksIn(document), undefined);
  runs[1].answer("late");
  await heard();
  assert.equal(marksIn(document), undefined);

  user.close(user.open("closed within the pause"));
  await sleep(PAUSE + 50);
  assert.equal(runs.length, 2);
});

// What may be chosen as the program, and why that marks nothing.
for (const [what, program, said] of [
  ["isn't there", "/nowhere/rdbg", "spawn /nowhere/rdbg ENOENT"],
  ["can't be there", `${__filename}/rdbg`, "spawn ENOTDIR"],
  ["is no text", 5, "must be of type string"],
  ["answers no JSON", "/bin/echo", "its output is not the expected JSON"],
  ["complains", "/bin/cat", "/bin/cat: "],
]) {
  test(`a program that ${what} is told once`, async (context) => {
    begin(context, extension).activate();
    user.choose(SETTING, program);
    const document = user.open(WRONG);
    await until(() => marksIn(document));
    assert.equal(output.length, 1);
    assert(output[0].startsWith(`cannot check for errors: ${program} check --json`), output[0]);
    assert(output[0].includes(said), output[0]);

    const long = user.open(WRONG.repeat(1000), { name: "long.fw" });
    await until(() => marksIn(long));
    assert.deepEqual([marksIn(document), marksIn(long), output.length], [[], [], 1]);
  });
}

test("another program is tried at once, and told anew", async (context) => {
  const runs = held(context);
  begin(context, extension).activate();
  const document = user.open(WRONG);
  await until(() => runs.length === 1);
  runs[0].answer("wrong");
  for (const at of [1, 2]) {
    user.choose(SETTING, `/nowhere/${at}`);
    await until(() => runs.length === at + 1);
    runs[at].print("");
    await heard();
    assert.deepEqual(marksIn(document), []);
  }
  assert.deepEqual(runs.slice(1).map((it) => it.program), ["/nowhere/1", "/nowhere/2"]);
  assert.equal(output.length, 2);
  user.choose("files.encoding", "utf8");
  await sleep(PAUSE + 50);
  assert.equal(runs.length, 3);
});

test("what works again, and then no more, is told again", async (context) => {
  const runs = held(context);
  begin(context, extension).activate();
  const document = user.open("");
  const wrong = ["", "null", '{"files": []}', answered({})];
  const printed = wrong.flatMap((each) => [each, each, answered()]);
  for (const [at, each] of printed.entries()) {
    user.type(document, `${at}`);
    await until(() => runs.length === at + 1);
    runs[at].print(each);
    await heard();
    assert.deepEqual([marksIn(document), output.length], [[], Math.floor(at / 3) + 1]);
  }
});

test("what rdbg says of a text that it doesn't read is told, too", async (context) => {
  const runs = held(context);
  begin(context, extension).activate();
  const document = user.open("");
  await until(() => runs.length === 1);
  runs[0].print('{"files": []}', "rdbg check: -: the text is too long\n");
  await heard();
  assert.deepEqual(marksIn(document), []);
  assert(output[0].endsWith(": rdbg check: -: the text is too long"), output[0]);
});

test("what is under way is ended with the extension", async (context) => {
  const runs = held(context);
  const { activate, end } = begin(context, extension);
  const document = user.open(RIGHT);
  activate();
  await until(() => runs.length === 1);
  end();
  assert(runs[0].isEnded);
  runs[0].answer("late");
  await heard();
  assert.equal(marksIn(document), undefined);
});
