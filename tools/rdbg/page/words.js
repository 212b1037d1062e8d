// The state in words, as in rdbg's other tools.

const NOBODY = "-";
const PLAIN_NO_LIMIT = "with no limit of time";
// The same with the name that C has for it, and so where it stands in brackets already.
const NO_LIMIT = `${PLAIN_NO_LIMIT} (portMAX_DELAY)`;
const EFFECT_NO_LIMIT = `${PLAIN_NO_LIMIT}: portMAX_DELAY`;

function joined(list) {
  return list && list.length ? list.join(",") : NOBODY;
}

// The same to be read, which has places to break it.
function spaced(list) {
  return joined(list).replace(/,/g, ", ");
}

function orNobody(it) {
  return it === null || it === undefined || it === "" ? NOBODY : String(it);
}

function counted(count, what) {
  return `${count} ${what}${count === 1 ? "" : "s"}`;
}

function untilWhen(deadline) {
  return deadline === "max" ? NO_LIMIT : `until tick ${deadline}`;
}

// A phase in words.
function phaseWords(phase) {
  const [word, ...rest] = orNobody(phase).split(":");
  if (word === "wait") return `waits at ${rest[0]}:${rest[1]} ${untilWhen(rest[2])}`;
  if (word === "again") return `woken, tries again ${untilWhen(rest[0])}`;
  if (word === "given") return `woken, given bits ${rest[0]}`;
  return word === "failed" ? `failed: ${rest[0]}` : word;
}

function isReady(phase) {
  return /^(run$|again:|given:)/.test(phase || "");
}

// Where a task is: on a core, ready for one, or neither.
function seatWords(core, phase) {
  if (core !== null) return `core ${core}`;
  return isReady(phase) ? "ready" : NOBODY;
}

// The registers that aren't 0.
function registerWords(registers) {
  const texts = orNobody(registers).split(",").map((value, at) => [value, `r${at}=${value}`]);
  return texts.filter(([value]) => value !== "0" && value !== NOBODY).map(([, text]) => text);
}

// The notification entries that aren't as at boot.
function noteWords(notes) {
  const texts = orNobody(notes).split(",").map((note, at) => [note, `note ${at}=${note}`]);
  return texts.filter(([note]) => note !== "0:idle" && note !== NOBODY).map(([, text]) => text);
}

const MOST_BYTES = 16;

function bytesWords(bytes) {
  const count = bytes.length / 2;
  return count > MOST_BYTES ? `${bytes.slice(0, 2 * MOST_BYTES)}.. (${count} bytes)` : bytes;
}

// How much an object holds: a number, and in words.
function levelOf(kind, it, most) {
  if (kind === "queue") return [it.items.length, `${it.items.length}/${most}`];
  if (kind === "set") return [it.handles.length, `${it.handles.length}/${most} handles`];
  if (kind === "stream") return [it.bytes.length / 2, `${it.bytes.length / 2}/${most} bytes`];
  if (kind === "message") return [it.held, `${it.messages.length} in ${it.held}/${most} bytes`];
  return [it.bits, `bits ${it.bits}`];
}

// What an object holds.
function contentWords(kind, it) {
  if (kind === "queue") return spaced(it.items) + (it.set ? `, in set ${it.set}` : "");
  if (kind === "set") return spaced(it.handles);
  if (kind === "stream") return `${orNobody(bytesWords(it.bytes))}, trigger ${it.trigger}`;
  if (kind === "message") return spaced(it.messages.map(bytesWords));
  return `0x${it.bits.toString(16)}`;
}

function wishWords([task, bits, which, after]) {
  return `${task} (${which} of 0x${bits.toString(16)}, ${after})`;
}

// The lists and places where tasks wait at an object, each with a name and who waits, in order.
const WAITING = {
  queue: [["recv", "receive"], ["send", "send"]],
  set: [["wait", "select"]],
  stream: [["reader", "reader"], ["writer", "writer"]],
  message: [["reader", "reader"], ["writer", "writer"]],
  group: [["wishes", "wait"]],
};

// Who waits in one of these, in order, in words; wishes too.
function waitingNames(name, value) {
  if (value === null || value === undefined) return [];
  if (name === "wishes") return value.map(wishWords);
  return Array.isArray(value) ? value : [value];
}

function effectWords(move) {
  const said = move.effects.map(([text]) => text.replace(PLAIN_NO_LIMIT, EFFECT_NO_LIMIT));
  return said.join(", ");
}

// The cells of a move: place, tick, core, who, pc, does, effects.
function moveCells(run, move) {
  const who = move.kind === STEP ? run.tasks[move.task]?.name : ["", "tick", "edit", "isr"][move.kind];
  const tick = run.value(run.cores.tick, move.place);
  const trims = run.trimsAt(move.place).map((line) => `then ${line}`);
  const effects = [effectWords(move), ...trims].filter(Boolean).join(", ");
  return [move.place, tick, move.core, who, move.pc, move.does, effects].map((it) =>
    it === null || it === undefined ? "" : String(it),
  );
}

// A move in a sentence.
function moveSentence(run, move) {
  const [place, tick, core, , , , effects] = moveCells(run, move);
  const seat = core && `core ${core}: `;
  const name = move.kind === TICK ? `${move.name} ${tick}` : move.name;
  return `${place}: ${seat}${[name, effects].filter(Boolean).join(", ")}`;
}

// The replies of rdbg to views of all there is at a place, made of what the page has.
function repliesAt(run, place) {
  const cores = run.values(run.cores, place);
  const running = cores.running.map(orNobody).join(",");
  const ready = joined(cores.ready);
  const lines = [`cores ${running} ready ${ready} tick ${cores.tick} turn ${cores.turn}`];
  for (const task of run.tasks) {
    const it = run.values(task.tracks, place);
    if (it.pc === null) continue;
    const seat = `task ${task.name} core ${orNobody(it.core)} pc ${it.pc} phase ${it.phase}`;
    lines.push(`${seat} regs ${it.registers} data ${orNobody(it.data)} notes ${it.notes}`);
  }
  for (const object of run.objects) {
    const it = run.values(object.tracks, place);
    if (Object.values(it)[0] !== null) lines.push(objectReply(object, it));
  }
  return lines;
}

function objectReply({ kind, name, most }, it) {
  const ends = `reader ${orNobody(it.reader)} writer ${orNobody(it.writer)}`;
  if (kind === "queue") {
    const waiting = `recv ${joined(it.recv)} send ${joined(it.send)} set ${orNobody(it.set)}`;
    return `queue ${name} ${it.items.length}/${most} items ${joined(it.items)} ${waiting}`;
  }
  if (kind === "set") {
    const handles = `${it.handles.length}/${most} handles ${joined(it.handles)}`;
    return `set ${name} ${handles} wait ${joined(it.wait)}`;
  }
  if (kind === "stream") {
    const held = `${it.bytes.length / 2}/${most} trigger ${it.trigger}`;
    return `stream ${name} ${held} bytes ${orNobody(it.bytes)} ${ends}`;
  }
  if (kind === "message") {
    return `message ${name} ${it.held}/${most} messages ${joined(it.messages)} ${ends}`;
  }
  return `group ${name} bits ${it.bits} wait ${joined(it.wishes.map((wish) => wish.join(":")))}`;
}
