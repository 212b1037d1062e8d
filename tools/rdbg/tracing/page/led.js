// Explains a wait: the last moves that touched its object, and the tasks that could still end it.

// What ends a wait, by the word of its phase: the track of its object on which those stand who wait
// so, and words of instructions. (Who waits for a mutex waits to send: `give` ends that, too.)
const PUTS = ["send", "front", "over", "give"];
const NOTIFIES = ["notify", "query"];
const ENDINGS = {
  recv: { list: "recv", words: [...PUTS, "peek"] },
  set: { list: "wait", words: PUTS },
  send: { list: "send", words: ["recv", "qreset", "give"] },
  sread: { list: "reader", words: ["swrite", ...NOTIFIES] },
  swrite: { list: "writer", words: ["sread", ...NOTIFIES] },
  mread: { list: "reader", words: ["mwrite", ...NOTIFIES] },
  mwrite: { list: "writer", words: ["mread", ...NOTIFIES] },
  group: { list: "wishes", words: ["gset", "gsync"] },
  note: { list: null, words: NOTIFIES },
};
// How what touches an object is said: of one that puts something in, and of one that takes it.
const TOUCHES = {
  group: ["set bits of", "cleared bits of"],
  note: ["notified", "took the notification of"],
};
const TOUCH = ["put something into", "took something from"];
// The same of a semaphore or a mutex, whose queue may have an item while it is taken.
const SEMAPHORE = { take: "took", give: "gave" };
// What a task got before it waited.
const GOT = /^(select|take|nwait|gwait|gsync)\b.*-> [1-9]/;
const MOST_TASKS = 6;

// What a task waits for with no limit of time at a place; none where it doesn't.
function waitOf(run, at, place) {
  const { name: task, tracks } = run.tasks[at];
  const [phase, word, name, until] = (run.value(tracks.phase, place) || "").split(":");
  if (phase !== "wait" || until !== "max" || !ENDINGS[word]) return null;
  const since = tracks.phase.places[lastUpTo(tracks.phase.places, place)];
  const object = run.objects.find((it) => it.name === name && it.tracks[ENDINGS[word].list]);
  if (!object && word !== "note") return null;
  return { at, task, word, name, since, object };
}

// The words of an instruction, which may be written as in C.
function wordsOf(text) {
  return text.split(/[\s(),;]+/).filter(Boolean);
}

// The set that a queue is a member of at a place; none of what is in none.
function setOf(run, { tracks }, place) {
  return tracks.set ? run.value(tracks.set, place) : null;
}

// The wait that there is at a place: of the task that moved there, or the one that began last.
function waitAt(run, place) {
  const waits = run.tasks.map((_, at) => waitOf(run, at, place)).filter(Boolean);
  const moved = run.move(place)?.task;
  const [last] = [...waits].sort((one, other) => other.since - one.since);
  return waits.find(({ at }) => at === moved) ?? last ?? null;
}

// Whether something was put in (1) or taken (-1) at a place, of what is waited for.
function touchAt(run, { at, word, name, object }, place) {
  const [before, after] = [place - 1, place].map((it) => {
    if (object) return run.values(contentTracks(object), it);
    return (run.value(run.tasks[at].tracks.notes, it) || "").split(",")[name] ?? "";
  });
  if (!object) {
    const isReceived = after.endsWith(":received") && after !== before;
    return isReceived ? 1 : -Number(before.endsWith(":received") && after !== before);
  }
  if (Object.values(before).includes(null) || JSON.stringify(before) === JSON.stringify(after)) {
    return 0;
  }
  if (word === "group") return after.bits & ~before.bits ? 1 : -1;
  const [had, has] = [before, after].map((it) => levelOf(object.kind, it, object.most)[0]);
  return has < had ? -1 : 1;
}

// The last place up to one where something was put in, or taken; none where there is none.
function lastTouch(run, wait, place, sign) {
  const { notes } = run.tasks[wait.at].tracks;
  const tracks = wait.object ? Object.values(contentTracks(wait.object)) : [notes];
  const places = tracks.flatMap((it) => it.places).filter((it) => it > run.first && it <= place);
  places.sort((one, other) => other - one);
  return places.find((it) => touchAt(run, wait, it) === sign) ?? null;
}

// Who made a move, in words.
function moverWords(run, { kind, task }) {
  return kind === STEP ? run.tasks[task].name : ["", "a tick", "an edit", "an interrupt"][kind];
}

// The last select, notification or bits that a task got before it waited; none where there is none.
function lastGot(run, { at, since }) {
  for (let place = since - 1; place > run.first; place--) {
    const { task, does } = run.move(place);
    if (task === at && GOT.test(does)) return { place, text: gotWords(run, place), flag: "got" };
  }
  return null;
}

// What a task got: of a set the one that is in it first.
function gotWords(run, place) {
  const { task, does } = run.move(place);
  const [word, name] = wordsOf(does);
  const set = run.objects.find((it) => word === "select" && it.kind === "set" && it.name === name);
  const [first] = (set && run.value(set.tracks.handles, place - 1)) || [];
  const what = first ? `selected ${first} from ${name}` : "got what it was waiting for";
  return `${run.tasks[task].name} ${what} (${does})`;
}

// The moves that led to a wait, up to a place, in their order: place, words, and one for lanes.
function ledMoves(run, wait, place) {
  const { word, name, task, since } = wait;
  const whose = word === "note" ? `${task}, entry ${name}` : name;
  const touches = [1, -1].map((sign) => {
    const at = lastTouch(run, wait, place, sign);
    if (at === null) return null;
    const move = run.move(at);
    const own = wait.object?.kind === "queue" && SEMAPHORE[wordsOf(move.does || "")[0]];
    const does = own || (TOUCHES[word] ?? TOUCH)[Number(sign < 0)];
    const text = `${moverWords(run, move)} ${does} ${whose} (${move.does || move.name})`;
    return { place: at, text, flag: own || (sign > 0 ? "put" : "took"), task: move.task };
  });
  const text = `${task} ${phaseWords(run.value(run.tasks[wait.at].tracks.phase, place))}`;
  const all = [...touches, lastGot(run, wait), { place: since, text, flag: "waits", task: wait.at }];
  const found = all.filter((it, at) => it && all.findIndex((one) => one?.place === it.place) === at);
  return found.sort((one, other) => one.place - other.place);
}

// Whether an instruction ends a wait, by its text.
function isEnding(run, { word, name, task, object }, place, text) {
  const [first, of, entry] = wordsOf(text);
  if (!ENDINGS[word].words.includes(first)) return false;
  if (NOTIFIES.includes(first)) {
    // (who waits at a buffer is told by entry 0; an entry may be a const's name)
    const own = word === "note" ? name : "0";
    return of === task && (entry === own || !/^\d+$/.test(entry));
  }
  const isIn = (it) => it.name === of && setOf(run, it, place) === name;
  if (word === "set") return run.objects.some(isIn);
  return of === name && !(PUTS.includes(first) && isMember(run, { word, object }, place));
}

// Whether a task waits to receive from a member of a set: what is put into it wakes who selects.
function isMember(run, { word, object }, place) {
  return word === "recv" && setOf(run, object, place) !== null;
}

// The tasks that could end a wait: with the instruction that does it, and whether it is their next.
function enders(run, wait, place) {
  return run.tasks.flatMap(({ name, code, tracks }, at) => {
    const { pc, phase, core } = run.values(tracks, place);
    if (at === wait.at || /^(ended|failed)/.test(phase || "")) return [];
    const own = code.map(([text]) => isEnding(run, wait, place, text));
    const number = own[pc] ? pc : own.indexOf(true);
    if (number < 0) return [];
    const seat = core !== null || isReady(phase) ? seatWords(core, phase) : phaseWords(phase);
    return [{ at, name, seat, isNext: own[pc], text: code[number][0] }];
  });
}

// Who could end a wait, in words; none where no script is known.
function enderWords(run, wait, place, found) {
  if (!run.tasks.some(({ code }) => code.length)) return "";
  const set = isMember(run, wait, place) ? setOf(run, wait.object, place) : null;
  const nobody = "putting an item into it does not wake a task that waits to receive from it. ";
  const before = set === null ? "" : `While ${wait.name} is a member of set ${set}, ${nobody}`;
  const next = found.filter(({ isNext }) => isNext);
  const later = found.filter(({ isNext }) => !isNext);
  const said = [
    next.map(({ name, seat, text }) => `${name} (${seat}), whose next instruction is ${text}`),
    later.map(({ name, seat, text }) => `${name} (${seat}), whose script contains ${text}`),
  ].flat();
  const who = said.length
    ? `These tasks could end the wait, as far as this page can tell: ${said.join("; ")}.`
    : "No other task that has not ended contains an instruction that could end this wait.";
  return before + who;
}

// What led to the wait at a place; none where nobody waits there with no limit of time.
function ledTo(run, place) {
  const wait = waitAt(run, place);
  if (!wait) return null;
  const moves = ledMoves(run, wait, place);
  const found = enders(run, wait, place);
  const tasks = [...moves.map(({ task }) => task), ...found.map(({ at }) => at)];
  const others = [...new Set(tasks)].filter((it) => it !== wait.at && (it ?? null) !== null);
  const object = wait.object ? [`${wait.object.kind} ${wait.object.name}`] : [];
  const lanes = others.slice(0, MOST_TASKS).map((it) => `task ${run.tasks[it].name}`);
  const keys = ["marks", `task ${wait.task}`, ...object, ...lanes];
  return { moves, keys, ends: enderWords(run, wait, place, found) };
}

// Says what led to the place at which the page opens, and marks its moves in the lanes.
class LedPanel {
  constructor(run, place, go) {
    const led = ledTo(run, place);
    this.moves = led?.moves ?? [];
    this.keys = led?.keys ?? [];
    byId("led").hidden = !led;
    if (!led) return;
    byId("led-title").textContent = `What led to place ${place}`;
    byId("led-ends").textContent = led.ends;
    const items = this.moves.map((it) => {
      const item = made("li");
      const link = item.appendChild(made("a", `place ${it.place}`));
      link.href = `#${it.place}`;
      link.addEventListener("click", (event) => {
        event.preventDefault();
        go(it.place);
      });
      item.append(`: ${it.text}`);
      return item;
    });
    byId("led").querySelector("ol").replaceChildren(...items);
  }

  // What lanes mark, where nothing else is marked there.
  flags(others) {
    const taken = new Set(others.map(({ place }) => place));
    const free = this.moves.filter(({ place }) => !taken.has(place));
    return free.map(({ place, flag }) => ({ place, text: flag }));
  }
}
