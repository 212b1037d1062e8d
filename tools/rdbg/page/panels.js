// The panels beside and below the lanes: the state, the moves around the place, and a script.

class StatePanel {
  constructor(run) {
    this.run = run;
    this.cores = new Table(byId("cores"), ["core", "task", "pc", "next instruction"]);
    const task = ["task", "where", "phase", "pc", "next instruction", "holds"];
    this.tasks = new Table(byId("tasks"), task);
    this.objects = new Table(byId("objects"), ["object", "level", "contents", "waiting tasks, in order"]);
    this.answers = byId("replies");
    this.answers.addEventListener("toggle", () => this.showAnswers());
  }

  show(place) {
    this.place = place;
    const { run } = this;
    const before = Math.max(run.first, place - 1);
    const { tick, turn, ready } = run.values(run.cores, place);
    byId("state-title").textContent = `State at place ${place}: tick ${tick}, turn ${turn}`;
    byId("ready").textContent = `Ready, in order: ${spaced(ready)}`;
    this.cores.show(coreRows(run, place), coreRows(run, before));
    this.tasks.show(taskRows(run, place), taskRows(run, before));
    this.objects.show(objectRows(run, place), objectRows(run, before));
    byId("objects").hidden = !run.objects.length;
    this.showAnswers();
  }

  showAnswers() {
    if (!this.answers.open) return;
    this.answers.querySelector("pre").textContent = repliesAt(this.run, this.place).join("\n");
  }
}

function coreRows(run, place) {
  return run.value(run.cores.running, place).map((name, core) => {
    if (!name) return [String(core), NOBODY, "", "idle"];
    const task = run.taskByName.get(name);
    if (task === undefined) return [String(core), name, "", ""];
    const pc = run.value(run.tasks[task].tracks.pc, place);
    return [String(core), name, orNobody(pc), nextWords(run, task, pc)];
  });
}

function nextWords(run, task, pc) {
  const found = run.instruction(task, pc);
  return found ? found[0] : "";
}

function taskRows(run, place) {
  return run.tasks.map((task, at) => {
    const it = run.values(task.tracks, place);
    const name = task.priority === null ? task.name : `${task.name} (${task.priority})`;
    if (it.pc === null) return [name, "unknown", "", "", "", ""];
    const data = it.data ? [`data ${bytesWords(it.data)}`] : [];
    const holds = [...registerWords(it.registers), ...data, ...noteWords(it.notes)].join(", ");
    const seat = seatWords(it.core, it.phase);
    const next = it.phase === "ended" ? "" : nextWords(run, at, it.pc);
    return [name, seat, phaseWords(it.phase), String(it.pc), next, holds || NOBODY];
  });
}

function objectRows(run, place) {
  return run.objects.map((object) => {
    const it = run.values(object.tracks, place);
    const name = `${object.kind} ${object.name}`;
    if (Object.values(it).some((value) => value === null) && it[firstTrack(object)] === null) {
      return [name, "unknown", "", ""];
    }
    const lists = WAITING[object.kind];
    const waiting = lists.map(([list, words]) => [words, waitingNames(list, it[list])]);
    const texts = waiting.filter(([, names]) => names.length);
    const whole = texts.map(([words, names]) => `${words}: ${names.join(", ")}`).join("; ");
    const [, level] = levelOf(object.kind, it, object.most);
    return [name, level, contentWords(object.kind, it), whole || NOBODY];
  });
}

function firstTrack({ tracks }) {
  return Object.keys(tracks)[0];
}

// The moves around a place, each as a row; a click on one goes there.
class MovesPanel {
  constructor(run, go) {
    this.run = run;
    const heads = ["place", "tick", "core", "task", "pc", "instruction", "effects"];
    this.table = new Table(byId("moves"), heads);
    this.table.body.addEventListener("click", ({ target }) => {
      const row = target.closest("tr");
      if (row && row.dataset.place) go(Number(row.dataset.place));
    });
  }

  show(place) {
    const { first, last } = this.run;
    const around = MovesPanel.AROUND;
    const begin = Math.max(first + 1, Math.min(place - around, last - 2 * around));
    const end = Math.min(last, begin + 2 * around);
    const rows = [];
    for (let at = begin; at <= end; at++) rows.push(moveCells(this.run, this.run.move(at)));
    this.table.show(rows);
    this.table.rows.forEach(({ row }, at) => {
      row.dataset.place = String(begin + at);
      if (begin + at === place) row.setAttribute("aria-current", "true");
      else row.removeAttribute("aria-current");
    });
  }
}
MovesPanel.AROUND = 4;

// The lines of a script, each with the numbers of its first instruction and of the one behind it.
function scriptLines(code) {
  return code.flatMap(([text, line, index, count, beside = "", above = []], at) => {
    return index ? [] : [{ begin: at, end: at + count, line, text, beside, above }];
  });
}

// The rows of a line: its comments above it, and itself with the one beside it; it is marked where
// its next instruction is one of it, whose text is given.
function scriptRows({ begin, end, line, text, beside, above }, next) {
  const numbers = end > begin + 1 ? `${begin}-${end - 1}` : String(begin);
  const own = [next === null ? "" : "->", numbers, String(line), next || text, beside];
  return [...above.map((it) => ["", "", "", "", it]), own];
}

// (a text in lines has comments beside its instructions, a C source the C)
const SCRIPT_HEADS = ["next", "pc", "line", "instruction", "C or comment"];

// A script around its next instruction: of the task that moved last, or of one that is chosen.
class ScriptPanel {
  constructor(run, again) {
    this.run = run;
    this.table = new Table(byId("script"), SCRIPT_HEADS);
    this.choice = byId("script-of");
    this.choice.appendChild(made("option", "task of the last move")).value = "";
    run.tasks.forEach(({ name }, at) => {
      this.choice.appendChild(made("option", name)).value = String(at);
    });
    this.choice.addEventListener("change", again);
    this.moved = 0;
  }

  show(place) {
    const move = this.run.move(place);
    if (move && move.task !== null) this.moved = move.task;
    this.chosen = this.choice.value === "" ? this.moved : Number(this.choice.value);
    const task = this.run.tasks[this.chosen];
    if (!task) return;
    const pc = this.run.value(task.tracks.pc, place);
    const lines = scriptLines(task.code);
    const next = lines.findIndex(({ begin, end }) => begin <= pc && pc < end);
    const first = Math.max(0, Math.min(next - 5, lines.length - 11));
    const rows = lines.slice(first, first + 11).flatMap((it, at) => {
      return scriptRows(it, first + at === next ? task.code[pc][0] : null);
    });
    this.table.show(rows.length ? rows : [["", orNobody(pc), "", "the model is not known", ""]]);
    this.choice.options[0].textContent = `task of the last move (${this.run.tasks[this.moved].name})`;
  }
}
