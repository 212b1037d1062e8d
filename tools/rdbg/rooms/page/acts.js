// The controls that move or edit the target. Each of them makes a line for rdbg.

// The kinds of edits and interrupts: what stands in the line, and of what sort each word is.
const EDITS = {
  "register of a task": ["poke reg", ["task", "register 0 to 7", "number"]],
  "data of a task": ["poke data", ["task", "bytes in hex, - for none"]],
  "pc of a task": ["poke pc", ["task", "instruction"]],
  "notification value": ["poke note", ["task", "entry", "number"]],
  "bits of a group": ["poke group", ["group", "bits, as a number"]],
  "item of a queue": ["poke item", ["queue", "index, 0 is the front", "bytes in hex"]],
  "byte of a stream": ["poke byte", ["stream", "index, 0 is the front", "value 0 to 255"]],
};
const INTERRUPTS = {
  "send to a queue": ["isr send", ["queue", "bytes in hex"]],
  "notify a task": ["isr notify", ["task", "entry", "number", "action"]],
};
// The buttons of so many cores are as wide as what stands on them, also in a small window.
const FEW_CORES = 4;
const ACTIONS = ["none", "bits", "inc", "set", "setif"];

// Returns the choices for a word of a line, or null if it is typed.
function choicesOf(room, sort) {
  if (sort === "task") return room.tasks;
  if (sort === "action") return ACTIONS;
  const named = room.objects.filter(([kind]) => kind === sort).map(([, name]) => name);
  return ["queue", "group", "stream"].includes(sort) ? named : null;
}

// A choice of lines, with a field for each of its words.
class LineForm {
  constructor(form, room, kinds, tell) {
    this.room = room;
    this.fields = form.querySelector(".fields");
    this.choice = form.querySelector("select");
    const isThere = ([, sorts]) => sorts.every((sort) => choicesOf(room, sort)?.length !== 0);
    this.kinds = Object.entries(kinds).filter(([, kind]) => isThere(kind));
    for (const [text] of this.kinds) this.choice.appendChild(made("option", text));
    this.choice.addEventListener("change", () => this.show());
    form.addEventListener("submit", (event) => {
      event.preventDefault();
      tell(this.line());
    });
    this.show();
  }

  show() {
    const [, [, sorts]] = this.kinds[this.choice.selectedIndex];
    this.fields.replaceChildren(...sorts.map((sort) => this.field(sort)));
  }

  field(sort) {
    const choices = choicesOf(this.room, sort);
    const field = document.createElement(choices ? "select" : "input");
    field.setAttribute("aria-label", sort);
    if (choices) field.append(...choices.map((text) => made("option", text)));
    else Object.assign(field, { placeholder: sort, autocomplete: "off", spellcheck: false });
    return field;
  }

  line() {
    const [, [head]] = this.kinds[this.choice.selectedIndex];
    const words = [...this.fields.children].map(({ value }) => value.trim());
    return [head, ...words].join(" ");
  }
}

// The field for a typed line, with a history.
class TypedLine {
  constructor(form, tell) {
    this.input = form.querySelector("input");
    this.typed = [];
    this.at = 0;
    form.addEventListener("submit", (event) => {
      event.preventDefault();
      const line = this.input.value.trim();
      if (!line) return;
      this.typed = [...this.typed.filter((it) => it !== line), line].slice(-200);
      this.at = this.typed.length;
      this.input.value = "";
      tell(line);
    });
    this.input.addEventListener("keydown", (event) => {
      const way = { ArrowUp: -1, ArrowDown: 1 }[event.key];
      if (!way) return;
      event.preventDefault();
      this.at = Math.max(0, Math.min(this.typed.length, this.at + way));
      this.input.value = this.typed[this.at] ?? "";
    });
  }
}

// A button for each core with its task and the next instruction.
class StepButtons {
  constructor(element, count, tell) {
    element.classList.toggle("many", count > FEW_CORES);
    this.buttons = Array.from({ length: count }, (_, core) => {
      const button = element.appendChild(made("button"));
      button.type = "button";
      button.addEventListener("click", () => tell(`step ${core}`));
      return button;
    });
  }

  show(run) {
    const running = run.value(run.cores.running, run.done);
    running.forEach((name, core) => {
      const task = run.taskByName.get(name);
      const pc = task === undefined ? null : run.value(run.tasks[task].tracks.pc, run.done);
      const does = name ? `${name} ${orNobody(pc)} ${nextWords(run, task, pc)}` : "idle";
      const text = `step ${core}: ${does}`;
      const button = this.buttons[core];
      if (button.textContent !== text) button.textContent = button.title = text;
      button.classList.toggle("idle", !name);
    });
  }
}

// Steps of the core in turn. Which core that is hangs on the moves before: one that is asked for
// early waits until the move of the one before is here, where that one made a move.
class StepsInTurn {
  constructor(step) {
    this.step = step;
    this.last = Promise.resolve();
    this.hear = () => {};
  }

  ask() {
    this.last = this.last.then(async () => {
      const isHeard = new Promise((resolve) => (this.hear = resolve));
      if (await this.step()) await isHeard;
    });
  }
}

// The first busy core from the one whose turn it is.
function coreInTurn(run) {
  const { running, turn } = run.values(run.cores, run.done);
  const order = running.map((_, at) => (turn + at) % running.length);
  return order.find((core) => running[core]) ?? turn % running.length;
}
