// The page of a room: it shows what everybody does, and its buttons send lines.

// The width of a move at first: new moves are seen, and some before them.
const SCALE = 64;
const NARROW_SCALE = 40;
// The share of its height that the lanes have in a small window.
const PART_SMALL = 0.3;
// The goal in a line that asks for it or goes to it, and in an answer; an answer about a move.
const GOALS = [/^\s*(?:reach|lost|doomed|back until) (.+)$/, /^\s*until (.+) \d+$/];
const MET = /^at \d+ met: (.+)$/;
const LOST_AT = /^lost at (\d+): (.*)$/;

class RoomPage extends Viewer {
  constructor(room, line, values) {
    const run = new LiveRun(values);
    super(run, new LiveTimeline(run, byId("canvas"), byId("lanes"), byId("scrolled")));
    this.room = room;
    this.line = line;
    this.follows = true;
    this.keyboard = new KeyboardControl(byId("keyboard"));
    this.steps = new StepButtons(byId("steps"), room.cores, (text) => room.tell(text));
    this.inTurn = new StepsInTurn(() => room.tell(`step ${coreInTurn(run)}`));
    this.shareHeight();
    addEventListener("resize", () => this.shareHeight());
    this.timeline.zoomTo(this.timeline.width < 600 ? NARROW_SCALE : SCALE);
    this.begin();
    this.go(run.done);
    this.fill();
  }

  // In a small window the lanes leave space for the state.
  shareHeight() {
    const { timeline } = this;
    timeline.part = matchMedia(SMALL).matches ? PART_SMALL : PART;
    timeline.height = 0;
    timeline.layOut();
  }

  get moreKeys() {
    return [
      ["all of the above", "change only what this page shows, not the target"],
      [".", "go to where the target is, and follow it"],
      ["l, c", "type a command; type a message"],
      ["all of the following", "move the target or the wheel, only while Keyboard control is on"],
      ["s, k", "step the core whose turn it is; let a tick pass"],
      ["0 to 9", "step the core with this number"],
      ["b, r, f", "go back, redo, or go forward by the number of moves in the field"],
      ["u, U", "run until the goal in the field holds; go back until it holds. If the field is empty, go to it"],
      ["h", "take the wheel, give it back, or ask for it"],
    ];
  }

  get moreSigns() {
    return [
      ["a dashed line, now", "where the target is"],
      ["pale, right of it", "undone moves, until another move replaces them"],
    ];
  }

  keys() {
    const press = (id) => () => byId(id).click();
    const steps = Array.from({ length: 10 }, (_, core) => [core, () => this.step(core)]);
    const moving = {
      ...Object.fromEntries(steps),
      s: () => this.inTurn.ask(),
      k: press("tick"),
      b: press("do-back"),
      r: press("do-redo"),
      f: press("do-forward"),
      u: press("do-until"),
      U: press("back-until"),
      h: () => ["take", "give", "wish"].map(byId).find((it) => !it.hidden).click(),
    };
    return {
      ...super.keys(),
      ...this.keyboard.guard(moving),
      ".": () => this.goNow(),
      l: () => unfolded("line").select(),
      c: () => unfolded("words").select(),
    };
  }

  // Steps a core, if there is one of this number.
  step(core) {
    if (core < this.room.cores) this.room.tell(`step ${core}`);
  }

  listenToButtons() {
    super.listenToButtons();
    byId("now").addEventListener("click", () => this.goNow());
    this.script.table.body.addEventListener("click", ({ target }) => {
      const row = target.closest("tr");
      if (row) this.breakAt(row);
    });
  }

  // Returns the task and the instruction of a row of the script; empty if the row has none.
  placeOf(row) {
    const [number] = row.cells[1].textContent.split("-");
    return number && { task: this.run.tasks[this.script.chosen].name, number };
  }

  // Watches an instruction of the script, or drops the watch.
  breakAt(row) {
    const at = this.placeOf(row);
    if (!at) return;
    const watch = this.room.watches.numberOf(breakWords(at));
    const { task, number } = at;
    this.room.tell(watch === undefined ? `break ${task} ${number}` : `unwatch ${watch}`);
  }

  showBreaks() {
    for (const { row } of this.script.table.rows) {
      const at = !row.hidden && this.placeOf(row);
      const isWatched = Boolean(at) && this.room.watches.numberOf(breakWords(at)) !== undefined;
      row.classList.toggle("watched", isWatched);
    }
  }

  goNow() {
    this.go(this.run.done);
  }

  // Goes to a place, now or once its move has come.
  go(place) {
    this.wanted = Math.min(place, Math.max(this.run.last, this.run.known[1]));
    super.go(place);
    this.follows = this.place === this.run.done;
  }

  // Takes moves that have come. (If others replace the move that lost a goal, its mark goes.)
  take(kind, values) {
    const { run, timeline } = this;
    const isOther = kind === "run" || (kind === "more" && values.cut < timeline.lost);
    if (timeline.lost !== null && isOther) this.setLost(null, "");
    const behind = kind === "more" ? Math.min(values.cut, run.last) : run.last;
    if (kind === "run") run.take(values);
    if (kind === "more") run.more(values);
    if (kind === "now") run.setNow(values);
    if (kind === "trims") run.setTrims(values);
    if (kind === "run") timeline.take();
    if (kind === "more") timeline.renew(behind);
    if (kind === "trims") timeline.renew(run.first - 1);
    if (run.hasDone) this.showAll(kind !== "now");
    else this.line.say("run", "");
    this.inTurn.hear();
    this.fill();
  }

  // Shows everything that is known by now.
  showAll(hasChanged) {
    const { run, timeline, search, follows } = this;
    if (hasChanged) search.renew();
    if (search.words) timeline.found = search.places;
    timeline.keepInside();
    this.say();
    this.go(follows ? run.done : this.wanted);
  }

  // Asks for moves that are not here yet, some at a time. New moves take precedence.
  async fill() {
    this.isWanted = true;
    if (this.isFilling) return;
    this.isFilling = true;
    while (this.isWanted) {
      this.isWanted = false;
      if (await this.fillSome()) this.isWanted = true;
    }
    this.isFilling = false;
  }

  // Asks for moves that were taken back, then for earlier ones. Returns whether some have come.
  async fillSome() {
    const { run, timeline } = this;
    const [first, last] = run.known;
    const { changes } = run;
    if (run.last < last) {
      const found = await this.line.say("behind", String(run.last));
      if (changes !== run.changes || found.cut !== run.last) return found.cut !== undefined;
      run.more(found);
      timeline.renew(found.cut);
    } else if (run.first > first) {
      const found = await this.line.say("before", String(run.first));
      const end = run.first;
      if (changes !== run.changes || found.last !== end) return found.last !== undefined;
      run.prepend(found);
      timeline.prepend(end);
    } else {
      return false;
    }
    if (run.hasDone) this.showAll(true);
    return true;
  }

  say() {
    super.say();
    const { done, undone, missing, lost } = this.run;
    const texts = [`the target is at ${done}`];
    if (undone) texts.push(`${counted(undone, "move")} undone`);
    const how = this.room.isHere ? "still to come" : "missing";
    if (missing) texts.push(`${counted(missing, "earlier move")} ${how}`);
    if (lost) texts.push(lost);
    byId("about").textContent = texts.join("; ");
  }

  show() {
    super.show();
    this.steps.show(this.run);
    this.showBreaks();
    byId("now").hidden = this.place === this.run.done;
    byId("now").textContent = `now: ${this.run.done}`;
  }

  readout(place) {
    const { done } = this.run;
    const where = place > done ? ", undone" : "";
    const target = place === done ? "" : ` (the target is at ${done})`;
    return `${super.readout(place)}${where}${target}`;
  }
}

// The whole page, also before the first move has come.
class RoomOnPage {
  constructor(way, values) {
    Object.assign(this, values);
    document.title = `${this.file} (room)`;
    byId("title").textContent = document.title;
    this.talk = new Talk(byId("talk"), byId("unread"));
    this.people = new People(byId("people"), byId("wheel"), byId("whom"));
    this.watches = new Watches(byId("watches"), (text) => this.tell(text));
    this.line = new Line(way, (kind, it) => this.hear(kind, it));
    this.coming = new Coming(byId("come"), (name) => this.line.come(name));
    this.isHere = false;
    this.moves = null;
    this.listen();
    if (!this.line.begin()) this.coming.ask("");
  }

  hear(kind, values) {
    if (MOVES.includes(kind)) this.takeMoves(kind, values);
    if (kind === "who") this.takeWho(values);
    if (kind === "past") for (const [when, text] of values) this.takeNotice(text, when);
    if (kind === "notice") this.takeNotice(values.replace(/^# /, ""));
    if (kind === "anew") location.reload();
    if (kind === "you") this.coming.end();
    if (kind === "refused") this.coming.ask(values);
    if (kind === "end") this.moves = values;
    const texts = {
      you: "",
      end: "The room has ended.",
      lost: "The room does not answer. Trying again ..",
      refused: `The room refused: ${values}`,
    };
    if (kind in texts) this.setConnection(texts[kind]);
  }

  setConnection(text) {
    const shown = byId("connection");
    if (text && text !== shown.textContent) this.talk.say("refused", text);
    shown.textContent = text;
    shown.hidden = !text;
    document.documentElement.dataset.connected = text ? "no" : "yes";
    this.setHere(!text);
  }

  // Sets whether the room answers. If not, elements that send lines are disabled, and the moves can
  // be saved only if the room has sent them at its end.
  setHere(isHere) {
    this.isHere = isHere;
    for (const it of document.querySelectorAll(".says")) it.disabled = !isHere;
    byId("save").disabled = !isHere && this.moves === null;
    this.page?.say();
  }

  takeMoves(kind, values) {
    if (!this.page) this.page = new RoomPage(this, this.line, values);
    else this.page.take(kind, values);
    if (this.watches.areThere) this.lookAtWatches();
  }

  takeWho({ name, people, watches }) {
    this.name = name;
    if (JSON.stringify(watches) !== JSON.stringify(this.watches.conditions)) {
      this.watches.take(watches);
      this.page?.again();
      if (this.watches.areThere) this.lookAtWatches();
    }
    if (document.activeElement !== byId("name")) byId("name").value = name;
    this.people.show(name, people);
  }

  // Takes a notice, of now or of before this page came.
  takeNotice(text, when) {
    this.talk.say(kindOf(text, this.name), text, when);
  }

  // Sends a line, and shows the reply, unless a notice to everybody says the same. Returns whether
  // rdbg executed it.
  async tell(line) {
    if (!this.isHere) return false;
    if (/^\s*save!?(\s|$)/.test(line)) {
      await this.save();
      return false;
    }
    const changes = this.page?.run.changes;
    const { reply, refused, ended } = await this.line.say("line", line);
    const no = refused ?? ended ?? (/^no:? /.test(reply) ? reply : null);
    if (no !== null) {
      this.talk.say("refused", `${line} -> ${no}`);
      return false;
    }
    if (reply && !DONE.test(reply)) this.talk.say("reply", `${line} -> ${reply}`);
    const [goal] = [MET.exec(reply), ...GOALS.map((it) => it.exec(line))]
      .filter(Boolean)
      .map((it) => it[1]);
    if (goal) byId("goal").value = goal.trim();
    // (if the moves have changed meanwhile, the answer is about those before)
    if (/^\s*lost\b/.test(line) && changes === this.page?.run.changes) this.mark(reply);
    return true;
  }

  // Offers the moves so far as a file of commands.
  async save() {
    const told = { reply: this.moves };
    const { reply, refused, ended } = this.isHere ? await this.line.say("save", "") : told;
    if (reply === undefined) return this.talk.say("refused", `save -> ${refused ?? ended}`);
    saveText(`${this.file.replace(/\.[^.]*$/, "")}.commands`, reply);
  }

  // Marks the move that an answer is about.
  mark(reply) {
    const [, place, words] = LOST_AT.exec(reply) ?? [];
    const isOfMove = Number(place) > 0;
    this.page?.setLost(isOfMove ? Number(place) : null, isOfMove ? words : "");
  }

  // Asks a question about the goal in the field, or about the one before.
  ask(word) {
    this.tell(`${word} ${byId("goal").value.trim()}`.trim());
    if (!byId("goal").value.trim()) unfolded("goal").focus();
  }

  // Sends a line with the goal in the field, if there is one.
  withGoal(word, behind = "") {
    const goal = byId("goal").value.trim();
    if (goal) this.tell(`${word} ${goal} ${behind}`.trim());
    else unfolded("goal").focus();
  }

  // Asks which watches hold now, and once more if something has come meanwhile.
  async lookAtWatches() {
    this.isWanted = true;
    if (this.isLooking) return;
    this.isLooking = true;
    while (this.isWanted) {
      this.isWanted = false;
      const { reply } = await this.line.say("watches", "");
      if (reply) this.watches.takeStates(reply);
    }
    this.isLooking = false;
  }

  listen() {
    const tell = (text) => this.tell(text);
    const value = (id) => byId(id).value.trim();
    const acts = {
      tick: () => "tick",
      "do-back": () => `back ${value("count")}`,
      "do-redo": () => `redo ${value("count")}`,
      "do-forward": () => `forward ${value("count")}`,
      "do-trim": () => `trim ${value("keep")}`,
      reload: () => "# reload",
      take: () => "wheel take",
      give: () => "wheel give",
      wish: () => "# wheel",
    };
    for (const id in acts) byId(id).addEventListener("click", () => tell(acts[id]()));
    const others = { save: () => this.save(), "save-talk": () => this.talk.save(this.file) };
    for (const word of ["reach", "lost", "doomed"]) others[`ask-${word}`] = () => this.ask(word);
    others.becomes = () => this.withGoal("until!", value("most"));
    others["back-until"] = () => this.withGoal("back until");
    others.watch = () => this.withGoal("watch");
    for (const id in others) byId(id).addEventListener("click", others[id]);
    const forms = {
      until: () => this.withGoal("until", value("most")),
      rename: () => this.rename(value("name")),
      say: () => this.sayWords(),
    };
    for (const id in forms) {
      byId(id).addEventListener("submit", (event) => {
        event.preventDefault();
        forms[id]();
      });
    }
    new LineForm(byId("edit"), this, EDITS, tell);
    byId("interrupt").hidden = !this.hasInterrupts;
    if (this.hasInterrupts) new LineForm(byId("interrupt"), this, INTERRUPTS, tell);
    new TypedLine(byId("typed"), tell);
  }

  // Says the words in the field, to everybody or to one.
  sayWords() {
    const field = byId("words");
    const words = field.value.trim();
    const whom = byId("whom").value;
    if (words) this.tell(whom ? `# to ${whom}: ${words}` : `# say ${words}`);
    field.value = "";
  }

  async rename(name) {
    const { refused, ended } = await this.line.say("name", name);
    if (refused ?? ended) this.talk.say("refused", `rename ${name} -> ${refused ?? ended}`);
  }
}

comeIn((way, values) => new RoomOnPage(way, values));
