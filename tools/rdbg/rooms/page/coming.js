// Joining a room under a name, and the connection between the page and the room.

const AGAIN_AFTER = 1000;
const MOST_PATIENCE = 30000;
// A name that was kept is tried so often, each time after so long, before another one is asked for.
const MOST_REFUSALS = 10;
const BETWEEN = 250;
// What is told of moves.
const MOVES = ["run", "more", "now", "trims"];

// The name by which this page was here before it was loaded anew, or by which somebody was in this
// browser before; none where there is none, or where the browser keeps nothing.
function keptName() {
  try {
    return sessionStorage.getItem("name") || localStorage.getItem("name");
  } catch (error) {
    return null;
  }
}

function keepName(name) {
  try {
    sessionStorage.setItem("name", name);
    localStorage.setItem("name", name);
  } catch (error) {
    // (then the page asks for a name once it is loaded anew)
  }
}

// The dialog that asks for a name.
class Coming {
  constructor(dialog, come) {
    this.dialog = dialog;
    this.input = dialog.querySelector("input");
    this.isAsking = false;
    dialog.querySelector("form").addEventListener("submit", (event) => {
      event.preventDefault();
      if (!this.isWaiting) come(this.input.value.trim());
      this.isWaiting = true;
    });
    // (Escape closes it, but nobody is here without a name)
    dialog.addEventListener("close", () => this.isAsking && dialog.showModal());
  }

  // Asks for a name, and shows why the last one was refused, if it was.
  ask(why) {
    this.dialog.querySelector(".why").textContent = why;
    this.isAsking = true;
    this.isWaiting = false;
    if (!this.dialog.open) this.dialog.showModal();
    this.input.select();
  }

  end() {
    this.isAsking = false;
    this.dialog.close();
  }
}

// The connection: events of the room, and lines to it.
class Line {
  constructor(way, hear) {
    this.way = way;
    this.hear = hear;
    this.name = keptName();
    this.refusals = 0;
    this.patience = AGAIN_AFTER;
  }

  // Comes by the name that was kept; false where there is none.
  begin() {
    if (this.name) this.open();
    return Boolean(this.name);
  }

  // Comes by a name that was typed.
  come(name) {
    this.name = name;
    this.refusals = MOST_REFUSALS;
    this.open();
  }

  open() {
    this.events = new EventSource(`${this.way}events?name=${encodeURIComponent(this.name)}`);
    for (const kind of ["you", "past", "who", "notice", "refused", "anew", "end", ...MOVES]) {
      this.events.addEventListener(kind, ({ data }) => this.take(kind, JSON.parse(data)));
    }
    this.events.addEventListener("error", () => this.fail());
  }

  take(kind, values) {
    if (kind === "you") this.beThere(values);
    if (kind === "who") keepName((this.name = values.name));
    if (kind === "end" || kind === "refused" || kind === "anew") this.close();
    if (kind === "refused" && this.refusals < MOST_REFUSALS) this.comeAgain();
    else this.hear(kind, values);
  }

  beThere(key) {
    this.key = key;
    this.refusals = 0;
    this.patience = AGAIN_AFTER;
  }

  // The name that was kept may be that of this page before it was loaded anew, which goes in a
  // moment.
  comeAgain() {
    this.refusals += 1;
    setTimeout(() => this.open(), BETWEEN);
  }

  close() {
    this.events.close();
    this.key = null;
  }

  // The connection has gone, or can't be had: it is tried again, later and later.
  fail() {
    this.close();
    this.hear("lost", null);
    setTimeout(() => this.open(), this.patience);
    this.patience = Math.min(2 * this.patience, MOST_PATIENCE);
  }

  // What is answered to something that is said: a reply, or why there is none.
  async say(what, text) {
    const told = toldAs({ page: this.key ?? "", [what]: text });
    try {
      const answer = await fetch(this.way + what, told);
      return answer.ok ? await answer.json() : { refused: (await answer.text()).trim() };
    } catch (error) {
      return { refused: "the room cannot be reached" };
    }
  }
}
