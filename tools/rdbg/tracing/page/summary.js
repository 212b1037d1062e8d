// Tables for a part of the run: waiting times of tasks, fill levels of objects, load of cores.

function lengthWords({ ticks, moves }) {
  return `${counted(ticks, "tick")}, ${counted(moves, "move")}`;
}

// What part of a whole something is.
function shareWords(part, whole) {
  return whole ? ` (${Math.round((100 * part) / whole)}%)` : "";
}

// The rows of each table, each a list of texts and of places to go to.
function waitRows(run, first, last) {
  return run.tasks.flatMap(({ name }, at) => {
    return taskTotals(run, at, first, last).map((it) => {
      const lasts = it.lasts && it.name.startsWith("waits") ? ", to the end" : "";
      const { longest } = it;
      return [name, it.name + lasts, it.times, lengthWords(longest), longest, lengthWords(it)];
    });
  });
}

function levelRows(run, first, last) {
  return run.objects.map((object) => {
    const full = fullest(run, object, first, last);
    const { waits, most, from } = waitsAt(run, object, first, last);
    const waiting = from === null ? NOBODY : { from };
    const name = `${object.kind} ${object.name}`;
    return [name, full ? full.text : NOBODY, full ?? NOBODY, waits, most, waiting];
  });
}

function loadRows(run, first, last) {
  const cores = run.value(run.cores.running, first);
  const whole = lengthOf(run, first, last);
  return cores.map((_, core) => {
    const { busy, idle, own } = coreTotals(run, core, first, last);
    const share = (it) => lengthWords(it) + shareWords(it.moves, whole.moves);
    const longest = idle.longest ? lengthWords(idle.longest) : NOBODY;
    return [`core ${core}`, share(busy), share(idle), longest, idle.longest ?? NOBODY, own];
  });
}

const SUMMARIES = [
  ["waits", ["task", "activity", "times", "longest", "from", "in total"], waitRows],
  ["levels", ["object", "fullest", "from", "waits", "most at once", "from"], levelRows],
  ["load", ["core", "busy", "idle", "longest idle", "from", "own moves"], loadRows],
];

class SummaryPanel {
  constructor(run, go) {
    this.run = run;
    this.panel = byId("summary");
    this.part = [run.first, run.last];
    this.shown = "";
    for (const [id, heads] of SUMMARIES) {
      const row = byId(id).querySelector("thead").appendChild(made("tr"));
      for (const text of heads) row.appendChild(made("th", text)).scope = "col";
    }
    this.panel.addEventListener("toggle", () => this.panel.open && this.fill());
    this.panel.addEventListener("click", (event) => {
      if (!event.target.dataset.place) return;
      event.preventDefault();
      go(Number(event.target.dataset.place));
    });
  }

  // Is of the part of the run between two places.
  setPart(first, last) {
    this.part = [first, last];
    if (this.panel.open) this.fill();
  }

  // Counts, where that hasn't been done.
  fill() {
    const [first, last] = this.part;
    const key = this.part.join(" ");
    if (key === this.shown) return;
    this.shown = key;
    const words = lengthWords(lengthOf(this.run, first, last));
    byId("summary-of").textContent = `Places ${first} to ${last}: ${words}.`;
    for (const [id, , rowsOf] of SUMMARIES) {
      const rows = rowsOf(this.run, first, last).map((cells) => this.row(cells));
      byId(id).querySelector("tbody").replaceChildren(...rows);
      byId(id).hidden = !rows.length;
    }
  }

  row(cells) {
    const row = made("tr");
    cells.forEach((it, at) => {
      const cell = row.appendChild(made(at ? "td" : "th", it.from === undefined ? String(it) : ""));
      if (!at) cell.scope = "row";
      if (it.from === undefined) return;
      const link = cell.appendChild(made("a", String(it.from)));
      link.href = `#${it.from}`;
      link.dataset.place = String(it.from);
    });
    return row;
  }
}
