// The printed page: its report, tables and texts, and the state at each marked place in place of the
// lanes.

const PRINTED = [
  ["Cores", ["core", "task", "pc", "next instruction"], coreRows],
  ["Tasks", ["task", "where", "phase", "pc", "next instruction", "holds"], taskRows],
  ["Objects", ["object", "level", "contents", "waiting tasks, in order"], objectRows],
];
const MOVE_HEADS = ["place", "tick", "core", "task", "pc", "instruction", "effects"];
const MOVES_BEFORE = 4;

function printedTable(caption, heads, rows) {
  const table = made("table");
  table.appendChild(made("caption", caption));
  table.appendChild(made("thead"));
  table.appendChild(made("tbody"));
  new Table(table, heads).show(rows);
  return table;
}

// The state at a place, and the moves before it.
function printedPlace(run, place, word) {
  const section = made("section");
  const { tick, ready } = run.values(run.cores, place);
  section.appendChild(made("h2", `Place ${place}${word ? `: ${word}` : ""}, tick ${tick}`));
  const move = run.move(place);
  if (move) section.appendChild(made("p", moveSentence(run, move)));
  section.appendChild(made("p", `Ready, in order: ${spaced(ready)}`));
  for (const [caption, heads, rowsOf] of PRINTED) {
    const rows = rowsOf(run, place);
    if (rows.length) section.appendChild(printedTable(caption, heads, rows));
  }
  const moves = [...movesBehind(run, place - MOVES_BEFORE, place)];
  if (moves.length) {
    const rows = moves.map((it) => moveCells(run, it));
    section.appendChild(printedTable("Moves up to here", MOVE_HEADS, rows));
  }
  return section;
}

class Printed {
  constructor(page) {
    this.page = page;
    this.opened = [];
    window.addEventListener("beforeprint", () => this.begin());
    window.addEventListener("afterprint", () => this.end());
  }

  // The places that are printed: those that are marked, else the one that is shown.
  places() {
    const { bookmarks, report, place } = this.page;
    const marked = report.lost === null ? [] : [{ place: report.lost, word: "no return" }];
    const all = [...marked, ...bookmarks.list].sort((one, other) => one.place - other.place);
    return all.length ? all : [{ place, word: "" }];
  }

  begin() {
    const { run } = this.page;
    const parts = this.places().map((it) => printedPlace(run, it.place, it.word));
    byId("printed").replaceChildren(...parts);
    this.opened = [...document.querySelectorAll("#report details, #summary")].filter((it) => !it.open);
    for (const it of this.opened) it.open = true;
    this.page.report.fill();
    this.page.summary.fill();
  }

  end() {
    for (const it of this.opened) it.open = false;
    byId("printed").replaceChildren();
  }
}
