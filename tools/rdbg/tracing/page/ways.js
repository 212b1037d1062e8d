// The commands that lead to a place.

const LINES_SHOWN = 200;

// The lines that lead from boot to a place: those of the run up to the first behind which the moves
// up to there stay as they are, and then `back` by as many as it made too many.
function linesTo(way, place) {
  if (place === 0) return [];
  let low = 0;
  let high = way.lines.length;
  while (low < high) {
    const middle = (low + high) >> 1;
    if (way.lines[middle][2] < place) low = middle + 1;
    else high = middle;
  }
  if (low === way.lines.length) return null;
  const lines = way.lines.slice(0, low + 1).map(([text]) => text);
  const over = way.lines[low][1] - place;
  return over > 0 ? [...lines, `back ${over}`] : lines;
}

// Where to type what, and what else there is to say of it.
function wayTo(way, place) {
  if (way.server) return wayAtPort(way, place);
  const where = way.program ? `${way.prompt} (or ${way.program})` : way.prompt;
  const lines = linesTo(way, place);
  const note = place === 0 ? "This is boot: there is nothing to type." : behindEnd(way, place);
  return { where, lines, note };
}

// What leads there from the end of the run.
function behindEnd({ lines, base }, place) {
  const done = lines.length ? lines[lines.length - 1][1] : 0;
  if (place === done) return "This is the end of the run.";
  if (place < base) {
    return `You cannot go back to here from the end of the run: a trim dropped the records before place ${base}. These commands stop before that trim.`;
  }
  return `From the end of the run, at ${done}: back ${done - place} (or, in sh, goto ${place}).`;
}

function wayAtPort(way, place) {
  const back = way.done - place;
  const there = back
    ? `goto ${place} gets here as long as the server still has the moves that it had when this page was made.`
    : "The server was at this place when this page was made.";
  const lines = way.known ? linesTo(way, place) : [`goto ${place}`];
  const where = way.known ? way.prompt : way.server;
  const note = way.known ? `At the server (${way.server}): ${there}` : there;
  return { where, lines, note };
}

// Lines as they are shown: the last of many.
function shownLines(lines) {
  if (lines.length <= LINES_SHOWN) return lines.join("\n");
  const left = lines.length - LINES_SHOWN;
  return [`(${left} earlier lines not shown; Copy copies all)`, ...lines.slice(left)].join("\n");
}

// Shows the commands that lead to the current place.
class WayPanel {
  constructor(run, way) {
    this.run = run;
    this.way = way;
    this.lines = [];
    byId("copy").addEventListener("click", () => this.copy());
  }

  show(place) {
    const { where, lines, note } = wayTo(this.way, place);
    this.lines = lines;
    byId("way-where").textContent = where;
    const text = shownLines(lines);
    const area = byId("way-lines");
    if (area.value !== text) area.value = text;
    area.rows = Math.max(2, Math.min(8, lines.length));
    byId("way-note").textContent = note;
    byId("copied").textContent = "";
  }

  async copy() {
    const text = this.lines.map((line) => `${line}\n`).join("");
    try {
      await navigator.clipboard.writeText(text);
    } catch (error) {
      const area = byId("way-lines");
      const shown = area.value;
      area.value = text;
      area.select();
      document.execCommand("copy");
      area.value = shown;
    }
    byId("copied").textContent = `${counted(this.lines.length, "line")} copied`;
  }
}
