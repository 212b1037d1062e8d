// How segments look: by fill, pattern, line and text, so that no colour is needed to tell them.

const COLOURS = 8;
const FONT = 12;
const NARROW = 3;
// Bands stand before the name of who runs, and where that has no room, in its place.
const STRIP = 5;

class Painter {
  constructor(canvas) {
    this.canvas = canvas;
    this.context = canvas.getContext("2d");
    this.takeTheme();
  }

  // Takes the colours of the page as they are now.
  takeTheme() {
    const style = getComputedStyle(document.documentElement);
    const colour = (name) => style.getPropertyValue(`--${name}`).trim();
    this.ink = colour("ink");
    this.faint = colour("faint");
    this.line = colour("line");
    this.paper = colour("paper");
    this.stripe = colour("stripe");
    this.accent = colour("accent");
    this.here = colour("here");
    this.theme = `${this.paper} ${this.ink}`;
    this.level = colour("level");
    this.fills = Array.from({ length: COLOURS }, (_, at) => colour(`task-${at}`));
    this.hatch = this.pattern([[-4, 12, 12, -4], [-4, 4, 4, -4], [4, 12, 12, 4]], this.faint);
    this.cross = this.pattern([[0, 0, 8, 8], [0, 8, 8, 0]], this.ink);
    this.family = style.getPropertyValue("--code");
    this.context.font = this.font();
    this.letter = this.context.measureText("0").width;
  }

  font(weight = "") {
    return `${weight} ${FONT}px ${this.family}`.trim();
  }

  // A tile of eight by eight points with these lines.
  pattern(lines, colour) {
    const tile = document.createElement("canvas");
    tile.width = tile.height = 8;
    const pen = tile.getContext("2d");
    pen.strokeStyle = colour;
    for (const [fromX, fromY, toX, toY] of lines) {
      pen.beginPath();
      pen.moveTo(fromX, fromY);
      pen.lineTo(toX, toY);
      pen.stroke();
    }
    return this.context.createPattern(tile, "repeat");
  }

  // A rectangle that is filled.
  fill(fill, x, y, width, height) {
    this.context.fillStyle = fill;
    this.context.fillRect(x, y, width, height);
  }

  // The outline of a rectangle, within it.
  outline(colour, x, y, width, height, thick = 1) {
    this.context.strokeStyle = colour;
    this.context.lineWidth = thick;
    this.context.strokeRect(x + thick / 2, y + thick / 2, width - thick, height - thick);
  }

  stroke(colour, fromX, fromY, toX, toY, dash = [], thick = 1) {
    const pen = this.context;
    pen.strokeStyle = colour;
    pen.lineWidth = thick;
    pen.setLineDash(dash);
    pen.beginPath();
    pen.moveTo(fromX, fromY);
    pen.lineTo(toX, toY);
    pen.stroke();
    pen.setLineDash([]);
  }

  // A text in so much room; one that is cut says so, one of less than two letters isn't there.
  text(text, x, middle, room, colour = this.ink, weight = "") {
    const most = Math.floor(room / this.letter);
    if (most < 2 || !text) return;
    this.context.font = this.font(weight);
    this.context.fillStyle = colour;
    this.context.textBaseline = "middle";
    const shown = text.length <= most ? text : `${text.slice(0, most - 1)}\u2026`;
    this.context.fillText(shown, x, middle + 1);
  }

  // A text on paper of its own, so that nothing behind it is read with it.
  label(text, x, middle, room, weight = "") {
    const most = Math.floor(room / this.letter);
    if (most < 2 || !text) return;
    const width = Math.min(text.length, most) * this.letter + 4;
    this.fill(this.paper, x - 2, middle - FONT / 2 - 1, width, FONT + 2);
    this.text(text, x, middle, room, this.ink, weight);
  }

  arrow(fromX, fromY, toX, toY) {
    const pen = this.context;
    this.stroke(this.accent, fromX, fromY, toX, toY, [], 1.5);
    const turn = Math.atan2(toY - fromY, toX - fromX);
    pen.fillStyle = this.accent;
    pen.beginPath();
    pen.moveTo(toX, toY);
    for (const side of [-0.4, 0.4]) {
      pen.lineTo(toX - 8 * Math.cos(turn + side), toY - 8 * Math.sin(turn + side));
    }
    pen.fill();
  }

  // A segment of a lane, by what it shows.
  segment(shown, x, y, width, height) {
    if (width < NARROW) return this.narrow(shown, x, y, width, height);
    const middle = y + height / 2;
    const room = width - 6;
    if (shown.style === "runs") {
      this.fill(this.fills[shown.colour % COLOURS], x, y + 1, width, height - 2);
      this.outline(this.ink, x, y + 1, width, height - 2);
      this.runner(shown, x, y, width, height);
    } else if (shown.style === "ready") {
      this.fill(this.hatch, x, y + 2, width, height - 4);
      this.label(shown.text, x + 4, middle, room);
    } else if (shown.style === "waits") {
      this.stroke(this.ink, x, middle, x + width, middle, [2, 3]);
      this.label(shown.text, x + 4, middle, room);
    } else if (shown.style === "ended") {
      this.stroke(this.line, x, middle, x + width, middle);
      this.label(shown.text, x + 4, middle, room);
    } else if (shown.style === "failed") {
      this.fill(this.cross, x, y + 2, width, height - 4);
      this.label(shown.text, x + 4, middle, room, "bold");
    } else if (shown.style === "level") {
      this.levelled(shown, x, y + 3, width, height - 5);
    } else if (shown.style === "bits" || shown.style === "queue") {
      this.outline(this.faint, x, y + 1, width, height - 2);
      this.text(shown.text, x + 4, middle, room);
    }
  }

  // Who runs, as far as there is room, always with the bands that nobody else has.
  runner({ text, sign, colour }, x, y, width, height) {
    if (!sign) return this.text(text, x + 4, y + height / 2, width - 6, this.ink, "bold");
    const left = width - STRIP - 5;
    const shown = nameIn(Math.floor(left / this.letter), text, sign);
    this.bands(colour, x + 1, y + 1, shown ? STRIP : width - 2, height - 2);
    const room = Math.max(left, 2 * this.letter);
    this.text(shown, x + STRIP + 3, y + height / 2, room, this.ink, "bold");
  }

  // The bands of a task.
  bands(task, x, y, width, height) {
    const high = height / BANDS;
    bandsOf(task).forEach((isDark, at) => {
      if (isDark) this.fill(this.ink, x, y + at * high + 0.5, width, high - 1);
    });
  }

  // A segment in which there is room for no more than a stroke: high where the task runs, half as
  // high where it is ready.
  narrow({ style, part, colour, sign }, x, y, width, height) {
    const middle = y + height / 2;
    if (style === "runs") {
      this.fill(this.fills[colour % COLOURS], x, y + 1, width, height - 2);
      if (sign) this.bands(colour, x, y + 1, width, height - 2);
    } else if (style === "ready") this.fill(this.faint, x, y + height / 4, width, height / 2);
    else if (style === "failed") this.fill(this.ink, x, y + 2, width, height - 4);
    else if (style === "waits" || style === "ended") this.fill(this.line, x, middle, width, 1);
    else if (style === "level") this.fill(this.ink, x, y + 3 + (1 - part) * (height - 6), width, 1);
    else if (style !== "idle") this.fill(this.faint, x, y + 1, width, height - 2);
  }

  // A level, from the bottom of its lane up.
  levelled({ part, text }, x, y, width, height) {
    const high = part ? Math.max(2, part * height) : 0;
    this.fill(this.level, x, y + height - high, width, high);
    this.stroke(this.ink, x, y + height - high, x + width, y + height - high);
    if (part) this.stroke(this.ink, x, y + height - high, x, y + height);
    this.label(text, x + 4, y + height / 2, width - 6);
  }
}
