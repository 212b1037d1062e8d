// The lanes over time: which part of them is visible, and how it is drawn. Only visible elements are
// drawn, and only one of those that share a pixel.

const GUTTER = 128;
const RULER = 36;
// Of a core's lane, who is on it stands above, its moves below.
const CORE_PART = 19;
// At first the lanes have so much of the window's height at the most, and so much beside others.
const PART = 0.5;
const PART_BESIDE = 0.31;
const LEAST_SCALE = 0.005;
const MOST_SCALE = 240;
// From these scales on there is room for moves, and for arrows.
const MOVE_SCALE = 3;
const ARROW_SCALE = 5;
// All of so many moves are shown at first.
const FEW = 60;
// What stands above the move that lost a goal.
const LOST = "lost";

class Timeline {
  constructor(run, canvas, frame, scrolled) {
    this.run = run;
    this.frame = frame;
    this.canvas = canvas;
    this.painter = new Painter(canvas);
    // What is behind the place that is shown: it is drawn anew only where another part is seen.
    this.ground = document.createElement("canvas");
    this.groundOf = "";
    this.scrolled = scrolled;
    this.found = [];
    // The place of the move that lost a goal; none where none is known.
    this.lost = null;
    this.place = run.first;
    this.left = run.first - 0.5;
    this.scale = 0;
    this.height = 0;
    this.arrangement = new Arrangement();
    // The places between which somebody looks.
    this.range = null;
    // Lanes of another run, which show the same places.
    this.beside = null;
    this.part = PART;
    this.take();
    this.fit();
  }

  // Takes the whole run.
  take() {
    this.allLanes = lanesOf(this.run);
    this.hand = this.allLanes.find(({ kind }) => kind === "hand");
    this.mark(marksOf(this.run, this.run.first - 1, this.run.last));
    this.layOut();
  }

  // Takes what there is of the run behind a place anew.
  renew(place) {
    for (const { segments } of this.allLanes) if (segments) segments.renew(place);
    const { ticks, wakings, wakingPlaces, hand, run } = this;
    const count = countUpTo(wakingPlaces, place);
    const kept = {
      ticks: ticks.slice(0, countUpTo(ticks, place)),
      wakings: wakings.slice(0, count),
      wakingPlaces: wakingPlaces.slice(0, count),
      hands: hand.marks.filter((it) => it.place <= place),
    };
    this.mark(kept, marksOf(run, place, run.last));
    this.layOut();
  }

  // Takes what there is of the run before a place, at which it began.
  prepend(place) {
    for (const { segments } of this.allLanes) if (segments) segments.prepend(place);
    const { ticks, wakings, wakingPlaces, hand, run } = this;
    // (what was done by hand at that place was left out, as the move to it wasn't known)
    const hands = hand.marks.filter((it) => it.place > place);
    this.mark(marksOf(run, run.first - 1, place), { ticks, wakings, wakingPlaces, hands });
    this.layOut();
  }

  // Takes these ticks, arrows and marks of what was done by hand, one part behind the other.
  mark(...parts) {
    const all = (name) => [].concat(...parts.map((it) => it[name]));
    this.ticks = all("ticks");
    this.wakings = all("wakings");
    this.wakingPlaces = all("wakingPlaces");
    this.hand.marks = all("hands");
  }

  // Has the lanes of another run show the same places as these, to the end of the longer one.
  setBeside(other) {
    this.beside = other;
    other.arrangement = this.arrangement;
    this.end = other.end = Math.max(this.run.last, other.run.last);
    for (const it of [this, other]) {
      it.part = PART_BESIDE;
      it.height = 0;
    }
    this.layOut();
  }

  // Draws what these lanes show at the same places as others.
  drawBeside({ place, left, scale, range }) {
    Object.assign(this, { place, left, scale, range });
    this.draw();
  }

  // Marks these places, in order, each with a word.
  setFlags(flags) {
    this.allLanes.find(({ kind }) => kind === "flags").marks = flags;
    this.layOut();
  }

  // Lays the lanes out, to be drawn anew.
  layOut() {
    if (this.beside) this.beside.layOut();
    this.groundOf = "";
    this.lanes = laidOut(this.allLanes, this.arrangement);
    const end = this.lanes[this.lanes.length - 1];
    const height = end.top + end.height;
    this.pinned = this.lanes.reduce((sum, it) => sum + (it.isPinned ? it.height : 0), 0);
    if (height === this.height) return;
    this.height = height;
    this.scrolled.style.height = `${height + RULER}px`;
    const most = Math.round(innerHeight * this.part);
    this.frame.style.height = `${Math.min(height + RULER + 2, most)}px`;
    if (this.scale) this.fit();
  }

  // How many places there are to show, with what comes behind the last.
  get count() {
    return this.lastPlace - this.run.first + 1;
  }

  // The last place that is shown: beside a longer run, that one's.
  get lastPlace() {
    return Math.max(this.run.last, this.end ?? this.run.last);
  }

  get span() {
    return (this.width - GUTTER) / this.scale;
  }

  x(place) {
    return GUTTER + (place - this.left) * this.scale;
  }

  placeAt(x) {
    return this.left + (x - GUTTER) / this.scale;
  }

  // Takes the size that there is.
  fit() {
    this.width = this.frame.clientWidth;
    this.seen = Math.min(this.frame.clientHeight, this.height + RULER);
    const points = window.devicePixelRatio || 1;
    this.canvas.width = Math.round(this.width * points);
    this.canvas.height = Math.round(this.seen * points);
    this.canvas.style.width = `${this.width}px`;
    this.canvas.style.height = `${this.seen}px`;
    this.painter.context.setTransform(points, 0, 0, points, 0, 0);
    if (!this.scale || this.scale === this.firstScale) this.zoomAtFirst();
  }

  // Shows all of a few moves, of others as many as are read.
  zoomAtFirst() {
    this.zoomTo(Math.min(110, Math.max(this.count <= FEW ? 0 : 28, this.whole())));
    this.firstScale = this.scale;
  }

  // The scale at which all is seen.
  whole() {
    return (this.width - GUTTER) / (this.count + 1);
  }

  // Shows more or fewer moves, and the place where it was.
  zoomTo(scale) {
    const x = this.scale ? this.x(this.place) : 0;
    const least = Math.min(Math.max(LEAST_SCALE, this.whole()), 28);
    this.scale = Math.min(MOST_SCALE, Math.max(least, scale));
    if (x) this.left = this.place - (x - GUTTER) / this.scale;
    this.keepInside();
  }

  // Shows more or fewer moves, and the place at a point where it was.
  zoomAt(scale, x) {
    const place = this.placeAt(x);
    this.zoomTo(scale);
    this.left = place - (x - GUTTER) / this.scale;
    this.keepInside();
  }

  // Shows what is between two places, in all the room there is.
  zoomInto(first, last) {
    this.zoomTo((this.width - GUTTER) / (last - first + 2));
    this.left = first - 1;
    this.keepInside();
  }

  // The lane at a height; none where there is none.
  laneAt(y) {
    const isAt = (it) => this.y(it) <= y && y < this.y(it) + it.height && this.isInSight(it);
    return y < RULER ? undefined : this.lanes.find(isAt);
  }

  // Whether some of a lane is in sight.
  isInSight(lane) {
    const top = lane.isPinned ? RULER : RULER + this.pinned;
    return this.y(lane) < this.seen && this.y(lane) + lane.height > top;
  }

  keepInside() {
    const most = this.lastPlace + 1.5 - this.span;
    this.left = Math.max(this.run.first - 0.5, Math.min(this.left, most));
  }

  pan(places) {
    this.left += places;
    this.keepInside();
  }

  // Goes to a place, which is seen then, with its move.
  follow(place) {
    this.place = place;
    if (place - 1 < this.left || place + 1 > this.left + this.span) {
      this.left = place - this.span / 2;
      this.keepInside();
    }
  }

  draw() {
    const { left, scale, width, seen, painter } = this;
    const marked = [this.lost, ...this.found].join();
    const part = [left, scale, width, seen, this.frame.scrollTop, painter.theme, marked];
    const key = part.join(" ");
    if (width <= 0 || seen <= 0) return; // (on paper they aren't there)
    if (key !== this.groundOf) {
      this.groundOf = key;
      this.drawAll();
      this.ground.width = this.canvas.width;
      this.ground.height = this.canvas.height;
      this.ground.getContext("2d").drawImage(this.canvas, 0, 0);
      this.describe();
    } else {
      painter.context.drawImage(this.ground, 0, 0, width, seen);
    }
    this.drawHere();
    if (this.beside) this.beside.drawBeside(this);
  }

  drawAll() {
    const { painter } = this;
    painter.fill(painter.paper, 0, 0, this.width, this.seen);
    const lanes = this.lanes.filter((it) => this.isInSight(it));
    const [pinned, others] = [true, false].map((is) => lanes.filter((it) => it.isPinned === is));
    this.drawLanes(others, this.seen);
    if (pinned.length) {
      painter.fill(painter.paper, 0, RULER, this.width, this.pinned);
      this.drawLanes(pinned, RULER + this.pinned);
    }
    this.drawArrows();
    this.drawLost();
    painter.fill(painter.paper, 0, 0, GUTTER - 1, this.seen);
    others.forEach((it) => this.drawLabel(it));
    if (pinned.length) {
      painter.fill(painter.paper, 0, RULER, GUTTER - 1, this.pinned);
      pinned.forEach((it) => this.drawLabel(it));
      const end = RULER + this.pinned - 1;
      painter.stroke(painter.ink, 0, end, this.width, end, [], 2);
    }
    painter.stroke(painter.line, GUTTER - 1, 0, GUTTER - 1, this.seen);
    this.drawRuler();
  }

  // These lanes, with ticks down to a height.
  drawLanes(lanes, bottom) {
    lanes.forEach((it) => this.drawGround(it));
    this.drawTicks(bottom);
    lanes.forEach((it) => this.drawLane(it));
  }

  y(lane) {
    return RULER + lane.top - (lane.isPinned ? 0 : this.frame.scrollTop);
  }

  drawGround(lane) {
    const y = this.y(lane);
    const { painter } = this;
    const end = y + lane.height - 0.5;
    if (lane.kind === "head") painter.fill(painter.stripe, 0, y, this.width, lane.height);
    else painter.stroke(painter.stripe, 0, end, this.width, end);
  }

  drawTicks(bottom) {
    if (this.scale < MOVE_SCALE) return;
    this.eachSeen(this.ticks, (place) => {
      const x = this.x(place);
      this.painter.stroke(this.painter.line, x, RULER, x, bottom, [1, 3]);
    });
  }

  // The column of the move that lost a goal: a word above it, crossed lines, and a line behind it.
  drawLost() {
    const { painter, lost } = this;
    if (lost === null || lost > this.run.last) return;
    const x = this.x(lost);
    const from = Math.max(GUTTER, this.x(lost - 1));
    if (x < GUTTER || from > this.width) return;
    painter.stroke(painter.ink, from, RULER, from, this.seen, [2, 2]);
    painter.stroke(painter.ink, x, RULER, x, this.seen, [], 3);
    const width = (LOST.length + 1) * painter.letter;
    painter.fill(painter.cross, from, RULER, x - from, 15);
    painter.fill(painter.ink, x - width, RULER, width, 15);
    painter.text(LOST, x - width + 3, RULER + 8, width, painter.paper, "bold");
  }

  // The place that is shown, and the move that led to it.
  drawHere() {
    const { painter, place } = this;
    this.drawRange();
    const x = this.x(place);
    const from = Math.max(GUTTER, this.x(place - 1));
    const move = this.run.move(place);
    if (move && x > from) {
      painter.fill(painter.here, from, RULER, x - from, this.seen - RULER);
      const { kind, core } = move;
      const lane = kind === STEP && this.lanes.find((it) => it.core === core);
      const y = lane && this.isInSight(lane) ? this.y(lane) + CORE_PART : 0;
      if (y > RULER && this.scale >= MOVE_SCALE) {
        painter.outline(painter.accent, from, y, x - from, 18, 2);
      }
    }
    painter.stroke(painter.accent, x, RULER, x, this.seen, [], 2);
    const text = String(place);
    const width = text.length * painter.letter + 8;
    const label = Math.min(x - width / 2, this.width - width);
    painter.fill(painter.accent, label, 1, width, 16);
    painter.text(text, label + 4, 9, width, painter.paper, "bold");
  }

  // The range, between two brackets.
  drawRange() {
    if (!this.range) return;
    const { painter } = this;
    const [from, to] = this.range.map((it) => Math.max(GUTTER, Math.min(this.x(it), this.width)));
    painter.fill(painter.here, from, 18, to - from, this.seen - 18);
    for (const [x, inward] of [[from, 5], [to, -5]]) {
      painter.stroke(painter.ink, x, 18, x, this.seen, [], 1.5);
      for (const y of [18, RULER - 1]) painter.stroke(painter.ink, x, y, x + inward, y, [], 2);
    }
  }

  drawLane(lane) {
    const y = this.y(lane);
    const high = lane.kind === "core" ? CORE_PART : lane.height;
    if (lane.segments) {
      this.eachSegment(lane.segments.places, (at, x, width) => {
        this.painter.segment(lane.segments.shown[at], x, y, width, high);
      });
    }
    if (lane.kind === "core") this.drawMoves(lane, y + high);
    if (lane.marks) this.drawMarks(lane, y);
  }

  // The moves of a core, each as a box where there is room.
  drawMoves(lane, y) {
    if (this.scale < MOVE_SCALE) return;
    const last = Math.min(this.run.last, Math.ceil(this.left + this.span));
    for (let place = Math.max(this.run.first + 1, Math.floor(this.left)); place <= last; place++) {
      const move = this.run.move(place);
      if (move.kind !== STEP || move.core !== lane.core) continue;
      const x = this.x(place - 1);
      this.painter.outline(this.painter.ink, x + 0.5, y + 1, this.scale - 1, 16);
      this.painter.text(move.does, x + 3, y + 9, this.scale - 4);
    }
  }

  // Flags, edits and trims, each a sign with its line where there is room.
  drawMarks(lane, y) {
    const marks = lane.marks.map(({ place }) => place);
    for (let at = lastUpTo(marks, Math.floor(this.left)); at < marks.length; at++) {
      const x = this.x(marks[at]);
      if (x > this.width) break;
      const { text } = lane.marks[at];
      const { painter } = this;
      if (x < GUTTER) continue;
      const next = at + 1 < marks.length ? this.x(marks[at + 1]) : this.width;
      painter.stroke(painter.accent, x, y, x, this.seen, text[0] === "|" ? [8, 4] : [4, 2]);
      const room = Math.max(24, next - x - 6);
      painter.label(text, x + 3, y + 9, room, "bold");
    }
  }

  // The arrows of waking, where moves are wide enough to tell one from the other.
  drawArrows() {
    if (this.scale < ARROW_SCALE) return;
    const first = lastUpTo(this.wakingPlaces, Math.floor(this.left));
    for (let at = first; at < this.wakings.length; at++) {
      const { place, kind, core, tasks } = this.wakings[at];
      const x = this.x(place);
      if (x > this.width) break;
      if (x < GUTTER) continue;
      for (const task of tasks) this.drawArrow(x, kind, core, task);
    }
  }

  drawArrow(x, kind, core, task) {
    const from = this.lanes.find((it) => (kind === STEP ? it.core === core : it.kind === "hand"));
    const to = this.lanes.find((it) => it.task === task);
    if (!to || !this.isInSight(to)) return;
    const least = from && !from.isPinned ? RULER + this.pinned : RULER;
    const fromY = kind === TICK || !from ? RULER : this.y(from) + from.height - 3;
    const toY = this.y(to) + to.height / 2;
    this.painter.arrow(x - Math.min(10, this.scale / 2), Math.max(least, fromY), x, toY);
  }

  drawLabel(lane) {
    const isHead = lane.kind === "head";
    const middle = this.y(lane) + (lane.kind === "core" ? 10 : lane.height / 2);
    const { painter } = this;
    painter.text(this.labelOf(lane), 6, middle, GUTTER - 16, isHead ? painter.faint : painter.ink);
    if (lane.kind === "task") painter.bands(lane.task, GUTTER - 8, this.y(lane) + 2, 6, 16);
    if (lane.kind === "core") painter.text("  moves", 6, middle + 19, GUTTER - 10, painter.faint);
  }

  // What stands beside a lane: whether it is folded, its sign, its name.
  labelOf({ kind, label, group, task }) {
    if (kind === "head") return `${this.arrangement.folded.has(group) ? "+" : "-"} ${label}`;
    return kind === "task" ? `${signOf(task)} ${label}` : label;
  }

  drawRuler() {
    const { painter } = this;
    painter.fill(painter.paper, 0, 0, this.width, RULER);
    painter.stroke(painter.line, 0, RULER - 0.5, this.width, RULER - 0.5);
    painter.text("place", 6, 9, GUTTER, painter.faint);
    painter.text("tick", 6, 26, GUTTER, painter.faint);
    this.drawPlaces();
    this.drawTickNumbers();
    this.eachSeen(this.found, (place) => {
      painter.fill(painter.accent, this.x(place) - this.scale / 2 - 2, RULER - 5, 4, 5);
    });
  }

  drawPlaces() {
    const wide = (String(this.run.last).length + 2) * this.painter.letter;
    let step = 1;
    for (let at = 0; step * this.scale < wide; at++) step *= at % 3 === 1 ? 2.5 : 2;
    const last = Math.min(this.lastPlace, this.left + this.span);
    for (let place = Math.ceil(this.left / step) * step; place <= last; place += step) {
      const x = this.x(place);
      if (place < this.run.first || x < GUTTER) continue;
      const text = String(place);
      this.painter.text(text, x - (text.length * this.painter.letter) / 2, 9, wide);
    }
  }

  // Each tick: a stroke, and the number where there is room.
  drawTickNumbers() {
    const { painter } = this;
    let behind = 0;
    this.eachSeen(this.ticks, (place) => {
      const x = this.x(place);
      painter.stroke(painter.ink, x, RULER - 7, x, RULER);
      const text = String(this.run.value(this.run.cores.tick, place));
      const width = (text.length + 1) * painter.letter;
      if (x - width / 2 > behind) {
        painter.text(text, x - (text.length * painter.letter) / 2, 23, width + painter.letter);
        behind = x + width / 2;
      }
    });
  }

  // Each of these places, in order, that is seen; of those on one point, one.
  eachSeen(places, act) {
    let at = lastUpTo(places, Math.floor(this.left));
    while (at < places.length && this.x(places[at]) <= this.width) {
      const x = this.x(places[at]);
      if (x >= GUTTER) act(places[at]);
      at = this.scale < 1 ? Math.max(at + 1, lastUpTo(places, this.placeAt(x + 1))) : at + 1;
    }
  }

  // Each segment that is seen, with where it is seen; of those on one point, one.
  eachSegment(places, act) {
    let at = lastUpTo(places, Math.floor(this.left));
    while (at < places.length && this.x(places[at]) <= this.width) {
      const until = at + 1 < places.length ? places[at + 1] : this.run.last + 1;
      const x = Math.max(this.x(places[at]), GUTTER);
      const end = Math.min(this.x(until), this.width);
      if (end > x) act(at, x, Math.max(1, end - x));
      const next = end - x < 1 ? lastUpTo(places, this.placeAt(x + 1)) : 0;
      at = Math.max(at + 1, next);
    }
  }

  // What is seen, for those who don't see it.
  describe() {
    const first = Math.max(this.run.first, Math.ceil(this.left));
    const last = Math.min(this.lastPlace, Math.floor(this.left + this.span));
    const words = `places ${first} to ${last} of ${this.run.first} to ${this.run.last}`;
    const pinned = this.lanes.filter((it) => it.isPinned && it.kind !== "waiting");
    const names = pinned.length ? `; pinned: ${pinned.map(({ key }) => key).join(", ")}` : "";
    const lost = this.lost === null ? "" : `; lost at ${this.lost}`;
    this.canvas.setAttribute("aria-label", `Lanes: ${words}, at ${this.place}${lost}${names}`);
  }
}
