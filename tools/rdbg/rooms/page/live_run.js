// The opacity of the veil over undone moves.
const PALE = 0.6;

// A run that grows: it begins as the moves around the target, and each move comes behind them; what
// others are made in place of is cut. Earlier moves are put before them.

class LiveRun extends Run {
  // Takes what is around the target: blocks of moves, each with values of its own.
  take({ blocks, trims, ...now }) {
    super.take({ ...blocks[0], trims });
    this.numberOf = new Map(this.listed.map((value, at) => [JSON.stringify(value), at]));
    for (const block of blocks.slice(1)) this.addBlock(block);
    this.isOld = false;
    // Counts what makes an answer to an earlier question worthless.
    this.changes = (this.changes ?? 0) + 1;
    this.setNow(now);
  }

  // How many moves are done and undone, which are known to the room, how many more it will know,
  // and why it follows no more.
  setNow({ done, undone, known, toCome, lost }) {
    Object.assign(this, { done, undone, known, toCome, lost });
  }

  // Whether it is known here what there is where the target is.
  get hasDone() {
    return !this.isOld && this.done >= this.first && this.done <= this.last;
  }

  // How many moves aren't here yet.
  get missing() {
    const [first, last] = this.known;
    return this.toCome + Math.max(0, this.first - first) + Math.max(0, last - this.last);
  }

  // The number of a value, which may be a new one.
  number(value) {
    const text = JSON.stringify(value);
    const known = this.numberOf.get(text);
    if (known !== undefined) return known;
    this.numberOf.set(text, this.listed.length);
    return this.listed.push(value) - 1;
  }

  put(track, place, value) {
    const number = this.number(value);
    if (number !== track.values[track.values.length - 1]) track.put(place, number);
  }

  // The moves of a block, behind the last one.
  addBlock(block) {
    this.eachTrack(block, (track, others) => {
      others.places.forEach((place, at) => this.put(track, place, block.values[others.values[at]]));
    });
    this.numbers.push(...this.movesOf(block));
    this.last = block.last;
  }

  // The moves of a block, before the first one.
  prepend(block) {
    this.eachTrack(block, (track, others) => {
      const values = others.values.map((it) => this.number(block.values[it]));
      track.prepend({ places: others.places, values });
    });
    this.numbers = this.movesOf(block).concat(this.numbers);
    this.first = block.first;
  }

  movesOf({ moves, values }) {
    return moves.map((it) => this.number(values[it]));
  }

  // Each track with that of a block, whose numbers are those of the block's values.
  eachTrack({ first, cores, tasks, objects }, act) {
    const each = (tracks, flats) => {
      for (const name in flats) act(tracks[name], new Track(flats[name], first));
    };
    each(this.cores, cores);
    tasks.forEach((it, at) => each(this.tasks[at].tracks, it.tracks));
    objects.forEach((it, at) => each(this.objects[at].tracks, it.tracks));
  }

  // New moves behind a place; those that were there are gone. Behind a place that isn't here yet
  // they come later; where it was before all that is here, that is old.
  more({ cut, last, cores, tasks, objects, moves, ...now }) {
    if (now.known) this.setNow(now);
    this.isOld = this.isOld || cut < this.first;
    if (this.isOld || cut > this.last) return;
    if (cut < this.last) this.changes += 1;
    this.cut(cut);
    const addTracks = (tracks, pairs) => {
      for (const name in pairs) {
        for (const [place, value] of pairs[name]) this.put(tracks[name], place, value);
      }
    };
    addTracks(this.cores, cores);
    tasks.forEach((pairs, at) => addTracks(this.tasks[at].tracks, pairs));
    objects.forEach((pairs, at) => addTracks(this.objects[at].tracks, pairs));
    for (const move of moves) this.numbers.push(this.number(move));
    this.last = last;
  }

  setTrims({ trims, ...now }) {
    this.trims = trims;
    this.setNow(now);
  }

  cut(place) {
    for (const tracks of [this.cores, ...[...this.tasks, ...this.objects].map((it) => it.tracks)]) {
      for (const name in tracks) tracks[name].cut(place);
    }
    this.numbers.length = place - this.first;
    this.trims = this.trims.filter(([at]) => at <= place);
    this.last = place;
  }
}

// The lanes of a run that grows: where the target is now, and what was taken back, which is pale.
class LiveTimeline extends Timeline {
  drawAll() {
    super.drawAll();
    const { painter, run } = this;
    const x = Math.max(GUTTER, this.x(run.done));
    if (run.done < run.last && x < this.width) {
      painter.context.globalAlpha = PALE;
      painter.fill(painter.paper, x, RULER, this.width - x, this.seen - RULER);
      painter.context.globalAlpha = 1;
      painter.label("undone", x + 6, this.seen - 10, this.width - x - 6);
    }
    if (this.x(run.done) < GUTTER || x > this.width) return;
    painter.stroke(painter.ink, x, RULER - 9, x, this.seen, [6, 3], 2);
    painter.label("now", Math.min(x + 5, this.width - 30), RULER - 9, 40, "bold");
  }

  draw() {
    if (this.drawnDone !== this.run.done) this.groundOf = "";
    this.drawnDone = this.run.done;
    super.draw();
  }

  describe() {
    super.describe();
    const label = this.canvas.getAttribute("aria-label");
    this.canvas.setAttribute("aria-label", `${label}; the target is at ${this.run.done}`);
  }
}
