// Another run of the same model: the first place where the two runs differ, and the lanes of the
// other one.

// The first place at which two runs differ: the move to it isn't the same, one of them has none, or
// what there is at the first place; none where they are the same.
function firstDifference(run, other) {
  const first = Math.max(run.first, other.first);
  const last = Math.min(run.last, other.last);
  if (repliesAt(run, first).join() !== repliesAt(other, first).join()) return first;
  const texts = [new Map(), new Map()];
  const told = ({ listed, numbers, ...of }, known, place) => {
    const number = numbers[place - of.first - 1];
    if (!known.has(number)) known.set(number, JSON.stringify(listed[number]));
    return known.get(number);
  };
  for (let place = first + 1; place <= last; place++) {
    if (told(run, texts[0], place) !== told(other, texts[1], place)) return place;
  }
  return run.last === other.last ? null : last + 1;
}

// What a run does at a place, in words.
function doneWords(run, place) {
  const move = run.move(place);
  if (move) return moveSentence(run, move);
  return place > run.last ? `it ended at ${run.last}` : `${place}: it begins here`;
}

// What two runs differ in at a place, as rdbg answers it: the replies that aren't the same.
function differingReplies(run, other, place) {
  const [one, two] = [run, other].map((it) => repliesAt(it, Math.min(place, it.last)));
  const rows = one.map((reply, at) => [reply, two[at] ?? NOBODY]);
  return rows.filter(([mine, theirs]) => mine !== theirs);
}

class BesidePanel {
  constructor(page, { name, run }, own) {
    this.page = page;
    this.run = page.run;
    this.other = new Run(run);
    this.place = firstDifference(page.run, this.other);
    this.table = new Table(byId("differing"), [own || "this run", name || "the other run"]);
    this.open(name);
    this.say();
  }

  // Shows the lanes of the other run below those of this one.
  open(name) {
    const { page, other } = this;
    const [frame, canvas] = [byId("other-lanes"), byId("other-canvas")];
    byId("lanes").after(byId("other-title"), frame);
    byId("beside").hidden = frame.hidden = byId("other-title").hidden = false;
    byId("other-title").textContent = `Below: ${name}`;
    this.timeline = new Timeline(other, canvas, frame, byId("other-scrolled"));
    page.timeline.setBeside(this.timeline);
    frame.addEventListener("scroll", () => page.again());
    this.dragging = new Dragging(page, canvas, frame, this.timeline);
    new ResizeObserver(() => {
      this.timeline.fit();
      page.again();
    }).observe(frame);
    this.timeline.setFlags(this.flags);
  }

  get flags() {
    return this.place === null ? [] : [{ place: this.place, text: "differs" }];
  }

  say() {
    const { run, other, place } = this;
    byId("difference").textContent =
      place === null
        ? "The two runs are the same."
        : `The two runs are the same up to place ${Math.max(run.first, place - 1)}. ` +
          `Here: ${doneWords(run, place)}. Below: ${doneWords(other, place)}.`;
    const link = byId("to-difference");
    link.hidden = place === null;
    link.href = `#${place}`;
    link.textContent = `place ${place}`;
    link.addEventListener("click", (event) => {
      event.preventDefault();
      this.page.go(place);
    });
  }

  show() {
    const { run, other, page } = this;
    const rows = differingReplies(run, other, page.place);
    this.table.show(rows);
    byId("differing").hidden = !rows.length;
    const how = rows.length ? "differs (as replies of rdbg)" : "is the same";
    byId("differing-at").textContent = `The state at place ${page.place} ${how}.`;
  }
}
