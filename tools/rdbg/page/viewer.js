// The common part of all pages that show a run: one current place, which every panel shows, and the
// controls that move it.

const MOVING_KEYS = [
  ["Left, Right", "previous move, next move"],
  ["Shift and Left, Right", "ten moves back, forward"],
  ["Page Up, Page Down", "one screen of moves back, forward"],
  ["Home, End", "first place, last place"],
  ["[ and ]", "previous tick, next tick"],
  ["w and W", "next move that wakes a task, previous one"],
  ["e and E", "next edit, interrupt or trim, previous one"],
  ["x", "the move that lost the goal, if one is marked"],
  ["/", "search: Enter goes to the next match, Escape leaves the field"],
  ["n and N", "next match, previous match"],
  ["g", "go to a place by its number"],
  ["+ and -, a", "zoom in, zoom out, show all moves (also: mouse wheel over the ruler, or with Ctrl)"],
  ["p, v", "pin or unpin the chosen lane; pin the core and the tasks of this move"],
  ["o, y", "choose a lane; filter lanes by name"],
  ["Up, Down", "scroll the lanes or the state, whichever has the focus (Tab)"],
];

const LAST_KEYS = [
  ["t", "switch between light and dark"],
  ["?", "show this help; Escape closes it"],
];

const SIGNS = [
  ["a box with a name", "the task is on this core"],
  ["slanting lines", "the task is ready but not on a core"],
  ["a dotted line", "the task waits where its label says, until a tick or with no time limit"],
  ["a thin line", "the task has ended"],
  ["crossed lines", "the task has failed"],
  ["a box below a core's tasks", "a move of this core"],
  ["an arrow", "the move wakes the task"],
  ["a stroke at the top with a dotted line", "a tick"],
  ["a filled level", "how much a queue, set or buffer holds"],
  ["names in a box below it", "the waiting tasks, in the order in which they are served"],
  ["*, ! and | with dashes", "an edit by hand; an interrupt; a trim"],
  ["lost, above crossed lines", "the move after which no run can reach the goal"],
];

const LEGEND = [
  "box: on a core",
  "slanting: ready",
  "dotted: waits",
  "thin line: ended",
  "crossed: failed",
  "arrow: wakes",
].join("; ");

class Viewer {
  constructor(run, timeline) {
    this.run = run;
    this.place = run.first;
    this.lanes = byId("lanes");
    this.timeline = timeline;
    this.search = new Search(run);
    this.script = new ScriptPanel(run, () => this.again());
    this.lanePanel = new LanePanel(timeline, () => this.again());
    this.panels = [new StatePanel(run), new MovesPanel(run, (at) => this.go(at)), this.script];
    this.panels.push(this.lanePanel);
    this.isDue = false;
  }

  // What is said of keys and signs besides.
  get moreKeys() {
    return [];
  }

  get moreSigns() {
    return [];
  }

  // Shows what stays, and listens.
  begin() {
    new Table(byId("help"), ["", ""]).show([...MOVING_KEYS, ...this.moreKeys, ...LAST_KEYS]);
    new Table(byId("signs"), ["", ""]).show([...SIGNS, ...this.moreSigns]);
    byId("legend").textContent = LEGEND;
    foldAway();
    this.say();
    this.listen();
  }

  // How much there is, and the bounds of places.
  say() {
    const { run } = this;
    const counts = [
      counted(run.last - run.first, "move"),
      counted(this.timeline.ticks.length, "tick"),
      counted(run.tasks.length, "task"),
      counted(run.objects.length, "object"),
    ];
    byId("about").textContent = counts.join(", ");
    for (const it of [byId("slider"), byId("place")]) {
      it.min = run.first;
      it.max = this.last;
    }
  }

  // The last place to which one can go.
  get last() {
    return this.run.last;
  }

  // Goes to a place, the nearest that there is.
  go(place) {
    this.place = Math.max(this.run.first, Math.min(this.last, Math.round(place)));
    this.timeline.follow(this.place);
    this.again();
  }

  // Shows all anew, once before the next picture.
  again() {
    if (this.isDue) return;
    this.isDue = true;
    requestAnimationFrame(() => {
      this.isDue = false;
      this.show();
    });
  }

  show() {
    const { run, place } = this;
    this.timeline.draw();
    for (const panel of this.panels) panel.show(Math.min(place, run.last));
    byId("readout").textContent = this.readout(place);
    byId("slider").value = place;
    byId("slider").setAttribute("aria-valuetext", `place ${place} of ${this.last}`);
    if (document.activeElement !== byId("place")) byId("place").value = place;
    byId("found").textContent = this.search.said(place);
  }

  // What the move to a place did, in a sentence.
  readout(place) {
    const move = this.run.move(place);
    if (move) return moveSentence(this.run, move);
    return `${place}: ${place ? "before the first move shown" : "boot"}`;
  }

  // The next of these places, in order, or the one before.
  next(places) {
    const found = places[0] > this.place ? places[0] : places[lastUpTo(places, this.place) + 1];
    if (found !== undefined) this.go(found);
  }

  before(places) {
    const at = lastUpTo(places, this.place - 1);
    if (places.length && places[at] < this.place) this.go(places[at]);
  }

  // Where something was done by hand.
  get hands() {
    return this.timeline.hand.marks.map(({ place }) => place);
  }

  // Marks a range, where a page has one.
  mark() {}

  // Marks the move that lost a goal, none where it is null, and says what there is to say of it.
  setLost(place, words) {
    this.timeline.lost = place;
    byId("loss").hidden = !words;
    byId("to-loss").hidden = place === null;
    byId("to-loss").textContent = place === null ? "" : `lost at ${place}`;
    document.querySelector("#loss span").textContent = words;
    this.again();
  }

  goLost() {
    if (this.timeline.lost !== null) this.go(this.timeline.lost);
  }

  find(words) {
    this.timeline.found = this.search.find(words);
    this.again();
  }

  goFound(isNext) {
    const place = isNext ? this.search.next(this.place) : this.search.before(this.place);
    if (place !== undefined) this.go(place);
  }

  zoom(scale) {
    this.timeline.zoomTo(scale);
    this.timeline.follow(this.place);
    this.again();
  }

  changeTheme() {
    const root = document.documentElement;
    const isDark = root.dataset.theme
      ? root.dataset.theme === "dark"
      : matchMedia("(prefers-color-scheme: dark)").matches;
    root.dataset.theme = isDark ? "light" : "dark";
    this.takeTheme();
  }

  takeTheme() {
    this.timeline.painter.takeTheme();
    this.again();
  }

  // What keys do, by their names; with Shift where that makes no other sign.
  keys() {
    const { run, timeline } = this;
    const seen = () => Math.max(1, Math.floor(timeline.span) - 1);
    return {
      ArrowLeft: () => this.go(this.place - 1),
      ArrowRight: () => this.go(this.place + 1),
      "Shift ArrowLeft": () => this.go(this.place - 10),
      "Shift ArrowRight": () => this.go(this.place + 10),
      PageUp: () => this.go(this.place - seen()),
      PageDown: () => this.go(this.place + seen()),
      Home: () => this.go(run.first),
      End: () => this.go(this.last),
      "[": () => this.before(timeline.ticks),
      "]": () => this.next(timeline.ticks),
      w: () => this.next(timeline.wakingPlaces),
      W: () => this.before(timeline.wakingPlaces),
      e: () => this.next(this.hands),
      E: () => this.before(this.hands),
      x: () => this.goLost(),
      "/": () => unfolded("search").select(),
      n: () => this.goFound(true),
      N: () => this.goFound(false),
      g: () => unfolded("place").select(),
      "+": () => this.zoom(timeline.scale * 1.5),
      "=": () => this.zoom(timeline.scale * 1.5),
      "-": () => this.zoom(timeline.scale / 1.5),
      0: () => this.zoom(timeline.whole()),
      a: () => this.zoom(timeline.whole()),
      p: () => this.lanePanel.pin(byId("lane").value),
      v: () => this.lanePanel.pinMoved(run, run.move(this.place)),
      o: () => unfolded("lane").focus(),
      y: () => unfolded("lane-filter").select(),
      t: () => this.changeTheme(),
      "?": () => byId("help").showModal(),
    };
  }

  listen() {
    this.listenToKeys();
    this.listenToButtons();
    this.listenToLanes();
    byId("slider").addEventListener("input", ({ target }) => this.go(Number(target.value)));
    byId("place").addEventListener("change", ({ target }) => this.go(Number(target.value) || 0));
    byId("search").addEventListener("input", ({ target }) => this.find(target.value));
    const dark = matchMedia("(prefers-color-scheme: dark)");
    dark.addEventListener("change", () => this.takeTheme());
  }

  listenToKeys() {
    const keys = this.keys();
    document.addEventListener("keydown", (event) => {
      const { target } = event;
      if (event.ctrlKey || event.altKey || event.metaKey) return;
      if (document.querySelector("dialog[open]")) return;
      if (target === byId("search") || target === byId("place")) return this.keyInField(event);
      if (target.matches("select, textarea, input:not([type=range])")) return;
      const act = (event.shiftKey && keys[`Shift ${event.key}`]) || keys[event.key];
      if (!act) return;
      event.preventDefault();
      act();
    });
  }

  // Enter and Escape where something is typed; all other keys are text there.
  keyInField(event) {
    const { target, key } = event;
    if (key === "Enter" && target === byId("search")) this.goFound(!event.shiftKey);
    else if (key === "Enter") this.go(Number(target.value) || 0);
    else if (key !== "Escape") return;
    event.preventDefault();
    if (key === "Escape" || target === byId("place")) this.lanes.focus();
  }

  listenToButtons() {
    const keys = this.keys();
    const buttons = { first: "Home", back: "ArrowLeft", forward: "ArrowRight", last: "End" };
    Object.assign(buttons, { out: "-", in: "+", whole: "a", theme: "t", "help-button": "?" });
    Object.assign(buttons, { "previous-found": "N", "next-found": "n", "to-loss": "x" });
    for (const id in buttons) byId(id).addEventListener("click", () => keys[buttons[id]]());
  }

  listenToLanes() {
    const { timeline, lanes } = this;
    lanes.addEventListener("scroll", () => this.again());
    this.dragging = new Dragging(this, byId("canvas"), lanes);
    new ResizeObserver(() => {
      timeline.fit();
      timeline.keepInside();
      timeline.follow(this.place);
      this.again();
    }).observe(lanes);
  }
}
