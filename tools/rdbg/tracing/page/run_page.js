// The page of a run: contains the whole run, shows the commands that lead to a place, and keeps the
// marks in its address.

const QUIET = 150;

class RunPage extends Viewer {
  constructor({ title, way, run, report, other }) {
    const shown = new Run(run);
    super(shown, new Timeline(shown, byId("canvas"), byId("lanes"), byId("scrolled")));
    const go = (place) => this.go(place);
    this.way = new WayPanel(shown, way);
    this.report = new ReportPanel(shown, report, go);
    this.summary = new SummaryPanel(shown, go);
    this.bookmarks = new BookmarkPanel(go, () => this.changeMarks());
    this.range = new RangePanel(shown, () => this.changeRange());
    this.beside = other ? new BesidePanel(this, other, report.lines?.name) : null;
    this.led = new LedPanel(shown, report.at ?? shown.first, go);
    this.timeline.arrangement.pinned = [...this.led.keys];
    this.printed = new Printed(this);
    this.panels.push(this.way, this.bookmarks, this.range);
    if (this.beside) this.panels.push(this.beside);
    document.title = report.title || title;
    byId("title").textContent = report.title || title;
    this.begin();
    if (report.title) byId("about").textContent = `${title}; ${byId("about").textContent}`;
    this.setLost(this.report.lost, "");
    this.takeLink(report.at ?? shown.first);
  }

  get moreKeys() {
    return [
      ["c", "copy the commands to type"],
      ["m", "begin, end or clear a range at this place (also: drag over the ruler, or with Shift)"],
      ["z", "zoom to the range"],
      ["b", "set a bookmark with a label at this place"],
      ["j and J", "next bookmark, previous bookmark"],
      ["d", "go to where the two runs first differ"],
    ];
  }

  get last() {
    return Math.max(this.run.last, this.beside ? this.beside.other.last : this.run.last);
  }

  keys() {
    return {
      ...super.keys(),
      c: () => this.way.copy(),
      m: () => this.range.turn(),
      z: () => this.zoomToRange(),
      b: () => unfolded("bookmark-word").select(),
      j: () => this.next(this.bookmarks.places),
      J: () => this.before(this.bookmarks.places),
      d: () => this.go(this.beside?.place ?? this.place),
    };
  }

  listen() {
    super.listen();
    byId("link").addEventListener("click", () => this.keepLink());
    byId("range-zoom").addEventListener("click", () => this.zoomToRange());
    window.addEventListener("hashchange", () => {
      if (location.hash !== this.link) this.takeLink(this.place);
    });
  }

  mark(from, to) {
    this.range.set(from, to);
  }

  zoomToRange() {
    if (!this.timeline.range) return;
    this.timeline.zoomInto(...this.timeline.range);
    this.again();
  }

  changeMarks() {
    const found = [...(this.beside ? this.beside.flags : []), ...this.bookmarks.flags];
    const flags = [...found, ...this.led.flags(found)];
    this.timeline.setFlags(flags.sort((one, other) => one.place - other.place));
    this.again();
  }

  changeRange() {
    const { range } = this.range;
    this.timeline.range = range;
    this.summary.setPart(...(range ?? [this.run.first, this.run.last]));
    this.again();
  }

  readout(place) {
    if (place > this.run.last) return `${place}: this run ended at ${this.run.last}`;
    return super.readout(place) + this.report.said(place);
  }

  show() {
    super.show();
    byId("link").href = this.link;
    clearTimeout(this.quiet);
    this.quiet = setTimeout(() => this.keepLink(), QUIET);
  }

  // What the address names, of this run; it leaves what it doesn't name as it is.
  takeLink(otherwise) {
    const { place, bookmarks, range, pinned } = readLink(location.hash);
    const isThere = (it) => it.place >= this.run.first && it.place <= this.run.last;
    this.bookmarks.place = this.range.place = place ?? otherwise;
    if (pinned.length) this.timeline.arrangement.pinned = pinned.filter(Boolean);
    this.bookmarks.set(bookmarks.length ? bookmarks.filter(isThere) : this.bookmarks.list);
    if (range) this.range.set(...range);
    this.go(place ?? otherwise);
  }

  get link() {
    const { pinned } = this.timeline.arrangement;
    const { range } = this.range;
    // (those that are pinned at first aren't named; where they were let go, and no other is pinned,
    // an empty name says so)
    const isFirst = pinned.join() === this.led.keys.join();
    const named = isFirst ? [] : pinned.length ? pinned : [""];
    return linkOf({ place: this.place, bookmarks: this.bookmarks.list, range, pinned: named });
  }

  // The address names what is shown, once that stays for a moment.
  keepLink() {
    if (location.hash === this.link) return;
    try {
      history.replaceState(null, "", this.link);
    } catch (error) {
      // (a page that is shown within another one may have no address of its own)
    }
  }
}

new RunPage(JSON.parse(byId("run").textContent));
