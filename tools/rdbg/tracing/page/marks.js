// The marks of a user in a run: bookmarks with labels, and a range of places.

class BookmarkPanel {
  constructor(go, change) {
    this.list = [];
    this.go = go;
    this.change = change;
    this.word = byId("bookmark-word");
    byId("bookmark").addEventListener("submit", (event) => {
      event.preventDefault();
      this.add(this.place, this.word.value.trim());
      this.word.value = "";
      byId("lanes").focus();
    });
    byId("bookmarks").addEventListener("click", ({ target }) => {
      const { place, act } = target.dataset;
      if (act === "go") this.go(Number(place));
      if (act === "drop") this.set(this.list.filter((it) => it.place !== Number(place)));
    });
  }

  add(place, word) {
    this.set(withBookmark(this.list, { place, word: word || "here" }));
  }

  set(list) {
    this.list = list;
    this.showList();
    this.change();
  }

  get places() {
    return this.list.map(({ place }) => place);
  }

  // What lanes mark.
  get flags() {
    return this.list.map(({ place, word }) => ({ place, text: word }));
  }

  show(place) {
    this.place = place;
  }

  showList() {
    const items = this.list.map(({ place, word }) => {
      const item = made("li");
      const button = (text, act, title) => {
        const it = item.appendChild(made("button", text));
        Object.assign(it, { type: "button", title });
        Object.assign(it.dataset, { place: String(place), act });
      };
      button(`${place}: ${word}`, "go", "go to this bookmark");
      button("\u00d7", "drop", "delete this bookmark");
      return item;
    });
    byId("bookmarks").replaceChildren(...items);
  }
}

// A range of places: one end where it was begun, the other where one is until it is ended.
class RangePanel {
  constructor(run, change) {
    this.run = run;
    this.change = change;
    this.range = null;
    this.begun = null;
    byId("range-begin").addEventListener("click", () => this.turn());
  }

  // Begins a range at the place, ends it there, or drops it.
  turn() {
    if (this.begun !== null) this.begun = null;
    else if (this.range) this.range = null;
    else this.begun = this.place;
    this.show(this.place);
    this.change();
  }

  // Is between these places, as far as there are such.
  set(from, to) {
    const inside = (it) => Math.max(this.run.first, Math.min(Math.round(it), this.run.last));
    const ends = [inside(from), inside(to)].sort((one, other) => one - other);
    this.begun = null;
    this.range = ends;
    this.say();
    this.change();
  }

  show(place) {
    this.place = place;
    if (this.begun !== null) {
      const range = [this.begun, place].sort((one, other) => one - other);
      const isNew = !this.range || range.join() !== this.range.join();
      this.range = range;
      if (isNew) this.change();
    }
    this.say();
  }

  say() {
    const { range, run } = this;
    const words = range ? lengthWords(lengthOf(run, ...range)) : "";
    byId("range").textContent = range ? `places ${range[0]} to ${range[1]}: ${words}` : "";
    const does = this.begun !== null ? "end range" : range ? "clear range" : "begin range";
    byId("range-begin").textContent = does;
  }
}
