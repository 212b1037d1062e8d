// Searches the rows of all moves.

class Search {
  constructor(run) {
    this.run = run;
    this.texts = null;
    this.words = "";
    this.places = [];
  }

  // The places of the moves whose rows have these words, as they stand here.
  find(words) {
    this.words = words.trim().toLowerCase();
    if (!this.words) return (this.places = []);
    if (!this.texts) this.texts = this.rows();
    this.places = [];
    this.texts.forEach((text, at) => {
      if (text.includes(this.words)) this.places.push(this.run.first + 1 + at);
    });
    return this.places;
  }

  // The run has others.
  renew() {
    this.texts = null;
    this.find(this.words);
  }

  rows() {
    const texts = [];
    for (const move of movesBehind(this.run, this.run.first)) {
      const [, tick, core, ...others] = moveCells(this.run, move);
      const seat = core === "" ? "" : `core ${core}`;
      texts.push(`${[...others, seat].join(" ")} tick ${tick}`.toLowerCase());
    }
    return texts;
  }

  // The next place that was found, or the one before; behind the last comes the first.
  next(place) {
    return this.places.find((it) => it > place) ?? this.places[0];
  }

  before(place) {
    const { places } = this;
    return [...places].reverse().find((it) => it < place) ?? places[places.length - 1];
  }

  // What there is to say of it at a place.
  said(place) {
    if (!this.words) return "";
    const count = this.places.length;
    if (!count) return "none";
    const at = this.places.indexOf(place);
    return at < 0 ? `${count} found` : `${at + 1} of ${count}`;
  }
}
