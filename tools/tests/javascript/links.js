// What the address of a page names.

const assert = require("assert");
const test = require("node:test");
const { namesOf } = require("./page.js");

const { linkOf, readLink, withBookmark } = namesOf("run", ["linkOf", "readLink", "withBookmark"]);

const NONE = { bookmarks: [], range: null, pinned: [] };

test("a place alone", () => {
  assert.equal(linkOf({ place: 5, ...NONE }), "#5");
  assert.deepEqual(readLink("#5"), { place: 5, ...NONE });
  for (const text of ["", "#", "#x", "#-1", "#5x", "#1234567890"]) {
    assert.deepEqual(readLink(text), { place: null, ...NONE }, text);
  }
});

test("all that there is, there and back", () => {
  const bookmarks = [{ place: 3, word: "a: b & c#d=%" }, { place: 7, word: "\u00fc" }];
  const all = { place: 9, bookmarks, range: [3, 7], pinned: ["core 0", "task worker"] };
  assert.deepEqual(readLink(linkOf(all)), all);
});

test("what nobody could have made is left out", () => {
  const { bookmarks, range } = readLink("#5&mark=x:y&mark=4&mark=6:&range=3-x");
  assert.deepEqual(bookmarks, [{ place: 4, word: "" }, { place: 6, word: "" }]);
  assert.equal(range, null);
  assert.equal(readLink("#5&range=3").range, null);
  assert.equal(readLink("#5&range=3-4-5").range, null);
  assert.deepEqual(readLink("#5&range=9-3").range, [3, 9]);
  assert.equal(readLink(`#5&mark=1:${"x".repeat(99)}`).bookmarks[0].word.length, 40);
});

test("one bookmark a place", () => {
  const one = withBookmark([{ place: 5, word: "a" }], { place: 2, word: "b" });
  assert.deepEqual(one.map(({ word }) => word), ["b", "a"]);
  assert.deepEqual(withBookmark(one, { place: 5, word: "c" }).map(({ word }) => word), ["b", "c"]);
});
