// The address of a page names a place, bookmarks with labels, a range and pinned lanes, so that a
// link can pass them on.

const MOST_WORD = 40;
const MOST_BOOKMARKS = 50;
const PLACE = /^\d{1,9}$/;

function placeOf(text) {
  return PLACE.test(text) ? Number(text) : null;
}

// A bookmark as a link has it: `5:word`; none where it names no place.
function bookmarkOf(text) {
  const [place, ...word] = text.split(":");
  const at = placeOf(place);
  return at === null ? null : { place: at, word: word.join(":").slice(0, MOST_WORD) };
}

function rangeOf(text) {
  const [from, to, ...more] = (text ?? "").split("-").map(placeOf);
  const isOne = from !== null && to !== null && to !== undefined && !more.length;
  return isOne ? [Math.min(from, to), Math.max(from, to)] : null;
}

// What a link names.
function readLink(hash) {
  const [place, ...rest] = hash.replace(/^#/, "").split("&");
  const named = new URLSearchParams(rest.join("&"));
  const bookmarks = named.getAll("mark").map(bookmarkOf).filter(Boolean);
  return {
    place: placeOf(place),
    bookmarks: bookmarks.slice(0, MOST_BOOKMARKS),
    range: rangeOf(named.get("range")),
    pinned: named.getAll("pin"),
  };
}

// The link that names a place, bookmarks, a range and pinned lanes.
function linkOf({ place, bookmarks, range, pinned }) {
  const named = new URLSearchParams();
  for (const it of bookmarks) named.append("mark", `${it.place}:${it.word}`);
  if (range) named.append("range", range.join("-"));
  for (const key of pinned) named.append("pin", key);
  const text = named.toString();
  return text ? `#${place}&${text}` : `#${place}`;
}

// Bookmarks with one more, by place; another word at the same place takes the other's.
function withBookmark(bookmarks, added) {
  const others = bookmarks.filter(({ place }) => place !== added.place);
  return [...others, added].sort((one, other) => one.place - other.place);
}
