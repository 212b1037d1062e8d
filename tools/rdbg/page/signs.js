// Signs that distinguish tasks where their names do not fit: each has its own letter, and its own
// bands, which even the narrowest stroke shows.

const LETTERS = "ABCDEFGHIJKLMNOPQRSTUVWXYZ234567";
const BANDS = 5;

// The sign of a task, by its number: one letter, of more tasks than there are letters two.
function signOf(task) {
  const letter = LETTERS[task % LETTERS.length];
  return task < LETTERS.length ? letter : LETTERS[Math.floor(task / LETTERS.length) - 1] + letter;
}

// Which bands of a task are dark, from top to bottom.
function bandsOf(task) {
  return Array.from({ length: BANDS }, (_, at) => Boolean(((task + 1) >> (BANDS - 1 - at)) & 1));
}

// What there is room for, of so many letters: the sign and the name, the name, its beginning behind
// the sign, or the sign.
function nameIn(most, name, sign) {
  if (sign.length + 1 + name.length <= most) return `${sign} ${name}`;
  if (name.length <= most) return name;
  if (most < sign.length + 4) return most >= sign.length ? sign : "";
  return `${sign} ${name.slice(0, most - sign.length - 2)}\u2026`;
}
