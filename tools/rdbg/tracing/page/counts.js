// Statistics of a run between two places: how long tasks and cores did what, how full objects were,
// and how many tasks waited. A stretch from one place to another has the moves after the first one.

// How long it is from one place to another.
function lengthOf(run, from, to) {
  const ticks = run.value(run.cores.tick, to) - run.value(run.cores.tick, from);
  return { moves: to - from, ticks };
}

// From where to where these tracks have values of the same name, between two places. What begins at
// the last of them has no length yet.
function stretchesOf(run, tracks, nameOf, first, last) {
  const all = new Set([first]);
  for (const { places } of Object.values(tracks)) {
    for (let at = countUpTo(places, first); places[at] <= last; at++) all.add(places[at]);
  }
  const found = [];
  for (const place of [...all].sort((one, other) => one - other)) {
    const name = nameOf(run.values(tracks, place));
    const open = found[found.length - 1];
    if (open && open.name === name) continue;
    if (open) open.to = place;
    found.push({ name, from: place, to: last });
  }
  return found;
}

function isLonger(one, other) {
  return one.ticks - other.ticks || one.moves - other.moves;
}

// Of stretches, by name: how many they are, how long in all, the longest, and whether it lasts on.
function totalsOf(run, stretches) {
  const found = new Map();
  stretches.forEach(({ name, from, to }, at) => {
    const length = lengthOf(run, from, to);
    const it = found.get(name) ?? { name, times: 0, moves: 0, ticks: 0, longest: null };
    found.set(name, it);
    it.times += 1;
    it.moves += length.moves;
    it.ticks += length.ticks;
    if (!it.longest || isLonger(length, it.longest) > 0) it.longest = { ...length, from };
    it.lasts = at === stretches.length - 1;
  });
  return [...found.values()];
}

// What a task does, as it is counted.
function doing({ core, phase }) {
  if (phase === null) return "";
  if (core !== null) return "on a core";
  if (isReady(phase)) return "ready, not on a core";
  const [word, ...rest] = phase.split(":");
  return word === "wait" ? `waits at ${rest[0]}:${rest[1]}` : phaseWords(phase);
}

function taskTotals(run, at, first, last) {
  const { core, phase } = run.tasks[at].tracks;
  const found = totalsOf(run, stretchesOf(run, { core, phase }, doing, first, last));
  return found.filter(({ name }) => name);
}

// How long a core was busy and idle, and how many moves it made.
function coreTotals(run, core, first, last) {
  const { running } = run.cores;
  const nameOf = (it) => (it.running[core] ? "busy" : "idle");
  const found = totalsOf(run, stretchesOf(run, { running }, nameOf, first, last));
  const none = { times: 0, moves: 0, ticks: 0, longest: null };
  const of = (name) => found.find((it) => it.name === name) ?? none;
  let own = 0;
  for (const move of movesBehind(run, first, last)) own += Number(move.core === core);
  return { busy: of("busy"), idle: of("idle"), own };
}

// How much an object held at the most, and from which place; none of one that isn't known.
function fullest(run, object, first, last) {
  const tracks = contentTracks(object);
  let found = null;
  const levelAt = (place) => {
    const it = run.values(tracks, place);
    if (Object.values(it).includes(null)) return;
    const [level, text] = levelOf(object.kind, it, object.most);
    if (!found || level > found.level) found = { level, text, from: place };
  };
  for (const { from } of stretchesOf(run, tracks, JSON.stringify, first, last)) levelAt(from);
  return found;
}

// How many waits at an object began, or were under way at the first place, how many waited at once at
// the most, and from which place on.
function waitsAt(run, object, first, last) {
  const tracks = {};
  for (const [name] of WAITING[object.kind]) tracks[name] = object.tracks[name];
  const found = { waits: 0, most: 0, from: null };
  let before = [];
  for (const { from } of stretchesOf(run, tracks, JSON.stringify, first, last)) {
    const it = run.values(tracks, from);
    const now = Object.keys(it).flatMap((name) => {
      return waitingNames(name, it[name]).map((who) => `${name} ${who}`);
    });
    found.waits += now.filter((who) => !before.includes(who)).length;
    if (now.length > found.most) Object.assign(found, { most: now.length, from });
    before = now;
  }
  return found;
}
