// The lanes of a run, from top to bottom.

const HEIGHTS = { flags: 18, core: 38, hand: 18, task: 20, level: 26, waiting: 17, head: 15 };

// A lane of a group, such as that of all cores; those of one key go together.
function newLane(kind, label, group, key, more) {
  return { kind, label, group, key, height: HEIGHTS[kind], ...more };
}

// All lanes that there can be. Those without anything to show are left out where they are laid out.
function lanesOf(run) {
  const lanes = [newLane("flags", "marks", "marks", "marks", { marks: [] })];
  lanes.push(newLane("head", "cores", "cores", "cores"));
  const count = run.value(run.cores.running, run.first).length;
  for (let core = 0; core < count; core++) {
    const key = `core ${core}`;
    lanes.push(newLane("core", key, "cores", key, { core, segments: coreSegments(run, core) }));
  }
  lanes.push(newLane("hand", "by hand", "by hand", "by hand", { marks: [] }));
  lanes.push(newLane("head", "tasks", "tasks", "tasks"));
  run.tasks.forEach((task, at) => {
    const more = { task: at, priority: task.priority, segments: taskSegments(run, at) };
    lanes.push(newLane("task", task.name, "tasks", `task ${task.name}`, more));
  });
  if (run.objects.length) lanes.push(newLane("head", "objects", "objects", "objects"));
  for (const object of run.objects) lanes.push(...objectLanes(run, object));
  return lanes;
}

// An object's level, and below it each of its lists.
function objectLanes(run, object) {
  const key = `${object.kind} ${object.name}`;
  const segments = levelSegments(run, object);
  const lanes = [newLane("level", object.name, "objects", key, { segments })];
  for (const [name, words] of WAITING[object.kind]) {
    const waiting = { segments: waitingSegments(run, object, name) };
    lanes.push(newLane("waiting", `  ${words}`, "objects", key, waiting));
  }
  return lanes;
}

// Whether there is something in a lane: of lists those where somebody waits some time.
function isNeeded({ kind, marks, segments }) {
  if (marks) return marks.length > 0;
  return kind !== "waiting" || segments.shown.some(({ text }) => text);
}

// Where a lane first shows another thing than at the beginning.
function beginOf({ segments }) {
  return segments && segments.places.length > 1 ? segments.places[1] : Infinity;
}

// The lanes that are needed, one below the other, as they are arranged.
function laidOut(lanes, arrangement = new Arrangement()) {
  const needed = lanes.filter(isNeeded);
  if (arrangement.order === "by first move") for (const it of needed) it.begins = beginOf(it);
  const [pinned, others] = arrangement.arranged(needed);
  let top = 0;
  for (const it of [...pinned, ...others]) {
    it.isPinned = pinned.includes(it);
    it.top = top;
    top += it.height;
  }
  return [...pinned, ...others];
}

// What was done by hand, by place, in order: edits and interrupts, of which these are told, each with
// its sign, then the trims behind it.
function byHand(run, told, behind, last) {
  const texts = new Map(told.map(([place, text]) => [place, [text]]));
  for (const [place, line] of run.trims) {
    if (place > behind && place <= last) texts.set(place, [...(texts.get(place) || []), `|${line}`]);
  }
  const places = [...texts.keys()].sort((one, other) => one - other);
  return places.map((place) => ({ place, text: texts.get(place).join(" ") }));
}

// The moves to the places behind one, up to another.
function* movesBehind(run, place, last = run.last) {
  for (let at = Math.max(run.first, place) + 1; at <= last; at++) yield run.move(at);
}

// How each kind of what is done by hand is marked.
const SIGNS_BY_HAND = { [EDIT]: "*", [INTERRUPT]: "!" };

// What there is to mark at places behind one, up to another: ticks, arrows with their places, and
// what was done by hand. Moves that are the same are looked at once.
function marksOf(run, behind, last) {
  const ticks = [];
  const wakings = [];
  const told = [];
  const known = new Map();
  for (let place = Math.max(run.first, behind) + 1; place <= last; place++) {
    const number = run.numbers[place - run.first - 1];
    if (!known.has(number)) known.set(number, markOf(run.move(place)));
    const { kind, core, tasks, sign, does } = known.get(number);
    if (kind === TICK) ticks.push(place);
    if (sign) told.push([place, sign + does]);
    if (tasks.length) wakings.push({ place, kind, core, tasks });
  }
  const wakingPlaces = wakings.map(({ place }) => place);
  return { ticks, wakings, wakingPlaces, hands: byHand(run, told, behind, last) };
}

// What there is to mark of a move, wherever it was made: whom it wakes, and its sign.
function markOf({ kind, core, does, effects }) {
  const tasks = effects.filter((it) => it.length > 1).map(([, task]) => task);
  return { kind, core, tasks, sign: SIGNS_BY_HAND[kind], does };
}
