// What lanes show: segments one behind the other, made of a run's tracks.

class Segments {
  // Of these tracks, shown as `shownOf` says of their values.
  constructor(run, tracks, shownOf) {
    this.run = run;
    this.tracks = tracks;
    this.shownOf = shownOf;
    this.places = [];
    this.shown = [];
    this.keys = [];
    this.renew(run.first - 1);
  }

  // Takes what there is behind a place anew.
  renew(place) {
    const count = countUpTo(this.places, place);
    this.places.length = this.shown.length = this.keys.length = count;
    this.putAll(place, this.run.last);
  }

  // Takes what there is before a place, at which these began.
  prepend(place) {
    const { places, shown, keys } = this;
    Object.assign(this, { places: [], shown: [], keys: [] });
    this.putAll(this.run.first - 1, place - 1);
    const known = keys[0] === this.keys[this.keys.length - 1] ? 1 : 0;
    this.places = this.places.concat(places.slice(known));
    this.shown = this.shown.concat(shown.slice(known));
    this.keys = this.keys.concat(keys.slice(known));
  }

  // Puts what there is behind a place, up to another one. What the same values show is made once.
  putAll(behind, last) {
    const names = Object.keys(this.tracks);
    const tracks = Object.values(this.tracks);
    const at = tracks.map(({ places }) => countUpTo(places, behind));
    const known = new Map();
    for (;;) {
      const place = Math.min(...tracks.map(({ places }, it) => places[at[it]] ?? Infinity));
      if (!(place <= last)) break;
      const numbers = tracks.map(({ places, values }, it) => {
        if (places[at[it]] === place) at[it] += 1;
        return values[Math.max(0, at[it] - 1)];
      });
      const key = numbers.join();
      if (!known.has(key)) known.set(key, this.showing(names, numbers));
      this.put(place, known.get(key));
    }
  }

  // What these values show, with a key by which that is told from others.
  showing(names, numbers) {
    const values = {};
    names.forEach((name, it) => (values[name] = this.run.listed[numbers[it]]));
    const shown = this.shownOf(values);
    return { shown, key: JSON.stringify(shown) };
  }

  // What is shown from a place on; what is shown already goes on.
  put(place, { shown, key }) {
    if (key === this.keys[this.keys.length - 1]) return;
    this.keys.push(key);
    this.places.push(place);
    this.shown.push(shown);
  }
}

// Who is on a core.
function coreSegments(run, core) {
  return new Segments(run, { running: run.cores.running }, ({ running }) => {
    const name = running[core];
    if (!name) return { style: "idle", text: "" };
    const task = run.taskByName.get(name) ?? 0;
    return { style: "runs", text: name, colour: task, sign: signOf(task) };
  });
}

// What a task does.
function taskSegments(run, at) {
  const { core, phase } = run.tasks[at].tracks;
  return new Segments(run, { core, phase }, (it) => {
    if (it.phase === null) return { style: "idle", text: "" };
    const [word, ...rest] = it.phase.split(":");
    const again = word === "run" ? "" : " (woken)";
    if (it.core !== null) return { style: "runs", text: `core ${it.core}${again}`, colour: at };
    if (isReady(it.phase)) return { style: "ready", text: `ready${again}` };
    if (word === "ended") return { style: "ended", text: "ended" };
    if (word === "failed") return { style: "failed", text: `failed ${rest[0]}` };
    const when = rest[2] === "max" ? "" : ` until ${rest[2]}`;
    return { style: "waits", text: `${rest[0]}:${rest[1]}${when}` };
  });
}

// How much an object holds.
function levelSegments(run, object) {
  return new Segments(run, contentTracks(object), (it) => {
    if (Object.values(it).some((value) => value === null)) return { style: "idle", text: "" };
    const [level] = levelOf(object.kind, it, object.most);
    if (object.kind === "group") return { style: "bits", text: `0x${level.toString(16)}` };
    return { style: "level", text: `${level}/${object.most}`, part: level / object.most };
  });
}

function contentTracks({ tracks }) {
  const names = ["items", "handles", "bytes", "held", "messages", "bits"];
  return Object.fromEntries(Object.entries(tracks).filter(([name]) => names.includes(name)));
}

// Who waits at one list of an object, in order.
function waitingSegments(run, object, name) {
  return new Segments(run, { list: object.tracks[name] }, ({ list }) => {
    const names = name === "wishes" ? (list || []).map(([task]) => task) : waitingNames(name, list);
    return { style: names.length ? "queue" : "idle", text: names.join(", ") };
  });
}
