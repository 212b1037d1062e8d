// A run on the page: its constant parts, a track for each value that changes, and the moves.

const STEP = 0;
const TICK = 1;
const EDIT = 2;
const INTERRUPT = 3;

// What becomes of one thing: numbers of values, each from a place on. It can grow at both ends, and
// be cut.
class Track {
  constructor(flat, first) {
    this.places = [];
    this.values = [];
    let place = first;
    for (let at = 0; at < flat.length; at += 2) {
      place += at ? flat[at - 1] : 0;
      this.put(place, flat[at]);
    }
  }

  // The number of the value that holds at a place.
  at(place) {
    return this.values[lastUpTo(this.places, place)];
  }

  // The number of the value from a place on, which is none before those that are there.
  put(place, value) {
    this.places.push(place);
    this.values.push(value);
  }

  // Puts another track before this one, which ends where this one begins, with what is there.
  prepend({ places, values }) {
    this.places = places.concat(this.places.slice(1));
    this.values = values.concat(this.values.slice(1));
  }

  // Forgets what comes behind a place.
  cut(place) {
    const count = countUpTo(this.places, place);
    this.places.length = this.values.length = count;
  }
}

// The index of the last of these places, in order, that isn't behind a place; 0 where all are.
function lastUpTo(places, place) {
  let low = 0;
  let high = places.length;
  while (high - low > 1) {
    const middle = (low + high) >> 1;
    if (places[middle] <= place) low = middle;
    else high = middle;
  }
  return low;
}

// How many of these places, in order, aren't behind a place.
function countUpTo(places, place) {
  return places.length && places[0] <= place ? lastUpTo(places, place) + 1 : 0;
}

// The tracks of one thing by name.
function tracksOf(tracks, first) {
  const found = {};
  for (const [name, flat] of Object.entries(tracks)) found[name] = new Track(flat, first);
  return found;
}

class Run {
  constructor(values) {
    this.take(values);
  }

  // Takes the values of a run.
  take(values) {
    this.first = values.first;
    this.last = values.last;
    this.trims = values.trims;
    this.listed = values.values;
    this.numbers = values.moves;
    this.cores = tracksOf(values.cores, this.first);
    const withTracks = (it) => ({ ...it, tracks: tracksOf(it.tracks, this.first) });
    this.tasks = values.tasks.map(withTracks);
    this.objects = values.objects.map(withTracks);
    this.taskByName = new Map(this.tasks.map((task, at) => [task.name, at]));
  }

  // The value of a track at a place.
  value(track, place) {
    return this.listed[track.at(place)];
  }

  // The values of several tracks at a place, by name.
  values(tracks, place) {
    const found = {};
    for (const name in tracks) found[name] = this.value(tracks[name], place);
    return found;
  }

  // The move to a place, none of the first place.
  move(place) {
    if (place <= this.first || place > this.last) return null;
    const it = this.listed[this.numbers[place - this.first - 1]];
    const [kind, core, task, pc, does, effects, name] = it;
    return { place, kind, core, task, pc, does, effects, name };
  }

  // An instruction as it is written, and the line of the file where it stands; none where that
  // isn't known.
  instruction(task, pc) {
    return (task !== null && pc !== null && this.tasks[task].code[pc]) || null;
  }

  // The trims that were made when so many moves were done.
  trimsAt(place) {
    return this.trims.filter(([at]) => at === place).map(([, line]) => line);
  }
}
