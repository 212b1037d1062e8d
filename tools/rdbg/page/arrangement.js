// The arrangement of lanes: which are pinned above the others, folded or filtered out, and in which
// order they stand.

// The orders of a group's lanes by name, each with its comparison.
const ORDERS = {
  "as in the file": () => 0,
  "by name": (one, other) => (one.label < other.label ? -1 : Number(one.label > other.label)),
  "by priority": (one, other) => (other.priority ?? 0) - (one.priority ?? 0),
  "by first move": (one, other) => one.begins - other.begins,
};

class Arrangement {
  constructor() {
    this.pinned = [];
    this.folded = new Set();
    this.words = [];
    this.order = Object.keys(ORDERS)[0];
    // The keys of a group's lanes, where some were moved.
    this.moved = new Map();
  }

  // Pins or unpins a lane.
  pin(key) {
    const at = this.pinned.indexOf(key);
    if (at < 0) this.pinned.push(key);
    else this.pinned.splice(at, 1);
  }

  // Folds or unfolds a group.
  fold(group) {
    if (!this.folded.delete(group)) this.folded.add(group);
  }

  // Shows only the lanes whose names contain one of these words.
  filter(text) {
    this.words = text.toLowerCase().split(/[\s,]+/).filter(Boolean);
  }

  sortBy(order) {
    this.order = order;
    this.moved.clear();
  }

  // Moves a lane up or down among those of its group.
  move(lanes, key, by) {
    const lane = lanes.find((it) => it.key === key && it.kind !== "head");
    if (!lane) return;
    const keys = [...new Set(this.sorted(lanes, lane.group).map((it) => it.key))];
    const at = keys.indexOf(key);
    const other = Math.max(0, Math.min(keys.length - 1, at + by));
    keys.splice(other, 0, ...keys.splice(at, 1));
    this.moved.set(lane.group, keys);
  }

  isWanted({ key }) {
    return !this.words.length || this.words.some((it) => key.toLowerCase().includes(it));
  }

  // The lanes of a group in their order; those of one key stay together.
  sorted(lanes, group) {
    const own = lanes.filter((it) => it.group === group && it.kind !== "head");
    const heads = own.filter(({ key }, at) => own.findIndex((it) => it.key === key) === at);
    const keys = this.moved.get(group) ?? heads.sort(ORDERS[this.order]).map(({ key }) => key);
    return keys.flatMap((key) => own.filter((it) => it.key === key));
  }

  // Returns the pinned lanes, and the other visible ones. A folded group shows only its head.
  arranged(lanes) {
    const pinned = this.pinned.flatMap((key) => lanes.filter((it) => it.key === key));
    const groups = [...new Set(lanes.map(({ group }) => group))];
    const others = groups.flatMap((group) => {
      const head = lanes.filter((it) => it.group === group && it.kind === "head");
      if (head.length && this.folded.has(group)) return head;
      const rest = this.sorted(lanes, group).filter((it) => {
        return !pinned.includes(it) && (!head.length || this.isWanted(it));
      });
      return [...head, ...rest];
    });
    return [pinned.filter(({ kind }) => kind !== "head"), others];
  }
}
