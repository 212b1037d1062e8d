// The controls that arrange lanes: choose one, pin, move or fold it.

class LanePanel {
  constructor(timeline, again) {
    this.timeline = timeline;
    this.again = again;
    this.choice = byId("lane");
    this.shown = "";
    const order = byId("lane-order");
    for (const name of Object.keys(ORDERS)) order.appendChild(made("option", name));
    order.addEventListener("change", () => this.change((it) => it.sortBy(order.value)));
    const filter = byId("lane-filter");
    filter.addEventListener("input", () => this.change((it) => it.filter(filter.value)));
    const acts = { pin: () => this.pin(this.choice.value), up: () => this.move(-1) };
    Object.assign(acts, { down: () => this.move(1), fold: () => this.fold(this.choice.value) });
    for (const id in acts) byId(`lane-${id}`).addEventListener("click", acts[id]);
  }

  change(act) {
    act(this.timeline.arrangement);
    this.timeline.layOut();
    this.again();
  }

  pin(key) {
    if (this.timeline.allLanes.some((it) => it.key === key && it.kind !== "head")) {
      this.change((it) => it.pin(key));
    }
  }

  // Folds the group that a lane is of.
  fold(key) {
    const lane = this.timeline.allLanes.find((it) => it.key === key);
    if (lane) this.change((it) => it.fold(lane.group));
  }

  move(by) {
    this.change((it) => it.move(this.timeline.allLanes, this.choice.value, by));
  }

  // Chooses the lane that was clicked at, which is pinned or let go; a head folds its group.
  click(lane) {
    this.choice.value = lane.key;
    if (lane.kind === "head") this.fold(lane.key);
    else this.pin(lane.key);
  }

  // Pins what a move was of: its core, its task, whom it woke.
  pinMoved(run, move) {
    if (!move) return;
    const woken = move.effects.filter((it) => it.length > 1).map(([, task]) => task);
    const tasks = [...new Set([...(move.task === null ? [] : [move.task]), ...woken])];
    const keys = tasks.map((task) => `task ${run.tasks[task].name}`);
    if (move.core !== null) keys.unshift(`core ${move.core}`);
    this.change((it) => (it.pinned = keys));
  }

  // Offers the lanes that there are.
  show() {
    const lanes = this.timeline.allLanes.filter(({ kind }) => kind !== "flags");
    const keys = [...new Set(lanes.map(({ key }) => key))];
    const text = keys.join("\n");
    if (text === this.shown) return;
    const chosen = this.choice.value;
    this.shown = text;
    this.choice.replaceChildren(...keys.map((key) => made("option", key)));
    if (keys.includes(chosen)) this.choice.value = chosen;
  }
}
