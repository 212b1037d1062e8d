// The talk: lines and replies, notices, who is here, and who has the wheel.

const MOST_SAID = 500;
const MOST_KEPT = 10000;
// A reply of which a notice tells.
const DONE = /^ok [^\n]*$/;

// What is marked of a notice: what was said to one alone, what was done here, what others did.
function kindOf(text, me) {
  if (text.startsWith("no: ")) return "refused";
  if (/^\w+ to \w+: /.test(text)) return "private";
  if (/^\w+ says: /.test(text)) return "said";
  return text.startsWith(`${me}: `) ? "mine" : "others";
}

function clock(when) {
  const two = (number) => String(number).padStart(2, "0");
  return `${two(when.getHours())}:${two(when.getMinutes())}`;
}

class Talk {
  constructor(list, unread) {
    this.list = list;
    this.unread = unread;
    this.kept = [];
    this.count = 0;
    this.fold = list.closest("details");
    this.fold.addEventListener("toggle", () => this.see());
  }

  // Says a line, at a time; `kind` is `mine`, `reply`, `refused`, `others`, `said` or `private`.
  say(kind, text, at = Date.now()) {
    const { list } = this;
    const when = new Date(at);
    this.kept = [...this.kept.slice(1 - MOST_KEPT), `${when.toISOString()}\t${text}`];
    const isAtEnd = list.scrollTop + list.clientHeight >= list.scrollHeight - 4;
    const item = list.appendChild(made("li"));
    item.className = kind;
    item.appendChild(made("time", clock(when))).dateTime = when.toISOString();
    item.append(text);
    while (list.children.length > MOST_SAID) list.firstChild.remove();
    if (isAtEnd) list.scrollTop = list.scrollHeight;
    if (kind === "said" || kind === "private") this.count += 1;
    this.see();
  }

  // Says how much was said to somebody while it was folded away.
  see() {
    if (this.fold.open) this.count = 0;
    this.unread.textContent = this.count ? ` (${this.count} new)` : "";
    if (this.fold.open) this.list.scrollTop = this.list.scrollHeight;
  }

  // Offers all of it as a file.
  save(file) {
    saveText(`${file.replace(/\.[^.]*$/, "")}.talk.txt`, `${this.kept.join("\n")}\n`);
  }
}

function wheelWords(me, holder) {
  if (!holder) return "The wheel is free: anyone can move.";
  if (holder.name === me) return "You have the wheel: only you can move.";
  const away = holder.isHere ? "" : " and is away";
  return `${holder.name} has the wheel${away}: your moves are refused.`;
}

// Describes how long a member has been idle.
function idleWords(minutes) {
  return minutes ? `idle for ${minutes} min` : "idle";
}

// How a watch says that a task is at an instruction.
function breakWords({ task, number }) {
  return `pc ${task} = ${number}`;
}

// The list of members, here and away, and the state of the wheel.
class People {
  constructor(element, wheel, whom) {
    this.element = element;
    this.wheel = wheel;
    this.whom = whom;
  }

  show(me, people) {
    this.element.replaceChildren(...people.map((it) => this.item(me, it)));
    const holder = people.find(({ hasWheel }) => hasWheel);
    this.holder = holder?.name;
    this.wheel.textContent = wheelWords(me, holder);
    byId("take").hidden = Boolean(holder);
    byId("give").hidden = this.holder !== me;
    byId("wish").hidden = !holder || this.holder === me;
    this.offer(["", ...people.filter((it) => it.isHere && it.name !== me).map((it) => it.name)]);
  }

  // Fills the list of recipients.
  offer(names) {
    const chosen = this.whom.value;
    const options = names.map((name) => made("option", name || "all"));
    options.forEach((it, at) => (it.value = names[at]));
    this.whom.replaceChildren(...options);
    if (names.includes(chosen)) this.whom.value = chosen;
  }

  item(me, { name, session, isHere, hasWheel, idle }) {
    const texts = [""];
    if (name === me) texts.push("you");
    if (!isHere) texts.push("away");
    if (isHere && Number.isInteger(idle)) texts.push(idleWords(idle));
    if (hasWheel) texts.push("has the wheel");
    const item = made("li", name);
    item.appendChild(made("span", ` (session ${session})`)).className = "session";
    item.append(texts.join(", "));
    item.classList.toggle("away", !isHere);
    item.classList.toggle("holder", hasWheel);
    return item;
  }
}

// The watches of this page, each with whether it holds now.
class Watches {
  constructor(list, tell) {
    this.list = list;
    this.tell = tell;
    this.conditions = {};
    this.holds = new Map();
  }

  get areThere() {
    return Object.keys(this.conditions).length > 0;
  }

  // Takes the conditions by number.
  take(conditions) {
    this.conditions = conditions;
    this.show();
  }

  // The number of the watch of a condition, if there is one.
  numberOf(condition) {
    return Object.keys(this.conditions).find((it) => this.conditions[it] === condition);
  }

  // Takes the reply to `show watches`.
  takeStates(reply) {
    const found = /^watches (\S+)$/.exec(reply)?.[1] ?? "";
    this.holds = new Map(found.split(",").map((it) => it.split(":")));
    this.show();
  }

  show() {
    const items = Object.entries(this.conditions).map(([number, text]) => {
      const item = made("li", `w${number} ${text}: ${this.holds.get(number) ?? "?"} `);
      const button = item.appendChild(made("button", "delete"));
      button.type = "button";
      button.setAttribute("aria-label", `delete watch ${number}`);
      button.addEventListener("click", () => this.tell(`unwatch ${number}`));
      return item;
    });
    this.list.replaceChildren(...items);
  }
}
