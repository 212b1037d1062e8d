// The scripts of a page for tests in node, and a run whose values are made here.

const fs = require("fs");
const vm = require("vm");

// These names of a page's scripts, which are all in one scope there, too. The last script begins
// the page, and is left out. Who starts node says which files they are.
function namesOf(page, names) {
  global.addEventListener = () => {};
  for (const file of JSON.parse(process.env.RDBG_PAGES)[page].slice(0, -1)) {
    vm.runInThisContext(`"use strict";${fs.readFileSync(file, "utf8")}`, { filename: file });
  }
  return vm.runInThisContext(`({ ${names.join(", ")} })`);
}

// Values of a run as they are sent. Of what changes, each value stands by the place from which it
// holds.
function valuesOf({ first = 0, last, cores, tasks = [], objects = [], moves = [], trims = [] }) {
  const values = [];
  const number = (value) => values.push(value) - 1;
  const flat = (track) => {
    const found = [];
    let before = first;
    for (const [place, value] of Object.entries(track)) {
      if (found.length) found.push(place - before);
      found.push(number(value));
      before = place;
    }
    return found;
  };
  const flats = (tracks) => {
    return Object.fromEntries(Object.entries(tracks).map(([name, it]) => [name, flat(it)]));
  };
  const withFlats = (it) => ({ code: [], ...it, tracks: flats(it.tracks) });
  return {
    first,
    last,
    trims,
    cores: flats(cores),
    tasks: tasks.map(withFlats),
    objects: objects.map(withFlats),
    moves: moves.map(number),
    values,
  };
}

const REGISTERS = "0,0,0,0,0,0,0,0";

// The worker waits for an item, which the producer sends; the tick grows, and the worker's r3 is
// set by hand.
const SENT = {
  last: 5,
  cores: {
    running: { 0: ["worker"], 1: ["producer"], 3: ["worker"] },
    ready: { 0: ["producer"], 1: [], 3: ["producer"] },
    tick: { 0: 0, 4: 1 },
    turn: { 0: 0, 1: 1, 4: 0 },
  },
  tasks: [
    {
      name: "worker",
      priority: 2,
      tracks: {
        core: { 0: 0, 1: null, 3: 0 },
        pc: { 0: 0 },
        phase: { 0: "run", 1: "wait:recv:jobs:max", 3: "again:max" },
        registers: { 0: REGISTERS, 5: "0,0,0,7,0,0,0,0" },
        data: { 0: "" },
        notes: { 0: "0:idle" },
      },
    },
    {
      name: "producer",
      priority: 1,
      tracks: {
        core: { 0: null, 1: 0, 3: null },
        pc: { 0: 0, 2: 1, 3: 2 },
        phase: { 0: "run" },
        registers: { 0: REGISTERS, 3: "1,0,0,0,0,0,0,0" },
        data: { 0: "", 2: "41" },
        notes: { 0: "0:idle" },
      },
    },
  ],
  objects: [
    {
      kind: "queue",
      name: "jobs",
      most: 1,
      tracks: {
        items: { 0: [], 3: ["41"] },
        recv: { 0: [], 1: ["worker"], 3: [] },
        send: { 0: [] },
        set: { 0: null },
      },
    },
  ],
  moves: [
    [0, 0, 0, 0, "recv jobs max", [["left core 0 (waits)"], ["producer took core 0"]],
      "worker 0 recv jobs max"],
    [0, 0, 1, 0, "data 41", [["data 41"]], "producer 0 data 41"],
    [0, 0, 1, 1, "send jobs 0 -> 1", [["jobs 1/1"], ["woke worker (core 0)", 0]],
      "producer 1 send jobs 0 -> 1"],
    [1, null, null, null, "", [], "tick"],
    [2, null, null, null, "poke reg worker 3 7", [], "poke reg worker 3 7"],
  ],
  trims: [[5, "trim 1"]],
};

module.exports = { SENT, namesOf, valuesOf };
