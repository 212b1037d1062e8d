// A stand-in for VS Code, with as much of it as the extension uses: what a user does in it, and what
// they see. It has no message boxes: who asks for one fails.

const assert = require("assert");
const { contributes } = require("../../editors/vscode/package.json");

const SETTINGS = contributes.configuration.properties;
const heard = {};
const chosen = {};
const documents = [];
const seen = { marks: new Map(), output: [] };

// What takes a listener, which can be taken away again.
function event(name) {
  heard[name] = new Set();
  return (listener) => {
    heard[name].add(listener);
    return { dispose: () => heard[name].delete(listener) };
  };
}

function tell(name, value) {
  for (const listener of heard[name]) listener(value);
}

class Range {
  constructor(...numbers) {
    assert(numbers.length === 4 && numbers.every((it) => Number.isInteger(it) && it >= 0));
    this.numbers = numbers;
  }
}

class Diagnostic {
  constructor(range, message, severity) {
    assert(range instanceof Range && typeof message === "string");
    Object.assign(this, { range, message, severity });
  }
}

const DiagnosticSeverity = { Error: 0, Warning: 1, Information: 2, Hint: 3 };

const workspace = {
  textDocuments: documents,
  onDidOpenTextDocument: event("open"),
  onDidChangeTextDocument: event("change"),
  onDidCloseTextDocument: event("close"),
  onDidChangeConfiguration: event("setting"),
  getConfiguration: () => ({
    get: (name) => {
      assert(name in SETTINGS, name);
      return name in chosen ? chosen[name] : SETTINGS[name].default;
    },
  }),
};

const languages = {
  createDiagnosticCollection: (name) => {
    assert.equal(name, contributes.problemMatchers[0].owner);
    return {
      set: (uri, marks) => seen.marks.set(uri.toString(), marks),
      delete: (uri) => seen.marks.delete(uri.toString()),
      dispose: () => seen.marks.clear(),
    };
  },
};

const window = {
  createOutputChannel: () => ({ appendLine: (line) => seen.output.push(line), dispose: () => {} }),
};

// What a user does.
const user = {
  open: (text, { languageId = "rdbg-fw", scheme = "file", name = "a.fw" } = {}) => {
    const uri = { scheme, toString: () => `${scheme}:/${name}` };
    const document = { uri, languageId, text, getText: () => document.text };
    documents.push(document);
    tell("open", document);
    return document;
  },
  type: (document, text) => {
    document.text = text;
    tell("change", { document });
  },
  close: (document) => {
    documents.splice(documents.indexOf(document), 1);
    tell("close", document);
  },
  choose: (name, value) => {
    chosen[name] = value;
    tell("setting", { affectsConfiguration: (section) => `${name}.`.startsWith(`${section}.`) });
  },
};

// What they see: the marks of a document, each with its place, from 0; none where none were set.
const SEVERITIES = Object.keys(DiagnosticSeverity);
function marksIn(document) {
  const marks = seen.marks.get(document.uri.toString());
  return marks && marks.map((it) => [...it.range.numbers, SEVERITIES[it.severity], it.message]);
}

// Begins anew with an extension, which is ended behind the test.
function begin(test, extension) {
  documents.splice(0);
  seen.output.splice(0);
  for (const name in chosen) delete chosen[name];
  const context = { subscriptions: [] };
  const end = () => context.subscriptions.splice(0).forEach((it) => it.dispose());
  test.after(() => {
    end();
    assert.deepEqual(Object.values(heard).map((it) => it.size), [0, 0, 0, 0]);
    assert.equal(seen.marks.size, 0);
  });
  return { activate: () => extension.activate(context), end };
}

const { output } = seen;
module.exports = {
  Diagnostic, DiagnosticSeverity, Range, begin, languages, marksIn, output, user, window, workspace,
};
