// Marks errors in open .fw files: rdbg checks the text as it is in the editor.

const childProcess = require("child_process");
const path = require("path");
const vscode = require("vscode");

const LANGUAGE = "rdbg-fw";
// (an older version of the file, such as one that a diff shows, has another scheme)
const SCHEMES = ["file", "untitled"];
const SETTING = "rdbg.check.program";
// A text is checked once it has not changed for this many milliseconds.
const PAUSE = 300;
const WORDS = ["check", "--json", "--name", "text.fw", "-"];

function isChecked(document) {
  return document.languageId === LANGUAGE && SCHEMES.includes(document.uri.scheme);
}

function programName() {
  return vscode.workspace.getConfiguration().get(SETTING) || path.join(__dirname, "adapter");
}

// Checks a text with rdbg, and returns its output. The process is kept in `run`, to be killed.
function printedOf(text, run) {
  return new Promise((resolve, reject) => {
    run.child = childProcess.execFile(programName(), WORDS, (error, printed, complaint) => {
      // (the code is a number if rdbg ran: 1 if there are errors in the text)
      if (error && typeof error.code === "string") reject(error);
      else resolve([printed, complaint]);
    });
    // (rdbg may exit before it has read everything)
    run.child.stdin.on("error", () => {});
    run.child.stdin.end(text);
  });
}

// Returns the diagnostic of an error, from its column to the end of the word there. rdbg counts
// characters, and VS Code counts UTF-16 units.
function markOf(fault, lines) {
  const at = fault.line - 1;
  const line = lines[at] || "";
  const begin = [...line].slice(0, fault.column - 1).join("").length;
  const end = begin + /^\w*/.exec(line.slice(begin))[0].length;
  const { Error: wrong, Information: noted } = vscode.DiagnosticSeverity;
  const severity = fault.severity === "note" ? noted : wrong;
  const mark = new vscode.Diagnostic(new vscode.Range(at, begin, at, end), fault.message, severity);
  mark.source = "rdbg";
  mark.code = fault.kind;
  return mark;
}

async function marksOf(text, run) {
  const [printed, complaint] = await printedOf(text, run);
  try {
    const lines = text.split(/\r?\n/);
    return JSON.parse(printed).files[0].faults.map((fault) => markOf(fault, lines));
  } catch {
    throw new Error(complaint.trim() || "its output is not the expected JSON");
  }
}

// The diagnostics of all documents. Only the result of the last run for a document counts.
class Marks {
  constructor() {
    // (the same name as the owner of the problem matcher, so that no error is listed twice)
    this.marks = vscode.languages.createDiagnosticCollection("rdbg");
    this.output = vscode.window.createOutputChannel("rdbg");
    this.runs = new Map();
    this.isTold = false;
  }

  // Checks a document after a pause in typing.
  check(document) {
    if (!isChecked(document)) return;
    this.end(document.uri.toString());
    const run = {};
    run.timer = setTimeout(() => this.run(document, run), PAUSE);
    this.runs.set(document.uri.toString(), run);
  }

  async run(document, run) {
    let marks = [];
    let trouble = "";
    try {
      marks = await marksOf(document.getText(), run);
    } catch (error) {
      trouble = error.message;
    }
    if (this.runs.get(document.uri.toString()) !== run) return;
    this.marks.set(document.uri, marks);
    this.tell(trouble);
  }

  // Reports a failure of the check once, until a check succeeds.
  tell(trouble) {
    if (trouble && !this.isTold) {
      this.output.appendLine(`cannot check for errors: ${programName()} ${WORDS.join(" ")}: ${trouble}`);
    }
    this.isTold = trouble !== "";
  }

  // Cancels the check of a document, if there is one.
  end(name) {
    const { timer, child } = this.runs.get(name) || {};
    clearTimeout(timer);
    if (child) child.kill();
    this.runs.delete(name);
  }

  close(document) {
    this.end(document.uri.toString());
    this.marks.delete(document.uri);
  }

  checkAll() {
    this.isTold = false;
    vscode.workspace.textDocuments.forEach((document) => this.check(document));
  }

  dispose() {
    [...this.runs.keys()].forEach((name) => this.end(name));
    this.marks.dispose();
    this.output.dispose();
  }
}

function activate(context) {
  const { workspace } = vscode;
  const marks = new Marks();
  context.subscriptions.push(
    marks,
    workspace.onDidOpenTextDocument((document) => marks.check(document)),
    workspace.onDidChangeTextDocument((change) => marks.check(change.document)),
    workspace.onDidCloseTextDocument((document) => marks.close(document)),
    workspace.onDidChangeConfiguration((change) => {
      if (change.affectsConfiguration(SETTING)) marks.checkAll();
    }),
  );
  marks.checkAll();
}

module.exports = { activate };
