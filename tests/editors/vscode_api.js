// A stand-in for what VS Code gives to extensions: documents that are opened, changed and closed, providers that are asked, and
// edits that are made. Of each document there is one editor. What VS Code itself does isn't shown by this.
const fs = require("fs");

const disposable = () => ({ dispose() {} });
// what isn't named below: a class, or a function that registers something
const filledIn = (object, other) => new Proxy(object, { get: (it, name) => (name in it || typeof name === "symbol" ? it[name] : (it[name] = other(name))) });

class Position {
  constructor(line, character) { Object.assign(this, { line, character }); }
}
class Range {
  constructor(...given) {
    const [start, end] = given.length === 4 ? [new Position(given[0], given[1]), new Position(given[2], given[3])] : given;
    Object.assign(this, { start, end });
  }
}
class TextEdit {
  constructor(range, newText) { Object.assign(this, { range, newText }); }
}
class WorkspaceEdit {
  edits = [];
  replace(uri, range, newText) { this.edits.push({ uri, range, newText }); }
  set(uri, edits) { for (const it of edits) this.replace(uri, it.range, it.newText); }
}
class Uri {
  constructor(text) { Object.assign(this, { text, scheme: text.split(":")[0], fsPath: decodeURIComponent(text.replace("file://", "")) }); }
  static parse(text) { return new Uri(text); }
  static file(path) { return new Uri("file://" + encodeURI(path)); }
  toString() { return this.text; }
}
class CodeActionKind {
  constructor(value) { this.value = value; }
  append(part) { return new CodeActionKind(this.value ? `${this.value}.${part}` : part); }
  static Empty = new CodeActionKind("");
}
class CodeAction {
  constructor(title, kind) { Object.assign(this, { title, kind }); }
}
class Diagnostic {
  constructor(range, message) { Object.assign(this, { range, message }); }
}
class Location {
  constructor(uri, range) { Object.assign(this, { uri, range }); }
}
class DiagnosticRelatedInformation {
  constructor(location, message) { Object.assign(this, { location, message }); }
}
class EventEmitter {
  takers = [];
  event = (taker, self) => (this.takers.push(taker.bind(self)), { dispose: () => {} });
  fire(what) { for (const it of this.takers) it(what); }
  dispose() {}
}
class CancellationTokenSource {
  token = { isCancellationRequested: false, onCancellationRequested: disposable };
  cancel() {}
  dispose() {}
}
class Disposable {
  constructor(dispose) { this.dispose = dispose || (() => {}); }
  static from() { return new Disposable(); }
}
class Task {
  constructor(definition, scope, name, source, execution, matchers) { Object.assign(this, { definition, name, execution, matchers }); }
}
class ShellExecution {
  constructor(command, args) { Object.assign(this, { command, args }); }
}
class CustomExecution {
  constructor(terminal) { this.terminal = terminal; }
}

class Document {
  languageId = "oberon0";
  version = 1;
  isClosed = false;
  isUntitled = false;
  constructor(file, text) { Object.assign(this, { uri: Uri.file(file), fileName: file, text }); }
  getText(range) { return range ? this.text.slice(this.offsetAt(range.start), this.offsetAt(range.end)) : this.text; }
  offsetAt({ line, character }) { return this.text.split("\n").slice(0, line).reduce((sum, it) => sum + it.length + 1, character); }
  positionAt(offset) {
    const lines = this.text.slice(0, offset).split("\n");
    return new Position(lines.length - 1, lines[lines.length - 1].length);
  }
  lineAt(line) { return { text: this.text.split("\n")[line] }; }
  get lineCount() { return this.text.split("\n").length; }
  // (a user who is asked for a name gives `savedAs`, or cancels; a disk may be full)
  async save() {
    if (this.isFull) return false;
    if (!this.isUntitled) return fs.writeFileSync(this.fileName, this.text), true;
    if (!this.savedAs) return false;
    fs.writeFileSync(this.savedAs, this.text);
    user.close(this);
    user.open(this.savedAs);
    return true;
  }
}

const settings = { path: "ob0" };
const events = {};
const event = (name) => (events[name] = events[name] || new EventEmitter()).event;
// what the extension and its client did: messages shown, tasks started, commands and providers, diagnostics by the names of files
const done = { messages: [], status: [], executed: [], commands: {}, providers: {}, diagnostics: {}, shown: {}, refused: [] };

const workspace = filledIn(
  {
    textDocuments: [],
    notebookDocuments: [],
    workspaceFolders: undefined,
    getConfiguration: (part) => ({ get: (name, otherwise) => (part === "ob0" && name in settings ? settings[name] : otherwise) }),
    async applyEdit(edit) {
      for (const document of workspace.textDocuments) makeEdits(document, edit.edits.filter((it) => String(it.uri) === String(document.uri)));
      return true;
    },
  },
  (name) => (name.startsWith("on") ? event(name) : disposable),
);
const window = filledIn(
  {
    activeTextEditor: undefined,
    visibleTextEditors: [],
    tabGroups: { all: [], onDidChangeTabs: disposable, onDidChangeTabGroups: disposable },
    createOutputChannel: () => filledIn({}, () => () => {}),
    setStatusBarMessage: (text) => (done.status.push(text), disposable()),
  },
  (name) => (name.startsWith("show") ? async (text) => void done.messages.push(text) : name.startsWith("on") ? event(name) : disposable),
);
const languages = filledIn(
  {
    match: (selector, document) => [selector].flat().some((it) => it.language === document.languageId && it.scheme === document.uri.scheme),
    createDiagnosticCollection: () =>
      filledIn(
        {
          set: (uri, found) => {
            done.diagnostics[uri.fsPath] = (found || []).map((it) => it.code);
            done.shown[uri.fsPath] = (found || []).map((it) => [it.message, (it.relatedInformation || []).map((more) => more.message)]);
          },
          get: (uri) => done.diagnostics[uri.fsPath],
        },
        () => () => {},
      ),
  },
  (name) => (selector, provider) => ((done.providers[name] = provider), disposable()),
);
const commands = filledIn({ registerCommand: (name, run) => ((done.commands[name] = run), disposable()) }, () => disposable);
const tasks = filledIn(
  {
    registerTaskProvider: (type, provider) => ((done.tasks = { type, provider }), disposable()),
    executeTask: async (task) => void done.executed.push(task),
  },
  () => disposable,
);
const named = {
  ...{ workspace, window, languages, commands, tasks, version: "1.82.0", env: { appName: "stand-in", language: "en" } },
  ...{ Position, Range, TextEdit, WorkspaceEdit, Uri, CodeActionKind, CodeAction, Diagnostic, EventEmitter, CancellationTokenSource },
  ...{ Location, DiagnosticRelatedInformation, Disposable, Task, ShellExecution, CustomExecution, ShellQuoting: { Strong: 2 }, TaskScope: { Workspace: 2 } },
};
const vscode = filledIn(named, () => class {});

function makeEdits(document, edits) {
  const sorted = edits.map((it) => [document.offsetAt(it.range.start), document.offsetAt(it.range.end), it.newText]).sort((a, b) => b[0] - a[0]);
  if (!sorted.length) return;
  const contentChanges = sorted.map(([start, end, text]) => ({
    ...{ range: new Range(document.positionAt(start), document.positionAt(end)), rangeOffset: start, rangeLength: end - start, text },
  }));
  for (const [start, end, text] of sorted) document.text = document.text.slice(0, start) + text + document.text.slice(end);
  document.version++;
  events.onDidChangeTextDocument?.fire({ document, contentChanges });
}

const token = new CancellationTokenSource().token;

// What a user does, by the providers and commands that are registered.
const user = {
  open(file) {
    const document = new Document(file, fs.readFileSync(file, "utf8"));
    workspace.textDocuments.push(document);
    window.activeTextEditor = { document };
    events.onDidOpenTextDocument?.fire(document);
    return document;
  },
  openUntitled(text, savedAs) {
    const document = new Document("Untitled-1", text);
    Object.assign(document, { uri: Uri.parse("untitled:Untitled-1"), isUntitled: true, savedAs });
    workspace.textDocuments.push(document);
    window.activeTextEditor = { document };
    return document;
  },
  type(document, line, character, text) {
    const at = new Position(line, character);
    makeEdits(document, [{ range: new Range(at, at), newText: text }]);
  },
  close(document) {
    workspace.textDocuments.splice(workspace.textDocuments.indexOf(document), 1);
    document.isClosed = true;
    events.onDidCloseTextDocument?.fire(document);
  },
  async prepare(document, line, character) {
    return done.providers.registerRenameProvider.prepareRename(document, new Position(line, character), token);
  },
  async find(what, document, line, character) {
    return done.providers[`register${what}Provider`][`provide${what}`](document, new Position(line, character), token);
  },
  async rename(document, line, character, name) {
    const edit = await done.providers.registerRenameProvider.provideRenameEdits(document, new Position(line, character), name, token);
    if (edit) await workspace.applyEdit(edit);
    return Boolean(edit);
  },
  async layOut(document) {
    const options = { tabSize: 2, insertSpaces: true };
    const edits = await done.providers.registerDocumentFormattingEditProvider.provideDocumentFormattingEdits(document, options, token);
    const shown = workspace.textDocuments.find((it) => String(it.uri) === String(document.uri));
    if (edits && shown) makeEdits(shown, edits);
    return Boolean(edits);
  },
  async actions(document, line, character) {
    const at = new Position(line, character);
    const context = { diagnostics: [], only: undefined, triggerKind: 1 };
    const found = await done.providers.registerCodeActionsProvider.provideCodeActions(document, new Range(at, at), context, token);
    return found || [];
  },
  async choose(action) {
    if (action.edit) await workspace.applyEdit(action.edit);
    if (action.command) await done.commands[action.command.command](...action.command.arguments);
  },
  set(name, value) {
    settings[name] = value;
    events.onDidChangeConfiguration?.fire({ affectsConfiguration: (it) => it === `ob0.${name}` });
  },
};

module.exports = { vscode, done, user };
