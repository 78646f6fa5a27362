// Loads the extension under Node with a stand-in for VS Code (vscode_api.js), and with a stand-in for vscode-languageclient or,
// where the last word is `real`, with the real one. It is activated without a program and then with one; a document is opened,
// edits are asked for, and asked for while their answers are held back (tests/lib/holding.py). Prints what it found as JSON.
const { spawn, execSync } = require("child_process");
const fs = require("fs");
const Module = require("module");
const path = require("path");
const { vscode, done, user } = require("./vscode_api.js");

const [folder, file, wire, kind] = process.argv.slice(2);

// A client that says as little as one can. Like the real one it makes the edits of an answer without a look at versions.
class LanguageClient {
  constructor(id, name, server, options) { Object.assign(this, { server, options, ident: 0, waiting: {} }); }
  send(message) {
    const content = JSON.stringify({ jsonrpc: "2.0", ...message });
    this.process.stdin.write(`Content-Length: ${Buffer.byteLength(content)}\r\n\r\n${content}`);
  }
  ask(method, params) {
    const id = ++this.ident;
    this.send({ id, method, params });
    return new Promise((settle, fail) => (this.waiting[id] = [settle, fail]));
  }
  take(message) {
    this.options.connectionOptions.messageStrategy.handleMessage(message, (it) => this.handle(it));
  }
  sendNotification(method, params) {
    this.send({ method, params });
  }
  handle(message) {
    if (message.error) return this.waiting[message.id][1](new Error(message.error.message));
    if (message.id) return this.waiting[message.id][0](message.result);
    const diagnostics = message.params.diagnostics.map((it) => ({ code: it.code, message: it.message, range: it.range }));
    const uri = vscode.Uri.parse(message.params.uri);
    this.options.middleware.handleDiagnostics(uri, diagnostics, (at, found) => this.shown.set(at, found));
  }
  read(piece) {
    this.held = Buffer.concat([this.held || Buffer.alloc(0), piece]);
    for (;;) {
      const head = /^Content-Length: (\d+)\r\n\r\n/.exec(this.held.toString("latin1"));
      if (!head || this.held.length < head[0].length + Number(head[1])) return;
      const end = head[0].length + Number(head[1]);
      const message = JSON.parse(this.held.subarray(head[0].length, end).toString());
      this.held = this.held.subarray(end);
      this.take(message);
    }
  }
  async start() {
    this.process = spawn(this.server.command, this.server.args);
    await new Promise((settle, fail) => this.process.on("spawn", settle).on("error", fail));
    this.ended = new Promise((settle) => this.process.on("exit", settle));
    this.process.stdout.on("data", (piece) => this.read(piece));
    this.shown = vscode.languages.createDiagnosticCollection();
    const textDocument = { codeAction: { codeActionLiteralSupport: { codeActionKind: { valueSet: ["refactor"] } } } };
    await this.ask("initialize", { capabilities: { workspace: { workspaceEdit: { documentChanges: true } }, textDocument } });
    this.send({ method: "initialized", params: {} });
    const { middleware } = this.options;
    const tells = (name, tell) => (what) => middleware[name](what, (it) => tell.call(this, it));
    for (const document of vscode.workspace.textDocuments) tells("didOpen", this.opened)(document);
    vscode.workspace.onDidOpenTextDocument(tells("didOpen", this.opened));
    vscode.workspace.onDidChangeTextDocument(tells("didChange", this.changed));
    vscode.workspace.onDidCloseTextDocument(tells("didClose", this.closed));
    this.provide();
    this.running = true;
  }
  opened({ uri, version, text }) {
    const { language } = this.options.documentSelector[0];
    this.send({ method: "textDocument/didOpen", params: { textDocument: { uri: String(uri), languageId: language, version, text } } });
  }
  changed({ document: { uri, version, text } }) {
    const textDocument = { uri: String(uri), version };
    this.send({ method: "textDocument/didChange", params: { textDocument, contentChanges: [{ text }] } });
  }
  closed({ uri }) {
    this.send({ method: "textDocument/didClose", params: { textDocument: { uri: String(uri) } } });
  }
  asEdit(result) {
    const edit = new vscode.WorkspaceEdit();
    for (const it of result.documentChanges) edit.set(vscode.Uri.parse(it.textDocument.uri), it.edits);
    return edit;
  }
  provide() {
    const of = (document) => ({ uri: String(document.uri) });
    const through = (name, next) => (...given) => (this.options.middleware?.[name] ? this.options.middleware[name](...given, next) : next(...given));
    const provideRenameEdits = through("provideRenameEdits", async (document, position, newName) =>
      this.asEdit(await this.ask("textDocument/rename", { textDocument: of(document), position, newName })));
    const provideDocumentFormattingEdits = through("provideDocumentFormattingEdits", (document, options) =>
      this.ask("textDocument/formatting", { textDocument: of(document), options }));
    const provideCodeActions = through("provideCodeActions", async (document, range, context) =>
      (await this.ask("textDocument/codeAction", { textDocument: of(document), range, context }))
        .map((it) => Object.assign(new vscode.CodeAction(it.title), { edit: this.asEdit(it.edit) })));
    const found = (name, method) => through(name, (document, position) => this.ask(method, { textDocument: of(document), position }));
    const prepareRename = through("prepareRename", async (document, position) => {
      const range = await this.ask("textDocument/prepareRename", { textDocument: of(document), position });
      if (!range) throw new Error("The element can't be renamed.");
      return range;
    });
    vscode.languages.registerHoverProvider(null, { provideHover: found("provideHover", "textDocument/hover") });
    vscode.languages.registerDefinitionProvider(null, { provideDefinition: found("provideDefinition", "textDocument/definition") });
    vscode.languages.registerRenameProvider(null, { provideRenameEdits, prepareRename });
    vscode.languages.registerDocumentFormattingEditProvider(null, { provideDocumentFormattingEdits });
    vscode.languages.registerCodeActionsProvider(null, { provideCodeActions });
  }
  get diagnostics() { return this.shown; }
  needsStop() { return Boolean(this.running); }
  async stop() {
    if (!this.running) throw new Error("the client isn't running");
    this.running = false;
    await this.ask("shutdown");
    this.send({ method: "exit" });
    await this.ended;
  }
}

const load = Module._load;
Module._load = (name, ...more) =>
  name === "vscode" ? vscode : name === "vscode-languageclient/node" && kind !== "real" ? { LanguageClient } : load(name, ...more);

async function until(holds, what) {
  for (let count = 0; count < 30000; count++) {
    if (holds()) return;
    await new Promise((settle) => setTimeout(settle, 10));
  }
  throw new Error(`waited in vain for ${what}`);
}

const TEXT = "MODULE M;\nCONST k = 7;\nBEGIN Write(k) END M.\n";
const LAID_OUT = "MODULE M;\nCONST\n  k = 7;\nBEGIN\n  Write(k)\nEND M.\n";
const TWO = "MODULE M;\nCONST k = 7; j = 8;\nBEGIN Write(k) END M.\n";
let count = 0;

// A document of its own for each step, so that each begins at the first version.
async function fresh(isFirst, text = TEXT) {
  const name = path.join(path.dirname(file), `n${++count}.ob0`);
  fs.writeFileSync(name, text);
  const document = user.open(name);
  await until(() => done.diagnostics[name], "the diagnostics of a new document");
  if (!isFirst) user.type(document, 0, 0, " ");
  return document;
}

const rename = (document) => user.rename(document, 1, 6, "z");
const layOut = (document) => user.layOut(document);
const inline = async (document) => {
  for (const it of await user.actions(document, 2, 12)) if (it.title === "Inline here") await user.choose(it);
};
const ASKED = { rename: ["textDocument/rename", rename], layout: ["textDocument/formatting", layOut], inlining: ["textDocument/codeAction", inline] };

// Writes a file as a slow disk does: it is empty for some milliseconds, which differ from one time to the next.
const PAUSES = [0, 1, 3, 10];
let written = 0;
async function rewrite(name, text) {
  const file = fs.openSync(name, "w");
  await new Promise((settle) => setTimeout(settle, PAUSES[written++ % PAUSES.length]));
  fs.writeSync(file, text);
  fs.closeSync(file);
}

const typed = async (document) => (user.type(document, 1, 0, "(* new *)\n"), document);
const reopened = async (document) => {
  user.close(document);
  await rewrite(document.fileName, TEXT.replace("\n", "\n(* new *)\n"));
  return user.open(document.fileName);
};
const WHEN = { "first version": [true, typed], "later version": [false, typed], "reopened": [true, reopened] };

const heldAnswers = () => fs.readFileSync(path.join(wire, "wire"), "utf8").split('{"held"').length;

// What a document's text is where it was changed while an answer was on its way.
async function late([method, ask], [isFirst, change]) {
  const document = await fresh(isFirst);
  const [hold, before] = [path.join(wire, "hold"), heldAnswers()];
  fs.writeFileSync(hold, method);
  const asked = ask(document);
  await until(() => heldAnswers() > before, "an answer that is held");
  const shown = await change(document);
  fs.unlinkSync(hold);
  await asked;
  return shown.text;
}

// What is said of renames that are refused, each with a place.
async function refused() {
  const found = [];
  for (const name of ["Write", "j"]) {
    const document = await fresh(true, TWO);
    found.push(await user.rename(document, 1, 6, name).then(String, (why) => why.message));
  }
  return found;
}

// What is said of what is asked in a module with an error.
async function inFaulty(document) {
  const found = {};
  const asked = {
    layout: () => user.layOut(document),
    hover: () => user.find("Hover", document, 1, 6),
    definition: () => user.find("Definition", document, 1, 6),
    prepare: () => user.prepare(document, 1, 6),
  };
  for (const [name, ask] of Object.entries(asked)) {
    done.status = [];
    found[name] = [await ask().then(Boolean, (why) => why.message), done.status];
  }
  const sound = await fresh(true);
  found.unnamed = await user.prepare(sound, 0, 0).then(Boolean, (why) => why.message);
  return found;
}

// The messages that a faulty module has with their hints; right after it was changed; and with other hints.
async function hinted(faulty) {
  const related = () => (done.shown[faulty.fileName] || []).some(([, hints]) => hints.length);
  await until(related, "a hint");
  const found = [done.shown[faulty.fileName]];
  delete done.shown[faulty.fileName];
  user.type(faulty, 1, 6, "inc(1); ");
  await until(() => done.shown[faulty.fileName], "the diagnostics");
  found.push(done.shown[faulty.fileName]);
  await until(related, "another hint");
  return [...found, done.shown[faulty.fileName]];
}

// How often formatting changes a text that is formatted but for its line ends, and the text after it.
async function carriageReturns() {
  const document = await fresh(true, LAID_OUT.replace(/\n/g, "\r\n"));
  const { version } = document;
  const isAnswered = await user.layOut(document);
  return [isAnswered, document.version - version, document.text];
}

// What is told of a document with half a surrogate pair, and then without it; and what is said.
async function half() {
  const document = await fresh(true);
  const told = () => fs.readFileSync(path.join(wire, "wire"), "utf8").split(path.basename(document.fileName)).length;
  const found = [];
  for (const [text, count] of [["\ud83d", 4], [" ", 2]]) {
    const before = told();
    done.messages = [];
    user.type(document, 0, 0, text);
    await until(() => told() >= before + count, "what is told");
    await new Promise((settle) => setTimeout(settle, 300));
    found.push(done.messages.map((it) => it.replace(document.fileName, "FILE")));
  }
  document.text = TEXT;
  delete done.diagnostics[document.fileName];
  user.type(document, 0, 0, " ");
  await until(() => done.diagnostics[document.fileName], "the diagnostics");
  return [...found, done.diagnostics[document.fileName]];
}

async function edits() {
  const found = { made: {}, late: {} };
  for (const [name, [method, ask]] of Object.entries(ASKED)) {
    const document = await fresh(true);
    await ask(document);
    found.made[name] = document.text;
    for (const [when, how] of Object.entries(WHEN)) found.late[`${name}, ${when}`] = await late([method, ask], how);
  }
  // (a list of actions that is there, and the text changes)
  const document = await fresh(true);
  const [action] = await user.actions(document, 2, 12);
  await typed(document);
  done.messages = [];
  await user.choose(action);
  found.late["list of actions"] = document.text;
  found.said = done.messages;
  return found;
}

async function withoutProgram(extension) {
  user.set("path", "no-such-program");
  const ended = await extension.activate({ subscriptions: [] }).then(() => "activated", String);
  const stopped = await Promise.resolve().then(extension.deactivate).then(() => "deactivated", String);
  return { ended, stopped, said: done.messages };
}

// What a task prints in a terminal of its own, and its status.
async function ranByItself(execution) {
  const terminal = await execution.terminal();
  let text = "";
  terminal.onDidWrite((piece) => (text += piece));
  const ended = new Promise((settle) => terminal.onDidClose(settle));
  terminal.open();
  return [await ended, text.trim().split("\r\n")];
}

async function tasksThatRun(manifest) {
  const matcher = manifest.contributes.problemMatchers[0];
  for (const command of ["ob0.check", "ob0.run"]) await done.commands[command]();
  const [check, run] = done.executed;
  const [status, lines] = await ranByItself(check.execution);
  // (what the problem matcher makes of what the task prints)
  const matched = lines
    .map((line) => new RegExp(matcher.pattern.regexp).exec(line))
    .map((it) => it && ["file", "line", "column", "code", "message"].map((part) => it[matcher.pattern[part]]));
  const { command, args } = run.execution;
  const given = done.tasks.provider.resolveTask({ definition: { type: "ob0", command: "run", label: "mine" } });
  return {
    executed: done.executed.map((it) => it.name),
    matchers: check.matchers,
    ...{ matched, status, words: [command.value, args[0], args[1].value] },
    provided: done.tasks.provider.provideTasks().map((it) => it.name),
    resolved: [given.definition.label, given.execution.args[1].value],
  };
}

// The files that are run where the one that is shown has no name yet, or can't be written; and what is said then.
async function unsaved(faulty) {
  const [named, before] = [path.join(path.dirname(file), "named.mod"), done.executed.length];
  done.messages = [];
  for (const savedAs of [undefined, named]) {
    user.openUntitled("MODULE M; END M.\n", savedAs);
    await done.commands["ob0.run"]();
  }
  vscode.window.activeTextEditor = { document: faulty };
  faulty.isFull = true;
  await done.commands["ob0.run"]();
  faulty.isFull = false;
  return { ran: done.executed.slice(before).map((it) => it.execution.args[1].value), said: done.messages };
}

// Two changes of a setting in a row, and the servers that run then.
async function restarted() {
  const [before, wire_] = [done.messages.length, path.join(wire, "wire")];
  user.set("path", "ob0");
  user.set("path", "ob0");
  await done.commands["ob0.restart"]();
  return { said: done.messages.slice(before), shutdowns: fs.readFileSync(wire_, "utf8").split('"shutdown"').length - 1 };
}

async function main() {
  const manifest = JSON.parse(fs.readFileSync(path.join(folder, "package.json"), "utf8"));
  const extension = require(path.join(folder, manifest.main));
  const found = { without: await withoutProgram(extension) };
  const faulty = user.open(file);
  user.set("path", "ob0");
  await until(() => done.diagnostics[file], "the diagnostics");
  found.published = done.diagnostics[file];
  found.tasks = await tasksThatRun(manifest);
  found.unsaved = await unsaved(faulty);
  done.messages = [];
  found.faulty = await inFaulty(faulty);
  found.told = done.messages;
  found.refused = await refused();
  found.carriageReturns = await carriageReturns();
  const wrong = path.join(path.dirname(file), "wrong.ob0");
  fs.writeFileSync(wrong, "MODULE M;\nBEGIN inc(1) END M.\n");
  found.hinted = await hinted(user.open(wrong));
  // (that depends on an option of the client which was never tried with the real one)
  if (kind !== "real") found.half = await half();
  found.edits = await edits();
  found.restarted = await restarted();
  found.stopped = await extension.deactivate().then(() => "deactivated", String);
  found.settings = Object.keys(manifest.contributes.configuration.properties);
  console.log(JSON.stringify(found));
}

main().catch((why) => {
  console.error(why);
  process.exit(1);
});
