// Starts `ob0 serve` for documents of Oberon-0, and has tasks that check and run the file that is shown.
const { execFile } = require("child_process");
const path = require("path");
const vscode = require("vscode");
const { LanguageClient } = require("vscode-languageclient/node");

let client;

function notThere(name) {
  return `There is no program ${name}: set ob0.path to its path.`;
}

function program() {
  return vscode.workspace.getConfiguration("ob0").get("path", "ob0");
}

// `ob0 check` counts lines and columns from 0 and prints no file. A problem matcher needs both as compilers write them.
function asCompilers(file, text) {
  return text.replace(/^(\d+):(\d+): /gm, (_, line, column) => `${file}:${Number(line) + 1}:${Number(column) + 1}: `);
}

// A terminal in which a file is checked: no shell reads the file's name, and its status is the program's.
class Check {
  written = new vscode.EventEmitter();
  ended = new vscode.EventEmitter();
  onDidWrite = this.written.event;
  onDidClose = this.ended.event;
  constructor(file) {
    this.file = file;
  }
  open() {
    const name = program();
    this.process = execFile(name, ["check", this.file], { maxBuffer: 1 << 24 }, (error, out, said) => {
      const missing = error && error.syscall ? notThere(name) + "\n" : "";
      this.written.fire((asCompilers(this.file, out) + said + missing).replace(/\n/g, "\r\n"));
      this.ended.fire(error ? (Number.isInteger(error.code) ? error.code : 1) : 0);
    });
  }
  close() {
    this.process.kill();
  }
}

function executionOf(command, file) {
  if (command === "check") return new vscode.CustomExecution(async () => new Check(file));
  const [name, shown] = [program(), file].map((value) => ({ value, quoting: vscode.ShellQuoting.Strong }));
  return new vscode.ShellExecution(name, ["run", shown]);
}

function taskOf(definition, file) {
  const { command } = definition;
  const matchers = command === "check" ? ["$ob0"] : [];
  return new vscode.Task(definition, vscode.TaskScope.Workspace, command, "ob0", executionOf(command, file), matchers);
}

function shownDocument() {
  const document = vscode.window.activeTextEditor && vscode.window.activeTextEditor.document;
  return document && document.languageId === "oberon0" ? document : undefined;
}

function tasks() {
  const document = shownDocument();
  return document && !document.isUntitled ? ["check", "run"].map((command) => taskOf({ type: "ob0", command }, document.uri.fsPath)) : [];
}

// A task of tasks.json, which contains only the command.
function resolved(task) {
  const document = shownDocument();
  return document && !document.isUntitled ? taskOf(task.definition, document.uri.fsPath) : undefined;
}

async function execute(command) {
  const document = shownDocument();
  if (!document) {
    vscode.window.showErrorMessage("No file of Oberon-0 is shown.");
    return;
  }
  const isSaved = await document.save();
  // (an untitled document becomes another one when it is saved, which is then shown)
  const saved = document.isUntitled ? shownDocument() : document;
  if (!isSaved || !saved || saved.isUntitled) vscode.window.showErrorMessage(`The file wasn't saved, so there is nothing to ${command}.`);
  else await vscode.tasks.executeTask(taskOf({ type: "ob0", command }, saved.uri.fsPath));
}

// An answer is of the text that it was asked about, and the client makes its edits in whatever the document has by then. So
// it is dropped if the document was changed, or closed (and maybe opened again), since.
function asItIs(document) {
  const { version } = document;
  return () => !document.isClosed && document.version === version;
}

// The words of docs/MESSAGES.md for the server's answers. NAME and LINE are replaced according to the answer.
const WORDS = {
  NoName: "no name here can be renamed: predeclared ones and the module's can't",
  Predeclared: "a predeclared name can't be renamed",
  BadName: "a name has letters and digits, a letter first, and isn't a reserved word",
  Duplicate: "`NAME` is declared in line LINE already",
  Captures: "with the new name, `NAME` in line LINE would refer to another declaration",
  TooLong: "the text would have more than 1,048,576 bytes",
  TooDeep: "the text would be nested more than 100 deep",
  Shadowed: "it would write TRUE or FALSE, which the module declares as something else",
  CommentInside: "there is a comment in the declaration that would be deleted",
  "ill-typed": "the module has an error: fix the first one that is marked",
};

// The words for a refusal, with the line as VS Code counts it and the name at that place.
function inWords(refusal, document) {
  const [, kind, line, start, end] = /^(\w+) (\d+):(\d+)-\d+:(\d+)$/.exec(refusal) || [];
  const words = WORDS[kind || refusal];
  if (!words || !kind) return words || refusal;
  const name = document.lineAt(Number(line)).text.slice(Number(start), Number(end));
  return words.replace("NAME", name).replace("LINE", Number(line) + 1);
}

function show(words) {
  vscode.window.setStatusBarMessage(`ob0: ${words}`, 10000);
}

function hasError(document) {
  const { diagnostics } = client;
  return Boolean(diagnostics && (diagnostics.get(document.uri) || []).length);
}

async function unlessLate(document, ...more) {
  const next = more.pop();
  const isCurrent = asItIs(document);
  try {
    const found = await next(document, ...more);
    return isCurrent() ? found : undefined;
  } catch (refusal) {
    if (isCurrent()) refusal.message = inWords(refusal.message, document);
    throw refusal;
  }
}

// VS Code doesn't show why a text isn't formatted, and may request formatting at each save: so the status bar shows it. In a
// text with CR LF the layout has an edit for each line end, which VS Code would write as CR LF again: such an edit changes nothing.
async function layoutUnlessLate(document, ...more) {
  try {
    const edits = await unlessLate(document, ...more);
    return edits && edits.filter((it) => document.getText(it.range).replace(/\r\n/g, "\n") !== it.newText);
  } catch (refusal) {
    if (refusal.name !== "Canceled") show(refusal.message);
    return undefined;
  }
}

// Hover and jumps find nothing while the module has an error.
async function findOrTell(document, ...more) {
  const next = more.pop();
  const found = await next(document, ...more);
  if (!found && hasError(document)) show(WORDS["ill-typed"]);
  return found;
}

async function prepareOrTell(document, ...more) {
  const next = more.pop();
  const found = await next(document, ...more).catch((why) => {
    // (the client's own words for an answer that is null)
    if (!/can't be renamed/.test(why.message)) throw why;
  });
  if (!found) throw new Error(`ob0: ${WORDS[hasError(document) ? "ill-typed" : "NoName"]}`);
  return found;
}

// An action waits in a list until it is chosen: its edit is made then, by a command that looks once more.
async function actionsUnlessLate(document, ...more) {
  const isCurrent = asItIs(document);
  const found = await unlessLate(document, ...more);
  for (const action of found || []) {
    action.command = { title: action.title, command: "ob0.apply", arguments: [action.edit, isCurrent] };
    action.edit = undefined;
  }
  return found;
}

async function apply(edit, isCurrent) {
  if (isCurrent()) await vscode.workspace.applyEdit(edit);
  else vscode.window.showWarningMessage("The text was changed since the action was offered: ask for it again.");
}

// The server answers what it can't read (half a surrogate pair, say) without an id, and then has an older text. So the document that
// it was told of last is closed and opened again, once; if that isn't read either, it is opened at the next change.
const unread = { told: undefined, tried: new Map(), closed: new Set() };

function openAgain(why) {
  const { told, tried, closed } = unread;
  const uri = told && String(told.uri);
  if (!told || told.isClosed || closed.has(uri)) return;
  client.sendNotification("textDocument/didClose", { textDocument: { uri } });
  const count = tried.get(uri) || 0;
  tried.set(uri, count + 1);
  if (count) closed.add(uri);
  else openNow(told);
  const how = count ? "it stays closed until it is changed" : "it is opened again";
  if (count < 2) vscode.window.showWarningMessage(`The server can't read ${told.fileName}: ${how} (${why}).`);
}

function openNow(document) {
  const { uri, languageId, version } = document;
  const textDocument = { uri: String(uri), languageId, version, text: document.getText() };
  return client.sendNotification("textDocument/didOpen", { textDocument });
}

const messageStrategy = {
  handleMessage(message, next) {
    const { method, params, id, error } = message;
    if (method === "textDocument/publishDiagnostics" && params.version !== undefined) unread.tried.delete(params.uri);
    if (id === null && error && /^not (JSON|a message)$/.test(error.message)) openAgain(error.message);
    else next(message);
  },
};

function opened(document, next) {
  unread.told = document;
  return next(document);
}

function changed(change, next) {
  unread.told = change.document;
  return unread.closed.delete(String(change.document.uri)) ? openNow(change.document) : next(change);
}

function closed(document, next) {
  for (const it of [unread.tried, unread.closed]) it.delete(String(document.uri));
  return next(document);
}

// What was probably meant, as `ob0-check --hints` guesses it, is related information of a diagnostic: the message is the
// server's. It comes once the text rests; without the script, which packages of ob0 have, there is none.
const REST = 300; // milliseconds
const resting = new Map(); // the timers, by uri

function hintsOf(text) {
  const name = program();
  const script = path.basename(name) === name ? "ob0-check" : path.join(path.dirname(name), "ob0-check");
  return new Promise((settle) => {
    const asked = execFile(script, ["--hints", "--json", "-"], { maxBuffer: 1 << 24 }, (error, out) => {
      try {
        settle(JSON.parse(out));
      } catch {
        settle([]);
      }
    });
    asked.stdin.on("error", () => {}); // (there is no such script)
    asked.stdin.end(text);
  });
}

async function showHints(document, diagnostics, next) {
  const isCurrent = asItIs(document);
  const listed = await hintsOf(document.getText());
  const isOther = (it, at) => !listed[at] || listed[at].description !== it.message;
  if (listed.length !== diagnostics.length || diagnostics.some(isOther) || !isCurrent()) return;
  for (const [at, it] of diagnostics.entries()) {
    const { content } = listed[at];
    const place = new vscode.Location(document.uri, it.range);
    if (content) it.relatedInformation = [new vscode.DiagnosticRelatedInformation(place, `hint: ${content.body}`)];
  }
  next(document.uri, diagnostics);
}

function diagnosticsWithHints(uri, diagnostics, next) {
  next(uri, diagnostics);
  const document = vscode.workspace.textDocuments.find((it) => String(it.uri) === String(uri));
  clearTimeout(resting.get(String(uri)));
  resting.delete(String(uri));
  if (!document || !diagnostics.length) return;
  const isCurrent = asItIs(document);
  resting.set(String(uri), setTimeout(() => isCurrent() && showHints(document, diagnostics, next), REST));
}

const middleware = {
  handleDiagnostics: diagnosticsWithHints,
  didOpen: opened,
  didChange: changed,
  didClose: closed,
  provideHover: findOrTell,
  provideDefinition: findOrTell,
  prepareRename: prepareOrTell,
  provideRenameEdits: unlessLate,
  provideDocumentFormattingEdits: layoutUnlessLate,
  provideCodeActions: actionsUnlessLate,
};
const NEVER = 4; // of RevealOutputChannelOn: the client itself shows no message for a request that is refused

function isThere(name) {
  return new Promise((settle) => execFile(name, ["--version"], (error) => settle(!(error && error.syscall))));
}

async function start() {
  const name = program();
  if (!(await isThere(name))) {
    vscode.window.showErrorMessage(notThere(name));
    return;
  }
  const documentSelector = ["file", "untitled"].map((scheme) => ({ language: "oberon0", scheme }));
  const options = { documentSelector, middleware, revealOutputChannelOn: NEVER, connectionOptions: { messageStrategy } };
  client = new LanguageClient("ob0", "Oberon-0", { command: name, args: ["serve"] }, options);
  await client.start();
}

// Starts and stops wait for each other: two changes of a setting in a row leave one server.
let turn = Promise.resolve();
function inTurn(step) {
  turn = turn.catch(() => undefined).then(step);
  return turn;
}

async function stop() {
  if (client && client.needsStop()) await client.stop();
}

function restart() {
  return inTurn(async () => {
    await stop();
    await start();
  });
}

async function activate(context) {
  context.subscriptions.push(
    vscode.tasks.registerTaskProvider("ob0", { provideTasks: tasks, resolveTask: resolved }),
    vscode.commands.registerCommand("ob0.check", () => execute("check")),
    vscode.commands.registerCommand("ob0.run", () => execute("run")),
    vscode.commands.registerCommand("ob0.restart", restart),
    vscode.commands.registerCommand("ob0.apply", apply),
    vscode.workspace.onDidChangeConfiguration((change) => (change.affectsConfiguration("ob0.path") ? restart() : undefined)),
  );
  await inTurn(start);
}

function deactivate() {
  return inTurn(stop);
}

module.exports = { activate, deactivate };
