// Makes a package of Node from the sources of vscode-languageclient, which Debian has as a source package alone:
// languageclient.js SOURCES PACKAGE. Types are not looked at. NODE_PATH leads to typescript.
const fs = require("fs");
const path = require("path");
const ts = require("typescript");

const [sources, made] = process.argv.slice(2);
const compilerOptions = { module: ts.ModuleKind.CommonJS, target: ts.ScriptTarget.ES2020 };

function make(from, to) {
  for (const it of fs.readdirSync(from, { withFileTypes: true })) {
    const [source, target] = [path.join(from, it.name), path.join(to, it.name)];
    if (it.isDirectory()) make(source, target);
    else {
      fs.mkdirSync(to, { recursive: true });
      if (it.name.endsWith(".ts")) {
        const { outputText } = ts.transpileModule(fs.readFileSync(source, "utf8"), { compilerOptions });
        fs.writeFileSync(target.replace(/ts$/, "js"), outputText);
      } else fs.copyFileSync(source, target); // (a script of a shell, by which it ends a server that hangs)
    }
  }
}

make(path.join(sources, "src"), path.join(made, "lib"));
for (const it of ["package.json", "node.js", "License.txt"]) fs.copyFileSync(path.join(sources, it), path.join(made, it));
