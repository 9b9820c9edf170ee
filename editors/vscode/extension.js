// Sets a program in lines, in its canonical form and with its comments: a text that is refused stays as it is, and the line
// that says why is shown. The command `GP 2: why is this refused?` shows where and why gp2 refuses a program or a host. The
// settings gp2.formatter and gp2.why are the commands that do it; gp2.host and gp2.program are the other file of the run.
const vscode = require("vscode");
const { spawnSync } = require("child_process");

const setting = name => vscode.workspace.getConfiguration("gp2").get(name);

function edits(document) {
  const text = document.getText();
  const ran = spawnSync(setting("formatter"), [], { input: text, encoding: "utf8" });
  if (ran.status !== 0) {
    const said = ran.error ? String(ran.error) : ran.stderr.trim().split("\n").pop();
    vscode.window.setStatusBarMessage(`gp2: ${said}`, 8000);
    return [];
  }
  if (ran.stdout === text) return [];
  const whole = new vscode.Range(document.positionAt(0), document.positionAt(text.length));
  return [vscode.TextEdit.replace(whole, ran.stdout)];
}

// The program and the host, of which one is the document.
function files(document) {
  if (document.languageId === "gp2-host") return [setting("program"), document.fileName];
  return setting("host") ? [document.fileName, setting("host")] : [document.fileName];
}

async function why(faults) {
  const document = vscode.window.activeTextEditor && vscode.window.activeTextEditor.document;
  if (!document) return;
  await document.save();
  const ran = spawnSync(setting("why"), ["fault", "--short", ...files(document)], { encoding: "utf8" });
  faults.clear();
  if (ran.error) {
    vscode.window.setStatusBarMessage(`gp2: ${ran.error}`, 8000);
    return;
  }
  for (const line of ran.stdout.split("\n")) {
    const found = line.match(/^(.*?):(\d+):(\d+): (.*)$/);
    if (!found) continue;
    const [at, column] = [found[2] - 1, found[3] - 1];
    const range = new vscode.Range(new vscode.Position(at, column), new vscode.Position(at, column + 1));
    faults.set(vscode.Uri.file(found[1]), [new vscode.Diagnostic(range, found[4])]);
  }
  const said = ran.stdout.trim() || ran.stderr.trim().split("\n").pop() || "no fault";
  vscode.window.setStatusBarMessage(`gp2: ${said}`, 8000);
}

exports.activate = context => {
  const formatter = { provideDocumentFormattingEdits: edits };
  const faults = vscode.languages.createDiagnosticCollection("gp2");
  context.subscriptions.push(
    faults,
    vscode.languages.registerDocumentFormattingEditProvider("gp2", formatter),
    vscode.commands.registerCommand("gp2.why", () => why(faults)));
};
