// Starts `langbench serve` for the documents of one grammar. Which program, grammar and files are settings (package.json).
const path = require("path");
const { commands, window, workspace } = require("vscode");
const { LanguageClient } = require("vscode-languageclient/node");

const CREATED = 1;

let client;
let watcher;
// starts and stops come one behind the other
let last = Promise.resolve();

// a path that is not absolute starts from the first folder of the workspace
const whole = (file) => {
  const folder = workspace.workspaceFolders?.[0];
  return folder ? path.resolve(folder.uri.fsPath, file) : file;
};

async function start() {
  const settings = workspace.getConfiguration("langbench");
  const program = settings.get("path");
  const grammar = settings.get("grammar");
  const files = settings.get("files");
  if (!grammar || !files) return;
  const command = /[\\/]/.test(program) ? whole(program) : program;
  const args = ["serve", whole(grammar), "--lookahead", String(settings.get("lookahead"))];
  watcher = workspace.createFileSystemWatcher(files);
  client = new LanguageClient("langbench", "Langbench", { command, args }, {
    documentSelector: [{ scheme: "file", pattern: files }],
    synchronize: { fileEvents: watcher },
  });
  try {
    await client.start();
    // what the workspace holds is told as created, so that references lead into files that are not open
    const found = await workspace.findFiles(files);
    const changes = found.map((uri) => ({ uri: client.code2ProtocolConverter.asUri(uri), type: CREATED }));
    await client.sendNotification("workspace/didChangeWatchedFiles", { changes });
  } catch (fault) {
    window.showErrorMessage(`Langbench did not start; the output "Langbench" says why. ${fault}`);
  }
}

async function stop() {
  watcher?.dispose();
  const stopping = client;
  client = undefined;
  try {
    await stopping?.stop();
  } catch {
    // it has ended, or it never started
  }
}

const restart = () => (last = last.then(stop).then(start));

exports.activate = (context) => {
  context.subscriptions.push(
    commands.registerCommand("langbench.restart", restart),
    workspace.onDidChangeConfiguration((change) => {
      if (change.affectsConfiguration("langbench")) restart();
    }),
  );
  return restart();
};

exports.deactivate = () => last.then(stop);
