"use strict";
// Starts `remduska lsp` for Viper files, and opens the page of a failing run in the browser.
const vscode = require("vscode");
const { LanguageClient, TransportKind } = require("vscode-languageclient/node");

let client;

function settings() {
  const found = vscode.workspace.getConfiguration("remduska");
  return { seconds: found.get("seconds"), smoke: found.get("smoke"), errors: found.get("errors") };
}

function activate(context) {
  const [command, ...args] = vscode.workspace.getConfiguration("remduska").get("command");
  client = new LanguageClient("remduska", "Remduska", { command, args, transport: TransportKind.stdio }, {
    documentSelector: [{ language: "viper" }],
    initializationOptions: settings(),
    synchronize: { configurationSection: "remduska" },
  });
  context.subscriptions.push({ dispose: () => client.stop() });
  return client.start();
}

function deactivate() {
  return client ? client.stop() : undefined;
}

module.exports = { activate, deactivate };
