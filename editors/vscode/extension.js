"use strict";

const vscode = require("vscode");
const { Client, LANGUAGE } = require("./client/client");

/** @type {Client | undefined} */
let client;

/** The command that the settings name. */
function command() {
  const settings = vscode.workspace.getConfiguration(LANGUAGE);
  const words = ["lsp", "--degree", String(settings.get("degree", 4)), "--budget", String(settings.get("budget", 20000))];
  return { program: settings.get("path", "explain"), words };
}

async function restart() {
  await client?.stop();
  client = new Client(command());
  await client.start().catch(() => {});
}

/** @param {vscode.ExtensionContext} context */
async function activate(context) {
  context.subscriptions.push(
    vscode.commands.registerCommand("raml.restart", restart),
    vscode.workspace.onDidChangeConfiguration((event) => {
      if (event.affectsConfiguration(LANGUAGE)) restart();
    }),
  );
  await restart();
}

async function deactivate() {
  await client?.stop();
}

module.exports = { activate, deactivate };
