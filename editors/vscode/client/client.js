"use strict";

const vscode = require("vscode");
const { Connection } = require("./connection");
const convert = require("./convert");
const { register } = require("./providers");

const LANGUAGE = "raml";

/** A server, the documents that are open in it, and what the editor may ask of it. */
class Client {
  /** @param {{ program: string, words: string[] }} command */
  constructor(command) {
    this.connection = new Connection(command.program, command.words, {
      hear: (method, params) => this.hear(method, params),
      end: (why) => this.failed(why),
    });
    this.diagnostics = vscode.languages.createDiagnosticCollection(LANGUAGE);
    this.known = new vscode.EventEmitter();
    this.onKnown = this.known.event;
    this.held = [this.diagnostics, this.known];
  }

  async start() {
    const { capabilities } = await this.connection.request("initialize", {
      processId: process.pid,
      rootUri: null,
      capabilities: { general: { positionEncodings: ["utf-16"] } },
    });
    this.connection.notify("initialized", {});
    this.held.push(
      vscode.workspace.onDidOpenTextDocument((text) => this.open(text)),
      vscode.workspace.onDidChangeTextDocument((event) => this.change(event)),
      vscode.workspace.onDidCloseTextDocument((text) => this.close(text)),
      ...register(this, { language: LANGUAGE }, capabilities),
    );
    vscode.workspace.textDocuments.forEach((text) => this.open(text));
  }

  /** Asks the server, which answers in the order in which it is asked. */
  ask(method, params, token) {
    return this.connection.request(method, params, token);
  }

  open(text) {
    if (text.languageId !== LANGUAGE) return;
    const { version } = text;
    const textDocument = { uri: text.uri.toString(), languageId: LANGUAGE, version, text: text.getText() };
    this.connection.notify("textDocument/didOpen", { textDocument });
  }

  change({ document, contentChanges }) {
    if (document.languageId !== LANGUAGE || contentChanges.length === 0) return;
    this.connection.notify("textDocument/didChange", {
      textDocument: { uri: document.uri.toString(), version: document.version },
      contentChanges: contentChanges.map(({ range, text }) => ({ range: convert.sentRange(range), text })),
    });
  }

  close(text) {
    if (text.languageId !== LANGUAGE) return;
    this.connection.notify("textDocument/didClose", { textDocument: { uri: text.uri.toString() } });
  }

  /** Diagnostics are published once a text is analysed, so that lenses and hints are asked for anew. */
  hear(method, params) {
    if (method !== "textDocument/publishDiagnostics") return;
    this.diagnostics.set(vscode.Uri.parse(params.uri), params.diagnostics.map(convert.diagnostic));
    this.known.fire();
  }

  failed(why) {
    this.dispose();
    vscode.window.showErrorMessage(`explain lsp: ${why}`);
  }

  dispose() {
    this.held.splice(0).forEach((it) => it.dispose());
  }

  async stop() {
    this.dispose();
    await this.connection.stop();
  }
}

module.exports = { Client, LANGUAGE };
