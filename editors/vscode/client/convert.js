"use strict";

const vscode = require("vscode");

// What the protocol sends, as the editor has it, and back. Both count columns in UTF-16.

const position = (it) => new vscode.Position(it.line, it.character);
const range = (it) => new vscode.Range(position(it.start), position(it.end));
const location = (it) => new vscode.Location(vscode.Uri.parse(it.uri), range(it.range));
const textEdit = (it) => new vscode.TextEdit(range(it.range), it.newText);

const sentPosition = (it) => ({ line: it.line, character: it.character });
const sentRange = (it) => ({ start: sentPosition(it.start), end: sentPosition(it.end) });

/** Severities of the protocol count from 1, the editor's from 0, both the heaviest first. */
function diagnostic(it) {
  const made = new vscode.Diagnostic(range(it.range), it.message, it.severity - 1);
  made.source = it.source;
  made.code = it.code;
  made.relatedInformation = (it.relatedInformation ?? []).map(
    (other) => new vscode.DiagnosticRelatedInformation(location(other.location), other.message),
  );
  return made;
}

function workspaceEdit(it) {
  const made = new vscode.WorkspaceEdit();
  for (const [uri, edits] of Object.entries(it.changes)) {
    made.set(vscode.Uri.parse(uri), edits.map(textEdit));
  }
  return made;
}

const hover = (it) => new vscode.Hover(new vscode.MarkdownString(it.contents.value), range(it.range));
const codeLens = (it) => new vscode.CodeLens(range(it.range), it.command);

function inlayHint(it) {
  const made = new vscode.InlayHint(position(it.position), it.label);
  made.paddingLeft = true;
  return made;
}

function codeAction(it) {
  const made = new vscode.CodeAction(it.title, vscode.CodeActionKind.QuickFix);
  made.edit = workspaceEdit(it.edit);
  return made;
}

/** Kinds of the protocol count from 1, the editor's from 0. */
function documentSymbol(it) {
  return new vscode.DocumentSymbol(it.name, it.detail ?? "", it.kind - 1, range(it.range), range(it.selectionRange));
}

const documentHighlight = (it) => new vscode.DocumentHighlight(range(it.range), it.kind - 1);
const foldingRange = (it) => new vscode.FoldingRange(it.startLine, it.endLine);

function completionItem(it) {
  const made = new vscode.CompletionItem(it.label, it.kind - 1);
  made.detail = it.detail;
  return made;
}

function signatureHelp(it) {
  const made = new vscode.SignatureHelp();
  made.signatures = it.signatures.map((signature) => {
    const one = new vscode.SignatureInformation(signature.label);
    one.parameters = signature.parameters.map(({ label }) => new vscode.ParameterInformation(label));
    return one;
  });
  made.activeSignature = it.activeSignature;
  made.activeParameter = it.activeParameter;
  return made;
}

module.exports = {
  codeAction,
  codeLens,
  completionItem,
  diagnostic,
  documentHighlight,
  documentSymbol,
  foldingRange,
  hover,
  inlayHint,
  location,
  range,
  sentPosition,
  sentRange,
  signatureHelp,
  workspaceEdit,
};
