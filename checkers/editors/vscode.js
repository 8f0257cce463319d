"use strict";

// Opens the file that the variable FILE names with the extension of editors/vscode, in a stand-in for the editor, and prints what it has
// of it, as checkers/editors/neovim.lua does. Then the first change that is offered is made.

const fs = require("fs");
const { Position, Range, TextDocument, events, providers, settings } = require("./standin");
const { activate, deactivate } = require("../../editors/vscode/extension");

const TOKEN = { onCancellationRequested() {} };
const print = (...words) => console.log(words.join(" "));
const onOneLine = (text) => text.replaceAll("\n", " / ");

/** The diagnostics that are published next. */
function published() {
  return new Promise((resolve) => {
    const held = events.published.event(({ diagnostics }) => {
      held.dispose();
      resolve(diagnostics);
    });
  });
}

/** A place as its line and column, from 1 on. */
const placeOf = ({ line, character }) => `${line + 1}:${character + 1}`;

/** Gives what is named at a place another name, as an editor does, and returns where that stands in the text before. */
async function rename(document, place, name) {
  const made = await providers.get("rename").provideRenameEdits(document, place, name, TOKEN);
  const edits = made.edits.get(document.uri.toString());
  events.changed.fire({ document, contentChanges: document.edit(edits) });
  return edits.map(({ range }) => placeOf(range.start));
}

/** Gives the function whose header stands in a line another name, and then its old one again, where it can have another one. */
async function renameFunction(document, number, line) {
  const place = new Position(number, 4);
  const range = await providers.get("rename").prepareRename(document, place, TOKEN).catch(() => undefined);
  if (!range) return;
  const name = line.slice(range.start.character, range.end.character);
  print("rename", name, ...(await rename(document, place, `renamed_${name}`)));
  await rename(document, place, name);
  const same = providers.get("rename").provideRenameEdits(document, place, name, TOKEN);
  await same.catch(({ message }) => print("refused", number + 1, message));
  const keyword = providers.get("rename").prepareRename(document, new Position(number, 1), TOKEN);
  await keyword.catch(() => print("keyword", number + 1, "has no other name"));
}

async function main() {
  settings.path = process.env.EXPLAIN;
  await activate({ subscriptions: [] });

  const document = new TextDocument(process.env.FILE);
  const lines = document.getText().split("\n");
  const whole = new Range(new Position(0, 0), new Position(lines.length, 0));
  const first = published();
  events.opened.fire(document);
  for (const { range, message } of await first) {
    print("diagnostic", `${range.start.line + 1}:${range.start.character + 1}`, onOneLine(message));
  }
  for (const { range, command } of await providers.get("codeLens").provideCodeLenses(document, TOKEN)) {
    print("lens", range.start.line + 1, command.title);
  }
  for (const { position, label } of await providers.get("inlayHint").provideInlayHints(document, whole, TOKEN)) {
    print("hint", position.line + 1, label);
  }
  for (const [number, line] of lines.entries()) {
    if (!line.startsWith("fun ")) continue;
    const hover = await providers.get("hover").provideHover(document, new Position(number, 4), TOKEN);
    print("hover", number + 1, hover ? onOneLine(hover.contents.value) : "none");
  }
  for (const { name, kind, range, selectionRange } of await providers.get("documentSymbol").provideDocumentSymbols(document, TOKEN)) {
    print("symbol", kind + 1, `${range.start.line + 1}-${range.end.line + 1}`, placeOf(selectionRange.start), name);
  }
  for (const { start, end } of await providers.get("foldingRange").provideFoldingRanges(document, {}, TOKEN)) {
    print("fold", `${start + 1}-${end + 1}`);
  }
  for (const [number, line] of lines.entries()) {
    if (line.startsWith("fun ")) await renameFunction(document, number, line);
  }
  print("text", document.getText() === lines.join("\n") ? "is as it was" : "is another one");
  const [action] = await providers.get("codeAction").provideCodeActions(document, whole, {}, TOKEN);
  if (action) {
    print("action", action.title);
    const edits = action.edit.edits.get(document.uri.toString());
    events.changed.fire({ document, contentChanges: document.edit(edits) });
    fs.writeFileSync(process.env.FILE, document.getText());
  }
  events.closed.fire(document);
  await deactivate();
}

main();
