"use strict";

const vscode = require("vscode");
const convert = require("./convert");

const document = ({ uri }) => ({ textDocument: { uri: uri.toString() } });
const at = (text, place) => ({ ...document(text), position: convert.sentPosition(place) });

/** What the server answers, by a function of it, and nothing where it answers null. */
const one = (answer, make) => answer.then((it) => (it === null ? undefined : make(it)));
const each = (answer, make) => answer.then((them) => (them ?? []).map(make));

/**
 * What the editor may ask, each by the capability with which a server says that it answers.
 *
 * @type {Record<string, (client: any, selector: any, capability: any) => vscode.Disposable>}
 */
const PROVIDERS = {
  hoverProvider: (client, selector) =>
    vscode.languages.registerHoverProvider(selector, {
      provideHover: (text, place, token) => one(client.ask("textDocument/hover", at(text, place), token), convert.hover),
    }),

  codeLensProvider: (client, selector) =>
    vscode.languages.registerCodeLensProvider(selector, {
      onDidChangeCodeLenses: client.onKnown,
      provideCodeLenses: (text, token) => each(client.ask("textDocument/codeLens", document(text), token), convert.codeLens),
    }),

  inlayHintProvider: (client, selector) =>
    vscode.languages.registerInlayHintsProvider(selector, {
      onDidChangeInlayHints: client.onKnown,
      provideInlayHints: (text, range, token) => {
        const params = { ...document(text), range: convert.sentRange(range) };
        return each(client.ask("textDocument/inlayHint", params, token), convert.inlayHint);
      },
    }),

  codeActionProvider: (client, selector) =>
    vscode.languages.registerCodeActionsProvider(
      selector,
      {
        provideCodeActions: (text, range, _context, token) => {
          const params = { ...document(text), range: convert.sentRange(range), context: { diagnostics: [] } };
          return each(client.ask("textDocument/codeAction", params, token), convert.codeAction);
        },
      },
      { providedCodeActionKinds: [vscode.CodeActionKind.QuickFix] },
    ),

  definitionProvider: (client, selector) =>
    vscode.languages.registerDefinitionProvider(selector, {
      provideDefinition: (text, place, token) =>
        one(client.ask("textDocument/definition", at(text, place), token), convert.location),
    }),

  referencesProvider: (client, selector) =>
    vscode.languages.registerReferenceProvider(selector, {
      provideReferences: (text, place, { includeDeclaration }, token) => {
        const params = { ...at(text, place), context: { includeDeclaration } };
        return each(client.ask("textDocument/references", params, token), convert.location);
      },
    }),

  documentHighlightProvider: (client, selector) =>
    vscode.languages.registerDocumentHighlightProvider(selector, {
      provideDocumentHighlights: (text, place, token) =>
        each(client.ask("textDocument/documentHighlight", at(text, place), token), convert.documentHighlight),
    }),

  documentSymbolProvider: (client, selector) =>
    vscode.languages.registerDocumentSymbolProvider(selector, {
      provideDocumentSymbols: (text, token) =>
        each(client.ask("textDocument/documentSymbol", document(text), token), convert.documentSymbol),
    }),

  foldingRangeProvider: (client, selector) =>
    vscode.languages.registerFoldingRangeProvider(selector, {
      provideFoldingRanges: (text, _context, token) =>
        each(client.ask("textDocument/foldingRange", document(text), token), convert.foldingRange),
    }),

  completionProvider: (client, selector) =>
    vscode.languages.registerCompletionItemProvider(selector, {
      provideCompletionItems: (text, place, token) =>
        each(client.ask("textDocument/completion", at(text, place), token), convert.completionItem),
    }),

  signatureHelpProvider: (client, selector, { triggerCharacters = [] }) =>
    vscode.languages.registerSignatureHelpProvider(
      selector,
      {
        provideSignatureHelp: (text, place, token) =>
          one(client.ask("textDocument/signatureHelp", at(text, place), token), convert.signatureHelp),
      },
      ...triggerCharacters,
    ),

  renameProvider: (client, selector) =>
    vscode.languages.registerRenameProvider(selector, {
      prepareRename: async (text, place, token) => {
        const range = await one(client.ask("textDocument/prepareRename", at(text, place), token), convert.range);
        if (!range) throw new Error("No name stands here.");
        return range;
      },
      provideRenameEdits: (text, place, newName, token) =>
        one(client.ask("textDocument/rename", { ...at(text, place), newName }, token), convert.workspaceEdit),
    }),
};

/** Registers what a server with these capabilities answers. */
function register(client, selector, capabilities) {
  return Object.entries(PROVIDERS)
    .filter(([name]) => capabilities[name])
    .map(([name, provide]) => provide(client, selector, capabilities[name]));
}

module.exports = { register };
