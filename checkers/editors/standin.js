"use strict";

// A stand-in for the interface that the editor gives an extension: as much of it as editors/vscode uses.

const fs = require("fs");
const Module = require("module");
const { pathToFileURL } = require("url");

class Position {
  constructor(line, character) {
    Object.assign(this, { line, character });
  }
}

class Range {
  constructor(start, end) {
    Object.assign(this, { start, end });
  }
}

class Uri {
  constructor(text) {
    this.text = text;
  }

  static parse(text) {
    return new Uri(text);
  }

  toString() {
    return this.text;
  }
}

class EventEmitter {
  constructor() {
    this.heard = new Set();
    this.event = (listener) => {
      this.heard.add(listener);
      return { dispose: () => this.heard.delete(listener) };
    };
  }

  fire(value) {
    for (const listener of this.heard) listener(value);
  }

  dispose() {
    this.heard.clear();
  }
}

class WorkspaceEdit {
  constructor() {
    this.edits = new Map();
  }

  set(uri, edits) {
    this.edits.set(uri.toString(), edits);
  }
}

/** A class whose objects hold what they are made of, by these names. */
function plain(...names) {
  return class {
    constructor(...values) {
      names.forEach((name, place) => (this[name] = values[place]));
    }
  };
}

/** A document of the editor. */
class TextDocument {
  constructor(file) {
    this.uri = Uri.parse(pathToFileURL(file).toString());
    this.languageId = "raml";
    this.version = 1;
    this.text = fs.readFileSync(file, "utf8");
  }

  getText() {
    return this.text;
  }

  offsetAt({ line, character }) {
    const lines = this.text.split("\n").slice(0, line);
    return lines.reduce((sum, it) => sum + it.length + 1, 0) + character;
  }

  /** Makes edits, each of the text as it stands before them, and returns them as changes, the last one first. */
  edit(edits) {
    const changes = [...edits].sort((a, b) => this.offsetAt(b.range.start) - this.offsetAt(a.range.start));
    for (const { range, newText } of changes) {
      const [from, to] = [this.offsetAt(range.start), this.offsetAt(range.end)];
      this.text = this.text.slice(0, from) + newText + this.text.slice(to);
    }
    this.version += 1;
    return changes.map(({ range, newText }) => ({ range, text: newText }));
  }
}

const events = {
  opened: new EventEmitter(),
  changed: new EventEmitter(),
  closed: new EventEmitter(),
  published: new EventEmitter(),
};
const providers = new Map();
const settings = {};
const register = (kind) => (_selector, provider) => {
  providers.set(kind, provider);
  return { dispose: () => providers.delete(kind) };
};

const vscode = {
  Position,
  Range,
  Uri,
  EventEmitter,
  WorkspaceEdit,
  Location: plain("uri", "range"),
  TextEdit: plain("range", "newText"),
  Diagnostic: plain("range", "message", "severity"),
  DiagnosticRelatedInformation: plain("location", "message"),
  MarkdownString: plain("value"),
  Hover: plain("contents", "range"),
  CodeLens: plain("range", "command"),
  InlayHint: plain("position", "label"),
  CodeAction: plain("title", "kind"),
  CodeActionKind: { QuickFix: "quickfix" },
  DocumentSymbol: plain("name", "detail", "kind", "range", "selectionRange"),
  DocumentHighlight: plain("range", "kind"),
  FoldingRange: plain("start", "end"),
  CompletionItem: plain("label", "kind"),
  SignatureHelp: plain(),
  SignatureInformation: plain("label"),
  ParameterInformation: plain("label"),
  commands: { registerCommand: (_name, _run) => ({ dispose() {} }) },
  window: {
    showErrorMessage: (message) => console.log("error", message),
  },
  workspace: {
    textDocuments: [],
    getConfiguration: () => ({ get: (name, otherwise) => settings[name] ?? otherwise }),
    onDidChangeConfiguration: () => ({ dispose() {} }),
    onDidOpenTextDocument: events.opened.event,
    onDidChangeTextDocument: events.changed.event,
    onDidCloseTextDocument: events.closed.event,
  },
  languages: {
    createDiagnosticCollection: () => ({
      set: (uri, diagnostics) => events.published.fire({ uri: uri.toString(), diagnostics }),
      dispose() {},
    }),
    registerHoverProvider: register("hover"),
    registerCodeLensProvider: register("codeLens"),
    registerInlayHintsProvider: register("inlayHint"),
    registerCodeActionsProvider: register("codeAction"),
    registerDefinitionProvider: register("definition"),
    registerReferenceProvider: register("references"),
    registerDocumentHighlightProvider: register("documentHighlight"),
    registerDocumentSymbolProvider: register("documentSymbol"),
    registerFoldingRangeProvider: register("foldingRange"),
    registerCompletionItemProvider: register("completion"),
    registerSignatureHelpProvider: register("signatureHelp"),
    registerRenameProvider: register("rename"),
  },
};

const load = Module._load;
Module._load = (name, ...rest) => (name === "vscode" ? vscode : load(name, ...rest));

module.exports = { Position, Range, TextDocument, events, providers, settings };
