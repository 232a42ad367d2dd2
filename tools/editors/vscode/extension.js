// The language server of stx in Visual Studio Code. It needs no package and no bundler: open this folder as an extension, or
// copy or link it into ~/.vscode/extensions.
"use strict";
const path = require("path");
const vscode = require("vscode");
const { Client } = require("./client");

const SELECTOR = { language: "sif" };
let client = null;

const place = (document, position) => ({
  textDocument: { uri: document.uri.toString() },
  position: { line: position.line, character: position.character },
});
const range = (one) => new vscode.Range(one.start.line, one.start.character, one.end.line, one.end.character);
const location = (one) => new vscode.Location(vscode.Uri.parse(one.uri), range(one.range));
const edits = (list) => (list || []).map((one) => vscode.TextEdit.replace(range(one.range), one.newText));

function workspaceEdit(found) {
  const edit = new vscode.WorkspaceEdit();
  for (const [uri, list] of Object.entries((found && found.changes) || {})) {
    edit.set(vscode.Uri.parse(uri), edits(list));
  }
  return edit;
}

function symbol(one) {
  const made = new vscode.DocumentSymbol(one.name, one.detail || "", one.kind - 1, range(one.range), range(one.selectionRange));
  made.children = (one.children || []).map(symbol);
  return made;
}

function diagnostic(one) {
  const made = new vscode.Diagnostic(range(one.range), one.message, one.severity - 1);
  made.source = one.source;
  made.code = one.codeDescription ? { value: one.code, target: vscode.Uri.parse(one.codeDescription.href) } : one.code;
  return made;
}

function lens(one) {
  const command = { title: one.command.title, command: "stx.execute", arguments: [one.command] };
  return new vscode.CodeLens(range(one.range), command);
}

function completion(one) {
  const made = new vscode.CompletionItem(one.label, one.kind - 1);
  made.detail = one.detail;
  made.insertText = one.insertText || one.label;
  return made;
}

// What the editor asks, each handed on to the server.
function providers() {
  const ask = (method, params) => client.request(method, params);
  const uri = (document) => ({ textDocument: { uri: document.uri.toString() } });
  return [
    vscode.languages.registerDocumentSymbolProvider(SELECTOR, {
      provideDocumentSymbols: async (document) => (await ask("textDocument/documentSymbol", uri(document)) || []).map(symbol),
    }),
    vscode.languages.registerDefinitionProvider(SELECTOR, {
      provideDefinition: async (document, at) => (await ask("textDocument/definition", place(document, at)) || []).map(location),
    }),
    vscode.languages.registerReferenceProvider(SELECTOR, {
      provideReferences: async (document, at, context) => (await ask("textDocument/references", { ...place(document, at), context }) || []).map(location),
    }),
    vscode.languages.registerHoverProvider(SELECTOR, {
      provideHover: async (document, at) => {
        const found = await ask("textDocument/hover", place(document, at));
        return found ? new vscode.Hover(new vscode.MarkdownString(found.contents.value)) : null;
      },
    }),
    vscode.languages.registerCompletionItemProvider(SELECTOR, {
      provideCompletionItems: async (document, at) => {
        const found = await ask("textDocument/completion", place(document, at));
        return ((found && found.items) || found || []).map(completion);
      },
    }),
    vscode.languages.registerRenameProvider(SELECTOR, {
      provideRenameEdits: async (document, at, newName) => workspaceEdit(await ask("textDocument/rename", { ...place(document, at), newName })),
    }),
    vscode.languages.registerFoldingRangeProvider(SELECTOR, {
      provideFoldingRanges: async (document) => (await ask("textDocument/foldingRange", uri(document)) || []).map((one) => new vscode.FoldingRange(one.startLine, one.endLine)),
    }),
    vscode.languages.registerDocumentFormattingEditProvider(SELECTOR, {
      provideDocumentFormattingEdits: async (document, options) => edits(await ask("textDocument/formatting", { ...uri(document), options })),
    }),
    vscode.languages.registerCodeLensProvider(SELECTOR, {
      provideCodeLenses: async (document) => (await ask("textDocument/codeLens", uri(document)) || []).map(lens),
    }),
    vscode.languages.registerWorkspaceSymbolProvider({
      provideWorkspaceSymbols: async (query) => (await ask("workspace/symbol", { query }) || []).map((one) => new vscode.SymbolInformation(one.name, one.kind - 1, one.containerName || "", location(one.location))),
    }),
  ];
}

// Open texts, told to the server with each change.
function documents() {
  const isOurs = (document) => document.languageId === "sif";
  const opened = (document) => isOurs(document) && client.notify("textDocument/didOpen", {
    textDocument: { uri: document.uri.toString(), languageId: "sif", version: document.version, text: document.getText() },
  });
  vscode.workspace.textDocuments.forEach(opened);
  return [
    vscode.workspace.onDidOpenTextDocument(opened),
    vscode.workspace.onDidCloseTextDocument((document) => isOurs(document) && client.notify("textDocument/didClose", {
      textDocument: { uri: document.uri.toString() },
    })),
    vscode.workspace.onDidChangeTextDocument((event) => isOurs(event.document) && client.notify("textDocument/didChange", {
      textDocument: { uri: event.document.uri.toString(), version: event.document.version },
      contentChanges: event.contentChanges.map((one) => ({ range: { start: one.range.start, end: one.range.end }, text: one.text })),
    })),
  ];
}

function told(diagnostics, output, method, params) {
  if (method === "textDocument/publishDiagnostics") {
    diagnostics.set(vscode.Uri.parse(params.uri), params.diagnostics.map(diagnostic));
  } else if (method === "window/logMessage") {
    output.appendLine(params.message);
    output.show(true);
  } else if (method === "window/showMessage") {
    vscode.window.showInformationMessage(params.message);
  }
}

async function activate(context) {
  const settings = vscode.workspace.getConfiguration("stx");
  const server = settings.get("server") || path.join(__dirname, "..", "..", "language-server");
  const diagnostics = vscode.languages.createDiagnosticCollection("stx");
  const output = vscode.window.createOutputChannel("stx");
  client = new Client(server, (method, params) => told(diagnostics, output, method, params));
  client.onRequest = async (method, params) =>
    method === "workspace/applyEdit" ? { applied: await vscode.workspace.applyEdit(workspaceEdit(params.edit)) } : null;
  const folders = vscode.workspace.workspaceFolders || [];
  await client.request("initialize", {
    processId: process.pid,
    rootUri: folders.length ? folders[0].uri.toString() : null,
    capabilities: {},
    initializationOptions: { formatAnyway: settings.get("formatAnyway") },
  });
  client.notify("initialized", {});
  const execute = (command) => client.request("workspace/executeCommand", { command: command.command, arguments: command.arguments });
  context.subscriptions.push(diagnostics, output, ...documents(), ...providers(), vscode.commands.registerCommand("stx.execute", execute));
}

async function deactivate() {
  if (client) {
    await client.request("shutdown", null);
    client.notify("exit", null);
  }
}

module.exports = { activate, deactivate };
