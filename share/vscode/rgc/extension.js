// Verifies outlines when they are saved, and shows the reports of rgc at their places.
'use strict';
const { execFile } = require('child_process');
const vscode = require('vscode');

// The report of one line of `rgc verify --format json`, if it has a place.
function reportOf(value) {
  if (value.sentence === undefined) {
    return undefined;
  }
  const place = new vscode.Position(value.line - 1, value.column - 1);
  const severity = value.kind === 'warning' ? vscode.DiagnosticSeverity.Warning : vscode.DiagnosticSeverity.Error;
  const words = (value.words || []).map((it) => (it.before === it.after ? `${it.word} = ${it.before}` : `${it.word} = ${it.before} -> ${it.after}`));
  const rows = [value.sentence].concat(words.length > 0 ? [words.join(', ')] : []);
  const report = new vscode.Diagnostic(new vscode.Range(place, place), rows.join('\n'), severity);
  report.source = 'rgc';
  return report;
}

// The JSON values that a call printed, a line each; the other lines are passed over.
function valuesOf(printed) {
  return printed.split('\n').filter((line) => line.startsWith('{')).map((line) => JSON.parse(line));
}

function verdictOf(values, error) {
  const verified = values.find((it) => it.kind === 'verified');
  if (verified) {
    return `rgc: verified, ${verified.conditions} conditions`;
  }
  if (values.length === 0 && error) {
    return `rgc: ${error.message}`;
  }
  return values.some((it) => it.kind === 'refused') ? 'rgc: refused' : 'rgc: not verified';
}

// The used files in which reports of an outline stood last, by the outline's own file.
const usedBy = new Map();

// Shows the reports of an outline in the files in which they stand, its own and those that it uses.
function show(document, values, reports) {
  const own = document.fileName;
  const listed = new Map([own, ...(usedBy.get(own) || [])].map((file) => [file, []]));
  for (const value of values) {
    const report = reportOf(value);
    if (report !== undefined) {
      listed.set(value.file, [...(listed.get(value.file) || []), report]);
    }
  }
  usedBy.set(own, [...listed.keys()].filter((file) => file !== own && listed.get(file).length > 0));
  for (const [file, all] of listed) {
    reports.set(file === own ? document.uri : vscode.Uri.file(file), all);
  }
}

function verify(document, reports) {
  const settings = vscode.workspace.getConfiguration('rgc');
  return new Promise((done) => {
    execFile(settings.get('program'), ['verify', '--format', 'json', document.fileName], { maxBuffer: 1 << 26 }, (error, out, err) => {
      const values = valuesOf(`${out}\n${err}`);
      show(document, values, reports);
      vscode.window.setStatusBarMessage(verdictOf(values, error), 10000);
      done();
    });
  });
}

function activate(context) {
  const reports = vscode.languages.createDiagnosticCollection('rgc');
  const isOutline = (document) => document.fileName.endsWith('.rgo');
  const saved = vscode.workspace.onDidSaveTextDocument((document) => {
    const asked = vscode.workspace.getConfiguration('rgc').get('verifyOnSave');
    return asked && isOutline(document) ? verify(document, reports) : undefined;
  });
  const called = vscode.commands.registerCommand('rgc.verify', () => {
    const editor = vscode.window.activeTextEditor;
    return editor && isOutline(editor.document) ? verify(editor.document, reports) : undefined;
  });
  context.subscriptions.push(reports, saved, called);
}

module.exports = { activate };
