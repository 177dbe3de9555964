// The declarations of a package for TypeScript, by its compiler, as JSON: node typescript.js FILE..
//
// Each is an exported declaration of these files: its name, its text without comments and members, its comment, and
// its members, which are likewise.
'use strict';

const fs = require('fs');
const ts = require('typescript');

/** The lines of the comment before a node, without its stars; a list of those that are tags follows the text. */
function comment(node, file) {
  const ranges = ts.getLeadingCommentRanges(file.text, node.getFullStart()) ?? [];
  const texts = ranges.map((range) => file.text.slice(range.pos, range.end));
  const last = texts.filter((text) => text.startsWith('/**')).pop() ?? '';
  const lines = last.replace(/^\/\*\*|\*\/$/g, '').split('\n');
  return lines.map((line) => line.replace(/^\s*\* ?/, '')).join('\n').trim();
}

/** The name that a reader looks for. */
function nameOf(node, file) {
  if (ts.isConstructorDeclaration(node)) {
    return 'constructor';
  }
  if (ts.isVariableStatement(node)) {
    return node.declarationList.declarations[0].name.getText(file);
  }
  return node.name?.getText(file) ?? '';
}

/** The members of a class, of an interface or of an object type. */
function membersOf(node, file) {
  const type = ts.isVariableStatement(node) ? node.declarationList.declarations[0].type : undefined;
  const members = node.members ?? (type && ts.isTypeLiteralNode(type) ? type.members : []);
  return members.filter((member) => nameOf(member, file) !== '').map((member) => ({
    name: nameOf(member, file),
    text: member.getText(file),
    comment: comment(member, file),
  }));
}

/** The text of a declaration up to its members. */
function head(node, file) {
  const text = node.getText(file);
  return node.members ? `${text.slice(0, text.indexOf('{')).trim()}` : text.replace(/\/\*\*[^]*?\*\/\s*/g, '');
}

const found = [];
for (const name of process.argv.slice(2)) {
  const file = ts.createSourceFile(name, fs.readFileSync(name, 'utf8'), ts.ScriptTarget.Latest, true);
  file.forEachChild((node) => {
    if (node.modifiers?.some((modifier) => modifier.kind === ts.SyntaxKind.ExportKeyword)) {
      found.push({
        name: nameOf(node, file),
        file: name,
        kind: ts.SyntaxKind[node.kind].replace(/Declaration$|Statement$/, ''),
        text: head(node, file),
        comment: comment(node, file),
        members: membersOf(node, file),
      });
    }
  });
}
process.stdout.write(JSON.stringify(found, null, 1));
