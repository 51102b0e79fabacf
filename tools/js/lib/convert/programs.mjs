// Programs, their items, imports and exports.
import { expression } from './expressions.mjs';
import { classExpression, functionExpression } from './functions.mjs';
import { dispatch, ident, optional, span, string, text } from './leaves.mjs';
import { statement } from './statements.mjs';

const exportName = (node) => (node.type === 'Literal' ? string(node) : ident(node));

function attribute({ key, value }) {
  return [text(key.type === 'Literal' ? key.value : key.name, key), text(value.value, value)];
}

/** Where a declaration has its items from, and the attributes of that; parser.mjs tells an empty list from none. */
function origin(node) {
  const attributes = node.source ? node.attributes : null;
  return { src: optional(string, node.source), with: attributes?.map(attribute) ?? null };
}

/** The outer name where one is written: ESTree has the inner name again where there is none. */
const outerName = (outer, inner) => (outer.start === inner.start ? null : exportName(outer));

const IMPORT_SPECIFIERS = {
  ImportDefaultSpecifier: (node) => ({
    type: 'ImportDefaultSpecifier',
    span: span(node),
    local: ident(node.local),
  }),
  ImportNamespaceSpecifier: (node) => ({
    type: 'ImportStarAsSpecifier',
    span: span(node),
    local: ident(node.local),
  }),
  ImportSpecifier: (node) => ({
    type: 'ImportNamedSpecifier',
    span: span(node),
    local: ident(node.local),
    imported: outerName(node.imported, node.local),
  }),
};

function importOf(node) {
  const specifiers = node.specifiers.map((specifier) => dispatch(IMPORT_SPECIFIERS, specifier));
  return { type: 'ImportDecl', span: span(node), specifiers, ...origin(node) };
}

function exportSpecifier(node) {
  return {
    type: 'ExportNamedSpecifier',
    span: span(node),
    orig: exportName(node.local),
    exported: outerName(node.exported, node.local),
  };
}

function namedExport(node) {
  if (node.declaration) {
    return { type: 'ExportDecl', span: span(node), decl: statement(node.declaration) };
  }
  return { type: 'NamedExport', span: span(node), specifiers: node.specifiers.map(exportSpecifier), ...origin(node) };
}

function exportAll(node) {
  if (!node.exported) {
    return { type: 'ExportAll', span: span(node), ...origin(node) };
  }
  const name = exportName(node.exported);
  const specifiers = [{ type: 'ExportNamespaceSpecifier', span: span(node.exported), name }];
  return { type: 'NamedExport', span: span(node), specifiers, ...origin(node) };
}

const DEFAULT_DECLARATIONS = { FunctionDeclaration: functionExpression, ClassDeclaration: classExpression };

function defaultExport(node) {
  const { declaration } = node;
  const convert = DEFAULT_DECLARATIONS[declaration.type];
  if (convert) {
    return { type: 'ExportDefaultDecl', span: span(node), decl: convert(declaration) };
  }
  return { type: 'ExportDefaultExpr', span: span(node), expr: expression(declaration) };
}

const MODULE_DECLARATIONS = {
  ImportDeclaration: importOf,
  ExportNamedDeclaration: namedExport,
  ExportDefaultDeclaration: defaultExport,
  ExportAllDeclaration: exportAll,
};

const item = (node) => (MODULE_DECLARATIONS[node.type] ?? statement)(node);

/** ESTree of a whole text to a tree of ours. */
export function program(node, source) {
  const isModule = node.sourceType === 'module';
  return {
    type: isModule ? 'Module' : 'Script',
    span: [1, source.length + 1],
    body: node.body.map(isModule ? item : statement),
    shebang: /^#!(.*)/.exec(source)?.[1] ?? null,
  };
}
