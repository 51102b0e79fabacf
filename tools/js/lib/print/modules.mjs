// Imports and exports.
import { quoted } from './leaves.mjs';

function braced(out, items) {
  out.token('{');
  if (items.length > 0) {
    out.space().list(items).space();
  }
  out.token('}');
}

/** The end of an import or export: the module that it names, and its attributes. */
function origin(out, { src, with: attributes }) {
  out.node(src);
  if (attributes) {
    out.spaced('with').token('{').list(attributes, ([key, value]) => {
      out.token(quoted(key)).token(':').space().token(quoted(value));
    });
    out.token('}');
  }
  out.token(';');
}

function importOf(out, node) {
  const named = node.specifiers.filter(({ type }) => type === 'ImportNamedSpecifier');
  const whole = node.specifiers.filter(({ type }) => type !== 'ImportNamedSpecifier');
  out.token('import').space().list(whole);
  if (named.length > 0) {
    if (whole.length > 0) {
      out.token(',').space();
    }
    braced(out, named);
  }
  if (node.specifiers.length > 0) {
    out.spaced('from');
  }
  origin(out, node);
}

function importName(out, { imported, local }) {
  if (imported) {
    out.node(imported).spaced('as');
  }
  out.node(local);
}

function exportList(out, { specifiers, ...from }) {
  out.token('export').space();
  if (specifiers[0]?.type === 'ExportNamespaceSpecifier') {
    out.list(specifiers);
  } else {
    braced(out, specifiers);
  }
  if (from.src) {
    origin(out.spaced('from'), from);
  } else {
    out.token(';');
  }
}

export const MODULES = {
  ImportDecl: importOf,
  ImportNamedSpecifier: importName,
  ImportDefaultSpecifier: (out, node) => out.node(node.local),
  ImportStarAsSpecifier: (out, node) => out.token('*').spaced('as').node(node.local),
  ExportDecl: (out, node) => out.token('export').space().node(node.decl),
  NamedExport: exportList,
  ExportNamespaceSpecifier: (out, node) => out.token('*').spaced('as').node(node.name),
  ExportNamedSpecifier: (out, node) => {
    out.node(node.orig).optional(node.exported, () => out.spaced('as'));
  },
  ExportDefaultDecl: (out, node) => out.token('export default').space().node(node.decl),
  ExportDefaultExpr: (out, node) => out.token('export default').space().node(node.expr).token(';'),
  ExportAll: (out, node) => origin(out.token('export').spaced('*').token('from').space(), node),
};
