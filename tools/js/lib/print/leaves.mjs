// Names and literals.

/** A name, and with `--marks` its context: `a#2`, or `a#2.3` where it has two marks. */
export function name(out, { sym, ctxt }) {
  const context = out.marks && ctxt?.length > 0 ? `#${ctxt.join('.')}` : '';
  out.token(sym + context);
}

/** A text as a string literal, in the quotes of `raw`. */
export function quoted(value, raw) {
  const double = JSON.stringify(value);
  if (!raw?.startsWith("'")) {
    return double;
  }
  return `'${double.slice(1, -1).replaceAll('\\"', '"').replaceAll("'", "\\'")}'`;
}

const privateName = (out, node) => out.token(`#${node.name}`);

export const LEAVES = {
  Ident: name,
  BindingIdent: name,
  IdentName: (out, node) => out.token(node.sym),
  PrivateName: privateName,
  ThisExpr: (out) => out.token('this'),
  Super: (out) => out.token('super'),
  Import: (out) => out.token('import'),
  MetaPropExpr: (out, node) => out.token(node.kind),
  // The value counts: a pass may have changed it, and `raw` only tells the quotes.
  Str: (out, node) => out.token(quoted(node.value, node.raw)),
  Bool: (out, node) => out.token(String(node.value)),
  Null: (out) => out.token('null'),
  Number: (out, node) => out.token(node.text),
  BigInt: (out, node) => out.token(node.text.endsWith('n') ? node.text : `${node.text}n`),
  Regex: (out, node) => out.token(`/${node.exp}/${node.flags}`),
};
