// A resolved tree with few texts: in each scope the declared names are called anew, from the same short list in every scope,
// so that nearly each scope hides the names of those around it and hygiene has to give names anew.

/** A name that is both key and value, written out as a pair of them. */
function writtenOut(node) {
  const key = ({ span, sym }) => ({ type: 'IdentName', span, sym });
  if (node.type === 'ObjectLit') {
    node.props = node.props.map((prop) => (prop.type === 'Ident' ? { type: 'KeyValueProp', key: key(prop), value: prop } : prop));
  }
  if (node.type === 'ObjectPat') {
    node.props = node.props.map((prop) => (prop.type === 'AssignPatProp' ? { type: 'KeyValuePatProp', key: key(prop.key), value: target(prop) } : prop));
  }
}

/** What a name with a default binds. */
const target = ({ span, key, value }) => (value === null ? key : { type: 'AssignPat', span, left: key, right: value });

/** The identifiers below a node that are no label; on the way what is key and value in one is written out. */
function* identifiers(node) {
  const stack = [node];
  while (stack.length > 0) {
    const top = stack.pop();
    if (top.type === 'Ident' || top.type === 'BindingIdent') {
      yield top;
      continue;
    }
    writtenOut(top);
    for (const [key, value] of Object.entries(top)) {
      if (value !== null && typeof value === 'object' && key !== 'label' && key !== 'span') {
        stack.push(value);
      }
    }
  }
}

/** The texts of most identifiers of a context of one mark, but for those that may not be declared. */
function mostUsed(all, mark, count) {
  const uses = new Map();
  for (const { ctxt, sym } of all.filter((each) => each.ctxt.length === 1 && each.ctxt[0] === mark)) {
    uses.set(sym, (uses.get(sym) ?? 0) + 1);
  }
  ['arguments', 'eval', 'undefined', 'await', 'yield', 'let', 'static'].forEach((text) => uses.delete(text));
  return [...uses].sort((one, other) => other[1] - one[1]).slice(0, count).map(([text]) => text);
}

/** The text of a number: a, b .. z, aa, ab and so on. */
const letters = (number) => (number < 26 ? '' : letters(Math.floor(number / 26) - 1)) + String.fromCharCode(97 + (number % 26));

/** The same, with `_` behind what may not be a name or is one of the first texts. */
function textOf(number, first) {
  const text = letters(number);
  return first.includes(text) || ['as', 'do', 'if', 'in', 'is', 'of', 'for', 'let', 'new', 'try', 'var'].includes(text) ? `${text}_` : text;
}

/** How many identifiers of two trees of one shape have another text. */
export function renamedBetween(before, after) {
  const texts = [...identifiers(after)].map(({ sym }) => sym);
  return [...identifiers(before)].filter(({ sym }, at) => sym !== texts[at]).length;
}

/** Calls the names of an envelope's inner scopes anew: the first in each as the free name that is used most, and so on. */
export function giveFewTexts({ tree, unresolved, top }) {
  const all = [...identifiers(tree)];
  const first = [...mostUsed(all, unresolved, 3), ...mostUsed(all, top, 3)];
  const scopes = new Map();
  for (const identifier of all) {
    const context = identifier.ctxt.join();
    if (identifier.ctxt.length > 0 && identifier.sym !== 'arguments' && ![unresolved, top].includes(identifier.ctxt.at(-1))) {
      const texts = scopes.get(context) ?? scopes.set(context, new Map()).get(context);
      const number = texts.get(identifier.sym) ?? texts.set(identifier.sym, texts.size).get(identifier.sym);
      identifier.sym = first[number] ?? textOf(number - first.length, first);
    }
  }
}
