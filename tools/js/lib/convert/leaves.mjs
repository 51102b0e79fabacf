// The parts that hold no subtree.
import { LeftOut } from '../problems.mjs';

/** UTF-16 offsets plus 1, so that [0,0] stays the span of what stands nowhere. */
export const span = (node) => [node.start + 1, node.end + 1];

export const optional = (convert, node) => (node ? convert(node) : null);

/** Texts of the tree are Unicode, which "\ud800" is not. */
export function text(value, node) {
  if (!value.isWellFormed()) {
    throw new LeftOut('half of a surrogate pair', node);
  }
  return value;
}

export const ident = (node) => ({ type: 'Ident', span: span(node), ctxt: [], sym: text(node.name, node) });
export const bindingIdent = (node) => ({ ...ident(node), type: 'BindingIdent' });
export const identName = (node) => ({ type: 'IdentName', span: span(node), sym: text(node.name, node) });
export const privateName = (node) => ({ type: 'PrivateName', span: span(node), name: text(node.name, node) });

export function string(node) {
  return { type: 'Str', span: span(node), value: text(node.value, node), raw: text(node.raw, node) };
}

function regex(node) {
  return { type: 'Regex', span: span(node), exp: text(node.regex.pattern, node), flags: node.regex.flags };
}

export function literal(node) {
  if (node.regex) {
    return regex(node);
  }
  if (typeof node.bigint === 'string') {
    return { type: 'BigInt', span: span(node), text: node.raw };
  }
  if (node.value === null) {
    return { type: 'Null', span: span(node) };
  }
  switch (typeof node.value) {
    case 'string':
      return string(node);
    case 'boolean':
      return { type: 'Bool', span: span(node), value: node.value };
    default:
      return { type: 'Number', span: span(node), text: node.raw };
  }
}

function templateElement(node) {
  const { cooked, raw } = node.value;
  return {
    type: 'TplElement',
    span: span(node),
    tail: node.tail,
    cooked: typeof cooked === 'string' ? text(cooked, node) : null, // with a tag, escapes may have no value
    raw: text(raw, node),
  };
}

export const templateElements = (node) => node.quasis.map(templateElement);

/** Converts a node by the table `by`, from types of ESTree to functions. */
export function dispatch(by, node) {
  const convert = Object.hasOwn(by, node.type) ? by[node.type] : null;
  if (!convert) {
    throw new LeftOut(node.type, node);
  }
  return convert(node);
}
