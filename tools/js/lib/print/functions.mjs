// Functions, classes and their members.

function parameters(out, params) {
  return out.token('(').list(params).token(')');
}

/** Parameters and body. */
export function rest(out, node) {
  parameters(out, node.params).space().node(node.body);
}

/** What stands before the key of a method. */
export function modifiers(out, node) {
  if (node.is_async) {
    out.token('async');
  }
  if (node.is_generator) {
    out.token('*');
  }
}

function functionOf(out, { ident, function: inner }) {
  if (inner.is_async) {
    out.token('async');
  }
  out.token('function');
  if (inner.is_generator) {
    out.token('*');
  }
  out.optional(ident);
  rest(out, inner);
}

function arrow(out, node) {
  if (node.is_async) {
    out.token('async').space();
  }
  parameters(out, node.params).spaced('=>').node(node.body);
}

function classOf(out, { ident, class: inner }) {
  out.token('class').optional(ident);
  out.optional(inner.super_class, () => out.spaced('extends'));
  out.space().lines('{', inner.body, '}', (member) => out.node(member));
}

const ACCESSORS = { getter: 'get', setter: 'set' };

function isStatic(out, node) {
  if (node.is_static) {
    out.token('static');
  }
}

function method(out, node) {
  isStatic(out, node);
  modifiers(out, node.function);
  if (node.kind !== 'method') {
    out.token(ACCESSORS[node.kind]);
  }
  out.node(node.key);
  rest(out, node.function);
}

function classField(out, node) {
  isStatic(out, node);
  out.node(node.key).optional(node.value, () => out.spaced('=')).token(';');
}

function classConstructor(out, node) {
  out.node(node.key);
  rest(out, node);
}

export const FUNCTIONS = {
  Param: (out, node) => out.node(node.pat),
  FnExpr: functionOf,
  FnDecl: functionOf,
  ArrowExpr: arrow,
  ClassExpr: classOf,
  ClassDecl: classOf,
  Constructor: classConstructor,
  ClassMethod: method,
  PrivateMethod: method,
  ClassProp: classField,
  PrivateProp: classField,
  StaticBlock: (out, node) => out.token('static').space().node(node.body),
};
