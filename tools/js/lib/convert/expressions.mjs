// Expressions.
import { arrow, classExpression, computedName, functionExpression, functionOf, propertyName } from './functions.mjs';
import { dispatch, ident, identName, literal, optional, privateName, span, templateElements } from './leaves.mjs';
import { pattern } from './patterns.mjs';
import { block } from './statements.mjs';

const dots = (node) => [node.start + 1, node.start + 4];

function argument(node) {
  const spreads = node.type === 'SpreadElement';
  return {
    type: 'ExprOrSpread',
    spread: spreads ? dots(node) : null,
    expr: expression(spreads ? node.argument : node),
  };
}

const ACCESSORS = {
  get: (node) => ({
    type: 'GetterProp',
    span: span(node),
    key: propertyName(node),
    body: block(node.value.body),
  }),
  set: (node) => ({
    type: 'SetterProp',
    span: span(node),
    key: propertyName(node),
    param: pattern(node.value.params[0]),
    body: block(node.value.body),
  }),
};

function property(node) {
  if (node.type === 'SpreadElement') {
    return { type: 'SpreadElement', dot3_token: dots(node), expr: expression(node.argument) };
  }
  if (node.kind !== 'init') {
    return ACCESSORS[node.kind](node);
  }
  if (node.method) {
    return { type: 'MethodProp', key: propertyName(node), function: functionOf(node.value) };
  }
  if (node.shorthand) {
    return ident(node.value);
  }
  return { type: 'KeyValueProp', key: propertyName(node), value: expression(node.value) };
}

function memberName(node) {
  if (node.computed) {
    return computedName(node.property, node.brackets);
  }
  return node.property.type === 'PrivateIdentifier' ? privateName(node.property) : identName(node.property);
}

const superOf = (node) => ({ type: 'Super', span: span(node) });

function member(node) {
  const prop = memberName(node);
  if (node.object.type === 'Super') {
    return { type: 'SuperPropExpr', span: span(node), obj: superOf(node.object), prop };
  }
  return { type: 'MemberExpr', span: span(node), obj: expression(node.object), prop };
}

function call(node) {
  const callee = node.callee.type === 'Super' ? superOf(node.callee) : expression(node.callee);
  return { type: 'CallExpr', span: span(node), callee, args: node.arguments.map(argument) };
}

function importCall(node) {
  const callee = { type: 'Import', span: [node.start + 1, node.start + 1 + 'import'.length] };
  const args = [node.source, node.options].filter((given) => given).map(argument);
  return { type: 'CallExpr', span: span(node), callee, args };
}

function construction(node) {
  // Without arguments there are no parentheses either, and the callee comes last.
  const bare = node.arguments.length === 0 && node.end === node.callee.end;
  const args = bare ? null : node.arguments.map(argument);
  return { type: 'NewExpr', span: span(node), callee: expression(node.callee), args };
}

function isChained(node) {
  switch (node.type) {
    case 'MemberExpression':
      return node.optional || isChained(node.object);
    case 'CallExpression':
      return node.optional || isChained(node.callee);
    default:
      return false;
  }
}

// A whole chain is one node of ESTree; here each of its parts from the first `?.` on is one.
function chain(node) {
  if (!isChained(node)) {
    return expression(node);
  }
  const base = node.type === 'MemberExpression'
    ? { type: 'MemberExpr', span: span(node), obj: chain(node.object), prop: memberName(node) }
    : { type: 'OptCall', span: span(node), callee: chain(node.callee), args: node.arguments.map(argument) };
  return { type: 'OptChainExpr', span: span(node), optional: node.optional, base };
}

function binary(node) {
  const left = node.left.type === 'PrivateIdentifier' ? privateName(node.left) : expression(node.left);
  return { type: 'BinExpr', span: span(node), op: node.operator, left, right: expression(node.right) };
}

function template(node) {
  return { type: 'Tpl', span: span(node), exprs: node.expressions.map(expression), quasis: templateElements(node) };
}

const EXPRESSIONS = {
  Identifier: ident,
  Literal: literal,
  ThisExpression: (node) => ({ type: 'ThisExpr', span: span(node) }),
  ArrayExpression: (node) => ({
    type: 'ArrayLit',
    span: span(node),
    elems: node.elements.map((element) => optional(argument, element)),
  }),
  ObjectExpression: (node) => ({ type: 'ObjectLit', span: span(node), props: node.properties.map(property) }),
  FunctionExpression: (node) => functionExpression(node),
  ArrowFunctionExpression: (node) => arrow(node),
  ClassExpression: (node) => classExpression(node),
  UnaryExpression: (node) => ({
    type: 'UnaryExpr',
    span: span(node),
    op: node.operator,
    arg: expression(node.argument),
  }),
  UpdateExpression: (node) => ({
    type: 'UpdateExpr',
    span: span(node),
    op: node.operator,
    prefix: node.prefix,
    arg: expression(node.argument),
  }),
  BinaryExpression: binary,
  LogicalExpression: binary,
  AssignmentExpression: (node) => ({
    type: 'AssignExpr',
    span: span(node),
    op: node.operator,
    left: pattern(node.left),
    right: expression(node.right),
  }),
  MemberExpression: member,
  ChainExpression: (node) => chain(node.expression),
  ConditionalExpression: (node) => ({
    type: 'CondExpr',
    span: span(node),
    test: expression(node.test),
    cons: expression(node.consequent),
    alt: expression(node.alternate),
  }),
  CallExpression: call,
  ImportExpression: importCall,
  NewExpression: construction,
  SequenceExpression: (node) => ({ type: 'SeqExpr', span: span(node), exprs: node.expressions.map(expression) }),
  ParenthesizedExpression: (node) => ({ type: 'ParenExpr', span: span(node), expr: expression(node.expression) }),
  AwaitExpression: (node) => ({ type: 'AwaitExpr', span: span(node), arg: expression(node.argument) }),
  YieldExpression: (node) => ({
    type: 'YieldExpr',
    span: span(node),
    arg: optional(expression, node.argument),
    delegate: node.delegate,
  }),
  TemplateLiteral: template,
  TaggedTemplateExpression: (node) => ({
    type: 'TaggedTpl',
    span: span(node),
    tag: expression(node.tag),
    tpl: template(node.quasi),
  }),
  MetaProperty: (node) => ({
    type: 'MetaPropExpr',
    span: span(node),
    kind: `${node.meta.name}.${node.property.name}`,
  }),
};

export function expression(node) {
  return dispatch(EXPRESSIONS, node);
}
