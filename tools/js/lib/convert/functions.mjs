// Functions, classes, their members and the keys of properties.
import { expression } from './expressions.mjs';
import { dispatch, ident, identName, literal, optional, privateName, span } from './leaves.mjs';
import { pattern } from './patterns.mjs';
import { block, statement } from './statements.mjs';

/** A computed key; `brackets` is the extent of its brackets, which parser.mjs notes. */
export function computedName(key, brackets) {
  return { type: 'ComputedPropName', span: span(brackets), expr: expression(key) };
}

export function propertyName({ computed, key, brackets }) {
  if (computed) {
    return computedName(key, brackets);
  }
  return key.type === 'Identifier' ? identName(key) : literal(key);
}

const parameter = (node) => ({ type: 'Param', span: span(node), pat: pattern(node) });

export function functionOf(node) {
  return {
    type: 'Function',
    span: span(node),
    params: node.params.map(parameter),
    body: block(node.body),
    is_generator: node.generator,
    is_async: node.async,
  };
}

export const functionExpression = (node) => ({
  type: 'FnExpr',
  ident: optional(ident, node.id),
  function: functionOf(node),
});

export function arrow(node) {
  return {
    type: 'ArrowExpr',
    span: span(node),
    params: node.params.map(pattern),
    body: node.body.type === 'BlockStatement' ? block(node.body) : expression(node.body),
    is_async: node.async,
  };
}

const KIND_OF_METHOD = { get: 'getter', set: 'setter', method: 'method' };

/** The kind of a member, of the two that are told apart by its name, and its key. */
function named(node, plain, hidden) {
  const isPrivate = node.key.type === 'PrivateIdentifier';
  return {
    type: isPrivate ? hidden : plain,
    span: span(node),
    key: isPrivate ? privateName(node.key) : propertyName(node),
  };
}

function classConstructor(node) {
  return {
    type: 'Constructor',
    span: span(node),
    key: propertyName(node),
    params: node.value.params.map(parameter),
    body: block(node.value.body),
  };
}

function method(node) {
  return {
    ...named(node, 'ClassMethod', 'PrivateMethod'),
    function: functionOf(node.value),
    kind: KIND_OF_METHOD[node.kind],
    is_static: node.static,
  };
}

const MEMBERS = {
  MethodDefinition: (node) => (node.kind === 'constructor' ? classConstructor(node) : method(node)),
  PropertyDefinition: (node) => ({
    ...named(node, 'ClassProp', 'PrivateProp'),
    value: optional(expression, node.value),
    is_static: node.static,
  }),
  StaticBlock: (node) => ({
    type: 'StaticBlock',
    span: span(node),
    body: { type: 'BlockStmt', span: span(node), stmts: node.body.map(statement) },
  }),
};

export function classOf(node) {
  return {
    type: 'Class',
    span: span(node),
    super_class: optional(expression, node.superClass),
    body: node.body.body.map((member) => dispatch(MEMBERS, member)),
  };
}

export const classExpression = (node) => ({
  type: 'ClassExpr',
  ident: optional(ident, node.id),
  class: classOf(node),
});
