// Patterns and the targets of assignments.
import { expression } from './expressions.mjs';
import { propertyName } from './functions.mjs';
import { bindingIdent, dispatch, optional, span } from './leaves.mjs';

function shorthand(node) {
  const { value } = node;
  const hasDefault = value.type === 'AssignmentPattern';
  return {
    type: 'AssignPatProp',
    span: span(node),
    key: bindingIdent(hasDefault ? value.left : value),
    value: hasDefault ? expression(value.right) : null,
  };
}

function property(node) {
  if (node.type === 'RestElement') {
    return pattern(node);
  }
  if (node.shorthand) {
    return shorthand(node);
  }
  return { type: 'KeyValuePatProp', key: propertyName(node), value: pattern(node.value) };
}

const PATTERNS = {
  Identifier: bindingIdent,
  MemberExpression: (node) => expression(node),
  ParenthesizedExpression: (node) => expression(node),
  ArrayPattern: (node) => ({
    type: 'ArrayPat',
    span: span(node),
    elems: node.elements.map((element) => optional(pattern, element)),
  }),
  ObjectPattern: (node) => ({ type: 'ObjectPat', span: span(node), props: node.properties.map(property) }),
  RestElement: (node) => ({ type: 'RestPat', span: span(node), arg: pattern(node.argument) }),
  AssignmentPattern: (node) => ({
    type: 'AssignPat',
    span: span(node),
    left: pattern(node.left),
    right: expression(node.right),
  }),
};

export function pattern(node) {
  return dispatch(PATTERNS, node);
}
