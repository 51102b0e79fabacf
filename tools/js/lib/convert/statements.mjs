// Statements and declarations.
import { LeftOut } from '../problems.mjs';
import { expression } from './expressions.mjs';
import { classOf, functionOf } from './functions.mjs';
import { dispatch, ident, optional, span } from './leaves.mjs';
import { pattern } from './patterns.mjs';

export function block(node) {
  return { type: 'BlockStmt', span: span(node), stmts: node.body.map(statement) };
}

function declarator(node) {
  return { type: 'VarDeclarator', span: span(node), name: pattern(node.id), init: optional(expression, node.init) };
}

function variables(node) {
  const decls = node.declarations.map(declarator);
  if (node.kind === 'using' || node.kind === 'await using') {
    return { type: 'UsingDecl', span: span(node), is_await: node.kind === 'await using', decls };
  }
  return { type: 'VarDecl', span: span(node), kind: node.kind, decls };
}

const isDeclaration = (node) => node.type === 'VariableDeclaration';
const forHead = (node) => (isDeclaration(node) ? variables(node) : pattern(node));

function forInit(node) {
  const init = isDeclaration(node) ? variables(node) : expression(node);
  if (init.type === 'UsingDecl') {
    throw new LeftOut('`using` at the head of a `for` with semicolons', node);
  }
  return init;
}

function forLoop(node) {
  return {
    type: 'ForStmt',
    span: span(node),
    init: optional(forInit, node.init),
    test: optional(expression, node.test),
    update: optional(expression, node.update),
    body: statement(node.body),
  };
}

/** What a loop over keys and one over values have in common. */
const forEach = (node) => ({
  left: forHead(node.left),
  right: expression(node.right),
  body: statement(node.body),
});

function switchCase(node) {
  const cons = node.consequent.map(statement);
  return { type: 'SwitchCase', span: span(node), test: optional(expression, node.test), cons };
}

function catchClause(node) {
  return { type: 'CatchClause', span: span(node), param: optional(pattern, node.param), body: block(node.body) };
}

const STATEMENTS = {
  BlockStatement: block,
  EmptyStatement: (node) => ({ type: 'EmptyStmt', span: span(node) }),
  DebuggerStatement: (node) => ({ type: 'DebuggerStmt', span: span(node) }),
  ExpressionStatement: (node) => ({ type: 'ExprStmt', span: span(node), expr: expression(node.expression) }),
  WithStatement: (node) => ({
    type: 'WithStmt',
    span: span(node),
    obj: expression(node.object),
    body: statement(node.body),
  }),
  ReturnStatement: (node) => ({ type: 'ReturnStmt', span: span(node), arg: optional(expression, node.argument) }),
  LabeledStatement: (node) => ({
    type: 'LabeledStmt',
    span: span(node),
    label: ident(node.label),
    body: statement(node.body),
  }),
  BreakStatement: (node) => ({ type: 'BreakStmt', span: span(node), label: optional(ident, node.label) }),
  ContinueStatement: (node) => ({ type: 'ContinueStmt', span: span(node), label: optional(ident, node.label) }),
  IfStatement: (node) => ({
    type: 'IfStmt',
    span: span(node),
    test: expression(node.test),
    cons: statement(node.consequent),
    alt: optional(statement, node.alternate),
  }),
  SwitchStatement: (node) => ({
    type: 'SwitchStmt',
    span: span(node),
    discriminant: expression(node.discriminant),
    cases: node.cases.map(switchCase),
  }),
  ThrowStatement: (node) => ({ type: 'ThrowStmt', span: span(node), arg: expression(node.argument) }),
  TryStatement: (node) => ({
    type: 'TryStmt',
    span: span(node),
    block: block(node.block),
    handler: optional(catchClause, node.handler),
    finalizer: optional(block, node.finalizer),
  }),
  WhileStatement: (node) => ({
    type: 'WhileStmt',
    span: span(node),
    test: expression(node.test),
    body: statement(node.body),
  }),
  DoWhileStatement: (node) => ({
    type: 'DoWhileStmt',
    span: span(node),
    body: statement(node.body),
    test: expression(node.test),
  }),
  ForStatement: forLoop,
  ForInStatement: (node) => ({ type: 'ForInStmt', span: span(node), ...forEach(node) }),
  ForOfStatement: (node) => ({ type: 'ForOfStmt', span: span(node), is_await: node.await, ...forEach(node) }),
  ClassDeclaration: (node) => ({ type: 'ClassDecl', ident: ident(node.id), class: classOf(node) }),
  FunctionDeclaration: (node) => ({ type: 'FnDecl', ident: ident(node.id), function: functionOf(node) }),
  VariableDeclaration: variables,
};

export function statement(node) {
  return dispatch(STATEMENTS, node);
}
