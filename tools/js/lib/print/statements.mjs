// Statements, declarations and the items of programs.
import { quoted } from './leaves.mjs';

const isString = (node) => node.type === 'ExprStmt' && node.expr.type === 'Str';

// A directive means what is written, so the strings that lead a body are written as they were.
function leadingStrings(statements) {
  const end = statements.findIndex((node) => !isString(node));
  return new Set(end < 0 ? statements : statements.slice(0, end));
}

function each(out, statements) {
  const leading = leadingStrings(statements);
  return (node) => {
    if (leading.has(node)) {
      out.token(node.expr.raw ?? quoted(node.expr.value)).token(';');
    } else {
      out.node(node);
    }
  };
}

function block(out, { stmts }) {
  out.lines('{', stmts, '}', each(out, stmts));
}

/** A keyword, an expression or pattern in parentheses, and a body. */
function headed(out, keyword, head, body) {
  out.token(keyword).space().token('(');
  head();
  out.token(')').space().node(body);
}

function ended(out, keyword, argument) {
  out.token(keyword).optional(argument, () => out.space()).token(';');
}

function variables(out, keyword, decls) {
  out.token(keyword).space().list(decls);
}

const HEADS = {
  VarDecl: (out, node) => variables(out, node.kind, node.decls),
  UsingDecl: (out, node) => variables(out, node.is_await ? 'await using' : 'using', node.decls),
};

/** What a `for` begins with, which is a declaration without its semicolon. */
function forHead(out, node) {
  if (Object.hasOwn(HEADS, node.type)) {
    HEADS[node.type](out, node);
  } else {
    out.node(node);
  }
}

function forLoop(out, node) {
  headed(out, 'for', () => {
    if (node.init) {
      forHead(out, node.init);
    }
    out.token(';').optional(node.test, () => out.space());
    out.token(';').optional(node.update, () => out.space());
  }, node.body);
}

function forEach(out, node, keyword, word) {
  headed(out, keyword, () => {
    forHead(out, node.left);
    out.spaced(word).node(node.right);
  }, node.body);
}

function choice(out, node) {
  headed(out, 'if', () => out.node(node.test), node.cons);
  out.optional(node.alt, () => out.spaced('else'));
}

function switchOver(out, node) {
  out.token('switch').space().token('(').node(node.discriminant).token(')').space();
  out.lines('{', node.cases, '}', (one) => out.node(one));
}

function switchCase(out, node) {
  if (node.test) {
    out.token('case').space().node(node.test);
  } else {
    out.token('default');
  }
  out.token(':').indented(node.cons, (one) => out.node(one));
}

function attempt(out, node) {
  out.token('try').space().node(node.block);
  out.optional(node.handler, () => out.space());
  out.optional(node.finalizer, () => out.spaced('finally'));
}

function catchClause(out, node) {
  out.token('catch').space();
  if (node.param) {
    out.token('(').node(node.param).token(')').space();
  }
  out.node(node.body);
}

function doLoop(out, node) {
  out.token('do').space().node(node.body).spaced('while').token('(').node(node.test).token(')').token(';');
}

export const STATEMENTS = {
  BlockStmt: block,
  EmptyStmt: (out) => out.token(';'),
  DebuggerStmt: (out) => ended(out, 'debugger'),
  ExprStmt: (out, node) => out.node(node.expr).token(';'),
  WithStmt: (out, node) => headed(out, 'with', () => out.node(node.obj), node.body),
  ReturnStmt: (out, node) => ended(out, 'return', node.arg),
  ThrowStmt: (out, node) => ended(out, 'throw', node.arg),
  LabeledStmt: (out, node) => out.node(node.label).token(':').space().node(node.body),
  BreakStmt: (out, node) => ended(out, 'break', node.label),
  ContinueStmt: (out, node) => ended(out, 'continue', node.label),
  IfStmt: choice,
  SwitchStmt: switchOver,
  SwitchCase: switchCase,
  TryStmt: attempt,
  CatchClause: catchClause,
  WhileStmt: (out, node) => headed(out, 'while', () => out.node(node.test), node.body),
  DoWhileStmt: doLoop,
  ForStmt: forLoop,
  ForInStmt: (out, node) => forEach(out, node, 'for', 'in'),
  ForOfStmt: (out, node) => forEach(out, node, node.is_await ? 'for await' : 'for', 'of'),
  VarDecl: (out, node) => {
    HEADS.VarDecl(out, node);
    out.token(';');
  },
  UsingDecl: (out, node) => {
    HEADS.UsingDecl(out, node);
    out.token(';');
  },
  VarDeclarator: (out, node) => out.node(node.name).optional(node.init, () => out.spaced('=')),
};

function program(out, { body, shebang }) {
  if (typeof shebang === 'string') {
    out.glue(`#!${shebang}`).line();
  }
  const print = each(out, body);
  for (const node of body) {
    print(node);
    out.line();
  }
}

export const PROGRAMS = { Module: program, Script: program };
