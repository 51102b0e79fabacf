// Expressions and patterns. The only parentheses are those of the tree and those that belong to a form, as of a call.
import { modifiers, rest } from './functions.mjs';

const WIDE = 3;

/** Items in brackets, some left out; one left out at the end needs a comma of its own. */
function elements(out, items) {
  out.token('[').list(items, (item) => out.optional(item));
  if (items.length > 0 && !items.at(-1)) {
    out.token(',');
  }
  out.token(']');
}

function args(out, given) {
  out.token('(').list(given).token(')');
}

const hasBody = ({ type }) => ['MethodProp', 'GetterProp', 'SetterProp'].includes(type);

/** Properties in braces, in a line or one a line. */
function properties(out, props) {
  if (props.length > WIDE || props.some(hasBody)) {
    out.lines('{', props, '}', (property, index) => {
      out.node(property);
      if (index < props.length - 1) {
        out.token(',');
      }
    });
    return;
  }
  out.token('{');
  if (props.length > 0) {
    out.space().list(props).space();
  }
  out.token('}');
}

function keyed(out, node) {
  out.node(node.key).token(':').space().node(node.value);
}

function withDefault(out, left, right) {
  out.node(left).optional(right, () => out.spaced('='));
}

function binary(out, node) {
  out.node(node.left).spaced(node.op).node(node.right);
}

/** A property of an object: `dot` is `.` or `?.`. */
function member(out, prop, dot) {
  if (prop.type !== 'ComputedPropName') {
    out.token(dot).node(prop);
    return;
  }
  if (dot === '?.') {
    out.token(dot);
  }
  out.node(prop);
}

function chained(out, { optional, base }) {
  if (base.type === 'MemberExpr') {
    member(out.node(base.obj), base.prop, optional ? '?.' : '.');
    return;
  }
  out.node(base.callee);
  if (optional) {
    out.token('?.');
  }
  args(out, base.args);
}

function template(out, { exprs, quasis }) {
  quasis.forEach(({ raw }, index) => {
    const close = index === quasis.length - 1 ? '`' : '${';
    if (index === 0) {
      out.token(`\`${raw}${close}`);
    } else {
      out.glue(`}${raw}${close}`);
    }
    out.optional(exprs[index]);
  });
}

function update(out, node) {
  if (node.prefix) {
    out.token(node.op).node(node.arg);
  } else {
    out.node(node.arg).token(node.op);
  }
}

function construction(out, node) {
  out.token('new').space().node(node.callee);
  if (node.args) {
    args(out, node.args);
  }
}

function yielded(out, node) {
  out.token('yield');
  if (node.delegate) {
    out.token('*');
  }
  out.optional(node.arg, () => out.space());
}

function choice(out, node) {
  out.node(node.test).spaced('?').node(node.cons).spaced(':').node(node.alt);
}

function getter(out, node) {
  out.token('get').node(node.key).token('()').space().node(node.body);
}

function setter(out, node) {
  out.token('set').node(node.key).token('(').node(node.param).token(')').space().node(node.body);
}

function objectMethod(out, node) {
  modifiers(out, node.function);
  rest(out.node(node.key), node.function);
}

function call(out, node) {
  args(out.node(node.callee), node.args);
}

function argument(out, node) {
  if (node.spread) {
    out.token('...');
  }
  out.node(node.expr);
}

const PATTERNS = {
  ArrayPat: (out, node) => elements(out, node.elems),
  ObjectPat: (out, node) => properties(out, node.props),
  RestPat: (out, node) => out.token('...').node(node.arg),
  AssignPat: (out, node) => withDefault(out, node.left, node.right),
  KeyValuePatProp: keyed,
  AssignPatProp: (out, node) => withDefault(out, node.key, node.value),
};

export const EXPRESSIONS = {
  ...PATTERNS,
  ArrayLit: (out, node) => elements(out, node.elems),
  ExprOrSpread: argument,
  ObjectLit: (out, node) => properties(out, node.props),
  SpreadElement: (out, node) => out.token('...').node(node.expr),
  KeyValueProp: keyed,
  MethodProp: objectMethod,
  GetterProp: getter,
  SetterProp: setter,
  ComputedPropName: (out, node) => out.token('[').node(node.expr).token(']'),
  UnaryExpr: (out, node) => out.token(node.op).node(node.arg),
  UpdateExpr: update,
  BinExpr: binary,
  AssignExpr: binary,
  MemberExpr: (out, node) => member(out.node(node.obj), node.prop, '.'),
  SuperPropExpr: (out, node) => member(out.node(node.obj), node.prop, '.'),
  CondExpr: choice,
  CallExpr: call,
  NewExpr: construction,
  SeqExpr: (out, node) => out.list(node.exprs),
  ParenExpr: (out, node) => out.token('(').node(node.expr).token(')'),
  AwaitExpr: (out, node) => out.token('await').space().node(node.arg),
  YieldExpr: yielded,
  Tpl: template,
  TaggedTpl: (out, node) => out.node(node.tag).node(node.tpl),
  OptChainExpr: chained,
};
