// Which variable each identifier of a program stands for, by eslint-scope. It knows no function that is hoisted out of a block
// of sloppy code (ECMA-262, B.3.2), so that is added here; that what a class extends is in the class's own scope, and a function
// that is a branch of an `if` in a block of its own, it doesn't know either, and no file was seen to need it.
import { createRequire } from 'node:module';

const NAMED_IN_BLOCKS = ['block', 'switch'];

const require = createRequire(import.meta.url);

/** Sets of things, each known by one of its members. */
class Sets {
  #above = new Map();

  of(item) {
    let found = item;
    while (this.#above.has(found)) {
      found = this.#above.get(found);
    }
    return found;
  }

  join(one, other) {
    if (this.of(one) !== this.of(other)) {
      this.#above.set(this.of(one), this.of(other));
    }
  }
}

const isPlain = ({ type, node }) => type === 'FunctionName' && !node.async && !node.generator;
const isLexical = ({ type, parent }) => type === 'ClassName' || (type === 'Variable' && parent.kind !== 'var');

const isSimpleCatch = ({ type, block }) => type === 'catch' && block.param?.type === 'Identifier';

/** Where a block's function is declared a second time, or null where it stays in its block. */
function hoistedTo(scope, { name }) {
  const end = scope.variableScope;
  for (let outer = scope.upper; outer !== end; outer = outer.upper) {
    if (outer.set.has(name) && !isSimpleCatch(outer)) {
      return null;
    }
  }
  const there = end.set.get(name)?.defs ?? [];
  return there.some((def) => isLexical(def) || def.type === 'Parameter') ? null : end;
}

/** Makes the functions of a block of sloppy code, where they are hoisted, one with the variables that they assign. */
function hoist(scope, sets) {
  for (const variable of NAMED_IN_BLOCKS.includes(scope.type) && !scope.isStrict ? scope.variables : []) {
    const target = variable.defs.some(isPlain) ? hoistedTo(scope, variable) : null;
    if (target) {
      target.hoisted ??= new Map();
      const there = target.set.get(variable.name) ?? target.hoisted.get(variable.name) ?? variable;
      target.hoisted.set(variable.name, there);
      sets.join(variable, there);
    }
  }
}

/** The variable of a reference: that of eslint-scope, unless one is hoisted to a nearer scope; or the text of a free name. */
function meant({ identifier: { name, start }, from, resolved }, whole) {
  for (let scope = from; scope && scope !== resolved?.scope; scope = scope.upper) {
    const isInParameters = scope.type === 'function' && start < scope.block.body.start;
    if (scope.hoisted?.has(name) && !isInParameters) {
      return scope.hoisted.get(name);
    }
  }
  return resolved ?? whole.set.get(name) ?? name; // eslint-scope leaves a script's own variables unresolved
}

/**
 * A function that answers what an identifier's node stands for: null where it is no variable's name, its text where it is
 * free or the `arguments` of a function, else one and the same thing for all of one variable.
 */
export function variablesOf(program, sourceType) {
  const { scopes, globalScope } = require('eslint-scope').analyze(program, { ecmaVersion: 2022, sourceType });
  const sets = new Sets();
  const nodes = new Map();
  const put = (node, variable) => (nodes.has(node) ? sets.join(nodes.get(node), variable) : nodes.set(node, variable));
  scopes.forEach((scope) => hoist(scope, sets));
  for (const scope of scopes) {
    scope.variables.forEach((variable) => variable.identifiers.forEach((node) => put(node, variable)));
  }
  for (const scope of scopes) {
    scope.references.forEach((reference) => put(reference.identifier, meant(reference, globalScope)));
  }
  return (node) => (nodes.has(node) ? sets.of(nodes.get(node)) : null);
}
