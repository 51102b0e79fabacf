// The kinds of our tree. They are read from tools/tree.txt, from which the Rust and docs/JSON.md are printed as well,
// so that there is one list of them.
import { readFileSync } from 'node:fs';

const FILE = new URL('../../tree.txt', import.meta.url);
const FIELD_TYPE = /^(\[?)(\w+)(\??)(\]?)(\??)$/;
const MARK_LIMIT = 2 ** 32;

const field = (key, type, more = {}) => ({ key, type, list: false, optional: false, holes: false, ...more });
const IDENTIFIER_FIELDS = [field('span', 'Span'), field('ctxt', 'Context'), field('sym', 'Text')];

/** The fields of a kind: kind -> [{ key, type, list, optional, holes }]. */
export const structs = new Map();
/** The words of a place: name -> set of spellings. */
export const words = new Map();
const sums = new Map();

function readField(text) {
  const [key, type] = text.split(' ');
  const [, open, name, inner, , outer] = FIELD_TYPE.exec(type);
  const list = open === '[';
  return field(key, name, { list, optional: (list ? outer : inner) === '?', holes: list && inner === '?' });
}

function readLine(line) {
  const [, keyword, name, sign, rest] = /^(words )?(\w+)(:| =| identifier)\s*(.*)$/.exec(line) ?? [];
  const parts = rest ? rest.split(', ') : [];
  if (keyword) {
    words.set(name, new Set(parts.map((part) => part.split(' ')[0])));
  } else if (sign === ' =') {
    sums.set(name, parts.map((part) => part.split(' ').at(-1).replace('*', '')));
  } else if (sign) {
    structs.set(name, sign === ':' ? parts.map(readField) : IDENTIFIER_FIELDS);
  }
}

for (const line of readFileSync(FILE, 'utf8').split('\n')) {
  if (!/^(#|\/\/\/|family )/.test(line)) {
    readLine(line);
  }
}

function members(name) {
  return sums.has(name) ? sums.get(name).flatMap(members) : [name];
}

const KINDS = new Map([...sums.keys(), ...structs.keys()].map((name) => [name, new Set(members(name))]));
const PROGRAM = new Set(['Module', 'Script']);

const isNumber = (value) => Number.isInteger(value) && value >= 0 && value < MARK_LIMIT;
const isText = (value) => typeof value === 'string' && value.isWellFormed();
const isPair = (value, test) => Array.isArray(value) && value.length === 2 && value.every(test);

const LEAVES = {
  Span: (value) => isPair(value, isNumber),
  Context: (value) => Array.isArray(value) && value.every((mark) => isNumber(mark) && mark > 0),
  Text: isText,
  Flag: (value) => typeof value === 'boolean',
  Pairs: (value) => value === null || (Array.isArray(value) && value.every((pair) => isPair(pair, isText))),
};

function valueFault(value, type, path) {
  if (KINDS.has(type)) {
    return nodeFault(value, KINDS.get(type), path);
  }
  const fits = words.has(type) ? words.get(type).has(value) : LEAVES[type](value);
  return fits ? null : path;
}

function fieldFault(value, { type, list, optional, holes }, path) {
  if (value === null && optional) {
    return null;
  }
  if (!list) {
    return valueFault(value, type, path);
  }
  if (!Array.isArray(value)) {
    return path;
  }
  for (const [index, item] of value.entries()) {
    const fault = item === null && holes ? null : valueFault(item, type, `${path}[${index}]`);
    if (fault) {
      return fault;
    }
  }
  return null;
}

function nodeFault(node, kinds, path) {
  if (!kinds.has(node?.type)) {
    return path;
  }
  for (const one of structs.get(node.type)) {
    const fault = fieldFault(node[one.key] ?? null, one, `${path}.${one.key}`);
    if (fault) {
      return fault;
    }
  }
  return null;
}

/** The path of the first thing that is wrong in a program's tree, or null. */
export const programFault = (tree, path = '$') => nodeFault(tree, PROGRAM, path);

/** Calls `visit` with each node of a tree, a node before those in it. */
export function walk(node, visit) {
  visit(node);
  for (const { key, type, list } of structs.get(node.type)) {
    if (KINDS.has(type)) {
      const below = list ? node[key] ?? [] : [node[key]];
      below.filter((child) => child).forEach((child) => walk(child, visit));
    }
  }
}
