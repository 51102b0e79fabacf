// Two programs in step: the same but for names, and two identifiers of one variable in both or in neither.
import { variablesOf } from './variables.mjs';

/** What tells where a node stands or how it is written, not what it is. */
const PASSED_OVER = ['start', 'end', 'range', 'raw', 'shorthand', 'brackets', 'closed'];

/** Why two programs differ. */
export class Difference extends Error {}

/** The operands of a chain of one logical operator or the items of a sequence, however they are grouped: the printer groups
 * `a && (b && c)` anew, and the fixer opens sequences in sequences. */
function operands(node, { type, operator }) {
  if (node.type !== type || node.operator !== operator) {
    return [node];
  }
  const parts = type === 'LogicalExpression' ? [node.left, node.right] : node.expressions;
  return parts.flatMap((part) => operands(part, node));
}

/** A statement without the block that the fixer puts round it, to keep an `else` where it belongs. */
function inner(result, source) {
  const isBlock = result.type === 'BlockStatement' && source.type !== 'BlockStatement' && result.body.length === 1;
  return isBlock ? result.body[0] : result;
}

/** The identifiers that a declaration or a pattern binds, in the order of the source. */
function boundBy(node) {
  switch (node?.type) {
    case 'Identifier':
      return [node];
    case 'VariableDeclaration':
      return node.declarations.flatMap(({ id }) => boundBy(id));
    case 'FunctionDeclaration':
    case 'ClassDeclaration':
      return [node.id];
    case 'ObjectPattern':
      return node.properties.flatMap((property) => boundBy(property.type === 'RestElement' ? property : property.value));
    case 'ArrayPattern':
      return node.elements.flatMap(boundBy);
    case 'AssignmentPattern':
      return boundBy(node.left);
    case 'RestElement':
      return boundBy(node.argument);
    default:
      return [];
  }
}

/** An item of a program; an exported declaration as the declaration and a list of what it exports, as a renaming has to write it. */
function writtenOut(item) {
  if (item.type !== 'ExportNamedDeclaration' || item.declaration === null) {
    return [item];
  }
  const specifiers = boundBy(item.declaration).map((local) => ({ type: 'ExportSpecifier', local, exported: local }));
  return [item.declaration, { ...item, declaration: null, specifiers }];
}

/** A name by which other modules know something, which is an identifier or a string. */
const nameOf = (node) => node.name ?? node.value;

const isChain = ({ type }) => type === 'LogicalExpression' || type === 'SequenceExpression';

/** Whether it is a free name or `arguments`. */
const isKept = (variable) => typeof variable === 'string' || variable.identifiers.length === 0;

class Walk {
  to = new Map();
  from = new Map();
  renamed = 0;
  identifiers = 0;

  constructor(kind, source, result) {
    this.sourceOf = variablesOf(source, kind);
    this.resultOf = variablesOf(result, kind);
  }

  pair(map, key, value, place) {
    if (map.has(key) && map.get(key) !== value) {
      throw new Difference(`${place} no longer means what it did`);
    }
    map.set(key, value);
  }

  identifier(source, result) {
    const place = `${source.name} at ${source.start}, ${result.name} at ${result.start}`;
    const [one, other] = [this.sourceOf(source), this.resultOf(result)];
    const isSame = source.name === result.name;
    if ((one === null) !== (other === null) || (!isSame && (one === null || isKept(one) || isKept(other)))) {
      throw new Difference(`${place}: a name that is to stay`);
    }
    if (one !== null) {
      this.pair(this.to, one, other, place);
      this.pair(this.from, other, one, place);
      this.identifiers += 1;
      this.renamed += isSame ? 0 : 1;
    }
  }

  node(source, result) {
    if (source.type === 'Identifier' && result.type === 'Identifier') {
      this.identifier(source, result);
    } else if (source.type === 'Program' && result.type === 'Program') {
      this.value(source.body.flatMap(writtenOut), result.body.flatMap(writtenOut), source);
    } else if (source.type === 'ExportSpecifier' && result.type === 'ExportSpecifier') {
      this.value([nameOf(source.exported), source.local], [nameOf(result.exported), result.local], source.local);
    } else if (source.type === 'ImportSpecifier' && result.type === 'ImportSpecifier') {
      this.value([nameOf(source.imported), source.local], [nameOf(result.imported), result.local], source.local);
    } else if (isChain(source)) {
      this.value(operands(source, source), operands(result, source), source);
    } else {
      for (const key of new Set([...Object.keys(source), ...Object.keys(result)])) {
        if (!PASSED_OVER.includes(key) && !(key === 'value' && source.regex)) {
          this.value(source[key], result[key], source);
        }
      }
    }
  }

  value(source, result, around) {
    const [one, other] = [source, result].map((value) => value !== null && typeof value === 'object');
    if (one !== other || Array.isArray(source) !== Array.isArray(result)) {
      throw new Difference(`another shape below ${around.type} at ${around.start}`);
    } else if (Array.isArray(source)) {
      this.value(source.length, result.length, around);
      source.forEach((item, at) => this.value(item, result[at], around));
    } else if (one) {
      this.node(source, inner(result, source));
    } else if (source !== result) {
      throw new Difference(`${String(source)} and ${String(result)} below ${around.type} at ${around.start}`);
    }
  }
}

/** How many identifiers two programs of one kind have that stand for variables, and how many of them have another text; or a Difference. */
export function compare(kind, source, result) {
  const walk = new Walk(kind, source, result);
  walk.node(source, result);
  return { identifiers: walk.identifiers, renamed: walk.renamed };
}
