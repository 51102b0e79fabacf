// JavaScript text to ESTree, by acorn. Nothing is installed for it: node has acorn inside, and Debian has a package.
import { createRequire } from 'node:module';
import { Missing } from './problems.mjs';

const INSIDE_NODE = 'internal/deps/acorn/acorn/dist/acorn';
const OF_DEBIAN = '/usr/share/nodejs/acorn';

/** `using` wants this version, and import attributes 8.14. */
const WHOLE_SYNTAX = [8, 15];

const OPTIONS = {
  ecmaVersion: 'latest',
  preserveParens: true,
  allowHashBang: true,
  // Files of CommonJS are scripts to us, and may return from the whole.
  allowReturnOutsideFunction: true,
};

function evaluated(text) {
  const module = { exports: {} };
  new Function('exports', 'module', text)(module.exports, module);
  return module.exports;
}

function insideNode() {
  const warn = process.emitWarning;
  process.emitWarning = () => {}; // `process.binding` is deprecated, and a user can't help that
  try {
    const text = process.binding('natives')[INSIDE_NODE];
    return text ? evaluated(text) : null;
  } catch {
    return null;
  } finally {
    process.emitWarning = warn;
  }
}

function ofDebian() {
  try {
    return createRequire(import.meta.url)(OF_DEBIAN);
  } catch {
    return null;
  }
}

/** The last of some rising numbers that is not above `limit`. */
function lastUpTo(numbers, limit) {
  let low = 0;
  let high = numbers.length;
  while (high - low > 1) {
    const middle = (low + high) >> 1;
    if (numbers[middle] <= limit) {
      low = middle;
    } else {
      high = middle;
    }
  }
  return numbers[low];
}

// Acorn leaves out two things that our tree has: where the brackets of a computed key stand, and whether an import has
// a `with` that lists nothing.
function extended(acorn) {
  return class extends acorn.Parser {
    openBrackets = [];

    finishToken(type, value) {
      super.finishToken(type, value);
      if (type === acorn.tokTypes.bracketL) {
        this.openBrackets.push(this.start);
      }
    }

    parsePropertyName(property) {
      const key = super.parsePropertyName(property);
      if (property.computed) {
        property.closed = this.lastTokEnd;
      }
      return key;
    }

    parseWithClause() {
      return this.type === acorn.tokTypes._with ? super.parseWithClause() : null;
    }

    finishNode(node, type) {
      const done = super.finishNode(node, type);
      if (done.computed) {
        const key = done.key ?? done.property;
        done.brackets = { start: lastUpTo(this.openBrackets, key.start - 1), end: done.closed ?? done.end };
      }
      return done;
    }
  };
}

let loaded = null;

function parser() {
  if (!loaded) {
    const acorn = insideNode() ?? ofDebian();
    if (!acorn) {
      throw new Missing('no parser: this node has no acorn inside; Debian has one: apt-get install node-acorn');
    }
    loaded = extended(acorn);
  }
  return loaded;
}

/** Why there is no parser that knows the whole syntax, or null where there is one. */
export function whyNoParser() {
  const acorn = insideNode() ?? ofDebian();
  if (!acorn) {
    return 'no acorn';
  }
  const [major, minor] = acorn.version.split('.').map(Number);
  const isOld = major < WHOLE_SYNTAX[0] || (major === WHOLE_SYNTAX[0] && minor < WHOLE_SYNTAX[1]);
  return isOld ? `acorn ${acorn.version} is older than ${WHOLE_SYNTAX.join('.')}` : null;
}

/** ESTree of a text of a known kind; more options of acorn may be given. */
export const parseAs = (source, sourceType, more = {}) => parser().parse(source, { ...OPTIONS, sourceType, ...more });

// A text that is no script is tried as a module; where it is neither, that reading counts which came further.
function parseEither(source) {
  try {
    return parseAs(source, 'script');
  } catch (asScript) {
    try {
      return parseAs(source, 'module');
    } catch (asModule) {
      throw asModule.pos > asScript.pos ? asModule : asScript;
    }
  }
}

/** ESTree of a text; `kind` is 'module', 'script', or null where the text and the name of its file tell. */
export function parse(source, kind, file) {
  const told = kind ?? { mjs: 'module', cjs: 'script' }[/\.([^.]*)$/.exec(file)?.[1]];
  return told ? parseAs(source, told) : parseEither(source);
}
