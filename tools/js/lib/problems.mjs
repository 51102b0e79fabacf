// Why a command ends without an answer, and its exit status then.
const STATUS = { usage: 2, notTree: 3, leftOut: 4, syntax: 5 };

/** Why there is no answer: a message and an exit status. */
export class Problem extends Error {
  constructor(message, status) {
    super(message);
    this.status = status;
  }
}

/** The arguments are wrong. */
export class Usage extends Problem {
  constructor(message) {
    super(message, STATUS.usage);
  }
}

/** Something that a command needs isn't there. */
export class Missing extends Problem {
  constructor(message) {
    super(message, STATUS.usage);
  }
}

/** What was read is no tree; `path` is that of the first thing that is wrong. */
export class NotTree extends Problem {
  constructor(path) {
    super(`not a tree: ${path}`, STATUS.notTree);
  }
}

/** The text has something that our tree leaves out. */
export class LeftOut extends Problem {
  constructor(what, node) {
    super(`left out of the tree: ${what}`, STATUS.leftOut);
    this.pos = node.start;
  }
}

/** Where an offset of a text is: line and column, both from 1. */
export function lineAndColumn(source, position) {
  const lines = source.slice(0, position).split(/\r\n|[\n\r\u2028\u2029]/);
  return `${lines.length}:${lines.at(-1).length + 1}`;
}

const withoutPlace = (message) => message.replace(/ \(\d+:\d+\)$/, '');

/** An error of the conversion as a problem that says where it is. */
export function located(error, file, source) {
  if (error instanceof SyntaxError && error.pos !== undefined) {
    const place = lineAndColumn(source, error.pos);
    return new Problem(`${file}:${place}: syntax error: ${withoutPlace(error.message)}`, STATUS.syntax);
  }
  if (error instanceof LeftOut) {
    return new Problem(`${file}:${lineAndColumn(source, error.pos)}: ${error.message}`, STATUS.leftOut);
  }
  return error;
}

/** What ended a command as a problem, where it is one. */
export function problemOf(error) {
  if (error instanceof RangeError) {
    return new Problem(`it nests too deeply for node: ${error.message}`, STATUS.leftOut);
  }
  return error instanceof Problem ? error : null;
}
