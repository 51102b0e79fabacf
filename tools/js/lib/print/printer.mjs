// What writes tokens. It sets a space where two tokens would run together, line breaks and indents, and nothing else.
const INDENT = '  ';
const WORD = /[\p{ID_Continue}$\u200c\u200d\\#]/u;

const firstPoint = (text) => String.fromCodePoint(text.codePointAt(0));
const lastPoint = (text) => Array.from(text.slice(-2)).at(-1);

/** Two tokens of signs that would be one, or the begin of a comment: `+ +a`, `/ /b/`, `< !--c`. */
const CLASHES = new Set(['++', '--', '//', '/*', '<!']);

function clash(before, after) {
  const last = lastPoint(before);
  const first = firstPoint(after);
  if (WORD.test(last) && WORD.test(first)) {
    return true;
  }
  const isWhole = /^[0-9_]+$/.test(before);
  return CLASHES.has(last + first) || (isWhole && first === '.') || (last === '?' && /[0-9]/.test(first));
}

export class Printer {
  #parts = [];
  #last = '';
  #depth = 0;
  #printers;

  /** `printers` is a table from kinds to functions of a printer and a node. */
  constructor(printers, { marks = false } = {}) {
    this.#printers = printers;
    this.marks = marks;
  }

  get text() {
    return this.#parts.join('');
  }

  /** Writes text that runs on from what stands before it. */
  glue(text) {
    this.#parts.push(text);
    this.#last = text;
    return this;
  }

  token(text) {
    if (this.#last !== '' && text !== '' && clash(this.#last, text)) {
      this.#parts.push(' ');
    }
    return this.glue(text);
  }

  space() {
    if (this.#last !== '') {
      this.#parts.push(' ');
      this.#last = '';
    }
    return this;
  }

  /** A token with a space on each side. */
  spaced(text) {
    return this.space().token(text).space();
  }

  line() {
    this.#parts.push('\n', INDENT.repeat(this.#depth));
    this.#last = '';
    return this;
  }

  node(node) {
    const print = this.#printers[node.type];
    print(this, node);
    return this;
  }

  /** A node before which something is written, if there is one. */
  optional(node, before = () => {}) {
    if (node) {
      before();
      this.node(node);
    }
    return this;
  }

  /** Items with commas between them; `print` is given each. */
  list(items, print = (item) => this.node(item)) {
    items.forEach((item, index) => {
      if (index > 0) {
        this.token(',').space();
      }
      print(item);
    });
    return this;
  }

  /** Items one deeper, each in a line of its own. */
  indented(items, print) {
    this.#depth += 1;
    items.forEach((item, index) => {
      this.line();
      print(item, index);
    });
    this.#depth -= 1;
    return this;
  }

  /** The same in brackets, which stand together where there are none. */
  lines(open, items, close, print) {
    this.token(open).indented(items, print);
    if (items.length > 0) {
      this.line();
    }
    return this.token(close);
  }
}
