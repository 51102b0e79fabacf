// The command rows.
import { fileURLToPath } from 'node:url';
import { read } from './command.mjs';
import { print } from './print.mjs';
import { programFault } from './table.mjs';

const HELP = `usage: rows [--file FILE|-] [--spans] [WORD..]

The rows of a program of the gate for a reader: the words of each, what it is given and what
is wanted, trees as JavaScript whose names have their marks (a#2). Words choose the rows that
have them all, a number the row at that line.

  --file FILE  other rows than those of crates/gate_replay/stdin
  --spans      lines as they are written, where trees have their spans, which JavaScript hasn't
  --help       this text

Exit status: 0; 2 wrong usage, or something can't be read.
`;

const ROWS = fileURLToPath(new URL('../../../crates/gate_replay/stdin', import.meta.url));
const LINES = 3;

function valueIn(text) {
  try {
    return JSON.parse(text);
  } catch {
    return null;
  }
}

/** The text of a tree, in one line where no line end can mean anything; null of what isn't a program of JavaScript, as where types are declared. */
function shown(tree) {
  if (!tree?.type || programFault(tree, '$')) {
    return null;
  }
  try {
    const text = print(tree, { marks: true }).trim();
    return /[`\\]|^#!/.test(text) ? text : text.replace(/\n\s*/g, ' ');
  } catch (error) {
    if (error instanceof TypeError) {
      return null;
    }
    throw error;
  }
}

/** A line of a row, whose trees are written as JavaScript; what stands before an envelope and beside its trees stays as it is. */
function readable(line) {
  const start = line.indexOf('{"');
  const value = start < 0 ? null : valueIn(line.slice(start));
  const parts = Object.entries(value ?? {}).map(([key, part]) => ({ key, part, text: shown(part) }));
  const trees = parts.filter(({ text }) => text !== null);
  if (trees.length === 0) {
    return line;
  }
  const beside = parts.filter(({ text }) => text === null).map(({ key, part }) => `${key} ${JSON.stringify(part)}`);
  const lines = trees.map(({ key, text }) => `${key}: ${text || '(empty)'}`);
  return [line.slice(0, start) + beside.join(', '), ...lines].join('\n').replace(/\n/g, '\n    ');
}

/** The rows of a text, each with the number of its first line. */
export function rowsIn(text) {
  const lines = text.split('\n');
  return lines.flatMap((words, at) => (at % LINES === 0 && at + LINES <= lines.length ? [{ at: at + 1, words, given: lines[at + 1], wanted: lines[at + 2] }] : []));
}

const isMeant = (row, chosen) => chosen.every((word) => (/^\d+$/.test(word) ? Number(word) === row.at : row.words.split(' ').includes(word)));

export const rows = {
  name: 'rows',
  help: HELP,
  options: { file: { type: 'string' }, spans: { type: 'boolean' } },
  positionals: [0, Infinity],
  run({ file = ROWS, spans }, chosen) {
    const write = spans ? (line) => line : readable;
    const meant = rowsIn(read(file)).filter((row) => isMeant(row, chosen));
    return meant.map(({ at, words, given, wanted }) => `${at}: ${words}\n  given ${write(given)}\n  wanted ${write(wanted)}\n`).join('');
  },
};
