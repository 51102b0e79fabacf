// Holds the rows of crates/gate_text/stdin against acorn's trees: `node tools/js/lib/text_rows.mjs` tells of each row whose answer is
// another, `--write` writes what acorn has where a row wants `?`. What is refused has to be refused by both, but where
// the line before a row says `# acorn ..`. How a row is written stands in crates/gate_text/src/main.rt.
import { readFileSync, writeFileSync } from 'node:fs';
import { structs } from './table.mjs';
import { treeOf } from './tree.mjs';

const FILE = new URL('../../../crates/gate_text/stdin', import.meta.url);
const MARKED = /⟨([0-9A-F]{2})⟩/;

/** The bytes of a row's text, in which ⟨0D⟩ is the byte 13. */
function bytesOf(lines) {
  const parts = lines.join('\n').split(MARKED);
  return Buffer.concat(parts.map((part, i) => (i % 2 ? Buffer.from(part, 'hex') : Buffer.from(part))));
}

/** Where each UTF-16 offset of a text is in its bytes. */
export function byteOffsets(source) {
  const offsets = new Uint32Array(source.length + 1);
  let bytes = 0;
  for (let i = 0; i < source.length; i += 1) {
    offsets[i] = bytes;
    const point = source.codePointAt(i);
    bytes += point < 0x80 ? 1 : point < 0x800 ? 2 : point < 0x10000 ? 3 : 4;
    if (point >= 0x10000) {
      i += 1;
      offsets[i] = bytes;
    }
  }
  offsets[source.length] = bytes;
  return offsets;
}

const quoted = (text) => {
  const shown = [...text].map((character) => {
    const point = character.codePointAt(0);
    return point < 32 || point > 126 || character === '"' || character === '\\' ? `\\u{${point.toString(16)}}` : character;
  });
  return `"${shown.join('')}"`;
};

function field(value, { type }, offsets) {
  if (value === null || value === undefined) {
    return '-';
  }
  switch (type) {
    case 'Span': return value.map((offset) => offsets[offset - 1] + 1).join(':');
    case 'Flag': return value ? 'yes' : 'no';
    case 'Text': return quoted(value);
    case 'Pairs': return `[${value.map((pair) => `[${pair.map(quoted).join(' ')}]`).join(' ')}]`;
    default: return shown(value, offsets);
  }
}

/** A tree as rows have it. */
export function shown(value, offsets) {
  if (value === null) {
    return '-';
  }
  if (Array.isArray(value)) {
    return `[${value.map((item) => shown(item, offsets)).join(' ')}]`;
  }
  if (typeof value === 'string') {
    return value;
  }
  if ('ctxt' in value) {
    return `(${value.type} ${field(value.span, { type: 'Span' }, offsets)} ${value.sym})`;
  }
  const fields = structs.get(value.type).map((place) => field(value[place.key], place, offsets));
  return `(${[value.type, ...fields].join(' ')})`;
}

/** What acorn makes of bytes: { tree } as rows have it, or { error }. */
export function acornOf(bytes, goal) {
  try {
    const source = new TextDecoder('utf-8', { fatal: true, ignoreBOM: true }).decode(bytes);
    return { tree: shown(treeOf(source, goal, 'row'), byteOffsets(source)) };
  } catch (error) {
    return { error };
  }
}

/** The rows, each with the numbers of its lines. */
export function rowsOf(lines) {
  const rows = [];
  let note = '';
  lines.forEach((line, number) => {
    if (line.startsWith('# ')) {
      note = line.slice(2);
    } else if (line.startsWith('> ')) {
      rows.at(-1).text.push(line.slice(2));
    } else if (line.startsWith('= ')) {
      rows.at(-1).wanted.push(line.slice(2));
      rows.at(-1).wantedAt ??= number;
    } else if (line) {
      rows.push({ words: line.split(' '), text: [], wanted: [], note, number });
      note = '';
    }
  });
  return rows.map((row) => ({ ...row, bytes: bytesOf(row.text) }));
}

function cuts(bytes, goal) {
  let read = 0;
  for (let end = 0; end < bytes.length; end += 1) {
    read += acornOf(bytes.subarray(0, end), goal).tree ? 1 : 0;
  }
  return `${read} read, ${bytes.length - read} refused`;
}

function checkRow(row, lines, write) {
  const [task, goal] = row.words;
  const wanted = row.wanted.join('\n');
  if (task === 'cuts') {
    const counted = cuts(row.bytes, goal);
    if (wanted === '?' && write) {
      lines[row.wantedAt] = `= ${counted}`;
      return null;
    }
    return counted === wanted || row.note.startsWith('acorn') ? null : `acorn counts ${counted}`;
  }
  if (task !== 'read') {
    return null;
  }
  const { tree, error } = acornOf(row.bytes, goal);
  if (wanted === '?' && tree && write) {
    lines[row.wantedAt] = `= ${tree}`;
    return null;
  }
  if (row.note.startsWith('acorn')) {
    return tree === wanted ? 'acorn has this tree, and the row says otherwise' : null;
  }
  if (tree) {
    return tree === wanted ? null : `acorn has ${tree}`;
  }
  return wanted.startsWith('(') ? `acorn has no tree: ${error.message}` : null;
}

function main() {
  const write = process.argv.includes('--write');
  const lines = readFileSync(FILE, 'utf8').split('\n');
  const rows = rowsOf(lines);
  let other = 0;
  for (const row of rows) {
    const fault = checkRow(row, lines, write);
    if (fault) {
      other += 1;
      console.log(`${row.number + 1}: ${row.words.join(' ')}\n${row.text.join('\n')}\n  wants ${row.wanted.join('\n')}\n  ${fault}`);
    }
  }
  if (write) {
    writeFileSync(FILE, lines.join('\n'));
  }
  if (other) {
    console.log(`${other} of ${rows.length} rows differ`);
    process.exitCode = 1;
  }
}

if (process.argv[1]?.endsWith('text_rows.mjs')) {
  main();
}
