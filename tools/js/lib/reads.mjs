// Whether the program example_text reads files as acorn does: `node reads.mjs [--program PATH] PATH..` takes files, and those below
// folders, in each goal, and tells of each that has another tree, spans in bytes and all, or that one of both refuses.
import { spawnSync } from 'node:child_process';
import { readFileSync } from 'node:fs';
import { filesBelow } from './command.mjs';
import { byteOffsets } from './text_rows.mjs';
import { treeOf } from './tree.mjs';

const PROGRAM = new URL('../../../crates/example_text/out/example_text', import.meta.url).pathname;
const SPANS = new Set(['span', 'spread', 'dot3_token']);

/** A tree with its spans in bytes. */
function inBytes(value, offsets) {
  if (Array.isArray(value)) {
    return value.map((item) => inBytes(item, offsets));
  }
  if (value === null || typeof value !== 'object') {
    return value;
  }
  const fields = Object.entries(value).map(([key, field]) => {
    const isSpan = SPANS.has(key) && Array.isArray(field);
    return [key, isSpan ? field.map((offset) => offsets[offset - 1] + 1) : inBytes(field, offsets)];
  });
  return Object.fromEntries(fields);
}

/** A tree without the empty members of classes, which js2tree leaves out. */
function withoutEmpty(value) {
  if (Array.isArray(value)) {
    return value.map(withoutEmpty);
  }
  if (value === null || typeof value !== 'object') {
    return value;
  }
  const fields = Object.fromEntries(Object.entries(value).map(([key, field]) => [key, withoutEmpty(field)]));
  return fields.type === 'Class' ? { ...fields, body: fields.body.filter(({ type }) => type !== 'EmptyStmt') } : fields;
}

function difference(ours, theirs, path) {
  if (ours === theirs) {
    return null;
  }
  if (typeof ours !== 'object' || typeof theirs !== 'object' || ours === null || theirs === null) {
    return `${path}: ${JSON.stringify(ours)}, acorn ${JSON.stringify(theirs)}`.slice(0, 300);
  }
  for (const key of new Set([...Object.keys(ours), ...Object.keys(theirs)])) {
    const found = difference(ours[key], theirs[key], Array.isArray(ours) ? `${path}[${key}]` : `${path}.${key}`);
    if (found) {
      return found;
    }
  }
  return null;
}

function acornsTree(bytes, goal) {
  const source = new TextDecoder('utf-8', { fatal: true, ignoreBOM: true }).decode(bytes);
  return inBytes(treeOf(source, goal, 'file'), byteOffsets(source));
}

function ourTree(program, bytes, goal) {
  const { stdout, stderr, status } = spawnSync(program, [goal, 'tree'], { input: bytes, maxBuffer: 2 ** 32 });
  if (status !== 0) {
    throw new Error(stderr.toString().trim() || `status ${status}`);
  }
  return withoutEmpty(JSON.parse(stdout.toString()));
}

function tried(make) {
  try {
    return { tree: make() };
  } catch (error) {
    return { error };
  }
}

/** How a file is read in a goal by both, and what there is to say of it. */
function compare(program, file, goal) {
  const bytes = readFileSync(file);
  const theirs = tried(() => acornsTree(bytes, goal));
  const ours = tried(() => ourTree(program, bytes, goal));
  if (theirs.error && ours.error) {
    return ['refused by both', null];
  }
  if (ours.error) {
    return ['refused here', ours.error.message];
  }
  if (theirs.error) {
    return ['let through', theirs.error.message];
  }
  const found = difference(ours.tree, theirs.tree, '$');
  return found ? ['other', found] : ['same', null];
}

const given = process.argv.slice(2);
const program = given[0] === '--program' ? given.splice(0, 2)[1] : PROGRAM;
const counts = {};
for (const file of given.flatMap(filesBelow)) {
  for (const goal of ['module', 'script']) {
    const [verdict, what] = compare(program, file, goal);
    counts[verdict] = (counts[verdict] ?? 0) + 1;
    if (what) {
      console.log(`${file} as a ${goal}: ${verdict}: ${what}`);
    }
  }
}
console.log(counts);
