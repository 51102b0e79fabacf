// Whether the program example_text keeps files byte for byte, and prints them so that acorn reads the same tree but for spans:
// `node rewrites.mjs [--program PATH] PATH..` takes files, and those below folders, in each goal in which acorn reads them, and tells of each
// that is refused or comes out another.
import { spawnSync } from 'node:child_process';
import { readFileSync } from 'node:fs';
import { filesBelow } from './command.mjs';
import { treeOf } from './tree.mjs';

const PROGRAM = new URL('../../../crates/example_text/out/example_text', import.meta.url).pathname;
const SPANS = new Set(['span', 'dot3_token']);

const textOf = (bytes) => new TextDecoder('utf-8', { fatal: true, ignoreBOM: true }).decode(bytes);

/** A tree as text, without its spans: of a spread it stands whether it is there. */
function shown(tree) {
  return JSON.stringify(tree, (key, value) => {
    if (SPANS.has(key)) {
      return undefined;
    }
    return key === 'spread' ? value !== null : value;
  });
}

function treeIn(bytes, goal) {
  try {
    return shown(treeOf(textOf(bytes), goal, 'file'));
  } catch {
    return null;
  }
}

/** Where two texts part, with what stands there in both. */
function parting(one, other) {
  let at = 0;
  while (at < one.length && one[at] === other[at]) {
    at += 1;
  }
  return `${one.slice(Math.max(0, at - 60), at + 60)} ||| ${other.slice(Math.max(0, at - 60), at + 60)}`;
}

/** What the program writes under a word, and what is wrong with it. */
function outcome(program, { bytes, tree, goal }, word) {
  const { stdout, stderr, status } = spawnSync(program, [goal, word], { input: bytes, maxBuffer: 2 ** 32 });
  if (status !== 0) {
    return ['refused', stderr.toString().trim() || `status ${status}`];
  }
  if (word === 'keep') {
    return stdout.equals(bytes) ? ['same', null] : ['other', 'other bytes'];
  }
  const read = treeIn(stdout, goal);
  if (read === null) {
    return ['other', 'acorn does not read what was printed'];
  }
  return read === tree ? ['same', null] : ['other', parting(tree, read)];
}

const given = process.argv.slice(2);
const program = given[0] === '--program' ? given.splice(0, 2)[1] : PROGRAM;
const counts = {};
const add = (name) => (counts[name] = (counts[name] ?? 0) + 1);
for (const file of given.flatMap(filesBelow)) {
  const bytes = readFileSync(file);
  for (const goal of ['module', 'script']) {
    const tree = treeIn(bytes, goal);
    for (const word of tree === null ? [] : ['keep', 'lines', 'compact']) {
      const [verdict, what] = outcome(program, { bytes, tree, goal }, word);
      add(`${word}: ${verdict}`);
      if (what) {
        console.log(`${file} as a ${goal}: ${word}: ${verdict}: ${what}`);
      }
    }
  }
}
console.log(counts);
