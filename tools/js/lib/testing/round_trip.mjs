// Each sample goes to a tree, to text and to a tree again; together they have every kind of JavaScript and every word of the table.
import assert from 'node:assert/strict';
import { readdirSync, readFileSync } from 'node:fs';
import { print } from '../print.mjs';
import { structs, walk, words } from '../table.mjs';
import { envelopeOf, treeIn, treeOf } from '../tree.mjs';
import { difference } from './difference.mjs';

const SAMPLES = new URL('../../samples/', import.meta.url);

export const samples = readdirSync(SAMPLES).filter((name) => name.endsWith('.js'));
const sourceOf = (name) => readFileSync(new URL(name, SAMPLES), 'utf8');

function roundTrip(name) {
  const tree = treeOf(sourceOf(name), null, name);
  treeIn(JSON.stringify(envelopeOf(tree))); // it fits the table
  const text = print(tree);
  const again = treeOf(text, tree.type.toLowerCase(), `${name}, printed`);
  assert.equal(difference(tree, again), null);
  assert.equal(print(again), text);
}

/** What the samples have: kinds, and words as `list word`. */
function seen() {
  const found = new Set();
  for (const name of samples) {
    walk(treeOf(sourceOf(name), null, name), (node) => {
      found.add(node.type);
      for (const { key, type } of structs.get(node.type).filter((field) => words.has(field.type))) {
        found.add(`${type} ${node[key]}`);
      }
    });
  }
  return found;
}

function complete() {
  const wanted = [...structs.keys()].filter((kind) => !kind.startsWith('Ts'));
  for (const [list, spellings] of words) {
    wanted.push(...[...spellings].map((spelling) => `${list} ${spelling}`));
  }
  const found = seen();
  assert.deepEqual(wanted.filter((one) => !found.has(one)), []);
}

export const ROUND_TRIPS = [
  ...samples.map((name) => [`round trip of ${name}`, () => roundTrip(name)]),
  ['every kind and word of tools/tree.txt but those of types is in a sample', complete],
];
