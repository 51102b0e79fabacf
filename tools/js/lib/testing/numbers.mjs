// Labels and private names by numbers: which texts then become one tree.
import assert from 'node:assert/strict';
import { numbered } from '../numbered.mjs';
import { print } from '../print.mjs';
import { treeOf } from '../tree.mjs';

const textOf = (text) => print(numbered(treeOf(text, 'script', '-')), {});

const isOne = (one, other) => () => assert.equal(textOf(one), textOf(other));
const isNotOne = (one, other) => () => assert.notEqual(textOf(one), textOf(other));

export const NUMBERS = Object.entries({
  'labels by any name': isOne('a: for (;;) { b: for (;;) continue a; break a }', 'c: for (;;) { a: for (;;) continue c; break c }'),
  'a label that is left is told': isNotOne('a: for (;;) b: for (;;) break a', 'a: for (;;) b: for (;;) break b'),
  'private names by any name': isOne('class A { #a; #b; m() { return #b in this.#a } }', 'class A { #c; #a; m() { return #a in this.#c } }'),
  'private names of classes in one another': isOne('class A { #a; m() { class B { #b; n(x) { x.#a } } } }', 'class A { #b; m() { class B { #c; n(x) { x.#b } } } }'),
  'a private name that is captured is told': isNotOne('class A { #a; m() { class B { #b; n(x) { x.#a } } } }', 'class A { #a; m() { class B { #a; n(x) { x.#a } } } }'),
  'a getter and a setter share a private name': isOne('class A { get #a() {} set #a(x) {} }', 'class A { get #b() {} set #b(x) {} }'),
}).map(([name, test]) => [`numbered: ${name}`, test]);
