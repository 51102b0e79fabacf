// A tree to JavaScript text. No parentheses are added, so the text also shows whether the tree fits the grammar.
import { EXPRESSIONS } from './print/expressions.mjs';
import { FUNCTIONS } from './print/functions.mjs';
import { LEAVES } from './print/leaves.mjs';
import { MODULES } from './print/modules.mjs';
import { Printer } from './print/printer.mjs';
import { PROGRAMS, STATEMENTS } from './print/statements.mjs';

const PRINTERS = { ...LEAVES, ...FUNCTIONS, ...EXPRESSIONS, ...STATEMENTS, ...MODULES, ...PROGRAMS };

/** The text of a program; with `marks` its names have their contexts. */
export function print(tree, options) {
  return new Printer(PRINTERS, options).node(tree).text;
}
