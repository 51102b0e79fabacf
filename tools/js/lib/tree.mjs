// Between JavaScript text, trees and envelopes.
import { program } from './convert/programs.mjs';
import { parse } from './parser.mjs';
import { NotTree, located } from './problems.mjs';
import { programFault } from './table.mjs';

/** The tree of a text; `kind` is 'module', 'script', or null where the text and the name of its file tell. */
export function treeOf(source, kind, file) {
  try {
    return program(parse(source, kind, file), source);
  } catch (error) {
    throw located(error, file, source);
  }
}

/** A tree that no pass has seen: names have no contexts, and the marks are those of a program. */
export function envelopeOf(tree) {
  return { marks: [[1, 0], [2, 0]], unresolved: 1, top: 2, tree };
}

/** The tree of an envelope, or of JSON that is one. */
export function treeIn(json) {
  let value = null;
  try {
    value = JSON.parse(json);
  } catch {
    throw new NotTree('$');
  }
  const isEnvelope = value?.tree !== undefined;
  const tree = isEnvelope ? value.tree : value;
  const fault = programFault(tree, isEnvelope ? '$.tree' : '$');
  if (fault) {
    throw new NotTree(fault);
  }
  return tree;
}
