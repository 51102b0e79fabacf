// Two trees to `jsbase judge`, and where they differ.
import { pass } from './jsbase.mjs';

const [BEFORE, AFTER] = [30, 50];

/** The innermost node with a span on the way to a path of two trees, such as `$.before.body[0].name`. */
function nodeAt(trees, path) {
  const steps = path.replaceAll(/\[(\d+)\]/g, '.$1').split('.').slice(1);
  let found = null;
  steps.reduce((node, step) => {
    const below = node?.[step];
    found = below?.span ? below : found;
    return below;
  }, trees);
  return found;
}

/** How a text goes on where a node begins, behind what stands before it. */
function excerpt(text, node) {
  const start = (node?.span[0] ?? 1) - 1;
  return `${text.slice(Math.max(0, start - BEFORE), start)}>>>${text.slice(start, start + AFTER)}`.replaceAll(/\s+/g, ' ');
}

/** What `jsbase judge` says of two programs, each with its text and tree, and of what differs where it stands in both. */
export function judged(program, kind, keepTop, [before, after]) {
  const trees = { before: before.tree, after: after.tree };
  const envelope = JSON.stringify({ marks: [[1, 0], [2, 0]], unresolved: 1, top: 2, keepTop, ...trees });
  const answer = JSON.parse(pass({ program, before: [], options: {} }, 'judge', kind, envelope));
  if (answer.same) {
    return { how: 'same', why: '' };
  }
  const there = [before, after].map(({ text }, side) => excerpt(text, nodeAt(trees, [answer.before, answer.after][side])));
  return { how: answer.why, why: `${answer.before}: ${there.join(' ||| ')}` };
}
