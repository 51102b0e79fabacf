// The command chain_scopes: files through `jsbase chain` and back, and the scopes of the answer held against the source's.
import { filesBelow, read } from './command.mjs';
import { giveFewTexts, renamedBetween } from './few_texts.mjs';
import { pass, programAt } from './jsbase.mjs';
import { parseAs } from './parser.mjs';
import { print } from './print.mjs';
import { problemOf } from './problems.mjs';
import { Difference, compare } from './same_scopes.mjs';
import { envelopeOf, treeIn, treeOf } from './tree.mjs';

const HELP = `usage: chain_scopes [--program PATH] [--few] PATH..

Each file, and each .js, .mjs and .cjs file below a folder, as a tree through \`jsbase chain\`, printed and parsed again. Source
and answer are analysed by eslint-scope (Debian: node-eslint-scope) and walked in step: they have to be the same but for names
and for shorthands written out, two identifiers have to be of one variable in both or in neither, and free names keep their
text. A row of a Markdown table for each path; standard error says of each other file why.

  --program PATH   as for jsbase
  --few            the names of inner scopes are first given the same few texts, free names among them, and the tree
                   goes through resolve, hygiene and fix
  --help           this text

Files with a direct eval or \`with\` are left out.
`;

const COLUMNS = ['same scopes', 'other', 'refused', 'left out', 'not parsed', 'identifiers', 'of other text', 'renamed by hygiene'];

/** Whether names may be read as texts there. */
export function isDynamic(tree) {
  const stack = [tree];
  while (stack.length > 0) {
    const top = stack.pop();
    if (top.type === 'WithStmt' || (top.type === 'CallExpr' && top.callee.type === 'Ident' && top.callee.sym === 'eval')) {
      return true;
    }
    stack.push(...Object.values(top).filter((value) => value !== null && typeof value === 'object'));
  }
  return false;
}

/** The tree that a file's becomes, and how many identifiers hygiene gave another text where it is a step of its own. */
function answered(run, tree, few) {
  const envelope = JSON.stringify(envelopeOf(tree));
  if (!few) {
    return { answer: treeIn(run('chain', envelope)) };
  }
  const resolved = JSON.parse(run('resolve', envelope));
  giveFewTexts(resolved);
  const named = run('hygiene', JSON.stringify(resolved));
  return { answer: treeIn(run('fix', named)), anew: renamedBetween(resolved.tree, JSON.parse(named).tree) };
}

const outcome = (how, why) => ({ how, why, identifiers: 0, differ: 0, anew: 0 });

function tried(way, file, few) {
  let how = 'not parsed';
  try {
    const text = read(file);
    const tree = treeOf(text, null, file);
    if (isDynamic(tree)) {
      return outcome('left out', '');
    }
    const kind = tree.type.toLowerCase();
    how = 'refused';
    const { answer, anew } = answered((command, envelope) => pass(way, command, kind, envelope), tree, few);
    how = 'other';
    const [source, result] = [text, print(answer, {})].map((each) => parseAs(each, kind, { preserveParens: false, ranges: true }));
    const { identifiers, renamed } = compare(kind, source, result);
    return { how: 'same scopes', why: '', identifiers, differ: renamed, anew: anew ?? renamed };
  } catch (error) {
    if (!(problemOf(error) || error instanceof Difference || error instanceof SyntaxError)) {
      throw error;
    }
    return outcome(how, error.message.split('\n')[0]);
  }
}

function row(way, path, few) {
  const files = filesBelow(path);
  const counts = { identifiers: 0, 'of other text': 0, 'renamed by hygiene': 0 };
  for (const file of files) {
    const { how, why, identifiers, differ, anew } = tried(way, file, few);
    counts[how] = (counts[how] ?? 0) + 1;
    counts.identifiers += identifiers;
    counts['of other text'] += differ;
    counts['renamed by hygiene'] += anew;
    if (why) {
      process.stderr.write(`${file}: ${how}: ${why}\n`);
    }
  }
  const cells = [path, files.length, ...COLUMNS.map((name) => counts[name] ?? 0)];
  return `| ${cells.join(' | ')} |\n`;
}

export const chainScopes = {
  name: 'chain_scopes',
  help: HELP,
  options: { program: { type: 'string' }, few: { type: 'boolean' } },
  positionals: [1, Infinity],
  run({ program, few }, paths) {
    const way = { program: programAt(program), before: [], options: {} };
    const head = ['path', 'files', ...COLUMNS];
    const rule = head.map(() => '---').join('|');
    return `| ${head.join(' | ')} |\n|${rule}|\n${paths.map((path) => row(way, path, few)).join('')}`;
  },
};
