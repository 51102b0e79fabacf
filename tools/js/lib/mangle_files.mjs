// The command mangle_files: files through `jsbase mangle` and back, judged against their sources and held against eslint-scope.
import { isDynamic } from './chain_scopes.mjs';
import { filesBelow, read } from './command.mjs';
import { pass, programAt } from './jsbase.mjs';
import { judged } from './judged.mjs';
import { parseAs } from './parser.mjs';
import { print } from './print.mjs';
import { problemOf } from './problems.mjs';
import { Difference, compare } from './same_scopes.mjs';
import { envelopeOf, treeIn, treeOf } from './tree.mjs';

const HELP = `usage: mangle_files [--program PATH] [--all | --kept | --covers] PATH..

Each file, and each .js, .mjs and .cjs file below a folder, as a tree through \`jsbase mangle\`. Source and answer go to \`jsbase
judge\`. Then both are printed, read back, analysed by eslint-scope (Debian: node-eslint-scope) and walked in step, as chain_scopes
does. A row of a Markdown table for each path; standard error says of each other file why.

  --program PATH   as for jsbase
  --all            names of the program's own scope are made short too, in scripts too
  --kept           they stay, in modules too; left out both, they stay in scripts alone
  --covers         asks of each file only whether it is covered
  --help           this text

  covered          the promise of \`chain\` covers them, by \`jsbase covers\`, whose word standard error has of each other
  same             judged the source but for names, and of the same scopes
  judged other     what the judge says otherwise
  other scopes     judged the same, but not by eslint-scope
  left out         a direct eval or \`with\`, where each name is to be as it was
`;

const COLUMNS = ['covered', 'same', 'judged other', 'other scopes', 'refused', 'left out', 'not read', 'identifiers', 'of other text'];

/** How a file ends, why, and why the promise of `chain` does not cover it: '' where it does. */
const outcome = (how, why, gap) => ({ how, why, gap, identifiers: 0, renamed: 0 });

/** What is said of a file; what a step throws ends it so. */
function tried({ way, keepTop, isAsked }, file) {
  let [how, gap] = ['not read', 'not read'];
  try {
    const text = read(file);
    const tree = treeOf(text, null, file);
    const kind = tree.type.toLowerCase();
    const envelope = JSON.stringify(keepTop === null ? envelopeOf(tree) : { ...envelopeOf(tree), keepTop });
    [how, gap] = ['refused', 'refused'];
    gap = JSON.parse(pass(way, 'covers', kind, envelope)).gap ?? '';
    if (isAsked || isDynamic(tree)) {
      return outcome(isAsked ? 'asked' : 'left out', '', gap);
    }
    const trees = [tree, treeIn(pass(way, 'mangle', kind, envelope))];
    how = 'judged other';
    const found = judged(way.program, kind, keepTop ?? kind === 'script', trees.map((each) => ({ text, tree: each })));
    if (found.how !== 'same') {
      return outcome(how, `${found.how}: ${found.why}`, gap);
    }
    how = 'other scopes';
    const [source, result] = trees.map((each) => parseAs(print(each, {}), kind, { preserveParens: false, ranges: true }));
    return { ...outcome('same', '', gap), ...compare(kind, source, result) };
  } catch (error) {
    if (!(problemOf(error) || error instanceof Difference || error instanceof SyntaxError)) {
      throw error;
    }
    return outcome(how, error.message.split('\n')[0], gap);
  }
}

function row(options, path) {
  const files = filesBelow(path);
  const counts = { identifiers: 0, 'of other text': 0 };
  for (const file of files) {
    const { how, why, gap, identifiers, renamed } = tried(options, file);
    const names = gap === '' ? [how, 'covered'] : [how];
    names.forEach((name) => (counts[name] = (counts[name] ?? 0) + 1));
    counts.identifiers += identifiers;
    counts['of other text'] += renamed;
    if (why || gap) {
      process.stderr.write(`${file}: ${how}${why && `: ${why}`}${gap && `; not covered: ${gap}`}\n`);
    }
  }
  return `| ${[path, files.length, ...COLUMNS.map((name) => counts[name] ?? 0)].join(' | ')} |\n`;
}

export const mangleFiles = {
  name: 'mangle_files',
  help: HELP,
  options: { program: { type: 'string' }, all: { type: 'boolean' }, kept: { type: 'boolean' }, covers: { type: 'boolean' } },
  positionals: [1, Infinity],
  run({ program, all, kept, covers }, paths) {
    const keepTop = all ? false : kept ? true : null;
    const options = { way: { program: programAt(program), before: [], options: {} }, keepTop, isAsked: covers };
    const head = ['path', 'files', ...COLUMNS];
    const rule = head.map(() => '---').join('|');
    return `| ${head.join(' | ')} |\n|${rule}|\n${paths.map((path) => row(options, path)).join('')}`;
  },
};
