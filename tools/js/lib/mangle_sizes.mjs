// The command mangle_sizes: how long files are with short names, as `jsbase mangle` gives them and as other people's tools do.
import { gzipSync } from 'node:zlib';
import { filesBelow, read } from './command.mjs';
import { pass, programAt } from './jsbase.mjs';
import { print } from './print.mjs';
import { NAMES, RENAMERS, lookFor, printed, printedShort } from './renamers.mjs';
import { envelopeOf, treeIn, treeOf } from './tree.mjs';

const HELP = `usage: mangle_sizes [--program PATH] PATH..

Each file, and each .js, .mjs and .cjs file below a folder, with its names as they are, by \`jsbase mangle\`, and by terser, uglify-js and
esbuild, which change nothing else but what esbuild does; names of a script's own scope stay. All go through one printer, terser with no name
changed and no white space. A row of a Markdown table for each: bytes, and bytes of each file by gzip -9, added up, of files without private
names and of those with some, which the others rename too. Standard error says of each file left out why: all tools have to take it.

  --program PATH   as for jsbase
  --help           this text

Debian's packages are used: terser, uglifyjs, esbuild.
`;

const TOOLS = ['terser', 'uglify-js', 'esbuild'];

/** Whether a private name stands in a tree. */
function hasPrivateNames(tree) {
  const stack = [tree];
  while (stack.length > 0) {
    const top = stack.pop();
    if (top.type === 'PrivateName') {
      return true;
    }
    stack.push(...Object.values(top).filter((value) => value !== null && typeof value === 'object'));
  }
  return false;
}

const mangled = (way, tree, kind) => print(treeIn(pass(way, 'mangle', kind, JSON.stringify(envelopeOf(tree)))), {});

/** The texts of a file by the names of what made them, as the printer writes them. */
async function textsOf(way, file) {
  const source = read(file);
  const kind = treeOf(source, null, file).type.toLowerCase();
  const text = await printed(source, kind);
  const tree = treeOf(text, kind, file);
  const names = kind === 'module' ? NAMES.all : NAMES.inner;
  const texts = { 'as they are': text, 'jsbase mangle': mangled(way, tree, kind) };
  for (const tool of TOOLS) {
    texts[tool] = await RENAMERS[tool](text, kind, names);
  }
  for (const name of Object.keys(texts)) {
    texts[name] = await printedShort(texts[name], kind);
  }
  return { texts, group: hasPrivateNames(tree) ? 'private' : 'plain' };
}

function added(sizes, { texts, group }) {
  sizes[group].files += 1;
  for (const [name, text] of Object.entries(texts)) {
    const of = (sizes[group][name] ??= { bytes: 0, gzip: 0 });
    of.bytes += Buffer.byteLength(text);
    of.gzip += gzipSync(text, { level: 9 }).length;
  }
}

function table({ plain, private: others }) {
  const rows = ['as they are', 'jsbase mangle', ...TOOLS].map((name) => {
    const cells = [plain, others].flatMap((group) => [group[name]?.bytes ?? 0, group[name]?.gzip ?? 0]);
    return `| ${[name, ...cells].join(' | ')} |\n`;
  });
  const head = `| names | ${plain.files} files: bytes | gzip | ${others.files} with private names: bytes | gzip |\n`;
  return `${head}|${'---|'.repeat(5)}\n${rows.join('')}`;
}

export const mangleSizes = {
  name: 'mangle_sizes',
  help: HELP,
  options: { program: { type: 'string' } },
  positionals: [1, Infinity],
  async run({ program }, paths) {
    const way = { program: programAt(program), before: [], options: {} };
    lookFor(TOOLS);
    const sizes = { plain: { files: 0 }, private: { files: 0 } };
    for (const file of paths.flatMap(filesBelow)) {
      try {
        added(sizes, await textsOf(way, file));
      } catch (error) {
        process.stderr.write(`${file}: left out: ${error.message.split('\n')[0]}\n`);
      }
    }
    return table(sizes);
  },
};
