// The command judge_tools: files renamed by other people's tools, and what `jsbase judge` says of them.
import { mkdirSync, writeFileSync } from 'node:fs';
import { join } from 'node:path';
import { filesBelow, read } from './command.mjs';
import { programAt } from './jsbase.mjs';
import { judged } from './judged.mjs';
import { numbered } from './numbered.mjs';
import { NAMES, RENAMERS, lookFor, printed } from './renamers.mjs';
import { treeOf } from './tree.mjs';

const HELP = `usage: judge_tools [--program PATH] [--tool NAME]... [--all] [--keep FOLDER] PATH..

Each file, and each .js, .mjs and .cjs file below a folder, is printed by terser with no name changed, renamed and not changed
otherwise by other people's tools, and printed by terser again; source and answer go to \`jsbase judge\`. A row of a Markdown
table for each tool: how many files were tried, and what was said. Standard error says of each file that isn't the same where
it differs.

  --program PATH   as for jsbase
  --tool NAME      terser, uglify-js, esbuild or babel; left out, all four
  --all            names that the program's own scope declares are renamed too; else they are to stay, and are asked to,
                   but where esbuild renames a module, which it can't be told
  --keep FOLDER    source and answer of each file that isn't the same are left there
  --help           this text

  same             as it is
  numbered         once labels and private names are called by numbers in both: tools rename these, and the relation
                   keeps them
  printed          once the tool has printed the source too, with no name changed: it writes more than names anew
  another word     what the judge says of these last two; or \`no answer\` of a tool, \`not read\`, what no parser reads,
                   \`not judged\`, what the program refuses

Debian's packages are used: terser, uglifyjs, esbuild, node-babel7.
`;

const HOW = ['same', 'numbered', 'printed', 'shape', 'name', 'free', 'split', 'joined', 'top', 'reads', 'caught', 'no answer', 'not read', 'not judged'];
const GOOD = ['same', 'numbered', 'printed'];

/** How a file ends that has no verdict. */
class Ended extends Error {
  constructor(how, error) {
    super(error.message.split('\n')[0]);
    this.how = how;
  }
}

/** What a step answers; what it throws ends the file so. */
async function step(how, run) {
  try {
    return await run();
  } catch (error) {
    throw new Ended(how, error);
  }
}

/** A text of a tool as the printer writes it. */
async function answered(tool, text, kind, names) {
  const renamed = await step('no answer', () => RENAMERS[tool](text, kind, names));
  return step('not read', () => printed(renamed, kind));
}

/** What is said of two texts, and of both once labels and private names are numbered where that differs. */
async function verdict({ program, kind, keepTop }, texts) {
  const parsed = () => step('not read', () => texts.map((text) => ({ text, tree: treeOf(text, kind, 'text') })));
  const asked = async (both) => step('not judged', () => judged(program, kind, keepTop, both));
  const found = await asked(await parsed());
  if (found.how !== 'name' && found.how !== 'shape') {
    return found;
  }
  const again = await asked((await parsed()).map(({ text, tree }) => ({ text, tree: numbered(tree) })));
  return again.how === 'same' ? { ...found, how: 'numbered' } : again;
}

async function tried({ program, names }, { text, kind }, tool, keep) {
  const answer = await answered(tool, text, kind, names);
  const question = { program, kind, keepTop: names === NAMES.inner && !(tool === 'esbuild' && kind === 'module') };
  const found = await verdict(question, [text, answer]);
  if (found.how === 'same' || found.how === 'numbered') {
    return found;
  }
  const again = await verdict(question, [await answered(tool, text, kind, NAMES.none), answer]);
  if (again.how === 'same' || again.how === 'numbered') {
    return { ...found, how: 'printed' };
  }
  keep([text, answer]);
  return again;
}

async function outcome(options, file, source, tool) {
  const keep = (texts) => {
    if (options.folder) {
      mkdirSync(options.folder, { recursive: true });
      ['source', 'answer'].forEach((name, at) => writeFileSync(join(options.folder, `${file.replaceAll('/', '_')}.${tool}.${name}.js`), texts[at]));
    }
  };
  try {
    return await tried(options, source, tool, keep);
  } catch (error) {
    if (!(error instanceof Ended)) {
      throw error;
    }
    return { how: error.how, why: error.message };
  }
}

/** A file as the printer writes it, which is what the tools are given; null where it can't be read. */
async function sourceOf(file) {
  try {
    const text = read(file);
    const kind = treeOf(text, null, file).type.toLowerCase();
    return { kind, text: await printed(await printed(text, kind), kind) };
  } catch (error) {
    process.stderr.write(`${file}: left out: ${error.message.split('\n')[0]}\n`);
    return null;
  }
}

function table(counts) {
  const rows = Object.entries(counts).map(([tool, of]) => `| ${[tool, of.files, ...HOW.map((how) => of[how] ?? 0)].join(' | ')} |\n`);
  return `| tool | files | ${HOW.join(' | ')} |\n|${'---|'.repeat(HOW.length + 2)}\n${rows.join('')}`;
}

export const judgeTools = {
  name: 'judge_tools',
  help: HELP,
  options: {
    program: { type: 'string' },
    tool: { type: 'string', multiple: true },
    all: { type: 'boolean' },
    keep: { type: 'string' },
  },
  positionals: [1, Infinity],
  async run({ program, tool, all, keep }, paths) {
    const options = { program: programAt(program), names: all ? NAMES.all : NAMES.inner, folder: keep };
    const tools = tool ?? Object.keys(RENAMERS);
    lookFor(tools);
    const counts = Object.fromEntries(tools.map((name) => [name, { files: 0 }]));
    for (const file of paths.flatMap(filesBelow)) {
      const source = await sourceOf(file);
      for (const name of source ? tools : []) {
        const { how, why } = await outcome(options, file, source, name);
        counts[name].files += 1;
        counts[name][how] = (counts[name][how] ?? 0) + 1;
        if (how !== 'same') {
          process.stderr.write(`${file}: ${name}: ${how}: ${why}\n`);
        }
      }
    }
    return table(counts);
  },
};
