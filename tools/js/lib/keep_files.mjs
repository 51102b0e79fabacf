// The command keep_files: files through the program mucwathi, text to text, and what it says of other people's renaming.
import { spawnSync } from 'node:child_process';
import { existsSync, mkdtempSync, readFileSync, rmSync, writeFileSync } from 'node:fs';
import { tmpdir } from 'node:os';
import { join } from 'node:path';
import { filesBelow } from './command.mjs';
import { parse, parseAs } from './parser.mjs';
import { Missing } from './problems.mjs';
import { NAMES, RENAMERS, lookFor, printed } from './renamers.mjs';
import { Difference, compare } from './same_scopes.mjs';

const HELP = `usage: keep_files [--program PATH] [--command NAME]... [--tool NAME]... PATH..

Each file, and each .js, .mjs and .cjs file below a folder, through \`mucwathi COMMAND\`, by which layout stays. The answer has to
be what acorn reads, with just the source's comments and the same scopes by eslint-scope (Debian: node-eslint-scope), and
\`mucwathi judge\` has to say that it is the same. With a tool, each is printed by terser with no name changed, renamed by the
tool and printed again, and both go to \`mucwathi judge\`. A row of a Markdown table for each command and tool; standard error
says of each other file why.

  --program PATH   the program; left out, it is $MUCWATHI, or else crates/mucwathi/out/mucwathi in this repository
  --command NAME   chain, mangle, hygiene, fix or unparen; left out, chain and mangle, if no tool is named
  --tool NAME      terser, uglify-js, esbuild or babel
  --help           this text

  same             as it is to be
  not kept         comments differ by their texts
  other scopes     not the same by eslint-scope
  not read back    by acorn
  judged other     not the same by mucwathi, where all else is well; of a tool, another text by a word of the judge
  status 3 to 5    mucwathi says so of the source
  alone            mucwathi reads what acorn doesn't
  no program       neither does, or acorn doesn't of a tool's answer, or it is not UTF-8
`;

const BUILT = new URL('../../../crates/mucwathi/out/mucwathi', import.meta.url).pathname;
const COLUMNS = ['same', 'not kept', 'other scopes', 'not read back', 'judged other', 'status 3', 'status 4', 'status 5', 'alone', 'no program', 'identifiers', 'of other text'];
const ROOM = { maxBuffer: 2 ** 30 };
const NONE = { how: 'no program', why: '' };

const firstLine = (bytes) => bytes.toString().split('\n')[0];

function textOf(bytes) {
  try {
    return new TextDecoder('utf-8', { fatal: true, ignoreBOM: true }).decode(bytes);
  } catch {
    return null;
  }
}

/** As what acorn reads a text, or null. */
function kindOf(text, file) {
  try {
    return parse(text, null, file).sourceType;
  } catch {
    return null;
  }
}

/** The tree of a text without pairs, and its comments. */
function read(text, kind) {
  const comments = [];
  // where no line may end, what was to the line's end stands in a block
  const onComment = (_, comment) => comments.push(comment.replace(/\s+/g, ' ').replaceAll('* /', '*/').trim());
  return { tree: parseAs(text, kind, { preserveParens: false, ranges: true, onComment }), comments };
}

/** What is wrong with an answer; and how many identifiers it has, and of another text. */
function held(kind, source, answer) {
  try {
    const [one, other] = [read(source, kind), read(answer, kind)];
    if (one.comments.join('\n') !== other.comments.join('\n')) {
      return { how: 'not kept', why: `${one.comments.length} comments, and ${other.comments.length}` };
    }
    return { how: 'same', why: '', ...compare(kind, one.tree, other.tree) };
  } catch (error) {
    if (error instanceof Difference) {
      return { how: 'other scopes', why: error.message };
    }
    if (error instanceof SyntaxError) {
      return { how: 'not read back', why: error.message };
    }
    throw error;
  }
}

/** What the program says of a file and an answer, which it reads in the folder: node's standard input is no file. */
function judge(program, folder, words, before, after) {
  const place = join(folder, 'after.js');
  writeFileSync(place, after);
  const { status, stdout, stderr } = spawnSync(program, ['judge', ...words, before, place], ROOM);
  return { status, why: firstLine(status === 1 ? stdout : stderr) };
}

/** What is said of a file and a command. */
function byCommand(program, folder, command, file) {
  const source = textOf(readFileSync(file));
  const kind = source === null ? null : kindOf(source, file);
  const { stdout, stderr, status } = spawnSync(program, [command, file], ROOM);
  if (kind === null) {
    return status === 0 ? { how: 'alone', why: '' } : NONE;
  }
  if (status !== 0) {
    return { how: `status ${status}`, why: firstLine(stderr) };
  }
  const found = held(kind, source, textOf(stdout));
  const judged = found.how === 'same' ? judge(program, folder, [`--${kind}`], file, stdout) : null;
  return judged === null || judged.status === 0 ? found : { ...found, how: 'judged other', why: judged.why };
}

/** The same of a file and a tool. What the printer writes of the file lies in a folder of its own. */
async function byTool(program, folder, tool, file) {
  const source = textOf(readFileSync(file));
  const kind = source === null ? null : kindOf(source, file);
  if (kind === null) {
    return NONE;
  }
  try {
    const before = await printed(await printed(source, kind), kind);
    const after = await printed(await RENAMERS[tool](before, kind, NAMES.inner), kind);
    const place = join(folder, 'before.js');
    writeFileSync(place, before);
    const { status, why } = judge(program, folder, [`--${kind}`, '--any-spelling'], place, after);
    return { how: status === 0 ? 'same' : status === 1 ? 'judged other' : `status ${status}`, why };
  } catch (error) {
    return { ...NONE, why: error.message.split('\n')[0] };
  }
}

async function row(files, name, run) {
  const counts = { identifiers: 0, 'of other text': 0 };
  for (const file of files) {
    const { how, why, identifiers = 0, renamed = 0 } = await run(file);
    counts[how] = (counts[how] ?? 0) + 1;
    counts.identifiers += identifiers;
    counts['of other text'] += renamed;
    if (why) {
      process.stderr.write(`${file}: ${name}: ${how}: ${why}\n`);
    }
  }
  return `| ${[name, files.length, ...COLUMNS.map((column) => counts[column] ?? 0)].join(' | ')} |\n`;
}

/** Where the program is; the first place that is named counts. */
export function mucwathiAt(path) {
  const program = path ?? (process.env.MUCWATHI || BUILT);
  if (!existsSync(program)) {
    throw new Missing(`no program at ${program}; rt ci leaves it`);
  }
  return program;
}

export const keepFiles = {
  name: 'keep_files',
  help: HELP,
  options: { program: { type: 'string' }, command: { type: 'string', multiple: true }, tool: { type: 'string', multiple: true } },
  positionals: [1, Infinity],
  async run({ program, command, tool = [] }, paths) {
    const at = mucwathiAt(program);
    const commands = command ?? (tool.length > 0 ? [] : ['chain', 'mangle']);
    if (tool.length > 0) {
      lookFor(tool);
    }
    const files = paths.flatMap(filesBelow);
    const folder = mkdtempSync(join(tmpdir(), 'keep_files-'));
    const head = ['by', 'files', ...COLUMNS];
    const rows = [`| ${head.join(' | ')} |\n|${head.map(() => '---').join('|')}|\n`];
    for (const name of commands) {
      rows.push(await row(files, name, (file) => byCommand(at, folder, name, file)));
    }
    for (const name of tool) {
      rows.push(await row(files, name, (file) => byTool(at, folder, name, file)));
    }
    rmSync(folder, { recursive: true });
    return rows.join('');
  },
};
