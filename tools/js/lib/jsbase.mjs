// The command jsbase: JavaScript through the program of that name, and back. The program is the proved one, or with --try
// the same code without its proofs.
import { spawnSync } from 'node:child_process';
import { existsSync } from 'node:fs';
import { constants } from 'node:os';
import { fileURLToPath } from 'node:url';
import { KIND_OPTIONS, kindOf, read } from './command.mjs';
import { print } from './print.mjs';
import { Missing, Problem, Usage } from './problems.mjs';
import { envelopeOf, treeIn, treeOf } from './tree.mjs';

const HELP = `usage: jsbase COMMAND [--marks] [--module | --script] [--program PATH | --try] FILE|-

Parses FILE, runs the program \`jsbase COMMAND module|script\` on its tree, and writes the
answer as JavaScript on standard output. COMMAND is one of the program's: resolve, hygiene,
unparen, fix, chain, which is resolve, hygiene and fix, or mangle, which
gives short names. Names of a parsed text have no contexts, so for hygiene the program is
first run as \`jsbase resolve\`, and hygiene is given what that answers.

  --marks              names with their contexts: a#2, or a#2.3 where there are two marks
  --module, --script   what the text is, as for js2tree
  --program PATH       the program; left out, it is $JSBASE, or else
                       crates/jsbase/out/jsbase in this repository
  --try                no program: \`rt try\` runs the same code, with nothing proved,
                       in about a minute; answers of up to a megabyte
  --help               this text
  -                    standard input

What unparen answers is no JavaScript any more where a pair was needed.

Exit status: as js2tree (0, 2, 4, 5), and if the program refuses, its own, with its
message: 1 refused, 2 no such command, 3 not a tree, 4 can't read or write.
`;

const CRATE = fileURLToPath(new URL('../../../crates/jsbase/', import.meta.url));
const BUILT = `${CRATE}out/jsbase`;
/** The program reads JSON to this depth. */
const DEEPEST = 127;

/** Where the program is; the first place that is named counts. */
export function programAt(path) {
  const program = path ?? (process.env.JSBASE || BUILT);
  if (!existsSync(program)) {
    const build = 'cd crates/jsbase && rt run -- resolve module < ../../docs/sample.json';
    throw new Missing(`no program at ${program}; this proves and builds it: ${build}; or try it unproved, with --try`);
  }
  return program;
}

/** What is run for a command: a program, its arguments before the words, and where. */
function runner(values) {
  if (!values.try) {
    return { program: programAt(values.program), before: [], options: {} };
  }
  if (values.program) {
    throw new Usage('--try and --program exclude each other');
  }
  return { program: 'rt', before: ['try', '--'], options: { cwd: CRATE } };
}

/** What \`rt try\` says of a run, which is not the program's own. */
const isOfTheTry = (line) => /^(checked: |run=)/.test(line);

function depth(value) {
  if (value === null || typeof value !== 'object') {
    return 0;
  }
  return 1 + Object.values(value).reduce((most, item) => Math.max(most, depth(item)), 0);
}

function refusal({ error, signal, status, stderr }, envelope) {
  // EPIPE: it ended, and said why, before it had read its input.
  if (error && error.code !== 'EPIPE') {
    return new Missing(error.message);
  }
  if (signal) {
    return new Problem(`the program was ended by ${signal}`, 128 + constants.signals[signal]);
  }
  const levels = depth(JSON.parse(envelope));
  const why = levels > DEEPEST ? `the tree nests ${levels} deep, and ${DEEPEST} levels are read` : '';
  const said = stderr.split('\n').filter((line) => line && !isOfTheTry(line));
  return new Problem([...said, why].filter((line) => line).join('\n'), status);
}

/** What a program of `runner` answers to an envelope: an envelope. */
export function pass({ program, before, options }, command, kind, envelope) {
  const done = spawnSync(program, [...before, command, kind], {
    ...options,
    input: envelope,
    encoding: 'utf8',
    maxBuffer: Infinity,
  });
  if (done.status !== 0) {
    throw refusal(done, envelope);
  }
  return done.stdout;
}

export const jsbase = {
  name: 'jsbase',
  help: HELP,
  options: { ...KIND_OPTIONS, marks: { type: 'boolean' }, program: { type: 'string' }, try: { type: 'boolean' } },
  positionals: [2, 2],
  run(values, [command, file]) {
    const kind = kindOf(values);
    const way = runner(values);
    const tree = treeOf(read(file), kind, file);
    const goal = tree.type.toLowerCase();
    const steps = command === 'hygiene' ? ['resolve', command] : [command];
    const answer = steps.reduce(
      (envelope, step) => pass(way, step, goal, envelope),
      JSON.stringify(envelopeOf(tree)),
    );
    return print(treeIn(answer), values);
  },
};
