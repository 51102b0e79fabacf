// What the commands share: arguments, input and how they end.
import { readFileSync, readdirSync, statSync } from 'node:fs';
import { join } from 'node:path';
import { parseArgs } from 'node:util';
import { Missing, Usage, problemOf } from './problems.mjs';

/** How the kind of a text is asked for. */
export const KIND_OPTIONS = { module: { type: 'boolean' }, script: { type: 'boolean' } };

export function kindOf({ module, script }) {
  if (module && script) {
    throw new Usage('--module and --script exclude each other');
  }
  if (module) {
    return 'module';
  }
  return script ? 'script' : null;
}

const SUFFIX = /\.[mc]?js$/;

/** A file, or the files of JavaScript below a folder. */
export function filesBelow(path) {
  if (!statSync(path, { throwIfNoEntry: false })?.isDirectory()) {
    return [path];
  }
  const entries = readdirSync(path, { withFileTypes: true }).sort((one, other) => (one.name < other.name ? -1 : 1));
  return entries.flatMap((entry) => {
    const below = join(path, entry.name);
    const isFile = SUFFIX.test(entry.name) && statSync(below, { throwIfNoEntry: false })?.isFile();
    return entry.isDirectory() ? filesBelow(below) : isFile ? [below] : [];
  });
}

function parsed(argv, options) {
  try {
    return parseArgs({ args: argv, options: { ...options, help: { type: 'boolean' } }, allowPositionals: true });
  } catch (error) {
    throw new Usage(error.message);
  }
}

/** The text of a file, or of standard input for `-`. */
export function read(file) {
  let bytes = null;
  try {
    bytes = readFileSync(file === '-' ? 0 : file);
  } catch (error) {
    throw new Missing(`${file}: ${error.message.split(',')[0]}`);
  }
  try {
    return new TextDecoder('utf-8', { fatal: true }).decode(bytes); // a byte order mark is taken off too
  } catch {
    throw new Missing(`${file}: not UTF-8`);
  }
}

function answer({ help, options, positionals: [least, most], run }, argv) {
  const { values, positionals } = parsed(argv, options);
  if (values.help) {
    return help;
  }
  if (positionals.length < least || positionals.length > most) {
    throw new Usage(help.split('\n')[0]);
  }
  return run(values, positionals);
}

/** Runs a command: { name, help, options, positionals: [least, most], run }, of which `run` answers what to write. */
export async function main(command, argv) {
  // A reader that goes away, like `head`, is no fault.
  process.stdout.on('error', (error) => process.exit(error.code === 'EPIPE' ? 0 : 1));
  try {
    process.stdout.write(await answer(command, argv));
  } catch (error) {
    const problem = problemOf(error);
    if (!problem) {
      throw error;
    }
    process.stderr.write(`${problem instanceof Usage ? `${command.name}: ` : ''}${problem.message}\n`);
    process.exitCode = problem.status;
  }
}
