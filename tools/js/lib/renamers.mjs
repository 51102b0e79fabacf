// Other people's tools that give names anew, and the printer through which all texts go. All are Debian's packages: terser,
// uglifyjs, esbuild, node-babel7.
import { spawnSync } from 'node:child_process';
import { createRequire } from 'node:module';
import { Missing, Usage } from './problems.mjs';

const require = createRequire(import.meta.url);

/** Which names a tool is to give anew. */
export const NAMES = { none: 'none', inner: 'inner', all: 'all' };

/** Why a tool gave no answer. */
class ToolFailed extends Error {}

function found(name) {
  try {
    return require(name);
  } catch {
    throw new Missing(`no ${name}; Debian has it: apt-get install terser uglifyjs esbuild node-babel7`);
  }
}

/** Files of CommonJS are scripts to us, and may return from the whole. */
const readAs = (kind) => ({ module: kind === 'module', bare_returns: kind === 'script' });

// On one line it can't read what it writes of a default export without a name.
const FORMAT = { comments: false, beautify: true };

async function byTerser(text, kind, names) {
  const mangle = names === NAMES.none ? false : { toplevel: names === NAMES.all, module: false };
  const { code } = await found('terser').minify(text, { compress: false, mangle, parse: readAs(kind), format: FORMAT });
  return code;
}

function byUglify(text, kind, names) {
  const mangle = names === NAMES.none ? false : { toplevel: names === NAMES.all };
  const { code, error } = found('uglify-js').minify(text, { compress: false, mangle, parse: readAs(kind), output: FORMAT });
  if (error) {
    throw new ToolFailed(error.message);
  }
  return code;
}

/** It renames what a module declares, and nothing that a script does. */
function byEsbuild(text, kind, names) {
  const words = names === NAMES.none ? [] : ['--minify-identifiers'];
  const done = spawnSync('esbuild', [...words, '--charset=utf8', '--log-level=error'], { input: text, encoding: 'utf8', maxBuffer: Infinity });
  if (done.status !== 0) {
    throw new ToolFailed(done.error?.message ?? done.stderr.trim().split('\n')[0]);
  }
  return done.stdout;
}

/** The names that exported declarations declare: `scope.rename` would put an export of its own in place of each. */
function exported({ body }) {
  const { getBindingIdentifiers } = found('@babel/types');
  const declarations = body.map(({ declaration }) => declaration).filter((declaration) => /Declaration$/.test(declaration?.type));
  return declarations.flatMap((declaration) => Object.keys(getBindingIdentifiers(declaration, false, true)));
}

function renameAll(tree, isAsked) {
  const scopes = new Set();
  found('@babel/traverse').default(tree, { Scopable: ({ scope }) => void scopes.add(scope) });
  for (const scope of scopes) {
    Object.keys(scope.bindings).filter((name) => isAsked(scope.path, name)).forEach((name) => scope.rename(name));
  }
}

function byBabel(text, kind, names) {
  const tree = found('@babel/parser').parse(text, { sourceType: kind, allowReturnOutsideFunction: true });
  if (names !== NAMES.none) {
    const kept = exported(tree.program);
    const isOfProgram = (name) => names === NAMES.all && !kept.includes(name);
    // What the scope of a class declaration binds is its own name, which is renamed with the declared one.
    renameAll(tree, (path, name) => (path.isProgram() ? isOfProgram(name) : !path.isClassDeclaration()));
  }
  return found('@babel/generator').default(tree).code;
}

/** What changes nothing and writes each text alike. */
export const printed = (text, kind) => byTerser(text, kind, NAMES.none);

/** The same in as few bytes as it can. */
export async function printedShort(text, kind) {
  const { code } = await found('terser').minify(text, { compress: false, mangle: false, parse: readAs(kind), format: { comments: false } });
  return code;
}

/** Functions from a text, its kind and which names to give anew, to a text. */
export const RENAMERS = { terser: byTerser, 'uglify-js': byUglify, esbuild: byEsbuild, babel: byBabel };

const PACKAGES = {
  terser: ['terser'],
  'uglify-js': ['uglify-js'],
  esbuild: [],
  babel: ['@babel/parser', '@babel/traverse', '@babel/generator', '@babel/types'],
};

/** Ends the command where a tool isn't known, or a package isn't there that it or the printer needs. */
export function lookFor(tools) {
  const unknown = tools.find((name) => !Object.hasOwn(RENAMERS, name));
  if (unknown) {
    throw new Usage(`no tool ${unknown}; there are ${Object.keys(RENAMERS).join(', ')}`);
  }
  ['terser', ...tools].flatMap((name) => PACKAGES[name]).forEach(found);
}
