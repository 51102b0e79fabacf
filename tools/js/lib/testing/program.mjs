// The program mucwathi as a user runs it: files, what is told of them, and texts of many levels.
import assert from 'node:assert/strict';
import { spawnSync } from 'node:child_process';
import { chmodSync, existsSync, lstatSync, mkdirSync, mkdtempSync, readFileSync, readdirSync, rmSync, statSync, symlinkSync, writeFileSync } from 'node:fs';
import { tmpdir } from 'node:os';
import { join } from 'node:path';
import { mucwathiAt } from '../keep_files.mjs';
import { segmentsOf } from './mappings.mjs';

const SOURCE = 'let x; function g(p = () => x) { var x; } // b\n';
const CHAINED = 'let x; function g(p = () => x) { var x1; } // b\n';
const READ_ONLY = 0o440;

/** A run in a folder. */
function run(folder, words, input = '') {
  return spawnSync(mucwathiAt(), words, { cwd: folder, input, encoding: 'utf8', maxBuffer: 2 ** 28 });
}

function expect(done, status, { stdout = '', stderr = '' }) {
  const match = (written, wanted) => (typeof wanted === 'string' ? assert.equal(written, wanted) : assert.match(written, wanted));
  match(done.stderr, stderr);
  match(done.stdout, stdout);
  assert.equal(done.status, status);
}

/** A test with a folder of its own, in which `a.js` and `b.js` lie. */
function inFolder(test) {
  return () => {
    const folder = mkdtempSync(join(tmpdir(), 'mucwathi-'));
    try {
      writeFileSync(join(folder, 'a.js'), SOURCE);
      writeFileSync(join(folder, 'b.js'), '((b))');
      test(folder, (name) => readFileSync(join(folder, name), 'utf8'));
    } finally {
      rmSync(folder, { recursive: true });
    }
  };
}

const FILES = {
  'a file, and standard input': inFolder((folder) => {
    expect(run(folder, ['chain', 'a.js']), 0, { stdout: CHAINED });
    expect(run(folder, ['chain'], SOURCE), 0, { stdout: CHAINED });
  }),
  '- is standard input': inFolder((folder, text) => {
    writeFileSync(join(folder, '-'), 'b;\n');
    expect(run(folder, ['chain', '-'], SOURCE), 0, { stdout: CHAINED });
    expect(run(folder, ['names', '-'], 'a;\n'), 0, { stdout: '1:1 a\n' });
    expect(run(folder, ['resolve', '-'], 'a;\n'), 0, { stdout: 'a#1;\n' });
    expect(run(folder, ['judge', '-', 'a.js'], SOURCE), 0, { stdout: 'the same\n' });
    expect(run(folder, ['judge', 'a.js', '-'], SOURCE), 0, { stdout: 'the same\n' });
    expect(run(folder, ['chain', '-'], 'a b'), 3, { stderr: /^<stdin>:1:3: / });
    expect(run(folder, ['chain', '--list', '-', 'b.js'], SOURCE), 0, { stdout: '<stdin>:1:38 x x1\n' });
    expect(run(folder, ['judge', '-', '-'], SOURCE), 2, { stderr: 'mucwathi: standard input can be read once\n' });
    expect(run(folder, ['chain', '--list', '-', '-'], SOURCE), 2, { stderr: 'mucwathi: standard input can be read once\n' });
    expect(run(folder, ['chain', '--in-place', 'a.js', '-'], SOURCE), 2, { stderr: 'mucwathi: --in-place and --out want files\n' });
    expect(run(folder, ['chain', '--out', 'out', '-'], SOURCE), 2, { stderr: 'mucwathi: --in-place and --out want files\n' });
    assert.deepEqual([text('-'), text('a.js'), existsSync(join(folder, 'out'))], ['b;\n', SOURCE, false]);
  }),
  '--in-place writes files whole, with their permissions, and leaves nothing else': inFolder((folder, text) => {
    chmodSync(join(folder, 'a.js'), READ_ONLY);
    expect(run(folder, ['chain', '--in-place', 'a.js', 'b.js']), 0, {});
    assert.equal(text('a.js'), CHAINED);
    assert.equal(text('b.js'), 'b');
    assert.equal(statSync(join(folder, 'a.js')).mode & 0o777, READ_ONLY);
    assert.deepEqual(readdirSync(folder).sort(), ['a.js', 'b.js']);
  }),
  '--in-place goes through links': inFolder((folder, text) => {
    symlinkSync('a.js', join(folder, 'link.js'));
    expect(run(folder, ['chain', '--in-place', 'link.js']), 0, {});
    assert.equal(lstatSync(join(folder, 'link.js')).isSymbolicLink(), true);
    assert.equal(text('a.js'), CHAINED);
  }),
  '--in-place leaves a file of which nothing is made': inFolder((folder, text) => {
    writeFileSync(join(folder, 'c.js'), 'let = ;');
    expect(run(folder, ['chain', '--in-place', 'c.js', 'a.js']), 3, { stderr: /^c\.js:1:7: expected an expression\n/ });
    assert.equal(text('c.js'), 'let = ;');
    assert.equal(text('a.js'), CHAINED);
  }),
  '--in-place leaves what lies beside a file': inFolder((folder, text) => {
    writeFileSync(join(folder, 'a.js.mucwathi-new'), 'kept');
    expect(run(folder, ['chain', '--in-place', 'a.js']), 4, { stderr: /^\S*\/a\.js\.mucwathi-new: not written: / });
    assert.equal(text('a.js'), SOURCE);
    assert.equal(text('a.js.mucwathi-new'), 'kept');
  }),
  '--out writes into a folder': inFolder((folder, text) => {
    mkdirSync(join(folder, 'out'));
    expect(run(folder, ['chain', '--out', 'out', 'a.js', 'b.js']), 0, {});
    assert.equal(text('out/a.js'), CHAINED);
    assert.equal(text('a.js'), SOURCE);
    expect(run(folder, ['chain', '--out', 'none', 'a.js']), 4, { stderr: /^none: not written: / });
  }),
  '--out takes no two files of one name': inFolder((folder) => {
    mkdirSync(join(folder, 'out'));
    writeFileSync(join(folder, 'out/a.js'), '');
    expect(run(folder, ['chain', '--out', 'out', 'a.js', 'out/a.js']), 2, { stderr: 'mucwathi: a.js: two files would be written to one of this name\n' });
  }),
  'nothing goes over a file that is read, but in place, or written already': inFolder((folder, text) => {
    const taken = (name) => ({ stderr: `${name}: not written: it is a file that is read, or written already\n` });
    symlinkSync('a.js', join(folder, 'link.js'));
    expect(run(folder, ['chain', '--out', '.', 'a.js']), 4, taken('./a.js'));
    for (const map of ['./a.js', 'link.js']) {
      expect(run(folder, ['chain', '--source-map', map, 'a.js']), 4, { stdout: CHAINED, ...taken(map) });
    }
    assert.equal(text('a.js'), SOURCE);
    mkdirSync(join(folder, 'out'));
    expect(run(folder, ['chain', '--out', 'out', '--source-map', 'out/a.js', 'a.js']), 4, taken('out/a.js'));
    assert.equal(text('out/a.js'), CHAINED);
  }),
  'nothing goes over what another link leads to': inFolder((folder, text) => {
    const taken = (name) => ({ stderr: `${name}: not written: it is a file that is read, or written already\n` });
    mkdirSync(join(folder, 'out'));
    symlinkSync('../b.js', join(folder, 'out/a.js'));
    expect(run(folder, ['chain', '--out', 'out', 'a.js', 'b.js']), 4, taken('out/a.js'));
    assert.deepEqual([text('b.js'), text('out/b.js')], ['((b))', 'b']);
    rmSync(join(folder, 'out/a.js'));
    symlinkSync('b.js', join(folder, 'out/a.js'));
    expect(run(folder, ['chain', '--out', 'out', 'a.js', 'b.js']), 4, taken('out/b.js'));
    assert.equal(text('out/b.js'), CHAINED);
  }),
  'several files want a place': inFolder((folder) => {
    expect(run(folder, ['chain', 'a.js', 'b.js']), 2, { stderr: 'mucwathi: several files want --in-place or --out FOLDER\n' });
    expect(run(folder, ['chain', '--in-place']), 2, { stderr: 'mucwathi: --in-place and --out want files\n' });
    expect(run(folder, ['chain', '--in-place', '--source-map', 'a.js', 'a.js']), 2, { stderr: 'mucwathi: --source-map would write over a file that is read\n' });
    expect(run(folder, ['chain', '--source-map', 'm', 'a.js', 'b.js']), 2, { stderr: /^mucwathi: / });
  }),
  '--list tells the file where there are several': inFolder((folder) => {
    expect(run(folder, ['chain', '--list', 'a.js', 'b.js']), 0, { stdout: 'a.js:1:38 x x1\n' });
  }),
  'a file that is not there': inFolder((folder) => {
    expect(run(folder, ['chain', 'none.js']), 4, { stderr: /^none\.js: not read: / });
    expect(run(folder, ['judge', 'a.js', 'none.js']), 4, { stderr: /^none\.js: not read: / });
    expect(run(folder, ['show', 'none.js']), 4, { stderr: /^none\.js: not read: / });
  }),
  'a source map': inFolder((folder, text) => {
    expect(run(folder, ['chain', '--source-map', 'a.map', 'a.js']), 0, { stdout: CHAINED });
    const { version, sources, names } = JSON.parse(text('a.map'));
    assert.deepEqual({ version, sources, names }, { version: 3, sources: ['a.js'], names: ['x'] });
  }),
  'a source map leads from each name to what it was': inFolder((folder, text) => {
    const source = 'var long = 1;\nfunction f(one, { two }) {\n  return "\u{1f600}" + one + two + long\n}\n';
    writeFileSync(join(folder, 'c.js'), source);
    expect(run(folder, ['mangle', '--compact', '--mangle-top', '--source-map', 'c.map', '--in-place', 'c.js']), 0, {});
    const found = segmentsOf(JSON.parse(text('c.map'))).filter(({ name }) => name !== null);
    const [written, read] = [text('c.js'), source].map((each) => each.split('\n'));
    assert.deepEqual(new Set(found.map(({ name }) => name)), new Set(['long', 'one', 'two', 'f']));
    for (const { written: to, read: from, name } of found) {
      assert.ok(read[from.line].startsWith(name, from.column), `${name} at ${from.line}:${from.column}`);
      assert.match(written[to.line].slice(to.column), /^[a-z]\b/);
    }
  }),
  'envelopes there and back': inFolder((folder) => {
    const given = run(folder, ['resolve', '--json', 'a.js']);
    expect(given, 0, { stdout: /^\{"marks":/ });
    expect(run(folder, ['chain', '--from-json', '--compact'], given.stdout), 0, { stdout: 'let x;function g(p=()=>x){var x1;}' });
  }),
  'what `resolve` writes is read': inFolder((folder) => {
    const marked = run(folder, ['resolve', 'a.js']);
    expect(marked, 0, { stdout: 'let x#2; function g#2(p#3 = () => x#2) { var x#3; } // b\n' });
    expect(run(folder, ['hygiene', '--marks'], marked.stdout), 0, { stdout: CHAINED });
  }),
};

const NESTS = {
  parentheses: ['(', 'x', ')'],
  blocks: ['{', 'x', '}'],
  arrays: ['[', 'x', ']'],
  objects: ['({a:', 'x', '})'],
  functions: ['function f(){', 'x', '}'],
  arrows: ['()=>', 'x', ''],
  calls: ['f(', 'x', ')'],
  members: ['', 'x', '.a'],
  signs: ['- ', 'x', ''],
  sums: ['', 'x', '+x'],
  powers: ['x**', 'x', ''],
  conditions: ['x?x:', 'x', ''],
  sequences: ['', 'x', ',x'],
  patterns: ['[', '[]', ']=[]'],
  classes: ['class A{a(){', 'x', '}}'],
  templates: ['`${', 'x', '}`'],
  choices: ['if(x)', 'x', ''],
};
const LEVELS = [127, 1000, 3000, 4000, 10_000];
const DEEP_COMMANDS = ['chain', 'mangle', 'hygiene', 'fix', 'unparen', 'names', 'resolve', 'show'];
const DEEP = 'nested too deeply';

/** Each answers a text of many levels, or says that it is nested too deeply. */
function deep([before, middle, behind]) {
  return () => {
    for (const levels of LEVELS) {
      const text = before.repeat(levels) + middle + behind.repeat(levels);
      for (const command of DEEP_COMMANDS) {
        const { status, signal, stderr } = run('.', [command], text);
        const isSaid = status === 0 || (status === 3 && stderr.includes(DEEP));
        assert.ok(isSaid, `${command}, ${levels} levels: status ${status}, signal ${signal}: ${stderr.slice(0, 100)}`);
      }
    }
  };
}

function isBuilt() {
  try {
    return mucwathiAt() !== null;
  } catch {
    return false;
  }
}

const tests = [
  ...Object.entries(FILES).map(([name, test]) => [`mucwathi: ${name}`, test]),
  ...Object.entries(NESTS).map(([name, nest]) => [`mucwathi: many levels of ${name}`, deep(nest)]),
];

/** The tests of the program, and where it isn't built the names of those that are left out. */
export const WITH_MUCWATHI = isBuilt() ? { tests, skipped: [] } : { tests: [], skipped: tests.map(([name]) => name) };
