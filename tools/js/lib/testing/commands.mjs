// The commands as a user runs them: what they write and their exit statuses.
import assert from 'node:assert/strict';
import { spawnSync } from 'node:child_process';
import { existsSync } from 'node:fs';
import { fileURLToPath } from 'node:url';
import { programAt } from '../jsbase.mjs';

const FOLDER = fileURLToPath(new URL('../../', import.meta.url));

function run(command, args, input = '', options = {}) {
  const given = [...(options.node ?? []), FOLDER + command, ...args];
  return spawnSync(process.execPath, given, { input, encoding: 'utf8', env: { ...process.env, ...options.env } });
}

function matches(written, wanted) {
  if (typeof wanted === 'string') {
    assert.equal(written, wanted);
  } else {
    assert.match(written, wanted);
  }
}

/** A command answers `status`, and writes the texts that are wanted or what they match. */
function expect(done, status, { stdout = '', stderr = '' }) {
  matches(done.stderr, stderr);
  matches(done.stdout, stdout);
  assert.equal(done.status, status);
}

const js2tree = (args, input) => run('js2tree', args, input);
const tree2js = (args, input) => run('tree2js', args, input);

const ident = (sym, ...ctxt) => ({ type: 'Ident', span: [0, 0], ctxt, sym });

function script(...names) {
  const body = names.map((expr) => ({ type: 'ExprStmt', span: [0, 0], expr }));
  return { type: 'Script', span: [0, 0], body, shebang: null };
}

const JS2TREE = {
  'writes an envelope': () => {
    const done = js2tree(['-'], 'a');
    expect(done, 0, { stdout: /^\{.*\}\n$/ });
    const { tree, ...marks } = JSON.parse(done.stdout);
    assert.deepEqual(marks, { marks: [[1, 0], [2, 0]], unresolved: 1, top: 2 });
    const name = { type: 'Ident', span: [1, 2], ctxt: [], sym: 'a' };
    const statement = { type: 'ExprStmt', span: [1, 2], expr: name };
    assert.deepEqual(tree, { type: 'Script', span: [1, 2], body: [statement], shebang: null });
  },
  'takes a text for a module where it must be one': () => {
    expect(js2tree(['-'], 'import "a"'), 0, { stdout: /"type":"Module"/ });
    expect(js2tree(['-'], 'with (a) b'), 0, { stdout: /"type":"Script"/ });
  },
  'takes a text for what it is told': () => {
    expect(js2tree(['--module', '-'], 'a'), 0, { stdout: /"type":"Module"/ });
    expect(js2tree(['--script', '-'], 'a'), 0, { stdout: /"type":"Script"/ });
    expect(js2tree(['--module', '-'], 'with (a) b'), 5, { stderr: /^-:1:1: syntax error: 'with' in strict mode\n$/ });
    expect(js2tree(['--script', '-'], 'import "a"'), 5, { stderr: /^-:1:1: syntax error: / });
  },
  'takes off a byte order mark': () => {
    expect(js2tree(['-'], '\ufeffa'), 0, { stdout: /"span":\[1,2\]/ });
  },
  'says where a syntax error is': () => {
    expect(js2tree(['-'], 'a;\n  b c\n'), 5, { stderr: '-:2:5: syntax error: Unexpected token\n' });
  },
  'reports the reading that came further': () => {
    expect(js2tree(['-'], 'import "a";\nb c'), 5, { stderr: /^-:2:3: syntax error: / });
    expect(js2tree(['-'], 'with (a) b;\nb c'), 5, { stderr: /^-:2:3: syntax error: / });
  },
  'says what the tree leaves out': () => {
    const half = '-:2:5: left out of the tree: half of a surrogate pair\n';
    expect(js2tree(['-'], '\n  f("\\ud83d")'), 4, { stderr: half });
    const head = '-:1:6: left out of the tree: `using` at the head of a `for` with semicolons\n';
    expect(js2tree(['-'], 'for (using a = b; ; ) ;'), 4, { stderr: head });
  },
  'says what nests too deeply': () => {
    const deep = `${'['.repeat(20000)}${']'.repeat(20000)}`;
    expect(js2tree(['-'], deep), 4, { stderr: /^it nests too deeply for node: / });
  },
  'refuses wrong usage': () => {
    const usage = 'js2tree: usage: js2tree [--module | --script] FILE|-\n';
    expect(js2tree([]), 2, { stderr: usage });
    expect(js2tree(['a', 'b']), 2, { stderr: usage });
    expect(js2tree(['--nonsense', '-']), 2, { stderr: /^js2tree: Unknown option '--nonsense'/ });
    expect(js2tree(['--module', '--script', '-']), 2, { stderr: /exclude each other\n$/ });
  },
  'refuses what it cannot read': () => {
    expect(js2tree(['no/such/file.js']), 2, { stderr: /^no\/such\/file\.js: ENOENT/ });
    expect(js2tree(['-'], Buffer.from([0x61, 0xff])), 2, { stderr: '-: not UTF-8\n' });
  },
  'says what it needs where node has no parser': () => {
    const hidden = ['--import', 'data:text/javascript,process.binding=()=>({})'];
    const done = run('js2tree', ['-'], 'a', { node: hidden });
    if (existsSync('/usr/share/nodejs/acorn')) {
      expect(done, 0, { stdout: /"type":"Script"/ }); // Debian's is taken
    } else {
      expect(done, 2, { stderr: /apt-get install node-acorn\n$/ });
    }
  },
};

const TREE2JS = {
  'prints an envelope and a bare tree': () => {
    const tree = script(ident('a', 2));
    expect(tree2js([], JSON.stringify({ marks: [], unresolved: 1, top: 2, tree })), 0, { stdout: 'a;\n' });
    expect(tree2js(['-'], JSON.stringify(tree)), 0, { stdout: 'a;\n' });
  },
  'prints contexts with --marks': () => {
    const tree = script(ident('a', 2), ident('b', 2, 30), ident('c'));
    expect(tree2js(['--marks'], JSON.stringify(tree)), 0, { stdout: 'a#2;\nb#2.30;\nc;\n' });
  },
  'writes no parentheses of its own': () => {
    const arg = { type: 'SeqExpr', span: [0, 0], exprs: [ident('a'), ident('b')] };
    const tree = script({ type: 'UnaryExpr', span: [0, 0], op: '!', arg });
    expect(tree2js([], JSON.stringify(tree)), 0, { stdout: '!a, b;\n' });
  },
  'writes values, in the quotes of `raw`': () => {
    const string = (value, raw) => ({ type: 'Str', span: [0, 0], value, raw });
    const tree = script(ident('a'), string('it\'s "so"\\', "'old'"), string('b', '"old"'), string('c', null));
    expect(tree2js([], JSON.stringify(tree)), 0, { stdout: /^a;\n'it\\'s "so"\\\\';\n"b";\n"c";\n$/ });
  },
  'says what is no tree': () => {
    const wrong = { type: 'Script', span: [0, 0], body: [ident('a')] };
    expect(tree2js([], 'no'), 3, { stderr: 'not a tree: $\n' });
    expect(tree2js([], '{"type":"Else"}'), 3, { stderr: 'not a tree: $\n' });
    expect(tree2js([], JSON.stringify(wrong)), 3, { stderr: 'not a tree: $.body[0]\n' });
    expect(tree2js([], JSON.stringify({ tree: script(ident(1)) })), 3, { stderr: /\$\.tree\.body\[0\]\.expr\.sym\n$/ });
  },
  'refuses wrong usage': () => {
    expect(tree2js(['--nonsense']), 2, { stderr: /^tree2js: Unknown option/ });
    expect(tree2js(['a', 'b']), 2, { stderr: 'tree2js: usage: tree2js [--marks] [FILE|-]\n' });
  },
};

const HELP = {
  '--help': () => {
    for (const command of ['js2tree', 'tree2js', 'jsbase', 'rows']) {
      const stdout = new RegExp(`^usage: ${command} (.|\n)*Exit status: (.|\n)*\n$`);
      expect(run(command, ['--help']), 0, { stdout });
    }
    expect(run('tree2js', ['--help']), 0, { stdout: /a#2\.3 the marks 2 and 3/ });
  },
  '--help of those that look at many files': () => {
    for (const command of ['chain_scopes', 'judge_tools', 'mangle_files', 'mangle_sizes']) {
      expect(run(command, ['--help']), 0, { stdout: new RegExp(`^usage: ${command} `) });
    }
  },
};

const ROWS = {
  'shows the trees of rows as JavaScript with marks, and what else there is': () => {
    const of = (...names) => JSON.stringify({ marks: [[1, 0]], top: 1, tree: script(...names) });
    const input = lines('resolve script', of(ident('a')), of(ident('a', 1)), 'name two', 'b', `moved, ${of()}`);
    const first = ['1: resolve script', '  given marks [[1,0]], top 1', '    tree: a;', '  wanted marks [[1,0]], top 1', '    tree: a#1;'];
    const second = ['4: name two', '  given b', '  wanted moved, marks [[1,0]], top 1', '    tree: (empty)'];
    expect(run('rows', ['--file', '-'], input), 0, { stdout: lines(...first, ...second) });
    expect(run('rows', ['--file', '-', 'script', 'resolve'], input), 0, { stdout: lines(...first) });
    expect(run('rows', ['--file', '-', '4'], input), 0, { stdout: lines(...second) });
  },
  'leaves what is no tree of JavaScript as it is, and all of it with --spans': () => {
    const wrong = JSON.stringify({ tree: { type: 'Else' } });
    const input = lines('fix script', wrong, JSON.stringify({ tree: script(ident('a')) }));
    expect(run('rows', ['--file', '-'], input), 0, { stdout: lines('1: fix script', `  given ${wrong}`, '  wanted ', '    tree: a;') });
    expect(run('rows', ['--file', '-', '--spans'], input), 0, { stdout: /"span":\[0,0\]/ });
  },
};

const lines = (...all) => `${all.join('\n')}\n`;
const EXAMPLE = 'let a = 1; { let a = 2; use(a); } use(a)';

const WITHOUT_PROGRAM = {
  'says how the program is built': () => {
    const done = run('jsbase', ['resolve', '--program', '/no/such/program', '-'], 'a');
    expect(done, 2, { stderr: /^no program at \/no\/such\/program; .*cd crates\/jsbase && rt run -- resolve/ });
    const set = run('jsbase', ['resolve', '-'], 'a', { env: { JSBASE: '/not/here' } });
    expect(set, 2, { stderr: /^no program at \/not\/here; / });
  },
  'refuses wrong usage': () => {
    expect(run('jsbase', ['resolve']), 2, { stderr: /^jsbase: usage: jsbase COMMAND / });
    const both = run('jsbase', ['resolve', '--try', '--program', 'x', '-'], 'a');
    expect(both, 2, { stderr: /^jsbase: --try and --program exclude each other/ });
  },
  'passes on what the program says': () => {
    const sh = ['resolve', '--program', fileURLToPath(new URL('refuses.sh', import.meta.url)), '-'];
    expect(run('jsbase', sh, 'a'), 1, { stderr: 'refused: resolve script\n' });
  },
};

const WITH_PROGRAM = {
  'resolve --marks': () => {
    const stdout = lines('let a#2 = 1;', '{', '  let a#3 = 2;', '  use#1(a#3);', '}', 'use#1(a#2);');
    expect(run('jsbase', ['resolve', '--marks', '-'], EXAMPLE), 0, { stdout });
  },
  'hygiene is given what resolve answers': () => {
    const stdout = lines('let a = 1;', '{', '  let a = 2;', '  use(a);', '}', 'use(a);');
    expect(run('jsbase', ['hygiene', '-'], EXAMPLE), 0, { stdout });
  },
  'unparen and fix': () => {
    expect(run('jsbase', ['unparen', '-'], '((a + (b)) * c)'), 0, { stdout: 'a + b * c;\n' });
    expect(run('jsbase', ['fix', '--module', '-'], '((a + (b)) * c)'), 0, { stdout: '(a + b) * c;\n' });
  },
  chain: () => {
    const given = 'let x; function g(p = () => x) { var x; }';
    expect(run('jsbase', ['chain', '--module', '-'], given), 0, { stdout: /var x1;/ });
  },
  'another command is refused by the program': () => {
    expect(run('jsbase', ['nonsense', '-'], EXAMPLE), 2, { stderr: /^usage: jsbase / });
  },
  'a syntax error comes first': () => {
    expect(run('jsbase', ['resolve', '-'], 'a b'), 5, { stderr: /^-:1:3: syntax error: / });
  },
  'says where a tree is too deep to be read': () => {
    const deep = `${'['.repeat(100)}${']'.repeat(100)}`;
    expect(run('jsbase', ['resolve', '-'], deep), 3, { stderr: /^not a tree: \$\nthe tree nests \d+ deep, and 127/ });
  },
};

function isBuilt() {
  try {
    return programAt() !== null;
  } catch {
    return false;
  }
}

const named = (command, tests) => Object.entries(tests).map(([name, test]) => [`${command}: ${name}`, test]);

export const COMMANDS = [
  ...named('js2tree', JS2TREE),
  ...named('tree2js', TREE2JS),
  ...named('rows', ROWS),
  ...named('all commands', HELP),
  ...named('jsbase', WITHOUT_PROGRAM),
];
const withProgram = named('jsbase', WITH_PROGRAM);

/** The tests that want the program, and where it isn't built the names of those that are left out. */
export const WITH_JSBASE = isBuilt()
  ? { tests: withProgram, skipped: [] }
  : { tests: [], skipped: withProgram.map(([name]) => name) };
