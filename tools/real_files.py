#!/usr/bin/env python3
"""real_files.py JS2TREE JSBASE GATE_REPLAY FILE..: jsbase on the trees of real JavaScript, as a table in Markdown.
real_files.py --fix JS2TREE JSBASE PATH..: the same of `jsbase fix` alone, a row for each file or folder.

JS2TREE is a folder with estree2swc.mjs (JavaScript to an envelope) and swc2js.mjs (an envelope to JavaScript), run by
node; JSBASE and GATE_REPLAY are the built programs of those crates. Each file is converted, its tree resolved, and what
comes out printed and parsed again: it must be the tree that went in, but for contexts and spans. Parentheses are taken
off too, and none may be left. A time is processor time, the least of some runs; beside it stands that of parsing and
printing the same JSON alone (`gate_replay json`).

With `--fix`, parentheses are taken off by `jsbase unparen` and set anew by `jsbase fix`. The answer is right if it is, but
for spans and how strings are written: without its pairs, the tree without pairs that went in; printed by swc2js.mjs, which
adds no pair, and parsed again, the same with each pair; what `fix` answers to the tree with the source's pairs; and what
`fix` answers to itself. `a && (b && c)` gets no pair, nor do `||` and `??`, and so comes back as `(a && b) && c`: that such chains are
grouped anew is counted apart. A line on standard error says of each other file why it was not tried or what it is not."""
import json
import os
import re
import resource
import subprocess
import sys
import tempfile

PAIR = re.compile(rb'"type":\s*"ParenExpr"')
LOGICAL = ('&&', '||', '??')
NODE = ['node', '--max-old-space-size=8000']
RUNS = 3


def converted(js2tree, file, out, kinds=('script', 'module')):
    """The kind of a file's program, whose envelope it writes, or why there is none."""
    said = []
    for kind in kinds:
        with open(out, 'w', encoding='utf-8') as target:
            done = subprocess.run([*NODE, os.path.join(js2tree, 'estree2swc.mjs'), '--' + kind, file],
                                  stdout=target, stderr=subprocess.PIPE, text=True, check=False)
        if done.returncode == 0:
            return kind, ''
        said.append(f'as a {kind} {done.stderr.strip()}')
    return None, ', '.join(said)


def printed(js2tree, envelope, out):
    with open(out, 'w', encoding='utf-8') as target:
        subprocess.run([*NODE, os.path.join(js2tree, 'swc2js.mjs'), envelope], stdout=target, check=False)


def measured(command, source, target):
    """The status, the least processor time in seconds and the most memory in megabytes of some runs. They are those that
    `time` says: the memory of a process that Python starts counts Python's own."""
    least, most, status = None, 0, 0
    for _ in range(RUNS):
        with open(source, 'rb') as stdin, open(target, 'wb') as stdout:
            done = subprocess.run(['/usr/bin/time', '-f', '%U %S %M', *command], stdin=stdin, stdout=stdout, stderr=subprocess.PIPE, check=False)
        user, system, kilobytes = done.stderr.split()[-3:]
        took = float(user) + float(system)
        least = took if least is None else min(least, took)
        most, status = max(most, int(kilobytes) / 1000), status or done.returncode
    return status, least, most


def pairs_in(path):
    with open(path, 'rb') as file:
        return len(PAIR.findall(file.read()))


def bare(node):
    """A tree without spans and contexts."""
    stack = [node]
    while stack:
        top = stack.pop()
        if isinstance(top, dict):
            for key in ('span', 'ctxt', 'dot3_token'):
                top.pop(key, None)
            if top.get('type') == 'Str':
                top.pop('raw', None)
            if isinstance(top.get('spread'), list):
                top['spread'] = 'here'
        stack.extend(top.values() if isinstance(top, dict) else top if isinstance(top, list) else [])
    return node


def tree_of(path):
    with open(path, encoding='utf-8') as file:
        return bare(json.load(file)['tree'])


def row(js2tree, jsbase, gate_replay, file, folder):
    source, answer, alone, text, again = (os.path.join(folder, name) for name in ('in', 'out', 'alone', 'out.js', 'again'))
    kind, _ = converted(js2tree, file, source)
    if not kind:
        return '| %s | not converted |' % os.path.basename(file)
    status, seconds, size = measured([jsbase, 'resolve', kind], source, answer)
    bare_status, bare_seconds, bare_size = measured([jsbase, 'unparen', kind], source, alone)
    is_bare = bare_status == 0 and not pairs_in(alone)
    _, fix_seconds, fix_size = measured([jsbase, 'fix', kind], source, alone)
    _, alone_seconds, alone_size = measured([gate_replay, 'json'], source, alone)
    same = status == 0 and tree_of(source) == tree_of(answer)
    printed(js2tree, answer, text)
    back = converted(js2tree, text, again)[0] is not None and tree_of(answer) == tree_of(again)
    return '| %s | %s | %.1f | %.1f | %s | %s | %s | %.2f, %d | %.2f, %d | %.2f, %d | %.2f, %d |' % (
        os.path.basename(file), kind, os.path.getsize(file) / 1e6, os.path.getsize(source) / 1e6,
        word(same), word(back), word(is_bare), seconds, size, bare_seconds, bare_size, fix_seconds, fix_size, alone_seconds, alone_size)


def word(good):
    return 'yes' if good else 'NO'


def without_pairs(node):
    """A tree without its pairs; what stood in a pair before `of` is a pattern."""
    stack = [node]
    while stack:
        top = stack.pop()
        for key, value in top.items() if isinstance(top, dict) else enumerate(top):
            while isinstance(value, dict) and value.get('type') == 'ParenExpr':
                value = top[key] = value['expr']
                if key == 'left' and top.get('type') == 'ForOfStmt' and value.get('type') == 'Ident':
                    value['type'] = 'BindingIdent'
            if isinstance(value, (dict, list)):
                stack.append(value)
    return node


def grouped(node):
    """A tree with the operands of each chain of one logical operator as a list, however they are grouped."""
    stack = [node]
    while stack:
        top = stack.pop()
        if isinstance(top, dict) and top.get('op') in LOGICAL and 'left' in top and top['type'] == 'BinExpr':
            top['operands'] = operands(top, top['op'])
            del top['left'], top['right']
        stack.extend(top.values() if isinstance(top, dict) else top if isinstance(top, list) else [])
    return node


def operands(node, op):
    found, stack = [], [node]
    while stack:
        top = stack.pop()
        if top['type'] == 'BinExpr' and top['op'] == op:
            stack += [top['right'], top['left']]
        else:
            found.append(top)
    return found


def ran(jsbase, command, kind, source, target):
    """What the program says on standard error; nothing where it succeeds."""
    with open(source, 'rb') as stdin, open(target, 'wb') as stdout:
        done = subprocess.run([jsbase, command, kind], stdin=stdin, stdout=stdout, stderr=subprocess.PIPE, check=False)
    return done.stderr.decode().strip() or ('' if done.returncode == 0 else f'status {done.returncode}')


def set_anew(js2tree, jsbase, file, folder):
    """How setting a file's pairs anew went, and how many it had and has."""
    names = ('in', 'bare', 'out', 'out.js', 'back', 'direct', 'twice')
    source, bare_tree, answer, text, back, direct, twice = (os.path.join(folder, name) for name in names)
    kind, why = converted(js2tree, file, source)
    if not kind:
        return 'not converted', why, 0, 0
    steps = (('unparen', source, bare_tree), ('fix', bare_tree, answer), ('fix', source, direct), ('fix', answer, twice))
    for command, given, target in steps:
        why = ran(jsbase, command, kind, given, target)
        if why:
            return 'refused', f'{command}: {why}', pairs_in(source), 0
    printed(js2tree, answer, text)
    parsed, why = converted(js2tree, text, back, (kind,))
    how, faults = compared(answer, back, direct, twice, bare_tree) if parsed else ('differs', [f'what is printed does not parse: {why}'])
    return how, ', '.join(faults), pairs_in(source), pairs_in(answer)


def compared(answer, back, direct, twice, bare_tree):
    """Whether an answer is right, and else what it is not."""
    fixed, again = tree_of(answer), tree_of(back)
    faults = [f'not {what}' for path, what in ((direct, 'the answer to the source with its pairs'), (twice, 'the answer to itself'))
              if tree_of(path) != fixed]
    how = 'right' if fixed == again else 'grouped anew'
    if how == 'grouped anew' and grouped(fixed) != grouped(again):
        faults.append('not the tree parsed again')
    if without_pairs(tree_of(answer)) != tree_of(bare_tree):
        faults.append('not the tree without pairs')
    return ('differs' if faults else how), faults


def files_of(path):
    """The file of a path, or the JavaScript files below it."""
    if not os.path.isdir(path):
        return [path]
    below = (os.path.join(folder, name) for folder, _, names in os.walk(path) for name in names)
    return sorted(file for file in below if file.endswith(('.js', '.mjs', '.cjs')))


def fix_row(js2tree, jsbase, path, folder):
    counts, size, had, has = {}, 0, 0, 0
    files = files_of(path)
    for file in files:
        how, why, pairs, pairs_anew = set_anew(js2tree, jsbase, file, folder)
        counts[how] = counts.get(how, 0) + 1
        if why:
            print(f'{file}: {how}: {why}', file=sys.stderr, flush=True)
        if how in ('right', 'grouped anew'):
            size, had, has = size + os.path.getsize(file), had + pairs, has + pairs_anew
    numbers = [counts.get(how, 0) for how in ('right', 'grouped anew', 'differs', 'refused', 'not converted')]
    return '| %s | %d | %d | %d | %d | %d | %d | %.1f | %d | %d |' % (path, len(files), *numbers, size / 1e6, had, has)


def main():
    fixes = sys.argv[1] == '--fix'
    resource.setrlimit(resource.RLIMIT_STACK, (1 << 30, resource.getrlimit(resource.RLIMIT_STACK)[1]))
    with tempfile.TemporaryDirectory() as folder:
        if fixes:
            js2tree, jsbase, *paths = sys.argv[2:]
            print('| path | files | right | grouped anew | differ | refused | not converted | source of the right, MB | its pairs | pairs set |')
            print('|---|---|---|---|---|---|---|---|---|---|')
            for path in paths:
                print(fix_row(js2tree, jsbase, path, folder), flush=True)
            return
        js2tree, jsbase, gate_replay, *files = sys.argv[1:]
        print('| file | kind | source, MB | envelope, MB | tree kept | parses back | no pair left | resolve, s, MB | unparen, s, MB | fix, s, MB | JSON alone, s, MB |')
        print('|---|---|---|---|---|---|---|---|---|---|---|')
        for file in files:
            print(row(js2tree, jsbase, gate_replay, file, folder), flush=True)


if __name__ == '__main__':
    main()
