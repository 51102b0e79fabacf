#!/usr/bin/env python3
"""refuse_memory.py WORK COMMAND [FILE [NUMBER]]: refuses each request for memory of a work in turn.
refuse_memory.py --gate: the same for each work, on the rows of tools/memory_rows, in a file for each. It says nothing where all
is well. Each row there is a case, and all arguments that a work knows have a row; where there is no `cc`, no more than that is
asked.

WORK is `jsbase`, which is run from bytes to bytes, or `pass`, which runs a pass, with comments and renamers too, or a work of rows
behind `library`: `make` helpers, `name` them, `insert` a body, `inject` helpers, or `finish`, which is also for the chain and short
names: `gate_replay refuse` does these. Or it is a work of `gate_text refuse`: `read` a JavaScript text, or `print` its tree; these
have rows in tools/memory_rows alone. FILE, else the `stdin` of that program's crate, has rows of three lines: arguments, an
input, and what comes of it with ample memory. The cases are the rows whose arguments begin with COMMAND, for `pass` those that
begin with `pass COMMAND` too, and there none without a tree. A pass `rename` gives every name a new text, so of it these alone.

The proved programs of `rt ci` or `rt run` are run, with a `malloc` before the system's that refuses the request of one number
(NUMBER, else 4000): tools/refuse_memory.c, which `cc` compiles. First the program says of each case how many requests
are granted before its work and after it, up to the refused one: the work makes as many requests as lie between. Then it makes so
many requests before its work that each of these is the refused one in turn. Each answer must be that memory was refused, or the one
with ample memory, and one of a case at least that memory was refused.

A line for each arguments says how many requests were refused and what was answered, after a line for each case with
another answer, or without one that memory was refused, which ends with status 1."""
import os
import shutil
import subprocess
import sys
import tempfile
from typing import NamedTuple

ROOT = os.path.dirname(os.path.dirname(os.path.abspath(__file__)))
ROWS = os.path.join(ROOT, 'tools', 'memory_rows')


def of_each(*commands):
    """The words of commands, for a module and for a script."""
    return tuple('%s %s' % (command, goal) for command in commands for goal in ('module', 'script'))


def in_each_setting(renamer):
    """A renamer with each of its two settings and without."""
    return tuple(renamer + mangles + resets for mangles in ('', ' mangles') for resets in ('', ' resets'))


# The works of `gate_replay`, and the arguments of their rows, those behind `library` apart; then those of `gate_text`.
REPLAYED = {
    'jsbase': of_each('resolve', 'hygiene', 'unparen', 'fix', 'chain', 'mangle', 'judge', 'covers'),
    'pass': of_each(
        *('resolve', 'hygiene', 'hygiene_with_config', 'unparen', 'unparen_comments', 'fix', 'fix_comments'),
        *('rename', 'remap', 'letters', 'shortest', *in_each_setting('numbered'), *in_each_setting('suffixed')),
    ),
}
LIBRARY = {
    'make': ('helpers written out', 'helpers of a package'),
    'name': ('helper names',),
    'insert': of_each('helper written out in a'),
    'inject': of_each('helper of a package in a', 'helper written out in a'),
    'finish': of_each('finish', 'chain', 'mangle', 'commented finish', 'commented chain'),
}
TEXTS = {
    'read': of_each('read'),
    'print': of_each('print', 'compact'),
}
WORKS = {**REPLAYED, **LIBRARY, **TEXTS}


class Case(NamedTuple):
    """A row that a work is run on, and where it stands."""
    work: str
    words: str
    given: str
    ample: str
    file: str
    line: int


def crate_of(work):
    """The crate of the program that does a work."""
    return 'gate_text' if work in TEXTS else 'gate_replay'


def command_of(work, words):
    """The arguments of a row as the work has them, if it does."""
    if work == 'pass':
        words = words.removeprefix('pass ') if not words.startswith('rename ') else ''
    elif work in LIBRARY:
        words = words.removeprefix('library ') if words.startswith('library ') else ''
    return words if words in WORKS[work] else None


def wanted_of(work, ample):
    """What the program is to compare. Of a pass that is refused only the name of the refusal is, since what it leaves is
    looked at in each case."""
    return ample.split(', {')[0] if work in REPLAYED and ample.startswith('refused: ') else ample


def rows_of(file):
    """The rows of a file: the number of the first line of each, and its three lines."""
    with open(file, encoding='utf-8') as text:
        lines = text.read().split('\n')
    return [(at + 1, *lines[at:at + 3]) for at in range(0, len(lines) - 2, 3)]


def cases_of(work, command, file):
    """The cases of a work in a file."""
    cases = []
    for line, first, given, ample in rows_of(file):
        words = command_of(work, first)
        if words is None or not words.startswith(command):
            continue
        if not (work == 'pass' and ample.startswith(('not a tree: ', 'usage: '))):
            cases.append(Case(work, words, given, wanted_of(work, ample), file, line))
    return cases


def compiled(folder):
    """The library that refuses a request, in a folder."""
    library = os.path.join(folder, 'refuse.so')
    flags = ['-O2', '-fno-builtin', '-shared', '-fPIC', '-nostdlib']
    subprocess.run(['cc', *flags, '-o', library, os.path.join(ROOT, 'tools', 'refuse_memory.c')], check=True)
    return library


def answers(library, number, case, asked):
    """What the program of a case says to each thing that it is asked of it, where the request of a number is refused."""
    crate = crate_of(case.work)
    words = case.words.split(' ') if case.work in REPLAYED else [case.words]
    line = [os.path.join(ROOT, 'crates', crate, 'out', crate), 'refuse', case.work, *words]
    said = []
    for word in asked:
        given = '%s\n%s\n%s\n' % (word, case.given, case.ample)
        ran = subprocess.run(line, input=given, env={'LD_PRELOAD': library, 'REFUSED': str(number)}, capture_output=True, text=True)
        said.append((ran.stdout.split() or ['nothing'])[0])
    return said


def counts(case, granted):
    """How many requests come before the work of a case where each of its requests is the refused one in turn."""
    if 'nothing' in granted:
        sys.exit('%s, line %d: the program said nothing' % (case.file, case.line))
    before, after = map(int, granted)
    if after == 0 or after > before:
        sys.exit('%s, line %d: too many requests: give a greater number' % (case.file, case.line))
    return range(after + 1, before + 1)


def is_good(said):
    """Whether answers are as they must be, where each request of a case was refused in turn."""
    return 'refused' in said and set(said) <= {'refused', 'ample'}


def report(work, words, found):
    """Says what was answered on the cases of some arguments."""
    for case, said in found:
        if not is_good(said):
            others = len([word for word in said if word not in ('refused', 'ample')])
            what = '%d other answers' % others if others else 'never refused'
            print('%s: %s on the case at line %d of %s' % (words, what, case.line, case.file))
    every = [word for _, said in found for word in said]
    refused, ample = every.count('refused'), every.count('ample')
    print('%s %s: %d cases, %d requests refused: %d answers refused, %d ample, %d other'
          % (work, words, len(found), len(every), refused, ample, len(every) - refused - ample), flush=True)


def refuse(number, cases, is_quiet):
    """Refuses each request of each case. Whether anything was answered that must not be, or nothing was refused."""
    with tempfile.TemporaryDirectory() as folder:
        library = compiled(folder)
        said = []
        for case in cases:
            granted = answers(library, number, case, ('before', 'after'))
            said.append(answers(library, number, case, counts(case, granted)))
    failed = not all(is_good(words) for words in said)
    if failed or not is_quiet:
        for key in dict.fromkeys((case.work, case.words) for case in cases):
            report(*key, [(case, words) for case, words in zip(cases, said) if (case.work, case.words) == key])
    return failed


def misfits(work, cases):
    """Which rows that are kept for a work are none of its cases, and which of its arguments have no case."""
    file = os.path.join(ROWS, work)
    lines = {case.line for case in cases}
    faults = ['line %d: no case: %s' % (line, words) for line, words, *_ in rows_of(file) if line not in lines]
    faults += ['no row: ' + words for words in WORKS[work] if words not in {case.words for case in cases}]
    with open(file, encoding='utf-8') as text:
        if text.read().count('\n') % 3:
            faults.append('not three lines for each row')
    return ['%s, %s' % (file, fault) for fault in faults]


def gate():
    """Refuses each request of each case that is kept. Whether anything is not as it must be."""
    cases = {work: cases_of(work, '', os.path.join(ROWS, work)) for work in WORKS}
    faults = [fault for work in WORKS for fault in misfits(work, cases[work])]
    faults += ['%s is of no work' % os.path.join(ROWS, name) for name in sorted(set(os.listdir(ROWS)) - set(WORKS))]
    if faults:
        print('\n'.join(faults))
        return True
    if not shutil.which('cc'):
        print('tools/refuse_memory.py: skipped, no cc', file=sys.stderr)
        return False
    return refuse(4000, [case for of_work in cases.values() for case in of_work], True)


def main():
    if sys.argv[1:] == ['--gate']:
        sys.exit(gate())
    work, command = sys.argv[1:3]
    rows = os.path.join(ROWS, work) if work in TEXTS else os.path.join(ROOT, 'crates', crate_of(work), 'stdin')
    file = sys.argv[3] if len(sys.argv) > 3 else rows
    cases = cases_of(work, command, file)
    if not cases:
        sys.exit('no row of %s begins with %s' % (file, command))
    sys.exit(refuse(int(sys.argv[4]) if len(sys.argv) > 4 else 4000, cases, False))


if __name__ == '__main__':
    main()
