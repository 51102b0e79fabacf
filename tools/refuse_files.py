#!/usr/bin/env python3
"""refuse_files.py: refuses each request for memory of `mucwathi` in turn as it writes files. It says nothing where all is well.

The proved program of `rt ci` or `rt run` is run with tools/refuse_memory.c before the system's `malloc`; where there is no `cc`, nothing is asked.
Whichever request is refused, each file holds what it held or the whole answer, one that is told not to be written holds what it held, and the status
is 0 only if all is written; else it is 4 or 5."""
import os
import shutil
import subprocess
import sys
import tempfile

import refuse_memory

PROGRAM = os.path.join(refuse_memory.ROOT, 'crates', 'mucwathi', 'out', 'mucwathi')
MODULE = 'import {f} from "m";\n// c\nexport function add(a, b) { return f(a) + b; }\n'
SCRIPT = 'let x = 1; { let x = 2; g(x); }\n'
# the words, and the files that are there before
CASES = (
    (['chain', '--out', 'd', '--source-map', 'm.map', 'a.js'], {'a.js': MODULE}),
    (['chain', '--out', 'd', '--source-map', 'm.map', 'a.js'], {'a.js': MODULE, 'd/a.js': 'old', 'm.map': 'old'}),
    (['mangle', '--out', 'd', 'a.js', 'b.js'], {'a.js': MODULE, 'b.js': SCRIPT, 'd/b.js': 'old'}),
    (['mangle', '--in-place', 'a.js'], {'a.js': MODULE}),
)


def files_in(folder):
    found = {}
    for place, _, names in os.walk(folder):
        for name in names:
            with open(os.path.join(place, name), encoding='utf-8') as file:
                found[os.path.relpath(os.path.join(place, name), folder)] = file.read()
    return found


def run(words, files, environment):
    """the status, what is told, and the files that are there then"""
    with tempfile.TemporaryDirectory() as folder:
        os.mkdir(os.path.join(folder, 'd'))
        for name, text in files.items():
            with open(os.path.join(folder, name), 'w', encoding='utf-8') as file:
                file.write(text)
        ran = subprocess.run([PROGRAM] + words, cwd=folder, env=environment, capture_output=True, text=True)
        return ran.returncode, ran.stderr, files_in(folder)


def faults(status, told, found, before, whole):
    """what is wrong with how a run ended: of a file that goes into a folder the folder is told"""
    for name in set(found) | set(whole):
        if found.get(name) not in (whole.get(name), before.get(name)):
            yield '%s is cut' % name
    unwritten = [line.split(': not written')[0] for line in told.split('\n') if ': not written' in line]
    for place in set(unwritten):
        lacking = [name for name in whole if place in (name, os.path.dirname(name)) and found.get(name) != whole[name]]
        if len(lacking) < unwritten.count(place):
            yield '%s is told not to be written, and is' % place
    if (status == 0) != (found == whole) or status not in (0, 4, 5):
        yield 'status %d' % status


def refuse(library, words, files):
    """the faults of a case, each request for memory refused in turn; none is made behind 300 that make no difference"""
    status, _, whole = run(words, files, {})
    if status:
        yield 'status %d with all memory' % status
    number, alike = 1, 0
    while alike < 300:
        status, told, found = run(words, files, {'LD_PRELOAD': library, 'REFUSED': str(number)})
        alike = alike + 1 if status == 0 else 0
        for fault in faults(status, told, found, files, whole):
            yield 'request %d: %s' % (number, fault)
        number += 1


def main():
    if not shutil.which('cc'):
        print('tools/refuse_files.py: skipped, no cc', file=sys.stderr)
        return 0
    wrong = 0
    with tempfile.TemporaryDirectory() as folder:
        library = refuse_memory.compiled(folder)
        for words, files in CASES:
            for fault in refuse(library, words, files):
                wrong = 1
                print('mucwathi %s, %s' % (' '.join(words), fault))
    return wrong


if __name__ == '__main__':
    sys.exit(main())
