#!/usr/bin/env python3
"""count_instructions.py [TOP] [--write]: holds what each workload of the benchmark costs against the figures in bench/counts.txt.

Of each line of bench/workloads.txt the proved program that `rt ci` or `rt run` leaves at crates/NAME/out/NAME makes one file, by
seed 1, of a quarter of the copies that the line names: `bench_passes chain 1 1 2`, and `bench_passes join 1 1 8`, in which a
square shows. Counted are all instructions of that run, by `valgrind --tool=callgrind`. Under `chain_memory` stands the most
memory, in KB, that `chain` has in use on one file of as many copies as its line names, run by itself.

What is above 1.05 times its figure is said, with status 1; so is a workload without a figure, and a figure without a workload.
What is below 0.95 times its figure is said too, and fails nothing: that figure may be lowered. Else nothing is said. Where there
is no valgrind, that is said, and the memory alone is looked at. A figure hangs on the C library and on clang too, but little on
the machine, and not on what else it does; `bench/run` tells times.

With --write the figures are written anew, all of them. They go in with the commit that changes them, and its message gives the
reason. TOP is the checkout that is looked at, else the one that this file is in."""
import argparse
import os
import re
import shutil
import subprocess
import sys
import tempfile
from typing import NamedTuple

ROOT = os.path.dirname(os.path.dirname(os.path.abspath(__file__)))
SAYS = 'tools/count_instructions.py: '
# The workloads of which the memory in use is looked at too, and how its figure is called.
REMEMBERED = {'chain': 'chain_memory'}
UNITS = {False: 'instructions', True: 'KB of memory'}
# What a figure may be passed by, and where it may be lowered.
ABOVE, BELOW = 1.05, 0.95
HEAD = """\
# What one file of each workload of workloads.txt costs: the instructions that callgrind counts in the proved program, to the
# last one, and under chain_memory the most memory in use, in KB. tools/count_instructions.py says which file, holds a checkout
# against these figures, and writes them anew with --write; the commit that changes them says why.
"""


class Run(NamedTuple):
    """A figure's name, whether it is one of memory, and the run that it is of."""
    name: str
    is_memory: bool
    line: list
    given: str


def runs_of(top):
    """The runs that the figures of a checkout are of."""
    bench = os.path.join(top, 'bench')
    with open(os.path.join(bench, 'workloads.txt'), encoding='utf-8') as text:
        lines = [line.split() for line in text if line.strip()]
    runs = []
    for name, crate, *words in lines:
        given = os.path.join(bench, words.pop()[1:]) if words[-1].startswith('<') else os.devnull
        *words, _, copies = ['1' if word == 'SEED' else word for word in words]
        start = [os.path.join(top, 'crates', crate, 'out', crate), *words, '1']
        runs.append(Run(name, False, [*start, str(max(1, int(copies) // 4))], given))
        if name in REMEMBERED:
            runs.append(Run(REMEMBERED[name], True, [*start, copies], given))
    return runs


def instructions(valgrind, run):
    """The instructions of a run."""
    with tempfile.TemporaryDirectory() as folder, open(run.given, 'rb') as given:
        out = os.path.join(folder, 'out')
        line = [valgrind, '--quiet', '--tool=callgrind', '--callgrind-out-file=' + out, *run.line]
        ran = subprocess.run(line, stdin=given, capture_output=True, cwd=folder, env={'PATH': os.defpath}, check=False)
        if ran.returncode:
            sys.exit('%s%s ended with status %d\n%s' % (SAYS, ' '.join(line), ran.returncode, ran.stderr.decode(errors='replace')))
        with open(out, encoding='utf-8') as text:
            return int(re.search(r'^totals: (\d+)', text.read(), re.M).group(1))


def memory(run):
    """The most memory that a run has in use, in KB."""
    with tempfile.TemporaryDirectory() as folder, open(run.given, 'rb') as given:
        program = subprocess.Popen(run.line, stdin=given, stdout=subprocess.DEVNULL, cwd=folder, env={})
        _, status, used = os.wait4(program.pid, 0)
        program.returncode = os.waitstatus_to_exitcode(status)
    if program.returncode:
        sys.exit('%s%s ended with status %d' % (SAYS, ' '.join(run.line), program.returncode))
    return used.ru_maxrss


def kept(file):
    """The figures that are kept, by their names."""
    if not os.path.exists(file):
        return {}
    with open(file, encoding='utf-8') as text:
        pairs = [line.split() for line in text if line.strip() and not line.startswith('#')]
    return {name: int(figure) for name, figure in pairs}


def compared(run, found, figures):
    """What is to be said of a figure that was found, if anything, and whether it fails."""
    said = '%s: %d %s' % (run.name, found, UNITS[run.is_memory])
    if run.name not in figures:
        return said + ', and bench/counts.txt has no figure', True
    figure = figures[run.name]
    by = '%s, %.3f times the %d of bench/counts.txt' % (said, found / figure, figure)
    if found > ABOVE * figure:
        return by + ', which is too much', True
    return (by + ', which may be lowered' if found < BELOW * figure else ''), False


def is_dearer(found, file):
    """Says what differs from the figures of a file. Whether that fails."""
    figures = kept(file)
    answers = [compared(run, cost, figures) for run, cost in found if cost is not None]
    answers += [('%s: no workload has that name' % name, True) for name in figures if name not in {run.name for run, _ in found}]
    for said, fails in answers:
        if said:
            print(SAYS + said, file=sys.stdout if fails else sys.stderr, flush=True)
    return any(fails for _, fails in answers)


def write(found, file):
    """Writes what was found as the figures of a file."""
    with open(file, 'w', encoding='utf-8') as text:
        text.write(HEAD + ''.join('%s %d\n' % (run.name, cost) for run, cost in found))


def main():
    parser = argparse.ArgumentParser(description=__doc__, formatter_class=argparse.RawDescriptionHelpFormatter)
    parser.add_argument('--write', action='store_true')
    parser.add_argument('top', nargs='?', default=ROOT, metavar='TOP')
    given = parser.parse_args()
    runs = runs_of(os.path.abspath(given.top))
    absent = {run.line[0] for run in runs if not os.path.exists(run.line[0])}
    if absent:
        sys.exit('%snot there: %s: `rt ci` and `rt run` leave it' % (SAYS, ', '.join(sorted(absent))))
    valgrind = shutil.which('valgrind')
    if not valgrind:
        if given.write:
            sys.exit(SAYS + 'nothing is written, no valgrind')
        print(SAYS + 'skipped, no valgrind', file=sys.stderr, flush=True)
    found = [(run, memory(run) if run.is_memory else instructions(valgrind, run) if valgrind else None) for run in runs]
    file = os.path.join(given.top, 'bench', 'counts.txt')
    if given.write:
        write(found, file)
        return 0
    return is_dearer(found, file)


if __name__ == '__main__':
    sys.exit(main())
