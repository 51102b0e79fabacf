#!/usr/bin/env python3
"""prove_all.py [--jobs N] [CRATE..]: proves what the gate would, crate by crate, so that a gate behind it finds all kept; and what each crate takes.

For a kit whose `rt ci NAME` keeps what passed (rattle-kit-13f). Each crate of crates.txt, or those named and the ones that they use, is
proved by `rt ci NAME` in a folder of its own with those below it, N at a time (4), those first behind which most is left by the seconds of
docs/gate_costs.txt. While as many are ready each has one job (RT_JOBS), which takes a third less of a processor than four; a crate's edits
are tried once it is proved. A crate is copied as it begins: a change of one that has not begun costs nothing more. What was passed before
takes a look, so a run that was ended goes on where it stood.

A line on standard error says what each took as it ends, the table at the end has the form of docs/gate_costs.txt: seconds of a processor
for the proof, programs' runs included, and behind a plus for edits. What was kept before is told by the second or two of a look."""
import argparse
import os
import re
import shutil
import subprocess
import sys
import tempfile

from crate_costs import ROOT, below, crates, edits_of, folder_of, print_rows


def told_seconds():
    """the seconds that docs/gate_costs.txt has of each crate's proof"""
    with open(os.path.join(ROOT, 'docs', 'gate_costs.txt'), encoding='utf-8') as text:
        return {found[1]: int(found[2]) for found in re.finditer(r'^(\w+) (\d+)', text.read(), re.M)}


def behind(uses):
    """the seconds of the dearest chain that begins with a crate"""
    seconds, found = told_seconds(), {}
    above = {crate: [other for other in uses if crate in uses[other]] for crate in uses}

    def chain(crate):
        if crate not in found:
            found[crate] = seconds.get(crate, 60) + max(map(chain, above[crate]), default=0)
        return found[crate]
    return {crate: chain(crate) for crate in uses}


def folder_with(uses, crate, with_edits):
    """a new folder with a crate and those below it alone, since a run looks at all that stands in the repository"""
    place = tempfile.mkdtemp()
    found = below(uses, [crate])
    for each in found:
        left_out = ('out',) if with_edits and each == crate else ('out', 'must-fail')
        shutil.copytree(folder_of(each), os.path.join(place, 'crates', each), ignore=shutil.ignore_patterns(*left_out))
    shutil.copy(os.path.join(ROOT, 'HANDLES'), place)
    with open(os.path.join(ROOT, 'crates.txt'), encoding='utf-8') as text, open(os.path.join(place, 'crates.txt'), 'w', encoding='utf-8') as listed:
        listed.writelines(line for line in text if line.split(':')[0] in found)
    return place


class Run:
    """What was proved, what is left, and what each took."""

    def __init__(self, wanted):
        self.uses = crates()
        self.wanted = below(self.uses, wanted or self.uses)
        self.behind, self.proved, self.seconds = behind(self.uses), set(), {}
        self.left = [(crate, False) for crate in self.wanted]
        self.running = {}

    def ready(self):
        """proofs whose libraries are there, the longest chain first, and then edits"""
        found = [step for step in self.left if step[1] or all(used in self.proved for used in self.uses[step[0]])]
        return sorted(found, key=lambda step: (step[1], -self.behind[step[0]], step[0]))

    def start(self, step, jobs):
        place = folder_with(self.uses, *step)
        log = tempfile.TemporaryFile('w+')
        run = subprocess.Popen(['rt', 'ci', step[0]], cwd=place, env={**os.environ, 'RT_JOBS': str(jobs)}, stdout=log, stderr=subprocess.STDOUT)
        self.left.remove(step)
        self.running[run.pid] = run, log, step, place

    def fill(self, lanes):
        """begins as much as there are lanes; where less is ready, each gets more jobs"""
        ready = self.ready()
        for at, step in enumerate(ready[:lanes - len(self.running)]):
            self.start(step, max(1, (lanes - len(self.running)) // (len(ready) - at)))

    def end(self):
        """waits for a run, and notes it; whether it passed"""
        pid, status, usage = os.wait4(-1, 0)
        run, log, step, place = self.running.pop(pid)
        # kept, since a child whose object is gone is waited for by whoever starts the next one
        run.returncode = status
        shutil.rmtree(place)
        self.seconds[step] = usage.ru_utime + usage.ru_stime
        print(f'{step[0]}{" edits" if step[1] else ""}: {self.seconds[step]:.0f} s{"" if status == 0 else ", FAILED"}', file=sys.stderr, flush=True)
        if status:
            log.seek(0)
            print(log.read(), file=sys.stderr)
        log.close()
        if status == 0 and not step[1]:
            self.proved.add(step[0])
            self.left += [(step[0], True)] * bool(edits_of(step[0]))
        return status == 0


def main():
    parser = argparse.ArgumentParser(description=__doc__.split('\n')[0])
    parser.add_argument('--jobs', type=int, default=4)
    parser.add_argument('crates', nargs='*')
    given = parser.parse_args()
    run, passed = Run(given.crates), True
    run.fill(given.jobs)
    while run.running:
        passed &= run.end()
        run.fill(given.jobs)
    print_rows([(run.seconds.get((crate, False), 0), run.seconds.get((crate, True), 0), crate) for crate in run.wanted])
    sys.exit(not passed or bool(run.left))


if __name__ == '__main__':
    main()
