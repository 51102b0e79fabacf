#!/usr/bin/env python3
"""crate_costs.py [--jobs N] [--keep FOLDER] [--proofs] [CRATE..]: what each crate costs, where a kit keeps nothing of what passed; else see prove_all.py.
crate_costs.py --log LOG: what each check of a gate's log loaded, and from which libraries.

It proves each crate of crates.txt, or those named and the ones that they use, lowest first and N at a time (4), in a folder of its own
with those that it stands on, and takes the processor time of each run of `rt` as a whole: `rt lib` of a library, `rt check` and `rt run`
by both compilers of a program, on its rows; then `rt must-fail` of a crate that has edits. The first line of what it prints has all, then
each crate has a line, the dearest first, with the seconds of its edits behind `+`. With --proofs no edit is tried and no program runs.

FOLDER keeps what was built and what it took, so that a run that was ended goes on there; what changed since is proved anew, and all
above it. Without --keep it is a folder that goes with the run. It is no gate, and takes more of crates high up than the gate does, in which
a check loads no proofs of the libraries below.

With --log nothing is proved. A check loads the statements of all libraries that its types stand on, so many modules by the log; a crate
with edits is checked once more for them, and each edit loads as much again. So a crate's modules count twice and once for each edit."""
import argparse
import collections
import glob
import hashlib
import json
import os
import re
import shutil
import subprocess
import sys
import tempfile

ROOT = os.path.dirname(os.path.dirname(os.path.abspath(__file__)))
PARTS = ('src', 'specs', 'proofs', 'must-fail')
GROUPS = ('text_', 'mucwathi', ('gate_', 'example_', 'bench_'))


def crates():
    """of each crate of the repository those of the repository that it uses"""
    with open(os.path.join(ROOT, 'crates.txt'), encoding='utf-8') as text:
        lines = [line.split(':') for line in text if ':' in line]
    names = {line[0].split()[0] for line in lines}
    return {line[0].split()[0]: [used for used in line[1].split() if used in names] for line in lines}


def below(uses, wanted):
    """the crates that are wanted, with all that they stand on"""
    found, left = set(), list(wanted)
    while left:
        crate = left.pop()
        if crate not in found:
            found.add(crate)
            left += uses[crate]
    return found


def folder_of(crate):
    return os.path.join(ROOT, 'crates', crate)


def edits_of(crate):
    return len(glob.glob(os.path.join(folder_of(crate), 'must-fail', '*.edit')))


def is_program(crate):
    return os.path.exists(os.path.join(folder_of(crate), 'src', 'main.rt'))


def text_of(*path):
    try:
        with open(os.path.join(*path), 'rb') as text:
            return text.read()
    except FileNotFoundError:
        return b''


def heights_of(uses):
    """how many crates stand above a crate in the longest chain"""
    above, heights = collections.defaultdict(list), {}
    for crate, used in uses.items():
        for each in used:
            above[each].append(crate)

    def height(crate):
        if crate not in heights:
            heights[crate] = 1 + max(map(height, above[crate]), default=0)
        return heights[crate]
    return {crate: height(crate) for crate in uses}


def sum_of(crate):
    """a sum of a crate's own files"""
    found = hashlib.sha256()
    for part in PARTS:
        for at, folders, files in os.walk(os.path.join(folder_of(crate), part)):
            folders.sort()
            for name in sorted(files):
                found.update(os.path.relpath(os.path.join(at, name), ROOT).encode() + text_of(at, name))
    return found.hexdigest()


def print_rows(rows):
    """prints the seconds of proofs and of edits, each behind its crate, the dearest first, in the form of docs/gate_costs.txt"""
    told = [(group if isinstance(group, tuple) else (group,)) for group in GROUPS]
    for name, those in [('all', rows), *((', '.join(f'{begun}*' for begun in group), [row for row in rows if row[2].startswith(group)]) for group in told)]:
        print(f'{name}: {sum(row[0] for row in those) / 60:.0f} minutes, edits {sum(row[1] for row in those) / 60:.0f}')
    print()
    for proofs, edits, crate in sorted(rows, key=lambda row: -row[0] - row[1]):
        print(f'{crate} {proofs:.0f}' + (f' + {edits:.0f}' if edits else ''))


class Costs:
    """What crates cost, and the folder that keeps what was built."""

    def __init__(self, keep, only_proofs):
        self.uses, self.keep, self.only_proofs = crates(), keep, only_proofs
        self.below = {crate: below(self.uses, self.uses[crate]) for crate in self.uses}
        sums = {crate: sum_of(crate) for crate in self.uses}
        self.keys = {crate: hashlib.sha256(repr((self.uses[crate], sums[crate], sorted(sums[each] for each in self.below[crate]))).encode()).hexdigest()
                     for crate in self.uses}
        os.makedirs(os.path.join(keep, 'crates'), exist_ok=True)
        self.spent = json.loads(text_of(keep, 'spent.json') or b'{}')

    def steps(self, crate):
        """the words of the runs that a crate takes, in turn, under what they are counted as"""
        if not is_program(crate):
            yield 'proof', ['rt', 'lib', '--jobs', '1']
        else:
            yield 'proof', ['rt', 'check', '--jobs', '1']
            words = text_of(folder_of(crate), 'args').decode().split('\n')[:-1]
            for backend in () if self.only_proofs else ('llvm', 'rattle'):
                yield backend, ['rt', 'run', '--jobs', '1', '--backend', backend, '--', *words]
        if edits_of(crate) and not self.only_proofs:
            yield 'edits', ['rt', 'must-fail', crate]

    def left_of(self, crate):
        """the steps of a crate that were not done on its files and those below as they stand"""
        kept = self.spent.get(crate, {})
        done = kept.get('seconds', {}) if kept.get('key') == self.keys[crate] else {}
        return [step for step in self.steps(crate) if step[0] not in done]

    def is_proved(self, crate):
        return self.left_of(crate) == [] or self.left_of(crate)[0][0] != 'proof'

    def place(self, crate):
        """a new folder with a crate and, built, those below it alone, since a run looks at all that stands in the repository"""
        place = tempfile.mkdtemp(dir=self.keep)
        subprocess.run(['git', 'init', '-q', place], check=True)
        shutil.copy(os.path.join(ROOT, 'HANDLES'), place)
        with open(os.path.join(ROOT, 'crates.txt'), encoding='utf-8') as text, open(os.path.join(place, 'crates.txt'), 'w', encoding='utf-8') as listed:
            listed.writelines(line for line in text if line.split(':')[0] in {crate, *self.below[crate]})
        for each in self.below[crate]:
            shutil.copytree(os.path.join(self.keep, 'crates', each), os.path.join(place, 'crates', each), copy_function=os.link,
                            ignore=shutil.ignore_patterns('incremental'))
        own = os.path.join(place, 'crates', crate)
        shutil.copytree(folder_of(crate), own, ignore=shutil.ignore_patterns('out'))
        if os.path.isdir(os.path.join(self.keep, 'crates', crate, 'out')):
            shutil.copytree(os.path.join(self.keep, 'crates', crate, 'out'), os.path.join(own, 'out'))
        return place

    def start(self, crate, step):
        """begins a step of a crate"""
        place = self.place(crate)
        cwd = place if step[0] == 'edits' else os.path.join(place, 'crates', crate)
        given = open(os.path.join(cwd, 'stdin'), 'rb') if os.path.exists(os.path.join(cwd, 'stdin')) else subprocess.DEVNULL
        with open(os.path.join(self.keep, f'{crate}.{step[0]}.log'), 'wb') as log:
            return subprocess.Popen(step[1], cwd=cwd, stdin=given, stdout=log, stderr=subprocess.STDOUT), place

    def end(self, crate, step, place, status, usage):
        """notes what a step took, and keeps what it built; whether it passed"""
        wanted = int(text_of(folder_of(crate), 'status') or b'0') if step[0] in ('llvm', 'rattle') else 0
        passed = os.waitstatus_to_exitcode(status) == wanted
        if step[0] != 'edits':
            shutil.rmtree(os.path.join(self.keep, 'crates', crate), ignore_errors=True)
            shutil.move(os.path.join(place, 'crates', crate), os.path.join(self.keep, 'crates', crate))
        shutil.rmtree(place)
        if passed:
            kept = self.spent.get(crate, {})
            if kept.get('key') != self.keys[crate]:
                kept = self.spent[crate] = {'key': self.keys[crate], 'seconds': {}}
            kept['seconds'][step[0]] = usage.ru_utime + usage.ru_stime
            with open(os.path.join(self.keep, 'spent.json'), 'w', encoding='utf-8') as text:
                json.dump(self.spent, text)
        return passed

    def run(self, wanted, jobs):
        """does the steps of crates that are left, lowest first; the crates of which one failed or could not begin"""
        heights, running, failed = heights_of(self.uses), {}, set()
        left = sorted((crate for crate in wanted if self.left_of(crate)), key=lambda crate: (-heights[crate], crate))
        while left or running:
            busy = {crate for crate, _, _ in running.values()}
            ready = [crate for crate in left if crate not in busy and all(map(self.is_proved, self.below[crate]))]
            # proofs first, since others wait for them
            ready.sort(key=lambda crate: self.is_proved(crate))
            for crate in ready[:jobs - len(running)]:
                step = self.left_of(crate)[0]
                run, place = self.start(crate, step)
                running[run.pid] = crate, step, (run, place)
            if not running:
                break
            pid, status, usage = os.wait4(-1, 0)
            crate, step, (run, place) = running.pop(pid)
            # kept, since a child whose object is gone is waited for by whoever starts the next one
            run.returncode = status
            passed = self.end(crate, step, place, status, usage)
            print(f'{crate} {step[0]}: {usage.ru_utime + usage.ru_stime:.0f} s{"" if passed else ", FAILED"}', file=sys.stderr, flush=True)
            if not passed:
                failed.add(crate)
            if not passed or not self.left_of(crate):
                left.remove(crate)
        return failed | set(left)

    def print(self, wanted):
        """prints what crates took, the dearest first"""
        rows = []
        for crate in wanted:
            seconds = self.spent.get(crate, {}).get('seconds', {})
            rows.append((sum(spent for what, spent in seconds.items() if what != 'edits'), seconds.get('edits', 0), crate))
        print_rows(rows)


def loaded(log):
    """yields each crate that a gate's log says is proved, with its functions and with the modules that its check loaded from each library"""
    modules, functions = {}, 0
    with open(log, encoding='utf-8') as lines:
        for line in lines:
            if found := re.match(r'statements (\w+): modules loaded=(\d+)', line):
                modules[found[1]] = int(found[2])
            elif found := re.match(r'logic=proved functions=(\d+)', line):
                functions = int(found[1])
            elif found := re.match(r'rt: (\w+) proved$', line):
                yield found[1], functions, modules
                modules, functions = {}, 0


def print_loads(log):
    """prints what each check loaded, those first that load most with their edits, and which libraries that is"""
    rows, libraries = [], collections.Counter()
    for crate, functions, modules in loaded(log):
        edits = edits_of(crate)
        times = 2 + edits if edits else 1
        rows.append((times * sum(modules.values()), crate, functions, sum(modules.values()), edits))
        for library, count in modules.items():
            libraries[library] += times * count
    print('| crate | functions | modules of a check | edits | modules in all |\n|---|---|---|---|---|')
    for in_all, crate, functions, modules, edits in sorted(rows, reverse=True):
        print(f'| `{crate}` | {functions} | {modules:,} | {edits} | {in_all:,} |')
    total = sum(row[0] for row in rows)
    print(f'\n{total:,} modules in {len(rows)} crates: ' + ', '.join(f'{name} {100 * count / total:.0f} %' for name, count in libraries.most_common(12)))


def main():
    parser = argparse.ArgumentParser(description=__doc__.split('\n')[0])
    parser.add_argument('--jobs', type=int, default=4)
    parser.add_argument('--keep')
    parser.add_argument('--proofs', action='store_true')
    parser.add_argument('--log')
    parser.add_argument('crates', nargs='*')
    given = parser.parse_args()
    if given.log:
        print_loads(given.log)
        return
    with tempfile.TemporaryDirectory() as gone:
        costs = Costs(given.keep or gone, given.proofs)
        wanted = below(costs.uses, given.crates or costs.uses)
        failed = costs.run(wanted, given.jobs)
        costs.print(wanted)
    if failed:
        print('not passed:', ', '.join(sorted(failed)), file=sys.stderr)
    sys.exit(bool(failed))


if __name__ == '__main__':
    main()
