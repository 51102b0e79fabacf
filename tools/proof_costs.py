#!/usr/bin/env python3
"""proof_costs.py [--keep FOLDER] CRATE: what takes long in the proof of a crate, the dearest first.
proof_costs.py --lemmas [--keep FOLDER] CRATE: the same of the files of lemmas in `proofs/` of a crate of laws.

The crates that it stands on are proved first, lowest first (FOLDER keeps them, as `crate_costs.py --keep` does), then the crate itself from
nothing, in a folder of its own, by one job of `rt check`. That prints a line as each function's proof ends: told are the seconds by the
clock since the line before; before the first a check also loads libraries. A cycle's functions end together, so what all of them take may
stand before the first of them.

With --lemmas the functions are left out and the files of lemmas come in one after another, each behind those that it cites, with a check
after each: told are the seconds of a processor that it takes more than a check with nothing new. That is for crates whose lemmas speak of
no item of their own code."""
import argparse
import os
import re
import resource
import shutil
import subprocess
import sys
import tempfile
import time

from crate_costs import Costs, below, text_of

ROOT_FILE = '//! A crate without its functions.\n#![tactic(auto)]\n'


def spent_by(command, folder):
    """the seconds of a processor that a run takes, and what it prints; ends the tool where it fails"""
    before = resource.getrusage(resource.RUSAGE_CHILDREN)
    ran = subprocess.run(command, cwd=folder, capture_output=True, text=True, check=False)
    after = resource.getrusage(resource.RUSAGE_CHILDREN)
    if ran.returncode:
        sys.exit(f'{folder}: {" ".join(command)} failed\n{(ran.stdout + ran.stderr)[-2000:]}')
    return after.ru_utime + after.ru_stime - before.ru_utime - before.ru_stime


def functions_of(crate_folder):
    """yields each function as its proof ends, behind the seconds by the clock since the one before; ends the tool where a proof fails"""
    run = subprocess.Popen(['rt', 'check', '--jobs', '1'], cwd=crate_folder, stdout=subprocess.PIPE, stderr=subprocess.STDOUT, text=True)
    last, printed = time.monotonic(), []
    for line in run.stdout:
        printed.append(line)
        if found := re.match(r'checked (\S+), \d+ of \d+', line):
            now = time.monotonic()
            yield now - last, found[1]
            last = now
    if run.wait():
        sys.exit(f'{crate_folder}: rt check failed\n{"".join(printed)[-2000:]}')


def in_order(crate, texts):
    """the names of files of lemmas, each behind those that it cites"""
    cited = {name: [each for each in re.findall(rf'Rattle\.{crate}\.proofs\.(\w+)', text) if each in texts] for name, text in texts.items()}
    order = {}

    def visit(name):
        if name not in order:
            for each in cited[name]:
                visit(each)
            order[name] = None
    for name in texts:
        visit(name)
    return list(order)


def lemmas_of(crate, crate_folder):
    """yields each file of lemmas, behind the seconds of a processor that a check takes for it"""
    proofs, source = os.path.join(crate_folder, 'proofs'), os.path.join(crate_folder, 'src')
    listed = [line for line in text_of(proofs, 'Lib.antt').decode().splitlines() if re.match(r'(pub )?mod ', line)]
    lines = {line.split()[-1]: line for line in listed}
    texts = {name: text_of(proofs, f'{name}.antt').decode() for name in lines}
    for folder in (proofs, source):
        shutil.rmtree(folder)
        os.makedirs(folder)
    with open(os.path.join(source, 'lib.rt'), 'w', encoding='utf-8') as root:
        root.write(ROOT_FILE)
    held = []
    command = ['rt', 'check', '--jobs', '1']
    open(os.path.join(proofs, 'Lib.antt'), 'w', encoding='utf-8').close()
    spent_by(command, crate_folder)
    nothing_new = spent_by(command, crate_folder)
    for name in in_order(crate, texts):
        held.append(lines[name])
        with open(os.path.join(proofs, f'{name}.antt'), 'w', encoding='utf-8') as lemmas:
            lemmas.write(texts[name])
        with open(os.path.join(proofs, 'Lib.antt'), 'w', encoding='utf-8') as library:
            library.write('\n'.join(held) + '\n')
        yield spent_by(command, crate_folder) - nothing_new, name


def main():
    parser = argparse.ArgumentParser(description=__doc__.split('\n', maxsplit=1)[0])
    parser.add_argument('--lemmas', action='store_true')
    parser.add_argument('--keep')
    parser.add_argument('--jobs', type=int, default=4)
    parser.add_argument('crate')
    given = parser.parse_args()
    with tempfile.TemporaryDirectory() as gone:
        costs = Costs(given.keep or gone, True)
        if given.crate not in costs.uses:
            sys.exit(f'{given.crate}: no crate of crates.txt')
        if failed := costs.run(below(costs.uses, costs.uses[given.crate]), given.jobs):
            sys.exit('not passed: ' + ', '.join(sorted(failed)))
        place = costs.place(given.crate)
        folder = os.path.join(place, 'crates', given.crate)
        shutil.rmtree(os.path.join(folder, 'out'), ignore_errors=True)
        found = []
        for seconds, name in lemmas_of(given.crate, folder) if given.lemmas else functions_of(folder):
            found.append((seconds, name))
            print(f'{seconds:.1f} {name}', file=sys.stderr, flush=True)
        shutil.rmtree(place)
    print(f'{given.crate}: {sum(seconds for seconds, _ in found):.0f} seconds')
    for seconds, name in sorted(found, reverse=True):
        print(f'{seconds:.1f} {name}')


if __name__ == '__main__':
    main()
