#!/usr/bin/env python3
"""try_edits.py [--anew] [--since COMMIT] [CRATE..]: tries the edits that the gate does not try, crates/*/must-fail/*.md.
try_edits.py --applies | --table [--since COMMIT] [CRATE..]: looks at these and at those that the gate tries, *.edit.
try_edits.py --print: writes what they guard into docs/VERIFICATION.md.

Each is the text of an edit that the prover must refuse. In a copy of the repository, with the libraries that are
already proved, `rt must-fail` tries those of the named crates, or of the crates whose folder differs from COMMIT, or of
all. For each edit a line says whether it was refused; status 1 where one was not, or could not be tried. The first edit
of a crate costs a check of it, each other some 15 to 40 s of a processor.

That the libraries of this checkout's out/rlib are taken along rests on rt: it decides by contents what of out/ it takes
over, so that a stale library costs time and no verdict. With --anew none is, and rt proves what lies below a crate first.

With --applies nothing is proved. It looks whether each text that an edit replaces stands just once in its file, so that
none goes stale unseen, and at the line `clause: FUNCTION [NAME]` that each edit begins with, and has no second time: what
it guards. The crate's src has that function, below its type or trait where one stands before `::`, or a constant, and some
function of that name, in any crate, a clause `ensures NAME`. Where no crate is named, it also looks whether the list that --print
writes is that of these lines.

With --table it prints which clause each edit guards, those that the gate tries in bold."""
import argparse
import functools
import os
import re
import shutil
import subprocess
import sys
import tempfile
import textwrap

ROOT = os.path.dirname(os.path.dirname(os.path.abspath(__file__)))
ANSWER = re.compile(r'^rt: must-fail (\S+)\.edit: (.*)$', re.M)
# Edits that are tried by hand, and those of the gate.
HAND, GATE = '.md', '.edit'
CLAUSE = re.compile(r'clause: ([\w:]+)(?: (\w+))?')
# The page with the list of what edits guard, and what stands before it and behind.
PAGE = 'docs/VERIFICATION.md'
LIST = re.compile(r'(?<=<!-- printed by try_edits.py -->\n\n).*?(?=\n<!-- to here -->)', re.S)
WIDTH = 160
# An impl or a trait with all that is in it, and its heading.
BLOCK = re.compile(r'^(?:pub )?(?:unsafe )?((?:impl|trait)\b[^{]*)\{.*?^\}', re.M | re.S)


def files_of(crate, *endings):
    """The names of a crate's edits, with their endings."""
    folder = os.path.join(ROOT, 'crates', crate, 'must-fail')
    return sorted(name for name in os.listdir(folder) if name.endswith(endings)) if os.path.isdir(folder) else []


def edits_of(crate):
    """The names of a crate's edits that are tried by hand."""
    return [name[:-len(HAND)] for name in files_of(crate, HAND)]


def read(*path):
    """The text of a file of the repository."""
    with open(os.path.join(ROOT, *path), encoding='utf-8') as text:
        return text.read()


@functools.cache
def sources_of(crate):
    """The texts of a crate's sources."""
    found = []
    for at, _, names in os.walk(os.path.join(ROOT, 'crates', crate, 'src')):
        found += [read(at, name) for name in sorted(names) if name.endswith('.rt')]
    return found


@functools.cache
def all_sources():
    """The texts of all sources, one behind the other."""
    return '\n'.join(text for crate in sorted(os.listdir(os.path.join(ROOT, 'crates'))) for text in sources_of(crate))


def guarded(crate, file):
    """The function that an edit guards, and the name of its clause or nothing; nothing at all where no such line begins it."""
    line = CLAUSE.fullmatch(read('crates', crate, 'must-fail', file).split('\n')[0])
    return line.groups() if line else None


@functools.cache
def has_function(crate, function):
    """Whether a crate has a function, below its type or trait where it has one, or such a constant."""
    owner, _, name = function.rpartition('::')
    item = re.compile(r'\b(fn|const) %s\b' % name)
    if not owner:
        return any(item.search(text) for text in sources_of(crate))
    whose = re.compile(r'\b%s\b' % owner)
    blocks = [block for text in sources_of(crate) for block in BLOCK.finditer(text)]
    return any(whose.search(block.group(1)) and item.search(block.group()) for block in blocks)


@functools.cache
def has_clause(name, clause):
    """Whether some function of a name has a clause."""
    return re.search(r'\bfn %s\b(?:(?!\bfn \w).)*?\bensures\*? %s\b' % (name, clause), all_sources(), re.S) is not None


def strays(crate, file):
    """What is wrong with the line that says what an edit guards."""
    what = guarded(crate, file)
    if not what or read('crates', crate, 'must-fail', file).count('\nclause:'):
        return ['the first line, and no other, is to be clause: FUNCTION [NAME]']
    function, clause = what
    if not has_function(crate, function):
        return [f'no such function in src: {function}']
    if clause and not has_clause(function.split('::')[-1], clause):
        return [f'no function of that name has such a clause: {function} {clause}']
    return []


def misfits(crate, file):
    """The texts that an edit replaces and that do not stand just once in their file, and the files that are not there."""
    found, source = [], ''
    for word, _, text in (line.partition(': ') for line in read('crates', crate, 'must-fail', file).split('\n')):
        if word == 'file' and not os.path.isfile(os.path.join(ROOT, 'crates', crate, text)):
            found.append(f'no such file: {text}')
        elif word == 'file':
            source = read('crates', crate, text)
        elif word == 'old' and source.count(text) != 1:
            found.append(f'stands {source.count(text)} times: {text}')
    return found


def listed():
    """What the edits of each crate guard that the gate tries, as the page has it, with each function and clause once, and how many go by hand."""
    lines, alone = [], []
    for crate in (name for name in sorted(os.listdir(os.path.join(ROOT, 'crates'))) if files_of(name, GATE, HAND)):
        whats = sorted({':'.join(filter(None, guarded(crate, file) or ())) for file in files_of(crate, GATE)})
        count = len(files_of(crate, HAND))
        if whats:
            terms = [f'`{what}`' for what in whats] + ([f'{count} by hand'] if count else [])
            lines += wrapped(f'- `{crate}`: ' + ', '.join(terms))
        else:
            alone.append(f'`{crate}` {count}')
    lines += wrapped('- by hand alone: ' + ', '.join(alone))
    return ''.join(line + '\n' for line in lines)


def wrapped(line):
    return textwrap.wrap(line, WIDTH, subsequent_indent='  ', break_long_words=False, break_on_hyphens=False)


def print_list():
    """Writes the list of what edits guard into its page."""
    with open(os.path.join(ROOT, PAGE), 'r+', encoding='utf-8') as page:
        text = LIST.sub(lambda _: listed(), page.read())
        page.seek(0)
        page.write(text)
        page.truncate()


def are_sound(crates, is_whole):
    """Says what is wrong with the edits of crates, or how many there are. Whether all is well."""
    edits = [(crate, file) for crate in crates for file in files_of(crate, HAND, GATE)]
    faults = [f'{crate}/{file}: {fault}' for crate, file in edits for fault in strays(crate, file) + misfits(crate, file)]
    if is_whole and LIST.findall(read(PAGE)) != [listed()]:
        faults.append(f'{PAGE}: what edits guard is another; tools/try_edits.py --print writes it')
    by_hand = sum(file.endswith(HAND) for _, file in edits)
    all_well = f'edits: each of {len(edits) - by_hand} of the gate and {by_hand} by hand applies, and says what it guards'
    print('\n'.join(faults) or all_well)
    return not faults


def table(crates):
    """Prints which clause each edit of crates guards."""
    print('| crate | edit | clause |\n|---|---|---|')
    for crate in crates:
        for file in files_of(crate, GATE) + files_of(crate, HAND):
            function, clause = guarded(crate, file) or ('', None)
            name, ending = os.path.splitext(file)
            bold = '**' if ending == GATE else ''
            print(f'| `{crate}` | {bold}`{name}`{bold} | `{function}`' + (f' (`{clause}`) |' if clause else ' |'))


def changed(commit):
    """The crates whose folder differs from that of a commit."""
    command = ['git', '-C', ROOT, 'diff', '--name-only', commit, '--', 'crates']
    return {path.split('/')[1] for path in subprocess.check_output(command, text=True).split()}


def left_out(is_anew, folder, names):
    """Of what lies in a folder what no copy needs: of `out/` it takes the proved libraries alone, or nothing."""
    unread = set()
    if folder == ROOT:
        unread = {'.git'}
    elif os.path.basename(folder) == 'out':
        unread = set(names) if is_anew else set(names) - {'rlib'}
    return unread | {name for name in names if name.endswith(GATE)}


def copied(target, crates, is_anew):
    """A copy of the repository, in which the edits by hand of the crates are the only edits."""
    shutil.copytree(ROOT, target, ignore=functools.partial(left_out, is_anew))
    for crate in crates:
        for name in edits_of(crate):
            path = os.path.join(target, 'crates', crate, 'must-fail', name)
            os.rename(path + HAND, path + GATE)


def are_refused(root, crate):
    """Tries the edits of a crate, prints what came of each, and answers whether all were refused."""
    names = edits_of(crate)
    ran = subprocess.run(['rt', 'must-fail', crate], cwd=root, stdout=subprocess.PIPE, stderr=subprocess.STDOUT, text=True, check=False)
    answers = dict(ANSWER.findall(ran.stdout))
    for name in names:
        print(f'{crate}/{name}: {answers.get(f"{crate}/{name}", "not tried")}', flush=True)
    are = ran.returncode == 0 and len(answers) == len(names)
    if not are:
        print(ran.stdout, end='', flush=True)
    return are


def main():
    parser = argparse.ArgumentParser(description=__doc__, formatter_class=argparse.RawDescriptionHelpFormatter)
    what = parser.add_mutually_exclusive_group()
    what.add_argument('--anew', action='store_true')
    what.add_argument('--applies', action='store_true')
    what.add_argument('--table', action='store_true')
    what.add_argument('--print', action='store_true', dest='is_printed')
    parser.add_argument('--since', metavar='COMMIT')
    parser.add_argument('crates', nargs='*', metavar='CRATE')
    given = parser.parse_args()
    if given.is_printed:
        return print_list()
    endings = (HAND, GATE) if given.applies or given.table else (HAND,)
    known = {name for name in os.listdir(os.path.join(ROOT, 'crates')) if files_of(name, *endings)}
    if set(given.crates) - known:
        parser.error('no such edits: ' + ' '.join(sorted(set(given.crates) - known)))
    wanted = set(given.crates) or known
    wanted = sorted(wanted & changed(given.since) if given.since else wanted)
    if given.table:
        return table(wanted)
    if given.applies:
        return 0 if are_sound(wanted, not given.crates and not given.since) else 1
    with tempfile.TemporaryDirectory(prefix='try-edits-') as folder:
        root = os.path.join(folder, 'copy')
        if wanted:
            copied(root, wanted, given.anew)
        return 0 if all([are_refused(root, crate) for crate in wanted]) else 1


if __name__ == '__main__':
    sys.exit(main())
