#!/usr/bin/env python3
"""contracts.py [WORD..]: the public calls of the crates, each with its file and the clauses of its contract, by name.

A clause without a name is told as `ensures`, what a caller has to see to as `requires` with its name. With words, those calls alone whose crate, type or name has
one of them: `contracts.py swc_base_alpha`, `contracts.py chain_module`. A method of a trait is told of the trait, and of an `impl` where that has a contract of its own.
`rt lemma NAME`, in the folder of a crate that uses it, shows a definition that a clause cites."""
import glob
import os
import re
import sys

ROOT = os.path.dirname(os.path.dirname(os.path.abspath(__file__)))
OWNER = re.compile(r'^(?:pub )?(?:trait (\w+)|impl(?:<[^{]*?>)? (?:[\w:]+(?:<.*?>)? for )?(\w+))')
CALL = re.compile(r'^(    )?(pub )?(?:const )?fn (\w+)')
CLAUSE = re.compile(r'^\s+(requires|ensures)(?: (\w+))? \{')


def clauses(lines, at):
    """The clauses of the contract of the call whose first line is at that number."""
    found = []
    for line in lines[at:]:
        clause = CLAUSE.match(line)
        if clause:
            word, name = clause.groups()
            found.append(name or word if word == 'ensures' else f'requires {name or ""}'.strip())
        if line.rstrip() in ('{', '    {') or line.rstrip().endswith((' {', ';')) and not clause or line.rstrip().endswith(';'):
            break
    return found


def exported(crate):
    """What a crate hands out: the words of its `pub use` lines, and the modules that are public."""
    try:
        with open(os.path.join(ROOT, 'crates', crate, 'src/lib.rt'), encoding='utf-8') as text:
            root = text.read()
    except FileNotFoundError:
        return set(), set()
    return {word for line in re.findall(r'pub use ([^;]+);', root) for word in re.findall(r'\w+', line)}, {'lib', *re.findall(r'pub mod (\w+)', root)}


def calls_in(path):
    """The public calls of a file, and methods of public traits: owner, name, clauses."""
    with open(path, encoding='utf-8') as text:
        lines = text.read().split('\n')
    owner = public = None
    for at, line in enumerate(lines):
        opened = OWNER.match(line)
        if opened:
            owner, public = opened[1] or opened[2], line.startswith('pub trait')
        elif line == '}':
            owner = public = None
        call = CALL.match(line)
        if call and (call[2] or public) and bool(call[1]) == bool(owner):
            yield owner, call[3], clauses(lines, at)


def main():
    wanted = sys.argv[1:]
    for path in sorted(glob.glob(os.path.join(ROOT, 'crates/*/src/**/*.rt'), recursive=True)):
        where = os.path.relpath(path, os.path.join(ROOT, 'crates'))
        crate = where.split(os.sep)[0]
        words, modules = exported(crate)
        for owner, name, found in calls_in(path):
            is_out = (owner or name) in words or os.path.basename(path)[:-3] in modules
            if is_out and (not wanted or {crate, owner, name} & set(wanted)):
                print(f'{where}: {f"{owner}::" if owner else ""}{name}: {", ".join(found) or "no clause"}')


if __name__ == '__main__':
    main()
