"""early_errors.py CHECKOUT [--programs N] [--seed S] [--biggest B] [--answers FILE]: programs, about half of them spoilt, and the first thing that
their names lack.

It writes for each a line: `module` or `script`, a word, and an envelope. `none` is said where nothing is lacking; else one of WORDS, in their
order. With the answers of a program to the envelopes, a word a line, it compares them instead; the line that it prints last says how many there
were of each word.
"""
import argparse
import json
import random as chance

import js
import lawbook
import random_trees
import scoping
import script_laws
import trees
from alpha_pairs import json_of
from js_nodes import node_of
from lawbook import D

# in the order in which they are told: of scripts, and then of all
WORDS = ('function', 'label', 'global', 'repeated', 'export', 'twice', 'variable', 'parameter', 'eval')
SPECIAL = tuple(map(js.codes, ('eval', 'arguments', 'undefined', 'NaN', 'Infinity')))


def takes_global(program):
    return any(n in script_laws.GLOBAL_VALUES and scoping.taker(program, r, p) == () for p, r, n in scoping.Binds(program))


def lacks(t):
    """the first thing that the names of a clean program lack; None where there is none"""
    program = scoping.Program(D.all, t)
    found = []
    if t[1] == 'Script':
        found = [('function', bool(scoping.Stands(program, 'SloppyFunction'))), ('label', not script_laws.labels_no_function(t)),
                 ('global', takes_global(program)), ('repeated', script_laws.repeats(program))]
    found += [('export', not scoping.ExportsDeclared(program)), ('twice', not scoping.NoneTwice(program)),
              ('variable', not scoping.NoVariablePasses(program, program.defined('is_lexical'))),
              ('parameter', not scoping.NoParameterTwice(program)), ('eval', not scoping.NoEvalOrArguments(D.all, t))]
    return next((word for word, failing in found if failing), None)


def spoilt(t, choices):
    """one identifier, or two, with the text of another one or of a special name"""
    paths = [p for p, node in trees.paths(t) if node[0] == 'Identifier']
    for _ in range(choices.choice((1, 1, 2))):
        if not paths:
            break
        p = choices.choice(paths)
        i = trees.at(t, p)
        text = choices.choice(SPECIAL) if choices.random() < 0.15 else trees.at(t, choices.choice(paths))[2].sym
        t = trees.put(t, p, ('Identifier', i[1], type(i[2])(span=i[2].span, ctxt=i[2].ctxt, sym=text)))
    return t


def programs(options):
    random, choices, made = random_trees.Random(options.seed), chance.Random(options.seed), 0
    while made < options.programs:
        size = 4 + int((options.biggest - 4) * (made % 300) / 300)
        kind = choices.random()
        t = script_laws.script(random, size) if kind < 0.35 else random.exporting(size) if kind < 0.45 else random.names(size, True)
        if t[1] == 'Script' and choices.random() < 0.5:
            t = script_laws.settled(random, t)
        if choices.random() < 0.5:
            t = spoilt(t, choices)
        if not scoping.IsClean(D.all, t) or not lawbook.fits_place(t):
            continue
        made += 1
        yield t


def envelope(t):
    return json.dumps({'marks': [[1, 0], [2, 0]], 'unresolved': 1, 'top': 2, 'tree': json_of(node_of(t))}, separators=(',', ':'))


def main():
    parser = argparse.ArgumentParser(description=__doc__, formatter_class=argparse.RawDescriptionHelpFormatter)
    parser.add_argument('checkout')
    parser.add_argument('--programs', type=int, default=1000)
    parser.add_argument('--seed', type=int, default=1)
    parser.add_argument('--biggest', type=int, default=40)
    parser.add_argument('--answers')
    options = parser.parse_args()
    lawbook.load(options.checkout)
    answers = iter(open(options.answers).read().split()) if options.answers else None
    counts, differ = {}, 0
    for t in programs(options):
        wanted = lacks(t) or 'none'
        counts[t[1], wanted] = counts.get((t[1], wanted), 0) + 1
        if answers is None:
            print(t[1].lower(), wanted, envelope(t), flush=True)
            continue
        found = next(answers)
        if found != wanted:
            differ += 1
            print('differs:', found, 'wanted:', wanted, js.text(t))
    if answers is not None:
        print(differ, 'differ;', ', '.join('%s %s: %d' % (goal, word, n) for (goal, word), n in sorted(counts.items())))


if __name__ == '__main__':
    main()
