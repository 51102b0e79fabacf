"""laws.py CHECKOUT [LAW..] [--trees N] [--seed S] [--seconds T] [--biggest B]: laws of the definitions, tried on random trees.

    python3 tools/compute/laws.py                        the laws, with what each says
    python3 tools/compute/laws.py .                      each law on 300 trees that meet its premise
    python3 tools/compute/laws.py . names_apart --trees 10000 --seed 7
    python3 tools/compute/laws.py . names_apart --text 'let a#1;'   one law on a tree that is written down
    python3 tools/compute/laws.py . fits_with_due_pairs --expressions   a law on nests of expressions, each in one place
    python3 tools/compute/laws.py . --show 'let a#1;' [--script]    what the definitions say of a module or a script
    python3 tools/compute/laws.py . --types              on trees with declarations of types, enums and namespaces alone
    python3 tools/compute/laws.py . --kinds              which kinds of nodes the random trees have

A law is tried until so many trees met its premise, or the seconds are over. Laws of one source of trees are tried on
the same trees, which are small at first and grow.
"""
import argparse
import sys
import time

import expressions
import js
import random_nodes
import random_trees
import scoping
import trees
from lawbook import LAWS, Bad, D, fits_grammar, fixed, has_types, is_writable, load, normal_form, stripped
import alpha_laws
import grammar_laws
import headline_laws
import injection_laws
import kept_laws
import lawful_laws
import naming_laws
import scoping_laws
import script_laws
import settled_laws
import sites_laws
import substitution_laws
import text_edit_laws
import text_kept_laws
import text_laws
import text_token_laws
import told_laws
import units_laws

MODULES = (alpha_laws, grammar_laws, headline_laws, injection_laws, kept_laws, lawful_laws, naming_laws, scoping_laws, script_laws, settled_laws, sites_laws, substitution_laws, text_edit_laws, text_kept_laws, text_laws, text_token_laws, told_laws, units_laws)
# texts that every law tries first, as modules and as scripts
WRITTEN = [
    '#x, y;', '`${#x}`;', 'export var a#1, a#2;', 'export var { a, b: a };', 'let?.[x];', 'let[x];', '((let[x])) = 1;', '(a?.b).c; a?.b.c;',
    '(async) => a; new (a()?.b).c();', 'for ((a in b) ? a in b : () => (a in b);;) ;', 'if (a) { if (b) c; } else d;',
    'x = (function() {})(), {}.a;', 'import { a as b } from "m"; export { b as c }; var { __proto__ } = b;',
    'export { a as b } from "m"; var a, b;', '({ set a(...b) {} });', 'a: for (;;) continue a; export { c as a }; var c;',
    'var __proto__, a; ({ __proto__, a });', 'try {} catch (a) { var a; }', '{ function f() {} } f;', 'switch (a) { case 0: let a; }',
    'function f(a, b = a) { var a; }', 'function f(a = b) { var b; }', 'switch (b) { case 0: let b; }', 'class a extends a {} (class b extends b {});',
    '{ let a; { function a() {} } } a;', 'if (a) function b() {} b;', 'try {} catch ({ a = b }) { let b; }', 'let a; if (a) { let a; }', 'let a#2; if (a#2) { let a#3; }', 'if (a) if (b) l: function f() {}']
FEWEST, BIGGEST = 2, 40


class Tally:
    """how one law did: trees tried, trees that met the premise, and those for which it fails"""
    def __init__(self, name):
        self.name, (self.source, self.law) = name, LAWS[name]
        self.made, self.met, self.bad = 0, 0, []

    def try_on(self, t):
        self.made += 1
        if t is None:
            return
        answer = answer_of(self.law, t)
        self.met += answer is not None
        if isinstance(answer, Bad) and len(self.bad) < 200:
            self.bad.append(t)


def answer_of(law, t):
    try:
        return law(t)
    except RecursionError:
        return None


def written_trees():
    for text in WRITTEN:
        for read in (js.module, js.script):
            try:
                yield read(text)
            except SyntaxError:
                pass


def tried(tallies, options):
    """tries the laws of one source"""
    random, end = random_trees.Random(options.seed), time.time() + options.seconds
    for t in () if options.types else written_trees():
        for tally in tallies:
            tally.try_on(t)
    active = tallies
    while active and time.time() < end:
        share = max(min(tally.met for tally in active) / options.trees, 1 - (end - time.time()) / options.seconds)
        source = expressions.expressions if options.expressions else active[0].source
        t = source(random, FEWEST + int((options.biggest - FEWEST) * share))
        if options.types and (t is None or not has_types(t)):
            continue
        for tally in active:
            tally.try_on(t)
        active = [tally for tally in active if tally.met < options.trees]


def report(tally, options):
    """one line, and the smallest trees for which the law fails"""
    print('%-40s %6d trees, %6d met the premise, seed %d, %s' % (
        tally.name, tally.made, tally.met, options.seed, 'FAILS for %d' % len(tally.bad) if tally.bad else 'all hold'), flush=True)
    shown = set()
    for t in sorted(tally.bad, key=trees.size)[:6]:
        t = trees.smaller(t, lambda u: isinstance(answer_of(tally.law, u), Bad))
        text = js.text(t)
        if text not in shown and len(shown) < 3:
            shown.add(text)
            print('    %s: %s\n        %s' % (t[1].lower(), text, tally.law(t)), flush=True)


def run(names, options):
    sources = {}
    for name in names:
        sources.setdefault(LAWS[name][0], []).append(Tally(name))
    good = True
    for tallies in sources.values():
        tried(tallies, options)
        for tally in tallies:
            report(tally, options)
            good = good and not tally.bad
    return good


def on_text(name, text):
    """a law on a tree that is written down"""
    for read in (js.module, js.script):
        try:
            t = read(text)
        except SyntaxError as error:
            print('as a %s: %s' % (read.__name__, error))
            continue
        answer = LAWS[name][1](t)
        print('as a %s: %s' % (read.__name__, 'the premise does not hold' if answer is None else 'holds' if answer is True else answer))


def show(text, read):
    """what the definitions say of a tree"""
    t = read(text)
    rows = [
        ('fits the grammar', fits_grammar(t)), ('writable', is_writable(t)), ('stripped, with blocks', js.text(stripped(t))),
        ('with due pairs', js.text(fixed(t))), ('normal form', js.text(normal_form(t))),
        ('early errors of names', ', '.join(scoping.faults(scoping.NO_EARLY_ERROR, D.all, t)) or 'none'),
        ('faults of scope', ', '.join(scoping.faults(scoping.WELL_SCOPED, D.all, t)) or 'none: well-scoped'),
        ('resolved', js.text(scoping.resolved(D.all, t)))]
    for name, value in rows:
        print('%-28s %s' % (name, value))


def kinds(options):
    """for each source, the share of its trees that have a node of each kind"""
    for source in dict.fromkeys(source for source, _ in LAWS.values()):
        random, counts, made, nodes = random_trees.Random(options.seed), {}, 0, 0
        for number in range(options.trees):
            t = source(random, FEWEST + number * (options.biggest - FEWEST) // options.trees)
            if t is None:
                continue
            made += 1
            found = [node[1] for _, node in trees.paths(t) if node[0] in ('Tree', 'Identifier')]
            nodes += len(found)
            for kind in set(found):
                counts[kind] = counts.get(kind, 0) + 1
        often = sum(1 for count in counts.values() if count >= made / 100)
        print('%s: %d trees of %.0f nodes; of %d kinds %d occur, %d in at least one tree of a hundred' % (
            source.__name__, made, nodes / made, len(js.FIELDS), len(counts), often))
        print('    ' + ', '.join('%s %.1f' % (kind, 100 * count / made) for kind, count in sorted(counts.items(), key=lambda row: -row[1])))


def arguments():
    parser = argparse.ArgumentParser(description=__doc__, formatter_class=argparse.RawDescriptionHelpFormatter)
    parser.add_argument('checkout', nargs='?')
    parser.add_argument('laws', nargs='*', metavar='LAW')
    parser.add_argument('--trees', type=int, default=300, help='how many trees are to meet the premise of each law')
    parser.add_argument('--seed', type=int, default=1)
    parser.add_argument('--seconds', type=float, default=300, help='at most, for the laws of one source')
    parser.add_argument('--biggest', type=int, default=BIGGEST, help='the rough number of nodes of the last trees')
    parser.add_argument('--expressions', action='store_true', help='on programs of one nest of expressions in place of random trees')
    parser.add_argument('--text', help='a tree that is written down, for one law')
    parser.add_argument('--show', help='a tree that is written down, of which the definitions are asked')
    parser.add_argument('--types', action='store_true', help='on trees with declarations of types, enums and namespaces alone')
    parser.add_argument('--script', action='store_true', help='it is a script')
    parser.add_argument('--kinds', action='store_true')
    return parser.parse_args()


def main():
    options = arguments()
    if not options.checkout:
        print(__doc__)
        for name, (_, law) in LAWS.items():
            print('%-40s %s' % (name, ' '.join(law.__doc__.split())))
        return 2
    unknown = [name for name in options.laws if name not in LAWS]
    if unknown:
        print('no law of the name %s; there are: %s' % (unknown[0], ' '.join(LAWS)))
        return 2
    load(options.checkout)
    random_nodes.Choices.with_types = 0.3 if options.types else 0
    if options.show is not None:
        show(options.show, js.script if options.script else js.module)
    elif options.kinds:
        kinds(options)
    elif options.text is not None:
        for name in options.laws or LAWS:
            print(name)
            on_text(name, options.text)
    else:
        return 0 if run(options.laws or list(LAWS), options) else 1
    return 0


if __name__ == '__main__':
    sys.exit(main())
