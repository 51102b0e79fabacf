"""shown_laws.py CHECKOUT [--trees N] [--seed S]: the definitions of where a difference or a cause shows.

Of random trees, each beside itself with one node exchanged: something else stands at a path of both exactly if the outlines differ, and the span
that is told for the first such path is that of the last node on the way that has one. Of random programs, about half of them spoilt: a cause
shows at a path exactly if what is asked by its word does not hold. Of random clean programs whose nodes have a span each: an identifier that the normal
form made is said to stand where the program's own scope binds its text, and each other where it stands.
"""
import argparse
import itertools
import random as chance
import sys

import covers_programs
import lawbook
import random_trees
import scoping
import trees
from antt_values import Rec
from lawbook import D

NO_SPAN = (0, 0)
# of these words it is said where they show; `types` shows at declarations alone
WORDS = {'context': 'Context', 'reads': 'Reads', 'function': 'Function', 'label': 'Label', 'eval': 'Eval'}


def numbers(span):
    return span.lo, span.hi


def own_span(node):
    """the span of a node itself, if it has one"""
    if node[0] == 'Span':
        return numbers(node[1])
    if node[0] == 'Identifier':
        return numbers(node[2].span)
    first = lawbook.kids(node)[:1] if node[0] == 'Tree' else ()
    return numbers(first[0][1]) if first and first[0][0] == 'Span' else None


def last_span(t, path):
    """the span of the last node on a path that has one"""
    nodes = [trees.at(t, path[:n]) for n in range(len(path) + 1) if standing(t, path[:n])]
    return ([NO_SPAN] + [span for span in map(own_span, nodes) if span])[-1]


def standing(t, path):
    return any(p == path for p, _ in trees.paths(t))


def exchanged(t, r):
    """the tree with a copy of one of its nodes at the place of another, or the tree"""
    paths = [p for p, _ in trees.paths(t)]
    return trees.put(t, r.choice(paths), trees.at(t, r.choice(paths))) if r.random() < 0.8 else t


def tree_faults(random, r, count):
    shapes, outline, no_span = D.all.swc_base_alpha.Shapes, D.all.swc_base_rename_laws.NewNames.outline, D.all.swc_tree_grammar.Blocks.no_span
    differ = 0
    for i in range(count):
        t = random.wild(4 + i % 24)
        u = exchanged(t, r)
        apart = sorted(p for p in {p for v in (t, u) for p, _ in trees.paths(v)} if shapes.stands(t, p) != shapes.stands(u, p))
        if bool(apart) != (outline(t) != outline(u)):
            yield 'outlines of %r and %r' % (t, u)
        differ += bool(apart)
        for v in (t, u) if apart else ():
            if numbers(shapes.nearest('IsUnknown', no_span, v, apart[0])) != last_span(v, apart[0]):
                yield 'the span at %r of %r' % (apart[0], v)
    print('%d trees, of which %d differ' % (count, differ))


def shows_at(cause, t, path):
    scoping, shown = D.all.swc_tree_scoping.Places, D.all.swc_base_covers.Shown
    place, node = scoping.place_at(scoping.program_place, t, path)[0]
    return shown.shows(cause, place, node)


def program_faults(count, seed):
    told = {}
    for _, t, _ in covers_programs.programs(argparse.Namespace(programs=count, seed=seed, biggest=40)):
        for word, holds in covers_programs.asked(t, {}):
            if word in WORDS:
                shows = any(shows_at(WORDS[word], t, p) for p, _ in trees.paths(t))
                told[word] = told.get(word, 0) + shows
                if shows == holds:
                    yield '%s of %r' % (word, t)
    print('%d programs: %s' % (count, told))


def placed(t, numbers):
    """the tree with a span of its own at each place of one"""
    if t[0] == 'Span':
        n = next(numbers)
        return ('Span', Rec(lo=n, hi=n))
    if t[0] == 'Identifier':
        n = next(numbers)
        return ('Identifier', t[1], Rec(span=Rec(lo=n, hi=n), ctxt=t[2].ctxt, sym=t[2].sym))
    return trees.with_kids(t, [placed(child, numbers) for child in trees.kids(t)]) if t[0] in ('List', 'Tree') else t


def bindings(t):
    """of each text that the program's own scope binds the spans of where it does"""
    spans = {}
    for standing, ident in D.all.swc_tree_walk.Sites.sites(D.all.swc_tree_scoping.Places.program_place, scoping.resolved(D.all, t)):
        if D.all.swc_tree_scoping.Scopes.is_binding(standing) and ident.ctxt == (2,):
            spans.setdefault(ident.sym, []).append(numbers(ident.span))
    return spans


def place_faults(count, seed):
    normal_form, shown, made = D.all.swc_tree_grammar.Normal.normal_form, D.all.swc_base_alpha.Shown, 0
    for way, t, _ in covers_programs.programs(argparse.Namespace(programs=2 * count, seed=seed, biggest=40)):
        if way != 'as made':
            continue
        t = placed(t, itertools.count(1))
        here, sites = bindings(t), D.all.swc_tree_walk.Sites.sites(D.all.swc_tree_scoping.Places.program_place, scoping.resolved(D.all, normal_form(t)))
        for site in sites:
            told, own = numbers(shown.place_in('IsMade', sites, site)), numbers(site[1].span)
            made += own == NO_SPAN
            if told != own and (own != NO_SPAN or told not in here.get(site[1].sym, ())) or told == NO_SPAN:
                yield '%r of %r' % (site, t)
    print('%d programs, in which %d identifiers are made' % (count, made))


def main():
    parser = argparse.ArgumentParser(description=__doc__, formatter_class=argparse.RawDescriptionHelpFormatter)
    parser.add_argument('checkout')
    parser.add_argument('--trees', type=int, default=10000)
    parser.add_argument('--seed', type=int, default=1)
    options = parser.parse_args()
    lawbook.load(options.checkout)
    random, r, faults = random_trees.Random(options.seed), chance.Random(options.seed), 0
    for fault in itertools.chain(
        tree_faults(random, r, options.trees), program_faults(options.trees, options.seed), place_faults(options.trees, options.seed)
    ):
        faults += 1
        print(fault[:400])
    print('%d faults' % faults)
    return 1 if faults else 0


if __name__ == '__main__':
    sys.exit(main())
