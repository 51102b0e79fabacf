"""alpha_places.py CHECKOUT --program FILE [--pairs N] [--seed S] [--biggest B]: whether `jsbase judge` shows differences where they show.

The random pairs of `alpha_pairs.py`, with a span of its own for each node that may have one. The paths that the program (`crates/jsbase/out/jsbase`)
tells have to lead to the spans that the definitions tell: of the first nodes at which the outlines of the normal forms differ, or of the first two
identifiers with which it fails what the word asks.
"""
import collections
import itertools
import json
import re
import subprocess
import sys

import alpha_pairs
import js
import lawbook
import scoping
import shown_laws
import trees
from lawbook import D
from shown_laws import NO_SPAN, numbers


def is_free(ident):
    return ident.ctxt == (1,)


def asks(word, x, y):
    """what a word asks of two identifiers side by side, but for those that ask more than two"""
    is_name, one_text = D.all.swc_tree_scoping.Scopes.is_name(x[0]), x[1].sym == y[1].sym
    if word == 'name':
        return is_name or one_text
    if word == 'free':
        return not is_name or is_free(x[1]) == is_free(y[1]) and (one_text or not is_free(x[1]))
    if word == 'top':
        return not is_name or one_text or (2,) not in (x[1].ctxt, y[1].ctxt)
    return not is_name or one_text


def first_split(pairs):
    """the first name whose id stands beside another id than before"""
    beside = {}
    for x, y in pairs:
        if D.all.swc_tree_scoping.Scopes.is_name(x[0]):
            one, other = (x[1].sym, x[1].ctxt), (y[1].sym, y[1].ctxt)
            if beside.setdefault(one, other) != other:
                return x, y
    return None


def first_failing(word, xs, ys):
    if word == 'split':
        return first_split(zip(xs, ys))
    if word == 'joined':
        return tuple(reversed(first_split(zip(ys, xs))))
    return next((x, y) for x, y in zip(xs, ys) if not asks(word, x, y))


def name_spans(word, t, u):
    place = D.all.swc_tree_scoping.Places.program_place
    sites = [D.all.swc_tree_walk.Sites.sites(place, scoping.resolved(D.all, v)) for v in (t, u)]
    return [numbers(D.all.swc_base_alpha.Shown.place_in('IsMade', side, site)) for side, site in zip(sites, first_failing(word, *sites))]


def shape_spans(t, u):
    shapes, no_span = D.all.swc_base_alpha.Shapes, D.all.swc_tree_grammar.Blocks.no_span
    apart = min(p for p in {p for v in (t, u) for p, _ in trees.paths(v)} if shapes.stands(t, p) != shapes.stands(u, p))
    return [numbers(shapes.nearest('IsMade', no_span, v, apart)) for v in (t, u)]


def spans(word, before, after):
    t, u = (D.all.swc_tree_grammar.Normal.normal_form(v) for v in (before, after))
    return shape_spans(t, u) if word == 'shape' else name_spans(word, t, u)


def span_at(envelope, path):
    """the span of what a path leads to in an envelope"""
    for field, number in re.findall(r'\.(\w+)|\[(\d+)\]', path):
        envelope = envelope[field] if field else envelope[int(number)]
    return tuple(envelope['span'])


def fault(options, before, after, keep_top):
    """the word that the program says, and what is wrong with where it shows it"""
    line = alpha_pairs.envelope(before, after, keep_top, True)
    done = subprocess.run([options.program, 'judge', before[1].lower()], input=line + '\n', capture_output=True, text=True)
    if done.returncode:
        return 'refused', None
    told = json.loads(done.stdout)
    if told['same']:
        return 'same', None
    found, wanted = [span_at(json.loads(line), told[side]) for side in ('before', 'after')], spans(told['why'], before, after)
    return told['why'], None if found == wanted else 'wanted %s, found %s' % (wanted, found)


def main():
    parser = alpha_pairs.parser_of(__doc__)
    parser.add_argument('--program', required=True)
    options = parser.parse_args()
    lawbook.load(options.checkout)
    counts, faults = collections.Counter(), 0
    for _, before, after, keep_top, _ in alpha_pairs.pairs(options):
        before, after = (shown_laws.placed(t, itertools.count(1)) for t in (before, after))
        word, wrong = fault(options, before, after, keep_top)
        counts[word] += 1
        if wrong:
            faults += 1
            print('%s: %s\n    %s\n    %s' % (word, wrong, js.text(before), js.text(after)), flush=True)
    print(dict(counts))
    print('%d pairs, %d faults' % (options.pairs, faults))
    return 1 if faults else 0


if __name__ == '__main__':
    sys.exit(main())
