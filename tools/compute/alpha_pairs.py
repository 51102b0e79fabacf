"""alpha_pairs.py CHECKOUT [--pairs N] [--seed S] [--biggest B] [--respelled] [--program FILE]: pairs of programs, about half of them spoilt, and what
the judge of `alpha_judge.py` says of them. With --respelled about half of the second programs have other spellings of their literals, and of most
pairs no spelling counts.

Without a program it writes rows of three lines: the words of a command, an envelope of two trees, and a word. With one (`crates/jsbase/out/jsbase`)
it runs that on each and compares the words; the line that it prints last says how many there were of each word.
"""
import argparse
import json
import random as chance
import subprocess
import sys

import alpha_judge
import alpha_laws
import js
import lawbook
import plain
import random_trees
from js_nodes import FIELDS, Node, node_of


def json_of(content):
    """what JSON has for a node, and for what stands in a field"""
    if isinstance(content, Node):
        return dict([('type', content.type)] + [(field, json_of(content.get(field))) for field, _, _ in FIELDS[content.type]])
    return [json_of(item) for item in content] if isinstance(content, (list, tuple)) else content


def envelope(before, after, keep_top=False, spelling=None):
    """an envelope of two trees, as one line"""
    members = {'marks': [[1, 0], [2, 0]], 'unresolved': 1, 'top': 2, 'before': json_of(node_of(before)), 'after': json_of(node_of(after))}
    if keep_top:
        members['keepTop'] = True
    if spelling is not None:
        members['spelling'] = spelling
    return json.dumps(members, separators=(',', ':'))


def other_program(t, choices):
    """a word and a program: a chain's answer, that spoilt, or the normal form with some names anew"""
    choice = choices.random()
    if choice < 0.2:
        return 'another', alpha_laws.variant(t, choices)
    if not alpha_laws.may_be_chained(t):
        return None
    answer = alpha_laws.chained(t)
    if choice < 0.45:
        return 'chained', answer
    return alpha_laws.spoilt(answer, choices)


def pairs(options):
    random, choices, made = random_trees.Random(options.seed), chance.Random(options.seed), 0
    while made < options.pairs:
        t = alpha_laws.clean_tree(random, 8 + int((options.biggest - 8) * (made % 300) / 300))
        if t is None or not alpha_laws.is_clean(t) or not lawbook.fits_place(t):
            continue
        other = other_program(t, choices)
        if other is None or not lawbook.fits_place(other[1]):
            continue
        made += 1
        keep_top, way, after, spelling = choices.random() < 0.15, *other, None
        if options.respelled:
            spelling = choices.choice([False, False, False, True, None])
            if choices.random() < 0.5:
                way, after = way + ', respelled', plain.respelled(after, choices)
        yield way, t, after, keep_top, spelling


def told(options, words, line):
    """the word that a program says of an envelope; None where it says that the two are the same"""
    done = subprocess.run([options.program] + words, input=line + '\n', capture_output=True, text=True)
    if done.returncode:
        return done.stderr.strip()
    answer = json.loads(done.stdout)
    return None if answer['same'] else answer['why']


def parser_of(text):
    """a parser with the options by which pairs are made"""
    parser = argparse.ArgumentParser(description=text, formatter_class=argparse.RawDescriptionHelpFormatter)
    parser.add_argument('checkout')
    parser.add_argument('--pairs', type=int, default=300)
    parser.add_argument('--seed', type=int, default=1)
    parser.add_argument('--biggest', type=int, default=40)
    parser.set_defaults(respelled=False)
    return parser


def main():
    parser = parser_of(__doc__)
    parser.add_argument('--respelled', action='store_true')
    parser.add_argument('--program')
    options = parser.parse_args()
    lawbook.load(options.checkout)
    counts, differ = {}, 0
    for way, before, after, keep_top, spelling in pairs(options):
        words, line = ['judge', before[1].lower()], envelope(before, after, keep_top, spelling)
        wanted = alpha_judge.verdict(before, after, keep_top, spelling is not False)
        counts[way, wanted or 'same'] = counts.get((way, wanted or 'same'), 0) + 1
        if not options.program:
            print('\n'.join([' '.join(words), line, wanted or 'same']))
            continue
        found = told(options, words, line)
        if found != wanted:
            differ += 1
            print('%s: wanted %s, found %s\n    %s\n    %s\n    %s' % (' '.join(words), wanted or 'same', found or 'same', js.text(before), js.text(after), line), flush=True)
    print(', '.join('%s %s %d' % (way, word, count) for (way, word), count in sorted(counts.items())), file=sys.stderr if not options.program else sys.stdout)
    if options.program:
        print('%d pairs, %d differ' % (sum(counts.values()), differ))
    return 1 if differ else 0


if __name__ == '__main__':
    sys.exit(main())
