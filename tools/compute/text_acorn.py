"""text_acorn.py CHECKOUT [--texts N] [--seed S] [--words]: random texts of well-formed programs, and how acorn reads them.

Each text is that of its tree by the definitions. Of those that acorn reads it says how many it reads as that tree, and where the first difference of
the others is; of the rest, why it refuses them (early errors are not asked here). `yield` and `await` are left out, as names and as operators, since
whether they are one or the other no tree tells; with --words they are not. It wants node 20.
"""
import argparse
import json
import os
import re
import subprocess
from collections import Counter

import following
import js
import json_trees
import lawbook
import random_trees
import texts
import trees
from lawbook import D

READER = """
import { treeOf } from %s;
import { readFileSync } from 'node:fs';
const answer = ({ kind, text }) => { try { return treeOf(text, kind, 'a'); } catch (error) { return { error: String(error.message) }; } };
for (const line of readFileSync(0, 'utf8').split('\\n')) if (line) console.log(JSON.stringify(answer(JSON.parse(line))));
"""


def reads(checkout, rows):
    """what acorn makes of texts: trees, or why not"""
    module = json.dumps(os.path.abspath(os.path.join(checkout, 'tools/js/lib/tree.mjs')))
    lines = '\n'.join(json.dumps({'kind': t[1].lower(), 'text': bytes(text).decode()}) for t, text in rows)
    out = subprocess.run(['node', '--input-type=module', '-e', READER % module], input=lines, capture_output=True, text=True, check=True)
    return [json.loads(line) for line in out.stdout.split('\n') if line]


def is_word(node):
    return node[0] == 'Tree' and node[1] in ('AwaitExpr', 'YieldExpr') or node[0] == 'Identifier' and js.string(node[2].sym) in ('await', 'yield')


def programs(options):
    random, rows = random_trees.Random(options.seed), []
    ways = [texts.PLAIN, texts.LOOSE, texts.Way(lines=0.3, blanks=0.1, abutting=0.5, semicolons=0.2, soft=0.5)]
    while len(rows) < options.texts:
        t = texts.leafy_program(random, 2 + random.below(30))
        if t and following.IsWellFormed(D.all, t) and (options.words or not following.HasNode(is_word, t)):
            rows.append((t, texts.written(random, t, random.pick(ways))))
    return rows


def bare(t):
    """the tree without spans and raw strings"""
    if t[0] == 'Span':
        return ('Span',)
    if t[0] == 'Identifier':
        return ('Identifier', t[1], t[2].sym)
    if t[0] == 'Tree' and t[1] == 'Str':
        return ('Tree', 'Str', (t[2][1],))
    return trees.with_kids(t, list(map(bare, trees.kids(t)))) if t[0] in ('List', 'Tree') else t


def moved(t):
    """the tree with each span a byte further"""
    def further(span):
        return js.REC(lo=span.lo + 1, hi=span.hi + 1)
    if t[0] == 'Span':
        return ('Span', further(t[1]))
    if t[0] == 'Identifier':
        return ('Identifier', t[1], js.REC(span=further(t[2].span), ctxt=(), sym=t[2].sym))
    return trees.with_kids(t, list(map(moved, trees.kids(t)))) if t[0] in ('List', 'Tree') else t


def has_its_spans(t, text):
    """so do all nodes; of a text of another tree, from which empty members of classes are left out here, nothing is asked"""
    return not following.IsTextOf(D.all, t, text) or following.SpansAreOf(D.all, t, text) and not following.SpansAreOf(D.all, moved(t), text)


def text_is_of(t, text):
    """its leaves stand where acorn has them, and not a byte further; where all is in ASCII, since acorn counts otherwise"""
    if max(text, default=0) > 127:
        return True
    names = following.HasNode(lambda node: node[0] == 'Identifier', t)
    return following.LeavesStand(D.all, text, t) and not (names and following.LeavesStand(D.all, text, moved(t))) and has_its_spans(t, text)


def shown(t):
    return t[1] if t[0] in ('Tree', 'Identifier') else t[0]


def main():
    parser = argparse.ArgumentParser(description=__doc__, formatter_class=argparse.RawDescriptionHelpFormatter)
    parser.add_argument('checkout')
    parser.add_argument('--texts', type=int, default=1000)
    parser.add_argument('--seed', type=int, default=1)
    parser.add_argument('--words', action='store_true')
    options = parser.parse_args()
    lawbook.load(options.checkout)
    rows, counts, others = programs(options), Counter(), {}
    for (t, text), answer in zip(rows, reads(options.checkout, rows)):
        if not following.IsTextOf(D.all, t, text):
            counts['not of their trees'] += 1
        if 'error' in answer:
            counts['refused'] += 1
            what = re.sub(r"'[^']*'|\w:\d+:\d+: |syntax error: ", '', answer['error'])
        else:
            difference = json_trees.first_difference(bare(t), bare(json_trees.tree_in(answer)))
            counts['read otherwise' if difference else 'read so'] += 1
            if not text_is_of(json_trees.tree_in(answer), text):
                counts['of which acorn says otherwise where leaves stand'] += 1
            what = difference and '%s as %s' % (shown(difference[1]), shown(difference[2]))
        if what:
            others.setdefault(what, []).append(text)
    print('%d texts: %s' % (len(rows), ', '.join('%d %s' % (number, what) for what, number in counts.most_common())))
    for what, found in sorted(others.items(), key=lambda row: -len(row[1])):
        print('%6d %s, such as %r' % (len(found), what, bytes(min(found, key=len)).decode()))


if __name__ == '__main__':
    main()
