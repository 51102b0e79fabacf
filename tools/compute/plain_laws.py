"""plain_laws.py CHECKOUT [--texts N] [--trees N] [--seed S]: the definitions of plain forms against exact values.

Of random literals two have one plain text exactly if they have one exact value; of random trees, their literals spelled anew, the plain form is
the tree that `plain.py` makes, and it is its own plain form.
"""
import argparse
import random as chance
import sys

import lawbook
import plain
import random_trees
from js_nodes import codes, string

DIGITS = '0123456789._exEXabn+-8'


def literal(r):
    """a text of a number, or of what may be taken for one"""
    n = r.choice([r.randrange(20), r.randrange(300), r.randrange(1, 20) * 10 ** r.randrange(6), r.randrange(1 << r.randrange(1, 140))])
    ways = ['%d' % n, '0x%x' % n, '0X%X' % n, '0b{:b}'.format(n), '0o%o' % n, '0%o' % n, '{:_}'.format(n), '%d.' % n, '.%d' % n, '0%d' % n]
    ways += ['%d.%d' % (n, r.randrange(100)), '%de%d' % (n, r.randrange(-9, 9)), '%d.%dE+%d' % (n, r.randrange(1000), r.randrange(9))]
    ways += ['0' * r.randrange(3) + '.' + '0' * r.randrange(5) + '%d' % n + '0' * r.randrange(4), ''.join(r.choices(DIGITS, k=r.randrange(6)))]
    return r.choice(ways) + ('n' if r.random() < 0.1 else '')


def text_faults(numbers, r, count):
    for name, is_big in (('plain_number', False), ('plain_big', True)):
        values, texts = {}, {}
        for text in {literal(r) for _ in range(count)}:
            value, made = plain.key(text, is_big), string(getattr(numbers, name)(codes(text)))
            if values.setdefault(value, made) != made or texts.setdefault(made, value) != value:
                yield '%s of %s is %s' % (name, text, made)
        print('%s: %d values' % (name, len(values)))


def tree_faults(definitions, random, r, count):
    numbers, plain_form = definitions.swc_base_plain_numbers.Numbers, definitions.swc_base_plain_form.PlainForm.plain_form

    def spell(text, is_big):
        return string((numbers.plain_big if is_big else numbers.plain_number)(codes(text)))
    changed = 0
    for i in range(count):
        t = plain.respelled(random.wild(10 + i % 40, random.chance(0.6)), r)
        u = plain_form(t)
        changed += u != t
        if u != plain.plain(t, spell=spell):
            yield 'plain form of %r' % (t,)
        if plain_form(u) != u:
            yield 'plain form of the plain form of %r' % (t,)
    print('%d trees, of which %d are not plain' % (count, changed))


def main():
    parser = argparse.ArgumentParser(description=__doc__, formatter_class=argparse.RawDescriptionHelpFormatter)
    parser.add_argument('checkout')
    parser.add_argument('--texts', type=int, default=10000)
    parser.add_argument('--trees', type=int, default=10000)
    parser.add_argument('--seed', type=int, default=1)
    options = parser.parse_args()
    lawbook.load(options.checkout)
    r, faults = chance.Random(options.seed), 0
    for fault in text_faults(lawbook.D.all.swc_base_plain_numbers.Numbers, r, options.texts):
        faults += 1
        print(fault)
    for fault in tree_faults(lawbook.D.all, random_trees.Random(options.seed), r, options.trees):
        faults += 1
        print(fault)
    print('%d faults' % faults)
    return 1 if faults else 0


if __name__ == '__main__':
    sys.exit(main())
