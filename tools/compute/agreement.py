"""agreement.py CHECKOUT OTHER [--trees N] [--seed S] [--seconds T]: whether the definitions of two checkouts say the same.

What is compared of random trees: whether they fit their places, fit the grammar and are writable, what they are when
stripped, with due pairs and in normal form, what is the same, what stands where and binds, how they are resolved, which
rules of names they break, and what the substitution makes of them. For each question the line says how many trees were
asked, and the smallest that is answered in two ways follows. So a definition that is only written in another way can be
seen to mean what it meant."""
import argparse
import os
import sys
import time

import antt2py
import js
import lawbook
import random_trees
import scoping
import trees


def strict(with_in, is_strict):
    return antt2py.Rec(with_in=with_in, strict=is_strict)


def fixed(defs, t):
    grammar = defs.swc_tree_grammar
    return grammar.Due.with_due_pairs(lambda span: span, grammar.Blocks.with_blocks(grammar.Stripped.stripped(t)))


def standings(defs, t):
    """of each identifier whether it binds, or refers, and whether its code is strict"""
    program = scoping.Program(defs, t)
    return [(path, program.S.is_binding(program.standing(path)), program.S.is_reference(program.standing(path)), program.at[path][0].strict)
            for path in program.identifiers]


def changed_names(defs, t, keeps):
    """the tree with each id of each identifier given a new text"""
    ids = dict.fromkeys(lawbook.identity(i) for _, i in lawbook.identifiers(t))
    new = {i: (js.codes('n%d' % number), ()) for number, i in enumerate(ids)}
    return defs.swc_base_rename_substitution.Substituted.substituted(lambda i: (new[i],), keeps, 'Other', t)


QUESTIONS = {
    'fits its place': lambda defs, t: defs.swc_tree_node.Fits.fits(t, ('One', ('Node', t[1]))),
    'writable': lambda defs, t: defs.swc_tree_grammar.Writable.is_writable(t),
    'fits the grammar': lambda defs, t: [defs.swc_tree_grammar.Grammar.derives(t, strict(a, b)) for a in (True, False) for b in (True, False)],
    'fits the grammar with due pairs': lambda defs, t: defs.swc_tree_grammar.Grammar.derives(fixed(defs, t), strict(True, False)),
    'stripped': lambda defs, t: defs.swc_tree_grammar.Stripped.stripped(t),
    'with due pairs': fixed,
    'normal form, but for spans': lambda defs, t: lawbook.spanless(defs.swc_tree_grammar.Normal.normal_form(t)),
    'same as itself': lambda defs, t: defs.swc_tree_grammar.Same.is_same(t, t),
    'comment moves': lambda defs, t: defs.swc_tree_grammar.Pairs.moves(t),
    'bindings and references': standings,
    'resolved': lambda defs, t: scoping.resolved(defs, t),
    'rules of names': lambda defs, t: (scoping.faults(scoping.WELL_SCOPED, defs, t), scoping.faults(scoping.NO_EARLY_ERROR, defs, t)),
    'substituted': lambda defs, t: changed_names(defs, t, False),
    'substituted, class names kept': lambda defs, t: changed_names(defs, t, True),
}
SOURCES = [lawbook.any_tree, lawbook.writable_tree, lawbook.clean_program, lawbook.expressions_as_names]


def answer(question, defs, t):
    try:
        return QUESTIONS[question](defs, t)
    except RecursionError:
        return None
    except (KeyError, ValueError) as error:
        return repr(error)


def can_be_asked(question, *checkouts):
    """each of the checkouts has the definitions that the question is about"""
    try:
        for defs in checkouts:
            QUESTIONS[question](defs, js.module(''))
    except AttributeError as error:
        print('%-34s not asked: %s' % (question, error))
        return False
    return True


def differs(question, one, other, t):
    return answer(question, one, t) != answer(question, other, t)


def compared(one, other, options):
    random, found, made, end = random_trees.Random(options.seed), {}, 0, time.time() + options.seconds
    questions = [question for question in QUESTIONS if can_be_asked(question, one, other)]
    while made < options.trees and time.time() < end:
        t = random.pick(SOURCES)(random, 2 + options.biggest * made // options.trees)
        made += 1
        for question in questions:
            if differs(question, one, other, t):
                found.setdefault(question, []).append(t)
    for question in questions:
        bad = found.get(question, [])
        print('%-34s %6d trees, %s' % (question, made, 'DIFFERS for %d' % len(bad) if bad else 'one answer'), flush=True)
        if bad:
            t = trees.smaller(min(bad, key=trees.size), lambda u, question=question: differs(question, one, other, u))
            print('    %s: %s\n        %s\n        %s' % (t[1].lower(), js.text(t), *(shown(answer(question, defs, t)) for defs in (one, other))))
    return not found


def shown(value):
    return js.text(value) if isinstance(value, tuple) and value and value[0] == 'Tree' else repr(value)


def main():
    parser = argparse.ArgumentParser(description=__doc__, formatter_class=argparse.RawDescriptionHelpFormatter)
    parser.add_argument('checkout')
    parser.add_argument('other')
    parser.add_argument('--trees', type=int, default=2000)
    parser.add_argument('--seed', type=int, default=1)
    parser.add_argument('--seconds', type=float, default=300)
    parser.add_argument('--biggest', type=int, default=30)
    options = parser.parse_args()
    lawbook.load(options.checkout)
    scoping.check_sources(options.other)
    crates = [crate for crate in lawbook.CRATES if os.path.isdir(os.path.join(options.other, 'crates', crate.partition('.')[0]))]
    return 0 if compared(lawbook.D.all, antt2py.load(options.other, crates), options) else 1


if __name__ == '__main__':
    sys.exit(main())
