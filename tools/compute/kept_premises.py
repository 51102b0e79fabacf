"""kept_premises.py CHECKOUT [LAW..] [--trees N] [--seed S] [--seconds T]: premises of the laws of `text_kept_laws`, one left out at a time, with the
smallest tree for which the law then fails.

Each law is tried with all of its premises, and then, for each premise, on trees for which that one fails and the others hold. A tree that is no program
stands in the place of its kind alone.
"""
import argparse

import js
import lawbook
import scoping
import text_kept_laws as kept
import text_token_laws as tokens
import trees
import units
from following import FitsGrammar, Shaped, Spelled
from headline_laws import nameless
from lawbook import D, fixed, kind, normal_form
from lawful_laws import middle_of, new_texts_of
from naming_rows import with_hygiene
from substitution_laws import changes_of, substituted
from text_premises import BLANK, pair, script, tree, tried, unfitting
from trees import ABSENT, SPAN


# ---- sources
FEW = ('ClassDecl', 'AssignPatProp', 'ExportDecl', 'SeqExpr', 'ParenExpr', 'MemberExpr')


def part(random, size):
    """a part of a program, half of them of those kinds whose places take least, with marks on some names"""
    t = kept.text_source(random, size)
    found = [node for path, node in trees.paths(t) if path and kind(node) in js.CLASSES] if t else []
    few = [node for node in found if kind(node) in FEW]
    return with_marks(random, random.pick(few if few and random.chance(0.7) else found)) if found else None


def with_marks(random, t):
    """the tree with marks on some names, so that hygiene gives them anew"""
    return trees.with_identifiers(lambda i: (i.sym, (random.pick([2, 3]),) if random.chance(0.3) else i.ctxt), t)


def misfits(random, size):
    """trees some of whose nodes stand where they don't fit, with marks on some names"""
    if random.chance(0.1):
        bound, free = (('Identifier', its, js.REC(span=SPAN[1], ctxt=(mark,), sym=js.codes('xy'))) for its, mark in (('BindingIdent', 1), ('Ident', 2)))
        export = tree('ExportDecl', SPAN, tree('VarDecl', SPAN, ('Word', 'Var'), ('List', (tree('VarDeclarator', SPAN, bound, ABSENT),))))
        texts = [tree('TplElement', SPAN, ('Flag', last), ('Text', js.codes('')), ('Text', js.codes(''))) for last in (False, True)]
        made = random.pick([tree('Tpl', SPAN, ('List', (export,)), ('List', tuple(texts))), tree('ArrayLit', SPAN, ('List', (export, export)))])
        return script(random.pick([made, tree('BinExpr', SPAN, ('Word', 'Plus'), made, free)]))
    t = unfitting(random, size)
    return t and with_marks(random, t)


def unassignable(random, size):
    """programs in which an assignment has any expression in a pair as its target"""
    t = kept.text_source(random, size)
    found = [path for path, node in trees.paths(t) if kind(node) == 'AssignExpr'] if t else []
    parts = [node for _, node in trees.paths(t) if kind(node) in js.CLASSES['Expr']] if t else []
    return trees.put(t, random.pick(found) + (2,), pair(random.pick(parts))) if found and parts else None


def beside(random, size):
    """programs as they are, or spoilt"""
    source = random.pick([kept.text_source, misfits, kept.clean_source, kept.marked_source, kept.text_source])
    return source(random, size)


# ---- premises
def place_of(t):
    return ('One', ('Node', t[1]))



PREMISES = {
    'it fits its place': lambda t: D.node.Fits.fits(t, place_of(t)), 'a program': lambda t: t[1] in ('Module', 'Script'),
    'shaped': lambda t: Shaped(D.all, t), 'spelled': lambda t: Spelled(D.all, t), 'writable': lambda t: D.grammar.Writable.is_writable(t),
    'derived as it stands': lambda t: FitsGrammar(D.all, t), 'clean': lambda t: scoping.IsClean(D.all, t),
    'no early error of names': lambda t: scoping.NoEarlyErrorOfNames(D.all, t),
    'the place has room': lambda t: D.substitution.Room.has_room(place_of(t)), 'the place takes pairs': lambda t: D.grammar.Places.is_open(place_of(t)),
    'targets can stand bare': lambda t: D.grammar.Targets.all_bare(t), 'no sequence': lambda t: not tokens.trees_with_sequences(t),
    'no empty member': lambda t: not tokens.has_empty_member(t), 'nothing reads names': lambda t: not units.HasEval(D.all, t)}


# ---- laws
def has_texts(t, answer, also_fits=True):
    """what is asked of the tree holds of the answer"""
    return (not also_fits or D.node.Fits.fits(answer, place_of(t))) and Shaped(D.all, answer) and Spelled(D.all, answer)


def resolved(t):
    return scoping.resolved(D.all, t, 1, 2)


def hygienic(t):
    return [with_hygiene(resolved(t), keeps) for keeps in (False, True)]


def unparened(t):
    return D.grammar.Blocks.with_blocks(D.grammar.Stripped.stripped(t))


def short(t):
    """with short names, where classes keep theirs or not"""
    own = resolved(t)
    changes = changes_of({x: (text, ()) for x, text in new_texts_of(own, kept.by_use.renaming(own, ())).items()})
    return [trees.with_identifiers(lambda i: (i.sym, ()), substituted(changes, own, keeps)) for keeps in (False, True)]


def each_has(make, also_fits=True):
    """all that is made of a tree has what is asked of the tree"""
    return lambda t: all(has_texts(t, answer, also_fits) for answer in make(t))


def chained_forms(t):
    return tokens.unnamed(normal_form(t)) == tokens.unnamed(normal_form(fixed(with_hygiene(resolved(t)))))


def chained_tokens(t):
    bound = {sym for sym, _ in lawbook.declared_ids(resolved(t))}
    return tokens.are_same_pieces(tokens.tokens(t), tokens.tokens(fixed(with_hygiene(resolved(t)))), bound)


def named_by_blanks(t):
    return has_texts(t, middle_of(resolved(t), new_texts_of(resolved(t), BLANK)), False)


def names_alone(t):
    return tokens.unnamed(t) == tokens.unnamed(nameless(t))


TEXTS = ('it fits its place', 'shaped', 'spelled')
SOURCE = TEXTS + ('derived as it stands', 'writable', 'clean', 'no early error of names')
ROOM, PAIRS, BARE = 'the place has room', 'the place takes pairs', 'targets can stand bare'
# where trees come from for which a premise fails
WITHOUT = {'it fits its place': misfits, 'a program': part, ROOM: part, PAIRS: part, BARE: unassignable}


def due(t):
    return D.grammar.Due.with_due_pairs(lambda span: span, t)


# a law: its premises, and what holds of a tree
LAWS = {
    'HygieneKeepsTexts': ((ROOM,) + TEXTS, each_has(hygienic)),
    'AnyHygieneKeepsTexts': ((ROOM,) + TEXTS, each_has(hygienic, False)),
    'ShortNamesKeepTexts': ((ROOM,) + TEXTS, each_has(short)),
    'ManglingKeepsTexts': ((ROOM,) + TEXTS, each_has(short, False)),
    'FixerKeepsTexts': ((PAIRS, BARE) + TEXTS, each_has(lambda t: [fixed(t)])),
    'FixerKeepsShape': ((PAIRS, BARE, 'it fits its place', 'shaped'), lambda t: Shaped(D.all, fixed(t))),
    'FixerKeepsSpelling': ((PAIRS, BARE, 'it fits its place', 'spelled'), lambda t: Spelled(D.all, fixed(t))),
    'UnparenKeepsTexts': ((PAIRS, BARE) + TEXTS, each_has(lambda t: [unparened(t)])),
    'UnparenKeepsShape': ((BARE, 'it fits its place', 'shaped'), lambda t: Shaped(D.all, unparened(t))),
    'UnparenKeepsSpelling': ((BARE, 'it fits its place', 'spelled'), lambda t: Spelled(D.all, unparened(t))),
    'DuePairsKeepShape': (('it fits its place', 'shaped'), lambda t: Shaped(D.all, due(t))),
    'DuePairsKeepSpelling': (('it fits its place', 'spelled'), lambda t: Spelled(D.all, due(t))),
    'ChainKeepsTexts': ((ROOM, PAIRS, BARE) + TEXTS, each_has(lambda t: map(fixed, hygienic(t)))),
    'ShortChainKeepsTexts': ((ROOM, PAIRS, BARE) + TEXTS, each_has(lambda t: map(fixed, short(t)))),
    'NewNamesKeepPieces': (('a program', 'it fits its place', 'writable'), lambda t: tokens.forms_agree(t, False)),
    'NewNamesKeepPieces, classes keep names': (('a program', 'it fits its place', 'writable'), lambda t: tokens.forms_agree(t, True)),
    'PairsAloneAreSet': (('a program', 'it fits its place'), tokens.has_its_pairs),
    'NamesAloneDiffer': ((), names_alone),
    'forms_have_the_same_pieces': (SOURCE, chained_forms),
    'chained_pieces': (SOURCE + ('no sequence', 'no empty member'), chained_tokens),
    'a renamer whose texts are blanks': ((ROOM,) + TEXTS, named_by_blanks)}
# of these a program is named in one: where something reads names, units would be named alone
ALONE = ('HygieneKeepsTexts', 'AnyHygieneKeepsTexts', 'ShortNamesKeepTexts', 'ManglingKeepsTexts', 'ChainKeepsTexts', 'ShortChainKeepsTexts')


def source_of(premises, left_out):
    """where trees come from that meet the premises but for one"""
    if left_out in WITHOUT:
        return WITHOUT[left_out]
    return beside if left_out else kept.clean_source if 'clean' in premises else kept.text_source


def main():
    parser = argparse.ArgumentParser(description=__doc__, formatter_class=argparse.RawDescriptionHelpFormatter)
    parser.add_argument('checkout')
    parser.add_argument('laws', nargs='*')
    parser.add_argument('--trees', type=int, default=300)
    parser.add_argument('--seed', type=int, default=1)
    parser.add_argument('--seconds', type=float, default=60)
    options = parser.parse_args()
    lawbook.load(options.checkout)
    for name in options.laws or LAWS:
        premises, holds = LAWS[name]
        for left_out in (None,) + premises:
            asked = {premise: PREMISES[premise] for premise in premises + (('nothing reads names',) if name in ALONE else ()) if premise != left_out}
            if left_out:
                asked['but not'] = lambda t, fails=PREMISES[left_out]: not fails(t)
            tried('%s, %s' % (name, 'without: ' + left_out if left_out else 'with all'), source_of(premises, left_out), asked, holds, options)


if __name__ == '__main__':
    main()
