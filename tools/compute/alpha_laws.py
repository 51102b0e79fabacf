"""Laws of programs that are one but for the choice of the names that they bind, and of what decides it."""
import random as chance

import alpha
import alpha_judge
import js
import renaming
import scoping
import units
from grammar_laws import is_same
from lawbook import Bad, D, fixed, identifiers, is_module, is_writable, law, with_text
from naming_rows import cleared, with_hygiene
from script_laws import is_script, missing, script, PREMISES
from script_premises import kept_by_identity

# what a plain script is
PLAIN = [(name, holds) for name, holds in PREMISES if name not in ('fits', 'writable', 'no reader')]
TEXTS = [js.codes(text) for text in 'abcdef']


# ------------------------------------------------------------------------------------------------------- sources
def clean_tree(random, size):
    """programs of few names and many scopes without contexts: modules, some with more exports, and scripts with what scripts alone
    have; early errors of names in some"""
    choice = random.below(8)
    if choice < 3:
        return random.names(size, True)
    if choice == 3:
        return cleared(random.exporting(size, random.chance(0.3)))
    return script(random, size) if choice < 7 else random.names(size, False)


def choices_for(t):
    """random choices that depend on a tree alone"""
    return chance.Random(repr(t))


@kept_by_identity
def is_clean(t):
    return all(i.ctxt == () for _, i in identifiers(t))


# ------------------------------------------------------------------------------------------------ other programs
def with_variables_anew(t, choices):
    """the normal form of a program with new texts for some of its variables, which may meet"""
    n, new = alpha.normal(t), {}
    for p in renaming.names_at(n):
        one = alpha.thing(n, p)
        if one not in new:
            stays = one is None or one[1] == alpha.FREE or choices.random() < 0.5
            new[one] = n.name(p) if stays else choices.choice(TEXTS + [js.codes('g%d' % len(new))] * 6)
    return alpha.as_named(n.tree, {p: new[alpha.thing(n, p)] for p in renaming.names_at(n)})


def with_one_anew(t, choices):
    """the normal form of a program with another text for one of its identifiers"""
    n = alpha.normal(t)
    return with_text(n.tree, choices.choice(n.identifiers), choices.choice(TEXTS)) if n.identifiers else n.tree


def variant(t, choices):
    """another program of one shape: variables of the normal form with new texts, or one identifier with another"""
    return (with_one_anew if choices.random() < 0.4 else with_variables_anew)(t, choices)


# what a resolver, hygiene and the fixer answer
chained = kept_by_identity(lambda t: fixed(with_hygiene(scoping.resolved(D.all, t, 1, 2))))
# the variant by the choices for a tree
another = kept_by_identity(lambda t: variant(t, choices_for(t)))


@kept_by_identity
def may_be_chained(t):
    """a clean program that can be written down, in which nothing reads names and no `var` declares a catch parameter's name again"""
    return is_clean(t) and is_writable(t) and not units.HasEval(D.all, t) and alpha.without_catch(alpha.normal(t))


def spoilt_reference(n, choices):
    """a reference with the text of another name that is declared"""
    declared = sorted({n.name(p) for p in renaming.names_at(n) if n.S.is_binding(n.standing(p))})
    ways = [(p, x) for p in renaming.names_at(n) if not n.S.is_binding(n.standing(p)) for x in declared if x != n.name(p)]
    return [choices.choice(ways)] if ways else None


def spoilt_other(n, choices):
    """a label, an imported or an exported name with another text"""
    ways = [p for p in n.identifiers if not n.S.is_name(n.standing(p))]
    return [(choices.choice(ways), js.codes('spoilt'))] if ways else None


def variables(n):
    """the paths of each variable"""
    found = {}
    for p in renaming.names_at(n):
        found.setdefault(alpha.thing(n, p), []).append(p)
    return {one: ps for one, ps in found.items() if one is not None and one[1] != alpha.FREE}


def spoilt_capture(n, choices):
    """a variable with the text of a free name that stands within its scope"""
    frees = [(p, n.name(p)) for p in renaming.names_at(n) if alpha.IsFreeThere(n, p)]
    ways = [(ps, x) for one, ps in sorted(variables(n).items()) for p, x in frees if any(('scope', s) == one[1] for s, _ in n.rounds_at[p])]
    if not ways:
        return None
    ps, text = choices.choice(ways)
    return [(p, text) for p in ps]


def spoilt_meeting(n, choices):
    """a variable with the text of another one that stands within its scope"""
    known = sorted(variables(n).items())
    ways = [(ps, other[0]) for one, ps in known for other, qs in known if one[0] != other[0] and any(('scope', s) == one[1] for q in qs for s, _ in n.rounds_at[q])]
    if not ways:
        return None
    ps, text = choices.choice(ways)
    return [(p, text) for p in ps]


def spoilt_binding(n, choices):
    """a binding alone with a text that is nowhere else"""
    ways = [p for p in renaming.names_at(n) if n.S.is_binding(n.standing(p))]
    return [(choices.choice(ways), js.codes('spoilt'))] if ways else None


SPOILT = (spoilt_reference, spoilt_other, spoilt_capture, spoilt_meeting, spoilt_binding)


def spoilt(t, choices):
    """the way a program of one shape was spoilt, and that program; None where it can't be"""
    n, ways = alpha.program(t), list(SPOILT)
    choices.shuffle(ways)
    for way in ways:
        new = way(n, choices)
        if new:
            return way.__name__, alpha.as_named(t, dict(new))
    return None


# ---------------------------------------------------------------------------------------------------------- laws
@law(clean_tree)
def alpha_is_reflexive(t):
    """each program without contexts is itself but for names"""
    return alpha.AlphaEquivalent(t, t) or Bad('not itself but for names') if is_clean(t) else None


@law(clean_tree)
def alpha_is_symmetric(t):
    """a program is another one but for names exactly if that is it"""
    if not is_clean(t):
        return None
    u = another(t)
    return alpha.AlphaEquivalent(t, u) == alpha.AlphaEquivalent(u, t) or Bad('one way alone:', u)


@law(clean_tree)
def alpha_is_transitive(t):
    """what is a program but for names and is another but for names, makes these one but for names"""
    if not is_clean(t):
        return None
    choices = choices_for(t)
    u = variant(t, choices)
    v = variant(u, choices)
    if not alpha.AlphaEquivalent(t, u) or not alpha.AlphaEquivalent(u, v):
        return None
    return alpha.AlphaEquivalent(t, v) or Bad('between:', u, 'and then:', v)


@law(clean_tree)
def alpha_keeps_all_but_bound_names(t):
    """two programs that are one but for names have one normal form but for bound names"""
    if not is_clean(t):
        return None
    u = another(t)
    if not alpha.AlphaEquivalent(t, u):
        return None
    return is_same(t, u) or Bad('another normal form but for bound names:', u)


@law(clean_tree)
def names_stand_for_their_ids(t):
    """of a clean program in which no `var` declares a catch parameter's name again, names stand for one thing exactly if a resolver gives
    them one id"""
    if not is_clean(t) or not alpha.without_catch(alpha.program(t)):
        return None
    n = alpha.program(t)
    r, there, back = alpha.resolved(n), {}, {}
    for p in renaming.names_at(n):
        a, b = alpha.thing(n, p), renaming.identity_at(r, p)
        if a is None or there.setdefault(a, b) != b or back.setdefault(b, a) != a:
            return Bad('at %r in' % (p,), r.tree)
    return True


def pair_of(t):
    """the normal forms of a tree and of a variant of it; None where a `var` declares a catch parameter's name again"""
    if not is_clean(t):
        return None
    n, m = alpha.normal(t), alpha.normal(another(t))
    return (n, m) if alpha.without_catch(n) and alpha.without_catch(m) else None


@law(clean_tree)
def ids_decide(t):
    """where no `var` declares a catch parameter's name again, two programs are one but for names exactly if their normal forms have one
    outline and the ids that resolvers find in them correspond"""
    pair = pair_of(t)
    if pair is None:
        return None
    n, m = pair
    by_ids = alpha.OneOutline(n, m) is None and alpha.IdsCorrespond(1, 3, alpha.resolved(n), alpha.resolved(m, 3, 4, 5))
    return by_ids == alpha.AlphaVariants(n, m) or Bad('of', m.tree)


@law(clean_tree)
def lists_decide(t):
    """and exactly if the resolved normal forms have one outline, and their lists of identifiers what the words of the judge ask; the first
    word that fails is the judge's"""
    pair = pair_of(t)
    if pair is None or units.HasEval(D.all, t):
        return None
    n, m = pair
    r, s = alpha.resolved(n), alpha.resolved(m)
    asked = [('shape', alpha.OneOutline(r, s) is None)] + alpha.ListAsks(r, s)
    word = next((word for word, holds in asked if not holds), None)
    if (word is None) != alpha.AlphaVariants(n, m):
        return Bad('of', m.tree)
    return word == alpha_judge.verdict(t, m.tree) or Bad('the lists say', str(word), 'the judge', str(alpha_judge.verdict(t, m.tree)), 'of', m.tree)


@law(clean_tree)
def chain_keeps_all_but_names(t):
    """of a clean program that can be written down, in which nothing reads names and no `var` declares a catch parameter's name again, what
    a resolver, hygiene and the fixer answer is the program but for names"""
    if not may_be_chained(t):
        return None
    answer = chained(t)
    return alpha.AlphaEquivalent(t, answer) or Bad('the answer', answer, 'differs in %r' % (alpha.faults(alpha.normal(t), alpha.normal(answer)),))


@kept_by_identity
def is_plain_if_script(t):
    return not missing(t, PLAIN) if is_script(t) else is_module(t)


def resolved_both_ways(t):
    """what resolvers answer, the mark of free names another than the program's, and that mark"""
    return [scoping.resolved(D.all, t, 1, top) for top in (2, 1)]


@law(clean_tree)
def normal_names_mean_their_ids(t):
    """the names of the normal form of a clean module or plain script that can be written down, in which no `var` declares a catch
    parameter's name again, mean the ids that a resolver finds in the program; and none does in the normal form"""
    if not is_clean(t) or not is_writable(t) or not is_plain_if_script(t) or not alpha.without_catch(alpha.program(t)):
        return None
    n = alpha.normal(t)
    if not alpha.without_catch(n):
        return Bad('a variable is caught in', n.tree)
    for u in resolved_both_ways(t):
        fault = renaming.meanings_fault(n, alpha.normal(u))
        if fault:
            return Bad(fault, 'in the normal form of', u)
    return True


@law(clean_tree)
def finishing_keeps_sources(t):
    """where a program resolved from such a source, in which nothing reads names, is well-scoped, what hygiene and the fixer answer is the
    source but for names"""
    if not is_clean(t) or not is_writable(t) or units.HasEval(D.all, t) or not is_plain_if_script(t) or not alpha.without_catch(alpha.program(t)):
        return None
    sources = [u for u in resolved_both_ways(t) if scoping.WellScoped(D.all, u)]
    for u in sources:
        answer = fixed(with_hygiene(u))
        if not alpha.AlphaEquivalent(t, answer):
            return Bad('the answer', answer, 'of', u, 'differs in %r' % (alpha.faults(alpha.normal(t), alpha.normal(answer)),))
    return True if sources else None


@law(clean_tree)
def judge_finds_what_was_spoilt(t):
    """the independent judge and the relation say one thing of what a chain answers, and of that, spoilt"""
    if not may_be_chained(t):
        return None
    answer = chained(t)
    if alpha_judge.verdict(t, answer) is not None:
        return Bad('the answer', answer, 'is', alpha_judge.verdict(t, answer))
    other = spoilt(answer, choices_for(t))
    if other is None or not alpha.without_catch(alpha.normal(other[1])):
        return None
    return (alpha_judge.verdict(t, other[1]) is None) == alpha.AlphaEquivalent(t, other[1]) or Bad(other[0] + ':', other[1])


@law(clean_tree)
def judge_is_the_relation(t):
    """and of any other program of nearly one shape, where nothing reads names and no `var` declares a catch parameter's name again"""
    if not is_clean(t) or units.HasEval(D.all, t):
        return None
    u = another(t)
    if not alpha.without_catch(alpha.normal(t)) or not alpha.without_catch(alpha.normal(u)):
        return None
    return (alpha_judge.verdict(t, u) is None) == alpha.AlphaEquivalent(t, u) or Bad('says', str(alpha_judge.verdict(t, u)), 'of', u)


@law(clean_tree)
def what_is_spoilt_differs(t):
    """a chain's answer with one reference to another variable, one label, imported or exported name, or one binding changed is the program no longer"""
    if not is_clean(t) or not is_writable(t) or units.HasEval(D.all, t) or not scoping.NoEarlyErrorOfNames(D.all, t):
        return None
    answer, choices = chained(t), choices_for(t)
    n = alpha.normal(answer)
    way = choices.choice((spoilt_reference, spoilt_other))
    new = way(n, choices)
    if not new or new[0][1] in (js.codes('undefined'), js.codes('NaN'), js.codes('Infinity')):
        return None
    other = alpha.as_named(n.tree, dict(new))
    return not alpha.AlphaEquivalent(t, other) or Bad(way.__name__ + ':', other, 'of', answer)
