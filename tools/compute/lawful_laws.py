"""Laws of each lawful renamer: its names are given, contexts cleared, and then the fixer, in modules and in scripts.

A renamer is lawful whose texts are identifiers, and `eval` and `arguments` for these ids alone; its preserved ids keep apart where two of one
text that occur in one scope are not both declared there or further out, and no free id has the text of one that a scope declares in which it
occurs. `lawful_premises.py` leaves out one premise after the other.
"""
import hashlib
import itertools

import alpha
import alpha_laws
import js
import scoping
import script_laws
import trees
import units
from headline_laws import is_as_promised
from grammar_laws import is_same
from lawbook import Bad, D, clean_module, fits_grammar, fixed, is_module, is_name, is_writable, law, normal_form, well_scoped_module, writable_module
from naming import Analysis, Naming, Renaming, all_count, outer_count, with_number
from naming_laws import Occurrences, side_by_side, writable_and_well_scoped
from naming_rows import cleared
from script_premises import kept_by_identity
from substitution_laws import changes_of, substituted

HEAD = 'abcdefghijklmnopqrstuvwxyzABCDEFGHIJKLMNOPQRSTUVWXYZ$_'
TAIL = HEAD + '0123456789'
# counters are looked at up to this one
MOST = 4000


# ------------------------------------------------------------------------------------------------------ renamers
def words():
    """identifiers of one, two and three characters"""
    for rest in range(3):
        for first in HEAD:
            for others in itertools.product(TAIL, repeat=rest):
                yield first + ''.join(others)


SHORT = []


def short(n):
    if not SHORT:
        texts = (js.codes(word) for word in words())
        SHORT.extend(itertools.islice((text for text in texts if D.grammar.Writable.is_identifier_text(text)), MOST + 200))
    return SHORT[n]


def digest(x):
    return hashlib.md5(repr(x).encode()).digest()


def text_short(x, n):
    return short(n)


def text_short_from(x, n):
    """short texts, from another on for each id"""
    return short((n + digest(x)[0]) % 200) if n < 200 else short(n)


def text_of_others(x, n):
    """a few texts that are often those of others, in an order of the id's own, and then numbered"""
    few = ('a', 'b', 'c', 'd', 'f', 'v0', 'x', 'e', 'o', 'a1')
    return js.codes(few[(n * 3 + digest(x)[1]) % 10]) if n < 10 else js.codes('v%d' % n)


def text_own_second(x, n):
    """another's text under the first counter, the id's own under the second"""
    rest = [text for text in map(js.codes, 'bacd') if text != x[0]]
    numbered = js.codes('w%d' % n)
    return rest[digest(x)[2] % len(rest)] if n == 0 else x[0] if n == 1 else numbered if numbered != x[0] else js.codes('ww%d' % n)


def text_numbered(x, n):
    return js.codes('v%d' % n)


def text_by_use(x, n):
    """a short text of the id's own under the first counter, and then the other short texts in order: those of mangling, by a choice that means nothing"""
    own = digest(x)[3] % 8
    return short(own if n == 0 else n - 1 if n <= own else n)


TEXTS = {'hygiene': with_number, 'short': text_short, 'short from': text_short_from, 'of others': text_of_others, 'own second': text_own_second, 'numbered': text_numbered, 'by use': text_by_use}


def lawful(preserves=()):
    """28 renamers: seven kinds of texts, with all settings of the two flags"""
    for (name, text), mangles, resets in itertools.product(TEXTS.items(), (False, True), (False, True)):
        yield '%s mangles=%d resets=%d' % (name, mangles, resets), Renaming(text, mangles, resets, preserves)


def chosen(t, count, preserves=()):
    """so many of the renamers, by the tree"""
    all_of, own = list(lawful(preserves)), digest(js.text(t))
    return [all_of[i] for i in sorted({own[k] % len(all_of) for k in range(count)})]


# -------------------------------------------------------------------------------------------------- what is made
analysed = kept_by_identity(lambda t: Analysis(D.all, t))


def new_texts_of(t, r):
    """the map that is `Named`, by a plain procedure"""
    one = Naming(analysed(t), r, None, outer_count if r.mangles else all_count)
    return {x: r.text(x, n) for _, x, _, n in one.tries(MOST)}


def middle_of(t, new_texts):
    """the tree with its names given and its contexts cleared"""
    return cleared(substituted(changes_of({x: (text, ()) for x, text in new_texts.items()}), t, False) if new_texts else t)


def texts_fault(t, u, new_texts):
    """`HasNewTexts` of two normal forms"""
    program = scoping.Program(D.all, t)
    standings = [program.standing(p) for p in program.identifiers]
    pairs = list(side_by_side(t, u))
    if len(pairs) != len(standings):
        return 'another shape'
    for (i, j), standing in zip(pairs, standings):
        wanted = new_texts.get((i.sym, i.ctxt), i.sym) if is_name(standing) else i.sym
        if (j.sym, j.ctxt) != (wanted, ()):
            return 'another text of ' + js.string(i.sym)
    return None


def named_fault(t, r):
    """what a renamer makes of a tree can be written down, has its normal form but for bound names, the texts of its map, and no other span"""
    new_texts = new_texts_of(t, r)
    return fault_of_middle(t, new_texts, middle_of(t, new_texts))


def fault_of_middle(t, new_texts, middle):
    if not is_writable(middle):
        return Bad('not writable:', middle)
    if not is_same(t, middle):
        return Bad('another normal form:', middle)
    before, after = normal_form(t), normal_form(middle)
    fault = texts_fault(before, after, new_texts)
    if fault:
        return Bad(fault, 'in', middle)
    if script_laws.is_script(t) and not script_laws.missing(t, SETTLED) and script_laws.missing(middle, SETTLED):
        return Bad('not settled:', middle)
    without = [trees.with_identifiers(lambda i: ((), ()), u) for u in (before, after)]
    return None if without[0] == without[1] else Bad('other spans:', middle)


SETTLED = script_laws.PLAIN[:2]


def whole_fault(t, r):
    """... and then the fixer answers the record of promises"""
    new_texts = new_texts_of(t, r)
    middle = middle_of(t, new_texts)
    fault = fault_of_middle(t, new_texts, middle)
    if fault:
        return fault
    answer = fixed(middle)
    if is_module(t):
        promised = is_as_promised(t, answer)
        return None if promised is True else promised
    found = script_laws.once_clauses(t, answer)
    return script_laws.told(found) if found else None


def first_fault(t, rs, fault_of):
    """of each renamer what is wrong of a tree; True where nothing is"""
    for name, r in rs:
        fault = fault_of(t, r)
        if fault:
            return Bad(name, 'preserves %d ids:' % len(r.preserves), *fault.parts)
    return True


# ------------------------------------------------------------------------------------------------- preserved ids
def kept_faults(t, keeps):
    """the clauses of `KeepsApart` that do not hold"""
    found, all_of = [], Occurrences(t)
    for s, ids in all_of.occurs.items():
        above = all_of.at_or_above(s)
        here = [x for x in ids if x in keeps and all_of.declared.get(x, set()) & above]
        found += [('declared_apart', s, x, y) for x, y in itertools.combinations(here, 2) if x[0] == y[0]]
        own = [y for y, scopes in all_of.declared.items() if y in keeps and s in scopes]
        found += [('free_apart', s, x, y) for x in ids & all_of.frees for y in own if x[0] == y[0]]
    return found


def is_top_apart(t, keeps):
    """`KeepsTopApart`, of ids that are bound where the program is the only scope"""
    if not is_module(t):
        return True
    program = scoping.Program(D.all, t)
    top = {x for p, r, x in analysed(t).ids if x in keeps and program.S.is_binding(r) and [s for s, _ in program.rounds_at[p]] == [()]}
    return len({x[0] for x in top}) == len(top)


def preserved_sets(t):
    """ids that may be preserved: some of all, all, some of those that are bound, all, those of one text"""
    ids, bound = sorted({x for _, _, x in analysed(t).ids}), sorted(analysed(t).bound)
    yield from (ids[::3], ids[::2], ids, bound[::2], bound)
    for text in sorted({x[0] for x in bound})[:2]:
        yield [x for x in bound if x[0] == text]


def with_preserved(t, is_apart, fault_of, count):
    """the law for each such set of ids that is apart; None where none is"""
    met = None
    for preserves in preserved_sets(t):
        if not preserves or not is_apart(t, set(preserves)):
            continue
        met = first_fault(t, chosen(t, count, preserves), fault_of)
        if met is not True:
            return met
    return met


def keeps_apart(t, keeps):
    return not kept_faults(t, keeps)


# ---------------------------------------------------------------------------------------------------------- laws
@law(writable_module)
def renamers_keep_normal_forms(t):
    """what any of 28 lawful renamers makes of a writable module, well-scoped or not, can be written down, has the same normal form, spans too,
    but for the names that it binds, and there the texts of the renamer's map; preserved ids differ at the module's top"""
    if not is_module(t) or not is_writable(t):
        return None
    fault = first_fault(t, chosen(t, 4), named_fault)
    return fault if fault is not True else with_preserved(t, is_top_apart, named_fault, 2) or True


@law(well_scoped_module)
def renamers_keep_promises(t):
    """on well-scoped writable modules the fixer answers to what any of 28 lawful renamers made, which preserves none, what is promised"""
    return first_fault(t, chosen(t, 3), whole_fault) if writable_and_well_scoped(t) else None


@law(well_scoped_module)
def renamers_that_preserve_keep_promises(t):
    """... and if it preserves ids that keep apart"""
    return with_preserved(t, keeps_apart, whole_fault, 2) if writable_and_well_scoped(t) else None


def is_plain_script(t):
    return script_laws.is_script(t) and not script_laws.missing(t, script_laws.PREMISES + script_laws.SCOPED)


@law(script_laws.well_scoped_script)
def renamers_keep_promises_of_scripts(t):
    """the same of plain scripts, where the renamer gives `undefined`, `NaN` and `Infinity` to none but themselves"""
    return first_fault(t, chosen(t, 3), whole_fault) if is_plain_script(t) else None


@law(script_laws.well_scoped_script)
def renamers_that_preserve_keep_promises_of_scripts(t):
    """... and if it preserves ids that keep apart"""
    return with_preserved(t, keeps_apart, whole_fault, 2) if is_plain_script(t) else None


@law(clean_module)
def resolved_top_keeps_apart(t):
    """on what a resolver makes of a clean module without early errors of names all names of the program's scope, preserved, keep apart"""
    if not is_module(t) or not scoping.IsClean(D.all, t) or not scoping.NoEarlyErrorOfNames(D.all, t):
        return None
    for top in (1, 2):
        u = scoping.resolved(D.all, t, 1, top)
        all_of = Occurrences(u)
        faults = kept_faults(u, {x for x, scopes in all_of.declared.items() if () in scopes} | all_of.frees)
        if faults:
            return Bad(repr(faults), 'in', u)
    return True


# ------------------------------------------------------------------------------------------------------ mangling
def has_strays(t):
    """a script in which a plain function stands in a block of sloppy code, or whose program declares `undefined`, `NaN` or `Infinity`"""
    return script_laws.is_script(t) and not (script_laws.has_no_sloppy(t) and script_laws.declares_no_global_value(t))


def mangled(t, top, keeps_top):
    """what mangling makes of a resolved program; `keeps_top` preserves the ids that have just the mark of the program"""
    if has_strays(t):
        return cleared(t)
    own = sorted({x for _, _, x in analysed(t).ids if x[1] == (top,)}) if keeps_top else ()
    return middle_of(t, new_texts_of(t, Renaming(text_by_use, False, True, own)))


def is_mangled_as_promised(t):
    """whether what a resolver, mangling and the fixer answer is the program but for names, with names of the program's scope kept and not"""
    for top, keeps_top in itertools.product((2, 1), (False, True)):
        resolved = scoping.resolved(D.all, t, 1, top)
        answer = fixed(mangled(resolved, top, keeps_top))
        if not fits_grammar(answer) or not is_same(t, answer):
            return Bad('another form:', answer)
        if not alpha.AlphaEquivalent(t, answer):
            return Bad('top', str(top), 'kept', str(keeps_top), 'the answer', answer, 'differs in %r' % (alpha.faults(alpha.normal(t), alpha.normal(answer)),))
        faults = scoping.faults(scoping.NO_EARLY_ERROR, D.all, answer)
        if faults:
            return Bad(', '.join(faults), 'in', answer)
        if keeps_top and names_of_program(t) != names_of_program(answer):
            return Bad('another name of the program in', answer)
    return True


def names_of_program(t):
    """the texts that the program's scope declares"""
    return {name for _, _, name in scoping.Binds(scoping.Program(D.all, normal_form(t))) if scoping.Declares(scoping.Program(D.all, normal_form(t)), (), name)}


def may_be_mangled(t):
    return is_writable(t) and scoping.IsClean(D.all, t) and scoping.NoEarlyErrorOfNames(D.all, t) and not units.HasEval(D.all, t)


@law(alpha_laws.clean_tree)
def mangling_keeps_sources(t):
    """of a clean module or plain script without early errors of names that can be written down, in which nothing reads names, what a resolver,
    mangling and the fixer answer is the program but for names, and the names of the program's scope stay if they are to"""
    return is_mangled_as_promised(t) if may_be_mangled(t) and (is_module(t) or not script_laws.missing(t, script_laws.PLAIN)) else None


@law(alpha_laws.clean_tree)
def mangling_keeps_other_scripts(t):
    """the same of scripts that are not plain, of which nothing is proved but their form"""
    if is_module(t) or not may_be_mangled(t) or not script_laws.missing(t, script_laws.PLAIN):
        return None
    return is_mangled_as_promised(t)
