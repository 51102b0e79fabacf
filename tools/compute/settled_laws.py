"""Laws of what hygiene and the fixer answer and a chain of the three passes answers again, and of the ids that meet there."""
import js
import naming
import scoping
import units
from grammar_laws import crowded, paired_anew, set_anew
from lawbook import LAWS, Bad, D, any_tree, fits_place, fixed, ids_of, is_module, is_writable, law, same, well_scoped_module, well_scoped_program, writable_module
from naming import Analysis, is_name
from naming_laws import writable_and_well_scoped
from naming_rows import HYGIENE, cleared, with_hygiene
from script_laws import PREMISES, SCOPED, is_script, missing, well_scoped_script
from sites_laws import is_copy, sites, without_some
from substitution_laws import changes_of, substituted
from trees import with_identifiers


def finishable_script(t):
    return is_script(t) and not missing(t, PREMISES + SCOPED)


def law_of_goals(function):
    """adds a law of well-scoped modules that can be written down, and the same of plain scripts in which nothing reads names"""
    def of(premise, words):
        def asked(t):
            return function(t) if premise(t) else None
        asked.__doc__ = words + function.__doc__
        return asked
    LAWS[function.__name__] = (well_scoped_module, of(writable_and_well_scoped, ''))
    LAWS[function.__name__ + '_of_scripts'] = (well_scoped_script, of(finishable_script, 'of plain scripts: '))
    return function


def own(x):
    return x[0]


def text_by(m):
    return lambda x: m.get(x, x[0])


def finish(t):
    return set_anew(with_hygiene(t))


def elsewhere(span):
    return js.REC(lo=span.hi + 7, hi=span.lo)


@law_of_goals
def second_chain_changes_nothing(t):
    """what finishing answers to a well-scoped module that can be written down, a chain answers again, spans and all, wherever its pairs were put"""
    for tree in (t, crowded(t)):
        for once in (finish(tree), paired_anew(elsewhere, with_hygiene(tree))):
            twice = finish(scoping.resolved(D.all, once, 1, 2))
            if twice != once:
                return Bad('once:', once, 'again:', twice)
    return True


@law_of_goals
def one_analysis_scope(t):
    """an id is declared by one scope of the analysis"""
    a = Analysis(D.all, t)
    found = {}
    for s, p, x in a.declares:
        if found.setdefault(x, s) != s:
            return Bad(repr(x))
    return True if found else None


def ids_met(t):
    return D.all.swc_base_renaming_laws.Meetings.met(t)


def within_fault(a, b):
    """whether the first has no more pending, no more names, and pairs that are pairs of the second or pending there with a name"""
    pending, names, pairs = set(b.pending), set(b.names), set(b.pairs)
    ids = {x for _, x in pending}
    if not set(a.pending) <= pending:
        return 'more is pending'
    if not set(a.names) <= names:
        return 'more names'
    bad = [z for z in a.pairs if z not in pairs and not (z[0] in ids and z[1] in names)]
    return 'more meet: %r' % (bad[0],) if bad else None


def apart_where_met_fault(a, text):
    occurs = a.occurs
    found = {}
    for s, p, x in a.declares:
        found.setdefault(x, set()).add(s)
    xs = sorted(found)
    for i, x in enumerate(xs):
        for y in xs[i + 1:]:
            if text(x) == text(y) and any((s, y) in occurs for s in found[x]) and any((u, x) in occurs for u in found[y]):
                return 'declared', x, y
    loose = {y for _, _, y in a.ids if naming.IsLoose(a, y)}
    for x in xs:
        for y in loose:
            if text(x) == y[0]:
                return 'loose', x, y
    return None


@law_of_goals
def first_apart(t):
    """the texts that hygiene gives the ids of a well-scoped module are apart where ids meet"""
    a = Analysis(D.all, t)
    if not a.declares:
        return None
    f = apart_where_met_fault(a, text_by(naming.named(D.all, t, HYGIENE)))
    return True if f is None else Bad(repr(f))


@law_of_goals
def second_apart(t):
    """and so are the own texts of the answer, once it is resolved"""
    a = Analysis(D.all, scoping.resolved(D.all, finish(t), 1, 2))
    if not a.declares:
        return None
    f = apart_where_met_fault(a, own)
    return True if f is None else Bad(repr(f))


@law(well_scoped_program)
def apart_is_kept(t):
    """on any well-scoped program: texts apart where ids meet, then hygiene keeps all; and it keeps all only then"""
    if not scoping.WellScoped(D.all, t):
        return None
    a = Analysis(D.all, t)
    if not a.declares:
        return None
    f = apart_where_met_fault(a, own)
    m = naming.named(D.all, t, HYGIENE)
    kept = all(m[x] == x[0] for x in m)
    return kept == (f is None) or Bad(repr(f), repr(m))


@law(any_tree)
def meetings_are_meetings(t):
    """what the fold says of ids that meet is what the paths say"""
    if not fits_place(t):
        return None
    a = Analysis(D.all, t)
    by_paths = {(x, y) for s, p, x in a.declares for u, y in a.occurs if u == s}
    by_fold = {(x, y) for x, y in ids_met(t).pairs if naming.IsAnalysed(x) and naming.IsAnalysed(y)}
    if by_paths != by_fold:
        return Bad(repr(sorted(by_paths ^ by_fold)[:2]))
    return True if by_fold else None


@law(any_tree)
def programs_take_all(t):
    """a program takes all that is bound in it"""
    if not fits_place(t):
        return None
    return not ids_met(t).pending or Bad(repr(ids_met(t).pending[0]))


@law(any_tree)
def meetings_stripped(t):
    """in a stripped tree no more ids meet, but where the one was pending and the other a name"""
    if not fits_place(t) or not D.grammar.Targets.all_bare(t):
        return None
    f = within_fault(ids_met(D.grammar.Stripped.stripped(t)), ids_met(t))
    return True if f is None else Bad(f)


@law(any_tree)
def meetings_with_blocks(t):
    """nor with blocks round branches"""
    if not fits_place(t):
        return None
    f = within_fault(ids_met(D.grammar.Blocks.with_blocks(t)), ids_met(t))
    return True if f is None else Bad(f)


@law(any_tree)
def meetings_with_pairs(t):
    """with its due pairs a tree has the same names, and the same ids meet"""
    if not fits_place(t):
        return None
    u = D.grammar.Due.with_due_pairs(lambda s: s, t)
    a, b = ids_met(u), ids_met(t)
    return (a.pending, a.names, a.pairs) == (b.pending, b.names, b.pairs) or Bad('in', u)


def coded(t):
    """the tree with a context for each id that tells which it is"""
    codes = {}
    def code(i):
        return (i.sym, (1000 + codes.setdefault((i.sym, i.ctxt), len(codes)),))
    return with_identifiers(code, t), codes


def labelled(t):
    """the coded tree, its new texts, and the same with its new texts and its codes"""
    m = naming.named(D.all, t, HYGIENE)
    u, codes = coded(t)
    new = {(x[0], (1000 + n,)): (m.get(x, x[0]), (1000 + n,)) for x, n in codes.items()}
    v = substituted(changes_of({x: y for x, y in new.items() if x[0] != y[0]}), u, False)
    return u, new, v


@law_of_goals
def meetings_substituted(t):
    """with new texts the new ids meet of ids that met, and no others"""
    u, new, v = labelled(t)
    after = set(ids_met(v).pairs)
    before = {(new[x], new[y]) for x, y in ids_met(u).pairs}
    return after == before or Bad(repr(sorted(after ^ before)[:2]), 'in', v)


@law(any_tree)
def meetings_with_new_names(t):
    """in a program that fits, with any new ids the new ids meet of ids that met, and no others"""
    if not fits_place(t):
        return None
    found = list(ids_of(t))
    for new in ({x: found[(3 * n + 1) % len(found)] for n, x in enumerate(found) if n % 3}, {x: (x[0], (7,)) for x in found[::2]}):
        after, before = ids_met(substituted(lambda i: (new[i],) if i in new else None, t, False)), ids_met(t)
        if after.pending or set(after.names) != {new.get(x, x) for x in before.names}:
            return Bad('names', repr(new), 'in', t)
        if set(after.pairs) != {(new.get(x, x), new.get(y, y)) for x, y in before.pairs}:
            return Bad('pairs', repr(new), 'in', t)
    return True


@law_of_goals
def meetings_of_answers(t):
    """what meets in the answer, met in the input; and the labelled answer without labels is the answer"""
    u, new, v = labelled(t)
    answer = fixed(v)
    if not same(cleared(answer), finish(t)):
        return Bad('not the answer', answer)
    after = set(ids_met(answer).pairs)
    before = {(new[x], new[y]) for x, y in ids_met(u).pairs}
    return after <= before or Bad(repr(sorted(after - before)[:2]), 'in', answer)


@law_of_goals
def labels_are_ids(t):
    """two names of the answer have one label exactly if a resolver gives them one id"""
    u, new, v = labelled(t)
    answer = fixed(v)
    r = scoping.resolved(D.all, cleared(answer), 1, 2)
    a, b = scoping.Program(D.all, answer), scoping.Program(D.all, r)
    forth, back = {}, {}
    for p in a.identifiers:
        if a.S.is_name(a.standing(p)):
            i, j = a.identifier(p), b.identifier(p)
            x, y = (i.sym, i.ctxt), (j.sym, j.ctxt)
            if forth.setdefault(x, y) != y or back.setdefault(y, x) != x:
                return Bad(repr(x), repr(y), 'in', answer)
    return True if forth else None


@law_of_goals
def labelled_answers_are_left(t):
    """the labelled answer, its labels read as the ids that they stand for, is left of the input"""
    u, new, v = labelled(t)
    old = {y: x for x, y in new.items()}
    answer = with_identifiers(lambda i: old.get((i.sym, i.ctxt), (i.sym, i.ctxt)), fixed(v))
    after, before = sites(answer), sites(u)
    known = set(before.sites)
    if not all(s in known or is_copy(s) for s in after.sites):
        return Bad('other names in', answer)
    return without_some(after.sets, before.sets) or Bad('other scopes in', answer)


@law_of_goals
def answers_read_no_names(t):
    """where nothing reads names, nothing does in the answer"""
    if units.HasEval(D.all, t):
        return None
    return not units.HasEval(D.all, finish(t)) or Bad('eval')


@law_of_goals
def substituted_is_left(t):
    """the labelled input with its new texts, its labels read as the ids that they stand for, has the names and scopes of the
    input, and copies, and the program takes the same"""
    u, new, v = labelled(t)
    old = {y: x for x, y in new.items()}
    answer = with_identifiers(lambda i: old.get((i.sym, i.ctxt), (i.sym, i.ctxt)), v)
    after, before = sites(answer), sites(u)
    known = set(before.sites)
    if not all(s in known or is_copy(s) for s in after.sites):
        return Bad('other names in', answer)
    if not known <= set(after.sites):
        return Bad('names are gone in', answer)
    taken = D.sites.Sites.taken_at
    program = D.scoping.Places.program_place
    return (after.sets == before.sets and taken(program, answer) == taken(program, u)) or Bad('other scopes in', answer)


@law(writable_module)
def blocks_keep_sites(t):
    """a writable module, stripped, with its blocks has the same names with the same scopes round them"""
    if not is_writable(t) or not is_module(t):
        return None
    s = D.grammar.Stripped.stripped(t)
    b = D.grammar.Blocks.with_blocks(s)
    return sites(b) == sites(s) or Bad('in', b)


@law(any_tree)
def fixing_clears_contexts(t):
    """to fix a tree without its contexts is to fix it and take its contexts off"""
    if not fits_place(t):
        return None
    return fixed(cleared(t)) == cleared(fixed(t)) or Bad('in', fixed(t))


@law_of_goals
def answers_carry_labels(t):
    """the clauses of `Carries`, of the coded input and of the labelled answer without labels, resolved"""
    u, new, v = labelled(t)
    old = {y: x for x, y in new.items()}
    answer = fixed(v)
    r = scoping.resolved(D.all, cleared(answer), 1, 2)
    first, second = Analysis(D.all, u), Analysis(D.all, r)
    labels = scoping.Program(D.all, answer)
    def label(p):
        i = labels.identifier(p)
        return old.get((i.sym, i.ctxt))
    names = [(p, x) for p, s, x in second.ids if is_name(second, s)]
    forth, back = {}, {}
    for p, x in names:
        y = label(p)
        if y is None or new[y][0] != x[0]:
            return Bad('text at', repr(p))
        if forth.setdefault(x, y) != y or back.setdefault(y, x) != x:
            return Bad('ids at', repr(p))
    declared = {}
    for s, p, x in first.declares:
        declared.setdefault(x, set()).add(s)
    for s, p, x in second.declares:
        for w, y in second.occurs:
            if w == s and not any((z, forth[y]) in first.occurs for z in declared.get(forth[x], ())):
                return Bad('meets', repr(x), repr(y))
    for _, _, y in second.ids:
        if naming.IsLoose(second, y):
            if y not in forth or not naming.IsLoose(first, forth[y]) or new[forth[y]][0] != forth[y][0]:
                return Bad('loose', repr(y))
    return True if names else None


@law_of_goals
def answers_are_plain(t):
    """what is asked of a script alone is so of the answer"""
    return [name for name, holds in PREMISES if not holds(finish(t))] == [] or Bad('not plain:', finish(t))
