"""Laws of naming: which ids get new names, and which. They go by `naming.py`, which is written by hand."""
import itertools

import js
import naming
import naming_walk
import scoping
from antt_values import Rec
from grammar_laws import is_same
from lawbook import Bad, D, any_tree, clean_program, identity, is_module, is_name, is_writable, kids, law, normal_form, well_scoped_module, well_scoped_program
from naming import Analysis, Naming, Renaming, all_count, hygiene, numbered, outer_count
from naming_rows import with_hygiene


def of_few_texts(x, n):
    """different for each counter of an id, and often the text of another id"""
    return js.codes(('a', 'b', 'c', 'v0', 'v1', 'a1')[(n + len(x[1])) % 6] + ('' if n < 6 else str(n)))


def renamings(preserves=()):
    """renamers of each setting of the flags"""
    yield hygiene(preserves)
    for mangles, resets in itertools.product((False, True), repeat=2):
        yield numbered(mangles, resets, preserves)
        yield Renaming(of_few_texts, mangles, resets, preserves)


def some_ids(t):
    """every third id of the tree, to be preserved"""
    return sorted({x for _, _, x in t.ids})[::3]


def few_names(random, size):
    """well-scoped modules, programs of few names with other contexts than a resolver's, and any tree"""
    choice = random.below(4)
    if choice == 0:
        return random.well_scoped(size, True)
    if choice == 1:
        return random.wild(size, random.chance(0.6))
    t = random.names(size, random.chance(0.5))
    return random.recoloured(scoping.resolved(D.all, t)) if choice == 2 else random.disturbed(random.recoloured(scoping.resolved(D.all, t)))


@law(few_names)
def walk_gives_analysis_scopes(t):
    """the walk of naming.py agrees with `scopes_round` and `id_at` of the definitions"""
    analysis = Analysis(D.all, t)
    for p, standing, x in analysis.ids:
        if D.all.swc_base_rename_analysis.Analysis.scopes_round(t, p) != analysis.around[p]:
            return Bad('scopes_round at', repr(p))
        if D.all.swc_base_rename_analysis.Ids.id_at(t, p) != ((standing, x),):
            return Bad('id_at at', repr(p))
    return True if analysis.ids else None


@law(few_names)
def binding_has_one_analysis_scope(t):
    """each binding is declared by a scope of the analysis, and only a class, a function or a block opens one that the
    language does not have"""
    analysis = Analysis(D.all, t)
    bindings = [(p, r, x) for p, r, x in analysis.ids if analysis.program.S.is_binding(r) and naming.IsAnalysed(x)]
    for p, _, x in bindings:
        if not any(q == p for _, q, _ in analysis.declares):
            return Bad('no scope declares what stands at', repr(p))
    return True if bindings else None


@law(few_names)
def order_tells_sites_apart(t):
    """of two sites of a tree one comes before the other, and a scope's sites are all before or all behind another's, but
    for those within"""
    analysis = Analysis(D.all, t)
    sites = sorted({(s, p) for s, p, _ in analysis.declares}, key=analysis.key)
    if len(sites) < 2:
        return None
    if len({analysis.key(a) for a in sites}) != len(sites):
        return Bad('two sites are in no order')
    scopes = [s for s, _ in sites]
    for s in set(scopes):
        own = [i for i, u in enumerate(scopes) if u == s]
        if own != list(range(own[0], own[-1] + 1)):
            return Bad('the ids of a scope are not side by side:', repr(s))
        within = [i for i, u in enumerate(scopes) if naming.IsAtOrAbove(analysis, s, u)]
        if within != list(range(within[0], within[-1] + 1)) or within[0] != own[0]:
            return Bad('the ids within a scope are not behind its own:', repr(s))
    return True


@law(few_names)
def plain_procedure_is_named(t):
    """what a plain procedure answers meets each clause of `Named`, flat and chained, with ids preserved and without"""
    analysis = Analysis(D.all, t)
    if not analysis.declares:
        return None
    for preserves in ((), some_ids(analysis)):
        for r in renamings(preserves):
            for counts in (all_count, outer_count):
                one = Naming(analysis, r, None, counts)
                taken = one.counters()
                faults = one.faults(taken, one.new_texts(taken))
                if faults:
                    return Bad(repr(faults))
    return True


def all_scopes(scope):
    yield scope
    for inner in scope.inner:
        yield from all_scopes(inner)


@law(few_names)
def walk_by_the_rules_is_named(t):
    """a walk with open scopes, written from the rules, gives the map that is `Named`, flat and chained, with ids preserved
    and without; and at each of its scopes the cost of renaming"""
    analysis = Analysis(D.all, t)
    if not analysis.declares:
        return None
    walk = naming_walk.Walk(analysis.program)
    for scope in all_scopes(walk.root.inner[0]):
        if len(scope.within()) != naming.RenameCost(analysis, scope.path):
            return Bad('cost at', repr(scope.path))
    for preserves in ((), some_ids(analysis)):
        for r in renamings(preserves):
            for counts in (all_count, outer_count):
                one = Naming(analysis, r, None, counts)
                if naming_walk.names(walk, r, one.preserved, counts is outer_count) != one.new_texts():
                    return Bad('the definitions give', repr(one.new_texts()))
    return True


@law(few_names)
def named_fixes_the_map(t):
    """of all ways to give small counters to up to four ids just one meets the clauses of `Named`"""
    analysis = Analysis(D.all, t)
    found = False
    for r in renamings():
        for counts in (all_count, outer_count):
            one = Naming(analysis, r, None, counts)
            right = one.counters()
            if not 0 < len(right) < 5:
                continue
            found = True
            for numbers in itertools.product(range(max(right.values()) + 2), repeat=len(right)):
                taken = dict(zip(right, numbers))
                if (not one.faults(taken, one.new_texts(taken))) != (taken == right):
                    return Bad('counters', repr(taken), 'and', repr(right))
    return True if found else None


# what stands for the greatest `usize`, and how far counters are looked for where a renamer does not tell them apart
GREATEST, MOST = (2, 3, 4, 6), 40
# ids that no tree has, to be preserved too
ELSEWHERE = [(js.codes(text), (99,)) for text in ('v0', 'v1')]


def in_twos(x, n):
    """one text for two counters"""
    return js.codes('v%d' % (n // 2))


def with_lawless(lawful):
    """renamers, and one of each setting of the flags that does not tell counters apart"""
    return list(lawful) + [Renaming(in_twos, mangles, resets) for mangles, resets in itertools.product((False, True), repeat=2)]


def tells_apart(one, last):
    """`TellsApart`, of the ids that get names"""
    return all(len({one.r.text(x, n) for n in range(last + 1)}) == last + 1 for _, x in one.sites)


def crowd(one, a):
    """the fewest that a list of the preserved texts and one of the ids named before a site have"""
    return len(one.preserved) + len({y for _, y in one.IsEarlier(a)})


def tries_fault(one):
    """where the counter that an id takes is farther past its start than there are preserved texts and ids named before it"""
    for a, _, start, n in one.tries(MOST):
        if n > start + crowd(one, a) and tells_apart(one, start + crowd(one, a)):
            return Bad('counter', str(n), 'from', str(start), 'taken', str(crowd(one, a)))
    return None


def namings(analysis):
    """what is named in a tree: flat and chained, with ids preserved and without"""
    for preserves in ((), some_ids(analysis) + ELSEWHERE):
        for r in with_lawless(renamings(preserves)):
            yield from (Naming(analysis, r, None, counts) for counts in (all_count, outer_count))


@law(few_names)
def tries_are_few(t):
    """the counter that an id takes is at most as far past its start as there are preserved texts and ids named before it, where the
    renamer tells counters apart, flat and chained, with ids preserved and without"""
    analysis = Analysis(D.all, t)
    if not analysis.declares:
        return None
    return next((fault for fault in map(tries_fault, namings(analysis)) if fault), True)


def crowded_fault(one):
    """whether the counters are spent at some id, by a greatest one, and where they are and fewer texts are taken than there are counters
    from the start on"""
    found = False
    for a, x, start, n in one.tries(MOST):
        for greatest in GREATEST:
            if n >= greatest and tells_apart(one, greatest):
                found = True
                if greatest > start + crowd(one, a):
                    return found, Bad('greatest', str(greatest), 'start', str(start), 'taken', str(crowd(one, a)), 'at', js.string(x[0]))
    return found, None


def crowded_each(each):
    """the law of `crowded_fault` of each; None where counters are spent nowhere"""
    found = False
    for one in each:
        spent, fault = crowded_fault(one)
        found = found or spent
        if fault:
            return fault
    return True if found else None


@law(few_names)
def spent_are_crowded(t):
    """where the counters are spent at an id, with a small greatest one, there are as many preserved texts and ids named before it as
    there are counters from its start on, where the renamer tells counters apart, flat and chained, with ids preserved and without"""
    return crowded_each(namings(Analysis(D.all, t)))


@law(few_names)
def tries_are_those_of_the_clauses(t):
    """the counters that the laws of tries and of spent counters look at are those that a plain procedure finds by the clauses"""
    analysis = Analysis(D.all, t)
    if not analysis.declares:
        return None
    for one in namings(analysis):
        taken = one.tries(MOST)
        if all(n < MOST for _, _, _, n in taken):
            counters, wanted = {x: n for _, x, _, n in taken}, one.counters()
            if counters != wanted or any(one.IsFromStart(wanted, a, n) != (n >= start) for a, _, start, _ in taken for n in range(start + 2)):
                return Bad('counters', repr(counters), 'by the clauses', repr(wanted))
    return True


def writable_and_well_scoped(t):
    return is_module(t) and scoping.WellScoped(D.all, t) and is_writable(t)


class Occurrences:
    """for each scope of the language the ids that occur there or below, and for each id the scopes that declare it"""
    def __init__(self, t):
        self.ids = scoping.by_ids(D.all, t)
        program = scoping.Program(D.all, t)
        self.occurs, self.declared, self.frees = {}, {}, set()
        for p, r, name in scoping.Stands(self.ids):
            if is_name(r):
                x = identity(program.identifier(p))
                for s, _ in self.ids.rounds_at[p]:
                    self.occurs.setdefault(s, set()).add(x)
                if self.ids.S.is_binding(r):
                    self.declared.setdefault(x, set()).add(scoping.DeclaredBy(self.ids, p, r, name))
        self.frees = {x for ids in self.occurs.values() for x in ids if x not in self.declared}

    def at_or_above(self, s):
        return {s} | {u for u, _ in self.ids.rounds_at[s]}


def names_apart_faults(t, text):
    """the clauses of names apart that new texts do not meet: two ids that occur in one scope of the language and are
    declared there or further out have two texts; a free one has another text than what the scope declares; and keeps it"""
    found, all_of = [], Occurrences(t)
    for s, ids in all_of.occurs.items():
        above = all_of.at_or_above(s)
        here = [x for x in ids if all_of.declared.get(x, set()) & above]
        found += [('declared_apart', s, x, y) for x, y in itertools.combinations(here, 2) if text(x) == text(y)]
        own = [y for y, scopes in all_of.declared.items() if s in scopes]
        found += [('free_apart', s, x, y) for x in ids & all_of.frees for y in own if text(x) == text(y)]
    return found + [('free_kept', x) for x in all_of.frees if text(x) != x[0]]


@law(well_scoped_module)
def hygiene_sets_names_apart(t):
    """on well-scoped writable modules the names that hygiene gives are apart"""
    if not writable_and_well_scoped(t):
        return None
    for r in (hygiene(), numbered(False, True), numbered(True, False), Renaming(of_few_texts, True, False)):
        new_texts = naming.named(D.all, t, r)
        faults = names_apart_faults(t, lambda x, new_texts=new_texts: new_texts.get(x, x[0]))
        if faults:
            return Bad(repr(faults))
    return True


@law(well_scoped_module)
def hygiene_names_all_that_is_declared(t):
    """on well-scoped modules hygiene gives a name to each id that a binding declares, and to no other"""
    if not is_module(t) or not scoping.WellScoped(D.all, t):
        return None
    return set(naming.named(D.all, t, hygiene())) == Analysis(D.all, t).bound or Bad('others')


def side_by_side(t, u):
    """the identifiers of two trees of one shape, in pairs"""
    if t[0] == 'Identifier':
        yield t[2], u[2]
    for one, other in zip(kids(t), kids(u)):
        yield from side_by_side(one, other)


def keeps_ids(t, answer):
    """resolved again, the answer's normal form has one id at two names exactly where that of the tree has"""
    before, after = normal_form(t), normal_form(scoping.resolved(D.all, answer, 1, 1))
    program, there, back = scoping.Program(D.all, before), {}, {}
    standings = [program.standing(p) for p in program.identifiers]
    ids = [(identity(i), identity(j)) for (i, j), standing in zip(side_by_side(before, after), standings) if is_name(standing)]
    return all(there.setdefault(x, y) == y and back.setdefault(y, x) == x for x, y in ids)


@law(well_scoped_module)
def hygiene_keeps_ids(t):
    """on well-scoped writable modules the answer of hygiene is writable, has no early error of names and the same normal
    form but for bound names; resolved again, it gives one id exactly where there was one"""
    if not writable_and_well_scoped(t):
        return None
    answer = with_hygiene(t)
    if not is_writable(answer):
        return Bad('not writable:', answer)
    if not scoping.NoEarlyErrorOfNames(D.all, answer):
        return Bad('early error:', answer)
    if not is_same(t, answer):
        return Bad('another normal form:', answer)
    return keeps_ids(t, answer) or Bad('hygiene:', answer)


@law(well_scoped_program)
def chained_is_flat(t):
    """on well-scoped programs the names are those where only the names of a scope and of those round it count, in mangle
    mode and without"""
    if not scoping.WellScoped(D.all, t):
        return None
    analysis = Analysis(D.all, t)
    for preserves in ((), some_ids(analysis)):
        for r in renamings(preserves):
            flat, chained = Naming(analysis, r).new_texts(), Naming(analysis, r, None, outer_count).new_texts()
            if flat != chained:
                return Bad('flat', repr(flat), 'chained', repr(chained))
    return True


@law(clean_program)
def hygiene_settles(t):
    """what a resolver and hygiene make of a clean module without early errors of names, they make of it again"""
    if not scoping.IsClean(D.all, t) or not scoping.NoEarlyErrorOfNames(D.all, t) or not is_module(t):
        return None
    answer = with_hygiene(scoping.resolved(D.all, t, 1, 2))
    again = with_hygiene(scoping.resolved(D.all, answer, 1, 2))
    return answer == again or Bad('first:', answer, 'then:', again)


def layout_scopes(t):
    """the paths of all nodes that open a scope of the analysis, in the order in which they are entered"""
    found = []
    for p, (place, node) in t.program.at.items():
        if node[0] == 'Tree':
            for_body = bool(p) and t.A.is_for_body(t.program.at[p[:-1]][1], p[-1])
            kind = t.A.body_kind(for_body, t.A.own_kind(place, node[1], t.program.P.has_own_name(node[2])))
            if kind is not None:
                found.append((t.key((p, ()))[0], p))
    return [p for _, p in sorted(found)]


@law(few_names)
def layout_has_scopes_names_and_uses(t):
    """one walk lays out the scopes in their order, each with the scope that takes all names there, and the names so that those of a scope
    are a stretch"""
    analysis = Analysis(D.all, t)
    laid = D.all.swc_base_rename_analysis.Walk.laid_out(t)
    return layout_fault(analysis, laid)


def layout_fault(t, laid):
    paths = layout_scopes(t)
    number = {p: n for n, p in enumerate(paths)}
    if len(laid.regions) != len(paths):
        return Bad('number of scopes', repr((len(laid.regions), paths)))
    for n, (p, region) in enumerate(zip(paths, laid.regions)):
        takers = [m for m in (n, *(number[s] for s, _ in t.around[p])) if laid.regions[m].kind == 'Fn']
        if region.function != (tuple(takers[:1]) or None):
            return Bad('function of', repr((n, p, region.function, takers)))
    read, numbers = D.all.swc_base_rename_analysis.Read, D.all.swc_base_rename_analysis.Numbers
    known = numbers.known_by(laid.names, len(laid.names))
    sites = sorted((site.scope, site.position, site.id) for site in read.sites_by(laid.regions, laid.names, len(laid.names)))
    wanted = sorted(t.declares, key=lambda row: t.key((row[0], row[1])))
    if [(scope, known[i].id) for scope, _, i in sites] != [(number[s], x) for s, _, x in wanted]:
        return Bad('sites', repr((sites, wanted)))
    occurs = {(n, e.id) for n, region in enumerate(laid.regions) for e in known for p in e.positions if region.start <= p < region.end}
    if occurs != {(number[s], x) for s, x in t.occurs}:
        return Bad('occurrences', repr(occurs ^ {(number[s], x) for s, x in t.occurs}))
    if {e.id[0] for e in known if read.is_loose(e)} != naming.preserved_texts(t, ()):
        return Bad('loose', '')
    return True if laid.names else None


def leaking_count(t):
    """which names count at a scope: those of scopes that leak everywhere, the others in the scope where they were given and below"""
    laid = D.all.swc_base_rename_analysis.Walk.laid_out(t.program.tree)
    last = {(n.ident.sym, n.ident.ctxt): at for at, n in enumerate(laid.names) if n.standing != 'Label'}
    ends = dict(zip(layout_scopes(t), (region.end for region in laid.regions)))
    leaking = {s for s, _, x in t.declares if last[x] >= ends[s]}
    return lambda _, u, s: u in leaking or outer_count(t, u, s)


@law(few_names)
def leaking_names_count_enough(t):
    """names are those where all earlier ones count if just those count of scopes that leak, so that an id of theirs occurs behind them, and of
    scopes round, whatever the program and the settings but mangling"""
    analysis = Analysis(D.all, t)
    if not analysis.declares:
        return None
    counts = leaking_count(analysis)
    for preserves in ((), some_ids(analysis)):
        for r in renamings(preserves):
            if not r.mangles:
                flat, leaking = Naming(analysis, r).new_texts(), Naming(analysis, r, None, counts).new_texts()
                if flat != leaking:
                    return Bad('all:', repr(flat), 'leaking:', repr(leaking))
    return True


@law(few_names)
def stretches_say_what_is_round(t):
    """scopes by number are nested or apart, with starts that do not fall; of scopes that declare, numbers and stretches say
    which is round which; and these are in preorder"""
    analysis = Analysis(D.all, t)
    regions = D.all.swc_base_rename_analysis.Walk.laid_out(t).regions
    for r, q in itertools.combinations(regions, 2):
        if not (r.start <= q.start and (q.end <= r.end or r.end <= q.start)):
            return Bad('neither nested nor apart', repr((r, q)))
    paths = layout_scopes(analysis)
    number = {p: n for n, p in enumerate(paths)}
    declaring = sorted({number[s] for s, _, _ in analysis.declares})
    read = Rec(regions=Rec(items=regions))
    surrounds = D.all.swc_base_rename_analysis_laws.Means.surrounds
    inside = {(m, n) for m in declaring for n in declaring if surrounds(read, m, n)}
    if inside != {(m, n) for m in declaring for n in declaring if naming.IsAtOrAbove(analysis, paths[m], paths[n])}:
        return Bad('round', repr((inside, paths)))
    for m, k, n in itertools.combinations(declaring, 3):
        if (m, n) in inside and (m, k) not in inside:
            return Bad('not in preorder', repr((m, k, n)))
    return True if len(declaring) > 1 else None


def in_order(analysis, r, counts):
    """the texts of ids by the definitions of names in order, on a list of sites whose scopes and ids are numbered"""
    order = D.all.swc_base_rename_naming.InOrder
    paths = layout_scopes(analysis)
    number = {p: n for n, p in enumerate(paths)}
    ids = sorted({x for _, _, x in analysis.declares})
    rows = sorted(analysis.declares, key=lambda row: analysis.key((row[0], row[1])))
    sites = tuple((number[s], ids.index(x)) for s, _, x in rows)
    preserved = naming.preserved_texts(analysis, r.preserves)
    rules = Rec(
        text=lambda x: lambda k: r.text(ids[x], k), counter_goes_on=naming.counts_on(r), stays=lambda x: ids[x] in r.preserves or ids[x][0] == naming.EVAL,
        preserved=lambda text: text in preserved, occurs=lambda s: lambda x: naming.OccursIn(analysis, paths[s], ids[x]),
        counts=lambda u: lambda s: counts(analysis, paths[u], paths[s]))
    choices = ()
    for site in order.named_sites(rules, (), sites):
        k = order.past(site[0], choices[-1:] or None) if rules.counter_goes_on else 0
        while order.is_taken(rules, choices, site[0], r.text(ids[site[1]], k)):
            k += 1
        choices += ((site, k),)
    found = {ids[x]: order.name_in(rules, choices, x) for x in range(len(ids))}
    return {x: text[0] for x, text in found.items() if text is not None}


@law(few_names)
def names_in_order_are_named(t):
    """on the list of sites with scopes and ids as numbers the relation of lists gives the map that is `Named`, for each setting
    of the flags, with ids preserved and without, whether all names count or the outer ones"""
    analysis = Analysis(D.all, t)
    if not analysis.declares:
        return None
    for preserves in ((), some_ids(analysis)):
        for r in renamings(preserves):
            for counts in (all_count, outer_count):
                texts, wanted = in_order(analysis, r, counts), Naming(analysis, r, None, counts).new_texts()
                if texts != wanted:
                    return Bad(repr((texts, wanted)))
    return True
