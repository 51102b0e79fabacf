"""Laws of naming where something reads names: units apart, and the top map. They go by `units.py`, which is written by hand."""
import copy

import js
import naming
import naming_walk
import scoping
import units
from lawbook import Bad, D, fits_place, identity, kids, law, well_scoped_program
from naming import Renaming, hygiene, numbered
from naming_laws import ELSEWHERE, crowded_each, of_few_texts, some_ids, tries_fault, with_lawless
from naming_rows import renamed
from substitution_laws import changes_of, fresh_maps, places_below, substituted
from trees import ABSENT, SPAN, at, paths, put, slots, with_identifiers, with_kids
from units import analysed

TABLE = ((1, 0), (2, 0), (3, 0), (4, 1), (5, 1), (6, 4))
TOPS = (0, 1, 4)
CONTEXTS = ((), (1,), (1,), (2,), (3,), (4,), (4,), (5,), (5,), (6,), (3, 4), (4, 3), (9,))
UNITS = ('ArrowExpr', 'FnExpr', 'MethodProp', 'GetterProp', 'SetterProp', 'ClassMethod', 'PrivateMethod', 'Constructor', 'FnDecl', 'ClassDecl',
         'ObjectLit', 'ClassExpr', 'ExportDefaultDecl')
FUNCTIONS = {'Function', 'BlockFunction', 'SloppyFunction'}
ONE_EXPRESSION, ONE_STATEMENT = ('One', ('Node', 'Expr')), ('One', ('Node', 'Stmt'))


# ---------------------------------------------------------------------------------------- sources of random trees
def with_contexts(random, t):
    """each context, or each identifier, gets one of few contexts, above and below the top marks"""
    new, each = {}, random.chance(0.2)

    def change(i):
        key = (i.sym, i.ctxt, i.span.lo if each else 0)
        if key not in new:
            new[key] = random.pick(CONTEXTS)
        return i.sym, new[key]
    return with_identifiers(change, t)


def callee(random):
    """`eval`, in pairs and sequences of one, and now and then what is no call of it"""
    made = ('Identifier', 'Ident', js.REC(span=SPAN[1], ctxt=random.pick(CONTEXTS), sym=js.codes('eval' if random.chance(0.95) else 'a')))
    while random.chance(0.2):
        in_sequence = ('Tree', 'SeqExpr', (SPAN, ('List', (made,) * random.pick([1, 1, 1, 2]))))
        made = ('Tree', 'ParenExpr', (SPAN, made)) if random.chance(0.6) else in_sequence
    return made


def call(random, argument):
    arguments = ('List', (('Tree', 'ExprOrSpread', (ABSENT, argument)),) if random.chance(0.7) else ())
    return ('Tree', 'CallExpr', (SPAN, callee(random), arguments))


def reading(random, t):
    """the tree with a few calls of `eval` and `with` statements in it"""
    for _ in range(random.pick([1, 1, 2, 3])):
        spots = [(path, node, slot) for path, node, slot in slots(t) if slot in (ONE_EXPRESSION, ONE_STATEMENT)]
        if not spots:
            return t
        path, node, slot = random.pick(spots)
        t = put(t, path, call(random, node) if slot == ONE_EXPRESSION else ('Tree', 'WithStmt', (SPAN, callee(random), node)))
    return t


def reading_tree(random, size):
    """trees with units in which something reads names: of few names, resolved or not, and any that fit their places"""
    choice, module = random.below(4), random.chance(0.6)
    if choice == 0:
        t = scoping.resolved(D.all, random.favouring(UNITS, lambda: random.names(size, module)), 1, 1)
    elif choice == 1:
        t = random.favouring(UNITS, lambda: random.names(size, module))
    else:
        t = random.wild_with(UNITS, size)
    return reading(random, with_contexts(random, t))


def perhaps_reading(random, size):
    """the same, and those before something reads names in them"""
    return reading_tree(random, size) if random.chance(0.3) else with_contexts(random, random.wild_with(UNITS, size))


# ------------------------------------------------------------------------------------------------------- renamers
def renamings(t):
    preserves = some_ids(t)
    return [hygiene(), hygiene(preserves), numbered(True, False), Renaming(of_few_texts, False, True, preserves), Renaming(of_few_texts, True, False)]


def reads(t):
    return fits_place(t) and units.HasEval(D.all, t)


def preserved_by(t, r):
    """what no name may be in a unit, for each top mark"""
    return [units.program_texts(t, r, units.Marks(TABLE, top)) for top in TOPS]


# ----------------------------------------------------------------------------------------------------------- laws
def is_called_eval(t):
    """through pairs and sequences of one stands the identifier expression `eval`"""
    while t[0] == 'Tree' and (t[1] == 'ParenExpr' or t[1] == 'SeqExpr' and len(t[2][1][1]) == 1):
        t = t[2][1] if t[1] == 'ParenExpr' else t[2][1][1][0]
    return t[0] == 'Identifier' and t[1] == 'Ident' and js.string(t[2].sym) == 'eval'


@law(reading_tree)
def readers_of_names_are_calls_and_with(t):
    """what reads names is a call of `eval`, by a loop through pairs and sequences of one, or `with`, and nothing else"""
    if not fits_place(t):
        return None
    found = [node for _, node in paths(t) if node[0] == 'Tree' and (node[1] == 'WithStmt' or node[1] == 'CallExpr' and is_called_eval(node[2][1]))]
    if [node for _, node in paths(t) if D.all.swc_base_rename_units.Eval.reads_names(node)] != found:
        return Bad('others')
    return True if found else None


def part_of(t, path, occurs_of_all):
    """what an analysis says of the node at a path: scopes there and below, and ids below; ids occur in a scope as they do in
    the whole tree, or only by what stands below"""
    part, n = copy.copy(t), len(path)
    part.ids = [row for row in t.ids if row[0][:n] == path]
    part.declares = [row for row in t.declares if row[0][:n] == path]
    part.bound = {x for _, r, x in part.ids if t.program.S.is_binding(r)}
    by = t.ids if occurs_of_all else part.ids
    part.occurs = {(s, x) for p, r, x in by if naming.is_name(t, r) and naming.IsAnalysed(x) for s in t.scopes_that_see(p) if s[:n] == path}
    return part


def names_at_its_place(t, occurs_of_all):
    if not reads(t):
        return None
    whole, found = analysed(D.all, t), False
    for path, u in units.outermost(D.all, t):
        part = part_of(whole, path, occurs_of_all)
        for r in renamings(whole):
            for preserved in preserved_by(whole, r):
                there = units.new_texts(part, r, preserved | naming.preserved_texts(part, r.preserves))
                here = units.unit_names(D.all, u, r, preserved)
                found = found or bool(here)
                if there != here:
                    return Bad('unit at', repr(path), 'alone', repr(here), 'at its place', repr(there))
    return True if found else None


@law(reading_tree)
def unit_is_named_as_at_its_place(t):
    """a unit as a tree of its own has the map that it has at its place in the program: by the sites whose scopes stand there or
    below, and by the ids that occur, are loose and are bound below"""
    return names_at_its_place(t, False)


@law(reading_tree)
def unit_is_named_by_what_occurs_in_the_program(t):
    """the same where ids occur in its scopes as they do in the whole program"""
    return names_at_its_place(t, True)


def sites_in_order(t):
    return sorted({(s, p) for s, p, _ in t.declares}, key=t.key)


@law(reading_tree)
def unit_is_analysed_as_at_its_place(t):
    """the scopes of a unit as a tree of its own, their order, what they declare and what occurs in them are those of the program"""
    if not reads(t):
        return None
    whole, found = analysed(D.all, t), False
    for path, u in units.outermost(D.all, t):
        n, here, part = len(path), analysed(D.all, u), part_of(whole, path, False)
        found = found or bool(here.ids)
        if [(path + p, x) for p, _, x in here.ids] != [(p, x) for p, _, x in part.ids]:
            return Bad('ids', repr(path))
        if {(path + s, path + p, x) for s, p, x in here.declares} != set(part.declares):
            return Bad('declares', repr(path), repr(part.declares))
        if {(path + s, x) for s, x in here.occurs} != part.occurs or here.bound != part.bound:
            return Bad('occurs', repr(path))
        for p, around in here.around.items():
            if [(path + s, k) for s, k in around] != [(s, k) for s, k in whole.around[path + p] if s[:n] == path]:
                return Bad('round', repr(path + p))
        if [(path + s, path + p) for s, p in sites_in_order(here)] != sites_in_order(part):
            return Bad('order', repr(path))
    return True if found else None


@law(reading_tree)
def standings_in_a_unit_name_alike(t):
    """identifiers stand in a unit as in the unit as a tree of its own, but for the names of function declarations, which leave
    blocks in either way: the unit alone does not say whether its code is strict"""
    if not reads(t):
        return None
    whole, found = scoping.Program(D.all, t), False
    for path, u in units.outermost(D.all, t):
        program = scoping.Program(D.all, u)
        for p in program.identifiers:
            found, one, other = True, program.standing(p), whole.standing(path + p)
            if one != other and not {one, other} <= FUNCTIONS:
                return Bad('at', repr(path + p), one, other)
    return True if found else None


def place_of(keeps, t, path):
    """the substitution's place of what stands at a path"""
    place = 'Other'
    for n, i in enumerate(path):
        above = at(t, path[:n])
        place = places_below(keeps, place, above, i) if above[0] == 'Tree' else place
    return place


@law(reading_tree)
def unit_is_substituted_as_at_its_place(t):
    """what a unit becomes by a map as a tree of its own, it becomes at its place in the program, with class names kept or not"""
    if not reads(t):
        return None
    whole, found = analysed(D.all, t), False
    for path, u in units.outermost(D.all, t):
        maps = [units.unit_names(D.all, u, hygiene(), preserved) for preserved in preserved_by(whole, hygiene())]
        for new_ids in list(fresh_maps(t)) + [{x: (text, ()) for x, text in names.items()} for names in maps]:
            for keeps in (False, True):
                found, changes = True, changes_of(new_ids)
                alone = substituted(changes, u, keeps)
                there = D.substitution.Substituted.substituted(changes, keeps, place_of(keeps, t, path), u)
                if alone != there:
                    return Bad('unit', repr(path), 'alone', repr(alone), 'there', repr(there))
    return True if found else None


@law(reading_tree)
def other_items_do_not_change_a_unit(t):
    """an outermost unit is one node before and after, and stays a unit's kind of node"""
    if not reads(t):
        return None
    whole, found = analysed(D.all, t), False
    for path, u in units.outermost(D.all, t):
        for r in renamings(whole)[:2]:
            for keeps in (False, True):
                found, after = True, units.alone(D.all, u, r, preserved_by(whole, r)[1], keeps)
                if after[:2] != u[:2] or not fits_place(put(t, path, after)):
                    return Bad('unit', repr(path), 'becomes', repr(after))
    return True if found else None


def walked(t, becomes):
    """each child that is a unit in which nothing reads names becomes what it does, what stands in the others is walked over"""
    new = []
    for i, c in enumerate(kids(t)):
        here = ('Fields', t[1]) if t[0] == 'Tree' else 'Items'
        is_unit = D.all.swc_base_rename_units.Walk.is_unit_at(here, i, c)
        new.append(becomes(c) if is_unit and not units.HasEval(D.all, c) else walked(c, becomes))
    return with_kids(t, new) if kids(t) else t


def walk_names(t, r, preserved):
    """the map by a walk that is written from the rules"""
    analysis = analysed(D.all, t)
    return naming_walk.names(naming_walk.Walk(analysis.program), r, preserved | naming.preserved_texts(analysis, r.preserves), r.mangles)


def by_walks(t, r, marks, keeps):
    """what a renamer makes of a tree, by walks"""
    whole = analysed(D.all, t)
    own = () if marks.top == 0 else (marks.top,)
    texts = {x[0] for _, standing, x in whole.ids if whole.program.S.is_binding(standing) and x[1] == own}
    preserved = texts | naming.preserved_texts(whole, r.preserves)
    parents = dict(marks.table)

    def goes_up(mark):
        while mark not in (marks.top, 0):
            mark = parents.get(mark, 0)
        return mark == marks.top
    kept = frozenset(x for _, _, x in whole.ids if goes_up(((0,) + x[1])[-1]))
    top = naming_walk.names(naming_walk.Walk(whole.program), Renaming(r.text, r.mangles, r.resets, r.preserves | kept), preserved, r.mangles)
    answer = walked(t, lambda u: units.given(D.all, walk_names(u, r, preserved), u, keeps))
    return units.given(D.all, top, answer, keeps)


def becomes(u):
    return units.given(D.all, units.unit_names(D.all, u, numbered(), set()), u, True)


def has_become(u, v):
    return becomes(u) == v


@law(reading_tree)
def walk_finds_the_outermost_units(t):
    """a walk down that renames each child that is a unit in which nothing reads names, and else goes on, gives the tree that the
    outermost units by their paths give, and it meets `HasUnits`"""
    if not reads(t):
        return None
    alone = units.outermost(D.all, t)
    answer, by_paths = walked(t, becomes), t
    for path, u in alone:
        by_paths = put(by_paths, path, becomes(u))
    if answer != by_paths:
        return Bad('walk', answer, 'paths', by_paths)
    faults = units.units_faults(D.all, has_become, t, answer)
    if faults:
        return Bad('clauses', repr(faults))
    if answer != t and not units.units_faults(D.all, has_become, t, t):
        return Bad('the tree itself meets the clauses')
    return True if alone else None


@law(reading_tree)
def walks_by_the_rules_name_units(t):
    """walks that are written from the rules give the same answer, for each top mark, with class names kept and not"""
    if not reads(t):
        return None
    whole = analysed(D.all, t)
    for number, r in enumerate(renamings(whole)):
        for top in TOPS:
            marks, keeps = units.Marks(TABLE, top), (number + top) % 2 == 0
            answer, wanted = by_walks(t, r, marks, keeps), units.renamed_by_units(D.all, t, r, marks, keeps)
            if answer != wanted:
                return Bad('top', str(top), 'walks', answer, 'definitions', wanted)
    return True


@law(perhaps_reading)
def without_eval_names_are_plain(t):
    """where nothing reads names, or that is ignored, the answer is that of the whole tree's map, whatever the top mark"""
    if not fits_place(t):
        return None
    whole, ignores = analysed(D.all, t), units.HasEval(D.all, t)
    for r in renamings(whole):
        for keeps in (False, True):
            wanted = renamed(t, r, keeps, units.counting(r))
            for top in TOPS if r.resets else TOPS[:1]:
                answer = units.renamed_by_units(D.all, t, r, units.Marks(TABLE, top), keeps, ignores)
                if answer != wanted:
                    return Bad('top', str(top), answer)
    return True if whole.declares else None


@law(reading_tree)
def under_the_root_only_units_change(t):
    """with the root as top mark the outermost units become what they do alone, and nothing else changes"""
    if not reads(t):
        return None
    whole = analysed(D.all, t)
    for r in renamings(whole):
        preserved = units.program_texts(whole, r, units.Marks(TABLE, 0))
        for keeps in (False, True):
            def is_renamed(u, v, r=r, keeps=keeps, preserved=preserved):
                return v == units.alone(D.all, u, r, preserved, keeps)
            faults = units.units_faults(D.all, is_renamed, t, units.renamed_by_units(D.all, t, r, units.Marks(TABLE, 0), keeps))
            if faults:
                return Bad(repr(faults))
    return True


def namings_of(t):
    """what is named where something reads names, for each renamer and top mark: the program, and then each outermost unit"""
    whole, alone = analysed(D.all, t), [u for _, u in units.outermost(D.all, t)]
    for r in with_lawless(renamings(whole)) + [numbered(False, True, ELSEWHERE)]:
        for top in TOPS:
            marks = units.Marks(TABLE, top)
            preserved = units.program_texts(whole, r, marks)
            yield units.top_naming(D.all, whole, r, marks, preserved)
            yield from (units.unit_naming(D.all, u, r, preserved) for u in alone)


@law(reading_tree)
def tries_by_units_are_few(t):
    """where something reads names, the counter that an id of the program or of an outermost unit takes is at most as far past its
    start as there are preserved texts and ids named before it, where the renamer tells counters apart"""
    if not reads(t):
        return None
    return next((fault for fault in map(tries_fault, namings_of(t)) if fault), True)


@law(reading_tree)
def refusals_are_of_crowding(t):
    """where something reads names and the counters are spent at an id of the program or of an outermost unit, with a small greatest
    one, there are as many preserved texts and ids named before it as counters from its start on, where the renamer tells them apart"""
    return crowded_each(namings_of(t)) if reads(t) else None


def without_units(t):
    """the tree with nothing in the place of each outermost unit"""
    for path, _ in units.outermost(D.all, t):
        t = put(t, path, ABSENT)
    return t


@law(reading_tree)
def descending_ids_stay_outside_units(t):
    """no id whose outer mark descends from the top mark changes outside of the outermost units, but for the names that classes keep"""
    if not reads(t):
        return None
    whole, outside, found = analysed(D.all, t), without_units(t), False
    for r in renamings(whole):
        for top in TOPS:
            marks = units.Marks(TABLE, top)
            names = units.top_names(D.all, whole, r, marks, units.program_texts(whole, r, marks))
            below = {x for _, _, x in whole.ids if units.descends(D.all, TABLE, top, x)}
            if below & set(names):
                return Bad('top', str(top), 'names', repr(below & set(names)))
            answer = units.given(D.all, names, outside, False)
            before, after = ([identity(node[2]) for _, node in listed(tree) if identity(node[2]) in below] for tree in (outside, answer))
            found = found or bool(before)
            if before != after:
                return Bad('top', str(top), 'becomes', answer)
    return True if found else None


def listed(t):
    """(path, identifier) of all identifiers but those in lists of exports, which may be added"""
    lists = [path for path, node in paths(t) if node[0] == 'Tree' and node[1] == 'NamedExport']
    return [(path, node) for path, node in paths(t) if node[0] == 'Identifier' and not any(path[:len(p)] == p for p in lists)]


def counted_apart(t, r, preserved):
    """what is wrong where all names count, or only those of a scope and of the scopes round it, if the maps differ"""
    flat, chained = [naming.Naming(t, r, preserved, counts).new_texts() for counts in (naming.all_count, naming.outer_count)]
    return None if flat == chained else Bad('flat', repr(flat), 'chained', repr(chained))


@law(well_scoped_program)
def chained_is_flat_in_units(t):
    """of a well-scoped program, and of each unit in it alone, the names are those where only the names of a scope and of those
    round it count, whatever texts no name may be"""
    if not scoping.WellScoped(D.all, t):
        return None
    alone = [t] + [u for _, u in units.units(D.all, t)]
    for u in alone:
        analysis = analysed(D.all, u)
        texts = {js.codes(text) for text in ('a', 'b1')}
        for r in (hygiene(some_ids(analysis)), numbered(True, False), Renaming(of_few_texts, False, True, ()), Renaming(of_few_texts, True, False)):
            bad = counted_apart(analysis, r, set()) or counted_apart(analysis, r, texts)
            if bad:
                return bad
    return True if len(alone) > 1 else None


def well_scoped_reading(random, size):
    """programs in which something reads names and that are mostly well-scoped"""
    t = reading(random, random.favouring(UNITS, lambda: random.names(size, random.chance(0.5))))
    t = with_identifiers(lambda i: (i.sym, ()), t)
    if not scoping.NoEarlyErrorOfNames(D.all, t):
        return None
    t = scoping.resolved(D.all, t, 1, random.pick([1, 2]))
    t = random.recoloured(t) if random.chance(0.5) else t
    return random.disturbed(t) if random.chance(0.2) else t


@law(well_scoped_reading)
def maps_by_units_are_flat(t):
    """where something reads names in a well-scoped program, the map of the program and that of each outermost unit are the same
    whether all names count or those of a scope and of the scopes round it alone"""
    if not reads(t) or not scoping.WellScoped(D.all, t):
        return None
    found = False
    for one in namings_of(t):
        found, bad = found or bool(one.sites), counted_apart(one.t, one.r, one.preserved)
        if bad:
            return bad
    return True if found else None
