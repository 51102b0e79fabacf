"""Laws of places, scopes, meaning, resolved and well-scoped trees. They go by `scoping.py`, which is written by hand."""
import random as chance

import js
import scoping
import trees
from lawbook import (Bad, D, any_tree, bound_ids, clean_module, clean_program, expressions_as_names, identity, is_module, is_name, kind,
                     law, lists_are_items, same, well_scoped_module)
from trees import at, paths


@law(clean_program)
def walk_gives_places_and_rounds(t):
    """the walk of scoping.py agrees with `place_at`, `rounds`, `taker` and `scope_count` of the definitions"""
    places, scopes = D.scoping.Places, D.scoping.Scopes
    program = scoping.Program(D.all, t)
    for path in program.identifiers:
        if places.place_at(places.program_place, t, path) != (program.at[path],):
            return Bad('place_at at', repr(path))
        if scopes.rounds(places.program_place, t, path) != program.rounds_at[path]:
            return Bad('rounds at', repr(path))
        for standing in ('Variable', 'Lexical', 'SloppyFunction'):
            taker = scoping.taker(program, standing, path)
            if scopes.taker(standing, t, path) != (None if taker is None else (taker,)):
                return Bad('taker', standing, 'at', repr(path))
    return scopes.scope_count(places.program_place, t) == len(program.scopes) or Bad('scope_count')


@law(clean_module)
def clean_becomes_well_scoped(t):
    """a clean module without early error of names, each export list an item of it, is well-scoped when it is resolved"""
    if not is_module(t) or not lists_are_items(t) or not scoping.IsClean(D.all, t) or not scoping.NoEarlyErrorOfNames(D.all, t):
        return None
    for unresolved, top in ((1, 2), (1, 1)):
        answer = scoping.resolved(D.all, t, unresolved, top)
        faults = scoping.faults(scoping.WELL_SCOPED, D.all, answer)
        if faults:
            return Bad(', '.join(faults) + ':', answer)
    return True


@law(clean_program)
def resolving_twice_changes_nothing(t):
    """a resolved tree stays as it is when it is resolved again"""
    once = scoping.resolved(D.all, t)
    return same(once, scoping.resolved(D.all, once, 1, 2, 50)) or Bad('resolved:', once)


def old_table(t):
    """a well-formed table of marks with a top mark in it, chosen by the tree's size alone"""
    draw = chance.Random(trees.size(t))
    table, number = [], 0
    for _ in range(draw.randrange(1, 5)):
        number += draw.randrange(1, 4)
        table.append((number, draw.choice([0] + [row[0] for row in table])))
    return tuple(table), draw.choice(table)[0]


@law(clean_program)
def table_gains_one_mark_a_scope(t):
    """the table after resolving is the old one, followed by one mark under the top mark for each scope but the
    program; it is well-formed, and these are the marks that the old one lacks"""
    old, top = old_table(t)
    program = scoping.Program(D.all, t)
    count = D.scoping.Scopes.scope_count(D.scoping.Places.program_place, t)
    new = D.marks.Globals.with_fresh_marks(old, top, count - 1)
    greatest = D.marks.Globals.greatest(old)
    marks = scoping.scope_marks(program, top, greatest + 1)
    gained = {(mark, top) for scope, mark in marks.items() if scope != ()}
    if new[:len(old)] != old or len(new) != len(old) + len(program.scopes) - 1:
        return Bad('table', repr(new), 'from', repr(old))
    if set(new) != set(old) | gained or any(row in old for row in gained) or len(set(marks.values())) != len(marks):
        return Bad('table', repr(new), 'from', repr(old), 'marks', repr(marks))
    rows = [0] + [row[0] for row in new]
    well_formed = all(rows[i] < rows[i + 1] and new[i][1] in rows[:i + 1] for i in range(len(new)))
    return (well_formed and marks[()] == top) or Bad('not well-formed:', repr(new))


# ------------------------------------------------------------------------------------------------- names apart
def apart(t, draw):
    """the tree with texts for the ids of a well-scoped tree, and no contexts: two ids at or below one scope, both
    declared at it or above, get two texts; a free id keeps its own. Then the paths of bindings and references"""
    program, by_ids = scoping.Program(D.all, t), scoping.by_ids(D.all, t)
    declared, stands, names = {}, {}, {}
    for path, standing, _ in scoping.Stands(program):
        if not is_name(standing):
            continue
        name = identity(program.identifier(path))
        names[path] = name
        stands.setdefault(name, set()).update(scope for scope, _ in program.rounds_at[path])
        if program.S.is_binding(standing):
            declared[name] = scoping.DeclaredBy(by_ids, path, standing, by_ids.name(path))
            stands[name].add(declared[name])
    texts = chosen_texts(program, declared, stands, draw)
    return with_texts(t, {path: texts[name] for path, name in names.items()}), sorted(names)


def chosen_texts(program, declared, stands, draw):
    def at_or_above(scope):
        return {scope} | {outer for outer, _ in program.rounds_at[scope]}

    def clash(i, j):
        return any(declared[i] in at_or_above(scope) and (j not in declared or declared[j] in at_or_above(scope)) for scope in stands[i] & stands[j])
    texts = {i: i[0] for i in stands if i not in declared}
    order = list(declared)
    draw.shuffle(order)
    for i in order:
        taken = {texts[j] for j in texts if clash(i, j)}
        free = [js.codes(text) for text in ['a', 'b', 'c', 'd', 'e'] + ['n%d' % k for k in range(len(order))] if js.codes(text) not in taken]
        texts[i] = free[0] if draw.random() < 0.8 else draw.choice(free[:3])
    return texts


def with_texts(t, changed, path=()):
    if t[0] == 'Identifier':
        return ('Identifier', t[1], js.REC(span=t[2].span, ctxt=(), sym=changed.get(path, t[2].sym)))
    if t[0] not in ('List', 'Tree'):
        return t
    return trees.with_kids(t, [with_texts(child, changed, path + (i,)) for i, child in enumerate(trees.kids(t))])


@law(well_scoped_module)
def names_apart(t):
    """names apart on a well-scoped module, resolved again, give one id exactly where there was one"""
    if not is_module(t) or not scoping.WellScoped(D.all, t):
        return None
    for seed in range(3):
        renamed, where = apart(t, chance.Random(seed))
        answer = scoping.resolved(D.all, renamed, 1, 1 + seed % 2)
        there, back = {}, {}
        for path in where:
            before, after = identity(at(t, path)[2]), identity(at(answer, path)[2])
            if there.setdefault(before, after) != after or back.setdefault(after, before) != before:
                return Bad('renamed:', renamed, '-- resolved:', answer)
    return True


@law(well_scoped_module)
def names_apart_have_no_early_error(t):
    """names apart on a well-scoped module have no early error of names"""
    if not is_module(t) or not scoping.WellScoped(D.all, t):
        return None
    for seed in range(3):
        renamed, _ = apart(t, chance.Random(seed))
        faults = scoping.faults(scoping.NO_EARLY_ERROR, D.all, renamed)
        if faults:
            return Bad(', '.join(faults) + ':', renamed)
    return True


# ---------------------------------------------------------------------------------------------------- what binds
@law(any_tree)
def binding_has_one_taker(t):
    """each binding of a tree that fits its place stands in a scope that takes it"""
    program = scoping.Program(D.all, t)
    found = scoping.Binds(program)
    for path, standing, _ in found:
        if scoping.taker(program, standing, path) is None:
            return Bad('no scope takes', at(t, path), 'at', repr(path))
    return True if found else None


@law(expressions_as_names)
def patterns_bind_what_find_pat_ids_finds(t):
    """the identifiers that stand as bindings in the name of a declarator are those that `find_pat_ids` finds there"""
    found = [path + (1,) for path, node in paths(t) if kind(node) == 'VarDeclarator']
    if not found:
        return None
    program = scoping.Program(D.all, t)
    for name_path in found:
        below = [p for p, _, _ in scoping.Binds(program) if p[:len(name_path)] == name_path and not passes_scope(program, name_path, p)]
        bound = bound_ids(at(t, name_path))
        if [identity(program.identifier(p)) for p in below] != bound:
            return Bad('scoping says', ', '.join(js.text(at(t, p)) for p in below) or 'none', 'find_pat_ids says',
                       ', '.join(js.string(i[0]) for i in bound) or 'none', 'in', at(t, name_path))
    return True


def passes_scope(program, above, path):
    """a scope, or a declaration of another name, stands between the two paths"""
    between = [path[:n] for n in range(len(above), len(path))]
    return any(p in program.scopes or kind(program.at[p][1]) in ('VarDeclarator', 'ClassDecl', 'FnDecl', 'ClassExpr', 'FnExpr') for p in between)
