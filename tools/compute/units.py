"""The relations of `swc_base_rename_units/specs` as decision procedures, transcribed by hand, and what a renamer makes of a
tree in which something reads names.

Each function has the name of its definition. What the specs define as functions (what a direct `eval` is, which children
are units, marks) is taken from the translation, not written again. A path is a tuple of numbers.
"""
import functools

import scoping
from naming import Analysis, Naming, Renaming, all_count, outer_count, preserved_texts
from trees import kids, paths, put

CRATE = 'swc_base_rename_units'
# the relations that this was made from, by digests of their texts, as in scoping.py; those of Walk, which speak of how the code
# goes over a tree, are passed over: a law compares a walk
SOURCES = {
    'AnyHasEval': '395900087d61',
    'HasEval': '38740aca9968',
    'HasUnits': '1593f5efde0c',
    'IsOutermost': '80e30823cc24',
    'IsUnit': 'fb957c77434e',
    'LeadsOn': '4e3e7327e2e3',
    'RefusesUnit': '498175f3ae4c',
}


def check_sources(checkout):
    return scoping.check_relations(checkout, CRATE, SOURCES, (), 'units.py', ('Walk',))


# ---- Eval
def HasEval(defs, t):
    return defs.swc_base_rename_units.Eval.reads_names(t) or any(HasEval(defs, c) for c in kids(t))


# ---- Units
def units(defs, t):
    """(path, unit) of all that meet `IsUnit`"""
    is_unit_below = defs.swc_base_rename_units.Units.is_unit_below
    return [(above + (i,), c) for above, parent in paths(t) for i, c in enumerate(kids(parent)) if is_unit_below(parent, i, c)]


def LeadsOn(q, p):
    return len(q) < len(p) and p[:len(q)] == q


def outermost(defs, t):
    """(path, unit) of all that meet `IsOutermost`"""
    found = [(p, u, HasEval(defs, u)) for p, u in units(defs, t)]
    return [(p, u) for p, u, reads in found if not reads and all(reads_too for q, _, reads_too in found if LeadsOn(q, p))]


def shape(t):
    """a node but for its children, of which only the number counts"""
    return t[:-1] + (len(t[-1]),) if t[0] in ('List', 'Tree') else t


def units_faults(defs, becomes, before, after):
    """the clauses of `HasUnits` that a tree does not meet"""
    alone, there = outermost(defs, before), dict(paths(after))
    found = [('units', p) for p, u in alone if p not in there or not becomes(u, there[p])]
    return found + [('others', p) for p, n in paths(before) if not any(q == p or LeadsOn(q, p) for q, _ in alone)
                    and (p not in there or shape(there[p]) != shape(n))]


# ---- marks
@functools.lru_cache(maxsize=10000)
def IsDescendant(defs, table, mark, ancestor):
    ancestor_at = defs.swc_tree_marks.Globals.ancestor_at
    return any(ancestor_at(table, mark, steps) == ancestor for steps in range(len(table) + 2))


def descends(defs, table, top, x):
    """the id's outer mark descends from the top mark"""
    return IsDescendant(defs, table, defs.swc_tree_marks.Contexts.outer_of(x[1]), top)


def context_of(mark):
    """the context that is just this mark's"""
    return () if mark == 0 else (mark,)


# ---- names
KEPT = {}


def analysed(defs, t):
    """the analysis of a tree; of the last trees it is kept"""
    if KEPT.get(id(t), (None, None))[0] is not t:
        if len(KEPT) > 50:
            KEPT.clear()
        KEPT[id(t)] = (t, Analysis(defs, t))
    return KEPT[id(t)][1]


class Marks:
    """a table of marks, and the top mark"""
    def __init__(self, table, top):
        self.table, self.top = tuple(map(tuple, table)), top


def counting(r):
    return outer_count if r.mangles else all_count


def naming_of(t, r, preserved):
    """what `Named` is said of"""
    return Naming(t, r, preserved, counting(r))


def new_texts(t, r, preserved):
    """the map that is `Named`"""
    return naming_of(t, r, preserved).new_texts()


def program_texts(t, r, marks):
    """texts that no new name may be, at the top and in units: those of the program, and of what has the top mark's context"""
    own = context_of(marks.top)
    return preserved_texts(t, r.preserves) | {x[0] for x in t.bound if x[1] == own}


def top_naming(defs, t, r, marks, preserved):
    """of the program: ids that descend from the top mark get no name"""
    kept = {x for _, _, x in t.ids if descends(defs, marks.table, marks.top, x)}
    return naming_of(t, Renaming(r.text, r.mangles, r.resets, r.preserves | kept), preserved)


def top_names(defs, t, r, marks, preserved):
    """the top map"""
    return top_naming(defs, t, r, marks, preserved).new_texts()


def unit_naming(defs, u, r, preserved):
    """of a unit, as a tree of its own"""
    t = analysed(defs, u)
    return naming_of(t, r, preserved | preserved_texts(t, r.preserves))


def unit_names(defs, u, r, preserved):
    """the map of a unit"""
    return unit_naming(defs, u, r, preserved).new_texts()


def given(defs, names, t, keeps):
    """the tree with its names by a map; an empty one leaves it as it is"""
    def new_id(x):
        return defs.swc_base_rename_substitution.Names.if_other_text(x, ((names[x], ()),) if x in names else None)
    return defs.swc_base_rename_substitution.Substituted.substituted(new_id, keeps, 'Other', t) if names else t


def alone(defs, u, r, preserved, keeps):
    """what a unit becomes"""
    return given(defs, unit_names(defs, u, r, preserved), u, keeps)


def renamed_by_units(defs, tree, r, marks, keeps=False, ignore_eval=False):
    """what a renamer makes of a tree"""
    t = analysed(defs, tree)
    if ignore_eval or not HasEval(defs, tree):
        return given(defs, new_texts(t, r, preserved_texts(t, r.preserves)), tree, keeps)
    preserved, answer = program_texts(t, r, marks), tree
    for p, u in outermost(defs, tree):
        answer = put(answer, p, alone(defs, u, r, preserved, keeps))
    return given(defs, top_names(defs, t, r, marks, preserved), answer, keeps)
