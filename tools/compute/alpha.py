"""The relations of `swc_base_alpha_laws/specs` as decision procedures, transcribed by hand: when two programs are one but for the
choice of the names that they bind.

Each takes a `scoping.Program` where the definition takes a tree, and has the name of its definition; one that holds or not
answers a path where it doesn't hold, and None where it holds. What the specs define as functions (outlines, normal forms, lists
of identifiers and where each stands first) is taken from the translation.
"""
import renaming
import scoping
import trees
from lawbook import D, normal_form
from script_premises import kept_by_identity

CRATE = 'swc_base_alpha_laws'
# the relations that this was made from, by digests of their texts, as in scoping.py
SOURCES = {
    'AlphaEquivalent': '5834182a7a07',
    'AlphaVariants': '7411a1b65e9e',
    'Beside': 'f4bad3566bb9',
    'FreeNamesStay': '999ecef8fc4e',
    'HasFreeId': 'cb8f7838cb8f',
    'IdsCorrespond': 'f4a2c1110adb',
    'IsFreeThere': '9ef206f68f34',
    'NamesStay': '2beb506ca69c',
    'OtherTextsStay': '1134ac1c411e',
    'StandForOne': '780ad397646b',
    'StandForTheSame': '00c70e6d30e0',
    'StandsFor': '60268c1517ab',
    'Writes': '5be68f5d9765',
    'WritesStay': '3a887cf66825',
}
FREE, ROOT = ('free',), ()


def check_sources(checkout):
    return scoping.check_relations(checkout, CRATE, SOURCES, (), 'alpha.py')


program = kept_by_identity(lambda t: scoping.Program(D.all, t))
# the normal form of a tree, as a program
normal = kept_by_identity(lambda t: program(normal_form(t)))


# ---- what a name stands for
def StandsFor(t, p):
    """('scope', s) or ('free',); None for a binding that no scope declares"""
    return t.kept(('StandsFor', p), lambda: stands_for(t, p))


def stands_for(t, p):
    standing, name = t.standing(p), t.name(p)
    if t.S.is_binding(standing):
        scope = scoping.DeclaredBy(t, p, standing, name)
        return None if scope is None else ('scope', scope)
    means = scoping.Means(t, p, name)
    own = t.defined('own_meaning')(t.tree, name, None if means is None else (means,))
    return FREE if own is None else ('scope', own[0])


def thing(t, p):
    """what two names have in common exactly if they `StandForOne`; None where a name stands for nothing"""
    stands = StandsFor(t, p)
    return stands and (t.name(p), stands)


def StandForOne(t, p, q):
    return thing(t, p) is not None and thing(t, p) == thing(t, q)


def Writes(t, p):
    """(s,) where a variable writes to a scope or a catch clause; None for other names"""
    return (scoping.Meets(t, p, t.name(p)),) if t.standing(p) == 'Variable' else None


def IsFreeThere(t, p):
    return StandsFor(t, p) == FREE


# ---- the fields of `AlphaVariants`
def names_in_both(t, u):
    others = set(renaming.names_at(u))
    return [p for p in renaming.names_at(t) if p in others]


def outline(t):
    return D.all.swc_base_rename_laws.NewNames.outline(t.tree)


def OneOutline(t, u):
    return None if outline(t) == outline(u) else ROOT


def OtherTextsStay(t, u):
    others = set(u.identifiers)
    return next((p for p in t.identifiers if p in others and not t.S.is_name(t.standing(p)) and t.name(p) != u.name(p)), None)


def NamesStay(t, u):
    return next((p for p in names_in_both(t, u) if t.name(p) != u.name(p)), None)


def FreeNamesStay(t, u):
    def differs(p):
        return IsFreeThere(t, p) != IsFreeThere(u, p) or IsFreeThere(t, p) and t.name(p) != u.name(p)
    return next((p for p in names_in_both(t, u) if differs(p)), None)


def StandForTheSame(t, u):
    there, back = {None: None}, {None: None}
    for p in names_in_both(t, u):
        a, b = thing(t, p), thing(u, p)
        if there.setdefault(a, b) != b or back.setdefault(b, a) != a:
            return p
    return None


def WritesStay(t, u):
    return next((p for p in names_in_both(t, u) if Writes(t, p) != Writes(u, p)), None)


FIELDS = [('shape', OneOutline), ('others', OtherTextsStay), ('free', FreeNamesStay), ('meanings', StandForTheSame), ('writes', WritesStay)]


def faults(t, u):
    """the fields of `AlphaVariants` that don't hold of two trees, each with a path"""
    found = [(name, differs(t, u)) for name, differs in FIELDS]
    return [(name, path) for name, path in found if path is not None]


def AlphaVariants(t, u):
    return all(differs(t, u) is None for _, differs in FIELDS)


def AlphaEquivalent(before, after):
    return AlphaVariants(normal(before), normal(after))


# ---- ids
def HasFreeId(unresolved, i):
    return i.ctxt == (unresolved,)


def IdsCorrespond(unresolved, free, t, u):
    """whether what is seen of two trees that were resolved corresponds"""
    others, there, back = set(u.identifiers), {}, {}
    for p in t.identifiers:
        if p not in others:
            continue
        i, j = t.identifier(p), u.identifier(p)
        if not t.S.is_name(t.standing(p)):
            if i.sym != j.sym:
                return False
            continue
        if HasFreeId(unresolved, i) != HasFreeId(free, j) or HasFreeId(unresolved, i) and i.sym != j.sym:
            return False
        a, b = (i.sym, i.ctxt), (j.sym, j.ctxt)
        if there.setdefault(a, b) != b or back.setdefault(b, a) != a:
            return False
    return True


def side(t, u):
    """the identifiers of two trees, side by side, each with as what it stands"""
    xs, ys = (D.all.swc_tree_walk.Sites.sites(D.scoping.Places.program_place, one.tree) for one in (t, u))
    return D.all.swc_base_alpha.Side.side(xs, ys)


def IsFreeAlike(unresolved, free, i, j):
    return HasFreeId(unresolved, i) == HasFreeId(free, j) and (not HasFreeId(unresolved, i) or i.sym == j.sym)


def StaysOne(t, pairs):
    """names that have one id on the first side have one on the second"""
    there = {}
    return all(there.setdefault((x[1].sym, x[1].ctxt), (y[1].sym, y[1].ctxt)) == (y[1].sym, y[1].ctxt) for x, y in pairs if t.S.is_name(x[0]))


def ListAsks(t, u, unresolved=1):
    """whether the lists of two trees that were resolved have what each word asks, from `name` to `joined`"""
    pairs = side(t, u)
    return [('name', all(x[1].sym == y[1].sym for x, y in pairs if not t.S.is_name(x[0]))),
            ('free', all(IsFreeAlike(unresolved, unresolved, x[1], y[1]) for x, y in pairs if t.S.is_name(x[0]))),
            ('split', StaysOne(t, pairs)), ('joined', StaysOne(u, [(y, x) for x, y in pairs]))]


def without_catch(t):
    """no `var` declares a catch parameter's name again"""
    return scoping.NoCaughtVariable(t)


def resolved(t, unresolved=1, top=2, first=3):
    """a program's tree, resolved, as a program"""
    return program(scoping.resolved(D.all, t.tree, unresolved, top, first))


def as_named(t, names):
    """a tree with new texts at some paths"""
    for path, text in names.items():
        node = trees.at(t, path)
        t = trees.put(t, path, ('Identifier', node[1], type(node[2])(span=node[2].span, ctxt=node[2].ctxt, sym=text)))
    return t
