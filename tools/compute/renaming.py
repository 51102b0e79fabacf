"""The relations of `swc_tree_renaming/specs` as decision procedures, transcribed by hand: what names belong to, when they mean
their ids, and which new texts capture none.

Each takes a `scoping.Program` where the definition takes a tree, and has the name of its definition, but for those that say
what is wrong or what is forbidden. A name is a tuple of numbers, a scope is the path of the node that opens it.
"""
import scoping

CRATE = 'swc_tree_renaming'
# the relations that this was made from, by digests of their texts, as in scoping.py; NamesApart and what it is made of
# stand in naming_laws.py, SameIds too, what plain scripts are in script_laws.py, and a map that is applied stands for Renamed
# and HasTexts
SOURCES = {
    'Belongs': '4805a2a74827',
    'CapturesNone': '245517d2dce8',
    'DeclaredApart': 'd88ba4b6a053',
    'DeclaredIn': '4d741a1b9eb3',
    'DeclaresNoGlobalValue': '9fde3723b687',
    'FreeApartFromDeclared': '1be99eab6b5f',
    'HasNoSloppy': '9c8337048182',
    'HasTexts': 'c993629505de',
    'IsAtOrAbove': '166667f9221f',
    'IsFreeName': '2853c9927ab7',
    'IsPlainIfScript': 'c27b6c8f6227',
    'IsPlainProgram': '7ac4490642ce',
    'IsPlainScript': '93cef2dd3d4d',
    'IsRound': 'b506c0787f0d',
    'IsSettled': '5e6c145710b7',
    'Knows': '5da14fc6b652',
    'MeanOne': 'e5aebbaceca3',
    'MeanTheirIds': '3ee2f4c2e395',
    'MeansNoGlobalValue': 'cd56fa9d99b6',
    'NameAt': 'fc530ad3ebd2',
    'NamesApart': 'e19571c926c5',
    'NoParameterRepeated': '8d8c10da047a',
    'OccursIn': '84f301cb0583',
    'Renamed': 'd2c267a90f83',
    'SameId': '3751c63d90f1',
    'SameIds': 'd60015ff49a8',
    'SameScopes': 'b807c577b1ab',
}


def check_sources(checkout):
    return scoping.check_relations(checkout, CRATE, SOURCES, (), 'renaming.py')


def names_at(t):
    """the paths of bindings and references"""
    return [p for p in t.identifiers if t.S.is_name(t.standing(p))]


def identity_at(t, p):
    return (t.identifier(p).sym, t.identifier(p).ctxt)


# ---- meanings
def Belongs(t, p):
    """the scope that declares a binding, or that a reference means; None where it is free"""
    standing, name = t.standing(p), t.name(p)
    return scoping.DeclaredBy(t, p, standing, name) if t.S.is_binding(standing) else scoping.Means(t, p, name)


def meanings_fault(t, u):
    """what `MeanTheirIds` says of two trees: where it does not hold, a word and a path; else None"""
    there, back, others = {}, {}, set(names_at(u))
    for p in names_at(t):
        if p not in others:
            continue
        meant, found = (t.name(p), Belongs(t, p)), identity_at(u, p)
        if meant[1] is None and t.S.is_binding(t.standing(p)):
            return 'no scope declares what stands at %r' % (p,)
        if there.setdefault(meant, found) != found:
            return 'two ids for one meaning at %r' % (p,)
        if back.setdefault(found, meant) != meant:
            return 'two meanings of one id at %r' % (p,)
    return None


# ---- new texts
def DeclaredIn(t):
    """for each scope the names that it declares, and for each name the scopes that declare it"""
    names, scopes = {}, {}
    for p, standing, name in scoping.Binds(t):
        scope = scoping.DeclaredBy(t, p, standing, name)
        names.setdefault(scope, set()).add(name)
        scopes.setdefault(name, set()).add(scope)
    return names, scopes


def conflicts(t):
    """what `CapturesNone` forbids: pairs of names that may not get one text"""
    (names, scopes), pairs = DeclaredIn(t), set()
    for p in names_at(t):
        x = t.name(p)
        for s, _ in t.rounds_at[p]:
            at_or_above = {s} | {u for u, _ in t.rounds_at[s]}
            if x not in scopes or scopes[x] & at_or_above:
                pairs |= {(x, y) for y in names.get(s, ())}
    frees = {t.name(p) for p in names_at(t)} - set(scopes)
    pairs |= {(x, y) for x in frees for y in frees}
    return {pair for x, y in pairs if x != y for pair in ((x, y), (y, x))}


def SameScopes(t, u):
    return t.rounds_at == u.rounds_at and t.scopes == u.scopes \
        and [(p, t.at[p][0]) for p in t.identifiers] == [(p, u.at[p][0]) for p in u.identifiers]
