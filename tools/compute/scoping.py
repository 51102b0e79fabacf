"""The relations of `swc_tree_scoping/specs` as decision procedures, transcribed by hand.

Each function has the name of its definition and takes a `Program` where the definition takes a tree. What the
specs define as functions (places, what a scope takes, readings) is taken from the translation, not written again.
A name is a tuple of numbers, a scope is the path of the node that opens it, None is `None`.
"""
import glob
import hashlib
import os
import re
import sys

from antt_reader import Module, blocks

CRATE = 'swc_tree_scoping'
# the relations that this was made from, by digests of their texts; those of one name say the same in other words, and
# a name with `-` may be absent
SOURCES = {
    'AreFunctionsOfOneBlock': '039199cb4ea6',
    'Binds': '912826bb6766',
    'Bound': '9f8e91cfa97b',
    'BoundAs': '1a5c85283929',
    'DeclaredBy': '573139c329b2',
    'Declares': '3f7166e91219',
    'DeclaresFor': '3eda794a7383',
    'DeclaresOtherwise': '899b2f326d92',
    'EachInOneScope': '0c67d181969b',
    'ExportsDeclared': 'b132134ae03c',
    'First': '8a633bc69c28',
    'FreeApart': '45e95f230a25',
    'HasContext': '143059e09d5b 92d8f32b1980',
    'HasDeclarersMark': '5b69e4e296cd -',
    'HasFunctionMark': '805011c0c1b2 -',
    'HasMeantMark': '5f32371bc64f',
    'HasTakersMark': 'ae5f47c033db -',
    'HasVariableMark': 'cd905dc1fd14 -',
    'Hoisted': '054c84f687e5',
    'Hoists': 'abb74312073d e2772f29d4e9',
    'InExportList': '432d04ce24da',
    'InPlace': 'b5349d5b719a',
    'InRegion': '11791c77c450',
    'IsArrowOrMethod': '149981dff67b',
    'IsAt': '3689c2dd7931',
    'IsCaughtBy': '8bb40f340519 -',
    'IsClean': 'c0fb269e9246',
    'IsDeclared': '1c97e84dba2b',
    'IsFree': '3bf87619334a',
    'IsLexical': '4fcbeecf2c38',
    'IsScope': '4c962b66d888',
    'IsUncaught': 'd7bc1e79f5c6',
    'Means': 'fe28b407a260',
    'Meets': 'b56720ea06b1',
    'NoCaughtVariable': '5b598970e325',
    'NoEarlyErrorOfNames': '22508500374e 68992c357dc7',
    'NoEvalOrArguments': '5eddba45e8d0 -',
    'NoParameterTwice': 'c03d6a149869',
    'NoRedeclaration': '2f437b8f5f00',
    'NoVariablePasses': '5d69e0f85ca9',
    'NoneOfStrictCode': 'a11cf217380e -',
    'NoneTwice': '47756087b472',
    'OneScope': 'dcee2d2f5c3c',
    'PartlyAdded': '932e6aceee2d -',
    'Passes': 'a2b5770d3ea5 -',
    'PassesNone': 'd22a4e5ba346',
    'Resolved': '7f3ffb29c85c',
    'Stands': 'c25865be407a',
    'WellScoped': 'af3f1acd65a2 3559cf9d3742',
    'stops': '82dc6e2e17ba 4e0246d6d0e4',
    'stops_in_block': 'dd3bea75f2ca -',
    'stops_or_function': 'e3992b5b9d81 -',
}
# functions that are written by hand too: what a function in a block may not meet on its way out of blocks, besides other
# functions in blocks
FUNCTIONS = ('stops', 'stops_in_block', 'stops_or_function')
STOPPING = {'Lexical', 'Import', 'Parameter', 'CatchParameter'}
IN_BLOCKS = {'BlockFunction', 'SloppyFunction'}


def digests(checkout, crate, functions, passed_over):
    """of each relation of a crate, and of some functions and types, a digest of its text, without comments and white space, but for some modules and
    names"""
    found = {}
    root = os.path.join(checkout, 'crates', crate, 'specs')
    for path in sorted(glob.glob(os.path.join(root, '*.antt'))):
        module = Module(crate, os.path.basename(path)[:-5], path, path)
        if module.name in passed_over:
            continue
        module.read()
        with open(path, encoding='utf-8') as file:
            items = [' '.join(text.split()) for _, text in blocks(file.read())]
        relations = [name for name, why in module.skipped.items() if why == 'a relation']
        for name in relations + [name for name in functions if name in module.definitions or module.skipped.get(name, '') is None]:
            text = '\n'.join(item for item in items if re.match(r'((pub|abbrev|record|data) )*%s\b' % re.escape(name), item))
            found[name] = hashlib.sha256(text.encode()).hexdigest()[:12]
    return {name: digest for name, digest in found.items() if name not in passed_over}


def check_relations(checkout, crate, sources, functions, made, passed_over=()):
    """warns of each relation of a crate, but for some modules, that is another than those that a file was made from; the names of those"""
    found = digests(checkout, crate, functions, passed_over)
    changed = [name for name in sorted(set(found) | set(sources)) if found.get(name, '-') not in sources.get(name, '').split()]
    for name in changed:
        print('warning: the relation %s of %s is not one that %s was made from: %s' % (name, crate, made, found.get(name, 'there is none')), file=sys.stderr)
    return changed


def check_sources(checkout):
    return check_relations(checkout, CRATE, SOURCES, FUNCTIONS, 'scoping.py')


def defined(defs, name):
    """a definition of the crate, in whichever of its files it stands"""
    for module in defs.swc_tree_scoping.__dict__.values():
        if name in getattr(module, '__dict__', {}):
            return module.__dict__[name]
    raise AttributeError('swc_tree_scoping has no translated definition `%s`' % name)


class Program:
    """a tree with what one walk finds: the place, the node and the scopes round each path"""
    def __init__(self, defs, tree):
        self.defs, self.tree = defs, tree
        self.P, self.S = defs.swc_tree_scoping.Places, defs.swc_tree_scoping.Scopes
        self.at, self.rounds_at, self.scopes, self.identifiers, self.cache = {}, {}, {}, [], {}
        self.walk((), self.P.program_place, tree, ())
        self.bound = {}
        for p in self.identifiers:
            i = self.identifier(p)
            s = taker(self, self.standing(p), p)
            if i.ctxt == () and s is not None:
                self.bound.setdefault((s, i.sym), []).append((self.standing(p), p))

    def walk(self, path, place, t, round_it):
        self.at[path], self.rounds_at[path] = (place, t), round_it
        opened = self.P.opened(place, t)
        if opened is not None:
            self.scopes[path] = opened[0]
        if t[0] == 'Identifier':
            self.identifiers.append(path)
        for i, c in enumerate(self.P.children_in(t)):
            seen = tuple((path, whole) for _, whole in self.S.seen_as(opened, self.S.view_in(t, i)))
            self.walk(path + (i,), self.P.place_below(place, t, i), c, seen + round_it)

    def defined(self, name):
        return self.kept(('defined', name), lambda: defined(self.defs, name))

    def standing(self, p):
        return self.at[p][0].standing

    def identifier(self, p):
        return self.at[p][1][2]

    def name(self, p):
        return self.identifier(p).sym

    def kept(self, key, make):
        if key not in self.cache:
            self.cache[key] = make()
        return self.cache[key]


# ---- Scopes
def place_at(t, p):
    return t.at.get(p)


def rounds(t, p):
    return t.rounds_at[p]


def scope_at(t, p):
    return t.scopes.get(p)


def takes(t, r, s):
    return t.S.takes(r, t.scopes[s])


def taker(t, r, p):
    return next((s for s, _ in t.rounds_at[p] if takes(t, r, s)), None)


def variable_scope(t, p):
    return taker(t, 'Variable', p)


# ---- Declares
def Bound(t, s, r, name):
    """the paths at which the scope's name is bound so"""
    return [p for q, p in t.bound.get((s, name), ()) if q == r]


def BoundAs(t, ways, s, name):
    return any(ways(r) for r, _ in t.bound.get((s, name), ()))


def PassesNone(t, ways, name, ss):
    for s, _ in ss:
        if takes(t, 'Variable', s):
            return True
        if BoundAs(t, ways, s, name):
            return False
    return True


def stops_in_block(r):
    return r in STOPPING


def stops(r):
    return r in STOPPING or r in IN_BLOCKS


def hoists(t, b, name):
    s = variable_scope(t, b)
    return not BoundAs(t, stops_in_block, b, name) and PassesNone(t, stops, name, rounds(t, b)) and (s is None or not BoundAs(t, stops, s, name))


def Hoists(t, b, name):
    return t.kept(('Hoists', b, name), lambda: hoists(t, b, name))


def Hoisted(t, s, name):
    return t.kept(('Hoisted', s, name), lambda: any(
        variable_scope(t, p) == s and Hoists(t, b, name)
        for (b, n), ways in t.bound.items() if n == name for r, p in ways if r == 'SloppyFunction'))


def Declares(t, s, name):
    return BoundAs(t, t.defined('is_settled'), s, name) \
        or (bool(Bound(t, s, 'SloppyFunction', name)) and not Hoists(t, s, name)) or Hoisted(t, s, name)


def DeclaredBy(t, p, r, name):
    """the scope that declares what is bound at the path"""
    b = taker(t, r, p)
    if r == 'SloppyFunction' and b is not None and Hoists(t, b, name):
        return variable_scope(t, p)
    return b


def DeclaresFor(t, name, seen):
    s, whole = seen
    return Declares(t, s, name) if whole else BoundAs(t, t.defined('is_parameter'), s, name)


def Means(t, p, name):
    return next((s[0] for s in rounds(t, p) if DeclaresFor(t, name, s)), None)


def Meets(t, p, name):
    return next((s for s, _ in rounds(t, p) if takes(t, 'Variable', s) or Bound(t, s, 'CatchParameter', name)), None)


def IsUncaught(t, p, name):
    return Meets(t, p, name) == variable_scope(t, p)


def DeclaresOtherwise(t, s, name):
    return BoundAs(t, t.defined('is_no_variable'), s, name) or Hoisted(t, s, name) \
        or any(IsUncaught(t, p, name) for p in Bound(t, s, 'Variable', name))


# ---- Resolved
def meaning_of_context(t, p, name, r):
    """`HasContext`: ('unresolved',), ('scope', s) or None for the empty context"""
    if t.S.is_reference(r):
        means = Means(t, p, name)
        meant = t.defined('own_meaning')(t.tree, name, None if means is None else (means,))
        return ('unresolved',) if meant is None else ('scope', meant[0])
    if not t.S.is_binding(r):
        return None
    s = DeclaredBy(t, p, r, name)
    caught = Meets(t, p, name) if r == 'Variable' and DeclaresOtherwise(t, s, name) else None
    return ('scope', s if caught is None else caught)


def remarked(contexts, tree, path=()):
    """`remarked`, with the contexts that change in a dict"""
    if tree[0] == 'Identifier':
        i = tree[2]
        if path not in contexts:
            return tree
        return ('Identifier', tree[1], type(i)(span=i.span, ctxt=contexts[path], sym=i.sym))
    if tree[0] == 'List':
        return ('List', tuple(remarked(contexts, c, path + (i,)) for i, c in enumerate(tree[1])))
    if tree[0] == 'Tree':
        return ('Tree', tree[1], tuple(remarked(contexts, c, path + (i,)) for i, c in enumerate(tree[2])))
    return tree


def scope_marks(t, top, first):
    """a mark for each scope: the program has the top mark, the others fresh ones in the order of the source"""
    marks = {(): top}
    for scope in t.scopes:
        if scope != ():
            marks[scope] = first + len(marks) - 1
    return marks


def resolved(defs, tree, unresolved=1, top=2, first=3):
    """the answer of `Resolved` whose fresh marks are numbered in the order of the source"""
    t = Program(defs, tree)
    marks = scope_marks(t, top, first)
    contexts = {}
    for p in t.identifiers:
        if t.identifier(p).ctxt == ():
            m = meaning_of_context(t, p, t.name(p), t.standing(p))
            if m is not None:
                contexts[p] = (unresolved,) if m[0] == 'unresolved' else (marks[m[1]],)
    return remarked(contexts, tree)


# ---- WellScoped
def Stands(t, r=None):
    """(path, standing, name) of the identifiers, or of those that stand so"""
    return [(p, t.standing(p), t.name(p)) for p in t.identifiers if r is None or t.standing(p) == r]


def Binds(t):
    return t.kept('Binds', lambda: [x for x in Stands(t) if t.S.is_binding(x[1])])


def References(t):
    return [x for x in Stands(t) if t.S.is_reference(x[1])]


def IsDeclared(t, name):
    return name in t.kept('IsDeclared', lambda: {n for _, _, n in Binds(t)})


def InRegion(t, s, name, p):
    return any(q == s and DeclaresFor(t, name, (q, whole)) for q, whole in rounds(t, p))


def EachInOneScope(t):
    scopes = {}
    for p, r, n in Binds(t):
        scopes.setdefault(n, set()).add(DeclaredBy(t, p, r, n))
    return all(len(ss) == 1 and None not in ss for ss in scopes.values()) \
        and all(n not in scopes or InRegion(t, next(iter(scopes[n])), n, p) for p, _, n in References(t))


def InExportList(t, p):
    for j in range(len(p)):
        q = t.at[p[:j]][1]
        if q[0] == 'Tree' and t.P.field_role(q[1], p[j]) == 'ExportLocal':
            return True
    return False


def ExportsDeclared(t):
    return all(Declares(t, (), n) for p, _, n in Stands(t, 'Reference') if InExportList(t, p))


def IsLexical(t, p, r):
    return t.defined('is_lexical')(r) or r == 'Function' and t.defined('is_module')(t.tree) and taker(t, 'Function', p) == ()


def AreFunctionsOfOneBlock(t, p, r, q, u):
    return r == u == 'SloppyFunction' and taker(t, r, p) == taker(t, u, q)


def NoneTwice(t):
    groups = {}
    for p, r, n in Binds(t):
        s = DeclaredBy(t, p, r, n)
        if s is not None:
            groups.setdefault((n, s), []).append((p, r))
    return all(p == q or AreFunctionsOfOneBlock(t, p, r, q, u)
               for g in groups.values() for p, r in g if IsLexical(t, p, r) for q, u in g)


def NoVariablePasses(t, ways):
    return all(PassesNone(t, ways, n, rounds(t, p)) for p, _, n in Stands(t, 'Variable'))


def IsAt(t, kinds, p):
    return t.at[p][1][0] == 'Tree' and kinds(t.at[p][1][1])


def IsArrowOrMethod(t, f):
    return IsAt(t, t.defined('has_unique_parameters'), f) or f != () and IsAt(t, t.defined('is_method'), f[:-1])


def NoParameterTwice(t):
    groups = {}
    for p, _, n in Stands(t, 'Parameter'):
        f = taker(t, 'Parameter', p)
        if f is not None:
            groups.setdefault((n, f), []).append(p)
    return not any(len(ps) > 1 and (IsArrowOrMethod(t, f) or any(t.at[p][0].strict for p in ps))
                   for (n, f), ps in groups.items())


def NoRedeclaration(t):
    return NoneTwice(t) and NoVariablePasses(t, t.defined('is_lexical')) and NoParameterTwice(t)


def NoCaughtVariable(t):
    return NoVariablePasses(t, t.defined('is_catch_parameter'))


def by_ids(defs, tree):
    return Program(defs, defs.swc_tree_scoping.Readings.by_ids(tree))


def by_texts(defs, tree):
    return Program(defs, defs.swc_tree_scoping.Readings.by_texts(tree))


def NoEvalOrArguments(defs, tree):
    t = by_texts(defs, tree)
    return not IsDeclared(t, tuple(b'eval')) and not IsDeclared(t, tuple(b'arguments'))


def FreeApart(defs, tree):
    t, ids = Program(defs, tree), by_ids(defs, tree)
    name = defs.swc_tree_scoping.Readings.id_name
    free = {(i.sym, i.ctxt) for i in (t.identifier(p) for p, _, _ in References(t)) if not IsDeclared(ids, name(i))}
    return len({sym for sym, _ in free}) == len(free) and all(ctxt != () for _, ctxt in free)


WELL_SCOPED = [
    ('each_in_one_scope', lambda d, t: EachInOneScope(by_ids(d, t))),
    ('free_apart', FreeApart),
    ('exports_declared', lambda d, t: ExportsDeclared(by_ids(d, t))),
    ('no_redeclaration', lambda d, t: NoRedeclaration(by_ids(d, t))),
    ('no_caught_variable', lambda d, t: NoCaughtVariable(by_ids(d, t))),
    ('no_eval_or_arguments', NoEvalOrArguments)]
NO_EARLY_ERROR = [
    ('exports_declared', lambda d, t: ExportsDeclared(by_texts(d, t))),
    ('no_redeclaration', lambda d, t: NoRedeclaration(by_texts(d, t))),
    ('no_eval_or_arguments', NoEvalOrArguments)]


def faults(rules, defs, tree):
    """the fields of the record that don't hold"""
    return [name for name, holds in rules if not holds(defs, tree)]


def WellScoped(defs, tree):
    return not faults(WELL_SCOPED, defs, tree)


def NoEarlyErrorOfNames(defs, tree):
    return not faults(NO_EARLY_ERROR, defs, tree)


def IsClean(defs, tree):
    t = Program(defs, tree)
    return all(t.identifier(p).ctxt == () for p in t.identifiers)
