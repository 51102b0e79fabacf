"""Trees: their parts, paths and sizes, and `smaller`, which makes a tree small for which something fails."""
import time

import js
from antt_values import Rec

ABSENT = ('Absent',)
SPAN = ('Span', Rec(lo=0, hi=0))
PLAIN_TEXT = js.codes('a')


def kids(t):
    return t[1] if t[0] == 'List' else t[2] if t[0] == 'Tree' else ()


def with_kids(t, new):
    return ('List', tuple(new)) if t[0] == 'List' else ('Tree', t[1], tuple(new))


def size(t):
    """how big a tree is: nodes, and a little for names and marks that are not the simplest"""
    if t[0] == 'Identifier':
        return 1.2 - 0.2 * (t[2].sym == PLAIN_TEXT) + 0.1 * len(t[2].ctxt) + 0.01 * sum(t[2].ctxt)
    own = {'Span': 0, 'List': 0, 'Absent': 0, 'Flag': 0.3, 'Word': 0.3, 'Text': 0.3 + 0.1 * (t != ('Text', PLAIN_TEXT))}.get(t[0], 1)
    return own + 0.1 * (t == ('Flag', True)) + sum(map(size, kids(t)))


def with_identifiers(change, t):
    """the tree with each identifier's text and context given anew"""
    if t[0] == 'Identifier':
        sym, ctxt = change(t[2])
        return ('Identifier', t[1], Rec(span=t[2].span, ctxt=ctxt, sym=sym))
    if t[0] in ('List', 'Tree'):
        return with_kids(t, [with_identifiers(change, child) for child in kids(t)])
    return t


def paths(t, above=()):
    """(path, node) of all nodes"""
    yield above, t
    for i, child in enumerate(kids(t)):
        yield from paths(child, above + (i,))


def at(t, path):
    for i in path:
        t = kids(t)[i]
    return t


def put(t, path, new):
    """the tree with another node at a path"""
    if not path:
        return new
    below = list(kids(t))
    below[path[0]] = put(below[path[0]], path[1:], new)
    return with_kids(t, below)


def slots(t, slot=None, path=()):
    """(path, node, slot) of all nodes but the program"""
    if slot is not None:
        yield path, t, slot
    if t[0] == 'Tree':
        for i, (child, (_, below, _)) in enumerate(zip(t[2], js.FIELDS[t[1]])):
            yield from slots(child, below, path + (i,))
    elif t[0] == 'List' and slot[0] in ('List', 'Holes', 'OptionalList'):
        for i, child in enumerate(t[1]):
            yield from slots(child, ('One' if slot[0] != 'Holes' else 'Optional', slot[1]), path + (i,))


# ------------------------------------------------------------------------------------------------- smaller trees
def simplest(cls):
    """the simplest node of a class, if it has a simple one"""
    kind = next((kind for kind in ('BindingIdent', 'Ident', 'EmptyStmt', 'IdentName') if kind in js.CLASSES[cls]), None)
    if kind in js.IDENTIFIERS:
        return ('Identifier', kind, Rec(span=SPAN[1], ctxt=(), sym=PLAIN_TEXT))
    return kind and ('Tree', kind, (SPAN, ('Text', PLAIN_TEXT)) if kind == 'IdentName' else (SPAN,))


def smaller_parts(node, slot):
    """what may stand in the place of a node and is smaller"""
    form, content = slot
    if node[0] == 'List':
        for i in range(len(node[1])):
            yield ('List', node[1][:i] + node[1][i + 1:])
    if form in ('Optional', 'OptionalList') and node != ABSENT:
        yield ABSENT
    if form in ('One', 'Optional') and isinstance(content, tuple) and content[0] == 'Node' and node[0] in ('Tree', 'Identifier'):
        kinds = js.CLASSES[content[1]]
        if simplest(content[1]):
            yield simplest(content[1])
        for path, below in paths(node):
            if path and below[0] in ('Tree', 'Identifier') and below[1] in kinds and not (below[1] == 'Ident' and 'BindingIdent' in kinds):
                yield below


def smaller_leaf(node, above):
    if node == ('Flag', True) and above[1] != 'OptChainExpr':
        return ('Flag', False)
    if node[0] == 'Text' and node[1] != PLAIN_TEXT and above[1] not in ('Number', 'BigInt', 'Regex'):
        return ('Text', PLAIN_TEXT)
    return None


def simpler_names(t):
    """the tree with simpler names, everywhere at once, and then at one place"""
    for old in sorted({(node[2].sym, node[2].ctxt) for _, node in paths(t) if node[0] == 'Identifier'}):
        sym, ctxt = old
        for new in [(sym, ()), (PLAIN_TEXT, ctxt), (PLAIN_TEXT, ()), (js.codes('b'), ctxt), (sym, (1,)), (sym, (2,))]:
            yield with_identifiers(lambda i, old=old, new=new: new if (i.sym, i.ctxt) == old else (i.sym, i.ctxt), t)
    for path, node in paths(t):
        if node[0] == 'Identifier':
            yield put(t, path, ('Identifier', node[1], Rec(span=node[2].span, ctxt=(), sym=node[2].sym)))


def reductions(t):
    """trees that are somewhat smaller"""
    for path, node, slot in slots(t):
        if slot not in ('Pairs', 'Pair'):
            for part in smaller_parts(node, slot):
                yield put(t, path, part)
        leaf = smaller_leaf(node, at(t, path[:-1]))
        if leaf:
            yield put(t, path, leaf)
    yield from simpler_names(t)


def smaller(tree, fails, seconds=8):
    """a smaller tree for which `fails` still answers True"""
    end, have, again = time.time() + seconds, size(tree), True
    while again and time.time() < end:
        again = False
        for reduced in reductions(tree):
            if time.time() > end:
                break
            if size(reduced) < have - 1e-9 and fails(reduced):
                tree, have, again = reduced, size(reduced), True
                break
    return tree
