"""The table of kinds, and nodes with named fields, as the reader makes them and the writer takes them."""
import ast

from antt_values import Rec

# of each kind its fields (key, slot, role); of each class its kinds; the kinds of identifiers; of each class of words
# spelling and word; of each word its spelling
FIELDS, CLASSES, IDENTIFIERS, CHOICES, SPELLING = {}, {}, set(), {}, {}


def setup(defs):
    """takes kinds, fields and words from the translated table"""
    table = defs.swc_tree_node.Table

    def variants(name):
        return defs.translation.variants_of('Rattle.swc_tree_node.specs.declared.kind.' + name)
    for name in variants('Class'):
        CLASSES[name] = list(table.kinds_of(name))
    for name in variants('WordClass'):
        CHOICES[name] = {string(table.spelling_of(word)): word for word in table.words_of(name)}
        SPELLING.update({word: spelling for spelling, word in CHOICES[name].items()})
    for kind in variants('Kind'):
        FIELDS[kind] = [(string(key), slot, role) for key, slot, role in table.fields_of(kind)]
        if table.is_identifier(kind):
            IDENTIFIERS.add(kind)
            FIELDS[kind] = [('span', ('One', 'Span'), 'Plain'), ('ctxt', 'ctxt', 'Plain'), ('sym', ('One', 'Text'), 'Plain')]


def codes(text):
    return tuple(text.encode())


def string(numbers):
    return bytes(numbers).decode('utf-8', 'replace')


def literal(text):
    return ast.literal_eval(text)


class Node:
    """a kind, and its fields by their keys"""
    def __init__(self, kind_of_node, **fields):
        self.type = kind_of_node
        self.__dict__.update(fields)

    def get(self, field):
        return self.__dict__[field]


def made(kind_of_node, span=(0, 0), **given):
    """a node; what is left out is absent, empty or false"""
    node = Node(kind_of_node)
    for field, slot, _ in FIELDS[kind_of_node]:
        if field == 'span':
            content = tuple(span)
        elif field in given:
            content = given.pop(field)
        elif slot == 'ctxt':
            content = ()
        elif slot[0] in ('Optional', 'OptionalList') or slot == 'Pairs':
            content = None
        elif slot[0] in ('List', 'Holes'):
            content = []
        elif slot == ('One', 'Flag'):
            content = False
        else:
            raise TypeError('%s lacks %s' % (kind_of_node, field))
        node.__dict__[field] = content
    if given:
        raise TypeError('%s has no %s' % (kind_of_node, list(given)))
    return node


def span_of(node):
    if node.type in ('FnExpr', 'FnDecl'):
        return node.function.span
    return node.get('class').span if node.type in ('ClassExpr', 'ClassDecl') else node.span


def tree_of(node):
    """the tree of a node"""
    if node.type in IDENTIFIERS:
        return ('Identifier', node.type, Rec(span=Rec(lo=node.span[0], hi=node.span[1]), ctxt=tuple(node.ctxt), sym=codes(node.sym)))
    return ('Tree', node.type, tuple(tree_in(node.get(field), slot) for field, slot, _ in FIELDS[node.type]))


def tree_in(content, slot):
    """the tree of what stands in a field"""
    if content is None:
        return ('Absent',)
    if slot == 'Pairs':
        return ('List', tuple(('List', (('Text', codes(a)), ('Text', codes(b)))) for a, b in content))
    form, takes = slot
    if form in ('List', 'Holes', 'OptionalList'):
        return ('List', tuple(tree_in(item, ('One', takes)) for item in content))
    if takes == 'Span':
        return ('Span', Rec(lo=content[0], hi=content[1]))
    if takes == 'Text':
        return ('Text', codes(content))
    if takes == 'Flag':
        return ('Flag', bool(content))
    return ('Word', CHOICES[takes[1]][content]) if takes[0] == 'Word' else tree_of(content)


def node_of(t):
    """the node of a tree, and what a field of it holds"""
    if t[0] == 'Identifier':
        return Node(t[1], span=(t[2].span.lo, t[2].span.hi), ctxt=t[2].ctxt, sym=string(t[2].sym))
    if t[0] == 'Tree':
        return Node(t[1], **{field: node_of(child) for (field, _, _), child in zip(FIELDS[t[1]], t[2])})
    if t[0] == 'Absent':
        return None
    if t[0] == 'List':
        return [node_of(child) if child[0] != 'List' else tuple(node_of(part) for part in child[1]) for child in t[1]]
    if t[0] == 'Text':
        return string(t[1])
    if t[0] == 'Span':
        return (t[1].lo, t[1].hi) if t[1] else (0, 0)
    return SPELLING[t[1]] if t[0] == 'Word' else t[1]


def bare(t):
    """the tree without spans, the raw text of strings, and what else its text does not say, to compare by"""
    if t[0] == 'Span':
        return ('Span',)
    if t[0] == 'List':
        return ('List', tuple(map(bare, t[1])))
    if t[0] == 'Identifier':
        return ('Identifier', t[1], t[2].sym, t[2].ctxt)
    if t[0] != 'Tree':
        return t
    below = tuple(map(bare, t[2]))
    if t[1] == 'ImportDecl':                    # the text has a default first
        below = below[:1] + (('List', tuple(sorted(below[1][1], key=lambda specifier: specifier[1]))),) + below[2:]
    return ('Tree', t[1], below[:2] if t[1] == 'Str' else below[3:] if t[1] == 'TplElement' else below)
