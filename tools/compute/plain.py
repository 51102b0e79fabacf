"""Plain forms by exact values: of a tree what is left of its literals where spellings do not count.

    value(text)         the exact value of a number literal (ECMA-262, 12.9.3), as (m, e) for m * 10^e with no zero at the end of m; None
                        where it is none, or past what plain forms read
    plain(tree)         the tree with values in place of texts, and no raw text of a string but in directives; or with other texts, as `spell` has them
    respelled(tree, r)  the tree with other spellings of its literals
"""
import re

from js_nodes import codes, string

IN_BASE = [(16, re.compile('0x([0-9a-f]+)')), (8, re.compile('0o([0-7]+)')), (2, re.compile('0b([01]+)')), (8, re.compile('(0[0-7]*)'))]
DECIMAL = re.compile(r'([0-9]*)(?:\.([0-9]*))?(?:e([-+]?[0-9]+))?')
# integers that are not decimal, and exponents, are read below these
INTEGERS, EXPONENTS = 1 << 128, 1 << 32
# what has a list of statements, or a block of them, as the body of a program or a function
BODIES = {'Module', 'Script', 'Function', 'ArrowExpr', 'Constructor', 'GetterProp', 'SetterProp'}


def reduced(m, e):
    while m and not m % 10:
        m, e = m // 10, e + 1
    return (m, e) if m else (0, 0)


def value(text):
    text = text.replace('_', '').lower()
    for base, shape in IN_BASE:
        found = shape.fullmatch(text)
        if found:
            number = int(found[1], base)
            return reduced(number, 0) if number < INTEGERS else None
    found = DECIMAL.fullmatch(text)
    if not found or not (found[1] or found[2]) or abs(int(found[3] or 0)) >= EXPONENTS:
        return None
    return reduced(int(found[1] + (found[2] or '')), int(found[3] or 0) - len(found[2] or ''))


def key(text, is_big=False):
    """what stands for a literal: one for all of one value"""
    bare = text.replace('_', '').lower()
    found = value(bare[:-1] if is_big and bare.endswith('n') else bare)
    return text if found is None else '= %d, %d' % found


def is_string_statement(t):
    return t[0] == 'Tree' and t[1] == 'ExprStmt' and t[2][1][0] == 'Tree' and t[2][1][1] == 'Str'


def plain(t, holds=False, spell=key):
    """the plain form of a tree; `holds` where a list of statements right there is the body of a program or a function"""
    if t[0] == 'List':
        lead = 0
        while holds and lead < len(t[1]) and is_string_statement(t[1][lead]):
            lead += 1
        return 'List', tuple(t[1][:lead]) + tuple(plain(u, False, spell) for u in t[1][lead:])
    if t[0] != 'Tree':
        return t
    kind, fields = t[1], t[2]
    if kind == 'Str':
        return 'Tree', kind, (fields[0], fields[1], ('Absent',))
    if kind in ('Number', 'BigInt'):
        return 'Tree', kind, (fields[0], ('Text', codes(spell(string(fields[1][1]), kind == 'BigInt'))))
    below = kind in BODIES or holds and kind == 'BlockStmt'
    return 'Tree', kind, tuple(plain(u, below, spell) for u in fields)


def spelling(text, r, is_big):
    """another spelling of a number"""
    found = value(text.removesuffix('n') if is_big else text)
    if found is None or not 0 <= found[1] < 30:
        return text
    n = found[0] * 10 ** found[1]
    ways = [text, '0x%x' % n, '0X%X' % n, '0b{:b}'.format(n), '0o%o' % n, '%d' % n, '{:_}'.format(n)]
    ways += ['%dn' % n] if is_big else ['%de0' % n, '%d.' % n, '%d.0' % n, '0%o' % n, '%d00e-2' % n, '.%de%d' % (n, len(str(n)))]
    return r.choice(ways)


def respelled(t, r):
    """the tree with other spellings of its literals, directives too"""
    if t[0] == 'List':
        return 'List', tuple(respelled(u, r) for u in t[1])
    if t[0] != 'Tree':
        return t
    kind, fields = t[1], t[2]
    if kind == 'Str' and r.random() < 0.5:
        text = string(fields[1][1])
        return 'Tree', kind, (fields[0], fields[1], r.choice([('Absent',), ('Text', codes("'%s'" % text)), ('Text', codes('"%s"' % text))]))
    if kind in ('Number', 'BigInt') and r.random() < 0.8:
        return 'Tree', kind, (fields[0], ('Text', codes(spelling(string(fields[1][1]), r, kind == 'BigInt'))))
    return 'Tree', kind, tuple(respelled(u, r) for u in fields)
