"""Answers of `list_changes`, `source_map` and `give_marked` by the rules in words, not by their definitions, and wrong answers beside them."""
import copy

import following
import js
import placed
import scoping
import text_kept_laws
import texts
import told
import trees
import units
from antt_values import Rec
from lawbook import D, fixed, has_types, is_writable
from naming_rows import with_hygiene
from text_kept_laws import clean_source

DIGITS = 'ABCDEFGHIJKLMNOPQRSTUVWXYZabcdefghijklmnopqrstuvwxyz0123456789+/'
LOGICAL = ('LogicalOr', 'LogicalAnd', 'NullishCoalescing')


# ---- programs
def resolved(t):
    return scoping.resolved(D.all, t, 1, 2)


# what commands make of a program
COMMANDS = {'chain': lambda t: fixed(with_hygiene(resolved(t))), 'mangle': lambda t: text_kept_laws.mangled(resolved(t)),
            'hygiene': lambda t: with_hygiene(resolved(t)), 'fix': fixed, 'unparen': lambda t: D.grammar.Blocks.with_blocks(D.grammar.Stripped.stripped(t))}


def is_or(t, operator=None):
    return t[0] == 'Tree' and t[1] == 'BinExpr' and t[2][1][1] in LOGICAL and operator in (None, t[2][1])


def grouped(t):
    """the tree with `||`, `&&` and `??` grouped to the left, as a text is read"""
    t = trees.with_kids(t, [grouped(child) for child in trees.kids(t)]) if t[0] in ('List', 'Tree') else t
    while is_or(t) and is_or(t[2][3], t[2][1]):
        span, operator, left, right = t[2]
        t = ('Tree', 'BinExpr', (span, operator, grouped(('Tree', 'BinExpr', (right[2][0], operator, left, right[2][2]))), right[2][3]))
    return t


def may_be_read(t):
    """a tree as a text is read"""
    return t is not None and following.IsWellFormed(D.all, t) and following.IsPinned(D.all, t) and scoping.IsClean(D.all, t)


class Made:
    """a text of a program, what a command makes of it, and a text of that"""
    source_of = staticmethod(clean_source)

    def __init__(self, random, t):
        self.is_one = may_be_read(t) and is_writable(t) and not units.HasEval(D.all, t)
        if not self.is_one:
            return
        self.text = texts.written(random, t, random.pick([texts.PLAIN, texts.LOOSE]))
        self.source = placed.with_spans(t, self.text)
        self.command = random.pick(list(COMMANDS))
        self.answer = COMMANDS[self.command](self.source)
        written = grouped(self.answer)
        self.is_one = not has_types(self.answer) and following.IsWellFormed(D.all, written) and following.IsPinned(D.all, written)
        if self.is_one:
            self.out = texts.written(random, written, random.pick([texts.PLAIN, texts.LOOSE]))
            self.is_one = following.IsTextOf(D.all, written, self.out)
        if self.is_one:
            self.written, self.size = placed.with_spans(written, self.out), trees.size(t)
            self.others = list(self.read_with_marks())

    def read_with_marks(self):
        """the same with a mark on one of its names, which a tree that is read has not"""
        for path, node in trees.paths(self.source):
            if node[0] == 'Identifier':
                other = copy.copy(self)
                other.source = trees.put(self.source, path, ('Identifier', node[1], Rec(span=node[2].span, ctxt=(9,), sym=node[2].sym)))
                other.answer = COMMANDS[self.command](other.source)
                yield other

    def holds(self, answer):
        """for one of the trees that may have been read"""
        return any(case.holds_of_tree(answer) for case in [self] + self.others)

    def shown(self):
        return '%s of %s: %r becomes %r' % (self.command, self.source[1].lower(), bytes(self.text).decode(), bytes(self.out).decode())


NAME = tuple(b'a.js')


class Mapped(Made):
    """the source map of what was written"""
    def right(self):
        return map_by_rules(self, NAME)

    def wrong(self):
        yield from wrong_maps(self, NAME)
        yield from (('names read with marks', map_by_rules(case, NAME)) for case in self.others)

    def holds_of_tree(self, answer):
        return told.IsMap(D.all, self.source, self.answer, self.written, NAME, self.text, self.out, answer)

    def show(self, answer):
        return '%s: %s and not %s' % (self.shown(), bytes(answer).decode().strip(), bytes(self.right()).decode().strip())


class Listed(Made):
    """the names that are given anew"""
    def right(self):
        return tuple(list_by_rules(self))

    def wrong(self):
        yield from wrong_lists(self)
        yield from (('names read with marks', tuple(list_by_rules(case))) for case in self.others)

    def holds_of_tree(self, answer):
        return told.HasChanges(D.all, self.source, self.answer, self.text, answer)

    def show(self, answer):
        return '%s: %s' % (self.shown(), ', '.join('%d %s %s' % (place, bytes(old).decode(), bytes(new).decode()) for place, old, new in answer))


# ---- source maps
def digits(n):
    """a number in base 64, with the sign last"""
    n, out = 2 * n if n >= 0 else 1 - 2 * n, ''
    while n > 31:
        out += DIGITS[n % 32 + 32]
        n //= 32
    return out + DIGITS[n]


def position(text, count):
    """the line and the column of UTF-16 of what stands behind so many bytes, from 0"""
    before, behind = bytes(text[:count]).decode(errors='ignore'), b'\n' if text[count:count + 1] == (10,) else b''
    lines = [0] + [i + 1 for i, c in enumerate(before) if c in '\n\u2028\u2029' or c == '\r' and (before + behind.decode())[i + 1:i + 2] != '\n']
    return len(lines) - 1, len(before[lines[-1]:].encode('utf-16-le')) // 2


def spots(t):
    """(where it begins, its name or None) of each span and each identifier, in order"""
    if t[0] == 'Identifier':
        return [(t[2].span.lo, t[2].sym)]
    return [(t[1].lo, None)] if t[0] == 'Span' else [spot for child in trees.kids(t) for spot in spots(child)]


def rows_by_rules(case):
    """where nodes are written, where they stood, and their old names, by bytes; the last of those of one place"""
    olds, rows = {lo: name for lo, name in spots(case.source) if name is not None}, {}
    for (lo, name), (place, _) in zip(spots(case.answer), spots(case.written)):
        if lo and place:
            rows[place - 1] = (lo - 1, olds[lo] if name is not None and olds.get(lo, name) != name else None)
    return [(place, *row) for place, row in sorted(rows.items())]


def encoded(entries):
    """the mappings of rows (line, column, line and column in the source, number of a name or None)"""
    out, line, last = '', 0, [0, 0, 0, 0]
    for number, (at, *row) in enumerate(entries):
        if at > line:
            out, line, last[0] = out + ';' * (at - line), at, 0
        elif number:
            out += ','
        out += digits(row[0] - last[0]) + 'A' + digits(row[1] - last[1]) + digits(row[2] - last[2]) + ('' if row[3] is None else digits(row[3] - last[3]))
        last = row[:3] + [last[3] if row[3] is None else row[3]]
    return out


def quoted(text):
    return '"%s"' % ''.join('\\' + c if c in '"\\' else '\\u%04x' % ord(c) if c < ' ' else c for c in bytes(text).decode())


def map_text(name, names, mappings):
    return tuple(('{"version":3,"sources":[%s],"names":[%s],"mappings":"%s"}\n' % (quoted(name), ','.join(map(quoted, names)), mappings)).encode())


def entries_of(case, rows, names):
    return [(*position(case.out, place), *position(case.text, read), None if old is None else names.index(old)) for place, read, old in rows]


def map_by_rules(case, name):
    rows = rows_by_rules(case)
    names = list(dict.fromkeys(old for _, _, old in rows if old is not None))
    return map_text(name, names, encoded(entries_of(case, rows, names)))


def changed(rows, i, *row):
    return rows[:i] + [row] + rows[i + 1:]


def wrong_rows(case, rows, names):
    """(kind, rows) of other rows for a map"""
    places = {place for place, _, _ in rows}
    for i, (place, read, old) in enumerate(rows):
        if place + 1 <= len(case.out) and place + 1 not in places:
            yield 'a place written a byte off', changed(rows, i, place + 1, read, old)
        yield 'a place in the source a byte off', changed(rows, i, place, read + 1, old)
        yield 'a node left out', rows[:i] + rows[i + 1:]
        for other in [None] + names:
            if other != old:
                kind = 'an old name left out' if other is None else 'an old name where none is' if old is None else 'another old name'
                yield kind, changed(rows, i, place, read, other)
    free = next((place for place in range(len(case.out) + 1) if place not in places), None)
    if free is not None:
        yield 'a node too many', sorted(rows + [(free, 0, None)])


def wrong_maps(case, name):
    """(kind, map) of other maps"""
    rows = rows_by_rules(case)
    names = list(dict.fromkeys(old for _, _, old in rows if old is not None))
    entries = entries_of(case, rows, names)
    for kind, others in wrong_rows(case, rows, names):
        yield kind, map_text(name, names, encoded(entries_of(case, others, names)))
    for more in ((99,), *names[:1]):
        yield 'a name too many', map_text(name, names + [more], encoded(entries))
    if names:
        yield 'a name left out', map_text(name, names[:-1], encoded(entries))
        yield 'another name', map_text(name, names[:-1] + [names[-1] + (99,)], encoded(entries))
    if len(names) > 1:
        yield 'names in another order', map_text(name, names[::-1], encoded(entries_of(case, rows, names[::-1])))
    yield 'lines behind the last', map_text(name, names, encoded(entries) + ';')
    yield 'another file', map_text(name + (99,), names, encoded(entries))


# ---- names that are given anew
def list_by_rules(case):
    """(bytes before it, old text, new text) of each identifier that has another text than what stood at its place"""
    olds = {lo: name for lo, name in spots(case.source) if name is not None}
    return [(lo - 1, olds[lo], name) for lo, name in spots(case.answer) if name is not None and olds.get(lo, name) != name]


def wrong_lists(case):
    """(kind, list) of other lists"""
    rows = list_by_rules(case)
    for kind, others in others_listed(case, rows):
        yield kind, tuple(others)


def others_listed(case, rows):
    for i, (place, old, new) in enumerate(rows):
        yield 'a change left out', rows[:i] + rows[i + 1:]
        yield 'a change twice', rows[:i + 1] + rows[i:]
        yield 'a place a byte off', changed(rows, i, place + 1, old, new)
        yield 'old and new exchanged', changed(rows, i, place, new, old)
        yield 'another old name', changed(rows, i, place, old + (99,), new)
        yield 'another new name', changed(rows, i, place, old, new + (99,))
        if i and rows[i - 1] != rows[i]:
            yield 'two exchanged', rows[:i - 1] + [rows[i], rows[i - 1]] + rows[i + 1:]
    for lo, name in spots(case.answer):
        if name is not None and lo and (lo - 1, name, name) not in rows:
            yield 'a name that stays', [(lo - 1, name, name)] + rows


# ---- texts with marks
def marked_tree(random, t):
    """the tree with marks on some names, by ids"""
    marks = {}
    for _, node in trees.paths(t):
        if node[0] == 'Identifier' and node[2].sym not in marks:
            marks[node[2].sym] = random.pick([(), (2,), (3,), (2, 3), (23,)])
    return trees.with_identifiers(lambda i: (i.sym, marks[i.sym]), t)


def sign(marks):
    return ('#' + '.'.join(map(str, marks))).encode() if marks else b''


def with_signs(t, text):
    """the text of a tree with the marks of its names behind them, and the signs (bytes before it, marks)"""
    found, out, last = {}, b'', 0
    for _, node in trees.paths(t):
        if node[0] == 'Identifier' and node[2].ctxt:
            found[node[2].span.hi - 1] = node[2].ctxt
    for place, marks in sorted(found.items()):
        out += bytes(text[last:place]) + sign(marks)
        last = place
    return tuple(out + bytes(text[last:])), tuple(sorted(found.items()))


class Given:
    """a text with marks behind its names, and in a comment: the text without them, and the program with them"""
    source_of = staticmethod(clean_source)

    def __init__(self, random, t):
        self.is_one = may_be_read(t)
        if self.is_one:
            self.plain = texts.written(random, t, texts.PLAIN) + random.pick([(), (), tuple(b' /* a#2 */')])
            self.tree, self.size = marked_tree(random, placed.with_spans(t, self.plain)), trees.size(t)
            self.text, self.signs = with_signs(self.tree, self.plain)
            self.table = tuple((mark, 0) for mark in sorted({1, 2, *(mark for _, marks in self.signs for mark in marks)}))

    def right(self):
        return self.plain, self.tree, self.table

    def wrong(self):
        for kind, (plain, t) in wrong_given(self):
            yield kind, (plain, t, self.table)
        for kind, table in wrong_tables(self.table):
            yield kind, (self.plain, self.tree, table)

    def holds(self, answer):
        plain, t, table = answer
        source = trees.with_identifiers(lambda i: (i.sym, ()), self.tree if plain == self.plain else t)
        return told.IsGiven(D.all, source, self.text, plain, t, table)

    def show(self, answer):
        return '%s %r: %r and %s' % (self.tree[1].lower(), bytes(self.text).decode(), bytes(answer[0]).decode(), js.text(answer[1]))


def wrong_tables(table):
    for i, (mark, _) in enumerate(table):
        yield 'a table without a mark', table[:i] + table[i + 1:]
        yield 'a table with a mark twice', table[:i] + table[i:i + 1] + table[i:]
        yield 'a mark below another', table[:i] + ((mark, 1),) + table[i + 1:]
    yield 'a table with a mark too many', table + ((4000, 0),)
    yield 'a table in another order', table[::-1]


def wrong_given(case):
    """(kind, answer) of other answers: the text that is left, and the program"""
    plain, t = bytes(case.plain), case.tree
    for path, node in trees.paths(t):
        if node[0] != 'Identifier':
            continue
        i = node[2]
        for kind, ctxt in (('a mark left out', i.ctxt[:-1]), ('another mark', i.ctxt[:-1] + (9,)), ('a mark too many', i.ctxt + (9,)),
                           ('marks in another order', i.ctxt[::-1])):
            if ctxt != i.ctxt:
                yield kind, (case.plain, trees.put(t, path, ('Identifier', node[1], Rec(span=i.span, ctxt=ctxt, sym=i.sym))))
        yield 'another name', (case.plain, trees.put(t, path, ('Identifier', node[1], Rec(span=i.span, ctxt=i.ctxt, sym=i.sym + (99,)))))
    yield 'another program', (case.plain, ('Tree', t[1], (t[2][0], ('List', ()), ('Absent',))))
    if b'/* a#2 */' in plain:
        yield 'a sign cut out of a comment', (tuple(plain.replace(b'/* a#2 */', b'/* a */')), t)
    for place, marks in case.signs:
        rest = str(marks[-1])[1:].encode()
        if rest:
            yield 'half a sign cut out', (tuple(plain[:place] + rest + plain[place:]), renamed_at(t, place + 1, rest))
        yield 'a sign left', (tuple(plain[:place] + sign(marks) + plain[place:]), t)
    for place in range(len(plain)):
        if plain[place:place + 1] != b' ':
            yield 'a byte left out', (tuple(plain[:place] + plain[place + 1:]), t)
            break


def renamed_at(t, hi, more):
    """the tree with more behind the name that ends at a place"""
    for path, node in trees.paths(t):
        if node[0] == 'Identifier' and node[2].span.hi == hi:
            t = trees.put(t, path, ('Identifier', node[1], Rec(span=node[2].span, ctxt=(), sym=node[2].sym + tuple(more))))
    return t
