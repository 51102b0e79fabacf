"""Answers of `print_text_with_comments` and `remarks_of` by the rules in words, not by their definitions, and wrong answers beside them.

Rules: a comment is written before the first node that begins where it leads, or behind the last that stops where it trails, those of one place in
their order; it is left if it is no comment, if nothing stands where it does, or if it ends a line where none may end.
"""
import re

import commented
import following
import js
import placed
import texts
import trees
from antt_values import Rec
from following import word
from lawbook import D, fixed, has_types, is_writable
from naming_rows import with_hygiene
from scoping import resolved
from text_edit_laws import comments
from texts import leafy_program

COMMENTS = [b'/* a */', b'// b', b'/*\n*/', b'/* c */', b'<!-- d', b'--> e', b'/**/']
NONE = [b'', b'x', b'/* a */ ', b'/* a *//* b */', b'// a\n', b' // a']
REASONS = ('NoPlace', 'NoLineEnd', 'NoComment')
NO_TOKENS = ('may_comma', 'may_from', 'may_braces', 'here', 'closes', 'gap', 'frame')


# ---- the rules
def is_one(c, text):
    """the text is one comment"""
    if re.fullmatch(rb'//[^\n\r]*', text) or re.fullmatch(rb'/\*.*\*/', text, re.S) and b'*/' not in text[2:-2] and len(text) > 3:
        return True
    return c == 'Script' and bool(re.fullmatch(rb'(<!--|-->)[^\n\r]*', text))


def ends_line(text):
    return text.startswith((b'//', b'<!--', b'-->')) or b'\n' in text or b'\r' in text


def places_at(frame):
    if word(frame) == 'named':
        return [('Leads', frame[2].lo), ('Trails', frame[2].hi)]
    return [('Leads' if word(frame) == 'begins' else 'Trails', frame[1])]


def gaps_of(t):
    """between tokens: the places there, in order, and whether no line may end there"""
    gaps = [([], [False])]
    for p in D.all.text_pieces.Pieces.framed_pieces(t):
        if word(p) == 'frame':
            gaps[-1][0].extend(places_at(p[1]))
        elif word(p) == 'here':
            gaps[-1][1][0] = True
        elif word(p) not in NO_TOKENS:
            gaps.append(([], [False]))
    return [(tuple(places), tight[0]) for places, tight in gaps]


def spot_of(c, gaps, r):
    """the gap of a comment and its place there, or why it is left"""
    text = bytes(r.text)
    if not is_one(c, text):
        return 'NoComment'
    found = [(g, i) for g, (places, _) in enumerate(gaps) for i, place in enumerate(places) if place == r.at]
    if not found:
        return 'NoPlace'
    if r.at[0] == 'Trails':
        found = found[-1:]
    may = [spot for spot in found if not (gaps[spot[0]][1] and ends_line(text))]
    return may[0] if may else 'NoLineEnd'


def put_by_rules(c, t, rs):
    """the numbers of comments in each gap, and those that are left, each with why"""
    gaps, left = gaps_of(t), []
    put = [[] for _ in gaps]
    for n, r in enumerate(rs):
        spot = spot_of(c, gaps, r)
        if isinstance(spot, str):
            left.append((n, spot))
        else:
            put[spot[0]].append((spot[1], n))
    return tuple(tuple(n for _, n in sorted(ns)) for ns in put), tuple(left)


class Setting(texts.Writing):
    """writes a tree with comments between its tokens; `inside` says that those of a parameter stand behind its name"""
    def __init__(self, is_script, gaps, inside=False):
        super().__init__(None, texts.PLAIN, is_script)
        self.gaps, self.number, self.due, self.inside = gaps, 0, (), inside
        self.random = self

    def chance(self, p):
        return p == 1

    def pick(self, some):
        return some[0]

    def blank(self, needed):
        out, due, self.due = super().blank(needed or bool(self.due)), self.due, ()
        for text in due:
            out += (b'\n' if text.startswith(b'-->') and self.before is not None else b' ') + text + (b'\n' if ends_line(text) else b' ')
        return out

    def piece(self, p, next_token):
        if word(p) not in NO_TOKENS:
            self.due = self.gaps[self.number]
            self.number += 1
        super().piece(p, next_token)

    def parameter(self, a):
        due = self.due
        if self.inside:
            self.due = ()
        self.mark('LeftParen')
        self.name(a)
        if self.inside:
            self.due = due
        self.mark('RightParen')

    def whole(self, t):
        text = super().whole(t)
        self.due = self.gaps[self.number]
        return text + tuple(self.blank(True)) if self.due else text


def set_text(t, rs, put, inside=False):
    """a text of a tree with the comments of each gap: their numbers, or their bytes"""
    return Setting(t[1] == 'Script', [[n if isinstance(n, bytes) else bytes(rs[n].text) for n in ns] for ns in put], inside).whole(t)


# ---- wrong answers
def without(put, n):
    return tuple(tuple(m for m in ns if m != n) for ns in put)


def with_one(put, g, i, n):
    return put[:g] + (put[g][:i] + (n,) + put[g][i:],) + put[g + 1:]


def exchanged(put, n, m):
    return tuple(tuple({n: m, m: n}.get(k, k) for k in ns) for ns in put)


def moved(gaps, rs, put):
    """one comment elsewhere"""
    for g, ns in enumerate(put):
        for n in ns:
            for h, (places, _) in enumerate(gaps):
                if h != g:
                    kind = 'moved to where such a node %s too' % ('begins' if rs[n].at[0] == 'Leads' else 'stops') if rs[n].at in places else 'moved elsewhere'
                    for i in {0, len(put[h])}:
                        yield kind, with_one(without(put, n), h, i, n)


def disordered(rs, put):
    """two comments in the places of each other"""
    numbers = [n for ns in put for n in ns]
    for n in numbers:
        for m in numbers:
            if n < m and rs[n].text != rs[m].text:
                near = 'in one gap' if any(n in ns and m in ns for ns in put) else 'in two gaps'
                yield 'two of one place exchanged, ' + near if rs[n].at == rs[m].at else 'two of other places exchanged, ' + near, exchanged(put, n, m)


def other_bytes(text):
    """the text with a byte changed, one more or one less"""
    for new in (text.replace(b'a', b'b'), text.replace(b' ', b'', 1), text.replace(b'/*', b'/* ', 1), text.replace(b'\n', b'', 1)):
        if new != text:
            yield new


def spoilt_texts(rs, put):
    for g, ns in enumerate(put):
        for i, n in enumerate(ns):
            for text in other_bytes(bytes(rs[n].text)):
                yield 'its bytes changed', put[:g] + (ns[:i] + (text,) + ns[i + 1:],) + put[g + 1:]
            for h in range(len(put)):
                yield 'written twice', with_one(put, h, len(put[h]), bytes(rs[n].text))


def told_otherwise(gaps, rs, put, left):
    """(kind, what is put, what is left)"""
    for n in [n for ns in put for n in ns]:
        yield 'dropped and not told', without(put, n), left
        for why in REASONS:
            yield 'dropped and told ' + why, without(put, n), tuple(sorted(left + ((n, why),)))
        for why in REASONS:
            yield 'written and told ' + why, put, tuple(sorted(left + ((n, why),)))
    for n, why in left:
        others = tuple(row for row in left if row[0] != n)
        yield 'left and not told', put, others
        for other in REASONS:
            if other != why:
                yield 'told %s and not %s' % (other, why), put, tuple(sorted(others + ((n, other),)))
        for g in range(len(gaps)):
            yield 'written, though %s' % why, with_one(put, g, len(put[g]), n), others


def wrong_answers(c, t, rs):
    """(kind, answer) of answers beside the right one"""
    gaps = gaps_of(t)
    put, left = put_by_rules(c, t, rs)
    right, seen = set_text(t, rs, put), set()
    rows = [(kind, other, left) for kind, other in [*moved(gaps, rs, put), *disordered(rs, put), *spoilt_texts(rs, put)]]
    for kind, other, told in rows + list(told_otherwise(gaps, rs, put, left)):
        text = set_text(t, rs, other)
        if (text, told) != (right, left) and (kind, text, told) not in seen:
            seen.add((kind, text, told))
            yield kind, (text, told)
    inside = set_text(t, rs, put, True)
    if inside != right:
        yield 'inside the parentheses of a parameter', (inside, left)


# ---- at which node a comment stands
def begins_line(text, k):
    """a line ends between the comment and the token before it"""
    return any(end in bytes(text)[max(0, k.trails - 1):k.span.lo - 1].decode() for end in '\n\r\u2028\u2029')


def chosen(text, k, all_of):
    """where a comment stands that may stand anywhere; what was made stands at 0, which is no place"""
    stops, begins = [n for form, n in all_of if form == 'Trails' and n], [n for form, n in all_of if form == 'Leads' and n]
    if k.trails in stops and not (k.leads in begins and begins_line(text, k)):
        return 'Trails', k.trails
    if k.leads in begins:
        return 'Leads', k.leads
    if k.leads + 1 in stops:
        return 'Trails', k.leads + 1
    near = [(k.trails - n, 'Trails', n) for n in stops if n <= k.trails] + [(n - k.leads, 'Leads', n) for n in begins if k.leads <= n]
    return min(near, key=lambda row: row[0])[1:] if near else None


def remark_by_rules(gaps, text, k):
    """a comment of a text as it is to be written with a tree"""
    body = bytes(text)[k.span.lo - 1:k.span.hi - 1]
    at = chosen(text, k, [place for places, _ in gaps for place in places])
    if at and ends_line(body) and any(at in places for places, tight in gaps if tight):
        before = [n for places, _ in gaps for form, n in places if form == 'Leads' and 0 < n <= k.trails]
        at = ('Leads', max(before)) if before else None
    return Rec(text=tuple(body), at=at or ('Leads', k.leads))


def kind_of_place(here, there):
    """where a comment goes by one place, and by another: a gap and a place in it, or why it is left"""
    if isinstance(there, str):
        return 'one of no node' if there == 'NoPlace' else 'left'
    return 'between the same tokens' if not isinstance(here, str) and there[0] == here[0] else 'between other tokens'


def wrong_places(c, gaps, k, right):
    """(kind, at) of other places for a comment"""
    places = {place for places, _ in gaps for place in places}
    here = spot_of(c, gaps, right)
    for at in sorted(places | {(form, n) for form in ('Leads', 'Trails') for n in (k.leads, k.trails, k.leads + 1)}):
        if at != right.at:
            yield 'another place, ' + kind_of_place(here, spot_of(c, gaps, Rec(text=right.text, at=at))), at


# ---- cases
def made_of(t):
    """what a chain makes of a tree"""
    return fixed(with_hygiene(resolved(D.all, t, 1, 2)))


def shown_places(gaps):
    """what begins and stops between tokens, `!` where no line may end"""
    return ' '.join('%s%s' % ('!' if tight else '', ','.join(('<%d' if form == 'Leads' else '>%d') % n for form, n in places)) for places, tight in gaps)


class Program:
    """a tree with the places of a text, as it is or as a chain leaves it"""
    source_of = staticmethod(leafy_program)

    def __init__(self, random, t):
        self.is_one = t is not None and not has_types(t) and following.IsWellFormed(D.all, t)
        if self.is_one:
            self.text = texts.written(random, t, random.pick([texts.PLAIN, texts.LOOSE]))
            self.source = placed.with_spans(t, self.text)
            self.tree = made_of(self.source) if random.chance(0.5) and is_writable(t) else self.source
            self.comments, self.gaps, self.size = following.comments_of(D.all, t), gaps_of(self.tree), trees.size(t)


class Written(Program):
    """a tree that is written with comments: the text, and those that are left"""
    def __init__(self, random, t):
        super().__init__(random, t)
        self.remarks = remarks_for(random, self.gaps, 1 + random.below(3)) if self.is_one else ()
        self.is_one = self.is_one and following.IsWellFormed(D.all, self.tree)

    def right(self):
        put, left = put_by_rules(self.comments, self.tree, self.remarks)
        return set_text(self.tree, self.remarks, put), left

    def wrong(self):
        return wrong_answers(self.comments, self.tree, self.remarks)

    def holds(self, answer):
        return commented.IsCommented(D.all, self.comments, self.tree, self.remarks, *answer)

    def show(self, answer):
        remarks = ', '.join('%s %d %r' % (*r.at, bytes(r.text).decode()) for r in self.remarks)
        return '%s %s, places %s, with %s: %r, left %s' % (
            self.tree[1].lower(), js.text(self.tree), shown_places(self.gaps), remarks, bytes(answer[0]).decode(), list(answer[1]))


class Chosen(Program):
    """the comments of a text, and where each is to stand in the tree that was made of it"""
    def __init__(self, random, t):
        super().__init__(random, t)
        if self.is_one:
            self.found = [Rec(span=Rec(lo=lo, hi=hi), trails=trails, leads=leads) for lo, hi, trails, leads in comments(self.source, self.text)]
            self.is_one = bool(self.found)

    def right(self):
        return tuple(remark_by_rules(self.gaps, self.text, k) for k in self.found)

    def wrong(self):
        right = self.right()
        for i, k in enumerate(self.found):
            for kind, at in wrong_places(self.comments, self.gaps, k, right[i]):
                yield kind, right[:i] + (Rec(text=right[i].text, at=at),) + right[i + 1:]

    def holds(self, answer):
        return commented.AreChosen(D.all, self.text, D.all.text_pieces.Pieces.framed_pieces(self.tree), self.found, answer)

    def show(self, answer):
        others = [(n, one.at, right.at) for n, (one, right) in enumerate(zip(answer, self.right())) if one != right]
        rows = ', '.join('comment %d %s %d and not %s %d' % (n, *one, *right) for n, one, right in others)
        return '%r, places %s: %s' % (bytes(self.text).decode(), shown_places(self.gaps), rows)


def remarks_for(random, gaps, count):
    """some comments, most of them at places of a tree"""
    places, rs = [place for places, _ in gaps for place in places], []
    tight = [place for places, is_tight in gaps if is_tight for place in places]
    for _ in range(count):
        at = random.pick(places) if places and random.chance(0.85) else (random.pick(['Leads', 'Trails']), random.below(12))
        if rs and random.chance(0.3):
            at = random.pick(rs).at
        elif tight and random.chance(0.3):
            at = random.pick(tight)
        rs.append(Rec(text=tuple(random.pick(COMMENTS if random.chance(0.85) else NONE)), at=at))
    return tuple(rs)
