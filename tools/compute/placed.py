"""Trees whose spans are those of a text: `with_spans(t, text)` gives each node the place where the text has it.

That it does so is asked of `SpansAreOf`. What has no frame of its own keeps no place: 0.
"""
import following
import trees
from antt_values import Rec
from following import word
from lawbook import D
from text_edit_laws import way_through

FIRST, STRIDE = 10 ** 6, 10


def numbered(t):
    """the tree with a span of its own for each that it has"""
    count = [0]

    def fresh():
        count[0] += 1
        lo = FIRST + STRIDE * count[0] + 1
        return Rec(lo=lo, hi=lo + 4)

    def walk(node):
        if node[0] == 'Span':
            return ('Span', fresh())
        if node[0] == 'Identifier':
            return ('Identifier', node[1], Rec(span=fresh(), ctxt=node[2].ctxt, sym=node[2].sym))
        return trees.with_kids(node, [walk(child) for child in trees.kids(node)]) if node[0] in ('List', 'Tree') else node
    return walk(t)


def with_each_span(change, t):
    """the tree with its spans changed"""
    if t[0] == 'Span':
        return ('Span', change(t[1]))
    if t[0] == 'Identifier':
        return ('Identifier', t[1], Rec(span=change(t[2].span), ctxt=t[2].ctxt, sym=t[2].sym))
    return trees.with_kids(t, [with_each_span(change, child) for child in trees.kids(t)]) if t[0] in ('List', 'Tree') else t


def name_at(c, fresh, text, name):
    """where a name stands that may stand in parentheses: what is left before it and behind it"""
    for start in [(fresh, text)] + [(False, rest) for rest in following.Reads(D.all, c, fresh, text, following.mark('LeftParen'))]:
        for rest in following.Reads(D.all, c, start[0], start[1], ('name', name)):
            return D.all.text_lexer.Blanks.blank(c, *start)[0][1], rest
    raise ValueError('no name there')


def found(c, t, text):
    """of each span by its number where it begins and stops"""
    begins, stops, end = {}, {}, len(text) + 1
    for p, fresh, before, _ in way_through(c, D.all.text_pieces.Pieces.framed_pieces(t), text):
        if p is None or word(p) != 'frame':
            continue
        frame = p[1]
        if word(frame) == 'named':
            first, last = name_at(c, fresh, before, frame[1])
            begins[frame[2].lo // STRIDE], stops[frame[2].lo // STRIDE] = end - len(first), end - len(last)
        elif word(frame) == 'begins':            # a text of a template begins behind its quote or brace
            begins[frame[1] // STRIDE] = end - len(D.all.text_lexer.Blanks.blank(c, fresh, before)[0][1]) + (1 - frame[1] % STRIDE)
        else:
            stops[frame[1] // STRIDE] = end - len(before) - (frame[1] % STRIDE - 5)
    return begins, stops


def with_spans(t, text):
    """the tree of a text with its places in it"""
    t = numbered(t)
    begins, stops = found(following.comments_of(D.all, t), t, text)

    def change(span):
        number = span.lo // STRIDE
        return Rec(lo=begins.get(number, 0), hi=stops.get(number, 0))
    t = with_each_span(change, t)
    return trees.put(t, (0,), ('Span', Rec(lo=1, hi=len(text) + 1)))
