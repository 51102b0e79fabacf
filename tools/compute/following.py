"""The relations of the text crates as decision procedures, transcribed by hand: which text has which pieces, and which tree is well formed.

Each function has the name of its definition. What the specs define as functions (tokens, blanks, pieces, endings, values) is taken from the
translation. Where a definition says which rest of a text there is, the function gives all rests that there are.
"""
import scoping
import trees
from antt_values import Rec

CRATES = ('text_characters', 'text_strings', 'text_values', 'text_lexer', 'text_words', 'text_pieces', 'text_follow', 'text_grammar',
          'text_reader', 'text_source', 'text_spans', 'text_derives', 'text_checks', 'text_comments', 'text_edit', 'text_places',
          'text_kept_laws')
# the relations that this was made from, by crate, by digests of their texts, as in scoping.py
SOURCES = {
    'text_follow': {'Follows': 'd864ea92f49a', 'FollowsFrom': '3fa5f2a378d6', 'InParens': 'fde49c9e6b45', 'IsCooked': '2b1e5a733852',
        'IsRaw': '8282b052dca3', 'MayInsert': '912b3b2e3ffc', 'Reads': '2ed50b9397e1', 'ReadsAttribute': '8e7257f40cf1',
        'ReadsThree': '1406b34520ea', 'ReadsTwo': 'd2fd7be6de7c', 'Spells': 'c00bf1728911', 'StandsFor': '3eecba0cb2cf', 'ReadsHashbang': 'e941c3ed4eaa', 'Takes': 'c7d154126ad1',
        'BeginsAt': 'bb01574c70b5', 'HasName': '3dc1b9d3a8e8', 'IsAt': 'c49ad8f95e42', 'IsSo': '3f7bf72fd36f', 'Says': 'fd16f671b5bd',
        'Stands': 'fd88b6fd2e4a', 'StandsFrom': '6115f03617be'},
    'text_source': {'IsPlace': '967ffe0168ea', 'IsTextOf': 'b2ba1f051c39 c4495303a130', 'IsWhole': '1aa3236c5db9', 'SpansAreOf': '5568a235d4a2',
        'Tells': '937587000cd3'},
    'text_grammar': {'Shaped': 'd37384ac3ed7'},
    'text_checks': {'IsPinned': 'ffb9c8602165', 'IsWellFormed': '778d07726601', 'Lacks': 'c3c984c47bb3', 'Spelled': 'f542e98ccbfa',
        'Worded': 'a3a249ad1c58'},
    'text_spans': {'LeavesStand': '14e46942b007'},
    'text_comments': {'HasComments': '44814e244567', 'HasCommentsFrom': '24975e54d4aa'},
    'text_edit': {'Advances': '6bb9298192a1', 'Allowed': '0ea24baf894e', 'EditedFrom': '9cde79506d00', 'Extends': 'ba6432d87edb',
        'IsEdited': 'ae7a02ad26a8', 'IsEditedBySteps': 'b6612200d938', 'IsRenamed': '36c0a5020792', 'Leads': '36216dcbff1b',
        'RenamedFrom': 'a02b67dbfe78', 'Stays': '1e9bd7154fb7'},
}
# these say how the code reads on or asks, and nothing of texts that the others don't
PASSED_OVER = ('Readers', 'Asked')
PLAIN = ('Module', 'Script')


def check_sources(checkout):
    return [name for crate, sources in SOURCES.items() for name in scoping.check_relations(checkout, crate, sources, (), 'following.py', PASSED_OVER)]


def word(value):
    """the variant's name"""
    return value if isinstance(value, str) else value[0]


# ---- text_follow
def IsRaw(quote, body, raw):
    return raw is None or raw[0] == (quote,) + body + (quote,)


def StandsFor(D, reading, body, value):
    return D.text_values.Values.is_value(D.text_values.Values.cooked(reading, body), value)


def IsCooked(D, body, value):
    return D.text_values.Values.units('Template', body) is None if value is None else StandsFor(D, 'Template', body, value[0])


def Spells(D, c, t, p):
    """the token of a text, whose first byte is `c`, is this piece of a tree"""
    token, piece = word(t), word(p)
    if (token, piece) in (('escaped_name', 'name'), ('private_name', 'private_name')):
        return StandsFor(D, 'Quoted', t[1], p[1])
    if (token, piece) == ('string', 'quoted'):
        return StandsFor(D, 'Quoted', t[1], p[1]) and IsRaw(c, t[1], p[2])
    if (token, piece) == ('template', 'template'):
        return t[1] == p[1] and IsCooked(D, t[2], p[2]) and D.text_values.Values.template_raw(t[2]) == p[3]
    same = {('name', 'word'), ('name', 'name'), ('punctuator', 'punctuator'), ('number', 'number'), ('big_integer', 'big_integer'),
            ('regex', 'regex'), ('hashbang', 'hashbang')}
    return (token, piece) in same and t[1:] == p[1:]


def Reads(D, c, fresh, text, p):
    """the rests, of which there is at most one"""
    found = D.text_lexer.Blanks.blank(c, fresh, text)
    if found is None:
        return []
    following = found[0][1]
    read = D.text_lexer.Lexical.token_at(D.text_follow.Follows.goal_of(p), following)
    if read[0] != 'Ok' or not Spells(D, following[0] if following else 0, read[1][0], p):
        return []
    return [read[1][1]]


def reads_all(D, c, fresh, text, ps):
    """what `ReadsTwo` and `ReadsThree` say, of any number of pieces"""
    rests = [text]
    for number, p in enumerate(ps):
        rests = [rest for mid in rests for rest in Reads(D, c, fresh and number == 0, mid, p)]
    return rests


def MayInsert(D, c, fresh, e, text):
    found = D.text_lexer.Blanks.blank(c, fresh, text)
    return found is not None and D.text_follow.Follows.may_stand(found[0][0], e, found[0][1])


def mark(name):
    return ('punctuator', name)


def InParens(D, c, soft, fresh, text, a):
    rests = reads_all(D, c, fresh, text, [mark('LeftParen'), ('name', a), mark('RightParen')])
    return rests + (reads_all(D, c, fresh, text, [mark('LeftParen'), ('name', a), mark('Comma'), mark('RightParen')]) if soft else [])


def ReadsAttribute(D, c, fresh, text, key, value):
    keys = (('name', key), ('quoted', key, None))
    return [rest for first in keys for rest in reads_all(D, c, fresh, text, [first, mark('Colon'), ('quoted', value, None)])]


def ReadsHashbang(D, fresh, text, a):
    if not fresh:
        return []
    read = D.text_lexer.Lexical.token_at('HashbangOrRegExp', text)
    return [read[1][1]] if read[0] == 'Ok' and read[1][0] == ('hashbang', a) else []


OPTIONAL = {'may_comma': [mark('Comma')], 'may_from': [mark('LeftBrace'), mark('RightBrace'), ('word', tuple(b'from'))],
            'may_braces': [mark('Comma'), mark('LeftBrace'), mark('RightBrace')]}


def Takes(D, c, soft, before, p, text):
    """the rests of a text behind a piece; `before` says whether nothing stands before it, and how what stands there ends"""
    (fresh, e), piece = before, word(p)
    if piece == 'ends':
        return Reads(D, c, fresh, text, mark('Semicolon')) + ([text] if soft and MayInsert(D, c, fresh, e, text) else [])
    if piece in OPTIONAL:
        return (reads_all(D, c, fresh, text, OPTIONAL[piece]) if soft else []) + [text]
    if piece == 'parameter':
        return InParens(D, c, soft, fresh, text, p[1]) + (Reads(D, c, fresh, text, ('name', p[1])) if soft else [])
    if piece == 'attribute':
        return ReadsAttribute(D, c, fresh, text, p[1], p[2])
    if piece == 'hashbang':
        return ReadsHashbang(D, fresh, text, p[1])
    if piece == 'here':
        found = D.text_lexer.Blanks.blank(c, fresh, text)
        return [text] if found is not None and not found[0][0] else []
    if piece in ('closes', 'gap', 'frame'):
        return [text]
    return [] if piece == 'never' else Reads(D, c, fresh, text, p)


def places(D, c, soft, ps, text, is_so=lambda fresh, p, rest: True):
    """for each piece the rests before which it may stand and is so, and at last those that are left; none where the text is no such"""
    fresh, e, rests, found = True, 'Closed', [text], []
    for p in ps:
        rests = [rest for rest in rests if is_so(fresh, p, rest)]
        found.append((fresh, e, rests))
        behind = {len(rest): rest for before in rests for rest in Takes(D, c, soft, (fresh, e), p, before)}
        rests = list(behind.values())
        if not rests:
            return None
        fresh, e = D.text_follow.Follows.fresh_behind(fresh, p), D.text_follow.Endings.ending_behind(e, p)
    last = [rest for rest in rests for left in [D.text_lexer.Blanks.blank(c, fresh, rest)] if left is not None and left[0][1] == ()]
    return found + [(fresh, e, last)] if last else None


def Follows(D, c, soft, ps, text):
    return places(D, c, soft, ps, text) is not None


def IsAt(n, rest, place):
    return place + len(rest) == n + 1


def BeginsAt(D, n, c, fresh, text, place):
    found = D.text_lexer.Blanks.blank(c, fresh, text)
    return found is not None and IsAt(n, found[0][1], place)


def HasName(D, n, c, fresh, text, a, s):
    return BeginsAt(D, n, c, fresh, text, s.lo) and any(IsAt(n, rest, s.hi) for rest in Reads(D, c, fresh, text, ('name', a)))


def Says(D, n, c, fresh, f, text):
    if word(f) == 'begins':
        return BeginsAt(D, n, c, fresh, text, f[1])
    if word(f) == 'stops':
        return IsAt(n, text, f[1])
    return HasName(D, n, c, fresh, text, f[1], f[2]) or any(
        HasName(D, n, c, False, inner, f[1], f[2]) for inner in Reads(D, c, fresh, text, mark('LeftParen')))


def IsSo(D, n, c, fresh, p, text):
    return word(p) != 'frame' or Says(D, n, c, fresh, p[1], text)


def Stands(D, c, soft, ps, text):
    return places(D, c, soft, ps, text, lambda fresh, p, rest: IsSo(D, len(text), c, fresh, p, rest)) is not None


# ---- trees
def HasNode(test, t):
    return any(test(node) for _, node in trees.paths(t))


def Shaped(D, t):
    return not HasNode(D.text_grammar.Shaped.is_misshapen, t)


def Spelled(D, t):
    return not HasNode(D.text_checks.Spelled.is_misspelled, t)


def Fits(D, t):
    return D.swc_tree_node.Fits.fits(t, ('One', ('Node', t[1])))


def FitsGrammar(D, t):
    return D.swc_tree_grammar.Grammar.derives(t, Rec(with_in=True, strict=False))


def IsWellFormed(D, t):
    return Fits(D, t) and Shaped(D, t) and Spelled(D, t) and FitsGrammar(D, t)


def Worded(D, t):
    return D.text_checks.Words.fits(t, D.text_checks.Words.neither)


def IsPinned(D, t):
    straight, lax = not HasNode(D.text_checks.Pinned.is_astray, t), HasNode(D.text_checks.Pinned.is_lax, t)
    return straight and Worded(D, t) and (lax or D.swc_tree_grammar.Writable.is_writable(t))


def pieces(D, t):
    return D.text_pieces.Pieces.pieces(t)


def comments_of(D, t):
    return D.text_source.Texts.comments_of(t[1])


def IsUtf8(text):
    try:
        bytes(text).decode()
    except UnicodeDecodeError:
        return False
    return True


def IsTextOf(D, t, text):
    """the text is that of a module or a script"""
    return t[1] in PLAIN and IsUtf8(text) and Fits(D, t) and Follows(D, comments_of(D, t), True, pieces(D, t), text)


def LeavesStand(D, text, t):
    return not HasNode(lambda node: D.text_spans.Leaves.is_misplaced(text, node), t)


def IsWhole(text, span):
    return span is not None and (span[0].lo, span[0].hi) == (1, len(text) + 1)


def SpansAreOf(D, t, text):
    """each node stands where its span says; of a module or a script"""
    return IsWhole(text, D.text_pieces.Frames.first_span(t)) and Stands(D, comments_of(D, t), True, D.text_pieces.Pieces.framed_pieces(t), text)
