"""The relations of comments that are written with a tree as decision procedures, transcribed by hand: what a text with comments may be, and at which
node a comment of a text may stand.

Each function has the name of its definition. A remark is a record of its text and of where it stands, `('Leads', n)` or `('Trails', n)`, what is
left is its number with the reason. Where a definition says that there are items, `ways` gives all that there are.
"""
import scoping
from following import Follows, Takes, pieces

CRATES = ('text_commented',)
SOURCES = {
    'text_commented': {'AreChosen': 'bd7678409abe', 'AreLast': 'c8e0095fcb94', 'ArePut': '9e9be39596e5', 'ArePutAt': 'bda888f9b8e8', 'BeginsBehind': '973646837275',
        'ClosesBehind': '208977b3defb', 'ComesBefore': 'c2457d2ad3e5', 'IsAlone': 'bfee79845bd7', 'IsCaught': 'fa0b26da1b2f',
        'IsChosen': '1827bfdc1685', 'IsCommented': '97d7b6341340', 'IsFirstBegun': '1b032331396c', 'IsFound': 'a6343bfa93d7',
        'IsLastBegun': '1fb2990fb367', 'IsLastStop': '68d2d5c6717b', 'IsNearest': 'b5e0ee0b5f86', 'IsSet': '348b6a908217',
        'IsSetFrom': '76852b1b1127', 'IsTold': 'e50550636fb9', 'IsWhy': 'ee358334adc2', 'IsWrittenWith': '5d0dd5ab7a36',
        'KeepsOrder': '447ee156d176', 'Meets': 'e74465c2e240', 'PutsAmong': 'fb4dbcbcca49', 'Stands': 'e2ddfcc48d66',
        'StopsBefore': '49253112f4d6'},
}
TYPES = ('IsChosen', 'IsFound')
# these say how the code goes on and keeps places, and nothing of texts that the others don't
PASSED_OVER = ('Steps', 'IsFirst', 'IsLast', 'IsSites')


def check_sources(checkout):
    return [name for crate, sources in SOURCES.items() for name in scoping.check_relations(checkout, crate, sources, TYPES, 'commented.py', PASSED_OVER)]


# ---- Sites, Chosen
def Contains(places, a):
    return a in places


def IsLastStop(places, limit, n):
    stops = [m for form, m in places if form == 'Trails' and 0 < m <= limit]
    return bool(stops) and n == max(stops)


def IsLastBegun(places, limit, n):
    begun = [m for form, m in places if form == 'Leads' and 0 < m <= limit]
    return bool(begun) and n == max(begun)


def IsFirstBegun(places, limit, n):
    begun = [m for form, m in places if form == 'Leads' and limit <= m]
    return n < 2 ** 32 and bool(begun) and n == min(begun)


def StopsBefore(places, k):
    return 0 < k.trails and Contains(places, ('Trails', k.trails))


def BeginsBehind(places, k):
    return Contains(places, ('Leads', k.leads))


def ClosesBehind(places, k):
    return k.leads + 1 < 2 ** 32 and Contains(places, ('Trails', k.leads + 1))


def IsAlone(places, k):
    return not StopsBefore(places, k) and not BeginsBehind(places, k)


def stops_before(places, k):
    """each n for which `IsLastStop` holds"""
    return [n for n in {n for form, n in places if form == 'Trails'} if IsLastStop(places, k.trails, n)]


def begins_behind(places, k):
    return [n for n in {n for form, n in places if form == 'Leads'} if IsFirstBegun(places, k.leads, n)]


def IsNearest(places, k, at):
    form, n = at
    if form == 'Trails':
        return IsLastStop(places, k.trails, n) and all(max(0, k.trails - n) <= max(0, m - k.leads) for m in begins_behind(places, k))
    return IsFirstBegun(places, k.leads, n) and all(max(0, n - k.leads) < max(0, k.trails - m) for m in stops_before(places, k))


def IsFound(D, text, places, k, at):
    line = D.text_commented.Chosen.begins_line(text, k)
    if at == ('Trails', k.trails) and StopsBefore(places, k) and not (BeginsBehind(places, k) and line):
        return True
    if at == ('Leads', k.leads) and BeginsBehind(places, k) and (not StopsBefore(places, k) or line):
        return True
    if at == ('Trails', k.leads + 1) and IsAlone(places, k) and ClosesBehind(places, k):
        return True
    return IsAlone(places, k) and not ClosesBehind(places, k) and IsNearest(places, k, at)


def IsCaught(D, text, tight, k, at):
    return D.text_comments.Lines.ends_line(D.text_commented.Commented.written(text, k)) and Contains(tight, at)


def IsChosen(D, text, places, tight, k, at):
    found = [a for a in set(places) | {('Leads', k.leads), ('Trails', k.trails), ('Trails', k.leads + 1)} if IsFound(D, text, places, k, a)]
    caught, begun = [a for a in found if IsCaught(D, text, tight, k, a)], [n for form, n in places if form == 'Leads' and IsLastBegun(places, k.trails, n)]
    if at in found and at not in caught or caught and at[0] == 'Leads' and at[1] in begun:
        return True
    return at == ('Leads', k.leads) and (not found or bool(caught) and not begun)


def AreChosen(D, text, framed, comments, remarks):
    places, tight = D.text_commented.Places.all_places(framed), D.text_commented.Places.tight_places(framed)
    return len(comments) == len(remarks) and all(
        r.text == D.text_commented.Commented.written(text, k) and IsChosen(D, text, places, tight, k, r.at) for k, r in zip(comments, remarks))


# ---- Why
def IsWhy(D, c, framed, r, why):
    is_one = D.text_comments.Lines.is_one_comment(c, r.text)
    if why == 'NoPlace':
        return is_one and not Contains(D.text_commented.Places.all_places(framed), r.at)
    if why == 'NoLineEnd':
        return is_one and D.text_comments.Lines.ends_line(r.text) and Contains(D.text_commented.Places.tight_places(framed), r.at)
    return why == 'NoComment' and not is_one


def IsTold(D, c, framed, r, why):
    return r is not None and IsWhy(D, c, framed, r, why)


# ---- Commented
def Stands(r, a):
    return r is not None and r.at == a


def due_in(D, c, framed, text):
    """between the tokens of a text, from its beginning to its end, the places of frames there, each with how many tokens that are always written
    come before, and the comments that are due; None where the text has not these pieces. It is what `Meets` and the end of `IsSetFrom` say,
    whatever is put."""
    fresh, e, rest, here, found, made, passed = True, 'Closed', text, [], [], D.text_comments.Comments, 0
    for p in framed:
        rests = Takes(D, c, False, (fresh, e), p, rest)
        if not rests:
            return None
        if len(rests[0]) < len(rest):
            comments = made.before_tokens(len(rest), c, D.text_follow.Follows.goal_of(p), text, fresh, rest, rests[0])
            found.append((here, [D.text_commented.Commented.written(text, k) for k in comments]))
            here = []
        passed += D.text_commented.Places.is_token(p)
        here = here + [(place, passed) for place in D.text_commented.Places.places(p)]
        fresh, e, rest = D.text_follow.Follows.fresh_behind(fresh, p), D.text_follow.Endings.ending_behind(e, p), rests[0]
    left = D.text_lexer.Blanks.blank(c, fresh, rest)
    if left is None or left[0][1] != ():
        return None
    return found + [(here, [D.text_commented.Commented.written(text, k) for k in made.before_token(c, text, fresh, rest)])]


def AreLast(gaps):
    """the same without the places where a comment may not trail, since a node behind them stops there too"""
    seen, out = set(), []
    for places, due in reversed(gaps):
        kept = []
        for place, passed in reversed(places):
            if place[0] == 'Leads' or place not in seen:
                kept.append((place, passed))
            seen.add(place)
        out.append((kept[::-1], due))
    return out[::-1]


def KeepsOrder(rs, put):
    """those that are put at one place behind as many tokens rise; `ComesBefore` says so of two"""
    return all(n < m or here != there or not Stands(rs[m], rs[n].at) for i, (m, there) in enumerate(put) for n, here in put[:i])


def ArePutAt(rs, places, due, may):
    """the numbers that are put at one place after another, each with how many tokens come before, where their texts are those that are due and they
    are of some; `ArePut` says that those of one frame rise"""
    ways = {((), 0, -1)}                              # what is put, at which place the next may be, and the number there before it
    for text in due:
        ways = {(put + ((n, places[i][1]),), i, n) for put, at, last in ways for i in range(at, len(places)) for n in may
                if n not in [m for m, _ in put] and (i > at or n > last) and Stands(rs[n], places[i][0]) and rs[n].text == text}
    return sorted({put for put, _, _ in ways})


def PutsAmong(rs, gaps, may):
    """all that is put, gap for gap, of some numbers, each once"""
    ways = [((), frozenset(may))]
    for places, due in gaps:
        ways = [(put + ns, left - {n for n, _ in ns}) for put, left in ways for ns in ArePutAt(rs, places, due, left)]
    return ways


def IsSet(D, c, framed, rs, text, used):
    """the text is written with just these remarks"""
    gaps = due_in(D, c, framed, text)
    if gaps is None or sum(len(due) for _, due in gaps) != len(used):
        return False
    return any(KeepsOrder(rs, put) for put, _ in PutsAmong(rs, AreLast(gaps), used))


def IsCommented(D, c, t, rs, text, left):
    framed, numbers = D.text_pieces.Pieces.framed_pieces(t), [n for n, _ in left]
    if numbers != sorted(set(numbers)) or any(n >= len(rs) for n in numbers):
        return False
    used = [n for n in range(len(rs)) if n not in numbers]
    return Follows(D, c, False, pieces(D, t), text) and IsSet(D, c, framed, rs, text, used) and all(IsTold(D, c, framed, rs[n], why) for n, why in left)
