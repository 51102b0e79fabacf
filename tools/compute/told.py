"""The relations of what `mucwathi` tells of a text as decision procedures, transcribed by hand: source maps, the names that are given anew, and texts
with marks behind their names.

Each function has the name of its definition. What a definition says that there is (a source, what a command makes of it, the tree of what was
written) is given, as other definitions say which there are; what is left open beside that is looked for.
"""
import re

import scoping
from antt_values import Rec
from following import IsPinned, IsTextOf, IsWellFormed, SpansAreOf

CRATES = ('mucwathi_lists', 'mucwathi_looks', 'mucwathi_mappings', 'mucwathi_signs')
SOURCES = {
    'mucwathi_looks': {'HasChanges': '79f95166a24b', 'HasMarks': '7737b4f6f2b6', 'IsGiven': '591bce625a89', 'IsMap': '3b2ecb8ba51c',
        'Rise': '5a3d812840d9', 'TellsNodes': '67d22f019ca8', 'TellsWritten': '2d47d7eac5bd'},
    'mucwathi_mappings': {'AreMappings': 'd977de3438e2', 'HasLast': '8219d77fd932', 'IsEntry': '21ec95e5a3ed',
        'IsMapOf': '5b718a79ac85', 'IsName': '852d64fead21', 'IsNumber': '40d289b7be41', 'IsNumberOf': '6a95f14d7bd2', 'TellsOf': '9003b6ff31f5'},
    'mucwathi_signs': {'IsMarked': 'cf9e2dfe4299'},
    'mucwathi_commands': {'IsReadAs': '78fddd8f22fb'},
}
TYPES = ('AreMappings', 'IsMarked', 'IsNumber')
# these say how the code keeps names and places, or belong to other calls
PASSED_OVER = ('Coloured', 'Excerpts', 'Numbered', 'Reports', 'Shown', 'Unshown', 'Looks', 'Marked', 'Names', 'Trees', 'Cut', 'Comments', 'Faults', 'Judged', 'Answered', 'Blanked', 'Refused', 'Signs', 'AddsMappings', 'AddsName', 'AddsNumber', 'AddsWay', 'AreMarked',
               'Continues', 'GoesToLine', 'HasNames', 'HasNumber', 'IsKept', 'IsMark', 'IsNoneOrMap', 'IsOwn', 'IsPosition', 'IsPut', 'IsRefusedFor', 'IsRefusedText',
               'IsRewritten', 'IsSigned', 'IsUnmarked', 'IsWantOfMemory', 'IsWritten', 'Notes')


def check_sources(checkout):
    return [name for crate, sources in SOURCES.items() for name in scoping.check_relations(checkout, crate, sources, TYPES, 'told.py', PASSED_OVER)]


# ---- mucwathi_commands
def IsReadAs(D, t, text):
    return IsTextOf(D, t, text) and IsWellFormed(D, t) and IsPinned(D, t) and scoping.IsClean(D, t)


# ---- mucwathi_looks
def HasChanges(D, source, answer, text, changes):
    return IsReadAs(D, source, text) and SpansAreOf(D, source, text) and changes == D.mucwathi_looks.Changes.changes_between(source, answer)


# ---- mucwathi_mappings
def IsNumber(D, n):
    """the digits that a number has"""
    digit = D.mucwathi_mappings.Numbers.digit
    return (digit(n),) if n < 32 else (digit(n % 32 + 32),) + IsNumber(D, n // 32)


def IsName(D, last, name):
    return () if name is None else IsNumber(D, D.mucwathi_mappings.Numbers.way(last, name[0]))


def IsEntry(D, t, e):
    """what is written for an entry"""
    way = D.mucwathi_mappings.Numbers.way
    return IsNumber(D, way(t.column, e.column)) + (65,) + IsNumber(D, way(t.source_line, e.source_line)) \
        + IsNumber(D, way(t.source_column, e.source_column)) + IsName(D, t.name, e.name)


def AreMappings(D, t, entries, text):
    M = D.mucwathi_mappings.Mappings
    while True:
        if not entries:
            return text == ()
        if text[:1] == (59,):
            t, text = M.line_behind(t), text[1:]
        else:
            one = M.comma(t.begun) + IsEntry(D, t, entries[0])
            if entries[0].line != t.line or text[:len(one)] != one:
                return False
            t, entries, text = M.entry_behind(t, entries[0]), entries[1:], text[len(one):]


def IsNumberOf(names, old):
    """the numbers that a name may have"""
    return [None] if old is None else [(n,) for n, name in enumerate(names) if name == old[0].now]


def TellsOf(D, read, written, names, place, m):
    """the entries that may tell of a place and of the node there"""
    return [D.mucwathi_mappings.Mappings.entry_of(read, written, (place, m), number) for number in IsNumberOf(names, m.old)]


def HasLast(mapped):
    """the places in their order, each with the last node there"""
    last = {m.written: m for m in mapped}
    return tuple((place, last[place]) for place in sorted(last))


PARTS = re.compile(rb'(\{"version":3,"sources":\[(".*")\],"names":\[(.*)\],"mappings":")([A-Za-z0-9+/,;]*)"\}\n', re.S)
QUOTED = re.compile(rb'"((?:[^"\\\x00-\x1f]|\\["\\]|\\u00[01][0-9a-f])*)"')


def unquoted(body):
    return tuple(re.sub(rb'\\(u00(..)|.)', lambda found: bytes([int(found.group(2), 16)]) if found.group(2) else found.group(1), body))


def IsMapOf(D, name, read, written, mapped, out):
    """the names and the mappings are looked for in what is written; each name stands once, so that there is one entry for each place"""
    parts, Q = PARTS.fullmatch(bytes(out)), D.mucwathi_mappings.Quoted
    if not parts or tuple(parts.group(2)) != Q.quoted(name):
        return False
    names = tuple(unquoted(found.group(1)) for found in QUOTED.finditer(parts.group(3)))
    places = HasLast(mapped)
    if tuple(parts.group(3)) != Q.quoted_all(names) or names != D.mucwathi_mappings.Nodes.old_names(places):
        return False
    entries = tuple(e for place, m in places for e in TellsOf(D, read, written, names, place, m))
    return len(entries) == len(places) and AreMappings(D, D.mucwathi_mappings.Mappings.start, entries, tuple(parts.group(4)))


# ---- maps of mucwathi_looks
def TellsNodes(D, name, text, out, source, answer, written, found):
    S = D.mucwathi_looks.Spots
    news, outs = S.spots(answer), S.spots(written)
    if S.names(news) != S.names(outs):
        return False
    olds = S.spots(source)
    told = S.all_told(lambda place: S.name_at(olds, place), news, outs)
    return IsMapOf(D, name, text, out, [Rec(read=a, written=b, old=old and (Rec(now=old[0]),)) for a, b, old in told], found)


def TellsWritten(D, name, text, out, source, answer, written, found):
    return IsReadAs(D, written, out) and SpansAreOf(D, written, out) and TellsNodes(D, name, text, out, source, answer, written, found)


def IsMap(D, source, answer, written, name, text, out, found):
    return IsReadAs(D, source, text) and SpansAreOf(D, source, text) and TellsWritten(D, name, text, out, source, answer, written, found)


# ---- mucwathi_signs, marks of mucwathi_looks
SIGN = re.compile(rb'#(0|[1-9][0-9]*)(\.(0|[1-9][0-9]*))*')


def IsMarked(text, out):
    """all ways to write signs into a text so that it is another: each sign with its place and its marks"""
    ways = {(0, 0): [()]}
    for j in range(len(out) + 1):
        for i in range(min(j, len(text)) + 1):
            for way in ways.get((i, j), ()):
                if text[i:i + 1] == out[j:j + 1] and i < len(text):
                    ways.setdefault((i + 1, j + 1), []).append(way)
                for sign in signs_at(bytes(out[j:])):
                    marks = tuple(int(part) for part in sign[1:].split(b'.'))
                    ways.setdefault((i, j + len(sign)), []).append(way + ((i, marks),))
    return ways.get((len(text), len(out)), [])


def signs_at(text):
    """the signs that a text begins with: all that the longest begins with"""
    found = SIGN.match(text)
    return [sign for end in range(2, found.end() + 1 if found else 0) for sign in [text[:end]] if SIGN.fullmatch(sign)]


def Rise(signs):
    return all(one < other for (one, _), (other, _) in zip(signs, signs[1:]))


def HasMarks(marks, table):
    numbers = [number for number, _ in table]
    return numbers == sorted(set(marks)) and 0 not in numbers and all(parent == 0 for _, parent in table)


def IsGiven(D, source, text, plain, program, table):
    """of a source, and of some way to cut signs out, but for the settings that stand round the program"""
    G = D.mucwathi_looks.Given
    if not (IsReadAs(D, source, plain) and SpansAreOf(D, source, plain)):
        return False
    ends = G.ends(source)
    for way in IsMarked(plain, text):
        signs = tuple(Rec(at=at, marks=Rec(items=marks)) for at, marks in way)
        if Rise(way) and all(at in ends for at, _ in way) and program == G.signed(signs, source) and HasMarks(G.marks_of(signs), table):
            return True
    return False
