"""The relations of `swc_base_rename_analysis/specs` as decision procedures, transcribed by hand.

Each function has the name of its definition and takes an `Analysis` where the definition takes a tree. What the specs
define as functions (which scope a node opens, what a scope takes, turns) is taken from the translation, not written
again. An id is a pair of a text and a context, a scope is the path of the node that opens it, a site is a pair of a
scope and the path of a binding.
"""
import scoping

CRATE = 'swc_base_rename_analysis'
# the relations that this was made from, by digests of their texts, as in scoping.py; those of Between, Numbers and Read
# speak of what the code answers, and are not transcribed
SOURCES = {
    'AreAscending': '64d3aee30e04',
    'Declares': '1e1eddb89f91',
    'EachOnce': '133bf1030c81',
    'FixesTheMap': '0f96e2412c82',
    'IsAnalysed': '9a3e6ad531ec',
    'IsAtOrAbove': '166667f9221f',
    'IsBefore': 'cfadb7524158',
    'IsBound': '7b78bf7853db',
    'IsDeclaredWithin': '39acdf2e3ba3',
    'IsEarlier': '5122b63331ea',
    'IsFirstFrom': 'e1a42cf44b28',
    'IsFreeText': '86504a02fa5b',
    'IsFromStart': 'b0fdf73a261f',
    'IsLeast': 'd77722fdf7fd',
    'IsLoose': '96871fd9378a',
    'IsNamedAt': '1453d9457984',
    'IsOwnName': 'cc4e04f1099b',
    'IsPreserved': '99f2eb33c799',
    'IsRead': '26c66a0fabc2',
    'IsRound': 'c3152b98607e',
    'IsSpent': 'eb81bd4c1662',
    'IsTable': 'ac6dd063924d',
    'Named': '6134b8a0371e',
    'NotSpent': 'ba80abc83590',
    'Occurs': '6696b7971cf1',
    'OccursIn': '548db1287100',
    'OneBetween': '5eb5a8aba8f8',
    'PositionsRise': '608b580b6c94',
    'RenameCost': 'e38368e4f7e7',
    'SitesAreInOrder': '00d47712ea7c',
}
ARGUMENTS, EVAL = tuple(b'arguments'), tuple(b'eval')


def check_sources(checkout):
    return scoping.check_relations(checkout, CRATE, SOURCES, (), 'naming.py')


class Renaming:
    """a renamer: the text of an id for a counter, its two flags, and the ids that it preserves"""
    def __init__(self, text, mangles, resets, preserves=()):
        self.text, self.mangles, self.resets, self.preserves = text, mangles, resets, frozenset(preserves)


def counts_on(r):
    return r.mangles or not r.resets


def with_number(x, n):
    return x[0] if n == 0 else x[0] + tuple(str(n).encode())


def hygiene(preserves=()):
    """the renamer of hygiene: counter 0 gives the text, n the text followed by n in decimal"""
    return Renaming(with_number, False, True, preserves)


def numbered(mangles=True, resets=False, preserves=()):
    """`v` and the counter"""
    return Renaming(lambda x, n: tuple(b'v%d' % n), mangles, resets, preserves)


class Analysis:
    """a tree with what one walk finds: the scopes round each path, and the id at each path of an identifier"""
    def __init__(self, defs, tree):
        self.program = scoping.Program(defs, tree)
        specs = defs.swc_base_rename_analysis
        self.A, self.O, self.P = specs.Analysis, specs.Order, specs.Preserved
        self.tree, self.around, self.keys, self.loose = tree, {}, {}, (None, None)
        self.walk((), False, ())
        self.ids = [(p, self.program.standing(p), (i.sym, i.ctxt)) for p in self.program.identifiers for i in [self.program.identifier(p)]]
        self.declares = [(s, p, x) for p, r, x in self.ids if self.program.S.is_binding(r) and IsAnalysed(x)
                         for s in self.A.first_taking(r, self.around[p]) or ()]
        self.bound = {x for _, r, x in self.ids if self.program.S.is_binding(r)}
        self.occurs = {(s, x) for p, r, x in self.ids if is_name(self, r) and IsAnalysed(x) for s in self.scopes_that_see(p)}

    def walk(self, path, for_body, round_it):
        self.around[path] = round_it
        place, t = self.program.at[path]
        for i, _ in enumerate(self.program.P.children_in(t)):
            opened = tuple((path, kind) for _, kind in self.A.opened_round(for_body, place, t, i))
            self.walk(path + (i,), self.A.is_for_body(t, i), opened + round_it)

    def scopes_that_see(self, p):
        own = [p[:-1] + (1,)] if p and p[-1] == 0 and self.A.uses_own_name(self.program.at[p[:-1]][1]) else []
        return [s for s, _ in self.around[p]] + own

    def key(self, site):
        """sites are in order as their keys are"""
        if site not in self.keys:
            self.keys[site] = (self.O.turns(self.O.entry, self.tree, site[0]), self.O.turns(lambda _: (), self.tree, site[1]))
        return self.keys[site]

    def scopes(self):
        """all scopes of the analysis"""
        return {s for around in self.around.values() for s, _ in around}


def is_name(t, standing):
    return t.program.S.is_name(standing)


# ---- Analysis
def IsAnalysed(x):
    return x[0] != ARGUMENTS


def IsRound(t, s, p):
    return any(s == u for u, _ in t.around[p])


def IsAtOrAbove(t, s, u):
    return s == u or IsRound(t, s, u)


def Declares(t, s, p, x):
    return (s, p, x) in t.declares


def OccursIn(t, s, x):
    return (s, x) in t.occurs


def IsDeclaredWithin(t, s, x):
    return any(y == x and IsAtOrAbove(t, s, u) for u, _, y in t.declares)


def RenameCost(t, s):
    return len({x for _, _, x in t.declares if IsDeclaredWithin(t, s, x)})


# ---- Order
def IsBefore(t, a, b):
    return t.key(a) < t.key(b)


# ---- Preserved
def IsLoose(t, x):
    return x[1] != () and x not in t.bound and any(
        y == x and t.P.is_name_or_label(r) and not scoping.InExportList(t.program, p) for p, r, y in t.ids)


def loose_texts(t):
    """the texts of loose ids; they are kept with the ids that they are of"""
    if t.loose[0] is not t.ids:
        t.loose = (t.ids, frozenset(x[0] for x in {x for _, _, x in t.ids} if IsLoose(t, x)))
    return t.loose[1]


def preserved_texts(t, preserves):
    """the texts that meet `IsPreserved`"""
    return loose_texts(t) | {x[0] for x in preserves}


# ---- Named
def IsNamedAt(t, r, a, x):
    return Declares(t, a[0], a[1], x) and not any(y == x and IsBefore(t, (s, p), a) for s, p, y in t.declares) \
        and x not in r.preserves and x[0] != EVAL


def named_sites(t, r):
    """(site, id) of all that meet `IsNamedAt`, in order"""
    found = [((s, p), x) for s, p, x in t.declares if IsNamedAt(t, r, (s, p), x)]
    return sorted(found, key=lambda row: t.key(row[0]))


def all_count(t, u, s):
    return True


def outer_count(t, u, s):
    return IsAtOrAbove(t, u, s)


class Naming:
    """a tree, a renamer, preserved texts and whose names count: what `Named` is said of"""
    def __init__(self, t, r, preserved=None, counts=all_count):
        self.t, self.r, self.counts = t, r, counts
        self.preserved = preserved_texts(t, r.preserves) if preserved is None else preserved
        self.sites = named_sites(t, r)

    def IsEarlier(self, a):
        return [(b, y) for b, y in self.sites if IsBefore(self.t, b, a)]

    def IsFreeText(self, taken, a, text):
        return text not in self.preserved and not any(
            self.counts(self.t, b[0], a[0]) and OccursIn(self.t, a[0], y) and self.r.text(y, taken[y]) == text for b, y in self.IsEarlier(a))

    def IsFromStart(self, taken, a, n):
        return not counts_on(self.r) or all(taken[y] < n for b, y in self.IsEarlier(a) if b[0] == a[0])

    def faults(self, taken, new_texts):
        """the clauses of `Named` that counters and a map do not meet"""
        found = []
        for a, x in self.sites:
            n = taken[x]
            clauses = {
                'within': n < 2 ** 64, 'from_start': self.IsFromStart(taken, a, n), 'free': self.IsFreeText(taken, a, self.r.text(x, n)),
                'least': not any(self.IsFromStart(taken, a, m) and self.IsFreeText(taken, a, self.r.text(x, m)) for m in range(n)),
                'text': new_texts.get(x) == self.r.text(x, n)}
            found += [(name, x) for name, holds in clauses.items() if not holds]
        return found + [('no_other', x) for x in new_texts if all(y != x for _, y in self.sites)]

    def counters(self):
        """by a plain procedure: in order, each the first counter from its start with a free text"""
        taken = {}
        for a, x in self.sites:
            n = 0
            while not self.IsFromStart(taken, a, n) or not self.IsFreeText(taken, a, self.r.text(x, n)):
                n += 1
            taken[x] = n
        return taken

    def tries(self, most):
        """(site, id, counter from which it starts, counter that it takes) of each id in order. So the counters are spent at an id, by any
        bound up to the counter that it takes. Counters are looked at up to `most`: of ids behind one that takes none of them nothing
        is said"""
        found, taken = [], {}
        for a, x in self.sites:
            earlier = self.IsEarlier(a)
            start = max([taken[y] + 1 for b, y in earlier if b[0] == a[0]], default=0) if counts_on(self.r) else 0
            held = {self.r.text(y, taken[y]) for b, y in earlier if self.counts(self.t, b[0], a[0]) and OccursIn(self.t, a[0], y)}
            taken[x] = next((n for n in range(start, most) if self.r.text(x, n) not in held | self.preserved), max(start, most))
            found.append((a, x, start, taken[x]))
            if taken[x] >= most:
                break
        return found

    def new_texts(self, taken=None):
        return {x: self.r.text(x, n) for x, n in (self.counters() if taken is None else taken).items()}


def named(defs, tree, r, counts=all_count):
    """the map that is `Named`"""
    return Naming(Analysis(defs, tree), r, None, counts).new_texts()
