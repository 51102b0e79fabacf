"""A judge of renamings, by variables and not by ids: whether a program is another one but for the choice of the names that it binds,
and if not why.

    verdict(before, after, keep_top=False, spelling=True)       None where it is; else a word; of plain forms (`plain.py`) where
                                                                no spelling counts

It looks at both normal forms side by side: parts, then the texts of labels, imported and exported names, then the names, each with
the variable that it stands for by the relations of `scoping.py`. No resolver is asked, and no list of identifiers made.
"""
import js
import plain
import scoping
import units
from lawbook import D, kids, normal_form

FREE, PROGRAM = ('free',), ()
# in the order in which they are told
WORDS = ('shape', 'name', 'free', 'split', 'joined', 'top', 'reads', 'caught')


def same_shape(t, u):
    """one tree but for spans and what identifiers are called"""
    if t[0] != u[0]:
        return False
    if t[0] == 'Span':
        return True
    if t[0] == 'Identifier':
        return t[1] == u[1]
    if t[0] in ('List', 'Tree'):
        return t[:-1] == u[:-1] and len(kids(t)) == len(kids(u)) and all(map(same_shape, kids(t), kids(u)))
    return t == u


def variable_at(program, p):
    """the variable that a name stands for: its text with the scope that declares it; ('free',) where nothing does"""
    standing, name = program.standing(p), program.name(p)
    if program.S.is_binding(standing):
        return name, scoping.DeclaredBy(program, p, standing, name)
    scope = scoping.Means(program, p, name)
    own = name in GLOBAL_VALUES and scope == PROGRAM and program.tree[1] == 'Script'
    return FREE if scope is None or own else (name, scope)


GLOBAL_VALUES = tuple(map(js.codes, ('undefined', 'NaN', 'Infinity')))


class Names:
    """the identifiers of a program's normal form: what is none of its variables by path, and variables by path"""
    def __init__(self, tree):
        self.program = program = scoping.Program(D.all, tree)
        self.texts = {p: program.name(p) for p in program.identifiers}
        self.others = [p for p in program.identifiers if not program.S.is_name(program.standing(p))]
        self.variables = {p: variable_at(program, p) for p in program.identifiers if program.S.is_name(program.standing(p))}

    def together(self):
        """for each name the names that stand for the same variable"""
        found = {}
        for p, variable in self.variables.items():
            if variable != FREE:
                found.setdefault(variable, set()).add(p)
        return {p: found[variable] for p, variable in self.variables.items() if variable != FREE}

    def has_caught(self):
        """a `var`, or a plain function in a block of sloppy code, stands in a catch clause whose parameter has its name, and no function between"""
        is_parameter = self.program.defined('is_catch_parameter')
        return any(not scoping.PassesNone(self.program, is_parameter, name, scoping.rounds(self.program, p))
                   for standing in ('Variable', 'SloppyFunction') for p, _, name in scoping.Stands(self.program, standing))

    def of_program(self):
        """the names that the program's own scope declares, where they are bound and where they are referred to"""
        return [p for p, variable in self.variables.items() if variable != FREE and variable[1] == PROGRAM]


def reads_names(t):
    return bool(units.HasEval(D.all, t))


def differences(before, after, n, m, keep_top):
    """whether each word holds, in their order"""
    caught = n.has_caught() or m.has_caught()
    other_text = {p for p in n.texts if n.texts[p] != m.texts[p]}
    yield 'name', any(p in other_text for p in n.others)
    if not caught:
        yield 'free', any((v == FREE) != (m.variables[p] == FREE) or v == FREE and p in other_text for p, v in n.variables.items())
        here, there = n.together(), m.together()
        yield 'split', any(here[p] - there.get(p, set()) for p in here)
        yield 'joined', any(there[p] - here.get(p, set()) for p in there)
        yield 'top', keep_top and any(p in other_text for p in n.of_program() + m.of_program())
    other_name = any(p in other_text for p in n.variables)
    yield 'reads', other_name and (reads_names(before) or reads_names(after))
    yield 'caught', other_name and caught


def verdict(before, after, keep_top=False, spelling=True):
    """None where the second program is the first but for names, else the first word that holds"""
    if not spelling:
        before, after = plain.plain(before), plain.plain(after)
    t, u = normal_form(before), normal_form(after)
    if not same_shape(t, u):
        return 'shape'
    return next((word for word, holds in differences(before, after, Names(t), Names(u), keep_top) if holds), None)
