"""Analysis and naming in another way: by one walk over the tree with open scopes, lists of names that leave blocks, and
sets of what occurs, as a compiler has them. It is written from the rules, and not from the definitions, and takes only
standings from scoping: a law compares the two."""
from contextlib import contextmanager

from naming import ARGUMENTS, EVAL, counts_on

FUNCTIONS = ('Module', 'Script', 'Function', 'ArrowExpr', 'StaticBlock')
WITH_KEY = ('Constructor', 'GetterProp', 'SetterProp', 'TsModuleDecl')
LOOPS = ('ForStmt', 'ForInStmt', 'ForOfStmt')
STAY = ('Lexical', 'CatchParameter', 'FunctionName', 'ClassName')


class Scope:
    def __init__(self, path, is_block):
        self.path, self.is_block = path, is_block
        self.own, self.leaving, self.occurs, self.inner = [], [], set(), []

    def within(self):
        """the ids declared here and in the scopes in it"""
        return set(self.own).union(*(scope.within() for scope in self.inner))


class Walk:
    def __init__(self, program):
        self.program, self.open = program, []
        self.root = Scope(None, False)
        self.open.append(self.root)
        self.visit(())

    @contextmanager
    def scope(self, path, is_block):
        scope, outer = Scope(path, is_block), self.open[-1]
        self.open.append(scope)
        yield scope
        self.open.pop()
        outer.inner.append(scope)
        outer.occurs |= scope.occurs
        (outer.leaving if outer.is_block else outer.own).extend(scope.leaving)

    def visit_all(self, path, fields):
        for i in fields:
            self.visit(path + (i,))

    def visit(self, path):
        place, t = self.program.at[path]
        fields = range(len(self.program.P.children_in(t)))
        if t[0] == 'Identifier':
            self.name(place.standing, t[2])
        elif t[0] != 'Tree':
            self.visit_all(path, fields)
        else:
            self.tree(path, place, t[1], t[2], fields)

    def tree(self, path, place, kind, parts, fields):
        is_default, named = place.standing == 'DefaultExport', bool(parts) and parts[0][0] == 'Identifier'
        if kind in FUNCTIONS:
            with self.scope(path, False):
                self.visit_all(path, fields)
        elif kind in WITH_KEY:
            self.visit(path + (1,))
            with self.scope(path, False):
                self.visit_all(path, [i for i in fields if i != 1])
        elif kind == 'FnDecl' or kind == 'FnExpr' and (is_default or not named):
            self.visit(path + (0,))
            self.function(path + (1,), parts)
        elif kind == 'FnExpr':
            with self.scope(path, False):
                self.visit(path + (0,))
                self.function(path + (1,), parts)
        elif kind == 'ClassExpr':
            self.visit_all(path, [0] if is_default else [])
            with self.scope(path, False):
                self.visit_all(path, [1] if is_default else [0, 1])
        elif kind == 'CatchClause':
            with self.scope(path, True):
                self.visit_all(path, [2, 1])
        elif kind in LOOPS:
            with self.scope(path, True):
                self.visit_all(path, fields[:-1])
                with self.scope(path + (len(fields) - 1,), True):
                    self.visit(path + (len(fields) - 1,))
        elif kind == 'BlockStmt' and place.standing != 'Body':
            with self.scope(path, True):
                self.visit_all(path, fields)
        else:
            self.visit_all(path, fields)

    def function(self, path, parts):
        """a function with the name that it may use itself"""
        name, function = parts
        with self.scope(path, False) as scope:
            patterns = [param[2][1] for param in function[2][1][1]]
            if name[0] == 'Identifier' and name[2].sym != ARGUMENTS and any(pat[1] in ('RestPat', 'AssignPat') for pat in patterns):
                scope.occurs.add((name[2].sym, name[2].ctxt))
            self.visit_all(path, range(len(function[2])))

    def name(self, standing, identifier):
        x, scope = (identifier.sym, identifier.ctxt), self.open[-1]
        if x[0] == ARGUMENTS or not self.program.S.is_name(standing):
            return
        scope.occurs.add(x)
        if self.program.S.is_binding(standing):
            (scope.leaving if scope.is_block and standing not in STAY else scope.own).append(x)


def names(walk, r, preserved, chained):
    """the new texts, scope by scope"""
    new_texts, all_held = {}, []

    def scope_names(scope, outer):
        held = list(outer) if chained else all_held
        n = 0
        for x in scope.own:
            if x in new_texts or x in r.preserves or x[0] == EVAL:
                continue
            n = n if counts_on(r) else 0
            while True:
                text = r.text(x, n)
                n += 1
                if text not in preserved and not any(other == text and y in scope.occurs for other, y in held):
                    break
            new_texts[x] = text
            held.append((text, x))
        for inner in scope.inner:
            scope_names(inner, held)
    scope_names(walk.root, [])
    return new_texts
