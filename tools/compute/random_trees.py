"""Random trees, small ones first.

    random_trees.setup(defs)
    random = random_trees.Random(seed)
    random.wild(size, module)            any tree that fits its place
    random.writable(size, module)        mostly writable
    random.names(size, module)           few names, many nested scopes, no marks; mostly without early errors of names
    random.well_scoped(size, module)     the same, resolved with fresh marks and then changed a little; None if that fails

The sizes are rough numbers of nodes. What is wanted of a tree is asked of the definitions afterwards: no generator here
is trusted to keep a promise.
"""
import js
import scoping
from random_nodes import Nodes
from trees import ABSENT, paths, with_identifiers

DEFS = None


def setup(defs):
    global DEFS
    DEFS = defs
    js.setup(defs)


class Programs(Nodes):
    """programs of a style"""
    def wild(self, size, module=True):
        return self.program('wild', size, module, marks=self.pick([0, 0, 0.5]))

    def writable(self, size, module=True):
        return self.program('writable', size, module, marks=self.pick([0, 0.5]))

    def names(self, size, module=True):
        return self.program('names', size, module)

    def favouring(self, kinds, make):
        """what is made with more nodes of some of the kinds than else"""
        self.favoured = kinds
        try:
            return make()
        finally:
            self.favoured = ()

    def wild_with(self, kinds, size):
        """any tree, with nodes of some of the kinds"""
        return self.favouring(kinds, lambda: self.wild(size, self.chance(0.6)))

    def writable_with(self, kinds, size):
        """mostly writable, with nodes of some of the kinds, if that can be had in a few tries"""
        for _ in range(8):
            t = self.favouring(kinds, lambda: self.writable(size, self.chance(0.6)))
            if any(node[0] == 'Tree' and node[1] in kinds for _, node in paths(t)):
                break
        return t

    def with_free_names(self, size, module):
        """mostly writable, with a declaration and references to names of four"""
        t = self.program('writable', size, module, marks=0)
        self.pool, self.marks = ['a', 'b', 'c', 'd'], 0.3
        declared = self.tree('VarDecl', [self.span(), ('Word', 'Var'), ('List', (self.declarator(ABSENT),))])
        used = [self.statement(self.pick([self.identifier('Ident'), self.one('Expr', 1)])) for _ in range(self.pick([1, 2, 3]))]
        body = list(t[2][1][1]) + [declared] + used
        return self.tree(t[1], [t[2][0], ('List', tuple(body)), ABSENT])

    def exporting(self, size, sourced=False):
        """mostly writable modules with exported declarations of few names; with lists that have a source, if so asked"""
        t = self.program('writable', max(2, size // 2), True, marks=self.pick([0, 0.5]))
        self.pool, self.left, self.odd = ['a', 'b'], size // 2, 0
        body = list(t[2][1][1])
        for _ in range(self.pick([1, 1, 2])):
            declaration = self.build(self.pick(['VarDecl', 'VarDecl', 'VarDecl', 'FnDecl', 'ClassDecl']), 3, 'ExportDecl', 'decl')
            body.insert(self.below(len(body) + 1), self.tree('ExportDecl', [self.span(), declaration]))
        if sourced:
            for _ in range(self.pick([1, 1, 2])):
                specifiers = self.export_list()[2][1][1] or (self.specifier(),)
                body.insert(self.below(len(body) + 1), self.tree('NamedExport', [self.span(), ('List', specifiers), self.string('m'), ABSENT]))
        return self.tree('Module', [t[2][0], ('List', tuple(body)), ABSENT])

    # --- well-scoped modules
    def well_scoped(self, size, module=True):
        t = self.names(size, module)
        if not scoping.NoEarlyErrorOfNames(DEFS, t):
            return None
        t = scoping.resolved(DEFS, t, *self.pick([(1, 2), (1, 1)]))
        if self.chance(0.5):
            t = self.recoloured(t)
        if self.chance(0.3):
            t = self.disturbed(t)
        return t

    def recoloured(self, t):
        """other texts and contexts for declared ids, one to one"""
        program = scoping.Program(DEFS, t)
        ids = sorted({(i.sym, i.ctxt) for path, _, _ in scoping.Binds(program) for i in [program.identifier(path)]})
        new, used = {}, set()
        for i in ids:
            for _ in range(9):
                other = (js.codes(self.pick(self.pool)), self.pick([(), (3,), (4,), (5, 6), i[1]]))
                if other not in used:
                    break
            else:
                other = (js.codes('n%d' % len(new)), ())
            new[i] = other
            used.add(other)
        return with_identifiers(lambda i: new.get((i.sym, i.ctxt), (i.sym, i.ctxt)), t)

    def disturbed(self, t):
        """one identifier becomes another one of the tree"""
        ids = [(node[2].sym, node[2].ctxt) for _, node in paths(t) if node[0] == 'Identifier']
        if not ids:
            return t
        changed, other, seen = self.below(len(ids)), self.pick(ids), [0]

        def exchanged(i):
            seen[0] += 1
            return other if seen[0] - 1 == changed else (i.sym, i.ctxt)
        return with_identifiers(exchanged, t)


class Random(Programs):
    """and scripts of expression statements with long left ends"""
    def left_ends(self, size, optional_let=False):
        """all of them `let?.[`, if so asked"""
        self.program('wild', 2, False)
        body = []
        for _ in range(1 + size // 12):
            expression = self.optional_let() if optional_let else self.left_leaf()
            for _ in range(self.below(2 + size // 8)):
                expression = self.left_end_of(expression, optional_let)
            body.append(self.statement(expression))
        return self.tree('Script', [self.span(), ('List', tuple(body)), ABSENT])

    def named(self, text):
        return ('Identifier', 'Ident', js.REC(span=self.span()[1], ctxt=(), sym=js.codes(text)))

    def computed(self):
        return self.tree('ComputedPropName', [self.span(), self.identifier('Ident')])

    def key(self):
        return self.tree('IdentName', [self.span(), self.text('a')])

    def member(self, expression, key):
        return self.tree('MemberExpr', [self.span(), expression, key])

    def optional_let(self):
        return self.tree('OptChainExpr', [self.span(), ('Flag', True), self.member(self.named('let'), self.computed())])

    def left_leaf(self):
        self.left = 6
        choice = self.pick(['let', 'let', 'let[', 'let?.[', 'async', 'FnExpr', 'FnExpr', 'ClassExpr', 'ObjectLit', 'any', 'any'])
        if choice == 'let[':
            return self.member(self.named('let'), self.computed())
        if choice == 'let?.[':
            return self.optional_let()
        if choice in ('let', 'async'):
            return self.named(choice)
        return self.one('Expr', 2) if choice == 'any' else self.build(choice, 2, 'ExprStmt', 'expr')

    def left_end_of(self, first, only_first):
        """an expression that begins with one; or that it stands in, in a pair or behind an operator"""
        self.left = 4
        other = self.one('Expr', 1)
        computed, flag = self.chance(0.5), ('Flag', self.chance(0.6))
        key = self.computed() if computed else self.key()
        call = self.tree('OptCall', [self.span(), first, ('List', ())])
        template = self.tree('Tpl', [self.span(), ('List', ()), ('List', (self.build('TplElement', 0, 'Tpl', 'quasis'),))])
        made = [
            lambda: self.member(first, key), lambda: self.member(first, key),
            lambda: self.tree('OptChainExpr', [self.span(), flag, self.member(first, key)]),
            lambda: self.tree('OptChainExpr', [self.span(), flag, call]),
            lambda: self.tree('CallExpr', [self.span(), first, ('List', ())]),
            lambda: self.tree('TaggedTpl', [self.span(), first, template]),
            lambda: self.tree('CondExpr', [self.span(), first, other, other]),
            lambda: self.tree('BinExpr', [self.span(), ('Word', self.pick(['Plus', 'In', 'LogicalOr', 'Exp'])), first, other]),
            lambda: self.tree('SeqExpr', [self.span(), ('List', (first, other))]),
            lambda: self.tree('AssignExpr', [self.span(), ('Word', 'Assign'), self.member(first, key), other]),
            lambda: self.tree('UpdateExpr', [self.span(), ('Word', 'PlusPlus'), ('Flag', False), first])]
        if not only_first:
            made += [
                lambda: self.tree('ParenExpr', [self.span(), first]),
                lambda: self.tree('UnaryExpr', [self.span(), ('Word', 'Void'), first]),
                lambda: self.tree('UpdateExpr', [self.span(), ('Word', 'PlusPlus'), ('Flag', True), first]),
                lambda: self.tree('NewExpr', [self.span(), first, ABSENT])]
        return self.pick(made)()
