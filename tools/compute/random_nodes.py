"""Random nodes, by the table of kinds. `random_trees.py` makes programs of them."""
import random
from collections import namedtuple

import js
from trees import ABSENT

DECLARING = {'VarDecl', 'UsingDecl', 'FnDecl', 'ClassDecl', 'TsModuleDecl', 'TsInterfaceDecl', 'TsTypeAliasDecl', 'TsEnumDecl'}
LEAVES = ['Ident', 'Ident', 'Ident', 'Number', 'ThisExpr', 'Str', 'Null']
OFTEN = ['BinExpr', 'MemberExpr', 'CallExpr', 'NewExpr', 'OptChainExpr', 'SeqExpr', 'AssignExpr', 'ArrowExpr', 'ObjectLit', 'FnExpr',
         'ClassExpr', 'UnaryExpr', 'YieldExpr', 'AwaitExpr', 'CondExpr', 'TaggedTpl', 'Tpl']
SCOPED = ['BlockStmt', 'BlockStmt', 'FnDecl', 'FnDecl', 'TryStmt', 'ForStmt', 'ForInStmt', 'ForOfStmt', 'SwitchStmt', 'ClassDecl',
          'VarDecl', 'VarDecl', 'VarDecl', 'ExprStmt', 'ExprStmt', 'IfStmt', 'LabeledStmt', 'WithStmt']
SCOPED_EXPRESSIONS = ['Ident', 'Ident', 'Ident', 'ArrowExpr', 'FnExpr', 'ClassExpr', 'AssignExpr', 'ObjectLit', 'CallExpr', 'SeqExpr']
TYPES = ['TsModuleDecl', 'TsModuleDecl', 'TsModuleDecl', 'TsInterfaceDecl', 'TsTypeAliasDecl', 'TsEnumDecl']
OPERATORS = ['In', 'Exp', 'NullishCoalescing', 'LogicalOr', 'LogicalAnd', 'InstanceOf', 'EqEq']
POOLS = [['a', 'b'], ['a', 'b', 'c'], ['a'], ['a', 'f', 'undefined'], ['a', 'b', 'async', 'of', '__proto__']]
ODD = ['let', 'eval', 'arguments', 'async', 'of', 'using', '__proto__', 'static', 'get', 'await', 'yield']
ASSIGNING = {'AssignExpr', 'ForInStmt', 'ForOfStmt'}
PATTERNS = {'ArrayPat', 'ObjectPat', 'RestPat', 'KeyValuePatProp', 'AssignPat'}
TEXTS = {'text': ['1'], 'exp': ['x'], 'flags': ['g'], 'value': ['a', 's', 'use strict']}

# where a node is made: how many levels it may have, the kind of the node above and its field, and whether it is a part
# of what is assigned to
Where = namedtuple('Where', 'depth parent key assigned')


def is_rest(t):
    return t[0] == 'Tree' and (t[1] == 'RestPat' or t[1] == 'Param' and t[2][1][1] == 'RestPat')


class Choices:
    """random choices; `style` is wild, writable or names, `left` the rough number of nodes that may still be made; `types`
    is the share of declarations that are of types, enums and namespaces"""
    with_types = 0

    def __init__(self, seed):
        self.random = random.Random(seed)
        self.style, self.pool, self.left, self.made, self.marks, self.odd, self.favoured = 'wild', ['a', 'b'], 0, 0, 0, 0, ()
        self.types = Choices.with_types

    def chance(self, share):
        return self.random.random() < share

    def below(self, number):
        return self.random.randrange(number)

    def pick(self, items):
        return items[self.below(len(items))]

    def is_small(self, depth):
        return depth <= 0 or self.left <= 0

    # --- which kind stands in a place of a class
    def choose(self, cls, where):
        kinds = js.CLASSES[cls]
        if len(kinds) == 1:
            return kinds[0]
        favoured = [kind for kind in self.favoured if kind in kinds]
        if favoured and self.chance(0.3):
            return self.pick(favoured)
        small = self.is_small(where.depth)
        if cls in ('Expr', 'Callee', 'BlockStmtOrExpr', 'VarDeclOrExpr'):
            return self.expression_kind(cls, small)
        if cls in ('Pat', 'ForHead'):
            return self.pattern_kind(cls, kinds, where, small)
        if cls in ('AssignTarget', 'SimpleAssignTarget', 'AssignTargetPat'):
            return 'BindingIdent' if 'BindingIdent' in kinds and (small or self.chance(0.4)) else self.pick(kinds)
        if cls == 'ModuleItem' and self.chance(0.75):
            return self.choose('Stmt', where)
        if cls == 'Stmt':
            return self.statement_kind(where, small)
        return self.other_kind(cls, kinds, small)

    def expression_kind(self, cls, small):
        if cls == 'VarDeclOrExpr' and self.chance(0.6):
            return 'VarDecl'
        if cls == 'BlockStmtOrExpr' and self.chance(0.4):
            return 'BlockStmt'
        if cls == 'Callee' and self.chance(0.06):
            return self.pick(['Super', 'Import'])
        if small:
            return self.pick(LEAVES)
        if self.style == 'names' and self.chance(0.85):
            return self.pick(SCOPED_EXPRESSIONS)
        if self.chance(0.1):
            return 'ParenExpr'
        if self.chance(0.7):
            return self.pick(OFTEN)
        kind = self.pick(js.CLASSES['Expr'])
        return kind if kind != 'PrivateName' or self.chance(0.3) else 'Ident'

    def pattern_kind(self, cls, kinds, where, small):
        if cls == 'ForHead' and self.chance(0.5):
            return self.pick(['VarDecl', 'VarDecl', 'VarDecl', 'UsingDecl'])
        if self.style == 'wild' and self.chance(0.3) and not small:
            return self.pick(kinds)
        if small or self.chance(0.6):
            return 'BindingIdent'
        options = ['ArrayPat', 'ObjectPat']
        if where.key in ('elems', 'params', 'value', 'pat') and where.parent != 'RestPat':
            options.append('AssignPat')
        if where.key in ('elems', 'params', 'pat'):
            options.append('RestPat')
        if (where.assigned or cls == 'ForHead') and self.style != 'names':
            options += ['MemberExpr', 'SuperPropExpr']
        return self.pick(options)

    def statement_kind(self, where, small):
        if small:
            kind = self.pick(['EmptyStmt', 'ExprStmt', 'ExprStmt', 'VarDecl'])
        elif self.chance(self.types):
            kind = self.pick(TYPES)
        elif self.style == 'names':
            kind = self.pick(SCOPED)
        else:
            kind = self.pick(['ExprStmt', 'ExprStmt', 'IfStmt'] + self.without_types(js.CLASSES['Stmt']))
        if self.style == 'wild':
            return kind
        is_body = where.key in ('body', 'cons', 'alt') and where.parent not in ('Module', 'Script', 'SwitchCase')
        if is_body and kind in DECLARING and not (kind == 'FnDecl' and where.parent in ('IfStmt', 'LabeledStmt') and self.chance(0.3)):
            return 'ExprStmt'
        return 'VarDecl' if kind == 'UsingDecl' and where.parent in ('Script', 'SwitchCase') else kind

    def other_kind(self, cls, kinds, small):
        wild = self.style == 'wild'
        if cls == 'ObjectPatProp':
            return self.pick(['AssignPatProp', 'KeyValuePatProp', 'AssignPatProp'] + ['RestPat'] * (not small))
        if cls == 'ClassMember' and small:
            return 'EmptyStmt'
        if cls in ('PropName', 'MemberProp') and (small or self.chance(0.6)):
            return 'IdentName'
        if cls == 'PropOrSpread' and small:
            return 'Ident'
        if cls == 'ModuleItem':
            return self.pick(js.CLASSES['ModuleDecl'] + ['ImportDecl', 'ExportDecl'])
        if cls == 'Decl' and self.chance(self.types):
            return self.pick(TYPES)
        if cls == 'Decl' and not wild:
            return self.pick(['VarDecl', 'VarDecl', 'FnDecl', 'ClassDecl'])
        if cls == 'ExportSpecifier' and not wild and self.chance(0.9):
            return 'ExportNamedSpecifier'
        if cls == 'ModuleExportName' and self.chance(0.8):
            return 'Ident'
        return self.pick(self.without_types(kinds))

    def without_types(self, kinds):
        return [kind for kind in kinds if kind not in TYPES] if kinds != ['TsModuleDecl'] else kinds


class Parts(Choices):
    """what stands in fields"""
    def tree(self, kind, fields):
        return ('Tree', kind, tuple(fields))

    def span(self):
        self.made += 1
        return ('Span', js.REC(lo=self.made, hi=self.made + 10000))

    def text(self, text):
        return ('Text', js.codes(text))

    def string(self, text):
        return self.tree('Str', [self.span(), self.text(text), ABSENT])

    def identifier(self, kind):
        name = self.pick(ODD) if self.chance(self.odd) else self.pick(self.pool)
        marks = self.pick([(1,), (2,), (3,), (1, 2)]) if self.chance(self.marks) else ()
        return ('Identifier', kind, js.REC(span=self.span()[1], ctxt=marks, sym=js.codes(name)))

    def statement(self, expression):
        return self.tree('ExprStmt', [self.span(), expression])

    def declarator(self, value):
        return self.tree('VarDeclarator', [self.span(), self.identifier('BindingIdent'), value])

    def specifier(self):
        return self.tree('ExportNamedSpecifier', [self.span(), self.identifier('Ident'), self.pick([ABSENT, self.identifier('Ident')])])

    def export_list(self):
        specifiers = [self.specifier() for _ in range(self.pick([0, 1, 1, 2]))]
        return self.tree('NamedExport', [self.span(), ('List', tuple(specifiers)), ABSENT, ABSENT])

    def field(self, slot, where):
        if slot in ('Pairs', 'Pair'):
            return ABSENT if slot == 'Pairs' else ('List', (self.text('a'), self.text('b')))
        form, content = slot
        depth, key = where.depth, where.key
        if form in ('Optional', 'OptionalList') and (self.chance(0.45) or depth <= 0):
            return ABSENT
        if form in ('One', 'Optional'):
            return self.content(content, where)
        number = self.pick([0, 1, 1, 1, 2, 2, 3]) if depth > 0 and self.left > 0 else self.pick([0, 0, 1]) if depth > 0 else 0
        if form == 'List' and key in ('decls', 'quasis') or self.style != 'wild' and key == 'cases':
            number = max(1, number)
        items = [ABSENT if form == 'Holes' and self.chance(0.15) else self.content(content, where) for _ in range(number)]
        if self.style != 'wild':                          # a rest is the last one
            items = [t for t in items[:-1] if not is_rest(t)] + items[-1:]
        return ('List', tuple(items))

    def content(self, content, where):
        if content == 'Span':
            return self.span()
        if content == 'Flag':
            return ('Flag', self.chance(0.15))
        if content == 'Text':
            return self.text(self.pick(TEXTS.get(where.key, ['a', 'b', 's'])))
        form, cls = content
        if form == 'Word':
            words = list(js.CHOICES[cls].values())
            if cls == 'AssignOp' and self.chance(0.6):
                return ('Word', 'Assign')
            return ('Word', self.pick(OPERATORS if cls == 'BinaryOp' and self.chance(0.5) else words))
        return self.one(cls, *where)

    def one(self, cls, depth, parent=None, key=None, assigned=False):
        return self.build(self.choose(cls, Where(depth, parent, key, assigned)), depth, parent, key, assigned)


class Nodes(Parts):
    """nodes of a kind; what the table leaves open is made so that most are writable, in half of the wild ones too"""
    def program(self, style, size, module, marks=0):
        self.style, self.left, self.made, self.marks = style, size, 0, marks
        self.pool = self.pick(POOLS)
        self.odd = 0.15 if style == 'wild' else 0.06 if style == 'writable' and self.chance(0.4) else 0.02 if self.chance(0.2) else 0
        body = []
        if self.chance(0.1):
            body.append(self.tree('ExprStmt', [self.span(), self.tree('Str', [self.span(), self.text(self.pick(['use strict', 'a'])), ABSENT])]))
        while not body or self.left > 0 and len(body) < 6:
            body.append(self.one('ModuleItem' if module else 'Stmt', 5, 'Module' if module else 'Script'))
        if module and style == 'names' and self.chance(0.2):
            body.append(self.export_list())
        return self.tree('Module' if module else 'Script', [self.span(), ('List', tuple(body)), ABSENT])

    def build(self, kind, depth, parent, key, assigned=False):
        self.left -= 1
        if kind in js.IDENTIFIERS:
            return self.identifier(kind)
        where = Where(depth - 1, kind, key, assigned)
        is_careful = self.style != 'wild' or not self.chance(0.5)
        if is_careful and kind == 'NamedExport' and parent == 'Module':
            return self.named_export()
        make = self.CAREFUL.get(kind) if is_careful else None
        given = make(self, where, parent) if make else {}
        assigns = kind in ASSIGNING or assigned and kind in PATTERNS
        return self.tree(kind, [
            given[name] if name in given else self.field(slot, Where(depth - 1, kind, name, assigns)) for name, slot, _ in js.FIELDS[kind]])

    def named_field(self, where, name, assigned=False):
        slot = next(slot for field, slot, _ in js.FIELDS[where.parent] if field == name)
        return self.field(slot, Where(where.depth, where.parent, name, assigned))

    def named_export(self):
        if self.chance(0.7):
            return self.export_list()
        return self.tree('NamedExport', [self.span(), self.export_list()[2][1], self.string('m'), ABSENT])

    # --- fields that are made with care, by kind
    def sequence(self, where, parent):
        return {'exprs': ('List', tuple(self.one('Expr', where.depth, 'SeqExpr', 'exprs') for _ in range(self.pick([2, 2, 3]))))}

    def template(self, where, parent):
        parts = self.named_field(where, 'exprs')
        texts = [self.build('TplElement', 0, 'Tpl', '') for _ in range(len(parts[1]) + 1)]
        return {'exprs': parts, 'quasis': ('List', tuple(texts))}

    def optional_chain(self, where, parent):
        base = self.named_field(where, 'base')
        inner = base[2][1]
        return {'base': base, 'optional': ('Flag', not (inner[0] == 'Tree' and inner[1] == 'OptChainExpr') or self.chance(0.5))}

    def update(self, where, parent):
        return {'arg': self.build(self.pick(['Ident', 'Ident', 'MemberExpr', 'SuperPropExpr']), where.depth, 'UpdateExpr', 'arg')}

    def assignment(self, where, parent):
        left = self.named_field(where, 'left', assigned=True)
        if left[0] == 'Tree' and left[1] == 'ParenExpr':
            left = self.tree('ParenExpr', [self.span(), self.build(self.pick(['Ident', 'MemberExpr']), where.depth - 1, 'AssignExpr', '')])
        return {'left': left, 'op': ('Word', 'Assign')} if left[0] == 'Tree' and left[1] in ('ArrayPat', 'ObjectPat') else {'left': left}

    def constructor(self, where, parent):
        return {'key': self.tree('IdentName', [self.span(), self.text('constructor')])}

    def method(self, where, parent):
        is_setter = where.parent in self.favoured and self.chance(0.7)
        word = ('Word', 'Setter') if is_setter else self.named_field(where, 'kind')
        function = self.build('Function', where.depth, where.parent, 'function')
        if word[1] != 'Method':
            parameters = () if word[1] == 'Getter' else (self.build('Param', where.depth, 'Function', 'params'),)
            function = self.tree('Function', [function[2][0], ('List', parameters)] + list(function[2][2:]))
        return {'kind': word, 'function': function}

    def declaration(self, where, parent):
        kind, depth, in_head = where.parent, where.depth, parent in ('ForInStmt', 'ForOfStmt')
        word = self.named_field(where, 'kind') if kind == 'VarDecl' else None
        declarators = []
        for _ in range(1 if in_head else self.pick([1, 1, 1, 2])):
            if kind == 'UsingDecl' or depth < 0 or self.chance(0.6):
                name = self.build('BindingIdent', 0, kind, '')
            else:
                name = self.build(self.pick(['ArrayPat', 'ObjectPat']), depth, kind, '')
            must = not in_head and (kind == 'UsingDecl' or word[1] == 'Const' or name[0] != 'Identifier')
            value = self.one('Expr', depth - 1, 'VarDeclarator', 'init') if must or not in_head and self.chance(0.3) else ABSENT
            declarators.append(self.tree('VarDeclarator', [self.span(), name, value]))
        given = {'decls': ('List', tuple(declarators))}
        return {**given, 'kind': word} if word else given

    def binary(self, where, parent):
        if self.style != 'names' and self.chance(0.5 if 'BinExpr' in self.favoured else 0.06):
            return {'op': ('Word', 'In'), 'left': self.tree('PrivateName', [self.span(), self.text('q')])}
        return {}

    def jump(self, where, parent):
        return {'label': ABSENT}

    def argument(self, where, parent):
        return {'spread': ABSENT} if self.chance(0.8) else {}

    def function(self, where, parent):
        return {name: ('Flag', False) for name in ('is_generator', 'is_async') if self.chance(0.9)} if self.style == 'names' else {}

    def expression_statement(self, where, parent):
        return {'expr': self.string('use strict')} if parent in ('Module', 'Script', 'BlockStmt') and self.chance(0.03) else {}

    CAREFUL = {
        'SeqExpr': sequence, 'Tpl': template, 'OptChainExpr': optional_chain, 'UpdateExpr': update, 'AssignExpr': assignment,
        'Constructor': constructor, 'ClassMethod': method, 'PrivateMethod': method, 'VarDecl': declaration, 'UsingDecl': declaration,
        'BinExpr': binary, 'BreakStmt': jump, 'ContinueStmt': jump, 'ExprOrSpread': argument, 'Function': function,
        'ExprStmt': expression_statement}
