"""Writes nodes as JavaScript text. A way to write each kind is a function of the name of its kind."""
from js_nodes import Node

# the expressions that may need a group
GROUPED = {'UnaryExpr', 'UpdateExpr', 'BinExpr', 'AssignExpr', 'CondExpr', 'SeqExpr', 'ArrowExpr', 'YieldExpr', 'AwaitExpr',
           'NewExpr', 'FnExpr', 'ClassExpr', 'ObjectLit', 'OptChainExpr', 'CallExpr', 'TaggedTpl', 'MemberExpr'}


class Writer:
    """writes a node; `groups` are the numbers of the expressions that get « », None for all"""
    def __init__(self, groups):
        self.groups, self.count = groups, 0

    def show(self, node):
        if node.type not in GROUPED:
            return self.ungrouped(node)
        number = self.count
        self.count += 1
        text = self.ungrouped(node)
        return '«' + text + '»' if self.groups is None or number in self.groups else text

    def part(self, v):
        if hasattr(v, 'type'):
            return self.show(v)
        return '[' + ', '.join(map(self.part, v)) + ']' if isinstance(v, list) else str(v)

    def ungrouped(self, node):
        if node.type not in WAYS:
            return '<%s %s>' % (node.type, ' '.join(self.part(v) for k, v in node.__dict__.items() if k not in ('type', 'span')))
        try:
            return WAYS[node.type](self, node)
        except (AttributeError, TypeError):     # a node that fits no place: its parts
            fields = [content if isinstance(content, list) else [content] for content in node.__dict__.values()]
            parts = [part for content in fields for part in content if isinstance(part, Node)]
            return '<%s %s>' % (node.type, ' '.join(map(self.show, parts)))

    # --- parts
    def commas(self, nodes):
        return ', '.join('' if node is None else self.show(node) for node in nodes)

    def holes(self, nodes):
        return '[' + self.commas(nodes) + (',' if nodes and nodes[-1] is None else '') + ']'

    def braces(self, nodes):
        return '{ ' + ' '.join(map(self.show, nodes)) + ' }' if nodes else '{}'

    def between(self, opening, content):
        """` = b`, where there is a `b`"""
        return opening + self.show(content) if content else ''

    def function(self, node, name=''):
        return ('async ' if node.is_async else '') + 'function' + ('*' if node.is_generator else '') + (' ' + name if name else '') + \
            '(' + self.commas(node.params) + ') ' + self.show(node.body)

    def method(self, key, function, before=''):
        return before + ('async ' if function.is_async else '') + ('*' if function.is_generator else '') + self.show(key) + \
            '(' + self.commas(function.params) + ') ' + self.show(function.body)

    def class_(self, node, name):
        return 'class' + (' ' + name if name else '') + self.between(' extends ', node.super_class) + ' ' + self.braces(node.body)

    def member(self, node, question):
        text = self.show(node.obj) + (' ' if node.obj.type == 'Number' else '')
        if node.prop.type == 'ComputedPropName':
            return text + ('?.' if question else '') + self.show(node.prop)
        return text + question + '.' + self.show(node.prop)

    def source(self, node):
        attributes = node.get('with')
        listed = '' if attributes is None else ' with { ' + ', '.join('%s: "%s"' % pair for pair in attributes) + ' }'
        return (self.show(node.src) if node.src else '') + listed + ';'

    def from_source(self, node):
        return (' from ' if node.src else '') + self.source(node)


def name_of(node):
    return node.sym + ('#' + '.'.join(map(str, node.ctxt)) if node.ctxt else '') if node else ''


def static(node):
    return 'static ' if node.is_static else ''


def program(w, n):
    return ('#!%s\n' % n.shebang if n.shebang is not None else '') + ' '.join(map(w.show, n.body))


def import_declaration(w, n):
    named = [x for x in n.specifiers if x.type == 'ImportNamedSpecifier']
    parts = [('* as ' if x.type == 'ImportStarAsSpecifier' else '') + name_of(x.local) for x in n.specifiers if x.type != 'ImportNamedSpecifier']
    if named:
        parts.append('{ ' + ', '.join((w.show(x.imported) + ' as ' if x.imported else '') + name_of(x.local) for x in named) + ' }')
    return 'import ' + ', '.join(parts) + (' from ' if parts else '') + w.source(n)


def export_specifier(w, n):
    return '* as ' + w.show(n.name) if n.type == 'ExportNamespaceSpecifier' else w.show(n.orig) + w.between(' as ', n.exported)


def named_export(w, n):
    if len(n.specifiers) == 1 and n.specifiers[0].type == 'ExportNamespaceSpecifier':
        return 'export * as ' + w.show(n.specifiers[0].name) + w.from_source(n)
    return 'export { ' + ', '.join(export_specifier(w, x) for x in n.specifiers) + ' }' + w.from_source(n)


def class_method(w, n):
    return w.method(n.key, n.function, static(n) + {'method': '', 'getter': 'get ', 'setter': 'set '}[n.kind])


def class_property(w, n):
    return static(n) + w.show(n.key) + w.between(' = ', n.value) + ';'


def unary(w, n):
    operand = w.show(n.arg)
    return n.op + (' ' if n.op.isalpha() or operand[:1] == n.op[0] else '') + operand


def two_sides(w, n):
    return w.show(n.left) + ' ' + n.op + ' ' + w.show(n.right)


def call(w, n):
    return w.show(n.callee) + '(' + w.commas(n.args) + ')'


def super_property(w, n):
    return 'super' + (w.show(n.prop) if n.prop.type == 'ComputedPropName' else '.' + w.show(n.prop))


def optional_chain(w, n):
    base, question = n.base, '?' if n.optional else ''
    if base.type == 'MemberExpr':
        return w.member(base, question)
    return w.show(base.callee) + ('?.' if n.optional else '') + '(' + w.commas(base.args) + ')'


def template(w, n):
    parts = ['${' + w.show(part) + '}' for part in n.exprs[:len(n.quasis)]] + [''] * len(n.quasis)
    return '`' + ''.join(quasi.raw + part for quasi, part in zip(n.quasis, parts)) + '`'


def string(w, n):
    return '"' + n.value.replace('\\', '\\\\').replace('"', '\\"').replace('\n', '\\n') + '"'


def in_braces(w, nodes):
    return '{ ' + w.commas(nodes) + ' }' if nodes else '{}'


def loop(w, n):
    head = w.show(n.init).rstrip(';') if n.init else ''
    return 'for (' + head + '; ' + w.between('', n.test) + '; ' + w.between('', n.update) + ') ' + w.show(n.body)


def loop_over(w, n):
    is_of = n.type == 'ForOfStmt'
    return 'for ' + ('await ' if is_of and n.is_await else '') + '(' + w.show(n.left).rstrip(';') + \
        (' of ' if is_of else ' in ') + w.show(n.right) + ') ' + w.show(n.body)


def try_statement(w, n):
    return 'try ' + w.show(n.block) + w.between(' ', n.handler) + w.between(' finally ', n.finalizer)


def new(w, n):
    return 'new ' + w.show(n.callee) + ('(' + w.commas(n.args) + ')' if n.args is not None else '')


def marked(w, n):
    return name_of(n)


def assigned(w, n):
    return w.show(n.key) + w.between(' = ', n.value)


def key_and_value(w, n):
    return w.show(n.key) + ': ' + w.show(n.value)


WAYS = {
    'Module': program, 'Script': program,
    'ImportDecl': import_declaration, 'NamedExport': named_export,
    'ExportDecl': lambda w, n: 'export ' + w.show(n.decl),
    'ExportDefaultDecl': lambda w, n: 'export default ' + w.ungrouped(n.decl),
    'ExportDefaultExpr': lambda w, n: 'export default ' + w.show(n.expr) + ';',
    'ExportAll': lambda w, n: 'export * from ' + w.source(n),
    'Ident': marked, 'BindingIdent': marked,
    'IdentName': lambda w, n: n.sym, 'PrivateName': lambda w, n: '#' + n.name,
    'ClassDecl': lambda w, n: w.class_(n.get('class'), name_of(n.ident)), 'ClassExpr': lambda w, n: w.class_(n.get('class'), name_of(n.ident)),
    'FnDecl': lambda w, n: w.function(n.function, name_of(n.ident)), 'FnExpr': lambda w, n: w.function(n.function, name_of(n.ident)),
    'VarDecl': lambda w, n: n.kind + ' ' + w.commas(n.decls) + ';',
    'UsingDecl': lambda w, n: ('await ' if n.is_await else '') + 'using ' + w.commas(n.decls) + ';',
    'VarDeclarator': lambda w, n: w.show(n.name) + w.between(' = ', n.init),
    'Function': lambda w, n: w.function(n), 'Param': lambda w, n: w.show(n.pat), 'Class': lambda w, n: w.class_(n, ''),
    'Constructor': lambda w, n: w.show(n.key) + '(' + w.commas(n.params) + ') ' + w.show(n.body),
    'ClassMethod': class_method, 'PrivateMethod': class_method, 'ClassProp': class_property, 'PrivateProp': class_property,
    'StaticBlock': lambda w, n: 'static ' + w.show(n.body),
    'ArrayPat': lambda w, n: w.holes(n.elems), 'ArrayLit': lambda w, n: w.holes(n.elems),
    'ObjectPat': lambda w, n: in_braces(w, n.props), 'ObjectLit': lambda w, n: in_braces(w, n.props),
    'RestPat': lambda w, n: '...' + w.show(n.arg), 'AssignPat': lambda w, n: w.show(n.left) + ' = ' + w.show(n.right),
    'KeyValuePatProp': key_and_value, 'KeyValueProp': key_and_value, 'AssignPatProp': assigned,
    'ThisExpr': lambda w, n: 'this', 'Super': lambda w, n: 'super', 'Import': lambda w, n: 'import', 'Null': lambda w, n: 'null',
    'ExprOrSpread': lambda w, n: ('...' if n.spread is not None else '') + w.show(n.expr),
    'SpreadElement': lambda w, n: '...' + w.show(n.expr),
    'MethodProp': lambda w, n: w.method(n.key, n.function),
    'GetterProp': lambda w, n: 'get ' + w.show(n.key) + '() ' + w.show(n.body),
    'SetterProp': lambda w, n: 'set ' + w.show(n.key) + '(' + w.show(n.param) + ') ' + w.show(n.body),
    'ComputedPropName': lambda w, n: '[' + w.show(n.expr) + ']',
    'UnaryExpr': unary, 'UpdateExpr': lambda w, n: n.op + w.show(n.arg) if n.prefix else w.show(n.arg) + n.op,
    'BinExpr': two_sides, 'AssignExpr': two_sides,
    'MemberExpr': lambda w, n: w.member(n, ''), 'SuperPropExpr': super_property, 'OptChainExpr': optional_chain,
    'CondExpr': lambda w, n: w.show(n.test) + ' ? ' + w.show(n.cons) + ' : ' + w.show(n.alt),
    'CallExpr': call, 'OptCall': call, 'NewExpr': new,
    'SeqExpr': lambda w, n: w.commas(n.exprs) if n.exprs else '<empty sequence>',
    'ParenExpr': lambda w, n: '(' + w.show(n.expr) + ')', 'AwaitExpr': lambda w, n: 'await ' + w.show(n.arg),
    'YieldExpr': lambda w, n: 'yield' + ('*' if n.delegate else '') + w.between(' ', n.arg),
    'Str': string, 'Bool': lambda w, n: 'true' if n.value else 'false', 'Number': lambda w, n: n.text, 'BigInt': lambda w, n: n.text + 'n',
    'Regex': lambda w, n: '/' + n.exp + '/' + n.flags, 'Tpl': template, 'TplElement': lambda w, n: n.raw,
    'TaggedTpl': lambda w, n: w.show(n.tag) + w.show(n.tpl),
    'ArrowExpr': lambda w, n: ('async ' if n.is_async else '') + '(' + w.commas(n.params) + ') => ' + w.show(n.body),
    'MetaPropExpr': lambda w, n: n.kind,
    'BlockStmt': lambda w, n: w.braces(n.stmts), 'EmptyStmt': lambda w, n: ';', 'DebuggerStmt': lambda w, n: 'debugger;',
    'ExprStmt': lambda w, n: w.show(n.expr) + ';',
    'WithStmt': lambda w, n: 'with (' + w.show(n.obj) + ') ' + w.show(n.body),
    'ReturnStmt': lambda w, n: 'return' + w.between(' ', n.arg) + ';', 'ThrowStmt': lambda w, n: 'throw ' + w.show(n.arg) + ';',
    'LabeledStmt': lambda w, n: name_of(n.label) + ': ' + w.show(n.body),
    'BreakStmt': lambda w, n: 'break' + (' ' + name_of(n.label) if n.label else '') + ';',
    'ContinueStmt': lambda w, n: 'continue' + (' ' + name_of(n.label) if n.label else '') + ';',
    'IfStmt': lambda w, n: 'if (' + w.show(n.test) + ') ' + w.show(n.cons) + w.between(' else ', n.alt),
    'SwitchStmt': lambda w, n: 'switch (' + w.show(n.discriminant) + ') { ' + ' '.join(map(w.show, n.cases)) + ' }',
    'SwitchCase': lambda w, n: ('case ' + w.show(n.test) if n.test else 'default') + ': ' + ' '.join(map(w.show, n.cons)),
    'TryStmt': try_statement, 'CatchClause': lambda w, n: 'catch ' + ('(' + w.show(n.param) + ') ' if n.param else '') + w.show(n.body),
    'WhileStmt': lambda w, n: 'while (' + w.show(n.test) + ') ' + w.show(n.body),
    'DoWhileStmt': lambda w, n: 'do ' + w.show(n.body) + ' while (' + w.show(n.test) + ');',
    'ForStmt': loop, 'ForInStmt': loop_over, 'ForOfStmt': loop_over}
