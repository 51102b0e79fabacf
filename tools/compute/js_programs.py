"""Reads JavaScript text: statements, modules and scripts."""
from js_nodes import literal, made
from js_reader import Expressions, as_pattern


class Statements(Expressions):
    def block(self):
        start = self.start
        self.expect('{')
        items = []
        while not self.is_sign('}'):
            items.append(self.statement())
        self.next()
        return made('BlockStmt', self.span(start), stmts=items)

    def statement(self):
        start = self.start
        if self.is_sign('{'):
            return self.block()
        if self.take_sign(';'):
            return made('EmptyStmt', self.span(start))
        keyword = self.declaring_words()
        if keyword:
            declaration = self.declaration(keyword, start)
            self.take_sign(';')
            return declaration
        read = self.STATEMENTS.get(self.value) if self.kind == 'word' else None
        found = read(self, start) if read else self.labelled(start) if self.is_name() else None
        if found:
            return found
        expression = self.expression()
        self.take_sign(';')
        return made('ExprStmt', self.span(start), expr=expression)

    # --- declarations
    def declaring_words(self):
        """`var`, `let`, `const`, `using` or `await using`, which are passed where they begin a declaration"""
        if self.is_word('var', 'const'):
            return self.taken()
        saved = self.save()
        if self.is_word('let', 'using'):
            keyword = self.taken()
            if self.kind == 'word' and self.value not in ('in', 'of', 'instanceof') or keyword == 'let' and self.is_sign('[', '{'):
                return keyword
        elif self.take_word('await') and self.take_word('using') and self.kind == 'word' and self.value not in ('in', 'instanceof'):
            return 'await using'
        self.load(saved)
        return None

    def declaration(self, keyword, start):
        declarators = [self.declarator()]
        while self.take_sign(','):
            declarators.append(self.declarator())
        if keyword in ('using', 'await using'):
            return made('UsingDecl', self.span(start), is_await=keyword == 'await using', decls=declarators)
        return made('VarDecl', self.span(start), kind=keyword, decls=declarators)

    def declarator(self):
        start, name = self.start, self.plain_pattern()
        return made('VarDeclarator', name=name, init=self.assignment() if self.take_sign('=') else None, span=self.span(start))

    def function_declaration(self, start):
        saved = self.save()
        is_async = self.take_word('async')
        if not self.take_word('function'):
            self.load(saved)
            return self.labelled(start)
        is_generator = self.take_sign('*')
        name = self.name()
        return made('FnDecl', ident=name, function=self.function(start, is_generator, is_async))

    def class_declaration(self, start):
        self.next()
        name = self.name()
        return made('ClassDecl', ident=name, **{'class': self.class_(start)})

    # --- statements that begin with a word
    def in_parentheses(self):
        self.expect('(')
        expression = self.expression()
        self.expect(')')
        return expression

    def if_(self, start):
        self.next()
        test, first = self.in_parentheses(), self.statement()
        return made('IfStmt', test=test, cons=first, alt=self.statement() if self.take_word('else') else None, span=self.span(start))

    def while_(self, start):
        self.next()
        return made('WhileStmt', test=self.in_parentheses(), body=self.statement(), span=self.span(start))

    def with_(self, start):
        self.next()
        return made('WithStmt', obj=self.in_parentheses(), body=self.statement(), span=self.span(start))

    def do(self, start):
        self.next()
        body = self.statement()
        self.expect('while')
        test = self.in_parentheses()
        self.take_sign(';')
        return made('DoWhileStmt', self.span(start), body=body, test=test)

    def return_or_throw(self, start):
        kind = 'ReturnStmt' if self.taken() == 'return' else 'ThrowStmt'
        value = None if self.is_sign(';', '}') or self.kind == 'end' else self.expression()
        self.take_sign(';')
        return made(kind, self.span(start), arg=value)

    def jump(self, start):
        kind = 'BreakStmt' if self.taken() == 'break' else 'ContinueStmt'
        label = self.name() if self.is_name() else None
        self.take_sign(';')
        return made(kind, self.span(start), label=label)

    def debugger(self, start):
        self.next()
        self.take_sign(';')
        return made('DebuggerStmt', self.span(start))

    def switch(self, start):
        self.next()
        discriminant = self.in_parentheses()
        self.expect('{')
        cases = []
        while not self.is_sign('}'):
            cases.append(self.case())
        self.next()
        return made('SwitchStmt', self.span(start), discriminant=discriminant, cases=cases)

    def case(self):
        start, test = self.start, None
        if not self.take_word('default'):
            self.expect('case')
            test = self.expression()
        self.expect(':')
        items = []
        while not (self.is_sign('}') or self.is_word('case', 'default')):
            items.append(self.statement())
        return made('SwitchCase', self.span(start), test=test, cons=items)

    def try_(self, start):
        self.next()
        block, handler, last = self.block(), None, None
        catch = self.start
        if self.take_word('catch'):
            parameter = None
            if self.take_sign('('):
                parameter = self.plain_pattern()
                self.expect(')')
            handler = made('CatchClause', param=parameter, body=self.block(), span=self.span(catch))
        if self.take_word('finally'):
            last = self.block()
        return made('TryStmt', self.span(start), block=block, handler=handler, finalizer=last)

    def labelled(self, start):
        """a statement with a label, or None where none stands"""
        saved = self.save()
        if self.is_name():
            label = self.name()
            if self.take_sign(':'):
                return made('LabeledStmt', label=label, body=self.statement(), span=self.span(start))
        self.load(saved)
        return None

    # --- `for`
    def for_(self, start):
        self.next()
        is_await = self.take_word('await')
        self.expect('(')
        is_declared, first = False, None
        if not self.is_sign(';'):
            is_declared, first = self.head()
        if first and self.is_word('of', 'in'):
            return self.for_each(start, is_await, first if is_declared else as_pattern(first))
        self.expect(';')
        test = None if self.is_sign(';') else self.expression()
        self.expect(';')
        update = None if self.is_sign(')') else self.expression()
        self.expect(')')
        return made('ForStmt', init=first, test=test, update=update, body=self.statement(), span=self.span(start))

    def head(self):
        start, keyword = self.start, self.declaring_words()
        self.without_in = True
        try:
            return bool(keyword), self.declaration(keyword, start) if keyword else self.expression()
        finally:
            self.without_in = False

    def for_each(self, start, is_await, left):
        is_of = self.taken() == 'of'
        right = self.assignment() if is_of else self.expression()
        self.expect(')')
        body = self.statement()
        if is_of:
            return made('ForOfStmt', self.span(start), is_await=is_await, left=left, right=right, body=body)
        return made('ForInStmt', self.span(start), left=left, right=right, body=body)

    STATEMENTS = {
        'function': function_declaration, 'async': function_declaration, 'class': class_declaration, 'if': if_, 'while': while_,
        'do': do, 'with': with_, 'for': for_, 'return': return_or_throw, 'throw': return_or_throw, 'break': jump, 'continue': jump,
        'debugger': debugger, 'switch': switch, 'try': try_}


class Reader(Statements):
    """a program; a module, if so asked"""
    def __init__(self, text, is_module=True):
        self.is_module = is_module
        super().__init__(text)

    def program(self):
        items = []
        while self.kind != 'end':
            items.append(self.item() if self.is_module else self.statement())
        return made('Module' if self.is_module else 'Script', (0, len(self.text)), body=items, shebang=None)

    def item(self):
        start, saved = self.start, self.save()
        if self.take_word('import'):
            if not self.is_sign('(', '.'):
                return self.import_(start)
            self.load(saved)
        return self.export(start) if self.take_word('export') else self.statement()

    def exported_name(self):
        return self.string() if self.kind == 'string' else self.name()

    def attributes(self):
        if not self.take_word('with'):
            return None
        self.expect('{')
        return self.separated(self.attribute, '}')

    def attribute(self):
        key = literal(self.taken()) if self.kind == 'string' else self.taken()
        self.expect(':')
        return (key, literal(self.taken()))

    def source(self):
        """the text behind `from`, and attributes"""
        source, attributes = self.string(), self.attributes()
        self.take_sign(';')
        return {'src': source, 'with': attributes}

    # --- imports
    def import_(self, start):
        specifiers = []
        if self.kind != 'string':
            if self.kind == 'word':
                name = self.name()
                specifiers.append(made('ImportDefaultSpecifier', name.span, local=name))
                self.take_sign(',')
            at = self.start
            if self.take_sign('*'):
                self.expect('as')
                specifiers.append(made('ImportStarAsSpecifier', local=self.name(), span=self.span(at)))
            elif self.take_sign('{'):
                specifiers += self.separated(self.import_specifier, '}')
            self.expect('from')
        return made('ImportDecl', specifiers=specifiers, **self.source(), span=self.span(start))

    def import_specifier(self):
        start, first = self.start, self.exported_name()
        if self.take_word('as'):
            return made('ImportNamedSpecifier', local=self.name(), imported=first, span=self.span(start))
        return made('ImportNamedSpecifier', self.span(start), local=first, imported=None)

    # --- exports
    def export(self, start):
        if self.take_word('default'):
            return self.export_default(start)
        if self.take_sign('*'):
            if not self.take_word('as'):
                self.expect('from')
                return made('ExportAll', **self.source(), span=self.span(start))
            name = self.exported_name()
            self.expect('from')
            specifier = made('ExportNamespaceSpecifier', name.span, name=name)
            return made('NamedExport', specifiers=[specifier], **self.source(), span=self.span(start))
        if self.take_sign('{'):
            specifiers = self.separated(self.export_specifier, '}')
            if self.take_word('from'):
                return made('NamedExport', specifiers=specifiers, **self.source(), span=self.span(start))
            self.take_sign(';')
            return made('NamedExport', self.span(start), specifiers=specifiers, src=None)
        return made('ExportDecl', decl=self.statement(), span=self.span(start))

    def export_specifier(self):
        start = self.start
        if self.take_sign('*'):                 # not in the language, but in the table
            self.expect('as')
            return made('ExportNamespaceSpecifier', name=self.exported_name(), span=self.span(start))
        first = self.exported_name()
        return made('ExportNamedSpecifier', orig=first, exported=self.exported_name() if self.take_word('as') else None, span=self.span(start))

    def export_default(self, start):
        at, saved = self.start, self.save()
        if self.is_word('class'):
            return made('ExportDefaultDecl', decl=self.primary(), span=self.span(start))
        is_async = self.take_word('async')
        if self.is_word('function'):
            return made('ExportDefaultDecl', decl=self.function_expression(at, is_async), span=self.span(start))
        self.load(saved)
        expression = self.assignment()
        self.take_sign(';')
        return made('ExportDefaultExpr', self.span(start), expr=expression)
