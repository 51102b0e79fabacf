"""Reads JavaScript text: tokens, names, patterns and expressions. `js_programs.py` reads statements and modules."""
import re

from js_nodes import Node, literal, made, span_of

TOKEN = re.compile(r'''
 (?P<space>(?:\s|//[^\n]*|/\*.*?\*/)+)
|(?P<bigint>(?:0[xX][0-9a-fA-F_]+|0[oO][0-7_]+|0[bB][01_]+|\d[\d_]*)n)
|(?P<number>0[xX][0-9a-fA-F_]+|0[oO][0-7_]+|0[bB][01_]+|\d[\d_]*\.?[\d_]*(?:[eE][+-]?\d[\d_]*)?|\.\d[\d_]*(?:[eE][+-]?\d[\d_]*)?)
|(?P<string>"(?:[^"\\\n]|\\.)*"|'(?:[^'\\\n]|\\.)*')
|(?P<private>(?<![A-Za-z0-9_$])\#[A-Za-z_$][A-Za-z0-9_$]*)
|(?P<word>[A-Za-z_$\u0080-\u00aa\u00ac-\u00ba\u00bc-\U0010ffff][A-Za-z0-9_$\u0080-\u00aa\u00ac-\u00ba\u00bc-\U0010ffff]*(?:\#\d+(?:\.\d+)*)?)
|(?P<sign>>>>=|\.\.\.|\*\*=|<<=|>>=|>>>|===|!==|&&=|\|\|=|\?\?=|=>|\?\.(?!\d)|\*\*|\+\+|--|<<|>>|<=|>=|==|!=|&&|\|\||\?\?|\+=|-=|\*=|/=|%=|&=|\|=|\^=|[{}()\[\];,<>+\-*/%&|^!~?:=.@`«»])
''', re.X | re.S)
RESERVED = set('''await break case catch class const continue debugger default delete do else enum export extends false finally
    for function if import in instanceof new null return super switch this throw true try typeof var void while with yield'''.split())
PRECEDENCE = {'??': 1, '||': 2, '&&': 3, '|': 4, '^': 5, '&': 6, '==': 7, '!=': 7, '===': 7, '!==': 7,
              '<': 8, '<=': 8, '>': 8, '>=': 8, 'in': 8, 'instanceof': 8, '<<': 9, '>>': 9, '>>>': 9,
              '+': 10, '-': 10, '*': 11, '/': 11, '%': 11, '**': 12}
ASSIGNMENTS = set('= += -= *= /= %= <<= >>= >>>= |= ^= &= **= &&= ||= ??='.split())


class Tokens:
    """a text, token by token"""
    def __init__(self, text):
        self.text, self.position = text, 0
        self.kind = self.value = None
        self.start = self.end = self.end_before = 0
        self.next()

    def next(self):
        self.end_before = self.end
        while True:
            if self.position >= len(self.text):
                self.kind, self.value, self.start, self.end = 'end', '', self.position, self.position
                return
            match = TOKEN.match(self.text, self.position)
            if not match:
                raise SyntaxError('at %d: %r' % (self.position, self.text[self.position:self.position + 20]))
            self.position = match.end()
            if match.lastgroup != 'space':
                break
        self.kind, self.value, self.start, self.end = match.lastgroup, match.group(), match.start(), match.end()

    def taken(self):
        """the value of the token, which is passed"""
        value = self.value
        self.next()
        return value

    def save(self):
        return (self.position, self.kind, self.value, self.start, self.end, self.end_before)

    def load(self, saved):
        self.position, self.kind, self.value, self.start, self.end, self.end_before = saved

    def is_sign(self, *signs):
        return self.kind == 'sign' and self.value in signs

    def is_word(self, *words):
        return self.kind == 'word' and self.value in words

    def is_name(self):
        return self.kind == 'word' and self.value not in RESERVED

    def take_sign(self, sign):
        return self.is_sign(sign) and self.taken() is not None

    def take_word(self, word):
        return self.is_word(word) and self.taken() is not None

    def expect(self, value):
        if self.kind not in ('sign', 'word') or self.value != value:
            raise SyntaxError('want %r, have %r at %d: %s' % (value, self.value, self.start, self.text[max(0, self.start - 30):self.start + 10]))
        self.next()

    def span(self, start):
        return (start, self.end_before)

    def separated(self, item, closing):
        """items with commas between, up to the closing sign"""
        items = []
        while not self.is_sign(closing):
            items.append(item())
            if not self.is_sign(closing):
                self.expect(',')
        self.expect(closing)
        return items


class Names(Tokens):
    """names, keys and patterns"""
    last_context = ()

    def marked_word(self):
        if self.kind != 'word':
            raise SyntaxError('name wanted, have %r at %d' % (self.value, self.start))
        span = (self.start, self.end)
        text, _, marks = self.taken().partition('#')
        return span, text, tuple(int(mark) for mark in marks.split('.')) if marks else ()

    def name(self, kind='Ident'):
        span, text, marks = self.marked_word()
        return made(kind, span, ctxt=marks, sym=text)

    def binding(self):
        return self.name('BindingIdent')

    def string(self):
        start, raw = self.start, self.taken()
        return made('Str', self.span(start), value=literal(raw), raw=raw)

    def private_name(self):
        start, text = self.start, self.taken()
        return made('PrivateName', self.span(start), name=text[1:])

    def number(self):
        start, is_number = self.start, self.kind == 'number'
        text = self.taken()
        return made('Number' if is_number else 'BigInt', self.span(start), text=text if is_number else text.rstrip('n'))

    def property_name(self):
        start = self.start
        if self.kind == 'string':
            return self.string()
        if self.kind in ('number', 'bigint'):
            return self.number()
        if self.take_sign('['):
            expression = self.assignment()
            self.expect(']')
            return made('ComputedPropName', self.span(start), expr=expression)
        if self.kind == 'private':
            return self.private_name()
        span, text, self.last_context = self.marked_word()
        return made('IdentName', span, sym=text)

    def member_name(self):
        if self.kind == 'private':
            return self.private_name()
        span, text, _ = self.marked_word()
        return made('IdentName', span, sym=text)

    def pattern(self):
        start = self.start
        pattern = self.plain_pattern()
        return made('AssignPat', left=pattern, right=self.assignment(), span=self.span(start)) if self.take_sign('=') else pattern

    def plain_pattern(self):
        start = self.start
        if self.take_sign('['):
            return made('ArrayPat', elems=self.separated(self.element, ']'), span=self.span(start))
        if self.take_sign('{'):
            return made('ObjectPat', props=self.separated(self.pattern_property, '}'), span=self.span(start))
        return self.rest() if self.is_sign('...') else self.binding()

    def element(self):
        return None if self.is_sign(',') else self.rest() if self.is_sign('...') else self.pattern()

    def rest(self):
        start = self.start
        self.expect('...')
        return made('RestPat', arg=self.plain_pattern(), span=self.span(start))

    def pattern_property(self):
        if self.is_sign('...'):
            return self.rest()
        start, key = self.start, self.property_name()
        if self.take_sign(':'):
            return made('KeyValuePatProp', key=key, value=self.pattern())
        name = made('BindingIdent', key.span, ctxt=self.last_context, sym=key.sym)
        return made('AssignPatProp', key=name, value=self.assignment() if self.take_sign('=') else None, span=self.span(start))


class Expressions(Names):
    """expressions, functions and classes"""
    without_in = False

    def with_in(self, read):
        before, self.without_in = self.without_in, False
        try:
            return read()
        finally:
            self.without_in = before

    def expression(self):
        start, first = self.start, self.assignment()
        if not self.is_sign(','):
            return first
        items = [first]
        while self.take_sign(','):
            items.append(self.assignment())
        return made('SeqExpr', self.span(start), exprs=items)

    def arrow(self):
        """an arrow function, or None where none stands"""
        start, saved = self.start, self.save()
        try:
            is_async, parameters = self.arrow_head()
        except (SyntaxError, AttributeError):
            self.load(saved)
            return None
        body = self.with_in(self.block) if self.is_sign('{') else self.assignment()
        return made('ArrowExpr', self.span(start), params=parameters, body=body, is_async=is_async)

    def arrow_head(self):
        is_async = self.take_word('async')
        if is_async and (self.is_word('function') or self.kind != 'word' and not self.is_sign('(')):
            raise SyntaxError
        if self.is_name():
            parameters = [self.binding()]
        else:
            self.expect('(')
            parameters = self.separated(lambda: self.with_in(self.pattern), ')')
        self.expect('=>')
        return is_async, parameters

    def assignment(self):
        start = self.start
        arrow = self.arrow() if self.is_name() or self.is_sign('(') else None
        if arrow:
            return arrow
        if self.take_word('yield'):
            delegate = self.take_sign('*')
            is_bare = self.is_sign(')', ']', '}', ',', ';', ':') or self.kind == 'end'
            return made('YieldExpr', arg=None if is_bare else self.assignment(), delegate=delegate, span=self.span(start))
        left = self.conditional()
        if self.kind != 'sign' or self.value not in ASSIGNMENTS:
            return left
        operator = self.taken()
        return made('AssignExpr', op=operator, left=as_target(left), right=self.assignment(), span=self.span(start))

    def conditional(self):
        start, test = self.start, self.binary(0)
        if not self.take_sign('?'):
            return test
        first = self.with_in(self.assignment)
        self.expect(':')
        return made('CondExpr', test=test, cons=first, alt=self.assignment(), span=self.span(start))

    def binary(self, least):
        start, left = self.start, self.unary()
        while True:
            operator = self.value
            if self.kind not in ('sign', 'word') or operator not in PRECEDENCE or operator == 'in' and self.without_in:
                return left
            precedence = PRECEDENCE[operator]
            if precedence <= least and not (operator == '**' and precedence == least):
                return left
            self.next()
            right = self.binary(precedence - 1 if operator == '**' else precedence)
            left = made('BinExpr', self.span(start), op=operator, left=left, right=right)

    def unary(self):
        start = self.start
        if self.is_sign('-', '+', '!', '~') or self.is_word('typeof', 'void', 'delete'):
            operator, operand = self.taken(), self.unary()
            return made('UnaryExpr', self.span(start), op=operator, arg=operand)
        if self.is_sign('++', '--'):
            operator, operand = self.taken(), self.unary()
            return made('UpdateExpr', self.span(start), op=operator, prefix=True, arg=operand)
        if self.take_word('await'):
            operand = self.unary()
            return made('AwaitExpr', self.span(start), arg=operand)
        operand = self.left_side()
        if self.is_sign('++', '--'):
            operator = self.taken()
            return made('UpdateExpr', self.span(start), op=operator, prefix=False, arg=operand)
        return operand

    def arguments(self):
        self.expect('(')
        return self.separated(lambda: self.with_in(self.argument), ')')

    def argument(self):
        start = self.start
        return made('ExprOrSpread', spread=(start, start + 3) if self.take_sign('...') else None, expr=self.assignment())

    def computed(self):
        start = self.start
        self.expect('[')
        expression = self.with_in(self.expression)
        self.expect(']')
        return made('ComputedPropName', self.span(start), expr=expression)

    # --- members, calls and chains
    def left_side(self, no_call=False):
        start, expression = self.start, self.left_end()
        in_chain = False
        while True:
            if self.is_sign('?.') and not no_call:
                self.next()
                in_chain, link = True, self.link(expression, start)
                expression = made('OptChainExpr', self.span(start), optional=True, base=link)
            elif self.is_sign('.', '['):
                self.take_sign('.')
                link = self.member_of(expression, start)
                expression = made('OptChainExpr', self.span(start), optional=False, base=link) if in_chain else link
            elif self.is_sign('(') and not no_call:
                arguments = self.arguments()
                link = made('OptCall' if in_chain else 'CallExpr', self.span(start), callee=expression, args=arguments)
                expression = made('OptChainExpr', self.span(start), optional=False, base=link) if in_chain else link
            elif self.is_sign('`'):
                expression = made('TaggedTpl', tag=expression, tpl=self.template(), span=self.span(start))
            else:
                return expression

    def member_of(self, expression, start):
        key = self.computed() if self.is_sign('[') else self.member_name()
        return made('MemberExpr', self.span(start), obj=expression, prop=key)

    def link(self, expression, start):
        """what stands behind `?.`"""
        if self.is_sign('('):
            arguments = self.arguments()
            return made('OptCall', self.span(start), callee=expression, args=arguments)
        return self.member_of(expression, start)

    def left_end(self):
        """`new`, `super` and `import` with what belongs to them, or a primary expression"""
        start = self.start
        if self.take_word('new'):
            if self.take_sign('.'):
                self.marked_word()
                return made('MetaPropExpr', self.span(start), kind='new.target')
            callee = self.left_side(True)
            arguments = self.arguments() if self.is_sign('(') else None
            return made('NewExpr', self.span(start), callee=callee, args=arguments)
        if self.is_word('super', 'import'):
            first = made('Super' if self.taken() == 'super' else 'Import', self.span(start))
            if self.is_sign('(') or first.type == 'Import' and not self.is_sign('.'):
                arguments = self.arguments()
                return made('CallExpr', self.span(start), callee=first, args=arguments)
            has_dot = self.take_sign('.')
            if first.type == 'Import':
                self.marked_word()
                return made('MetaPropExpr', self.span(start), kind='import.meta')
            key = self.member_name() if has_dot else self.computed()
            return made('SuperPropExpr', self.span(start), obj=first, prop=key)
        return self.primary()

    def template(self):
        start, at = self.start, self.end
        parts, texts = [], []
        while True:
            end = at
            while self.text[end] != '`' and self.text[end:end + 2] != '${':
                end += 1
            raw, is_last = self.text[at:end], self.text[end] == '`'
            texts.append(made('TplElement', (at, end), tail=is_last, cooked=raw, raw=raw))
            self.position = self.end = end + (1 if is_last else 2)
            self.next()
            if is_last:
                return made('Tpl', (start, end + 1), exprs=parts, quasis=texts)
            parts.append(self.with_in(self.expression))
            if not self.is_sign('}'):
                raise SyntaxError('`}` wanted at %d' % self.start)
            at = self.end

    # --- primary expressions
    def primary(self):
        start = self.start
        if self.kind == 'string':
            return self.string()
        if self.kind in ('number', 'bigint'):
            return self.number()
        if self.kind == 'private':
            return self.private_name()
        if self.kind == 'word':
            return self.primary_word(start)
        if self.take_sign('«'):                 # grouped, with no pair of parentheses in the tree
            expression = self.with_in(self.expression)
            self.expect('»')
            return expression
        if self.take_sign('('):
            expression = self.with_in(self.expression)
            self.expect(')')
            return made('ParenExpr', self.span(start), expr=expression)
        if self.take_sign('['):
            items = self.separated(lambda: None if self.is_sign(',') else self.with_in(self.argument), ']')
            return made('ArrayLit', self.span(start), elems=items)
        if self.take_sign('{'):
            properties = self.separated(lambda: self.with_in(self.property), '}')
            return made('ObjectLit', self.span(start), props=properties)
        if self.is_sign('`'):
            return self.template()
        if self.is_sign('/', '/='):
            return self.regular_expression(start)
        raise SyntaxError('unexpected %r at %d: %s' % (self.value, start, self.text))

    def primary_word(self, start):
        word = self.value
        if word in ('this', 'null', 'true', 'false'):
            self.next()
            span = self.span(start)
            return made('ThisExpr', span) if word == 'this' else made('Null', span) if word == 'null' else made('Bool', span, value=word == 'true')
        if word == 'function':
            return self.function_expression(start, False)
        if word == 'class':
            self.next()
            name = self.name() if self.kind == 'word' and self.value != 'extends' else None
            return made('ClassExpr', ident=name, **{'class': self.class_(start)})
        if word == 'async':
            saved = self.save()
            self.next()
            if self.is_word('function'):
                return self.function_expression(start, True)
            self.load(saved)
        if word in RESERVED:
            raise SyntaxError('unexpected %s at %d' % (word, start))
        return self.name()

    def regular_expression(self, start):
        at, in_class = start + 1, False
        while self.text[at] != '/' or in_class:
            if self.text[at] == '\\':
                at += 1
            elif self.text[at] in '[]':
                in_class = self.text[at] == '['
            at += 1
        flags = re.compile('[a-z]*').match(self.text, at + 1)
        body = self.text[start + 1:at]
        self.position = self.end = flags.end()
        self.next()
        return made('Regex', (start, flags.end()), exp=body, flags=flags.group())

    # --- functions, properties and classes
    def function_expression(self, start, is_async):
        self.expect('function')
        is_generator = self.take_sign('*')
        name = self.name() if self.kind == 'word' else None
        return made('FnExpr', ident=name, function=self.function(start, is_generator, is_async))

    def parameters(self):
        self.expect('(')
        return self.separated(self.parameter, ')')

    def parameter(self):
        start = self.start
        return made('Param', pat=self.with_in(self.pattern), span=self.span(start))

    def function(self, start, is_generator, is_async):
        parameters = self.parameters()
        body = self.with_in(self.block)
        return made('Function', self.span(start), params=parameters, body=body, is_generator=is_generator, is_async=is_async)

    def modifiers(self, *ends):
        """the `get`, `set`, `async` and `*` before a key"""
        accessor, is_async = None, False
        for word in ('get', 'set', 'async'):
            if self.is_word(word):
                saved = self.save()
                self.next()
                if self.is_sign(*ends):
                    self.load(saved)
                elif word == 'async':
                    is_async = True
                else:
                    accessor = word
                break
        return accessor, is_async, self.take_sign('*')

    def property(self):
        start = self.start
        if self.take_sign('...'):
            return made('SpreadElement', dot3_token=(start, start + 3), expr=self.assignment())
        accessor, is_async, is_generator = self.modifiers(',', ':', '(', '}', '=')
        key, marks = self.property_name(), self.last_context
        if accessor:
            parameters, body = self.parameters(), self.block()
            if accessor == 'get':
                return made('GetterProp', self.span(start), key=key, body=body)
            return made('SetterProp', self.span(start), key=key, param=parameters[0].pat, body=body)
        if self.is_sign('('):
            return made('MethodProp', key=key, function=self.function(start, is_generator, is_async))
        if self.take_sign(':'):
            return made('KeyValueProp', key=key, value=self.assignment())
        name = made('Ident', key.span, ctxt=marks, sym=key.sym)
        if self.take_sign('='):                 # what is a property of a pattern only
            value = self.assignment()
            return Node('CoverInitializedName', ident=name, value=value, span=self.span(start))
        return name

    def class_(self, start):
        heritage = self.left_side() if self.take_word('extends') else None
        self.expect('{')
        members = []
        while not self.is_sign('}'):
            members.append(self.with_in(self.member))
        self.next()
        return made('Class', self.span(start), super_class=heritage, body=members)

    def member(self):
        start = self.start
        if self.take_sign(';'):
            return made('EmptyStmt', self.span(start))
        is_static = self.static_word()
        if is_static and self.is_sign('{'):
            return made('StaticBlock', body=self.block(), span=self.span(start))
        accessor, is_async, is_generator = self.modifiers('(', '=', ';', '}')
        key = self.property_name()
        is_private = key.type == 'PrivateName'
        if self.is_sign('('):
            is_plain = not (is_static or accessor or is_private or is_async or is_generator)
            if is_plain and (key.type == 'IdentName' and key.sym == 'constructor' or key.type == 'Str' and key.value == 'constructor'):
                parameters, body = self.parameters(), self.block()
                return made('Constructor', self.span(start), key=key, params=parameters, body=body)
            function = self.function(start, is_generator, is_async)
            word = accessor + 'ter' if accessor else 'method'
            kind = 'PrivateMethod' if is_private else 'ClassMethod'
            return made(kind, self.span(start), key=key, function=function, kind=word, is_static=is_static)
        value = self.assignment() if self.take_sign('=') else None
        self.take_sign(';')
        return made('PrivateProp' if is_private else 'ClassProp', self.span(start), key=key, value=value, is_static=is_static)

    def static_word(self):
        saved = self.save()
        if self.take_word('static'):
            if not self.is_sign('(', '=', ';', '}'):
                return True
            self.load(saved)
        return False


# ------------------------------------------------------------------------------------- expressions that are patterns
def as_binding(name):
    return made('BindingIdent', name.span, ctxt=name.ctxt, sym=name.sym)


def as_pattern(expression):
    if expression.type == 'Ident':
        return as_binding(expression)
    if expression.type == 'ArrayLit':
        return made('ArrayPat', expression.span, elems=[item and element_of(item) for item in expression.elems])
    if expression.type == 'ObjectLit':
        return made('ObjectPat', expression.span, props=[property_of(item) for item in expression.props])
    if expression.type == 'AssignExpr' and expression.op == '=':
        return made('AssignPat', expression.span, left=expression.left, right=expression.right)
    return expression


def element_of(item):
    pattern = as_pattern(item.expr)
    return pattern if item.spread is None else made('RestPat', (item.spread[0], span_of(item.expr)[1]), arg=pattern)


def property_of(item):
    if item.type == 'Ident':
        return made('AssignPatProp', item.span, key=as_binding(item), value=None)
    if item.type == 'CoverInitializedName':
        return made('AssignPatProp', item.span, key=as_binding(item.ident), value=item.value)
    if item.type == 'SpreadElement':
        return made('RestPat', (item.dot3_token[0], span_of(item.expr)[1]), arg=as_pattern(item.expr))
    return made('KeyValuePatProp', key=item.key, value=as_pattern(item.value))


def as_target(expression):
    if expression.type in ('MemberExpr', 'SuperPropExpr', 'ParenExpr'):
        return expression
    if expression.type in ('Ident', 'ArrayLit', 'ObjectLit'):
        return as_pattern(expression)
    raise SyntaxError('no target: ' + expression.type)
