"""Reads the text of definitions: tokens, expressions, and the items of a module."""
import ast
import re

from antt_values import OPERATORS


class FormError(Exception):
    """a form that this translation does not know"""


class NotTranslated(Exception):
    """a definition that has no Python form: the reason"""


NAME = r"[^\W\d]['\w◌\-⊎]*"
TOKEN = re.compile(r'(?P<space>\s+)|(?P<text>"(?:[^"\\]|\\.)*")|(?P<name>%s(?:\.(?:%s|\d+))*)|(?P<number>0x[0-9A-Fa-f]+|\d+)'
                   r'|(?P<sign>∷|\+\+|&&|\|\||==|→|\[\]|[^\s\w])' % (NAME, NAME))
WORDS = {'then', 'else', 'in', 'if', 'let', 'where', 'of', 'case', 'do', 'with'}
# which operators stand side by side without parentheses, the loosest first; all else is refused
LEVELS = [['||'], ['&&'], ['∷', '++'], ['==', '<'], ['+', '-'], ['*', '/', '%'], ['^']]


def tokens(text, line, path):
    """(kind, value, line) of each token"""
    out, i = [], 0
    while i < len(text):
        match = TOKEN.match(text, i)
        if not match:
            raise FormError('%s:%d: %r' % (path, line + text.count('\n', 0, i), text[i:i + 20]))
        if match.lastgroup != 'space':
            out.append((match.lastgroup, match.group(), line + text.count('\n', 0, i)))
        i = match.end()
    return out + [('end', '', line + text.count('\n'))]


class Parser:
    """expressions and patterns; an expression is a tuple that begins with its form"""
    def __init__(self, items, path):
        self.items, self.at, self.path = items, 0, path

    def peek(self):
        return self.items[self.at][1] if self.items[self.at][0] != 'text' else None

    def kind(self):
        return self.items[self.at][0]

    def take(self):
        self.at += 1
        return self.items[self.at - 1][1]

    def fail(self, why):
        raise FormError('%s:%d: %s at `%s`' % (self.path, self.items[self.at][2], why, ' '.join(x[1] for x in self.items[self.at:self.at + 6])))

    def eat(self, value):
        if self.peek() != value:
            self.fail('`%s` expected' % value)
        self.at += 1

    def skip(self, opening, closing):
        depth = 0
        while True:
            value = self.take()
            depth += (value == opening) - (value == closing)
            if depth == 0:
                return
            if self.kind() == 'end':
                self.fail('`%s` not closed' % opening)

    def skip_type(self):
        """up to the closing parenthesis"""
        while self.peek() != ')':
            if self.peek() == '(':
                self.skip('(', ')')
            else:
                self.take()

    def whole(self):
        expression = self.expression()
        if self.kind() != 'end':
            self.fail('not known')
        return expression

    def expression(self):
        word = self.peek()
        if word == 'λ':
            return self.function()
        if word == 'if':
            self.take()
            test = self.expression()
            self.eat('then')
            first = self.expression()
            self.eat('else')
            return ('if', test, first, self.expression())
        if word == 'let':
            self.take()
            name = self.name()
            self.eat('=')
            value = self.expression()
            self.eat('in')
            return ('let', name, value, self.expression())
        return self.operators()

    def function(self):
        self.take()
        names = []
        while self.peek() != '.':
            if self.peek() == '(':
                self.take()
                while self.peek() != ':':
                    names.append(self.name())
                self.skip_type()
                self.take()
            else:
                names.append(self.name())
        self.take()
        return ('function', names, self.expression())

    def name(self):
        if self.kind() != 'name' or '.' in self.peek() or self.peek() in WORDS:
            self.fail('a name expected')
        return self.take()

    def operators(self):
        items = [self.application()]
        while self.kind() == 'sign' and self.peek() in OPERATORS:
            items.append(self.take())
            items.append(self.expression() if self.peek() in ('λ', 'if', 'let') else self.application())
        return self.grouped(items, 0)

    def grouped(self, items, level):
        if len(items) == 1:
            return items[0]
        if level == len(LEVELS):
            self.fail('operators')
        here = [i for i in range(1, len(items), 2) if items[i] in LEVELS[level]]
        if not here:
            return self.grouped(items, level + 1)
        used = {items[i] for i in here}
        if len(used) > 1 and used not in ({'∷', '++'}, {'+', '-'}, {'*', '%'}, {'*', '/'}) or len(here) > 1 and used & {'==', '<', '^'}:
            self.fail('operators without parentheses (%s)' % ' '.join(sorted(used)))
        if level < 2 and {items[i] for i in range(1, len(items), 2)} & {'∷', '++'}:
            self.fail('a list beside `&&` or `||`')
        if used & {'-', '/', '%'}:                             # these group to the left
            i = here[-1]
            return ('operator', items[i], self.grouped(items[:i], level), self.grouped(items[i + 1:], level + 1))
        i = here[0]                                       # all others to the right
        return ('operator', items[i], self.grouped(items[:i], level + 1), self.grouped(items[i + 1:], level))

    def atom(self):
        kind, value = self.kind(), self.peek()
        if kind == 'number':
            return ('number', int(self.take(), 0))
        if kind == 'text':
            return ('text', ast.literal_eval(self.take()))
        if value == '[]':
            self.take()
            return ('name', '[]')
        if value == '(':
            return self.parenthesised()
        if value == '{':
            self.skip('{', '}')
            return ('implicit',)
        if value == 'record':
            return self.record()
        return ('name', self.take()) if kind == 'name' and value not in WORDS else None

    def parenthesised(self):
        self.take()
        parts = [self.expression()]
        if self.peek() == ':':                            # a type is not looked at
            self.skip_type()
        if self.peek() in ('→', '×'):                     # a type as an argument
            self.skip_type()
            self.take()
            return ('type',)
        while self.peek() == ',':
            self.take()
            if self.peek() != ')':
                parts.append(self.expression())
        self.eat(')')
        value = parts[0] if len(parts) == 1 else ('tuple', parts)
        while self.peek() == '.' and self.items[self.at + 1][0] in ('name', 'number') and self.items[self.at - 1][1] == ')':
            self.take()
            value = ('field', value, self.take().split('.'))
        return value

    def record(self):
        self.take()
        base = None if self.peek() == '{' else self.atom()
        self.eat('{')
        fields = []
        while self.peek() != '}':
            name = self.name()
            self.eat('=')
            fields.append((name, self.expression()))
            if self.peek() != '}':
                self.eat(';')
        self.eat('}')
        return ('record', base, fields)

    def application(self):
        function = self.atom()
        if function is None:
            self.fail('an expression expected')
        arguments = []
        while True:
            argument = self.expression() if self.peek() == 'λ' else self.atom()
            if argument is None:
                return ('application', function, arguments) if arguments else function
            if argument[0] != 'implicit':
                arguments.append(argument)


# ------------------------------------------------------------------------------------------------- modules
class Definition:
    def __init__(self, name, line):
        self.name, self.line, self.clauses = name, line, []


def blocks(text, indent=0, line=1):
    """(line number, text) of each item: a line at the margin with those below it that are further in"""
    out = []
    for number, content in enumerate(text.split('\n'), line):
        content = re.sub(r'(^|\s)--.*$', '', content)
        if not content.strip():
            if out:
                out[-1][1] += '\n'                        # so that line numbers stay right
        elif not out or len(content) - len(content.lstrip()) <= indent and content.lstrip()[0] not in ')]}':
            out.append([number, content[indent:]])
        else:
            out[-1][1] += '\n' + content[indent:]
    return [(number, item.rstrip('\n')) for number, item in out]


def top_split(text, separator):
    """the parts of a text, split where no parenthesis or brace is open"""
    out, depth, last = [], 0, 0
    for i, char in enumerate(text):
        depth += (char in '({') - (char in ')}')
        if char == separator and depth == 0:
            out.append(text[last:i])
            last = i + 1
    return out + [text[last:]]


class Module:
    """what a file of definitions says: imports, definitions, data with their constructors, pattern abbreviations, and
    names that are not translated, each with the reason, None for a type"""
    def __init__(self, crate, name, path, shown):
        self.crate, self.name, self.path, self.shown = crate, name, path, shown
        self.imports, self.definitions, self.data, self.synonyms, self.skipped = {}, {}, {}, {}, {}

    def read(self):
        with open(self.path, encoding='utf-8') as file:
            for line, text in blocks(file.read()):
                self.item(line, text)

    def fail(self, line, text, why):
        raise FormError('%s:%d: %s: `%s`' % (self.shown, line, why, text.split('\n')[0][:60]))

    def item(self, line, text):
        flat = ' '.join(text.split())
        words = flat.split()
        if words[0] == 'use' or words[:2] == ['pub', 'use']:
            self.use(flat[flat.index('use ') + 4:], line)
        elif words[0] in ('infix', 'infixl', 'infixr') or words[:2] == ['pub', 'mod']:
            pass
        elif words[0] == 'module':
            self.inner_module(line, text)
        elif not (self.data_item(line, text, flat) or self.record_or_synonym(flat) or self.signature(line, text, flat)):
            if re.match(r'(pub|abbrev|data|record|instance|private|postulate|open|import|class)\b', flat) or not re.match(NAME, flat):
                self.fail(line, text, 'not known')
            self.clause(re.match(NAME, flat).group(), line, text)

    def inner_module(self, line, text):
        head, _, body = text.partition('\n')
        if not re.match(r'module _ (\{[^}]*\} )*where\s*$', head):
            self.fail(line, text, 'a module of this form is not known')
        indents = [len(content) - len(content.lstrip()) for content in body.split('\n') if content.strip()]
        for number, item in blocks(body, min(indents), line + 1):
            self.item(number, item)

    def data_item(self, line, text, flat):
        data = re.match(r'(?:pub )?data (\S+) .*?where(.*)$', flat)
        if not data:
            return False
        for _, item in blocks(text.partition('\n')[2], 2, line + 1):
            constructor = re.match(r"(%s) : (.*)$" % NAME, ' '.join(item.split()))
            if not constructor:
                self.fail(line, text, 'a constructor of this form is not known')
            self.data[constructor.group(1)] = (data.group(1), len(top_split(constructor.group(2), '→')) - 1)
        self.skipped[data.group(1)] = None
        return True

    def record_or_synonym(self, flat):
        record = re.match(r'(?:pub )?record (%s)(.*?) : Type.*?where' % NAME, flat)
        if record:
            self.skipped[record.group(1)] = 'a relation' if '(' in record.group(2) else None
        synonym = re.match(r'pattern abbrev (?:pub )?(%s) :' % NAME, flat)
        if synonym:
            self.synonyms[synonym.group(1)] = None
        return record or synonym

    def signature(self, line, text, flat):
        match = re.match(r'((?:pub |abbrev |unfoldable )*)(%s)((?: \{[^}]*\})*) : (.*)$' % NAME, flat)
        if not match:
            return False
        name, parts = match.group(2), top_split(match.group(4), '→')
        if name in self.definitions or name in self.skipped:
            self.fail(line, text, 'a second definition of the name')
        if 'abbrev' not in match.group(1) and 'unfoldable' not in match.group(1):
            self.skipped[name] = 'a theorem'
        elif parts[-1].strip().startswith('Type') or re.match(r'\(.*\)\s*→\s*Type', parts[-1].strip()):
            self.skipped[name] = 'a type' if len(parts) == 1 else 'a relation'
        else:
            self.definitions[name] = Definition(name, line)
        return True

    def clause(self, name, line, text):
        if name in self.synonyms:
            parser = Parser(tokens(text, line, self.shown)[1:], self.shown)
            parameters = []
            while parser.peek() != '=':
                parameters.append(parser.name())
            parser.take()
            self.synonyms[name] = (parameters, parser.whole())
        elif name in self.definitions:
            text, _, own = re.sub(r'\n +where *\n', '\n@', text).partition('\n@')
            if own:                                       # they must use no name of the clause: none is known to them
                indent = len(own) - len(own.lstrip())
                for number, item in blocks(own, indent, line + text.count('\n') + 2):
                    self.item(number, ('abbrev ' if re.match(NAME + ' :', item) else '') + item)
            patterns, expression = self.sides(line, text)
            clauses = self.definitions[name].clauses
            if clauses and len(clauses[0][0]) != len(patterns):
                self.fail(line, text, 'another number of arguments than before')
            clauses.append((patterns, expression, line))
        elif name not in self.skipped:
            self.fail(line, text, 'a clause of nothing that is known')

    def sides(self, line, text):
        """the patterns and the expression of a clause"""
        items, depth = tokens(text, line, self.shown), 0
        for i, (kind, value, _) in enumerate(items):
            depth += (value in ('(', '{')) - (value in (')', '}')) if kind == 'sign' else 0
            if kind == 'sign' and value == '=' and depth == 0:
                break
        else:
            self.fail(line, text, 'a clause of this form is not known')
        parser = Parser(items[1:i] + [('end', '', items[i][2])], self.shown)
        patterns = []
        while parser.kind() != 'end':
            pattern = parser.atom()
            if pattern is None:
                parser.fail('a pattern of this form is not known')
            if pattern[0] != 'implicit':
                patterns.append(pattern)
        return patterns, Parser(items[i + 1:], self.shown).whole()

    def use(self, text, line):
        # a library that another passes on is meant itself
        text = re.sub(r'\bRattle(?:\.\w+\.specs\.Lower)+(?=\.)', 'Rattle', text)
        several = re.match(r'([^\s{]+?)\.\{(.*)\}$', text)
        if several:
            for part in several.group(2).split(','):
                name, _, alias = part.strip().partition(' as ')
                if name:
                    self.imports[(alias or name).strip()] = (several.group(1), name.strip())
            return
        one = re.match(r'(\S+)(?: as (\S+))?$', text)
        if not one:
            self.fail(line, text, 'an import of this form is not known')
        self.imports[one.group(2) or one.group(1).split('.')[-1]] = (one.group(1), None)
