"""Writes a definition as a Python function."""
import keyword
import re

from antt_reader import FormError
from antt_values import OPERATORS, STANDARD

VALUE_TESTS = {'()': 'len(%s) == 0', 'True': '%s is True', 'False': '%s is False', 'None': '%s is None', '0': '%s == 0'}
# a definition of so many clauses that each name a variant is a dictionary
FEWEST_ROWS = 8


def mangled(name):
    new = name.replace("'", '_prime').replace('-', '_').replace('◌', '_').replace('⊎', '_')
    return new + '_' if keyword.iskeyword(new) else new


def flat_name(module, name):
    return mangled('%s__%s__%s' % (module.crate, module.name.replace('.', '_'), name))


def local(name):
    return 'v_' + mangled(name)


def applied(function, arguments):
    for argument in arguments:
        function = '%s(%s)' % (function, argument)
    return function


class Writer:
    """writes one definition of a module; `needs` are the definitions that it calls"""
    def __init__(self, translation, module, definition):
        self.translation, self.module, self.itself, self.number, self.needs = translation, module, definition, 0, set()
        self.where = '%s:%d' % (module.shown, definition.line)

    def fresh(self):
        self.number += 1
        return 'x%d' % self.number

    def fail(self, why):
        raise FormError('%s: %s' % (self.where, why))

    def meaning(self, name, module=None):
        return self.translation.meaning(module or self.module, name, self.where)

    def call(self, arity, arguments, make):
        """make(arguments) for as many arguments as there are; too few give a function of the others"""
        if len(arguments) >= arity:
            return applied(make(arguments[:arity]), arguments[arity:])
        given, left = [self.fresh() for _ in arguments], [self.fresh() for _ in range(arity - len(arguments))]
        body = make(given + left)
        for name in reversed(left):
            body = '(lambda %s: %s)' % (name, body)
        return '(lambda %s: %s)(%s)' % (', '.join(given), body, ', '.join(arguments)) if given else body

    # --- expressions; `names` are the Python names of what is bound
    def expression(self, e, names):
        write = {
            'number': lambda: str(e[1]), 'type': lambda: 'None', 'text': lambda: self.fail('a text outside of `codes`'),
            'function': lambda: self.function(e, names), 'let': lambda: self.let(e, names), 'record': lambda: self.record(e, names),
            'if': lambda: '(%s if %s else %s)' % (self.expression(e[2], names), self.expression(e[1], names), self.expression(e[3], names)),
            'operator': lambda: OPERATORS[e[1]].format(self.expression(e[2], names), self.expression(e[3], names)),
            'tuple': lambda: '(%s,)' % ', '.join(self.expression(part, names) for part in e[1]),
            'field': lambda: self.fields(self.expression(e[1], names), e[2]),
            'name': lambda: self.apply(e[1], [], names), 'application': lambda: self.application(e, names)}.get(e[0])
        return write() if write else self.fail('an expression of the form %s' % e[0])

    def function(self, e, names):
        body = self.expression(e[2], {**names, **{name: local(name) for name in e[1]}})
        for name in reversed(e[1]):
            body = '(lambda %s: %s)' % (local(name), body)
        return body

    def let(self, e, names):
        return '(lambda %s: %s)(%s)' % (local(e[1]), self.expression(e[3], {**names, e[1]: local(e[1])}), self.expression(e[2], names))

    def record(self, e, names):
        fields = ', '.join('%s=%s' % (mangled(name), self.expression(value, names)) for name, value in e[2])
        return 'Rec(%s)' % fields if e[1] is None else 'updated(%s, %s)' % (self.expression(e[1], names), fields)

    def fields(self, value, fields):
        for field in fields:
            value = '%s[%s]' % (value, field) if field.isdigit() else '%s.%s' % (value, mangled(field))
        return value

    def application(self, e, names):
        if e[1] == ('name', 'codes') and 'codes' not in names:
            if len(e[2]) != 1 or e[2][0][0] != 'text':
                self.fail('`codes` of something else than a text')
            return repr(tuple(e[2][0][1].encode()))
        if e[1][0] == 'name':
            return self.apply(e[1][1], e[2], names)
        return applied(self.expression(e[1], names), [self.expression(argument, names) for argument in e[2]])

    def apply(self, name, arguments, names):
        first, _, rest = name.partition('.')
        if first in names:
            return applied(self.fields(names[first], rest.split('.') if rest else []), [self.expression(a, names) for a in arguments])
        meaning = self.meaning(name)
        form = meaning[0]
        if form == 'type':
            return 'None'
        if form == 'node':
            return self.node_function(meaning[1], arguments, names)
        if meaning == ('standard', 'pointwise') and len(arguments) == 3 and self.is_number_test(arguments[0], names):
            return '(%s == %s)' % (self.expression(arguments[1], names), self.expression(arguments[2], names))
        given = [self.expression(argument, names) for argument in arguments]
        if form == 'value':
            return self.fail('`%s` takes no arguments' % name) if given else meaning[1]
        if form == 'standard':
            arity, python = STANDARD[meaning[1]]
            return self.call(arity, given, lambda a: python.format(*a))
        if form == 'constructor':
            _, variant, arity, of_node = meaning
            return self.call(arity, given, lambda a: '(%s,)' % ', '.join([repr(variant)] + a) if a or of_node else repr(variant))
        if form == 'synonym':
            parameters, body = meaning[1].synonyms[meaning[2]]
            writer = Writer(self.translation, meaning[1], self.itself)
            return self.call(len(parameters), given, lambda a: writer.expression(body, dict(zip(parameters, a))))
        self.needs.add((meaning[1], meaning[2]))
        clauses = meaning[1].definitions[meaning[2]].clauses
        return self.call(len(clauses[0][0]), given, lambda a: '%s(%s)' % (flat_name(meaning[1], meaning[2]), ', '.join(a)))

    def is_number_test(self, argument, names):
        return argument[0] == 'name' and argument[1] not in names and self.meaning(argument[1]) == ('standard', 'nat_eq')

    def node_function(self, name, arguments, names):
        """`fold-Node`, `map-Node`, `out-Node` and `roll-Node`; types come first"""
        if name == 'fold-Node':
            if len(arguments) < 2:
                self.fail('`fold-Node` without its step')
            step = self.expression(arguments[1], names)
            uses_names = any(re.search(r'\b%s\b' % re.escape(name), step) for name in names.values())
            fold = 'fold_node(%s)' % step if uses_names else 'folds(%r, lambda: %s)' % (step, step)
            return applied(fold, [self.expression(argument, names) for argument in arguments[2:]])
        if name == 'map-Node':
            return self.call(2, [self.expression(argument, names) for argument in arguments[2:]], lambda a: 'map_node(%s, %s)' % tuple(a))
        return self.call(1, [self.expression(argument, names) for argument in arguments], lambda a: a[0])

    # --- patterns: conditions, and what names stand for
    def pattern(self, p, subject, conditions, bound, module=None):
        module = module or self.module
        if p[0] == 'number':
            conditions.append('%s == %d' % (subject, p[1]))
        elif p[0] == 'tuple':
            for i, part in enumerate(p[1]):
                self.pattern(part, '%s[%d]' % (subject, i), conditions, bound, module)
        elif p[0] == 'operator' and p[1] == '∷':
            self.list_pattern(p, subject, conditions, bound, module)
        elif p[0] == 'name' or p[0] == 'application' and p[1][0] == 'name':
            name, arguments = (p[1], []) if p[0] == 'name' else (p[1][1], p[2])
            if name != '_':
                self.named_pattern(name, arguments, subject, conditions, bound, module)
        elif p[0] == 'given':
            self.pattern(p[1], subject, conditions, bound)
        else:
            self.fail('a pattern of the form %s' % p[0])

    def list_pattern(self, p, subject, conditions, bound, module):
        heads = []
        while p[0] == 'operator' and p[1] == '∷':
            heads.append(p[2])
            p = p[3]
        is_closed = p == ('name', '[]')
        conditions.append('len(%s) %s %d' % (subject, '==' if is_closed else '>=', len(heads)))
        for i, head in enumerate(heads):
            self.pattern(head, '%s[%d]' % (subject, i), conditions, bound, module)
        if not is_closed:
            self.pattern(p, '%s[%d:]' % (subject, len(heads)), conditions, bound, module)

    def is_known(self, name, module):
        """the name may be more than a variable"""
        return name == '[]' or '.' in name or name in module.imports and module.imports[name][1] or name in module.data \
            or name in module.synonyms or name[0].isupper()

    def named_pattern(self, name, arguments, subject, conditions, bound, module):
        meaning = self.meaning(name, module) if self.is_known(name, module) else None
        if meaning is None or meaning[0] in ('definition', 'node') or meaning[0] == 'standard' and name not in ('Some', 'suc', 'Ok', 'Err'):
            if arguments or '.' in name:
                self.fail('a pattern with `%s`' % name)
            if name in bound:
                self.fail('`%s` twice in a pattern' % name)
            bound[name] = subject
        elif meaning[0] == 'value':
            conditions.append(VALUE_TESTS[meaning[1]] % subject)
        elif meaning[0] == 'standard' and name in ('Ok', 'Err'):
            conditions.append('%s[0] == %r' % (subject, name))
            self.pattern(arguments[0], '%s[1]' % subject, conditions, bound, module)
        elif meaning[0] == 'standard':
            conditions.append('%s is not None' % subject if name == 'Some' else '%s > 0' % subject)
            self.pattern(arguments[0], '%s[0]' % subject if name == 'Some' else '(%s - 1)' % subject, conditions, bound, module)
        elif meaning[0] == 'constructor':
            _, variant, arity, of_node = meaning
            if len(arguments) != arity:
                self.fail('`%s` takes %d arguments' % (name, arity))
            conditions.append('%s[0] == %r' % (subject, variant) if of_node or arguments else '%s == %r' % (subject, variant))
            for i, argument in enumerate(arguments):
                self.pattern(argument, '%s[%d]' % (subject, i + 1), conditions, bound, module)
        elif meaning[0] == 'synonym':
            parameters, body = meaning[1].synonyms[meaning[2]]
            if len(arguments) != len(parameters):
                self.fail('`%s` takes %d arguments' % (name, len(parameters)))
            self.pattern(replaced(body, dict(zip(parameters, arguments))), subject, conditions, bound, meaning[1])
        else:
            self.fail('a pattern with `%s`' % name)

    # --- whole definitions
    def definition(self):
        name = flat_name(self.module, self.itself.name)
        return self.table(name) or self.clauses(name)

    def table(self, name):
        """a dictionary, for a definition of one argument, a variant without arguments each time"""
        clauses = self.itself.clauses
        if len(clauses[0][0]) != 1 or len(clauses) < FEWEST_ROWS:
            return None
        rows, rest = [], None
        for patterns, expression, line in clauses:
            self.where = '%s:%d' % (self.module.shown, line)
            conditions, bound = [], {}
            self.pattern(patterns[0], 'K', conditions, bound)
            row = re.match(r"K == ('\w+')$", conditions[0]) if len(conditions) == 1 else None
            if row and not bound:
                rows.append((row.group(1), self.expression(expression, {})))
            elif not conditions and patterns[0][0] == 'name':
                rest = self.expression(expression, {patterns[0][1]: '@'})
                if '@' in rest:                           # it uses its argument
                    return None
                break
            else:
                return None
        lines = ['def %s(a0):' % name, '    t = %s.table' % name, '    if t is None:']
        lines.append('        t = %s.table = {%s}' % (name, ', '.join('%s: %s' % row for row in dict(reversed(rows)).items())))
        return '\n'.join(lines + ['    return t.get(a0, %s)' % rest if rest else '    return t[a0]', '%s.table = None' % name])

    def clauses(self, name):
        arguments = ['a%d' % i for i in range(len(self.itself.clauses[0][0]))]
        lines = ['def %s(%s):   # %s:%d' % (name, ', '.join(arguments), self.module.shown, self.itself.line)]
        for patterns, expression, line in self.itself.clauses:
            self.where = '%s:%d' % (self.module.shown, line)
            conditions, bound = [], {}
            for pattern, argument in zip(patterns, arguments):
                self.pattern(pattern, argument, conditions, bound)
            names = {name: local(name) for name in bound}
            body = ['%s = %s' % (names[name], subject) for name, subject in bound.items()] + ['return ' + self.expression(expression, names)]
            if not conditions:
                return '\n'.join(lines + ['    ' + content for content in body])
            lines.append('    if %s:' % ' and '.join(conditions))
            lines += ['        ' + content for content in body]
        return '\n'.join(lines + ['    no_clause(%r)' % name])


def replaced(e, by):
    """the body of a pattern abbreviation, with patterns of the place where it is used for its parameters"""
    if e[0] == 'name' and e[1] in by:
        return ('given', by[e[1]])
    if e[0] == 'application':
        return ('application', e[1], [replaced(argument, by) for argument in e[2]])
    if e[0] == 'operator':
        return ('operator', e[1], replaced(e[2], by), replaced(e[3], by))
    return e
