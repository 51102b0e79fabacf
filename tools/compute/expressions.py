"""Programs of one expression in one place: each operator in each other, on either side, in the heads of `for`, in arrows,
at the start of statements. Random trees seldom have such a nest, and of pairs of parentheses it decides all."""
import js

LEAVES = ['a', 'b', '{}', 'function(){}', 'class{}', 'let', '1', 'true', '/x/', 'this', '[]', 'async']
OPERATIONS = 4 * ['%s in %s'] + 3 * ['x => %s'] + [
    '{a} = %s', '[a] = %s', 'a = %s', '%s + %s', '%s ?? %s', '%s || %s', '%s ** %s', '%s && %s', '%s == %s', '%s.p', '%s[%s]',
    '%s(%s)', 'new %s', 'new %s()', '%s?.p', '%s?.(%s)', '%s?.[%s]', '%s?.p.q', '%s?.p()', '%s?.p[%s]', '%s, %s', '%s ? %s : %s',
    '%s`${%s}`', 'void %s', 'delete %s', '-%s', 'typeof %s', '!%s', '{a: %s}', 'let[%s]', 'let[%s] = %s', '%s.p++', '%s.p = %s']
PLACES = 2 * ['for (%s;;);'] + [
    'for (var x = %s;;);', '%s;', 'for (var x of %s);', 'for (%s.p of y);', 'for (%s.p in y);', 'for (%s.p;;);',
    'for (let x = %s, y = 1;;);', 'for (async of %s);', 'class A extends %s {}', 'export default %s;']
DEEPEST = 5


def filled(random, text, depth):
    """a text with an expression, grouped but without a pair, in each place that it has"""
    return text % tuple('«%s»' % expression(random, depth) for _ in range(text.count('%s')))


def expression(random, depth):
    if depth <= 0:
        return random.pick(LEAVES)
    return filled(random, random.pick(OPERATIONS), depth - random.pick([1, 1, 2]))


def expressions(random, size):
    """a module, or a script where the text is none, of some operations; None where it is neither"""
    text = filled(random, random.pick(PLACES), 1 + size % DEEPEST)
    for read in (js.module, js.script):
        try:
            return read(text)
        except SyntaxError:
            continue
    return None
