"""writable_rows.py CHECKOUT: what "can be written down" asks and what it does not, one row for each line of the table in docs/DEFINITIONS.md.

Each row is a program, as a text or, where no text gives it, as a tree; `m` is a module, `s` a script, `ms` both.
"""
import sys

import js
import scoping
from lawbook import D, fits_place, load
from trees import ABSENT, SPAN, at, put

# what is asked: none of these can be written down
ASKED = [
    # names and labels
    ('m', 'let = 1;'), ('m', 'var static, package;'), ('m', 'let: ;'), ('m', 'import { if } from "m";'),
    # what strict code binds
    ('m', 'var eval;'), ('m', '(function eval() {});'), ('m', 'import arguments from "m";'), ('ms', 'class eval {}'), ('ms', 'function f(eval) { "use strict"; }'),
    ('s', '(eval) => { "use strict"; };'), ('s', '({ set a(eval) { "use strict"; } });'), ('s', 'function f() { "use strict"; function eval() {} }'),
    ('s', 'class a extends (function eval() {}) {}'), ('m', 'try {} catch ({ arguments }) {}'),
    # targets and patterns
    ('ms', '(f()) = 1;'), ('ms', '({ a }) = 1;'), ('ms', '[a] += 1;'), ('ms', 'a?.b++;'), ('ms', 'f()++;'), ('ms', 'this++;'), ('ms', '[(a = 1)] = b;'), ('ms', '[({ a })] = b;'),
    ('ms', '({ a: b() } = c);'), ('ms', 'for (f() of a) ;'), ('ms', '[...a, b] = c;'), ('ms', 'let [...a, b] = c;'), ('ms', '[...a = 1] = b;'), ('ms', 'function f(...a, b) {}'),
    # declarations
    ('ms', 'const a;'), ('ms', 'let [a];'), ('ms', 'for (const a;;) ;'), ('ms', 'for (let a = 1 of b) ;'), ('ms', 'for (var a, b of c) ;'), ('m', 'for (var a = 1 in b) ;'),
    ('s', 'using a = b;'), ('ms', '{ using a; }'), ('m', 'export using a = b;'), ('ms', 'switch (a) { case 0: using b = c; }'), ('ms', 'for (using a in b) ;'),
    # statements
    ('ms', 'while (a) function f() {}'), ('ms', 'while (a) let b;'), ('ms', 'if (a) class b {}'), ('s', 'if (a) function* f() {}'), ('m', 'if (a) function f() {}'),
    ('m', 'a: function f() {}'), ('ms', 'a: class b {}'),
    # private names, classes, exports
    ('ms', '#a;'), ('ms', '#a + b;'), ('ms', 'a in #b;'), ('ms', 'class a { get b(c) {} }'), ('ms', 'class a { get #b(c) {} }'), ('ms', 'class a { set b() {} }'), ('ms', 'class a { set b(c, d) {} }'),
    ('ms', 'class a { set b(...c) {} }'), ('m', 'export { "a" };'), ('m', 'export { if };')]
# what is asked though a parser takes it
MORE = [
    ('s', 'let = 1;'), ('s', 'var yield;'), ('s', 'var await;'), ('s', 'static;'), ('s', 'let: ;'), ('s', 'var static, package;'), ('s', 'for (var a = 1 in b) ;'), ('ms', '("a");'),
    ('ms', 'if (a) ("b");'), ('ms', 'function f() { ("use strict"); }')]
# what is not asked, though it is an early error or no production: each of these passes
NOT_ASKED = [
    ('ms', 'eval = 1;'), ('ms', '[arguments] = a;'), ('ms', 'eval++;'), ('s', 'function eval() { "use strict"; }'), ('s', '(function eval() { "use strict"; });'), ('ms', 'with (a) b;'),
    ('s', '"use strict"; with (a) b;'), ('ms', 'delete a;'), ('ms', '08;'), ('ms', '"\\08";'), ('ms', 'function f(a = 1) { "use strict"; }'),
    ('ms', 'let { ...{ a } } = b;'), ('ms', '({ ...[a] } = b);'), ('ms', 'try {}'), ('ms', 'switch (a) { default: default: }'), ('s', 'while (a) b: function f() {}'), ('s', 'if (a) b: function f() {}'),
    ('ms', 'return;'), ('ms', 'break;'), ('ms', 'continue;'), ('ms', 'break a;'), ('ms', 'a: { continue a; }'), ('ms', 'a: a: ;'), ('ms', 'class a { static { return; } }'),
    ('ms', 'function f() { await a; }'), ('ms', 'function f() { yield a; }'), ('ms', 'function* f(a = yield) {}'), ('ms', 'for await (a of b) ;'), ('ms', 'super.a;'), ('ms', 'super();'),
    ('ms', 'new.target;'), ('s', 'import.meta;'), ('ms', 'class a { b = arguments; }'), ('ms', 'class a { static { await b; } }'), ('ms', 'function f() { await using a = b; }'),
    ('ms', 'function* f() { yield*; }'), ('ms', 'import();'), ('ms', 'import(...a);'), ('ms', 'import(a, b, c);'), ('ms', '`\\u`;'), ('ms', '({ __proto__: a, __proto__: b });'), ('ms', '/(/gg;'),
    ('ms', 'a.#b;'), ('ms', 'class a { #b; #b; }'), ('ms', 'class a { #constructor; }'), ('ms', 'class a { b() { delete this.#c; } }'),
    ('ms', 'class a { constructor() {} constructor() {} }'), ('ms', 'class a { get constructor() {} }'), ('ms', 'class a { constructor; }'), ('ms', 'class a { static prototype; }'),
    ('ms', 'class a { constructor() { super(); } }'), ('m', 'export { a as b, a as b }; var a;'), ('m', 'export default 1; export default 2;'),
    ('m', 'import a from "m" with { b: "c", b: "d" };'), ('ms', 'let a; let a;'), ('m', 'export { a };'),
    # these only want parentheses
    ('ms', 'a ?? b || c;'), ('ms', '-a ** b;'), ('ms', 'new a?.b();')]
# programs that a parser takes too
RIGHT = [
    ('ms', '(a?.b).c = 1; [(a.b)] = c; [((a))] = c; ({ a: (b) = 1, ...(d.e) } = c); [...(a)] = b; for ((a.b) in c) ; (a)++; delete (a.b); for (a().b of c) ;'),
    ('ms', 'class A extends (B, C) { a() { super.x++; super[b] = 1; } constructor() { super(); } static static() {} get get() {} set set(a) {} static async *b() {} 1n() {} static = 1; "c"; }'),
    ('ms', 'class A { #a = 1; static #b; get #c() {} set #c(d) {} static { this.#b; } e = this.#a; [f]; async *#i() {} k() { return (#a in b) in c; } } (class extends null {});'),
    ('ms', '({ async: 1, get: 2, eval, arguments, async() {}, get get() {}, set set(a) {}, 1: a, "b": c, [d]: e, ...f, if: 1, __proto__: a }); var b = { yield: 1, let: 2 };'),
    ('ms', 'try {} finally {} switch (a) { case b: c; break; default: let d; } do ; while (a); try {} catch {} try {} catch ({ a }) {} a`\\u`; a`b${c}`; /a/g;'),
    ('ms', 'async function* f() { for await (let a of b) yield* c; for await (d of e) await f; yield; } a?.[0]?.b(); new (a?.b)(); (a?.b)`c`; a?.(b)?.c;'),
    ('ms', 'for ([a] of b) ; for ({ a: b.c } in d) ; for (const [a] = b;;) ; for (var a in b, c) ; for (let a, b = 1;;) ; for (of of of) ; l: for (;;) { for (;;) continue l; }'),
    ('ms', '(async) => 1; async (async) => 1; async a => await a; (a, b = 1, [c], { d }, ...e) => ({}); (...[a]) => a; async: for (;;) continue async; a ||= b; a.b ??= c;'),
    ('m', 'import c, {} from "d"; import k, * as l from "m"; import { default as n, p as q, "r s" as t } from "o" with { type: "json" }; export {}; export { default as b, "v w" as "x y" } from "a";'),
    ('m', 'export let a, b = c; export const { d, e: [f] } = g; export default async () => {}; for (await using a of b) ; await using h = d; using i = f, j = g; export { a as default };'),
    ('s', 'if (a) function f() {} else function g() {} a: b: function h() {} with (a) { b; } delete c; eval = 1; var d = 08;')]
# what early errors of names ask beside it: whether the program has one
NAMES = [
    ('ms', 'let a; var a;', True), ('m', 'export { a };', True), ('s', 'function eval() {}', True), ('s', 'try {} catch (a) { var a; }', True), ('s', '{ function f() {} } { function f() {} }', True),
    ('s', '{ function f() {} function f() {} }', False), ('s', 'function f(a, a) {}', False), ('s', 'function f(a, a = 1) {}', False), ('m', 'function f(a, a) {}', True), ('ms', '(a, a) => b;', True)]


def read(goal, text):
    return js.module(text) if goal == 'm' else js.script(text)


def text(string):
    return ('Text', js.codes(string))


def list_of(*items):
    return ('List', items)


def tree(kind, *fields):
    return ('Tree', kind, fields)


def name(string, kind='Ident'):
    return ('Identifier', kind, js.REC(span=SPAN[1], ctxt=(), sym=js.codes(string)))


def module(*items):
    return tree('Module', SPAN, list_of(*items), ABSENT)


def expression(e):
    return module(tree('ExprStmt', SPAN, e))


def importing(*specifiers):
    return put(js.module('import a from "m";'), (1, 0, 1), list_of(*specifiers))


def trees():
    """(what, tree, whether it can be written down) of those that no text gives"""
    default, star = (lambda a: tree('ImportDefaultSpecifier', SPAN, name(a))), (lambda a: tree('ImportStarAsSpecifier', SPAN, name(a)))
    for word in ('Var', 'Let', 'Const'):
        yield 'nothing declared', module(tree('VarDecl', SPAN, ('Word', word), list_of())), True
    yield 'nothing used', module(tree('UsingDecl', SPAN, ('Flag', False), list_of())), True
    yield 'two default imports', importing(default('a'), default('b')), True
    yield 'a default behind a namespace', importing(star('a'), default('b')), True
    yield 'an imported name', importing(tree('ImportNamedSpecifier', SPAN, name('a'), name('a b'))), True
    yield 'a name', expression(name('a b')), False
    yield 'a key', expression(tree('MemberExpr', SPAN, name('a'), tree('IdentName', SPAN, text('a b')))), True
    yield 'a private name', expression(tree('MemberExpr', SPAN, name('a'), tree('PrivateName', SPAN, text('a b')))), True
    yield 'a number', expression(tree('Number', SPAN, text('a'))), True
    yield 'a sequence of one', expression(tree('SeqExpr', SPAN, list_of(name('a')))), False
    yield 'a template of few texts', expression(tree('Tpl', SPAN, list_of(), list_of())), False
    yield 'a chain that goes on from none', expression(tree('OptChainExpr', SPAN, ('Flag', False), tree('MemberExpr', SPAN, name('a'), tree('IdentName', SPAN, text('b'))))), False
    yield 'an expression declared', module(tree('VarDecl', SPAN, ('Word', 'Let'), list_of(tree('VarDeclarator', SPAN, name('a'), ABSENT)))), False
    yield 'a pattern used', module(tree('UsingDecl', SPAN, ('Flag', False), list_of(tree('VarDeclarator', SPAN, tree('ArrayPat', SPAN, list_of()), name('a'))))), False
    t = js.module('class a { constructor() {} }')
    key = (1, 0, 1, 2, 0, 1)
    assert at(t, key)[1] == 'IdentName', at(t, key)
    yield 'a constructor of another key', put(t, key, tree('IdentName', SPAN, text('b'))), False
    t = js.module('class a { get b() {} }')
    function = (1, 0, 1, 2, 0, 2)
    yield 'a getter that is a generator', put(t, function + (3,), ('Flag', True)), True


def faults():
    for rows, wanted in ((ASKED, False), (MORE, False), (NOT_ASKED, True), (RIGHT, True)):
        for goals, source in rows:
            for goal in goals:
                t = read(goal, source)
                if not fits_place(t):
                    yield goal, source, 'does not fit'
                if D.grammar.Writable.is_writable(t) != wanted:
                    yield goal, source, 'can be written down' if not wanted else 'can not be written down'
    for what, t, wanted in trees():
        if not fits_place(t) or D.grammar.Writable.is_writable(t) != wanted:
            yield 'tree', what, 'does not fit' if not fits_place(t) else 'is otherwise'
    for goals, source, wanted in NAMES:
        for goal in goals:
            if bool(scoping.faults(scoping.NO_EARLY_ERROR, D.all, read(goal, source))) != wanted:
                yield goal, source, 'early error of names'


def main():
    load(sys.argv[1])
    found = list(faults())
    for row in found:
        print(*row)
    count = sum(len(goals) for goals, *_ in ASKED + MORE + NOT_ASKED + RIGHT + NAMES) + len(list(trees()))
    print('%d rows, %s' % (count, 'all as the table says' if not found else '%d otherwise' % len(found)))
    return 1 if found else 0


if __name__ == '__main__':
    sys.exit(main())
