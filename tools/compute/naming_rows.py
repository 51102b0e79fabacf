"""naming_rows.py CHECKOUT: worked rows of naming: a text, a renamer, and the text with its names given anew.

Each row is computed by the definitions: the map that is `Named`, the substitution, and for hygiene the empty contexts.
"""
import sys

import js
import naming
from lawbook import D, load
from naming import Renaming, hygiene, numbered, outer_count
from substitution_laws import changes_of, substituted
from trees import with_identifiers

ID_A, ID_B = (js.codes('a'), (1,)), (js.codes('b'), (1,))
FLAT, KEEPS = dict(), dict(keeps=True)
CHAINED = dict(counts=outer_count)
NORMAL = numbered(mangles=False, resets=True)
HYGIENE, NUMBERED = hygiene(), numbered()


def renamed(t, r, keeps=False, counts=naming.all_count):
    """the tree with its names given anew; an empty map leaves it as it is"""
    new_texts = naming.named(D.all, t, r, counts)
    return substituted(changes_of({x: (text, ()) for x, text in new_texts.items()}), t, keeps) if new_texts else t


def cleared(t):
    return with_identifiers(lambda i: (i.sym, ()), t)


def with_hygiene(t, keeps=False):
    return cleared(renamed(t, HYGIENE, keeps))


# text, renamer, options, what is wanted
ROWS = [
    ('var foo#1 = 1; var foo#2 = 2; use(foo#1);', HYGIENE, FLAT, 'var foo = 1; var foo1 = 2; use(foo);'),
    ('var foo#1 = 1; { let foo#2 = 2; use(foo#2); } use(foo#1);', HYGIENE, FLAT, 'var foo = 1; { let foo = 2; use(foo); } use(foo);'),
    ('var b#1 = 1; var b1#3 = 2; { const b#2 = 3; const b1#4 = 4; { b1#3 = b#2 + b#1 + b1#4 + b1#3; } }', HYGIENE, FLAT,
     'var b = 1; var b1 = 2; { const b2 = 3; const b11 = 4; { b1 = b2 + b + b11 + b1; } }'),
    ("function Foo(force#1) { _define_property(this, 'force', force#2); }", HYGIENE, FLAT,
     "function Foo(force1) { _define_property(this, 'force', force); }"),
    ('function foo(e#1) { e#2: { try {} catch (e#3) { o = null; break e#2; } } }', HYGIENE, FLAT,
     'function foo(e1) { e: { try {} catch (e1) { o = null; break e; } } }'),
    ('let a#2; export var a#1 = 1, b#1 = 2;', HYGIENE, FLAT, 'let a; var a1 = 1, b = 2; export { a1 as a, b };'),
    ('let __proto__#1; let __proto__#2; use({ __proto__#2 });', HYGIENE, FLAT, 'let __proto__; let __proto__1; use({ ["__proto__"]: __proto__1 });'),
    ('class Foo#1 { method() { class Foo#2 {} new Foo#1(); } }', HYGIENE, KEEPS, 'let Foo = class Foo { method() { let Foo1 = class Foo {}; new Foo(); } };'),
    ('var b#1; var b#2; b1#9;', HYGIENE, FLAT, 'var b; var b2; b1;'),
    ('var b#1, b#2, b#3;', HYGIENE, FLAT, 'var b, b1, b2;'),
    ('let a#1; { let b#2; a#1; } { let c#3; }', NUMBERED, FLAT, 'let v0; { let v1; v0; } { let v0; }'),
    ('let a#1, b#1;', NUMBERED, FLAT, 'let v0, v1;'),
    ('let a#1; v0#9;', NUMBERED, FLAT, 'let v1; v0#9;'),
    ('let a#1; let b#1;', numbered(False, True, [ID_A]), FLAT, 'let a#1; let v0;'),
    ('{ let a#1; } { let b#2; a#1; }', NUMBERED, CHAINED, '{ let v0; } { let v0; v0; }'),
    ('{ let a#1; } { let b#2; a#1; }', NUMBERED, FLAT, '{ let v0; } { let v1; v0; }'),
    # the four settings of the flags
    ('let a#1, b#1; { let c#1; }', numbered(True, False), FLAT, 'let v0, v1; { let v0; }'),
    ('let a#1, b#1; { let c#1; }', numbered(True, True), FLAT, 'let v0, v1; { let v0; }'),
    ('let a#1, b#1; { let c#1; }', numbered(False, False), FLAT, 'let v0, v1; { let v0; }'),
    ('let a#1, b#1; { let c#1; }', NORMAL, FLAT, 'let v0, v1; { let v0; }'),
    ('let x#1; { let a#1, b#1; x#1; { a#1; } }', Renaming(lambda x, n: js.codes('v%d' % (n // 2)) + x[0], False, False), FLAT,
     'let v0x; { let v0a, v0b; v0x; { v0a; } }'),
    # ids that are left alone
    ('let a#1; let b#1;', numbered(False, True, [ID_A, ID_B]), FLAT, 'let a#1; let b#1;'),
    ('var arguments#1; var eval#1; var a#1; arguments#1; eval#1;', NUMBERED, FLAT, 'var arguments#1; var eval#1; var v0; arguments#1; eval#1;'),
    # order, and where ids are declared and occur
    ('try {} catch ({ a = (x#1) => x#1 }) { (x#2) => x#1; }', HYGIENE, FLAT, 'try {} catch ({ a = (x) => x }) { (x) => x; }'),
    ('export default function f#2(a#3, ...f#3) {}', HYGIENE, FLAT, 'export default function f(a, ...f1) {}'),
    ('function f#2(a#3, f#3) {}', HYGIENE, FLAT, 'function f(a, f) {}'),
    ('{ var a#1; } let a#2; { function a#3() {} }', HYGIENE, FLAT, '{ var a; } let a1; { function a2() {} }'),
    ('for (let a#1; a#1;) { let a#2; a#2; }', HYGIENE, FLAT, 'for (let a; a;) { let a; a; }'),
    ('switch (a#1) { case 0: let a#2; } var a#1;', HYGIENE, FLAT, 'switch (a1) { case 0: let a; } var a1;'),
    ('(class a#1 { m() { a#1; } }); (class a#2 extends a#1 {});', HYGIENE, FLAT, '(class a { m() { a; } }); (class a1 extends a {});'),
    ('(class a#1 { constructor() { let b#1; } }); var b#2;', HYGIENE, FLAT, '(class a { constructor() { let b; } }); var b;'),
    ('export default class a#1 { m(a#2) { a#1; } }', HYGIENE, FLAT, 'export default class a { m(a1) { a; } }'),
    ('export default class a#1 {} let a#2;', HYGIENE, FLAT, 'export default class a {} let a1;'),
    ('for (let a#1;;) switch (b#1) { case 0: let a#2; }', HYGIENE, FLAT, 'for (let a;;) switch (b) { case 0: let a; }'),
    ('for (let a#1 in b#1) switch (b#1) { case 0: let a#2; }', HYGIENE, FLAT, 'for (let a in b) switch (b) { case 0: let a; }'),
    ('for (let a#1 of b#1) switch (b#1) { case 0: let a#2; }', HYGIENE, FLAT, 'for (let a of b) switch (b) { case 0: let a; }'),
    ('var a#1; for (;;) switch (a#1) { case 0: let a#2; }', HYGIENE, FLAT, 'var a; for (;;) switch (a) { case 0: let a1; }'),
    ('var x#1; ({ get [x#1]() { var x#2; } });', HYGIENE, FLAT, 'var x; ({ get [x]() { var x; } });'),
    ('var x#1; ({ set [x#1](x#2) {} });', HYGIENE, FLAT, 'var x; ({ set [x](x) {} });'),
    ('({ get [(a#1) => 1]() { var a#2; a#1; } });', HYGIENE, FLAT, '({ get [(a) => 1]() { var a1; a; } });'),
    ('import { a#1 } from "m"; var a#2; export { a#1 };', HYGIENE, FLAT, 'import { a } from "m"; var a1; export { a };'),
    ('import { a#2 } from "m"; let a#1; { a#2; }', numbered(True, False), FLAT, 'import { a as v0 } from "m"; let v1; { v0; }'),
    ('var a#1; export { a#2 };', HYGIENE, FLAT, 'var a; export { a };'),
    ('var a#1; a#2;', HYGIENE, FLAT, 'var a1; a;'),
    ('var a#1; a;', HYGIENE, FLAT, 'var a; a;'),
    # texts written out, inner scopes of functions and classes, and ids that are left alone
    ('function f#2(a#3 = 1, f#3) {}', HYGIENE, FLAT, 'function f(a = 1, f1) {}'),
    ('(function f#2(a#3, ...f#4) {});', HYGIENE, FLAT, '(function f(a, ...f1) {});'),
    ('import { a#1 } from "m"; import { a#2 } from "n"; a#2;', HYGIENE, FLAT, 'import { a } from "m"; import { a as a1 } from "n"; a1;'),
    ('let a; { let a#1; { let a#2; a; a#1; a#2; } }', HYGIENE, FLAT, 'let a; { let a1; { let a2; a; a1; a2; } }'),
    ('(a#1) => { a#1; (a#2) => a#1 + a#2; };', HYGIENE, FLAT, '(a) => { a; (a1) => a + a1; };'),
    ('let a#1; a#2: for (;;) break a#2;', HYGIENE, FLAT, 'let a1; a: for (;;) break a;'),
    ('let a#1; let a#2; use({ a#1, a#2 });', HYGIENE, FLAT, 'let a; let a1; use({ a, a: a1 });'),
    ('let a#1; let b#2, a#2; ({ a#2 = a#1, b#2 } = {});', HYGIENE, FLAT, 'let a; let b, a1; ({ a: a1 = a, b } = {});'),
    ('class A#1 {} class A#2 extends A#1 {}', HYGIENE, FLAT, 'class A {} class A1 extends A {}'),
    ('class A#1 { static { let A#2; A#1; } }', HYGIENE, FLAT, 'class A { static { let A1; A; } }'),
    ('class A#1 { [x#1] = x#1; #x = A#1; } let x#1, x#2;', HYGIENE, FLAT, 'class A { [x] = x; #x = A; } let x, x1;'),
]


def faults(rows, made):
    """the rows that come out otherwise; `made` is what a renamer makes of a tree"""
    for text, r, options, wanted in rows:
        options = dict(options)
        read = options.pop('read', js.module)
        answer = made(read(text), r, **options)
        if r is HYGIENE:
            answer = cleared(answer)
        if js.text(answer) != js.text(read(wanted)):
            yield '%s\n    becomes %s\n    wanted  %s' % (text, js.text(answer), wanted)


def tried(words, usage, rows, made):
    """tries the rows by the definitions of the checkout that the words name; the status of the program"""
    if len(words) != 1:
        print(usage)
        return 2
    load(words[0])
    found = list(faults(rows, made))
    print('\n'.join(found + ['%d rows, %d come out otherwise' % (len(rows), len(found))]))
    return 1 if found else 0


if __name__ == '__main__':
    sys.exit(tried(sys.argv[1:], __doc__, ROWS, renamed))
