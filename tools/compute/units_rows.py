"""units_rows.py CHECKOUT: worked rows of naming where something reads names: a text, a renamer, a top mark, and the text with
its names given anew.

Each row is computed by the definitions: the top map, the maps of the outermost units, the substitutions, and for hygiene
the empty contexts. The marks 1, 2 and 3 are below the root, 4 and 5 below 1; others are not known.
"""
import sys

import js
import units
from lawbook import D
from naming import numbered
from naming_rows import HYGIENE, tried

TABLE = ((1, 0), (2, 0), (3, 0), (4, 1), (5, 1))
MANGLED = numbered()
PLAIN, ROOT, KEEPS, KEEPS_AT_ROOT = dict(), dict(top=0), dict(keeps=True), dict(keeps=True, top=0)
IGNORES, SCRIPT = dict(ignore_eval=True), dict(read=js.script)


def renamed(t, r, top=1, keeps=False, ignore_eval=False):
    return units.renamed_by_units(D.all, t, r, units.Marks(TABLE, top), keeps, ignore_eval)


# text, renamer, options, what is wanted
ROWS = [
    ('let a#1; let a#3; (eval)("a");', HYGIENE, PLAIN, 'let a; let a1; (eval)("a");'),
    ('eval("x"); function f#1(b#4, b#5) { return b#5; }', HYGIENE, PLAIN, 'eval("x"); function f(b, b1) { return b1; }'),
    ('eval("x"); function f#1(b#4, b#5) { eval("b"); return b#5; }', HYGIENE, PLAIN, 'eval("x"); function f(b, b) { eval("b"); return b; }'),
    ('let a#4; let a#5; eval("a");', HYGIENE, PLAIN, 'let a; let a; eval("a");'),
    ('let a#4; let a#5; eval("a");', HYGIENE, IGNORES, 'let a; let a1; eval("a");'),
    ('let a#4; let a#5; eval?.("a");', HYGIENE, PLAIN, 'let a; let a1; eval?.("a");'),
    ('let a#4; let a#5; (0, eval)("a");', HYGIENE, PLAIN, 'let a; let a1; (0, eval)("a");'),
    ('eval("x"); function f#2(f#3) { f#2(); return f#3; }', HYGIENE, PLAIN, 'eval("x"); function f(f1) { f(); return f1; }'),
    ('eval(""); class A#1 { m(x#1) {} }', HYGIENE, KEEPS_AT_ROOT, 'eval(""); class A { m(x) {} }'),
    # what reads names
    ('let a#4; let a#5; ((eval#9))("a");', HYGIENE, PLAIN, 'let a; let a; ((eval))("a");'),
    ('let a#4; let a#5; eval#9();', HYGIENE, PLAIN, 'let a; let a; eval();'),
    ('let a#4; let a#5; new eval("a");', HYGIENE, PLAIN, 'let a; let a1; new eval("a");'),
    ('let a#4; let a#5; b.eval("a"); eval; eval`a`;', HYGIENE, PLAIN, 'let a; let a1; b.eval("a"); eval; eval`a`;'),
    ('let a#4; let a#5; () => eval(...a#4);', HYGIENE, PLAIN, 'let a; let a; () => eval(...a);'),
    ('with (o#2) { a#1; } function f#1(a#4, a#5) { a#5; }', HYGIENE, SCRIPT, 'with (o) { a; } function f(a1, a2) { a2; }'),
    ('function f#1(a#4, a#5) { with (a#4) a#5; } with (b) ;', HYGIENE, SCRIPT, 'function f(a, a) { with (a) a; } with (b) ;'),
    # marks
    ('eval(""); let a#3; let a#3.4; let a#4.3;', HYGIENE, PLAIN, 'eval(""); let a; let a; let a1;'),
    ('eval(""); let a#3; let a#9; let a; let a#1;', HYGIENE, PLAIN, 'eval(""); let a1; let a2; let a3; let a;'),
    ('eval(""); let a#3; let a#9; let a; let a#1;', HYGIENE, ROOT, 'eval(""); let a; let a; let a; let a;'),
    ('eval(""); let a; (a#4, a#5) => a#5;', HYGIENE, ROOT, 'eval(""); let a; (a1, a2) => a2;'),
    ('eval(""); let a; (a#4, a#5) => a#5;', HYGIENE, PLAIN, 'eval(""); let a; (a, a1) => a1;'),
    # which units are outermost
    ('function f#1(a#4, a#5) { eval(""); (b#4, b#5) => { (b#3) => b#5; }; }', HYGIENE, PLAIN,
     'function f(a, a) { eval(""); (b, b1) => { (b) => b1; }; }'),
    ('eval(""); (a#4) => { (a#5) => a#4; };', HYGIENE, PLAIN, 'eval(""); (a) => { (a1) => a; };'),
    ('export default function f#1(a#4, a#5) { (a#4, a#5) => a#5; } eval("");', HYGIENE, PLAIN,
     'export default function f(a, a) { (a, a1) => a1; } eval("");'),
    ('eval(""); export default (a#4, a#5) => a#5;', HYGIENE, PLAIN, 'eval(""); export default (a, a1) => a1;'),
    ('eval(""); export default (function(a#4, a#5) { a#5; });', HYGIENE, PLAIN, 'eval(""); export default (function(a, a1) { a1; });'),
    ('eval(""); export default class A#1 { m(x#4, x#5) { x#5; } }', HYGIENE, PLAIN, 'eval(""); export default class A { m(x, x1) { x1; } }'),
    ('eval(""); export function f#1(a#4, a#5) { a#5; }', HYGIENE, PLAIN, 'eval(""); export function f(a, a1) { a1; }'),
    ('eval(""); ({ [(a#4, a#5) => a#5](a#4, a#5) { a#5; } });', HYGIENE, PLAIN, 'eval(""); ({ [(a, a1) => a1](a, a1) { a1; } });'),
    ('({ [eval("")](a#4, a#5) { (a#4, a#5) => a#5; } });', HYGIENE, PLAIN, '({ [eval("")](a, a) { (a, a1) => a1; } });'),
    ('eval(""); ({ set s(a#4) { let a#5; }, get g() { let a#4; let a#5; } });', HYGIENE, PLAIN,
     'eval(""); ({ set s(a) { let a1; }, get g() { let a; let a1; } });'),
    ('eval(""); (class { constructor(a#4, a#5) { a#5; } #m(a#4, a#5) { a#5; } set s(a#4) { let a#5; } });', HYGIENE, PLAIN,
     'eval(""); (class { constructor(a, a1) { a1; } #m(a, a1) { a1; } set s(a) { let a1; } });'),
    ('eval(""); (class { static { let a#4; let a#5; } p = (a#4, a#5) => a#5; });', HYGIENE, PLAIN,
     'eval(""); (class { static { let a; let a; } p = (a, a1) => a1; });'),
    ('eval(""); class B#1 { static { let a#4; let a#5; } }', HYGIENE, PLAIN, 'eval(""); class B { static { let a; let a1; } }'),
    ('eval(""); (function f#4(f#5) { f#4; });', HYGIENE, PLAIN, 'eval(""); (function f(f1) { f; });'),
    # what no name may be in a unit, and what of a unit the top map names again
    ('eval(""); (a#4) => { a#2: for (;;) break a#2; };', HYGIENE, PLAIN, 'eval(""); (a1) => { a: for (;;) break a; };'),
    ('eval(""); let a#1; (a#4) => a#4;', HYGIENE, PLAIN, 'eval(""); let a; (a1) => a1;'),
    ('eval(""); let a#5; (a#4) => a#4;', HYGIENE, PLAIN, 'eval(""); let a; (a) => a;'),
    ('eval(""); let a#5; (a#4) => a#5;', HYGIENE, PLAIN, 'eval(""); let a; (a1) => a;'),
    ('let a#1; let a#3; eval(""); (a1#4) => a#3;', HYGIENE, PLAIN, 'let a; let a1; eval(""); (a1) => a1;'),
    ('eval(""); let b1#3; let b1; function f#1(b#4, b#5) { b#5; }', HYGIENE, PLAIN, 'eval(""); let b1; let b11; function f(b, b11) { b11; }'),
    ('eval(""); let a#1; export let a#3;', HYGIENE, PLAIN, 'eval(""); let a; let a1; export { a1 as a };'),
    # classes that keep their names
    ('eval(""); (a#4, a#5) => { class B#4 { m() { B#4; } } };', HYGIENE, KEEPS, 'eval(""); (a, a1) => { let B = class B { m() { B; } }; };'),
    ('eval(""); () => { class arguments#4 {} };', HYGIENE, KEEPS, 'eval(""); () => { class arguments {} };'),
    ('eval(""); class A#3 {} class B#1 {}', HYGIENE, KEEPS, 'eval(""); let A = class A {}; let B = class B {};'),
    ('eval(""); class A#3 { m(x#4, x#5) { class C#4 {} } }', HYGIENE, KEEPS,
     'eval(""); let A = class A { m(x, x1) { let C = class C {}; } };'),
    ('eval(""); class A#1 { m(A#4) { class C#4 { n() { A#1; } } } }', HYGIENE, KEEPS,
     'eval(""); class A { m(A1) { let C = class C { n() { A; } }; } }'),
    # where scopes beside one another may share names
    ('eval(""); let a#3; (b#4) => { { let c#4; } { let c#5; b#4; } };', MANGLED, PLAIN,
     'eval(""); let v0; (v0) => { { let v0; } { let v1; v0; } };'),
    ('eval(""); let a#1; (b#4) => { a#1; };', MANGLED, PLAIN, 'eval(""); let a#1; (v0) => { a#1; };'),
]


if __name__ == '__main__':
    sys.exit(tried(sys.argv[1:], __doc__, ROWS, renamed))
