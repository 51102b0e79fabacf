"""alpha_rows.py CHECKOUT: worked rows of two programs and what is said of them: by the relation, field by field, and by the judge; and rows of
programs whose literals are spelled otherwise, and what the judge says where no spelling counts.

Each row is worked out by hand; where one field alone fails, the field is needed.
"""
import sys

import alpha
import alpha_judge
import js
from lawbook import load

M, S = js.module, js.script
# two programs, the fields of the relation that fail, and the judge's word; a word in a list is that where names of the program's own
# scope are to keep their texts
ROWS = [
    # one field alone
    (M, 'a;', 'a; a;', ['shape'], 'shape'),
    (M, 'l: for (;;) break l;', 'm: for (;;) break m;', ['others'], 'name'),
    (M, 'a; (a) => {};', 'b; (a) => {};', ['free'], 'free'),
    (M, 'let a, b; a; b;', 'let a, b; a; a;', ['meanings'], 'split'),
    (M, 'try { throw 1; } catch (e) { var e = 2; } use(e);', 'try { throw 1; } catch (x) { var e = 2; } use(e);', ['writes'], 'caught'),
    # what a script gives its own names
    (S, 'var undefined; undefined;', 'var u; u;', ['free', 'meanings'], 'free'),
    (S, 'var undefined; undefined;', 'var u; undefined;', [], None),
    (M, 'var undefined; undefined;', 'var u; u;', [], None),
    (S, 'var NaN, Infinity; NaN; Infinity;', 'var a, b; NaN; Infinity;', [], None),
    # shorthands, exports and imports are written out
    (M, 'let a; ({ a });', 'let b; ({ a: b });', [], None),
    (M, 'let a; ({ a });', 'let b; ({ b });', ['shape'], 'shape'),
    (M, 'let a; ({ a } = {});', 'let b; ({ a: b } = {});', [], None),
    (M, 'export let a;', 'let b; export { b as a };', [], None),
    (M, 'export let a;', 'export let b;', ['others'], 'name'),
    (M, 'import { a } from "m"; a;', 'import { a as b } from "m"; b;', [], None),
    (M, 'import { a } from "m"; a;', 'import { b } from "m"; b;', ['others'], 'name'),
    (M, '(a); b;', 'a; (b);', [], None),
    # free names
    (M, 'a; { let a; }', 'b; { let a; }', ['free'], 'free'),
    (M, 'a; { let a; }', 'a; { let b; }', [], None),
    (M, 'a; { let b; }', 'a; { let a; }', [], None),
    (M, 'let a; b;', 'let b; b;', ['free', 'meanings'], 'free'),
    (M, 'let a; a;', 'let b; a;', ['free', 'meanings'], 'free'),
    (M, '(a) => a + b;', '(b) => b + b;', ['free', 'meanings'], 'free'),
    # one variable that becomes two, and two that become one
    (M, 'let a; { let b; a; b; }', 'let a; { let a; a; a; }', ['meanings'], 'split'),
    (M, 'let a; { let a; a; } a;', 'let a; { let b; b; } a;', [], None),
    (M, 'let a; { let b; a; b; } a;', 'let x; { let x; x; x; } x;', ['meanings'], 'split'),
    (M, 'var a, b; a; b;', 'var a, a; a; a;', ['meanings'], 'joined'),
    (S, 'function f(a, b) { a; b; }', 'function f(a, a) { a; a; }', ['meanings'], 'joined'),
    (M, 'function g(p = () => x) { var x; } let x;', 'function g(p = () => x) { var x1; } let x;', [], None),
    # functions in blocks of sloppy code
    (S, '{ function f() {} f; } f;', '{ function g() {} g; } g;', [], None),
    (S, '{ function f() {} f; } f;', '{ function g() {} g; } f;', ['free', 'meanings'], 'free'),
    # names of the program's own scope
    (M, 'let a; a;', 'let b; b;', [], ['top']),
    (M, 'let a; { let b; a; b; }', 'let a; { let c; a; c; }', [], [None]),
    (S, 'function f(a) { a; }', 'function f(b) { b; }', [], [None]),
    (S, 'function f(a) { a; }', 'function g(b) { b; }', [], ['top']),
    # names that are read as the program runs
    (M, 'let a; eval("a");', 'let b; eval("a");', [], 'reads'),
    (M, 'let a; eval("a");', 'let a; (eval("a"));', [], None),
    (S, 'var o, a; with (o) { a; }', 'var o, b; with (o) { b; }', [], 'reads'),
    (M, 'let a; (0, eval)("a");', 'let b; (0, eval)("a");', [], None),
    # a `var` that declares a catch parameter's name again
    (M, 'try {} catch (e) { var e = 2; } e;', 'try {} catch (e) { var e = 2; } e;', [], None),
    (M, 'let a; try {} catch (e) { var e = 2; }', 'let b; try {} catch (e) { var e = 2; }', [], 'caught'),
    (M, 'try {} catch (e) { e; }', 'try {} catch (x) { x; }', [], None),
]
# two programs and the judge's word where no spelling of literals counts; where it does the word is `shape`
SPELLED = [
    (M, 'f(16);', 'f(0x10);', None),
    (M, 'f(0b11, 0o17, 0XfF);', 'f(3, 15, 255);', None),
    (M, 'f(1000);', 'f(1e3);', None),
    (M, 'f(1_000);', 'f(1000.0);', None),
    (M, 'f(.5);', 'f(0.50);', None),
    (S, 'f(010);', 'f(8);', None),
    (M, 'f(0x10n);', 'f(16n);', None),
    (M, 'f(16n);', 'f(16);', 'shape'),
    (M, 'f(16);', 'f(17);', 'shape'),
    (M, 'f(9007199254740993);', 'f(9007199254740992);', 'shape'),
    (M, 'f(\'a\');', 'f("a");', None),
    (M, 'f("a");', 'f("\\x61");', None),
    (M, 'f("a");', 'f("b");', 'shape'),
    (M, '({ 0x10: 1 });', '({ 16: 1 });', None),
    (M, '({ 16: 1 });', '({ "16": 1 });', 'shape'),
    (M, 'import a from \'m\'; a;', 'import b from "m"; b;', None),
    # directives stay as they are: in a program, in a function, in no other block
    (S, '\'use strict\'; a;', '"use strict"; a;', 'shape'),
    (S, 'function f() { \'a\'; }', 'function f() { "a"; }', 'shape'),
    (S, '{ \'a\'; }', '{ "a"; }', None),
    (S, 'a; \'use strict\';', 'a; "use strict";', None),
    # and so do templates
    (M, '`a`;', '`\\x61`;', 'shape'),
    # a name besides
    (M, 'let a; a(16);', 'let b; b(0x10);', None),
    (M, 'let a, b; a(16, b);', 'let a, b; a(0x10, a);', 'split'),
    (M, 'var a, b; a(\'b\', b);', 'var a, a; a("b", a);', 'joined'),
]


def words(before, after, wanted):
    """what the judge says, and what is wanted"""
    asked = isinstance(wanted, list)
    return alpha_judge.verdict(before, after, asked), wanted[0] if asked else wanted


def faults():
    for read, one, other, fields, wanted in ROWS:
        before, after = read(one), read(other)
        found = [name for name, _ in alpha.faults(alpha.normal(before), alpha.normal(after))]
        if found != fields:
            yield '%s -- %s\n    fails in %s, wanted %s' % (one, other, found, fields)
        word, wanted = words(before, after, wanted)
        if word != wanted:
            yield '%s -- %s\n    the judge says %s, wanted %s' % (one, other, word, wanted)


def spelled_faults():
    for read, one, other, wanted in SPELLED:
        before, after = read(one), read(other)
        found = alpha_judge.verdict(before, after), alpha_judge.verdict(before, after, spelling=False)
        if found != ('shape', wanted):
            yield '%s -- %s\n    the judge says %s, and %s where no spelling counts; wanted %s' % (one, other, *found, wanted)


def main():
    if len(sys.argv) != 2:
        print(__doc__)
        return 2
    load(sys.argv[1])
    found = list(faults()) + list(spelled_faults())
    print('\n'.join(found + ['%d rows, %d come out otherwise' % (len(ROWS) + len(SPELLED), len(found))]))
    return 1 if found else 0


if __name__ == '__main__':
    sys.exit(main())
