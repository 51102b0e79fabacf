"""text_rows.py CHECKOUT: worked rows of texts: a goal, a tree, a text, and whether that is the tree's.

The tree is what `js.py` reads from its own text; what is wanted follows from ECMA-262: 12.10 on semicolons, 12 on tokens, 12.5 and B.1.1 on comments.
"""
import sys

import following
import js
import lawbook
from lawbook import D

MODULE, SCRIPT = js.module, js.script
ROWS = [
    # semicolons (12.10.1 and its examples)
    (SCRIPT, 'a; b;', 'a\nb', True), (SCRIPT, 'a; b;', 'a b', False), (SCRIPT, 'a; b;', 'a /* \n */ b', True), (SCRIPT, 'a; b;', 'a // ;\nb', True),
    (SCRIPT, '{ 1; 2; } 3;', '{ 1\n2 } 3', True), (SCRIPT, '{ 1; 2; } 3;', '{ 1 2 } 3', False), (SCRIPT, 'a = b; ++c;', 'a = b\n++c', True),
    (SCRIPT, 'a = b++; c;', 'a = b\n++\nc', False), (SCRIPT, 'a = b; ++c;', 'a = b\n++\nc', True), (SCRIPT, 'a++; b;', 'a++\nb', True),
    (SCRIPT, 'function f() { return; a; }', 'function f() { return\na }', True), (SCRIPT, 'function f() { return a; }', 'function f() { return\na }', False),
    (SCRIPT, 'a = b + c(d + e).f();', 'a = b + c\n(d + e).f()', True), (SCRIPT, 'a = b + c; (d + e).f();', 'a = b + c\n(d + e).f()', False),
    (SCRIPT, 'a; [b];', 'a\n[b]', False), (SCRIPT, 'a; /b/g;', 'a\n/b/g', False), (SCRIPT, 'a / b / g;', 'a\n/b/g', True), (SCRIPT, 'a; -b;', 'a\n-b', False),
    (SCRIPT, 'a; !b;', 'a\n!b', True), (SCRIPT, 'a; in_;', 'a\nin_', True), (SCRIPT, 'if (a); else b;', 'if (a); else b', True),
    (SCRIPT, 'do ; while (a); b;', 'do ; while (a) b', True), (SCRIPT, 'do a; while (b);', 'do a\nwhile (b)', True), (SCRIPT, 'do a; while (b);', 'do a while (b)', False),
    (SCRIPT, 'for (;;) ;', 'for (\n;;\n) ;', True), (SCRIPT, 'throw a;', 'throw\na', False), (SCRIPT, 'a: for (;;) { break; a; }', 'a: for (;;) { break\na }', True),
    (SCRIPT, 'a: for (;;) { break a; }', 'a: for (;;) { break\na }', False), (SCRIPT, 'var a, b;', 'var a\n,b', True), (SCRIPT, 'let a;', 'let\na', True),
    (SCRIPT, 'var a = 1; (function() {})();', 'var a = 1\n(function() {})()', False), (SCRIPT, 'a; `b`;', 'a\n`b`', False), (SCRIPT, 'a `b`;', 'a\n`b`', True),
    (SCRIPT, 'class A { a; b; }', 'class A { a\nb }', True), (SCRIPT, 'class A { a; b; }', 'class A { a b }', False), (SCRIPT, 'class A { get; *a() {} }', 'class A { get\n*a() {} }', True),
    (SCRIPT, 'class A { get; a() {} }', 'class A { get\na() {} }', False), (SCRIPT, 'class A { get a() {} }', 'class A { get\na() {} }', True),
    (SCRIPT, 'class A { a = 1; *b() {} }', 'class A { a = 1\n*b() {} }', False), (SCRIPT, 'class A { async; a() {} }', 'class A { async\na() {} }', True),
    (SCRIPT, 'a => {};', 'a => {}', True), (SCRIPT, 'a => {}; (b);', 'a => {}\n(b)', True), (SCRIPT, 'a => {};', 'a\n=> {}', False), (SCRIPT, 'async a => b;', 'async\na => b', False),
    (MODULE, 'import "a"; b;', 'import "a"\nb', True), (MODULE, 'export { a }; var a;', 'export { a }\nvar a', True), (MODULE, 'export default a; b;', 'export default a\nb', True),
    # what may stand or not
    (SCRIPT, 'f(a);', 'f(a,)', True), (SCRIPT, 'f(a);', 'f(a,,)', False), (SCRIPT, 'f();', 'f(,)', False), (SCRIPT, '[a];', '[a,]', True), (SCRIPT, '[a, ,];', '[a,]', False),
    (SCRIPT, '[a, ,];', '[a,,]', True), (SCRIPT, '(a) => b;', 'a => b', True), (SCRIPT, '(a) => b;', '(a,) => b', True), (SCRIPT, '(a, b) => c;', '(a, b,) => c', True),
    (SCRIPT, '(...a) => b;', '(...a,) => b', False), (MODULE, 'import {} from "a";', 'import "a"', True), (MODULE, 'import {} from "a";', 'import {} from "a"', True),
    (MODULE, 'import a from "b";', 'import a, {} from "b"', True), (SCRIPT, '(a);', 'a', False), (SCRIPT, 'a;', '(a)', False), (SCRIPT, 'new a();', 'new a', False),
    # tokens
    (SCRIPT, 'a;', '\\u0061;', True), (SCRIPT, 'if (a) ;', '\\u0069f (a) ;', False), (SCRIPT, 'a.if;', 'a.\\u0069f;', True), (SCRIPT, '"a";', '"\\x61"', False),
    (SCRIPT, 'a < !b;', 'a<!b', True), (SCRIPT, 'a + +b;', 'a++b', False), (SCRIPT, 'a + +b;', 'a+ +b', True), (SCRIPT, 'a ? .5 : b;', 'a?.5:b', True),
    (SCRIPT, 'a?.b;', 'a?.b', True), (SCRIPT, '1 .a;', '1.a', False), (SCRIPT, '1 .a;', '1 .a', True), (SCRIPT, '3 in a;', '3in a', False),
    (SCRIPT, 'x = `a${b}c`;', 'x = `a${ b }c`', True), (SCRIPT, 'x = `a${b}c`;', 'x = `a$ {b}c`', False), (SCRIPT, 'a = /b/g;', 'a = /b/ g', False),
    # blanks and comments
    (SCRIPT, 'a; b;', '\ufeffa\u00a0;\u2028b', True), (SCRIPT, 'a; b;', 'a\u2029b', True), (SCRIPT, 'a;', 'a <!-- b', True), (MODULE, 'a;', 'a <!-- b', False),
    (SCRIPT, 'a;', '--> b\na', True), (MODULE, 'a;', '--> b\na', False), (SCRIPT, 'a; b;', 'a\n--> c\nb', True), (SCRIPT, 'a;', '/* b', False), (SCRIPT, 'a;', 'a /*/ b */', True)]


def faults():
    for read, shown, text, wanted in ROWS:
        t = read(shown)
        if following.IsTextOf(D.all, t, js.codes(text)) != wanted:
            yield '%s as %s: %r should%s be its text' % (shown, t[1].lower(), text, '' if wanted else ' not')


def main():
    if len(sys.argv) != 2:
        print(__doc__)
        return 2
    lawbook.load(sys.argv[1])
    found = list(faults())
    print('\n'.join(found + ['%d rows, %d come out otherwise' % (len(ROWS), len(found))]))
    return 1 if found else 0


if __name__ == '__main__':
    sys.exit(main())
