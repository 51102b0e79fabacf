#!/usr/bin/env python3
"""text_shapes.py PROGRAM [N]: how the time of example_text grows with texts of one shape, as a table in Markdown.

PROGRAM is the built program of that crate. Each shape is a script of N, 2 N and 4 N parts (50,000, if N is not given): statements of one
line, blocks, one list of an array, of an object, of arguments, of parameters, members of one class, operators in one chain, members in
one chain, a template of many parts, one string, comments, blanks, nests of parentheses and of functions 40 deep, one line. The
time is of the processor for one run of `read`, of `lines` less that, and of `keep` less that; in a table that grows in step with N
each number is twice the one before it."""
import os
import subprocess
import sys
import tempfile

DEEP = 40


def nests(n, opened, closed, inner):
    return ''.join(opened * DEEP + inner + closed * DEEP + ';\n' for _ in range(n // DEEP))


SHAPES = {
    'statements': lambda n: ''.join(f'let a{i} = f(b, {i});\n' for i in range(n)),
    'no semicolons': lambda n: ''.join(f'a{i} = b\n' for i in range(n)),
    'blocks': lambda n: '{ var a; }\n' * n,
    'array': lambda n: 'a = [' + ', '.join(['b'] * n) + '];\n',
    'object': lambda n: 'a = {' + ', '.join(f'k{i}: b' for i in range(n)) + '};\n',
    'arguments': lambda n: 'a(' + ', '.join(['b'] * n) + ');\n',
    'parameters': lambda n: 'function f(' + ', '.join(f'p{i}' for i in range(n)) + ') {}\n',
    'arrow of a pattern': lambda n: 'a = ({' + ', '.join(f'k{i} = 1' for i in range(n)) + '}) => 1;\n',
    'class': lambda n: 'class A {\n' + ''.join(f'm{i}() {{ return 1; }}\n' for i in range(n)) + '}\n',
    'operators': lambda n: 'a = ' + ', '.join([' + '.join(['b'] * 1000)] * (n // 1000)) + ';\n',
    'members': lambda n: 'a = ' + ', '.join(['b' + '.c()' * 500] * (n // 500)) + ';\n',
    'template': lambda n: 'a = `' + 'x${b}' * n + '`;\n',
    'string': lambda n: 'a = "' + r'abc\n\x41' * n + '";\n',
    'comments': lambda n: '/* a */ // b\n' * n + 'a;\n',
    'blanks': lambda n: ' \t\n' * n + 'a;\n',
    'regular expressions': lambda n: ''.join('a = /[a/]b/g;\n' for _ in range(n)),
    'pairs': lambda n: nests(n, '(', ')', 'a'),
    'arrows': lambda n: nests(n, '(a) => ', '', 'b'),
    'functions': lambda n: nests(n, '(function () { return ', '})', 'a'),
    'one line': lambda n: 'a=b?c:d,e;' * n,
}


def seconds(program, word, text):
    """The seconds of a processor, or why there are none."""
    with tempfile.TemporaryFile() as given, open(os.devnull, 'wb') as out:
        given.write(text.encode())
        given.seek(0)
        child = subprocess.Popen([program, 'script', word], stdin=given, stdout=out, stderr=subprocess.PIPE)
        told = child.stderr.read().decode().strip()
        _, status, used = os.wait4(child.pid, 0)
        child.returncode = os.waitstatus_to_exitcode(status)
    return told or used.ru_utime + used.ru_stime


def cells(program, shape, n):
    """Of each word the seconds of n, 2 n and 4 n parts; and the bytes of the largest."""
    texts = [SHAPES[shape](n * times) for times in (1, 2, 4)]
    read = [seconds(program, 'read', text) for text in texts]
    if any(isinstance(time, str) for time in read):
        return [next(time for time in read if isinstance(time, str))]
    found = [' '.join(f'{time:.3f}' for time in read)]
    for word in ('lines', 'keep'):
        times = [seconds(program, word, text) for text in texts]
        found.append(' '.join(time if isinstance(time, str) else f'{max(0, time - less):.3f}' for time, less in zip(times, read)))
    return [*found, str(len(texts[-1]))]


def main():
    program = os.path.abspath(sys.argv[1])
    n = int(sys.argv[2]) if len(sys.argv) > 2 else 50_000
    print(f'| {n:,}, {2 * n:,}, {4 * n:,} parts | read | printed | kept | bytes of the largest |\n|---|---|---|---|---|')
    for shape in SHAPES:
        print('| ' + ' | '.join([shape, *cells(program, shape, n)]) + ' |', flush=True)


if __name__ == '__main__':
    main()
