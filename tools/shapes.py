#!/usr/bin/env python3
"""shapes.py JSBASE [N]: how the time of JSBASE grows with programs of one shape, as a table in Markdown.

JSBASE is the built program of that crate. Each shape is a script of N, 2 N and 4 N parts (20,000, if N is not given): blocks side
by side, the parameters of one function, the functions of one block, catch clauses, labels, pairs of parentheses, the items of a
sequence, references below 40 blocks, names of one function that the kit's hash can't tell apart, and as many others of their
length; pairs whose contents have spans of their own, such that a known mixer of both numbers can't tell apart, and such that are near one another
in a table hashed by the kit's default hasher, or by its SipHash with fixed keys; functions that each declare the
same names with a mark of their own, the same with a reference behind one function that declares it, and behind each, and functions that declare one id of all and
one of their own; ids of one text that one function declares; sequences in sequences, 10 and 50 deep; arrows in nests with a call of `eval` in the innermost; calls in
chains (`a.b().b()`), operators in chains on the left and on the right, and arrows in nests, 10 in each and as many as JSON may nest. The time is of the processor for one run of `resolve script`, of `hygiene script` for what
is renamed, of `unparen script` for pairs and all sequences, of `fix script` for pairs that are due, chains and nests; in a table that grows in step with N each number is twice the one before it."""
import json
import random
import resource
import subprocess
import sys
import tempfile

AT = [0, 0]
WORD = (1 << 64) - 1
SEED = 0x243F6A8885A308D3
MULTIPLIER = 0x9E3779B97F4A7C15
LETTERS = 'abcdefghijklmnopqrstuvwxyzABCDEFGHIJKLMNOPQRSTUVWXYZ_$'


def node(kind, /, **fields):
    return {'type': kind, 'span': AT, **fields}


def named(kind, name, marks=()):
    return node(kind, ctxt=list(marks), sym=name)


def reference(name, marks=()):
    return named('Ident', name, marks)


def statement(expression):
    return node('ExprStmt', expr=expression)


def declaration(keyword, names, marks=()):
    parts = [node('VarDeclarator', name=named('BindingIdent', name, marks), init=None) for name in names]
    return node('VarDecl', kind=keyword, decls=parts)


def block(statements):
    return node('BlockStmt', stmts=statements)


def function(name, parameters, statements, marks=()):
    patterns = [node('Param', pat=named('BindingIdent', name, marks)) for name in parameters]
    body = node('Function', params=patterns, body=block(statements), is_generator=False, is_async=False)
    return node('FnDecl', ident=reference(name), function=body)


def catches(n):
    handler = node('CatchClause', param=named('BindingIdent', 'e'), body=block([declaration('var', ['e'])]))
    return [node('TryStmt', block=block([]), handler=handler, finalizer=None) for _ in range(n)]


def deep(n):
    inner = [statement(reference('a')) for _ in range(n)]
    for depth in range(40):
        inner = [block([declaration('let', [f'b{depth}'])] + inner)]
    return [declaration('var', ['a'])] + inner


def called(object_):
    return node('CallExpr', callee=node('MemberExpr', obj=object_, prop=node('IdentName', sym='b')), args=[])


def added(left, right):
    return node('BinExpr', op='+', left=left, right=right)


def arrow(body):
    return node('ArrowExpr', params=[named('BindingIdent', 'a')], body=body, is_async=False)


def nests(depth, round_):
    """N parts in nests of a depth."""
    def of(n):
        inner = reference('a')
        for _ in range(depth):
            inner = round_(inner)
        return [statement(inner)] * (n // depth)
    return of


def folded(a, b):
    product = a * b
    return (product & WORD) ^ (product >> 64)


def colliding(n):
    """Names of 32 characters of which the kit's hash sees nothing: the third word of each is what the hash of the first two
    words is, so that what is multiplied next is 0, whatever the last word."""
    rng = random.Random(7)
    while True:
        first = ''.join(rng.choice(LETTERS) for _ in range(16)).encode()
        word = folded(int.from_bytes(first[:8], 'little') ^ (SEED + 32 & WORD), int.from_bytes(first[8:], 'little') ^ MULTIPLIER)
        second = word.to_bytes(8, 'little')
        if all(chr(byte) in LETTERS for byte in second):
            return [(first + second).decode() + f'{i:08}' for i in range(n)]


def others(n):
    return ['abcdefghijklmnopqrstuvwx' + f'{i:08}' for i in range(n)]


def unshifted(word, bits):
    """The word of which this one is made by `x ^ x >> bits`."""
    whole = word
    for _ in range(64 // bits):
        whole = word ^ whole >> bits
    return whole


def unmixed(word):
    """The word that the mixer of SplitMix64 takes to this one."""
    word = unshifted(word, 31) * pow(0x94D049BB133111EB, -1, WORD + 1) & WORD
    word = unshifted(word, 27) * pow(0xBF58476D1CE4E5B9, -1, WORD + 1) & WORD
    return unshifted(word, 30)


def spans(n):
    return [[7 * i + 1, 7 * i + 4] for i in range(n)]


def colliding_spans(n):
    """Spans whose mixed words have equal halves, so that the 32 bits to which a table folds them are 0."""
    found = []
    half = 0
    while len(found) < n:
        half += 1
        word = unmixed(half << 32 | half)
        span = [word & 0xFFFFFFFF, word >> 32]
        if span[0] <= span[1]:
            found.append(span)
    return found


def rotated(word, bits):
    return (word << bits | word >> 64 - bits) & WORD


def sip_round(a, b, c, d):
    a, c = a + b & WORD, c + d & WORD
    b, d = rotated(b, 13) ^ a, rotated(d, 16) ^ c
    a, c = rotated(a, 32) + d & WORD, c + b & WORD
    return a, rotated(b, 17) ^ c, rotated(c, 32), rotated(d, 21) ^ a


def by_fixed_keys(word):
    """The hash of a word by the kit's DefaultHasher, which is SipHash-1-3 with the keys 0."""
    a, b, c, d = 0x736F6D6570736575, 0x646F72616E646F6D, 0x6C7967656E657261, 0x7465646279746573
    for fed in [word, 8 << 56]:
        a, b, c, d = sip_round(a, b, c, d ^ fed)
        a ^= fed
    c ^= 0xFF
    for _ in range(3):
        a, b, c, d = sip_round(a, b, c, d)
    return a ^ b ^ c ^ d


def by_default(word):
    """The hash of a word by the hasher that a map of the kit has where none is given."""
    return folded(SEED ^ word, MULTIPLIER ^ 16)


def crowded_spans(n, hash_of):
    """Spans whose search begins in the first eighth of a table's groups, so that a table by this hash fills one group after another,
    and a search goes through what is full: 9 to a group on average, whose number is a power of 2."""
    groups = 1
    while 9 * groups < n:
        groups *= 2
    found = []
    first = 0
    while len(found) < n:
        first += 1
        whole = hash_of(first | first + 3 << 32)
        if ((whole ^ whole >> 32) & groups - 1) < groups // 8:
            found.append([first, first + 3])
    return found


def due_pairs(contents):
    """A statement `(a + a) * a` for each span, which its sum has."""
    def of(content):
        pair = node('ParenExpr', expr=added(reference('a'), reference('a')) | {'span': content})
        return statement(node('BinExpr', op='*', left=pair, right=reference('a')))
    return [of(content) for content in contents]


def body_of(names):
    return [function('f', [], [declaration('var', names)] + [statement(reference(name)) for name in names])]


def functions_beside(n):
    """Functions of the same names, whose own have a mark for each function."""
    return [function(f'f{i}', ['a'], [declaration('var', ['b'], [i + 3]), statement(reference('a', [i + 3]))], [i + 3]) for i in range(n)]


def functions_of_one_id(n):
    """Functions that each declare one id of all, so that all leak, and an id of their own of one text."""
    return [function(f'f{i}', ['a'], [declaration('var', ['b'], [i + 4]), statement(reference('b', [i + 4]))], [3]) for i in range(n)]


def leaking_functions(n):
    """Functions of the same names, behind all of which stand their own."""
    return functions_beside(n) + [statement(reference('a', [i + 3])) for i in range(n)]


def ids_of_one_text(n):
    declarations = [declaration('var', ['a'], [i + 3]) for i in range(n)]
    return [function('f', [], declarations)]


def sequence(inner):
    return node('SeqExpr', exprs=[inner, reference('a')])


def nests_that_read(depth):
    """N arrows in nests of a depth, with a call of `eval` in the innermost."""
    def of(n):
        inner = node('CallExpr', callee=reference('eval'), args=[])
        for _ in range(depth):
            inner = arrow(inner)
        return [statement(inner)] * (n // depth)
    return of


SHAPES = {
    'blocks': ('resolve', lambda n: [block([declaration('let', ['a']), statement(reference('a'))]) for _ in range(n)]),
    'parameters': ('resolve', lambda n: [function('f', [f'p{i}' for i in range(n)], [])]),
    'functions of a block': ('resolve', lambda n: [block([function(f'f{i}', [], []) for i in range(n)])]),
    'catch clauses': ('resolve', catches),
    'labels': ('resolve', lambda n: [node('LabeledStmt', label=reference(f'l{i}'), body=node('EmptyStmt')) for i in range(n)]),
    'pairs': ('unparen', lambda n: [statement(node('ParenExpr', expr=reference('a'))) for _ in range(n)]),
    'items of a sequence': ('unparen', lambda n: [statement(node('SeqExpr', exprs=[reference(f'a{i}') for i in range(n)]))]),
    'references below 40 blocks': ('resolve', deep),
    'names that collide': ('resolve', lambda n: body_of(colliding(n))),
    'other names': ('resolve', lambda n: body_of(others(n))),
    'names that collide, renamed': ('hygiene', lambda n: body_of(colliding(n))),
    'other names, renamed': ('hygiene', lambda n: body_of(others(n))),
    'due pairs': ('fix', lambda n: due_pairs(spans(n))),
    'due pairs, spans that a mixer puts together': ('fix', lambda n: due_pairs(colliding_spans(n))),
    'due pairs, spans that the default hasher crowds': ('fix', lambda n: due_pairs(crowded_spans(n, by_default))),
    'due pairs, spans that fixed keys crowd': ('fix', lambda n: due_pairs(crowded_spans(n, by_fixed_keys))),
    'functions of the same names, renamed': ('hygiene', functions_beside),
    'functions of the same names, and one reference outside, renamed': ('hygiene', lambda n: functions_beside(n) + [statement(reference('a', [3]))]),
    'functions that declare one id, and one of their own, renamed': ('hygiene', functions_of_one_id),
    'functions of the same names, each with a reference outside, renamed': ('hygiene', leaking_functions),
    'ids of one text in one scope, renamed': ('hygiene', ids_of_one_text),
    'sequences, 10 in a nest': ('unparen', nests(10, sequence)),
    'sequences, 50 in a nest': ('unparen', nests(50, sequence)),
    'arrows, 10 in a nest that reads names, renamed': ('hygiene', nests_that_read(10)),
    'arrows, 100 in a nest that reads names, renamed': ('hygiene', nests_that_read(100)),
    'calls, 10 in a chain': ('fix', nests(10, called)),
    'calls, 50 in a chain': ('fix', nests(50, called)),
    'operators, 10 on the left': ('fix', nests(10, lambda left: added(left, reference('a')))),
    'operators, 100 on the left': ('fix', nests(100, lambda left: added(left, reference('a')))),
    'operators, 10 on the right': ('fix', nests(10, lambda right: added(reference('a'), right))),
    'operators, 100 on the right': ('fix', nests(100, lambda right: added(reference('a'), right))),
    'arrows, 10 in a nest': ('fix', nests(10, arrow)),
    'arrows, 100 in a nest': ('fix', nests(100, arrow)),
}

OF_MANY_MARKS = [shape for shape in SHAPES if shape.startswith(('functions of the same names', 'functions that declare', 'ids of one text'))]


def envelope(statements, marks):
    script = node('Script', body=statements, shebang=None)
    return json.dumps({'marks': [[mark + 1, 0] for mark in range(marks)], 'unresolved': 1, 'top': 2, 'tree': script}, separators=(',', ':'))


def time_of(program, shape, n):
    """The processor time of one run in seconds."""
    command, statements = SHAPES[shape]
    with tempfile.TemporaryFile('w+') as source:
        source.write(envelope(statements(n), n + 3 if shape in OF_MANY_MARKS else 2))
        source.seek(0)
        before = resource.getrusage(resource.RUSAGE_CHILDREN)
        subprocess.run([program, command, 'script'], stdin=source, stdout=subprocess.DEVNULL, check=True)
        after = resource.getrusage(resource.RUSAGE_CHILDREN)
    return after.ru_utime + after.ru_stime - before.ru_utime - before.ru_stime


def main():
    program, first = sys.argv[1], int(sys.argv[2]) if len(sys.argv) > 2 else 20000
    counts = [first, 2 * first, 4 * first]
    print('| shape | ' + ' | '.join(f'{n:,}' for n in counts) + ' |')
    print('|---|' + '---|' * len(counts))
    for shape in SHAPES:
        print(f'| {shape} | ' + ' | '.join(f'{time_of(program, shape, n):.2f} s' for n in counts) + ' |', flush=True)


if __name__ == '__main__':
    main()
