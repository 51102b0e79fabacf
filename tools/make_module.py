#!/usr/bin/env python3
"""make_module.py N: the envelope of a clean module of N statements, for measuring.

Of each five statements one declares a name by `let`, one by `var`, one is a function with two parameters
and a body that declares and uses names, one is a block in a block, and one calls a function."""
import json
import sys

AT = [0, 0]


def ident(name):
    return {'type': 'Ident', 'span': AT, 'ctxt': [], 'sym': name}


def binding(name):
    return {'type': 'BindingIdent', 'span': AT, 'ctxt': [], 'sym': name}


def declaration(kind, name, value):
    declarator = {'type': 'VarDeclarator', 'span': AT, 'name': binding(name), 'init': value}
    return {'type': 'VarDecl', 'span': AT, 'kind': kind, 'decls': [declarator]}


def number(n):
    return {'type': 'Number', 'span': AT, 'text': str(n)}


def binary(op, left, right):
    return {'type': 'BinExpr', 'span': AT, 'op': op, 'left': left, 'right': right}


def call(name, *args):
    return {'type': 'CallExpr', 'span': AT, 'callee': ident(name), 'args': [{'spread': None, 'expr': a, 'type': 'ExprOrSpread'} for a in args]}


def statement(expr):
    return {'type': 'ExprStmt', 'span': AT, 'expr': expr}


def block(*stmts):
    return {'type': 'BlockStmt', 'span': AT, 'stmts': list(stmts)}


def function(name, params, body):
    params = [{'type': 'Param', 'span': AT, 'pat': binding(p)} for p in params]
    return {'type': 'FnDecl', 'ident': ident(name), 'function': {
        'type': 'Function', 'span': AT, 'params': params, 'body': body, 'is_generator': False, 'is_async': False}}


def returned(expr):
    return {'type': 'ReturnStmt', 'span': AT, 'arg': expr}


def nth(i):
    kind, k = i % 5, i // 5
    if kind == 0:
        return declaration('let', 'count%d' % k, number(k))
    if kind == 1:
        return declaration('var', 'total%d' % k, binary('+', ident('count%d' % k), number(1)))
    if kind == 2:
        body = block(declaration('let', 'sum', binary('*', ident('left'), ident('right'))), returned(binary('-', ident('sum'), ident('total%d' % k))))
        return function('multiply%d' % k, ['left', 'right'], body)
    if kind == 3:
        return block(declaration('let', 'inner', ident('count%d' % k)), block(declaration('const', 'inner', number(2)), statement(call('print', ident('inner')))))
    return statement(call('multiply%d' % k, ident('count%d' % k), ident('unknown')))


def main():
    tree = {'type': 'Module', 'span': AT, 'body': [nth(i) for i in range(int(sys.argv[1]))]}
    json.dump({'marks': [[1, 0], [2, 0]], 'unresolved': 1, 'top': 2, 'tree': tree}, sys.stdout, separators=(',', ':'))


if __name__ == '__main__':
    main()
