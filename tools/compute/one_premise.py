"""one_premise.py CHECKOUT function|label|parameter SEED SECONDS COUNT [BIGGEST]: scripts that lack one premise of plain ones alone, made so that
most have what it forbids; each clause is asked of them, finished and chained, until COUNT of both were, by what they have."""
import sys
import time

import js
import lawbook
import random_trees
import scoping
import script_laws as s
import script_premises
import trees
from lawbook import D
from script_premises import ROUTES, missing, top_of

BODIES = ('IfStmt', 'WhileStmt', 'DoWhileStmt', 'ForStmt', 'ForInStmt', 'ForOfStmt', 'WithStmt')


def put_in(random, t, items):
    """the script with the items somewhere among its own"""
    own = list(t[2][1][1])
    place = random.below(len(own) + 1)
    own[place:place] = items
    return s.with_items(t, own)


# --------------------------------------------------------------------------------------------------------- sources
def with_functions(random, t):
    """plain functions in blocks of sloppy code, in catch clauses, as branches"""
    for _ in range(random.pick([1, 1, 2])):
        random.left = 6
        function = random.build('FnDecl', 3, 'BlockStmt', 'stmts')
        choice = random.below(5)
        if choice == 0:
            item = random.build('TryStmt', 4, 'Script', 'body')
        elif choice == 1:
            other = trees.ABSENT if random.chance(0.6) else random.build('FnDecl', 2, 'IfStmt', 'cons')
            item = random.tree('IfStmt', [random.span(), random.identifier('Ident'), function, other])
        else:
            beside = {2: [random.build('FnDecl', 2, 'BlockStmt', 'stmts')], 3: [random.build('VarDecl', 2, 'BlockStmt', 'stmts')], 4: []}[choice]
            item = random.tree('BlockStmt', [random.span(), ('List', tuple([function] + beside + [random.statement(random.identifier('Ident'))]))])
        t = put_in(random, t, [item])
    return t


def labelled(random, again=True):
    label = ('Identifier', 'Ident', js.REC(span=random.span()[1], ctxt=(), sym=js.codes(random.pick(['l', 'a', 'm']))))
    random.left = 5
    body = labelled(random, False) if again and random.chance(0.15) else random.build('FnDecl', 2, 'LabeledStmt', 'body')
    return random.tree('LabeledStmt', [random.span(), label, body])


def with_labels(random, t):
    """functions with labels at the top of the program or of a function, or as a branch or a body, which no parser takes"""
    item, choice = labelled(random), random.below(6)
    if choice == 0:
        item = random.tree('IfStmt', [random.span(), random.identifier('Ident'), item, trees.ABSENT if random.chance(0.5) else labelled(random)])
    elif choice == 1:
        inner = random.tree('IfStmt', [random.span(), random.identifier('Ident'), item, trees.ABSENT])
        item = random.tree('IfStmt', [random.span(), random.identifier('Ident'), inner, trees.ABSENT if random.chance(0.5) else random.statement(random.identifier('Ident'))])
    elif choice == 2:
        item = random.tree('WhileStmt', [random.span(), random.identifier('Ident'), item])
    items = (item, random.statement(random.identifier('Ident')))
    bodies = [p + (1,) for p, node in trees.paths(t) if node[:2] == ('Tree', 'BlockStmt') and p and trees.at(t, p[:-1])[:2] == ('Tree', 'Function')]
    if not bodies or random.chance(0.6):
        return put_in(random, t, items)
    body = random.pick(bodies)
    own = trees.at(t, body)[1]
    return trees.put(t, body, ('List', items + own if random.chance(0.5) else own + items))


def with_parameters(random, t):
    """functions with two parameters of one name, often one parameter twice"""
    random.left = 6
    if random.chance(0.7):
        t = put_in(random, t, [random.build('FnDecl', 3, 'Script', 'body')])
    else:
        t = put_in(random, t, [random.statement(random.tree('ParenExpr', [random.span(), random.build('FnExpr', 3, 'ParenExpr', 'expr')]))])
    for p in [p for p, node in trees.paths(t) if node[:2] == ('Tree', 'Function')]:
        if not random.chance(0.6):
            continue
        own = list(trees.at(t, p + (1,))[1])
        for _ in range(0 if own and random.chance(0.5) else 1 if own else 2):
            random.left = 3
            own.insert(random.below(len(own) + 1), random.build('Param', 1, 'Function', 'params'))
        if random.chance(0.5):
            own.insert(random.below(len(own) + 1), random.pick(own))
        t = trees.put(t, p + (1,), ('List', tuple(own)))
    return t


def script(random, size, make):
    """a script of few names, with what the premise forbids and, but for functions in blocks, none of those"""
    t = random.names(size, False)
    if random.chance(0.4):
        t = put_in(random, t, s.own_items(random))
    t = make(random, t if make is with_functions else s.settled(random, t))
    new = random.pick([{}, {}, {}, {'b': 'NaN'}, {'b': 'undefined'}, {'a': 'Infinity'}])
    new = {js.codes(old): js.codes(text) for old, text in new.items()}
    return trees.with_identifiers(lambda i: (new.get(i.sym, i.sym), i.ctxt), t)


# ------------------------------------------------------------------------------------------------ what a script has
def is_labelled_function(node):
    return node[:2] == ('Tree', 'LabeledStmt') and (node[2][2][:2] == ('Tree', 'FnDecl') or is_labelled_function(node[2][2]))


def labelled_where(t):
    """whether a function with a label is a branch of an `if`, or the body of a loop or `with` (14.6.1, 14.7, 14.11.1)"""
    stands = any(node[0] == 'Tree' and node[1] in BODIES and any(map(is_labelled_function, node[2])) for _, node in trees.paths(t))
    return 'a branch or a body has a label and a function' if stands else 'none is a branch or a body'


def hoisted(t):
    return 'the program declares no global value, hoisted ones told' if s.declares_no_global_value(t) else 'one that hoists is called as a global value'


PREMISES = {
    'function': ('no sloppy function in a block', with_functions, hoisted),
    'label': ('labels no function', with_labels, labelled_where),
    'parameter': ('repeats no parameter', with_parameters, lambda t: 'any'),
}


class Asked:
    """of scripts that lack the premise alone, by route and by what they have, how many were asked, and what failed"""
    def __init__(self, premise):
        self.premise, self.make, self.has = PREMISES[premise]
        self.met, self.failed = {}, {}

    def count(self, route):
        return sum(number for (of, _), number in self.met.items() if of == route)

    def ask(self, route, t):
        if missing(t, ROUTES[route][0]) != [self.premise]:
            return
        try:
            found = ROUTES[route][1](t)
        except RecursionError:
            return
        key = route, self.has(t)
        self.met[key] = self.met.get(key, 0) + 1
        for clause in found:
            number, best = self.failed.get(key + (clause,), (0, t))
            self.failed[key + (clause,)] = (number + 1, min(best, t, key=trees.size))

    def show(self):
        for key, number in sorted(self.met.items()):
            failed = ['%s fails %d' % (k[2], n) for k, (n, _) in sorted(self.failed.items()) if k[:2] == key]
            print('%-7s lacking %s; %s: %d scripts: %s' % (key[0], self.premise, key[1], number, ', '.join(failed) or 'all hold'), flush=True)

    def show_smallest(self):
        for (route, has, clause), (_, best) in sorted(self.failed.items()):
            def fails(u):
                try:
                    return s.is_script(u) and missing(u, ROUTES[route][0]) == [self.premise] and self.has(u) == has and clause in ROUTES[route][1](u)
                except Exception:
                    return False
            small = trees.smaller(best, fails, 10)
            print('  %s, %s, %s: %s\n      %s' % (route, has, clause, js.text(small), str(ROUTES[route][1](small).get(clause))), flush=True)


def main():
    checkout, premise, seed, seconds, count = sys.argv[1], sys.argv[2], int(sys.argv[3]), float(sys.argv[4]), int(sys.argv[5])
    biggest = int(sys.argv[6]) if len(sys.argv) > 6 else 20
    lawbook.load(checkout)
    script_premises.faster()
    asked, random, begin, number = Asked(premise), random_trees.Random(seed), time.time(), 0
    while time.time() < begin + seconds and min(asked.count('chain'), asked.count('finish')) < count:
        number += 1
        try:
            t = script(random, 2 + random.below(biggest), asked.make)
        except (IndexError, KeyError, RecursionError):
            continue
        asked.ask('chain', t)
        t = scoping.resolved(D.all, t, *random.pick([(1, 2), (1, 1)]))
        t = random.recoloured(t) if number % 3 == 0 else t
        asked.ask('finish', random.disturbed(t) if number % 11 == 0 else t)
        if number % 3000 == 0:
            asked.show()
    print('made', number, 'seed', seed)
    asked.show()
    asked.show_smallest()


if __name__ == '__main__':
    main()
