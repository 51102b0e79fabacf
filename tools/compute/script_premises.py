"""script_premises.py CHECKOUT SEED SECONDS [BIGGEST]: each clause that is promised of modules, on random scripts that meet all premises, and on
those that lack a single one; for each pair the smallest script found."""
import sys
import time

import js
from js import codes as js_codes
import lawbook
import random_trees
import scoping
import trees
from lawbook import D
import script_laws as s

RESULTS = {}


def kept_by_identity(make, size=400):
    kept = {}

    def get(*args):
        key = tuple(map(id, args))
        if key not in kept or any(a is not b for a, b in zip(kept[key][0], args)):
            if len(kept) >= size:
                kept.clear()
            kept[key] = (args, make(*args))
        return kept[key][1]
    return get


def faster():
    scoping.Program = kept_by_identity(scoping.Program)
    scoping.by_ids, scoping.by_texts = kept_by_identity(scoping.by_ids), kept_by_identity(scoping.by_texts)


# the fields of no redeclaration apart, and catch parameters apart from what else is lexical
FORBIDDEN = (js_codes('eval'), js_codes('arguments'))


def lexical_but_caught(t):
    return lambda r: t.defined('is_lexical')(r) and r != 'CatchParameter'


def names(t):
    return scoping.Program(D.all, t)


def read_by(read):
    return [
        ('none_twice', lambda t: scoping.NoneTwice(read(t))),
        ('no_variable_passes', lambda t: scoping.NoVariablePasses(read(t), lexical_but_caught(read(t)))),
        ('no_parameter_twice', lambda t: scoping.NoParameterTwice(read(t))),
        ('no_caught_variable', lambda t: scoping.NoCaughtVariable(read(t))),
        ('no_eval_or_arguments', lambda t: not any(names(t).name(p) in FORBIDDEN for p, _, _ in scoping.Binds(names(t))))]


def ids(t):
    return scoping.by_ids(D.all, t)


def declares_no_global(read):
    return lambda t: not any(names(t).name(p) in s.GLOBAL_VALUES and scoping.taker(read(t), r, p) == () for p, r, _ in scoping.Binds(read(t)))


def premises(read):
    return [
        ('no reader', lambda t: not s.units.HasEval(D.all, t)), ('fits', s.fits_place), ('no sloppy function in a block', lambda t: not scoping.Stands(names(t), 'SloppyFunction')),
        ('labels no function', s.labels_no_function),
        ('declares no global value', declares_no_global(read)), ('repeats no parameter', lambda t: not s.repeats(read(t)))] + read_by(read) + [('writable', D_writable)]


def D_writable(t):
    return D.grammar.Writable.is_writable(t)


# a clean tree read by texts is itself
SOURCE = [('clean', lambda t: scoping.IsClean(D.all, t))] + premises(names)
SCOPED = premises(ids) + [('each_in_one_scope', lambda t: scoping.EachInOneScope(ids(t))), ('free_apart', lambda t: scoping.FreeApart(D.all, t))]


def early_errors(answer):
    return [name for name, holds in read_by(names) if not holds(answer)]


def clauses(t, answer, top):
    found = {}
    if not s.fits_grammar(answer):
        found['derived'] = s.Bad('does not fit:', answer)
    if not s.is_same(t, answer):
        found['normal_form'] = s.Bad('another normal form:', answer)
    before, after = s.normal_form(t), s.normal_form(answer)
    here, there = names(before), names(after)
    paths = s.renaming.names_at(here)
    if paths != s.renaming.names_at(there):
        found['ids'] = found['meanings'] = s.Bad('names at other paths in', after)
    else:
        fault = s.renaming.meanings_fault(there, here)
        if fault:
            found['meanings'] = s.Bad(fault, 'in', after, 'of', answer)
        last = s.normal_form(scoping.resolved(D.all, answer, 1, top))
        forth, back = {}, {}
        for p in paths:
            x, y = s.renaming.identity_at(here, p), lawbook.identity(trees.at(last, p)[2])
            if forth.setdefault(x, y) != y or back.setdefault(y, x) != x:
                found['ids'] = s.Bad('other ids in', last)
    faults = early_errors(answer)
    if faults:
        found['no_early_error'] = s.Bad(', '.join(faults), 'in', answer)
    again = s.chained_again(answer, top)
    if again != answer:
        found['again'] = s.Bad('chained again:', again, 'once:', answer)
    return found


def top_of(t):
    return 1 + int(trees.size(t)) % 2


def finished_clauses(t, keeps=False):
    return clauses(t, s.fixed(s.hygienic(t, keeps)), top_of(t))


def chained_clauses(t, keeps=False):
    resolved = scoping.resolved(D.all, t, 1, top_of(t))
    fault = s.renaming.meanings_fault(names(t), names(resolved))
    answer = s.fixed(s.hygienic(resolved, keeps))
    found = clauses(resolved, answer, top_of(t))
    if fault:
        found['found'] = s.Bad(fault, 'in the source of', resolved)
    if not s.is_same(t, answer):
        found['normal_form'] = s.Bad('another normal form:', answer)
    return found


ROUTES = {'finish': (SCOPED, finished_clauses), 'chain': (SOURCE, chained_clauses)}


def missing(t, premises, most=2):
    found = []
    for name, holds in premises:
        if not holds(t):
            found.append(name)
            if len(found) >= most:
                break
    return found


def note(route, lacking, t, found):
    row = RESULTS.setdefault((route, lacking), [0, {}])
    row[0] += 1
    for clause in found:
        count, best = row[1].get(clause, (0, None))
        row[1][clause] = (count + 1, t if best is None or trees.size(t) < trees.size(best) else best)


def tried(route, t, keeps=False):
    wanted, answer = ROUTES[route]
    if keeps and not any(node[0] == 'Tree' and node[1] in ('ClassDecl', 'ClassExpr') for _, node in trees.paths(t)):
        return
    lacking = missing(t, wanted)
    if keeps:
        lacking = lacking + ['classes lose their names']
    if len(lacking) > 1:
        return
    try:
        found = answer(t, keeps)
    except RecursionError:
        return
    note(route, lacking[0] if lacking else 'none lacks', t, found)


def fails(route, lacking, clause):
    premises, answer = ROUTES[route]
    keeps = lacking == 'classes lose their names'

    def holds(u):
        if not s.is_script(u):
            return False
        gone = missing(u, premises)
        if (gone != [lacking] if not keeps else gone != []):
            return False
        try:
            return clause in answer(u, keeps)
        except Exception:
            return False
    return holds


def main():
    checkout, seed, seconds = sys.argv[1], int(sys.argv[2]), float(sys.argv[3])
    biggest = int(sys.argv[4]) if len(sys.argv) > 4 else 26
    lawbook.load(checkout)
    faster()
    random, begin = random_trees.Random(seed), time.time()
    number = 0
    while time.time() < begin + seconds:
        number += 1
        size = 2 + random.below(biggest)
        t = s.script(random, size)
        tried('chain', t)
        if number % 7 == 0:
            tried('chain', t, True)
        u = s.well_scoped_script(random, size) if number % 2 else scoping.resolved(D.all, t, *random.pick([(1, 2), (1, 1)]))
        if u is not None:
            if number % 4 == 0:
                u = random.recoloured(u)
            if number % 11 == 0:
                u = random.disturbed(u)
            tried('finish', u)
            if number % 7 == 0:
                tried('finish', u, True)
        if number % 500 == 0:
            print(number, round(time.time() - begin), round(time.process_time()), ' '.join('%s/%s:%d%s' % (k[0], k[1], v[0], dict((c, n) for c, (n, _) in v[1].items()) or '') for k, v in sorted(RESULTS.items())), flush=True)
    print('made', number, 'seed', seed)
    for (route, lacking), (met, found) in sorted(RESULTS.items()):
        print('%-7s lacking %-45s %6d scripts: %s' % (route, lacking, met, ', '.join('%s fails %d' % (c, n) for c, (n, _) in found.items()) or 'all hold'), flush=True)
    for (route, lacking), (met, found) in sorted(RESULTS.items()):
        for clause, (n, best) in found.items():
            small = trees.smaller(best, fails(route, lacking, clause), 10)
            keeps = lacking == 'classes lose their names'
            print('  %s, lacking %s, %s: %s\n      %s' % (route, lacking, clause, js.text(small), str(ROUTES[route][1](small, keeps).get(clause))), flush=True)


if __name__ == '__main__':
    main()
