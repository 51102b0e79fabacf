"""injection_premises.py CHECKOUT SEED SECONDS [BIGGEST]: what helpers in scripts keep, by `require` and written out, on random scripts
that meet all premises, and on those that lack a single one; for each the smallest script found."""
import sys
import time

import injection_laws
import js
import lawbook
import random_trees
import scoping
import script_laws as s
import trees
from lawbook import D, fits_place, is_name

RESULTS = {}


def names(t):
    return injection_laws.names(t)


def undeclared(helper, free, t):
    """outside of the helper mark's context, just what nothing declares has the global mark alone"""
    program, ids = scoping.Program(D.all, t), scoping.by_ids(D.all, t)
    return all(scoping.IsDeclared(ids, ids.name(p)) != (context == (free,)) for p, _, _, context in names(t) if context != (helper,))


def refers(helper, t):
    """what has the helper mark's context is a reference"""
    return all(D.scoping.Scopes.is_reference(standing) for _, standing, _, context in names(t) if context == (helper,))


def is_offered(helper, offered, t):
    """what has the helper mark's context, and refers, has the text of what is brought in"""
    return all(text in offered for _, standing, text, context in names(t) if context == (helper,) and D.scoping.Scopes.is_reference(standing))


def of_script(helper, free, offered):
    return [('fits', fits_place), ('undeclared', lambda t: undeclared(helper, free, t)), ('refers', lambda t: refers(helper, t)),
            ('offered', lambda t: is_offered(helper, offered, t))] + s.SCOPED


def of_bodies(strict, bodies):
    use_strict = D.scoping.Places.has_use_strict(bodies)
    return [('bodies: fits', fits_place), ('bodies: strictness', lambda t: strict or not use_strict), ('bodies: settled', s.has_no_sloppy),
            ('bodies: labels no function', s.labels_no_function), ('bodies: declares no global value', s.declares_no_global_value),
            ('bodies: repeats no parameter', s.repeats_no_parameter)] + [('bodies: ' + name, holds) for name, holds in s.SOURCE]


def note(way, missing, answer, t):
    faults = scoping.faults(scoping.WELL_SCOPED, D.all, answer)
    row = RESULTS.setdefault((way, missing), [0, 0, None])
    row[0] += 1
    if faults:
        row[1] += 1
        if row[2] is None or trees.size(t) < trees.size(row[2][0]):
            row[2] = (t, answer, faults)


def with_free_require(random, t):
    """the tree where some names are `require`"""
    new = {js.codes(random.pick(['a', 'b', 'c', '_c'])): js.codes('require')} if random.chance(0.3) else {}
    return trees.with_identifiers(lambda i: (new.get(i.sym, i.sym), i.ctxt), t)


def by_require(random, size):
    t = s.script_of_helpers(random, size)
    if t is None:
        return
    t = with_free_require(random, t)
    if random.chance(0.2):
        t = random.disturbed(t)
    brought = D.injection.Brought
    wanted = injection_laws.names_of_helpers(t)
    if random.chance(0.2):
        wanted = wanted[1:]
    for helper, free in injection_laws.MARKS:
        missing = s.missing(t, of_script(helper, free, {brought.local_name(name) for name in wanted}))
        if len(missing) < 2:
            requires = tuple(brought.require_of(helper, free, name) for name in wanted)
            note('require', ''.join(missing) or 'none lacks', D.injection.Bodies.put_in(requires, D.injection.Members.with_members(helper, t)), t)


def written_out(random, size):
    t = s.bodies_and_script(random, size)
    if t is None:
        return
    items = t[2][1][1]
    end = next(i for i, item in enumerate(items) if item[1] == 'EmptyStmt')
    bodies, rest = items[:end], s.with_items(t, items[end + 1:])
    if random.chance(0.1):
        bodies = (random.statement(random.string('use strict')),) + bodies
    strict = s.strict_script(rest)
    whole = s.alone(bodies, strict)
    lacking = s.missing(whole, of_bodies(strict, bodies))
    if len(lacking) > 1:
        return
    for helper, free in injection_laws.MARKS:
        missing = lacking + s.missing(rest, of_script(helper, free, set(s.offered_alone(bodies, strict))))
        if len(missing) < 2:
            first = max(injection_laws.known_marks(rest)) + 1
            answer = scoping.resolved(D.all, whole, free, helper, first)
            note('written', ''.join(missing) or 'none lacks', D.injection.Bodies.put_in(D.injection.Alone.statements_of(answer), rest), s.with_items(t, bodies + items[end:]))


def main():
    checkout, seed, seconds = sys.argv[1], int(sys.argv[2]), float(sys.argv[3])
    biggest = int(sys.argv[4]) if len(sys.argv) > 4 else 14
    lawbook.load(checkout)
    random, end = random_trees.Random(seed), time.time() + seconds
    while time.time() < end:
        for way in (by_require, written_out):
            try:
                way(random, 2 + random.below(biggest))
            except RecursionError:
                pass
    for (way, missing), (met, bad, smallest) in sorted(RESULTS.items()):
        print('%-8s lacking %-45s %6d scripts, %s' % (way, missing, met, 'FAILS for %d' % bad if bad else 'all hold'))
        if smallest:
            t, answer, faults = smallest
            print('    %s\n        %s: %s' % (js.text(t), js.text(answer), ', '.join(faults)))


if __name__ == '__main__':
    main()
