"""lawful_premises.py CHECKOUT SEED SECONDS: what is promised of each lawful renamer, with one premise left out at a time, on random trees; of
each the smallest tree found on which the promise fails. SECONDS are of a processor. It ends with status 1 where a premise was not found to be needed.

    python3 tools/compute/lawful_premises.py . 7 600
"""
import itertools
import sys
import time

import js
import lawbook
import lawful_laws as lawful
import random_trees
import script_laws
import trees
from lawbook import D, is_module, is_writable
from naming import Renaming, hygiene
from naming_laws import writable_and_well_scoped


def settings(text, preserves=()):
    """renamers of the texts, with all settings of the two flags"""
    return [(' '.join(('mangles=%d' % mangles, 'resets=%d' % resets)), Renaming(text, mangles, resets, preserves))
            for mangles, resets in itertools.product((False, True), repeat=2)]


def giving(word):
    """renamers that give the word under the first counter"""
    return lambda t: settings(lambda x, n: js.codes(word) if n == 0 else js.codes('v%d' % n))


def preserving(choose):
    """renamers that are lawful, and preserve what is chosen of a tree"""
    def made(t):
        preserves = sorted(choose(t))
        return [('hygiene', hygiene(preserves)), ('short', Renaming(lawful.text_short, True, False, preserves))]
    return made


def bound(t):
    return lawful.analysed(t).bound


def all_ids(t):
    return {x for _, _, x in lawful.analysed(t).ids}


def lacks(clause, choose):
    """whether the clause of `KeepsApart` fails alone for the ids"""
    return lambda t: {fault[0] for fault in lawful.kept_faults(t, choose(t))} == {clause}


def always(t):
    return True


def writable_and_module(t):
    return is_module(t) and is_writable(t)


MODULE, SCRIPT, ANY = ('module', lawbook.well_scoped_module, writable_and_well_scoped), ('script', script_laws.well_scoped_script, lawful.is_plain_script), ('module, well-scoped or not', lawbook.writable_module, writable_and_module)
# what is left out, of which programs, whether a tree lacks just this, the renamers, what is promised
CASES = [
    ('identifiers', MODULE, always, giving('do'), lawful.named_fault),
    ('no_eval', MODULE, always, giving('eval'), lawful.named_fault),
    ('no_arguments', MODULE, always, giving('arguments'), lawful.named_fault),
    ('declared_apart', MODULE, lacks('declared_apart', bound), preserving(bound), lawful.whole_fault),
    ('free_apart', MODULE, lacks('free_apart', bound), preserving(bound), lawful.whole_fault),
    ('KeepsTopApart', ANY, lambda t: not lawful.is_top_apart(t, bound(t)), preserving(bound), lawful.named_fault),
    ('identifiers', SCRIPT, always, giving('do'), lawful.named_fault),
    ('no_eval', SCRIPT, always, giving('eval'), lawful.whole_fault),
    ('no_arguments', SCRIPT, always, giving('arguments'), lawful.whole_fault),
    ('SparesGlobalValues', SCRIPT, always, giving('undefined'), lawful.whole_fault),
    ('declared_apart', SCRIPT, lacks('declared_apart', bound), preserving(bound), lawful.whole_fault),
    ('free_apart', SCRIPT, lacks('free_apart', all_ids), preserving(all_ids), lawful.whole_fault),
]


def fault_in(case, t):
    """None where the tree meets not all other premises, else what goes wrong, or True"""
    _, (_, _, meets), lacks_it, renamers, fault_of = case
    if t is None or not meets(t) or not lacks_it(t):
        return None
    try:
        return lawful.first_fault(t, renamers(t), fault_of)
    except RecursionError:
        return None


def smallest(case, t):
    return trees.smaller(t, lambda u: isinstance(fault_in(case, u), lawbook.Bad))


def tried(case, seed, seconds):
    """(trees that met the other premises, those that fail, the smallest of these)"""
    random, end = random_trees.Random(seed), time.process_time() + seconds
    met = failed = 0
    best = None
    while time.process_time() < end:
        t = case[1][1](random, 2 + random.below(24))
        fault = fault_in(case, t)
        met += fault is not None
        if isinstance(fault, lawbook.Bad):
            failed += 1
            if best is None or trees.size(t) < trees.size(best):
                best = smallest(case, t)
    return met, failed, best


def main():
    checkout, seed, seconds = sys.argv[1], int(sys.argv[2]), float(sys.argv[3])
    lawbook.load(checkout)
    needed = True
    for case in CASES:
        met, failed, best = tried(case, seed, seconds / len(CASES))
        needed = needed and best is not None
        print('%-18s of a %s: %d trees, %d fail' % (case[0], case[1][0], met, failed))
        if best is not None:
            print('    %s\n        %s' % (js.text(best), fault_in(case, best)), flush=True)
    return 0 if needed else 1


if __name__ == '__main__':
    sys.exit(main())
