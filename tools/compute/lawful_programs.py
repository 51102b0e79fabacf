"""lawful_programs.py CHECKOUT SEED COUNT: what is promised of each lawful renamer, on so many random programs: as many modules as scripts, of
half of which ids are preserved. Each program has one renamer: one of seven kinds of texts, with any setting of the two flags, drawn for it. It
ends with status 1 where one fails.

    python3 tools/compute/lawful_programs.py . 7 10000
"""
import sys

import js
import lawbook
import lawful_laws as lawful
import random_trees
import script_laws
import script_premises
import trees
from lawbook import D
from naming import Renaming
from naming_laws import writable_and_well_scoped

# the rough number of nodes of the largest
BIGGEST = 16
# goals, with where programs come from and what they meet, and whether ids are preserved
CASES = [(goal, source, meets, preserves)
         for goal, source, meets in (('module', lawbook.well_scoped_module, writable_and_well_scoped), ('script', script_laws.well_scoped_script, lawful.is_plain_script))
         for preserves in (False, True)]


def faster():
    """a tree is asked once what a definition says of it"""
    script_premises.faster()
    for module, name in ((D.grammar.Normal, 'normal_form'), (D.grammar.Writable, 'is_writable'), (D.node.Fits, 'fits')):
        setattr(module, name, script_premises.kept_by_identity(getattr(module, name)))


def some_ids(random, t):
    """ids of the tree that keep apart, at least one; none where four draws gave no such"""
    ids, bound = sorted({x for _, _, x in lawful.analysed(t).ids}), sorted(lawful.analysed(t).bound)
    for _ in range(4):
        of, share = random.pick([ids, bound]), random.pick([0.2, 0.5, 1])
        keeps = [x for x in of if random.chance(share)]
        if keeps and lawful.keeps_apart(t, set(keeps)):
            return keeps
    return ()


def setting(random, preserves):
    """the number of a renamer among all of the kinds and flags, and the renamer"""
    number = random.below(4 * len(lawful.TEXTS))
    return number, list(lawful.lawful(preserves))[number]


class Case:
    """programs of one goal, with ids preserved or not: how many were made and met the premises, and what failed"""
    def __init__(self, goal, source, meets, preserves, seed):
        self.name = '%ss, %s ids preserved' % (goal, 'some' if preserves else 'no')
        self.source, self.meets, self.preserves, self.random = source, meets, preserves, random_trees.Random(seed)
        self.made, self.met, self.failed = 0, 0, []

    def next(self):
        """the next program that meets the premises, with ids that it preserves"""
        while True:
            t = self.source(self.random, 2 + self.random.below(BIGGEST))
            self.made += 1
            if t is None or not self.meets(t):
                continue
            keeps = some_ids(self.random, t) if self.preserves else ()
            if keeps or not self.preserves:
                return t, keeps

    def try_next(self, settings):
        t, keeps = self.next()
        number, (name, renamer) = setting(self.random, keeps)
        settings[number] = settings.get(number, 0) + 1
        self.met += 1
        fault = lawful.whole_fault(t, renamer)
        if fault:
            self.failed.append((t, name, renamer, fault))


def show(t, name, renamer, fault):
    smallest = trees.smaller(t, lambda u: meets_and_fails(u, renamer))
    print('    %s, preserving %d ids: %s\n        %s' % (name, len(renamer.preserves), js.text(smallest), fault))


def meets_and_fails(t, renamer):
    is_right = writable_and_well_scoped(t) if lawbook.is_module(t) else lawful.is_plain_script(t)
    return bool(is_right and lawful.keeps_apart(t, set(renamer.preserves)) and lawful.whole_fault(t, renamer))


def report(cases, settings):
    for case in cases:
        print('%-30s %6d trees, %6d met the premises, %d fail' % (case.name, case.made, case.met, len(case.failed)))
    print('%d programs by %d of %d renamers, each for at least %d' % (sum(settings.values()), len(settings), 4 * len(lawful.TEXTS), min(settings.values())), flush=True)


def main():
    checkout, seed, count = sys.argv[1], int(sys.argv[2]), int(sys.argv[3])
    lawbook.load(checkout)
    faster()
    cases, settings = [Case(*case, seed) for case in CASES], {}
    for turn in range(count // len(cases)):
        for case in cases:
            case.try_next(settings)
        if turn % 250 == 249:
            report(cases, settings)
    report(cases, settings)
    failed = [fault for case in cases for fault in case.failed]
    for fault in failed[:5]:
        show(*fault)
    return 1 if failed else 0


if __name__ == '__main__':
    sys.exit(main())
