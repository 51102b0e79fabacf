"""units_vectors.py CHECKOUT FOLDER: what the definitions make of trees whose answers are known, compared exactly, spans too.

A case of the folder is five files: NAME (standard input, an envelope of JSON), NAME.args, NAME.status, NAME.stdout and
NAME.stderr. What was refused is only said.
"""
import json
import os
import sys

import js
import units
from json_trees import first_difference, tree_in
from lawbook import D, is_module, load
from naming import hygiene
from naming_rows import cleared


class Case:
    """a case that is not refused"""
    def __init__(self, base):
        with open(base, 'rb') as file:
            given = json.load(file)
        with open(base + '.stdout', 'rb') as file:
            self.answer = json.load(file)
        self.tree, self.wanted = tree_in(given['tree']), tree_in(self.answer['tree'])
        self.marks = units.Marks(given['marks'], given['top'])
        self.keeps, self.ignores = bool(given.get('keepClassNames')), bool(given.get('ignoreEval'))

    def reads(self):
        return not self.ignores and units.HasEval(D.all, self.tree)

    def hygienic(self):
        return cleared(units.renamed_by_units(D.all, self.tree, hygiene(), self.marks, self.keeps, self.ignores))


def text_of(base, ending):
    with open(base + ending, encoding='utf-8') as file:
        return file.read().strip()


def tried(base):
    """what kind of case it is, and words for a disagreement"""
    if text_of(base, '.status') != '0':
        return 'refused', None
    if text_of(base, '.args').split()[0] != 'hygiene':
        return 'other', None
    case = Case(base)
    found = first_difference(case.hygienic(), case.wanted)
    kind = 'plain' if not case.reads() else 'units' if units.outermost(D.all, case.tree) else 'top'
    kind += ' keeps' if case.keeps else ''
    return kind, found and '%s %s\n    at %s: %s\n    wanted: %s' % (
        js.text(case.tree), 'module' if is_module(case.tree) else 'script', found[0], js.text(case.hygienic()), js.text(case.wanted))


def main(words):
    if len(words) != 2:
        print(__doc__)
        return 2
    load(words[0])
    counts, disagreements = {}, 0
    for name in sorted(name for name in os.listdir(words[1]) if '.' not in name):
        base = os.path.join(words[1], name)
        kind, fault = tried(base)
        counts[kind] = counts.get(kind, 0) + 1
        if kind == 'refused':
            print('%s: status %s, %s' % (name, text_of(base, '.status'), text_of(base, '.stderr')))
        if fault:
            disagreements += 1
            print('%s: %s' % (name, fault))
    print(', '.join('%d %s' % (count, kind) for kind, count in sorted(counts.items())) + '; %d disagree' % disagreements)
    return 1 if disagreements else 0


if __name__ == '__main__':
    sys.exit(main(sys.argv[1:]))
