"""by_use.py CHECKOUT FILE [--write]: what `jsbase mangle` answers on the rows of a file, by the rules of short texts by use and not by the code.

    python3 tools/compute/by_use.py . crates/gate_replay/stdin

FILE has rows of three lines: words, an envelope, what is wanted. Of those whose words are `mangle module` or `mangle script`, and that are not
refused, it prints each of which it says otherwise, with what it says, and ends with status 1 if there are any; with --write it puts that into
the file.

An id's own text, by the rules: ids of a program that are declared and do not keep their texts get slots, those of the program first, each one of
its own, then those of each scope in order, each the first slot, from that of the id before it on, which no id has that occurs in the scope or
below. Slots are in order of how often their ids occur. The texts are short ones but for those of free names, of ids that keep theirs and of
preserved ids, in order of their lengths, written in characters in order of how often they occur in all names and texts that are not renamed.
"""
import json
import sys

import js
import lawbook
import scoping
import script_laws
import units
from alpha_pairs import json_of
from grammar_laws import set_anew
from js_nodes import node_of
from json_trees import tree_in
from lawbook import D
from lawful_laws import HEAD, TAIL, has_strays, short
from naming import ARGUMENTS, EVAL, Analysis, Renaming
from trees import paths, with_identifiers

# names of the global object, which no id gets; reserved words, `eval` and `arguments` are no identifier texts
SPARED = {js.codes(name) for name in ('undefined', 'NaN', 'Infinity')}


class Known:
    """what is known of an id: how often it occurs as a name, whether it is declared somewhere, and whether it stands outside of export lists"""
    def __init__(self, keeps):
        self.keeps, self.uses, self.is_bound, self.stands_outside, self.slot = keeps, 0, False, False, None

    def leaves_text(self):
        return self.keeps or (self.stands_outside and not self.is_bound)


class Part:
    """an item of the program: its names and labels, those that its own scopes declare, and those that the program does"""
    def __init__(self, item):
        self.t = t = Analysis(D.all, item)
        in_order = sorted(t.ids, key=lambda row: t.O.turns(lambda _: (), t.tree, row[0]))
        self.names = [(p, r, x) for p, r, x in in_order if t.P.is_name_or_label(r)]
        declared = {(p, x) for _, p, x in t.declares}
        self.at_top = [x for p, r, x in self.names if t.program.S.is_binding(r) and x[0] != ARGUMENTS and (p, x) not in declared]
        self.sites = [(s, x) for s, p, x in sorted(t.declares, key=lambda row: t.key(row[:2]))]

    def times(self, p):
        """how often a name counts: twice where it is that of a function that counts as using it"""
        return len(self.t.scopes_that_see(p)) - len(self.t.around[p]) + 1

    def seen_in(self, scope):
        return [x for p, _, x in self.names if scope in self.t.scopes_that_see(p)]


class ByUse:
    """the own texts of a program's ids, where these are preserved"""
    def __init__(self, t, preserves):
        self.items, self.preserves = t[2][1][1], frozenset(preserves)
        self.parts, self.known, self.uses = [Part(item) for item in self.items], {}, []
        for part in self.parts:
            for p, r, x in part.names:
                known = self.known.setdefault(x, Known(x in self.preserves or x[0] == EVAL))
                known.uses += part.times(p) if r != 'Label' else 0
                known.is_bound = known.is_bound or part.t.program.S.is_binding(r)
                known.stands_outside = known.stands_outside or not scoping.InExportList(part.t.program, p)
        self.give_slots()

    def give(self, x, needed, first):
        """the slot of an id that is to have one, where these are needed; else the one from which it was to look"""
        known = self.known[x]
        if known.slot is not None or known.keeps:
            return first
        slot = next((slot for slot in range(first, len(self.uses)) if slot not in needed), len(self.uses))
        if slot == len(self.uses):
            self.uses.append(0)
        needed.add(slot)
        known.slot, self.uses[slot] = slot, self.uses[slot] + known.uses
        return slot

    def give_slots(self):
        needed, first = set(), 0
        for part in self.parts:
            for x in part.at_top:
                first = self.give(x, needed, first)
        for part in self.parts:
            scope, needed, first = None, set(), 0
            for s, x in part.sites:
                if s != scope:
                    scope, first = s, 0
                    needed = {self.known[y].slot for y in part.seen_in(s)} - {None}
                first = self.give(x, needed, first)

    def characters(self):
        """how often each character of short texts occurs in what stays"""
        counts = dict.fromkeys(TAIL, 0)
        for item in self.items:
            for _, node in paths(item):
                text = node[2].sym if node[0] == 'Identifier' else node[1] if node[0] == 'Text' else ()
                for code in text:
                    if chr(code) in counts:
                        counts[chr(code)] += 1
        for x, known in self.known.items():
            for code in x[0] if known.slot is not None else ():
                if chr(code) in counts:
                    counts[chr(code)] = max(counts[chr(code)] - known.uses, 0)
        return counts

    def texts(self):
        """the short texts in the order in which slots get them"""
        counts = self.characters()
        first, others = [sorted(characters, key=lambda c: -counts[c]) for characters in (HEAD, TAIL)]
        left = {x[0] for x, known in self.known.items() if known.leaves_text()} | {x[0] for x in self.preserves} | SPARED
        number = 0
        while True:
            word, rest = first[number % len(first)], number // len(first)
            while rest:
                word, rest = word + others[(rest - 1) % len(others)], (rest - 1) // len(others)
            text = js.codes(word)
            if text not in left and D.grammar.Writable.is_identifier_text(text):
                yield text
            number += 1

    def own(self):
        """id -> its own text"""
        of_slot = dict(zip(sorted(range(len(self.uses)), key=lambda slot: (-self.uses[slot], slot)), self.texts()))
        return {x: of_slot[known.slot] for x, known in self.known.items() if known.slot is not None}


def renaming(t, preserves):
    """an id's own text under the first counter, and then the other short texts in order"""
    own = ByUse(t, preserves).own()

    def text(x, n):
        its = own.get(x, short(0))
        if n == 0:
            return its
        before = short(n - 1)
        return before if its not in map(short, range(n)) else short(n)
    return Renaming(text, False, True, preserves)


def cleared(t):
    return with_identifiers(lambda i: (i.sym, ()), t)


def marks_of(envelope, source):
    """the table once the program is resolved: a fresh mark for each scope but the program"""
    top, fresh = envelope['top'], max(mark for mark, _ in envelope['marks']) + 1
    return envelope['marks'] + [[fresh + n, top] for n in range(len(scoping.Program(D.all, source).scopes) - 1)]


def mangled(envelope, source):
    """what a resolver, mangling and the fixer make of a program"""
    top = envelope['top']
    t = scoping.resolved(D.all, source, envelope['unresolved'], top, max(mark for mark, _ in envelope['marks']) + 1)
    if has_strays(t):
        return set_anew(cleared(t))
    keeps_top = envelope.get('keepTop', script_laws.is_script(t))
    preserves = sorted({x for _, _, x in Analysis(D.all, t).ids if x[1] == (top,)}) if keeps_top else ()
    marks = units.Marks(marks_of(envelope, source), top)
    return set_anew(cleared(units.renamed_by_units(D.all, t, renaming(t, preserves), marks, envelope.get('keepClassNames', False), envelope.get('ignoreEval', False))))


def answer_to(given):
    """the line that `jsbase` answers an envelope with"""
    envelope = json.loads(given)
    source = tree_in(envelope['tree'])
    members = {'marks': marks_of(envelope, source), 'top': envelope['top'], 'tree': json_of(node_of(mangled(envelope, source))), 'unresolved': envelope['unresolved']}
    return json.dumps(members, separators=(',', ':'), sort_keys=True, ensure_ascii=False)


def main():
    checkout, file = sys.argv[1:3]
    lawbook.load(checkout)
    js.setup(D.all)
    with open(file, encoding='utf-8') as text:
        lines = text.read().split('\n')
    rows = others = 0
    for at in range(0, len(lines) - 2, 3):
        words, given, wanted = lines[at:at + 3]
        if words not in ('mangle module', 'mangle script') or not wanted.startswith('{'):
            continue
        rows += 1
        said = answer_to(given)
        if said != wanted:
            others += 1
            print('line %d: %s\n%s\n%s' % (at + 1, words, js.text(tree_in(json.loads(given)['tree'])), said))
            lines[at + 2] = said
    print('%d rows, %d otherwise' % (rows, others))
    if '--write' in sys.argv:
        with open(file, 'w', encoding='utf-8') as text:
            text.write('\n'.join(lines))
    return 1 if others else 0


if __name__ == '__main__':
    sys.exit(main())
