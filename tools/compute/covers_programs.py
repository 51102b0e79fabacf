"""covers_programs.py CHECKOUT [--programs N] [--seed S] [--biggest B] [--program FILE]: programs, about half of them spoilt, and the word
for the first premise of a chain's promise that fails, by the relations of `scoping.py`.

Without a program it writes rows of three lines: the words of a command, an envelope, and the word. With one (`crates/jsbase/out/jsbase`)
it runs that on each and compares the words; the line that it prints last says how many there were of each word.
"""
import argparse
import json
import random as chance
import subprocess
import sys

import alpha_laws
import js
import lawbook
import random_trees
import scoping
import script_laws
import trees
import units
from alpha_pairs import json_of
from js_nodes import node_of
from lawbook import D

TYPES = ('TsInterfaceDecl', 'TsTypeAliasDecl', 'TsEnumDecl', 'TsModuleDecl')
GLOBAL_VALUES = tuple(map(js.codes, ('undefined', 'NaN', 'Infinity')))


def has_types(t):
    return t[0] == 'Tree' and t[1] in TYPES or any(map(has_types, trees.kids(t)))


def declares_global(names):
    return any(names.name(p) in GLOBAL_VALUES and scoping.taker(names, r, p) == () for p, r, _ in scoping.Binds(names))


def of_scripts(t, names):
    """the words of what is asked of a script alone, with whether each holds"""
    yield 'function', not scoping.Stands(names, 'SloppyFunction')
    yield 'label', script_laws.labels_no_function(t)
    yield 'global', not declares_global(names)
    yield 'repeated', not script_laws.repeats(scoping.by_ids(D.all, t))


def of_names(t):
    by_texts = scoping.by_texts(D.all, t)
    yield 'export', scoping.ExportsDeclared(by_texts)
    yield 'twice', scoping.NoneTwice(by_texts)
    yield 'variable', scoping.NoVariablePasses(by_texts, by_texts.defined('is_lexical'))
    yield 'parameter', scoping.NoParameterTwice(by_texts)
    yield 'eval', scoping.NoEvalOrArguments(D.all, t)


def asked(t, options):
    yield 'types', not has_types(t)
    yield 'context', scoping.IsClean(D.all, t)
    yield 'written', D.grammar.Writable.is_writable(t)
    yield 'classes', 'keepClassNames' not in options
    yield 'reads', 'ignoreEval' in options or not units.HasEval(D.all, t)
    if t[1] == 'Script':
        yield from of_scripts(t, scoping.Program(D.all, t))
    yield from of_names(t)


def gap(t, options=()):
    """the word for the first that fails; None where all holds"""
    return next((word for word, holds in asked(t, options) if not holds), None)


# what spoils a program where it stands among its items, or in one of its blocks, for the goals that take it
STATEMENTS = {
    'function': '{ function spoilt() {} }', 'label': 'spoilt: function g() {}', 'global': 'var undefined;', 'repeated': '(function (a, b, [a]) {});',
    'twice': 'let spoilt; function h(spoilt) {} let spoilt;', 'variable': '{ let spoilt; { var spoilt; } }', 'parameter': '(a, { b, c: [a] }) => b;',
    'eval': '(function arguments() {});', 'reads': '(0, (eval))(a); (eval)(a);', 'with': 'with (a) b;', 'caught': 'try {} catch (e) { for (var e of a); }',
    'method': '({ m(a, a) {} });', 'setter': '({ set s([a, a]) {} });', 'loop': 'for (let spoilt of a) { var spoilt; }', 'cases': 'switch (a) { case 0: let b; default: function b() {} }',
    'class': 'class spoilt {} { var spoilt; }', 'branch': 'if (a) function spoilt() {}', 'strict': '(function () { "use strict"; (function (a, a) {}); });',
}
OF_MODULES = {'export': 'export { spoilt as b };', 'import': 'import { a as spoilt } from "m"; var spoilt;', 'functions': 'function spoilt() {} var spoilt;'}


def parsed(text, goal):
    try:
        return list((js.module if goal == 'Module' else js.script)(text)[2][1][1])
    except (SyntaxError, IndexError, AttributeError, TypeError, ValueError, KeyError):
        return None


def bodies(t):
    """the paths of the lists of a program's items, and of those of its blocks"""
    return [(1,)] + [p + (1,) for p, node in trees.paths(t) if node[:2] == ('Tree', 'BlockStmt')]


def with_statements(t, choices):
    """a program with statements that spoil it, at some place in a list of items"""
    ways = dict(STATEMENTS, **(OF_MODULES if t[1] == 'Module' else {}))
    way = choices.choice(sorted(ways))
    new = parsed(ways[way], t[1])
    path = (1,) if way in OF_MODULES else choices.choice(bodies(t))
    if new is None:
        return None
    items = list(trees.at(t, path)[1])
    place = choices.randint(0, len(items))
    return way, trees.put(t, path, ('List', tuple(items[:place] + new + items[place:])))


def with_context(t, choices):
    ps = [p for p, _ in lawbook.identifiers(t)]
    if not ps:
        return None
    path = choices.choice(ps)
    return 'context', lawbook.with_text(t, path, trees.at(t, path)[2].sym, (2,))


def with_word(t, choices):
    """a program with another text for one of its identifiers: a word, or a name that is not to be declared"""
    ps = [p for p, _ in lawbook.identifiers(t)]
    if not ps:
        return None
    text = choices.choice(['class', 'let', 'await', '', '1', 'eval', 'arguments', 'undefined', 'NaN', 'Infinity'])
    return 'word', lawbook.with_text(t, choices.choice(ps), js.codes(text))


def an_enum():
    name = ('Identifier', 'Ident', js.REC(span=trees.SPAN[1], ctxt=(), sym=js.codes('spoilt')))
    return ('Tree', 'TsEnumDecl', (trees.SPAN, name, ('List', ())))


def with_type(t, choices):
    path = choices.choice(bodies(t))
    items = list(trees.at(t, path)[1])
    place = choices.randint(0, len(items))
    return 'type', trees.put(t, path, ('List', tuple(items[:place] + [an_enum()] + items[place:])))


def spoilt(t, choices):
    """the way in which a program was spoilt, and that program"""
    make = choices.choices([with_statements, with_context, with_word, with_type], [12, 1, 3, 1])[0]
    return make(t, choices)


def envelope(t, options):
    members = {'marks': [[1, 0], [2, 0]], 'unresolved': 1, 'top': 2}
    members.update((option, True) for option in options)
    return json.dumps(dict(members, tree=json_of(node_of(t))), separators=(',', ':'))


def programs(wanted):
    random, choices, made = random_trees.Random(wanted.seed), chance.Random(wanted.seed), 0
    while made < wanted.programs:
        t, way = alpha_laws.clean_tree(random, 6 + int((wanted.biggest - 6) * (made % 300) / 300)), 'as made'
        if t is not None and choices.random() < 0.5:
            found = spoilt(t, choices)
            way, t = found or (way, None)
        if t is None or not lawbook.fits_place(t):
            continue
        made += 1
        options = [option for option, often in (('keepClassNames', 0.04), ('ignoreEval', 0.2)) if choices.random() < often]
        yield way, t, options


def told(program, words, line):
    """the word that a program says of an envelope; None where it says that the promise covers it"""
    done = subprocess.run([program] + words, input=line + '\n', capture_output=True, text=True)
    if done.returncode:
        return done.stderr.strip()
    answer = json.loads(done.stdout)
    return None if answer['covered'] else answer['gap']


def main():
    parser = argparse.ArgumentParser(description=__doc__, formatter_class=argparse.RawDescriptionHelpFormatter)
    parser.add_argument('checkout')
    parser.add_argument('--programs', type=int, default=300)
    parser.add_argument('--seed', type=int, default=1)
    parser.add_argument('--biggest', type=int, default=40)
    parser.add_argument('--program')
    wanted = parser.parse_args()
    lawbook.load(wanted.checkout)
    counts, differ = {}, 0
    for way, t, options in programs(wanted):
        words, line, word = ['covers', t[1].lower()], envelope(t, options), gap(t, options)
        counts[word or 'covered'] = counts.get(word or 'covered', 0) + 1
        if not wanted.program:
            print('\n'.join([' '.join(words), line, word or 'covered']))
            continue
        found = told(wanted.program, words, line)
        if found != word:
            differ += 1
            print('%s, %s: wanted %s, found %s\n    %s\n    %s' % (' '.join(words), way, word or 'covered', found or 'covered', js.text(t), line), flush=True)
    print(', '.join('%s %d' % (word, count) for word, count in sorted(counts.items())), file=sys.stdout if wanted.program else sys.stderr)
    if wanted.program:
        print('%d programs, %d differ' % (sum(counts.values()), differ))
    return 1 if differ else 0


if __name__ == '__main__':
    sys.exit(main())
