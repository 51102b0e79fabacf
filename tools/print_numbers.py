#!/usr/bin/env python3
"""Prints the proof that kinds and words are told apart by their numbers and names, from the table's definition.

print_numbers.py: writes crates/jsbase_form/proofs/Numbers.antt from crates/swc_tree_node/specs/Table.antt; run it
after print_table.py."""

import os
import re

ROOT = os.path.dirname(os.path.dirname(os.path.abspath(__file__)))
TABLE = os.path.join(ROOT, 'crates', 'swc_tree_node', 'specs', 'Table.antt')
NUMBERS = os.path.join(ROOT, 'crates', 'jsbase_form', 'proofs', 'Numbers.antt')

HEAD = '''-- Kinds and words are told apart by their numbers, and by how they are written.
--
-- Printed by tools/print_numbers.py from crates/swc_tree_node/specs/Table.antt.
use Rattle.std.proofs.Common.{◌≡◌, List, [], ◌∷◌, true, Some, slice_index_or, bytes_eq, refl, sym, ap, ◌∙◌}
use Rattle.std.specs.List.{find}
use Rattle.std.proofs.lemmas.Slice.Eq.{bytes_eq-Decides}
use Rattle.swc_tree_node.specs.declared.kind.Kind.{Kind}
use Rattle.swc_tree_node.specs.declared.kind.Kind.TheVariants as kind
use Rattle.swc_tree_node.specs.declared.kind.Word.{Word}
use Rattle.swc_tree_node.specs.declared.kind.Word.TheVariants as word
use Rattle.swc_tree_node.specs.Table.{kind_number, name_of, word_number, spelling_of}
'''

PART = '''
{all} : List {Type}
{all} = {items} ∷ []

{name}_back : (x : {Type}) → slice_index_or {all} ({number} x) {first} ≡ x
unfolding {all}
{name}_back {first} = refl
{name}_back _ = refl

pub same_{name} : (x y : {Type}) → {number} x ≡ {number} y → x ≡ y
same_{name} x y e = sym ({name}_back x) ∙ ap (λ n. slice_index_or {all} n {first}) e ∙ {name}_back y

{name}_found : (x : {Type}) → find (λ z. bytes_eq ({text} z) ({text} x)) {all} ≡ Some x
unfolding {all}
{name}_found {first} = refl
{name}_found _ = refl

pub {name}_told : (x y : {Type}) → bytes_eq ({text} x) ({text} y) ≡ true → x ≡ y
{name}_told x y e =
    let same : {text} x ≡ {text} y = (bytes_eq-Decides ({text} x) ({text} y)).0 e in
    let both = sym ({name}_found x) ∙ ap (λ t. find (λ z. bytes_eq ({text} z) t) {all}) same ∙ {name}_found y in
    cc
'''


def numbered(table, function):
    return re.findall(r'^%s (\S+) = \d+$' % function, table, re.M)


def part(table, name, type_, text):
    items = numbered(table, name + '_number')
    return PART.format(all=name + 's', Type=type_, name=name, number=name + '_number', text=text,
                       first=items[0], items=' ∷ '.join(items))


def main():
    with open(TABLE, encoding='utf-8') as file:
        table = file.read()
    with open(NUMBERS, 'w', encoding='utf-8') as file:
        file.write(HEAD + part(table, 'kind', 'Kind', 'name_of')
                   + part(table, 'word', 'Word', 'spelling_of'))


if __name__ == '__main__':
    main()
