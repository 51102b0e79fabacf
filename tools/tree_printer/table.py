"""The table, in the crate swc_tree_node: kinds, classes and words, and what stands in each field."""
from tree_printer.forms import KEYWORDS, snake

PRINTED = 'Printed by tools/print_table.py from tools/tree.txt.'


def content(tree, type_):
    """What one node or leaf of a field must be: the variant of `Content`, and what it names."""
    if type_ in ('Span', 'Text', 'Flag'):
        return type_, None
    return ('Word' if type_ in tree.words else 'Node'), type_


def rust_content(tree, type_):
    variant, of = content(tree, type_)
    if of is None:
        return 'Content::' + variant
    return 'Content::%s(%s::%s)' % (variant, 'WordClass' if variant == 'Word' else 'Class', of)


def spec_content(tree, type_):
    variant, of = content(tree, type_)
    if of is None:
        return 'content.' + variant
    return '(content.%s %s.%s)' % (variant, 'word_class' if variant == 'Word' else 'class', of)


def rust_slot(tree, field):
    return 'Slot::' + (field.slot if field.slot == 'Pairs' else '%s(%s)' % (field.slot, rust_content(tree, field.type)))


def spec_slot(tree, field):
    return 'slot.' + (field.slot if field.slot == 'Pairs' else '%s %s' % (field.slot, spec_content(tree, field.type)))


def rust_enum(doc, name, variants):
    return '/// %s\n#[derive(Clone, Copy, PartialEq, Eq)]\npub enum %s {\n%s}\n' % (
        doc, name, ''.join('    %s,\n' % v for v in variants))


def kind_rt(tree):
    return '\n'.join([
        '//! The kinds of nodes, the classes of what may stand in one place, and the words of operators.\n'
        '//!\n//! Printed by tools/print_table.py from tools/tree.txt.\n',
        rust_enum('What a node is: the struct of the syntax tree that it stands for.', 'Kind', tree.structs),
        rust_enum('What a place takes: one struct, or one of the structs of a sum.', 'Class', tree.classes()),
        rust_enum('A word that a node holds: an operator or the keyword of a declaration.', 'Word', tree.spellings()),
        rust_enum('Which words a place takes.', 'WordClass', tree.words),
    ])


def rust_match(name, doc, argument, type_, result, ensures, arms):
    """A function that answers by one `match` of all variants."""
    return '/// %s\npub fn %s(%s: %s) -> %s\n    ensures { %s }\n{\n    match %s {\n%s    }\n}\n' % (
        doc, name, argument, type_, result, ensures, argument, ''.join('        %s => %s,\n' % arm for arm in arms))


def rust_lookup(name, doc, argument, type_, result, ensures, rows):
    """A function that answers by a row for each variant, in the order of the variants: one `match` of so many arms is
    dear to prove. Of rows that are lists themselves the prover makes too much, and the toolchain's own compiler too."""
    table = name.upper()
    return 'static %s: [%s; %d] = [%s];\n\n/// %s\npub fn %s(%s: %s) -> %s\n    ensures { %s }\n{\n    %s[%s as usize]\n}\n' % (
        table, result.replace("&'static ", '&'), len(rows), ', '.join(rows), doc, name, argument, type_, result, ensures, table, argument)


def module_of(family):
    """The module of the table that has the fields of a family's structs."""
    return family.removeprefix('swc_tree_')


def fields_rt(tree, family):
    """The fields of each struct of a module of the table, each a constant."""
    structs = [s for s in tree.of_table(family) if s.fields]
    rows = {s.name: ''.join('Field { key: "%s", slot: %s, role: Role::%s },' % (f.key, rust_slot(tree, f), f.role)
                            for f in s.fields) for s in structs}
    body = ''.join('\npub(super) const %s: &[Field] = &[%s];\n' % (snake(name).upper(), row) for name, row in rows.items())
    kinds = [name for name in ('Class', 'WordClass') if name + '::' in body]
    return ('//! Fields: %s\n//!\n//! %s\n' % (tree.families[family].doc, PRINTED)
            + ('use crate::kind::{%s};\n' % ', '.join(kinds) if kinds else '')
            + 'use crate::slot::{Content, Field, Role, Slot};\n' + body)


def with_fields(tree, family):
    """The structs of a module of the table that have fields."""
    return [s for s in tree.of_table(family) if s.fields]


def indices_rt(tree, family):
    """Where each field of a struct stands among its fields, for each struct of a module of the table."""
    modules = ''.join('\n/// %s\npub mod %s {\n%s}\n' % (
        s.doc, index_module(s), ''.join('    pub const %s: usize = %d;\n' % (f.name.upper().rstrip('_'), i) for i, f in enumerate(s.fields)))
                      for s in with_fields(tree, family))
    return '//! Where fields stand: %s\n//!\n//! %s\n' % (tree.families[family].doc, PRINTED) + modules


def index_module(struct):
    name = snake(struct.name)
    return name + ('_' if name in KEYWORDS else '')


def all_indices_rt(tree):
    modules = sorted(map(module_of, tree.tables()))
    names = {module_of(family): sorted(index_module(s) for s in with_fields(tree, family)) for family in tree.tables()}
    return ('//! Where each field of a kind stands among its fields, by its name: `if_stmt::ALT`.\n//!\n//! %s\n' % PRINTED
            + ''.join('pub mod %s;\n' % module for module in modules) + '\n'
            + ''.join('pub use %s::{%s};\n' % (module, ', '.join(names[module])) for module in modules))


def table_rt(tree):
    imports = ('ghost use Rattle.std.specs.Prelude.{◌≡◌, map};\n'
               'ghost use Rattle.swc_tree_node.specs.Table.{name_of, fields_of, words_of, spelling_of, is_identifier};\n\n'
               + ''.join('mod %s;\n' % module for module in sorted(['classes'] + [module_of(family) for family in tree.tables()])) + '\n'
               'pub use classes::kinds_of;\n\n'
               'use crate::kind::{Kind, Word, WordClass};\nuse crate::slot::Field;\n')
    fields = [('Kind::' + s.name, '%s::%s' % (module_of(tree.families[s.family].table), snake(s.name).upper()))
              for s in tree.structs.values() if s.fields]
    fields.append((' | '.join('Kind::' + s.name for s in tree.structs.values() if not s.fields), '&[]'))
    identifiers = ' | '.join('Kind::' + s.name for s in tree.structs.values() if s.identifier)
    return '\n'.join([
        '//! The table: what each kind of node is called and holds.\n//!\n//! %s\n' % PRINTED,
        imports,
        rust_lookup('name_of', 'The name of the struct, as it stands in JSON.', 'kind', 'Kind', "&'static str",
                    'result.now ≡ name_of kind', ['"%s"' % s for s in tree.structs]),
        rust_match('fields_of', 'The fields of a kind, in the order in which they are read. An identifier has none here.',
                   'kind', 'Kind', "&'static [Field]",
                   'map (λ f. (f.key.now, f.slot, f.role)) result.now ≡ fields_of kind', fields),
        rust_lookup('words_of', 'The words of a place.', 'words', 'WordClass', "&'static [Word]",
                    'result.now ≡ words_of words',
                    ['&[%s]' % ', '.join('Word::' + word for _, _, word in ws.words) for ws in tree.words.values()]),
        rust_lookup('spelling_of', 'A word as it is written.', 'word', 'Word', "&'static str",
                    'result.now ≡ spelling_of word', ['"%s"' % s for s in tree.spellings().values()]),
        '/// Whether the kind is that of an identifier.\npub fn is_identifier(kind: Kind) -> bool\n'
        '    ensures { result ≡ is_identifier kind }\n{\n    matches!(kind, %s)\n}\n' % identifiers,
    ])


def classes_rt(tree):
    return '\n'.join([
        '//! The kinds that each class takes.\n//!\n//! %s\n' % PRINTED,
        'ghost use Rattle.std.specs.Prelude.{◌≡◌};\nghost use Rattle.swc_tree_node.specs.Table.{kinds_of};\n\n'
        'use crate::kind::{Class, Kind};\n',
        rust_match('kinds_of', 'The kinds that may stand in a place of a class.', 'class', 'Class', "&'static [Kind]",
                   'result.now ≡ kinds_of class',
                   [('Class::' + c, '&[%s]' % ', '.join('Kind::' + k for k in tree.kinds_of(c))) for c in tree.classes()])])


def spec_list(items):
    return ' ∷ '.join(items + ['[]'])


def spec_cases(comment, name, type_, cases):
    return '-- %s\nabbrev pub %s : %s\n%s' % (comment, name, type_, ''.join('%s %s = %s\n' % (name, a, b) for a, b in cases))


def table_antt(tree):
    of = lambda module, name: 'use Rattle.swc_tree_node.specs.declared.%s.%s.{%s}\n' % (module, name, name)
    variants = lambda module, name, as_: 'use Rattle.swc_tree_node.specs.declared.%s.%s.TheVariants as %s\n' % (module, name, as_)
    head = ('-- The table: what each kind of node is called and holds.\n--\n-- Printed by tools/print_table.py from tools/tree.txt.\n'
            'use Rattle.std.specs.Prelude.{ℕ, List, [], ◌∷◌, codes, Bool, true, false, map}\n'
            + of('kind', 'Kind') + variants('kind', 'Kind', 'kind') + of('kind', 'Class') + variants('kind', 'Class', 'class')
            + of('kind', 'Word') + variants('kind', 'Word', 'word') + of('kind', 'WordClass') + variants('kind', 'WordClass', 'word_class')
            + variants('slot', 'Content', 'content') + of('slot', 'Slot') + variants('slot', 'Slot', 'slot')
            + of('slot', 'Role') + variants('slot', 'Role', 'role'))
    rows = []
    for s in tree.structs.values():
        rows.append(('kind.' + s.name, spec_list(['(codes "%s", %s, role.%s)' % (
            f.key, spec_slot(tree, f), f.role) for f in s.fields])))
    return '\n'.join([
        head,
        spec_cases('the name of the struct, as it stands in JSON', 'name_of', 'Kind → List ℕ',
                   [('kind.' + s, 'codes "%s"' % s) for s in tree.structs]),
        spec_cases('the kinds that may stand in a place of a class', 'kinds_of', 'Class → List Kind',
                   [('class.' + c, spec_list(['kind.' + k for k in tree.kinds_of(c)])) for c in tree.classes()]),
        spec_cases('the fields of a kind, in the order in which they are read: key, what stands there, role of an identifier there',
                   'fields_of', 'Kind → List (List ℕ × Slot × Role)', rows),
        spec_cases('the words of a place', 'words_of', 'WordClass → List Word',
                   [('word_class.' + n, spec_list(['word.' + word for _, _, word in ws.words])) for n, ws in tree.words.items()]),
        spec_cases('a word as it is written', 'spelling_of', 'Word → List ℕ',
                   [('word.' + v, 'codes "%s"' % s) for v, s in tree.spellings().items()]),
        spec_cases('whether the kind is that of an identifier', 'is_identifier', 'Kind → Bool',
                   [('kind.' + s.name, 'true') for s in tree.structs.values() if s.identifier] + [('_', 'false')]),
        spec_cases('kinds, numbered, so that two can be compared', 'kind_number', 'Kind → ℕ',
                   [('kind.' + s, str(i)) for i, s in enumerate(tree.structs)]),
        spec_cases('words, numbered', 'word_number', 'Word → ℕ',
                   [('word.' + v, str(i)) for i, v in enumerate(tree.spellings())]),
        '-- what stands in each field\nabbrev pub slots_of : Kind → List Slot\nslots_of k = map (λ f. f.1) (fields_of k)\n',
    ])


def files(tree):
    crate = 'crates/swc_tree_node/'
    printed = {crate + 'src/kind.rt': kind_rt(tree), crate + 'src/table.rt': table_rt(tree),
               crate + 'src/table/classes.rt': classes_rt(tree), crate + 'specs/Table.antt': table_antt(tree),
               crate + 'src/fields.rt': all_indices_rt(tree)}
    for family in tree.tables():
        printed[crate + 'src/table/%s.rt' % module_of(family)] = fields_rt(tree, family)
        printed[crate + 'src/fields/%s.rt' % module_of(family)] = indices_rt(tree, family)
    return printed
