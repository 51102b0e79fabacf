"""The page on the JSON form: what is written by hand, and of each kind its fields, their types and an example."""
import json
import os

PAGE = 'docs/JSON.md'
TEXT = 'tools/tree_printer/json_page.md'
MARKER = '(printed: kinds)\n'

# A text for an example, by the key of its field.
TEXTS = {'sym': 'a', 'text': '1', 'exp': 'a', 'flags': '', 'value': 'a', 'raw': 'a', 'cooked': 'a', 'name': 'a'}
# A variant for an example where the shortest says little.
SHORT = {'Expr': 'Ident', 'Pat': 'BindingIdent', 'Stmt': 'EmptyStmt', 'ModuleItem': 'EmptyStmt', 'Decl': 'ClassDecl',
         'PropName': 'IdentName', 'BlockStmtOrExpr': 'BlockStmt'}


# The families from programs down to names.
ORDER = ['swc_tree_' + name for name in ('modules', 'statements', 'types', 'functions', 'expressions', 'operations', 'patterns', 'leaves')]


def type_of(tree, field):
    """What may stand in a field, in words of JSON."""
    name = {'Span': 'span', 'Text': 'string', 'Flag': 'boolean'}.get(field.type, field.type)
    if field.type in tree.words:
        name = 'word of ' + field.type
    if field.slot == 'Pairs':
        return 'list of pairs of strings, or null'
    return {'One': '%s', 'Optional': '%s or null', 'List': 'list of %s', 'Holes': 'list of %s or null',
            'OptionalList': 'list of %s, or null'}[field.slot] % name


def example_of(tree, name):
    """A small value of a struct or sum."""
    if name in tree.sums:
        return example_of(tree, SHORT.get(name) or tree.kinds_of(name)[0])
    struct = tree.structs[name]
    value = {'type': name}
    if struct.identifier:
        value.update({'span': [0, 0], 'ctxt': [], 'sym': 'a'})
        return value
    for field in struct.fields:
        value[field.key] = content_of(tree, field)
    return value


def content_of(tree, field):
    """What stands in a field of an example: nothing where nothing may."""
    if field.slot in ('Optional', 'OptionalList', 'Pairs'):
        return None
    if field.slot in ('List', 'Holes'):
        return []
    if field.type == 'Span':
        return [0, 0]
    if field.type == 'Flag':
        return False
    if field.type == 'Text':
        return TEXTS.get(field.key, 'a')
    if field.type in tree.words:
        return tree.words[field.type].words[0][0]
    return example_of(tree, field.type)


def struct_lines(tree, struct):
    yield '### %s\n\n%s\n\n' % (struct.name, struct.doc)
    if struct.identifier:
        yield 'An identifier: `span`, `ctxt`: list of marks, `sym`: string.\n\n'
    elif struct.fields:
        yield '| key | type |\n|---|---|\n'
        for field in struct.fields:
            yield '| `%s` | %s |\n' % (field.key, type_of(tree, field))
        yield '\n'
    yield '    %s\n\n' % json.dumps(example_of(tree, struct.name), separators=(',', ':'))


def sum_line(tree, entry):
    return '| `%s` | %s | %s |\n' % (entry.name, entry.doc, ', '.join('`%s`' % kind for kind in tree.kinds_of(entry.name)))


def words_line(entry):
    return '| `%s` | %s | %s |\n' % (entry.name, entry.doc, ', '.join('`%s`' % spelling.replace('|', '\\|') for spelling, _, _ in entry.words))


def printed(tree):
    """The kinds by family, then the classes of kinds and of words."""
    for family in sorted(tree.families.values(), key=lambda family: ORDER.index(family.name)):
        structs = tree.of_family(family.name, tree.structs)
        if structs:
            yield '## %s\n\n' % (family.doc.rstrip('.') or family.name)
        for struct in structs:
            yield from struct_lines(tree, struct)
    yield '## Where one of several kinds may stand\n\n| class | what it is | kinds |\n|---|---|---|\n'
    for entry in tree.sums.values():
        yield sum_line(tree, entry)
    yield '\n## Words\n\n| place | what it is | spellings |\n|---|---|---|\n'
    for entry in tree.words.values():
        yield words_line(entry)


def files(root, tree):
    with open(os.path.join(root, TEXT), encoding='utf-8') as file:
        written, marker, rest = file.read().partition(MARKER)
    if not marker:
        raise SystemExit('no line that says where printing begins, in ' + TEXT)
    return {PAGE: written + ''.join(printed(tree)) + rest}
