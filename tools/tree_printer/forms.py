"""What stands in a field, by the form of its place: the type, and the code and the term that lead there and back."""
import re

HANDLE, MARKS, NODE = 'swc_tree_handle', 'swc_tree_marks', 'swc_tree_node'
# Names that no module may have: the module's name has an underscore after them.
KEYWORDS = {'super', 'module'}


def snake(name):
    return re.sub(r'(?<!^)([A-Z])', r'_\1', name).lower()


def spec_name(tree, name):
    """The definition that says which node an opened struct or sum is."""
    return 'of_' + snake(name) if name in tree.sums else snake(name) + '_node'


class Form:
    """A field's type, its node as a term, and what these need.

    `types` are pairs of a crate and a name that the type needs, `specs` pairs of a module of definitions and a name;
    `place` is the type that holds what stands in the field, where that is not the field's own type."""

    def __init__(self, type_, term, types=(), specs=(), place=None):
        self.type, self.term, self.types, self.specs, self.place = type_, term, set(types), set(specs), place


HANDLES = HANDLE + '.specs.Handles'


def leaf(field):
    """A span, a text or a flag."""
    rust = {'Span': 'Span', 'Text': 'Atom', 'Flag': 'bool'}[field.type]
    types = {(MARKS, rust)} - {(MARKS, 'bool')}
    if field.slot == 'Optional':
        optional = 'optional_' + field.type.lower()
        return Form('Option<%s>' % rust, '%s x.%s' % (optional, field.name), types, {(HANDLES, optional)})
    return Form(rust, 'node.%s x.%s' % (field.type, field.name), types)


def word(tree, field):
    """A word of a list of words."""
    if field.slot != 'One':
        raise SystemExit('no form for an optional word or a list of words: ' + field.key)
    words, name = tree.words[field.type], snake(field.type)
    return Form(field.type, 'node.Word (%s_word x.%s)' % (name, field.name), {(words.family, field.type)},
                {(words.family + '.specs.Nodes', name + '_word')})


def optional_type(name):
    """What a struct or nothing is in a field, as a type of the struct's own crate."""
    return 'Optional' + name


def by_value(tree, field):
    """A struct that holds no subtree."""
    spec = spec_name(tree, field.type)
    types, specs = {(owner_of(tree, field.type), field.type)}, {(spec_module(tree, field.type), spec)}
    if field.slot == 'Optional':
        place = optional_type(field.type) if field.type != 'Ident' else None
        types |= {(owner_of(tree, field.type), place)} if place else set()
        return Form('Option<%s>' % field.type, 'optional_node (option_map %s x.%s)' % (spec, field.name), types,
                    specs | {(HANDLES, 'optional_node')}, place)
    return Form(field.type, '%s x.%s' % (spec, field.name), types, specs)


def subtree(field):
    """A subtree."""
    type_, types = 'Tree<class::%s>' % field.type, {(HANDLE, 'Tree'), (HANDLE, 'class')}
    if field.slot == 'Optional':
        return Form('Option<%s>' % type_, 'optional_node x.%s' % field.name, types, {(HANDLES, 'optional_node')})
    return Form(type_, 'x.%s' % field.name, types)


def several(field):
    """A list: of subtrees, of subtrees some of which are left out, or of pairs of texts."""
    if field.slot == 'Pairs':
        type_, types = 'Pairs', {(HANDLE, 'Pairs')}
    else:
        name = 'Holes' if field.slot == 'Holes' else 'Trees'
        type_, types = '%s<class::%s>' % (name, field.type), {(HANDLE, 'class'), (HANDLE, name)}
    if field.slot in ('OptionalList', 'Pairs'):
        return Form('Option<%s>' % type_, 'optional_list x.%s' % field.name, types, {(HANDLES, 'optional_list')})
    return Form(type_, 'node.List x.%s' % field.name, types)


def form_of(tree, field):
    if not field.is_single():
        return several(field)
    if field.type in ('Span', 'Text', 'Flag'):
        return leaf(field)
    if field.type in tree.words:
        return word(tree, field)
    return by_value(tree, field) if tree.is_leaf(field.type) else subtree(field)


def owner_of(tree, name):
    """The crate that declares a struct or a sum. `Ident` stands below the tree."""
    return MARKS if name == 'Ident' else tree.entry(name).family


def spec_module(tree, name):
    return HANDLES if name == 'Ident' else tree.entry(name).family + '.specs.Nodes'
