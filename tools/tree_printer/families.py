"""The structs, the sums and the words of a family of the tree, one level deep, each family a crate."""
from tree_printer.classes import PRINTED
from tree_printer.forms import HANDLE, KEYWORDS, MARKS, NODE, form_of, optional_type, owner_of, snake, spec_module, spec_name

PRELUDE = 'Rattle.std.specs.Prelude'
SLOT_USES = ('ghost use Rattle.swc_tree_node.specs.declared.slot.Slot.TheVariants.{%s};\n'
             'ghost use Rattle.swc_tree_node.specs.declared.slot.Content.TheVariants.{%s as Of};\n'
             'ghost use Rattle.swc_tree_node.specs.Fits.{%s};\n')
FIT = 'swc_tree_node::proofs::Fit::'


def module_of(name):
    return snake(name) + ('_' if snake(name) in KEYWORDS else '')


def use_lines(family, uses):
    """The imports of a file of a crate, from pairs of a crate and a name."""
    paths = {}
    for crate, name in uses:
        path = 'crate::' + module_of(name) if crate == family else crate
        paths.setdefault(path, set()).add(name)
    order = sorted(paths, key=lambda path: (path.split('::')[0] != 'crate', path))
    return ''.join('use %s::{%s};\n' % (path, ', '.join(sorted(paths[path], key=str.lower))) for path in order)


def opened_impl(entry, tree, tactic, from_node, into_node):
    """An `impl Opened`, from the bodies of its two functions."""
    name, spec = entry.name, spec_name(tree, entry.name)
    return '''
impl Opened<class::%(name)s> for %(name)s {
    ghost class = { class.%(name)s };

    ghost node = { %(spec)s };

%(tactic)s    fn from_node(closed: Node) -> %(name)s
        requires { Fits closed (One (Of class.%(name)s)) }
        ensures { %(spec)s result ≡ closed }
    {
%(from_node)s    }

    fn into_node(self, alloc: Global) -> Result<Node, AllocError>
        ensures { IfOk result (λ closed. (closed ≡ %(spec)s self) × Fits closed (One (Of class.%(name)s))) }
    {
%(into_node)s    }
}
''' % {'name': name, 'spec': spec, 'tactic': tactic, 'from_node': from_node, 'into_node': into_node}


def opened_head(family, tree, entry, uses):
    held = tree.held_as(entry.name)
    slots = ', '.join(slot for slot in ('One', 'Optional') if slot == 'One' or slot in held)
    uses = uses | {('std::alloc', 'AllocError'), ('std::alloc', 'Global'), (NODE, 'Kind'), (NODE, 'Node'), (HANDLE, 'Opened'),
                   (HANDLE, 'class')}
    optional = ('ghost use Rattle.std.specs.Option.{option_map};\n'
                'ghost use Rattle.swc_tree_handle.specs.Handles.{optional_node};\n') if 'Optional' in held else ''
    return ('//! %s\n' % PRINTED + 'ghost use %s.{◌≡◌, IfOk};\n' % PRELUDE
            + 'ghost use Rattle.swc_tree_node.specs.declared.kind.Class.TheVariants as class;\n'
            + SLOT_USES % (slots, 'Node', 'Fits') + optional
            + 'ghost use Rattle.%s.specs.Nodes.{%s};\n\n' % (family, spec_name(tree, entry.name))
            + use_lines(family, uses | ({(HANDLE, 'Place')} if held else set())) + '\n')


# How many fields a struct has, in words.
COUNTS = {1: 'one', 2: 'two', 3: 'three', 4: 'four', 5: 'five'}


# The copy of a struct by one call for its fields: derived, each field would be a call that drops the copies before it.
CLONE = '''
impl Clone for %(name)s {
    ghost is_clone = { λ it copy. copy ≡ it };

    fn clone(&self) -> Result<%(name)s, AllocError> {
        let (%(keys)s) = clone_%(count)s(%(fields)s)?;
        Ok(%(name)s { %(keys)s })
    }
}
'''


def takes_memory(tree, forms):
    """Whether each copy of the fields asks for memory, whatever they hold; a derived `Clone` also says where none does."""
    return any(form.type not in tree.words and not form.type.startswith(('Option<', 'Span', 'bool')) for form in forms)


def struct_rt(tree, struct):
    forms = [form_of(tree, field) for field in struct.fields]
    names = [field.name for field in struct.fields]
    name, keys, count = struct.name, ', '.join(names), COUNTS[len(names)]
    row = '(%s)' % keys if len(names) > 1 else keys
    places = ', '.join(form.place or '_' for form in forms)
    opened = ', '.join('%s: %s.held' % (f.name, f.name) if form.place else f.name for f, form in zip(struct.fields, forms))
    closed = ', '.join('%s { held: %s }' % (form.place, f.name) if form.place else f.name for f, form in zip(struct.fields, forms))
    uses = set().union(*(form.types for form in forms)) | {(HANDLE, 'open_' + count), (HANDLE, 'close_' + count)}
    clones = len(names) > 1 and takes_memory(tree, forms)
    uses |= {(HANDLE, 'clone_' + count)} if clones else set()
    declared = '/// %s\n#[derive(%sDebug, Drop, PartialEq, Eq)]\npub struct %s {\n%s}\n' % (
        struct.doc, '' if clones else 'Clone, ', name,
        ''.join('    pub %s: %s,\n' % (f.name, form.type) for f, form in zip(struct.fields, forms)))
    copied = CLONE % {'name': name, 'keys': keys, 'count': count, 'fields': ', '.join('&self.' + key for key in names)}
    from_node = '''        let %s = open_%s::<class::%s, %s>(closed, Kind::%s);
        %s { %s }
''' % (row, count, name, places, name, name, opened)
    into_node = '''        let %s { %s } = self;
        close_%s::<class::%s, %s>(alloc, Kind::%s, %s)
''' % (name, keys, count, name, places, name, '(%s)' % closed if len(names) > 1 else closed)
    return (opened_head(struct.family, tree, struct, uses) + declared + (copied if clones else '')
            + opened_impl(struct, tree, '', from_node, into_node) + place_impls(tree, struct))


PLACE = '''
impl Place for %(type)s {
    ghost slot = { %(slot)s (Of class.%(name)s) };

    ghost node = { %(node)s };

    fn taken(closed: Node) -> %(type)s {
        %(taken)s
    }

    fn given(self, alloc: Global) -> Result<Node, AllocError> {
        %(given)s
    }
}
'''

# An impl of a foreign trait has to name a type of its own crate, which `Option<Str>` is not.
OPTIONAL = '''
/// A `%(name)s`, or nothing: what stands in a field that may be absent.
#[derive(Drop)]
pub struct %(type)s {
    pub held: Option<%(name)s>,
}
'''


def place_impls(tree, struct):
    """What lets a struct stand in a field by value, for each way in which one does."""
    name, spec = struct.name, spec_name(tree, struct.name)
    impls = ''
    if 'One' in tree.held_as(name):
        impls += PLACE % {'type': name, 'slot': 'One', 'name': name, 'node': spec, 'taken': name + '::from_node(closed)',
                          'given': 'self.into_node(alloc)'}
    if 'Optional' in tree.held_as(name):
        type_ = optional_type(name)
        impls += (OPTIONAL + PLACE) % {
            'type': type_, 'slot': 'Optional', 'name': name, 'node': 'λ place. optional_node (option_map %s place.held)' % spec,
            'taken': '%s { held: %s::from_optional(closed) }' % (type_, name), 'given': '%s::into_optional(self.held, alloc)' % name}
    return impls


def identifier_rt(tree, struct):
    name = struct.name
    declared = '/// %s\n#[derive(Clone, Debug, Drop, PartialEq, Eq, Hash)]\npub struct %s {\n    pub id: Ident,\n}\n' % (struct.doc, name)
    from_node = '''        %s { id: Tree::<class::%s>::from_node(closed).into_identifier(Kind::%s) }
''' % (name, name, name)
    into_node = '''        let tree = Tree::<class::%s>::from_identifier(alloc, Kind::%s, self.id)?;
        Ok(tree.into_node())
''' % (name, name)
    return (opened_head(struct.family, tree, struct, {(MARKS, 'Ident'), (HANDLE, 'Tree')}) + declared
            + opened_impl(struct, tree, '', from_node, into_node) + place_impls(tree, struct))


# Beyond so many kinds the last variant of a sum takes all kinds that the others leave.
WIDE = 12


def has_wide_end(tree, sum_):
    return len(tree.kinds_of(sum_.variants[-1].member)) > WIDE


WIDE_PROOF = '''-- The kinds that the variants before leave are those of the last one.
--
-- %(printed)s
use Rattle.swc_tree_handle.proofs.Handles.{other, is_of_kind}
use Rattle.swc_tree_node.specs.declared.kind.Class.TheVariants as class
use Rattle.swc_tree_node.specs.declared.kind.Kind.TheVariants as kind
use Rattle.%(module)s.Goals as goal

pub narrow-requires-in_default : goal.narrow-requires-in_default
narrow-requires-in_default c = is_of_kind _ _ class.%(last)s c.kind.ensures.is (%(left)s)
'''


def wide_proof(tree, sum_):
    """The path and the text of the proof that the last variant of a sum takes what the others leave."""
    last = sum_.variants[-1].member
    left, seen = 'c.kind.ensures.belongs', []
    for variant in sum_.variants[:-1]:
        seen += [kind for kind in tree.kinds_of(variant.member) if kind not in seen]
    if set(seen) & set(tree.kinds_of(last)):
        raise SystemExit('a kind of the last variant is a kind of another, in ' + sum_.name)
    for kind in seen:
        left = 'other _ kind.%s _ (%s) c.in_default.not-%s' % (kind, left, kind)
    function = '%s/%sOpenedClass%s/from_node' % (module_of(sum_.name), sum_.name, sum_.name)
    module = '%s.proofs.%s' % (sum_.family, function.replace('/', '.'))
    return ('crates/%s/proofs/%s/Answers.antt' % (sum_.family, function),
            WIDE_PROOF % {'printed': PRINTED, 'module': module, 'last': last, 'left': left})


def sum_rt(tree, sum_):
    name = sum_.name
    declared = '/// %s\n#[derive(Clone, Debug, Drop, PartialEq, Eq)]\npub enum %s {\n%s}\n' % (
        sum_.doc, name, ''.join('    %s(%s),\n' % (v.name, 'Tree<class::%s>' % v.member if v.is_subtree else v.member)
                                for v in sum_.variants))
    arms, seen = '', set()
    for variant in sum_.variants:
        kinds = [kind for kind in tree.kinds_of(variant.member) if kind not in seen]
        seen.update(kinds)
        if kinds:
            takes_rest = variant is sum_.variants[-1] and has_wide_end(tree, sum_)
            arms += '            %s => %s::%s(tree.narrow%s),\n' % (
                '_' if takes_rest else ' | '.join('Kind::' + kind for kind in kinds), name, variant.name,
                '()' if variant.is_subtree else '::<class::%s>().open()' % variant.member)
    if not has_wide_end(tree, sum_):
        arms += '            _ => unreachable!(),\n'
    from_node = '''        let tree = Tree::<class::%s>::from_node(closed);
        match tree.kind() {
%s        }
''' % (name, arms)
    into_node = '''        match self {
%s        }
''' % ''.join('            %s::%s(%s,\n' % (name, v.name, ('tree) => Ok(tree.widen::<class::%s>().into_node())' if v.is_subtree else 'opened) => opened.close_within::<class::%s>(alloc)') % name)
              for v in sum_.variants)
    uses = {(owner_of(tree, v.member), v.member) for v in sum_.variants if not v.is_subtree} | {(HANDLE, 'Tree')}
    return opened_head(sum_.family, tree, sum_, uses) + declared + opened_impl(sum_, tree, '', from_node, into_node)


WORDS = '''//! %(printed)s
ghost use %(prelude)s.{◌≡◌, IsTrue};
ghost use Rattle.swc_tree_node.specs.declared.kind.WordClass.TheVariants as word_class;
ghost use Rattle.swc_tree_node.specs.declared.node.Node.TheVariants as leaf;
%(slots)sghost use Rattle.%(family)s.specs.Nodes.{%(spec)s};

use std::alloc::{AllocError, Global};
use swc_tree_handle::Place;
use swc_tree_node::{Node, Word};

/// %(doc)s
#[derive(Clone, Copy, Debug, PartialEq, Eq, Hash)]
pub enum %(name)s {
%(variants)s}

impl %(name)s {
    /// The word.
    pub fn word(self) -> Word
        ensures is { result ≡ %(spec)s self }
        ensures among { IsTrue (is_among result word_class.%(name)s) }
    {
        match self {
%(to)s        }
    }

    /// What the word is here.
    pub fn from_word(word: Word) -> %(name)s
        requires { IsTrue (is_among word word_class.%(name)s) }
        ensures { %(spec)s result ≡ word }
    {
        match word {
%(of)s            _ => unreachable!(),
        }
    }
}

impl Place for %(name)s {
    ghost slot = { One (Of word_class.%(name)s) };

    ghost node = { λ held. leaf.Word (%(spec)s held) };

    #[tactic(auto, using(%(fit)sfitting))]
    fn taken(closed: Node) -> %(name)s {
        match closed {
            Node::Word(word) => %(name)s::from_word(word),
            _ => unreachable!(),
        }
    }

    #[tactic(auto, using(%(fit)sfitting))]
    fn given(self, alloc: Global) -> Result<Node, AllocError> {
        Ok(Node::Word(self.word()))
    }
}
'''


def words_rt(words):
    name = words.name
    return WORDS % {
        'printed': PRINTED, 'prelude': PRELUDE, 'slots': SLOT_USES % ('One', 'Word', 'is_among'), 'family': words.family,
        'spec': snake(name) + '_word', 'doc': words.doc, 'name': name, 'fit': FIT,
        'variants': ''.join('    %s,\n' % here for _, here, _ in words.words),
        'to': ''.join('            %s::%s => Word::%s,\n' % (name, here, word) for _, here, word in words.words),
        'of': ''.join('            Word::%s => %s::%s,\n' % (word, name, here) for _, here, word in words.words)}


def printed_entries(tree, family):
    """The words, structs and sums that a family declares."""
    return (tree.of_family(family, tree.words)
            + [s for s in tree.of_family(family, tree.structs) if s.name != 'Ident'] + tree.of_family(family, tree.sums))


def entry_rt(tree, entry):
    if entry.name in tree.words:
        return words_rt(entry)
    if entry.name in tree.sums:
        return sum_rt(tree, entry)
    return identifier_rt(tree, entry) if entry.identifier else struct_rt(tree, entry)


def exports(tree, name):
    """What the module of a struct, sum or word hands on."""
    return ([optional_type(name)] if name != 'Ident' and 'Optional' in tree.held_as(name) else []) + [name]


def lib_rt(tree, family):
    about = tree.families[family]
    names = sorted((entry.name for entry in printed_entries(tree, family)), key=module_of)
    modules = sorted([module_of(name) for name in names] + about.by_hand)
    return ('//! %s\n//!\n//! Each struct and sum stands one level deep: its subtrees are `Tree`s and `Trees`.\n//! %s\n'
            '#![tactic(auto)]\n\n' % (about.doc, PRINTED)
            + ''.join('mod %s;\n' % module for module in modules) + '\n'
            + ''.join('pub use %s::{%s};\n' % (module_of(name), ', '.join(exports(tree, name))) for name in names))


def declared(family, entry, variants):
    path = 'use Rattle.%s.specs.declared.%s.%s.' % (family, module_of(entry.name), entry.name)
    return path + '{%s}\n' % entry.name + (path + 'TheVariants as %s\n' % snake(entry.name) if variants else '')


def struct_spec(tree, struct):
    spec = spec_name(tree, struct.name)
    if struct.identifier:
        term, specs = 'node.Identifier kind.%s x.id' % struct.name, set()
    else:
        forms = [form_of(tree, field) for field in struct.fields]
        specs = set().union(*(form.specs for form in forms))
        term = 'node.Tree kind.%s (%s)' % (struct.name, ' ∷ '.join([form.term for form in forms] + ['[]']))
    return '\nabbrev pub %s : %s → Node\n%s x = %s\n' % (spec, struct.name, spec, term), specs


def sum_spec(tree, sum_):
    spec = spec_name(tree, sum_.name)
    cases = ''.join('%s (%s.%s x) = %s\n' % (spec, snake(sum_.name), v.name, 'x' if v.is_subtree else spec_name(tree, v.member) + ' x')
                    for v in sum_.variants)
    specs = {(spec_module(tree, v.member), spec_name(tree, v.member)) for v in sum_.variants if not v.is_subtree}
    return '\nabbrev pub %s : %s → Node\n%s' % (spec, sum_.name, cases), specs


def words_spec(words):
    spec = snake(words.name) + '_word'
    return '\nabbrev pub %s : %s → Word\n%s' % (spec, words.name, ''.join(
        '%s %s.%s = word.%s\n' % (spec, snake(words.name), here, word) for _, here, word in words.words))


def held_by_value(tree, entry):
    """The structs and sums that stand in a struct or sum themselves, and not as a subtree."""
    if entry.name in tree.sums:
        return [variant.member for variant in entry.variants if not variant.is_subtree]
    return [field.type for field in entry.fields if field.is_single() and tree.is_leaf(field.type)]


def in_order(tree, family):
    """The structs and sums of a family, each after those that it holds by value."""
    mine = {entry.name: entry for entry in printed_entries(tree, family) if entry.name not in tree.words}
    ordered = []

    def visit(name):
        if name not in mine or mine[name] in ordered:
            return
        entry = mine[name]
        for other in held_by_value(tree, entry):
            visit(other)
        ordered.append(entry)

    for name in mine:
        visit(name)
    return ordered


def nodes_antt(tree, family):
    words = tree.of_family(family, tree.words)
    body, specs, uses = ''.join(words_spec(w) for w in words), set(), ''.join(declared(family, w, True) for w in words)
    for entry in in_order(tree, family):
        is_sum = entry.name in tree.sums
        text, needed = sum_spec(tree, entry) if is_sum else struct_spec(tree, entry)
        body, specs, uses = body + text, specs | needed, uses + declared(family, entry, is_sum)
    here = family + '.specs.Nodes'
    for module in sorted({module for module, _ in specs} - {here}):
        uses += 'use Rattle.%s.{%s}\n' % (module, ', '.join(sorted(name for m, name in specs if m == module)))
    return ('-- Which node each struct and sum is.\n--\n-- %s\n' % PRINTED + nodes_imports(body) + uses + body)


def nodes_imports(body):
    node = 'Rattle.swc_tree_node.specs.declared.'
    lines = [('∷', 'use %s.{[], ◌∷◌}\n' % PRELUDE), ('option_map', 'use Rattle.std.specs.Option.{option_map}\n'),
             ('kind.', 'use %skind.Kind.TheVariants as kind\n' % node), ('→ Word', 'use %skind.Word.{Word}\n' % node),
             (' word.', 'use %skind.Word.TheVariants as word\n' % node), ('→ Node', 'use %snode.Node.{Node}\n' % node),
             ('node.', 'use %snode.Node.TheVariants as node\n' % node)]
    return ''.join(line for mark, line in lines if mark in body)


def files(tree):
    printed = {}
    for family in tree.families:
        crate = 'crates/%s/' % family
        printed[crate + 'src/lib.rt'] = lib_rt(tree, family)
        printed[crate + 'specs/Lib.antt'] = 'pub mod Nodes\n'
        printed[crate + 'specs/Nodes.antt'] = nodes_antt(tree, family)
        for entry in printed_entries(tree, family):
            printed[crate + 'src/%s.rt' % module_of(entry.name)] = entry_rt(tree, entry)
            if entry.name in tree.sums and has_wide_end(tree, entry):
                path, text = wide_proof(tree, entry)
                printed[path] = text
    return printed
