"""The classes as types, and that kinds have numbers of their own, in the crate swc_tree_handle."""
PRINTED = 'Printed by tools/print_table.py from tools/tree.txt.'

CLASS_HEAD = '''//! The classes of nodes, as types, those of a family of the tree in a file.
//!
//! %s

%s
/// A class, as a type: what a `Tree` or a `Trees` holds.
pub trait Syntax {
    ghost use Rattle.swc_tree_node.specs.declared.kind.Class.{Class};

    /// The class.
    ghost class: { Class };
}
'''

FAMILY_HEAD = '''//! The classes of the family %s.
//!
//! %s
use crate::class::Syntax;
'''

CLASS = '''
/// The class `%(name)s`.
pub struct %(name)s;

impl Syntax for %(name)s {
    ghost use Rattle.swc_tree_node.specs.declared.kind.Class.TheVariants as class;

    ghost class = { class.%(name)s };
}
'''

NUMBERS = '''-- Two kinds of one number are one.
--
-- %(printed)s
use Rattle.std.proofs.Common.{◌≡◌, ℕ, List, [], ◌∷◌, slice_index_or, refl, ap}
use Rattle.swc_tree_node.specs.declared.kind.Kind.{Kind}
use Rattle.swc_tree_node.specs.declared.kind.Kind.TheVariants as kind
use Rattle.swc_tree_node.specs.Table.{kind_number}

kinds : List Kind
kinds = %(kinds)s

kind_at : ℕ → Kind
kind_at n = slice_index_or kinds n kind.%(first)s

kind_back : (k : Kind) → kind_at (kind_number k) ≡ k
unfolding kind_at kinds
%(cases)s
pub same_kind : (k l : Kind) → kind_number k ≡ kind_number l → k ≡ l
same_kind k l e = rw (← kind_back k) (rw (← kind_back l) (ap kind_at e))
'''


def family_of(tree, name):
    """The family that a class's struct or sum stands in, without what all families' names begin with."""
    return tree.entry(name).family.removeprefix('swc_tree_')


def class_files(tree):
    """The trait and a file for each family, by what stands after `src/`."""
    families = {}
    for name in tree.classes():
        families.setdefault(family_of(tree, name), []).append(name)
    uses = ''.join('mod %s;\n' % family for family in sorted(families)) + '\n'
    for family in sorted(families):
        uses += 'pub use %s::{%s};\n' % (family, ', '.join(sorted(families[family], key=str.lower)))
    printed = {'class.rt': CLASS_HEAD % (PRINTED, uses)}
    for family, names in families.items():
        printed['class/%s.rt' % family] = FAMILY_HEAD % (family, PRINTED) + ''.join(CLASS % {'name': name} for name in names)
    return printed


def numbers_antt(tree):
    names = list(tree.structs)
    return NUMBERS % {
        'printed': PRINTED, 'first': names[0],
        'kinds': ' ∷ '.join(['kind.' + name for name in names] + ['[]']),
        'cases': ''.join('kind_back kind.%s = refl\n' % name for name in names)}


def files(tree):
    crate = 'crates/swc_tree_handle/'
    printed = {crate + 'src/' + path: text for path, text in class_files(tree).items()}
    return {**printed, crate + 'proofs/Numbers.antt': numbers_antt(tree)}
