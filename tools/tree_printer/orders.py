"""The order in which members are written, in the crate jsbase_writer."""
from tree_printer.table import rust_match, spec_cases, spec_list

PRINTED = 'Printed by tools/print_table.py from tools/tree.txt.'

HEAD = """//! The order of the members of each kind.
//!
//! %s

ghost use Rattle.std.specs.Prelude.{◌≡◌};
ghost use Rattle.jsbase_writer.specs.Order.{order_of};

use swc_tree_node::Kind;
""" % PRINTED

SPEC_HEAD = """-- The order of the members of each kind: the numbers of its fields in the byte order of their keys. The number past
-- the last stands for the member that names the kind.
--
-- %s
use Rattle.std.specs.Prelude.{ℕ, List, [], ◌∷◌}
use Rattle.swc_tree_node.specs.declared.kind.Kind.{Kind}
use Rattle.swc_tree_node.specs.declared.kind.Kind.TheVariants as kind
""" % PRINTED


def order(struct):
    """The numbers of a struct's members in the order of their keys."""
    keys = [field.key for field in struct.fields] + ['type']
    return [str(i) for i in sorted(range(len(keys)), key=lambda i: keys[i].encode())]


def order_rt(tree):
    arms = [('Kind::' + s.name, '&[%s]' % ', '.join(order(s))) for s in tree.structs.values()]
    return HEAD + '\n' + rust_match('order_of', 'The numbers of the fields of a kind in the byte order of their keys; the number past the last is '
                                    'that of `type`.', 'kind', 'Kind', "&'static [usize]", 'result.now ≡ order_of kind', arms)


def order_antt(tree):
    return SPEC_HEAD + '\n' + spec_cases('by kind', 'order_of', 'Kind → List ℕ', [('kind.' + s.name, spec_list(order(s))) for s in tree.structs.values()])


def files(tree):
    crate = 'crates/jsbase_writer/'
    return {crate + 'src/order.rt': order_rt(tree), crate + 'specs/Order.antt': order_antt(tree)}
