"""The families' structs, sums and words, re-exported by the crate swc_tree."""
import os

from tree_printer.families import printed_entries

LIB = 'crates/swc_tree/src/lib.rt'
MARKER = '// From here on printed by tools/print_table.py from tools/tree.txt.\n'


def lib_rt(tree, text):
    """The file as it is up to the marker, and what each family declares after it."""
    written, marker, _ = text.partition(MARKER)
    if not marker:
        raise SystemExit('no line that says where printing begins, in ' + LIB)
    exports = ''
    for family in sorted(tree.families):
        names = sorted((entry.name for entry in printed_entries(tree, family)), key=str.lower)
        exports += 'pub use %s::{%s};\n' % (family, ', '.join(names))
    return written + marker + exports


def files(root, tree):
    with open(os.path.join(root, LIB), encoding='utf-8') as file:
        return {LIB: lib_rt(tree, file.read())}
