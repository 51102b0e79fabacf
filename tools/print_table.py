#!/usr/bin/env python3
"""Prints what tools/tree.txt says of the tree: the table, the classes, the structs and sums one level deep, and the page on JSON;
and how each kind is written, from tools/layouts.txt.

print_table.py: writes the printed files and lays them out by `rt fmt`.
print_table.py --check: writes nothing, and names the committed files that are not what it prints; 1 if there are any."""
import os
import sys

from tree_printer import classes, committed, facade, families, json_page, layouts, orders, table
from tree_printer.transcription import Tree

ROOT = os.path.dirname(os.path.dirname(os.path.abspath(__file__)))


def main():
    tree = Tree(os.path.join(ROOT, 'tools', 'tree.txt'))
    files = {**table.files(tree), **classes.files(tree), **families.files(tree), **facade.files(ROOT, tree), **orders.files(tree),
             **layouts.files(os.path.join(ROOT, 'tools', 'layouts.txt'), tree), **json_page.files(ROOT, tree)}
    if sys.argv[1:] == ['--check']:
        return committed.check(ROOT, files)
    committed.write(ROOT, files)
    return 0


if __name__ == '__main__':
    sys.exit(main())
