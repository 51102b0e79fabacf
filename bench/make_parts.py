#!/usr/bin/env python3
"""Writes bench/parts.json: the tree of one module that is made of this repository's own JavaScript (tools/js/lib).

Its imports and exports are left out, so that the module can stand several times in one. Needs node; run it at the top of
the repository. The workloads read what is committed.
"""
import json
import pathlib
import re
import subprocess
import tempfile

TOP = pathlib.Path(__file__).resolve().parent.parent


def source(path):
    """The statements of a file but for its imports, with what it exports declared alone."""
    text = path.read_text()
    text = re.sub(r"^#!.*\n", "", text)
    text = re.sub(r"^import\s[^;]*;\n", "", text, flags=re.M)
    text = re.sub(r"^export\s+\{[^}]*\}[^;]*;\n", "", text, flags=re.M)
    text = re.sub(r"^export\s+(default\s+)?", "", text, flags=re.M)
    return text


def tree(text):
    """The envelope of a module."""
    with tempfile.NamedTemporaryFile("w", suffix=".mjs") as file:
        file.write(text)
        file.flush()
        ran = subprocess.run([TOP / "tools/js/js2tree", file.name], capture_output=True, text=True, check=True)
    return json.loads(ran.stdout)


def names_in(node):
    """The identifiers in a tree that bind names or refer to them."""
    if isinstance(node, list):
        for item in node:
            yield from names_in(item)
    elif isinstance(node, dict):
        if node.get("type") in ("Ident", "BindingIdent"):
            yield node
        for item in node.values():
            yield from names_in(item)


def declared(item):
    """The names that an item of a module declares in it."""
    if item["type"] == "VarDecl":
        return [name["sym"] for decl in item["decls"] for name in names_in(decl["name"])]
    return [item["ident"]["sym"]] if "ident" in item else []


def main():
    envelope, body, taken = None, [], set()
    for number, path in enumerate(sorted((TOP / "tools/js/lib").rglob("*.mjs"))):
        part = tree(source(path))
        envelope = envelope or part
        items = part["tree"]["body"]
        own = {name for item in items for name in declared(item)}
        for name in names_in(items):
            if name["sym"] in own & taken:
                name["sym"] += f"_{number}"
        taken |= own
        body += items
    envelope["tree"]["body"] = body
    (TOP / "bench/parts.json").write_text(json.dumps(envelope, separators=(",", ":")) + "\n")


main()
