"""Trees from the values that JSON gives, and a first difference of two trees."""
from js_nodes import FIELDS, Node, tree_of
from trees import kids


def node_in(value):
    """the node of an object, and what a field holds; an absent key is as null"""
    if isinstance(value, dict):
        return Node(value['type'], **{field: node_in(value.get(field)) for field, _, _ in FIELDS[value['type']]})
    return [node_in(item) for item in value] if isinstance(value, list) else value


def tree_in(value):
    """the tree of an object; js.setup goes before"""
    return tree_of(node_in(value))


def first_difference(t, u, path=()):
    """(path, part, part) of the first difference, None if there is none"""
    if t == u:
        return None
    below, others = kids(t), kids(u)
    if t[0] == u[0] and len(below) == len(others) > 0 and t[:-1] == u[:-1]:
        return next((found for i, (c, d) in enumerate(zip(below, others)) for found in [first_difference(c, d, path + (i,))] if found), None)
    return path, t, u
