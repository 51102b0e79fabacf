"""Values of the definitions in Python, and what translated definitions call."""


class Rec:
    """a record"""
    def __init__(self, **fields):
        self.__dict__.update(fields)

    def __eq__(self, other):
        return isinstance(other, Rec) and self.__dict__ == other.__dict__

    def __hash__(self):
        return hash(tuple(sorted(self.__dict__.items())))

    def __repr__(self):
        return 'Rec(%s)' % ', '.join('%s=%r' % field for field in self.__dict__.items())


def updated(record, **fields):
    new = Rec(**record.__dict__)
    for field in fields:
        if field not in new.__dict__:
            raise AttributeError(field)
    new.__dict__.update(fields)
    return new


def map_node(function, t):
    if t[0] == 'List':
        return ('List', tuple([function(child) for child in t[1]]))
    if t[0] == 'Tree':
        return ('Tree', t[1], tuple([function(child) for child in t[2]]))
    return t


def fold_node(step):
    """the fold with a step; what it gave for a node is kept and used again"""
    seen = {}

    def fold(t):
        if t[0] == 'List':
            children = t[1]
        elif t[0] == 'Tree':
            children = t[2]
        else:
            return step(t)
        kept = seen.get(id(t))
        if kept is not None and kept[0] is t:
            return kept[1]
        below = tuple([fold(child) for child in children])
        value = step(('List', below) if t[0] == 'List' else ('Tree', t[1], below))
        seen[id(t)] = (t, value)
        return value

    def whole(t):
        if len(seen) > 20000:
            seen.clear()
        return fold(t)
    return whole


def pointwise(test, left, right):
    return len(left) == len(right) and all(test(x)(y) for x, y in zip(left, right))


def flat_map(function, items):
    return tuple([part for item in items for part in function(item)])


def find(test, items):
    return next(((item,) for item in items if test(item)), None)


def position(test, items):
    return next(((i,) for i, item in enumerate(items) if test(item)), None)


def prefix_len(test, items):
    return next((i for i, item in enumerate(items) if not test(item)), len(items))


def slice_set(items, i, item):
    return items[:i] + (item,) + items[i + 1:] if i < len(items) else items


def is_utf8(text):
    try:
        return bytes(text).decode() is not None
    except UnicodeDecodeError:
        return False


def is_scalar(c):
    return c < 0x110000 and not 0xD800 <= c < 0xE000


def no_clause(name):
    raise ValueError('no clause of %s takes these arguments' % name)


# what is used of the standard library: number of arguments, and the Python for them
STANDARD = {
    'not': (1, '(not {0})'), 'suc': (1, '({0} + 1)'), 'nat_le': (2, '({0} <= {1})'), 'nat_lt': (2, '({0} < {1})'),
    'nat_eq': (2, '({0} == {1})'), 'max': (2, 'max({0}, {1})'), 'min': (2, 'min({0}, {1})'), 'bit_xor': (2, '({0} ^ {1})'),
    'pointwise': (3, 'pointwise({0}, {1}, {2})'), 'bytes_eq': (2, '({0} == {1})'),
    'list_all': (2, 'all(map({0}, {1}))'), 'list_any': (2, 'any(map({0}, {1}))'),
    'map': (2, 'tuple(map({0}, {1}))'), 'flat_map': (2, 'flat_map({0}, {1})'), 'filter': (2, 'tuple(filter({0}, {1}))'),
    'filter_map': (2, '(lambda f, xs: flat_map(lambda x: f(x) or (), xs))({0}, {1})'),
    'take': (2, '{1}[:{0}]'), 'drop': (2, '{1}[{0}:]'), 'length': (1, 'len({0})'), 'reverse': (1, '{0}[::-1]'),
    'find': (2, 'find({0}, {1})'), 'position': (2, 'position({0}, {1})'), 'prefix_len': (2, 'prefix_len({0}, {1})'),
    'slice_get': (2, '({0}[{1}:{1} + 1] or None)'), 'slice_set': (3, 'slice_set({0}, {1}, {2})'),
    'slice_index_or': (3, '(lambda xs, i, d: xs[i] if i < len(xs) else d)({0}, {1}, {2})'),
    'get_or': (3, '(lambda xs, i, d: xs[i] if i < len(xs) else d)({0}, {1}, {2})'),
    'range_with_len': (2, 'tuple(range({0}, {0} + {1}))'),
    'is_some': (1, '({0} is not None)'), 'is_none': (1, '({0} is None)'),
    'unwrap_or': (2, '(lambda o, d: d if o is None else o[0])({0}, {1})'),
    'option_map': (2, '(lambda f, o: None if o is None else (f(o[0]),))({0}, {1})'),
    'option_map_or': (3, '(lambda f, o, d: d if o is None else f(o[0]))({0}, {1}, {2})'),
    'option_or': (2, '(lambda a, b: b if a is None else a)({0}, {1})'),
    'option_and_then': (2, '(lambda f, o: None if o is None else f(o[0]))({0}, {1})'),
    'to_ascii_lowercase': (1, '(lambda c: c + 32 if 64 < c < 91 else c)({0})'),
    'digit_value': (1, '(lambda c: int(chr(c), 36) if c < 128 and chr(c).isalnum() else 36)({0})'),
    'digits_value': (2, '(lambda b, ds: sum(int(chr(c), 36) * b ** i for i, c in enumerate(ds[::-1])))({0}, {1})'),
    'decimal': (1, 'tuple(str({0}).encode())'), 'string_bytes': (1, '{0}'),
    'starts_with': (3, '(lambda xs, ys: xs[:len(ys)] == ys)({1}, {2})'), 'suffix_len': (2, 'prefix_len({0}, {1}[::-1])'),
    'Some': (1, '({0},)'), 'Ok': (1, "('Ok', {0})"), 'Err': (1, "('Err', {0})"),
    'slice_index': (2, '(lambda xs, i: xs[i] if i < len(xs) else 0)({0}, {1})'), 'option_to_list': (1, '({0} or ())'), 'option_copied': (1, '{0}'),
    'is_ascii_digit': (1, '(48 <= {0} <= 57)'), 'is_ascii_hexdigit': (1, '(lambda c: 48 <= c <= 57 or 65 <= c <= 70 or 97 <= c <= 102)({0})'),
    'is_ascii_alphabetic': (1, '(lambda c: 65 <= c <= 90 or 97 <= c <= 122)({0})'), 'encode_utf8': (1, 'tuple(chr({0}).encode())'), 'is_utf8': (1, 'is_utf8({0})'),
    # of other crates than ours; names by what Python knows of Unicode
    'scalar': (1, 'is_scalar({0})'), 'is_id_start': (1, '(is_scalar({0}) and chr({0}).isidentifier())'),
    'is_id_continue': (1, "(is_scalar({0}) and ('a' + chr({0})).isidentifier())"),
}
STANDARD_VALUES = {'true': 'True', 'false': 'False', 'None': 'None', 'zero': '0', '[]': '()'}
# besides the standard library
OTHER_LIBRARIES = ('lib.Utf8', 'Rattle.ucd_derived.specs.Binary')
STANDARD_TYPES = {'ℕ', 'Bool', 'List', 'Option', 'Result'}
OPERATORS = {
    '||': '({0} or {1})', '&&': '({0} and {1})', '∷': '(({0},) + {1})', '++': '({0} + {1})', '==': '({0} == {1})',
    '<': '({0} < {1})', '+': '({0} + {1})', '-': 'max(0, {0} - {1})', '*': '({0} * {1})', '/': '({0} // {1})', '%': '({0} % {1})', '^': '({0} ** {1})'}
CALLED = {name: globals()[name] for name in (
    'Rec', 'updated', 'map_node', 'fold_node', 'pointwise', 'flat_map', 'find', 'position', 'prefix_len', 'slice_set', 'is_scalar', 'is_utf8', 'no_clause')}
