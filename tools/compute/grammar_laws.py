"""Laws of the grammar, of writable and stripped trees, of normal forms, of sameness and of due pairs."""
import js
import scoping
import trees
from lawbook import (Bad, D, any_tree, declared_ids, fits_grammar, fits_place, fixed, identifiers, identity, in_pair, is_module, is_name,
                     is_writable, kids, kind, law, normal_form, of_kind, same, stripped, with_text, word, writable_tree)
from trees import at, paths

LITERALS = {'Str', 'Bool', 'Null', 'Number', 'BigInt', 'Regex'}
EQUALITY = {'EqEq', 'NotEq', 'EqEqEq', 'NotEqEq'}


# ----------------------------------------------------------------------------------------------------- due pairs
@law(writable_tree)
def fits_with_due_pairs(t):
    """a writable tree with its due pairs fits the grammar"""
    if not is_writable(t):
        return None
    return fits_grammar(fixed(t)) or Bad('does not fit:', fixed(t))


@law(writable_tree)
def stays_writable(t):
    """a writable tree is still writable when it is stripped and has its blocks, and when it has its due pairs too"""
    if not is_writable(t):
        return None
    for name, answer in (('stripped', stripped(t)), ('with due pairs', fixed(t))):
        if not is_writable(answer):
            return Bad(name, 'not writable:', answer)
    return True


@law(writable_tree)
def keeps_normal_form(t):
    """a writable tree and the same with its due pairs have one normal form, but for spans"""
    if not is_writable(t):
        return None
    before, after = normal_form(t), normal_form(fixed(t))
    return same(before, after) or Bad('normal forms:', before, '--', after)


@law(writable_tree)
def second_time_changes_nothing(t):
    """setting the due pairs of a writable tree a second time changes nothing, but for spans"""
    if not is_writable(t):
        return None
    once = fixed(t)
    twice = fixed(once)
    return same(once, twice) or Bad('once:', once, '-- twice:', twice)


@law(writable_tree)
def pairs_needed_or_for_readers(t):
    """each due pair of a writable tree is needed or set for a reader, and none stands right in another"""
    if not is_writable(t):
        return None
    answer = fixed(t)
    for path in of_kind(answer, 'ParenExpr'):
        if kind(at(answer, path)[2][1]) == 'ParenExpr':
            return Bad('two pairs:', answer)
        if fits_grammar(D.grammar.Needed.without_pair(answer, path)) and not is_for_readers(answer, path):
            return Bad('idle pair', at(answer, path), 'in', answer)
    return True


def is_for_readers(t, path):
    """the pair at the path is set for a reader, by what it holds and where it stands (by hand)"""
    content, above, field = at(t, path)[2][1], at(t, path[:-1]), path[-1]
    inner, place = kind(content), kind(above)
    if place in ('CallExpr', 'OptCall') and field == 1:
        return inner in LITERALS - {'Str', 'Number'} | {'ClassExpr', 'ObjectLit'}
    if place == 'MemberExpr' and field == 1:
        return inner in ('FnExpr', 'ClassExpr')
    if place == 'TaggedTpl' and field == 1:
        return inner == 'FnExpr'
    if place == 'NewExpr' and field == 1:
        return inner in LITERALS
    if place == 'BinExpr' and field == 2:
        operator = word(above[2][1])
        if inner == 'UnaryExpr':
            return word(content[2][1]) == 'Delete' or word(content[2][1]) == 'Void' and operator not in EQUALITY
        return inner == 'ObjectLit' and (operator in EQUALITY or operator == 'InstanceOf')
    if place == 'ExprOrSpread' and field == 1:
        return inner == 'YieldExpr' and above[2][0] == trees.ABSENT
    if place == 'ExportDefaultExpr':
        return inner == 'ArrowExpr'
    if place == 'ForOfStmt' and field == 3:
        return inner == 'AwaitExpr'
    if place == 'ArrowExpr' and field == 2:
        return inner == 'AssignExpr' and kind(content[2][2]) in ('ArrayPat', 'ObjectPat')
    is_item = above[0] == 'List' and len(path) > 3 and kind(at(t, path[:-2])) == 'SeqExpr' and kind(at(t, path[:-3])) == 'ExprStmt'
    if is_item and field < len(above[1]) - 1:
        return inner in ('ObjectLit', 'ClassExpr') or inner == 'AssignExpr' and kind(content[2][2]) == 'ObjectPat'
    return False


@law(writable_tree)
def readers_table_is_that_by_hand(t):
    """the definition of pairs that stand for a reader names those that the table written by hand names (where the
    checkout has one)"""
    if not hasattr(D.grammar.Needed, 'is_for_reader') or not is_writable(t):
        return None
    answer = fixed(t)
    found = [(tree, path) for tree in (t, answer) for path in of_kind(tree, 'ParenExpr')]
    for tree, path in found:
        if D.grammar.Needed.is_for_reader(tree, path) != is_for_readers(tree, path):
            return Bad('by hand', str(is_for_readers(tree, path)), 'for', at(tree, path), 'in', tree)
    return True if found else None


@law(any_tree)
def due_pairs_fit_their_place(t):
    """a tree whose parenthesised targets take values still fits its place with its due pairs"""
    if not fits_place(t) or not D.grammar.Targets.all_bare(t):
        return None
    return fits_place(fixed(t)) or Bad('fits no place:', fixed(t))


@law(any_tree)
def stripped_is_pairless(t):
    """a stripped tree has no pair of parentheses"""
    if not fits_place(t):
        return None
    return D.grammar.Stripped.is_pairless(stripped(t)) or Bad('stripped:', stripped(t))


# -------------------------------------------------------------------------------------------------- first tokens
def left_ends(random, size):
    """expression statements with long left ends"""
    return random.left_ends(size)


def optional_let(random, size):
    """expression statements with `let?.[` at the left end"""
    return random.left_ends(size, optional_let=True)


def first_words(text):
    """what a text begins with, as the definitions name it"""
    tokens = js.Tokens(text)
    first = tokens.value
    if tokens.kind == 'end':
        return 'Other'
    tokens.next()
    if first.startswith('{'):
        return 'Brace'
    if first == 'async' and tokens.value == 'function':
        return 'AsyncFunction'
    if first == 'let' and tokens.value == '[':
        return 'LetBracket'
    return {'function': 'FunctionWord', 'class': 'ClassWord'}.get(first, 'Other')


@law(left_ends)
def start_is_that_of_the_text(t):
    """an expression begins with what its text begins with"""
    expressions = [node for _, node in paths(t) if kind(node) in js.CLASSES['Expr'] and kind(node) != 'PrivateName']
    if not expressions:
        return None
    for expression in expressions:
        text = js.plain(expression)
        if D.grammar.Starts.start(expression) != first_words(text):
            return Bad('`%s` begins with %s, says the definition' % (text, D.grammar.Starts.start(expression)))
    return True


@law(optional_let)
def optional_let_is_no_let_bracket(t):
    """where `let?.[` is the left end, an expression does not begin with `let [`"""
    found = [node for _, node in paths(t) if kind(node) in js.CLASSES['Expr'] and js.plain(node).startswith('let?.[')]
    if not found:
        return None
    return not any(D.grammar.Starts.start(node) == 'LetBracket' for node in found) or Bad('begins with `let [`:', t)


# ------------------------------------------------------------------------------------------------------ writable
def private_in_list(random, size):
    """writable trees with a private name put among the parts of a sequence or template"""
    t = random.writable_with(('SeqExpr', 'Tpl'), size)
    places = [p for p, node in paths(t) if kind(node) in ('SeqExpr', 'Tpl') and at(t, p + (1,))[1]]
    if not places:
        return t
    path = random.pick(places) + (1,)
    items = list(at(t, path)[1])
    items[random.below(len(items))] = random.tree('PrivateName', [random.span(), random.text('q')])
    return trees.put(t, path, ('List', tuple(items)))


@law(private_in_list)
def no_private_name_among_parts(t):
    """a tree is not writable where a private name is a part of a sequence or template"""
    def holds(node):
        return kind(node) in ('SeqExpr', 'Tpl') and any(kind(part) == 'PrivateName' for part in kids(node[2][1]))
    if not fits_place(t) or not any(holds(node) for _, node in paths(t)):
        return None
    return not is_writable(t) or Bad('writable')


def private_names(random, size):
    """mostly writable trees with private members and `#x in`"""
    return random.writable_with(('PrivateProp', 'PrivateMethod', 'BinExpr'), size)


@law(private_names)
def private_names_stand_where_they_may(t):
    """in a writable tree a private name is a member's or class member's name, or stands left of `in`"""
    found = of_kind(t, 'PrivateName')
    if not found or not is_writable(t):
        return None
    for path in found:
        above = at(t, path[:-1])
        left_of_in = kind(above) == 'BinExpr' and path[-1] == 2 and word(above[2][1]) == 'In'
        if above[0] != 'Tree' or not left_of_in and js.FIELDS[kind(above)][path[-1]][0] not in ('key', 'prop'):
            return Bad('a private name in', above)
    return True


def setter_with_rest(random, size):
    """writable trees with a setter, whose parameter was made a rest"""
    t = random.writable_with(('SetterProp', 'ClassMethod', 'PrivateMethod'), size)
    places = parameters_of_setters(t)
    if not places:
        return t
    path = random.pick(places)
    parameter = at(t, path)
    if kind(parameter) == 'AssignPat':
        parameter = parameter[2][1]
    return trees.put(t, path, random.tree('RestPat', [random.span(), parameter])) if kind(parameter) != 'RestPat' else t


def parameters_of_setters(t):
    """the paths of the patterns that are parameters of setters"""
    found = [path + (2,) for path in of_kind(t, 'SetterProp')]
    for path, node in paths(t):
        if kind(node) in ('ClassMethod', 'PrivateMethod') and word(node[2][3]) == 'Setter' and kind(node[2][2]) == 'Function':
            found += [path + (2, 1, i, 1) for i in range(len(node[2][2][2][1][1]))]
    return found


@law(setter_with_rest)
def setters_take_no_rest(t):
    """a tree is not writable where the parameter of a setter is a rest"""
    if not fits_place(t) or not any(kind(at(t, path)) == 'RestPat' for path in parameters_of_setters(t)):
        return None
    return not is_writable(t) or Bad('writable')


def chains(random, size):
    """mostly writable trees with optional chains"""
    return random.writable_with(('OptChainExpr',), size)


def expression_places(t, wanted):
    """the paths of expressions of the kinds at places that take any expression"""
    takes_all = {name for name in js.CLASSES if 'ParenExpr' in js.CLASSES[name] and set(js.CLASSES['Expr']) <= set(js.CLASSES[name])}
    return [path for path, node, slot in trees.slots(t)
            if kind(node) in wanted and isinstance(slot[1], tuple) and slot[1][0] == 'Node' and slot[1][1] in takes_all]


@law(chains)
def pair_round_chain_changes_nothing(t):
    """a pair round an optional chain does not change whether a tree is writable"""
    found = expression_places(t, {'OptChainExpr'})
    if not found or not fits_place(t):
        return None
    for path in found:
        if is_writable(in_pair(t, path)) != is_writable(t):
            return Bad('writable' if is_writable(t) else 'not writable', 'but not so:', in_pair(t, path))
    return True


@law(writable_tree)
def pair_changes_nothing(t):
    """a pair round an expression that is no private name and no string statement keeps a writable tree writable, and
    its normal form"""
    if not is_writable(t):
        return None
    found = [p for p in expression_places(t, set(js.CLASSES['Expr']) - {'PrivateName'}) if not is_string_statement(t, p)]
    for path in found:
        paired = in_pair(t, path)
        if not is_writable(paired):
            return Bad('not writable:', paired)
        if not same(normal_form(t), normal_form(paired)):
            return Bad('normal forms:', normal_form(t), '--', normal_form(paired))
    return True if found else None


def is_string_statement(t, path):
    return kind(at(t, path[:-1])) == 'ExprStmt' and kind(D.grammar.Stripped.stripped(at(t, path))) == 'Str'


# --------------------------------------------------------------------------------------------------- normal form
@law(writable_tree)
def normal_form_is_settled(t):
    """the normal form of a writable tree is its own normal form, but for spans"""
    if not is_writable(t):
        return None
    once = normal_form(t)
    twice = normal_form(once)
    return same(once, twice) or Bad('once:', once, '-- twice:', twice)


def exports(random, size):
    """mostly writable modules with exported declarations, some of which bind a name twice"""
    return random.exporting(size)


@law(exports)
def normal_form_exports_each_id_once(t):
    """in the normal form of a writable module an exported declaration has right behind it a list with one specifier
    for each id that it binds"""
    if not is_module(t) or not is_writable(t):
        return None
    before, after, i = [x for x in t[2][1][1]], normal_form(t)[2][1][1], 0
    for item in before:
        if kind(item) == 'ExportDecl':
            i += 1
            wanted = D.substitution.Exports.exported_ids(item)
            have = [identity(specifier[2][1][2]) for specifier in kids(kids(after[i])[1])]
            if kind(after[i - 1]) != kind(item[2][1]) or kind(after[i]) != 'NamedExport' or sorted(have) != sorted(set(wanted)):
                return Bad('normal form:', normal_form(t))
        i += 1
    if i != len(after):
        return Bad('normal form:', normal_form(t))
    return True if any(kind(item) == 'ExportDecl' for item in before) else None


# ------------------------------------------------------------------------------------------------------ sameness
def sourced_exports(random, size):
    """mostly writable modules with export lists that have a source, of names that the module declares too"""
    return random.exporting(size, sourced=True)


def names_with_source(t):
    """the paths of the identifiers in export lists with a source"""
    lists = [path for path in of_kind(t, 'NamedExport') if at(t, path)[2][2] != trees.ABSENT]
    return [list_path + path for list_path in lists for path, _ in identifiers(at(t, list_path))]


def is_same(t, u):
    return D.grammar.Same.is_same(t, u)


FRESH = js.codes('fresh')


@law(sourced_exports)
def names_with_source_do_not_change(t):
    """two programs are not the same where a name in an export list with a source is another"""
    found = names_with_source(t)
    if not found or not is_writable(t) or not is_same(t, t):
        return None
    for path in found:
        if is_same(t, with_text(t, path, FRESH)):
            return Bad('the same:', with_text(t, path, FRESH))
    return True


@law(writable_tree)
def sameness_lets_declared_names_alone_change(t):
    """of a tree in normal form one identifier may change exactly where it stands as a binding or reference and the
    tree declares its id"""
    if not is_writable(t):
        return None
    t = normal_form(t)
    if not is_same(t, t) or not identifiers(t):
        return None
    program, declared = scoping.Program(D.all, t), set(declared_ids(t))
    for path, identifier in identifiers(t):
        may = is_name(program.standing(path)) and identity(identifier) in declared
        if is_same(t, with_text(t, path, FRESH)) != may:
            return Bad('of', t, 'changed:', with_text(t, path, FRESH), 'the same' if not may else 'not the same')
    return True


def free_and_declared(random, size):
    """writable modules and scripts of few names, of which some are free"""
    return random.with_free_names(size, random.chance(0.6))


def renamed_everywhere(t, old, new):
    """the tree with another text for an id"""
    return trees.with_identifiers(lambda i: (new, i.ctxt) if identity(i) == old else identity(i), t)


@law(free_and_declared)
def sameness_goes_by_the_first_tree(t):
    """of a tree in normal form a declared id may change everywhere; and where a free reference becomes one to a declared
    id, the first tree is not the same as the second, but the second as the first"""
    if not is_writable(t):
        return None
    t = normal_form(t)
    program, declared = scoping.Program(D.all, t), declared_ids(t)
    free = [path for path, _, _ in scoping.References(program) if identity(program.identifier(path)) not in declared]
    pairs = [(path, new) for path in free for new in declared if new[0] != program.name(path)]
    elsewhere = {identity(program.identifier(path)) for path in program.identifiers if not is_name(program.standing(path))}
    if not pairs or not is_same(t, t):
        return None
    for old in declared[:3]:
        changed = renamed_everywhere(t, old, FRESH)
        if old not in elsewhere and not (is_same(t, changed) and is_same(changed, t)):
            return Bad('of', t, 'renamed:', changed)
    for path, new in pairs[:2]:
        changed = with_text(t, path, *new)
        if is_same(t, changed) or not is_same(changed, t):
            return Bad('of', t, 'changed:', changed)
    return True


# -------------------------------------------------------------------------------------------------- a second run
def paired_anew(place, t):
    """the stripped tree with its blocks and due pairs, each where the place has it"""
    return D.grammar.Due.with_due_pairs(place, stripped(t))


def set_anew(t):
    """what the fixer answers: each due pair where the tree had one round that content"""
    pairs = D.grammar.Pairs.pairs(t)
    return paired_anew(lambda span: D.grammar.Fixed.recorded(pairs, span), t)


def crowded(t):
    """the tree with few spans, so that many nodes share one"""
    few = lambda span: js.REC(lo=span.lo % 4, hi=span.hi % 3)
    if t[0] == 'Span':
        return ('Span', few(t[1]))
    if t[0] == 'Identifier':
        return ('Identifier', t[1], js.REC(span=few(t[2].span), ctxt=t[2].ctxt, sym=t[2].sym))
    return trees.with_kids(t, [crowded(c) for c in kids(t)]) if t[0] in ('List', 'Tree') else t


def has_paired_target(t):
    """some assignment's target stands in a pair"""
    return any(kind(at(t, path)[2][2]) == 'ParenExpr' for path in of_kind(t, 'AssignExpr'))


@law(any_tree)
def second_run_keeps_spans(t):
    """where no assignment's target of the fixer's answer stands in a pair, a second run gives the answer, spans too"""
    if not fits_place(t):
        return None
    for tree in (t, crowded(t)):
        once = set_anew(tree)
        if has_paired_target(once):
            continue
        twice = set_anew(once)
        if once != twice:
            return Bad('once:', once, '-- twice:', twice)
    return True


@law(writable_tree)
def written_targets_stay_bare(t):
    """no assignment's target of the fixer's answer to what can be written down stands in a pair"""
    if not is_writable(t):
        return None
    once = set_anew(t)
    return not has_paired_target(once) or Bad('once:', once)


@law(writable_tree)
def second_run_changes_nothing_written(t):
    """a second run of the fixer gives the answer to what can be written down again, spans too"""
    if not is_writable(t):
        return None
    for tree in (t, crowded(t)):
        once = set_anew(tree)
        twice = set_anew(once)
        if once != twice:
            return Bad('once:', once, '-- twice:', twice)
    return True


@law(any_tree)
def third_run_keeps_spans(t):
    """what a second run of the fixer gives, a third gives again, spans too"""
    if not fits_place(t):
        return None
    for tree in (t, crowded(t)):
        twice = set_anew(set_anew(tree))
        third = set_anew(twice)
        if twice != third:
            return Bad('twice:', twice, '-- a third time:', third)
    return True
