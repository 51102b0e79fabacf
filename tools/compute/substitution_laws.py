"""Laws of the substitution of names."""
import js
import scoping
from lawbook import (Bad, D, any_tree, declaration_ids, declared_ids, definition, expressions_as_names, fits_place, has_types, identifiers, ids_of, identity,
                     is_name, is_writable, kind, law, normal_form, writable_tree)
from grammar_laws import exports, is_same
import trees
from trees import at, paths


def substituted(changes, t, keeps=False):
    return D.substitution.Substituted.substituted(changes, keeps, 'Other', t)


def changes_of(new_ids):
    """new ids as the definitions take them: an id is changed only where its text is another"""
    return lambda i: D.substitution.Names.if_other_text(i, (new_ids[i],) if i in new_ids else None)


def fresh_maps(t):
    """maps from ids to new ids with texts that the tree has not, one to one: of all ids, of the marked ones, of the
    others; each map once"""
    new_ids = {i: (js.codes('n%d' % number), ()) for number, i in enumerate(ids_of(t))}
    marked = {i: new for i, new in new_ids.items() if i[1] != ()}
    yield new_ids
    if 0 < len(marked) < len(new_ids):
        yield marked
        yield {i: new for i, new in new_ids.items() if i[1] == ()}


@law(writable_tree)
def renamed_stays_writable(t):
    """a writable tree stays writable when its ids get fresh identifier texts, one to one"""
    if not is_writable(t):
        return None
    for new_ids in fresh_maps(t):
        answer = substituted(changes_of(new_ids), t)
        if not is_writable(answer):
            return Bad('not writable:', answer)
    return True


@law(writable_tree)
def renamed_keeps_normal_form(t):
    """a writable tree so renamed has the same normal form but for the names that changed"""
    if not is_writable(t):
        return None
    for new_ids in fresh_maps(t):
        answer = substituted(changes_of(new_ids), t)
        before, after = normal_form(t), normal_form(answer)
        changed = tuple(js.REC(span=js.REC(lo=0, hi=0), ctxt=ctxt, sym=sym) for sym, ctxt in new_ids)
        if not D.grammar.Same.same_tree(changed, before, after):
            return Bad('becomes', answer, 'normal forms:', before, '--', after)
    return True


def renamed_at_names(changes, t):
    """the tree with the new id for each identifier at a binding or reference place, and without spans"""
    program = scoping.Program(D.all, t)

    def renamed(path, node):
        if node[0] == 'Identifier':
            i = node[2]
            new = changes(identity(i)) if is_name(program.standing(path)) else None
            sym, ctxt = new[0] if new else identity(i)
            return ('Identifier', node[1], js.REC(span=None, ctxt=ctxt, sym=sym))
        if node[0] == 'Span':
            return ('Span', None)
        if node[0] in ('List', 'Tree'):
            return trees.with_kids(node, [renamed(path + (n,), c) for n, c in enumerate(trees.kids(node))])
        return node
    return renamed((), t)


def any_maps(t):
    """fresh maps; and maps to ids that the tree has, to one id for all, and to one id for every second"""
    yield from fresh_maps(t)
    ids = ids_of(t)
    if len(ids) > 1:
        yield {i: ids[(number + 1) % len(ids)] for number, i in enumerate(ids)}
        yield {i: (ids[0][0], (7,)) for i in ids}
        yield {i: ids[0] for number, i in enumerate(ids) if number % 2}


@law(writable_tree)
def renamed_normal_form_has_new_names(t):
    """a writable tree whose ids get any new ids has its own normal form with these ids at names, but for spans"""
    if not is_writable(t):
        return None
    for new_ids in any_maps(t):
        for changes in (changes_of(new_ids), lambda i, new_ids=new_ids: (new_ids[i],) if i in new_ids else None):
            answer = substituted(changes, t)
            before, after = normal_form(t), normal_form(answer)
            if renamed_at_names(changes, before) != renamed_at_names(lambda i: None, after):
                return Bad('becomes', answer, 'normal forms:', before, '--', after)
    return True


@law(writable_tree)
def renamed_is_the_same_but_for_bound_names(t):
    """a writable tree whose declared ids get fresh identifier texts, one to one, is the same but for bound names"""
    declared = set(declared_ids(t))
    if not declared or not is_writable(t):
        return None
    for new_ids in fresh_maps(t):
        answer = substituted(changes_of({i: new for i, new in new_ids.items() if i in declared}), t)
        if not is_same(t, answer):
            return Bad('becomes', answer, 'normal forms:', normal_form(t), '--', normal_form(answer))
    return True


@law(any_tree)
def empty_map_changes_nothing(t):
    """the empty map changes nothing"""
    if not fits_place(t):
        return None
    answer = substituted(changes_of({}), t)
    return answer == t or Bad('becomes', answer)


@law(any_tree)
def own_texts_change_nothing(t):
    """a map that gives each id its own text, with its own or with the empty context, changes nothing"""
    if not fits_place(t) or not identifiers(t):
        return None
    ids = [identity(i) for _, i in identifiers(t)]
    for new_ids in ({i: i for i in ids}, {i: (i[0], ()) for i in ids}):
        answer = substituted(changes_of(new_ids), t)
        if answer != t:
            return Bad('becomes', answer)
    return True


@law(any_tree)
def renamed_fits_its_place(t):
    """a tree that fits its place still does when its ids get fresh texts, with class names kept or not"""
    if not fits_place(t):
        return None
    for new_ids in fresh_maps(t):
        for keeps in (False, True):
            answer = substituted(changes_of(new_ids), t, keeps)
            if not fits_place(answer):
                return Bad('fits no place:', answer)
    return True


def places_below(keeps, place, t, i):
    """the place of a node's field"""
    places = definition('swc_base_rename_substitution.Places.places', 'swc_base_rename_substitution.Substituted.places')
    return places(keeps, place, t[1], t[2], i)


def substitution_places(t, keeps, place='Other', path=()):
    """(path, place) of each identifier, as the substitution sees it"""
    if t[0] == 'Identifier':
        yield path, place
    elif t[0] == 'List':
        for i, child in enumerate(t[1]):
            yield from substitution_places(child, keeps, place, path + (i,))
    elif t[0] == 'Tree':
        for i, child in enumerate(t[2]):
            yield from substitution_places(child, keeps, places_below(keeps, place, t, i), path + (i,))


@law(expressions_as_names)
def names_are_those_of_scoping(t):
    """the substitution changes an identifier exactly where scoping calls it a binding or a reference; where class
    expressions keep their names, theirs alone stay out"""
    if not fits_place(t) or not identifiers(t):
        return None
    program = scoping.Program(D.all, t)
    for keeps in (False, True):
        for path, place in substitution_places(t, keeps):
            changes = D.substitution.Identifiers.changed(lambda i: (i,), place, at(t, path)[2]) is not None
            is_kept_name = keeps and kind(at(t, path[:-1])) == 'ClassExpr'
            if changes != (is_name(program.standing(path)) and not is_kept_name) or (place == 'ClassName') != is_kept_name:
                return Bad('at', repr(path), at(t, path), 'stands as', program.standing(path), 'and has the place', place)
    return True


def exported_expressions(random, size):
    """modules with exported declarations, in whose patterns identifier expressions stand too"""
    kinds = ('Ident', 'ParenExpr')
    if random.chance(0.7):
        return random.favouring(kinds, lambda: random.exporting(size))
    return random.wild_with(kinds + ('ExportDecl', 'VarDecl'), size)


@law(exported_expressions)
def exports_bind_what_scoping_binds(t):
    """the ids of an exported declaration, in order, are those of the identifiers in it that scoping calls bindings of
    the program, where no type, enum or namespace is declared"""
    found = [path for path, node in paths(t) if kind(node) == 'ExportDecl']
    if not fits_place(t) or not found or has_types(t):
        return None
    program = scoping.Program(D.all, t)
    for path in found:
        declaration = at(t, path + (1,))
        bound = [identity(program.identifier(p)) for p, standing, _ in scoping.Binds(program)
                 if p[:len(path)] == path and scoping.taker(program, standing, p) == () and not below_initialiser(t, path, p)]
        if bound != declaration_ids(declaration):
            return Bad('scoping says', ' '.join(js.string(i[0]) for i in bound) or 'none', 'the exports say',
                       ' '.join(js.string(i[0]) for i in declaration_ids(declaration)) or 'none', 'in', t)
    return True


def below_initialiser(t, above, path):
    """the way to the path goes through an expression or a body, where `var` may stand"""
    steps = [(at(t, path[:n]), path[n]) for n in range(len(above), len(path))]
    with_value = ('VarDeclarator', 'AssignPat', 'AssignPatProp')
    return any(kind(node) in ('Function', 'Class') or kind(node) in with_value and field == 2 for node, field in steps)


@law(exports)
def export_list_names_each_id_once(t):
    """where a name of an exported declaration changes, the list behind it has one specifier for each id that the
    declaration binds"""
    found = [node for _, node in paths(t) if kind(node) == 'ExportDecl']
    if not found or not fits_place(t):
        return None
    ids = ids_of(t)
    new_ids = {i: (js.codes('n%d' % number), ()) for number, i in enumerate(ids) if number % 2 == 0 or len(ids) < 3}
    changes, changed = changes_of(new_ids), False
    for node in found:
        exported = D.substitution.Exports.exported_ids(node)
        for answer in D.substitution.Exports.exports_of(changes, exported) or ():
            changed = True
            locals_ = [identity(specifier[2][1][2]) for specifier in answer[2][1][1]]
            wanted = [new_ids.get(i, i) for i in dict.fromkeys(declaration_ids(node[2][1]))]
            if locals_ != wanted:
                return Bad('list:', answer, 'of', node)
    return True if changed else None


@law(writable_tree)
def other_names_stay(t):
    """labels, imported and exported names, and what other identifiers are no bindings or references, stay in their order"""
    if not is_writable(t):
        return None

    def others(tree):
        program = scoping.Program(D.all, tree)
        return [program.name(p) for p in program.identifiers if not is_name(program.standing(p))]
    for new_ids in fresh_maps(t):
        answer = substituted(changes_of(new_ids), t)
        if others(normal_form(t)) != others(normal_form(answer)):
            return Bad('becomes', answer)
    return True
