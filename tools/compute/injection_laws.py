"""Laws of bringing helpers into a module, by imports or by bodies that are written out."""
import js
import scoping
from lawbook import Bad, D, fits_place, is_module, is_name, kind, law, lists_are_items, with_text
from trees import ABSENT, SPAN, with_identifiers

# the mark of free names and the helper mark; both may be one
FREE, HELPER = 1, 9
MARKS = ((HELPER, FREE), (HELPER, HELPER))
# other texts for some names of bodies
TEXTS = ({'a': '_a', 'b': '_b'}, {'a': '_a', 'b': '_a'}, {'a': '_b', 'b': 'a', 'c': '_a'}, {'a': 'b', 'b': '_b', 'f': '_a'})


# ------------------------------------------------------------------------------------------------------- modules
def with_helpers(random, t, offered):
    """the tree with helpers in place of some references that stand in no export list, and of all that have the helper mark"""
    program = scoping.Program(D.all, t)
    for p, _, _ in scoping.References(program):
        if program.identifier(p).ctxt == (HELPER,) or random.chance(0.4) and not scoping.InExportList(program, p):
            t = with_text(t, p, random.pick(offered), (HELPER,))
    return t


def resolved_module(random, size):
    """a resolved module, some with other ids, of which a few have a helper's text or the helper mark beside another; None
    where a clean one has an early error of names"""
    t = random.names(size, True)
    if not scoping.NoEarlyErrorOfNames(D.all, t):
        return None
    t = scoping.resolved(D.all, t, random.pick([FREE, FREE, FREE, HELPER]), random.pick([2] * 7 + [HELPER]))
    if random.chance(0.5):
        random.pool = ['a', 'b', '_a', '_b']
        t = random.recoloured(t)
    if random.chance(0.3):
        other = random.pick([(HELPER, FREE), (FREE, HELPER), (HELPER, 3)])
        t = with_identifiers(lambda i: (i.sym, other if i.ctxt in ((3,), (5, 6)) else i.ctxt), t)
    return t


def module_of_helpers(random, size):
    """resolved modules with references to helpers"""
    t = resolved_module(random, size)
    return t and with_helpers(random, t, [js.codes('_a'), js.codes('_b'), js.codes('_c')])


def is_injectable(helper, free, offered, t, is_of_goal=None):
    """what `IsInjectable` says of a module, or of a program of which `is_of_goal` holds, where `offered` are texts"""
    program, ids = scoping.Program(D.all, t), scoping.by_ids(D.all, t)
    for p, standing, text in scoping.Stands(program):
        context = program.identifier(p).ctxt
        if not is_name(standing):
            continue
        if context == (helper,):
            if not program.S.is_reference(standing) or text not in offered:
                return False
        elif scoping.IsDeclared(ids, ids.name(p)) == (context == (free,)):
            return False
    return (is_of_goal or is_module)(t) and fits_place(t) and scoping.WellScoped(D.all, t)


def faults_or_true(answer):
    faults = scoping.faults(scoping.WELL_SCOPED, D.all, answer)
    return Bad(', '.join(faults) + ':', answer) if faults else True


def names_of_helpers(t):
    """the helpers that a module refers to by the helper mark, and two more, without the `_` that their texts begin with"""
    texts = {text[1:] for _, _, text, context in names(t) if context == (HELPER,) and text[:1] == js.codes('_')}
    return sorted(texts | {js.codes('b'), js.codes('d')})


def names(t):
    """(path, standing, text, context) of the bindings and references"""
    program = scoping.Program(D.all, t)
    return [(p, standing, text, program.identifier(p).ctxt) for p, standing, text in scoping.Stands(program) if is_name(standing)]


@law(module_of_helpers)
def imports_keep_well_scoped(t):
    """a module that helpers may be brought into is well-scoped with an import for each of them, in whichever order"""
    if not is_module(t):
        return None
    brought, met = D.injection.Brought, False
    wanted = names_of_helpers(t)
    offered = {brought.local_name(name) for name in wanted}
    for helper, free in MARKS:
        if not is_injectable(helper, free, offered, t):
            continue
        met = True
        for order in (wanted, wanted[::-1]):
            answer = D.injection.Bodies.put_in(tuple(brought.import_of(helper, name) for name in order), t)
            fault = faults_or_true(answer)
            if fault is not True:
                return fault
    return True if met else None


# -------------------------------------------------------------------------------------------------------- bodies
def module_of(span, items):
    return ('Tree', 'Module', (span, ('List', tuple(items)), ABSENT))


def parts_of(t):
    """the items of a module before its first empty statement, which are bodies of helpers, and the module of the rest; None
    where there is no empty statement"""
    items = t[2][1][1]
    end = next((i for i, item in enumerate(items) if kind(item) == 'EmptyStmt'), None)
    return None if end is None else (items[:end], module_of(t[2][0], items[end + 1:]))


def random_bodies(random, size):
    """the items of a clean module, where some names have texts of helpers"""
    texts = {js.codes(old): js.codes(new) for old, new in random.pick(TEXTS).items()}
    t = with_identifiers(lambda i: (texts.get(i.sym, i.sym), ()), random.names(size, True))
    return tuple(item for item in t[2][1][1] if kind(item) != 'EmptyStmt')


def bodies_and_module(random, size):
    """bodies of helpers, an empty statement, and a resolved module with references to what the bodies declare"""
    bodies = random_bodies(random, 2 + size // 3)
    t = resolved_module(random, 2 + size // 2)
    offered = offered_by(bodies)
    if t is None or not offered and random.chance(0.8):
        return None
    rest = with_helpers(random, t, offered)[2][1][1] if offered else t[2][1][1]
    return module_of(SPAN, bodies + (('Tree', 'EmptyStmt', (SPAN,)),) + rest)


def bodies_alone(bodies):
    return D.all.swc_base_tables_laws.Laws.bodies_alone((bodies,))


def offered_by(bodies):
    """what the bodies declare in a module of their own, in order"""
    program = scoping.Program(D.all, bodies_alone(bodies))
    return sorted({name for _, _, name in scoping.Binds(program) if scoping.Declares(program, (), name)})


def are_bodies(bodies):
    t = bodies_alone(bodies)
    return fits_place(t) and lists_are_items(t) and scoping.IsClean(D.all, t) and scoping.NoEarlyErrorOfNames(D.all, t)


def known_marks(t):
    return {mark for _, _, _, context in names(t) for mark in context} | {FREE, HELPER}


def resolved_bodies(bodies, helper, free, known):
    """the bodies resolved in a module of their own, with fresh marks in the order of the source, and in another"""
    first = max(known) + 1
    answer = scoping.resolved(D.all, bodies_alone(bodies), free, helper, first)
    last = max([mark for _, _, _, context in names(answer) for mark in context] + [first])
    turned = with_identifiers(lambda i: (i.sym, tuple(first + last - mark if mark >= first else mark for mark in i.ctxt)), answer)
    return [D.injection.Alone.statements_of(one) for one in (answer, turned)]


@law(bodies_and_module)
def bodies_keep_well_scoped(t):
    """a module that helpers may be brought into is well-scoped with their bodies, which stand before an empty statement here,
    resolved in a module of their own"""
    parts = parts_of(t) if is_module(t) else None
    if not parts or not are_bodies(parts[0]):
        return None
    bodies, rest = parts
    offered, met = set(offered_by(bodies)), False
    for helper, free in MARKS:
        if not is_injectable(helper, free, offered, rest):
            continue
        met = True
        for statements in resolved_bodies(bodies, helper, free, known_marks(rest)):
            fault = faults_or_true(D.injection.Bodies.put_in(statements, rest))
            if fault is not True:
                return fault
    return True if met else None
