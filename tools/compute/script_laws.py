"""Laws of scripts: what hygiene and the fixer answer one after the other, and of a chain that resolves first."""
import injection_laws
import js
import renaming
import scoping
import trees
import units
from grammar_laws import is_same, set_anew
from headline_laws import meanings_fault, names_at
from lawbook import Bad, D, fits_grammar, fits_place, fixed, is_writable, law, normal_form
from kept_laws import is_tame, keeps_scopes, left_fault, neighbours, redeclares_none, taken_by_program, unpaired, written_fault
from naming_laws import names_apart_faults
from naming import hygiene
import naming
from naming_rows import cleared, with_hygiene
from sites_laws import sites, without_some

GLOBAL_VALUES = [js.codes(text) for text in ('undefined', 'NaN', 'Infinity')]
STRICT, TOP = 'use strict', 2
TABLE = units.Marks(tuple((mark, 2 if mark > 2 else 0) for mark in range(1, 60)), TOP)


# ------------------------------------------------------------------------------------------------------- sources
def with_items(t, items):
    return ('Tree', t[1], (t[2][0], ('List', tuple(items)), t[2][2]))


def own_items(random):
    """statements that scripts alone have, or often: functions and variables of one name at the top, functions with labels,
    as branches and in blocks, catch clauses, references to `arguments`"""
    random.left = 6
    choice = random.below(6)
    if choice == 0:
        return [random.build('FnDecl', 3, 'Script', 'body'), random.build('VarDecl', 1, 'Script', 'body'), random.build('FnDecl', 2, 'Script', 'body')]
    if choice == 1:
        label = ('Identifier', 'Ident', js.REC(span=random.span()[1], ctxt=(), sym=js.codes(random.pick(['l', 'a']))))
        return [random.tree('LabeledStmt', [random.span(), label, random.build('FnDecl', 2, 'LabeledStmt', 'body')])]
    if choice == 2:
        return [random.build('TryStmt', 4, 'Script', 'body')]
    if choice == 3:
        function = random.build('FnDecl', 3, 'BlockStmt', 'stmts')
        return [random.tree('BlockStmt', [random.span(), ('List', (function, random.statement(random.identifier('Ident'))))])]
    if choice == 4:
        return [random.tree('IfStmt', [random.span(), random.identifier('Ident'), random.build('FnDecl', 2, 'IfStmt', 'cons'), trees.ABSENT])]
    return [random.build('FnDecl', 4, 'Script', 'body')]


def settled(random, t):
    """the tree with other functions in place of plain ones in blocks of sloppy code, where such may stand"""
    program = scoping.Program(D.all, t)
    for p, _, _ in scoping.Stands(program, 'SloppyFunction'):
        function = trees.at(t, p[:-1] + (1,))
        flags = random.pick([('Flag', True), ('Flag', False)])
        other = ('Flag', True) if flags[1] is False else ('Flag', False)
        t = trees.put(t, p[:-1] + (1,), ('Tree', 'Function', function[2][:3] + (flags, other)))
    return t


def script(random, size):
    """scripts of few names and many scopes, without contexts; some of strict code"""
    t = random.names(size, False)
    items = list(t[2][1][1])
    if random.chance(0.5):
        for _ in range(random.pick([1, 1, 2])):
            place = random.below(len(items) + 1)
            items[place:place] = own_items(random)
    if random.chance(0.15):
        items.insert(0, random.statement(random.string(STRICT)))
    t = with_items(t, items)
    if random.chance(0.5):
        t = settled(random, t)
    new = random.pick([{}, {}, {}, {'b': 'NaN'}, {'b': 'undefined'}, {'a': 'Infinity'}])
    new = {js.codes(old): js.codes(text) for old, text in new.items()}
    t = trees.with_identifiers(lambda i: (new.get(i.sym, i.sym), i.ctxt), t)
    if random.chance(0.15):
        program = scoping.Program(D.all, t)
        for p, _, _ in scoping.References(program):
            if random.chance(0.3):
                node = trees.at(t, p)
                t = trees.put(t, p, ('Identifier', node[1], js.REC(span=node[2].span, ctxt=(), sym=js.codes('arguments'))))
    return t


def well_scoped_script(random, size):
    """the same, resolved; some with other ids, some with one id exchanged"""
    t = script(random, size)
    if not scoping.NoEarlyErrorOfNames(D.all, t) and not random.chance(0.1):
        return None
    t = scoping.resolved(D.all, t, *random.pick([(1, 2), (1, 1)]))
    if random.chance(0.5):
        t = random.recoloured(t)
    if random.chance(0.2):
        t = random.disturbed(t)
    return t


# ------------------------------------------------------------------------------------------------------ premises
def is_script(t):
    return t[1] == 'Script'


def has_no_sloppy(t):
    """no plain function stands in a block, catch body or case list of sloppy code, nor as a branch of an `if`"""
    return not scoping.Stands(scoping.Program(D.all, t), 'SloppyFunction')


def labels_no_function(t):
    """no label names a function declaration"""
    return not any(node[0] == 'Tree' and node[1] == 'LabeledStmt' and node[2][2][:2] == ('Tree', 'FnDecl') for _, node in trees.paths(t))


def declares_no_global_value(t):
    """the program declares none of `undefined`, `NaN` and `Infinity`"""
    ids = scoping.by_ids(D.all, t)
    program = scoping.Program(D.all, t)
    return not any(program.name(p) in GLOBAL_VALUES and scoping.DeclaredBy(ids, p, r, n) == () for p, r, n in scoping.Binds(ids))


def repeats(program):
    """a function has two parameters of one name"""
    seen = set()
    for p, _, name in scoping.Stands(program, 'Parameter'):
        key = (name, scoping.taker(program, 'Parameter', p))
        if key in seen:
            return True
        seen.add(key)
    return False


def repeats_no_parameter(t):
    """no function has two parameters of one id"""
    return not repeats(scoping.by_ids(D.all, t))


def means_no_global_value(t):
    """no reference to `undefined`, `NaN` or `Infinity` means the program"""
    ids = scoping.by_ids(D.all, t)
    program = scoping.Program(D.all, t)
    return not any(program.name(p) in GLOBAL_VALUES and scoping.Means(ids, p, n) == () for p, _, n in scoping.References(ids))


PLAIN = [
    ('no sloppy function in a block', has_no_sloppy),
    ('labels no function', labels_no_function),
    ('declares no global value', declares_no_global_value),
    ('repeats no parameter', repeats_no_parameter),
]
PREMISES = [
    ('fits', fits_place),
    ('writable', lambda t: D.grammar.Writable.is_writable(t)),
    ('no reader', lambda t: not units.HasEval(D.all, t)),
] + PLAIN
SCOPED = [('well-scoped: ' + name, lambda t, rule=rule: rule(D.all, t)) for name, rule in scoping.WELL_SCOPED]
SOURCE = [('clean', lambda t: scoping.IsClean(D.all, t))] + [('source: ' + name, lambda t, rule=rule: rule(D.all, t)) for name, rule in scoping.NO_EARLY_ERROR]


def missing(t, premises):
    return [name for name, holds in premises if not holds(t)]


# ------------------------------------------------------------------------------------------------------- clauses
def ids_fault(t, answer, unresolved, top):
    """`KeepsIds`: of the answer resolved, two kept names have one id exactly where the tree has one"""
    u = scoping.resolved(D.all, answer, unresolved, top)
    before, after = normal_form(t), normal_form(u)
    program, other = scoping.Program(D.all, before), scoping.Program(D.all, after)
    here, there_at = names_at(before), set(names_at(after))
    there, back = {}, {}
    for p in here:
        if p not in there_at:
            return Bad('names at other paths in', after)
        x, y = renaming.identity_at(program, p), renaming.identity_at(other, p)
        if there.setdefault(x, y) != y or back.setdefault(y, x) != x:
            return Bad('other ids in', after)
    return None


def hygienic(t, keeps=False):
    if units.HasEval(D.all, t):
        return cleared(units.renamed_by_units(D.all, t, hygiene(), TABLE, keeps))
    return with_hygiene(t, keeps)


def chained_again(answer, top, keeps=False):
    """what a chain makes of what was answered"""
    return set_anew(hygienic(scoping.resolved(D.all, answer, 1, top), keeps))


def once_clauses(t, answer):
    """the clauses of `KeepsItsPromises` that do not hold, with what is wrong, but for what a second chain makes of the answer"""
    found = {}
    if not fits_grammar(answer):
        found['derived'] = Bad('does not fit:', answer)
    if not is_same(t, answer):
        found['normal_form'] = Bad('another normal form:', answer)
    fault = ids_fault(t, answer, 1, 1) or ids_fault(t, answer, 1, 2)
    if fault:
        found['ids'] = fault
    before, after = normal_form(t), normal_form(answer)
    fault = 'names at other paths' if names_at(after) != names_at(before) else meanings_fault(after, before)
    if fault:
        found['meanings'] = Bad(fault, 'in', after, 'of', answer)
    faults = scoping.faults(scoping.NO_EARLY_ERROR, D.all, answer)
    if faults:
        found['no_early_error'] = Bad(', '.join(faults), 'in', answer)
    return found


def clauses(t, answer):
    """the same, and whether a second chain changes the answer"""
    found = once_clauses(t, answer)
    again = chained_again(answer, 2)
    if again != answer:
        found['again'] = Bad('chained again:', again, 'once:', answer)
    return found


def finished_clauses(t, keeps=False):
    return clauses(t, fixed(hygienic(t, keeps)))


def chained_clauses(t, keeps=False):
    """those of `KeepsItsSource`"""
    found = {}
    for top in (1, 2):
        resolved = scoping.resolved(D.all, t, 1, top)
        fault = meanings_fault(t, resolved)
        if fault:
            found['found'] = Bad(fault, 'in the source of', resolved)
    answer = fixed(hygienic(resolved, keeps))
    found.update(clauses(resolved, answer))
    if not is_same(t, answer):
        found['normal_form'] = Bad('another normal form:', answer)
    return found


def told(found):
    return Bad(*[part for name, bad in found.items() for part in (name + ':',) + bad.parts]) if found else True


# ---------------------------------------------------------------------------------------------------------- laws
@law(well_scoped_script)
def finished_script_as_promised(t):
    """on well-scoped writable scripts without plain functions in blocks of sloppy code, in which the program declares none of `undefined`,
    `NaN` and `Infinity`, no function has two parameters of one id and nothing reads names, hygiene and then the fixer answer what is
    promised of modules"""
    if not is_script(t) or missing(t, PREMISES + SCOPED):
        return None
    return told(finished_clauses(t))


@law(script)
def chained_script_as_promised(t):
    """on clean writable scripts without early errors of names that are so, a resolver, hygiene and the fixer answer what is promised
    of modules"""
    if not is_script(t) or missing(t, PREMISES + SOURCE):
        return None
    return told(chained_clauses(t))


def meets_but(t, names, premises):
    return is_script(t) and not [name for name in missing(t, premises) if name not in names]


@law(well_scoped_script)
def finished_hoisting_script_as_promised(t):
    """the same of scripts that have plain functions in blocks of sloppy code"""
    if not is_script(t) or has_no_sloppy(t) or not meets_but(t, ('no sloppy function in a block',), PREMISES + SCOPED):
        return None
    return told(finished_clauses(t))


@law(script)
def chained_hoisting_script_as_promised(t):
    """the same of sources that have such functions"""
    if not is_script(t) or has_no_sloppy(t) or not meets_but(t, ('no sloppy function in a block',), PREMISES + SOURCE):
        return None
    return told(chained_clauses(t))


@law(well_scoped_script)
def script_names_apart(t):
    """on well-scoped writable scripts the names that hygiene gives are apart, functions in blocks or not"""
    if not is_script(t) or scoping.faults(scoping.WELL_SCOPED, D.all, t) or not is_writable(t):
        return None
    new_texts = naming.named(D.all, t, hygiene())
    faults = names_apart_faults(t, lambda x: new_texts.get(x, x[0]))
    return Bad(repr(faults)) if faults else True


@law(script)
def resolved_script_is_well_scoped(t):
    """a clean script without early errors of names is well-scoped once it is resolved, if no reference to `undefined`, `NaN` or
    `Infinity` means the program, functions in blocks or not"""
    if not is_script(t) or missing(t, SOURCE) or not means_no_global_value(t):
        return None
    for top in (1, 2):
        answer = scoping.resolved(D.all, t, 1, top)
        faults = scoping.faults(scoping.WELL_SCOPED, D.all, answer)
        if faults:
            return Bad(', '.join(faults), 'in', answer)
    return True


@law(script)
def resolved_script_finds_meanings(t):
    """the names of such a script mean the ids that a resolver answers, functions in blocks or not"""
    if not is_script(t) or missing(t, SOURCE) or not means_no_global_value(t):
        return None
    for top in (1, 2):
        answer = scoping.resolved(D.all, t, 1, top)
        fault = meanings_fault(t, answer)
        if fault:
            return Bad(fault, 'in the source of', answer)
    return True


# --------------------------------------------------------------------------- laws on the way down, for scripts
def plain_script(t):
    return is_script(t) and fits_place(t) and has_no_sloppy(t)


def hoisting_script(t):
    return is_script(t) and fits_place(t) and not has_no_sloppy(t)


def any_script(random, size):
    """scripts that fit their place, mostly writable"""
    choice = random.below(6)
    if choice == 0:
        return random.wild(size, False)
    if choice == 1:
        return random.favouring(('Ident', 'VarDecl'), lambda: random.wild(size, False))
    if choice == 2:
        t = random.writable(size, False)
        return settled(random, t) if random.chance(0.5) else t
    return script(random, size)


def normal_form_fault(t):
    if not is_tame(unpaired(t)):
        return Bad('not tame:', unpaired(t))
    fault = left_fault(normal_form(t), t)
    if fault:
        return Bad(fault, normal_form(t))
    return None if taken_by_program(normal_form(t)) == taken_by_program(t) else Bad('the program takes others in', normal_form(t))


@law(any_script)
def script_normal_form_is_left(t):
    """a writable script without plain functions in blocks of sloppy code, stripped, is tame, and its normal form is left of it"""
    return (normal_form_fault(t) or True) if plain_script(t) and is_writable(t) else None


@law(any_script)
def hoisting_script_normal_form_is_left(t):
    """the same of scripts with such functions"""
    return (normal_form_fault(t) or True) if hoisting_script(t) and is_writable(t) else None


def stripped_fault(t):
    after, before = sites(unpaired(t)), sites(t)
    if after.pending != before.pending or taken_by_program(unpaired(t)) != taken_by_program(t):
        return Bad('other bindings are left over in', unpaired(t))
    if not without_some(after.sites, before.sites) or not without_some(after.sets, before.sets):
        return Bad('other names or scopes in', unpaired(t))
    return None


@law(any_script)
def stripped_script_has_fewer(t):
    """a script without such functions whose targets can stand bare, stripped, has fewer names, with the same round them"""
    return (stripped_fault(t) or True) if plain_script(t) and D.grammar.Targets.all_bare(t) else None


@law(any_script)
def stripped_script_stays_plain(t):
    """and no such function either, whether it is writable or not"""
    if not plain_script(t) or not D.grammar.Targets.all_bare(t):
        return None
    return has_no_sloppy(unpaired(t)) or Bad('a plain function in a block in', unpaired(t))


@law(any_script)
def normal_form_of_plain_script_is_plain(t):
    """the normal form of a writable script without such functions has none, nor has the answer of the fixer, where no label names a function"""
    if not plain_script(t) or not is_writable(t):
        return None
    for answer in (normal_form(t), fixed(t)) if labels_no_function(t) else (normal_form(t),):
        if not has_no_sloppy(answer):
            return Bad('a plain function in a block in', answer)
    return True


def is_settled(t):
    return D.all.swc_tree_sites_kept.Settled.is_settled(D.scoping.Places.program_place, t)


@law(any_script)
def settled_by_place_is_settled(t):
    """a script that is settled by place has neither a plain function in a block of sloppy code nor a label of a function, and of one that
    can be written down the other way round"""
    if not is_script(t) or not fits_place(t):
        return None
    neither = has_no_sloppy(t) and labels_no_function(t)
    return is_settled(t) == neither or (not is_settled(t) and not is_writable(t)) or Bad('settled by place:', str(is_settled(t)))


@law(any_script)
def settled_scripts_stay_settled(t):
    """a script that can be written down and is settled by place is so stripped, in its normal form, with its due pairs and fixed"""
    if not is_script(t) or not fits_place(t) or not is_writable(t) or not is_settled(t):
        return None
    for answer in (unpaired(t), normal_form(t), D.grammar.Due.with_due_pairs(lambda span: span, t), fixed(t)):
        if not is_settled(answer):
            return Bad('not settled:', answer)
    return True


@law(any_script)
def tame_script_written_out_is_left(t):
    """a tame script without such functions, written out, is left of it, and loses no name and no scope"""
    if not plain_script(t) or not is_tame(t):
        return None
    return written_fault(t) or True


def as_module(t):
    """the module of a script's items"""
    return ('Tree', 'Module', t[2])


@law(any_script)
def plain_script_has_sites_of_module(t):
    """a writable script without such functions has the names, each with the scopes round it, of the module of its items; one that is not
    writable may not: `if (a) async function a() {}`, where a block of its own stands round the function in sloppy code alone"""
    return (sites(as_module(t)) == sites(t) or Bad('others')) if plain_script(t) and is_writable(t) else None


@law(any_script)
def due_pairs_keep_names_of_scripts(t):
    """a script has its names and scopes with its due pairs, functions in blocks or not"""
    if not is_script(t) or not fits_place(t):
        return None
    answer = D.grammar.Due.with_due_pairs(lambda span: span, t)
    return sites(answer) == sites(t) or Bad('others in', answer)


@law(any_script)
def stripping_answers_to_scripts_loses_none(t):
    """what the fixer answers to a writable script keeps its names and scopes when it is stripped"""
    if not is_script(t) or not is_writable(t):
        return None
    answer = fixed(t)
    return sites(unpaired(answer)) == sites(answer) or Bad('others in', unpaired(answer))


def is_fair_script(t):
    return is_script(t) and scoping.IsClean(D.all, t) and redeclares_none(t) and has_no_sloppy(t)


def repeats_parameters(t):
    """a function has two parameters of one text"""
    return repeats(scoping.Program(D.all, t))


def kept_fault(t):
    holds = keeps_scopes(t)
    found = [n for n in neighbours(t, lambda n: holds(n) and has_no_sloppy(n))]
    for n in found:
        if not redeclares_none(n):
            return Bad('declared against the rules in', n)
    return True if found else None


@law(script)
def kept_scopes_redeclare_none_in_scripts(t):
    """a script that keeps the scopes of a clean one, neither with such functions, declares no name against the rules where that one
    does not"""
    return kept_fault(t) if is_fair_script(t) else None


@law(script)
def kept_scopes_redeclare_none_where_parameters_differ(t):
    """the same where no function of the first has two parameters of one name"""
    return kept_fault(t) if is_fair_script(t) and not repeats_parameters(t) else None


# ------------------------------------------------------------------------------------------------ settled, tables
@law(script)
def chained_script_twice_changes_nothing(t):
    """what a chain answers on a clean writable script without early errors of names, in which nothing reads names and no reference to
    a global value means the program, it answers again, functions in blocks or not"""
    if not meets_but(t, ('no sloppy function in a block',), PREMISES + SOURCE):
        return None
    once = fixed(with_hygiene(scoping.resolved(D.all, t, 1, 2)))
    again = fixed(with_hygiene(scoping.resolved(D.all, once, 1, 2)))
    return again == once or Bad('once:', once, 'again:', again)


def script_of_helpers(random, size):
    """resolved scripts with references to helpers"""
    t = well_scoped_script(random, size)
    return t and injection_laws.with_helpers(random, t, [js.codes('_a'), js.codes('_b'), js.codes('_c')])


def is_injectable_script(helper, free, offered, t):
    return injection_laws.is_injectable(helper, free, offered, t, is_script)


@law(script_of_helpers)
def requires_keep_well_scoped(t):
    """a script that helpers may be brought into is well-scoped with a `require` for each of them, functions in blocks or not"""
    if not is_script(t):
        return None
    brought, members, met = D.injection.Brought, D.injection.Members, False
    wanted = injection_laws.names_of_helpers(t)
    offered = {brought.local_name(name) for name in wanted}
    for helper, free in injection_laws.MARKS:
        if not is_injectable_script(helper, free, offered, t):
            continue
        met = True
        answer = D.injection.Bodies.put_in(tuple(brought.require_of(helper, free, name) for name in wanted), members.with_members(helper, t))
        faults = scoping.faults(scoping.WELL_SCOPED, D.all, answer)
        if faults:
            return Bad(', '.join(faults), 'in', answer)
    return True if met else None


def bodies_and_script(random, size):
    """bodies of helpers, an empty statement, and a resolved script with references to what the bodies declare"""
    t = random.names(2 + size // 3, False)
    bodies = tuple(item for item in t[2][1][1] if item[1] != 'EmptyStmt')
    texts = {js.codes(old): js.codes(new) for old, new in random.pick(injection_laws.TEXTS).items()}
    bodies = tuple(trees.with_identifiers(lambda i: (texts.get(i.sym, i.sym), ()), item) for item in bodies)
    rest = well_scoped_script(random, 2 + size // 2)
    if rest is None:
        return None
    offered = offered_alone(bodies, strict_script(rest))
    if offered:
        rest = injection_laws.with_helpers(random, rest, offered)
    return with_items(rest, bodies + (('Tree', 'EmptyStmt', (trees.SPAN,)),) + rest[2][1][1])


def strict_script(t):
    return D.injection.Alone.is_strict_program(t)


def alone(bodies, strict):
    return D.injection.Alone.alone('Script', strict, bodies)


def offered_alone(bodies, strict):
    program = scoping.Program(D.all, alone(bodies, strict))
    return sorted({name for _, _, name in scoping.Binds(program) if scoping.Declares(program, (), name)})


@law(bodies_and_script)
def bodies_keep_script_well_scoped(t):
    """a script that helpers may be brought into is well-scoped with their bodies, which stand before an empty statement here, resolved in
    a script of their own of its strictness, where they are a plain script, and begin with `use strict` only if the script is strict"""
    if not is_script(t):
        return None
    items = t[2][1][1]
    end = next((i for i, item in enumerate(items) if item[1] == 'EmptyStmt'), None)
    if end is None:
        return None
    bodies, rest = items[:end], with_items(t, items[end + 1:])
    strict = strict_script(rest)
    whole = alone(bodies, strict)
    if not fits_place(whole) or missing(whole, PLAIN + SOURCE) or D.scoping.Places.has_use_strict(bodies) and not strict:
        return None
    offered, met = set(offered_alone(bodies, strict)), False
    for helper, free in injection_laws.MARKS:
        if not is_injectable_script(helper, free, offered, rest):
            continue
        met = True
        first = max(injection_laws.known_marks(rest)) + 1
        answer = D.injection.Bodies.put_in(D.injection.Alone.statements_of(scoping.resolved(D.all, whole, free, helper, first)), rest)
        faults = scoping.faults(scoping.WELL_SCOPED, D.all, answer)
        if faults:
            return Bad(', '.join(faults), 'in', answer)
    return True if met else None


@law(any_script)
def finished_script_fits_and_is_same(t):
    """on writable scripts in which nothing reads names, well-scoped or not, what hygiene and then the fixer answer fits the grammar and has
    the normal form of the script but for bound names"""
    if not is_script(t) or not is_writable(t) or units.HasEval(D.all, t):
        return None
    answer = fixed(with_hygiene(t))
    if not fits_grammar(answer):
        return Bad('does not fit:', answer)
    return is_same(t, answer) or Bad('another normal form:', answer)
