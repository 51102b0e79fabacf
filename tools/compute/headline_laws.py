"""Laws of what hygiene and the fixer answer one after the other, and of a chain that resolves first."""
import renaming
import scoping
import trees
import units
from grammar_laws import is_same
from lawbook import Bad, D, clean_module, fits_grammar, fixed, is_module, is_writable, law, normal_form, well_scoped_module
from naming_laws import keeps_ids, writable_and_well_scoped
from naming_rows import with_hygiene


def meanings_fault(t, u):
    """whether the names of a tree mean the ids of another; where they do not, what goes wrong"""
    return renaming.meanings_fault(scoping.Program(D.all, t), scoping.Program(D.all, u))


def names_at(t):
    return renaming.names_at(scoping.Program(D.all, t))


def is_as_promised(t, answer):
    """the answer fits the grammar, has no early error of names and the normal form of the tree but for bound names, and
    resolved again it gives two kept names one id exactly where the tree does; by its texts and scopes alone two kept
    names mean one thing exactly where the tree has one id for them"""
    if not fits_grammar(answer):
        return Bad('does not fit:', answer)
    if not scoping.NoEarlyErrorOfNames(D.all, answer):
        return Bad('early error:', answer)
    if not is_same(t, answer):
        return Bad('another normal form:', answer)
    if not keeps_ids(t, answer):
        return Bad('other ids:', answer)
    before, after = normal_form(t), normal_form(answer)
    fault = 'names at other paths' if names_at(after) != names_at(before) else meanings_fault(after, before)
    return Bad(fault, 'in', after, 'of', answer) if fault else True


def nameless(t):
    """the tree with one text for all identifiers and no context, spans as they are"""
    return trees.with_identifiers(lambda i: ((), ()), t)


@law(well_scoped_module)
def hygiene_keeps_spans(t):
    """hygiene keeps the normal form of a writable module, spans too, but for texts and contexts"""
    if not is_module(t) or not is_writable(t) or units.HasEval(D.all, t):
        return None
    before, after = normal_form(t), normal_form(with_hygiene(t))
    return nameless(before) == nameless(after) or Bad('normal forms:', before, '--', after)


def is_source(t):
    """a clean module that can be written down, without early errors of names"""
    return is_module(t) and is_writable(t) and scoping.IsClean(D.all, t) and scoping.NoEarlyErrorOfNames(D.all, t)


@law(well_scoped_module)
def finished_as_promised(t):
    """on well-scoped writable modules hygiene and then the fixer answer what is promised of them together"""
    return is_as_promised(t, fixed(with_hygiene(t))) if writable_and_well_scoped(t) else None


@law(clean_module)
def chained_as_promised(t):
    """on clean writable modules without early errors of names the ids of what a resolver answers are what the names of the
    module mean, and a resolver, hygiene and the fixer answer what is promised"""
    if not is_source(t):
        return None
    for resolved in (scoping.resolved(D.all, t, 1, 1), scoping.resolved(D.all, t, 1, 2)):
        fault = meanings_fault(t, resolved)
        if fault:
            return Bad(fault, 'in the source of', resolved)
    return is_as_promised(resolved, fixed(with_hygiene(resolved)))


@law(clean_module)
def chained_keeps_spans(t):
    """a chain keeps the normal form of such a source, in which nothing reads names, spans too, but for texts and contexts, and so does
    the resolver"""
    if not is_source(t) or units.HasEval(D.all, t):
        return None
    resolved = scoping.resolved(D.all, t, 1, 2)
    answer = fixed(with_hygiene(resolved))
    before, between, after = normal_form(t), normal_form(resolved), normal_form(answer)
    if nameless(before) != nameless(between):
        return Bad('normal forms:', before, '--', between)
    return nameless(before) == nameless(after) or Bad('normal forms:', before, '--', after)


@law(clean_module)
def chained_twice_changes_nothing(t):
    """what a chain answers on such a module, it answers again, spans aside"""
    if not is_source(t):
        return None
    once = fixed(with_hygiene(scoping.resolved(D.all, t, 1, 2)))
    again = fixed(with_hygiene(scoping.resolved(D.all, once, 1, 2)))
    return again == once or Bad('once:', once, 'again:', again)
