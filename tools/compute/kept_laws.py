"""Laws of what is kept of the names and scopes of a module: by its normal form, by export lists, by any module that keeps its
scopes, by taking contexts away, and by hygiene and the fixer."""
import random as chance

import js
import renaming
import scoping
import trees
import units
from grammar_laws import is_same
from lawbook import Bad, D, fits_place, fixed, identity, is_module, is_writable, kind, law, lists_are_items, normal_form, well_scoped_module, writable_module
from naming_laws import writable_and_well_scoped
from naming_rows import with_hygiene
from sites_laws import is_copy, sites, without_some
from trees import at, paths, put, with_identifiers
from units_laws import reading_tree

STANDINGS = ('Plain', 'Branch', 'Variable', 'DefaultExport')


def is_tame(t):
    return D.written.Tame.is_tame(t, False)


def written_out(t):
    return D.grammar.Normal.written_out(t)


def unpaired(t):
    """the stripped tree"""
    return D.grammar.Stripped.stripped(t)


def taken_by_program(t):
    return D.sites.Sites.taken_at(D.scoping.Places.program_place, t)


def left_fault(n, t):
    """what `IsLeftOf` says of two trees: where it does not hold, what goes wrong; else None"""
    after, before = sites(n), sites(t)
    known = set(before.sites)
    if not all(site in known or is_copy(site) for site in after.sites):
        return 'other names in'
    return None if without_some(after.sets, before.sets) else 'other scopes in'


def is_fitting_module(t):
    return is_module(t) and fits_place(t)


# --------------------------------------------------------------------------------------- sources of random trees
def any_module(random, size):
    """modules that fit their place, mostly writable, with exports, and with names that are bound by expressions"""
    choice = random.below(5)
    if choice == 0:
        return random.exporting(size, random.chance(0.3))
    if choice == 1:
        return random.favouring(('Ident', 'VarDecl', 'ExportDecl'), lambda: random.wild(size, True))
    return random.pick([random.wild, random.writable, random.names])(size, True)


def listing_module(random, size):
    """the same with an export list more"""
    t = any_module(random, size)
    items = t[2][1][1]
    end = random.below(len(items) + 1)
    return ('Tree', 'Module', (t[2][0], ('List', items[:end] + (random.export_list(),) + items[end:]), t[2][2]))


def spelled(t):
    """the tree without contexts, where each id has a text of its own"""
    return with_identifiers(lambda i: (i.sym + js.codes(''.join('$%d' % mark for mark in i.ctxt)), ()), t)


def spelled_module(random, size):
    """clean modules, most of them resolved ones in which each id has a text of its own"""
    if random.chance(0.2):
        return random.names(size, True)
    t = random.well_scoped(size, True)
    return t and spelled(t)


def marked_module(random, size):
    """modules with contexts: resolved ones, some with other ids, and mostly writable ones with any contexts"""
    return random.pick([random.well_scoped, random.well_scoped, random.writable])(size, True) if random.chance(0.8) else random.exporting(size)


# ------------------------------------------------------------------------- what is left when a module is written out
@law(writable_module)
def writable_is_tame(t):
    """a writable module, stripped, is tame, and its normal form is left of it"""
    if not is_module(t) or not is_writable(t):
        return None
    if not is_tame(unpaired(t)):
        return Bad('not tame:', unpaired(t))
    fault = left_fault(normal_form(t), t)
    return Bad(fault, normal_form(t)) if fault else True


@law(any_module)
def bare_normal_form_is_left(t):
    """the normal form of a module that fits its place is left of it, where its targets can stand bare and it is tame when stripped"""
    if not is_fitting_module(t) or not D.grammar.Targets.all_bare(t) or not is_tame(unpaired(t)):
        return None
    fault = left_fault(normal_form(t), t)
    return Bad(fault, normal_form(t)) if fault else True


def written_fault(t):
    """what a program that is written out lacks of its names and scopes, or has beyond what is left of it"""
    answer = written_out(t)
    fault = left_fault(answer, t)
    if fault:
        return Bad(fault, answer)
    if taken_by_program(answer) != taken_by_program(t):
        return Bad('the program takes others in', answer)
    after, before = sites(answer), sites(t)
    if not set(before.sites) <= set(after.sites):
        return Bad('lost names in', answer)
    return None if after.sets == before.sets else Bad('lost scopes in', answer)


@law(any_module)
def tame_written_out_is_left(t):
    """a tame module, written out, is left of it and loses no name and no scope, and its program takes what it took"""
    return (written_fault(t) or True) if is_fitting_module(t) and is_tame(t) else None


@law(any_module)
def tame_items_keep_names(t):
    """a tame item of a module, written out in strict code, keeps its names, each with the scopes round it, what it leaves to outer
    scopes and what each of its scopes takes"""
    if not is_fitting_module(t):
        return None
    items = [item for item in t[2][1][1] if is_tame(item)]
    for item in items:
        for standing in STANDINGS:
            for nested in (False, True):
                place = D.written.Laws.strict_place(standing, nested)
                if D.sites.Sites.sites_of(place, written_out(item)) != D.sites.Sites.sites_of(place, item):
                    return Bad(standing, 'in a block' if nested else 'at the top', 'others in', written_out(item))
    return True if items else None


# ------------------------------------------------------------------------------------------------------- exports
def exported_locals(t):
    return D.exports.Exported.exported_locals(t)


@law(any_module)
def stripped_exports_the_same(t):
    """a module that fits its place and whose targets can stand bare exports the same by its lists when it is stripped"""
    if not is_fitting_module(t) or not D.grammar.Targets.all_bare(t):
        return None
    return exported_locals(unpaired(t)) == exported_locals(t) or Bad('other exports:', unpaired(t))


@law(any_module)
def written_out_exports_what_is_taken(t):
    """a tame module, written out, exports by its lists what it did, and else only what its program takes"""
    if not is_fitting_module(t) or not is_tame(t):
        return None
    before, after = exported_locals(t), exported_locals(written_out(t))
    taken = {identity(i) for _, i in taken_by_program(t)}
    if not set(before) <= set(after):
        return Bad('lost exports:', written_out(t))
    return all(i in before or identity(i) in taken for i in after) or Bad('other exports:', written_out(t))


@law(listing_module)
def export_lists_are_listed(t):
    """the references in the export lists of a module that fits its place, each an item of it, are what it exports by its lists"""
    if not is_fitting_module(t) or not lists_are_items(t):
        return None
    program, listed = scoping.Program(D.all, t), exported_locals(t)
    found = [p for p, standing, _ in scoping.Stands(program) if standing == 'Reference' and scoping.InExportList(program, p)]
    if not all(program.identifier(p) in listed for p in found):
        return Bad('not listed in', t)
    return True if found else None


# --------------------------------------------------------------------------------------- what keeps scopes
def keeps_scopes(t):
    """what `KeepsScopes` asks of a tree that keeps the scopes of a tree"""
    program, before = taken_by_program(t), sites(t)
    sets, variables = set(before.sets), {site for site in before.sites if site[0] == 'Variable'}

    def holds(n):
        if taken_by_program(n) != program:
            return False
        after = sites(n)
        return set(after.sets) <= sets and all(site in variables for site in after.sites if site[0] == 'Variable')
    return holds


def changed(t, draw):
    """the tree with an item less, an item twice, or one part in place of another"""
    spots = [(path, node) for path, node in paths(t) if node[0] == 'List' and node[1]]
    if not spots:
        return t
    path, (_, items) = draw.choice(spots)
    i, choice = draw.randrange(len(items)), draw.randrange(3)
    if choice == 0:
        return put(t, path, ('List', items[:i] + items[i + 1:]))
    if choice == 1:
        return put(t, path, ('List', items[:i] + items[i:i + 1] + items[i:]))
    parts = [(p, node) for p, node in paths(t) if p and kind(node) in js.CLASSES['Expr']]
    return put(t, draw.choice(parts)[0], draw.choice(parts)[1]) if parts else t


def neighbours(t, meets, number=6):
    """some trees like the tree, and its normal form, that meet something; one after a few changes"""
    draw = chance.Random(int(100 * trees.size(t)))
    found = [n for n in (normal_form(t), unpaired(t)) if n != t and meets(n)]
    last = t
    for _ in range(number):
        n = changed(draw.choice([t, last]), draw)
        if n not in found and n != t and meets(n):
            found.append(n)
            last = n
    return found


def redeclares_none(t):
    return scoping.NoRedeclaration(scoping.Program(D.all, t))


def declared(t):
    return {name for _, _, name in scoping.Binds(scoping.Program(D.all, t))}


def is_fair(t):
    """a clean module that declares no name against the rules"""
    return is_module(t) and scoping.IsClean(D.all, t) and redeclares_none(t)


@law(spelled_module)
def kept_scopes_redeclare_none(t):
    """a module that keeps the scopes of a clean one declares no name against the rules where that one does not, and declares only
    names that it declares"""
    if not is_fair(t):
        return None
    found = neighbours(t, keeps_scopes(t))
    for n in found:
        if not redeclares_none(n):
            return Bad('declared against the rules in', n)
        if not declared(n) <= declared(t):
            return Bad('other names are declared in', n)
    return True if found else None


@law(marked_module)
def readings_keep_scopes(t):
    """a tree that keeps the scopes of a module keeps them where both are read by other names"""
    if not is_module(t):
        return None
    found = neighbours(t, keeps_scopes(t), 4)
    one = js.codes('a')
    for read in (D.scoping.Readings.by_ids, D.scoping.Readings.by_texts, lambda u: with_identifiers(lambda i: (one, i.ctxt), u)):
        holds = keeps_scopes(read(t))
        for n in found:
            if not holds(read(n)):
                return Bad('other scopes in', n)
    return True if found else None


def new_texts(t, draw):
    """a text for each name of a tree that captures none, the same for many"""
    program = scoping.Program(D.all, t)
    pairs, texts = renaming.conflicts(program), {}
    order = sorted({program.name(p) for p in renaming.names_at(program)})
    draw.shuffle(order)
    for x in order:
        taken = {texts[y] for y in texts if (x, y) in pairs}
        free = [js.codes(text) for text in ['a', 'b', 'c', 'd', 'e'] + ['n%d' % k for k in range(len(order))] if js.codes(text) not in taken]
        texts[x] = free[0] if draw.random() < 0.8 else draw.choice(free[:3])
    return texts


def with_texts(t, texts):
    """the tree with a new text for each name that is bound or referred to"""
    program = scoping.Program(D.all, t)
    for p in renaming.names_at(program):
        i = program.identifier(p)
        t = put(t, p, ('Identifier', at(t, p)[1], js.REC(span=i.span, ctxt=i.ctxt, sym=texts[i.sym])))
    return t


@law(spelled_module)
def new_texts_redeclare_none(t):
    """a clean module with new texts that capture none has its scopes and declares no name against the rules where it did not"""
    if not is_fair(t) or not declared(t):
        return None
    for seed in range(3):
        n = with_texts(t, new_texts(t, chance.Random(seed)))
        if not renaming.SameScopes(scoping.Program(D.all, t), scoping.Program(D.all, n)):
            return Bad('other scopes in', n)
        if not redeclares_none(n):
            return Bad('declared against the rules in', n)
    return True


def answer_fault(t, a, texts):
    """of what is left of a module, with new texts, and then of what keeps the scopes of that"""
    n = with_texts(a, texts)
    for answer in [n] + neighbours(n, keeps_scopes(n), 2):
        if not redeclares_none(answer):
            return Bad('declared against the rules in', answer, 'of', a)
        before, after = scoping.Program(D.all, t), scoping.Program(D.all, answer)
        for name in declared(t):
            if scoping.Declares(before, (), name) and not scoping.Declares(after, (), texts[name]):
                return Bad(js.string(name), 'is not declared in', answer, 'of', a)
    return None


@law(spelled_module)
def answers_redeclare_none(t):
    """what keeps the scopes of what is left of a clean module, with new texts that capture none in it, declares no name against
    the rules where the module does not, and what the program declares its program declares by the new text"""
    if not is_fair(t) or not declared(t) or not scoping.EachInOneScope(scoping.Program(D.all, t)):
        return None
    program = taken_by_program(t)
    found = neighbours(t, lambda a: taken_by_program(a) == program and not left_fault(a, t), 4)
    for number, a in enumerate(found):
        fault = answer_fault(t, a, new_texts(t, chance.Random(number)))
        if fault:
            return fault
    return True if found else None


# ---------------------------------------------------------------------------------------------------- the fixer
@law(any_module)
def due_pairs_keep_names(t):
    """a module that fits its place has its names and scopes with its due pairs, wherever they stand"""
    if not is_fitting_module(t):
        return None
    for place in (lambda span: span, lambda span: js.REC(lo=0, hi=0)):
        answer = D.grammar.Due.with_due_pairs(place, t)
        if sites(answer) != sites(t):
            return Bad('others in', answer)
    return True


@law(any_module)
def stripping_answers_loses_none(t):
    """what the fixer answers to a writable module keeps its names and scopes when it is stripped"""
    if not is_module(t) or not is_writable(t):
        return None
    answer = fixed(t)
    return sites(unpaired(answer)) == sites(answer) or Bad('others in', unpaired(answer))


# ------------------------------------------------------------------------------------------- sources without contexts
def by_texts(t):
    return D.scoping.Readings.by_texts(t)


def other_names(t):
    """the module with other texts for its bound ids, with some for all its ids, and what hygiene and the fixer answer"""
    bound = {identity(i) for i in D.grammar.Same.declared_names(t)}
    yield with_identifiers(lambda i: (js.codes('n'), ()) if identity(i) in bound else identity(i), t)
    yield with_identifiers(lambda i: (i.sym + js.codes('$%d' % len(i.ctxt)), ()) if identity(i) in bound else (i.sym, ()), t)
    yield with_identifiers(lambda i: (js.codes('b' if i.sym == js.codes('a') else 'a'), i.ctxt), t)
    yield by_texts(t)
    if is_writable(t):
        yield fixed(with_hygiene(t))


@law(marked_module)
def sameness_needs_no_contexts(t):
    """where the normal form of a module without its contexts is its normal form without them, what is the same as the module but
    for bound names is the same as it without its contexts"""
    if normal_form(by_texts(t)) != by_texts(normal_form(t)):
        return None
    found = [answer for answer in other_names(t) if is_same(t, answer)]
    for answer in found:
        if not is_same(by_texts(t), answer):
            return Bad('not the same:', answer)
    return True if found else None


@law(reading_tree)
def readers_need_no_contexts(t):
    """what reads names in a tree reads them in the tree without contexts"""
    if not units.HasEval(D.all, t):
        return None
    return units.HasEval(D.all, by_texts(t)) or Bad('nothing reads names in', by_texts(t))


# ------------------------------------------------------------------------------------------------- early errors
@law(well_scoped_module)
def answers_have_no_early_error(t):
    """what hygiene and the fixer answer to a well-scoped writable module has no early error of names"""
    if not writable_and_well_scoped(t):
        return None
    answer = fixed(with_hygiene(t))
    faults = scoping.faults(scoping.NO_EARLY_ERROR, D.all, answer)
    return Bad(', '.join(faults) + ':', answer) if faults else True
