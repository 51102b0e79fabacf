"""Laws of the names of a tree with the scopes round them, and of what is left of a tree."""
from lawbook import Bad, D, any_tree, fits_place, is_module, is_writable, law, writable_module


def sites(t):
    """the names of a program with the scopes round them"""
    return D.sites.Sites.sites_of(D.scoping.Places.program_place, t)


def without_some(xs, ys):
    """the first list is the second without some of its elements"""
    rest = iter(ys)
    return all(any(x == y for y in rest) for x in xs)


def is_copy(site):
    """a reference to what is bound beside it: of the scopes round it one alone takes anything, and that takes its id"""
    standing, name, round_it = site
    if not D.scoping.Scopes.is_reference(standing) or len(round_it) != 1 or not round_it[0][1]:
        return False
    return any((bound.sym, bound.ctxt) == (name.sym, name.ctxt) for _, bound in round_it[0][0])


@law(any_tree)
def stripped_has_fewer(t):
    """a module that is stripped has fewer names, with the same round them, and its scopes take what they took"""
    if not fits_place(t) or not is_module(t):
        return None
    answer = D.grammar.Stripped.stripped(t)
    after, before = sites(answer), sites(t)
    if after.pending != before.pending:
        return Bad('other bindings are left over in', answer)
    if not without_some(after.sites, before.sites):
        return Bad('other names in', answer)
    return without_some(after.sets, before.sets) or Bad('other scopes in', answer)


@law(writable_module)
def normal_form_is_left(t):
    """the normal form of a writable module has the names of the stripped one, and copies; its scopes take just what they took"""
    if not is_writable(t) or not is_module(t):
        return None
    answer, stripped = D.grammar.Normal.normal_form(t), D.grammar.Stripped.stripped(t)
    after, before = sites(answer), sites(stripped)
    if after.pending != before.pending or after.sets != before.sets:
        return Bad('other scopes in', answer)
    known = set(before.sites)
    return all(site in known or is_copy(site) for site in after.sites) or Bad('other names in', answer)
