"""What the laws share: the definitions of a checkout, sources of random trees, and words for trees.

A law takes a tree and answers None where its premise does not hold, True where it holds, and else a `Bad`, with words and
trees that say what went wrong. `@law(source)` says which random trees it is tried on: a source is one of this file, or one
of yours, which takes a `random_trees.Random` and a size. `@law_of_goals` of settled_laws.py adds a law twice, of modules and
of scripts.

    @law(writable_tree)
    def stripped_twice(t):
        '''stripping a second time changes nothing'''
        if not is_writable(t):
            return None
        once = D.grammar.Stripped.stripped(t)
        twice = D.grammar.Stripped.stripped(once)
        return same(once, twice) or Bad('once:', once, 'twice:', twice)

A law must not depend on chance, or its tree cannot be made smaller: take a fixed seed where choices are needed. Where few
trees meet a premise, write a source that meets it more often. Trees that every law should try are texts in `WRITTEN` of
laws.py. To see that a law can fail at all, break a definition in a copy of `crates` and run it there.
"""
import antt2py
import commented
import following
import js
import naming
import scoping
import random_trees
import renaming
import told
import trees
import units
from trees import at, paths

CRATES = ['swc_tree_node', 'swc_tree_grammar', 'swc_tree_scoping', 'swc_base_rename_substitution', 'swc_base_rename_analysis', 'swc_base_rename_analysis_laws', 'swc_base_rename_naming', 'swc_base_rename_units', 'swc_tree_ext', 'swc_tree_marks', 'swc_tree_renaming', 'swc_tree_sites', 'swc_tree_sites_written', 'swc_tree_sites_kept', 'swc_base_renaming_laws.Meetings', 'swc_base_tables_injection', 'swc_base_tables_laws', 'swc_tree_walk', 'swc_base_rename_laws', 'swc_base_alpha_laws', 'swc_base_alpha', 'swc_base_covers', 'swc_base_plain_numbers', 'swc_base_plain_form', *following.CRATES, *commented.CRATES, *told.CRATES]


class Definitions:
    """the translated definitions, by crate; `load` fills it"""


D = Definitions()
LAWS = {}


def load(checkout):
    """reads the definitions of a checkout, which all laws then use"""
    D.all = antt2py.load(checkout, CRATES)
    D.node, D.grammar, D.scoping = D.all.swc_tree_node, D.all.swc_tree_grammar, D.all.swc_tree_scoping
    D.sites, D.written, D.exports = D.all.swc_tree_sites, D.all.swc_tree_sites_written, D.all.swc_tree_sites_kept
    D.injection = D.all.swc_base_tables_injection
    D.substitution, D.ext, D.marks = D.all.swc_base_rename_substitution, D.all.swc_tree_ext, D.all.swc_tree_marks
    random_trees.setup(D.all)
    return [name for made in (scoping, naming, units, renaming, following, commented, told) for name in made.check_sources(checkout)]


def definition(*paths):
    """the first of some definitions, CRATE.MODULE.NAME, that the checkout has"""
    for path in paths:
        found = D.all
        for part in path.split('.'):
            found = getattr(found, part, None)
        if found is not None:
            return found
    raise AttributeError('none of the definitions %s' % ', '.join(paths))


def bound_ids(pattern):
    """the ids that a pattern binds, in order: what `find_pat_ids` answers"""
    return list(definition('swc_tree_scoping.BoundNames.bound_ids', 'swc_tree_ext.BoundIds.bound_ids')(pattern))


def declaration_ids(declaration):
    """the ids that a declaration binds, in order, as exports have them"""
    return list(definition('swc_tree_scoping.BoundNames.declared_ids', 'swc_base_rename_substitution.Exports.bound_ids')(declaration))


class Bad:
    """what went wrong: words and trees"""
    def __init__(self, *parts):
        self.parts = parts

    def __str__(self):
        return ' '.join(part if isinstance(part, str) else js.text(part) for part in self.parts)


def law(source):
    """adds a law, to be tried on trees of the source"""
    def add(function):
        LAWS[function.__name__] = (source, function)
        return function
    return add


# ---------------------------------------------------------------------------------------- sources of random trees
def any_tree(random, size):
    """trees that fit their places, most of them not writable"""
    return random.wild(size, random.chance(0.6))


def expressions_as_names(random, size):
    """trees that fit their places, with many identifier expressions and pairs, where names are bound too"""
    return random.wild_with(('Ident', 'ParenExpr', 'VarDecl', 'VarDecl', 'ExportDecl'), size)


def writable_tree(random, size):
    """mostly writable trees"""
    return random.pick([random.writable, random.writable, random.writable, random.wild])(size, random.chance(0.6))


def writable_module(random, size):
    """mostly writable modules"""
    return random.writable(size, True)


def clean_module(random, size):
    """modules of few names and many scopes, without contexts"""
    return random.names(size, True)


def clean_program(random, size):
    """the same, scripts too"""
    return random.names(size, random.chance(0.5))


def well_scoped_module(random, size):
    """resolved modules, some with other ids, some with one id exchanged"""
    return random.well_scoped(size, True)


def well_scoped_program(random, size):
    """the same, scripts too"""
    return random.well_scoped(size, random.chance(0.5))


# ------------------------------------------------------------------------------------------------ words for trees
def is_module(t):
    return t[1] == 'Module'


def kind(t):
    return t[1] if t[0] in ('Tree', 'Identifier') else None


def word(t):
    return t[1] if t[0] == 'Word' else None


def kids(t):
    return trees.kids(t)


def of_kind(t, wanted):
    """the paths of the nodes of a kind"""
    return [path for path, node in paths(t) if kind(node) == wanted]


def has_types(t):
    """whether an interface, an alias, an enum or a namespace stands in the tree"""
    return any(of_kind(t, wanted) for wanted in ('TsInterfaceDecl', 'TsTypeAliasDecl', 'TsEnumDecl', 'TsModuleDecl'))


def lists_are_items(t):
    """whether each export list of the tree is an item of the program"""
    return all(len(path) == 2 and path[0] == 1 for path in of_kind(t, 'NamedExport'))


def identifiers(t):
    """(path, identifier) of each identifier"""
    return [(path, node[2]) for path, node in paths(t) if node[0] == 'Identifier']


def identity(identifier):
    return (identifier.sym, identifier.ctxt)


def fits_place(t):
    return D.node.Fits.fits(t, ('One', ('Node', t[1])))


def fits_grammar(t):
    return D.grammar.Grammar.derives(t, antt2py.Rec(with_in=True, strict=False))


def is_writable(t):
    return fits_place(t) and D.grammar.Writable.is_writable(t)


def stripped(t):
    """the stripped tree with its blocks"""
    return D.grammar.Blocks.with_blocks(D.grammar.Stripped.stripped(t))


def fixed(t):
    """the stripped tree with its blocks and due pairs"""
    return D.grammar.Due.with_due_pairs(lambda span: span, stripped(t))


def normal_form(t):
    return D.grammar.Normal.normal_form(t)


def spanless(t):
    """the tree with one span everywhere"""
    if t[0] == 'Span':
        return trees.SPAN
    if t[0] == 'Identifier':
        return ('Identifier', t[1], js.REC(span=trees.SPAN[1], ctxt=t[2].ctxt, sym=t[2].sym))
    return trees.with_kids(t, [spanless(c) for c in kids(t)]) if t[0] in ('List', 'Tree') else t


def same(t, u):
    """equal but for spans: random trees have a span for each node, but the passes copy spans"""
    return spanless(t) == spanless(u)


def is_name(standing):
    """what stands so is a binding or a reference"""
    return D.scoping.Scopes.is_binding(standing) or D.scoping.Scopes.is_reference(standing)


def ids_of(t):
    """the ids at binding and reference places, each once"""
    program = scoping.Program(D.all, t)
    return list(dict.fromkeys(identity(program.identifier(p)) for p, standing, _ in scoping.Stands(program) if is_name(standing)))


def declared_ids(t):
    """the ids at binding places, each once"""
    program = scoping.Program(D.all, t)
    return list(dict.fromkeys(identity(program.identifier(p)) for p, _, _ in scoping.Binds(program)))


def with_text(t, path, sym, ctxt=None):
    """the tree with another text, and perhaps another context, for the identifier at a path"""
    _, its_kind, old = at(t, path)
    return trees.put(t, path, ('Identifier', its_kind, js.REC(span=old.span, ctxt=old.ctxt if ctxt is None else ctxt, sym=sym)))


def in_pair(t, path):
    """the tree with a pair of parentheses round the node at a path"""
    return trees.put(t, path, ('Tree', 'ParenExpr', (trees.SPAN, at(t, path))))
