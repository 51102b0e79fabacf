"""Laws of texts: a well-formed tree is that of its text, however that is laid out, of no text with other tokens, and whether another tree is too."""
import hashlib

import following
import js
import regroup
import texts
import trees
from following import IsTextOf, IsWellFormed
from lawbook import Bad, D, fixed, has_types, is_writable, kind, law, same
from random_trees import Random
from text_kept_laws import chain, clean_source, is_source, spoilt
from text_token_laws import NO_TOKENS
from texts import leafy_program, leafy_source


def own_random(t):
    """chance of a tree's own"""
    return Random(int.from_bytes(hashlib.md5(repr(t).encode()).digest()[:4], 'big'))


def show(text):
    return repr(bytes(text).decode('utf-8', 'replace'))


# ------------------------------------------------------------------------------------------------------- texts
@law(leafy_program)
def well_formed_has_its_text(t):
    """a well-formed program is that of its tokens with a blank between two"""
    if t is None or has_types(t) or not IsWellFormed(D.all, t):
        return None
    text = texts.plain(t)
    return IsTextOf(D.all, t, text) or Bad('not its text:', show(text))


@law(leafy_program)
def layout_does_not_matter(t):
    """and of these with any blanks, comments and line ends, escapes in names and strings, and without what may be left out"""
    if t is None or has_types(t) or not IsWellFormed(D.all, t):
        return None
    random = own_random(t)
    for _ in range(3):
        text = texts.written(random, t, texts.LOOSE)
        if not IsTextOf(D.all, t, text):
            return Bad('not its text:', show(text))
    return True


def neighbours(random, t):
    """trees that differ from a tree in a leaf or an item, or in how they are grouped"""
    yield from (u for _, u in regroup.others(t))
    for _ in range(6):
        yield spoilt(random, t)
        yield texts.with_leaves(random, t)


def spelling(p):
    form = following.word(p)
    if form == 'parameter':
        return [('punctuator', 'LeftParen'), ('name', p[1]), ('punctuator', 'RightParen')]
    return [p[:2] if form == 'quoted' else ('name', p[1]) if form == 'word' else p]


def spellings(t):
    """what is written, but for semicolons and how strings are"""
    return [token for p in following.pieces(D.all, t) if following.word(p) not in NO_TOKENS and p != 'ends' for token in spelling(p)]


@law(leafy_program)
def other_tokens_are_no_text(t):
    """the text of a well-formed program is that of no tree that is written with others"""
    if t is None or has_types(t) or not IsWellFormed(D.all, t):
        return None
    text, own, tried = texts.plain(t), spellings(t), False
    for u in neighbours(own_random(t), t):
        if following.Fits(D.all, u) and not has_types(u) and spellings(u) != own:
            tried = True
            if IsTextOf(D.all, u, text):
                return Bad(show(text), 'is also that of', u)
    return True if tried else None


@law(leafy_source)
def rules_are_the_grammar(t):
    """what the table of rules derives the grammar derives"""
    if t is None or has_types(t):
        return None
    return D.all.text_derives.Judged.derived(t, False, D.all.text_derives.Contexts.whole) == following.FitsGrammar(D.all, t) or Bad('not by rules')


# --------------------------------------------------------------------------------------------- one tree of a text
def has(t, test):
    return following.HasNode(test, t)


def is_tree(node, wanted):
    return node[0] == 'Tree' and node[1] == wanted


def pinned():
    return D.all.text_checks.Pinned


def is_head(node):
    return node[0] == 'Tree' and node[1] in ('ForInStmt', 'ForOfStmt')


def head_of(node):
    return node[2][1 if node[1] == 'ForInStmt' else 2]


def expression_as_pattern(node):
    """a name, an array, an object or an assignment as an expression where a pattern stands"""
    return pinned().is_astray_pattern(node) or is_head(node) and pinned().is_like_pattern(head_of(node))


def bracket_behind_let(node):
    """the head of a `for` begins with a member of `let`"""
    return is_tree(node, 'ForStmt') and pinned().begins_so(node[2][1]) or is_head(node) and pinned().begins_so(head_of(node))


def astray(wanted):
    """a node of a kind that no text is read as"""
    return lambda node: is_tree(node, wanted) and pinned().is_astray(node)


# What is asked besides of a tree that is well formed, so that its text has no other: the parts of `IsPinned`.
BESIDES = {
    'no chain that is none': lambda t: not has(t, astray('OptChainExpr')),
    'patterns as patterns': lambda t: not has(t, expression_as_pattern),
    'no member of `let` in a head': lambda t: not has(t, bracket_behind_let),
    'grouped to the left': lambda t: not has(t, astray('BinExpr')),
    'operators where they may be': lambda t: following.Worded(D.all, t),
    'writable, if not lax': lambda t: is_writable(t) or has(t, pinned().is_lax)}


def other_of_one_text(t, besides):
    """another tree of the text of a tree, both well formed and more"""
    if not IsWellFormed(D.all, t) or not all(asks(t) for asks in besides):
        return None
    text = texts.plain(t)
    for _, u in regroup.others(t):
        if not same(t, u) and IsWellFormed(D.all, u) and all(asks(u) for asks in besides) and IsTextOf(D.all, u, text):
            return Bad(show(text), 'is also that of', u)
    return True


# programs that random ones seldom are
SELDOM = ['a || b || c;', 'a ?? b ?? c;', 'for (let [a] = b;;);', 'for (let [a] of b);', 'yield;', 'yield(a);', 'function* f() { yield; }', 'await(a);',
          'async function f() { await(a); }', '(class { a() {} });', 'a.b;', 'let[a] = b;', 'let[a];', 'if (a) let[b];', 'yield + a;', 'var package;',
          'function* f() { yield(a); yield[a]; yield + a; }', 'function* f(a) { return () => yield_(a); }', '(a?.b).c;', 'if (a) if (b); else c;', 'new a.b();']


def grouped_source(random, size):
    """programs with leaves of all spellings, and nests of expressions, with due pairs or as they are; some that are written"""
    if random.chance(0.03):
        return js.script(random.pick(SELDOM))
    choice = random.below(4)
    if choice == 0:
        t = random.left_ends(size)
    elif choice == 1:
        t = random.writable(size, random.chance(0.5))
    else:
        t = leafy_source(random, size)
    if has_types(t):
        return None
    return fixed(t) if random.chance(0.6) and is_writable(t) else t


@law(grouped_source)
def one_tree_of_a_text(t):
    """a text is that of one well-formed tree"""
    return other_of_one_text(t, [])


@law(grouped_source)
def one_exact_tree_of_a_text(t):
    """a text is that of one well-formed tree that is pinned"""
    if following.IsPinned(D.all, t) != all(asks(t) for asks in BESIDES.values()):
        return Bad('pinned by its parts alone')
    return other_of_one_text(t, [lambda u: following.IsPinned(D.all, u)])


def exact_source(random, size):
    """sources of a chain with due pairs"""
    t = clean_source(random, size)
    return fixed(t) if t and is_writable(t) else t


@law(exact_source)
def chained_answers_are_exact(t):
    """what a chain answers to a source for which all of BESIDES hold is such, but for how `||`, `&&` and `??` are grouped"""
    if t is None or not is_source(t) or not all(asks(t) for asks in BESIDES.values()):
        return None
    answer, left_out = chain(t), 'grouped to the left'
    for name, asks in BESIDES.items():
        if name != left_out and not asks(answer):
            return Bad(name + ':', answer)
    return True
