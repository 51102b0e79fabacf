"""Laws of token lists: what a pass, and a chain, makes of the tokens of a program.

Names given anew stand where names stood; `{ a }` is written out as `{ a: a1 }`, an import or export with `as`, an exported declaration as the
declaration and an export list. The fixer takes tokens away (pairs, what a sequence drops), and sets pairs and the braces of blocks.
"""
import following
import scoping
import trees
from grammar_laws import is_same
from headline_laws import nameless
from lawbook import Bad, D, declared_ids, fixed, has_types, identity, is_writable, kind, law, normal_form
from naming_rows import with_hygiene
from text_kept_laws import clean_source, is_source, renamed, text_source

NO_TOKENS = ('closes', 'gap', 'here', 'may_comma', 'may_from', 'may_braces')
COMMA, COLON, OPEN, CLOSE = (('punctuator', name) for name in ('Comma', 'Colon', 'LeftBrace', 'RightBrace'))
BRACKETS = (('punctuator', 'LeftBracket'), ('punctuator', 'RightBracket'))
AS, EXPORT = (('word', tuple(word)) for word in (b'as', b'export'))
PROTO = tuple(b'__proto__')


def tokens(t):
    """the tokens of a tree, with `ends` for a semicolon that may be left out"""
    return [('name', p[1]) if following.word(p) == 'parameter' else p for p in following.pieces(D.all, t) if following.word(p) not in NO_TOKENS]


def is_part(some, whole):
    """the tokens are some of the others, in their order"""
    left = iter(whole)
    return all(token in left for token in some)


def adds_only(before, after, first, last):
    """behind tokens are these with as many more of two, and no others"""
    count = {token: after.count(token) - before.count(token) for token in set(after)}
    others = [token for token, number in count.items() if number and token not in (('punctuator', first), ('punctuator', last))]
    return is_part(before, after) and not others and count.get(('punctuator', first), 0) == count.get(('punctuator', last), 0)


# ---- names given anew
def is_name(token):
    return following.word(token) == 'name'


def written_out(p, qs, j):
    """how many tokens from a place on stand for one name, beside one"""
    three = qs[j:j + 3]
    if len(three) == 3 and is_name(three[2]):
        if three[:2] == [p, COLON] or three[:2] == [p, AS]:                 # { a: a1 }, import { a as a1 }
            return 3
        if is_name(three[0]) and three[1] == AS and three[2] == p:            # export { a1 as a }
            return 3
    five = qs[j:j + 5]
    if p[1] == PROTO and len(five) == 5 and following.word(five[1]) == 'quoted' and five[1][1] == PROTO and is_name(five[4]):
        return 5 if (five[0], five[2], five[3]) == BRACKETS + (COLON,) else 0
    return 0


def export_list(qs, j):
    """behind an export list of names that begins at a place; None where none does"""
    if qs[j:j + 2] != [EXPORT, OPEN]:
        return None
    j += 2
    while j < len(qs) and is_name(qs[j]):
        j += 3 if qs[j + 1:j + 2] == [AS] and j + 2 < len(qs) and is_name(qs[j + 2]) else 1
        if qs[j:j + 1] == [COMMA]:
            j += 1
    return j + 2 if qs[j:j + 2] == [CLOSE, 'ends'] else None


def steps(ps, qs, state):
    """from so many tokens of both lists, and exported declarations whose lists are still to come, to the next"""
    i, j, lists = state
    if i < len(ps) and j < len(qs) and (ps[i] == qs[j] or is_name(ps[i]) and is_name(qs[j])):
        yield i + 1, j + 1, lists
    if i < len(ps) and is_name(ps[i]):
        more = written_out(ps[i], qs, j)
        if more:
            yield i + 1, j + more, lists
    if i < len(ps) and ps[i] == EXPORT:
        yield i + 1, j, lists + 1
    behind = export_list(qs, j) if lists else None
    if behind:
        yield i, behind, lists - 1


def are_named(ps, qs):
    """the second tokens are the first with names given anew"""
    seen, left = set(), [(0, 0, 0)]
    while left:
        state = left.pop()
        if state == (len(ps), len(qs), 0):
            return True
        if state not in seen:
            seen.add(state)
            left.extend(steps(ps, qs, state))
    return False


# ---- laws
def unnamed(t):
    """the pieces with one name for all, and without what is said of how what stands before ends"""
    return list(D.all.text_kept_laws.Unnamed.unnamed(following.pieces(D.all, t)))


@law(text_source)
def names_alone_differ(t):
    """a tree has the pieces that it has with one text for all identifiers, but for names"""
    return unnamed(t) == unnamed(nameless(t)) or Bad('others in', nameless(t))


def same_piece(names, p, q):
    """what `SamePiece` says: the same piece, or another name for one that is bound"""
    return p == q or following.word(p) == following.word(q) and following.word(p) in ('name', 'parameter') and p[1] in names


def are_same_but_bound(names, ps, qs):
    """what `SameButBound` says"""
    ps, qs = (D.all.text_kept_laws.Bound.unended(some) for some in (ps, qs))
    return len(ps) == len(qs) and all(same_piece(names, p, q) for p, q in zip(ps, qs))


def named_otherwise(t):
    """trees with other texts for some names, or another chosen for each that is declared"""
    bound = {identity(i) for i in D.grammar.Same.declared_names(t)}
    yield trees.with_identifiers(lambda i: (i.sym + tuple(b'1'), i.ctxt) if identity(i) in bound else identity(i), t)
    yield trees.with_identifiers(lambda i: (tuple(b'n'), ()) if identity(i) in bound else identity(i), t)
    yield trees.with_identifiers(lambda i: (tuple(b'b' if i.sym == tuple(b'a') else b'a'), i.ctxt), t)
    yield renamed(t)
    yield fixed(with_hygiene(scoping.resolved(D.all, t, 1, 2)))


@law(text_source)
def bound_names_alone_differ(t):
    """programs that have one normal form but for the names that the first one binds have, with all written out, the same pieces but for these"""
    found = [u for u in named_otherwise(t) if is_same(t, u)]
    names = {i.sym for i in D.grammar.Same.declared_names(t)}
    before = following.pieces(D.all, normal_form(t))
    for u in found:
        if not are_same_but_bound(names, before, following.pieces(D.all, normal_form(u))):
            return Bad('others in', u)
    return True if found else None


def forms_agree(t, keeps):
    """the normal forms of a tree and of what it becomes with new names have the same pieces but for these"""
    return unnamed(normal_form(t)) == unnamed(normal_form(renamed(t, keeps=keeps)))


@law(text_source)
def new_names_keep_pieces(t):
    """with all written out, a writable program and what it becomes with new names have the same pieces but for these"""
    if has_types(t) or not is_writable(t):
        return None
    return forms_agree(t, False) or Bad('others in', renamed(t))


@law(clean_source)
def forms_have_the_same_pieces(t):
    """the normal form of a chain's answer has the pieces of the program's, but for names"""
    if not is_source(t):
        return None
    before, after = normal_form(t), normal_form(fixed(with_hygiene(scoping.resolved(D.all, t, 1, 2))))
    return unnamed(before) == unnamed(after) or Bad('pieces of', after, 'and', before)


@law(text_source)
def stripping_takes_tokens_away(t):
    """the tokens of a stripped tree that fits its place are some of the tree's, in their order"""
    if has_types(t) or not following.Fits(D.all, t):
        return None
    answer = D.grammar.Stripped.stripped(t)
    return is_part(tokens(answer), tokens(t)) or Bad('others in', answer)


@law(text_source)
def blocks_add_braces(t):
    """the tree with its blocks has the tokens of the tree, and else as many opening braces as closing ones"""
    if has_types(t) or not following.Fits(D.all, t):
        return None
    answer = D.grammar.Blocks.with_blocks(t)
    return adds_only(tokens(t), tokens(answer), 'LeftBrace', 'RightBrace') or Bad('others in', answer)


@law(text_source)
def due_pairs_add_parentheses(t):
    """the tree with its due pairs has the tokens of the tree, and else as many opening parentheses as closing ones"""
    if has_types(t) or not following.Fits(D.all, t):
        return None
    answer = D.grammar.Due.with_due_pairs(lambda span: span, t)
    return adds_only(tokens(t), tokens(answer), 'LeftParen', 'RightParen') or Bad('others in', answer)


def are_with_pairs(ps, qs):
    """what `WithPairs` says: the second pieces are the first with parentheses more that go together"""
    seen, left = set(), [(0, 0, 0)]
    while left:
        i, j, count = state = left.pop()
        if state == (len(ps), len(qs), 0):
            return True
        if state in seen or count is None:
            continue
        seen.add(state)
        if i < len(ps) and j < len(qs) and ps[i] == qs[j]:
            left.append((i + 1, j + 1, count))
        if j < len(qs):
            left.append((i, j + 1, opened(count, qs[j], (SET, LEFT))))
    return False


def has_its_pairs(t):
    return are_with_pairs(following.pieces(D.all, t), following.pieces(D.all, D.grammar.Due.with_due_pairs(lambda span: span, t)))


@law(text_source)
def pairs_alone_are_set(t):
    """with its due pairs a program that fits its place has its pieces, and pairs of parentheses round some of them"""
    return None if has_types(t) or not following.Fits(D.all, t) else has_its_pairs(t) or Bad('others in', t)


@law(text_source)
def new_names_stand_where_names_stood(t):
    """a program with names given anew has the program's tokens but for names, what is written out, and exported declarations"""
    if has_types(t) or not following.Fits(D.all, t):
        return None
    answer = renamed(t)
    return are_named(tokens(t), tokens(answer)) or Bad('others in', answer)


def token_fault(t):
    """of a chain, one pass after the other"""
    resolved = scoping.resolved(D.all, t, 1, 2)
    named = with_hygiene(resolved)
    left = D.grammar.Stripped.stripped(named)
    answer = fixed(named)
    if tokens(resolved) != tokens(t):
        return Bad('resolved, others in', resolved)
    if not are_named(tokens(t), tokens(named)):
        return Bad('named, others in', named)
    if not is_part(tokens(left), tokens(named)):
        return Bad('stripped, others in', left)
    rest = list(tokens(answer))
    if not is_part(tokens(left), rest):
        return Bad('fixed, some lacking in', answer)
    before = tokens(left)
    added = {token for token in set(rest) if rest.count(token) != before.count(token)}
    allowed = {('punctuator', name) for name in ('LeftParen', 'RightParen', 'LeftBrace', 'RightBrace')}
    return None if added <= allowed else Bad('fixed, others in', answer)


@law(clean_source)
def chained_tokens(t):
    """a chain's answer has the tokens of the program but for bound names and what is written out, pairs, blocks, and what a sequence drops"""
    return (token_fault(t) or True) if is_source(t) else None


# ---- piece by piece
SET, LEFT = ('punctuator', 'LeftParen'), ('punctuator', 'RightParen')


def opened(count, token, pair):
    """how many of a pair are open behind a token that is one of the two; None for another, or where none was open"""
    count += {pair[0]: 1, pair[1]: -1}.get(token, -1000)
    return count if count >= 0 else None


def piece_steps(ps, qs, bound, state):
    """from so many pieces of both lists, with so many parentheses and braces that are set or left out and still open, and exported declarations
    whose lists are still to come, to the next"""
    i, j, set_, left, braces, lists = state
    if i < len(ps) and j < len(qs) and (ps[i] == qs[j] or is_name(ps[i]) and is_name(qs[j]) and ps[i][1] in bound):
        yield i + 1, j + 1, set_, left, braces, lists
    if i < len(ps) and is_name(ps[i]) and ps[i][1] in bound and written_out(ps[i], qs, j):
        yield i + 1, j + written_out(ps[i], qs, j), set_, left, braces, lists
    if i < len(ps) and opened(left, ps[i], (SET, LEFT)) is not None:
        yield i + 1, j, set_, opened(left, ps[i], (SET, LEFT)), braces, lists
    if j < len(qs) and opened(set_, qs[j], (SET, LEFT)) is not None:
        yield i, j + 1, opened(set_, qs[j], (SET, LEFT)), left, braces, lists
    if j < len(qs) and opened(braces, qs[j], (OPEN, CLOSE)) is not None:
        yield i, j + 1, set_, left, opened(braces, qs[j], (OPEN, CLOSE)), lists
    if i < len(ps) and ps[i] == EXPORT:
        yield i + 1, j, set_, left, braces, lists + 1
    behind = export_list(qs, j) if lists else None
    if behind:
        yield i, behind, set_, left, braces, lists - 1


def are_same_pieces(ps, qs, bound):
    """the second tokens are the first, but for bound names, pairs that are set or left out, blocks, and what is written out"""
    seen, states = set(), [(0, 0, 0, 0, 0, 0)]
    while states:
        state = states.pop()
        if state == (len(ps), len(qs), 0, 0, 0, 0):
            return True
        if state not in seen:
            seen.add(state)
            states.extend(piece_steps(ps, qs, bound, state))
    return False


def chained_piece_by_piece(t, premise):
    if not is_source(t) or not premise(t):
        return None
    resolved = scoping.resolved(D.all, t, 1, 2)
    bound = {sym for sym, ctxt in declared_ids(resolved)}
    answer = fixed(with_hygiene(resolved))
    return are_same_pieces(tokens(t), tokens(answer), bound) or Bad('others in', answer)


def has_empty_member(t):
    return following.HasNode(lambda node: node[0] == 'Tree' and node[1] == 'Class' and any(kind(m) == 'EmptyStmt' for m in node[2][2][1]), t)


@law(clean_source)
def chained_pieces(t):
    """where there is no sequence and no empty class member, a chain's answer has the program's tokens piece by piece, but for bound names, pairs,
    blocks, exported declarations, and what is written out"""
    return chained_piece_by_piece(t, lambda t: not trees_with_sequences(t) and not has_empty_member(t))


@law(clean_source)
def idle_free_tokens(t):
    """where no sequence drops an item, a chain takes no other tokens away than those of pairs and of empty class members"""
    if not is_source(t):
        return None
    named = with_hygiene(scoping.resolved(D.all, t, 1, 2))
    answer = D.grammar.Stripped.stripped(named)
    if trees_with_sequences(named):
        return None
    lost = [token for token in set(tokens(named)) if tokens(named).count(token) != tokens(answer).count(token)]
    allowed = {('punctuator', name) for name in ('LeftParen', 'RightParen', 'Semicolon')}
    return set(lost) <= allowed or Bad('lost in', answer)


def trees_with_sequences(t):
    return following.HasNode(lambda node: node[0] == 'Tree' and node[1] == 'SeqExpr', t)


# ---- with all written out
BETWEEN = ('closes', 'gap')


def taken(t):
    """the pieces of a tree, but for what is said between two tokens"""
    return [p for p in following.pieces(D.all, t) if following.word(p) not in BETWEEN]


def computed_key(p):
    return [BRACKETS[0], ('quoted', p[1], None), BRACKETS[1], COLON, p]


def listed(qs, j):
    """behind an export list of names that begins at a place; None where none does"""
    if qs[j:j + 2] != [EXPORT, OPEN]:
        return None
    j += 2
    while j < len(qs) and is_name(qs[j]) and qs[j + 1:j + 3] == [AS, qs[j]]:
        j += 4 if qs[j + 3:j + 4] == [COMMA] else 3
    if qs[j:j + 1] == ['may_comma']:
        j += 1
    return j + 2 if qs[j:j + 2] == [CLOSE, 'ends'] else None


def becoming(p, qs, j):
    """how many tokens from a place on one may stand for, written out"""
    if qs[j:j + 3] == [p, AS, p]:
        yield 3
    if is_name(p):
        if qs[j:j + 3] == [p, COLON, p]:
            yield 3
        if p[1] == PROTO and qs[j:j + 5] == computed_key(p):
            yield 5


def as_written(ps, qs, state):
    """from so many pieces of both lists, with what is left out or still to come, to the next, by the steps of `AsWritten`"""
    i, j, left = state
    p, last = ps[i] if i < len(ps) else None, left[-1:]
    if p is not None:
        if j < len(qs) and p == qs[j]:
            yield i + 1, j + 1, left
        for more in becoming(p, qs, j):
            yield i + 1, j + more, left
        if p in (SET, OPEN, EXPORT):
            yield i + 1, j, left + (p,)
        if (p, last) in ((LEFT, (SET,)), (CLOSE, (OPEN,))):
            yield i + 1, j, left[:-1]
        if p == SET and ps[i + 2:i + 4] == ['may_comma', LEFT] and j < len(qs) and qs[j] == ('parameter', ps[i + 1][1]):
            yield i + 4, j + 1, left
    behind = listed(qs, j) if last == (EXPORT,) else None
    if behind:
        yield i, behind, left[:-1]


def AsWritten(ps, qs):
    seen, states = set(), [(0, 0, ())]
    while states:
        state = states.pop()
        if state == (len(ps), len(qs), ()):
            return True
        if state not in seen:
            seen.add(state)
            states.extend(reversed(list(as_written(ps, qs, state))))
    return False


def unpaired(t):
    return D.all.text_kept_laws.Unpaired.unpaired(t)


def loses_pairs_alone(t):
    return D.grammar.Stripped.stripped(t) == unpaired(t)


def is_bare(t):
    return D.grammar.Targets.all_bare(t)


def is_fitting(t):
    return not has_types(t) and following.Fits(D.all, t)


def written_as(t, answer):
    return AsWritten(taken(t), taken(answer)) or Bad('others in', answer)


@law(text_source)
def writing_out_keeps_tokens(t):
    """a tree that fits its place, written out, has its tokens and what is written out"""
    return written_as(t, D.grammar.Normal.written_out(t)) if is_fitting(t) else None


@law(text_source)
def unpairing_keeps_tokens(t):
    """without its pairs a tree that fits its place has its other tokens"""
    return written_as(t, unpaired(t)) if is_fitting(t) else None


@law(text_source)
def normal_forms_keep_tokens(t):
    """so has the normal form, where targets can stand bare and stripping takes off pairs alone"""
    return written_as(t, normal_form(t)) if is_fitting(t) and is_bare(t) and loses_pairs_alone(t) else None


@law(text_source)
def answers_keep_tokens(t):
    """the fixer's answer to a tree that fits its place and whose targets can stand bare has the tokens of its normal form, and pairs and blocks"""
    return written_as(fixed(t), normal_form(fixed(t))) if is_fitting(t) and is_bare(t) else None


def same_as_written(t, answer):
    """both have, with all written out, the same tokens but for names that are bound"""
    first, second = ([p for p in taken(normal_form(u))] for u in (t, answer))
    bound = {i.sym for i in D.grammar.Same.declared_names(t)}
    kept = len(first) == len(second) and all(p == q or following.word(p) == following.word(q) in ('name', 'parameter') and p[1] in bound for p, q in zip(first, second))
    return kept and AsWritten(taken(t), first) and AsWritten(taken(answer), second)


@law(clean_source)
def chains_keep_tokens(t):
    """a source of which the fixer takes off pairs alone, and what a chain answers, have with all written out the same tokens but for bound names"""
    if not is_source(t) or not loses_pairs_alone(t):
        return None
    answer = fixed(with_hygiene(scoping.resolved(D.all, t, 1, 2)))
    return same_as_written(t, answer) or Bad('others in', answer)
