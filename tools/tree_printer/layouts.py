"""How each kind of node is written, in the crate text_pieces, from tools/layouts.txt."""
import re

from tree_printer.table import rust_match, spec_cases, spec_list

PRINTED = 'Printed by tools/print_table.py from tools/layouts.txt.'

MARKS = {'(': 'LeftParen', ')': 'RightParen', '{': 'LeftBrace', '}': 'RightBrace', '[': 'LeftBracket', ']': 'RightBracket',
         ';': 'Semicolon', ',': 'Comma', '...': 'Dots', '?': 'Question', '?.': 'QuestionDot', ':': 'Colon', '=>': 'Arrow', '=': 'Assign',
         '*': 'Mul'}
PLAIN = {'here': 'Here', 'in': 'In', 'out': 'Out', 'end': 'End'}
CALLS = {'if': 'If', 'unless': 'Unless', 'apart': 'Apart', 'string': 'Quoted', 'regex': 'Regex', 'template': 'Template', 'at': 'At'}
WHOLE = {'within': 'Within', 'dots': 'Dots', 'lone': 'Lone', 'list': 'List', 'others': 'Others', 'specifiers': 'Specifiers', 'head': 'Head', 'body': 'Body'}
FORMS = {'comma': 'Comma', 'others_comma': 'CommaUnlessLone', 'hole': 'Hole', 'name': 'Name', 'number': 'Number', 'big': 'BigInt', 'private': 'Private', 'hashbang': 'Hashbang',
         'dot': 'Dot', 'accessor': 'Accessor', 'async': 'Async', 'star': 'Star', 'meta': 'Meta', 'attributes': 'Attributes',
         'bare': 'Bare', 'braces': 'Braces'}
ENDINGS = {'block': 'BlockEnding', 'key': 'KeyEnding', 'let': 'LetEnding', 'from': 'FromEnding'}
TOKEN = re.compile(r'\w+\(\w+, \w+\)|\S+')


def capital(word):
    return word[0].upper() + word[1:]


class Layouts:
    """The rows of tools/layouts.txt: of each kind the items, as a name and what it is given."""

    def __init__(self, path, tree):
        self.tree, self.rows, self.apart, self.keywords = tree, {}, {}, []
        with open(path, encoding='utf-8') as lines:
            for line in lines:
                if line.strip() and not line.startswith('#'):
                    head, _, items = line.strip().partition(':')
                    kind, *apart = head.split()
                    keys = [field.key for field in tree.structs[kind].fields]
                    (self.apart if apart else self.rows)[kind] = [self.item(token, keys) for token in TOKEN.findall(items)]

    def word(self, text):
        text = text.strip('"')
        if text not in self.keywords:
            self.keywords.append(text)
        return 'Keyword', capital(text)

    def item(self, token, keys):
        """An item: its variant, and its arguments, each a number or an enum's name and variant."""
        call = re.fullmatch(r'(\w+)\((\w+), (\w+)\)', token)
        if call:
            return CALLS[call[1]], [keys.index(call[2]), keys.index(call[3])]
        if token in MARKS:
            return 'Sign', [('Mark', MARKS[token])]
        if token in PLAIN:
            return PLAIN[token], []
        if token.startswith('"'):
            return 'Word', [self.word(token)]
        if token.startswith('^'):
            return 'Closes', [('Ending', capital(token[1:]))]
        if token in keys:
            return 'Part', [keys.index(token)]
        key, sign, rest = re.fullmatch(r'(\w+)([:?!+~^])(.+)', token).groups()
        field = keys.index(key)
        if sign == ':' and rest in WHOLE:
            return WHOLE[rest], [field]
        return 'Of', [field, self.form(sign, rest)]

    def form(self, sign, rest):
        if sign == ':':
            return 'Form', FORMS[rest]
        if sign == '^':
            return 'Form', ENDINGS[rest]
        when = {'?': 'If', '!': 'Unless', '+': 'IfAny', '~': 'UnlessLone'}[sign]
        if rest == 'here':
            return 'Form', 'Here' + when
        if rest.startswith('"'):
            return 'Form', 'Word' + when, self.word(rest)
        if rest.startswith('^'):
            return 'Form', 'Ending' + when, ('Ending', capital(rest[1:]))
        return 'Form', 'Sign' + when, ('Mark', MARKS[rest])


def rust(argument):
    if isinstance(argument, int):
        return str(argument)
    enum, variant, *inner = argument
    return '%s::%s%s' % (enum, variant, '(%s)' % ', '.join(map(rust, inner)) if inner else '')


def rust_item(item):
    name, arguments = item
    return 'Item::' + name + ('(%s)' % ', '.join(map(rust, arguments)) if arguments else '')


def spec(argument):
    if isinstance(argument, int):
        return str(argument)
    enum, variant, *inner = argument
    text = ' '.join(['%s.%s' % (enum.lower(), variant)] + [spec(x) for x in inner])
    return '(%s)' % text if inner else text


def spec_item(item):
    name, arguments = item
    return ' '.join(['item.' + name] + [spec(x) for x in arguments])


RUST_HEAD = """//! How each kind of node is written.
//!
//! %s

ghost use Rattle.std.specs.Prelude.{◌≡◌};
ghost use Rattle.text_pieces.specs.Layouts.{apart_layout_of, layout_of};

use crate::item::{Ending, Form, Item};
use crate::keyword::Keyword;
use swc_tree_node::Kind;
use text_lexer::Mark;

""" % PRINTED

SPEC_HEAD = """-- How each kind of node is written (ECMA-262, 12 to 16).
--
-- %s
use Rattle.std.specs.Prelude.{List, [], ◌∷◌}
use Rattle.swc_tree_node.specs.declared.kind.Kind.{Kind}
use Rattle.swc_tree_node.specs.declared.kind.Kind.TheVariants as kind
use Rattle.text_lexer.specs.declared.mark.Mark.TheVariants as mark
use Rattle.text_pieces.specs.declared.item.Ending.TheVariants as ending
use Rattle.text_pieces.specs.declared.item.Form.TheVariants as form
use Rattle.text_pieces.specs.declared.item.Item.{Item}
use Rattle.text_pieces.specs.declared.item.Item.TheVariants as item
use Rattle.text_pieces.specs.declared.keyword.Keyword.TheVariants as keyword

""" % PRINTED

KEYWORD_HEAD = """//! Words of the language that layouts have.
//!
//! %s

ghost use Rattle.std.specs.Prelude.{◌≡◌};
ghost use Rattle.text_pieces.specs.Keywords.{keyword_text};

/// A word of the language that a layout has.
#[derive(Clone, Copy, Debug, PartialEq, Eq)]
pub enum Keyword {
%%s}

""" % PRINTED

KEYWORD_SPEC_HEAD = """-- Words of the language as they are written.
--
-- %s
use Rattle.std.specs.Prelude.{ℕ, List, codes}
use Rattle.text_pieces.specs.declared.keyword.Keyword.{Keyword}
use Rattle.text_pieces.specs.declared.keyword.Keyword.TheVariants as keyword

""" % PRINTED


def layout_rt(layouts):
    arms = [('Kind::' + kind, '&[%s]' % ', '.join(map(rust_item, items))) for kind, items in layouts.rows.items()]
    apart = [('Kind::' + kind, '&[%s]' % ', '.join(map(rust_item, items))) for kind, items in layouts.apart.items()]
    return (RUST_HEAD
            + rust_match('layout_of', 'What a node of a kind is written with, in this order.', 'kind', 'Kind', "&'static [Item]",
                         'result.now ≡ layout_of kind', arms + [('_', '&[Item::Never]')]) + '\n'
            + rust_match('apart_layout_of', 'The same where its parent writes something of it.', 'kind', 'Kind', "&'static [Item]",
                         'result.now ≡ apart_layout_of kind', apart + [('_', 'layout_of(kind)')]))


def layout_antt(layouts):
    rows = lambda table: [('kind.' + kind, spec_list(list(map(spec_item, items)))) for kind, items in table.items()]
    return (SPEC_HEAD
            + spec_cases('what a node of a kind is written with, in this order; types are not', 'layout_of', 'Kind → List Item',
                         rows(layouts.rows) + [('_', 'item.Never ∷ []')]) + '\n'
            + spec_cases('the same where its parent writes something of it', 'apart_layout_of', 'Kind → List Item',
                         rows(layouts.apart) + [('k', 'layout_of k')]))


def keyword_rt(layouts):
    words = sorted(layouts.keywords)
    return KEYWORD_HEAD % ''.join('    %s,\n' % capital(w) for w in words) + rust_match(
        'keyword_text', 'How a word of the language is written.', 'keyword', 'Keyword', "&'static str", 'result.now ≡ keyword_text keyword',
        [('Keyword::' + capital(w), '"%s"' % w) for w in words])


def keyword_antt(layouts):
    return KEYWORD_SPEC_HEAD + spec_cases('a word as it is written', 'keyword_text', 'Keyword → List ℕ', [
        ('keyword.' + capital(w), 'codes "%s"' % w) for w in sorted(layouts.keywords)])


def files(path, tree):
    layouts = Layouts(path, tree)
    crate = 'crates/text_pieces/'
    return {crate + 'src/layout.rt': layout_rt(layouts), crate + 'specs/Layouts.antt': layout_antt(layouts),
            crate + 'src/keyword.rt': keyword_rt(layouts), crate + 'specs/Keywords.antt': keyword_antt(layouts)}
