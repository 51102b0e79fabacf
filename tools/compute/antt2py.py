"""Translates the executable definitions of `crates/*/specs/*.antt` to Python.

    python3 antt2py.py CHECKOUT [CRATE ..]         what was translated, and what was not and why
    python3 antt2py.py CHECKOUT [CRATE ..] -o FILE     the Python text too

    defs = antt2py.load(CHECKOUT); js.setup(defs)
    t = js.module('for (let a#1 of b) { (a#1, c)(); }')
    defs.swc_tree_grammar.Writable.is_writable(t)
    js.text(defs.swc_tree_grammar.Stripped.stripped(t))

A definition is translated if it is an `abbrev` (or `unfoldable`) that gives a value. Relations (`Type`), theorems, and
what needs them are listed as not translated. A form that is not known here stops the translation with the file and the
line: nothing is guessed.

Values in Python:
    List, text       tuple; a text is a tuple of numbers
    Option           None, or (x,)
    Result           ('Ok', x), or ('Err', fault)
    pair             tuple
    record           Rec, with attributes
    variant          its name as a str, or (name, arguments..) where it has arguments
    Node             ('Absent',) ('Flag', b) ('Word', w) ('Text', x) ('Span', s) ('List', ts)
                     ('Identifier', kind, Rec(span, ctxt, sym)) ('Tree', kind, fields)
    function         a definition takes all its arguments at once; a function that is a value one at a time
"""
import glob
import os
import re
import sys

from antt_reader import FormError, Module, NotTranslated, top_split
from antt_values import CALLED, OTHER_LIBRARIES, STANDARD, STANDARD_TYPES, STANDARD_VALUES, Rec, fold_node
from antt_writer import Writer, flat_name, mangled

__all__ = ['CRATES', 'Rec', 'Translation', 'load']
CRATES = ['swc_tree_node', 'swc_tree_grammar', 'swc_tree_scoping', 'swc_base_rename_substitution',
          'swc_base_rename_analysis', 'swc_base_rename_units', 'swc_tree_ext', 'swc_tree_marks', 'swc_base_resolver_program',
          'swc_base_fixer_unparen']
NODE = 'Rattle.swc_tree_node.specs.declared.node.Node'


class Translation:
    """the modules of some crates, or one of a crate's, as CRATE.MODULE; and what the names in them mean"""
    def __init__(self, checkout, crates):
        self.checkout, self.modules, self.variants, self.not_translated, self.done = checkout, {}, {}, {}, []
        for crate, _, only in (some.partition('.') for some in crates):
            root = os.path.join(checkout, 'crates', crate, 'specs')
            if not os.path.isdir(root):
                raise FormError('crates/%s/specs: no such folder' % crate)
            for path in sorted(glob.glob(os.path.join(root, '**', '*.antt'), recursive=True)):
                name = os.path.relpath(path, root)[:-5].replace(os.sep, '.')
                if name != 'Lib' and only in ('', name):
                    self.modules[crate, name] = Module(crate, name, path, os.path.relpath(path, checkout))
        for module in self.modules.values():
            module.read()

    # --- the code
    def code(self, crate, modules):
        """the text of a module of the code, without comments; None where there is none"""
        for depth in range(len(modules), 0, -1):
            source = os.path.join(self.checkout, 'crates', crate, 'src', *modules[:depth]) + '.rt'
            if os.path.exists(source):
                break
        else:
            return None
        with open(source, encoding='utf-8') as file:
            text = re.sub(r'//.*', '', file.read())
        for inner in modules[depth:]:
            found = re.search(r'\bmod %s \{(.*?)\n\}' % inner, text, re.S)
            text = found.group(1) if found else ''
        return text

    def variants_of(self, path):
        """the variants, with their numbers of arguments, of a type declared in the code; None if it is none"""
        parts = re.match(r'Rattle\.(\w+)\.specs\.declared\.([\w.]+)\.(\w+)$', path)
        if parts and path not in self.variants:
            crate, module, name = parts.groups()
            text = self.code(crate, module.split('.'))
            while text and re.search(r'<[^<>=;{}]*>', text):
                text = re.sub(r'<[^<>=;{}]*>', '', text)
            body = text and re.search(r'\benum %s \{(.*?)\n\}' % name, text, re.S)
            self.variants[path] = body and dict(self.variant(item, path) for item in top_split(body.group(1), ',') if item.strip())
        return self.variants.get(path)

    def variant(self, text, path):
        match = re.match(r'(?:#\[.*?\] )*(\w+)(?:\((.*)\)| \{(.*)\})?$', ' '.join(text.split()))
        if not match:
            raise FormError('variant `%s` of %s' % (text, path))
        return match.group(1), len([part for part in top_split(match.group(2) or match.group(3) or '', ',') if part.strip()])

    def constant(self, path, name, where):
        """the number that a module of the code gives a name"""
        parts = re.match(r'Rattle\.(\w+)\.specs\.declared\.([\w.]+)\.TheConstants$', path)
        text = parts and self.code(parts.group(1), parts.group(2).split('.'))
        if text is None:
            raise NotTranslated('needs %s of %s' % (name, path))
        found = re.search(r'\bconst %s: \w+ = (\d+);' % name, text)
        if not found:
            raise FormError('%s: no constant %s in the code of %s' % (where, name, path))
        return found.group(1)

    # --- what names mean
    def meaning(self, module, name, where):
        """('definition', module, name) ('constructor', name, arity, of Node) ('synonym', module, name) ('standard', name)
        ('value', python) ('type',) ('node', name)"""
        first, _, rest = name.partition('.')
        own = None if rest else self.own_meaning(module, name)
        if own:
            return own
        if name in ('[]', 'tt'):
            return ('value', '()')
        if first == 'Unit':
            return ('type',)
        if first not in module.imports:
            raise FormError('%s: nothing is known of `%s`' % (where, name))
        path, original = module.imports[first]
        if path == 'Rattle.std.specs' or path.startswith('Rattle.std.specs.') or path in OTHER_LIBRARIES:
            return self.standard_meaning(path, name, original, rest)
        if path.endswith('.TheConstants'):
            return ('value', self.constant(path, rest or original, where))
        return self.declared_meaning(path, original, rest, where) or self.imported_meaning(path, original, rest, where)

    def own_meaning(self, module, name):
        if name in module.definitions:
            return ('definition', module, name)
        if name in module.data:
            return ('constructor', name, module.data[name][1], False)
        if name in module.synonyms:
            return ('synonym', module, name)
        if name in module.skipped:
            if module.skipped[name] in (None, 'a type'):
                return ('type',)
            raise NotTranslated('needs %s, %s' % (name, module.skipped[name]))
        return None

    def standard_meaning(self, path, name, original, rest):
        if rest:
            raise NotTranslated('needs %s.%s of the standard library' % (path, name))
        if original in STANDARD_VALUES:
            return ('value', STANDARD_VALUES[original])
        if original in STANDARD:
            return ('standard', original)
        if original in STANDARD_TYPES:
            return ('type',)
        raise NotTranslated('needs %s of the standard library' % original)

    def declared_meaning(self, path, original, rest, where):
        """of what is declared in the code: its variants, types, and the functions of `Node`"""
        constructor = None
        if path.endswith('.TheVariants'):
            path, constructor = path[:-len('.TheVariants')], rest or original
        elif path.endswith('.TheOpen'):
            if not rest:
                return ('type',)
            path, constructor = path[:-len('.TheOpen')], rest
        elif path == NODE and original in ('fold-Node', 'map-Node', 'out-Node', 'roll-Node'):
            return ('node', original)
        elif path == NODE and not rest and original in self.variants_of(path):
            constructor = original
        elif '.specs.declared.' in path:
            if original and original == path.split('.')[-1]:
                return ('type',)
            raise NotTranslated('needs %s of %s' % (original or rest, path))
        if constructor is None:
            return None
        variants = self.variants_of(path)
        if variants is None:
            raise NotTranslated('needs %s' % path)
        if constructor not in variants:
            raise FormError('%s: %s has no variant `%s`' % (where, path, constructor))
        return ('constructor', constructor, variants[constructor], path.startswith(NODE))

    def imported_meaning(self, path, original, rest, where):
        """of what another file of definitions says"""
        name, parts = rest or original, re.match(r'Rattle\.(\w+)\.specs\.(.+)$', path)
        if parts:
            crate, module = parts.groups()
            if (crate, module) in self.modules:
                return self.meaning(self.modules[crate, module], name, where)
            above = module.rpartition('.')[0]
            if (crate, above) in self.modules and name in self.modules[crate, above].data:
                return self.meaning(self.modules[crate, above], name, where)
        raise NotTranslated('needs %s of %s' % (name, path))

    # --- writing
    def text(self):
        """the definitions in Python; what needs a definition that is not translated is not either"""
        written = {}
        for module in self.modules.values():
            for definition in module.definitions.values():
                if not definition.clauses:
                    raise FormError('%s:%d: `%s` has no clauses' % (module.shown, definition.line, definition.name))
                writer = Writer(self, module, definition)
                try:
                    written[module, definition.name] = (writer.definition(), writer.needs)
                except NotTranslated as reason:
                    self.not_translated[module, definition.name] = str(reason)
        again = True
        while again:
            again = False
            for key in list(written):
                lacking = next((need for need in written[key][1] if need in self.not_translated), None)
                if lacking:
                    self.not_translated[key] = 'needs %s of %s.%s' % (lacking[1], lacking[0].crate, lacking[0].name)
                    del written[key]
                    again = True
        self.done = list(written)
        return '\n\n'.join(text for text, _ in written.values()) + '\n'


def called(function, arity):
    """the definition, taking its arguments and those of what it gives all at once"""
    def call(*arguments):
        value = function(*arguments[:arity]) if arity else function
        for argument in arguments[arity:]:
            value = value(argument)
        return value
    return call


class Names:
    """definitions as attributes"""
    def __init__(self, what):
        self.what_, self.missing_ = what, {}

    def __getattr__(self, name):
        if name.startswith('__'):
            raise AttributeError(name)
        raise AttributeError('%s has no translated definition `%s`: %s' % (self.what_, name, self.missing_.get(name, 'nothing of that name')))


def compiled(text):
    """the functions of a translation, by their flat names"""
    kept = {}

    def folds(key, step):
        if key not in kept:
            kept[key] = fold_node(step())
        return kept[key]
    space = {**CALLED, 'folds': folds}
    exec(compile(text, 'translated', 'exec'), space)
    return space


def load(checkout, crates=None):
    """the definitions, as CRATE.MODULE.NAME"""
    sys.setrecursionlimit(max(sys.getrecursionlimit(), 20000))
    translation = Translation(checkout, crates or CRATES)
    text = translation.text()
    space, defs, spots = compiled(text), Names('the translation'), {}
    defs.text, defs.translation = text, translation
    for (crate, name), module in translation.modules.items():
        spot = defs
        for part in [crate] + name.split('.'):
            if part not in spot.__dict__:
                setattr(spot, part, Names(crate + '.' + name))
            spot = getattr(spot, part)
        spot.missing_.update({skipped: why for skipped, why in module.skipped.items() if why})
        spots[module] = spot
    for (module, name), why in translation.not_translated.items():
        spots[module].missing_[name] = why
    for module, name in translation.done:
        function, arity = space[flat_name(module, name)], len(module.definitions[name].clauses[0][0])
        value = function() if arity == 0 else function
        setattr(spots[module], mangled(name), called(value, arity) if callable(value) else value)
    return defs


def report(translation):
    for module in translation.modules.values():
        print('%s: %d translated' % (module.shown, len([name for other, name in translation.done if other is module])))
        reasons = [(name, why) for name, why in sorted(module.skipped.items()) if why]
        for name, why in reasons + [(name, why) for (other, name), why in translation.not_translated.items() if other is module]:
            print('    not translated: %s: %s' % (name, why))
    print('%d definitions translated, %d not, besides %d relations, types and theorems' % (
        len(translation.done), len(translation.not_translated), sum(1 for m in translation.modules.values() for why in m.skipped.values() if why)))


def main(words):
    if not words:
        print(__doc__)
        return 2
    file = None
    if '-o' in words[:-1]:
        file = words[words.index('-o') + 1]
        words = [word for word in words if word not in ('-o', file)]
    translation = Translation(words[0], words[1:] or CRATES)
    text = translation.text()
    if file:
        with open(file, 'w', encoding='utf-8') as out:
            out.write(text)
    report(translation)
    return 0


if __name__ == '__main__':
    try:
        sys.exit(main(sys.argv[1:]))
    except FormError as error:
        sys.exit('not known: %s' % error)
