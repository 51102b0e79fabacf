"""Reads tools/tree.txt: the structs, the sums and the words of the tree, and the crate of each."""
import re

ROLES = {'': 'Plain', 'reference': 'Reference', 'inherited': 'Inherited', 'declared': 'Declared',
         'function': 'Function', 'class': 'Class', 'own_name': 'OwnName', 'parameter': 'Parameter', 'catch': 'Catch',
         'import': 'Import', 'lexical': 'Lexical', 'body': 'FunctionBody', 'label': 'Label', 'imported': 'Imported',
         'exported': 'Exported', 'export_local': 'ExportLocal',
         'type_name': 'TypeName', 'type_reference': 'TypeReference'}

# The forms of places, each with what is written for it; `X` stands for a type.
SLOTS = [('Pairs', r'Pairs()'), ('OptionalList', r'\[(\w+)\]\?'), ('Holes', r'\[(\w+)\?\]'), ('List', r'\[(\w+)\]'),
         ('Optional', r'(\w+)\?'), ('One', r'(\w+)')]

# Words that no contract can use as the name of a field: the field's name has an underscore after them.
CLAUSE_WORDS = {'class', 'with'}


class Field:
    """A field of a struct: its key in JSON, its name in code, what stands in it, and what an identifier is there."""

    def __init__(self, text):
        key, rest = text.strip().split(' ', 1)
        type_, role = (rest.split(' ', 1) + [''])[:2]
        self.key = key
        self.name = key + '_' if key in CLAUSE_WORDS else key
        self.role = ROLES[role.strip()]
        self.slot, self.type = next((slot, match[1]) for slot, form in SLOTS if (match := re.fullmatch(form, type_)))

    def is_single(self):
        """Whether one node or leaf stands here, or nothing."""
        return self.slot in ('One', 'Optional')


class Family:
    """A crate of structs and sums: what they are, the crate's modules that are written by hand, and the crate whose
    module of the table has the fields of its structs."""

    def __init__(self, name, doc, by_hand, table):
        self.name, self.doc, self.by_hand, self.table = name, doc, by_hand, table


class Entry:
    """What has a line of its own: its name, its crate and what it is."""

    def __init__(self, name, family, doc):
        self.name, self.family, self.doc = name, family, doc


class Struct(Entry):
    def __init__(self, name, family, doc, marks, fields):
        super().__init__(name, family, doc)
        self.identifier = 'identifier' in marks
        self.fields = fields


class Variant:
    """A variant of a sum, and the struct or sum that it holds: opened, or, after `*`, as a subtree."""

    def __init__(self, text):
        self.name, member = text.split()[0].lstrip('*'), text.split()[-1]
        self.member, self.is_subtree = member.lstrip('*'), member.startswith('*')


class Sum(Entry):
    """A sum, with its variants."""

    def __init__(self, name, family, doc, variants):
        super().__init__(name, family, doc)
        self.variants = variants


class Words(Entry):
    """The words of a place: of each the spelling, its name here, and the name of the word, which all places share."""

    def __init__(self, name, family, doc, words):
        super().__init__(name, family, doc)
        self.words = words


class Tree:
    """The transcription: families, structs, sums and words, by name and in order."""

    def __init__(self, path):
        self.families, self.structs, self.sums, self.words, self.names = {}, {}, {}, {}, {}
        self.family, self.doc = None, None
        with open(path, encoding='utf-8') as lines:
            for line in lines:
                line = line.rstrip('\n')
                if line and not line.startswith('#'):
                    self.read(line)

    def read(self, line):
        if line.startswith('/// '):
            self.doc = line[4:]
        elif line.startswith('family '):
            self.read_family(line[len('family '):])
        else:
            self.read_entry(line)
            self.doc = None

    def read_family(self, line):
        head, _, text = line.partition(': ')
        head, _, table = head.partition(' beside ')
        self.family, *by_hand = head.split(' and ')
        if text or self.family not in self.families:
            self.families[self.family] = Family(self.family, text, by_hand, table or self.family)

    def read_entry(self, line):
        about = (self.family, self.doc)
        if not self.family or not self.doc:
            raise SystemExit('no family, or no /// line, before: ' + line)
        words = re.match(r'words (\w+): (.*)', line)
        sum_ = re.match(r'(\w+) = (.*)', line)
        if words:
            pairs = [item.strip().rsplit(' ', 1) for item in words[2].split(', ')]
            self.words[words[1]] = Words(words[1], *about, [(s, here, self.word_of(s, here)) for s, here in pairs])
        elif sum_:
            self.sums[sum_[1]] = Sum(sum_[1], *about, [Variant(text) for text in sum_[2].split(', ')])
        else:
            head, _, fields = line.partition(':')
            name, *marks = head.split()
            fields = [Field(f) for f in fields.split(', ')] if fields else []
            self.structs[name] = Struct(name, *about, marks, fields)

    def word_of(self, spelling, name):
        """The word of a spelling: the name that the first place gives it."""
        return self.names.setdefault(spelling, name)

    def entry(self, name):
        return self.structs.get(name) or self.sums.get(name) or self.words[name]

    def kinds_of(self, name):
        """The structs that a struct or sum may be, each once, in order."""
        if name in self.structs:
            return [name]
        kinds = []
        for variant in self.sums[name].variants:
            kinds += [k for k in self.kinds_of(variant.member) if k not in kinds]
        return kinds

    def classes(self):
        return list(self.structs) + list(self.sums)

    def spellings(self):
        """Every word once: its name and its spelling."""
        spellings = {name: spelling for spelling, name in self.names.items()}
        if len(spellings) < len(self.names):
            raise SystemExit('one name for two words')
        return spellings

    def is_leaf(self, name):
        """Whether a struct holds no subtree, so that it is held by value."""
        fields = self.structs[name].fields if name in self.structs else None
        return fields is not None and not any(f.type in self.structs or f.type in self.sums for f in fields)

    def held_as(self, name):
        """The forms of places, `One` or `Optional`, in which a struct that holds no subtree stands by value."""
        fields = [field for struct in self.structs.values() for field in struct.fields]
        return {field.slot for field in fields if field.type == name and field.is_single() and self.is_leaf(name)}

    def of_family(self, family, entries):
        return [e for e in entries.values() if e.family == family]

    def of_table(self, family):
        """The structs whose fields stand in one module of the table."""
        return [s for s in self.structs.values() if self.families[s.family].table == family]

    def tables(self):
        """The crates that the modules of the table are named for."""
        return sorted({family.table for family in self.families.values()})
