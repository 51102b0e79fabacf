#!/usr/bin/env python3
"""check_pages.py [--words]: says which paths and names that pages name are not in the repository, and which pages are too long; status 1 if
there are any. With --words it prints how many words each page has, and how many it may have.

The pages are those at the top, in docs/, and those of the tools. A path stands at the top, below crates/, docs/ or tools/, in some
crate, or beside its page; of what is built, below a crate's out/, the crate does. A name is one of Rust or of the definitions, with
`_` or a capital in it; one that ends or begins with `_` is the beginning or the end of some name. A file of this repository's kinds
may be named alone. Of all else in backquotes nothing is said, but of commands, there and in indented lines: what they name below bench/,
docs/ and tools/ has to be there.

Words are counted as `wc -w` counts them. Each page but docs/JSON.md, which is printed, has a limit, and all have one together. No cell of a
table is wider than 300 columns: what is longer is a list.

It also says which crates of crates.txt stand in no room of docs/ARCHITECTURE.md, or have no sentence there (examples in docs/EXAMPLES.md), and which use one that
stands in a higher room or behind them in their own; which list one that they don't name, and how many files rt would have to sum up, where that is too many; which words of docs/DEFINITIONS.md have no formal name beside them; and what CHANGELOG.md names that users
don't see: crates of laws and of the gate, tools, and names that are not public."""
import glob
import os
import re
import sys

ROOT = os.path.dirname(os.path.dirname(os.path.abspath(__file__)))
PAGES = re.compile(r'\w+\.md|docs/\w+\.md|tools/\w+/README\.md')
TEXTS = ('.rt', '.antt', '.py', '.js', '.mjs', '.edit', '.md', '.txt')
PLACES = ('', 'crates/', 'crates/*/', 'docs/', 'tools/')
PATH = re.compile(r'[\w.*-]+/[\w./*-]*')
FILE = re.compile(r'[\w-]+\.(antt|json|md|py|rt|txt)')
NAME = re.compile(r'\w+(::\w+)*(\(\))?')
# What begins a command, and what it may name.
COMMAND = re.compile(r'(python3|node|cd|rt|[\w.]+/[\w./-]+) +\S')
NAMED = re.compile(r'(?:\.\./)*((?:bench|docs|tools)/[\w./-]*\w)')
# How many words a page may have, and all together. docs/JSON.md is printed from tools/tree.txt.
LIMITS = {
    'README.md': 899, 'CONTRIBUTING.md': 1000, 'CHANGELOG.md': 950,
    'docs/ARCHITECTURE.md': 2700, 'docs/DECISIONS.md': 2200, 'docs/DEFINITIONS.md': 5100, 'docs/DIFFERENCES.md': 1300, 'docs/EXAMPLES.md': 1200,
    'docs/LINT.md': 620, 'docs/MEASUREMENTS.md': 1750, 'docs/PERF.md': 850, 'docs/PROGRAM.md': 600, 'docs/RENAMERS.md': 1000, 'docs/SURFACE.md': 3200, 'docs/VERIFICATION.md': 2600,
    'tools/compute/README.md': 600, 'tools/js/README.md': 600}
PRINTED = {'docs/JSON.md'}
ALL = 24000
WIDEST = 300
# How many files rt may have to read to sum libraries up: those below a crate count once for each way that leads there by crates.txt.
SUMMED = 12_000_000
# What begins a room of docs/ARCHITECTURE.md, in 14 columns before its crates, and crates, of which some have names that begin alike.
ROOM = re.compile(r'^[a-z].{13}', re.M)
CRATES = re.compile(r'(\w+)_\{([^}]*)\}|(\w+)')
# A word that docs/DEFINITIONS.md explains, and what is to stand behind it: its name in `specs/` or in the code.
WORD = re.compile(r'\*\*([^*]+)\*\*')
FORMAL = re.compile(r'\s+\(`\w')
# What users of the crates don't see, and what makes a name public: `pub` before it, a member of a public trait or sum, or a word of the JSON form.
INNER = re.compile(r'(?:tools|bench|\.ci|crates/gate_\w+|proofs|must-fail)\b.*|(?:gate|bench)_\w+|\w+_(?:laws|rows)')
PUBLIC = re.compile(r'^.*\bpub\b.*$|^    (?:ghost|fn) \w+|^    [A-Z]\w*[,(]?', re.M)
# What `mucwathi --version` tells, a version of CHANGELOG.md, and the kit.
VERSION = re.compile(r'VERSION: &str = "([\d.]+) \((.*)\)"')
NEWEST = re.compile(r'^## ([\d.]+)', re.M)
# What stands for any name in a path, and what of a crate is there once it is built.
ANY = re.compile(r'\b(CRATE|NAME)\b')
BUILT = re.compile(r'^(crates/[^/]+)/out/.*')


def files_here():
    """The files of the repository, but for what is built."""
    found = []
    for at, folders, names in os.walk(ROOT):
        folders[:] = sorted(set(folders) - {'.git', 'out', '__pycache__', 'node_modules'})
        found += [os.path.relpath(os.path.join(at, name), ROOT) for name in sorted(names)]
    return found


def text_of(file):
    """The text of a file."""
    with open(os.path.join(ROOT, file), encoding='utf-8') as text:
        return text.read()


def words_of(files):
    """The words of sources and of the names of files, but of no page."""
    words = set()
    for file in files:
        words.update(re.findall(r'\w+', file))
        if file.startswith(('crates/', 'tools/', 'bench/')) and file.endswith(TEXTS) and not PAGES.fullmatch(file):
            words.update(re.findall(r'\w+', text_of(file)))
    return words


def is_path(path, page):
    """Whether a path in a page leads somewhere."""
    pattern = BUILT.sub(r'\1/src', ANY.sub('*', path))
    return any(glob.glob(os.path.join(ROOT, place, pattern)) for place in (*PLACES, os.path.dirname(page)))


def is_name(name, words):
    """Whether some name is this, or begins or ends with it where it is a part of one."""
    if name.endswith('_'):
        return any(word.startswith(name) for word in words)
    if name.startswith('_'):
        return any(word.endswith(name) for word in words)
    return name in words


def missing(term, page, files, words):
    """Whether a term of a page is a path or a name that is not there."""
    if PATH.fullmatch(term):
        return not is_path(term, page)
    if FILE.fullmatch(term):
        return ANY.sub('', term) == term and not any(os.path.basename(file) == term for file in files)
    if not NAME.fullmatch(term):
        return False
    names = [name for name in re.findall(r'\w+', term) if '_' in name or re.search('[a-z][A-Z]', name)]
    return not all(is_name(name, words) for name in names)


def commands_in(line):
    """The commands in a line of a page: one that is indented, or in backquotes."""
    if line.startswith('    '):
        yield line.strip()
    for term in re.findall('`([^`]+)`', line):
        if COMMAND.match(term):
            yield term


def lost_in(line):
    """What commands in a line of a page name below folders of the repository, and is not there."""
    for command in commands_in(line):
        for word in re.split(r'[\s<>;|&]+', command):
            path = NAMED.fullmatch(word)
            if path and not glob.glob(os.path.join(ROOT, ANY.sub('*', path.group(1)))):
                yield word


def too_wide(line):
    """Whether a line of a table has a cell that is a list."""
    return line.startswith('|') and any(len(cell.strip()) > WIDEST for cell in re.split(r'(?<!\\)\|', line))


def counts(pages):
    """How many words each page has that is written by hand."""
    found = {}
    for page in pages:
        if page not in PRINTED:
            found[page] = len(text_of(page).split())
    return found


def too_long(found):
    """Which pages have more words than they may have."""
    for page, words in found.items():
        if page not in LIMITS:
            yield f'{page}: has no limit of words in tools/check_pages.py'
        elif words > LIMITS[page]:
            yield f'{page}: {words} words, where {LIMITS[page]} are allowed'
    if sum(found.values()) > ALL:
        yield f'the pages have {sum(found.values())} words together, where {ALL} are allowed'


def crates_in_order():
    """The crates of docs/ARCHITECTURE.md, those of lower rooms first."""
    drawn = text_of('docs/ARCHITECTURE.md').split('## Layers')[1].split('```\n')[1]
    rooms = ROOM.split(drawn)[1:]
    return [name for room in reversed(rooms) for begun, rests, whole in CRATES.findall(room)
            for name in ([whole] if whole else [f'{begun}_{rest}' for rest in rests.split()])]


def uses_of_crates():
    """What crates.txt lists for each crate."""
    return {line.split(':')[0].split()[0]: line.split(':')[1].split() for line in text_of('crates.txt').split('\n') if ':' in line}


def misplaced():
    """What is wrong with the order of crates."""
    uses = uses_of_crates()
    place = {crate: number for number, crate in enumerate(crates_in_order())}
    for crate in uses:
        if crate not in place:
            yield f'{crate} stands in no room'
        for used in uses[crate]:
            if crate in place and used in uses and place.get(used, -1) >= place[crate]:
                yield f'{crate} uses {used}, which stands above it'


def named(files):
    """The crates that each crate's files name."""
    found = {}
    for file in files:
        if part := re.fullmatch(r'crates/(\w+)/(?:src|specs|proofs)/.*\.(?:rt|antt)', file):
            found.setdefault(part[1], set()).update(re.findall(r'\bRattle\.(\w+)|(?<![\w.:])(\w+)::|\bpub use (\w+);', text_of(file)))
    return {crate: {name for names in those for name in names} for crate, those in found.items()}


def idly_listed(files):
    """What is wrong with what crates.txt lists for each crate."""
    uses, words = uses_of_crates(), named(files)
    for crate in uses:
        for used in uses[crate]:
            if used in uses and used not in words[crate]:
                yield f'{crate} lists {used}, which it does not name'
    numbers = {crate: sum(file.startswith(f'crates/{crate}/{part}/') for file in files for part in ('src', 'specs', 'proofs')) for crate in uses}
    summed = {}

    def sum_up(crate):
        if crate not in summed:
            summed[crate] = numbers[crate] + sum(sum_up(used) for used in uses[crate] if used in uses)
        return summed[crate]
    whole = sum(sum_up(crate) for crate in uses if f'crates/{crate}/src/main.rt' not in files)
    if whole > SUMMED:
        yield f'rt would read {whole:,} files to sum crates up, where {SUMMED:,} are allowed: name low crates through those that pass them on'


def untold():
    """Which crates have no sentence, but only a place in the drawing."""
    told = text_of('docs/ARCHITECTURE.md').split('```\n', 2)[2] + text_of('docs/EXAMPLES.md')
    names = {word for line in told.split('\n') for term in re.findall('`([^`]+)`', line) for word in re.findall(r'\w+', term)}
    return [crate for crate in sorted(crates_in_order()) if crate not in names]


def nameless():
    """Which words of docs/DEFINITIONS.md have no formal name beside them."""
    text = text_of('docs/DEFINITIONS.md')
    return [word.group(1) for word in WORD.finditer(text) if not FORMAL.match(text, word.end())]


def public_words(files):
    """The words that users may know: those of public lines of sources and definitions, of crates, and of the JSON form."""
    words = set(re.findall(r'\w+', text_of('docs/JSON.md'))) | {file.split('/')[1] for file in files if file.startswith('crates/')}
    for file in files:
        if re.fullmatch(r'crates/\w+/(src|specs)/.*\.(rt|antt)', file):
            words.update(word for line in PUBLIC.findall(text_of(file)) for word in re.findall(r'\w+', line))
    return words


def unseen(files):
    """What CHANGELOG.md names in backquotes that users don't see."""
    public = public_words(files)
    for term in re.findall('`([^`]+)`', text_of('CHANGELOG.md')):
        if INNER.fullmatch(term) or NAME.fullmatch(term) and not set(re.findall(r'\w+', term)) <= public:
            yield term


def other_version():
    """What is wrong with the version that the program tells."""
    version, kit = VERSION.search(text_of('crates/mucwathi_arguments/src/version.rt')).groups()
    newest = NEWEST.search(text_of('CHANGELOG.md')).group(1)
    if version != newest:
        yield f'CHANGELOG.md: {newest} is its newest version, where mucwathi tells {version}'
    if kit not in ' '.join(text_of('README.md').split()):
        yield f'README.md: mucwathi tells another kit, {kit}'


def faults_of(page, files, words):
    """What is wrong with a page, line by line."""
    for number, line in enumerate(text_of(page).split('\n'), 1):
        for term in re.findall('`([^`]+)`', line):
            if missing(term, page, files, words):
                yield f'{page}, line {number}: {term} is not in the repository'
        for path in lost_in(line):
            yield f'{page}, line {number}: {path} is not in the repository'
        if page not in PRINTED and too_wide(line):
            yield f'{page}, line {number}: a cell of the table is wider than {WIDEST} columns'


def main():
    files = files_here()
    words = words_of(files)
    pages = list(filter(PAGES.fullmatch, files))
    found = counts(pages)
    if '--words' in sys.argv[1:]:
        for page, number in found.items():
            print(f'{number:6} of {LIMITS.get(page, 0):5}  {page}')
        print(f'{sum(found.values()):6} of {ALL:5}')
    faults = [fault for page in pages for fault in faults_of(page, files, words)]
    faults += too_long(found)
    faults += [f'docs/ARCHITECTURE.md: {fault}' for fault in misplaced()]
    faults += [f'crates.txt: {fault}' for fault in idly_listed(files)]
    faults += [f'docs/ARCHITECTURE.md: no sentence says what {crate} is' for crate in untold()]
    faults += [f'docs/DEFINITIONS.md: {word} has no formal name beside it' for word in nameless()]
    faults += [f'CHANGELOG.md: {term} is nothing that users see' for term in unseen(files)]
    faults += other_version()
    for fault in faults:
        print(fault)
    sys.exit(bool(faults))


if __name__ == '__main__':
    main()
