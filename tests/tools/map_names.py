#!/usr/bin/env python3
"""Checks that all that docs/MAP.md cites is there: definitions, theorems, functions, must-fail edits, tests, files.
What is written in no form that is known here is an error too, so that nothing is passed over. Of docs/ARCHITECTURE.md
and docs/DECISIONS.md it checks each single name in `..`.

usage: map_names.py [MAP]     last line: 'N passed, 0 failed', N the number of citations; MAP: of that file alone

Items of a cell stand between semicolons; words in parentheses may follow a name. An item, by the column's head:
  definition   crate/File: name, name        of crates/crate/specs/File.antt; crate/lib.rt, crate/other.rt: of its code
               code: `function` (crate/lib.rt or a file, words), ..
               to come with 02 §n
  contract     `function`, `Type::method`    public ones
               all; all calls; every call; (02 ..)
  shown by     crate/File: name, name        of crates/crate/proofs/File.antt
               crate/Facts; Tables of crate, crate; proofs of crate, crate/function
                                           (a function of the crate's code: some prove with no file of their own)
               crate must-fail edit, edit; model test name; a file or a folder
               further; marked ●; agreement; vectors; by type
  cited by     crate, crate; `function`, `function`; crate/File: name; crate must-fail edit, edit
  rows         a heading
  statement    as definition
  theorem      as shown by
– stands for none. In words and notes whatever looks like a name (LIKE_A_NAME) is looked for everywhere.
"""

import functools
import glob
import os
import re
import sys

ROOT = os.path.dirname(os.path.dirname(os.path.dirname(os.path.abspath(__file__))))
PROSE = ('ARCHITECTURE.md', 'DECISIONS.md')
PHRASES = {'contract': ('all', 'all calls', 'every call'),
           'shown by': ('further', 'marked ●', 'agreement', 'vectors', 'by type')}
PHRASES['theorem'] = PHRASES['shown by']
# Words of the languages.
LANGUAGE = {'requires', 'abbrev', 'unfoldable', 'refl', 'pub'}
# Before its tables MAP.md explains its forms by these.
PLACEHOLDERS = {
    'name', 'crate/File: name', 'crate/lib.rt: name', 'crate/Facts', 'model test', 'Tables', 'must-fail',
    'proofs/Tables.antt', 'crates/crate/specs/File.antt', 'crates/crate/src/lib.rt', 'crates/crate/proofs/File.antt',
    'crates/crate/proofs/Facts.antt', 'crates/crate/must-fail/name.edit'}
DEFINED = re.compile(r'(?:(?:abbrev |unfoldable )?(?:pub )?(\S+) :(?:\s|$)|(?:pub )?(?:record|data) (\S+))')
PART = re.compile(r'^ +(?:pub )?([^\s(]\S*) :(?:\s|$)', re.M)
DECLARED = re.compile(r'^(?:pub )?(?:extern "C" )?(?:fn|struct|enum|const) (\w+)', re.M)
PUBLIC = re.compile(r'^pub fn (\w+)', re.M)
FUNCTION = re.compile(r'^(?:pub )?(?:extern "C" )?fn (\w+)', re.M)
IMPL = re.compile(r'^impl(?:<[^{]*?>)? (?:(?P<trait>[\w:]+(?:<.*>)?) for )?(?P<type>\w+)[^{]*\{\n(?P<body>.*?)^\}', re.M | re.S)
METHOD = re.compile(r'^    (?P<pub>pub )?fn (\w+)', re.M)
C_FUNCTION = re.compile(r'^[a-z][\w ]*[ *](\w+)\(', re.M)
# `..`; crate/File: name; a path; words with a capital inside, with a _ or a -; words in capitals
LIKE_A_NAME = re.compile(r'`[^`]*`|[a-z]+/(?:[A-Z]\w*|lib\.rt): [\w-]+|[\w.-]+(?:/[\w.-]+)+'
                         r'|\b[a-z]\w*[A-Z]\w*|\b[A-Z][a-z]+[A-Z]\w*|\w+_\w+|\b[a-z]\w*(?:-\w+)+|\b[A-Z]{2,}\b')


class Unknown(Exception):
    """Text of no known form."""


# ---------------------------------------------------------------- what is there

def at(*parts):
    return os.path.join(ROOT, *parts)


@functools.cache
def read(path):
    """The text of a file; none where there is no file."""
    if not os.path.isfile(path):
        return ''
    with open(path, encoding='utf-8') as file:
        return file.read()


def found(pattern, path):
    return set(pattern.findall(read(path)))


@functools.cache
def defined(path):
    """What a file of definitions or theorems defines: at the start of a line, or further in under `module` alone."""
    names, around = set(), []
    for line in read(path).split('\n'):
        text = line.strip()
        if not text or text.startswith('--'):
            continue
        indent = len(line) - len(line.lstrip())
        around = [pair for pair in around if pair[0] < indent]
        match = DEFINED.match(text)
        if match and all(word == 'module' for _, word in around):
            names.add(match[1] or match[2])
        around.append((indent, text.split(' ')[0]))
    return names


def methods(path, public):
    """Type::method for each method of a file; public: those of a trait, and those that are declared so."""
    return {f"{block['type']}::{method[2]}" for block in IMPL.finditer(read(path)) for method in METHOD.finditer(block['body'])
            if block['trait'] or method['pub'] or not public}


@functools.cache
def code(crate='*', pattern=DECLARED):
    """What the code of a crate, or of all, declares."""
    return set().union(*(found(pattern, path) | methods(path, pattern is PUBLIC)
                         for path in glob.glob(at('crates', crate, 'src', '*.rt'))))


@functools.cache
def every_name():
    """All names of definitions and theorems, of their parts, of code, of crates and of host/."""
    names = code() | set(os.listdir(at('crates')))
    for path in glob.glob(at('host', '*.c')):
        names |= found(C_FUNCTION, path)
    for path in glob.glob(at('crates', '*', '*', '*.antt')):
        names |= defined(path) | found(PART, path)
    return names


def there(name):
    """Whether a path, or crate/File, crate/File: name or crate/function is there."""
    path, _, part = name.partition(': ')
    crate, _, file = path.partition('/')
    texts = [at('crates', crate, 'specs', file + '.antt'), at('crates', crate, 'proofs', file + '.antt'),
             at('crates', crate, 'src', file)]
    if part:
        return any(part in defined(text) | found(DECLARED, text) for text in texts)
    return any(map(os.path.exists, (*texts, at(path)))) or file in code(crate, FUNCTION)


# -------------------------------------------------------------- parts of a cell

def split(text, mark):
    """The parts between marks that stand in no parentheses and in no quotation marks."""
    parts, depth, quoted = [''], 0, False
    for letter in text:
        quoted ^= letter == '`'
        depth += 0 if quoted else (letter == '(') - (letter == ')')
        if letter == mark and depth == 0 and not quoted:
            parts.append('')
        else:
            parts[-1] += letter
    if depth or quoted:
        raise Unknown(text)
    return [part.strip() for part in parts]


def words(text):
    """(what, whether it is there) of each name in plain words."""
    for token in LIKE_A_NAME.findall(text):
        name = token.strip('`').rstrip('.')
        yield name, there(name) if '/' in name else name in every_name()


def noted(text):
    """The text before its note, and the note's citations; a note ends the text."""
    name, mark, note = text.partition('(')
    ends = [k for k in range(len(note)) if note[:k + 1].count(')') > note[:k + 1].count('(')]
    if mark and ends != [len(note) - 1]:
        raise Unknown(text)
    return name.strip(), list(words(note))


def listed(text, prefix, has):
    """(what, whether it is there) of names between commas, each with its note."""
    for part in split(text, ','):
        name, notes = noted(part)
        if not re.fullmatch(r'\S+', name):
            raise Unknown(part)
        yield prefix + name, has(name)
        yield from notes


# ------------------------------------------- forms of an item: None where it has another form

def named(item, folder):
    """crate/File: name, name"""
    match = re.fullmatch(r'([a-z]+)/(\w+|\w+\.rt): (.+)', item)
    if not match:
        return None
    crate, file, names = match.groups()
    has = found(DECLARED, at('crates', crate, 'src', file)) | defined(at('crates', crate, folder, file + '.antt'))
    return listed(names, f'{crate}/{file}: ', has.__contains__)


def functions(item, pattern):
    """`function`, `function`"""
    if not item.startswith('`'):
        return None
    return listed(item, '', lambda name: re.fullmatch('`.*`', name) and name[1:-1] in code('*', pattern))


def edits(item):
    """crate must-fail edit, edit"""
    match = re.fullmatch(r'([a-z]+) must-fail (.+)', item)
    if not match:
        return None
    folder = at('crates', match[1], 'must-fail')
    return listed(match[2], f'{match[1]} must-fail ', lambda name: name + '.edit' in glob.glob('*', root_dir=folder))


def in_code(item):
    """code: `function` (crate/lib.rt or a file, words), .."""
    if not item.startswith('code: '):
        raise Unknown(item)
    for part in split(item[6:], ','):
        match = re.fullmatch(r'`(\w+)` \(([\w./]+)(?:, (.*))?\)', part)
        if not match:
            raise Unknown(part)
        name, place, note = match.groups()
        if place.endswith('.rt'):
            yield f'{place}: {name}', name in found(DECLARED, at('crates', place.replace('/', '/src/', 1)))
        else:
            yield f'{place}: {name}', name in found(C_FUNCTION, at(place))
        yield from words(note or '')


def of_crates(item):
    """Tables of crate, crate; proofs of crate, crate/function"""
    match = re.fullmatch(r'(Tables|proofs) of (.+)', item)
    if not match:
        return None
    if match[1] == 'Tables':
        return listed(match[2], 'Tables of ', lambda crate: there(f'crates/{crate}/proofs/Tables.antt'))
    return listed(match[2], 'proofs of ', lambda name: there(name if '/' in name else f'crates/{name}/proofs'))


def model_test(item):
    """model test name"""
    tests = set(re.findall(r'(?:def|class) (\w+)', read(at('tests', 'model', 'test_model.py'))))
    return listed(item[11:], 'model test ', tests.__contains__) if item.startswith('model test ') else None


def file_or_facts(item):
    """crate/Facts; a file or a folder"""
    name, notes = noted(item)
    if re.fullmatch(r'[a-z]+/Facts', name):
        return [(name, 'facts_hold' in defined(at('crates', name.replace('/', '/proofs/') + '.antt'))), *notes]
    if re.fullmatch(r'[\w.-]+\.md|[\w-]+(?:/[\w.-]+)+', name):
        return [(name, os.path.exists(at(name))), *notes]
    return None


# -------------------------------------------------------------------- columns

def definition(item):
    return [] if re.fullmatch(r'to come with 02 §\d+', item) else named(item, 'specs') or in_code(item)


def contract(item):
    return [] if re.fullmatch(r'\(02.*\)', item) else functions(item, PUBLIC)


def shown(item):
    return named(item, 'proofs') or edits(item) or of_crates(item) or model_test(item) or file_or_facts(item)


def cited(item):
    some = functions(item, DECLARED) or edits(item) or named(item, 'specs')
    return some or listed(item, '', lambda crate: os.path.isdir(at('crates', crate)))


COLUMNS = {'definition': definition, 'contract': contract, 'shown by': shown, 'cited by': cited,
           'statement': definition, 'theorem': shown}


def citations(head, cell, headings):
    """(what, whether it is there) of all that a cell cites."""
    if head in ('01 says', '02 says', 'request'):
        return []
    if head in ('what it says', 'what is to come', 'wrong definition'):
        return list(words(cell))
    if head == 'rows':
        return [(cell, cell in headings)]
    every = []
    for item in split(cell, ';'):
        phrase = item.split('(')[0].strip()
        if phrase == '–' or phrase in PHRASES.get(head, ()):
            every += noted(item)[1] + [(phrase, True)] * (phrase != '–')
            continue
        some = COLUMNS[head](item) if head in COLUMNS else None
        if some is None:
            raise Unknown(item)
        every += some
    return every


def of_map(text):
    """(line, what, whether it is there) of all citations of the map; what is in no known form is not there."""
    heads, headings = None, set(re.findall(r'^#+ (.*)$', text, re.M))
    for number, line in enumerate(text.split('\n'), 1):
        cells = [cell.strip() for cell in line.split('|')[1:-1]]
        try:
            if not line.startswith('|'):
                heads, some = None, [pair for pair in words(line) if pair[0] not in PLACEHOLDERS]
            elif heads is None or set(line) <= set('|-'):
                heads, some = heads or cells, []
            elif len(cells) != len(heads):
                raise Unknown(line)
            else:
                some = [pair for head, cell in zip(heads, cells) for pair in citations(head, cell, headings)]
        except Unknown as unknown:
            some = [(f'in no known form: {unknown}', False)]
        yield from ((number, *pair) for pair in some)


def of_prose(text):
    """The same of a text's single names in `..`, `crate::function` and `Type::method` among them."""
    for number, line in enumerate(text.split('\n'), 1):
        for crate, name in re.findall(r'`(?:(\w+)::)?([A-Za-z][\w-]*)`', line):
            if name not in LANGUAGE:
                whole = crate + '::' * bool(crate) + name
                yield number, whole, whole in code() or name in (code(crate) if crate else every_name())


def main():
    texts = [(at('docs', 'MAP.md'), of_map), *((at('docs', name), of_prose) for name in PROSE)]
    passed = failed = 0
    for path, citations_of in texts if len(sys.argv) == 1 else [(sys.argv[1], of_map)]:
        for number, what, is_there in citations_of(read(path)) if read(path) else [(0, 'the file', False)]:
            passed, failed = passed + bool(is_there), failed + (not is_there)
            if not is_there:
                print(f'{os.path.basename(path)}:{number}: is not there: {what}')
    print(f'{passed} passed, {failed} failed')
    sys.exit(failed != 0)


if __name__ == '__main__':
    main()
