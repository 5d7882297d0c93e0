#!/usr/bin/env python3
"""include/lupetzarin.h: its names and their numbers, as a C compiler sees them, against docs/FORMAT.md, the independent model, the assembler and the Python
module; that it is C99, C11 and C++17 without a warning; that README.md and the man pages use no name that it has not.

usage: test_header.py     last line: 'N passed, 0 failed'
"""

import os
import re
import subprocess
import sys
import tempfile

sys.dont_write_bytecode = True
ROOT = os.path.dirname(os.path.dirname(os.path.dirname(os.path.abspath(__file__))))
sys.path[:0] = [os.path.join(ROOT, part) for part in ('host', 'python', 'tests/model', 'tests/tools', 'tests/host')]

import lupasm  # noqa: E402
import lupetzarin  # noqa: E402
import model  # noqa: E402
from counting import Cases  # noqa: E402
from test_format import Page, plan_of  # noqa: E402

WARNINGS = '-Wall', '-Wextra', '-Wpedantic', '-Werror'
MACROS = 'LUP_VERSION_MAJOR', 'LUP_VERSION_MINOR', 'LUP_VERSION_PATCH', 'LUP_VERSION'
# The ends of what can be packed, which are wider than an enum's constants.
ENDS = 'LUP_LEAST_PACKED_WORD', 'LUP_MOST_PACKED_WORD'
# Names that callers have written down stay; 18 and 19 are not given.
REFUSALS = ('LENGTH OPERATION UNUSED_WORD SOURCE TYPE OPERAND_TYPES ROW_OR_NUMBER SHAPE DEVICES DIVISOR BOUNDS ELEMENTS INPUT_LENGTH ROOM FLAG VALUE LOOKUP'
            ' - - PACKED_END PACKED_NUMBER PACKED_REST PACKED_COUNT PACKED_OPERATION WORD_RANGE PACKED_EDITION').split()
# Words of a node by their names in docs/FORMAT.md, and of those that stand together the first.
WORDS = {'operation': ('OPERATION',), 'sources': ('SOURCE',), 'type': ('TYPE',), 'number': ('NUMBER',), 'device': ('DEVICE',), 'low, high': ('LOW', 'HIGH'),
         'row A': ('ROW_A',), 'row B': ('ROW_B',)}


def read(*parts):
    with open(os.path.join(ROOT, *parts), encoding='utf-8') as file:
        return file.read()


def compiled(names):
    """The number of each name, and LUP_VERSION_TEXT, as a C program prints them."""
    lines = ['#include "lupetzarin.h"', '#include <stdio.h>', 'int main(void) {',
             *(f'    printf("%s %lld\\n", "{name}", (long long){name});' for name in names), '    puts(LUP_VERSION_TEXT);', '    return 0;', '}\n']
    with tempfile.TemporaryDirectory() as folder:
        source, program = os.path.join(folder, 'names.c'), os.path.join(folder, 'names')
        with open(source, 'w', encoding='utf-8') as file:
            file.write('\n'.join(lines))
        subprocess.run(['gcc', '-std=c99', *WARNINGS, '-I', os.path.join(ROOT, 'include'), '-o', program, source], check=True)
        *pairs, text = subprocess.run([program], capture_output=True, text=True, check=True).stdout.splitlines()
    return {name: int(number) for name, number in map(str.split, pairs)}, text


def numbers_of_words(page):
    found = {}
    for cell, name, _ in page.table('word', 'name', 'what it is'):
        numbers = [int(number) for number in re.findall('[0-9]+', cell)]
        found.update({'LUP_WORD_' + word: number for word, number in zip(WORDS[name], numbers)})
    return found


def limits(page):
    rows = {name: int(re.findall('[0-9]+', value)[-1]) for name, value in page.table('limit', 'value')}
    bytes_of_a_plan = re.search(r'256·46 = (\d+) bytes', read('docs', 'FORMAT.md'))[1]
    return {'LUP_NODE_WORDS': rows['words in a node'], 'LUP_MOST_NODES': rows['nodes in a plan'], 'LUP_MOST_RANK': rows['rank (number of axes)'],
            'LUP_MOST_PARAMS': rows['PARAM nodes'], 'LUP_MOST_DEVICE': rows['devices'], 'LUP_MOST_NODE_ELEMENTS': rows['elements of one node'],
            'LUP_MOST_ELEMENTS': rows['elements of all nodes together'], 'LUP_MOST_PACKED_BYTES': int(bytes_of_a_plan),
            'LUP_DERIVED_WORDS': lupetzarin.RECORD_WORDS, 'LUP_REFUSAL_CODE': model.unpack_check(b'') // 20}


def ends(page):
    """The ends of what can be packed, as the row of refusal 25 has them; both take five bytes, and one more cannot be written so."""
    words = dict((row[0], row[1]) for row in page.table('number', 'given when', 'place'))['25']
    low, high = map(int, re.search(r'(-\d+)\.\.(\d+)$', words).groups())
    assert model.word_of(2 ** 35 - 1) == low and model.word_of(2 ** 35 - 2) == high, (low, high)
    return dict(zip(ENDS, (low, high)))


def derived():
    """Where the model's check writes type, device, low, high and the extents of a node: each has a number of its own there."""
    room = [0] * 8
    assert model.check(plan_of('x = param i16 -90..91 6x3x4x5 device 7'), room).number == 0
    return {'LUP_DERIVED_' + name: room.index(number) for name, number in (('DEVICE', 7), ('LOW', -90), ('HIGH', 91), ('EXTENTS', 6), ('TYPE', 2))}


def wanted(page):
    """Every name of the header and its number."""
    names = {'LUP_OP_' + row[1]: int(row[0]) for row in page.table('number', 'name', 'words used', 'types of the sources', 'type of the result')}
    names.update({'LUP_TYPE_' + name.upper(): int(number) for number, name, *_ in page.table('type', 'name', 'least', 'greatest')})
    names.update({'LUP_REFUSED_' + name: number for number, name in enumerate(REFUSALS, 1) if name != '-'})
    kinds = plan_of('x = param u8 0..9 2 device 1; a = sum x 1; b = greatest x 1')
    names.update({'LUP_REDUCE_' + kind: kinds[lupasm.NODE_WORDS * node + lupasm.NUMBER] for node, kind in ((1, 'SUM'), (2, 'GREATEST'))})
    padded = plan_of('x = param u8 0..9 2 device 1; a = pad x 4 at 1')
    names.update({'LUP_FOUND_' + kind: model.lookup(padded, 1, element).found for element, kind in ((1, 'PLACE'), (0, 'GAP'), (4, 'NOTHING'))})
    return {**names, **numbers_of_words(page), **limits(page), **ends(page), **derived(), 'LUP_ACCEPTED': 0}


def test_names(tally, page, text):
    """Each name has its number, and there are no others."""
    enums = re.findall(r'^enum lup_\w+ \{(.*?)\};', text, re.M | re.S)
    declared = [name for body in enums for name in re.findall(r'\b(LUP_\w+) = ', body)]
    tally.same('each name once', sorted(set(declared)), sorted(declared))
    numbers, version = compiled([*declared, *MACROS, *ENDS])
    for name, number in wanted(page).items():
        tally.same(name, numbers.pop(name, None), number)
    major, minor, patch, whole = (numbers.pop(name) for name in MACROS)
    tally.same('LUP_VERSION', whole, 1000000 * major + 1000 * minor + patch)
    tally.same('LUP_VERSION_TEXT', version, f'{major}.{minor}.{patch}')
    tally.same('names of which nothing is known', numbers, {})
    others = set(re.findall(r'\bLUP_\w+', text)) - {*declared, *MACROS, *ENDS}
    tally.same('other names', others, {'LUP_VERSION_JOINED', 'LUP_VERSION_OF', 'LUP_VERSION_TEXT'})


def test_python(tally, page):
    """The module's tables have the same numbers."""
    names = wanted(page)
    tally.same('operations', {'LUP_OP_' + name: k for k, name in enumerate(lupetzarin.OPERATIONS)}, {name: k for name, k in names.items() if '_OP_' in name})
    types = {name: k for name, k in names.items() if name.startswith('LUP_TYPE_')}
    tally.same('types', {'LUP_TYPE_' + name.upper(): k for k, name in enumerate(lupetzarin.DTYPES)}, types)
    tally.same('types of the model', sorted(types.values()), sorted(model.TYPE_LIMITS))
    tally.same('refusals', sorted(lupetzarin.RULES), sorted(k for name, k in names.items() if '_REFUSED_' in name))
    for name, number in (('NODE_WORDS', lupetzarin.NODE_WORDS), ('MOST_NODES', lupetzarin.MOST_NODES), ('WORD_NUMBER', lupetzarin.NUMBER_WORD),
                         ('MOST_PACKED_BYTES', lupetzarin.MOST_PACKED_BYTES), ('LEAST_PACKED_WORD', lupetzarin.LEAST_PACKED_WORD),
                         ('MOST_PACKED_WORD', lupetzarin.MOST_PACKED_WORD), ('OP_PARAM', lupetzarin.PARAM), ('TYPE_BOOL', lupetzarin.BOOL), ('WORD_SOURCE', lupasm.SOURCE), ('WORD_TYPE', lupasm.TYPE),
                         ('WORD_ROW_A', lupasm.ROW_A), ('WORD_ROW_B', lupasm.ROW_B), ('OP_REDUCE', lupasm.REDUCE), ('OP_FILL', lupasm.FILL), ('OP_STACK', lupasm.STACK)):
        tally.same(name, number, names['LUP_' + name])


def test_comments(tally, page, text):
    """What the header says beside a refusal is docs/FORMAT.md's row of it: its words, and its place where it has one."""
    rows = {int(number): (when, place) for number, when, place in page.table('number', 'given when', 'place')}
    said = {int(number): comment for number, comment in re.findall(r'LUP_REFUSED_\w+ = (\d+),? +/\* (.*) \*/', text)}
    for number, (when, place) in rows.items():
        tally.same(number, said.pop(number, None), when if place == '0' else f'{when} ({place})')
    tally.same('no others', said, {})
    for name, least, greatest in ((row[1], row[2], row[3]) for row in page.table('type', 'name', 'least', 'greatest')):
        ends = f'{least}, {greatest}' if name == 'bool' else f'{least}..{greatest}'
        tally.holds((name, ends), re.search(rf'LUP_TYPE_{name.upper()} = \d,? +/\* {re.escape(ends)}(;.*)? \*/', text))


TWICE = '''#include "lupetzarin.h"
#include "lupetzarin.h"
#if LUP_VERSION < 1000000
#error
#endif
uint64_t version_of(void);
uint64_t version_of(void) { return lup_version(); }
'''


def test_languages(tally):
    """Included alone and twice; the version can be asked by the preprocessor."""
    for compiler, standard, ending in (('gcc', 'c99', 'c'), ('gcc', 'c11', 'c'), ('gcc', 'c17', 'c'), ('g++', 'c++11', 'cc'), ('g++', 'c++17', 'cc')):
        with tempfile.TemporaryDirectory() as folder:
            source = os.path.join(folder, 'twice.' + ending)
            with open(source, 'w', encoding='utf-8') as file:
                file.write(TWICE)
            command = [compiler, '-std=' + standard, *WARNINGS, '-I', os.path.join(ROOT, 'include'), '-c', '-o', os.path.join(folder, 'twice.o'), source]
            done = subprocess.run(command, capture_output=True, text=True, check=False)
        tally.same(standard, (done.returncode, done.stdout, done.stderr), (0, '', ''))


def test_pages(tally, text):
    """No page uses a name that the header has not."""
    known = set(re.findall(r'\b(?:LUP|lup)_\w+', text))
    for path in ('README.md', 'CHANGELOG.md', 'docs/FORMAT.md', 'packaging/lupetzarin.3', 'packaging/lupetzarin.map'):
        used = set(re.findall(r'\b(?:LUP|lup)_\w+', read(*path.split('/'))))
        tally.same(path, used - known, set())


def main():
    tally = Cases()
    page, text = Page(read('docs', 'FORMAT.md')), read('include', 'lupetzarin.h')
    test_names(tally, page, text)
    test_python(tally, page)
    test_comments(tally, page, text)
    test_languages(tally)
    test_pages(tally, text)
    tally.finish()


if __name__ == '__main__':
    main()
