#!/usr/bin/env python3
"""lup pack and lup unpack: tables as text to packed bytes and back, against a reader of such texts and a writer that stand here, and the independent
model's unpacking: round trips, every refusal with its words, texts that are no tables, random damage.

usage: test_table.py [PROGRAM] [COUNT] [SEED]     PROGRAM: build/lup, or build/lup-sanitized; COUNT: random tables and damages; last line: 'N passed, 0 failed'
"""

import os
import re
import sys
import tempfile
from random import Random

sys.dont_write_bytecode = True
HERE = os.path.dirname(os.path.abspath(__file__))
ROOT = os.path.dirname(os.path.dirname(HERE))
sys.path[:0] = [HERE, *(os.path.join(ROOT, 'tests', part) for part in ('model', 'tools'))]

import cases  # noqa: E402
import model  # noqa: E402
from cases import apply, const, node  # noqa: E402
from counting import Cases  # noqa: E402
from model import ADD, FILL, KNOWN, PAD, PARAM, STACK, USED_WORDS  # noqa: E402
from program import QUICK, Program  # noqa: E402
from test_host import FILLING, PADDED, REFUSED_BYTES, REFUSED_TABLES, changed  # noqa: E402
from wording import OPERATIONS, RULES, TABLE_RULES  # noqa: E402

LEAST, MOST = -17179869184, 17179869183
GREATEST = 2 ** 63 - 1
# Words that take one byte to five, on both sides of each step.
ENDS = sorted({sign * 2 ** k + more for k in (0, 6, 13, 20, 27) for sign in (1, -1) for more in (-1, 0, 1)} | {LEAST, LEAST + 1, MOST - 1, MOST})
OUTSIDE = (LEAST - 1, MOST + 1, -GREATEST - 1, GREATEST)
OLD = b'what was there'
# What a file of the second edition begins with, and the least number that is no operation.
SECOND = b'\0\2'
UNKNOWN = len(OPERATIONS)


# ------------------------------------------------------- what has to be said

def nodes_of(table):
    return [table[first:first + 17] for first in range(0, len(table), 17)]


def text_of(table):
    """The text that lup unpack writes."""
    return ''.join(' '.join(map(str, words)) + '\n' for words in nodes_of(table))


def packed(table):
    """The bytes, or number, place and word of the refusal."""
    if not 1 <= len(nodes_of(table)) <= 256:
        return 1, 0, 0
    for place, words in enumerate(nodes_of(table)):
        if not 0 <= words[0] < UNKNOWN:
            return 2, place, 0
        used = USED_WORDS[words[0]]
        for number, wrong in ((3, [k for k in range(1, 17) if k not in used and words[k] != 0]),
                              (25, [k for k in used if not LEAST <= words[k] <= MOST])):
            if wrong:
                return number, place, wrong[0]
    return cases.pack(table)


def read_text(name, data):
    """The table of a text and the line of each node; or the message, where it is no table."""
    table, lines = [], []
    for line, content in enumerate(data.split(b'\n'), 1):
        content = bytes(c if 9 <= c <= 13 or 32 <= c != 127 else 63 for c in content.split(b'#')[0])
        words = content.split()
        if len(lines) == 257 or not words and len(content) < 1024:
            continue
        if len(content) > 1023:
            return f'lup: {name}:{line}: a line has at most 1023 characters before its comment\n'
        if len(words) != 17:
            return f'lup: {name}:{line}: a node has 17 words, and this line has {len(words)}\n'
        for k, word in enumerate(words):
            if not re.fullmatch(b'-?[0-9]+', word) or not -GREATEST - 1 <= int(word) <= GREATEST:
                shown = word.decode(errors='replace')
                return f"lup: {name}:{line}: word {k}, '{shown}', is no whole number from -9223372036854775808 to 9223372036854775807\n"
        table += map(int, words)
        lines.append(line)
    return table, lines


def wanted_pack(name, data, written):
    """Exit status, standard output, standard error and the file that is written."""
    read = read_text(name, data)
    if isinstance(read, str):
        return 2, '', read, None
    table, lines = read
    got = packed(table)
    count = len(lines)
    if isinstance(got, bytes):
        return 0, f'written: {written}, {count} node{"s" * (count != 1)} in {len(got)} bytes\n', '', got
    number, place, word = got
    rule = f'lup: {name}: refused {number}'
    if number == 1:
        return 1, '', f'{rule}: {TABLE_RULES[1]}: {count} nodes are read\n', None
    words = nodes_of(table)[place]
    operation = OPERATIONS[words[0]] if 0 <= words[0] < UNKNOWN else 'unknown operation'
    return 1, '', f'{rule} at node {place} ({operation}): {TABLE_RULES[number]}: word {word} is {words[word]} (line {lines[place]})\n', None


def wanted_unpack(name, data):
    """The same of an unpacking to standard output."""
    table = [0] * (17 * 256)
    number, place, count = model.unpack(data, table)
    if number:
        return 1, '', f'lup: {name}: refused {number} at byte {place}: {RULES[number]}\n'
    return 0, text_of(table[:17 * count]), ''


def test_pack(tally, lup, data, environment=QUICK):
    """A text is packed, or what is wrong with it is told and the old file stays. Gives the exit status and the message's beginning."""
    lup.put('t.table', data)
    lup.put('t.plan', OLD)
    status, text, errors, written = wanted_pack('t.table', data, 't.plan')
    with tally.case(('pack', data[:120])):
        tally.same('what is told', lup.run('pack', 't.table', '-o', 't.plan', environment=environment), (status, text, errors))
        tally.same('what is written', lup.get('t.plan'), OLD if written is None else written)
        tally.same('nothing beside it', sorted(os.listdir(lup.folder)), ['t.plan', 't.table'])
    return status, re.match(r'(?:lup: t\.table: refused \d+)?', errors)[0]


# -------------------------------------------------------------- round trips

def random_table(rng):
    """Nodes of any operations, or of those of the first edition, and words that can be packed; few of them make a plan that is accepted."""
    table, limit = [], rng.choice((FILL, UNKNOWN))
    for _ in range(rng.choice((1, 2, 3, 5, rng.randint(1, 256)))):
        op = rng.randrange(limit)
        table += node(op, {word: rng.choice((0, 1, rng.choice(ENDS), rng.randint(-300, 300), rng.randint(LEAST, MOST))) for word in USED_WORDS[op]})
    return table


def tables(rng, count):
    """Every operation with each end in all its words; the shortest and the longest; plans that the check refuses; any."""
    for op in range(UNKNOWN):
        for word in (0, LEAST, MOST):
            yield node(op, dict.fromkeys(USED_WORDS[op], word))
    for limit in (FILL, UNKNOWN):
        yield sum((node(op, dict(zip(USED_WORDS[op], ENDS[op:]))) for op in range(limit)), [])
    for op in (ADD, PAD, PARAM, KNOWN, STACK):
        for word in (0, MOST):
            yield node(op, dict.fromkeys(USED_WORDS[op], word)) * 256
    yield node(PAD, dict.fromkeys(USED_WORDS[PAD], MOST)) * 255 + node(STACK, dict.fromkeys(USED_WORDS[STACK], LEAST))
    yield FILLING
    yield from (table for _, _, table in REFUSED_TABLES)
    yield from (random_table(rng) for _ in range(count))


def test_round_trips(tally, lup, rng, count):
    """There and back, by files and by standard streams; the same bytes, the same text, and the same table by the model; the edition by the operations."""
    lengths = {False: set(), True: set()}
    for table in tables(rng, count):
        text, data, second = text_of(table), packed(table), max(words[0] for words in nodes_of(table)) > 20
        lengths[second].add(len(data))
        test_pack(tally, lup, text.encode())
        with tally.case(('unpack', text[:120])):
            tally.same('its edition', lup.get('t.plan')[:2] == SECOND, second)
            tally.same('unpacked', lup.run('unpack', 't.plan', environment=QUICK), (0, text, ''))
            read = [7] * len(table)
            tally.same('by the model', (model.unpack(data, read), read), ((0, 0, len(table) // 17), table))
            nodes = len(table) // 17
            told = f'written: u.table, {nodes} node{"s" * (nodes != 1)}\n'
            tally.same('to a file', lup.run('unpack', 't.plan', '-o', 'u.table', environment=QUICK), (0, told, ''))
            tally.same('its text', lup.get('u.table'), text.encode())
            got = lup.run('pack', '-', '-o', 'u.plan', input=lup.get('u.table'), environment=QUICK)
            tally.same('packed again', got, (0, f'written: u.plan, {nodes} node{"s" * (nodes != 1)} in {len(data)} bytes\n', ''))
            tally.same('the same bytes', lup.get('u.plan'), lup.get('t.plan'))
        for name in ('u.table', 'u.plan'):
            os.remove(lup.at(name))
    for second, wanted in ((False, (4, 11778)), (True, (5, 11755))):
        tally.same(('the shortest and the longest, second edition', second), (min(lengths[second]), max(lengths[second])), wanted)


# A text for lup pack, the file that it has to write, and what is said of the same nodes in the other edition; by hand.
BY_HAND = (
    ('0 0 0 0 2 5 0 0 0 0 0 0 0 0 0 0 0\n', '01 00 04 0A', 'refused 26 at byte 0'),
    ('22 0 0 0 0 0 0 0 0 0 0 0 0 0 0 0 0\n', '00 02 01 16 00', 'refused 24 at byte 1'),
    ('0 0 0 0 2 5 0 0 0 0 0 0 0 0 0 0 0\n21 0 1 0 0 0 0 0 0 0 0 0 0 0 0 0 0\n', '00 02 02 00 04 0A 15 00 02', 'refused 24 at byte 4'),
    ('23 64 -1 -2 0 3 0 0 0 0 0 0 0 0 0 0 0\n9 0 0 0 0 0 0 0 0 0 0 0 0 0 0 0 0\n', '00 02 02 17 80 01 01 03 06 09 00 00', 'refused 24 at byte 1'),
)


def test_by_hand(tally, lup):
    """Both editions byte for byte; a plan without a new operation in a file of the second edition is refused, and one with it in a file of the first."""
    for text, written, refusal in BY_HAND:
        data = bytes.fromhex(written)
        with tally.case(('by hand', text)):
            test_pack(tally, lup, text.encode())
            tally.same('packed', lup.get('t.plan'), data)
            tally.same('unpacked', lup.run('unpack', 't.plan'), (0, text, ''))
            lup.put('t.plan', other_edition(data))
            status, _, errors = lup.run('unpack', 't.plan')
            tally.same('in the other edition', (status, errors.split(': ')[2]), (1, refusal))


def other_edition(data):
    """The bytes of a plan with what begins a file of the second edition in front, or without it where it stands there."""
    return data.removeprefix(SECOND) if data[:2] == SECOND else SECOND + data


def forms(rng, table):
    """Texts of one table: blanks, comments, empty lines, line ends, zeros in front."""
    lines = text_of(table).splitlines()
    yield '\n'.join(lines)
    yield '\r\n'.join(lines) + '\r\n'
    yield ''.join(f'\n \t\r\n  {line}  \n' for line in lines)
    yield ''.join('\t'.join(line.split()) + '\n' for line in lines)
    yield ''.join('\v\f\r '.join(line.split()) + '\f\n' for line in lines)
    yield '# a head\n\n' + ''.join(f'{line}# node {k} # of {len(lines)} x\n   # {line}\n' for k, line in enumerate(lines)) + '# the end'
    yield ''.join(re.sub(r'(-?)(\d+)', r'\g<1>000\2', line) + '\n' for line in lines)
    yield ''.join(re.sub(r'(?<!\d)0(?!\d)', '-0', line) + '\n' for line in lines)
    yield ''.join(line + ' ' * (1023 - len(line)) + '\n' for line in lines)
    yield ''.join(f'{line} #{"x" * 5000} é \0\x01\xff 1 2 3\n' for line in lines)
    yield '#' + '\n' * 3000 + text_of(table)
    yield ''.join(rng.choice((' ', '\t')) * rng.randint(0, 9) + line + rng.choice(('', ' ', '#', ' # 1', '\r')) + '\n' * rng.randint(1, 3) for line in lines)


def test_forms(tally, lup, rng):
    for table in (PADDED, const(2, -5), random_table(rng)[:17 * 9]):
        for text in forms(rng, table):
            with tally.case(('a form', text[:120])):
                tally.same('a text of that table', read_text('', text.encode('latin-1'))[0], table)
                tally.same('is packed', test_pack(tally, lup, text.encode('latin-1')), (0, ''))


def test_page(tally, lup):
    """The line that docs/FORMAT.md prints is that of the first plan of its table of texts and bytes."""
    with open(os.path.join(ROOT, 'docs', 'FORMAT.md'), encoding='utf-8') as file:
        page = file.read()
    line, = re.findall(r'^```\n((?:-?\d+ ){16}-?\d+\n)```$', page, re.M)
    data = bytes.fromhex(re.search(r'^\| text \| bytes \|\n.*\n\| `.*` \| `([0-9A-F ]+)` \|$', page, re.M)[1])
    with tally.case('the line of docs/FORMAT.md'):
        test_pack(tally, lup, line.encode())
        tally.same('its bytes', lup.get('t.plan'), data)
        tally.same('unpacked', lup.run('unpack', 't.plan'), (0, line, ''))


# ----------------------------------------------------------------- refusals

def refused_tables():
    """Number, place, word, table: each rule at each word that can break it, and the order of the rules."""
    good, wide = const(2, 5), node(0, {4: 2, 5: MOST + 1})
    for op in (-1, UNKNOWN, -GREATEST - 1, GREATEST):
        yield 2, 1, 0, good + node(op)
        yield 2, 0, 0, node(op, dict.fromkeys(range(1, 17), GREATEST))
    for op, used in enumerate(USED_WORDS):
        for word in range(1, 17):
            number = OUTSIDE[(op + word) % 4]
            yield (25 if word in used else 3), 1, word, good + node(op, {word: number}) + node(99)
            if word not in used:
                yield 3, 0, word, node(op, {**dict.fromkeys(used, GREATEST), word: (1, -1)[word % 2]})
        yield 25, 0, used[0], node(op, dict.fromkeys(used, LEAST - 1))
        yield 25, 0, used[-1], node(op, {**dict.fromkeys(used, LEAST), used[-1]: MOST + 1})
    yield 25, 0, 5, wide + node(UNKNOWN)
    yield 25, 0, 5, wide + apply(ADD, 0, 0, 1)
    yield 3, 0, 3, apply(ADD, 0, 0, 1) + wide
    yield 2, 0, 0, node(UNKNOWN) + wide
    yield 25, 255, 5, good * 255 + wide


def test_refusals(tally, lup):
    """Each refusal with its words, its place, the word and its line; nothing is written."""
    for number, place, word, table in refused_tables():
        with tally.case(('refused', number, place, word, table[17 * place])):
            tally.same('by the writer here', packed(table), (number, place, word))
            text = '\n# a comment\n' + text_of(table)
            tally.same('by the program', test_pack(tally, lup, text.encode()), (1, f'lup: t.table: refused {number}'))
    good, first = text_of(const(2, 5)), (1, 'lup: t.table: refused 1')
    for wanted, text in ((first, ''), (first, '\n# nothing\n'), (first, good * 257), (first, good * 257 + 'x\n'), (first, good * 300),
                         (first, good * 257 + '\0' * 2000), (first, text_of(node(99)) + good * 256), ((2, ''), good * 256 + 'x\n')):
        with tally.case(('the length', text.count('\n'), text[-20:])):
            tally.same('refused 1, or no table', test_pack(tally, lup, text.encode()), wanted)
    lup.put('t.table', text_of(PADDED + node(7, {1: 1, 9: LEAST - 1, 16: 2})).encode())
    message = ('lup: t.table: refused 25 at node 2 (SHRINK): a used word not in -17179869184..17179869183: word 9 is -17179869185 (line 3)\n')
    tally.same('word for word', lup.run('pack', 't.table', '-o', '-'), (1, '', message))


def test_unpack_refusals(tally, lup):
    """What cannot be unpacked is refused in the words of the other commands; what the check refuses is unpacked."""
    os.remove(lup.at('t.plan'))
    for number, place, data in REFUSED_BYTES:
        lup.put('t.table', data)
        with tally.case((number, place, data[:40].hex())):
            status, text, errors = wanted_unpack('t.table', data)
            tally.same('the message', (status, text, errors.split(':')[2]), (1, '', f' refused {number} at byte {place}'))
            tally.same('to standard output', lup.run('unpack', 't.table'), (1, '', errors))
            lup.put('u.table', OLD)
            tally.same('to a file', lup.run('unpack', 't.table', '-o', 'u.table'), (1, '', errors))
            tally.same('which stays', lup.get('u.table'), OLD)
    os.remove(lup.at('u.table'))


# --------------------------------------------------- texts that are no tables

NO_NUMBERS = (b'x', b'1.0', b'+1', b'0x1', b'1e3', b'--1', b'-', b'1-', b'1,', b'9223372036854775808', b'-9223372036854775809', b'9' * 400, b'-' + b'9' * 400,
              '１'.encode(), 'é'.encode(), b'\xff', b'1\x001', b'\x00', b'\x01', b'\x7f', b'1\x1b', b'%s%n', b"'", b'5=6')


def wrong_texts():
    """Texts whose first wrong line is named."""
    words = text_of(PADDED).encode().splitlines()[1].split()
    good = b' '.join(words) + b'\n'
    for k, word in enumerate(NO_NUMBERS):
        at = k % 17
        yield good + b'# a comment\n\n' + b' '.join([*words[:at], word, *words[at + 1:]]) + b'\n' + b'x\n'
    for at in range(17):
        yield b' '.join([*words[:at], b'x', *words[at + 1:]])
        yield b' '.join([*words[:at], str(2 ** 63).encode(), *words[at + 1:]]) + b'\r\n' + good
    for count in (1, 2, 16, 18, 33, 34, 300):
        yield good + b' '.join([b'0'] * count)
        yield good + b' '.join([b'0'] * count) + b'# 1 2 3\n' + good
    yield good * 2 + b'0 0 0 # 1 1 1 1 1 1 1 1 1 1 1 1 1 1\n'
    yield good.replace(b' ', b'\r') * 2 + good.replace(b' ', b',')
    yield good.strip() * 2
    for length in (1024, 1025, 5000, 100000):
        yield good + b' ' * length + b'\n'
        yield b'0' * length
        yield b' '.join(words) + b' ' * (length - len(good)) + b' # over'
    yield cases.pack(PADDED)
    yield cases.pack(PADDED * 128)
    yield b'wind = param i16 -9..9 2 device 1\n'
    yield b'\xef\xbb\xbf' + good


def test_wrong_texts(tally, lup):
    for data in wrong_texts():
        with tally.case(('no table', data[:120])):
            tally.same('status 2', test_pack(tally, lup, data), (2, ''))
    words = ' '.join(['0'] * 16)
    for line, message in ((f'{words} 1x', "word 16, '1x', is no whole number from -9223372036854775808 to 9223372036854775807"),
                          (words, 'a node has 17 words, and this line has 16'), (f'{words} 0 0 # 0', 'a node has 17 words, and this line has 18'),
                          (' ' * 1024, 'a line has at most 1023 characters before its comment')):
        lup.put('t.table', f'# a head\n\n{line}\n'.encode())
        tally.same('word for word', lup.run('pack', 't.table', '-o', 't.plan'), (2, '', f'lup: t.table:3: {message}\n'))
    os.mkdir(lup.at('folder'))
    for name, message in (('none', 'the table cannot be opened: No such file or directory'), ('', 'the table cannot be opened: No such file or directory'),
                          ('folder', 'the table cannot be read: Is a directory'), ('t.table/x', 'the table cannot be opened: Not a directory')):
        tally.same(message, lup.run('pack', name, '-o', 't.plan'), (2, '', f'lup: {name}: {message}\n'))
    os.rmdir(lup.at('folder'))
    tally.same('standard input', lup.run('pack', '-', '-o', 't.plan', input=b'\n1 2\n'), (2, '', 'lup: -:2: a node has 17 words, and this line has 2\n'))


# ------------------------------------------------------------ random damage

def test_damaged_texts(tally, lup, rng, count):
    """Texts with bytes changed, put in, taken out, cut off or appended, or with a number that is another: packed, refused or no table."""
    met = set()
    parts = [b' ', b'\n', b'#', b'-', b'0', b'9', b'\t', b'\r\n', b' 0', *(str(number).encode() + b' ' for number in (*OUTSIDE, LEAST, MOST, UNKNOWN, 2 ** 63))]
    for _ in range(count):
        data = text_of(random_table(rng)[:17 * rng.randint(1, 4)]).encode()
        if rng.random() < 0.5:
            data = changed(rng, data)
        for _ in range(rng.randint(0, 2)):
            at = rng.randrange(len(data) + 1)
            data = data[:at] + rng.choice(parts) + data[at:]
        if rng.random() < 0.5:
            numbers = data.split(b' ')
            numbers[rng.randrange(len(numbers))] = str(rng.choice((*OUTSIDE, LEAST, MOST, 1, UNKNOWN))).encode()
            data = b' '.join(numbers)
        met.add(test_pack(tally, lup, data))
    wanted = {(0, ''), (2, ''), *((1, f'lup: t.table: refused {number}') for number in (2, 3, 25))}
    tally.holds('packed, refused and no table', met >= wanted or count < 300, met)


def test_damaged_plans(tally, lup, rng, count):
    met = set()
    for _ in range(count):
        data = packed(random_table(rng)[:17 * rng.randint(1, 4)])
        data = changed(rng, data) if rng.random() < 0.8 else other_edition(data)
        lup.put('t.plan', data)
        wanted = wanted_unpack('t.plan', data)
        met.add(wanted[2][:31])
        with tally.case(('unpack', data.hex())):
            tally.same('unpacked', lup.run('unpack', 't.plan', environment=QUICK), wanted)
            if wanted[0] == 0:
                tally.same('the same bytes', packed(read_text('', wanted[1].encode())[0]), data)
    tally.holds('unpacked, and every refusal', len({message[:23] for message in met}) == 7 or count < 300, met)


def main():
    path = sys.argv[1] if len(sys.argv) > 1 else os.path.join(ROOT, 'build', 'lup')
    count = int(sys.argv[2]) if len(sys.argv) > 2 else 600
    rng, tally = Random(int(sys.argv[3]) if len(sys.argv) > 3 else 9), Cases()
    with tempfile.TemporaryDirectory() as folder:
        lup = Program(path, folder)
        test_round_trips(tally, lup, rng, count // 6)
        test_forms(tally, lup, rng)
        for test in (test_page, test_by_hand, test_refusals, test_wrong_texts):
            test(tally, lup)
        for test in (test_damaged_texts, test_damaged_plans):
            test(tally, lup, rng, count)
        test_unpack_refusals(tally, lup)
    tally.finish(f'{lup.calls} of {os.path.relpath(lup.path)}')


if __name__ == '__main__':
    main()
