#!/usr/bin/env python3
"""docs/FORMAT.md: its tables, formulas and examples against the independent model, the assembler, host/plan.c and the header.

usage: test_format.py     last line: 'N passed, 0 failed'
"""

import os
import re
import struct
import subprocess
import sys
import tempfile
from itertools import combinations, permutations, product
from math import prod

sys.dont_write_bytecode = True
ROOT = os.path.dirname(os.path.dirname(os.path.dirname(os.path.abspath(__file__))))
sys.path[:0] = [os.path.join(ROOT, part) for part in ('host', 'tests/model', 'tests/tools')]

import lupasm  # noqa: E402
import model  # noqa: E402
from counting import Cases  # noqa: E402

# Words of a node, by the names of section 1.
WORDS = {'operation': (0,), 'sources': (1, 2, 3), 'type': (lupasm.TYPE,), 'number': (lupasm.NUMBER,), 'device': (lupasm.DEVICE,),
         'low, high': (lupasm.LOW, lupasm.HIGH), 'row A': lupasm.A, 'row B': lupasm.B}
# What the column 'types of the sources' says, as a test of the sources' types.
TYPE_RULES = {
    'no source': lambda *types: not types,
    'any': lambda *types: True,
    'not bool': lambda *types: 0 not in types,
    'alike': lambda *types: len(set(types)) == 1,
    'alike, not bool': lambda *types: len(set(types)) == 1 and 0 not in types,
    'bool': lambda *types: set(types) == {0},
    'the first bool, the others alike': lambda first, *others: first == 0 and len(set(others)) == 1,
}
# What the column 'type of the result' says, of word 4 and the sources' types.
RESULT_TYPES = {
    'word 4': lambda word, types: word,
    'that of the source': lambda word, types: types[0],
    'bool': lambda word, types: 0,
    'that of source 2': lambda word, types: types[1],
}
ENDS = (-32767, -7, -1, 0, 1, 2, 9, 255)
INTERVALS = [(low, high) for low in ENDS for high in ENDS if low <= high]


def read(*parts):
    with open(os.path.join(ROOT, *parts), encoding='utf-8') as file:
        return file.read()


class Page:
    """The tables of a page by their heads, and its blocks of code."""

    def __init__(self, text):
        self.tables, head = {}, None
        for line in text.split('\n'):
            cells = [cell.strip().strip('`') for cell in line.split('|')[1:-1]]
            if not line.startswith('|'):
                head = None
            elif head is None:
                head = ' | '.join(cells)
                assert head not in self.tables, f'two tables have the head {head}'
                self.tables[head] = []
            elif not set(line) <= set('|-'):
                self.tables[head].append(cells)
        self.blocks = re.findall(r'^```(\w*)\n(.*?)^```$', text, re.M | re.S)

    def table(self, *head):
        return self.tables[' | '.join(head)]


def numbers_of(text):
    """'1, 9–12' as 1, 9, 10, 11, 12."""
    ends = [part.split('–') for part in text.split(', ')]
    return tuple(number for part in ends for number in range(int(part[0]), int(part[-1]) + 1))


def plan_of(text):
    return lupasm.table_of(text.replace('; ', '\n'))


def node_of(op, records, **words):
    """A node whose sources are these records, in order; words by w4, w5, .."""
    node = model.Node([op, *range(len(records)), *[0] * (16 - len(records))], records, 0)
    for word, value in words.items():
        node.words[int(word[1:])] = value
    node.row_a, node.row_b = node.words[9:13], node.words[13:17]
    return node


def record(dtype=3, low=0, high=1, extents=()):
    return model.Record(dtype, 0, low, high, extents)


def source_count(op):
    """The most sources that the operation has."""
    return sum(word in (1, 2, 3) for word in model.USED_WORDS[op])


def numbers_for(op):
    """The numbers of word 5 to try: how many sources a STACK has, else the kinds of a REDUCE."""
    return (2, 3) if op == model.STACK else (0, 1)


# ------------------------------------------------------------ sections 1 to 3

def test_words(tally, page):
    rows = {name: numbers_of(words) for words, name, _ in page.table('word', 'name', 'what it is')}
    tally.same('words of a node', rows, WORDS)
    tally.same('each word once', sorted(sum(rows.values(), ())), list(range(model.NODE_WORDS)))


def test_limits(tally, page):
    rows = {name: re.findall('[0-9]+', value) for name, value in page.table('limit', 'value')}
    limits = {name: tuple(map(int, value)) for name, value in rows.items()}
    tally.same('limits', limits, {
        'nodes in a plan': (1, model.MOST_NODES), 'words in a node': (model.NODE_WORDS,), 'rank (number of axes)': (0, len(model.ROW_A)),
        'extent of an axis': (1, model.LARGEST_EXTENT), 'elements of one node': (model.MOST_NODE_ELEMENTS,),
        'elements of all nodes together': (model.MOST_PLAN_ELEMENTS,), 'PARAM nodes': (16,), 'devices': (1, 255)})
    most = limits['PARAM nodes'][0]
    for count, number in ((most, 0), (most + 1, 7)):
        text = '; '.join(f'p{k} = param u8 0..1 1 device 1' for k in range(count))
        tally.same((count, 'PARAMs'), model.verdict(plan_of(text))[0], number)
    least, greatest = limits['devices']
    for device in (least - 1, least, greatest, greatest + 1):
        wanted = 0 if least <= device <= greatest else 7
        tally.same(('device', device), model.verdict(plan_of(f'p = param u8 0..1 1 device {device}'))[0], wanted)


def test_types(tally, page):
    rows = [(int(number), name, int(least), int(greatest)) for number, name, least, greatest in page.table('type', 'name', 'least', 'greatest')]
    tally.same('types', rows, [(number, lupasm.TYPES[number], *limits) for number, limits in model.TYPE_LIMITS.items()])


def test_operations(tally, page):
    rows = page.table('number', 'name', 'words used', 'types of the sources', 'type of the result')
    tally.same('operations', [int(row[0]) for row in rows], list(range(len(model.USED_WORDS))))
    names = re.search(r'OPERATIONS\[\] = \{(.*?)\}', read('host', 'plan.c'), re.S)[1]
    tally.same('names of host/plan.c', [row[1] for row in rows], re.findall('[A-Z]+', names))
    for number, name, words, types, result in rows:
        op = int(number)
        tally.same((name, 'number'), getattr(model, name), op)
        tally.same((name, 'words'), (numbers_of(words), lupasm.USED[op]), (model.USED_WORDS[op],) * 2)
        with tally.case((name, 'types')):
            for some, count in product(product(range(4), repeat=source_count(op)), numbers_for(op)):
                node = node_of(op, [record(dtype) for dtype in some], w4=2 * (4 in model.USED_WORDS[op]), w5=count)
                good = bool(TYPE_RULES[types](*(some[:count] if op == model.STACK else some)))
                tally.same((name, some, count, 'accepted'), not model.dtypes_wrong(node), good)
                if good:
                    tally.same((name, some, count, 'type of the result'), RESULT_TYPES[result](node.words[4], some), model.result_dtype(node))


def test_values(tally, page):
    rows = page.table('operation', 'number')
    tally.same('binary operations', [getattr(model, name) for name, _ in rows], list(range(model.ADD, model.OR + 1)))
    for name, formula in rows:
        op = getattr(model, name)
        ends = (0, 1) if name in ('AND', 'OR') else ENDS
        with tally.case((name, formula)):
            for x, y in product(ends, repeat=2):
                if y != 0 or name not in ('IDIV', 'MOD'):
                    tally.same((name, x, y), eval(formula, {'x': x, 'y': y}), model.binary_value(op, x, y))
            tally.same((name, 'of a gap'), (model.binary_value(op, None, 1), model.binary_value(op, 1, None)), (None, None))
    for row in page.table('x', 'y', 'IDIV', 'MOD'):
        x, y, *results = map(int, row)
        tally.same(('quotient', x, y), results, [model.binary_value(op, x, y) for op in (model.IDIV, model.MOD)])


def run_of(table, cells):
    """The model's answer to a run and the cells of the last node; None is a gap, over which another number stands."""
    number, records = model.verdict(table)
    assert number == 0, (number, records)
    total = sum(prod(node.extents) for node in records)
    values, flags = [77] * total, [77] * total
    answer = model.run(table, [99 if cell is None else cell for cell in cells], [int(cell is not None) for cell in cells], values, flags)
    return answer, [value if flag else None for value, flag in zip(values, flags)][total - prod(records[-1].extents):]


def test_gaps(tally, page):
    """FILL and KNOWN of a cell or two, each a number or a gap, by their formulas."""
    rows = dict(page.table('operation', 'element'))
    tally.same('operations on gaps', list(rows), ['FILL', 'KNOWN'])
    ends = (None, -32767, -1, 0, 1, 255, 32767)
    cell = 'param i16 -32767..32767 - device 1'
    for name, lines in (('FILL', f'x = {cell}; y = {cell}; a = fill x y'), ('KNOWN', f'x = {cell}; a = known x')):
        for cells in product(ends, repeat=lines.count('param')):
            wanted = eval(rows[name], dict(zip('xy', cells)))
            tally.same((name, cells), run_of(plan_of(lines), cells), ((0, 0, int(wanted is None)), [wanted]))


def test_stack(tally):
    """STACK as the page says it: the element at coordinates i is that of source i[0] at the coordinates after it."""
    for extents in ((), (2,), (2, 3), (2, 1, 3)):
        shape, count = 'x'.join(map(str, extents)) or '-', prod(extents)
        for number in (2, 3):
            names = 'xyz'[:number]
            text = '; '.join([*(f'{name} = param i16 0..99 {shape} device 1' for name in names), f'a = stack {" ".join(names)}'])
            cells = [None if k % 5 == 2 else k for k in range(number * count)]
            sources = [dict(zip(model.all_coordinates(extents), cells[k * count:])) for k in range(number)]
            answer, got = run_of(plan_of(text), cells)
            tally.same((text, 'extents'), model.verdict(plan_of(text))[1][-1].extents, (number, *extents))
            tally.same((text, 'elements'), (answer.number, got), (0, [sources[i[0]][i[1:]] for i in model.all_coordinates((number, *extents))]))


def rows_for(name, rank):
    """Pairs of row A and row B to try over a source of that rank."""
    if name == 'PERMUTE':
        return [(row, ()) for row in permutations(range(rank))]
    if name == 'FLIP':
        return [(row, ()) for row in product((0, 1), repeat=rank)]
    if name == 'LOAD':
        return [((), ())]
    shapes = list(product((1, 2, 4, 6), repeat=rank))
    return list(product(shapes, product((0, 1, 2), repeat=rank) if name in ('PAD', 'SHRINK') else [()]))


def test_movements(tally, page):
    rows = page.table('operation', 'rank', 'rule on each axis', "result's extent", 'source coordinate j[k]')
    tally.same('movements', [getattr(model, row[0]) for row in rows], [*range(model.PERMUTE, model.SHRINK + 1), model.LOAD])
    for name, rank, rule, extent, origin in rows:
        with tally.case((name, rank, rule, extent, origin)):
            if name == 'RESHAPE':
                tally.same(name, (rank, rule, origin), ('any', 'equal element counts', 'the element with the same number'))
                test_reshape(tally)
                continue
            tally.same((name, 'rank'), rank, 'same')
            for s in [(2,), (4,), (1, 4), (2, 4), (4, 2), *[(2, 3, 4)] * (name in ('PERMUTE', 'FLIP'))]:
                for A, B in rows_for(name, len(s)):
                    test_movement(tally, getattr(model, name), dict(s=s, A=A, B=B), (rule or 'True', extent, origin))


def test_movement(tally, op, names, formulas):
    rule, extent, origin = formulas
    s, axes = names['s'], range(len(names['s']))
    words = {f'w{first + k}': word for first, row in ((9, names['A']), (13, names['B'])) for k, word in enumerate(row)}
    node = node_of(op, [record(extents=s)], **words)
    got = model.result_extents(node)
    good = all(eval(rule, dict(names, k=k)) for k in axes)
    tally.same((op, names, 'agrees'), got is not None, good)
    if not good:
        return
    tally.same((op, names, 'extents'), tuple(eval(extent, dict(names, k=k)) for k in axes), got)
    for i in model.all_coordinates(got):
        j = tuple(eval(origin, dict(names, i=i, k=k)) for k in axes)
        inside = all(0 <= j[k] < s[k] for k in axes)
        tally.holds((op, names, 'a gap'), inside or op == model.PAD)
        tally.same((op, names, i), j if inside else None, model.source_coordinates(node.words, i, got, s))


def test_reshape(tally):
    for shape, good in (((6,), True), ((3, 2), True), ((1, 6, 1), True), ((5,), False), ((2, 4), False)):
        node = node_of(model.RESHAPE, [record(extents=(2, 3))], **{f'w{9 + k}': extent for k, extent in enumerate(shape)})
        tally.same(shape, model.result_extents(node), shape if good else None)
        for i in model.all_coordinates(shape) if good else ():
            j = model.source_coordinates(node.words, i, shape, (2, 3))
            tally.same((shape, i), model.element_at(j, (2, 3)), model.element_at(i, shape))


def cells_of(text):
    return [None if cell == 'gap' else int(cell) for cell in text.split()]


def test_examples(tally, page):
    operations = set()
    for text, given, shape, bounds, output in page.table('plan', 'input', 'shape', 'bounds', 'output'):
        table, cells = plan_of(text), cells_of(given)
        operations |= {table[first] for first in range(0, len(table), model.NODE_WORDS)}
        wanted, last = cells_of(output), model.verdict(table)[1][-1]
        tally.same((text, 'answer and output'), run_of(table, cells), ((0, 0, wanted.count(None)), wanted))
        tally.same((text, 'shape and bounds'), (shape, bounds), ('x'.join(map(str, last.extents)), f'{last.low}..{last.high}'))
    tally.holds('most operations are in an example', len(operations) >= 20 and operations >= {model.FILL, model.KNOWN, model.STACK}, operations)


# ------------------------------------------------------------------ section 4

def test_bounds(tally, page):
    rows = {}
    for names, *formulas in page.table('operation', 'where', 'low', 'high'):
        for name in names.split(', '):
            rows.setdefault(getattr(model, name), []).append(formulas)
    tally.same('each operation has bounds', sorted(rows), list(range(len(model.USED_WORDS))))
    for op, some in rows.items():
        bools = op in (model.AND, model.OR)
        intervals = [(0, 0), (0, 1), (1, 1)] if bools else INTERVALS[::3] if source_count(op) == 3 else INTERVALS
        with tally.case(('bounds', op, some)):
            for sources in product(intervals, repeat=source_count(op)):
                if op in (model.IDIV, model.MOD) and sources[1][0] <= 0 <= sources[1][1]:
                    continue
                for number in numbers_for(op):
                    node = node_of(op, [record(low=low, high=high, extents=(2, 5, 3)) for low, high in sources], w5=number, w7=-3, w8=12, w9=1, w11=1)
                    names = dict(zip('aAbBcC', sum(sources, ())), number=number, low=-3, high=12, n=6)
                    low, high = next((low, high) for where, low, high in some if not where or eval(where, names))
                    tally.same((op, sources, number), (eval(low, names), eval(high, names)), model.result_interval(node))
    for text, answer in page.table('plan', 'answer'):
        number, rest = model.verdict(plan_of(text))
        tally.same(text, f'refused {number} at {rest}' if number else f'{rest[-1].low}..{rest[-1].high}', answer)


# ------------------------------------------------------------------ section 6

# The places of the answers below, by what the column 'place' says.
PLACES = {'0': (0,), 'node': (1, 2), 'byte': (4, 5), 'position': (7,)}


def placed():
    """For each number an answer of the model that has it; PLACES tells the kinds of place apart."""
    fine = 'p = param u8 0..9 8 device 1; '
    bad = {4: 'node 9 1=0 2=1', 5: 'node 8 1=0 4=4', 6: 'and p p', 7: 'permute p 1', 8: 'reshape p 3', 10: 'idiv p p', 11: 'const u8 256'}
    for number, line in bad.items():
        yield number, model.check(plan_of(fine + 'q = ' + line), [0] * 16)
    table = plan_of(fine + 'q = const u8 1')
    yield 2, model.check([*table[:17], 24, *table[18:]], [0] * 16)
    yield 3, model.check([*table[:33], 1], [0] * 16)
    yield 9, model.check(plan_of('p = param u8 0..9 2 device 1; q = load p device 2; r = add p q'), [0] * 24)
    yield 1, model.check(table[:-1], [0] * 16)
    yield 14, model.check(table, [0] * 15)
    yield 12, model.check(plan_of('; '.join(['p = param u8 0..9 1048576 device 1', *(f'q{k} = flip p 0' for k in range(4))])), [0] * 40)
    yield 13, model.run(table, [1], [1] * 8, [0] * 9, [0] * 9)
    yield 15, model.run(table, [1] * 8, [1] * 7 + [2], [0] * 9, [0] * 9)
    yield 16, model.run(table, [1] * 7 + [10], [1] * 8, [0] * 9, [0] * 9)
    yield 17, model.lookup(table, 1, 1)
    yield 25, model.pack([*table[:22], 2 ** 34, *table[23:]], [0] * 30)
    for number, data in ((20, '02 00 04 0A 00 80'), (21, '02 00 04 0A 00 80 00'), (22, '01 00 04 0A 00'), (23, '00'), (24, '02 00 04 0A 15'),
                         (26, '00 02 02 00 04 0A 09 00 00')):
        yield number, model.unpack(bytes.fromhex(data), [0] * 34)


def test_refusals(tally, page):
    rows = {int(number): (when, place) for number, when, place in page.table('number', 'given when', 'place')}
    rules = re.search(r'RULES\[\] = \{(.*?)\n\};', read('host', 'plan.c'), re.S)[1]
    wanted = {int(number): words for number, words in re.findall(r'\[(\d+)\] = "(.*)",', rules)}
    tally.same('numbers', sorted(rows), sorted(wanted))
    for number, words in wanted.items():
        tally.same((number, 'words'), rows.get(number, ('', ''))[0], words)
    answers = dict(placed())
    tally.same('each number is given', sorted(answers), sorted(rows))
    for number, answer in answers.items():
        tally.same((number, 'given'), answer[0], number)
        tally.holds((number, 'place'), answer[1] in PLACES.get(rows.get(number, ('', ''))[1], ()), answer)


def answered(call, faults):
    """The number that the model's call gives where these faults are made together."""
    lines = ['p = param u8 0..9 8 device 1']
    if 12 in faults:
        lines += ['q = param u8 0..9 1048576 device 1', *(f'q{k} = flip q 0' for k in range(4))]
    if 11 in faults:
        lines.append('r = const u8 256')
    table, data = plan_of('; '.join(lines)), bytearray(lupasm.assemble('\n'.join(lines)))
    table[lupasm.LOW] = 2 ** 34 if 25 in faults else table[lupasm.LOW]
    table = table[:len(table) - (1 in faults)]
    data[0] *= 23 not in faults
    data[1] = 24 if 24 in faults else data[1]
    data = bytes([0, 2] * (26 in faults)) + data + bytes(22 in faults)
    room = [0] * (0 if 14 in faults else 170)
    if call == 'lup_check':
        return model.check(table, room).number
    if call == 'lup_run':
        return model.run(table, [1] * (8 - (13 in faults)), [1] * 7 + [1 + (15 in faults)], room, list(room)).number
    if call == 'lup_lookup':
        return model.lookup(table, 999 if 17 in faults else 0, 0).number
    if call == 'lup_pack':
        return model.pack(table, room).number
    return model.unpack(data, room).number if call == 'lup_unpack' else model.unpack_check(data) // 65536


def fuzzed_answers():
    """The answers that tests/fuzz/fuzz.c allows of each call."""
    rows = re.findall(r'^    \[(\w+)\] = (BITS.*),$', read('tests', 'fuzz', 'fuzz.c'), re.M)
    ends = {name: re.findall(r'BITS\((\d+), (\d+)\)', bits) for name, bits in rows}
    return {'lup_' + name.lower(): {n for first, last in pairs for n in range(int(first), int(last) + 1)} for name, pairs in ends.items()}


# One of each step of a call, by which test_order makes it due.
FAULTS = (1, 11, 12, 13, 14, 15, 17, 22, 23, 24, 25, 26)


def test_order(tally, page):
    """Of any two steps of a call the earlier one decides where both are due."""
    every, fuzzed = set(), fuzzed_answers()
    for call, cell in page.table('call', 'order'):
        steps = [numbers_of(step) for step in re.sub(r' \([^)]*\)', '', cell).split('; ')]
        faults = [next(fault for fault in FAULTS if fault in step) for step in steps]
        every |= set(sum(steps, ()))
        tally.same((call, 'what fuzz.c allows'), fuzzed.get(call), {0, *sum(steps, ())})
        for fault in faults:
            tally.same((call, fault), answered(call, {fault}), fault)
        for first, second in combinations(faults, 2):
            tally.same((call, first, second), answered(call, {first, second}), first)
        for fault in set(FAULTS) - set(faults):
            tally.holds((call, 'never', fault), answered(call, {fault}) != fault)
    numbers = [int(row[0]) for row in page.table('number', 'given when', 'place')]
    tally.same('every number is given by a call', sorted(every), numbers)


# ------------------------------------------------------------------ section 7

def test_packed(tally, page):
    for word, written, coded in page.table('word', 'written as', 'bytes'):
        data = bytes.fromhex(coded)
        tally.same((word, 'written'), lupasm.number_bytes(int(written)), data)
        tally.same((word, 'read'), model.read_number(data, 0), (int(written), len(data)))
        tally.same((word, 'as'), (model.word_of(int(written)), model.number_of(int(word))), (int(word), int(written)))
    listings = [text for language, text in page.blocks if text.startswith('node op')]
    rows = page.table('text', 'bytes')
    tally.same('listings', len(listings), len(rows))
    for (text, coded), listing in zip(rows, listings):
        tally.same((text, 'packed'), lupasm.assemble(text.replace('; ', '\n')), bytes.fromhex(coded))
        tally.same((text, 'listed'), model.listing(bytes.fromhex(coded)).decode(), listing)
        table = [0] * len(plan_of(text))
        model.unpack(bytes.fromhex(coded), table)
        tally.same((text, 'unpacked'), table, plan_of(text))
        data = bytearray(len(bytes.fromhex(coded)))
        tally.same((text, 'written'), (model.pack(table, data), data.hex()), ((0, 0, len(data)), bytes.fromhex(coded).hex()))
    for coded, answer in page.table('bytes', 'answer'):
        tally.same((coded, 'answer'), model.listing(bytes.fromhex(coded)).decode().splitlines()[-1], answer)


def test_prose(tally, page, text):
    longest = 1 + 5 * max(map(len, model.USED_WORDS))
    size = 2 + model.MOST_NODES * longest
    words = ' '.join(text.split())
    tally.holds('the most bytes', f'2 + {model.MOST_NODES}·{longest} = {size} bytes' in words)
    new = 1 + 5 * max(len(model.USED_WORDS[op]) for op in (model.FILL, model.KNOWN, model.STACK))
    size = 4 + (model.MOST_NODES - 1) * longest + new
    tally.holds('the most bytes of the second edition', f'2 + 2 + {model.MOST_NODES - 1}·{longest} + {new} = {size} bytes' in words)
    tally.holds('what the programs read', f'the first {model.MOST_LISTING_BYTES} bytes' in words)
    tally.holds('no bytes', f'`{model.listing(b"").decode().strip()}`' in words)
    tally.holds('the size of a field file', '16 + 8·rank + 9·count bytes, and 24 more with bounds' in words)
    tally.same('it needs no other text', re.findall(r'(?i)\bpapers?\b|§|\b0[12]\b', re.sub('`[^`]*`', '', text)), [])
    tally.same('line lengths outside tables', [line for line in text.split('\n') if len(line) > 165 and not line.startswith('|')], [])
    example = next(block for language, block in page.blocks if ' = greatest ' in block)
    tally.same('the example of the text form', (len(example.splitlines()), model.verdict(lupasm.table_of(example))[0]), (3, 0))
    stacks = re.findall(r'(\d+ KiB) is enough\. \*/\n\w+ (lup_\w+)\(', read('include', 'lupetzarin.h'))
    tally.same('stack', page.table('call', 'stack that is enough'), [[call, stack] for stack, call in stacks])
    tally.same('calls', [row[0] for row in page.table('call', 'order')], ['lup_check', 'lup_run', 'lup_lookup', 'lup_unpack', 'lup_unpack_check', 'lup_pack'])


# ------------------------------------------------------------------ section 9

def test_field(tally, page):
    """The snippet as it is printed; its file against struct, and against the table of parts."""
    snippet = next(block for language, block in page.blocks if language == 'python')
    with tempfile.TemporaryDirectory() as folder:
        done = subprocess.run([sys.executable, '-c', snippet], cwd=folder, capture_output=True, text=True, timeout=60, check=False)
        tally.same('the snippet runs', (done.returncode, done.stdout, done.stderr, os.listdir(folder)), (0, '', '', ['strip.field']))
        with open(os.path.join(folder, 'strip.field'), 'rb') as file:
            data = file.read()
    extents, values, flags = (2, 3), (7, -1, 0, 0, 300, 12), (1, 1, 0, 1, 1, 1)
    tally.same('the bytes', data, struct.pack('<8s3Q6q6B', b'LUPFIELD', 2, *extents, *values, *flags))
    tally.same('the size', len(data), 16 + 8 * len(extents) + 9 * len(values))
    parts, at = {}, 0
    for name, size, _ in page.table('part', 'bytes', 'what'):
        end = at + eval(size.replace('·', '*'), {'rank': len(extents), 'count': len(values)})
        parts[name], at = data[at:end], end
    wanted = {'magic': b'LUPFIELD', 'rank': struct.pack('<Q', 2), 'extents': struct.pack('<2Q', *extents), 'values': struct.pack('<6q', *values),
              'flags': bytes(flags)}
    tally.same('the parts', (parts, at), (wanted, len(data)))
    tail = page.table('part after the flags', 'bytes', 'what')
    tally.same('the bounds', [(name, int(size)) for name, size, _ in tail], [('magic of the bounds', 8), ('low', 8), ('high', 8)])
    tally.holds('their magic', 'LUPRANGE' in tail[0][2], tail[0])
    tally.same('their size', sum(int(size) for _, size, _ in tail), 24)
    program = os.path.join(ROOT, 'build', 'lup')
    with tempfile.TemporaryDirectory() as folder:
        for more, low, high in ((b'', -1, 300), (struct.pack('<8s2q', b'LUPRANGE', -5, 500), -5, 500)):
            with open(os.path.join(folder, 'strip.field'), 'wb') as file:
                file.write(data + more)
            shown = subprocess.run([program, 'show', 'strip.field'], cwd=folder, capture_output=True, text=True, timeout=60, check=False)
            tally.same(('lup show', more), re.findall(r'^(-?\d+) .* (-?\d+)$', shown.stdout, re.M), [(str(low), str(high))])


def main():
    tally = Cases()
    text = read('docs', 'FORMAT.md')
    page = Page(text)
    for test in (test_words, test_limits, test_types, test_operations, test_movements, test_values, test_gaps, test_examples, test_bounds, test_refusals, test_order,
                 test_packed, test_field):
        test(tally, page)
    test_stack(tally)
    test_prose(tally, page, text)
    tally.finish()


if __name__ == '__main__':
    main()
