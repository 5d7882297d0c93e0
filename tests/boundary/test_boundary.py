#!/usr/bin/env python3
"""Drives the exports of the shared object, but for lup_run (test_run.py) and lup_lookup (test_lookup.py), against the independent model: answers, and buffers compared whole.

usage: test_boundary.py [COUNT] [SEED]     last line: 'N passed, 0 failed'
"""

import collections
import faulthandler
import os
import sys
from itertools import combinations_with_replacement, product
from random import Random

sys.dont_write_bytecode = True
HERE = os.path.dirname(os.path.abspath(__file__))
sys.path[:0] = [HERE, *(os.path.join(os.path.dirname(HERE), part) for part in ('model', 'tools'))]

import cases  # noqa: E402
import model  # noqa: E402
import pack_examples  # noqa: E402
from counting import Cases  # noqa: E402
from library import Library, declared, exported  # noqa: E402

# The ends of packed numbers of one to five bytes.
NUMBER_ENDS = sorted({128 ** k + d for k in range(6) for d in (-1, 0, 1) if 0 <= 128 ** k + d < 2 ** 35})
WORD_ENDS = [model.word_of(m) for m in NUMBER_ENDS]
BYTE_ENDS = (0, 1, 2, 3, 20, 21, 23, 24, 127, 128, 129, 148, 254, 255)
EDITION = bytes(model.SECOND_EDITION)


def pattern(room):
    return [-0x5a5a5a5a5a5a5a5a + k for k in range(room)]


# ---------------------------------------------------------------- unpack

def random_table(rng, nodes):
    """Any operations with any words that a packed plan can hold; no other rule is asked."""
    table = []
    for _ in range(nodes):
        op = rng.randrange(cases.OPERATIONS)
        words = {w: rng.choice(WORD_ENDS) if rng.random() < 0.3 else model.word_of(rng.getrandbits(rng.randint(1, 35)))
                 for w in model.USED_WORDS[op]}
        table += cases.node(op, words)
    return table


def damaged(rng, data):
    """The bytes with one to three changed, put in, taken out, cut off or appended."""
    data = bytearray(data)
    for _ in range(rng.randint(1, 3)):
        way, at = rng.randrange(5), rng.randrange(len(data) + 1)
        if way == 0 and data:
            data[at % len(data)] = rng.randrange(256)
        elif way == 1:
            data.insert(at, rng.choice(BYTE_ENDS))
        elif way == 2 and data:
            del data[at % len(data)]
        elif way == 3:
            del data[at:]
        else:
            data += rng.randbytes(rng.randint(1, 3))
    return bytes(data)


def needed(data):
    """The words that a table needs for the bytes' node count; one node's where there is no such count."""
    try:
        count = model.read_number(data, model.read_edition(data)[1])[0]
    except model.Refused:
        count = 1
    return model.NODE_WORDS * min(max(count, 1), model.MOST_NODES)


def fixed_bytes():
    """Bytes at the ends of each rule, whatever the seed."""
    yield from cases.FIXED_BYTES
    yield from (data for data, _ in cases.EDITION_BYTES)
    yield from (bytes([0, second]) + rest for second in range(256) for rest in (b'', bytes.fromhex('011600')))
    for ops in (range(model.LOAD + 1), (model.CONST, *model.NEW, model.LOAD)):
        data = cases.pack(sum(map(cases.small_node, ops), []))
        yield from (data[:cut] for cut in range(len(data) + 1))
        yield from (data[:at] + bytes([end]) + data[at + 1:] for at in range(len(data)) for end in BYTE_ENDS)
    for operations in (model.LOAD + 1, cases.OPERATIONS):
        yield from cases.other_numbers(sum(map(cases.small_node, range(operations)), []))
    for number in NUMBER_ENDS:
        count = cases.number_bytes(number)
        padded = count[:-1] + bytes([count[-1] + 128, 0])
        for written in (count, padded, count[:-1], count[:-1] + bytes([count[-1] + 128])):
            for edition, node in ((b'', '00040a'), (EDITION, '1600')):
                yield edition + written + bytes.fromhex(node)
                yield edition + b'\x01' + written + bytes.fromhex(node)[1:]
                yield edition + b'\x01' + bytes.fromhex(node)[:-1] + written
    for nodes in (1, 127, 128, 255, 256, 257):
        for last in (cases.const(2, 300), cases.apply(model.KNOWN, 0)):
            data = cases.pack(cases.const(2, 300) * (nodes - 1) + last)
            yield from (data, data[:-1], EDITION + data)
    for low_or_high in (-2 ** 34, 2 ** 34 - 1):
        longest = cases.node(model.PAD, dict.fromkeys(model.USED_WORDS[model.PAD], low_or_high))
        for last in (longest, cases.node(model.STACK, dict.fromkeys(model.USED_WORDS[model.STACK], low_or_high))):
            yield from (cases.pack(longest * 255 + last), EDITION + cases.pack(longest * 255 + last))


def unpack_inputs(rng, count):
    """Cases, each some (bytes, room): fixed bytes with each room; then random plans, three of four damaged."""
    for data in fixed_bytes():
        yield [(data, room) for room in (needed(data), needed(data) - 1, needed(data) + 5, 0)]
    yield from ([pair] for pair in (*cases.ORDERED_BYTES, *cases.EDITION_BYTES))
    for turn in range(count):
        nodes = rng.choice((1, 1, 2, 3, 5, 8, 13)) if turn % 100 else rng.choice((127, 128, 255, 256))
        data = cases.pack(random_table(rng, nodes))
        data = damaged(rng, data) if turn % 4 else data
        room = needed(data)
        yield [(data, rng.choice((room, room, room, room, room - 1, room + 1, room + rng.randint(2, 60), rng.randrange(room), 0)))]


def unpacked(tally, library, data, room):
    """An unpack against the model, where a length is 0 with NULL too; the number that it answers."""
    wanted = pattern(room)
    answer = model.unpack(data, wanted)
    for null in ((False, True) if room == 0 or not data else (False,)):
        got = library.unpack(data, pattern(room), null)
        tally.same(('unpack', data.hex(), room, null), got, (tuple(answer), wanted, True))
    return answer.number


def test_unpack(tally, library, rng, count):
    met = collections.Counter()
    for inputs in unpack_inputs(rng, count):
        with tally.case(('unpack', inputs[0][0].hex())):
            met.update(unpacked(tally, library, data, room) for data, room in inputs)
    print('unpack answers met:', ', '.join('%d: %d times' % item for item in sorted(met.items())))
    tally.same('unpack answers met', sorted(met), [0, 14, 20, 21, 22, 23, 24, 26])


# ---------------------------------------------------------------- check

# What every word of every operation is set to, one at a time.
WORD_SWEEP = sorted({*cases.EDGES, *range(-6, 7), *(s * 2 ** k + d for s in (-1, 1) for k in (7, 8, 15, 16, 31, 32, 33, 62) for d in (-1, 0, 1)),
                     -2 ** 63, 2 ** 63 - 1})


# A STACK of two beside the one of three that is drafted.
STACK_OF_TWO = {3: 0, 5: 2}


def swept():
    """Cases, each some (table, room): a valid node of each operation after its sources, one of its words set to each value of the sweep."""
    for table in (*(cases.draft(op, base) for op, (base, _) in cases.DRAFTS.items()), cases.draft(model.STACK, STACK_OF_TWO)):
        room = 8 * (len(table) // model.NODE_WORDS)
        for word in range(len(table) - model.NODE_WORDS, len(table)):
            yield [(table[:word] + [value] + table[word + 1:], room) for value in WORD_SWEEP]


# Words 1 and 2, word 3 and the number of a STACK, each with each, after four PARAMs of which two can be stacked.
STACK_SOURCES = (-2 ** 63, -1, 0, 1, 2, 3, 4, 2 ** 63 - 1)
STACK_NUMBERS = (-2 ** 63, -1, 0, 1, 2, 3, 4, 2 ** 32 + 2, 2 ** 32 + 3, 2 ** 63 - 1)
STACK_PARAMS = cases.OTHER_FIRST + cases.param(3, 2, -3, 3, (3,), 5)


def stacked():
    """Cases, each some (table, room): sources that are one number, one type, one shape and one device or not."""
    for first, second in product(STACK_SOURCES, repeat=2):
        yield [(STACK_PARAMS + cases.node(model.STACK, {1: first, 2: second, 3: third, 5: number}), 40)
               for third, number in product(STACK_SOURCES, STACK_NUMBERS)]


def tables_of(seed, scale):
    """The tables of the model's cases: valid plans, near misses, pairs of broken rules, limits."""
    for case in cases.all_cases(seed, scale):
        if case.call in ('check', 'run', 'lookup'):
            yield list(case.args[0])


def changed(rng, table):
    """The table with one to three words changed, or cut, or with a node twice."""
    table = list(table)
    for _ in range(rng.randint(1, 3)):
        way = rng.randrange(8)
        if way == 0:
            del table[rng.randrange(len(table) + 1):]
        elif way == 1:
            table += table[:model.NODE_WORDS]
        elif table:
            table[rng.randrange(len(table))] = rng.choice((rng.choice(cases.EDGES), rng.randint(-3, 9)))
    return table


def check_inputs(rng, scale):
    """Cases, each some (table, room): the sweeps; then each table as it is, and changed, with a room that fits, and one that falls short or is larger."""
    yield from swept()
    yield from stacked()
    for table in tables_of(rng.randrange(2 ** 32), scale):
        inputs = []
        for plan in (table, changed(rng, table)):
            words = 8 * (len(plan) // model.NODE_WORDS)
            inputs += [(plan, words), (plan, rng.choice((words + rng.randint(1, 20), max(words - 1, 0), rng.randint(0, words), 0)))]
        yield inputs


def checked(tally, library, plan, room):
    """A check against the model, where a length is 0 with NULL too; the number that it answers."""
    wanted = pattern(room)
    answer = model.check(plan, wanted)
    for null in ((False, True) if room == 0 or not plan else (False,)):
        got = library.check(plan, pattern(room), null)
        tally.same(('check', plan, room, null), got, (tuple(answer), wanted, True))
    return answer.number


def test_check(tally, library, rng, count):
    met = collections.Counter()
    for inputs in check_inputs(rng, count / 4000):
        with tally.case(('check', inputs[0][0])):
            met.update(checked(tally, library, plan, room) for plan, room in inputs)
    print('check answers met:', ', '.join('%d: %d times' % item for item in sorted(met.items())))
    tally.same('check answers met', sorted(met), [*range(13), 14])


# ---------------------------------------------------------------- unpack and check

def packed_inputs(rng, count):
    """Cases, each some bytes: those of an unpack; then each table, or another where it cannot be packed, as it is and damaged."""
    yield from ([data for data, _ in inputs] for inputs in unpack_inputs(rng, count // 2))
    for table in tables_of(rng.randrange(2 ** 32), count / 8000):
        can = table and len(table) % model.NODE_WORDS == 0 and all(0 <= op < cases.OPERATIONS for op in table[::model.NODE_WORDS])
        data = cases.pack(table if can else random_table(rng, rng.randint(1, 5)))
        yield [data, damaged(rng, data)]


def both(tally, library, data):
    """Both in one call against the model, where there are no bytes with NULL too; the number that it answers."""
    wanted = model.unpack_check(data)
    for null in ((False, True) if not data else (False,)):
        tally.same(('unpack_check', data.hex(), null), library.unpack_check(data, null), (wanted, True))
    return wanted // 65536


def test_unpack_check(tally, library, rng, count):
    met = collections.Counter()
    for inputs in packed_inputs(rng, count):
        with tally.case(('unpack_check', inputs[0].hex())):
            met.update(both(tally, library, data) for data in inputs)
    print('unpack_check answers met:', ', '.join('%d: %d times' % item for item in sorted(met.items())))
    tally.same('unpack_check answers met', sorted(met), [0, 4, 5, 6, 7, 8, 9, 10, 11, 12, 20, 21, 22, 23, 24, 26])


# ---------------------------------------------------------------- pack

# What every word of every operation is set to, one at a time: the ends of what is written in one to five bytes, of the range, of 64 bits.
PACK_SWEEP = sorted({*WORD_ENDS, *cases.PACKED_ENDS, *cases.BEYOND, *cases.EDGES, *(s * 2 ** k for s in (-1, 1) for k in (33, 34, 35, 36, 61, 62))})


def byte_pattern(room):
    return bytes((0xa5 + 7 * k) % 256 for k in range(room))


def swept_nodes():
    """Cases, each some tables: a node of each operation after none to two others, one of its words set to each value of the sweep."""
    for op in range(cases.OPERATIONS):
        for word in range(model.NODE_WORDS):
            before = cases.small_node((op + word) % cases.OPERATIONS) * (word % 3)
            yield [before + cases.set_node(op, word, value) for value in PACK_SWEEP]


def far_words(rng, table):
    """The table with a word of a node changed, or two, or a word of it put in or taken out."""
    table = list(table)
    for _ in range(rng.choice((1, 1, 2))):
        at = rng.randrange(len(table))
        table[at] = rng.choice((rng.choice(cases.BEYOND), rng.choice(cases.EDGES), 0, -1, cases.UNKNOWN))
    if rng.random() < 0.1:
        at = rng.randrange(len(table))
        table[at:at + 1] = rng.choice(([], [0, 0]))
    return table


def random_tables(rng, count):
    """Cases, each some tables: any words that can be packed, and the same damaged."""
    for turn in range(count):
        nodes = rng.choice((1, 1, 2, 3, 5, 8, 13)) if turn % 200 else rng.choice((127, 128, 255, 256))
        table = random_table(rng, nodes)
        yield [table, far_words(rng, table)]


def pack_inputs(rng, count):
    """Cases, each some tables: the sweep; the tables of all calls' cases, as they are and damaged; those of pack; random ones."""
    yield from swept_nodes()
    yield from ([table, far_words(rng, table) if table else table] for table in tables_of(rng.randrange(2 ** 32), count / 10000))
    yield from ([case.args[0]] for case in cases.group('packs', 10 ** 6, 1))
    yield from random_tables(rng, count // 10)


def packed(tally, library, plan, room):
    """A packing against the model, where a length is 0 with NULL too; the number that it answers, and what it wrote."""
    wanted = bytearray(byte_pattern(room))
    answer = model.pack(plan, wanted)
    for null in ((False, True) if room == 0 or not plan else (False,)):
        got = library.pack(plan, byte_pattern(room), null)
        tally.same(('pack', plan, room, null), got, (tuple(answer), bytes(wanted), True))
    return answer.number, bytes(wanted[:answer.count])


def packed_in_rooms(tally, library, plan):
    """A packing with each room, exact, one short, longer and none; "reading what it wrote gives the table back". The numbers that it answers."""
    size = model.pack(plan, [0] * 11778).count
    rooms = (size, size - 1, size + 5, 0) if size else (40, 3, 0)
    answers = [packed(tally, library, plan, room) for room in rooms]
    if size:
        data = answers[0][1]
        got = library.unpack(data, pattern(len(plan) + 2))
        tally.same(('read back', data.hex()), got, ((0, 0, len(plan) // model.NODE_WORDS), plan + pattern(len(plan) + 2)[len(plan):], True))
    return [number for number, _ in answers]


def written_again(tally, library, data):
    """"Writing what was read gives the same bytes.\""""
    answer, table, _ = library.unpack(data, pattern(needed(data)))
    tally.same(('read', data.hex()), answer[:2], (0, 0))
    got = library.pack(table[:model.NODE_WORDS * answer[2]], byte_pattern(len(data) + 2))
    tally.same(('written again', data.hex()), got, ((0, 0, len(data)), data + byte_pattern(len(data) + 2)[len(data):], True))


def readable(rng, count):
    """The bytes of an unpack's cases that are accepted."""
    for inputs in unpack_inputs(rng, count):
        data = inputs[0][0]
        if model.unpack(data, pattern(needed(data))).number == 0:
            yield data


def test_pack(tally, library, rng, count):
    met = collections.Counter()
    for example in pack_examples.EXAMPLES:
        with tally.case(('pack', example.name)):
            fresh = byte_pattern(example.room)
            wanted = example.data + fresh[len(example.data):]
            tally.same(example.name, library.pack(example.table, fresh), (example.answer, wanted, True))
            met.update(packed_in_rooms(tally, library, example.table))
    for inputs in pack_inputs(rng, count):
        with tally.case(('pack', inputs[0])):
            for plan in inputs:
                met.update(packed_in_rooms(tally, library, plan))
    for data in readable(rng, count // 4):
        with tally.case(('written again', data.hex())):
            written_again(tally, library, data)
    print('pack answers met:', ', '.join('%d: %d times' % item for item in sorted(met.items())))
    tally.same('pack answers met', sorted(met), [0, 1, 2, 3, 14, 25])


# ---------------------------------------------------------------- editions

def other_edition(table):
    """The table's file with the start of the other edition, and what is due: 26 for a second edition file without a new operation; 24 at the first new
    operation of a first edition file."""
    data = cases.pack(table)
    ops = table[::model.NODE_WORDS]
    new = [k for k, op in enumerate(ops) if op in model.NEW]
    if not new:
        return EDITION + data, (26, 0)
    before = [model.written_number(len(ops)), *(model.written_node(model.node_words(table, k)) for k in range(new[0]))]
    return data[len(EDITION):], (24, sum(map(len, before)))


def edition_tables(rng, count):
    """Accepted plans, each operation in turn, and tables of any words."""
    for turn in range(count):
        yield cases.make_plan(rng, turn % cases.OPERATIONS, turn % 5).table
        yield random_table(rng, rng.randint(1, 8))


def test_editions(tally, library, rng, count):
    """"Each plan still has one file": what the writer writes is read back, and is refused as a file of the other edition or of none."""
    met = collections.Counter()
    for table in edition_tables(rng, count // 8):
        with tally.case(('edition', table)):
            packed_in_rooms(tally, library, table)
            data = cases.pack(table)
            other, due = other_edition(table)
            met[due[0]] += 1
            fresh = pattern(len(table))
            for wrong, refusal in ((other, due), (bytes([0, rng.choice((0, 1, 3, rng.randrange(3, 256)))]) + data, (23, 0)), (EDITION + EDITION + data, (23, 0))):
                tally.same(('edition', wrong.hex()), library.unpack(wrong, fresh), ((*refusal, 0), fresh, True))
                tally.same(('edition in one call', wrong.hex()), library.unpack_check(wrong), (65536 * refusal[0] + refusal[1], True))
    print('files of the other edition:', ', '.join('%d: %d times' % item for item in sorted(met.items())))
    tally.same('both editions met', sorted(met), [24, 26])


# ---------------------------------------------------------------- the range of i16

# (02) "The range of i16 becomes −32767..32767, wherever a type's range is asked for.": numbers about its ends, each the product of two.
LEAST_I16, GREATEST_I16 = -32767, 32767
I16_FACTORS = ((6, 5461), (7, 4681), (8, 4096), (9, 3641))
I16_ENDS = sorted({0, *(sign * n * q for n, q in I16_FACTORS for sign in (-1, 1))})


def i16_tables():
    """(low, high, table): bounds of i16 as declared, cast, added, multiplied and summed; and nodes after a PARAM that keep them."""
    for number in I16_ENDS:
        yield number, number, cases.const(2, number)
    for low, high in combinations_with_replacement(I16_ENDS, 2):
        kept = [cases.const(2, 1), cases.const(2, -1), cases.const(0, 1), *(cases.apply(model.IDIV, 0, k) for k in (1, 2)), cases.apply(model.MAX, 0, 0),
                cases.apply(model.WHERE, 3, 0, 0), cases.reduce_node(0, 1, (1,)), cases.move(model.FLIP, 0, (1,)), cases.load(0, 1),
                cases.apply(model.FILL, 0, 0), cases.stack(0, 0)]
        yield low, high, sum(kept, cases.param(0, 2, low, high, (2,)))
        yield low, high, cases.param(0, 3, low, high, ()) + cases.node(model.CAST, {1: 0, 4: 2})
        halves = (low // 2, high // 2), (low - low // 2, high - high // 2)
        yield low, high, sum((cases.param(k, 2, *half, ()) for k, half in enumerate(halves)), []) + cases.apply(model.ADD, 0, 1)
    for n, q in I16_FACTORS:
        for low, high in ((-q, q), (-q, 0), (0, q), (-q, -q), (q, q)):
            yield n * low, n * high, cases.param(0, 2, low, high, ()) + cases.const(2, n) + cases.apply(model.MUL, 0, 1)
            yield n * low, n * high, cases.param(0, 2, low, high, (n,)) + cases.reduce_node(0, 0, (1,))


def test_i16(tally, library):
    """Each table by a check and, packed, by unpack and check in one call: accepted exactly where the bounds are in the range, else 11."""
    for low, high, table in i16_tables():
        due = 0 if LEAST_I16 <= low and high <= GREATEST_I16 else 11
        with tally.case(('i16', low, high, table)):
            words = 8 * (len(table) // model.NODE_WORDS)
            numbers = [checked(tally, library, table, words), checked(tally, library, table, words + 3), both(tally, library, cases.pack(table))]
            tally.same(('i16', low, high, table), numbers, [due] * 3)


TESTS = {'lup_unpack': test_unpack, 'lup_check': test_check, 'lup_unpack_check': test_unpack_check, 'lup_pack': test_pack}
# test_run.py drives lup_run, test_lookup.py lup_lookup, tests/host/test_install.py compares what lup_version answers.
TESTED = {*TESTS, 'lup_run', 'lup_lookup', 'lup_version'}


def main():
    faulthandler.enable()
    count = int(sys.argv[1]) if len(sys.argv) > 1 else 20000
    rng = Random(int(sys.argv[2]) if len(sys.argv) > 2 else 7)
    tally, library = Cases(), Library()
    tally.same('the calls that the header declares', declared(), TESTED)
    tally.same('the calls that the library exports', exported(), TESTED)
    for test in TESTS.values():
        test(tally, library, rng, count)
    test_editions(tally, library, rng, count)
    test_i16(tally, library)
    tally.finish(library.made)


if __name__ == '__main__':
    main()
