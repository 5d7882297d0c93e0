"""Packings by hand: every answer and every byte is written here from the sentence above it, those of 02 marked so. test_boundary.py asks the library
and the model, tests/tools/vectors.py makes them cases of the program vectors."""

from collections import namedtuple

from cases import BIG, LARGE, UNKNOWN, apply, const, large, load, move, node, param, stack
from model import ADD, CONST, FILL, IDIV, KNOWN, LOAD, MAX, PARAM, RESHAPE, STACK, WHERE

# room: in bytes. answer: number, place, count. data: the bytes written; none where the call is refused.
Example = namedtuple('Example', 'name table room answer data')
BOOL, U8, I16, I32 = range(4)
LEAST, GREATEST = -17179869184, 17179869183


def packs(name, table, text, more=2):
    """A table that is packed; the bytes in hex, and so many places past them."""
    data = bytes.fromhex(text)
    return Example(name, table, len(data) + more, (0, 0, len(data)), data)


def refused(name, number, place, table, room=9):
    return Example(name, table, room, (number, place, 0), b'')


# ------------------------------------------------------ every operation
# "Which words an operation uses is a constant table indexed by its number.": a node of each with all its words not 0, and its bytes, which are
# "its operation and its used words in rising order"; "Count and operation are plain; other words n are written as 2n, or −2n−1 below zero".

MOVED = {1: 1, 9: 2, 10: -3, 11: 4, 12: 5}
FITTED = {**MOVED, 13: -6, 14: 7, 15: 8, 16: 9}
NODES = (
    ('CONST', {4: 2, 5: -5}, '00 04 09'),
    ('PARAM', {4: 2, 5: 3, 6: 7, 7: -4, 8: 10, 9: 11, 10: 12, 11: 13, 12: 14}, '01 04 06 0E 07 14 16 18 1A 1C'),
    ('PERMUTE', MOVED, '02 02 04 05 08 0A'), ('FLIP', MOVED, '03 02 04 05 08 0A'),
    ('RESHAPE', MOVED, '04 02 04 05 08 0A'), ('EXPAND', MOVED, '05 02 04 05 08 0A'),
    ('PAD', FITTED, '06 02 04 05 08 0A 0B 0E 10 12'), ('SHRINK', FITTED, '07 02 04 05 08 0A 0B 0E 10 12'),
    ('CAST', {1: 1, 4: 3}, '08 02 06'),
    ('ADD', {1: 1, 2: -2}, '09 02 03'), ('MUL', {1: 1, 2: -2}, '0A 02 03'), ('MAX', {1: 1, 2: -2}, '0B 02 03'),
    ('IDIV', {1: 1, 2: -2}, '0C 02 03'), ('MOD', {1: 1, 2: -2}, '0D 02 03'), ('CMPLT', {1: 1, 2: -2}, '0E 02 03'),
    ('CMPNE', {1: 1, 2: -2}, '0F 02 03'), ('AND', {1: 1, 2: -2}, '10 02 03'), ('OR', {1: 1, 2: -2}, '11 02 03'),
    ('WHERE', {1: 1, 2: 2, 3: 3}, '12 02 04 06'),
    ('REDUCE', {1: 1, 5: 2, 9: 3, 10: 4, 11: 5, 12: -6}, '13 02 04 06 08 0A 0B'),
    ('LOAD', {1: 1, 6: 7}, '14 02 0E'),
    # (02) "FILL (21, sources T and C", "KNOWN (22, one source)", "STACK (23, words 1,2,3,5)"
    ('FILL', {1: 1, 2: -2}, '15 02 03'), ('KNOWN', {1: 1}, '16 02'), ('STACK', {1: 1, 2: -2, 3: 3, 5: -4}, '17 02 03 06 07'),
)
OF_FIRST = NODES[:FILL]


def edition(op):
    """(02) "A second edition file starts with bytes 00 02"; "The writer picks the edition.\""""
    return '00 02' if op in (FILL, KNOWN, STACK) else ''


BY_OPERATION = [packs(f'{name}', node(op, words), f'{edition(op)} 01 {text}') for op, (name, words, text) in enumerate(NODES)]
BY_OPERATION += [packs(f'{name} of zeros', node(op), f'{edition(op)} 01 {op:02X}' + ' 00' * len(words)) for op, (name, words, _) in enumerate(NODES)]
BY_OPERATION += [packs(f'every operation{name}', sum((node(op, words) for op, (_, words, _) in enumerate(nodes)), []),
                       head + ''.join(text for _, _, text in nodes))
                 for name, head, nodes in (('', '00 02 18', NODES), (' of the first edition', '15', OF_FIRST))]
# 3 "unused word not zero"
UNUSED = [refused(f'{name} with word {k} not zero', 3, 0, node(op, {k: (1, -1, BIG - 1, -BIG)[k % 4]}), k % 3)
          for op, (name, words, _) in enumerate(NODES) for k in range(1, 17) if k not in words]
# (02) "25 for a word outside that range (place: node)", the range being "−17179869184..17179869183"
OUTSIDE = [refused(f'{name} with word {k} out of range', 25, 0, node(op, {k: (LEAST - 1, GREATEST + 1, -BIG, BIG - 1)[(op + k) % 4]}))
           for op, (name, words, _) in enumerate(NODES) for k in words]

# -------------------------------------------------------------- numbers
# "Numbers are written in groups of seven bits, lowest first, the high bit of a byte set when more follow, shortest form, at most 5 bytes."; "300 as a
# word is D8 04."

WORDS = ((0, '00'), (1, '02'), (-1, '01'), (2, '04'), (-2, '03'), (5, '0A'), (63, '7E'), (-63, '7D'), (-64, '7F'), (64, '80 01'), (-65, '81 01'),
         (65, '82 01'), (127, 'FE 01'), (128, '80 02'), (300, 'D8 04'), (-300, 'D7 04'), (8191, 'FE 7F'), (-8192, 'FF 7F'), (8192, '80 80 01'),
         (-8193, '81 80 01'), (32767, 'FE FF 03'), (-32768, 'FF FF 03'), (1048575, 'FE FF 7F'), (-1048576, 'FF FF 7F'), (1048576, '80 80 80 01'),
         (-1048577, '81 80 80 01'), (134217727, 'FE FF FF 7F'), (-134217728, 'FF FF FF 7F'), (134217728, '80 80 80 80 01'),
         (-134217729, '81 80 80 80 01'), (2147483647, 'FE FF FF FF 0F'), (-2147483648, 'FF FF FF FF 0F'), (17179869183, 'FE FF FF FF 7F'),
         (-17179869184, 'FF FF FF FF 7F'), (17179869182, 'FC FF FF FF 7F'), (-17179869183, 'FD FF FF FF 7F'), (8589934592, '80 80 80 80 40'))
NUMBERS = [packs(f'the word {word} is {text}', const(I32, word), '01 00 06 ' + text, k % 3) for k, (word, text) in enumerate(WORDS)]
NUMBERS += [
    packs('one CONST', const(I16, 5), '01 00 04 0A'),
    # (02) "It takes exactly the tables that meet rules 1, 2 and 3 and whose used words lie in −17179869184..17179869183.": no type's range is asked for
    packs('−32768 of i16', const(I16, -32768), '01 00 04 FF FF 03'),
    packs('words of five bytes in PARAM', node(PARAM, dict.fromkeys((4, 6, 8, 10, 12), GREATEST) | dict.fromkeys((5, 7, 9, 11), LEAST)),
          '01 01' + 'FE FF FF FF 7F FF FF FF FF 7F' * 4 + 'FE FF FF FF 7F'),
    refused('one above the range', 25, 0, const(I32, 17179869184)),
    refused('one below the range', 25, 0, const(I32, -17179869185)),
    refused('2^35, whose low 35 bits are 0', 25, 0, const(I32, 2 ** 35)),
    refused('2^63 − 1', 25, 0, const(I32, BIG - 1)),
    refused('−2^63, whose double is 0 in 64 bits', 25, 0, const(I32, -BIG)),
    refused('2^62, whose double is −2^63 in 64 bits', 25, 0, const(I32, 2 ** 62)),
]

# ------------------------------------------------- lengths, nodes, rooms

FIVE = const(I16, 5)
LENGTHS = [
    # 1 "length no multiple of 17, or not 1..256 nodes"
    refused('no words', 1, 0, []),
    refused('one word', 1, 0, [0]),
    refused('one word too few', 1, 0, FIVE[:16]),
    refused('one word too many', 1, 0, FIVE + [0]),
    refused('a node cut short', 1, 0, (FIVE * 2)[:33]),
    refused('257 nodes', 1, 0, FIVE * 257, 0),
    # "A packed plan is the node count, then for each node .."
    packs('256 nodes', FIVE * 256, '80 02' + '00 04 0A' * 256, 1),
    packs('two nodes', FIVE + load(0, 1), '02 00 04 0A 14 00 02'),
    packs('three nodes', FIVE + load(0, 1) + apply(ADD, 0, 1), '03 00 04 0A 14 00 02 09 00 02'),
    # 2 "operation not 0..20"; (02) "in 01's rule 2 .. the limit is 23"
    refused('operation 24', 2, 0, node(24)),
    refused('operation −1', 2, 0, node(-1)),
    refused('operation 2^63 − 1', 2, 0, node(BIG - 1)),
    refused('operation −2^63', 2, 0, node(-BIG)),
    refused('operation 2^32, whose low half is CONST', 2, 0, node(2 ** 32)),
    # places: the node
    refused('operation 24 in the last of three nodes', 2, 2, FIVE * 2 + node(24)),
    refused('an unused word in the second of three nodes', 3, 1, FIVE + node(CONST, {9: 1}) + FIVE),
    refused('a word out of range in the second of three nodes', 25, 1, FIVE + const(I32, 2 ** 40) + FIVE),
]
ROOMS = [
    # (02) "then 14 for room"; (02) "The answer carries the length written."; "Buffer places past what any call writes stay as they were."
    refused('no room', 14, 0, FIVE, 0),
    refused('one byte of room', 14, 0, FIVE, 1),
    refused('room one short', 14, 0, FIVE, 3),
    packs('room exact', FIVE, '01 00 04 0A', 0),
    packs('room one longer', FIVE, '01 00 04 0A', 1),
    packs('room to spare', FIVE, '01 00 04 0A', 30),
    refused('room one short in the last number', 14, 0, const(I32, GREATEST), 7),
    packs('room exact for five bytes', const(I32, GREATEST), '01 00 06 FE FF FF FF 7F', 0),
    refused('room for the first of two nodes', 14, 0, FIVE * 2, 4),
    refused('room one short for two', 14, 0, FIVE * 2, 6),
    packs('room exact for two', FIVE * 2, '02 00 04 0A 00 04 0A', 0),
]

# --------------------------------------------------------------- orders
# (02) "Refusals: 1; nodes in turn, 2, 3, then 25 ..; then 14 for room."

ALL_SET = dict.fromkeys(range(1, 17), 2 ** 40)
UNUSED_SET, OUT_OF_RANGE = node(CONST, {4: 2, 9: 1}), const(I32, 2 ** 40)
ORDER = [
    refused('1 before 2', 1, 0, node(UNKNOWN) + [0]),
    refused('1 before 3', 1, 0, UNUSED_SET + [0]),
    refused('1 before 25', 1, 0, OUT_OF_RANGE + [0]),
    refused('1 before 14', 1, 0, FIVE[:16], 0),
    refused('2 before 3', 2, 0, node(UNKNOWN, {1: 1})),
    refused('2 before 25', 2, 0, node(-1, {4: 2 ** 40, 5: -BIG})),
    refused('2 before 3 and 25', 2, 0, node(UNKNOWN, ALL_SET)),
    refused('2 before 14', 2, 0, node(UNKNOWN), 0),
    refused('3 before 25, the used words first', 3, 0, node(CONST, {4: 2 ** 40, 5: 2 ** 40, 16: 1})),
    refused('3 before 25, the unused word first', 3, 0, node(LOAD, {2: 1, 6: 2 ** 40})),
    refused('3 before 25, an unused word out of range', 3, 0, node(WHERE, dict.fromkeys((1, 2, 3, 4), 2 ** 40))),
    refused('3 alone, out of range', 3, 0, node(CONST, {1: 2 ** 40})),
    refused('3 before 14', 3, 0, UNUSED_SET, 0),
    refused('25 before 14', 25, 0, OUT_OF_RANGE, 0),
    refused('25 before 14, one short', 25, 1, FIVE + OUT_OF_RANGE, 3),
    refused('25 of a node before 2 of the next', 25, 0, OUT_OF_RANGE + node(UNKNOWN)),
    refused('25 of a node before 3 of the next', 25, 0, OUT_OF_RANGE + UNUSED_SET),
    refused('3 of a node before 2 of the next', 3, 0, UNUSED_SET + node(UNKNOWN)),
    refused('3 of a node before 25 of the next', 3, 0, UNUSED_SET + OUT_OF_RANGE),
    refused('2 of a node before 25 of the next', 2, 0, node(UNKNOWN) + OUT_OF_RANGE),
    refused('25, 3, 2 in turn after a good node', 25, 1, FIVE + OUT_OF_RANGE + UNUSED_SET + node(UNKNOWN)),
]
# (02) "It takes exactly the tables that meet rules 1, 2 and 3 and whose used words lie in ..": rules 4 to 12 are not asked. A node that breaks each
# after two PARAMs, of devices 1 and 2, and a CONST.
GROUND = param(0, I16, 0, 32767, (), 1) + param(1, I16, 0, 1, (), 2) + const(BOOL, 1)
GROUND_TEXT = '01 04 00 02 00 FE FF 03 00 00 00 00 01 04 02 04 00 02 00 00 00 00 00 00 02'
UNCHECKED = [packs(f'rule {number} is not asked', GROUND + words, f'04 {GROUND_TEXT} {text}') for number, words, text in (
    (4, load(-1, 1), '14 01 02'), (5, const(4, 0), '00 08 00'), (6, apply(MAX, 0, 2), '0B 00 04'), (7, load(0, 0), '14 00 00'),
    (8, move(RESHAPE, 0, (2,)), '04 00 04 00 00 00'), (9, apply(MAX, 0, 1), '0B 00 02'), (10, apply(IDIV, 0, 0), '0C 00 00'), (11, apply(ADD, 0, 0), '09 00 00'))]
UNCHECKED += [packs('rule 12 is not asked', large(*[(LARGE,)] * 4) + const(I32, 1),
                    '05' + ''.join(f'01 06 {2 * slot:02X} 02 00 02 80 80 80 01 00 00 00' for slot in range(4)) + '00 06 02')]

# ------------------------------------------------------ second edition
# (02) "A second edition file starts with bytes 00 02, then count and nodes as before; it must hold at least one new operation, so each plan still has one
# file. The writer picks the edition."

EDITIONS = [
    packs('a CONST filled by itself', FIVE + apply(FILL, 0, 0), '00 02 02 00 04 0A 15 00 00'),
    packs('a CONST and whether it is known', FIVE + apply(KNOWN, 0), '00 02 02 00 04 0A 16 00'),
    # "other words n are written as 2n": STACK's sources, its word 3 too, and its number
    packs('a STACK of two', FIVE + stack(0, 0), '00 02 02 00 04 0A 17 00 00 00 04'),
    packs('a STACK of three', FIVE * 2 + stack(0, 1, 1), '00 02 03 00 04 0A 00 04 0A 17 00 02 02 06'),
    packs('a new operation in the first of two nodes', apply(KNOWN, 0) + FIVE, '00 02 02 16 00 00 04 0A'),
    packs('a new operation in the second of three nodes', FIVE + apply(KNOWN, 0) + FIVE, '00 02 03 00 04 0A 16 00 00 04 0A'),
    packs('each new operation', FIVE + apply(FILL, 0, 0) + apply(KNOWN, 1) + stack(1, 0), '00 02 04 00 04 0A 15 00 00 16 02 17 02 00 00 04'),
    packs('no new operation', FIVE + load(0, 2), '02 00 04 0A 14 00 04'),
    # (02) "then 14 for room", that of the whole file; (02) "The answer carries the length written."
    packs('room exact for the edition too', FIVE + apply(KNOWN, 0), '00 02 02 00 04 0A 16 00', 0),
    packs('room to spare after the second edition', FIVE + apply(KNOWN, 0), '00 02 02 00 04 0A 16 00', 20),
    *(refused(f'{room} bytes of room for eight', 14, 0, FIVE + apply(KNOWN, 0), room) for room in (0, 1, 2, 3, 6, 7)),
    # (02) "It takes exactly the tables that meet rules 1, 2 and 3 ..": STACK's rules are not asked, and its word 3 is a used word
    packs('a STACK of two with a word 3 not zero', node(STACK, {3: 5, 5: 2}), '00 02 01 17 00 00 0A 04'),
    packs('a STACK of nine', node(STACK, {1: 7, 5: 9}), '00 02 01 17 0E 00 00 12'),
    packs('STACK with words of five bytes', node(STACK, {1: LEAST, 2: GREATEST, 3: LEAST, 5: GREATEST}),
          '00 02 01 17 FF FF FF FF 7F FE FF FF FF 7F FF FF FF FF 7F FE FF FF FF 7F'),
    *(refused(f'{value} in word {word} of STACK', 25, 0, node(STACK, {5: 2, word: value}), 0) for word in (1, 2, 3, 5) for value in (-BIG, BIG - 1)),
    refused('2 after a new operation', 2, 1, apply(KNOWN, 0) + node(24)),
    refused('3 after a new operation', 3, 1, stack(0, 0) + UNUSED_SET),
    refused('3 before 25 of a STACK', 3, 0, node(STACK, {3: 2 ** 40, 4: 1, 5: 2})),
    refused('25 after a new operation', 25, 1, apply(FILL, 0, 0) + OUT_OF_RANGE, 0),
    refused('1 of a new operation', 1, 0, apply(KNOWN, 0) + [0]),
]

EXAMPLES = [*BY_OPERATION, *UNUSED, *OUTSIDE, *NUMBERS, *LENGTHS, *ROOMS, *ORDER, *UNCHECKED, *EDITIONS]
