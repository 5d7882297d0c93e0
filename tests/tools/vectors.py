#!/usr/bin/env python3
"""Writes the cases of the program `vectors`: crates/vectors/stdin (frames, see its main.rt) and stdout.

usage: vectors.py             write both files
       vectors.py --check     exit 1 where the files are not what would be written
       vectors.py --list      a line for each case: index, call, name, answer
       vectors.py --spoilt PROGRAM    exit 1 unless the program finds each case that is spoilt

Every expected answer here is written by hand from the sentence of 01 that is quoted above it, or of 02 where (02)
stands before it; those of run, lookup and pack are in tests/boundary (run_examples.py, lookup_examples.py,
pack_examples.py). The model of tests/model is only asked afterwards, and the script stops where it differs.
"""
import os
import struct
import subprocess
import sys
from collections import namedtuple

ROOT = os.path.dirname(os.path.dirname(os.path.dirname(os.path.abspath(__file__))))
sys.path[:0] = [os.path.join(ROOT, 'tests', part) for part in ('model', 'boundary')]

import lookup_examples
import model
import pack_examples
import run_examples
from cases import (BIG, LARGE, UNKNOWN, apply, at_axis, const, fresh_words, large, load, move, node, pack, param,
                   reduce_node, smallest, stack)
from model import (ADD, AND, CAST, CMPLT, CMPNE, EXPAND, FILL, FLIP, IDIV, KNOWN, MAX, MOD, MUL, OR, PAD, PERMUTE,
                   RESHAPE, SHRINK, STACK, WHERE)

FRAMES = os.path.join(ROOT, 'crates', 'vectors', 'stdin')
OUTPUT = os.path.join(ROOT, 'crates', 'vectors', 'stdout')
MOST_FRAME_BYTES = 1310720
KINDS = {'unpack_check': 0, 'unpack': 1, 'check': 2, 'run': 3, 'lookup': 4, 'pack': 5}
BOOL, U8, I16, I32 = range(4)
FRESH_FLAG = 9

# answer: (number, place, count), of unpack_check one number, of lookup five. buffer: every word afterwards, None where the
# call has none; of a run those of the values and then the flags, of a pack the bytes.
Case = namedtuple('Case', 'call name source answer buffer')


# ------------------------------------------------------------ writing cases

def buffer_after(words, room):
    """Buffer places past what a call writes stay as they were."""
    return list(words) + fresh_words(room)[len(words):]


def accepted(name, table, *rows, room=None):
    """A check that is accepted; a row is type, device, low, high and the extents, for each node."""
    words = [word for row in rows for word in (*row, *[0] * (8 - len(row)))]
    room = len(words) + 2 if room is None else room
    return Case('check', name, table, (0, 0, 0), buffer_after(words, room))


def refused(name, number, place, table, room=None):
    """A check that is refused, with room enough for what it would write, but for plans of 256 nodes."""
    room = min(8 * (len(table) // 17), 200) if room is None else room
    return Case('check', name, table, (number, place, 0), fresh_words(room))


def unpacks(name, text, count, table, room=None):
    """An unpack that is accepted; the bytes in hex."""
    room = len(table) + 3 if room is None else room
    return Case('unpack', name, bytes.fromhex(text), (0, 0, count), buffer_after(table, room))


def unpack_refused(name, text, number, place, room=40):
    return Case('unpack', name, bytes.fromhex(text), (number, place, 0), fresh_words(room))


def in_one_call(name, data, answer):
    return Case('unpack_check', name, data, answer, None)


def code(number, place):
    """"refused, 65536 times the number plus the place\""""
    return 65536 * number + place


def cast(source, dtype):
    return node(CAST, {1: source, 4: dtype})


def changed(words, *changes):
    """A node with other words: pairs of word and value."""
    words = list(words)
    for word, value in changes:
        words[word] = value
    return words


def scalar(slot, dtype, low, high, device=1):
    return param(slot, dtype, low, high, (), device)


# ---------------------------------------------- every operation, and rule 3
# "| op | words used | dtype of result |": a node of each operation after the nodes 0 to 2 of BASE, the row
# derived of it, and the words that it uses.

ROW_A, ROW_B = (9, 10, 11, 12), (13, 14, 15, 16)
BASE = param(0, I16, -4, 10, (2, 3)) + const(I16, 2) + const(BOOL, 1)
BASE_ROWS = ((I16, 1, -4, 10, 2, 3), (I16, 0, 2, 2), (BOOL, 0, 1, 1))
OPERATIONS = (
    ('CONST', const(I32, 7), (I32, 0, 7, 7), (4, 5)),
    ('PARAM', param(1, U8, 0, 255, (4,), 9), (U8, 9, 0, 255, 4), (4, 5, 6, 7, 8, *ROW_A)),
    ('PERMUTE', move(PERMUTE, 0, (1, 0)), (I16, 1, -4, 10, 3, 2), (1, *ROW_A)),
    ('FLIP', move(FLIP, 0, (0, 1)), (I16, 1, -4, 10, 2, 3), (1, *ROW_A)),
    ('RESHAPE', move(RESHAPE, 0, (6,)), (I16, 1, -4, 10, 6), (1, *ROW_A)),
    ('EXPAND', move(EXPAND, 0, (2, 3)), (I16, 1, -4, 10, 2, 3), (1, *ROW_A)),
    ('PAD', move(PAD, 0, (4, 5), (1, 1)), (I16, 1, -4, 10, 4, 5), (1, *ROW_A, *ROW_B)),
    ('SHRINK', move(SHRINK, 0, (1, 1), (1, 0)), (I16, 1, -4, 10, 1, 1), (1, *ROW_A, *ROW_B)),
    ('CAST', cast(0, I32), (I32, 1, -4, 10, 2, 3), (1, 4)),
    ('ADD', apply(ADD, 0, 1), (I16, 1, -2, 12, 2, 3), (1, 2)),
    ('MUL', apply(MUL, 0, 1), (I16, 1, -8, 20, 2, 3), (1, 2)),
    ('MAX', apply(MAX, 0, 1), (I16, 1, 2, 10, 2, 3), (1, 2)),
    ('IDIV', apply(IDIV, 0, 1), (I16, 1, -2, 5, 2, 3), (1, 2)),
    ('MOD', apply(MOD, 0, 1), (I16, 1, 0, 1, 2, 3), (1, 2)),
    ('CMPLT', apply(CMPLT, 0, 1), (BOOL, 1, 0, 1, 2, 3), (1, 2)),
    ('CMPNE', apply(CMPNE, 0, 1), (BOOL, 1, 0, 1, 2, 3), (1, 2)),
    ('AND', apply(AND, 2, 2), (BOOL, 0, 1, 1), (1, 2)),
    ('OR', apply(OR, 2, 2), (BOOL, 0, 1, 1), (1, 2)),
    ('WHERE', apply(WHERE, 2, 0, 1), (I16, 1, -4, 10, 2, 3), (1, 2, 3)),
    ('REDUCE', reduce_node(0, 0, (0, 1)), (I16, 1, -12, 30, 2, 1), (1, 5, *ROW_A)),
    ('LOAD', load(0, 9), (I16, 9, -4, 10, 2, 3), (1, 6)),
    # (02) "Model people want three operations."
    ('FILL', apply(FILL, 1, 0), (I16, 1, -4, 10, 2, 3), (1, 2)),
    ('KNOWN', apply(KNOWN, 0), (BOOL, 1, 0, 1, 2, 3), (1,)),
    ('STACK', stack(0, 0), (I16, 1, -4, 10, 2, 2, 3), (1, 2, 3, 5)),
)
BY_OPERATION = [accepted(f'{name} is accepted', BASE + words, *BASE_ROWS, row)
                for name, words, row, _ in OPERATIONS]
# The same without axes, on a CONST of 1 (a bool for AND, OR and WHERE), every other word 0 but for the device that
# PARAM and LOAD name and the number 2 of STACK.
ONE = (I16, 0, 1, 1)
SMALLEST_ROWS = ((BOOL, 0, 0, 0), (BOOL, 9, 0, 0), *[ONE] * 6, (BOOL, 0, 1, 1), (I16, 0, 2, 2), *[ONE] * 3,
                 (I16, 0, 0, 0), *[(BOOL, 0, 0, 0)] * 2, *[(BOOL, 0, 1, 1)] * 3, ONE, (I16, 9, 1, 1), ONE,
                 (BOOL, 0, 0, 1), (I16, 0, 1, 1, 2))
BY_OPERATION += [accepted(f'{OPERATIONS[op][0]} of no axes is accepted', smallest(op, {}),
                          (BOOL, 0, 1, 1) if op in (AND, OR, WHERE) else ONE, row)
                 for op, row in enumerate(SMALLEST_ROWS)]
# 3 "unused word not zero", which comes before 14
UNUSED = [refused(f'{name} with word {k} not zero', 3, 1, smallest(op, {k: 1}), room=k % 3)
          for op, (name, _, _, used) in enumerate(OPERATIONS) for k in range(1, 17) if k not in used]
UNUSED += [
    refused('unused word negative', 3, 0, changed(const(I16, 5), (9, -1))),
    refused('unused word least', 3, 0, changed(const(I16, 5), (16, -BIG))),
    refused('unused word of 2^32', 3, 0, changed(const(I16, 5), (1, 2 ** 32))),
]

# ------------------------------------------------------------------- bounds
# "With [a,A], [b,B] of the sources": operation, type, first and second interval, the printed bounds. The
# examples marked ● are here too.

BOUNDS = (
    # "ADD [a+b,A+B]"; (02) "The range of i16 becomes −32767..32767"
    (ADD, I16, (-16384, 16383), (-16383, 16384), (-32767, 32767)),
    (ADD, U8, (0, 5), (250, 250), (250, 255)),
    (ADD, I32, (-2147483647, -1), (-1, 2147483647), (-2147483648, 2147483646)),
    # "MUL least and greatest of four products" ("Two corners for MUL" is a slip)
    (MUL, I16, (-3, 2), (-5, 4), (-12, 15)),
    (MUL, I16, (-3, -2), (-5, 4), (-12, 15)),
    (MUL, I16, (2, 3), (-5, 4), (-15, 12)),
    (MUL, I16, (-3, 2), (-5, -4), (-10, 15)),
    (MUL, I16, (-217, 217), (151, 151), (-32767, 32767)),
    (MUL, I32, (-46340, 46340), (-46340, 46340), (-2147395600, 2147395600)),
    # "MAX [max(a,b),max(A,B)]"
    (MAX, I16, (-4, 10), (2, 5), (2, 10)),
    (MAX, I16, (-4, 1), (-9, 5), (-4, 5)),
    (MAX, I16, (-32767, 32767), (-32767, -32767), (-32767, 32767)),
    # "IDIV least and greatest of four floored corner quotients"; "● IDIV [−7,7] by 2: [−4,3]."
    (IDIV, I16, (-7, 7), (2, 2), (-4, 3)),
    (IDIV, I16, (-7, 7), (-3, -2), (-4, 3)),
    (IDIV, I16, (-7, -5), (2, 4), (-4, -2)),
    (IDIV, I16, (5, 7), (-4, -2), (-4, -2)),
    (IDIV, I16, (1, 7), (2, 9), (0, 3)),
    (IDIV, I16, (-32767, 32767), (-1, -1), (-32767, 32767)),
    (IDIV, I32, (-2147483648, 0), (1, 1), (-2147483648, 0)),
    (IDIV, I32, (-2147483647, 0), (-1, -1), (0, 2147483647)),
    # "MOD [0,B−1] for b>0, [b+1,0] for B<0"; "● MOD by [−3,−2]: [−2,0]."
    (MOD, I16, (-7, 7), (-3, -2), (-2, 0)),
    (MOD, I16, (-7, 7), (2, 5), (0, 4)),
    (MOD, I16, (3, 3), (5, 5), (0, 4)),
    (MOD, I16, (-7, 7), (1, 1), (0, 0)),
    (MOD, I16, (-7, 7), (-1, -1), (0, 0)),
    (MOD, I16, (-7, 7), (-32767, -1), (-32766, 0)),
    (MOD, I32, (0, 1), (-2147483648, -1), (-2147483647, 0)),
    # "AND [min(a,b),min(A,B)], OR [max(a,b),max(A,B)]"
    (AND, BOOL, (0, 1), (1, 1), (0, 1)),
    (AND, BOOL, (0, 0), (0, 1), (0, 0)),
    (AND, BOOL, (1, 1), (0, 1), (0, 1)),
    (AND, BOOL, (1, 1), (1, 1), (1, 1)),
    (OR, BOOL, (0, 1), (1, 1), (1, 1)),
    (OR, BOOL, (0, 0), (0, 1), (0, 1)),
    (OR, BOOL, (1, 1), (0, 0), (1, 1)),
    (OR, BOOL, (0, 0), (0, 0), (0, 0)),
    # "CMPLT is [1,1] if A<b, [0,0] if a≥B, else [0,1]."; "● CMPLT of [4,9] and [0,4]: [0,0]."
    (CMPLT, I16, (4, 9), (0, 4), (0, 0)),
    (CMPLT, I16, (4, 9), (10, 12), (1, 1)),
    (CMPLT, I16, (4, 9), (9, 12), (0, 1)),
    (CMPLT, I16, (4, 9), (0, 5), (0, 1)),
    (CMPLT, I16, (4, 4), (4, 4), (0, 0)),
    # "CMPNE is [1,1] if the two are disjoint, [0,0] if all four ends are equal, else [0,1]."
    (CMPNE, I16, (4, 9), (10, 12), (1, 1)),
    (CMPNE, I16, (10, 12), (4, 9), (1, 1)),
    (CMPNE, I16, (4, 4), (4, 4), (0, 0)),
    (CMPNE, I16, (4, 9), (9, 12), (0, 1)),
    (CMPNE, I16, (4, 9), (4, 9), (0, 1)),
    (CMPNE, I16, (4, 4), (4, 9), (0, 1)),
    (CMPNE, BOOL, (0, 0), (1, 1), (1, 1)),
    (CMPNE, BOOL, (0, 1), (1, 1), (0, 1)),
    # (02) FILL "bounds least low and greatest high", whether T has gaps or not
    (FILL, I16, (-3, 2), (-5, 4), (-5, 4)),
    (FILL, I16, (-5, 4), (-3, 2), (-5, 4)),
    (FILL, I16, (5, 9), (-7, -3), (-7, 9)),
    (FILL, I16, (-7, -3), (5, 9), (-7, 9)),
    (FILL, I16, (3, 3), (3, 3), (3, 3)),
    (FILL, BOOL, (0, 0), (1, 1), (0, 1)),
    (FILL, U8, (0, 0), (255, 255), (0, 255)),
    (FILL, I32, (2147483647, 2147483647), (-2147483648, -2147483648), (-2147483648, 2147483647)),
)


def bounds_case(op, dtype, first, second, result):
    table = scalar(0, dtype, *first) + scalar(1, dtype, *second) + apply(op, 0, 1)
    result_type = BOOL if op in (CMPLT, CMPNE) else dtype
    return accepted(f'{OPERATIONS[op][0]} of {first} and {second}', table,
                    (dtype, 1, *first), (dtype, 1, *second), (result_type, 1, *result))


THREE_BY_TWO = param(0, I16, -4, 10, (3, 2))
THREE_BY_TWO_ROW = (I16, 1, -4, 10, 3, 2)
OTHER_BOUNDS = [
    # (02) "[−16383,16383] gives [−32766,32766] and is accepted."
    accepted('i16 [−16383,16383] added to itself', scalar(0, I16, -16383, 16383) + apply(ADD, 0, 0),
             (I16, 1, -16383, 16383), (I16, 1, -32766, 32766)),
    # "CONST [v,v]" at both ends of "0 bool (0..1), 1 u8 (0..255), .. 3 i32 (−2147483648..2147483647)"; (02) "The
    # range of i16 becomes −32767..32767, wherever a type's range is asked for."
    accepted('CONST at the ends of each type', const(BOOL, 0) + const(BOOL, 1) + const(U8, 0) + const(U8, 255)
             + const(I16, -32767) + const(I16, 32767) + const(I32, -2147483648) + const(I32, 2147483647),
             (0, 0, 0, 0), (0, 0, 1, 1), (1, 0, 0, 0), (1, 0, 255, 255), (2, 0, -32767, -32767),
             (2, 0, 32767, 32767), (3, 0, -2147483648, -2147483648), (3, 0, 2147483647, 2147483647)),
    accepted('−32768 of i32', const(I32, -32768) + scalar(0, I32, -32768, -32768),
             (I32, 0, -32768, -32768), (I32, 1, -32768, -32768)),
    # "PARAM [low,high]"
    accepted('PARAM with the whole of each type', scalar(0, BOOL, 0, 1) + scalar(1, U8, 0, 255)
             + scalar(2, I16, -32767, 32767) + scalar(3, I32, -2147483648, 2147483647),
             (0, 1, 0, 1), (1, 1, 0, 255), (2, 1, -32767, 32767), (3, 1, -2147483648, 2147483647)),
    accepted('PARAM with low equal to high', scalar(0, I16, -3, -3), (I16, 1, -3, -3)),
    # "movement (2–7) and LOAD, the source's": PAD too, whose new cells are gaps
    accepted('PAD of numbers above 0', param(0, I16, 3, 9, (2,)) + move(PAD, 0, (4,), (1,)), (I16, 1, 3, 9, 2),
             (I16, 1, 3, 9, 4)),
    # "WHERE [min(b,c),max(B,C)]", whatever the condition's bounds
    accepted('WHERE joins both sides', const(BOOL, 1) + scalar(0, I16, -3, 4) + scalar(1, I16, 2, 9)
             + apply(WHERE, 0, 1, 2),
             (BOOL, 0, 1, 1), (I16, 1, -3, 4), (I16, 1, 2, 9), (I16, 1, -3, 9)),
    accepted('WHERE joins the ends of i16', const(BOOL, 1) + const(I16, 32767) + const(I16, -32767)
             + apply(WHERE, 0, 1, 2),
             (BOOL, 0, 1, 1), (I16, 0, 32767, 32767), (I16, 0, -32767, -32767), (I16, 0, -32767, 32767)),
    # "CAST the source's."
    accepted('CAST to a narrower type', scalar(0, I32, 0, 255) + cast(0, U8), (I32, 1, 0, 255),
             (U8, 1, 0, 255)),
    accepted('CAST to the whole of i16', scalar(0, I32, -32767, 32767) + cast(0, I16), (I32, 1, -32767, 32767),
             (I16, 1, -32767, 32767)),
    accepted('CAST to bool', scalar(0, I32, 0, 1) + cast(0, BOOL), (I32, 1, 0, 1), (BOOL, 1, 0, 1)),
    accepted('CAST of bool', scalar(0, BOOL, 0, 1) + cast(0, I16), (BOOL, 1, 0, 1), (I16, 1, 0, 1)),
    # "● Sum of 3 of [−4,10]: [−12,30]."
    accepted('sum of 3', param(0, I16, -4, 10, (3,)) + reduce_node(0, 0, (1,)), (I16, 1, -4, 10, 3),
             (I16, 1, -12, 30, 1)),
    accepted('sum at the ends of i16', param(0, I16, -4681, 4681, (7,)) + reduce_node(0, 0, (1,)),
             (I16, 1, -4681, 4681, 7), (I16, 1, -32767, 32767, 1)),
    # "n is the product of flagged extents, 1 if none."
    accepted('sum over both axes', THREE_BY_TWO + reduce_node(0, 0, (1, 1)), THREE_BY_TWO_ROW,
             (I16, 1, -24, 60, 1, 1)),
    accepted('sum over the first axis', THREE_BY_TWO + reduce_node(0, 0, (1, 0)), THREE_BY_TWO_ROW,
             (I16, 1, -12, 30, 1, 2)),
    accepted('sum over the last axis', THREE_BY_TWO + reduce_node(0, 0, (0, 1)), THREE_BY_TWO_ROW,
             (I16, 1, -8, 20, 3, 1)),
    accepted('sum over no axis', THREE_BY_TWO + reduce_node(0, 0, (0, 0)), THREE_BY_TWO_ROW,
             (I16, 1, -4, 10, 3, 2)),
    accepted('sum over one or two axes of four', param(0, I16, -4, 10, (2, 3, 5, 7))
             + sum((reduce_node(0, 0, at_axis(axis, 1)) for axis in range(4)), [])
             + reduce_node(0, 0, (1, 0, 1, 0)) + reduce_node(0, 0, (0, 1, 0, 1)),
             (I16, 1, -4, 10, 2, 3, 5, 7), (I16, 1, -8, 20, 1, 3, 5, 7), (I16, 1, -12, 30, 2, 1, 5, 7),
             (I16, 1, -20, 50, 2, 3, 1, 7), (I16, 1, -28, 70, 2, 3, 5, 1), (I16, 1, -40, 100, 1, 3, 1, 7),
             (I16, 1, -84, 210, 2, 1, 5, 1)),
    accepted('sum of a single number', const(I16, 5) + reduce_node(0, 0, ()), (I16, 0, 5, 5), (I16, 0, 5, 5)),
    accepted('sum of 1048576', param(0, I32, -2048, 2047, (1024, 1024)) + reduce_node(0, 0, (1, 1)),
             (I32, 1, -2048, 2047, 1024, 1024), (I32, 1, -2147483648, 2146435072, 1, 1)),
    # "max, the source's."
    accepted('greatest over both axes', THREE_BY_TWO + reduce_node(0, 1, (1, 1)), THREE_BY_TWO_ROW,
             (I16, 1, -4, 10, 1, 1)),
    accepted('greatest of the whole of i32', param(0, I32, -2147483648, 2147483647, (9,))
             + reduce_node(0, 1, (1,)),
             (I32, 1, -2147483648, 2147483647, 9), (I32, 1, -2147483648, 2147483647, 1)),
]

# ------------------------------------------------------- shapes and devices

TWO_BY_THREE = param(0, I16, -4, 10, (2, 3))
ROW_2X3 = (I16, 1, -4, 10, 2, 3)
FOUR_TWOS = param(0, I16, -4, 10, (2, 2, 2, 2))
ROW_2222 = (I16, 1, -4, 10, 2, 2, 2, 2)
SHAPES = [
    # "Rank is 0 to 4. A shape row is rank extents of 1..1048576, then zeros."
    *(accepted(f'PARAM of shape {shape}', param(0, I16, -4, 10, shape), (I16, 1, -4, 10, *shape))
      for shape in ((), (1,), (2, 3), (2, 3, 4), (2, 3, 4, 5), (1048576,), (1, 1, 1, 1048576), (1024, 1024),
                    (32, 32, 32, 32))),
    # "PERMUTE: result axis k is source axis A_k."
    accepted('PERMUTE (2,0,3,1)', param(0, I16, 0, 1, (2, 3, 5, 7)) + move(PERMUTE, 0, (2, 0, 3, 1)),
             (I16, 1, 0, 1, 2, 3, 5, 7), (I16, 1, 0, 1, 5, 2, 7, 3)),
    accepted('PERMUTE of rank 0', const(I16, 5) + move(PERMUTE, 0, ()), (I16, 0, 5, 5), (I16, 0, 5, 5)),
    # "FLIP: flag 1 reverses."
    accepted('FLIP of no axis', TWO_BY_THREE + move(FLIP, 0, (0, 0)), ROW_2X3, ROW_2X3),
    # "RESHAPE: equal element counts."
    accepted('RESHAPE to rank 4', TWO_BY_THREE + move(RESHAPE, 0, (1, 3, 1, 2)), ROW_2X3,
             (I16, 1, -4, 10, 1, 3, 1, 2)),
    accepted('RESHAPE of four axes and to four', FOUR_TWOS + move(RESHAPE, 0, (4, 4)) + move(RESHAPE, 1, (2, 2, 2, 2)),
             ROW_2222, (I16, 1, -4, 10, 4, 4), ROW_2222),
    accepted('RESHAPE of one element to rank 0', param(0, I16, -4, 10, (1, 1)) + move(RESHAPE, 0, ()),
             (I16, 1, -4, 10, 1, 1), (I16, 1, -4, 10)),
    accepted('RESHAPE of rank 0', const(I16, 5) + move(RESHAPE, 0, (1, 1, 1)), (I16, 0, 5, 5),
             (I16, 0, 5, 5, 1, 1, 1)),
    # "EXPAND: same rank, s_k is 1 or s'_k."
    accepted('EXPAND of an axis of 1', param(0, I16, 0, 1, (1, 3)) + move(EXPAND, 0, (4, 3)),
             (I16, 1, 0, 1, 1, 3), (I16, 1, 0, 1, 4, 3)),
    # "PAD with o+s equal to s': accepted; one more: 8."
    accepted("PAD with o+s equal to s'", TWO_BY_THREE + move(PAD, 0, (3, 5), (1, 2)), ROW_2X3,
             (I16, 1, -4, 10, 3, 5)),
    refused("PAD with o+s one more than s', first axis", 8, 1, TWO_BY_THREE + move(PAD, 0, (3, 5), (2, 2))),
    refused("PAD with o+s one more than s', last axis", 8, 1, TWO_BY_THREE + move(PAD, 0, (3, 5), (1, 3))),
    accepted('PAD to 1048576', param(0, I16, 0, 1, (1,)) + move(PAD, 0, (LARGE,), (LARGE - 1,)),
             (I16, 1, 0, 1, 1), (I16, 1, 0, 1, LARGE)),
    # "SHRINK: same rank, o_k + s'_k ≤ s_k."
    accepted("SHRINK with o+s' equal to s", TWO_BY_THREE + move(SHRINK, 0, (1, 2), (1, 1)), ROW_2X3,
             (I16, 1, -4, 10, 1, 2)),
    refused("SHRINK with o+s' one more than s, first axis", 8, 1,
            TWO_BY_THREE + move(SHRINK, 0, (1, 2), (2, 1))),
    refused("SHRINK with o+s' one more than s, last axis", 8, 1,
            TWO_BY_THREE + move(SHRINK, 0, (1, 2), (1, 2))),
    # the same on each axis of four alone
    accepted("PAD with o+s equal to s' on four axes", FOUR_TWOS + move(PAD, 0, (3, 3, 3, 3), (1, 1, 1, 1)),
             ROW_2222, (I16, 1, -4, 10, 3, 3, 3, 3)),
    accepted("SHRINK with o+s' equal to s on four axes", FOUR_TWOS + move(SHRINK, 0, (1, 1, 1, 1), (1, 1, 1, 1)),
             ROW_2222, (I16, 1, -4, 10, 1, 1, 1, 1)),
    *(refused(f"PAD with o+s one more than s' on axis {axis} alone", 8, 1,
              FOUR_TWOS + move(PAD, 0, (3, 3, 3, 3), at_axis(axis, 2, 1))) for axis in range(4)),
    *(refused(f"SHRINK with o+s' one more than s on axis {axis} alone", 8, 1,
              FOUR_TWOS + move(SHRINK, 0, at_axis(axis, 2, 1), (1, 1, 1, 1))) for axis in range(4)),
    *(refused(f'EXPAND of 2 to 4 on axis {axis} alone', 8, 1,
              FOUR_TWOS + move(EXPAND, 0, at_axis(axis, 4, 2))) for axis in range(4)),
    # "REDUCE: flagged axes become 1; rank stays." is among the bounds of sums
]
# "Binary and WHERE: right-aligned; each axis equal or 1; the larger wins."
BROADCASTS = (((2, 3), (3,), (2, 3)), ((3,), (2, 3), (2, 3)), ((2, 1), (3,), (2, 3)), ((), (2, 3), (2, 3)),
              ((2, 3), (), (2, 3)), ((1,), (), (1,)), ((1, 1), (1,), (1, 1)), ((5, 4), (5, 4), (5, 4)),
              ((4, 1, 3, 1), (2, 1, 5), (4, 2, 3, 5)))
SHAPES += [accepted(f'broadcast of {first} and {second}', large(first, second) + apply(MUL, 0, 1),
                    (I32, 1, 0, 1, *first), (I32, 1, 0, 1, *second), (I32, 1, 0, 1, *result))
           for first, second, result in BROADCASTS]
SHAPES += [accepted(f'{OPERATIONS[op][0]} of 2x1 and 3', param(0, BOOL, 0, 1, (2, 1)) + param(1, BOOL, 0, 1, (3,))
                    + apply(op, 0, 1), (BOOL, 1, 0, 1, 2, 1), (BOOL, 1, 0, 1, 3), (BOOL, 1, 0, 1, 2, 3))
           for op in (AND, OR)]
SHAPES += [accepted('WHERE of three shapes', param(0, BOOL, 0, 1, (2, 1, 1)) + param(1, I16, 0, 1, (3, 1))
                    + param(2, I16, 0, 1, (4,)) + apply(WHERE, 0, 1, 2),
                    (BOOL, 1, 0, 1, 2, 1, 1), (I16, 1, 0, 1, 3, 1), (I16, 1, 0, 1, 4),
                    (I16, 1, 0, 1, 2, 3, 4))]

DEVICES = [
    # "CONST has device 0. PARAM and LOAD name theirs, 1..255."
    accepted('the first and the last device',
             scalar(0, I16, 0, 1, 1) + scalar(1, I16, 0, 1, 255) + load(0, 255) + load(1, 1),
             (I16, 1, 0, 1), (I16, 255, 0, 1), (I16, 255, 0, 1), (I16, 1, 0, 1)),
    accepted('LOAD of a CONST', const(I16, 5) + load(0, 7), (I16, 0, 5, 5), (I16, 7, 5, 5)),
    # "Others take the one non-zero device of their sources, or 0"
    accepted('the one device from either side',
             const(I16, 5) + scalar(0, I16, 0, 1, 7) + apply(ADD, 0, 1) + apply(ADD, 1, 0)
             + apply(ADD, 0, 0) + apply(ADD, 1, 1) + move(FLIP, 1, ()),
             (I16, 0, 5, 5), (I16, 7, 0, 1), (I16, 7, 5, 6), (I16, 7, 5, 6), (I16, 0, 10, 10), (I16, 7, 0, 2),
             (I16, 7, 0, 1)),
    accepted('the one device from the condition',
             scalar(0, BOOL, 0, 1, 7) + const(I16, 5) + apply(WHERE, 0, 1, 1),
             (BOOL, 7, 0, 1), (I16, 0, 5, 5), (I16, 7, 5, 5)),
    accepted('the one device from the third source',
             const(BOOL, 1) + const(I16, 5) + scalar(0, I16, 0, 1, 7) + apply(WHERE, 0, 1, 2),
             (BOOL, 0, 1, 1), (I16, 0, 5, 5), (I16, 7, 0, 1), (I16, 7, 0, 5)),
]

# -------------------------------------------------- the second edition's three

def stacked(first, second, word_3, number):
    return node(STACK, {1: first, 2: second, 3: word_3, 5: number})


LOW, HIGH = scalar(0, I16, -9, -3), scalar(1, I16, 4, 7)
LOW_ROW, HIGH_ROW = (I16, 1, -9, -3), (I16, 1, 4, 7)
# Node 0 is of another type, shape and device than nodes 1 and 2, and has wider bounds.
APART = param(0, I32, -99, 99, (4,), 9) + param(1, I16, -9, 1, (2,)) + param(2, I16, -1, 9, (2,))
APART_ROWS = ((I32, 9, -99, 99, 4), (I16, 1, -9, 1, 2), (I16, 1, -1, 9, 2))
ON_7 = const(I16, 5) + scalar(0, I16, 0, 1, 7)
THREE_ACCEPTED = [
    # (02) KNOWN: "bool, .. bounds [0,1]", always
    *(accepted(f'KNOWN of {name}', source + apply(KNOWN, 0), row, (BOOL, row[1], 0, 1, *row[4:]))
      for name, source, row in (('a CONST of 0', const(I16, 0), (I16, 0, 0, 0)),
                                ('a CONST of 1', const(U8, 1), (U8, 0, 1, 1)),
                                ('a true CONST', const(BOOL, 1), (BOOL, 0, 1, 1)),
                                ('a false CONST', const(BOOL, 0), (BOOL, 0, 0, 0)),
                                ('numbers above 1', scalar(0, I32, 5, 9), (I32, 1, 5, 9)),
                                ('numbers below 0', scalar(0, I16, -9, -5), (I16, 1, -9, -5)),
                                ('four axes', param(0, I16, 0, 1, (2, 3, 5, 7), 255), (I16, 255, 0, 1, 2, 3, 5, 7)),
                                ('1048576 elements', param(0, I16, 0, 1, (1024, 1024)), (I16, 1, 0, 1, 1024, 1024)))),
    # (02) STACK: "bounds least and greatest", of two and of three
    accepted('STACK of two, the lower first', LOW + HIGH + stack(0, 1), LOW_ROW, HIGH_ROW, (I16, 1, -9, 7, 2)),
    accepted('STACK of two, the higher first', LOW + HIGH + stack(1, 0), LOW_ROW, HIGH_ROW, (I16, 1, -9, 7, 2)),
    *(accepted(f'STACK of three, the widest in place {place}', LOW + HIGH + scalar(2, I16, -20, 30) + stack(*sources),
               LOW_ROW, HIGH_ROW, (I16, 1, -20, 30), (I16, 1, -20, 30, 3))
      for place, sources in ((1, (2, 0, 1)), (2, (0, 2, 1)), (3, (0, 1, 2)))),
    accepted('STACK of three, each end from another', LOW + HIGH + scalar(2, I16, 0, 1) + stack(2, 0, 1), LOW_ROW,
             HIGH_ROW, (I16, 1, 0, 1),
             (I16, 1, -9, 7, 3)),
    accepted('STACK of the ends of i32', const(I32, -2147483648) + const(I32, 2147483647) + stack(1, 0),
             (I32, 0, -2147483648, -2147483648),
             (I32, 0, 2147483647, 2147483647), (I32, 0, -2147483648, 2147483647, 2)),
    accepted('STACK of one node three times', LOW + stack(0, 0, 0), LOW_ROW, (I16, 1, -9, -3, 3)),
    # (02) "joined on a new leading axis", "source rank at most 3"
    *(accepted(f'STACK of {number} of rank {len(shape)}', param(0, I16, -4, 10, shape) + stack(*[0] * number),
               (I16, 1, -4, 10, *shape),
               (I16, 1, -4, 10, number, *shape)) for number in (2, 3) for shape in ((), (5,), (1, 4), (3, 1, 2))),
    # every type, bool too
    *(accepted(f'FILL, KNOWN and STACK of type {dtype}', const(dtype, 1) + apply(FILL, 0, 0) + apply(KNOWN, 0)
               + stack(0, 1), (dtype, 0, 1, 1),
               (dtype, 0, 1, 1), (BOOL, 0, 0, 1), (dtype, 0, 1, 1, 2)) for dtype in (BOOL, U8, I16, I32)),
    # (02) "All three carry devices as binary operations do": node 0 has none, node 1 has device 7
    accepted('the one device of FILL from either side', ON_7 + apply(FILL, 0, 1) + apply(FILL, 1, 0) + apply(FILL, 0, 0)
             + apply(FILL, 1, 1),
             (I16, 0, 5, 5), (I16, 7, 0, 1), (I16, 7, 0, 5), (I16, 7, 0, 5), (I16, 0, 5, 5), (I16, 7, 0, 1)),
    accepted('the one device of STACK from each place',
             ON_7 + stack(0, 1) + stack(1, 0) + stack(0, 0, 1) + stack(0, 1, 0) + stack(1, 0, 0) + stack(0, 0, 0),
             (I16, 0, 5, 5), (I16, 7, 0, 1), *[(I16, 7, 0, 5, 2)] * 2, *[(I16, 7, 0, 5, 3)] * 3, (I16, 0, 5, 5, 3)),
    accepted('the device of KNOWN', ON_7 + apply(KNOWN, 0) + apply(KNOWN, 1), (I16, 0, 5, 5), (I16, 7, 0, 1),
             (BOOL, 0, 0, 1), (BOOL, 7, 0, 1)),
    # (02) "with number 2, word 3 is zero": it is not node 0, for type, shape, device and bounds
    accepted('STACK of two beside a node 0 that is apart', APART + stack(1, 2), *APART_ROWS, (I16, 1, -9, 9, 2, 2)),
    accepted('STACK of three with node 0 as the third', LOW + HIGH + stack(1, 1, 0), LOW_ROW, HIGH_ROW,
             (I16, 1, -9, 7, 3)),
    # 8 "over 1048576 elements" is asked of the result
    accepted('STACK of 1048576', large((512, 1024)) + stack(0, 0), (I32, 1, 0, 1, 512, 1024),
             (I32, 1, 0, 1, 2, 512, 1024)),
    accepted('STACK of 1048575', large((349525,)) + stack(0, 0, 0), (I32, 1, 0, 1, 349525), (I32, 1, 0, 1, 3, 349525)),
    accepted('FILL of 1024x1 and 1024', large((1024, 1), (1024,)) + apply(FILL, 0, 1), (I32, 1, 0, 1, 1024, 1),
             (I32, 1, 0, 1, 1024),
             (I32, 1, 0, 1, 1024, 1024)),
    *(accepted(f'FILL of {first} and {second}', large(first, second) + apply(FILL, 0, 1), (I32, 1, 0, 1, *first),
               (I32, 1, 0, 1, *second), (I32, 1, 0, 1, *result))
      for first, second, result in (((2, 3), (3,), (2, 3)), ((), (2, 3), (2, 3)),
                                    ((4, 1, 3, 1), (2, 1, 5), (4, 2, 3, 5)))),
]
THREE_REFUSED = [
    # (02) "same type"; "all shapes and types equal": 6
    *(refused(f'{name} of {first} and {second}', 6, 2, const(first, 1) + const(second, 1) + words)
      for first, second in ((BOOL, U8), (I16, I32)) for name, words in (
          ('FILL', apply(FILL, 0, 1)), ('FILL turned', apply(FILL, 1, 0)), ('STACK', stack(0, 1)),
          ('STACK with another first', stack(1, 0, 0)),
          ('STACK with another second', stack(0, 1, 0)), ('STACK with another third', stack(0, 0, 1)))),
    # (02) "STACK's number .. is 7"
    *(refused(f'STACK by number {number}', 7, 1, LOW + stacked(0, 0, 0, number))
      for number in (0, 1, 4, -1, -2, 2 ** 32 + 2, 2 ** 32 + 3, BIG - 1, -BIG)),
    # (02) "or a word 3 not zero with number 2, is 7": not 3, and not 4, whether the node is there or not
    *(refused(f'STACK of two with word 3 {word}', 7, 1, LOW + stacked(0, 0, word, 2))
      for word in (1, 99, -1, 2 ** 32, BIG - 1, -BIG)),
    refused('STACK of two with word 3 a node of its type', 7, 2, LOW + HIGH + stacked(0, 0, 1, 2)),
    # (02) "rules 4 and 6 read word 3 only with number 3"
    *(refused(f'STACK of three with word 3 {word}', 4, 1, LOW + stacked(0, 0, word, 3))
      for word in (1, -1, 2 ** 32, BIG - 1, -BIG)),
    *(refused(f'STACK by number {number} with word 3 {word}', 7, 1, LOW + stacked(0, 0, word, number))
      for number, word in ((0, 1), (1, -1), (4, 1), (4, BIG - 1))),
    refused('STACK of four with a word 3 of another type', 7, 3, APART + stacked(1, 2, 0, 4)),
    refused('STACK of three with a word 3 of another type', 6, 3, APART + stacked(1, 2, 0, 3)),
    *(refused(f'STACK with word {word} {value}', 4, 1, LOW + node(STACK, {5: 2, word: value}))
      for word in (1, 2) for value in (1, -1, BIG - 1, -BIG)),
    refused('STACK with words 1, 2, 3 and 5 at the ends', 4, 1, LOW + stacked(-BIG, BIG - 1, -BIG, BIG - 1)),
    # 4 and 6 of its first two sources come before 7
    *(refused(f'4 of word {word} of a STACK before 7', 4, 1, LOW + node(STACK, {5: 9, 3: 9, word: 1})) for word in (1, 2)),
    refused('4 of word 1 before 7 of word 3', 4, 1, LOW + stacked(1, 0, 9, 2)),
    *(refused(f'6 of a STACK before 7 by number {number}', 6, 3, APART + stacked(0, 1, word, number))
      for number, word in ((9, 0), (1, 9), (2, 9))),
    refused('3 of a STACK before 4 and 7', 3, 1, LOW + changed(stacked(1, 1, 1, 9), (4, 1))),
    # (02) "its shapes and rank 8": no broadcast
    *(refused(f'STACK of shapes {first} and {second}', 8, 2, large(first, second) + words)
      for first, second, words in (((2,), (3,), stack(0, 1)), ((2,), (1,), stack(0, 1)), ((1,), (2,), stack(0, 1)),
                                   ((), (1,), stack(0, 1)),
                                   ((2, 3), (3,), stack(0, 1)), ((2, 3), (3, 2), stack(0, 1)), ((6,), (2, 3), stack(0, 1)),
                                   ((2,), (3,), stack(1, 0, 0)), ((2,), (3,), stack(0, 1, 0)),
                                   ((2,), (3,), stack(0, 0, 1)))),
    *(refused(f'STACK of {number} of rank 4', 8, 1, param(0, I16, 0, 1, (1, 1, 1, 2)) + stack(*[0] * number))
      for number in (2, 3)),
    refused('STACK of 1048578', 8, 1, large((524289,)) + stack(0, 0)),
    refused('STACK of three of 349526', 8, 1, large((349526,)) + stack(0, 0, 0)),
    refused('STACK of two of 1048576', 8, 1, large((LARGE,)) + stack(0, 0)),
    refused('FILL over 1048576', 8, 2, large((17, 1), (61681,)) + apply(FILL, 0, 1)),
    # 7 before 8 and 9, 8 before 9
    refused('7 of a STACK before 8', 7, 2, large((2,), (3,)) + stacked(0, 1, 0, 4)),
    refused('7 of word 3 before 8', 7, 1, param(0, I16, 0, 1, (1, 1, 1, 2)) + stacked(0, 0, 1, 2)),
    refused('8 of a STACK before 9', 8, 2, param(0, I16, 0, 1, (2,), 1) + param(1, I16, 0, 1, (3,), 2) + stack(0, 1)),
    refused('6 of a FILL before 8 and 9', 6, 2, param(0, I16, 0, 1, (2,), 1) + param(1, U8, 0, 1, (3,), 2)
            + apply(FILL, 0, 1)),
    # 9 "two devices", of the sources that are read
    *(refused(f'STACK {sources} of two devices', 9, 3, scalar(0, I16, 0, 1, 1) + scalar(1, I16, 0, 1, 2) + const(I16, 1)
              + stack(*sources))
      for sources in ((0, 1), (1, 0), (2, 0, 1), (0, 2, 1), (0, 1, 2), (1, 1, 0))),
    # (02) "in 01's rule 2 .. the limit is 23"; "nodes in turn"
    refused('operation 24 after a STACK', 2, 2, LOW + stack(0, 0) + node(24)),
    refused('7 of a STACK before 2 of the next node', 7, 1, LOW + stacked(0, 0, 0, 4) + node(24)),
    # 12 "all nodes together over 4194304 elements", those of the three too
    refused('4194305 elements by STACK, KNOWN and FILL', 12, 0,
            large((524288,), (524288,)) + stack(0, 1) + apply(KNOWN, 2) + apply(FILL, 2, 2) + const(I32, 1)),
]

# ---------------------------------------------------- refusals of the check

LENGTHS = [
    # 1 "length no multiple of 17, or not 1..256 nodes"
    refused('no words', 1, 0, []),
    refused('one word', 1, 0, [0]),
    refused('one word too few', 1, 0, const(I16, 5)[:16]),
    refused('one word too many', 1, 0, const(I16, 5) + [0]),
    refused('a node cut short', 1, 0, (const(I16, 5) * 2)[:33]),
    refused('257 nodes', 1, 0, const(I16, 5) * 257),
    accepted('256 nodes', const(I16, 5) * 256, *[(I16, 0, 5, 5)] * 256),
]
OPERATION_UNKNOWN = [
    # 2 "operation not 0..20"; (02) "in 01's rule 2 .. the limit is 23"
    refused('operation 24', 2, 0, node(24)),
    refused('operation −1', 2, 0, node(-1)),
    refused('operation 2^63 − 1', 2, 0, node(BIG - 1)),
    refused('operation −2^63', 2, 0, node(-BIG)),
    refused('operation 2^32, whose low half is CONST', 2, 0, changed(const(I16, 5), (0, 2 ** 32))),
    refused('operation 24 in the last of three nodes', 2, 2, const(I16, 5) * 2 + node(24)),
]
SOURCES = [
    # 4 "source negative or not earlier"
    refused('source −1', 4, 1, const(I16, 5) + load(-1, 1)),
    refused('source −2^63', 4, 1, const(I16, 5) + load(-BIG, 1)),
    refused('source 2^63 − 1', 4, 1, const(I16, 5) + load(BIG - 1, 1)),
    refused('source 2^32, whose low half is node 0', 4, 1, const(I16, 5) + load(2 ** 32, 1)),
    refused('a node as its own source', 4, 1, const(I16, 5) + load(1, 1)),
    refused('the first node as its own source', 4, 0, load(0, 1)),
    refused('a later node as source', 4, 1, const(I16, 5) + load(2, 1) + const(I16, 5)),
    refused('second source not earlier', 4, 1, const(I16, 5) + apply(ADD, 0, 1)),
    refused('second source negative', 4, 1, const(I16, 5) + apply(ADD, 0, -1)),
    refused('third source not earlier', 4, 2, const(BOOL, 1) + const(I16, 5) + apply(WHERE, 0, 1, 2)),
    refused('third source negative', 4, 2, const(BOOL, 1) + const(I16, 5) + apply(WHERE, 0, 1, -1)),
    refused('condition not earlier', 4, 2, const(BOOL, 1) + const(I16, 5) + apply(WHERE, 2, 1, 1)),
    # of a STACK of two word 3 is no source
    *(refused(f'{name} as its own source {k}', 4, 1, smallest(op, {k: 1}))
      for op, (name, _, _, used) in enumerate(OPERATIONS) for k in used if k < 4 and (op, k) != (STACK, 3)),
]
DTYPES = [
    # 5 "word 4 used and not 0..3"
    *(refused(f'type {dtype} of {name}', 5, place, table) for dtype in (4, -1, BIG - 1, -BIG, 2 ** 32)
      for name, place, table in (('CONST', 0, const(dtype, 0)),
                                 ('CAST', 1, const(BOOL, 0) + cast(0, dtype)))),
    refused('type 4 of PARAM', 5, 0, scalar(0, 4, 0, 1)),
    refused('type −1 of PARAM', 5, 0, scalar(0, -1, 0, 1)),
]
BOTH_BOOL = const(BOOL, 1) * 2
TYPE_RULES = [
    # "9 ADD, 10 MUL, 11 MAX, 12 IDIV, 13 MOD: source, not bool", "14 CMPLT (not bool)": 6 "bool misplaced"
    *(refused(f'{OPERATIONS[op][0]} of bools', 6, 2, BOTH_BOOL + apply(op, 0, 1))
      for op in (ADD, MUL, MAX, IDIV, MOD, CMPLT)),
    # 6 "operands differ"
    *(refused(f'{OPERATIONS[op][0]} of i16 and i32', 6, 2, const(I16, 1) + const(I32, 1) + apply(op, 0, 1))
      for op in (ADD, MUL, MAX, IDIV, MOD, CMPLT, CMPNE)),
    refused('ADD of bool and u8', 6, 2, const(BOOL, 1) + const(U8, 1) + apply(ADD, 0, 1)),
    refused('ADD of u8 and bool', 6, 2, const(BOOL, 1) + const(U8, 1) + apply(ADD, 1, 0)),
    refused('CMPNE of bool and u8', 6, 2, const(BOOL, 1) + const(U8, 1) + apply(CMPNE, 0, 1)),
    # "15 CMPNE" has no "not bool"
    accepted('CMPNE of bools', BOTH_BOOL + apply(CMPNE, 0, 1), (0, 0, 1, 1), (0, 0, 1, 1), (0, 0, 0, 0)),
    # "16 AND, 17 OR (bool only)"
    *(refused(f'{OPERATIONS[op][0]} of u8 in place {k}', 6, 2,
              const(U8, 1) + const(BOOL, 1) + apply(op, *sources))
      for op in (AND, OR) for k, sources in (('both', (0, 0)), ('one', (0, 1)), ('two', (1, 0)))),
    # "WHERE condition not bool"
    refused('WHERE with a condition of u8', 6, 1, const(U8, 1) + apply(WHERE, 0, 0, 0)),
    refused('WHERE of i16 and i32', 6, 3, const(BOOL, 1) + const(I16, 1) + const(I32, 1)
            + apply(WHERE, 0, 1, 2)),
    refused('WHERE of bool and i16', 6, 2, const(BOOL, 1) + const(I16, 1) + apply(WHERE, 0, 0, 1)),
    accepted('WHERE of bools', BOTH_BOOL + apply(WHERE, 0, 1, 1), (0, 0, 1, 1), (0, 0, 1, 1), (0, 0, 1, 1)),
    # "18 WHERE: second source"
    accepted('WHERE has the type of the second source',
             const(BOOL, 1) + const(I32, 5) + apply(WHERE, 0, 1, 1),
             (0, 0, 1, 1), (3, 0, 5, 5), (3, 0, 5, 5)),
    # "19 REDUCE (not bool; number 0 sum, 1 max)"
    refused('sum of bools', 6, 1, const(BOOL, 1) + reduce_node(0, 0, ())),
    refused('greatest of bools', 6, 1, const(BOOL, 1) + reduce_node(0, 1, ())),
]

# ------------------------------------------------------------------- rule 7

SIXTEEN = [scalar(k, U8, 0, 9) for k in range(16)]
PARAM_RULES = [
    # "the k-th PARAM from zero has slot (word 5) k ≤ 15"
    refused('the first PARAM with slot 1', 7, 0, scalar(1, U8, 0, 9)),
    refused('the first PARAM with slot −1', 7, 0, scalar(-1, U8, 0, 9)),
    refused('the first PARAM with slot 2^32', 7, 0, scalar(2 ** 32, U8, 0, 9)),
    refused('the second PARAM with slot 0', 7, 1, scalar(0, U8, 0, 9) * 2),
    refused('the second PARAM with slot 2', 7, 1, scalar(0, U8, 0, 9) + scalar(2, U8, 0, 9)),
    accepted('slots count PARAMs', scalar(0, U8, 0, 9) + const(U8, 5) + scalar(1, U8, 0, 9),
             (1, 1, 0, 9), (1, 0, 5, 5), (1, 1, 0, 9)),
    refused('a slot that counts nodes', 7, 2, scalar(0, U8, 0, 9) + const(U8, 5) + scalar(2, U8, 0, 9)),
    accepted('sixteen PARAMs', sum(SIXTEEN, []), *[(1, 1, 0, 9)] * 16),
    refused('the 17th PARAM with slot 16', 7, 16, sum(SIXTEEN, []) + scalar(16, U8, 0, 9)),
    refused('the 17th PARAM with slot 0', 7, 16, sum(SIXTEEN, []) + scalar(0, U8, 0, 9)),
    refused('the 17th PARAM with slot 15', 7, 16, sum(SIXTEEN, []) + scalar(15, U8, 0, 9)),
    # "and low ≤ high"
    refused('low one above high', 7, 0, scalar(0, I16, 1, 0)),
    refused('low 2^63 − 1 and high −2^63', 7, 0, scalar(0, I16, BIG - 1, -BIG)),
    # "a device used is 1..255"
    *(refused(f'device {device} of {name}', 7, place, table)
      for device in (0, -1, 256, BIG - 1, -BIG, 2 ** 32 + 1)
      for name, place, table in (('PARAM', 0, scalar(0, U8, 0, 9, device)),
                                 ('LOAD', 1, const(U8, 5) + load(0, device)))),
    # "REDUCE's number is 0 or 1"
    *(refused(f'number {number} of REDUCE', 7, 1, TWO_BY_THREE + reduce_node(0, number, (1, 0)))
      for number in (2, -1, BIG - 1, -BIG, 2 ** 32)),
]
# "PERMUTE's row is 0..rank−1 once each .. all with zeros after"
PERMUTE_ROWS = ((0, 0), (1, 1), (1, 2), (-1, 0), (1, -1), (2, 0), (1, 0, 2), (1, 0, 0, 3), (1, 0, 1),
                (1, 0, -1), (1, 2 ** 32),
                (BIG - 1, 0), (-BIG, 1), ())
# "FLIP's and REDUCE's are flags"
FLAG_ROWS = ((2, 0), (0, 2), (-1, 0), (0, -1), (1, 1, 1), (0, 0, 0, 1), (0, 0, -1), (BIG - 1, 0), (0, -BIG),
             (2 ** 32, 0))
# "B holds 0..1048576 over the source's rank"
OFFSET_ROWS = ((-1, 0), (0, -1), (LARGE + 1, 0), (0, LARGE + 1), (0, 0, 1), (0, 0, 0, 1), (0, 0, -1),
               (BIG - 1, 0), (0, -BIG), (2 ** 32, 0))
# "shape rows as above": "rank extents of 1..1048576, then zeros"
SHAPE_ROWS = ((0, 6), (2, 0, 3), (0, 0, 0, 6), (2, 3, 0, 1), (-1, 3), (2, -3), (LARGE + 1,), (6, LARGE + 1),
              (BIG - 1,), (6, 1, 1, -BIG), (2 ** 32 + 6,), (2, 3, -1), (2, 3, LARGE + 1), (2, 3, 1, LARGE + 1))
# The same rows where one axis of four is wrong.
PERMUTE_ROWS_4 = ((4, 1, 2, 3), (0, -1, 2, 3), (0, 1, 0, 3), (0, 1, 2, 0))
FLAG_ROWS_4 = ((-1, 1, 1, 1), (0, 7, 0, 0), (1, 1, 2, 1), (0, 0, 0, 7))
OFFSET_ROWS_4 = ((-1, 0, 0, 0), (0, LARGE + 1, 0, 0), (0, 0, -1, 0), (0, 0, 0, LARGE + 1))
ROWS = [
    *(refused(f'PERMUTE row {row}', 7, 1, TWO_BY_THREE + move(PERMUTE, 0, row)) for row in PERMUTE_ROWS),
    *(refused(f'FLIP row {row}', 7, 1, TWO_BY_THREE + move(FLIP, 0, row)) for row in FLAG_ROWS),
    *(refused(f'REDUCE row {row}', 7, 1, TWO_BY_THREE + reduce_node(0, 1, row)) for row in FLAG_ROWS),
    *(refused(f'PAD offsets {row}', 7, 1, TWO_BY_THREE + move(PAD, 0, (2, 3), row)) for row in OFFSET_ROWS),
    *(refused(f'SHRINK offsets {row}', 7, 1, TWO_BY_THREE + move(SHRINK, 0, (2, 3), row))
      for row in OFFSET_ROWS),
    *(refused(f'PARAM shape row {row}', 7, 0, param(0, I16, -4, 10, row)) for row in SHAPE_ROWS),
    *(refused(f'{OPERATIONS[op][0]} shape row {row}', 7, 1, TWO_BY_THREE + move(op, 0, row))
      for op in (RESHAPE, EXPAND, PAD, SHRINK) for row in SHAPE_ROWS[:7]),
    *(refused(f'PERMUTE row {row}', 7, 1, FOUR_TWOS + move(PERMUTE, 0, row)) for row in PERMUTE_ROWS_4),
    *(refused(f'FLIP row {row}', 7, 1, FOUR_TWOS + move(FLIP, 0, row)) for row in FLAG_ROWS_4),
    *(refused(f'REDUCE row {row}', 7, 1, FOUR_TWOS + reduce_node(0, 1, row)) for row in FLAG_ROWS_4),
    *(refused(f'{OPERATIONS[op][0]} offsets {row}', 7, 1, FOUR_TWOS + move(op, 0, (2, 2, 2, 2), row))
      for op in (PAD, SHRINK) for row in OFFSET_ROWS_4),
    # "all with zeros after": the first word past the source's rank
    *(refused(f'{name} of rank {rank} with a word past it', 7, 1, param(0, I16, 0, 1, (2, 2, 2)[:rank]) + words)
      for rank, zeros in ((0, ()), (1, (0,)), (3, (0, 0, 0)))
      for name, words in (('PERMUTE', move(PERMUTE, 0, (*range(rank), 1))), ('FLIP', move(FLIP, 0, (*zeros, 1))),
                          ('REDUCE', reduce_node(0, 1, (*zeros, 1))),
                          ('PAD', move(PAD, 0, (2, 2, 2)[:rank], (*zeros, 1))),
                          ('SHRINK', move(SHRINK, 0, (2, 2, 2)[:rank], (*zeros, 1))))),
    # a row that is measured by the source's rank is 7, a shape row of another rank is 8
    refused('PAD to rank 2 with an offset past the rank', 7, 1,
            param(0, I16, 0, 1, (2,)) + move(PAD, 0, (3, 3), (1, 1))),
    refused('PAD to rank 2 with offsets of the rank', 8, 1,
            param(0, I16, 0, 1, (2,)) + move(PAD, 0, (3, 3), (1,))),
]

# ------------------------------------------------------------- rules 8 to 12

TWO_SOURCES = ((ADD, I16), (MUL, I16), (MAX, I16), (IDIV, I16), (MOD, I16), (CMPLT, I16), (CMPNE, I16),
               (AND, BOOL), (OR, BOOL), (FILL, I16))
SHAPES_DISAGREE = [
    # 8 "shapes disagree"
    refused('RESHAPE to one element more', 8, 1, TWO_BY_THREE + move(RESHAPE, 0, (7,))),
    refused('RESHAPE to fewer', 8, 1, TWO_BY_THREE + move(RESHAPE, 0, (2, 2))),
    refused('RESHAPE of six to rank 0', 8, 1, TWO_BY_THREE + move(RESHAPE, 0, ())),
    refused('EXPAND to a higher rank', 8, 1, param(0, I16, 0, 1, (1, 3)) + move(EXPAND, 0, (2, 1, 3))),
    refused('EXPAND to a lower rank', 8, 1, param(0, I16, 0, 1, (1, 3)) + move(EXPAND, 0, (3,))),
    refused('EXPAND of an axis that is not 1', 8, 1, TWO_BY_THREE + move(EXPAND, 0, (4, 3))),
    refused('EXPAND to less', 8, 1, TWO_BY_THREE + move(EXPAND, 0, (2, 1))),
    refused('PAD to a higher rank', 8, 1, TWO_BY_THREE + move(PAD, 0, (2, 3, 1), (0, 0))),
    refused('PAD to a lower rank', 8, 1, TWO_BY_THREE + move(PAD, 0, (6,), (0, 0))),
    refused('PAD to less', 8, 1, TWO_BY_THREE + move(PAD, 0, (2, 2), (0, 0))),
    refused('PAD with the greatest offset', 8, 1, TWO_BY_THREE + move(PAD, 0, (2, 3), (LARGE, 0))),
    refused('SHRINK to a higher rank', 8, 1, TWO_BY_THREE + move(SHRINK, 0, (2, 3, 1), (0, 0))),
    refused('SHRINK to a lower rank', 8, 1, TWO_BY_THREE + move(SHRINK, 0, (2,), (0, 0))),
    refused('SHRINK to more', 8, 1, TWO_BY_THREE + move(SHRINK, 0, (2, 4), (0, 0))),
    refused('SHRINK with the greatest offset', 8, 1, TWO_BY_THREE + move(SHRINK, 0, (1, 1), (0, LARGE))),
    *(refused(f'MUL of {first} and {second}', 8, 2, large(first, second) + apply(MUL, 0, 1))
      for first, second in (((2, 3), (2,)), ((2, 3), (3, 2)), ((2,), (3,)), ((2, 1, 3), (2, 2)),
                            ((3, 1), (2, 1)))),
    *(refused(f'MUL of axis {axis} of four alone', 8, 2, large((2, 2, 2, 2), at_axis(axis, 3, 2)) + apply(MUL, 0, 1))
      for axis in range(4)),
    *(refused(f'{OPERATIONS[op][0]} of 2 and 3', 8, 2, param(0, dtype, 1, 1, (2,)) + param(1, dtype, 1, 1, (3,))
              + apply(op, 0, 1)) for op, dtype in TWO_SOURCES),
    *(refused(f'WHERE of {shapes}', 8, 3, param(0, BOOL, 0, 1, shapes[0]) + param(1, I16, 0, 1, shapes[1])
              + param(2, I16, 0, 1, shapes[2]) + apply(WHERE, 0, 1, 2))
      for shapes in (((2,), (3,), (1,)), ((2,), (1,), (3,)), ((1,), (2,), (3,)), ((2, 1), (3,), (3, 1)))),
    # 8 "or over 1048576 elements"
    *(refused(f'PARAM of shape {shape}', 8, 0, param(0, I16, 0, 1, shape))
      for shape in ((1024, 1025), (LARGE, 2), (2, 1, 1, LARGE), (LARGE,) * 4, (17, 61681),
                    (65536, 65536, 65536, 65536))),
    # 17 times 61681 is 1048577
    refused('EXPAND over 1048576', 8, 1, large((1, 1)) + move(EXPAND, 0, (17, 61681))),
    refused('PAD over 1048576', 8, 1, large((1, 1)) + move(PAD, 0, (17, 61681), (0, 0))),
    refused('MUL over 1048576', 8, 2, large((17, 1), (61681,)) + apply(MUL, 0, 1)),
    refused('WHERE over 1048576', 8, 3, param(0, BOOL, 0, 1, (17, 1)) + param(1, I32, 0, 1, (61681,))
            + param(2, I32, 0, 1, ()) + apply(WHERE, 0, 1, 2)),
]
CONDITION, FIRST, SECOND = scalar(0, BOOL, 0, 1, 1), scalar(1, I16, 0, 1, 1), scalar(2, I16, 0, 1, 1)
TWO_DEVICES = [
    # 9 "two devices"
    *(refused(f'{OPERATIONS[op][0]} of devices 1 and 2', 9, 2,
              scalar(0, dtype, 1, 1, 1) + scalar(1, dtype, 1, 1, 2) + apply(op, 0, 1))
      for op, dtype in TWO_SOURCES),
    refused('WHERE with another device of the condition', 9, 3,
            changed(CONDITION, (6, 2)) + FIRST + SECOND + apply(WHERE, 0, 1, 2)),
    refused('WHERE with another device of the second source', 9, 3,
            CONDITION + changed(FIRST, (6, 2)) + SECOND + apply(WHERE, 0, 1, 2)),
    refused('WHERE with another device of the third source', 9, 3,
            CONDITION + FIRST + changed(SECOND, (6, 255)) + apply(WHERE, 0, 1, 2)),
    refused('WHERE with three devices', 9, 3,
            CONDITION + changed(FIRST, (6, 2)) + changed(SECOND, (6, 3)) + apply(WHERE, 0, 1, 2)),
]
DIVISORS = [
    # 10 "divisor bounds contain 0"
    *(refused(f'{OPERATIONS[op][0]} by {ends}', 10, 2,
              scalar(0, I16, 1, 7) + scalar(1, I16, *ends) + apply(op, 0, 1))
      for op in (IDIV, MOD) for ends in ((0, 0), (0, 1), (-1, 0), (-1, 1), (-32767, 32767))),
]
LEAVES = [
    # 11 "bounds leave the type"; "A CONST number or PARAM limit outside its type is 11."; (02) "The range of i16
    # becomes −32767..32767, wherever a type's range is asked for."
    *(refused(f'CONST {value} of type {dtype}', 11, 0, const(dtype, value))
      for dtype, value in ((BOOL, 2), (BOOL, -1), (U8, 256), (U8, -1), (I16, 32768), (I16, -32768),
                           (I32, 2147483648), (I32, -2147483649), (I32, BIG - 1), (I32, -BIG),
                           (U8, 2 ** 32))),
    *(refused(f'PARAM {low} to {high} of type {dtype}', 11, 0, scalar(0, dtype, low, high))
      for dtype, low, high in ((BOOL, 0, 2), (BOOL, -1, 1), (U8, 0, 256), (U8, -1, 255), (I16, 0, 32768),
                               (I16, -32768, 0), (I16, -32768, 32767), (I16, -32768, -32768),
                               (I32, 0, 2147483648), (I32, -2147483649, 0),
                               (I32, -BIG, BIG - 1))),
    # (02) "The marked example of [−16384,16383] added to itself is now refused 11"
    refused('i16 [−16384,16383] added to itself', 11, 1, scalar(0, I16, -16384, 16383) + apply(ADD, 0, 0)),
    # "● [−20000,20000] to itself: refused 11."
    refused('i16 [−20000,20000] added to itself', 11, 1, scalar(0, I16, -20000, 20000) + apply(ADD, 0, 0)),
    refused('ADD one above', 11, 2, scalar(0, U8, 0, 6) + const(U8, 250) + apply(ADD, 0, 1)),
    refused('ADD of i32 one above', 11, 2, scalar(0, I32, 0, 2147483647) + const(I32, 1) + apply(ADD, 0, 1)),
    refused('ADD one below', 11, 2, scalar(0, I16, -1, 0) + const(I16, -32767) + apply(ADD, 0, 1)),
    # "● u8 [0,255] times 2: refused 11."
    refused('u8 [0,255] times 2', 11, 2, scalar(0, U8, 0, 255) + const(U8, 2) + apply(MUL, 0, 1)),
    refused('MUL one below', 11, 2, scalar(0, I16, -256, 1) + scalar(1, I16, 1, 128) + apply(MUL, 0, 1)),
    refused('MUL of i32 far out', 11, 1, scalar(0, I32, -2147483648, 2147483647) + apply(MUL, 0, 0)),
    # "● i32 [−2147483648,0] by −1: refused 11."
    refused('i32 [−2147483648,0] by −1', 11, 2,
            scalar(0, I32, -2147483648, 0) + const(I32, -1) + apply(IDIV, 0, 1)),
    refused('CAST of 256 to u8', 11, 1, scalar(0, I16, 0, 256) + cast(0, U8)),
    refused('CAST of −1 to u8', 11, 1, scalar(0, I16, -1, 255) + cast(0, U8)),
    refused('CAST of 2 to bool', 11, 1, scalar(0, U8, 0, 2) + cast(0, BOOL)),
    refused('CAST of i32 to i16', 11, 1, scalar(0, I32, -32768, 0) + cast(0, I16)),
    refused('sum one above', 11, 1, param(0, U8, 0, 64, (4,)) + reduce_node(0, 0, (1,))),
    refused('sum one below', 11, 1, param(0, I16, -16384, 0, (2,)) + reduce_node(0, 0, (1,))),
    refused('sum of 1048576 far out', 11, 1, param(0, I32, -2147483648, 2147483647, (LARGE,))
            + reduce_node(0, 0, (1,))),
]
# "all nodes together over 4194304 elements"
FULL = large(*[(LARGE,)] * 4)
OVER = FULL + const(I32, 1)
TOTALS = [
    accepted('4194304 elements together', FULL, *[(I32, 1, 0, 1, LARGE)] * 4),
    refused('4194305 elements together', 12, 0, OVER),
    refused('4194305 elements by FLIP', 12, 0, large((LARGE,)) + move(FLIP, 0, (1,)) * 3 + const(I32, 1)),
]
ROOMS = [
    # 14 "a buffer written to is too short"; "A check writes eight words a node"; "Buffer places past what any
    # call writes stay as they were."
    refused('no room for a check', 14, 0, const(I16, 5), room=0),
    refused('room one short', 14, 0, const(I16, 5), room=7),
    accepted('room exact', const(I16, 5), (I16, 0, 5, 5), room=8),
    accepted('room to spare', const(I16, 5), (I16, 0, 5, 5), room=29),
    refused('room for two of three nodes', 14, 0, const(I16, 5) * 3, room=23),
]

# -------------------------------------------------------- order of the check
# "within a node 2 to 11 by number": each pair that one node can break together; the answer is the first. In
# the rest of a node whose operation is unknown nothing is used, so 2 stands against its words at large.

I16_PAIR = scalar(0, I16, 0, 32767) + scalar(1, I16, 0, 1)
DIVIDE = param(0, I32, -2147483648, 0, (2,)) + param(1, I32, -1, 0, (2,))
OTHER_SHAPE = param(0, I32, -2147483648, 0, (2,)) + param(1, I32, -1, 0, (3,))
OTHER_DEVICE = param(0, I32, -2147483648, 0, (2,)) + param(1, I32, -1, 0, (2,), 2)
PAIRS = {
    (2, 3): [node(UNKNOWN, {k: 1 for k in range(1, 17)})],
    (2, 4): [node(UNKNOWN, {1: -1, 2: -1, 3: -1})],
    (2, 5): [node(UNKNOWN, {4: 9})],
    (2, 7): [node(UNKNOWN, {5: 9, 6: -1, 9: -1, 13: -1})],
    (3, 4): [changed(cast(0, I16), (2, 1))],
    (3, 5): [changed(const(4, 0), (1, 1))],
    (3, 6): [I16_PAIR + const(U8, 1), changed(apply(MAX, 0, 2), (3, 1))],
    (3, 7): [I16_PAIR, changed(load(0, 0), (2, 1))],
    (3, 8): [I16_PAIR, changed(move(RESHAPE, 0, (2,)), (2, 1))],
    (3, 9): [OTHER_DEVICE, changed(apply(MAX, 0, 1), (3, 1))],
    (3, 10): [DIVIDE, changed(apply(MOD, 0, 1), (16, 1))],
    (3, 11): [changed(const(I16, 32768), (1, 1))],
    (4, 5): [cast(0, 4)],
    (4, 6): [const(BOOL, 1), apply(ADD, 0, 1)],
    (4, 7): [load(0, 0)],
    (4, 8): [move(RESHAPE, 0, (LARGE,) * 4)],
    (4, 9): [scalar(0, BOOL, 0, 1, 1) + scalar(1, I16, 0, 1, 2), apply(WHERE, 0, 1, 2)],
    (4, 10): [const(I16, 0), apply(IDIV, 1, 0)],
    (4, 11): [I16_PAIR, apply(ADD, 0, 2), I16_PAIR],
    (5, 7): [scalar(1, 4, 0, 1)],
    (5, 8): [param(0, 4, 0, 1, (LARGE, 2))],
    (5, 11): [const(4, 2 ** 40)],
    (6, 7): [const(BOOL, 1), reduce_node(0, 2, ())],
    (6, 8): [param(0, U8, 0, 1, (2,)) + param(1, I16, 0, 1, (3,)), apply(MAX, 0, 1)],
    (6, 9): [scalar(0, I16, 0, 1, 1) + scalar(1, U8, 0, 1, 2), apply(ADD, 0, 1)],
    (6, 10): [const(U8, 0) + const(I16, 1), apply(IDIV, 1, 0)],
    (6, 11): [param(0, BOOL, 0, 1, (3,)), reduce_node(0, 0, (1,))],
    (7, 8): [param(0, I16, 0, 1, (2,)), move(PAD, 0, (2,), (1, 1))],
    (7, 9): [scalar(0, I16, 0, 1, 1) + scalar(1, I16, 0, 1, 2), stacked(0, 1, 0, 4)],
    (7, 11): [param(0, I16, 0, 32767, (2,)), reduce_node(0, 0, (1, 1))],
    (8, 9): [param(0, I16, 0, 1, (2,), 1) + param(1, I16, 0, 1, (3,), 2), apply(ADD, 0, 1)],
    (8, 10): [OTHER_SHAPE, apply(MOD, 0, 1)],
    (8, 11): [param(0, I16, 0, 32768, (LARGE, 2))],
    (9, 10): [OTHER_DEVICE, apply(MOD, 0, 1)],
    (9, 11): [scalar(0, I16, 0, 32767, 1) + scalar(1, I16, 0, 1, 2), apply(ADD, 0, 1)],
    (10, 11): [DIVIDE, apply(IDIV, 0, 1)],
}
# 2 with 6 and 8 to 11: those rules are asked of an operation. 5 is a rule of CONST, PARAM and CAST, none of
# which has a type rule, two devices or a divisor; an operation with a row or a number of rule 7 has no divisor.
NEVER_TOGETHER = {(2, 6), (2, 8), (2, 9), (2, 10), (2, 11), (5, 6), (5, 9), (5, 10), (7, 10)}
# more ways of a pair
MORE_PAIRS = (
    ((4, 5), [const(I16, 5), cast(-1, -1)]), ((4, 6), [const(U8, 1), apply(AND, 0, 5)]),
    ((4, 7), [const(I16, 5), move(FLIP, 1, (2,))]),
    ((5, 7), [scalar(0, 4, 1, 0)]), ((5, 7), [scalar(0, 4, 0, 1, 0)]),
    ((6, 10), [const(BOOL, 0), apply(MOD, 0, 0)]),
    ((7, 8), [param(1, I16, 0, 1, (LARGE, 2))]), ((7, 8), [TWO_BY_THREE, move(PAD, 0, (2, 3, 0, 1), (9, 9))]),
    ((7, 8), [TWO_BY_THREE, move(SHRINK, 0, (9, 9), (0, -1))]), ((7, 11), [scalar(1, I16, 0, 32768)]),
    ((7, 11), [scalar(0, I16, 40000, 32768)]),
    ((8, 11), [param(0, I16, 0, 32767, (2,)) + param(1, I16, 0, 1, (3,)), apply(ADD, 0, 1)]),
)


def pair_case(pair, parts):
    """A node that breaks both rules after the nodes before it, if any; nodes after it may follow."""
    before = parts[0] if len(parts) > 1 else []
    return refused(f'{pair[0]} before {pair[1]}', pair[0], len(before) // 17, sum(parts, []))


# One node for each rule of a node, over the nodes 0 to 2 of GROUND.
GROUND = scalar(0, I16, 0, 32767, 1) + scalar(1, I16, 0, 1, 2) + const(BOOL, 1)
BROKEN = {2: node(UNKNOWN), 3: changed(const(I16, 5), (1, 1)), 4: load(-1, 1), 5: const(4, 0), 6: apply(MAX, 0, 2),
          7: load(0, 0), 8: move(RESHAPE, 0, (2,)), 9: apply(MAX, 0, 1), 10: apply(IDIV, 0, 0),
          11: apply(ADD, 0, 0)}
ORDER = [
    *(pair_case(pair, parts) for pair, parts in (*PAIRS.items(), *MORE_PAIRS)),
    # "Order: 1; nodes in turn": 1 before any node, before 12 and before 14
    refused('1 before 2', 1, 0, node(UNKNOWN) + [0]),
    refused('1 before 3', 1, 0, BROKEN[3] + [0]),
    refused('1 before 11', 1, 0, const(I16, 32768) + [0]),
    refused('1 before 12', 1, 0, OVER + [0]),
    refused('1 before 14', 1, 0, [], room=0),
    # "nodes in turn, within a node 2 to 11 by number": an earlier node wins over a lower number
    *(refused(f'{number} of an earlier node before lower numbers', number, 3,
              GROUND + sum((BROKEN[k] for k in range(number, 1, -1)), [])) for number in range(3, 12)),
    # "nodes in turn ..; 12": a late node wins
    *(refused(f'{number} of a late node before 12', number, 7,
              GROUND + [w for k in range(4) for w in param(2 + k, I32, 0, 1, (LARGE,))]
              + BROKEN[number]) for number in range(2, 12)),
    # "12 ..; then 13, 14": the check's refusals come before the room
    *(refused(f'{number} before 14', number, 3, GROUND + BROKEN[number], room=0) for number in range(2, 12)),
    refused('12 before 14', 12, 0, OVER, room=0),
]

CHECKS = [*BY_OPERATION, *UNUSED, *(bounds_case(*row) for row in BOUNDS), *OTHER_BOUNDS, *SHAPES, *DEVICES,
          *THREE_ACCEPTED, *THREE_REFUSED, *LENGTHS, *OPERATION_UNKNOWN,
          *SOURCES, *DTYPES, *TYPE_RULES, *PARAM_RULES, *ROWS, *SHAPES_DISAGREE, *TWO_DEVICES, *DIVISORS,
          *LEAVES, *TOTALS, *ROOMS, *ORDER]

# ------------------------------------------------------------ packed plans

FIVE = const(I16, 5)


def word_written(text, value):
    """A CONST of i32 whose number is written by the bytes."""
    return unpacks(f'{text} is the word {value}', '01 00 06 ' + text, 1, const(I32, value))


UNPACKED = [
    # "For bytes 01 00 04 0A": type 2, number 5
    unpacks('one CONST', '01 00 04 0A', 1, FIVE),
    # "300 as a word is D8 04."
    word_written('D8 04', 300),
    # "other words n are written as 2n, or −2n−1 below zero"
    word_written('00', 0), word_written('01', -1), word_written('02', 1), word_written('03', -2),
    word_written('7E', 63), word_written('7F', -64),
    # "Numbers are written in groups of seven bits, lowest first, .. shortest form, at most 5 bytes"
    word_written('80 01', 64), word_written('81 01', -65), word_written('FE FF 03', 32767),
    word_written('FF FF 03', -32768),
    word_written('80 80 01', 8192), word_written('80 80 80 01', 1048576),
    word_written('80 80 80 80 01', 134217728),
    word_written('FE FF FF FF 0F', 2147483647), word_written('FF FF FF FF 0F', -2147483648),
    word_written('FE FF FF FF 7F', 17179869183), word_written('FF FF FF FF 7F', -17179869184),
    # "for each node its operation and its used words in rising order"; "zeros elsewhere"
    unpacks('PARAM', '01 01 04 00 0E 07 14 04 06 08 0A', 1,
            [1, 0, 0, 0, 2, 0, 7, -4, 10, 2, 3, 4, 5, 0, 0, 0, 0]),
    unpacks('PERMUTE', '01 02 00 02 00 04 06', 1, [2, 0, 0, 0, 0, 0, 0, 0, 0, 1, 0, 2, 3, 0, 0, 0, 0]),
    unpacks('PAD', '01 06 02 04 06 08 0A 0C 0E 10 12', 1,
            [6, 1, 0, 0, 0, 0, 0, 0, 0, 2, 3, 4, 5, 6, 7, 8, 9]),
    unpacks('CAST', '01 08 02 06', 1, [8, 1, 0, 0, 3, 0, 0, 0, 0, 0, 0, 0, 0, 0, 0, 0, 0]),
    unpacks('WHERE', '01 12 02 04 06', 1, [18, 1, 2, 3, 0, 0, 0, 0, 0, 0, 0, 0, 0, 0, 0, 0, 0]),
    unpacks('REDUCE', '01 13 02 04 06 08 0A 0C', 1, [19, 1, 0, 0, 0, 2, 0, 0, 0, 3, 4, 5, 6, 0, 0, 0, 0]),
    unpacks('LOAD', '01 14 02 0E', 1, [20, 1, 0, 0, 0, 0, 7, 0, 0, 0, 0, 0, 0, 0, 0, 0, 0]),
    *(unpacks(f'{OPERATIONS[op][0]}', f'01 {op:02X} 02 04 06 08 0A', 1,
              [op, 1, 0, 0, 0, 0, 0, 0, 0, 2, 3, 4, 5, 0, 0, 0, 0])
      for op in (FLIP, RESHAPE, EXPAND)),
    unpacks('SHRINK', '01 07 02 04 06 08 0A 0C 0E 10 12', 1,
            [7, 1, 0, 0, 0, 0, 0, 0, 0, 2, 3, 4, 5, 6, 7, 8, 9]),
    *(unpacks(f'{OPERATIONS[op][0]}', f'01 {op:02X} 02 03', 1, [op, 1, -2] + [0] * 14)
      for op in (ADD, MUL, MAX, IDIV, MOD, CMPLT, CMPNE, AND, OR)),
    # "unpacking also answers the node count"; the rules of a check are not asked, nor is the range of a type
    unpacks('−32768 of i16', '01 00 04 FF FF 03', 1, const(I16, -32768)),
    unpacks('three nodes', '03 00 04 0A 14 00 02 09 00 02', 3, FIVE + load(0, 1) + apply(ADD, 0, 1)),
    unpacks('256 nodes', '80 02' + '00 04 0A' * 256, 256, FIVE * 256),
    # 14 "a buffer written to is too short": 17 words a node of the count
    unpacks('room exact', '01 00 04 0A', 1, FIVE, room=17),
    unpacks('room exact for two', '02 00 04 0A 00 04 0A', 2, FIVE * 2, room=34),
    unpack_refused('room one short', '01 00 04 0A', 14, 0, room=16),
    unpack_refused('room one short for two', '02 00 04 0A 00 04 0A', 14, 0, room=33),
    unpack_refused('no room', '01 00 04 0A', 14, 0, room=0),
]
BYTES_REFUSED = [
    # 20 "bytes end before or inside a number", "its first byte"; "Empty bytes: refused 20 at 0."
    unpack_refused('empty bytes', '', 20, 0),
    unpack_refused('the end inside the count', '81', 20, 0),
    unpack_refused('the end after the count', '01', 20, 1),
    unpack_refused('the end inside an operation', '01 80', 20, 1),
    unpack_refused('the end after an operation', '01 00', 20, 2),
    unpack_refused('the end before the last word', '01 00 04', 20, 3),
    unpack_refused('the end inside the last word', '01 00 04 D8', 20, 3),
    unpack_refused('the end after four bytes of a number', '01 00 04 80 80 80 80', 20, 3),
    unpack_refused('the end after the first of two nodes', '02 00 04 0A', 20, 4),
    unpack_refused('the end inside the second node', '02 00 04 0A 00 04', 20, 6),
    # 21 "fifth byte has its high bit, or a later last byte is 0", "its first byte"
    unpack_refused('count in two bytes, the last 0', '81 00', 21, 0),
    unpack_refused('count in five bytes, the last 0', '81 80 80 80 00', 21, 0),
    unpack_refused('count whose fifth byte has its high bit', '81 80 80 80 80', 21, 0),
    unpack_refused('count of six bytes', '81 80 80 80 80 01', 21, 0),
    unpack_refused('operation with a last byte of 0', '01 80 00 04 0A', 21, 1),
    unpack_refused('word with a last byte of 0', '01 00 84 00 0A', 21, 2),
    unpack_refused('last word with a last byte of 0', '01 00 04 8A 00', 21, 3),
    unpack_refused('last word with a third byte of 0', '01 00 04 D8 84 00', 21, 3),
    unpack_refused('last word whose fifth byte has its high bit', '01 00 04 FF FF FF FF FF', 21, 3),
    unpack_refused('last word of six bytes', '01 00 04 80 80 80 80 80 01', 21, 3),
    # 22 "bytes left over", "first of them"
    unpack_refused('one byte left over', '01 00 04 0A 00', 22, 4),
    unpack_refused('three bytes left over', '01 00 04 0A FF FF FF', 22, 4),
    unpack_refused('a whole node left over', '01 00 04 0A 00 04 0A', 22, 4),
    unpack_refused('one byte left over after two nodes', '02 00 04 0A 00 04 D8 04 15', 22, 8),
    # 23 "count not 1..256", place 0
    unpack_refused('count 0', '00', 23, 0),
    unpack_refused('count 257', '81 02', 23, 0),
    unpack_refused('count 2^35 − 1', 'FF FF FF FF 7F', 23, 0),
    # 24 "operation not 0..20", "its byte"; (02) "First edition readers keep refusing 23 and 24"
    *(unpack_refused(f'operation {op} in the first edition', f'01 {op:02X} 00 00 00 04', 24, 1)
      for op in (21, 22, 23, 24)),
    unpack_refused('KNOWN of the second node in the first edition', '02 00 04 0A 16 00', 24, 4),
    unpack_refused('operation 127', '01 7F 00 00', 24, 1),
    unpack_refused('operation 149 in two bytes', '01 95 01', 24, 1),
    unpack_refused('operation 128, whose low seven bits are CONST', '01 80 01 04 0A', 24, 1),
    unpack_refused('operation 2^35 − 1', '01 FF FF FF FF 7F', 24, 1),
    unpack_refused('operation 21 of the second node', '02 00 04 D8 04 15', 24, 5),
]
BYTE_ORDER = [
    # "Unpacking: count (20, 21, 23), 14 for the table's room, numbers in byte order, 22 last."
    unpack_refused('20 of the count before 14', '', 20, 0, room=0),
    unpack_refused('20 inside the count before 14', '82', 20, 0, room=0),
    unpack_refused('21 of the count before 14', '81 00', 21, 0, room=0),
    unpack_refused('21 of the count before 23', '80 00', 21, 0),
    unpack_refused('23 before 14, count 0', '00', 23, 0, room=0),
    unpack_refused('23 before 14, count 257', '81 02', 23, 0, room=0),
    unpack_refused('23 before 20', '81 02 00', 23, 0),
    unpack_refused('23 before 21', '00 80 00', 23, 0),
    unpack_refused('23 before 22', '00 00', 23, 0),
    unpack_refused('23 before 24', '00 15', 23, 0),
    unpack_refused('14 before 20', '01', 14, 0, room=16),
    unpack_refused('14 before 20 of a late number', '02 00 04 0A', 14, 0, room=33),
    unpack_refused('14 before 21', '01 80 00', 14, 0, room=16),
    unpack_refused('14 before 22', '01 00 04 0A 00', 14, 0, room=16),
    unpack_refused('14 before 24', '01 15', 14, 0, room=16),
    unpack_refused('14 of 256 nodes before 20', '80 02', 14, 0),
    unpack_refused('21 before 20 in one number', '01 00 04 80 80 80 80 80', 21, 3),
    unpack_refused('21 before 20 of a later number', '01 00 84 00', 21, 2),
    unpack_refused('21 of an operation before 24', '01 95 00', 21, 1),
    unpack_refused('20 of an operation before 24', '01 95', 20, 1),
    unpack_refused('21 before 24 of a later node', '02 00 84 00 0A 15', 21, 2),
    unpack_refused('21 before 22', '01 00 84 00 0A 00', 21, 2),
    unpack_refused('24 before 20', '02 15', 24, 1),
    unpack_refused('24 before 21 of the next number', '01 15 80 00', 24, 1),
    unpack_refused('24 before 20 of the next number', '01 15 80', 24, 1),
    unpack_refused('24 before 22', '01 15 00 00 00', 24, 1),
]

# ---------------------------------------------------- second edition files
# (02) "A second edition file starts with bytes 00 02, then count and nodes as before"

SECOND_UNPACKED = [
    unpacks('FILL', '00 02 01 15 02 03', 1, [21, 1, -2] + [0] * 14),
    unpacks('KNOWN', '00 02 01 16 02', 1, [22, 1] + [0] * 15),
    unpacks('STACK', '00 02 01 17 02 04 06 09', 1, [23, 1, 2, 3, 0, -5] + [0] * 11),
    unpacks('a STACK of two', '00 02 02 00 04 0A 17 00 00 00 04', 2, FIVE + stack(0, 0)),
    unpacks('a STACK of three', '00 02 02 00 04 0A 17 00 00 00 06', 2, FIVE + stack(0, 0, 0)),
    unpacks('a STACK of two with a word 3 not zero', '00 02 01 17 00 00 0A 04', 1, node(STACK, {3: 5, 5: 2})),
    unpacks('a new operation first', '00 02 02 16 00 00 04 0A', 2, apply(KNOWN, 0) + FIVE),
    unpacks('a new operation in between', '00 02 03 00 04 0A 16 00 14 00 02', 3, FIVE + apply(KNOWN, 0) + load(0, 1)),
    unpacks('a new operation last', '00 02 03 00 04 0A 14 00 02 16 02', 3, FIVE + load(0, 1) + apply(KNOWN, 1)),
    unpacks('each new operation', '00 02 04 00 04 0A 15 00 00 16 02 17 02 00 00 04', 4,
            FIVE + apply(FILL, 0, 0) + apply(KNOWN, 1) + stack(1, 0)),
    unpacks('words of five bytes', '00 02 01 17 FF FF FF FF 7F FE FF FF FF 7F FF FF FF FF 0F 80 80 80 80 40', 1,
            node(STACK, {1: -17179869184, 2: 17179869183, 3: -2147483648, 5: 8589934592})),
    unpacks('room exact for a second edition file', '00 02 01 16 00', 1, apply(KNOWN, 0), room=17),
]
SECOND_REFUSED = [
    # (02) "a leading 00 not followed by 02 is 23"
    unpack_refused('00 alone', '00', 23, 0),
    *(unpack_refused(f'edition {text}', f'00 {text} 01 16 00', 23, 0)
      for text in ('00', '01', '03', '04', '15', '7F', '80', 'FF')),
    unpack_refused('edition 2 in two bytes', '00 82 00', 23, 0),
    unpack_refused('edition 2 in two bytes before a plan', '00 82 00 01 16 00', 23, 0),
    unpack_refused('an edition and no more', '00 03', 23, 0),
    unpack_refused('00 00 02', '00 00 02 01 16 00', 23, 0),
    # 20 and 21 of the count, its first byte being byte 2; 23 "count not 1..256", place 0
    unpack_refused('00 02 and no more', '00 02', 20, 2),
    unpack_refused('the end inside the count of a second edition file', '00 02 81', 20, 2),
    unpack_refused('the end after four bytes of the count', '00 02 81 80 80 80', 20, 2),
    unpack_refused('the count of a second edition file with a last byte of 0', '00 02 81 00', 21, 2),
    unpack_refused('the count of a second edition file in six bytes', '00 02 81 80 80 80 80 01', 21, 2),
    unpack_refused('count 0 of a second edition file', '00 02 00', 23, 0),
    unpack_refused('00 02 twice', '00 02 00 02 01 16 00', 23, 0),
    unpack_refused('count 257 of a second edition file', '00 02 81 02', 23, 0),
    unpack_refused('count 2^35 − 1 of a second edition file', '00 02 FF FF FF FF 7F', 23, 0),
    # 20, 21 and 22 of later bytes, places from the first byte of the file
    unpack_refused('the end after the count', '00 02 01', 20, 3),
    unpack_refused('the end inside a new operation', '00 02 01 96', 20, 3),
    unpack_refused('the end after KNOWN', '00 02 01 16', 20, 4),
    unpack_refused('the end before the number of a STACK', '00 02 01 17 00 00 00', 20, 7),
    unpack_refused('the end inside the number of a STACK', '00 02 01 17 00 00 00 84', 20, 7),
    unpack_refused('the end after the first of two nodes', '00 02 02 16 00', 20, 5),
    unpack_refused('KNOWN with a last byte of 0', '00 02 01 96 00 00', 21, 3),
    unpack_refused('word 3 of a STACK with a last byte of 0', '00 02 01 17 00 00 80 00 04', 21, 6),
    unpack_refused('the number of a STACK whose fifth byte has its high bit',
                   '00 02 01 17 00 00 00 84 80 80 80 80', 21, 7),
    unpack_refused('a byte left over after KNOWN', '00 02 01 16 00 00', 22, 5),
    unpack_refused('a node left over after STACK', '00 02 01 17 00 00 00 04 00 04 0A', 22, 8),
    # (02) "for second edition files, rule 24 the limit is 23"
    *(unpack_refused(f'operation {text} in the second edition', f'00 02 01 {text}', 24, 3)
      for text in ('18', '19', '7F', '95 01', '96 02', 'FF FF FF FF 7F')),
    unpack_refused('operation 24 after a new operation', '00 02 02 16 00 18', 24, 5),
    # (02) "26 for a second edition file with no new operation", place 0
    unpack_refused('one CONST in a second edition file', '00 02 01 00 04 0A', 26, 0),
    unpack_refused('a LOAD in a second edition file', '00 02 02 00 04 0A 14 00 02', 26, 0),
    unpack_refused('words 21, 22 and 23 and no new operation', '00 02 02 00 04 2A 08 2C 2E', 26, 0),
]
SECOND_ORDER = [
    # (02) "26 .. after 22", and so after 14 and all numbers
    unpack_refused('20 of the count before 14 in the second edition', '00 02', 20, 2, room=0),
    unpack_refused('21 of the count before 14 in the second edition', '00 02 81 00', 21, 2, room=0),
    unpack_refused('23 of the edition before 14', '00 03', 23, 0, room=0),
    unpack_refused('23 of the edition before 21', '00 01 81 00', 23, 0),
    unpack_refused('23 of the count before 14 in the second edition', '00 02 00', 23, 0, room=0),
    unpack_refused('23 of the count before 24 in the second edition', '00 02 00 18', 23, 0),
    unpack_refused('14 before 20 in the second edition', '00 02 01', 14, 0, room=16),
    unpack_refused('14 before 24 in the second edition', '00 02 01 18', 14, 0, room=16),
    unpack_refused('14 before 22 and 26', '00 02 01 00 04 0A 00', 14, 0, room=16),
    unpack_refused('14 before 26', '00 02 01 00 04 0A', 14, 0, room=16),
    unpack_refused('14 of a second edition file, no room', '00 02 01 16 00', 14, 0, room=0),
    unpack_refused('14 of a second edition file, one short for two', '00 02 02 00 04 0A 16 00', 14, 0, room=33),
    unpack_refused('20 before 26', '00 02 01 00 04', 20, 5),
    unpack_refused('21 before 26', '00 02 01 00 84 00 0A', 21, 4),
    unpack_refused('24 before 26', '00 02 02 00 04 0A 18', 24, 6),
    unpack_refused('22 before 26', '00 02 01 00 04 0A 00', 22, 6),
    unpack_refused('22 before 26, a new operation left over', '00 02 01 00 04 0A 16 00', 22, 6),
    unpack_refused('21 of an operation before 24 in the second edition', '00 02 01 98 00', 21, 3),
    unpack_refused('20 of an operation before 24 in the second edition', '00 02 01 98', 20, 3),
    unpack_refused('24 before 20 in the first edition', '01 16', 24, 1),
    unpack_refused('24 before 22 in the first edition', '01 16 00 00', 24, 1),
    unpack_refused('14 before 24 in the first edition', '01 16 00', 14, 0, room=16),
]

# ---------------------------------------- numbers of one byte and of more
# (02) "a short way for a number whose first byte is below 128"; "Its answers, places and refusals remain those of today"

# The greatest number of one byte, the least and the greatest of two, the greatest of 32 bits and of five bytes; each
# as the word that it is.
WRITTEN = (('7F', -64), ('80 01', 64), ('FF 7F', -8192), ('FF FF FF FF 0F', -2147483648),
           ('FF FF FF FF 7F', -17179869184))
PADDED = '80 00'
CONSTS_126 = '00 04 0A' * 126


def at_both_places(text, word):
    """A word that is written by the bytes, in the middle of them and at their end, in a file of each edition."""
    name = f'{text} is the word {word}'
    yield unpacks(f'{name}, in the middle', f'01 00 {text} 0A', 1, const(word, 5), room=17)
    yield unpacks(f'{name}, in the middle of the second edition', f'00 02 01 17 00 {text} 00 04', 1,
                  node(STACK, {2: word, 5: 2}), room=17)
    yield unpacks(f'{name}, at the end', f'01 00 04 {text}', 1, const(I16, word), room=17)
    yield unpacks(f'{name}, at the end of the second edition', f'00 02 01 16 {text}', 1, apply(KNOWN, word), room=17)


SHORT_UNPACKED = [case for text, word in WRITTEN for case in at_both_places(text, word)]
SHORT_REFUSED = [
    # 21 "a later last byte is 0", "its first byte": the count, an operation, a word and the last word
    *(unpack_refused(f'{PADDED}: {name}', text, 21, place, room=17) for name, text, place in (
        ('all that there is', PADDED, 0), ('count', PADDED + '00 04 0A', 0), ('operation', '01' + PADDED + '04 0A', 1),
        ('word', '01 00' + PADDED + '0A', 2), ('last word', '01 00 04' + PADDED, 3),
        ('all after 00 02', '00 02' + PADDED, 2), ('count after 00 02', '00 02' + PADDED + '16 00', 2),
        ('operation after 00 02 01', '00 02 01' + PADDED + '00', 3), ('word of FILL', '00 02 01 15' + PADDED + '00', 4),
        ('last word of FILL', '00 02 01 15 00' + PADDED, 5), ('last word of KNOWN', '00 02 01 16' + PADDED, 4))),
    # 23 "count not 1..256", place 0
    *(unpack_refused(f'count {text}{name}', before + text + after, 23, 0, room=17) for text in ('FF 7F', 'FF FF FF FF 0F')
      for name, before, after in ((' alone', '', ''), ('', '', '00 04 0A'), (' alone after 00 02', '00 02', ''),
                                  (' after 00 02', '00 02', '16 00'))),
    # 24 "operation not 0..20", "its byte"; (02) "for second edition files, rule 24 the limit is 23"
    *(unpack_refused(f'operation {text}, {name}', before + text + after, 24, place, room=34)
      for text in ('7F', '80 01', 'FF 7F', 'FF FF FF FF 0F')
      for name, before, after, place in (('at the end', '01', '', 1), ('of the second node', '02 00 04 0A', '04 0A', 4),
                                         ('at the end of the second edition', '00 02 01', '', 3),
                                         ('of the second node of the second edition', '00 02 02 16 00', '00', 5))),
    # 20 "bytes end before or inside a number", "its first byte": after 7F another number has to come, after 80 or FF
    # another byte of this one
    *(unpack_refused(f'the end after {text}: {name}', before + text, 20, place, room=17)
      for text, name, before, place in (
          ('7F', 'type of a CONST', '01 00', 3), ('7F', 'first word of FILL', '00 02 01 15', 5),
          ('80', 'count', '', 0), ('80', 'operation', '01', 1), ('80', 'word', '01 00', 2),
          ('80', 'last word', '01 00 04', 3), ('80', 'count after 00 02', '00 02', 2),
          ('80', 'operation after 00 02 01', '00 02 01', 3), ('80', 'word of KNOWN', '00 02 01 16', 4),
          ('FF', 'last word', '01 00 04', 3), ('FF', 'word of KNOWN', '00 02 01 16', 4),
          ('FF FF FF FF', 'count', '', 0), ('FF FF FF FF', 'last word', '01 00 04', 3),
          ('FF FF FF FF', 'count after 00 02', '00 02', 2), ('FF FF FF FF', 'word of KNOWN', '00 02 01 16', 4))),
]
SHORT_ONE_CALL = [
    # "the answer is the node count": 127 in one byte and 128 in two, in a file of each edition
    in_one_call('127 nodes', bytes.fromhex('7F' + CONSTS_126 + '00 04 0A'), 127),
    in_one_call('128 nodes', bytes.fromhex('80 01' + CONSTS_126 + '00 04 0A' * 2), 128),
    in_one_call('127 nodes of the second edition', bytes.fromhex('00 02 7F' + CONSTS_126 + '16 00'), 127),
    in_one_call('128 nodes of the second edition', bytes.fromhex('00 02 80 01' + CONSTS_126 + '00 04 0A 16 00'), 128),
    # 20 "bytes end before .. a number" and 22 "bytes left over": a node of three bytes too few or too many
    in_one_call('126 nodes of 127', bytes.fromhex('7F' + CONSTS_126), code(20, 379)),
    in_one_call('128 nodes for 127', bytes.fromhex('7F' + CONSTS_126 + '00 04 0A' * 2), code(22, 382)),
    in_one_call('127 nodes of 128', bytes.fromhex('80 01' + CONSTS_126 + '00 04 0A'), code(20, 383)),
    in_one_call('129 nodes for 128', bytes.fromhex('80 01' + CONSTS_126 + '00 04 0A' * 3), code(22, 386)),
    in_one_call('127 nodes and 16 left over', bytes.fromhex('00 02 7F' + CONSTS_126 + '16 00 16'), code(22, 383)),
    in_one_call('127 nodes of 128 in the second edition', bytes.fromhex('00 02 80 01' + CONSTS_126 + '16 00'),
                code(20, 384)),
    # "A CONST number .. outside its type is 11", −8192 of i16 is inside; 5 of a type, 4 of a source
    *(in_one_call(f'{text} as an i16', bytes.fromhex('01 00 04' + text), answer)
      for text, answer in (('7F', 1), ('80 01', 1), ('FF 7F', 1), ('FF FF FF FF 0F', code(11, 0)),
                           ('FF FF FF FF 7F', code(11, 0)))),
    *(in_one_call(f'{text} as {name}', bytes.fromhex(before + text + after), answer) for text, _ in WRITTEN
      for name, before, after, answer in (('a type', '01 00', '0A', code(5, 0)), ('a source', '01 14', '02', code(4, 0)),
                                          ('a source of KNOWN', '00 02 02 00 04 0A 16', '', code(4, 1)))),
    *(in_one_call(f'in one call: {case.name}', case.source, code(*case.answer[:2])) for case in SHORT_REFUSED),
]

# ---------------------------------------------------- unpack and check in one

GREATEST = bytes.fromhex('80 02') + bytes.fromhex('06' + 'FF FF FF FF 7F' * 9) * 256
ONE_CALL = [
    # "the answer is the node count or, refused, 65536 times the number plus the place"
    in_one_call('one CONST', bytes.fromhex('01 00 04 0A'), 1),
    in_one_call('256 CONSTs', bytes.fromhex('80 02' + '00 04 0A' * 256), 256),
    # (02) "The range of i16 becomes −32767..32767": −32768, −32767, 32767 and 32768 as words
    *(in_one_call(f'{text} of i16', bytes.fromhex('01 00 04 ' + text), answer)
      for text, answer in (('FF FF 03', code(11, 0)), ('FD FF 03', 1), ('FE FF 03', 1), ('80 80 04', code(11, 0)))),
    *(in_one_call(f'in one call: {case.name}', case.source, code(*case.answer[:2]))
      for case in (*BYTES_REFUSED, *SECOND_REFUSED)),
    in_one_call('count 256 is one', bytes.fromhex('80 02'), code(20, 2)),
    in_one_call('count 256 of a second edition file is one', bytes.fromhex('00 02 80 02'), code(20, 4)),
    # (02) "A second edition file": both editions are read
    in_one_call('256 nodes of the second edition', bytes.fromhex('00 02 80 02' + '00 04 0A' * 255 + '16 00'), 256),
    in_one_call('KNOWN of a CONST', bytes.fromhex('00 02 02 00 04 0A 16 00'), 2),
    in_one_call('KNOWN of itself', bytes.fromhex('00 02 01 16 00'), code(4, 0)),
    in_one_call('a STACK of two with a word 3 not zero', bytes.fromhex('00 02 02 00 04 0A 17 00 00 02 04'), code(7, 1)),
    in_one_call('a STACK of three with a word 3 not earlier', bytes.fromhex('00 02 02 00 04 0A 17 00 00 02 06'),
                code(4, 1)),
    in_one_call('26 before 5', bytes.fromhex('00 02 01 00 09 0A'), code(26, 0)),
    in_one_call('22 before 26 and 5', bytes.fromhex('00 02 01 00 09 0A 00'), code(22, 6)),
    # "256 nodes take at most 11778": each word −2^34, so node 0 has a negative source
    in_one_call('11778 bytes', GREATEST, code(4, 0)),
    in_one_call('11778 bytes and one', GREATEST + b'\0', code(22, 11778)),
    in_one_call('11778 bytes but one', GREATEST[:-1], code(20, 11773)),
    # "all nodes together over 4194304 elements"
    in_one_call('256 nodes of 1048576', pack(large((LARGE,)) + move(FLIP, 0, (1,)) * 255), code(12, 0)),
    # unpacking comes before the check: type −5 in node 0 is 5
    in_one_call('20 before 5', bytes.fromhex('02 00 09 0A'), code(20, 4)),
    in_one_call('21 before 5', bytes.fromhex('02 00 09 0A 80 00'), code(21, 4)),
    in_one_call('22 before 5', bytes.fromhex('01 00 09 0A 00'), code(22, 4)),
    in_one_call('24 before 5', bytes.fromhex('02 00 09 0A 15'), code(24, 4)),
    in_one_call('5 alone', bytes.fromhex('01 00 09 0A'), code(5, 0)),
    # "The program and the C call work on 256 node records at most.": the last of 256 nodes as the place
    *(in_one_call(f'{number} at the last of 256 nodes', pack(GROUND + const(I16, 5) * 252 + BROKEN[number]),
                  code(number, 255))
      for number in range(4, 12)),
]


def packed_too(cases):
    """The packable plans of the checks by unpack and check in one call; room plays no part there."""
    for case in cases:
        if model.pack_refusal(case.source)[0] == 0 and case.answer[0] != 14:
            number, place, _ = case.answer
            answer = code(number, place) if number else len(case.source) // 17
            yield in_one_call(f'packed: {case.name}', pack(case.source), answer)


# ------------------------------------------------------------------------ runs

def run_rooms(values, flags):
    return fresh_words(values) + [FRESH_FLAG] * flags


def run_case(example):
    """A run that is written by hand: "a gap is written as value 0, flag 0"."""
    buffer = run_rooms(*example.rooms)
    elements = example.elements or []
    buffer[:len(elements)] = [0 if element is None else element for element in elements]
    flags = example.rooms[0]
    buffer[flags:flags + len(elements)] = [int(element is not None) for element in elements]
    return Case('run', f'run: {example.name}', example, example.answer, buffer)


RUNS = [run_case(example) for example in run_examples.EXAMPLES]
LOOKUPS = [Case('lookup', f'lookup: {example.name}', example, example.reply, None)
           for example in lookup_examples.EXAMPLES]


def pack_case(example):
    """A pack that is written by hand; places past its bytes, and all of a refused one, stay as they were."""
    buffer = [*example.data, *[FRESH_FLAG] * (example.room - len(example.data))]
    return Case('pack', f'pack: {example.name}', example.table, example.answer, buffer)


PACKS = [pack_case(example) for example in pack_examples.EXAMPLES]
CASES = [*UNPACKED, *BYTES_REFUSED, *BYTE_ORDER, *SECOND_UNPACKED, *SECOND_REFUSED, *SECOND_ORDER, *SHORT_UNPACKED,
         *SHORT_REFUSED, *CHECKS, *ONE_CALL, *SHORT_ONE_CALL, *packed_too(CHECKS), *RUNS, *LOOKUPS, *PACKS]

# ------------------------------------------------------------------ the files


def word_bytes(words):
    return struct.pack(f'<{len(words)}q', *words)


def source_bytes(case):
    """The input of a frame."""
    if case.call == 'run':
        table, values, flags, rooms = case.source.table, case.source.values, case.source.flags, case.source.rooms
        sizes = struct.pack('<5H', len(table), len(values), len(flags), *rooms)
        return sizes + word_bytes(table) + word_bytes(values) + bytes(flags)
    if case.call == 'lookup':
        return struct.pack('<2Q', case.source.node, case.source.element) + word_bytes(case.source.table)
    if case.call == 'unpack_check':
        return case.source
    data = case.source if case.call == 'unpack' else word_bytes(case.source)
    return struct.pack('<H', len(case.buffer)) + data


def answer_words(case):
    """The numbers of the answer, and the words of the buffer after them."""
    numbers = case.answer if isinstance(case.answer, tuple) else (case.answer,)
    return numbers, case.buffer or []


def frame(case):
    numbers, words = answer_words(case)
    source, answer = source_bytes(case), struct.pack(f'<{len(numbers)}Q', *numbers) + word_bytes(words)
    return struct.pack('<BHH', KINDS[case.call], len(source), len(answer)) + source + answer


def of_model(case):
    """The case with the model's answer and buffer."""
    if case.call == 'run':
        example, buffer = case.source, run_rooms(*case.source.rooms)
        values, flags = buffer[:example.rooms[0]], buffer[example.rooms[0]:]
        answer = model.run(example.table, example.values, example.flags, values, flags)
        return case._replace(answer=tuple(answer), buffer=values + flags)
    if case.call == 'lookup':
        return case._replace(answer=tuple(model.lookup(case.source.table, case.source.node, case.source.element)))
    buffer = None if case.buffer is None else fresh_words(len(case.buffer))
    if case.call == 'pack':
        buffer = [FRESH_FLAG] * len(case.buffer)
    arguments = (case.source,) if buffer is None else (case.source, buffer)
    answer = getattr(model, case.call)(*arguments)
    return case._replace(answer=answer if buffer is None else tuple(answer), buffer=buffer)


def problems():
    """What is wrong with the cases themselves."""
    for case in CASES:
        other = of_model(case)
        if other != case:
            words = 'the same words' if other.buffer == case.buffer else 'other words'
            yield f'{case.call}, {case.name}: the model answers {other.answer}, not {case.answer}; {words}'
    numbers = {case.answer[0] for case in CASES if case.call != 'unpack_check'}
    missing = {*range(18), *range(20, 27)} - numbers
    if missing:
        yield f'no case of {sorted(missing)}'
    every = {(a, b) for a in range(2, 12) for b in range(a + 1, 12)}
    if every != PAIRS.keys() | NEVER_TOGETHER or PAIRS.keys() & NEVER_TOGETHER:
        yield f'pairs of rules: {sorted(every ^ (PAIRS.keys() | NEVER_TOGETHER))}'
    if sum(map(len, map(frame, CASES))) > MOST_FRAME_BYTES:
        yield 'more bytes than the program reads'


def output(program, data):
    return subprocess.run([program], input=data, capture_output=True, check=False).stdout.decode()


def spoilt(program):
    """Complaints about a program that lets a spoilt frame pass."""
    for index, case in enumerate(CASES):
        data = frame(case)
        words = sum(map(len, answer_words(case)))
        ends = [len(data) - 8 * k - 1 for k in {0, words // 2, words - 3, words - 2, words - 1} if 0 <= k]
        for at in (0, *ends):
            other = bytearray(data)
            other[at] ^= 8 if at == 0 else 1  # of the kind: one that there is not
            if not output(program, bytes(other)).endswith('\n0 passed, 1 failed\n'):
                yield f'case {index} with byte {at} spoilt passes'
    data = frame(CASES[0]) * 2
    for cut in range(1, len(data)):
        whole = cut // (len(data) // 2)
        expected = f'case {whole}: cut short\n' if cut % (len(data) // 2) else ''
        expected += f'{whole} passed, {int(bool(expected))} failed\n'
        if output(program, data[:cut]) != expected:
            yield f'frames cut at {cut}: {output(program, data[:cut])!r}'


def complain(lines):
    lines = list(lines)
    for line in lines:
        print(line)
    if lines:
        sys.exit(1)


def main(arguments):
    complain(problems())
    files = {FRAMES: b''.join(map(frame, CASES)), OUTPUT: f'{len(CASES)} passed, 0 failed\n'.encode()}
    if arguments == ['--list']:
        for index, case in enumerate(CASES):
            print(index, case.call, case.name, case.answer, sep='\t')
    elif arguments == ['--check']:
        complain(f'{path} is not what vectors.py writes' for path, data in files.items()
                 if not os.path.exists(path) or open(path, 'rb').read() != data)
    elif len(arguments) == 2 and arguments[0] == '--spoilt':
        complain(spoilt(arguments[1]))
    elif arguments:
        sys.exit(__doc__)
    else:
        for path, data in files.items():
            with open(path, 'wb') as file:
                file.write(data)


if __name__ == '__main__':
    main(sys.argv[1:])
