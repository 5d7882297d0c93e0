"""Runs by hand: every answer and every element is written here from the sentence of 01 above it, or of 02 where (02) stands before it. test_run.py
runs them, and asks the model too.

An input is a number (known), GAP (flag 0 over a number that no limits hold) or a pair (value, flag)."""

from collections import namedtuple

from cases import BIG, LARGE, UNKNOWN, apply, at_axis, const, large, move, node, param, reduce_node, stack
from model import (ADD, AND, CAST, CMPLT, CMPNE, EXPAND, FILL, FLIP, IDIV, KNOWN, LOAD, MAX, MOD, MUL, OR, PAD, PERMUTE, RESHAPE, SHRINK, STACK, WHERE)

GAP = None
BOOL, U8, I16, I32 = range(4)
I32_LOW, I32_HIGH = -2147483648, 2147483647

# answer: number, place, count. elements: of all nodes end to end, GAP for a gap; None where the run is refused. rooms: of values and of flags.
Example = namedtuple('Example', 'name table values flags rooms answer elements')


def split(inputs):
    """Values and flags of the inputs, the least and the greatest word in turn under the gaps."""
    pairs = [(BIG - 1 if k % 2 else -BIG, 0) if item is GAP else item if isinstance(item, tuple) else (item, 1) for k, item in enumerate(inputs)]
    return [value for value, _ in pairs], [flag for _, flag in pairs]


def completes(name, table, inputs, *nodes, more=(0, 0)):
    """A run that completes: the elements of each node, in order."""
    elements = [element for elements in nodes for element in elements]
    rooms = tuple(len(elements) + extra for extra in more)
    return Example(name, table, *split(inputs), rooms, (0, 0, nodes[-1].count(GAP)), elements)


def refused(name, number, place, table, inputs, rooms=(9, 9), flags=None):
    """A run that is refused; flags only where their length is not that of the values."""
    values, own = split(inputs)
    return Example(name, table, values, own if flags is None else flags, rooms, (number, place, 0), None)


def scalars(dtype, *limits):
    return [word for slot, ends in enumerate(limits) for word in param(slot, dtype, *ends, ())]


def binary(name, op, dtype, limits, inputs, result):
    """A binary operation on two numbers or gaps."""
    return completes(f'{name} of {inputs[0]} and {inputs[1]}', scalars(dtype, *limits) + apply(op, 0, 1), inputs, inputs[:1], inputs[1:], [result])


# ------------------------------------------------------------ numbers and gaps

# (02) "The range of i16 becomes −32767..32767, wherever a type's range is asked for."
WHOLE_I16, SIGNED, NATURAL, TRUTH = (-32767, 32767), (-9, 9), (1, 9), (0, 1)
NUMBERS = [
    # "IDIV is the floor of a/b and MOD is a − b·floor(a/b)"; "The language's own remainder for MOD of −7 by 2 (here 1)."
    *(binary('IDIV', IDIV, I16, (SIGNED, (1, 9) if b > 0 else (-9, -1)), [a, b], quotient)
      for a, b, quotient in ((7, 1, 7), (-7, 1, -7), (7, -1, -7), (-7, -1, 7), (0, 1, 0), (0, -1, 0))),
    *(binary('IDIV', IDIV, I16, (SIGNED, (2, 9) if b > 0 else (-9, -2)), [a, b], quotient)
      for a, b, quotient in ((-7, 2, -4), (7, 2, 3), (7, -2, -4), (-7, -2, 3), (-6, 2, -3), (6, -2, -3), (-1, 3, -1), (1, -3, -1),
                             (-1, -3, 0), (1, 3, 0))),
    *(binary('MOD', MOD, I16, (SIGNED, (2, 9) if b > 0 else (-9, -2)), [a, b], rest)
      for a, b, rest in ((-7, 2, 1), (7, 2, 1), (7, -2, -1), (-7, -2, -1), (-6, 2, 0), (6, -2, 0), (-1, 3, 2), (1, -3, -2),
                         (-1, -3, -1), (1, 3, 1), (0, 5, 0))),
    binary('IDIV', IDIV, I32, ((I32_LOW, I32_HIGH), (2, I32_HIGH)), [I32_LOW, I32_HIGH], -2),
    binary('MOD', MOD, I32, ((I32_LOW, I32_HIGH), (2, I32_HIGH)), [I32_LOW, I32_HIGH], 2147483646),
    binary('IDIV', IDIV, I32, ((I32_LOW, I32_HIGH), (I32_LOW, -2)), [I32_LOW, I32_LOW], 1),
    binary('IDIV', IDIV, I32, ((I32_LOW, I32_HIGH), (I32_LOW, -2)), [I32_HIGH, I32_LOW], -1),
    binary('MOD', MOD, I32, ((I32_LOW, I32_HIGH), (I32_LOW, -2)), [I32_HIGH, I32_LOW], -1),
    binary('IDIV', IDIV, I32, ((I32_LOW, 0), (1, 1)), [I32_LOW, 1], I32_LOW),
    # "Two corners for MUL" is a slip of bounds; the numbers at its ends
    binary('MUL', MUL, I16, ((-3, 2), (-5, 4)), [-3, -5], 15),
    binary('MUL', MUL, I16, ((-3, 2), (-5, 4)), [-3, 4], -12),
    binary('MUL', MUL, I32, ((-46340, 46340), (-46340, 46340)), [-46340, 46340], -2147395600),
    # (02) "[−16383,16383] gives [−32766,32766] and is accepted."
    completes('ADD to itself', param(0, I16, -16383, 16383, (2,)) + apply(ADD, 0, 0), [-16383, 16383], [-16383, 16383], [-32766, 32766]),
    # the ends of i16, as inputs and as results
    *(binary('ADD', ADD, I16, ((-16384, 16383), (-16383, 16384)), [a, b], total) for a, b, total in ((-16384, -16383, -32767), (16383, 16384, 32767))),
    *(binary('MUL', MUL, I16, ((-217, 217), (151, 151)), [a, 151], product) for a, product in ((-217, -32767), (217, 32767))),
    *(binary('IDIV', IDIV, I16, (WHOLE_I16, (-1, -1)), [a, -1], quotient) for a, quotient in ((-32767, 32767), (32767, -32767))),
    *(binary('MOD', MOD, I16, (WHOLE_I16, (-32767, -1)), [a, -32767], rest) for a, rest in ((1, -32766), (-32767, 0))),
    *(binary('MAX', MAX, I16, (WHOLE_I16, WHOLE_I16), [-32767, b], b) for b in (-32766, -32767, 32767)),
    *(binary('CMPLT', CMPLT, I16, (WHOLE_I16, WHOLE_I16), [a, b], less) for a, b, less in ((-32767, 32767, 1), (-32767, -32767, 0), (32767, -32767, 0))),
    *(binary('CMPNE', CMPNE, I16, (WHOLE_I16, WHOLE_I16), [a, b], other) for a, b, other in ((-32767, 32767, 1), (-32767, -32767, 0))),
    completes('sums at the ends of i16', param(0, I16, -4681, 4681, (2, 7)) + reduce_node(0, 0, (0, 1)), [-4681] * 7 + [4681] * 7,
              [-4681] * 7 + [4681] * 7, [-32767, 32767]),
    *(binary('CMPLT', CMPLT, I16, (SIGNED, SIGNED), [a, b], less) for a, b, less in ((-3, 2, 1), (2, -3, 0), (2, 2, 0), (-9, 9, 1))),
    *(binary('CMPNE', CMPNE, I16, (SIGNED, SIGNED), [a, b], other) for a, b, other in ((-3, 3, 1), (3, 3, 0), (0, 0, 0))),
    *(binary('AND', AND, BOOL, (TRUTH, TRUTH), [a, b], both) for a, b, both in ((0, 0, 0), (0, 1, 0), (1, 0, 0), (1, 1, 1))),
    *(binary('OR', OR, BOOL, (TRUTH, TRUTH), [a, b], one) for a, b, one in ((0, 0, 0), (0, 1, 1), (1, 0, 1), (1, 1, 1))),
    # "CAST and LOAD keep numbers."
    completes('CAST keeps', param(0, I32, 0, 255, (3,)) + node(CAST, {1: 0, 4: U8}), [0, GAP, 255], [0, GAP, 255], [0, GAP, 255]),
    completes('LOAD keeps', param(0, I32, I32_LOW, I32_HIGH, (3,)) + node(LOAD, {1: 0, 6: 9}), [I32_LOW, I32_HIGH, GAP],
              [I32_LOW, I32_HIGH, GAP], [I32_LOW, I32_HIGH, GAP]),
    completes('CAST at the ends of i16', param(0, I32, *WHOLE_I16, (3,)) + node(CAST, {1: 0, 4: I16}), [-32767, 32767, GAP], *[[-32767, 32767, GAP]] * 2),
    # (02) "The buoys use −32768 for "no reading".": those of i16; in i32 it is a number like others
    completes('−32768 in i32', param(0, I32, -32768, 0, (3,)) + const(I32, -1) + apply(ADD, 0, 1) + const(I32, -32767) + apply(ADD, 3, 1),
              [-32768, (-32768, 0), -32767], [-32768, GAP, -32767], [-1], [-32769, GAP, -32768], [-32767], [-32768]),
    # "writes all nodes' elements end to end": a plan without a PARAM takes no input
    completes('a CONST', const(I16, -5), [], [-5]),
    completes('two CONSTs and their sum, with room left', const(I16, -5) + const(I16, 7) + apply(ADD, 0, 1), [], [-5], [7], [2], more=(3, 5)),
]
CHOICE = param(0, BOOL, 0, 1, ()) + param(1, I16, 0, 9, ()) + param(2, I16, 0, 9, ()) + apply(WHERE, 0, 1, 2)
GAPS = [
    # "A binary result is a gap if either side is": also where the other side would decide
    *(binary(name, op, dtype, limits, inputs, GAP)
      for name, op, dtype, limits, known in (('ADD', ADD, I16, (SIGNED, SIGNED), 0), ('MUL', MUL, I16, (SIGNED, SIGNED), 0),
                                             ('MAX', MAX, I16, (SIGNED, SIGNED), 9), ('IDIV', IDIV, I16, (NATURAL, NATURAL), 9),
                                             ('MOD', MOD, I16, (NATURAL, NATURAL), 1), ('CMPLT', CMPLT, I16, (SIGNED, SIGNED), -9),
                                             ('CMPNE', CMPNE, I16, (SIGNED, SIGNED), 9), ('AND', AND, BOOL, (TRUTH, TRUTH), 0),
                                             ('OR', OR, BOOL, (TRUTH, TRUTH), 1))
      for inputs in ([known, GAP], [GAP, known], [GAP, GAP])),
    # "WHERE is a gap if the condition is one or the chosen side is."; "● WHERE 1, 4, gap: 4."
    *(completes(f'WHERE {condition}, {second}, {third}', CHOICE, [condition, second, third], [condition], [second], [third], [result])
      for condition, second, third, result in ((1, 4, GAP, 4), (1, GAP, 4, GAP), (0, 4, GAP, GAP), (0, GAP, 4, 4), (GAP, 4, 4, GAP), (1, 4, 5, 4),
                                               (0, 4, 5, 5), (GAP, GAP, GAP, GAP))),
    # "Treating a gap as 0 inside a sum." is a slip; "REDUCE if any element it gathers is."
    completes('sum with a gap', param(0, I16, -9, 9, (3,)) + reduce_node(0, 0, (1,)), [1, GAP, 3], [1, GAP, 3], [GAP]),
    completes('sum of the known', param(0, I16, -9, 9, (3,)) + reduce_node(0, 0, (1,)), [1, -9, 3], [1, -9, 3], [-5]),
    completes('greatest with a gap', param(0, I16, -9, 9, (3,)) + reduce_node(0, 1, (1,)), [-3, GAP, -5], [-3, GAP, -5], [GAP]),
    completes('greatest of numbers below zero', param(0, I16, -9, 9, (3,)) + reduce_node(0, 1, (1,)), [-3, -9, -5], [-3, -9, -5], [-3]),
    *(completes(f'2x3 with a gap, {name} over {flags}', param(0, I16, -9, 9, (2, 3)) + reduce_node(0, number, flags), [1, GAP, 3, 4, 5, 6],
                [1, GAP, 3, 4, 5, 6], result)
      for name, number, flags, result in (('sum', 0, (0, 1), [GAP, 15]), ('sum', 0, (1, 0), [5, GAP, 9]), ('sum', 0, (1, 1), [GAP]),
                                          ('sum', 0, (0, 0), [1, GAP, 3, 4, 5, 6]), ('greatest', 1, (0, 1), [GAP, 6]),
                                          ('greatest', 1, (1, 0), [4, GAP, 6]), ('greatest', 1, (1, 1), [GAP]))),
    # "A gap is written as value 0, flag 0."; "The answer carries the number of gaps in the output node."
    completes('gaps of the output alone are counted', param(0, I16, -9, 9, (3,)) + move(SHRINK, 0, (1,), (1,)), [GAP, 5, GAP], [GAP, 5, GAP], [5]),
    completes('an output of gaps', param(0, I16, -9, 9, (3,)), [GAP, GAP, GAP], [GAP, GAP, GAP]),
    # "Testing limits under a gap." is a slip
    completes('numbers outside the limits under gaps', param(0, U8, 3, 5, (4,)), [(2, 0), (6, 0), (-BIG, 0), (BIG - 1, 0)], [GAP] * 4),
    # (02) "The buoys use −32768 for "no reading".": under a gap no range is asked for
    completes('−32768 of i16 under gaps', param(0, I16, *WHOLE_I16, (4,)) + move(FLIP, 0, (1,)), [(-32768, 0), -32767, 32767, (-32768, 0)],
              [GAP, -32767, 32767, GAP], [GAP, 32767, -32767, GAP]),
    completes('−32768 of i16 under every gap', param(0, I16, *WHOLE_I16, (2,)), [(-32768, 0)] * 2, [GAP] * 2),
    completes('sum with −32768 under a gap', param(0, I16, -9, 9, (3,)) + reduce_node(0, 0, (1,)), [1, (-32768, 0), 3], [1, GAP, 3], [GAP]),
]
SIX = param(0, I16, 0, 5, (2, 3))
MOVEMENTS = [
    # "● 7 9 padded to 5 at 1: gap 7 9 gap gap; flipped: gap gap 9 7 gap."
    completes('padded and flipped', param(0, I16, 0, 9, (2,)) + move(PAD, 0, (5,), (1,)) + move(FLIP, 1, (1,)), [7, 9],
              [7, 9], [GAP, 7, 9, GAP, GAP], [GAP, GAP, 9, 7, GAP]),
    # "● PERMUTE (1,0) of 2x3: element 3 is source element 4."
    completes('PERMUTE (1,0) of 2x3', SIX + move(PERMUTE, 0, (1, 0)), [0, 1, 2, 3, 4, GAP], [0, 1, 2, 3, 4, GAP], [0, 3, 1, 4, 2, GAP]),
    # "PERMUTE: result axis k is source axis A_k.": no turn that is its own inverse
    completes('PERMUTE (2,0,1) of 1x2x3', param(0, I16, 0, 5, (1, 2, 3)) + move(PERMUTE, 0, (2, 0, 1)), [0, 1, 2, 3, 4, 5],
              [0, 1, 2, 3, 4, 5], [0, 3, 1, 4, 2, 5]),
    # "FLIP: flag 1 reverses."
    completes('FLIP of the first axis', SIX + move(FLIP, 0, (1, 0)), [0, 1, GAP, 3, 4, 5], [0, 1, GAP, 3, 4, 5], [3, 4, 5, 0, 1, GAP]),
    completes('FLIP of the last axis', SIX + move(FLIP, 0, (0, 1)), [0, 1, GAP, 3, 4, 5], [0, 1, GAP, 3, 4, 5], [GAP, 1, 0, 5, 4, 3]),
    # "Elements are numbered row-major."
    completes('RESHAPE keeps the order', SIX + move(RESHAPE, 0, (3, 2)), [0, 1, 2, 3, GAP, 5], [0, 1, 2, 3, GAP, 5], [0, 1, 2, 3, GAP, 5]),
    completes('EXPAND of the first axis', param(0, I16, 0, 5, (1, 2)) + move(EXPAND, 0, (3, 2)), [4, GAP], [4, GAP], [4, GAP, 4, GAP, 4, GAP]),
    completes('EXPAND of the last axis', param(0, I16, 0, 5, (2, 1)) + move(EXPAND, 0, (2, 3)), [4, GAP], [4, GAP], [4, 4, 4, GAP, GAP, GAP]),
    # "PAD: same rank, offset o_k + s_k ≤ s'_k. SHRINK: same rank, o_k + s'_k ≤ s_k. A is s', B is o."
    completes('PAD with o+s equal to s\'', param(0, I16, 0, 5, (1, 2)) + move(PAD, 0, (2, 3), (1, 1)), [4, 5], [4, 5], [GAP, GAP, GAP, GAP, 4, 5]),
    completes('SHRINK with o+s\' equal to s', SIX + move(SHRINK, 0, (1, 2), (1, 1)), [0, 1, 2, 3, 4, GAP], [0, 1, 2, 3, 4, GAP], [4, GAP]),
    # "right-aligned; each axis equal or 1; the larger wins"
    completes('broadcast of 2x1 and 3', param(0, I16, 0, 9, (2, 1)) + param(1, I16, -9, 0, (3,)) + apply(ADD, 0, 1), [1, 2, -4, GAP, -6],
              [1, 2], [-4, GAP, -6], [-3, GAP, -5, -2, GAP, -4]),
    completes('broadcast of a number and 2x2', const(I16, 5) + param(0, I16, 0, 9, (2, 2)) + apply(MUL, 0, 1), [1, 2, GAP, 4],
              [5], [1, 2, GAP, 4], [5, 10, GAP, 20]),
]

# ------------------------------------------------------- four axes, each alone

SIXTEEN, NUMBERED = param(0, I16, 0, 15, (2, 2, 2, 2)), list(range(16))
MIXED = [0, 9, 2, 7, 4, 5, 6, 3, 8, 1, 10, 15, 12, 13, 14, 11]
FLAGS = [*(at_axis(axis, 1) for axis in range(4)), (1, 0, 1, 0), (0, 1, 0, 1)]


def of_sixteen(name, inputs, nodes, *results):
    return completes(f'{name} of 2x2x2x2', SIXTEEN + sum(nodes, []), inputs, inputs, *results)


FOUR_AXES = [
    # "FLIP: flag 1 reverses."; "Elements are numbered row-major."
    of_sixteen('FLIP of one axis or two', NUMBERED, [move(FLIP, 0, flags) for flags in FLAGS],
               [8, 9, 10, 11, 12, 13, 14, 15, 0, 1, 2, 3, 4, 5, 6, 7], [4, 5, 6, 7, 0, 1, 2, 3, 12, 13, 14, 15, 8, 9, 10, 11],
               [2, 3, 0, 1, 6, 7, 4, 5, 10, 11, 8, 9, 14, 15, 12, 13], [1, 0, 3, 2, 5, 4, 7, 6, 9, 8, 11, 10, 13, 12, 15, 14],
               [10, 11, 8, 9, 14, 15, 12, 13, 2, 3, 0, 1, 6, 7, 4, 5], [5, 4, 7, 6, 1, 0, 3, 2, 13, 12, 15, 14, 9, 8, 11, 10]),
    # "SHRINK: same rank, o_k + s'_k ≤ s_k.": to 1 at 1
    of_sixteen('SHRINK of one axis', NUMBERED, [move(SHRINK, 0, at_axis(axis, 1, 2), at_axis(axis, 1)) for axis in range(4)],
               [8, 9, 10, 11, 12, 13, 14, 15], [4, 5, 6, 7, 12, 13, 14, 15], [2, 3, 6, 7, 10, 11, 14, 15], [1, 3, 5, 7, 9, 11, 13, 15]),
    # "PERMUTE: result axis k is source axis A_k."
    of_sixteen('PERMUTE by five turns', NUMBERED, [move(PERMUTE, 0, turn) for turn in (
        (1, 0, 2, 3), (0, 2, 1, 3), (0, 1, 3, 2), (1, 2, 3, 0), (3, 0, 1, 2))],
               [0, 1, 2, 3, 8, 9, 10, 11, 4, 5, 6, 7, 12, 13, 14, 15], [0, 1, 4, 5, 2, 3, 6, 7, 8, 9, 12, 13, 10, 11, 14, 15],
               [0, 2, 1, 3, 4, 6, 5, 7, 8, 10, 9, 11, 12, 14, 13, 15], [0, 8, 1, 9, 2, 10, 3, 11, 4, 12, 5, 13, 6, 14, 7, 15],
               [0, 2, 4, 6, 8, 10, 12, 14, 1, 3, 5, 7, 9, 11, 13, 15]),
    # "PAD: same rank, offset o_k + s_k ≤ s'_k.", "PAD's new cells are gaps.": two more, one on either side
    completes('PAD of each single axis of 2x1x2x1', param(0, I16, 0, 9, (2, 1, 2, 1)) + move(PAD, 0, (4, 1, 2, 1), (1, 0, 0, 0))
              + move(PAD, 0, (2, 3, 2, 1), (0, 1, 0, 0)) + move(PAD, 0, (2, 1, 4, 1), (0, 0, 1, 0)) + move(PAD, 0, (2, 1, 2, 3), (0, 0, 0, 1)),
              [1, 2, 3, 4], [1, 2, 3, 4], [GAP, GAP, 1, 2, 3, 4, GAP, GAP], [GAP, GAP, 1, 2, GAP, GAP, GAP, GAP, 3, 4, GAP, GAP],
              [GAP, 1, 2, GAP, GAP, 3, 4, GAP], [GAP, 1, GAP, GAP, 2, GAP, GAP, 3, GAP, GAP, 4, GAP]),
    # "EXPAND: same rank, s_k is 1 or s'_k."
    completes('EXPAND of each single axis to 2x2x2x2', param(0, I16, 0, 7, (8,)) + sum((move(RESHAPE, 0, at_axis(axis, 1, 2)) for axis in range(4)), [])
              + sum((move(EXPAND, 1 + axis, (2, 2, 2, 2)) for axis in range(4)), []), NUMBERED[:8], *[NUMBERED[:8]] * 5,
              [0, 1, 2, 3, 4, 5, 6, 7, 0, 1, 2, 3, 4, 5, 6, 7], [0, 1, 2, 3, 0, 1, 2, 3, 4, 5, 6, 7, 4, 5, 6, 7],
              [0, 1, 0, 1, 2, 3, 2, 3, 4, 5, 4, 5, 6, 7, 6, 7], [0, 0, 1, 1, 2, 2, 3, 3, 4, 4, 5, 5, 6, 6, 7, 7]),
    # "REDUCE: flagged axes become 1; rank stays."; "number 0 sum, 1 max"
    of_sixteen('sum over one axis or two', NUMBERED, [reduce_node(0, 0, flags) for flags in FLAGS], [8, 10, 12, 14, 16, 18, 20, 22],
               [4, 6, 8, 10, 20, 22, 24, 26], [2, 4, 10, 12, 18, 20, 26, 28], [1, 5, 9, 13, 17, 21, 25, 29], [20, 24, 36, 40], [10, 18, 42, 50]),
    of_sixteen('greatest over one axis or two', MIXED, [reduce_node(0, 1, flags) for flags in FLAGS], [8, 9, 10, 15, 12, 13, 14, 11],
               [4, 9, 6, 7, 12, 13, 14, 15], [2, 9, 6, 5, 10, 15, 14, 13], [9, 7, 5, 6, 8, 15, 13, 14], [10, 15, 14, 13], [9, 7, 13, 15]),
    # "right-aligned; each axis equal or 1": 2, 2x1, 2x1x1 and 2x1x1x1, each pair in both orders
    *(completes(f'ADD of every two ranks{order}', sum((param(k, I16, 0, 2000, (2, *[1] * k)) for k in range(4)), [])
                + sum((apply(ADD, *pair[::turn]) for pair in ((1, 0), (2, 0), (2, 1), (3, 0), (3, 1), (3, 2))), []),
                [1, 2, 10, 20, 100, 200, 1000, 2000], [1, 2], [10, 20], [100, 200], [1000, 2000], [11, 12, 21, 22], [101, 102, 201, 202],
                [110, 120, 210, 220], [1001, 1002, 2001, 2002], [1010, 1020, 2010, 2020], [1100, 1200, 2100, 2200])
      for order, turn in (('', 1), (', the lower first', -1))),
    completes('ADD and WHERE of 2x1x1x3 and 3', param(0, I16, 0, 99, (2, 1, 1, 3)) + param(1, I16, 0, 99, (3,)) + param(2, BOOL, 0, 1, (3,))
              + apply(ADD, 0, 1) + apply(ADD, 1, 0) + apply(WHERE, 2, 0, 1) + apply(WHERE, 2, 1, 0), [1, 2, 3, 4, GAP, 6, 10, 20, 30, 0, 1, 1],
              [1, 2, 3, 4, GAP, 6], [10, 20, 30], [0, 1, 1], [11, 22, 33, 14, GAP, 36], [11, 22, 33, 14, GAP, 36], [10, 2, 3, 10, GAP, 6],
              [1, 20, 30, 4, 20, 30]),
    # bools of ranks 1 to 4 are nodes 0 to 3, numbers nodes 4 to 7
    completes('WHERE of three ranks', sum((param(k, BOOL if k < 4 else I16, 0, 1 if k < 4 else 9, (2, *[1] * (k % 4))) for k in range(8)), [])
              + sum((apply(WHERE, *three) for three in ((3, 4, 5), (0, 5, 6), (1, 6, 7), (2, 7, 4), (0, 5, 4))), []),
              [1, 0, 0, 1, 1, 0, 0, 1, 1, 2, 3, 4, 5, 6, 7, 8], [1, 0], [0, 1], [1, 0], [0, 1], [1, 2], [3, 4], [5, 6], [7, 8],
              [3, 3, 4, 4, 1, 2, 1, 2], [3, 5, 4, 5, 3, 6, 4, 6], [7, 5, 7, 6, 8, 5, 8, 6], [7, 7, 1, 2, 8, 8, 1, 2], [3, 2, 4, 2]),
]

# ------------------------------------------ every operation at every rank

X, Y, P, Q = [-7, 5], [2, 3], [0, 1], [1, 1]


def at_rank(rank, *results):
    """Two numbers and two bools, or pairs of them on the last axis, by operations 2 to 22 (REDUCE by both numbers): the elements of each."""
    ones, zeros = [1] * (rank - 1), [0] * (rank - 1)
    pair, last, one, three = ([*ones, 2], [*zeros, 1], [*ones, 1], [*ones, 3]) if rank else ([], [], [], [])
    table = param(0, I16, -9, 9, pair) + param(1, I16, 1, 9, pair) + param(2, BOOL, 0, 1, pair) + param(3, BOOL, 0, 1, pair)
    table += move(PERMUTE, 0, range(rank)[::-1]) + move(FLIP, 0, last) + move(RESHAPE, 0, pair) + move(EXPAND, 0, pair)
    table += move(PAD, 0, three, last) + move(SHRINK, 0, one, last) + node(CAST, {1: 0, 4: I32})
    table += sum((apply(op, 0, 1) for op in (ADD, MUL, MAX, IDIV, MOD, CMPLT, CMPNE)), []) + apply(AND, 2, 3) + apply(OR, 2, 3)
    table += apply(WHERE, 2, 0, 1) + reduce_node(0, 0, last) + reduce_node(0, 1, last) + node(LOAD, {1: 0, 6: 9}) + apply(FILL, 1, 0) + apply(KNOWN, 0)
    sources = [several[:2 if rank else 1] for several in (X, Y, P, Q)]
    return completes(f'every operation of rank {rank}', table, sum(sources, []), *sources, *results)


RANKS = [
    # "Rank is 0 to 4."
    at_rank(0, *[[-7]] * 7, [-5], [-14], [2], [-4], [1], [1], [1], [0], [1], [2], [-7], [-7], [-7], [2], [1]),
    *(at_rank(rank, X, [5, -7], X, X, [GAP, -7, 5], [5], X, [-5, 8], [-14, 15], [2, 5], [-4, 1], [1, 2], [1, 0], [1, 1], [0, 1], [1, 1],
              [2, 5], [-2], [5], X, Y, [1, 1]) for rank in range(1, 5)),
    # "each axis equal or 1" for the sides of each operation: two rows, a row and a number, a number and a row
    completes('rows and numbers', param(0, I16, -9, 9, (4,)) + param(1, I16, 1, 9, (4,)) + const(I16, 5)
              + sum((apply(op, *sides) for op in (ADD, MUL, MAX, IDIV, MOD, CMPLT, CMPNE) for sides in ((0, 1), (0, 2), (2, 1))), []),
              [-7, 5, 9, GAP, 2, 5, 8, 3], [-7, 5, 9, GAP], [2, 5, 8, 3], [5], [-5, 10, 17, GAP], [-2, 10, 14, GAP], [7, 10, 13, 8],
              [-14, 25, 72, GAP], [-35, 25, 45, GAP], [10, 25, 40, 15], [2, 5, 9, GAP], [5, 5, 9, GAP], [5, 5, 8, 5],
              [-4, 1, 1, GAP], [-2, 1, 1, GAP], [2, 1, 0, 1], [1, 0, 1, GAP], [3, 0, 4, GAP], [1, 0, 5, 2],
              [1, 0, 0, GAP], [1, 0, 0, GAP], [0, 0, 1, 0], [1, 0, 1, GAP], [1, 0, 1, GAP], [1, 0, 1, 1]),
    completes('rows and numbers of bools', param(0, BOOL, 0, 1, (4,)) + param(1, BOOL, 0, 1, (4,)) + const(BOOL, 1) + const(BOOL, 0)
              + sum((apply(op, *sides) for op, one in ((AND, 2), (OR, 3), (CMPNE, 2)) for sides in ((0, 1), (0, one), (one, 1))), []),
              [0, 1, 1, GAP, 0, 0, 1, 1], [0, 1, 1, GAP], [0, 0, 1, 1], [1], [0], [0, 0, 1, GAP], [0, 1, 1, GAP], [0, 0, 1, 1],
              [0, 1, 1, GAP], [0, 1, 1, GAP], [0, 0, 1, 1], [0, 1, 0, GAP], [1, 0, 0, GAP], [1, 1, 0, 0]),
    completes('rows and numbers of WHERE', param(0, BOOL, 0, 1, (4,)) + param(1, I16, 0, 9, (4,)) + param(2, I16, 0, 9, (4,)) + const(I16, 9)
              + const(I16, 8) + const(BOOL, 1) + const(BOOL, 0) + sum((apply(WHERE, *three) for three in (
                  (0, 1, 2), (0, 1, 3), (0, 3, 2), (0, 3, 4), (5, 1, 2), (5, 3, 2), (6, 1, 2), (6, 1, 3))), []),
              [1, 0, GAP, 1, 1, 2, 3, 4, 5, 6, 7, GAP], [1, 0, GAP, 1], [1, 2, 3, 4], [5, 6, 7, GAP], [9], [8], [1], [0],
              [1, 6, GAP, 4], [1, 9, GAP, 4], [9, 6, GAP, 9], [9, 8, GAP, 9], [1, 2, 3, 4], [9, 9, 9, 9], [5, 6, 7, GAP], [9, 9, 9, 9]),
    # "The answer carries the number of gaps in the output node.": more than a byte can count
    completes('300 gaps', param(0, I16, 0, 9, (300,)), [GAP] * 300, [GAP] * 300),
]

# -------------------------------------------------- the second edition's three

FOUR_CELLS, SIX_CELLS = param(0, I16, -9, 9, (4,)), param(0, I16, -9, 9, (2, 3))
WITH_GAPS = [1, GAP, 0, GAP, GAP, -9]
FILLED = [
    # (02) "T where known, else C"
    *(binary('FILL', FILL, I16, (SIGNED, SIGNED), [t, c], result)
      for t, c, result in ((3, 4, 3), (4, 3, 4), (3, GAP, 3), (GAP, 4, 4), (GAP, GAP, GAP), (0, 4, 0), (0, GAP, 0), (GAP, 0, 0), (-9, 9, -9),
                           (GAP, -9, -9))),
    *(binary('FILL', FILL, BOOL, (TRUTH, TRUTH), [t, c], result) for t, c, result in ((0, 1, 0), (1, 0, 1), (GAP, 1, 1), (0, GAP, 0), (GAP, GAP, GAP))),
    *(binary('FILL', FILL, I32, ((I32_LOW, I32_HIGH), (I32_LOW, I32_HIGH)), [t, c], result)
      for t, c, result in ((I32_LOW, I32_HIGH, I32_LOW), (GAP, I32_LOW, I32_LOW), (I32_HIGH, GAP, I32_HIGH))),
    binary('FILL', FILL, U8, ((0, 9), (250, 255)), [GAP, 255], 255),
    # numbers under gaps are not looked at, those of C neither
    completes('FILL over numbers under gaps', param(0, U8, 3, 5, (4,)) + param(1, U8, 3, 5, (4,)) + apply(FILL, 0, 1),
              [(4, 0), (-BIG, 0), 5, (3, 0), (5, 0), 3, (BIG - 1, 0), (-BIG, 0)], [GAP, GAP, 5, GAP], [GAP, 3, GAP, GAP], [GAP, 3, 5, GAP]),
    # (02) "broadcast": "right-aligned; each axis equal or 1; the larger wins"
    completes('a table filled by a row', SIX_CELLS + param(1, I16, 10, 19, (3,)) + apply(FILL, 0, 1), [*WITH_GAPS, 10, 11, 12],
              WITH_GAPS, [10, 11, 12], [1, 11, 0, 10, 11, -9]),
    completes('a row filled by a table', SIX_CELLS + param(1, I16, 10, 19, (3,)) + apply(FILL, 1, 0), [*WITH_GAPS, GAP, 11, GAP],
              WITH_GAPS, [GAP, 11, GAP], [1, 11, 0, GAP, 11, -9]),
    completes('FILL broadcast both ways', param(0, I16, 0, 9, (2, 1)) + param(1, I16, 0, 9, (1, 3)) + apply(FILL, 0, 1) + apply(FILL, 1, 0),
              [7, GAP, 1, GAP, 3],
              [7, GAP], [1, GAP, 3], [7, 7, 7, 1, GAP, 3], [1, 7, 3, 1, GAP, 3]),
    completes('a row filled by a number', FOUR_CELLS + const(I16, 5) + apply(FILL, 0, 1), [GAP, -9, 0, GAP], [GAP, -9, 0, GAP], [5], [5, -9, 0, 5]),
    completes('a number filled by a row', param(0, I16, -9, 9, ()) + param(1, I16, 0, 3, (4,)) + apply(FILL, 0, 1) + apply(FILL, 1, 0),
              [GAP, 0, GAP, 2, 3],
              [GAP], [0, GAP, 2, 3], [0, GAP, 2, 3], [0, GAP, 2, 3]),
    completes('FILL of every two ranks', sum((param(k, I16, 0, 2000, (2, *[1] * k)) for k in range(4)), [])
              + sum((apply(FILL, *pair[::turn]) for pair in ((1, 0), (2, 0), (2, 1), (3, 0), (3, 1), (3, 2)) for turn in (1, -1)), []),
              [1, GAP, 10, GAP, 100, GAP, 1000, GAP], [1, GAP], [10, GAP], [100, GAP], [1000, GAP], [10, 10, 1, GAP], [1, 10, 1, GAP], [100, 100, 1, GAP],
              [1, 100, 1, GAP], [100, 100, 10, GAP], [10, 100, 10, GAP], [1000, 1000, 1, GAP], [1, 1000, 1, GAP],
              [1000, 1000, 10, GAP], [10, 1000, 10, GAP],
              [1000, 1000, 100, GAP], [100, 1000, 100, GAP]),
    # of 2x2x2x2, gaps where the coordinates have an even sum
    of_sixteen('FILL', [GAP, 1, 2, GAP, 4, GAP, GAP, 7, 8, GAP, GAP, 11, GAP, 13, 14, GAP],
               [move(FLIP, 0, (1, 0, 0, 0)), apply(FILL, 0, 1), apply(FILL, 1, 0)],
               [8, GAP, GAP, 11, GAP, 13, 14, GAP, GAP, 1, 2, GAP, 4, GAP, GAP, 7], [8, 1, 2, 11, 4, 13, 14, 7, 8, 1, 2, 11, 4, 13, 14, 7],
               [8, 1, 2, 11, 4, 13, 14, 7, 8, 1, 2, 11, 4, 13, 14, 7]),
    # gaps that PAD made are filled
    completes('padded and filled', param(0, I16, 0, 9, (2,)) + move(PAD, 0, (5,), (1,)) + const(I16, 0) + apply(FILL, 1, 2), [7, 9],
              [7, 9], [GAP, 7, 9, GAP, GAP], [0], [0, 7, 9, 0, 0]),
    completes('filled twice', FOUR_CELLS + param(1, I16, -9, 9, (4,)) + param(2, I16, -9, 9, (4,)) + apply(FILL, 0, 1) + apply(FILL, 3, 2),
              [1, GAP, GAP, GAP, 2, 2, GAP, GAP, 3, 3, 3, GAP], [1, GAP, GAP, GAP], [2, 2, GAP, GAP], [3, 3, 3, GAP], [1, 2, GAP, GAP], [1, 2, 3, GAP]),
    completes('filled by itself', FOUR_CELLS + apply(FILL, 0, 0), [1, GAP, 0, 4], *[[1, GAP, 0, 4]] * 2),
]
KNOWN_CELLS = [
    # (02) "bool, 1 where the source is known, else 0, never a gap"
    completes('KNOWN', FOUR_CELLS + apply(KNOWN, 0), [5, GAP, 0, -9], [5, GAP, 0, -9], [1, 0, 1, 1]),
    completes('KNOWN of gaps', FOUR_CELLS + apply(KNOWN, 0), [GAP] * 4, [GAP] * 4, [0] * 4),
    completes('KNOWN of bools', param(0, BOOL, 0, 1, (3,)) + apply(KNOWN, 0), [0, 1, GAP], [0, 1, GAP], [1, 1, 0]),
    completes('KNOWN of a CONST', const(I16, 0) + apply(KNOWN, 0), [], [0], [1]),
    completes('KNOWN twice', FOUR_CELLS + apply(KNOWN, 0) + apply(KNOWN, 1), [5, GAP, GAP, 0], [5, GAP, GAP, 0], [1, 0, 0, 1], [1, 1, 1, 1]),
    *(completes(f'KNOWN of rank {rank}', param(0, I16, -9, 9, (2, 1, 3, 1)[:rank]) + apply(KNOWN, 0), cells, cells, flags)
      for rank, cells, flags in ((0, [GAP], [0]), (1, [GAP, 0], [0, 1]), (2, [7, GAP], [1, 0]), (3, WITH_GAPS, [1, 0, 1, 0, 0, 1]),
                                 (4, WITH_GAPS, [1, 0, 1, 0, 0, 1]))),
    completes('KNOWN of what PAD put there', param(0, I16, 0, 9, (2,)) + move(PAD, 0, (5,), (1,)) + apply(KNOWN, 1), [7, GAP],
              [7, GAP], [GAP, 7, GAP, GAP, GAP], [0, 1, 0, 0, 0]),
    # the count of known cells, by rows and of all
    completes('KNOWN, CAST and REDUCE', SIX_CELLS + apply(KNOWN, 0) + node(CAST, {1: 1, 4: I16}) + reduce_node(2, 0, (0, 1)) + reduce_node(2, 0, (1, 1)),
              WITH_GAPS,
              WITH_GAPS, [1, 0, 1, 0, 0, 1], [1, 0, 1, 0, 0, 1], [2, 1], [3]),
    # where known the cell, else a number: what FILL gives
    completes('KNOWN and WHERE', SIX_CELLS + apply(KNOWN, 0) + const(I16, -1) + apply(WHERE, 1, 0, 2) + apply(FILL, 0, 2), WITH_GAPS,
              WITH_GAPS, [1, 0, 1, 0, 0, 1], [-1], [1, -1, 0, -1, -1, -9], [1, -1, 0, -1, -1, -9]),
    completes('KNOWN, AND and OR of two fields', FOUR_CELLS + param(1, I16, -9, 9, (4,)) + apply(KNOWN, 0) + apply(KNOWN, 1) + apply(AND, 2, 3)
              + apply(OR, 2, 3),
              [1, GAP, 0, GAP, 1, 1, GAP, GAP], [1, GAP, 0, GAP], [1, 1, GAP, GAP], [1, 0, 1, 0], [1, 1, 0, 0], [1, 0, 0, 0], [1, 1, 1, 0]),
]
TWO_ROWS = param(0, I16, 0, 9, (2,)) + param(1, I16, 10, 19, (2,))
STACKED = [
    # (02) "number 2 or 3 of sources joined on a new leading axis"
    completes('STACK of numbers', scalars(I16, SIGNED, SIGNED) + stack(0, 1) + stack(1, 0) + stack(1, 1, 0) + stack(0, 1, 0), [7, GAP],
              [7], [GAP], [7, GAP], [GAP, 7], [GAP, GAP, 7], [7, GAP, 7]),
    completes('STACK of two rows', TWO_ROWS + stack(0, 1) + stack(1, 0), [1, GAP, 11, 12], [1, GAP], [11, 12], [1, GAP, 11, 12], [11, 12, 1, GAP]),
    completes('STACK of three rows', TWO_ROWS + param(2, I16, 20, 29, (2,)) + stack(0, 1, 2) + stack(2, 0, 1) + stack(1, 2, 0), [1, GAP, 11, 12, GAP, 22],
              [1, GAP], [11, 12], [GAP, 22], [1, GAP, 11, 12, GAP, 22], [GAP, 22, 1, GAP, 11, 12], [11, 12, GAP, 22, 1, GAP]),
    completes('STACK of the same row three times', TWO_ROWS + stack(1, 1, 1), [1, 2, GAP, 12], [1, 2], [GAP, 12], [GAP, 12, GAP, 12, GAP, 12]),
    completes('STACK of tables', SIX_CELLS + move(FLIP, 0, (0, 1)) + stack(0, 1) + stack(1, 0, 1), WITH_GAPS, WITH_GAPS, [0, GAP, 1, -9, GAP, GAP],
              [1, GAP, 0, GAP, GAP, -9, 0, GAP, 1, -9, GAP, GAP],
              [0, GAP, 1, -9, GAP, GAP, 1, GAP, 0, GAP, GAP, -9, 0, GAP, 1, -9, GAP, GAP]),
    completes('STACK of rank 3', param(0, I16, 0, 9, (2, 1, 2)) + param(1, I16, 0, 9, (2, 1, 2)) + stack(1, 0) + stack(0, 1, 1),
              [1, 2, GAP, 4, 5, GAP, 7, 8],
              [1, 2, GAP, 4], [5, GAP, 7, 8], [5, GAP, 7, 8, 1, 2, GAP, 4], [1, 2, GAP, 4, 5, GAP, 7, 8, 5, GAP, 7, 8]),
    completes('STACK of bools', param(0, BOOL, 0, 1, (2,)) + param(1, BOOL, 0, 1, (2,)) + stack(0, 1) + stack(1, 1, 0), [0, GAP, 1, 1],
              [0, GAP], [1, 1], [0, GAP, 1, 1], [1, 1, 1, 1, 0, GAP]),
    completes('STACK of i32 at its ends', param(0, I32, I32_LOW, I32_HIGH, (2,)) + stack(0, 0), [I32_LOW, I32_HIGH], [I32_LOW, I32_HIGH],
              [I32_LOW, I32_HIGH, I32_LOW, I32_HIGH]),
    # (02) "with number 2, word 3 is zero": node 0 is of another type, shape and device
    completes('STACK of two after another node', param(0, U8, 0, 255, (3,), 9) + param(1, I16, -9, 9, (2,)) + stack(1, 1), [1, 2, 255, -9, GAP],
              [1, 2, 255], [-9, GAP], [-9, GAP, -9, GAP]),
    # the new axis is an axis as others are
    completes('STACK and REDUCE', TWO_ROWS + stack(0, 1) + reduce_node(2, 0, (1, 0)) + reduce_node(2, 1, (0, 1)), [1, GAP, 11, 12], [1, GAP], [11, 12],
              [1, GAP, 11, 12], [12, GAP], [GAP, 12]),
    completes('STACK and PERMUTE', TWO_ROWS + stack(0, 1) + move(PERMUTE, 2, (1, 0)), [1, GAP, 11, 12], [1, GAP], [11, 12], [1, GAP, 11, 12],
              [1, 11, GAP, 12]),
    completes('STACK of a STACK', scalars(I16, SIGNED, SIGNED) + stack(0, 1) + stack(2, 2) + stack(3, 3, 3), [1, GAP], [1], [GAP], [1, GAP], [1, GAP] * 2,
              [1, GAP] * 6),
    completes('STACK of CONSTs, with room left', const(I16, 1) + const(I16, 2) + stack(1, 0, 1), [], [1], [2], [2, 1, 2], more=(2, 3)),
    completes('STACK, KNOWN and FILL', TWO_ROWS + stack(0, 1) + apply(KNOWN, 2) + apply(FILL, 2, 1), [GAP, GAP, 11, GAP], [GAP, GAP], [11, GAP],
              [GAP, GAP, 11, GAP], [0, 0, 1, 0], [11, GAP, 11, GAP]),
]

# -------------------------------------------------------------------- refusals

PAIR = param(0, I16, -3, 5, (2,))
THREE = param(0, I16, *WHOLE_I16, (3,))
WIDE_THREE = param(0, I32, -32768, 0, (3,)) + param(1, I16, -32767, 0, (3,))
LATER = const(I16, 7) + PAIR + const(I16, 7) + param(1, U8, 3, 9, (2,)) + apply(ADD, 0, 2)
REFUSALS = [
    # 13 "either input length is not the PARAM total"
    refused('a value and a flag for no PARAM', 13, 0, const(I16, 5), [1]),
    refused('a value for no PARAM', 13, 0, const(I16, 5), [1], flags=[]),
    refused('a flag for no PARAM', 13, 0, const(I16, 5), [], flags=[1]),
    refused('both one short', 13, 0, PAIR, [1]),
    refused('both one long', 13, 0, PAIR, [1, 1, 1]),
    refused('values one short', 13, 0, PAIR, [1], flags=[1, 1]),
    refused('values one long', 13, 0, PAIR, [1, 1, 1], flags=[1, 1]),
    refused('flags one short', 13, 0, PAIR, [1, 1], flags=[1]),
    refused('flags one long', 13, 0, PAIR, [1, 1], flags=[1, 1, 1]),
    refused('the inputs of one PARAM of two', 13, 0, LATER, [1, 1]),
    # 14 "a buffer written to is too short"
    refused('values room one short', 14, 0, PAIR, [1, 1], rooms=(1, 2)),
    refused('flags room one short', 14, 0, PAIR, [1, 1], rooms=(2, 1)),
    refused('no rooms', 14, 0, PAIR, [1, 1], rooms=(0, 0)),
    refused('rooms for the output alone', 14, 0, PAIR + move(FLIP, 0, (1,)), [1, 1], rooms=(2, 2)),
    refused('flags room one short of all nodes', 14, 0, PAIR + move(FLIP, 0, (1,)), [1, 1], rooms=(9, 3)),
    # 15 "flag neither 0 nor 1", 16 "known number outside limits", both at their position among all inputs
    *(refused(f'flag {flag}', 15, 1, PAIR, [1, (1, flag)]) for flag in (2, 3, 4, 7, 8, 16, 32, 64, 127, 128, 129, 254, 255)),
    *(refused(f'number {value}', 16, 1, PAIR, [1, value]) for value in (-4, 6, 2 ** 32, -2 ** 32, -BIG, BIG - 1)),
    completes('numbers at their limits', PAIR, [-3, 5], [-3, 5]),
    refused('flag 2 in the second PARAM', 15, 2, LATER, [1, 1, (3, 2), 3]),
    refused('number within the limits of another PARAM', 16, 3, LATER, [1, 1, 3, 2]),
    refused('number within its type', 16, 2, LATER, [1, 1, 10, 3]),
    refused('flag 2 at position 299', 15, 299, param(0, I16, 0, 9, (300,)), [1] * 299 + [(1, 2)], rooms=(300, 300)),
    refused('number 10 at position 299', 16, 299, param(0, I16, 0, 9, (300,)), [1] * 299 + [10], rooms=(300, 300)),
    # "15 and 16 at the first bad position, 15 before 16"
    refused('flag and number at one position', 15, 0, PAIR, [(6, 2), 1]),
    refused('number before flag', 16, 0, PAIR, [6, (1, 2)]),
    refused('flag before number', 15, 0, PAIR, [(1, 2), 6]),
    refused('two flags', 15, 0, PAIR, [(1, 2), (1, 255)]),
    refused('two numbers', 16, 0, PAIR, [6, -4]),
    refused('a number after a gap over garbage', 16, 1, PAIR, [GAP, 6]),
    # 16 "known number outside limits": no limits of i16 hold −32768, (02) "The range of i16 becomes −32767..32767"
    refused('−32768 of i16', 16, 2, THREE, [-32767, 32767, -32768]),
    refused('−32768 at every position', 16, 0, THREE, [-32768, -32768, -32768]),
    refused('−32768 after −32768 under a gap', 16, 1, THREE, [(-32768, 0), -32768, -32768]),
    refused('−32768 within narrow limits', 16, 0, PAIR, [-32768, 1]),
    refused('−32768 before a flag', 16, 0, THREE, [-32768, (1, 2), 1]),
    refused('−32768 after a flag', 15, 0, THREE, [(1, 2), -32768, 1]),
    refused('−32768 under a flag', 15, 1, THREE, [1, (-32768, 2), -32768]),
    refused('−32768 before 32768', 16, 1, THREE, [1, -32768, 32768]),
    refused('−32768 after 32768', 16, 0, THREE, [32768, -32768, 1]),
    refused('−32768 of i16 after that of i32', 16, 5, WIDE_THREE, [-32768, -32768, 0, -32767, 0, -32768]),
    refused('−32768 of i32 whose limits do not hold it', 16, 1, param(0, I32, -32767, 0, (2,)), [-32767, -32768]),
    # "Writing results before 15 and 16 have been tested at every position." is a slip
    refused('the last flag of two PARAMs', 15, 3, LATER, [1, 1, 3, (3, 255)]),
    # "Order: .. 12 ..; then 13, 14; then 15 and 16"
    refused('13 before 14', 13, 0, PAIR, [1], rooms=(0, 0)),
    refused('13 before 15', 13, 0, PAIR, [(1, 2)]),
    refused('13 before 16', 13, 0, PAIR, [6, 6, 6]),
    refused('14 before 15', 14, 0, PAIR, [(1, 2), 1], rooms=(2, 1)),
    refused('14 before 16', 14, 0, PAIR, [6, 1], rooms=(1, 2)),
    refused('1 before 13', 1, 0, PAIR[:16], [1, 1, 1]),
    refused('2 before 13', 2, 1, PAIR + node(UNKNOWN), [1], rooms=(0, 0)),
    refused('11 before 15', 11, 1, PAIR + const(BOOL, 2), [(1, 2), 1]),
    refused('11 of −32768 before 16', 11, 0, param(0, I16, -32768, 32767, (2,)), [-32768, 1]),
    refused('10 of a divisor that the input would not have', 10, 1, PAIR + apply(IDIV, 0, 0), [1, 1]),
    refused('12 before 13', 12, 0, large(*[(LARGE,)] * 4) + const(BOOL, 1), []),
    # (02) "STACK's number, or a word 3 not zero with number 2, is 7 .., its shapes and rank 8"
    refused('7 of a STACK of four', 7, 1, PAIR + node(STACK, {5: 4}), [1], rooms=(0, 0)),
    refused('7 of a word 3 not zero', 7, 1, PAIR + node(STACK, {3: -1, 5: 2}), [1]),
    refused('8 of a STACK of two shapes', 8, 2, PAIR + const(I16, 1) + stack(0, 1), [1, 1]),
    refused('8 of a STACK of rank 4', 8, 1, SIXTEEN + stack(0, 0, 0), []),
    refused('6 of a FILL', 6, 2, PAIR + const(U8, 1) + apply(FILL, 0, 1), [6, 6]),
    # 14: the parts of a STACK are elements too
    refused('rooms one short of a STACK', 14, 0, PAIR + stack(0, 0), [1, 1], rooms=(5, 6)),
    refused('flags room one short of a STACK', 14, 0, PAIR + stack(0, 0), [1, 1], rooms=(6, 5)),
    refused('16 under a FILL', 16, 1, PAIR + const(I16, 0) + apply(FILL, 0, 1), [GAP, 6]),
    refused('15 under a KNOWN', 15, 0, PAIR + apply(KNOWN, 0), [(1, 2), GAP]),
    refused('no words', 1, 0, [], []),
]

EXAMPLES = [*NUMBERS, *GAPS, *MOVEMENTS, *FOUR_AXES, *RANKS, *FILLED, *KNOWN_CELLS, *STACKED, *REFUSALS]
