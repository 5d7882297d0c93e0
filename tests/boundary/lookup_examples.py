"""Lookups by hand: every answer is written here from the sentence of 01 above it, or of 02 where (02) stands before it. test_lookup.py and the program
vectors run them."""

from collections import namedtuple

from cases import LARGE, UNKNOWN, apply, at_axis, const, large, load, move, node, param, reduce_node, stack
from model import ADD, CAST, EXPAND, FILL, FLIP, KNOWN, LOAD, MOD, PAD, PERMUTE, RESHAPE, SHRINK, STACK, WHERE

BOOL, U8, I16, I32 = range(4)
MOST = 2 ** 64 - 1

# reply: number, place; 0 nothing, 1 a place, 2 a gap; the place's node and element.
Example = namedtuple('Example', 'name table node element reply')


def found(name, table, node, *places):
    """Every element of a node: the place (node, element) that it comes from, or None for a gap."""
    return [Example(f'{name}, element {k}', table, node, k, (0, 0, 2, 0, 0) if place is None else (0, 0, 1, *place)) for k, place in enumerate(places)]


def found_at(name, table, element, source):
    """One element of node 1, and the element of node 0 that it comes from, or None for a gap."""
    return Example(f'{name}, element {element}', table, 1, element, (0, 0, 2, 0, 0) if source is None else (0, 0, 1, 0, source))


def refused(name, number, place, table, node=0, element=0):
    return Example(name, table, node, element, (number, place, 0, 0, 0))


PAIR = param(0, I16, 0, 9, (2,))
SIX = param(0, I16, 0, 9, (2, 3))
PADDED = PAIR + move(PAD, 0, (5,), (1,))
TURNED = SIX + move(PERMUTE, 0, (1, 0))
SIXTEEN = param(0, I16, 0, 9, (2, 2, 2, 2))
FOUR = param(0, I16, 0, 9, (2, 1, 2, 1))
FOUND = [
    # "● PERMUTE (1,0) of 2x3: element 3 is source element 4."
    *found('PERMUTE (1,0) of 2x3', TURNED, 1, (0, 0), (0, 3), (0, 1), (0, 4), (0, 2), (0, 5)),
    # "PERMUTE: result axis k is source axis A_k.": no turn that is its own inverse
    *found('PERMUTE (2,0,1) of 1x2x3', param(0, I16, 0, 9, (1, 2, 3)) + move(PERMUTE, 0, (2, 0, 1)), 1, (0, 0), (0, 3), (0, 1), (0, 4), (0, 2), (0, 5)),
    # "● 7 9 padded to 5 at 1: gap 7 9 gap gap; flipped: gap gap 9 7 gap."
    *found('2 padded to 5 at 1', PADDED, 1, None, (0, 0), (0, 1), None, None),
    *found('padded and flipped', PADDED + move(FLIP, 1, (1,)), 2, None, None, (0, 1), (0, 0), None),
    # "FLIP: flag 1 reverses."
    *found('FLIP of the first axis', SIX + move(FLIP, 0, (1, 0)), 1, (0, 3), (0, 4), (0, 5), (0, 0), (0, 1), (0, 2)),
    *found('FLIP of the last axis', SIX + move(FLIP, 0, (0, 1)), 1, (0, 2), (0, 1), (0, 0), (0, 5), (0, 4), (0, 3)),
    *found('FLIP of both', SIX + move(FLIP, 0, (1, 1)), 1, (0, 5), (0, 4), (0, 3), (0, 2), (0, 1), (0, 0)),
    # "Elements are numbered row-major."
    *found('RESHAPE', SIX + move(RESHAPE, 0, (3, 2)), 1, *((0, k) for k in range(6))),
    *found('LOAD', SIX + node(LOAD, {1: 0, 6: 9}), 1, *((0, k) for k in range(6))),
    # "EXPAND: same rank, s_k is 1 or s'_k."
    *found('EXPAND of the first axis', param(0, I16, 0, 9, (1, 2)) + move(EXPAND, 0, (2, 2)), 1, (0, 0), (0, 1), (0, 0), (0, 1)),
    *found('EXPAND of the last axis', param(0, I16, 0, 9, (2, 1)) + move(EXPAND, 0, (2, 2)), 1, (0, 0), (0, 0), (0, 1), (0, 1)),
    # "PAD: same rank, offset o_k + s_k ≤ s'_k. SHRINK: same rank, o_k + s'_k ≤ s_k."
    *found('PAD of 1x2 to 2x3 at 1, 1', param(0, I16, 0, 9, (1, 2)) + move(PAD, 0, (2, 3), (1, 1)), 1, None, None, None, None, (0, 0), (0, 1)),
    *found('SHRINK of 2x3 to 1x2 at 1, 1', SIX + move(SHRINK, 0, (1, 2), (1, 1)), 1, (0, 4), (0, 5)),
    # the same by each single axis of four, in 2x2x2x2, whose element 5 is at 0, 1, 0, 1
    *(found_at(f'FLIP of axis {axis} of four', SIXTEEN + move(FLIP, 0, at_axis(axis, 1)), 5, source) for axis, source in enumerate((13, 1, 7, 4))),
    found_at('FLIP of axes 0 and 2 of four', SIXTEEN + move(FLIP, 0, (1, 0, 1, 0)), 5, 15),
    *(found_at(f'SHRINK of axis {axis} of four', SIXTEEN + move(SHRINK, 0, at_axis(axis, 1, 2), at_axis(axis, 1)), 5, source)
      for axis, source in enumerate((13, 13, 11, 11))),
    *(found_at(f'EXPAND of axis {axis} of four', param(0, I16, 0, 9, at_axis(axis, 1, 2)) + move(EXPAND, 0, (2, 2, 2, 2)), 15, 7) for axis in range(4)),
    *(found_at(f'PERMUTE {turn}', SIXTEEN + move(PERMUTE, 0, turn), 5, source)
      for turn, source in (((1, 0, 2, 3), 9), ((0, 2, 1, 3), 3), ((0, 1, 3, 2), 6), ((1, 2, 3, 0), 10), ((3, 0, 1, 2), 10))),
    *(found_at(f'PAD of axis {axis} of four', FOUR + move(PAD, 0, shape, at_axis(axis, 1)), element, source)
      for axis, shape, pairs in ((0, (4, 1, 2, 1), ((1, None), (2, 0), (6, None))), (1, (2, 3, 2, 1), ((1, None), (8, 2), (10, None))),
                                 (2, (2, 1, 4, 1), ((4, None), (5, 2), (7, None))), (3, (2, 1, 2, 3), ((3, None), (4, 1), (5, None))))
      for element, source in pairs),
    # "A shape row is rank extents of 1..1048576"
    *(found_at('FLIP of 1048576', large((LARGE,)) + move(FLIP, 0, (1,)), element, LARGE - 1 - element) for element in (0, 65536, LARGE - 1)),
    # "follows nodes 2–7 and 20 back .. to the first other node": all of them, one after another
    *found('a chain', SIX + move(PERMUTE, 0, (1, 0)) + move(FLIP, 1, (1, 0)) + move(RESHAPE, 2, (1, 6)) + move(EXPAND, 3, (2, 6)) + move(PAD, 4, (3, 6), (1, 0))
           + move(SHRINK, 5, (2, 2), (0, 1)) + node(LOAD, {1: 6, 6: 2}), 7, None, None, (0, 5), (0, 1)),
    *found('SHRINK of what PAD put there', PADDED + move(SHRINK, 1, (1,), (4,)), 2, None),
    # "to the first other node": CAST and all that compute stop it, and a node that is not followed answers itself
    *found('CAST', TURNED + node(CAST, {1: 1, 4: I32}) + move(FLIP, 2, (1, 0)), 3, (2, 4), (2, 5), (2, 2), (2, 3), (2, 0), (2, 1)),
    *found('ADD', PAIR + apply(ADD, 0, 0) + move(FLIP, 1, (1,)), 2, (1, 1), (1, 0)),
    *found('MOD', PAIR + const(I16, 2) + apply(MOD, 0, 1) + move(FLIP, 2, (1,)), 3, (2, 1), (2, 0)),
    *found('WHERE', const(BOOL, 1) + PAIR + apply(WHERE, 0, 1, 1) + move(FLIP, 2, (1,)), 3, (2, 1), (2, 0)),
    *found('REDUCE', SIX + reduce_node(0, 0, (0, 1)) + move(FLIP, 1, (1, 0)), 2, (1, 1), (1, 0)),
    *found('a PARAM', SIX, 0, *((0, k) for k in range(6))),
    *found('a CONST', const(I16, 5), 0, (0, 0)),
    *found('the least CONST of i16', const(I16, -32767), 0, (0, 0)),
    *found('a node before the last', TURNED + move(FLIP, 1, (1, 0)), 1, (0, 0), (0, 3), (0, 1), (0, 4), (0, 2), (0, 5)),
]
# node 1 is the pair turned round, so that a place in it is not the same place in node 0
TURNED_PAIR = PAIR + move(FLIP, 0, (1,))
STOPPED = [
    # (02) "lookups stop at them": the answer is the node itself, under movements too
    *found('FILL', TURNED_PAIR + apply(FILL, 1, 0), 2, (2, 0), (2, 1)),
    *found('KNOWN', TURNED_PAIR + apply(KNOWN, 1), 2, (2, 0), (2, 1)),
    *found('STACK of two', TURNED_PAIR + stack(1, 0), 2, (2, 0), (2, 1), (2, 2), (2, 3)),
    *found('FILL of a row by a number', TURNED_PAIR + const(I16, 5) + apply(FILL, 1, 2) + load(3, 7), 4, (3, 0), (3, 1)),
    *found('FILL of a number by a row', TURNED_PAIR + const(I16, 5) + apply(FILL, 2, 1) + move(FLIP, 3, (1,)), 4, (3, 1), (3, 0)),
    *found('FLIP of KNOWN', TURNED_PAIR + apply(KNOWN, 1) + move(FLIP, 2, (1,)), 3, (2, 1), (2, 0)),
    *found('SHRINK of KNOWN of what PAD put there', PADDED + apply(KNOWN, 1) + move(SHRINK, 2, (2,), (3,)), 3, (2, 3), (2, 4)),
    *found('STACK flipped on its new axis', TURNED_PAIR + stack(0, 1) + move(FLIP, 2, (1, 0)), 3, (2, 2), (2, 3), (2, 0), (2, 1)),
    *found('STACK of three with its new axis last', TURNED_PAIR + stack(0, 1, 1) + move(PERMUTE, 2, (1, 0)), 3, (2, 0), (2, 2), (2, 4), (2, 1), (2, 3), (2, 5)),
    *found('STACK padded', TURNED_PAIR + stack(1, 1) + move(PAD, 2, (3, 2), (1, 0)), 3, None, None, (2, 0), (2, 1), (2, 2), (2, 3)),
    *found('one part of a STACK', TURNED_PAIR + stack(0, 1) + move(SHRINK, 2, (1, 2), (1, 0)) + move(RESHAPE, 3, (2,)) + load(4, 3), 5, (2, 2), (2, 3)),
]
REFUSED = [
    # 17 "lookup node or element not there"
    *(refused(f'node {n} of two', 17, 0, TURNED, n) for n in (2, 3, 255, 256, 2 ** 32, 2 ** 63, MOST)),
    *(refused(f'element {e} of six', 17, 0, TURNED, 1, e) for e in (6, 7, 2 ** 20, 2 ** 32, 2 ** 63, MOST)),
    refused('element 1 of a number', 17, 0, const(I16, 5), 0, 1),
    refused('an element of the next node', 17, 0, PADDED, 0, 2),
    refused('neither node nor element', 17, 0, TURNED, MOST, MOST),
    # "A lookup gives 17 after 12."
    refused('1 before 17', 1, 0, SIX[:16], 9, 9),
    refused('no words', 1, 0, [], 0, 0),
    refused('2 before 17', 2, 1, SIX + node(UNKNOWN), 9, 9),
    refused('4 before 17', 4, 1, SIX + move(FLIP, 1, (1, 0)), 9, 9),
    refused('11 of a node after the one asked', 11, 2, TURNED + const(BOOL, 2), 1, 3),
    # (02) "The range of i16 becomes −32767..32767, wherever a type's range is asked for."
    refused('11 of −32768', 11, 2, TURNED + const(I16, -32768), 1, 3),
    refused('12 before 17', 12, 0, large(*[(LARGE,)] * 4) + const(BOOL, 1), 9, 0),
    # (02) "STACK's number, or a word 3 not zero with number 2, is 7 .., its shapes and rank 8"
    refused('7 of a STACK of four', 7, 1, PAIR + node(STACK, {5: 4}), 0, 0),
    refused('7 of a word 3 not zero', 7, 1, PAIR + node(STACK, {3: 1, 5: 2}), 0, 0),
    refused('8 of a STACK of rank 4', 8, 1, SIXTEEN + stack(0, 0), 0, 0),
    *(refused(f'element {e} of a STACK of four cells', 17, 0, PAIR + stack(0, 0), 1, e) for e in (4, MOST)),
]

EXAMPLES = [*FOUND, *STOPPED, *REFUSED]
