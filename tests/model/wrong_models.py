"""Wrong models: model.py with one slip each, for test_wrong_models.py.

A slip is a name and the attributes of model that are replaced. Where its name has that of an operation in
capitals, it is in the nodes of that operation alone. CONTROLS are copies of the model's functions as the slips use
them, without a slip: they change nothing.
"""

from contextlib import contextmanager
from itertools import combinations, product
from math import prod
from types import SimpleNamespace

import model
from model import (ADD, AND, BINARY, BOOL, CAST, CMPLT, CMPNE, CONST, EXPAND, FILL, FLIP, IDIV, KNOWN, LOAD, MAX, MOD,
                   MUL, NEW, OR, PAD, PARAM, PERMUTE, REDUCE, RESHAPE, SECOND_EDITION, SHRINK, STACK, WHERE, Answer, Found)

RIGHT = SimpleNamespace(**vars(model))
RULES = dict(RIGHT.NODE_RULES)
NAMES = ('CONST PARAM PERMUTE FLIP RESHAPE EXPAND PAD SHRINK CAST ADD MUL MAX IDIV MOD CMPLT CMPNE AND OR WHERE '
         'REDUCE LOAD FILL KNOWN STACK').split()
OPERATIONS = len(NAMES)
AXES = range(4)
I16, I32 = 2, 3
LARGE = 1048576
FOLLOWED = (*range(PERMUTE, CAST), LOAD)


# ------------------------------------------------------------- making slips

@contextmanager
def patched(patches):
    for name, wrong in patches.items():
        setattr(model, name, wrong)
    try:
        yield
    finally:
        for name in patches:
            setattr(model, name, getattr(RIGHT, name))


def in_call(call, patches):
    """The patches in one call alone."""
    def wrong(*arguments):
        with patched(patches):
            return getattr(RIGHT, call)(*arguments)
    return {call: wrong}


def setting(word, value):
    """A change of a node's words: one of them, to a value or by a function of it."""
    return lambda words: [(value(old) if callable(value) else value) if k == word else old
                          for k, old in enumerate(words)]


def changed(node, change):
    return RIGHT.Node(change(node.words), node.earlier, node.params_before)


def seen(function, op, change):
    """A function of words, or of a node, that sees those of the operation changed."""
    def wrong(first, *rest):
        if isinstance(first, RIGHT.Node):
            first = changed(first, change) if first.op == op else first
        elif first[0] == op:
            first = change(first)
        return getattr(RIGHT, function)(first, *rest)
    return {function: wrong}


def rules(wrong):
    """Other tests of a node, by the numbers of their rules."""
    return {'NODE_RULES': tuple((number, wrong.get(number, right)) for number, right in RIGHT.NODE_RULES)}


def rule(number, wrong):
    """Another test of a node by the rule."""
    return rules({number: wrong})


def rule_seen(number, ops, change):
    """The rule sees the words of the operations changed."""
    return rule(number, lambda node: RULES[number](changed(node, change) if node.op in ops else node))


def excused(number, test):
    """The rule, but for the nodes of a test."""
    return rule(number, lambda node: not test(node) and RULES[number](node))


def refused(number, test):
    """The rule, and the nodes of a test too."""
    return rule(number, lambda node: RULES[number](node) or test(node))


def of_result(function, op, wrong):
    """What is derived of the operation's node, by the node and what is right."""
    right = getattr(RIGHT, function)
    return {function: lambda node: wrong(node, right(node)) if node.op == op else right(node)}


def rank_of(node):
    return len(node.sources[0].extents)


def named(ops):
    return 'a binary' if ops == BINARY else NAMES[ops[0]]


def dtypes(node):
    return [source.dtype for source in node.sources]


# --------------------------------------------------------------- movements

def movements():
    """Where an element comes from, in a run and in a lookup."""
    for name, patch in origins():
        yield f'{name} in a run', in_call('run', patch)
        yield f'{name} in a lookup', in_call('lookup', patch)


def origins():
    for axis in AXES:
        for op, word in ((FLIP, 9), (PAD, 13), (SHRINK, 13)):
            yield f'{NAMES[op]} ignores axis {axis}', seen('source_coordinates', op, setting(word + axis, 0))
        yield f'EXPAND does not hold axis {axis}', origin(EXPAND, lambda found, place, k=axis: tuple(
            p if j == k else f for j, (f, p) in enumerate(zip(found, place))))
        for before in (True, False):
            side = 'before' if before else 'after'
            yield f'PAD has no gaps {side} the source on axis {axis}', held_pad(axis, before)
    for k in range(3):
        yield f'PERMUTE exchanges axes {k} and {k + 1}', origin(
            PERMUTE, lambda found, place, k=k: exchanged(found, k))
    yield 'PERMUTE by the inverse row', {'source_coordinates': by_the_inverse}
    yield 'RESHAPE by columns', {'source_coordinates': by_columns}
    for name, kept in flag_slips():
        yield f'FLIP of {name}', seen('source_coordinates', FLIP, lambda words, f=kept: flagged(words, f))


def exchanged(items, k):
    return (*items[:k], *items[k:k + 2][::-1], *items[k + 2:])


def origin(op, change):
    """Another place in the source, by the right one and the place in the result."""
    def wrong(words, place, *shapes):
        found = RIGHT.source_coordinates(words, place, *shapes)
        return change(found, place) if words[0] == op and found is not None else found
    return {'source_coordinates': wrong}


def held_pad(axis, before):
    """A cell of PAD beside the source on one side of the axis is the nearest one of the source."""
    def wrong(words, place, extents, source):
        if words[0] == PAD and axis < len(place):
            first = words[13 + axis]
            held = max(place[axis], first) if before else min(place[axis], first + source[axis] - 1)
            place = (*place[:axis], held, *place[axis + 1:])
        return RIGHT.source_coordinates(words, place, extents, source)
    return {'source_coordinates': wrong}


def by_the_inverse(words, place, *shapes):
    if words[0] == PERMUTE:
        return tuple(place[axis] for axis in words[9:9 + len(place)])
    return RIGHT.source_coordinates(words, place, *shapes)


def by_columns(words, place, extents, source):
    if words[0] == RESHAPE:
        return RIGHT.coordinates_at(RIGHT.element_at(place[::-1], extents[::-1]), source[::-1])[::-1]
    return RIGHT.source_coordinates(words, place, extents, source)


def flag_slips():
    """Other axes than the flagged ones, of which there is one at least."""
    yield 'the first flagged axis alone', lambda axes: axes[:1]
    yield 'the last flagged axis alone', lambda axes: axes[-1:]
    yield 'all axes from the first to the last flagged one', lambda axes: range(axes[0], axes[-1] + 1)


def flagged(words, kept):
    axes = [axis for axis in AXES if words[9 + axis]]
    return words if not axes else [*words[:9], *(int(axis in kept(axes)) for axis in AXES), *words[13:]]


# ------------------------------------------------------------------- shapes

# "s_k is 1 or s'_k", "o_k + s_k ≤ s'_k", "o_k + s'_k ≤ s_k"
FITS = {EXPAND: lambda o, s, w: s in (1, w), PAD: lambda o, s, w: o + s <= w, SHRINK: lambda o, s, w: o + w <= s}


def fitting(op, fits, same_rank=True):
    """Another fit of EXPAND, PAD or SHRINK: a test of axis, offset, extent and wanted extent."""
    def wrong(node, _):
        wanted, source = RIGHT.extents_of_row(node.row_a), node.sources[0].extents
        fit = all(fits(axis, *three) for axis, three in enumerate(zip(node.row_b, source, wanted)))
        return wanted if fit and (not same_rank or len(wanted) == len(source)) else None
    return of_result('result_extents', op, wrong)


def reshaped(without, without_of_source):
    def wrong(node, _):
        wanted, source = RIGHT.extents_of_row(node.row_a), node.sources[0].extents
        counts = [prod(extent for axis, extent in enumerate(extents) if axis != left_out)
                  for extents, left_out in ((wanted, without), (source, without_of_source))]
        return wanted if counts[0] == counts[1] else None
    return of_result('result_extents', RESHAPE, wrong)


def shapes():
    for op, right in FITS.items():
        for axis in AXES:
            yield f'the fit of {NAMES[op]} ignores axis {axis}', fitting(
                op, lambda a, *three, k=axis, f=right: a == k or f(*three))
        yield f'{NAMES[op]} does not ask the rank', fitting(op, lambda a, *three, f=right: f(*three), False)
    for name, op, fits in (("EXPAND takes s up to s'", EXPAND, lambda a, o, s, w: s <= w),
                           ("EXPAND takes s that divides s'", EXPAND, lambda a, o, s, w: w % s == 0),
                           ("EXPAND takes s' of 1", EXPAND, lambda a, o, s, w: s in (1, w) or w == 1),
                           ('EXPAND does not take an axis of 1', EXPAND, lambda a, o, s, w: s == w),
                           ("PAD asks o + s < s'", PAD, lambda a, o, s, w: o + s < w),
                           ("PAD asks o + s ≤ s' + 1", PAD, lambda a, o, s, w: o + s <= w + 1),
                           ("PAD asks s ≤ s'", PAD, lambda a, o, s, w: s <= w),
                           ("PAD asks o ≤ s'", PAD, lambda a, o, s, w: o <= w),
                           ("SHRINK asks o + s' < s", SHRINK, lambda a, o, s, w: o + w < s),
                           ("SHRINK asks o + s' ≤ s + 1", SHRINK, lambda a, o, s, w: o + w <= s + 1),
                           ("SHRINK asks s' ≤ s", SHRINK, lambda a, o, s, w: w <= s),
                           ('SHRINK asks o < s', SHRINK, lambda a, o, s, w: o < s)):
        yield name, fitting(op, fits)
    for axis in AXES:
        yield f"RESHAPE leaves axis {axis} of s' out of the count", reshaped(axis, None)
        yield f'RESHAPE leaves axis {axis} of s out of the count', reshaped(None, axis)
    for name, sign in (('more', 1), ('fewer', -1)):
        yield f'RESHAPE to {name} elements', excused(8, lambda node, s=sign: node.op == RESHAPE and s * (
            prod(RIGHT.extents_of_row(node.row_a)) - prod(node.sources[0].extents)) > 0)
    yield 'RESHAPE asks the rank', refused(8, lambda node: node.op == RESHAPE and len(
        RIGHT.extents_of_row(node.row_a)) != rank_of(node))
    yield 'PERMUTE keeps the shape', of_result('result_extents', PERMUTE, lambda node, _: node.sources[0].extents)
    yield 'PERMUTE has the shape of the inverse row', of_result('result_extents', PERMUTE, lambda node, right: tuple(
        node.sources[0].extents[node.row_a.index(axis)] for axis in range(len(right))))
    for k in range(3):
        yield f'PERMUTE has the shape with axes {k} and {k + 1} exchanged', of_result(
            'result_extents', PERMUTE, lambda node, right, k=k: exchanged(right, k))
    for op in (*FITS, RESHAPE, *BINARY, WHERE, FILL, STACK):
        yield f'shapes of {NAMES[op]} are not compared', excused(
            8, lambda node, o=op: node.op == o and RIGHT.result_extents(node) is None)
    for op in (*BINARY, WHERE, FILL):
        yield f'{NAMES[op]} asks for the same shape', refused(8, lambda node, o=op: (
            node.op == o and len({source.extents for source in node.sources}) > 1))


def broadcasts():
    for axis in AXES:
        yield f'broadcast does not compare result axis {axis}', {'broadcast': loose(lambda k, rank, a=axis: k == a)}
        yield f'broadcast does not compare axis {axis + 1} from the last', {
            'broadcast': loose(lambda k, rank, a=axis: rank - 1 - k == a)}
        for ops, role in ((BINARY, 0), (BINARY, 1), ((WHERE,), 0), ((WHERE,), 1), ((WHERE,), 2),
                          ((FILL,), 0), ((FILL,), 1)):
            yield f'source {role + 1} of {named(ops)} is read at 0 on its axis {axis + 1} from the last', {
                'element_value': read_at_0(ops, [role], lambda k, rank, own, a=axis: own - 1 - k == a)}
    for op in (*BINARY, WHERE, FILL):
        for role in range(3 if op == WHERE else 2):
            yield f'source {role + 1} of {NAMES[op]} is read at 0', {
                'element_value': read_at_0((op,), [role], lambda *_: True)}
    for own, rank in combinations(range(1, 5), 2):
        for ops, roles in ((BINARY, [0]), (BINARY, [1]), ((WHERE,), [0, 1, 2]), ((FILL,), [0]), ((FILL,), [1])):
            yield f'source {roles[-1] + 1} of {named(ops)} is read at 0 with rank {own} under rank {rank}', {
                'element_value': read_at_0(ops, roles, lambda k, r, o, wanted=(rank, own): (r, o) == wanted)}
    yield 'broadcast aligned on the left', {'broadcast': lambda several: RIGHT.broadcast(
        [(*shape, *[1] * (max(map(len, several)) - len(shape))) for shape in several])}
    yield 'operands aligned on the left', {'operand_at': lambda field, place, extents: RIGHT.operand_at(
        field, place[:len(extents)], extents)}
    yield 'broadcast leaves the third shape out', {'broadcast': lambda several: RIGHT.broadcast(several[:2])}
    yield 'broadcast leaves the first of three shapes out', {
        'broadcast': lambda several: RIGHT.broadcast(several[len(several) - 2:])}
    yield 'broadcast takes the shape of highest rank', {
        'broadcast': lambda several: RIGHT.broadcast(several) and max(several, key=len)}


def loose(skipped):
    """broadcast without the comparison on some axes: a test of the axis and the rank."""
    def wrong(several):
        rank = max(map(len, several))
        aligned = [(1,) * (rank - len(shape)) + shape for shape in several]
        kept = [tuple(1 if skipped(k, rank) else extent for k, extent in enumerate(shape)) for shape in aligned]
        return None if RIGHT.broadcast(kept) is None else tuple(map(max, zip(*aligned)))
    return wrong


def read_at_0(ops, roles, at_0):
    """Some operands are read at 0 on some axes of theirs: a test of the axis, the result's rank and their own."""
    def held(own, field, rank):
        return own, {place: field[tuple(0 if at_0(axis, rank, len(own)) else c for axis, c in enumerate(place))]
                     for place in field}

    def wrong(words, place, extents, sources):
        if words[0] in ops:
            sources = [held(*source, len(place)) if k in roles else source for k, source in enumerate(sources)]
        return RIGHT.element_value(words, place, extents, sources)
    return wrong


# ------------------------------------------------------ the rules in order

def quiet(test):
    """The rule, which passes a node that it cannot be asked of."""
    def asked(node):
        try:
            return test(node)
        except (IndexError, KeyError, TypeError):
            return False
    return asked


def nothing_used(node):
    """Rule 3, where an operation that is not known uses no word."""
    return any(node.words[1:]) if RULES[2](node) else RULES[3](node)


def orders():
    for number in RULES:
        yield f'rule {number} is not asked', rule(number, lambda node: False)
    # 5 and 6 are never broken by one node.
    for first, second in ((2, 3), (3, 4), (4, 5), (6, 7), (7, 8), (8, 9), (9, 10), (10, 11)):
        early = nothing_used if second == 3 else quiet(RULES[second])
        turned = {first: (second, early), second: (first, quiet(RULES[first]))}
        yield f'rule {second} before {first}', {
            'NODE_RULES': tuple(turned.get(n, (n, right)) for n, right in RIGHT.NODE_RULES)}
    yield 'rule 1 leaves the words past the last node out', {
        'verdict': lambda table: RIGHT.verdict(table[:len(table) // 17 * 17])}
    yield 'rule 1 takes no nodes', {'verdict': lambda table: RIGHT.verdict(table) if table else (0, [])}
    for name, numbers, place in (('from 1', range(2, 12), lambda place, nodes: place + 1),
                                 ('from the last', range(2, 12), lambda place, nodes: nodes - 1 - place),
                                 ('1 of rules 1 and 12', (1, 12), lambda place, nodes: 1)):
        yield f'places {name}', {'verdict': lambda table, n=numbers, p=place: (
            lambda number, rest: (number, p(rest, len(table) // 17) if number in n else rest))(*RIGHT.verdict(table))}
    yield 'rule 12 comes before the rules of a late node', {'verdict': over_early}
    yield 'rule 12 leaves the output out', {'verdict': over(lambda counts: counts[:-1])}
    yield 'rule 12 leaves the first node out', {'verdict': over(lambda counts: counts[1:])}
    yield 'words are read by their low half', {'verdict': lambda table: RIGHT.verdict(list(map(low_half, table)))}


def low_half(word):
    return (word + 2 ** 31) % 2 ** 32 - 2 ** 31


def over_early(table):
    number, place = RIGHT.verdict(table)
    return (12, 0) if 1 < number < 12 and RIGHT.verdict(table[:17 * place]) == (12, 0) else (number, place)


def over(kept):
    """verdict whose rule 12 counts some nodes alone."""
    def wrong(table):
        with patched({'MOST_PLAN_ELEMENTS': float('inf')}):
            number, rest = RIGHT.verdict(table)
        if number == 0 and sum(kept([prod(record.extents) for record in rest])) > RIGHT.MOST_PLAN_ELEMENTS:
            return 12, 0
        return number, rest
    return wrong


# ----------------------------------------------------------- rules 3 to 7

def words():
    for word in range(1, 17):
        ops = [op for op in range(OPERATIONS) if word not in RIGHT.USED_WORDS[op]]
        yield f'word {word} is not tested as unused', rule_seen(3, ops, setting(word, 0))
    for op in range(OPERATIONS):
        yield f'unused words of {NAMES[op]} are not tested', excused(3, lambda node, o=op: node.op == o)
        if 6 not in RIGHT.USED_WORDS[op]:
            yield f'word 6 of {NAMES[op]} is not tested as unused', rule_seen(3, [op], setting(6, 0))
        for word in {1, 2, 3} & {*RIGHT.USED_WORDS[op]}:
            yield f'source {word} of {NAMES[op]} is not tested', rule_seen(4, [op], setting(word, 0))
    yield 'an unused word below zero passes', rule(3, lambda node: any(
        node.words[word] > 0 for word in range(1, 17) if not node.uses(word)))
    for word in (1, 2, 3):
        ops = [op for op in range(OPERATIONS) if word in RIGHT.USED_WORDS[op]]
        yield f'source {word} may be negative', rule_seen(4, ops, setting(word, lambda w: max(w, 0)))
        yield f'source {word} may be later', rule_seen(4, ops, setting(word, lambda w: min(w, 0)))
    for op in (CONST, PARAM, CAST):
        for dtype in (4, -1):
            yield f'{NAMES[op]} of type {dtype} passes rule 5', excused(
                5, lambda node, o=op, d=dtype: node.op == o and node.words[4] == d)


def types():
    for op in (ADD, MUL, MAX, IDIV, MOD, CMPLT):
        yield f'{NAMES[op]} takes bools', excused(6, lambda node, o=op: node.op == o and dtypes(node) == [BOOL] * 2)
    for op in (ADD, MUL, MAX, IDIV, MOD, CMPLT, CMPNE):
        yield f'{NAMES[op]} takes two types', excused(6, lambda node, o=op: (
            node.op == o and len({*dtypes(node)}) == 2))
    for op in (AND, OR):
        for bools in (0, 1):
            yield f'{NAMES[op]} takes {2 - bools} not bool', excused(
                6, lambda node, o=op, b=bools: node.op == o and dtypes(node).count(BOOL) == b)
    yield 'CMPNE refuses bools', refused(6, lambda node: node.op == CMPNE and BOOL in dtypes(node))
    yield 'WHERE refuses bools', refused(6, lambda node: node.op == WHERE and BOOL in dtypes(node)[1:])
    yield 'WHERE takes any condition', excused(6, lambda node: (
        node.op == WHERE and dtypes(node)[1] == dtypes(node)[2]))
    yield 'WHERE takes sides of two types', excused(6, lambda node: node.op == WHERE and dtypes(node)[0] == BOOL)
    for number in (0, 1):
        yield f'REDUCE takes bools by number {number}', excused(6, lambda node, n=number: (
            node.op == REDUCE and node.words[5] == n))
    for op in (WHERE, CMPLT, CMPNE, CAST):
        yield f'{NAMES[op]} has the type of its first source', of_result(
            'result_dtype', op, lambda node, _: dtypes(node)[0])


def devices():
    for op in (*BINARY, WHERE, FILL, STACK):
        for role in range(3 if op in (WHERE, STACK) else 2):
            yield f'the device of source {role + 1} of {NAMES[op]} does not count', of_result(
                'result_devices', op, lambda node, _, r=role: {
                    source.device for k, source in enumerate(node.sources) if k != r} - {0})
    yield 'LOAD keeps the device of its source', of_result(
        'result_devices', LOAD, lambda node, _: {node.sources[0].device})
    yield 'LOAD from another device is refused', refused(9, lambda node: (
        node.op == LOAD and node.sources[0].device not in (0, node.words[6])))
    yield 'device 0 is a device like others', {'result_devices': lambda node: (
        RIGHT.result_devices(node) if node.uses(6) else {source.device for source in node.sources})}
    for op in (PARAM, LOAD):
        for device, other in ((0, 1), (-1, 1), (256, 1), (1, 0), (255, 256)):
            passes = 'passes' if other == 1 else 'is refused'
            yield f'device {device} of {NAMES[op]} {passes}', rule_seen(
                7, [op], setting(6, lambda word, d=device, o=other: o if word == d else word))


def numbers():
    yield 'PARAM by any slot', rule(7, lambda node: RULES[7](
        changed(node, setting(5, node.params_before)) if node.op == PARAM else node))
    yield 'PARAM by a lower slot', rule(7, lambda node: RULES[7](changed(node, setting(
        5, lambda word: max(word, node.params_before))) if node.op == PARAM else node))
    yield 'PARAM by the number of its node', {'verdict': slot_by_node}
    yield 'slot 16 passes', excused(7, lambda node: node.op == PARAM and node.words[5] == node.params_before == 16)
    yield 'slot 15 is refused', refused(7, lambda node: node.op == PARAM and node.words[5] == 15)
    yield 'PARAM with low above high', rule_seen(7, [PARAM], lambda words: [*words[:7], min(words[7:9]), *words[8:]])
    yield 'PARAM with low equal to high is refused', refused(7, lambda node: (
        node.op == PARAM and node.words[7] == node.words[8]))
    for number in (2, -1):
        yield f'REDUCE by number {number}', rule_seen(
            7, [REDUCE], setting(5, lambda word, n=number: 0 if word == n else word))


def slot_by_node(table):
    with patched({'Node': lambda words, earlier, params_before: RIGHT.Node(words, earlier, len(earlier))}):
        return RIGHT.verdict(table)


def row_seen(op, first, change):
    """Rule 7 sees the row of an operation that its source's rank measures changed, by the row and the rank."""
    def wrong(node):
        if node.op != op:
            return RULES[7](node)
        return RULES[7](changed(node, lambda words: [
            *words[:first], *change(words[first:first + 4], rank_of(node)), *words[first + 4:]]))
    return rule(7, wrong)


def rows():
    for op, first in ((PERMUTE, 9), (FLIP, 9), (REDUCE, 9), (PAD, 13), (SHRINK, 13)):
        yield f'{NAMES[op]} with words past the rank', row_seen(
            op, first, lambda row, rank: [*row[:rank], *[0] * (4 - rank)])
        for past in AXES:
            yield f'{NAMES[op]} with word {first + past} past rank {past}', row_seen(
                op, first, lambda row, rank, k=past: [0 if j == k == rank else word for j, word in enumerate(row)])
    for op, first, others in ((FLIP, 9, ((2, 0), (7, 0), (-1, 0))), (REDUCE, 9, ((2, 0), (7, 0), (-1, 0))),
                              (PAD, 13, ((-1, 0), (LARGE + 1, 0), (LARGE, -1))),
                              (SHRINK, 13, ((-1, 0), (LARGE + 1, 0), (LARGE, -1)))):
        for axis in AXES:
            yield f'{NAMES[op]} by any word of axis {axis}', row_seen(op, first, lambda row, rank, k=axis: [
                0 if j == k < rank else word for j, word in enumerate(row)])
        for word, other in others:
            passes = 'passes' if other == 0 else 'is refused by'
            yield f'{word} in the row of {NAMES[op]} {passes} rule 7', row_seen(
                op, first, lambda row, rank, w=word, o=other: [o if item == w else item for item in row])
    for axis in AXES:
        yield f'PERMUTE by any number of axis {axis}', excused(7, lambda node, k=axis: (
            node.op == PERMUTE and right_but_for(node, k)))
    yield 'PERMUTE by a number twice', excused(7, lambda node: node.op == PERMUTE and all(
        0 <= word < max(rank_of(node), 1) for word in node.row_a) and not any(node.row_a[rank_of(node):]))
    for op in (PARAM, RESHAPE, EXPAND, PAD, SHRINK):
        yield f'{NAMES[op]} by any shape row', excused(7, lambda node, o=op: (
            node.op == o and RIGHT.extents_of_row(node.row_a) is None))
    for axis in AXES:
        for name, test in (('below zero', lambda word: word < 0), ('over 1048576', lambda word: word > LARGE)):
            yield f'an extent {name} on axis {axis}', {'extents_of_row': other_extent(axis, test)}
    for axis in range(3):
        yield f'an extent of 0 on axis {axis} before another', {'extents_of_row': lambda row, k=axis: (
            RIGHT.extents_of_row([1 if j == k and any(row[j:]) and word == 0 else word
                                  for j, word in enumerate(row)]))}


def right_but_for(node, axis):
    """Whether a row of PERMUTE is right but for the number of one axis."""
    rank = rank_of(node)
    others = {word for k, word in enumerate(node.row_a[:rank]) if k != axis}
    return axis < rank and not any(node.row_a[rank:]) and len(others & {*range(rank)}) == rank - 1


def other_extent(axis, test):
    """extents_of_row that takes any word of a test on an axis."""
    def wrong(row):
        found = RIGHT.extents_of_row([1 if k == axis and test(word) else word for k, word in enumerate(row)])
        return found if found is None else tuple(row[:len(found)])
    return wrong


# ------------------------------------------------- limits and rules 8 to 12

def limits():
    for name in ('MOST_NODES', 'LARGEST_EXTENT', 'MOST_NODE_ELEMENTS', 'MOST_PLAN_ELEMENTS'):
        for more in (-1, 1):
            yield f'{name} {more:+}', {name: getattr(RIGHT, name) + more}
    for dtype, ends in RIGHT.TYPE_LIMITS.items():
        for end, side in enumerate(('low', 'high')):
            for more in (-1, 1):
                yield f'type {dtype} with its {side} end {more:+}', {'TYPE_LIMITS': {
                    **RIGHT.TYPE_LIMITS, dtype: tuple(e + more if k == end else e for k, e in enumerate(ends))}}
    for ops in ([PARAM], [EXPAND], [PAD], BINARY, [WHERE], [FILL]):
        for most in (LARGE + 1, float('inf')):
            yield f'{named(ops)} of {most} elements passes', excused(8, lambda node, o=ops, m=most: (
                node.op in o and RIGHT.result_extents(node) and LARGE < prod(RIGHT.result_extents(node)) <= m))
    for bits in (32, 64):
        yield f'elements are counted in {bits} bits', excused(8, lambda node, b=bits: (
            RIGHT.result_extents(node) and prod(RIGHT.result_extents(node)) % 2 ** b <= LARGE))
    for op in (IDIV, MOD):
        for name, test in (('low 0', lambda d: d.low == 0), ('high 0', lambda d: d.high == 0),
                           ('0 inside', lambda d: d.low < 0 < d.high)):
            yield f'{NAMES[op]} by a divisor with {name}', excused(10, lambda node, o=op, t=test: (
                node.op == o and t(node.sources[1])))
    for op in (CONST, PARAM, CAST, ADD, MUL, IDIV, REDUCE):
        yield f'{NAMES[op]} out of its type', excused(11, lambda node, o=op: node.op == o)
    yield 'low bounds out of the type', rule(11, lambda node: (
        RIGHT.result_interval(node)[1] > RIGHT.TYPE_LIMITS[RIGHT.result_dtype(node)][1]))
    yield 'high bounds out of the type', rule(11, lambda node: (
        RIGHT.result_interval(node)[0] < RIGHT.TYPE_LIMITS[RIGHT.result_dtype(node)][0]))


def i16_range(low, high):
    return {'TYPE_LIMITS': {**RIGHT.TYPE_LIMITS, I16: (low, high)}}


def i16_range_of(op, low, high):
    """Rule 11 with another range of i16 for one operation."""
    def wrong(node):
        with patched(i16_range(low, high) if node.op == op else {}):
            return RULES[11](node)
    return rule(11, wrong)


def ranges():
    """(02) "The range of i16 becomes −32767..32767, wherever a type's range is asked for.": another one in one place. A
    result of MAX, IDIV or WHERE is never below the sources' range."""
    for op in (CONST, PARAM, CAST, ADD, MUL, MAX, IDIV, WHERE, REDUCE):
        for low, high in ((-32768, 32767), (-32766, 32767), (-32767, 32766)):
            if low != -32768 or op not in (MAX, IDIV, WHERE):
                yield f'{NAMES[op]} of i16 from {low} to {high}', i16_range_of(op, low, high)
    for call in ('check', 'unpack_check', 'run', 'lookup'):
        yield f'i16 from −32768 in {call}', in_call(call, i16_range(-32768, 32767))


# --------------------------------------------------------------- the bounds

def bound(op, interval):
    """Other bounds of a binary operation, by a, A, b and B."""
    return {'binary_interval': lambda o, first, second: (
        interval(first.low, first.high, second.low, second.high) if o == op
        else RIGHT.binary_interval(o, first, second))}


def without_corner(op, corner):
    def interval(a, A, b, B):
        corners = [x * y if op == MUL else x // y for x in (a, A) for y in (b, B)]
        del corners[corner]
        return min(corners), max(corners)
    return bound(op, interval)


def truncated(a, b):
    return a // b if a * b >= 0 else -(-a // b)


def truth(always, never):
    return (1, 1) if always else (0, 0) if never else (0, 1)


BOUNDS = (
    ('IDIV with corners toward zero', IDIV, lambda a, A, b, B: (
        lambda corners: (min(corners), max(corners)))([truncated(x, y) for x in (a, A) for y in (b, B)])),
    ('MOD up to B', MOD, lambda a, A, b, B: (0, B) if b > 0 else (b + 1, 0)),
    ('MOD down to b', MOD, lambda a, A, b, B: (0, B - 1) if b > 0 else (b, 0)),
    ('MOD by b above zero', MOD, lambda a, A, b, B: (0, b - 1) if b > 0 else (b + 1, 0)),
    ('MOD by B below zero', MOD, lambda a, A, b, B: (0, B - 1) if b > 0 else (B + 1, 0)),
    ('MOD with the bounds of a smaller dividend', MOD, lambda a, A, b, B: (
        (a, A) if 0 <= a and A < b else (0, B - 1) if b > 0 else (b + 1, 0))),
    ('CMPLT always if A ≤ b', CMPLT, lambda a, A, b, B: truth(A <= b, a >= B)),
    ('CMPLT never if a > B', CMPLT, lambda a, A, b, B: truth(A < b, a > B)),
    ('CMPLT always if a < b', CMPLT, lambda a, A, b, B: truth(a < b, a >= B)),
    ('CMPNE always if A < b alone', CMPNE, lambda a, A, b, B: truth(A < b, a == A == b == B)),
    ('CMPNE always if B < a alone', CMPNE, lambda a, A, b, B: truth(B < a, a == A == b == B)),
    ('CMPNE always where they touch', CMPNE, lambda a, A, b, B: truth(
        A < b or B < a or a < A == b, a == A == b == B)),
    ('CMPNE never of equal intervals', CMPNE, lambda a, A, b, B: truth(A < b or B < a, a == b and A == B)),
    ('CMPNE always open', CMPNE, lambda a, A, b, B: (0, 1)),
)


def bounds():
    for op in BINARY:
        yield f'{NAMES[op]} has the low bound of its first source', of_result(
            'result_interval', op, lambda node, right: (node.sources[0].low, right[1]))
        yield f'{NAMES[op]} has the high bound of its second source', of_result(
            'result_interval', op, lambda node, right: (right[0], node.sources[1].high))
    for op in (MUL, IDIV):
        for corner, name in enumerate(('a and b', 'a and B', 'A and b', 'A and B')):
            yield f'{NAMES[op]} without the corner of {name}', without_corner(op, corner)
    for name, op, interval in BOUNDS:
        yield name, bound(op, interval)
    for name, interval in (
            ('the second source', lambda node, _: node.sources[1][2:4]),
            ('the third source', lambda node, _: node.sources[2][2:4]),
            ('the side that is known', lambda node, right: (
                node.sources[1][2:4] if node.sources[0].low == 1 else node.sources[2][2:4]
                if node.sources[0].high == 0 else right))):
        yield f'WHERE has the bounds of {name}', of_result('result_interval', WHERE, interval)
    for op in (PAD, CAST, LOAD):
        yield f'{NAMES[op]} has the bounds of its type', of_result(
            'result_interval', op, lambda node, _: RIGHT.TYPE_LIMITS[RIGHT.result_dtype(node)])
    yield 'CAST within the bounds of its type', of_result('result_interval', CAST, lambda node, right: tuple(
        sorted((end, *RIGHT.TYPE_LIMITS[node.words[4]]))[1] for end in right))
    yield 'PAD with 0 in its bounds', of_result(
        'result_interval', PAD, lambda node, right: (min(right[0], 0), max(right[1], 0)))
    for op in (ADD, MUL, IDIV, REDUCE):
        yield f'{NAMES[op]} with bounds of 32 bits', of_result(
            'result_interval', op, lambda node, right: tuple(map(low_half, right)))
    for name, count in (('all extents', lambda s, flags: prod(s)), ('the flags', lambda s, flags: 2 ** sum(flags)),
                        ('extents without a flag', lambda s, flags: prod(e for e, f in zip(s, flags) if not f)),
                        ('nothing', lambda s, flags: 1),
                        ('flagged extents, 0 if none', lambda s, flags: any(flags) * prod(
                            e for e, f in zip(s, flags) if f))):
        yield f'sum where n is the product of {name}', of_result(
            'result_interval', REDUCE, lambda node, right, c=count: right if node.words[5] else tuple(
                c(node.sources[0].extents, node.row_a[:rank_of(node)]) * end for end in node.sources[0][2:4]))
    yield 'max has the bounds of a sum', seen('result_interval', REDUCE, setting(5, 0))
    yield 'sum has the bounds of a max', seen('result_interval', REDUCE, setting(5, 1))


# ------------------------------------------------------------ values and gaps

def value_of(op, value):
    """Another value of a binary operation of two known numbers."""
    return {'binary_value': lambda o, a, b: (
        value(a, b) if o == op and None not in (a, b) else RIGHT.binary_value(o, a, b))}


def gap_of(op, value):
    """What a binary operation gives where a side is a gap."""
    return {'binary_value': lambda o, a, b: (
        value(a, b) if o == op and None in (a, b) else RIGHT.binary_value(o, a, b))}


def element_of(op, value, rank=None):
    """Another element of the operation, of one rank or of all."""
    return {'element_value': lambda words, place, *rest: (
        value(RIGHT.element_value(words, place, *rest)) if words[0] == op and rank in (None, len(place))
        else RIGHT.element_value(words, place, *rest))}


VALUES = (
    ('IDIV toward zero', IDIV, truncated), ('IDIV rounded up', IDIV, lambda a, b: -(-a // b)),
    ('MOD with the sign of the dividend', MOD, lambda a, b: a - b * truncated(a, b)),
    ('MOD never below zero', MOD, lambda a, b: a % abs(b)), ('MAX is the least', MAX, min),
    ('CMPLT of equal numbers is 1', CMPLT, lambda a, b: int(a <= b)),
    ('CMPLT turned round', CMPLT, lambda a, b: int(b < a)),
    ('CMPNE without the sign', CMPNE, lambda a, b: int(abs(a) != abs(b))),
    ('AND is OR', AND, max), ('OR is AND', OR, min), ('OR is CMPNE', OR, lambda a, b: a ^ b),
)
CHOICES = (
    ('WHERE is a gap if either side is', lambda c, a, b: None if None in (c, a, b) else a if c else b),
    ('WHERE takes the third by a gap', lambda c, a, b: a if c else b),
    ('WHERE takes the second by a gap', lambda c, a, b: b if c == 0 else a),
    ('WHERE takes the third for a gap', lambda c, a, b: None if c is None else a if c and a is not None else b),
    ('WHERE takes the other side', lambda c, a, b: None if c is None else b if c else a),
)


def values():
    for op in BINARY:
        yield f'{NAMES[op]} with a gap is its first side', gap_of(op, lambda a, b: a)
        yield f'{NAMES[op]} with a gap is its second side', gap_of(op, lambda a, b: b)
    for op, known in ((MUL, 0), (AND, 0), (OR, 1)):
        yield f'{NAMES[op]} of {known} and a gap is {known}', gap_of(
            op, lambda a, b, k=known: k if k in (a, b) else None)
    for name, op, value in VALUES:
        yield name, value_of(op, value)
    for name, value in CHOICES:
        yield name, {'where_value': value}
    for op in (*FOLLOWED, CAST):
        yield f'{NAMES[op]} makes a gap 0', element_of(op, lambda value: 0 if value is None else value)
    for op in range(PERMUTE, OPERATIONS):
        for rank in range(op == STACK, 5):
            yield f'{NAMES[op]} of rank {rank} is a gap', element_of(op, lambda value: None, rank)
    yield 'inputs are read from the last', {'all_fields': lambda table, records, values, flags: (
        RIGHT.all_fields(table, records, values[::-1], flags[::-1]))}


def reduced(by_0=sum, by_1=max, over_gaps=None):
    """reduce_value by other functions; over_gaps is the number by which gaps are passed over."""
    def wrong(words, place, field):
        gathered = [value for origin, value in field.items()
                    if all(flag or o == p for flag, o, p in zip(words[9:13], origin, place))]
        if words[5] == over_gaps:
            gathered = [value for value in gathered if value is not None] or [None]
        return None if None in gathered else (by_1 if words[5] else by_0)(gathered)
    return {'reduce_value': wrong}


def reductions():
    parts = ('result_extents', 'shape'), ('result_interval', 'bounds'), ('reduce_value', 'values')
    slips = [(f'REDUCE ignores axis {axis}', setting(9 + axis, 0)) for axis in AXES]
    slips += [(f'REDUCE of {name}', lambda words, f=kept: flagged(words, f)) for name, kept in flag_slips()]
    for name, change in slips:
        patches = [seen(function, REDUCE, change) for function, _ in parts]
        yield name, {key: wrong for patch in patches for key, wrong in patch.items()}
        for patch, (_, part) in zip(patches, parts):
            yield f'{name} in its {part}', patch
    for axis in AXES:
        yield f'REDUCE takes axis {axis} away', of_result('result_extents', REDUCE, lambda node, right, k=axis: tuple(
            extent for j, extent in enumerate(right) if j != k or not node.row_a[j]))
    yield 'sum passes over gaps', reduced(over_gaps=0)
    yield 'max passes over gaps', reduced(over_gaps=1)
    yield 'max from 0 on', reduced(by_1=lambda items: max(0, *items))
    yield 'max is the least', reduced(by_1=min)
    yield 'max is the first', reduced(by_1=lambda items: items[0])
    yield 'max is the last', reduced(by_1=lambda items: items[-1])
    yield 'max is a sum', reduced(by_1=sum)
    yield 'sum is a max', reduced(by_0=max)
    yield 'sum without the last', reduced(by_0=lambda items: sum(items[:-1]))
    yield 'a gap is in every sum', {'reduce_value': lambda words, place, field: (
        None if None in field.values() else RIGHT.reduce_value(words, place, field))}


# -------------------------------------------------------------------- calls

def scanned(bad_flag=lambda flag: flag not in (0, 1), known=lambda flag: flag == 1,
            outside=lambda record, value: not record.low <= value <= record.high,
            place=lambda position, start: position, first=lambda found: found[0]):
    """input_refusal by other tests; first chooses among all bad positions."""
    def wrong(params, values, flags):
        counts = [prod(record.extents) for record in params]
        limits = [(record, sum(counts[:k])) for k, record in enumerate(params) for _ in range(counts[k])]
        found = []
        for position, ((record, start), value, flag) in enumerate(zip(limits, values, flags)):
            if bad_flag(flag):
                found.append((15, place(position, start)))
            elif known(flag) and outside(record, value):
                found.append((16, place(position, start)))
        return first(found) if found else (0, 0)
    return {'input_refusal': wrong}


def inputs():
    for flag in (2, 3, 4, 7, 8, 16, 32, 64, 127, 128, 254, 255):
        yield f'input flag {flag} passes', scanned(lambda f, k=flag: f not in (0, 1, k))
    yield 'input flags are not tested', scanned(lambda flag: False)
    for name, bit in (('what is not 0', bool), ('the lowest bit', lambda flag: flag % 2)):
        yield f'an input is known by {name}', {
            **scanned(lambda flag: False, bit), 'all_fields': lambda table, records, values, flags, b=bit: (
                RIGHT.all_fields(table, records, values, [int(b(flag)) for flag in flags]))}
    yield 'numbers under gaps are tested', scanned(known=lambda flag: True)
    yield 'all flags before all numbers', scanned(first=min)
    yield 'all numbers before all flags', scanned(first=max)
    yield 'the last bad position', scanned(first=lambda found: found[-1])
    for name, outside in (('any low number', lambda r, v: v > r.high), ('any high number', lambda r, v: v < r.low),
                          ('no number at low', lambda r, v: not r.low < v <= r.high),
                          ('no number at high', lambda r, v: not r.low <= v < r.high),
                          ('a number one below', lambda r, v: not r.low - 1 <= v <= r.high),
                          ('a number one above', lambda r, v: not r.low <= v <= r.high + 1),
                          ('a number of the type', lambda r, v: not RIGHT.TYPE_LIMITS[r.dtype][0] <= v
                           <= RIGHT.TYPE_LIMITS[r.dtype][1]),
                          ('a number by its low half', lambda r, v: not r.low <= low_half(v) <= r.high)):
        yield f'rule 16 takes {name}', scanned(outside=outside)
    for name, at in (('first', 0), ('last', -1)):
        yield f'the limits of the {name} PARAM for all', {'input_refusal': lambda params, values, flags, k=at: (
            RIGHT.input_refusal([params[k]._replace(extents=r.extents) for r in params], values, flags))}
    yield 'positions from 1', scanned(place=lambda position, start: position + 1)
    yield 'positions from the start of the PARAM', scanned(place=lambda position, start: position - start)
    yield 'the first position is not scanned', {'input_refusal': lambda params, values, flags: (
        RIGHT.input_refusal(params, values, [0, *flags[1:]]))}
    yield 'the last position is not scanned', {'input_refusal': lambda params, values, flags: (
        RIGHT.input_refusal(params, values, [*flags[:-1], 0]))}


def flags_seen(other, in_the_run=True):
    """The scan, and the run too, by other flags: those of a function of the PARAM's type, the value and the flag."""
    def seen_flags(params, values, flags):
        dtypes_of = [record.dtype for record in params for _ in range(prod(record.extents))]
        return list(map(other, dtypes_of, values, flags))

    def fields(table, records, values, flags):
        params = [record for k, record in enumerate(records) if table[17 * k] == PARAM]
        return RIGHT.all_fields(table, records, values, seen_flags(params, values, flags))

    scan = {'input_refusal': lambda params, values, flags: RIGHT.input_refusal(
        params, values, seen_flags(params, values, flags))}
    return {**scan, 'all_fields': fields} if in_the_run else scan


def no_readings():
    """(02) "The buoys use −32768 for "no reading".": it is a number outside the limits, or under a gap no number at all."""
    for name, dtype in (('i16', I16), ('i32', I32)):
        yield f'a known −32768 of {name} is a gap', flags_seen(
            lambda d, value, flag, own=dtype: 0 if (d, value, flag) == (own, -32768, 1) else flag)
    yield 'a known −32768 of i16 passes rule 16', scanned(outside=lambda record, value: (
        (record.dtype, value) != (I16, -32768) and not record.low <= value <= record.high))
    yield 'a known −32768 is outside any limits', scanned(outside=lambda record, value: (
        value == -32768 or not record.low <= value <= record.high))
    yield 'the range of i16 is asked under a gap', flags_seen(lambda d, value, flag: 1 if (
        d == I16 and flag == 0 and not -32767 <= value <= 32767) else flag, False)
    yield '−32768 of i16 is refused under a gap', flags_seen(lambda d, value, flag: 1 if (
        (d, value, flag) == (I16, -32768, 0)) else flag, False)
    yield 'a result of −32768 is a gap', {'element_value': lambda words, *rest: (
        lambda value: None if value == -32768 else value)(RIGHT.element_value(words, *rest))}


def run_by(order=(13, 14, 15), lengths=lambda values, flags, wanted: values != wanted or flags != wanted,
           rooms=lambda values, flags, total, last: values < total or flags < total, place=0,
           gaps=lambda fields: list(fields[-1].values()).count(None), under_gap=0, unwritten=0, early=0):
    """run by other tests or in another order; early counts the values that a refusal by 15 or 16 writes."""
    def wrong(table, values, flags, out_values, out_flags):
        number, rest = model.verdict(table)
        if number:
            return Answer(number, rest, 0)
        counts = [prod(record.extents) for record in rest]
        params = [record for k, record in enumerate(rest) if table[17 * k] == PARAM]
        wanted, total = sum(prod(record.extents) for record in params), sum(counts)
        tests = {13: lambda: (13 * lengths(len(values), len(flags), wanted), place),
                 14: lambda: (14 * rooms(len(out_values), len(out_flags), total, counts[-1]), place),
                 15: lambda: model.input_refusal(params, values, flags)}
        for asked in order:
            number, at = tests[asked]()
            if number:
                out_values[:early] = values[:early] if number in (15, 16) else out_values[:early]
                return Answer(number, at, 0)
        fields = model.all_fields(table, rest, values, flags)
        elements = [value for field in fields for value in field.values()][:total - unwritten]
        out_values[:len(elements)] = [under_gap if value is None else value for value in elements]
        out_flags[:len(elements)] = [int(value is not None) for value in elements]
        return Answer(0, 0, gaps(fields))
    return {'run': wrong}


def runs():
    for name, order in (('13 is not asked', (14, 15)), ('14 is not asked', (13, 15)), ('14 before 13', (14, 13, 15)),
                        ('15 and 16 before 14', (13, 15, 14)), ('15 and 16 before 13', (15, 13, 14))):
        yield f'a run where {name}', run_by(order)
    for name, lengths in (('the values alone', lambda values, flags, wanted: values != wanted),
                          ('the flags alone', lambda values, flags, wanted: flags != wanted),
                          ('no longer ones', lambda values, flags, wanted: min(values, flags) < wanted),
                          ('no shorter ones', lambda values, flags, wanted: max(values, flags) > wanted),
                          ('both against each other', lambda values, flags, wanted: values != flags)):
        yield f'rule 13 looks at {name}', run_by(lengths=lengths)
    for name, rooms in (('the values alone', lambda values, flags, total, last: values < total),
                        ('the flags alone', lambda values, flags, total, last: flags < total),
                        ('one place less', lambda values, flags, total, last: min(values, flags) < total - 1),
                        ('one place more', lambda values, flags, total, last: min(values, flags) <= total),
                        ('exact rooms', lambda values, flags, total, last: (values, flags) != (total, total)),
                        ('the output alone', lambda values, flags, total, last: min(values, flags) < last)):
        yield f'rule 14 of a run asks for {name}', run_by(rooms=rooms)
    yield 'rules 13 and 14 at place 1', run_by(place=1)
    for name, gaps in (('all nodes', lambda fields: sum(list(field.values()).count(None) for field in fields)),
                       ('the first node', lambda fields: list(fields[0].values()).count(None)),
                       ('known numbers', lambda fields: sum(value is not None for value in fields[-1].values())),
                       ('nothing', lambda fields: 0)):
        yield f'the count is that of {name}', run_by(gaps=gaps)
    yield 'a gap is written as 1', run_by(under_gap=1)
    yield 'the last element is not written', run_by(unwritten=1)
    yield 'results are written before 15 and 16', run_by(early=1)


def row_of(record):
    return (*record[:4], *record.extents, *[0] * (4 - len(record.extents)))


def check_by(words_of=row_of, room=lambda room, nodes: room < 8 * nodes, first=False):
    """check that writes other words, or asks other room, or asks it first."""
    def wrong(table, derived):
        if first and room(len(derived), len(table) // 17):
            return Answer(14, 0, 0)
        number, rest = model.verdict(table)
        if number or room(len(derived), len(rest)):
            return Answer(number or 14, rest if number else 0, 0)
        words = [word for record in rest for word in words_of(record)]
        derived[:len(words)] = words
        return Answer(0, 0, 0)
    return {'check': wrong}


def checks():
    for name, room in (('no room', lambda room, nodes: False),
                       ('one word less', lambda room, nodes: room < 8 * nodes - 1),
                       ('one word more', lambda room, nodes: room <= 8 * nodes),
                       ('exact room', lambda room, nodes: room != 8 * nodes)):
        yield f'a check asks for {name}', check_by(room=room)
    yield 'a check asks for room first', check_by(first=True)
    for name, words_of in (
            ('zeros before the extents', lambda record: (*record[:4], *row_of(record)[4:][::-1])),
            ('1 past the rank', lambda record: (*record[:4], *(extent or 1 for extent in row_of(record)[4:]))),
            ('device before type', lambda record: (*record[1::-1], *row_of(record)[2:])),
            ('high before low', lambda record: (*record[:2], *record[3:1:-1], *row_of(record)[4:]))):
        yield f'a check writes {name}', check_by(words_of)


def lookup_by(followed=FOLLOWED, node_there=lambda node, nodes: node < nodes,
              element_there=lambda element, count: element < count, most=256, first=False, place=0):
    """lookup that follows other nodes, or asks 17 otherwise."""
    def wrong(table, node, element):
        number, rest = model.verdict(table)
        if number and not (first and not node_there(node, len(table) // 17)):
            return Found(number, rest, 0, 0, 0)
        if number or not node_there(node, len(rest)) or not element_there(element, prod(rest[node].extents)):
            return Found(17, place, 0, 0, 0)
        for _ in range(most):
            words = RIGHT.node_words(table, node)
            if words[0] not in followed:
                break
            extents, source = rest[node].extents, rest[words[1]].extents
            at = RIGHT.coordinates_at(element, extents)
            node = words[1 + at[0]] if words[0] == STACK else words[1]
            at = RIGHT.source_coordinates(words, at, extents, source) if words[0] in FOLLOWED else aligned(at, source)
            if at is None:
                return Found(0, 0, 2, 0, 0)
            element = RIGHT.element_at(at, source)
        return Found(0, 0, 1, node, element)
    return {'lookup': wrong}


def aligned(at, source):
    """The same place in a source that is broadcast, or that is a part of a stack."""
    own = at[len(at) - len(source):]
    return tuple(0 if extent == 1 else k for k, extent in zip(own, source))


def lookups():
    for op in FOLLOWED:
        yield f'a lookup does not follow {NAMES[op]}', lookup_by([o for o in FOLLOWED if o != op])
    for op in (CAST, *NEW):
        yield f'a lookup follows {NAMES[op]}', lookup_by((*FOLLOWED, op))
    yield 'a lookup follows one node', lookup_by(most=1)
    for name, test in (('one past the last', lambda at, count: at <= count),
                       ('not the last', lambda at, count: at < count - 1), ('any', lambda at, count: True),
                       ('one by its low half', lambda at, count: at % 2 ** 32 < count)):
        yield f'a lookup takes a node: {name}', lookup_by(node_there=test)
        yield f'a lookup takes an element: {name}', lookup_by(element_there=test)
    yield 'rule 17 comes first', lookup_by(first=True)
    yield 'rule 17 at place 1', lookup_by(place=1)
    for name, change in (('no gaps', lambda found: found._replace(found=min(found.found, 1))),
                         ('elements of 16 bits', lambda found: found._replace(element=found.element % 65536)),
                         ('element and node', lambda found: Found(*found[:3], found.element, found.node))):
        yield f'a lookup finds {name}', {'lookup': lambda *call, c=change: c(RIGHT.lookup(*call))}


# ------------------------------------------------------------ packed plans

def number_by(groups=5, last_0=lambda group: group > 0, base=128, ended=lambda first, group: first):
    """read_number of other lengths, forms and places."""
    def wrong(data, first):
        value = 0
        for group in range(groups):
            if first + group >= len(data):
                raise RIGHT.Refused(20, ended(first, group))
            byte = data[first + group]
            value += byte % 128 * base ** group
            if byte < 128:
                if byte == 0 and last_0(group):
                    raise RIGHT.Refused(21, first)
                return value, first + group + 1
        raise RIGHT.Refused(21, ended(first, groups - 1))
    return {'read_number': wrong}


def alone_by(taken, number=lambda byte: byte, after=1, where=lambda data, first: True):
    """read_number that takes some first bytes for a whole number, at some places."""
    def wrong(data, first):
        if first < len(data) and taken(data[first]) and where(data, first):
            return number(data[first]), first + after
        return RIGHT.read_number(data, first)
    return {'read_number': wrong}


def count_place(data):
    return 2 if [*data[:2]] == SECOND_EDITION else 0


ALONE_SLIPS = (
    ('128 too', {'taken': lambda byte: byte <= 128}),
    ('128 too, as 0', {'taken': lambda byte: byte <= 128, 'number': lambda byte: byte % 128}),
    ('128 for 127', {'taken': lambda byte: byte == 127, 'number': lambda byte: 128}),
    ('every byte', {'taken': lambda byte: True}),
    ('every byte, of seven bits', {'taken': lambda byte: True, 'number': lambda byte: byte % 128}),
    ('127, and a byte more', {'taken': lambda byte: byte == 127, 'after': 2}),
)
# By the byte of the count, the byte that a number begins at, and the last byte.
ALONE_PLACES = (
    ('the count', lambda start, first, last: first == start),
    ('the middle', lambda start, first, last: start < first < last),
    ('the last byte', lambda start, first, last: start < first == last),
)


def numbers_alone():
    """Numbers of one byte that are none, or are another, in files of each edition."""
    for (name, slip), (place, test), (edition, start) in product(ALONE_SLIPS, ALONE_PLACES,
                                                                 (('first', 0), ('second', 2))):
        def where(data, first, test=test, start=start):
            return count_place(data) == start and test(start, first, len(data) - 1)
        yield f'alone is {name}: {place}, {edition} edition', alone_by(**slip, where=where)


def node_by(limits=None, place=lambda first, after: first, op_of=lambda op: op, turn=1):
    """read_node of other operations, by the highest of the edition; with another place of 24 or order of words."""
    def wrong(data, first, highest):
        op, position = model.read_number(data, first)
        op = op_of(op)
        if op > (limits or {}).get(highest, highest):
            raise RIGHT.Refused(24, place(first, position))
        words = [op] + [0] * 16
        for word in RIGHT.USED_WORDS[op][::turn]:
            written, position = model.read_number(data, position)
            words[word] = model.word_of(written)
        return words, position
    return {'read_node': wrong}


def unpack_by(most=256, least=1, room=lambda room, count: room < 17 * count,
              left=lambda position, data: position < len(data), place=lambda position: position,
              order=(23, 14, 22, 26), early=0, places=(0, 0)):
    """unpack by other tests or in another order, with other places; early counts the words that a refusal by 22 or 26
    writes, places are those of 23 and 26."""
    def wrong(data, table):
        words = []
        try:
            highest, position = model.read_edition(data)
            count, position = model.read_number(data, position)
            tests = {23: lambda: not least <= count <= most, 14: lambda: room(len(table), count),
                     22: lambda: left(position, data), 26: lambda: highest == STACK and not model.holds_new(words)}
            for number in order:
                if number in (22, 26) and not words:
                    for _ in range(count):
                        node, position = model.read_node(data, position, highest)
                        words += node
                if tests[number]():
                    table[:early] = words[:early] if number in (22, 26) else table[:early]
                    raise RIGHT.Refused(number, {22: place(position), 23: places[0], 26: places[1]}.get(number, 0))
        except RIGHT.Refused as found:
            return Answer(*found.args, 0)
        table[:len(words)] = words
        return Answer(0, 0, count)
    return {'unpack': wrong}


PACKED_SLIPS = (
    ('numbers of four bytes at most', number_by(4)), ('numbers of six bytes', number_by(6)),
    ('a last byte of 0', number_by(last_0=lambda group: False)),
    ('a third last byte of 0', number_by(last_0=lambda group: group > 0 and group != 2)),
    ('a fifth last byte of 0', number_by(last_0=lambda group: 0 < group < 4)),
    ('no number 0', number_by(last_0=lambda group: True)), ('groups of eight bits', number_by(base=256)),
    ('20 and 21 at the byte that ends', number_by(ended=lambda first, group: first + group)),
    ('words plain', {'word_of': lambda written: written}),
    ('words below zero as −2n', {'word_of': lambda written: written // 2 * (-1) ** (written % 2)}),
    ('odd words above zero', {'word_of': lambda written: RIGHT.word_of(written ^ 1)}),
    ('words of 32 bits', {'word_of': lambda written: RIGHT.word_of(written % 2 ** 32)}),
    ('no operation 20', node_by({LOAD: 19})), ('24 after its number', node_by(place=lambda first, after: after)),
    ('operations of seven bits', node_by(op_of=lambda op: op % 128)), ('words in falling order', node_by(turn=-1)),
    ('bytes left over', unpack_by(left=lambda position, data: False)),
    ('22 at the byte after', unpack_by(place=lambda position: position + 1)),
    ('22 at 0', unpack_by(place=lambda position: 0)), ('22 with words written', unpack_by(early=1)),
    ('no nodes', unpack_by(least=0)), ('257 nodes', unpack_by(257)), ('no 256 nodes', unpack_by(255)),
    ('any room', unpack_by(room=lambda room, count: False)),
    ('one word less of room', unpack_by(room=lambda room, count: room < 17 * count - 1)),
    ('one word more of room', unpack_by(room=lambda room, count: room <= 17 * count)),
    ('exact room', unpack_by(room=lambda room, count: room != 17 * count)),
    ('14 before 23', unpack_by(order=(14, 23, 22, 26))), ('14 last', unpack_by(order=(23, 22, 26, 14))),
    *((f'operations up to {most} in the first edition', node_by({LOAD: most})) for most in NEW),
    *((f'operations up to {most} in the second edition', node_by({STACK: most})) for most in (LOAD, FILL, KNOWN)),
    ('operation 24 in the second edition', node_by({STACK: 24}, op_of=lambda op: 22 if op == 24 else op)),
)


def packed():
    for name, patch in PACKED_SLIPS:
        yield f'packed: {name}', patch
    for op in range(OPERATIONS):
        for word in range(1, 17):
            used = sorted({*RIGHT.USED_WORDS[op]} ^ {word})
            yield f'packed: word {word} of {NAMES[op]} the other way', in_call('unpack', {'USED_WORDS': tuple(
                tuple(used) if k == op else right for k, right in enumerate(RIGHT.USED_WORDS))})
    for name, change in (('65535 times the number', lambda answer: answer - answer // 65536),
                         ('no place', lambda answer: answer // 65536 * 65536 or answer),
                         ('0 if accepted', lambda answer: answer if answer >= 65536 else 0)):
        yield f'one call: {name}', {'unpack_check': lambda data, c=change: c(RIGHT.unpack_check(data))}
    yield 'one call: the check is not asked', {'unpack_check': lambda data: (
        lambda answer: 65536 * answer.number + answer.place or answer.count)(RIGHT.unpack(data, [0] * 4352))}


# ------------------------------------------------------------- writing plans

def groups_by(longer=lambda number: number >= 128, base=128, high=lambda k, last: k < last,
              change=lambda groups: groups):
    """written_number with other groups, or other bytes that have the high bit."""
    def wrong(number):
        groups = []
        while longer(number):
            groups.append(number % base)
            number //= base
        groups = change([*groups, number])
        return [group + 128 * high(k, len(groups) - 1) for k, group in enumerate(groups)]
    return {'written_number': wrong}


NUMBER_SLIPS = (
    ('127 in two bytes', groups_by(lambda number: number >= 127)),
    ('128 in one byte', groups_by(lambda number: number > 128)),
    ('a group of 0 after one', groups_by(change=lambda groups: [*groups, *[0] * (len(groups) == 1)])),
    ('a group of 0 after two', groups_by(change=lambda groups: [*groups, *[0] * (len(groups) == 2)])),
    ('always five bytes', groups_by(change=lambda groups: [*groups, *[0] * (5 - len(groups))])),
    ('four bytes at most', groups_by(change=lambda groups: groups[:4])),
    ('no high bit', groups_by(high=lambda k, last: False)),
    ('the high bit in every byte', groups_by(high=lambda k, last: True)),
    ('the high bit in the last byte', groups_by(high=lambda k, last: last and k == last)),
    ('the high bit in the first byte alone', groups_by(high=lambda k, last: last and k == 0)),
    ('highest group first', groups_by(change=lambda groups: groups[::-1])),
    ('the last two groups exchanged', groups_by(change=lambda groups: [*groups[:-2], *groups[-2:][::-1]])),
    ('groups of six bits', groups_by(lambda number: number >= 64, 64)),
    ('words plain', {'number_of': lambda word: word}),
    ('words below zero as −2n', {'number_of': lambda word: 2 * abs(word)}),
    ('words below zero as −2n+1', {'number_of': lambda word: 2 * abs(word) + (word < 0)}),
    ('words below zero as −2n−2', {'number_of': lambda word: 2 * abs(word) - 2 * (word < 0)}),
    ('words from zero on odd', {'number_of': lambda word: RIGHT.number_of(word) ^ 1}),
    ('0 as a word below zero', {'number_of': lambda word: RIGHT.number_of(word) if word else 1}),
    ('words of 32 bits', {'number_of': lambda word: RIGHT.number_of(word) % 2 ** 32}),
    ('words of 34 bits', {'number_of': lambda word: RIGHT.number_of(word) % 2 ** 34}),
)


def written_by(used=RIGHT.USED_WORDS, turn=1, operation=lambda op: op):
    """written_node of other words, in another order, or with another number for the operation."""
    return {'written_node': lambda words: sum(
        (model.written_number(model.number_of(words[word])) for word in used[words[0]][::turn]),
        model.written_number(operation(words[0])))}


def range_of(least, greatest):
    return {'LEAST_WORD': least, 'GREATEST_WORD': greatest}


LEAST, GREATEST = RIGHT.LEAST_WORD, RIGHT.GREATEST_WORD
RANGE_SLIPS = (
    ('no least word', range_of(LEAST + 1, GREATEST)), ('no greatest word', range_of(LEAST, GREATEST - 1)),
    ('one word below', range_of(LEAST - 1, GREATEST)), ('one word above', range_of(LEAST, GREATEST + 1)),
    ('any word below', range_of(-2 ** 63, GREATEST)), ('any word above', range_of(LEAST, 2 ** 63 - 1)),
    ('words of i32', range_of(-2 ** 31, 2 ** 31 - 1)),
)


def pack_rule(number, wrong):
    """Another test of a node by a rule of pack."""
    return {'PACK_RULES': tuple((n, wrong if n == number else right) for n, right in RIGHT.PACK_RULES)}


def pack_rule_seen(number, op, word):
    """The rule sees 0 in a word of the operation."""
    return pack_rule(number, lambda node: PACKING[number](changed(node, setting(word, 0)) if node.op == op else node))


PACKING = dict(RIGHT.PACK_RULES)


def is_far(word):
    return not LEAST <= word <= GREATEST


def far(node):
    """Rule 25, which looks at every word of an operation that is not known."""
    return any(map(is_far, node.words[1:])) if PACKING[2](node) else PACKING[25](node)


def unused_far(node):
    return any(is_far(node.words[word]) for word in range(1, 17) if not node.uses(word))


def later(number):
    """The refusal of the first node that breaks another rule; where there is none, of the first that breaks this one."""
    def wrong(table):
        for rules in ([pair for pair in RIGHT.PACK_RULES if pair[0] != number], [(number, PACKING[number])]):
            with patched({'PACK_RULES': tuple((n, quiet(test)) for n, test in rules)}):
                found = RIGHT.pack_refusal(table)
            if found != (0, 0):
                return found
        return 0, 0
    return {'pack_refusal': wrong}


def packing_orders():
    for number in PACKING:
        yield f'rule {number} is not asked', pack_rule(number, lambda node: False)
    for name, rules in (('3 before 2', ((3, nothing_used), (2, PACKING[2]), (25, quiet(PACKING[25])))),
                        ('25 before 3', ((2, PACKING[2]), (25, PACKING[25]), (3, PACKING[3]))),
                        ('25 before 2', ((25, far), (2, PACKING[2]), (3, PACKING[3])))):
        yield name, {'PACK_RULES': rules}
    yield 'an unused word out of range is 25', {'PACK_RULES': (
        (2, PACKING[2]), (3, lambda node: PACKING[3](node) and not unused_far(node)),
        (25, lambda node: PACKING[25](node) or unused_far(node)))}
    for number in (25, 3):
        yield f'{number} after all nodes', later(number)
    for name, place in (('from 1', lambda place, nodes: place + 1), ('0', lambda place, nodes: 0),
                        ('from the last', lambda place, nodes: nodes - 1 - place),
                        ('by words', lambda place, nodes: 17 * place)):
        yield f'places {name}', {'pack_refusal': lambda table, p=place: (lambda number, at: (
            number, p(at, len(table) // 17) if number > 1 else at))(*RIGHT.pack_refusal(table))}
    for name, part in (('first', slice(17, None)), ('last', slice(0, -17))):
        yield f'the {name} node is not tested', {'pack_refusal': lambda table, s=part: (
            RIGHT.pack_refusal(table if len(table) < 34 or RIGHT.length_wrong(table) else table[s]))}


def pack_by(length=RIGHT.length_wrong, room=lambda room, size, nodes: room < size, first=False, place=0,
            count=lambda size, nodes, room: size, counted=lambda nodes: nodes, early=0, past=0, unwritten=0,
            joined=lambda edition, written: edition + written):
    """pack by other tests of length and room, with another count, or that writes other places. first: the room before
    the nodes; early: the bytes that a refusal by 14 writes; past: the places past its bytes that it clears; joined: the
    bytes of the edition and those of the node count."""
    def wrong(table, buffer):
        nodes, data = len(table) // 17, []
        with patched({'length_wrong': length}):
            refusal = model.pack_refusal(table)
        known = not RIGHT.length_wrong(table) and all(0 <= op < OPERATIONS for op in table[::17])
        if refusal[0] == 0 or known:
            edition = SECOND_EDITION if model.holds_new(table) else []
            data = sum((model.written_node(RIGHT.node_words(table, k)) for k in range(nodes)),
                       joined(edition, model.written_number(counted(nodes))))
        short = room(len(buffer), len(data), nodes)
        if refusal[0] and not (first and known and short):
            return Answer(*refusal, 0)
        if short:
            buffer[:early] = data[:min(early, len(buffer))] or buffer[:early]
            return Answer(14, place, 0)
        buffer[:len(data) - unwritten] = data[:len(data) - unwritten]
        buffer[len(data):len(data) + past] = [0] * len(buffer[len(data):len(data) + past])
        return Answer(0, 0, count(len(data), nodes, len(buffer)))
    return {'pack': wrong}


PACK_SLIPS = (
    ('any room', pack_by(room=lambda room, size, nodes: False)),
    ('one byte less of room', pack_by(room=lambda room, size, nodes: room < size - 1)),
    ('one byte more of room', pack_by(room=lambda room, size, nodes: room <= size)),
    ('exact room', pack_by(room=lambda room, size, nodes: room != size)),
    ('a byte of room for each word', pack_by(room=lambda room, size, nodes: room < 17 * nodes)),
    ('14 before the nodes', pack_by(first=True)), ('14 at 1', pack_by(place=1)),
    ('14 with a byte written', pack_by(early=1)),
    ('the nodes counted', pack_by(count=lambda size, nodes, room: nodes)),
    ('the room counted', pack_by(count=lambda size, nodes, room: room)),
    ('nothing counted', pack_by(count=lambda size, nodes, room: 0)),
    ('a count of a byte', pack_by(count=lambda size, nodes, room: size % 256)),
    ('a count without that of the nodes', pack_by(count=lambda size, nodes, room: size - 1)),
    ('the nodes as a word', pack_by(counted=lambda nodes: 2 * nodes)),
    ('one node less', pack_by(counted=lambda nodes: nodes - 1)),
    ('the nodes of seven bits', pack_by(counted=lambda nodes: nodes % 128)),
    ('a place past its bytes cleared', pack_by(past=1)), ('the last byte not written', pack_by(unwritten=1)),
    ('words past the last node left out', pack_by(
        length=lambda table: RIGHT.length_wrong(table[:len(table) // 17 * 17]))),
    ('no nodes', pack_by(length=lambda table: bool(table) and RIGHT.length_wrong(table))),
    ('257 nodes', pack_by(length=lambda table: len(table) != 17 * 257 and RIGHT.length_wrong(table))),
    ('no 256 nodes', pack_by(length=lambda table: RIGHT.length_wrong(table + [0] * 17))),
)


def packs():
    for name, patch in (*NUMBER_SLIPS, *RANGE_SLIPS, *PACK_SLIPS, *packing_orders(),
                        ('words in falling order', written_by(turn=-1)),
                        ('the operation as a word', written_by(operation=lambda op: 2 * op))):
        yield f'pack: {name}', patch
    for number in range(4, 13):
        yield f'pack: rule {number} is asked', {'pack_refusal': lambda table, n=number: (
            lambda found, verdict: verdict if found[0] == 0 and verdict[0] == n else found)(
                RIGHT.pack_refusal(table), RIGHT.verdict(table))}
    for op in range(OPERATIONS):
        for word in range(1, 17):
            turned = sorted({*RIGHT.USED_WORDS[op]} ^ {word})
            masks = tuple(tuple(turned) if k == op else right for k, right in enumerate(RIGHT.USED_WORDS))
            yield f'pack: word {word} of {NAMES[op]} the other way', in_call('pack', {'USED_WORDS': masks})
            if word in RIGHT.USED_WORDS[op]:
                yield f'pack: word {word} of {NAMES[op]} is not written', written_by(masks)
            number = 25 if word in RIGHT.USED_WORDS[op] else 3
            yield f'pack: word {word} of {NAMES[op]} is not tested by {number}', pack_rule_seen(number, op, word)


# ------------------------------------------------------------ second edition

def fills(choice):
    return {'fill_value': choice}


def knows(flag):
    return {'known_value': flag}


def stacks(sources_of):
    """STACK of other parts, by those that it has."""
    return {'stack_value': lambda place, sources: RIGHT.stack_value(place, sources_of(sources))}


def stacked_last(shapes):
    found = RIGHT.stacked(shapes)
    return found and (*found[1:], found[0])


def interleaved(place, sources):
    """The parts of a STACK cell by cell in turn, in the shape that is right."""
    own = sources[0][0]
    cell, part = divmod(RIGHT.element_at(place, (len(sources), *own)), len(sources))
    return sources[part][1][RIGHT.coordinates_at(cell, own)]


def gap_by(parts_of):
    """A STACK that is a gap where one of these parts is."""
    return {'stack_value': lambda place, sources: None if None in [
        field[place[1:]] for _, field in parts_of(sources)] else RIGHT.stack_value(place, sources)}


# (02) "T where known, else C"; "1 where the source is known, else 0, never a gap"; "sources joined on a new leading axis"
NEW_VALUES = (
    ('FILL takes C where both are known', fills(lambda t, c: t if c is None else c)),
    ('FILL is the greatest of both', fills(lambda t, c: RIGHT.fill_value(t, c) if None in (t, c) else max(t, c))),
    ('FILL is the least of both', fills(lambda t, c: RIGHT.fill_value(t, c) if None in (t, c) else min(t, c))),
    ('FILL is T', fills(lambda t, c: t)), ('FILL is C', fills(lambda t, c: c)),
    ('FILL is a gap where C is', fills(lambda t, c: None if c is None else RIGHT.fill_value(t, c))),
    ('FILL is 0 where both are gaps', fills(lambda t, c: RIGHT.fill_value(t, c) or 0)),
    ('FILL takes C for a T of 0', fills(lambda t, c: t or c)),
    ('KNOWN is a gap where its source is', knows(lambda value: None if value is None else 1)),
    ('KNOWN turned round', knows(lambda value: int(value is None))),
    ('KNOWN is 1', knows(lambda value: 1)), ('KNOWN is 0', knows(lambda value: 0)),
    ('KNOWN of 0 is 0', knows(lambda value: int(bool(value)))),
    ('KNOWN is the number', knows(lambda value: value or 0)),
    ('STACK from its last source', stacks(lambda sources: sources[::-1])),
    ('STACK with its first two sources exchanged', stacks(lambda sources: [sources[1], sources[0], *sources[2:]])),
    ('STACK with its last two sources exchanged', stacks(lambda sources: [*sources[:-2], *sources[:-3:-1]])),
    ('STACK of its first source alone', stacks(lambda sources: sources[:1] * 3)),
    ('STACK with its second source for the third', stacks(lambda sources: [*sources[:2], sources[1]])),
    ('STACK of three with its first source for the third', stacks(lambda sources: [*sources[:2], sources[0]])),
    ('STACK on a last axis', {'stacked': stacked_last,
                              'stack_value': lambda place, sources: sources[place[-1]][1][place[:-1]]}),
    ('STACK of cells in turn', {'stack_value': interleaved}),
    ('STACK makes a gap 0', {'stack_value': lambda place, sources: RIGHT.stack_value(place, sources) or 0}),
    ('STACK is a gap where any source is', gap_by(lambda sources: sources)),
    ('STACK is a gap where its first source is', gap_by(lambda sources: sources[:1])),
)


def bounds_of(op, ends):
    """Other bounds of a new operation, by the lows and the highs of its sources."""
    return of_result('result_interval', op, lambda node, _: ends(
        [source.low for source in node.sources], [source.high for source in node.sources]))


def new_bounds():
    for op in (FILL, STACK):
        for name, ends in (('the bounds of its first source', lambda lows, highs: (lows[0], highs[0])),
                           ('the bounds of its last source', lambda lows, highs: (lows[-1], highs[-1])),
                           ('the low bound of its first source', lambda lows, highs: (lows[0], max(highs))),
                           ('the high bound of its first source', lambda lows, highs: (min(lows), highs[0])),
                           ('what its sources share', lambda lows, highs: (max(lows), min(highs)))):
            yield f'{NAMES[op]} has {name}', bounds_of(op, ends)
        yield f'{NAMES[op]} has the bounds of its type', of_result(
            'result_interval', op, lambda node, _: RIGHT.TYPE_LIMITS[RIGHT.result_dtype(node)])
    yield 'STACK has the bounds of its first two sources', bounds_of(
        STACK, lambda lows, highs: (min(lows[:2]), max(highs[:2])))
    yield 'STACK has the bounds of its last two sources', bounds_of(
        STACK, lambda lows, highs: (min(lows[-2:]), max(highs[-2:])))
    yield 'KNOWN has the bounds of its source', bounds_of(KNOWN, lambda lows, highs: (lows[0], highs[0]))
    for ends in ((1, 1), (0, 0)):
        yield f'KNOWN has the bounds {ends}', bounds_of(KNOWN, lambda lows, highs, e=ends: e)
    yield 'KNOWN of a single number has the bounds [1,1]', bounds_of(
        KNOWN, lambda lows, highs: (int(lows == highs), 1))


def has_number(node, *numbers):
    return node.op == STACK and node.words[5] in numbers


def third(node):
    """The node that word 3 of a STACK would name, or None where it is not there."""
    return node.earlier[node.words[3]] if 0 <= node.words[3] < len(node.earlier) else None


def of_node_0(feature):
    """Whether node 0 has another feature than the first source of a STACK of two."""
    return lambda node: has_number(node, 2) and getattr(node.earlier[0], feature) != getattr(node.sources[0], feature)


def without(items, k):
    return [item for j, item in enumerate(items) if j != k]


def new_rules():
    """(02) "STACK's number, or a word 3 not zero with number 2, is 7 (rules 4 and 6 read word 3 only with number 3), its
    shapes and rank 8.\""""
    for most in (LOAD, FILL, KNOWN, 24):
        yield f'operations up to {most}', rule(2, lambda node, m=most: not 0 <= node.op <= m)
    for op in (FILL, STACK):
        yield f'{NAMES[op]} takes two types', excused(6, lambda node, o=op: node.op == o)
    for op in NEW:
        yield f'{NAMES[op]} refuses bools', refused(6, lambda node, o=op: node.op == o and BOOL in dtypes(node))
        yield f'{NAMES[op]} has the type i32', of_result('result_dtype', op, lambda node, _: I32)
    yield 'KNOWN has the type of its source', of_result('result_dtype', KNOWN, lambda node, _: dtypes(node)[0])
    for k in range(3):
        yield f'STACK does not compare the type of source {k + 1}', excused(6, lambda node, k=k: (
            has_number(node, 3) and len({*without(dtypes(node), k)}) == 1))
        yield f'STACK does not compare the shape of source {k + 1}', {'stacked': lambda shapes, k=k: RIGHT.stacked(
            without(shapes, k)[:1] * 3 if len(shapes) == 3 and len({*without(shapes, k)}) == 1 else shapes)}
    for number in (0, 1, 4, -1):
        yield f'STACK by number {number}', excused(7, lambda node, n=number: has_number(node, n))
    for word in (3, 5):
        yield f'rule 7 sees the low half of word {word} of STACK', rule_seen(7, [STACK], setting(word, low_half))
    yield 'STACK of two with a word 3 not zero', excused(7, lambda node: has_number(node, 2))
    for name, test in (('above', lambda word: word > 0), ('below', lambda word: word < 0)):
        yield f'STACK of two with a word 3 {name} zero', excused(
            7, lambda node, t=test: has_number(node, 2) and t(node.words[3]))
    yield 'STACK of three with a word 3 of zero is refused', refused(
        7, lambda node: has_number(node, 3) and node.words[3] == 0)
    yield 'a word 3 of STACK not zero is 3 with number 2', refused(
        3, lambda node: has_number(node, 2) and node.words[3] != 0)
    yield 'a word 3 of STACK not zero is 3 without number 3', refused(
        3, lambda node: node.op == STACK and not has_number(node, 3) and node.words[3] != 0)
    for name, numbers in (('number 2', (2,)), ('any number but 2', (0, 1, 4, -1))):
        yield f'rule 4 reads word 3 of STACK with {name}', refused(
            4, lambda node, n=numbers: has_number(node, *n) and third(node) is None)
        yield f'rule 6 reads word 3 of STACK with {name}', refused(6, lambda node, n=numbers: (
            has_number(node, *n) and third(node) is not None and third(node).dtype != dtypes(node)[0]))
    yield 'STACK: 7 before 6', excused(6, lambda node: node.op == STACK and RULES[7](node))
    yield 'STACK: 7 before 4', rules({number: lambda node, n=number: RULES[n](node) and not (
        node.op == STACK and RULES[7](node)) for number in (4, 6)})


def new_shapes():
    for most in (2, 4):
        yield f'STACK of rank {most} at most', {'MOST_STACKED_RANK': most}
    for name, feature in (('rank', len), ('count', prod)):
        yield f'STACK compares the {name} of its sources alone', {'stacked': lambda shapes, f=feature: RIGHT.stacked(
            shapes[:1] * len(shapes) if len({*map(f, shapes)}) == 1 else shapes)}
    yield 'STACK broadcasts', {'stacked': lambda shapes: RIGHT.broadcast(shapes) and RIGHT.stacked(
        [RIGHT.broadcast(shapes)] * len(shapes))}
    yield 'STACK is three long', {'stacked': lambda shapes: RIGHT.stacked(shapes) and (3, *shapes[0])}
    for most in (LARGE + 2, float('inf')):
        yield f'STACK of {most} elements passes', excused(8, lambda node, m=most: (
            node.op == STACK and RIGHT.result_extents(node) and LARGE < prod(RIGHT.result_extents(node)) <= m))
    yield 'STACK of 1048576 elements is refused', refused(8, lambda node: (
        node.op == STACK and RIGHT.result_extents(node) and prod(RIGHT.result_extents(node)) == LARGE))
    yield 'KNOWN has no axes', of_result('result_extents', KNOWN, lambda node, _: ())


def with_node_0():
    """(02) "with number 2, word 3 is zero": it is not node 0."""
    for number, feature in ((6, 'dtype'), (8, 'extents'), (9, 'device')):
        yield f'STACK of two: rule {number} asks node 0', refused(number, of_node_0(feature))
    yield 'STACK of two has the bounds of node 0 too', of_result('result_interval', STACK, lambda node, right: (
        right if has_number(node, 3) else (min(right[0], node.earlier[0].low), max(right[1], node.earlier[0].high))))
    yield 'STACK of two has the device of node 0 too', of_result('result_devices', STACK, lambda node, right: (
        right if has_number(node, 3) else right | {node.earlier[0].device} - {0}))
    yield 'STACK of two has node 0 as a third source', {'source_words': lambda words: (
        [1, 2, 3] if words[0] == STACK and words[5] in (2, 3) else RIGHT.source_words(words))}


def new_devices():
    """(02) "All three carry devices as binary operations do\""""
    for op in NEW:
        yield f'{NAMES[op]} has no device', of_result('result_devices', op, lambda node, _: set())
    for op in (FILL, STACK):
        yield f'two devices meet in {NAMES[op]}', excused(9, lambda node, o=op: node.op == o)


def edition_by(editions=(2,), lone=(23, 0), other=(23, 0), start=2):
    """read_edition that reads other editions, or from another place on, or refuses otherwise."""
    def wrong(data):
        if not data or data[0] != 0:
            return LOAD, 0
        if len(data) == 1:
            raise RIGHT.Refused(*lone)
        if data[1] not in editions:
            raise RIGHT.Refused(*other)
        return STACK, start
    return {'read_edition': wrong}


def edition_as_number(data):
    """read_edition where the number of the edition is one as others are."""
    if not data or data[0] != 0:
        return LOAD, 0
    edition, start = RIGHT.read_number(data, 1)
    if edition != 2:
        raise RIGHT.Refused(23, 0)
    return STACK, start


def padded_edition(data):
    """read_edition that takes 82 00 for 02."""
    return (STACK, 3) if data[:3] == bytes.fromhex('008200') else RIGHT.read_edition(data)


def places_by(change):
    """unpack with another place of 20, 21, 22 and 24 in a second edition file, by the place and the number."""
    def wrong(data, table):
        answer = RIGHT.unpack(data, table)
        if answer.number in (20, 21, 22, 24) and [*data[:2]] == SECOND_EDITION:
            return answer._replace(place=change(answer.place, answer.number))
        return answer
    return {'unpack': wrong}


def new_of(ops, nodes=slice(None)):
    """holds_new of other operations, or of some nodes alone."""
    return {'holds_new': lambda table: any(op in ops for op in table[::17][nodes])}


READER_SLIPS = (
    ('no second edition', edition_by(())), ('edition 3 too', edition_by((2, 3))), ('edition 1 too', edition_by((1, 2))),
    ('edition 0 too', edition_by((0, 2))), ('any edition', edition_by(range(256))),
    ('edition 3', edition_by((3,))), ('the edition as a number', {'read_edition': edition_as_number}),
    ('82 00 for the edition', {'read_edition': padded_edition}),
    ('a lone 00 is 20 at 0', edition_by(lone=(20, 0))), ('a lone 00 is 20 at 1', edition_by(lone=(20, 1))),
    ('another edition is 24', edition_by(other=(24, 1))),
    ('23 of the edition at 1', edition_by(other=(23, 1))), ('23 of a lone 00 at 1', edition_by(lone=(23, 1))),
    ('23 of the count at 2', unpack_by(places=(2, 0))),
    ('the count of a second edition file from 0', edition_by(start=0)),
    ('the count of a second edition file from 1', edition_by(start=1)),
    ('places from the count', places_by(lambda place, number: place - 2)),
    ('20 and 21 of the count at 0', places_by(lambda place, number: 0 if place == 2 and number in (20, 21) else place)),
    ('26 is not asked', unpack_by(order=(23, 14, 22))), ('26 before 22', unpack_by(order=(23, 14, 26, 22))),
    ('26 before 14', unpack_by(order=(23, 26, 14, 22))), ('26 at 2', unpack_by(places=(0, 2))),
    ('26 at 1', unpack_by(places=(0, 1))), ('26 with words written', unpack_by(early=1)),
)
WRITER_SLIPS = (
    ('always the second edition', {'holds_new': lambda table: True}),
    ('never the second edition', {'holds_new': lambda table: False}),
    ('the second edition for LOAD too', new_of((LOAD, *NEW))),
)
HEADER_SLIPS = (
    ('the count before the edition', pack_by(joined=lambda edition, written: written + edition)),
    ('the edition turned round', pack_by(joined=lambda edition, written: edition[::-1] + written)),
    ('edition 3', pack_by(joined=lambda edition, written: [0, 3][:len(edition)] + written)),
    ('the edition without 00', pack_by(joined=lambda edition, written: edition[1:] + written)),
)


def editions():
    for name, patch in READER_SLIPS:
        yield f'second edition: {name}', patch
    for name, patch in (*((name, in_call('pack', patch)) for name, patch in WRITER_SLIPS), *HEADER_SLIPS):
        yield f'pack: {name}', patch
    for call in ('unpack', 'pack'):
        for op in NEW:
            yield f'{call}: {NAMES[op]} is no new operation', in_call(call, new_of([new for new in NEW if new != op]))
        for name, nodes in (('first', slice(0, 1)), ('last', slice(-1, None))):
            yield f'{call}: the {name} node alone can be a new operation', in_call(call, new_of(NEW, nodes))
    for name, room, count in (('room', lambda room, size, nodes, more: room < size - more, lambda size, more: size),
                              ('length', lambda room, size, nodes, more: room < size, lambda size, more: size - more)):
        yield f'pack: the {name} without the edition', without_edition(room, count)
    for most in (LOAD, FILL, KNOWN, 24):
        yield f'pack: operations up to {most}', pack_rule(2, lambda node, m=most: not 0 <= node.op <= m)


def without_edition(room, count):
    """pack whose room or length leaves the bytes of the edition out."""
    def wrong(table, buffer):
        more = 2 if not RIGHT.length_wrong(table) and RIGHT.holds_new(table) else 0
        other = pack_by(room=lambda *several: room(*several, more), count=lambda size, *_: count(size, more))
        return other['pack'](table, buffer)
    return {'pack': wrong}


def new_operations():
    yield from NEW_VALUES
    for family in (new_bounds, new_rules, new_shapes, with_node_0, new_devices):
        yield from family()


# ------------------------------------------------------------- one set only

def listings():
    for name, change in (('extents joined by a comma', lambda text: text.replace(b'x', b',')),
                         ('no last line feed', lambda text: text[:-1]),
                         ('rank 0 as nothing', lambda text: text.replace(b' -\n', b' \n')),
                         ('no first line', lambda text: text[text.find(b'\n') + 1:] or text),
                         ('a colon for at', lambda text: text.replace(b' at ', b': '))):
        yield f'listing: {name}', {'listing': lambda data, c=change: c(RIGHT.listing(data))}
    yield 'listing: i16 from −32768', in_call('listing', i16_range(-32768, 32767))


def bytes_wide():
    yield 'gaps are counted in a byte', run_by(gaps=lambda fields: list(fields[-1].values()).count(None) % 256)
    yield 'positions of 15 and 16 in a byte', scanned(place=lambda position, start: position % 256)


CONTROLS = (
    *((f'fit of {NAMES[op]}', fitting(op, lambda a, *three, f=right: f(*three))) for op, right in FITS.items()),
    ('count of RESHAPE', reshaped(None, None)), ('broadcast', {'broadcast': loose(lambda *_: False)}),
    ('operands', {'element_value': read_at_0((*BINARY, WHERE, FILL), [0, 1, 2], lambda *_: False)}),
    ('range of i16', i16_range_of(CONST, -32767, 32767)), ('flags', flags_seen(lambda d, value, flag: flag)),
    ('rule 12', {'verdict': over(lambda counts: counts)}), ('reduction', reduced()), ('inputs', scanned()),
    ('run', run_by()), ('check', check_by()), ('lookup', lookup_by()), ('number', number_by()),
    ('number alone', alone_by(lambda byte: byte < 128)), ('node', node_by()), ('unpack', unpack_by()),
    ('edition', edition_by()), ('written number', groups_by()), ('written node', written_by()),
    ('pack', pack_by()), ('range of pack', range_of(LEAST, GREATEST)), ('rules of pack', pack_rule(0, None)),
)
FAMILIES = (movements, shapes, broadcasts, orders, words, types, devices, numbers, rows, limits, ranges, bounds, values,
            reductions, inputs, no_readings, runs, checks, lookups, packed, numbers_alone, packs, new_operations,
            editions)
ONE_SET_ONLY = (
    ('agreement', listings, 'the program vectors lists nothing'),
    ('vectors', bytes_wide, 'the runs of the tables have less than 200 elements'),
)
