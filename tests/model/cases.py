"""Deterministic generator of small test cases for the rules in model.py.

Each group is a function of a count and a seed; all_cases yields them all.
expected(case) runs the model on fresh buffers.
"""

from dataclasses import dataclass
from itertools import combinations, islice
from itertools import count as count_from
from math import prod
from random import Random

import model
from model import (ADD, AND, CAST, CMPLT, CMPNE, CONST, EXPAND, FILL, FLIP, IDIV, KNOWN, LOAD, MAX,
                   MOD, MUL, OR, PAD, PARAM, PERMUTE, REDUCE, RESHAPE, SHRINK, STACK, WHERE)

BIG = 2 ** 63
LARGE = 1048576
OPERATIONS = len(model.USED_WORDS)
# The least number that is no operation.
UNKNOWN = OPERATIONS
LIMITS = sorted({e + d for low_high in model.TYPE_LIMITS.values()
                 for e in low_high for d in (-1, 0, 1)})
EDGES = sorted({*LIMITS, -BIG, BIG - 1, 2, 3, 4, 15, 16, 17, 20, 21, UNKNOWN - 1, UNKNOWN, LARGE - 1,
                LARGE, LARGE + 1, 2 ** 32, -2 ** 32, 2 ** 62})
SMALL_INTERVALS = [(0, 1), (1, 1), (0, 0), (1, 3), (2, 2), (0, 5), (4, 9), (-3, -1),
                   (-7, 7), (-5, -2), (-1, -1), (-4, 10), (-1, 0)]


@dataclass(frozen=True)
class Case:
    call: str
    args: tuple
    note: str


def fresh_words(room):
    return [1000 + k for k in range(room)]


def fresh_flags(room):
    return [2 + k % 200 for k in range(room)]


# What the buffers of a call hold before it, those that it can write.
FRESH = {'run': (fresh_words, fresh_flags), 'unpack': (fresh_words,), 'check': (fresh_words,), 'pack': (fresh_flags,)}


def fresh_buffers(case):
    """The buffers by their rooms, which end the arguments."""
    makers = FRESH.get(case.call, ())
    rooms = case.args[len(case.args) - len(makers):]
    return tuple(make(room) for make, room in zip(makers, rooms))


def expected(case):
    """The model's answer, and the buffers that the call can write, afterwards."""
    buffers = fresh_buffers(case)
    inputs = case.args[:len(case.args) - len(buffers)]
    return getattr(model, case.call)(*inputs, *buffers), buffers


# ------------------------------------------------------------ writing nodes

def node(op, words=None):
    row = [op] + [0] * 16
    for word, value in (words or {}).items():
        row[word] = value
    return row


def row(first, items):
    return {first + k: item for k, item in enumerate(items)}


def const(dtype, value):
    return node(CONST, {4: dtype, 5: value})


def param(slot, dtype, low, high, extents, device=1):
    return node(PARAM, {4: dtype, 5: slot, 6: device, 7: low, 8: high, **row(9, extents)})


def move(op, source, row_a, row_b=()):
    return node(op, {1: source, **row(9, row_a), **row(13, row_b)})


def apply(op, *sources):
    return node(op, row(1, sources))


def load(source, device):
    return node(LOAD, {1: source, 6: device})


def stack(*sources):
    return node(STACK, {**row(1, sources), 5: len(sources)})


def reduce_node(source, number, flags):
    return node(REDUCE, {1: source, 5: number, **row(9, flags)})


def at_axis(axis, item, others=0):
    """A row of four: the item at the axis, and others."""
    return tuple(item if k == axis else others for k in range(4))


def smallest(op, words):
    """A CONST of 1 and a node on it with these words, all others 0 but the device that PARAM and LOAD need, and the
    number that STACK needs."""
    needed = {PARAM: {6: 9}, LOAD: {6: 9}, STACK: {5: 2}}.get(op, {})
    return const(0 if op in (AND, OR, WHERE) else 2, 1) + node(op, {**needed, **words})


def packed_numbers(table):
    """The plain numbers of a packed plan, the first two those of its edition where it is the second; no rule is asked
    of the table."""
    numbers = [0, 2] if {*table[::17]} & {*model.NEW} else []
    numbers.append(len(table) // 17)
    for first in range(0, len(table), 17):
        words = table[first:first + 17]
        numbers.append(words[0])
        if words[0] < OPERATIONS:
            used = [words[w] for w in model.USED_WORDS[words[0]]]
            numbers += [2 * n if n >= 0 else -2 * n - 1 for n in used]
    return numbers


def number_bytes(number):
    groups = []
    while number >= 128:
        groups.append(number % 128 + 128)
        number //= 128
    return bytes(groups + [number])


def pack(table):
    return b''.join(map(number_bytes, packed_numbers(table)))


# ------------------------------------------------------------- valid plans

class Plan:
    """A small table that takes a node only where the model accepts it."""

    def __init__(self, most_elements=40):
        self.table, self.records, self.most = [], [], most_elements

    def add(self, words):
        if words is None or len(self.records) == 12:
            return False
        number, rest = model.verdict(self.table + words)
        if number or sum(prod(r.extents) for r in rest) > self.most:
            return False
        self.table, self.records = self.table + words, rest
        return True

    def params(self):
        return [r for k, r in enumerate(self.records) if self.table[17 * k] == PARAM]

    def total(self):
        return sum(prod(r.extents) for r in self.records)


def random_interval(rng, dtype):
    least, greatest = model.TYPE_LIMITS[dtype]
    if rng.random() < 0.15:
        return rng.choice([(least, greatest), (least, least), (greatest, greatest)])
    return rng.choice([i for i in SMALL_INTERVALS if least <= i[0] and i[1] <= greatest])


def random_param(rng, plan, dtype, base):
    """A PARAM whose extents broadcast with base."""
    extents = [e if rng.random() < 0.75 else 1 for e in base]
    if rng.random() < 0.3:
        extents = extents[rng.randint(0, len(extents)):]
    low, high = random_interval(rng, dtype)
    device = rng.choice((1, 1, 1, 1, 1, 1, 7, 255))
    return param(len(plan.params()), dtype, low, high, extents, device)


def random_row(rng, op, source):
    """Rows A and B that fit the operation and its source."""
    if op == PERMUTE:
        return rng.sample(range(len(source)), len(source)), ()
    if op in (FLIP, REDUCE):
        return [rng.randint(0, 1) for _ in source], ()
    if op == EXPAND:
        return [rng.randint(1, 3) if e == 1 else e for e in source], ()
    if op == RESHAPE:
        left, extents = prod(source), []
        while len(extents) < 3 and (left > 1 or rng.random() < 0.5):
            extents.append(rng.choice([d for d in range(1, left + 1) if left % d == 0]))
            left //= extents[-1]
        return extents + [left] * (left > 1), ()
    offsets = [rng.randint(0, 2 if op == PAD else e - 1) for e in source]
    if op == PAD:
        return [o + e + rng.choice((0, 0, 1)) for o, e in zip(offsets, source)], offsets
    return [rng.randint(1, e - o) for o, e in zip(offsets, source)], offsets


def propose(rng, plan, op, base):
    """A node of the operation that may be accepted after the plan; or None."""
    dtype = rng.randint(0, 3)
    if op == CONST:
        return const(dtype, rng.choice(random_interval(rng, dtype)))
    if op == PARAM:
        return random_param(rng, plan, dtype, base)
    pick = rng.randrange(len(plan.records))
    source = plan.records[pick]
    if op == CAST:
        return node(CAST, {1: pick, 4: dtype})
    if op == LOAD:
        return load(pick, rng.choice((1, 2, 128, 255)))
    if op == REDUCE:
        return reduce_node(pick, rng.randint(0, 1), random_row(rng, op, source.extents)[0])
    if PERMUTE <= op <= SHRINK:
        return move(op, pick, *random_row(rng, op, source.extents))
    if op == KNOWN:
        return apply(op, pick)
    alike = [k for k, r in enumerate(plan.records) if r.dtype == source.dtype]
    if op == STACK:
        same = [k for k in alike if plan.records[k].extents == source.extents]
        return stack(pick, *rng.choices(same, k=rng.randint(1, 2)))
    if op != WHERE:
        return apply(op, pick, rng.choice(alike))
    bools = [k for k, r in enumerate(plan.records) if r.dtype == 0]
    return apply(op, rng.choice(bools), pick, rng.choice(alike)) if bools else None


def make_plan(rng, op, rank):
    """An accepted plan with the operation in it, on extents of about that rank."""
    main = 0 if op in (AND, OR) else rng.randint(1, 3)
    while True:
        plan = Plan(rng.choice((40, 40, 40, 120)))
        base = [rng.choice((1, 2, 2, 3)) for _ in range(rank)]
        for _ in range(rng.randint(2, 4)):
            dtype = rng.choice((main, main, main, 0, rng.randint(0, 3)))
            plan.add(random_param(rng, plan, dtype, base))
        for _ in range(rng.randint(0, 3) if plan.records else 0):
            plan.add(propose(rng, plan, rng.randrange(OPERATIONS), base))
        tries = range(30 if plan.records else 0)
        if any(plan.add(propose(rng, plan, op, base)) for _ in tries):
            for _ in range(rng.randint(0, 4)):
                plan.add(propose(rng, plan, rng.randrange(OPERATIONS), base))
            return plan


def random_inputs(rng, plan, gap_share=0.2):
    """Accepted values and flags, with garbage under the gaps."""
    values, flags = [], []
    for record in plan.params():
        for _ in range(prod(record.extents)):
            known = rng.random() >= gap_share
            inside = rng.choice((record.low, record.high,
                                 rng.randint(record.low, record.high)))
            values.append(inside if known else rng.choice(EDGES))
            flags.append(int(known))
    return values, flags


def run_case(plan, values, flags, note, more=0, more_flags=0):
    total = plan.total()
    return Case('run', (plan.table, values, flags, total + more, total + more_flags), note)


def valid_plans(count, seed):
    """Every operation at every rank, run and checked in turn."""
    rng = Random(f'valid {seed}')
    made = 0
    for turn in count_from():
        op, rank = turn % OPERATIONS, turn % 5
        plan = make_plan(rng, op, rank)
        note = f'valid op {op} rank {rank}'
        yield run_case(plan, *random_inputs(rng, plan, rng.choice((0, 0.1, 0.4))), note,
                       rng.choice((0, 0, 3)), rng.choice((0, 0, 2)))
        yield Case('check', (plan.table, 8 * len(plan.records)), note)
        made += 2
        if made >= count:
            return


# ----------------------------------------------- near misses and rule pairs
# A draft gives a node's words by number, and the features of the PARAMs that are
# its sources by (source, feature). A break is a change that breaks one rule.

I32_LOW, I32_HIGH = model.TYPE_LIMITS[3]
SOURCE = {'dtype': 3, 'device': 1, 'low': 1, 'high': 1, 'extents': (2, 3)}
FOUR_LARGE = row(9, [LARGE] * 4)
TWO_BOOLS = {(1, 'dtype'): 0, (2, 'dtype'): 0}
SHAPES = [{(2, 'extents'): (2, 2)}, {(2, 'extents'): (2, 1, 2)}]
DEVICES = [{(2, 'device'): 2}]
ARITHMETIC = {6: [{(2, 'dtype'): 2}, TWO_BOOLS], 8: SHAPES, 9: DEVICES}
DIVIDE = {6: [{(2, 'dtype'): 2}], 8: SHAPES, 9: DEVICES, 10: [{(2, 'high'): 0}]}
LOGIC = {6: [{(2, 'dtype'): 1}, {(1, 'dtype'): 3, (2, 'dtype'): 3}], 8: SHAPES, 9: DEVICES}
NEGATIVE = {(2, 'low'): -1, (2, 'high'): -1}
PAST_RANK = [{11: 1}, {12: 1}]


def same_shape(extents):
    """The change of three sources to one shape."""
    return {(source, 'extents'): extents for source in (1, 2, 3)}


DRAFTS = {
    CONST: ({4: 2, 5: 5}, {5: [{4: 4}, {4: -1}], 11: [{5: BIG - 1}, {5: -32768}]}),
    PARAM: ({4: 3, 5: 0, 6: 1, 7: -4, 8: 10, 9: 2, 10: 3},
            {5: [{4: 4}], 8: [FOUR_LARGE, {9: LARGE, 10: 2}],
             7: [{5: 1}, {5: -1}, {6: 0}, {6: 256}, {7: 2 ** 40}, {10: 0, 11: 3},
                 {9: -1}, {9: LARGE + 1}], 11: [{8: 2 ** 31}, {7: I32_LOW - 1}]}),
    PERMUTE: ({9: 1}, {7: [{9: 0}, {9: 2}, {10: 1}, {9: -1}, *PAST_RANK]}),
    FLIP: ({9: 1}, {7: [{9: 2}, {10: -1}, *PAST_RANK]}),
    RESHAPE: ({9: 6}, {7: [{9: -6}, {11: 2}, {9: 0, 10: 6}], 8: [{9: 7}, FOUR_LARGE]}),
    EXPAND: ({9: 4, 10: 3, (1, 'extents'): (1, 3)},
             {7: [{9: -1}, {12: -1}], 8: [{10: 4}, {10: 0}, {11: 1}, FOUR_LARGE]}),
    PAD: ({9: 3, 10: 5, 13: 1, 14: 2},
          {7: [{13: -1}, {13: LARGE + 1}, {15: 1}, {12: -1}],
           8: [{9: 2}, {14: 3}, {13: LARGE}, {10: 0}, {11: 1}, {9: LARGE, 10: 5}]}),
    SHRINK: ({9: 1, 10: 2, 13: 1, 14: 1},
             {7: [{13: -1}, {14: LARGE + 1}, {16: 1}, {12: -1}],
              8: [{9: 2}, {14: 2}, {14: LARGE}, {10: 0}, {11: 1}]}),
    CAST: ({4: 1}, {5: [{4: 4}, {4: BIG - 1}],
                    11: [{(1, 'high'): 256}, {(1, 'low'): -1}, {4: 0, (1, 'high'): 2}]}),
    ADD: ({}, {**ARITHMETIC, 11: [{(1, 'high'): I32_HIGH}]}),
    MUL: ({}, {**ARITHMETIC, 11: [{(1, 'high'): I32_HIGH, (2, 'low'): -2}]}),
    MAX: ({}, ARITHMETIC),
    IDIV: (NEGATIVE, {**DIVIDE, 11: [{(1, 'low'): I32_LOW}]}),
    MOD: (NEGATIVE, DIVIDE),
    CMPLT: ({}, ARITHMETIC),
    CMPNE: ({}, {**ARITHMETIC, 6: [{(2, 'dtype'): 0}]}),
    AND: (TWO_BOOLS, LOGIC),
    OR: (TWO_BOOLS, LOGIC),
    WHERE: ({(1, 'dtype'): 0},
            {6: [{(1, 'dtype'): 1}, {(3, 'dtype'): 2}, {(2, 'dtype'): 0}],
             8: [*SHAPES, {(1, 'extents'): (3, 3)}, {(3, 'extents'): (4,)}],
             9: [*DEVICES, {(3, 'device'): 255}, {(1, 'device'): 9}]}),
    REDUCE: ({9: 1}, {6: [{(1, 'dtype'): 0}], 11: [{(1, 'high'): I32_HIGH}],
                      7: [{5: 2}, {5: -1}, {10: 2}, *PAST_RANK]}),
    LOAD: ({6: 9}, {7: [{6: 0}, {6: 256}]}),
    FILL: ({}, {6: [{(2, 'dtype'): 2}, {(1, 'dtype'): 0}], 8: SHAPES, 9: DEVICES}),
    KNOWN: ({}, {}),
    # With another number than 3 word 3 names no source, so a change of the number is one of word 3 too.
    STACK: ({5: 3}, {6: [{(2, 'dtype'): 2}, {(1, 'dtype'): 0}],
                     7: [{3: 0, 5: number} for number in (0, 1, 4, -1, -BIG, BIG - 1)]
                     + [{3: word, 5: 2} for word in (1, 2, 3, -1, BIG - 1)],
                     8: [*SHAPES, {(1, 'extents'): (1, 3)}, {(2, 'extents'): (3,)}, same_shape((1, 1, 2, 3)),
                         same_shape((512, 1024))], 9: DEVICES}),
}


def draft(op, *changes):
    """The table of PARAMs and the drafted node, with the changes made."""
    features = {}
    used = [w for w in (1, 2, 3) if w in model.USED_WORDS[op]]
    words = row(1, range(len(used)))
    for change in changes:
        for key, value in change.items():
            (words if isinstance(key, int) else features)[key] = value
    table = []
    for source in used:
        feature = {k: features.get((source, k), SOURCE[k]) for k in SOURCE}
        table += param(source - 1, **feature)
    return table + node(words.pop(0, op), words)


def breaks_of(op):
    """All (rule, change) of an operation, those that any operation has too."""
    base, breaks = DRAFTS[op]
    unused = [w for w in range(1, 17) if w not in model.USED_WORDS[op]]
    sources = [w for w in (1, 2, 3) if w not in unused]
    found = [(2, {0: UNKNOWN}), (2, {0: -1}), (3, {unused[0]: 1}), (3, {unused[-1]: -BIG})]
    found += [(4, {sources[-1]: v}) for v in (len(sources), -1, BIG - 1)] if sources else []
    return found + [(rule, b) for rule, several in breaks.items() for b in several]


def broken_pairs(op):
    """All (r, s, table): rules r < s both broken, by changes of different words."""
    for r, first in breaks_of(op):
        for s, second in breaks_of(op):
            if r < s and not first.keys() & second.keys():
                table = draft(op, DRAFTS[op][0], first, second)
                if model.verdict(table[:-17])[0] in (0, 1):
                    yield r, s, table


def chosen(rng, items, count, kind):
    """Up to count items in their order, one of each kind at least."""
    items = list(items)
    order = rng.sample(range(len(items)), len(items))
    first_of = {kind(items[k]): k for k in reversed(order)}
    keep = set(first_of.values())
    others = [k for k in order if k not in keep]
    return [items[k] for k in sorted([*keep, *others[:max(0, count - len(keep))]])]


def with_tail(rng, table):
    """The table, or the table before a further node that is broken or sound."""
    tails = ([], [], [], const(1, 3), node(99), node(CONST, {1: 5}), apply(ADD, 0, BIG - 1))
    return table + rng.choice(tails)


def near_misses(count, seed):
    rng = Random(f'misses {seed}')
    every = [(rule, op, draft(op, DRAFTS[op][0], change))
             for op in DRAFTS for rule, change in breaks_of(op)]
    for rule, op, table in chosen(rng, every, count, lambda item: item[:2]):
        yield Case('check', (with_tail(rng, table), 64), f'rule {rule} op {op}')


def rule_pairs(count, seed):
    rng = Random(f'pairs {seed}')
    every = [(r, s, op, table) for op in DRAFTS for r, s, table in broken_pairs(op)]
    for r, s, op, table in chosen(rng, every, count, lambda item: item[:2]):
        yield Case('check', (with_tail(rng, table), 64), f'rules {r} and {s} op {op}')


def edge_words(count, seed):
    """A word of any operation, or two, replaced by an edge."""
    rng = Random(f'edges {seed}')
    with_numbers = [op for op in DRAFTS if max(model.USED_WORDS[op]) > 3]
    for turn in range(count):
        op = turn // 4 % OPERATIONS if turn % 4 == 0 else rng.choice(with_numbers)
        words = [w for w in model.USED_WORDS[op] if w > 3] or model.USED_WORDS[op]
        words = rng.choices(words, k=rng.choice((1, 1, 1, 2)))
        if rng.random() < 0.15:
            words[0] = rng.randint(0, 16)
        change = {word: rng.choice(EDGES) for word in words}
        table = draft(op, DRAFTS[op][0], change)
        yield Case('check', (table, 40), f'edge op {op} {change}')


def interval_cases(count, seed):
    """Bounds of every operation that computes, from corners of mixed sign."""
    rng = Random(f'intervals {seed}')
    ends = {t: [e for e in (*LIMITS, -7, -3, -2, 2, 5, 9, 16, -46341, 46341) if lo <= e <= hi]
            + [lo, lo + 1, hi - 1, hi] * 3 for t, (lo, hi) in model.TYPE_LIMITS.items()}
    ops = (ADD, MUL, MAX, IDIV, MOD, CMPLT, CMPNE, WHERE, REDUCE, CAST, AND, OR, FILL, STACK,
           ADD, MUL, IDIV, CAST)
    for turn in range(count):
        op = ops[turn % len(ops)]
        dtype = 0 if op in (AND, OR) else rng.randint(0 if op in (CMPNE, WHERE, CAST, FILL, STACK) else 1, 3)
        small = rng.random() < 0.3
        words = {CAST: {4: rng.randint(0, 3)}, STACK: {5: 3}}.get(op, {})
        if op == REDUCE:
            words = {5: rng.randint(0, 3) // 3, 9: rng.randint(0, 1), 10: rng.randint(0, 1)}
        for source in (1, 2, 3):
            own = 0 if op == WHERE and source == 1 else dtype
            pool = [e for e in ends[own] if abs(e) < 50] if small else ends[own]
            low, high = sorted(rng.choices(pool, k=2))
            high = low if rng.random() < 0.2 else high
            if op in (IDIV, MOD) and source == 2 and low <= 0 <= high and rng.random() < 0.8:
                low, high = (1, high) if high > 0 else (low, -1) if low < 0 else (1, 1)
            words.update({(source, 'dtype'): own, (source, 'low'): low, (source, 'high'): high})
        yield Case('check', (draft(op, words), 40), f'interval op {op}')


# ------------------------------------------------------------------ limits

def large(*shapes):
    """PARAMs of the shapes, of one type and device."""
    return [w for slot, shape in enumerate(shapes) for w in param(slot, 3, 0, 1, shape)]


def size_tables():
    for shape in ((LARGE,), (LARGE, 1, 1), (1024, 1024), (32, 32, 32, 32), (17, 61681),
                  (1024, 1025), (LARGE, 2), (LARGE + 1,), (LARGE,) * 4, (1, LARGE, 1, 2), ()):
        yield f'PARAM {shape}', large(shape)
    for shape in ((1024, 1024), (17, 61681), (LARGE, LARGE), (LARGE, 1), (LARGE + 1, 1)):
        yield f'EXPAND to {shape}', large((1, 1)) + move(EXPAND, 0, shape)
        yield f'PAD to {shape}', large((1, 1)) + move(PAD, 0, shape, (1, 0))
    for sides in ((1024, 1024), (17, 61681)):
        yield f'broadcast {sides}', large((sides[0], 1), (sides[1],)) + apply(MUL, 0, 1)
    for shapes in (((2, 1, 1), (512, 1), (1024,)), ((2, 1, 1), (512, 1), (1025,)), ((17, 1), (61681,), ())):
        table = sum((param(k, 3 if k else 0, 0, 1, shape) for k, shape in enumerate(shapes)), [])
        yield f'WHERE {shapes}', table + apply(WHERE, 0, 1, 2)
    yield 'sum of 1048576', param(0, 3, -2048, 2047, (1024, 1024)) + reduce_node(0, 0, (1, 1))
    yield 'sum leaves', param(0, 3, -2048, 2048, (1024, 1024)) + reduce_node(0, 0, (1, 1))
    yield 'max of all', param(0, 3, I32_LOW, I32_HIGH, (LARGE,)) + reduce_node(0, 1, (1,))
    full = large(*[(LARGE,)] * 4)
    yield 'exactly 4194304', full
    yield 'one more than 4194304', full + const(3, 1)
    flipped = large((LARGE,)) + move(FLIP, 0, (1,)) * 3
    yield '4194304 by FLIP', flipped
    yield '4194305 by FLIP', flipped + const(0, 1)
    for late in (node(99), apply(ADD, 0, 9), const(0, 2), const(4, 0), node(CONST, {1: 1})):
        yield f'late refusal over 4194304 {late[:6]}', full + const(3, 1) + late


def count_tables():
    """Numbers of nodes, of words and of PARAMs."""
    for nodes in (0, 1, 255, 256, 257):
        yield f'{nodes} nodes', const(1, 9) * nodes
    yield '256 nodes, last refused', const(1, 9) * 255 + apply(ADD, 254, 255)
    for length in (1, 16, 18, 33, 17 * 256 + 1):
        yield f'{length} words', (const(2, -9) * 257)[:length]
    yield '16 PARAMs', large(*[(1,)] * 16)
    yield '17 PARAMs', large(*[(1,)] * 17)
    yield '17th PARAM with slot 0', large(*[(1,)] * 16) + large((1,))
    yield 'slots between nodes', large((2,)) + const(1, 1) + param(1, 1, 0, 3, (2,))
    yield 'slot by node number', large((2,)) + const(1, 1) + param(2, 1, 0, 3, (2,))


def row_tables():
    """Rows of every kind against a source of every rank."""
    rows = ((0, 2), (1, 2), (2, 0, 3), (0, 0, 0, 1), (2, 2, 0, 2), (2, 2), (2,),
            (2, 2, 1), (1, 1, 1, 1))
    for op in (PARAM, RESHAPE, EXPAND, PAD, SHRINK):
        for words in rows:
            table = large(words) if op == PARAM else large((2, 2)) + move(op, 0, words)
            yield f'shape row op {op} {words}', table
    for rank in range(5):
        shape = (2, 3, 1, 2)[:rank]
        turned = tuple(range(rank))[::-1]
        for words in (turned, turned + (1,), (0,) * rank, turned[1:] + (rank,), turned[:-1]):
            yield f'PERMUTE rank {rank} {words}', large(shape) + move(PERMUTE, 0, words[:4])
        for words in ((1,) * rank, (1,) * min(rank + 1, 4), (2,) * rank, (0, -1)[:rank]):
            yield f'FLIP rank {rank} {words}', large(shape) + move(FLIP, 0, words)
            yield f'REDUCE rank {rank} {words}', large(shape) + reduce_node(0, 1, words)
        grown = tuple(extent + 1 for extent in shape)
        for past in ((1,) * rank, (2,) * rank, (0,) * rank + (1,), (LARGE,) * rank):
            yield f'PAD rank {rank} {past}', large(shape) + move(PAD, 0, grown, past[:4])
    for words in ((3, 3), (3,)):
        for offsets in ((1,), (1, 1), (0, 0), (1, LARGE + 1), (BIG - 1,), (-BIG,)):
            yield f'PAD {words} {offsets}', large((2,)) + move(PAD, 0, words, offsets)
            yield f'SHRINK {words} {offsets}', large((4,)) + move(SHRINK, 0, words, offsets)


def limit_cases(count, seed):
    rng = Random(f'limits {seed}')
    several = ((note, table, kind) for kind, tables in
               enumerate((size_tables(), count_tables(), row_tables())) for note, table in tables)
    for note, table, _ in chosen(rng, several, count, lambda i: i[0] if i[2] < 2 else i[0][:6]):
        yield Case('check', (table, 8 * (len(table) // 17)), note)


# ----------------------------------------------------- buffers and inputs

def buffer_cases(count, seed):
    """Rooms exact, one short, longer and none, for each call that writes."""
    rng = Random(f'buffers {seed}')

    def several():
        while True:
            plan = make_plan(rng, rng.randrange(OPERATIONS), rng.randint(0, 4))
            nodes, data = len(plan.records), pack(plan.table)
            for more in (0, -1, 5):
                yield Case('unpack', (data, 17 * nodes + more), f'room {more}')
                yield Case('check', (plan.table, 8 * nodes + more), f'room {more}')
            yield Case('unpack', (data, 0), 'no room')
            yield Case('check', (plan.table, 0), 'no room')
            inputs = random_inputs(rng, plan)
            for rooms in ((0, 0), (-1, 0), (0, -1), (-1, 9), (4, 7)):
                yield run_case(plan, *inputs, f'rooms {rooms}', *rooms)
    return islice(several(), count)


def spoil(rng, plan, values, flags, number, position):
    """Make the position bad in the way of 15 or 16, or of both."""
    limits = [r for r in plan.params() for _ in range(prod(r.extents))]
    if number in (15, 'both'):
        flags[position] = rng.choice((2, 3, 128, 254, 255))
    if number in (16, 'both'):
        low, high = limits[position].low, limits[position].high
        values[position] = rng.choice((low - 1, high + 1, low - 1, high + 1, -BIG, BIG - 1))
        flags[position] = flags[position] if number == 'both' else 1
    if number == 'gap':
        values[position], flags[position] = rng.choice((-BIG, BIG - 1)), 0


INPUT_FAULTS = ((15,), (16,), ('both',), ('gap',), (15, 16), (16, 15), (16, 16), (15, 15),
                ('gap', 16), ('gap', 15), ('both', 16), (16, 'both'))


def run_inputs(count, seed):
    """Input faults 13, 15, 16 by themselves, in both orders, and against 14."""
    rng = Random(f'inputs {seed}')
    over = large(*[(LARGE,)] * 4) + const(0, 1)
    for values, flags in (([], []), ([1], [1]), ([1], []), ([], [0])):
        yield Case('run', (const(2, -7), values, flags, 1, 1), 'no PARAM')
        yield Case('run', (over, values, flags, 1, 1), 'over in all')
    for turn in range(count):
        while True:
            plan = make_plan(rng, rng.randrange(OPERATIONS), rng.randint(1, 4))
            values, flags = random_inputs(rng, plan)
            if len(values) >= 2:
                break
        faults = INPUT_FAULTS[turn % len(INPUT_FAULTS)]
        places = sorted(rng.sample(range(len(values)), len(faults)))
        for number, place in zip(faults, places):
            spoil(rng, plan, values, flags, number, place)
        rooms, note = (0, 0), f'inputs {faults} at {places}'
        if turn % 5 == 1:
            rooms, note = rng.choice(((-1, 0), (0, -1), (-1, -1))), note + ' and 14'
        if turn % 6 == 2:
            for short in rng.choice(([values], [flags], [values, flags])):
                short[:] = rng.choice((short[1:], short + [1], []))
            note += ' and 13'
        if turn % 17 == 3:
            plan.table = plan.table + rng.choice((node(99), const(0, 2), apply(ADD, 0, 99), [7]))
            note += ' and a refused plan'
        yield run_case(plan, values, flags, note, *rooms)


# ------------------------------------------------------------ packed bytes

FAULTY_NUMBERS = [bytes.fromhex(text) for text in (
    '8080808080', 'ffffffff8000', 'ffffffff7f', 'feffffff7f', '80808080', '8000', '8080808000',
    '15', '18', '7f', '9501', '9500', 'ffff03', '')]
FIXED_BYTES = [bytes.fromhex(text) for text in (
    '', '00', '01', '80', '8000', '8100', '8102', '8002', '80808080', '8080808080', '8080808000',
    'ffffffffff', 'ffffffff7f', '0115', '0100', '010004', '0100040a', '0100040a00', '010004d804',
    '01958001', '0200040a158080', '010080808080', '01008080808080', '018000', '008200',
    '0200040a8000', '0100040a15', '0200040a0100', '8102ffffffffff', '818000')]

# Two faults at once, for the order of 20, 21, 23, 14, 24 and 22.
ORDERED_BYTES = [(bytes.fromhex(text), room) for text, room in (
    ('', 0), ('8000', 0), ('80', 0), ('00', 0), ('8102', 0), ('01', 0), ('0115', 16), ('0115', 17),
    ('018000', 16), ('0195', 17), ('019500', 17), ('0115808080', 17), ('0100040a15', 16),
    ('0100040a15', 17), ('0200040a15', 33), ('0200040a15', 34), ('0200040a158000', 34),
    ('02008000000a15', 34), ('8002', 4351), ('8002', 4352), ('80028000', 4352))]

# (02) "A second edition file starts with bytes 00 02, then count and nodes as before": accepted; the leading bytes;
# 20, 21, 23 and 14 of its count; 24 of both editions, by each operation about their limits; 26 and what comes before it.
EDITION_BYTES = [(bytes.fromhex(text), room) for text, room in (
    ('000202 00040a 150000', 34), ('000202 00040a 1600', 40), ('000202 00040a 1700000004', 34),
    ('000202 00040a 1700000206', 34), ('000203 00040a 1600 00040a', 51), ('000201 1600', 17), ('000201 1600', 16),
    ('0000', 40), ('0001', 40), ('0003', 40), ('00ff', 40), ('00', 0), ('0003', 0), ('008200', 0),
    ('000301 1600', 40), ('000101 1600', 40), ('008200 01 1600', 40), ('00000201 1600', 40),
    ('00010401 1600', 40), ('0002', 0), ('0002', 40), ('000280', 40), ('00028000', 0), ('00028080808080', 40),
    ('000200', 40), ('000200', 0), ('000200021600', 40), ('00028102', 40), ('0002ffffffff7f', 40),
    ('00028002', 4351), ('00028002', 4352), ('000201', 16), ('000201', 17), ('000201 80', 17), ('000202 1600', 34),
    ('000201 18', 17), ('000201 19', 17), ('000201 17', 17), ('000201 18', 16), ('000201 9800', 17),
    ('000201 98', 17), ('000202 00040a 18', 34), ('000202 1600 18', 34), ('000201 9501', 17), ('000201 9801 00', 17),
    ('01 150000', 17), ('01 1600', 17), ('01 1700000004', 17), ('02 00040a 1600', 34), ('02 00040a 1500', 34),
    ('01 1600', 16), ('01 9600', 17), ('01 1680', 17), ('01 00040a 1600', 17), ('000201 00040a', 17),
    ('000201 140002', 17), ('000202 00040a 14002a', 34), ('000201 00040a', 16), ('000201 00040a 00', 17),
    ('000201 00040a 1600', 17), ('000201 00040a', 40), ('000201 0004', 17), ('000201 00840000', 17),
    ('000202 00040a', 34), ('000201 1600 00', 17), ('000201 1600 16', 17), ('000201 1680', 17),
    ('000201 168000', 17))]


def spoilt_bytes(rng, data_numbers):
    """One number of a packed plan replaced, padded, or followed by the end."""
    parts = [number_bytes(n) for n in data_numbers]
    at = rng.randrange(len(parts))
    if rng.random() < 0.35:
        *head, last = parts[at]
        parts[at] = bytes(head + [last + 128] + [128] * rng.randint(0, 3) + [0])
    else:
        parts[at] = rng.choice(FAULTY_NUMBERS)
    if rng.random() < 0.3:
        del parts[at + 1:]
    return b''.join(parts)


def byte_strings(rng):
    """Endless (note, bytes): fixed, then plans whole, cut, lengthened and spoilt."""
    for data in FIXED_BYTES:
        yield 'fixed bytes', data
    data = pack(large((2, 300)) + move(FLIP, 0, (1, 1)) + const(2, -300))
    for cut in range(len(data) + 1):
        yield f'cut at {cut}', data[:cut]
    while True:
        plan = make_plan(rng, rng.randrange(OPERATIONS), rng.randint(0, 4))
        numbers = packed_numbers(plan.table)
        data = pack(plan.table)
        yield 'whole', data
        yield 'cut', data[:rng.randrange(len(data))]
        yield 'bytes appended', data + bytes(rng.choices((0, 128, 255, 1), k=rng.randint(1, 3)))
        for _ in range(3):
            yield 'one number spoilt', spoilt_bytes(rng, numbers)
        yield 'random', bytes([rng.randint(0, 5), *rng.choices(range(256), k=rng.randint(0, 12))])
        changed = list(plan.table)
        changed[rng.randrange(len(changed))] = rng.choice([e for e in EDGES if 0 <= e < 2 ** 36])
        yield 'edge word', pack(changed)


def packed_bytes(count, seed):
    """Each byte string unpacked, or unpacked and checked in one call."""
    rng = Random(f'bytes {seed}')
    for data, room in ORDERED_BYTES:
        yield Case('unpack', (data, room), 'order of refusals')
    strings = byte_strings(rng)
    for note, data in islice(strings, count):
        if rng.random() < 0.25:
            yield Case('unpack_check', (data,), note)
        else:
            room = rng.choice((204,) * 9 + (17, 16, 0))
            yield Case('unpack', (data, room), note)


def packed_plans(count, seed):
    """Refused and accepted plans by unpack and check in one call."""
    rng = Random(f'packed {seed}')
    tables = [table for op in DRAFTS for r, s, table in broken_pairs(op)]
    tables += [table for _, table in size_tables()] + [const(1, 9) * 256, const(1, 9) * 257]
    fit = [t for t in tables if all(t[k] >= 0 for k in range(0, len(t), 17))]
    for table in rng.sample(fit, min(max(0, count - 3), len(fit))) + [const(1, 9) * 256]:
        yield Case('unpack_check', (pack(table),), 'packed table')
    late = load(255, 1)
    yield Case('unpack_check', (pack(const(1, 9) * 255 + late),), 'last of 256 refused')
    yield Case('unpack_check', (pack(large(*[(LARGE,)] * 4) + const(0, 1)),), 'over in all')


# -------------------------------------------------- lookups and listings

def movement_plan(rng, op):
    """A PARAM under a chain of movements, LOADs and a rare CAST or new operation, the op among them."""
    while True:
        plan = Plan(150)
        rank = rng.randint(0 if op in (RESHAPE, LOAD) else 1, 4)
        extents = [rng.choice((1, 2, 3)) for _ in range(rank)]
        plan.add(param(0, 2, -5, 5, extents))
        chain = [op, *rng.choices([*range(PERMUTE, CAST), LOAD, rng.choice((CAST, *model.NEW))], k=rng.randint(1, 5))]
        for step in rng.sample(chain, len(chain)):
            last = len(plan.records) - 1
            source = last if rng.random() < 0.9 else rng.randint(0, last)
            if step == CAST:
                plan.add(node(CAST, {1: source, 4: rng.choice((2, 3))}))
            elif step in model.NEW:
                plan.add(propose(rng, plan, step, extents))
            elif step == LOAD:
                plan.add(load(source, rng.randint(1, 255)))
            else:
                rows = random_row(rng, step, plan.records[source].extents)
                plan.add(move(step, source, *rows))
        if op in plan.table[::17]:
            return plan


def lookups(count, seed):
    """Places of every movement and of chains, and nodes and elements not there."""
    rng = Random(f'lookups {seed}')
    huge = (2 ** 31, 2 ** 32, BIG - 1, BIG, 2 ** 64 - 1)
    movements = (PERMUTE, FLIP, RESHAPE, EXPAND, PAD, SHRINK, LOAD)
    over = large(*[(LARGE,)] * 4) + const(0, 1)
    wide = large((LARGE,), (1,)) + move(FLIP, 0, (1,)) + move(RESHAPE, 2, (16, 65536))
    wide += move(EXPAND, 1, (1024,))
    for table, at, element in ((over, 4, 0), (over, 9, 0), (wide, 2, 0), (wide, 3, LARGE - 1),
                               (wide, 3, 70000), (wide, 3, LARGE), (wide, 4, 1023)):
        yield Case('lookup', (table, at, element), 'wide')
    for turn in range(count):
        plan = movement_plan(rng, movements[turn % 7])
        last = len(plan.records) - 1
        node_number = last if turn % 3 else rng.randint(0, last)
        elements = prod(plan.records[node_number].extents)
        element, table, note = rng.randrange(elements), plan.table, 'lookup'
        if turn % 9 == 4:
            element = rng.choice((elements, elements + 1, *huge))
        if turn % 9 == 8:
            node_number = rng.choice((last + 1, last + 2, 256, *huge))
        if turn % 11 == 10:
            table, note = table + rng.choice((node(UNKNOWN), const(0, 2), [0])), 'refused plan'
        yield Case('lookup', (table, node_number, element), note)


def listings(count, seed):
    rng = Random(f'listings {seed}')
    full = const(2, -300) * 256
    fixed = [b'', b'\x01\x00\x04\x0a', b'\x00', pack(full), pack(full) + bytes(12288),
             pack(large((3, 2, 1, 4)) + apply(MUL, 0, 0)), pack(const(3, I32_LOW)),
             pack(large(*[(LARGE,)] * 4) + const(0, 1)), pack(param(0, 2, -9, -3, (1, 2, 3, 4)))]
    strings = byte_strings(rng)
    for _ in range(60):
        next(strings)
    for turn in range(count):
        if turn < len(fixed):
            data = fixed[turn]
        elif turn % 2:
            data = pack(make_plan(rng, rng.randrange(OPERATIONS), 4).table)
        else:
            data = next(strings)[1]
        yield Case('listing', (data,), 'listing')


# ---------------------------------------------------------- cases by hand
# What random plans rarely meet. A wrong rule that the other groups let pass is why
# each of these is here.

FOUR_TWOS = (2, 2, 2, 2)
SINGLE_OF_FOUR = tuple(at_axis(axis, 1) for axis in range(4))
FLAGS_OF_FOUR = (*SINGLE_OF_FOUR, (1, 0, 1, 0), (0, 1, 0, 1))


def type_tables():
    """Types that meet, and the ends of every type."""
    for op in model.BINARY:
        for first, second in ((0, 0), (0, 3), (3, 0)):
            yield draft(op, {(1, 'dtype'): first, (2, 'dtype'): second})
    yield from (draft(op, {(1, 'dtype'): 3, (2, 'dtype'): 3}) for op in (AND, OR))
    for several in ((1, 3, 3), (0, 0, 3), (0, 3, 0), (0, 0, 0)):
        yield draft(WHERE, {(k, 'dtype'): dtype for k, dtype in enumerate(several, 1)})
    yield draft(REDUCE, {(1, 'dtype'): 0, 5: 1})
    yield from (draft(op, DRAFTS[op][0], {4: -1}) for op in (PARAM, CAST))
    inside = []
    for slot, (dtype, (low, high)) in enumerate(model.TYPE_LIMITS.items()):
        yield from (const(dtype, low - 1), const(dtype, high + 1))
        yield from (param(0, dtype, low - 1, high, ()), param(0, dtype, low, high + 1, ()))
        inside += const(dtype, low) + const(dtype, high) + param(slot, dtype, low, high, ())
    yield inside


def device_tables():
    """Devices at their ends, three that differ, and the one device from every place."""
    for op in (PARAM, LOAD):
        yield from (draft(op, DRAFTS[op][0], {6: device}) for device in (-1, 0, 1, 255, 256))
    for place in (1, 2, 3):
        yield draft(WHERE, {(1, 'dtype'): 0, (place, 'device'): 2})
    two = param(0, 0, 0, 1, (), 1) + param(1, 0, 0, 1, (), 2) + const(0, 1)
    yield from (two + apply(WHERE, *places) for places in ((2, 0, 1), (0, 2, 1)))
    table = const(0, 1) + const(2, 5) + param(0, 0, 0, 1, (), 7) + param(1, 2, 0, 1, (), 7)
    table += apply(ADD, 1, 3) + apply(ADD, 3, 1) + apply(ADD, 1, 1) + apply(WHERE, 0, 1, 3)
    table += apply(WHERE, 0, 3, 1) + apply(WHERE, 2, 1, 1) + apply(WHERE, 0, 1, 1)
    yield table + load(1, 255) + load(3, 1)


def interval_params(dtype, intervals):
    return [w for k, ends in enumerate(intervals) for w in param(k, dtype, *ends, ())]


def bound_tables():
    """Bounds of every pair of some intervals, and divisors with and without 0."""
    signs = ((-3, -1), (-2, 5), (1, 4), (0, 0), (-6, -4))
    touching = ((0, 0), (1, 1), (0, 1), (1, 2), (2, 2))
    for op, dtype, ends in ((ADD, 2, signs), (MUL, 2, signs), (MAX, 2, signs),
                            (CMPLT, 2, touching), (CMPNE, 2, touching),
                            (AND, 0, touching[:3]), (OR, 0, touching[:3])):
        pairs = [apply(op, i, k) for i in range(len(ends)) for k in range(len(ends))]
        yield interval_params(dtype, ends) + sum(pairs, [])
    pairs = [apply(WHERE, 5, i, k) for i in range(5) for k in range(5)]
    yield interval_params(2, signs) + const(0, 1) + sum(pairs, [])
    divisors = ((1, 1), (1, 3), (2, 3), (-1, -1), (-3, -1), (-3, -2))
    pairs = [apply(op, i, k) for op in (IDIV, MOD) for i in range(3) for k in range(3, 9)]
    yield interval_params(2, ((-7, 7), (-7, -3), (2, 7)) + divisors) + sum(pairs, [])
    for op in (IDIV, MOD):
        for ends in ((-1, 0), (0, 0), (0, 1), (-1, 1)):
            yield interval_params(2, ((-7, 7), ends)) + apply(op, 0, 1)
    flags = [(number, row_a) for number in (0, 1) for row_a in ((0, 0), (0, 1), (1, 0), (1, 1))]
    yield param(0, 2, -4, 10, (2, 3)) + sum((reduce_node(0, *several) for several in flags), [])
    several = [reduce_node(0, number, flags) for number in (0, 1) for flags in FLAGS_OF_FOUR]
    yield param(0, 2, -4, 10, (2, 3, 5, 7)) + sum(several, [])


def place_tables():
    """Sources not earlier, counts and offsets at their limit, a slot twice, and three shapes that meet."""
    for op, word in ((WHERE, 1), (WHERE, 2), (ADD, 1)):
        base = draft(op, DRAFTS[op][0])
        yield from (draft(op, DRAFTS[op][0], {word: v}) for v in (len(base) // 17 - 1, -1))
    yield from (smallest(op, {1: 1}) for op in (*model.BINARY, FILL, STACK) if op != ADD)
    yield from (draft(RESHAPE, {9: elements}) for elements in (5, 7))
    yield from (draft(REDUCE, DRAFTS[REDUCE][0], {5: number}) for number in (-1, 2))
    for op in (PAD, SHRINK):
        yield from (draft(op, DRAFTS[op][0], {13: offset}) for offset in (LARGE, LARGE + 1))
    yield large((1,)) * 2
    for several in (((1, 3), (2, 3), (3, 3)), ((1, 1), (2, 1), (3, 1)), ((2, 1, 1), (3, 1), (4,)),
                    ((2, 3), (1,), (3, 3))):
        shapes = {(k, 'extents'): shape for k, shape in enumerate(several, 1)}
        yield draft(WHERE, {(1, 'dtype'): 0}, shapes)


def unused_tables():
    """Word 6 of every operation that does not use it, and each other word of one that does not."""
    for word in range(1, 17):
        ops = [op for op in range(OPERATIONS) if word not in model.USED_WORDS[op]]
        yield from (smallest(op, {word: 1}) for op in (ops if word == 6 else [ops[5 * word % len(ops)]]))


def axis_tables():
    """What one axis of four breaks: a fit, a flag, an offset, a number of PERMUTE, an extent."""
    source = large(FOUR_TWOS)
    for axis in range(4):
        yield large(FOUR_TWOS, at_axis(axis, 3, 2)) + apply(MUL, 0, 1)
        yield source + move(PAD, 0, (3,) * 4, at_axis(axis, 2, 1))
        yield source + move(SHRINK, 0, at_axis(axis, 2, 1), (1,) * 4)
        yield source + move(EXPAND, 0, at_axis(axis, 4, 2))
        flags = at_axis(axis, (-1, 2 ** 32, 7, 2)[axis], 1)
        yield from (source + move(FLIP, 0, flags), source + reduce_node(0, 1, flags))
        offsets = at_axis(axis, (-1, LARGE + 1)[axis % 2])
        yield from (source + move(PAD, 0, (3,) * 4, offsets), source + move(SHRINK, 0, (1,) * 4, offsets))
        other = (4, -1, 0, 0)[axis]
        yield source + move(PERMUTE, 0, [other if k == axis else k for k in range(4)])
        yield from (large(at_axis(axis, extent, 2)) for extent in (-2, LARGE + 1))


def past_rank_tables():
    """The first word past the source's rank, in each row that the rank measures."""
    for rank in range(4):
        source, past = large(FOUR_TWOS[:rank]), (*[0] * rank, 1)
        yield source + move(PERMUTE, 0, (*range(rank), 1))
        yield from (source + move(FLIP, 0, past), source + reduce_node(0, 1, past))
        yield from (source + move(op, 0, FOUR_TWOS[:rank], past) for op in (PAD, SHRINK))


def hand_checks():
    for tables in (type_tables(), device_tables(), bound_tables(), place_tables(), unused_tables(),
                   axis_tables(), past_rank_tables()):
        for table in tables:
            yield Case('check', (table, 8 * (len(table) // 17)), 'check by hand')
    over = large(*[(LARGE,)] * 4) + const(0, 1)
    for table in ([0], node(UNKNOWN), const(0, 2), over):
        yield Case('check', (table, 0), 'refused before 14')
        yield Case('run', (table, [1], [], 0, 0), 'refused before 13 and 14')


def hand_run(table, inputs):
    """A run with exact rooms; None is a gap, over a number that no limits hold."""
    values = [BIG - 1 if value is None else value for value in inputs]
    flags = [int(value is not None) for value in inputs]
    total = sum(prod(record.extents) for record in model.verdict(table)[1])
    return Case('run', (table, values, flags, total, total), 'run by hand')


def elementwise_runs():
    """Known numbers of both signs and gaps, each with each."""
    table = param(0, 2, -7, 7, (7,)) + param(1, 2, 1, 3, (2, 1)) + param(2, 2, -3, -1, (2, 1))
    table += sum((apply(op, 0, divisor) for op in (IDIV, MOD) for divisor in (1, 2)), [])
    yield hand_run(table, [-7, -6, -1, 0, 1, 6, 7, 2, 3, -2, -3])
    yield hand_run(table, [-7, None, -1, 0, 1, 6, 7, None, 3, -2, None])
    table = param(0, 2, -4, 9, (5,)) + param(1, 2, -4, 9, (3, 1))
    table += sum((apply(op, 0, 1) for op in (ADD, MUL, MAX, CMPLT, CMPNE)), [])
    yield hand_run(table, [-2, 3, None, 2, 0, 3, None, -2])
    table = param(0, 0, 0, 1, (3,)) + param(1, 0, 0, 1, (3, 1))
    yield hand_run(table + sum((apply(op, 0, 1) for op in (AND, OR, CMPNE)), []),
                   [0, 1, None, 0, 1, None])
    table = param(0, 0, 0, 1, (3, 1, 1)) + param(1, 2, -9, 9, (2, 1)) + param(2, 2, -9, 9, (2,))
    yield hand_run(table + apply(WHERE, 0, 1, 2), [0, 1, None, 5, None, -6, None])
    table = large((2, 3), (3,), (2, 1), ())
    pairs = ((0, 1), (1, 0), (0, 2), (2, 1), (3, 0), (1, 3))
    yield hand_run(table + sum((apply(ADD, *pair) for pair in pairs), []), [0, 1, 1, 0] * 3)
    table = param(0, 3, 1, 9, (2, 1, 3, 1)) + param(1, 3, 1, 9, (2, 1, 2))
    yield hand_run(table + apply(MUL, 0, 1) + apply(MUL, 1, 0), [1, 2, 3, 4, 5, 6, 1, 5, 7, 9])
    table = param(0, 2, -9, 9, (2, 3))
    table += sum((reduce_node(0, number, flags) for number in (0, 1)
                  for flags in ((0, 0), (0, 1), (1, 0), (1, 1))), [])
    yield hand_run(table, [1, -5, 3, -4, 7, 2])
    yield hand_run(table, [1, -5, 3, None, 7, 2])


def rank_runs():
    """Operands of each rank under each higher one on either side, and with a last axis that is the same."""
    table = sum((param(k, 2, 0, 2000, (2, *[1] * k)) for k in range(4)), [])
    for turn in (1, -1):
        pairs = [apply(ADD, *pair[::turn]) for pair in combinations(range(4), 2)]
        yield hand_run(table + sum(pairs, []), [n * 10 ** k for k in range(4) for n in (1, 2)])
    table = sum((param(k, 2 * (k > 3), 0, 9 if k > 3 else 1, (2, *[1] * (k % 4))) for k in range(8)), [])
    for several in (((3, 4, 5), (0, 5, 6)), ((1, 6, 7), (2, 7, 4), (0, 5, 4))):
        table_of = table + sum((apply(WHERE, *three) for three in several), [])
        yield hand_run(table_of, [1, 0, 0, 1, 1, 0, 0, 1, 1, 2, 3, 4, 5, 6, 7, 8])
    table = param(0, 2, 0, 99, (2, 1, 1, 3)) + param(1, 2, 0, 99, (3,)) + param(2, 0, 0, 1, (3,))
    table += apply(ADD, 0, 1) + apply(ADD, 1, 0) + apply(WHERE, 2, 0, 1) + apply(WHERE, 2, 1, 0)
    yield hand_run(table, [1, 2, 3, 4, None, 6, 10, 20, 30, 0, 1, 1])


def single_runs():
    """Operations of two numbers at each rank, and flags that are neither 0 nor 1."""
    for rank in range(5):
        shape = (1, 1, 1, 2)[4 - rank:]
        table = param(0, 0, 0, 1, shape) + param(1, 0, 0, 1, shape) + param(2, 2, -9, 9, shape)
        table += param(3, 2, 1, 9, shape) + apply(AND, 0, 1) + apply(OR, 0, 1)
        table += sum((apply(op, 2, 3) for op in (MUL, MAX, IDIV, MOD, CMPLT, CMPNE)), [])
        yield hand_run(table, [k for pair in ((0, 1), (1, 1), (-7, 5), (2, 3)) for k in pair[:prod(shape)]])
    for flag in (4, 7, 8, 16, 32, 64, 127):
        yield Case('run', (large((2,)), [1, 1], [1, flag], 2, 2), f'flag {flag} by hand')


def axis_runs():
    """Each movement and REDUCE by each single axis of four, some by two, and PERMUTE by turns of four."""
    turns = ((1, 0, 2, 3), (0, 2, 1, 3), (0, 1, 3, 2), (1, 2, 3, 0), (3, 0, 1, 2))
    for nodes in ([move(FLIP, 0, flags) for flags in FLAGS_OF_FOUR],
                  [move(SHRINK, 0, at_axis(axis, 1, 2), at_axis(axis, 1)) for axis in range(4)],
                  [move(PERMUTE, 0, turn) for turn in turns],
                  [reduce_node(0, 0, flags) for flags in FLAGS_OF_FOUR],
                  [reduce_node(0, 1, flags) for flags in FLAGS_OF_FOUR]):
        table = param(0, 2, 0, 15, FOUR_TWOS) + sum(nodes, [])
        yield hand_run(table, [None if k == 11 else k for k in range(16)])
    shape, table = (2, 1, 2, 1), param(0, 2, 0, 9, (2, 1, 2, 1))
    for single in SINGLE_OF_FOUR:
        table += move(PAD, 0, [extent + 2 * one for extent, one in zip(shape, single)], single)
    yield hand_run(table, [1, 2, None, 4])
    table = param(0, 2, 0, 7, (8,)) + sum((move(RESHAPE, 0, at_axis(axis, 1, 2)) for axis in range(4)), [])
    yield hand_run(table + sum((move(EXPAND, 1 + axis, FOUR_TWOS) for axis in range(4)), []), [*range(7), None])


def movement_runs():
    """Each movement in several ways from one source."""
    turns = ((0, 2, 1), (1, 0, 2), (1, 2, 0), (2, 0, 1), (2, 1, 0))
    table = param(0, 2, -12, 12, (2, 3, 4)) + sum((move(PERMUTE, 0, t) for t in turns), [])
    yield hand_run(table + move(SHRINK, 0, (1, 2, 3), (1, 0, 1)), list(range(-12, 12)))
    offsets = ((1, 2), (0, 0), (2, 3), (2, 0))
    table = param(0, 2, 0, 9, (2, 2)) + sum((move(PAD, 0, (4, 5), o) for o in offsets), [])
    yield hand_run(table, [1, None, 3, 4])
    offsets = ((0, 0), (0, 2), (1, 1), (1, 2))
    table = param(0, 2, 0, 12, (3, 4)) + sum((move(SHRINK, 0, (2, 2), o) for o in offsets), [])
    yield hand_run(table, [*range(1, 12), None])
    flags = ((0, 1), (1, 0), (1, 1))
    table = param(0, 2, 0, 9, (2, 3)) + sum((move(FLIP, 0, f) for f in flags), [])
    yield hand_run(table, [1, 2, 3, None, 5, 6])
    table = param(0, 2, 0, 9, (1, 3)) + param(1, 2, 0, 9, (2, 1)) + move(EXPAND, 0, (2, 3))
    table += move(EXPAND, 1, (2, 3)) + move(RESHAPE, 3, (3, 2)) + node(CAST, {1: 4, 4: 3})
    yield hand_run(table + load(5, 9), [1, None, 3, 4, 5])


def axis_lookups():
    """Each movement by each single axis of four."""
    for axis, single in enumerate(SINGLE_OF_FOUR):
        yield large(FOUR_TWOS) + move(FLIP, 0, single), 0
        yield large(FOUR_TWOS) + move(SHRINK, 0, at_axis(axis, 1, 2), single), 0
        yield large(at_axis(axis, 1, 2)) + move(EXPAND, 0, FOUR_TWOS), 15
        yield from ((large((1,) * 4) + move(PAD, 0, at_axis(axis, 3, 1), single), e) for e in (0, 2))


def hand_lookups():
    for table, element in axis_lookups():
        yield Case('lookup', (table, 1, element), 'lookup by hand')
    for turn in ((1, 2, 3, 0), (3, 0, 1, 2), (1, 3, 0, 2), (2, 0, 3, 1)):
        table = large((2, 3, 2, 4)) + move(PERMUTE, 0, turn)
        yield from (Case('lookup', (table, 1, e), 'lookup by hand') for e in (5, 14))
    table = large((2, 2)) + move(PAD, 0, (4, 5), (1, 1))
    for element in (1, 5, 6, 8, 12, 16):
        yield Case('lookup', (table, 1, element), 'lookup by hand')
    table = large((2, 3)) + move(FLIP, 0, (1, 0)) + node(CAST, {1: 1, 4: 3})
    for place in ((0, 5), (0, 6), (1, 5), (1, 6), (2, 5), (2, 6), (3, 0), (3, 6)):
        yield Case('lookup', (table, *place), 'lookup by hand')


# (02) "The buoys use −32768 for "no reading". The range of i16 becomes −32767..32767, wherever a type's
# range is asked for."

def no_reading_tables():
    """Bounds of i16 at both ends of its range, and one below by each that computes and can leave it; CONST and
    PARAM are in type_tables."""
    for low in (-16384, -16383):
        yield param(0, 2, low, 16383, ()) + apply(ADD, 0, 0)
    yield param(0, 2, -256, 1, ()) + const(2, 128) + apply(MUL, 0, 1)
    yield param(0, 2, -4096, 0, (8,)) + reduce_node(0, 0, (1,))
    yield param(0, 3, -32768, 0, ()) + node(CAST, {1: 0, 4: 2})
    halves = param(0, 2, -16384, 16383, ()) + param(1, 2, -16383, 16384, ()) + apply(ADD, 0, 1)
    factors = param(2, 2, -217, 217, ()) + const(2, 151) + apply(MUL, 3, 4)
    seventh = param(3, 2, -4681, 4681, (7,)) + reduce_node(6, 0, (1,))
    wide = param(4, 3, -32767, 32767, ()) + node(CAST, {1: 8, 4: 2})
    others = const(2, -1) + apply(IDIV, 9, 10) + apply(MAX, 9, 9) + const(0, 1) + apply(WHERE, 13, 9, 9)
    yield halves + factors + seventh + wide + others


def no_reading_runs():
    """−32768 known and under gaps, in PARAMs of i16 and i32, alone and beside other bad positions."""
    whole = param(0, 2, -32767, 32767, (3,))
    for values, flags in (([32767, -32767, -32768], [1, 1, 1]), ([-32768, -32768, -32768], [0, 1, 1]),
                          ([9, -32768, 9], [2, 1, 1]), ([9, -32768, -32768], [1, 2, 1]),
                          ([-32768, 9, 40000], [1, 2, 1]), ([40000, -32768, 9], [1, 1, 1])):
        yield Case('run', (whole, values, flags, 3, 3), 'no reading')
    yield Case('run', (whole + move(FLIP, 0, (1,)), [-32768, 7, -32768], [0, 1, 0], 6, 6), 'no reading')
    both = param(0, 3, -32768, 0, (2,)) + param(1, 2, -32767, 0, (2,))
    sums = const(3, -32767) + const(3, -1) + apply(ADD, 2, 3) + apply(ADD, 0, 3)
    yield Case('run', (both, [-32768, 0, -32767, -32768], [1, 1, 1, 1], 4, 4), 'no reading')
    yield Case('run', (both + sums, [-32768, -32768, -32767, -32768], [1, 0, 1, 0], 9, 9), 'no reading')
    yield Case('run', (param(0, 3, -32767, 0, (2,)), [-32767, -32768], [1, 1], 2, 2), 'no reading')


def no_reading_cases():
    for table in no_reading_tables():
        yield Case('check', (table, 8 * (len(table) // 17)), 'no reading')
    yield from no_reading_runs()
    number = const(2, -32768)
    yield from (Case('run', (number, [], [], 1, 1), 'no reading'), Case('lookup', (number, 0, 0), 'no reading'))
    yield from (Case(call, (pack(number),), 'no reading') for call in ('unpack_check', 'listing'))


def hand_cases(count, seed):
    rng = Random(f'by hand {seed}')
    table = sum((small_node(op) for op in range(OPERATIONS)), [])
    several = [Case('unpack', (pack(table), len(table)), 'every operation'), *elementwise_runs(),
               *movement_runs(), *hand_checks(), *rank_runs(), *single_runs(), *axis_runs(), *hand_lookups(),
               *no_reading_cases()]
    yield from chosen(rng, several, count, lambda case: case.call)


# ---------------------------------------------------------- second edition
# (02) "Model people want three operations."

def three_types():
    """Types that meet, bools too; a third that is another."""
    for first, second in ((0, 0), (3, 0), (0, 3), (2, 3)):
        several = const(first, 1) + const(second, 1)
        yield from (several + apply(FILL, 0, 1), several + stack(0, 1), several + stack(0, 0, 1))
    yield from (const(dtype, 1) + apply(KNOWN, 0) for dtype in model.TYPE_LIMITS)


def three_devices():
    """The one device from every place, and two that differ."""
    table = const(2, 5) + param(0, 2, 0, 1, (), 7)
    pairs = ((0, 1), (1, 0), (0, 0), (1, 1))
    table += sum((make(*pair) for make in (lambda *pair: apply(FILL, *pair), stack) for pair in pairs), [])
    table += sum((stack(*three) for three in ((0, 0, 1), (0, 1, 0), (1, 0, 0), (0, 0, 0))), [])
    yield table + apply(KNOWN, 0) + apply(KNOWN, 1)
    two = param(0, 2, 0, 1, (), 1) + param(1, 2, 0, 1, (), 2) + const(2, 1)
    yield from (two + apply(FILL, *pair) for pair in ((0, 1), (1, 0)))
    yield from (two + stack(*places) for places in ((0, 1), (2, 0, 1), (0, 2, 1), (1, 0, 2)))


def three_bounds():
    """Bounds of every pair of some intervals and of some three, of KNOWN, and at the ends of each type."""
    signs = ((-3, -1), (-2, 5), (1, 4), (0, 0), (-6, -4))
    table, pairs = interval_params(2, signs), [(i, k) for i in range(5) for k in range(5)]
    yield table + sum((apply(FILL, *pair) for pair in pairs), [])
    yield table + sum((stack(*pair) for pair in pairs), [])
    yield table + sum((stack(i, k, (i + k) % 5) for i, k in pairs), []) + sum((apply(KNOWN, k) for k in range(5)), [])
    ends = [const(dtype, end) for dtype, limits in model.TYPE_LIMITS.items() for end in limits]
    meet = [make(k, k + 1) for k in (0, 2, 4, 6) for make in (lambda *pair: apply(FILL, *pair), stack)]
    yield sum((*ends, *meet, *(apply(KNOWN, k) for k in range(8))), [])


def three_shapes():
    """Sources of each rank, shapes that would broadcast, and counts about 1048576."""
    for rank in range(5):
        shape = (2, 1, 3, 2)[:rank]
        yield from (large(shape) + stack(*[0] * number) + apply(KNOWN, 0) for number in (2, 3))
    others = ((2,), (1,)), ((1,), (2,)), ((), (1,)), ((2, 3), (3,)), ((2, 3), (3, 2)), ((1, 1, 1), (1, 1, 1, 1))
    for turn, shapes in enumerate(others):
        three = ((0, 0, 1), (0, 1, 0), (0, 1, 1))[turn % 3]
        yield from (large(*shapes) + stack(*places) for places in ((0, 1), three))
    about = ((512, 1024), 2), ((LARGE // 2 + 1,), 2), ((LARGE // 3,), 3), ((LARGE // 3 + 1,), 3), ((LARGE,), 2)
    yield from (large(shape) + stack(*[0] * number) for shape, number in about)
    yield from (large((17, 1), (61681,)) + apply(FILL, *pair) for pair in ((0, 1), (1, 0)))
    yield large((1024, 1), (1024,)) + apply(FILL, 0, 1) + apply(KNOWN, 2)


# A PARAM of another type, shape and device than the next two, with wider bounds.
OTHER_FIRST = param(0, 3, -99, 99, (4,), 9) + param(1, 2, -9, 1, (2,)) + param(2, 2, -1, 9, (2,))


def stack_words():
    """Numbers that are 7, words 3 that are read or not, against 4, 6, 8 and 9; each word at the ends of 64 bits."""
    def stacked(*words):
        return OTHER_FIRST + node(STACK, dict(zip((1, 2, 3, 5), words)))

    yield from (stacked(1, 2, word, 2) for word in (0, 1, 2, 3, -1, -BIG, BIG - 1, 2 ** 32))
    yield from (stacked(1, 2, word, 3) for word in (0, 1, 2, 3, -1, -BIG, BIG - 1, 2 ** 32 + 1))
    yield from (stacked(1, 2, word, number) for number in (0, 1, 4, -1) for word in (0, 9))
    yield from (stacked(1, 2, 0, number) for number in (5, 2 ** 32 + 2, 2 ** 32 + 3, -2, -3, -BIG, BIG - 1))
    yield from (stacked(*pair, 9, 9) for pair in ((3, 1), (-1, 1), (1, 3), (1, -BIG), (BIG - 1, 1), (0, 1), (1, 0)))
    yield from (stacked(0, 1, word, 2) for word in (0, 1, 9))
    yield from (OTHER_FIRST + param(3, 2, 0, 1, shape, device) + node(STACK, {1: 1, 2: 3, 3: word, 5: number})
                for shape, device in (((3,), 1), ((2,), 5), ((3,), 5)) for word, number in ((0, 2), (9, 2), (0, 4)))
    yield OTHER_FIRST + node(STACK, {1: 1, 2: 9, 4: 1, 5: 9})


def three_checks():
    for tables in (three_types(), three_devices(), three_bounds(), three_shapes(), stack_words()):
        for table in tables:
            yield Case('check', (table, 8 * (len(table) // 17)), 'check of the three')


def parity_cells(count):
    """Numbers where they have an odd count of bits, gaps elsewhere: no axis can be left out."""
    return [k if k.bit_count() % 2 else None for k in range(count)]


def three_runs():
    """T known, 0 and a gap, each with each of C; KNOWN and STACK of each rank; each rank under each higher one."""
    table = param(0, 2, -9, 9, (4,)) + param(1, 2, -9, 9, (4, 1))
    yield hand_run(table + apply(FILL, 0, 1) + apply(FILL, 1, 0), [-2, 3, None, 0, 3, None, -2, 0])
    table = param(0, 0, 0, 1, (3,)) + param(1, 0, 0, 1, (3, 1)) + apply(FILL, 0, 1) + apply(KNOWN, 2) + stack(0, 0)
    yield hand_run(table, [0, 1, None, 0, 1, None])
    table = sum((param(k, 2, 0, 2000, (2, *[1] * k)) for k in range(4)), [])
    for turn in (1, -1):
        pairs = [apply(FILL, *pair[::turn]) for pair in combinations(range(4), 2)]
        yield hand_run(table + sum(pairs, []), [n for k in range(4) for n in (10 ** k, None)])
    table = param(0, 2, 0, 15, FOUR_TWOS) + param(1, 2, 100, 115, FOUR_TWOS) + apply(FILL, 0, 1) + apply(KNOWN, 0)
    yield hand_run(table, [*parity_cells(16), *range(100, 116)])
    for rank in range(4):
        shape = (2, 1, 3)[:rank]
        cells, count = [5, None, 0, -7], prod(shape)
        table = param(0, 2, -9, 9, shape) + param(1, 2, -9, 9, shape) + stack(1, 0) + stack(0, 1, 1) + stack(1, 0, 1)
        table += sum((apply(KNOWN, k) for k in (0, 1, 2, 4)), []) + apply(FILL, 0, 1) + stack(0, 0, 0)
        for turn in (0, 1):
            yield hand_run(table, [cells[(k + turn) % 4] for k in range(2 * count)])
    table = param(0, 2, -9, 9, (2, 3)) + apply(KNOWN, 0) + node(CAST, {1: 1, 4: 2}) + reduce_node(2, 0, (0, 1))
    table += const(2, -9) + apply(WHERE, 1, 0, 4) + apply(FILL, 0, 4) + move(PAD, 0, (3, 3), (0, 0)) + apply(KNOWN, 7)
    yield hand_run(table, [1, None, 0, None, None, -9])


def three_lookups():
    """A lookup stops at each of the three, and at each of them under movements."""
    source = param(0, 2, 0, 9, (2, 3)) + move(FLIP, 0, (1, 0))
    for new in (apply(FILL, 1, 0), apply(FILL, 0, 1), apply(KNOWN, 1), stack(1, 0), stack(1, 1, 0)):
        table = source + new
        flags = (1, 1, 1) if new[0] == STACK else (1, 1)
        table += move(FLIP, 2, flags) + load(3, 4)
        yield from (Case('lookup', (table, *place), 'lookup of the three')
                    for place in ((2, 0), (2, 5), (4, 1), (3, 4)))
    table = source + stack(0, 1) + move(PAD, 2, (3, 2, 3), (1, 0, 0))
    yield from (Case('lookup', (table, *place), 'lookup of the three')
                for place in ((2, 11), (2, 12), (3, 5), (3, 6)))


def edition_cases():
    """Bytes of both editions by unpack, some by unpack and check in one call and as a listing; packed tables."""
    for turn, (data, room) in enumerate(EDITION_BYTES):
        yield Case('unpack', (data, room), 'edition')
        if turn % 3 == 1:
            yield Case('unpack_check', (data,), 'edition')
        if turn % 9 == 1:
            yield Case('listing', (data,), 'edition')
    tables = [five + new + tail for five in ([], const(2, 5))
              for new in (node(FILL), node(KNOWN), smallest(STACK, {})[17:])
              for tail in ([], const(2, 5))]
    yield from (to_pack(table, -(turn % 4), f'edition, room {-(turn % 4)}') for turn, table in enumerate(tables))
    yield from (to_pack(tables[-1], more, f'edition, room {more}') for more in (0, 1, 2))
    yield from (to_pack(node(LOAD), more, 'the last operation of the first edition') for more in (0, 2, -1))
    full = const(2, 5) * 255 + apply(KNOWN, 254)
    yield from (Case('unpack_check', (pack(full),), 'edition'), to_pack(full, -1, 'edition, 256 nodes'))


def second_edition(count, seed):
    rng = Random(f'second edition {seed}')
    several = [*three_checks(), *three_runs(), *three_lookups(), *edition_cases()]
    yield from chosen(rng, several, count, lambda case: case.call)


# ---------------------------------------------------------- tables to pack

# The words around 0, and the ends of those that are written in one to five bytes.
PACKED_ENDS = (0, 1, -1, 63, 64, -64, -65, 8191, 8192, -8192, -8193, LARGE - 1, LARGE, -LARGE, -LARGE - 1,
               2 ** 27 - 1, 2 ** 27, -2 ** 27, -2 ** 27 - 1, model.LEAST_WORD, model.GREATEST_WORD)
BEYOND = (model.LEAST_WORD - 1, model.GREATEST_WORD + 1, -BIG, BIG - 1)
UNUSED_WORDS = [[w for w in range(1, 17) if w not in used] for used in model.USED_WORDS]


def small_node(op):
    """A node of the operation whose used words all differ and are not 0."""
    return node(op, {w: (7 * op + w) * (-1) ** w for w in model.USED_WORDS[op]})


def set_node(op, word, value):
    """The same with one word set."""
    return [value if k == word else old for k, old in enumerate(small_node(op))]


def to_pack(table, more, note):
    """A table with a room so many bytes beside what it takes; where it is refused, beside six."""
    size = 6 if model.pack_refusal(table)[0] else len(pack(table))
    return Case('pack', (table, max(0, size + more)), f'pack: {note}')


def packed_words():
    """Every used word at each end; each operation alone with exact room and another."""
    for op, used in enumerate(model.USED_WORDS):
        table = []
        for turn in range(len(PACKED_ENDS)):
            table += node(op, {w: PACKED_ENDS[(turn + k) % len(PACKED_ENDS)] for k, w in enumerate(used)})
        yield to_pack(table, op % 3, f'ends, op {op}')
        yield from (to_pack(small_node(op), more, f'room {more}, op {op}') for more in (0, (-1, 4, -99)[op % 3]))
    every = sum((small_node(op) for op in range(OPERATIONS)), [])
    yield from (to_pack(every, more, f'room {more}, every operation') for more in (0, -1, 1))


def refused_words():
    """Every unused word not zero, every used word out of range, operations that are none, after up to two nodes."""
    odd = (1, -1, BIG - 1, -BIG, 2 ** 35)
    for op, used in enumerate(model.USED_WORDS):
        for turn, word in enumerate(UNUSED_WORDS[op]):
            before = small_node(turn) * (turn % 3)
            yield to_pack(before + set_node(op, word, odd[(op + turn) % 5]), 0, f'word {word} unused, op {op}')
        for turn in range(max(4, len(used))):
            before = small_node(turn) * (turn % 3)
            node_of = set_node(op, used[turn % len(used)], BEYOND[(turn + turn // 4) % 4])
            yield to_pack(before + node_of, 40, f'out of range, op {op}')
    for turn, op in enumerate((-1, UNKNOWN, BIG - 1, -BIG, 2 ** 32)):
        for nodes in (0, 1 + turn % 2):
            yield to_pack(const(1, 9) * nodes + node(op), 40, f'operation {op}')


def packed_lengths():
    """Lengths that are no plan, and the most nodes."""
    for length in (0, 1, 16, 17, 18, 33, 17 * 256 - 1, 17 * 256, 17 * 256 + 1, 17 * 257):
        yield to_pack((const(2, -9) * 257)[:length], 1, f'{length} words')
    yield Case('pack', ([], 0), 'pack: no words, no room')
    yield to_pack(const(2, -9) * 256, -1, '256 nodes, one byte short')
    yield to_pack(const(2, -9) * 255 + node(UNKNOWN), 0, 'the last of 256 nodes')
    yield to_pack(const(2, -9) * 128, 0, '128 nodes')


# Nodes by the refusal that each is due, some due two of them.
PACK_BREAKS = {2: [node(UNKNOWN), node(-1, {4: 1, 5: BIG - 1}), node(UNKNOWN, dict.fromkeys(range(1, 17), -BIG))],
               3: [set_node(CONST, 1, 1), set_node(ADD, 3, BIG - 1), node(CONST, {4: BIG - 1, 16: 1}),
                   node(LOAD, {2: -1, 6: -BIG}), node(WHERE, {1: 2 ** 34, 2: 2 ** 34, 3: 2 ** 34, 4: 2 ** 34})],
               25: [set_node(CONST, 4, BEYOND[0]), set_node(PAD, 16, BEYOND[1]), set_node(PARAM, 12, -BIG),
                    set_node(WHERE, 3, BIG - 1)]}


def packed_orders():
    """Two and three refusals that are due together: within a node, of nodes in turn, with 1 and with 14."""
    for number, nodes in PACK_BREAKS.items():
        for broken in nodes:
            yield Case('pack', (broken, 0), f'pack: {number} before 14')
            yield to_pack(broken + [0], 0, f'1 before {number}')
        for other, others in PACK_BREAKS.items():
            if other != number:
                yield to_pack(const(1, 9) + nodes[-1] + others[0], 30, f'{number} of a node before {other}')
    yield Case('pack', ([5], 0), 'pack: 1 before 14')
    yield to_pack(sum((nodes[0] for nodes in PACK_BREAKS.values()), []), 0, 'each in turn')
    yield to_pack(sum((nodes[0] for nodes in reversed(PACK_BREAKS.values())), []), 0, 'each in turn, backwards')


def packed_refused(rng):
    """Tables that a check refuses by each of 4 to 12: no such rule is asked."""
    every = [(rule, draft(op, DRAFTS[op][0], change)) for op in DRAFTS for rule, change in breaks_of(op)]
    packable = [(rule, table) for rule, table in every if model.pack_refusal(table)[0] == 0]
    for rule, table in chosen(rng, packable, 24, lambda item: item[0]):
        yield to_pack(table, 2, f'rule {rule} is not asked')
    yield to_pack(large(*[(LARGE,)] * 4) + const(0, 1), 2, 'rule 12 is not asked')


def random_words(rng, op):
    """Any words that a packed plan can hold in those that the operation uses."""
    return node(op, {w: model.word_of(rng.getrandbits(rng.randint(1, 35))) for w in model.USED_WORDS[op]})


def packs(count, seed):
    rng = Random(f'packs {seed}')
    several = [*packed_words(), *refused_words(), *packed_lengths(), *packed_orders(), *packed_refused(rng)]
    for turn in range(40):
        table = sum((random_words(rng, rng.randrange(OPERATIONS)) for _ in range(rng.randint(1, 6))), [])
        if turn % 4 == 3:
            table[rng.randrange(len(table))] = rng.choice((*BEYOND, 1, -1, UNKNOWN))
        several.append(to_pack(table, rng.choice((0, 0, -1, 3)), 'random'))
    rng.shuffle(several)
    yield from chosen(rng, several, count, lambda case: case.note)


# -------------------------------------------- numbers of one byte and of more

# 127, 128, 0 in two bytes, 16383, 2^32 − 1 and 2^35 − 1.
WRITTEN_ENDS = [bytes.fromhex(text) for text in ('7f', '8001', '8000', 'ff7f', 'ffffffff0f', 'ffffffff7f')]


def other_numbers(table):
    """Bytes, each once: the file of a table with each of its numbers in turn, from the count on, written as each of
    those; with the bytes after it, as the end of the bytes, and a byte short of that."""
    parts = [*map(number_bytes, packed_numbers(table))]
    count = 2 if parts[0] == b'\0' else 0
    found = {}
    for at in range(count, len(parts)):
        before, after = b''.join(parts[:at]), b''.join(parts[at + 1:])
        for written in WRITTEN_ENDS:
            found |= dict.fromkeys((before + written + after, before + written, before + written[:-1]))
    return [*found]


def short_numbers(count, seed):
    """By unpack, with room for one node, and by unpack and check in one call, in files of each edition."""
    rng = Random(f'short numbers {seed}')
    several = []
    for table in (const(2, 5), apply(FILL, 0, 0)):
        for data in other_numbers(table):
            several += [Case('unpack', (data, 17), 'another number'), Case('unpack_check', (data,), 'another number')]
    counts = [pack(const(2, 5) * (nodes - 1) + last) for nodes in (127, 128) for last in (const(2, 5), apply(KNOWN, 0))]
    several += [Case('unpack_check', (data[:len(data) - cut] + bytes(more),), 'another count')
                for data in counts for cut, more in ((0, 0), (1, 0), (0, 1))]
    yield from chosen(rng, several, count, lambda case: case.call)


GROUPS = {
    'valid plans': (valid_plans, 240), 'near misses': (near_misses, 150),
    'rule pairs': (rule_pairs, 150), 'edge words': (edge_words, 95),
    'intervals': (interval_cases, 108), 'limits': (limit_cases, 110),
    'buffers': (buffer_cases, 65), 'run inputs': (run_inputs, 100),
    'packed bytes': (packed_bytes, 190), 'packed plans': (packed_plans, 20),
    'lookups': (lookups, 108), 'listings': (listings, 30), 'by hand': (hand_cases, 340),
    'packs': (packs, 800), 'second edition': (second_edition, 340), 'short numbers': (short_numbers, 260),
}


def group(name, count, seed):
    return GROUPS[name][0](count, seed)


def all_cases(seed, scale=1):
    """The cases of all groups, each once."""
    met = set()
    for make, count in GROUPS.values():
        for case in make(int(count * scale), seed):
            asked = case.call, repr(case.args)
            if asked not in met:
                yield case
            met.add(asked)
