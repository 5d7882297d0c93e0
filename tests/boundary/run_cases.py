"""Accepted plans with inputs for test_run.py: random ones, and every way of every movement, reduction and broadcast at rank 4."""

from collections import namedtuple
from itertools import permutations, product
from math import prod
from random import Random

import cases
import model
from cases import BIG, OPERATIONS, apply, const, move, node, param, reduce_node, stack
from model import (ADD, AND, CAST, CMPLT, CMPNE, EXPAND, FILL, FLIP, IDIV, KNOWN, LOAD, MAX, MOD, MUL, NEW, OR, PAD, PARAM, PERMUTE, RESHAPE, SHRINK, WHERE)

I16, I32 = 2, 3
WIDE = 1000
BASE = (2, 3, 2, 2)
NO_READING = -32768
GARBAGE = (-BIG, BIG - 1, 0, 1, -1, 2 ** 32, 32768, NO_READING)

Run = namedtuple('Run', 'note table values flags')


class Chain(cases.Plan):
    """A plan of up to 256 nodes; only the new node is checked."""

    def __init__(self, most_elements, widest=40):
        super().__init__(most_elements)
        self.widest = widest

    def add(self, words):
        if words is None or len(self.records) == model.MOST_NODES:
            return False
        fresh = model.Node(words, self.records, len(self.params()))
        if any(broken(fresh) for _, broken in model.NODE_RULES):
            return False
        device = max(model.result_devices(fresh), default=0)
        record = model.Record(model.result_dtype(fresh), device, *model.result_interval(fresh), model.result_extents(fresh))
        if prod(record.extents) > self.widest or self.total() + prod(record.extents) > self.most:
            return False
        self.table, self.records = self.table + words, [*self.records, record]
        return True


class Late(Random):
    """Picks a source among the last nodes more often than not, which makes long chains of sources."""

    def randrange(self, start, *stop):
        if not stop and self.random() < 0.7:
            return max(0, start - self.choice((1, 1, 1, 2, 3)))
        return super().randrange(start, *stop)


def depth(table):
    """The longest chain of sources."""
    lengths = []
    for first in range(0, len(table), 17):
        sources = [table[first + word] for word in model.source_words(table[first:first + 17])]
        lengths.append(1 + max((lengths[source] for source in sources), default=0))
    return max(lengths)


def computed_in_a_row(table, records):
    """Each binary operation and WHERE: how many of them stand one after another up to this one, and how many cells it has."""
    length = 0
    for k, record in enumerate(records):
        length = length + 1 if ADD <= table[17 * k] <= WHERE else 0
        if length:
            yield length, prod(record.extents)


def params_of(table):
    records = model.verdict(table)[1]
    return [record for k, record in enumerate(records) if table[17 * k] == PARAM]


def inputs_of(rng, table, gap_share):
    """Values within their limits, with garbage under the gaps."""
    values, flags = [], []
    for record in params_of(table):
        for _ in range(prod(record.extents)):
            known = rng.random() >= gap_share
            values.append(rng.randint(record.low, record.high) if known else rng.choice(GARBAGE))
            flags.append(int(known))
    return values, flags


def some_runs(rng, note, table, shares=(0, 0.1, 0.5)):
    for share in shares:
        yield Run(note, table, *inputs_of(rng, table, share))


# ---------------------------------------------------------------- random plans

def random_runs(rng, count):
    """Every operation at every rank in turn, with no, few and many gaps."""
    for turn in range(count):
        op, rank = turn % OPERATIONS, (turn // OPERATIONS) % 5
        plan = cases.make_plan(rng, op, rank)
        yield Run(f'random {turn}', plan.table, *cases.random_inputs(rng, plan, rng.choice((0, 0.1, 0.3, 0.6))))


def chain_runs(rng, count):
    """Long plans with long chains of sources."""
    late = Late(rng.randrange(2 ** 32))
    for turn in range(count):
        plan, nodes = Chain(1500), rng.choice((20, 40, 80, 256))
        base = [late.choice((1, 2, 2, 3)) for _ in range(turn % 5)]
        plan.add(const(I16, 3))
        for _ in range(late.randint(2, 16)):
            dtype = late.choice((0, 1, I16, I16, I32, I32))
            low, high = cases.random_interval(late, dtype)
            extents = [extent if late.random() < 0.7 else 1 for extent in base][late.choice((0, 0, 0, 1, 2)):]
            plan.add(param(len(plan.params()), dtype, low, high, extents))
        for _ in range(6 * nodes):
            if len(plan.records) >= nodes:
                break
            plan.add(cases.propose(late, plan, late.choice(range(OPERATIONS)), base))
        yield Run(f'chain {turn}', plan.table, *inputs_of(rng, plan.table, rng.choice((0, 0.02, 0.1))))


def computed_plan(late, half, nodes, others):
    """Binary operations and WHEREs of 2 * half cells in two shapes one after another, each on those before it; few other nodes between them."""
    plan = Chain(nodes * 2 * half, 2 * half)
    kinds = [(I16, -9, 9), (I16, 2, 9), (0, 0, 1)]
    for slot, (shape, kind) in enumerate(product(((2 * half,), (2, half), ()), kinds)):
        plan.add(param(slot, *kind, shape))
    for _ in range(8 * nodes):
        op = late.choice(others) if others and late.random() < 0.05 else late.choice(range(ADD, WHERE + 1))
        plan.add(cases.propose(late, plan, op, (2, half)))
    return plan.table


def computed_runs(rng, count):
    """The same with rows of a few cells, and of about 1024 cells, the part of a row that is done at once, and twice as many."""
    late = Late(rng.randrange(2 ** 32))
    for turn in range(count):
        half = (1, 512, 2, 1023, 4, 1024, 513, 1025)[turn % 8]
        nodes = {1: 120, 2: 120, 4: 120, 512: 60, 513: 60}.get(half, 45) // (1 + 2 * (turn // 8 % 2))
        table = computed_plan(late, half, nodes, [] if turn % 3 else [FLIP, CAST, LOAD, 0, *NEW])
        note, share = f'computed {turn}, rows of {half} and {2 * half}', rng.choice((0, 0.001, 0.1))
        yield Run(note, table, *inputs_of(rng, table, share))
        yield Run(note + ', gaps at edges', table, *at_edges(rng, table))


# --------------------------------------------------- every way of the movements

def numbered(shape, slot=0):
    return param(slot, I16, -WIDE, WIDE, shape)


def movement_tables():
    """(note, table): one PARAM and each way to move it."""
    for shape in (BASE, (1, 3, 2, 4), (3, 1, 2, 1), (2, 3, 4), (3, 2), (4,), ()):
        rank = len(shape)
        yield f'PERMUTE of {shape}', numbered(shape) + sum((move(PERMUTE, 0, turn) for turn in permutations(range(rank))), [])
        yield f'FLIP of {shape}', numbered(shape) + sum((move(FLIP, 0, flags) for flags in product((0, 1), repeat=rank)), [])
    shapes = [shape for rank in range(1, 5) for shape in product((1, 2, 3, 4, 6, 8, 12, 24), repeat=rank) if prod(shape) == prod(BASE)]
    yield 'RESHAPE to every shape', numbered(BASE) + sum((move(RESHAPE, 0, shape) for shape in shapes), [])
    yield 'RESHAPE of one element', numbered(()) + sum((move(RESHAPE, rank, (1,) * rank) for rank in (0, 1, 2, 3, 4)), []) + move(RESHAPE, 5, ())
    yield 'PERMUTE twice', numbered(BASE) + sum((move(PERMUTE, k, turn) for k, turn in enumerate(permutations(range(4)))), [])


def offset_tables():
    """(note, table): PAD and SHRINK with offsets at both ends of each axis, and within."""
    for rank in range(5):
        inner, outer = (2, 1, 3, 2)[:rank], (3, 3, 4, 3)[:rank]
        ends = list(product(*((0, o - i) for i, o in zip(inner, outer))))
        yield f'PAD to {outer}', numbered(inner) + sum((move(PAD, 0, outer, offsets) for offsets in ends), [])
        yield f'SHRINK to {inner}', numbered(outer) + sum((move(SHRINK, 0, inner, offsets) for offsets in ends), [])
        there_and_back = [move(PAD, 0, outer, offsets) + move(SHRINK, 2 * k + 1, inner, offsets) for k, offsets in enumerate(ends)]
        yield f'PAD to {outer} and SHRINK', numbered(inner) + sum(there_and_back, [])
    every = list(product(range(3), range(4)))
    yield 'PAD at every offset', numbered((2, 2)) + sum((move(PAD, 0, (4, 5), offsets) for offsets in every), [])
    yield 'SHRINK at every offset', numbered((4, 5)) + sum((move(SHRINK, 0, (2, 2), offsets) for offsets in every), [])


def partly_one(shape):
    """The shape with each axis kept or 1."""
    return list(product(*((1, extent) for extent in shape)))


def expand_tables():
    """(note, table): every choice of axes, at rank 4 with 16 PARAMs."""
    for rank in range(5):
        target = BASE[:rank]
        sources = partly_one(target)
        table = sum((numbered(shape, slot) for slot, shape in enumerate(sources)), [])
        yield f'EXPAND to {target}', table + sum((move(EXPAND, k, target) for k in range(len(sources))), [])
    yield 'EXPAND step by step', numbered((1, 1, 1, 1)) + sum((move(EXPAND, k, BASE[:k + 1] + (1,) * (3 - k)) for k in range(4)), [])


def movement_runs(rng):
    for note, table in (*movement_tables(), *offset_tables(), *expand_tables()):
        yield from some_runs(rng, note, table)


# -------------------------------------------------------- reductions, broadcasts

def reduce_runs(rng):
    """Every choice of flags at every rank, sum and greatest, with a gap at each place in turn."""
    for shape in (BASE, (3, 1, 2, 1), (2, 3, 2), (2, 3), (4,), ()):
        flags = list(product((0, 1), repeat=len(shape)))
        table = numbered(shape) + sum((reduce_node(0, number, row) for number in (0, 1) for row in flags), [])
        yield from some_runs(rng, f'REDUCE of {shape}', table)
        yield from some_runs(rng, f'REDUCE of {shape}, below zero', param(0, I16, -WIDE, -1, shape) + table[17:], (0, 0.1))
        for gap in range(prod(shape)):
            values, known = inputs_of(rng, table, 0)
            values[gap], known[gap] = rng.choice(GARBAGE), 0
            yield Run(f'REDUCE of {shape} with gap {gap}', table, values, known)


BINARY_LIMITS = {ADD: (I16, (-WIDE, WIDE), (-WIDE, WIDE)), MUL: (I32, (-WIDE, WIDE), (-WIDE, WIDE)), MAX: (I16, (-WIDE, WIDE), (-WIDE, WIDE)),
                 IDIV: (I16, (-WIDE, WIDE), (-9, -1)), MOD: (I16, (-WIDE, WIDE), (2, 99)), CMPLT: (I16, (-3, 3), (-3, 3)),
                 CMPNE: (I16, (-1, 1), (-1, 1)), AND: (0, (0, 1), (0, 1)), OR: (0, (0, 1), (0, 1)), FILL: (I16, (-WIDE, WIDE), (-WIDE, WIDE))}
BROADCASTING = [shape for rank in range(5) for shape in partly_one(BASE[4 - rank:])]


def broadcast_runs(rng, wheres):
    """A binary operation, and FILL, on each pair of shapes that meet in 2x3x2x2, and some WHEREs on three of them."""
    for turn, (first, second) in enumerate(product(BROADCASTING, repeat=2)):
        for op in (model.BINARY[turn % len(model.BINARY)], FILL):
            dtype, *limits = BINARY_LIMITS[op]
            table = param(0, dtype, *limits[0], first) + param(1, dtype, *limits[1], second) + apply(op, 0, 1)
            yield from some_runs(rng, f'operation {op} on {first} and {second}', table, (rng.choice((0, 0.1, 0.4)),))
    for _ in range(wheres):
        condition, second, third = rng.choices(BROADCASTING, k=3)
        table = param(0, 0, 0, 1, condition) + param(1, I16, -WIDE, WIDE, second) + param(2, I16, -WIDE, WIDE, third) + apply(WHERE, 0, 1, 2)
        yield from some_runs(rng, f'WHERE on {condition}, {second}, {third}', table, (rng.choice((0, 0.1, 0.4)),))


def known_runs(rng):
    """KNOWN of every such shape, its cells counted by every choice of axes, and chosen by."""
    for shape in BROADCASTING:
        table = numbered(shape) + apply(KNOWN, 0) + node(CAST, {1: 1, 4: I16}) + const(I16, -1) + apply(WHERE, 1, 0, 3) + apply(FILL, 0, 3) + apply(KNOWN, 1)
        table += sum((reduce_node(2, 0, flags) for flags in product((0, 1), repeat=len(shape))), [])
        yield from some_runs(rng, f'KNOWN of {shape}', table)


def stack_runs(rng):
    """Every two and every three of three PARAMs of one shape, of each rank that a STACK takes; and what is made of them joined again."""
    for shape in ((), (1,), (4,), (1, 3), (2, 1), (2, 3), (2, 1, 3), (1, 1, 1), (2, 3, 2)):
        table = sum((numbered(shape, slot) for slot in range(3)), [])
        several = [sources for number in (2, 3) for sources in product(range(3), repeat=number)]
        yield from some_runs(rng, f'STACK of {shape}', table + sum((stack(*sources) for sources in several), []))
        made = apply(FILL, 0, 1) + move(FLIP, 1, [1] * len(shape)) + node(LOAD, {1: 2, 6: 1})
        yield from some_runs(rng, f'STACK of what is made of {shape}', table + made + stack(3, 4) + stack(5, 3, 4) + apply(KNOWN, 6) + apply(KNOWN, 7))


def at_edges(rng, table):
    """Gaps at both ends of each PARAM and about every 1024 cells of it."""
    values, flags = inputs_of(rng, table, 0)
    start = 0
    for record in params_of(table):
        count = prod(record.extents)
        for k in range(count):
            if (k + 1) % 1024 < 2 or k in (0, count - 1):
                values[start + k], flags[start + k] = rng.choice(GARBAGE), 0
        start += count
    return values, flags


def long_runs(rng):
    """Every binary operation, WHERE and the three of the second edition on rows about as long as what is done at once: eight cells, 1024 cells."""
    for n, (first, second) in product((7, 8, 9, 1023, 1024, 1025, 2049), (('n', 'n'), ('n', ''), ('', 'n'), ('2n', 'n'), ('2n', '2'))):
        shapes = [{'': (), 'n': (n,), '2n': (2, n), '2': (2, 1)}[shape] for shape in (first, second)]
        table = param(0, I16, -WIDE, WIDE, shapes[0]) + param(1, I16, 2, 9, shapes[1]) + param(2, I16, -WIDE, WIDE, shapes[1])
        table += param(3, 0, 0, 1, shapes[0]) + param(4, 0, 0, 1, shapes[1])
        table += sum((apply(op, 0, 1) for op in (ADD, MAX, IDIV, MOD, CMPLT, CMPNE)), []) + node(CAST, {1: 0, 4: I32}) + node(CAST, {1: 1, 4: I32})
        table += apply(MUL, 11, 12) + apply(AND, 3, 4) + apply(OR, 3, 4) + apply(WHERE, 3, 1, 2) + apply(WHERE, 4, 0, 5)
        table += apply(FILL, 0, 1) + apply(FILL, 2, 0) + apply(KNOWN, 0) + apply(KNOWN, 18) + stack(0, 0) + stack(1, 2, 1)
        note = f'rows of {n}: {shapes[0]} and {shapes[1]}'
        yield from some_runs(rng, note, table, (0, 0.3) if n < 10 else (0.002,))
        yield Run(note + ', gaps at edges', table, *at_edges(rng, table))


# -------------------------------------------------------------- number by number

def power_runs():
    """IDIV and MOD of a row by one cell: each power of two, its neighbours, their opposites and a gap."""
    low, high = -2 ** 31, 2 ** 31 - 1
    row = [low, low + 1, -65537, -65536, -65535, -4, -3, -2, -1, 0, 1, 2, 3, 4, 65535, 65536, 65537, high - 1, high, None]
    powers = [2 ** k for k in range(31)]
    lists = powers, [*(p - 1 for p in powers[2:]), high], [p + 1 for p in powers[1:]], [*(-p for p in powers[1:]), low]
    for op, divisors in product((IDIV, MOD), lists):
        table = param(0, I32, low, high, (len(row),)) + param(1, I32, 1, 2 ** 30, ()) + apply(op, 0, 1)
        for k, divisor in enumerate(divisors):
            table += const(I32, divisor) + apply(op, 0, 2 * k + 3)
        for gap in (4, None):
            yield Run(f'operation {op} of a row by {divisors[:2]}..', *cases.hand_run(table, [*row, gap]).args[:3])


def each_with_each(op, dtype, first, second):
    """Two PARAMs that hold the numbers, None for a gap, crossed by a binary operation."""
    ends = [(min(n for n in numbers if n is not None), max(n for n in numbers if n is not None)) for numbers in (first, second)]
    table = param(0, dtype, *ends[0], (len(first), 1)) + param(1, dtype, *ends[1], (len(second),)) + apply(op, 0, 1)
    return cases.hand_run(table, [*first, *second]).args[:3]


def number_runs():
    """Every sign against every sign, the ends of the types, and gaps on each side."""
    dividends, low, high = [*range(-9, 10), None], -2 ** 31, 2 ** 31 - 1
    for op in (IDIV, MOD):
        for divisors in ([1, 2, 3, 4, 5, 9, 10, None], [-1, -2, -3, -4, -5, -9, -10, None]):
            yield Run(f'operation {op} by {divisors}', *each_with_each(op, I16, dividends, divisors))
        ends = [low, low + 1, -46341, -2, -1, 0, 1, 2, 46341, high - 1, high, None]
        yield Run(f'operation {op} at the ends', *each_with_each(op, I32, ends, [1, 2, 3, 65536, high - 1, high, None]))
        yield Run(f'operation {op} at the ends', *each_with_each(op, I32, ends[1:], [low, low + 1, -65536, -3, -2, -1, None]))
        yield Run(f'operation {op} of u8', *each_with_each(op, 1, [0, 1, 127, 128, 255, None], [1, 2, 127, 128, 255, None]))
    i16_ends = [-32767, -32766, -1, 0, 1, 32766, 32767, None]
    yield Run('ADD up to the ends of i16', *each_with_each(ADD, I16, [-16384, -1, 0, 16383, None], [-16383, 0, 1, 16384, None]))
    yield Run('IDIV at the ends of i16', *each_with_each(IDIV, I16, i16_ends, [-32767, -32766, -2, -1, None]))
    yield Run('IDIV at the ends of i16', *each_with_each(IDIV, I16, i16_ends, [1, 2, 32766, 32767, None]))
    yield Run('MOD at the ends of i16', *each_with_each(MOD, I16, i16_ends, [-32767, -32766, -2, -1, None]))
    yield Run('MOD at the ends of i16', *each_with_each(MOD, I16, i16_ends, [1, 2, 32766, 32767, None]))
    for op, dtype, numbers in ((ADD, I16, [-16383, -1, 0, 1, 16383, None]), (ADD, I32, [-2 ** 30, -1, 0, 2 ** 30 - 1, None]),
                               (MAX, I16, i16_ends), (CMPLT, I16, i16_ends), (CMPNE, I16, i16_ends), (MAX, I32, [NO_READING, -32767, 0, None]),
                               (CMPLT, I32, [NO_READING, -32767, 0, None]), (CMPNE, I32, [NO_READING, -32767, 0, None]),
                               (ADD, 1, [0, 1, 127, None]), (MUL, I32, [-46340, -2, -1, 0, 1, 46340, None]), (MUL, 1, [0, 1, 15, None]),
                               (MAX, I32, [low, -1, 0, high, None]),
                               (CMPLT, I32, [low, low + 1, -1, 0, 1, high, None]), (CMPNE, I32, [low, -1, 0, 1, high, None]),
                               (CMPLT, 1, [0, 1, 254, 255, None]), (CMPNE, 0, [0, 1, None]), (AND, 0, [0, 1, None]), (OR, 0, [0, 1, None]),
                               (FILL, 0, [0, 1, None]), (FILL, 1, [0, 1, 254, 255, None]), (FILL, I16, i16_ends), (FILL, I32, [low, -1, 0, 1, high, None])):
        yield Run(f'operation {op} each with each', *each_with_each(op, dtype, numbers, numbers))
    table = param(0, 0, 0, 1, (3, 1, 1)) + param(1, I32, low, high, (3, 1)) + param(2, I32, low, high, (3,)) + apply(WHERE, 0, 1, 2)
    yield Run('WHERE each with each', *cases.hand_run(table, [0, 1, None, low, 5, None, high, None, 6]).args[:3])
    table = param(0, 0, 0, 1, (3, 1, 1)) + param(1, I16, -32767, 32767, (4, 1)) + param(2, I16, -32767, 32767, (4,)) + apply(WHERE, 0, 1, 2)
    yield Run('WHERE at the ends of i16', *cases.hand_run(table, [0, 1, None, -32767, 5, None, 32767, 32767, None, 6, -32767]).args[:3])
    table = param(0, I16, -4681, 4681, (2, 7)) + reduce_node(0, 0, (0, 1)) + reduce_node(0, 1, (0, 1))
    yield Run('sums at the ends of i16', *cases.hand_run(table, [-4681] * 7 + [4681] * 7).args[:3])
    table = param(0, I32, 0, 1, (3,)) + sum((node(CAST, {1: k, 4: dtype}) for k, dtype in enumerate((0, 1, 2, 3, 0, 3, 2, 1, 0))), [])
    yield Run('CAST to every type', *cases.hand_run(table + node(LOAD, {1: 9, 6: 255}), [0, 1, None]).args[:3])


# -------------------------------------------------------------- no reading

# Limits of i16 that come as near to −32768 as they can, and others; limits of i32 that hold it, and two that do not.
NO_READING_LIMITS = {I16: ((-32767, 32767), (-32767, -32767), (-32767, 0), (-9, 9), (0, 32767)),
                     I32: ((-2 ** 31, 2 ** 31 - 1), (NO_READING, NO_READING), (NO_READING, 9), (-32767, 32767), (-9, 9))}
# What is done at positions of the PARAMs of i16, in order: −32768 known, under a gap or under a bad flag, or another fault.
NO_READING_WAYS = (('known',), ('known', 'known'), ('gap',), ('gap', 'gap', 'gap'), ('gap', 'known'), ('known', 'gap'), ('flag',), ('known', 'flag'), ('flag', 'known'),
                   ('known', 15), ('known', 16), (15, 'known'), (16, 'known'), ('gap', 15), ('gap', 16), ('gap', 'known', 16), ('gap', 15, 'known'))


def no_reading_plan(rng):
    """PARAMs of i16 and i32 in turn with such limits, three cells or more of each, and some nodes on them."""
    plan, base = Chain(300), (rng.randint(3, 4), rng.randint(1, 2))
    first = rng.randrange(2)
    for slot in range(rng.randint(2, 4)):
        dtype = (I16, I32)[(first + slot) % 2]
        plan.add(param(slot, dtype, *rng.choice(NO_READING_LIMITS[dtype]), base))
    for _ in range(rng.randint(2, 8)):
        plan.add(cases.propose(rng, plan, rng.randrange(2, OPERATIONS), base))
    return plan


def positions_of(plan, dtype):
    """The positions of the PARAMs of a type among all inputs."""
    own = [record.dtype for record in plan.params() for _ in range(prod(record.extents))]
    return [position for position, found in enumerate(own) if found == dtype]


def no_reading_inputs(rng, plan, what):
    """Good inputs, −32768 at some positions of i32, known where the limits hold it; then what is done at positions of i16."""
    values, flags = cases.random_inputs(rng, plan)
    limits = [record for record in plan.params() for _ in range(prod(record.extents))]
    for position in rng.sample(positions_of(plan, I32), 3):
        values[position], flags[position] = NO_READING, int(limits[position].low <= NO_READING)
    for done, position in zip(what, sorted(rng.sample(positions_of(plan, I16), len(what)))):
        if done in (15, 16):
            cases.spoil(rng, plan, values, flags, done, position)
        else:
            values[position], flags[position] = NO_READING, {'known': 1, 'gap': 0, 'flag': rng.choice((2, 255))}[done]
    return values, flags


def no_reading_runs(rng, count):
    """(what is done, run): each of NO_READING_WAYS in turn; some of the runs are refused."""
    for turn in range(count):
        what, plan = NO_READING_WAYS[turn % len(NO_READING_WAYS)], no_reading_plan(rng)
        yield what, Run(f'no reading {turn}: {what}', plan.table, *no_reading_inputs(rng, plan, what))


def by_hand():
    """The runs by hand of tests/model."""
    for case in (*cases.elementwise_runs(), *cases.movement_runs(), *cases.three_runs()):
        yield Run(case.note, *case.args[:3])
    slots = sum((param(k, I32, -k, k, ((k % 3) + 1,)) + const(I32, k) for k in range(16)), [])
    yield Run('16 PARAMs between CONSTs', slots, [v for k in range(16) for v in ([k, -k, 0][:k % 3 + 1])], [1] * sum(k % 3 + 1 for k in range(16)))
    yield Run('256 CONSTs', sum((const(I16, 100 * k) for k in range(256)), []), [], [])


def fixed_runs(rng):
    yield from by_hand()
    yield from number_runs()
    yield from power_runs()
    yield from movement_runs(rng)
    yield from reduce_runs(rng)
    yield from broadcast_runs(rng, 600)
    yield from known_runs(rng)
    yield from stack_runs(rng)
    yield from long_runs(rng)
