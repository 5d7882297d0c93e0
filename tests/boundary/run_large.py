"""Runs at the limits of elements, nodes and PARAMs, for test_run.py: a closed form stands for the model, which is too slow for them."""

from array import array
from collections import namedtuple

from cases import LARGE, apply, const, move, node, param, reduce_node, stack
from model import ADD, CAST, EXPAND, FILL, FLIP, KNOWN, LOAD, MAX, MUL, PAD, PERMUTE, RESHAPE, SHRINK, WHERE

BOOL, U8, I16, I32 = range(4)
SIDE = 1024
MOST = 4 * LARGE

# nodes: for each node a pair of arrays, its values ('q') and its flags ('B'), 0 and 0 for a gap.
LargeRun = namedtuple('LargeRun', 'note table values flags nodes')


def cells(values, flags=None):
    """A node's pair of arrays; all known where no flags are given."""
    values = array('q', values)
    flags = array('B', [1]) * len(values) if flags is None else array('B', flags)
    return (array('q', map(int.__mul__, values, flags)) if 0 in flags else values), flags


def with_gaps(count, every, first):
    """Flags with a gap at `first` and each `every` further."""
    flags = array('B', [1]) * count
    flags[first::every] = array('B', [0]) * len(range(first, count, every))
    return flags


def same_number(count, value):
    return array('q', [value]) * count, array('B', [1]) * count


def all_gaps(count):
    return array('q', [0]) * count, array('B', [0]) * count


def reversed_of(cells_of):
    return tuple(part[::-1] for part in cells_of)


def turned(part):
    """The transposed square of 1024 rows."""
    columns = array(part.typecode)
    for column in range(SIDE):
        columns += part[column::SIDE]
    return columns


def flip_add_permute():
    """Four nodes of 1048576 elements are 4194304: an element, the one from the other end, their sum, and that turned."""
    values = array('q', (k * 7919 % 2001 - 1000 for k in range(LARGE)))
    own = cells(values, with_gaps(LARGE, 11, 5))
    other = reversed_of(own)
    known = array('B', map(int.__and__, own[1], other[1]))
    added = cells(map(int.__add__, own[0], other[0]), known)
    table = param(0, I16, -1000, 1000, (SIDE, SIDE)) + move(FLIP, 0, (1, 1)) + apply(ADD, 0, 1) + move(PERMUTE, 2, (1, 0))
    return LargeRun('FLIP, ADD and PERMUTE', table, values, own[1], [own, other, added, tuple(map(turned, added))])


def wheres():
    """Three PARAMs of 1048576 elements and a WHERE, with gaps in each."""
    truth = array('q', (k // 3 % 2 for k in range(LARGE)))
    second, third = array('q', range(-LARGE, 0)), array('q', range(1, LARGE + 1))
    flags = [with_gaps(LARGE, every, every - 1) for every in (13, 7, 5)]
    sides = [cells(*pair) for pair in zip((truth, second, third), flags)]
    value = array('q', (b if c else d for c, b, d in zip(truth, second, third)))
    known = array('B', (k and (m if c else n) for c, k, m, n in zip(truth, *flags)))
    table = param(0, BOOL, 0, 1, (LARGE,)) + param(1, I32, -LARGE, -1, (LARGE,)) + param(2, I32, 1, LARGE, (LARGE,)) + apply(WHERE, 0, 1, 2)
    return LargeRun('WHERE', table, truth + second + third, flags[0] + flags[1] + flags[2], [*sides, cells(value, known)])


def copies():
    """The same elements under four shapes and types."""
    values = array('q', (k % 256 for k in range(LARGE)))
    own = cells(values, with_gaps(LARGE, LARGE - 1, 0))
    table = param(0, I16, 0, 255, (LARGE,)) + move(RESHAPE, 0, (32, 32, 32, 32)) + node(CAST, {1: 1, 4: U8}) + node(LOAD, {1: 2, 6: 255})
    return LargeRun('RESHAPE, CAST and LOAD', table, values, own[1], [own] * 4)


def turned_over():
    """A PERMUTE of four axes of 32 that turns them over."""
    values = array('q', range(LARGE))
    places = [(d << 15) + (c << 10) + (b << 5) + a for a in range(32) for b in range(32) for c in range(32) for d in range(32)]
    own = cells(values, with_gaps(LARGE, 1021, 7))
    other = array('q', map(own[0].__getitem__, places)), array('B', map(own[1].__getitem__, places))
    return LargeRun('PERMUTE of rank 4', param(0, I32, 0, LARGE, (32,) * 4) + move(PERMUTE, 0, (3, 2, 1, 0)), values, own[1], [own, other])


def expands():
    """One number in 1 + 1048576 + 1048576 + 1048576 + 1048575 elements, 4194304 in all."""
    table = param(0, I32, -2 ** 31, 2 ** 31 - 1, (1, 1)) + move(EXPAND, 0, (SIDE, SIDE)) + move(EXPAND, 0, (LARGE, 1)) + apply(MAX, 0, 1)
    table += move(EXPAND, 0, (1, LARGE - 1))
    shares = (1, LARGE, LARGE, LARGE, LARGE - 1)
    yield LargeRun('EXPAND', table, array('q', [-2 ** 31]), array('B', [1]), [same_number(share, -2 ** 31) for share in shares])
    yield LargeRun('EXPAND of a gap', table, array('q', [5]), array('B', [0]), [all_gaps(share) for share in shares])


def pads():
    """A number in the last of 1048576 places, found again."""
    padded = all_gaps(LARGE)
    padded[0][-1], padded[1][-1] = -7, 1
    one = same_number(1, -7)
    table = param(0, I16, -9, 9, (1,)) + move(PAD, 0, (LARGE,), (LARGE - 1,)) + move(SHRINK, 1, (1,), (LARGE - 1,)) + move(FLIP, 1, (1,))
    return LargeRun('PAD, SHRINK and FLIP', table, array('q', [-7]), array('B', [1]), [one, padded, one, reversed_of(padded)])


def products():
    """1024 numbers by 1024 numbers, both ways."""
    first, second = array('q', range(-512, 512)), array('q', range(1, SIDE + 1))
    flags = [with_gaps(SIDE, 3, 2), with_gaps(SIDE, 100, 99)]
    rows = cells((a * b for a in first for b in second), (a & b for a in flags[0] for b in flags[1]))
    table = param(0, I32, -512, 511, (SIDE, 1)) + param(1, I32, 1, SIDE, (SIDE,)) + apply(MUL, 0, 1) + apply(MUL, 1, 0)
    nodes = [cells(first, flags[0]), cells(second, flags[1]), rows, rows]
    return LargeRun('MUL of 1024x1 and 1024', table, first + second, flags[0] + flags[1], nodes)


def reductions():
    """Element k is k mod 4096 − 2048: sums and greatest of all, of columns and of rows; then with the last element a gap."""
    values = array('q', (k % 4096 - 2048 for k in range(LARGE)))
    ways = ((0, (1, 1)), (0, (1, 0)), (0, (0, 1)), (1, (1, 1)), (1, (1, 0)), (1, (0, 1)))
    table = param(0, I32, -2048, 2047, (SIDE, SIDE)) + sum((reduce_node(0, *way) for way in ways), [])
    results = ([-524288], [1024 * j - 524288 for j in range(SIDE)], [1048576 * (i % 4) - 1573376 for i in range(SIDE)],
               [2047], [1024 + j for j in range(SIDE)], [1024 * (i % 4) - 1025 for i in range(SIDE)])
    for gap in (False, True):
        flags = with_gaps(LARGE, LARGE, LARGE - 1) if gap else array('B', [1]) * LARGE
        nodes = [cells(result, [1] * (len(result) - 1) + [0 if gap else 1]) for result in results]
        yield LargeRun(f'REDUCE of 1048576{" with a gap" * gap}', table, values, flags, [cells(values, flags), *nodes])


def sixteen_params():
    """16 PARAMs of 262144 elements are 4194304: all inputs, end to end."""
    share = MOST // 16
    values, flags = array('q', range(MOST)), with_gaps(MOST, 65537, 3)
    table = sum((param(k, I32, k * share, (k + 1) * share - 1, (share,)) for k in range(16)), [])
    own = cells(values, flags)
    nodes = [tuple(part[k * share:(k + 1) * share] for part in own) for k in range(16)]
    return LargeRun('16 PARAMs', table, values, flags, nodes)


def many_nodes():
    """256 nodes of 16384 elements are 4194304: each is its source reversed, but for a CONST's broadcast in between."""
    share = MOST // 256
    values = array('q', range(share))
    own = cells(values, with_gaps(share, 1000, 999))
    table = param(0, I16, 0, share - 1, (share,)) + sum((move(FLIP, k, (1,)) for k in range(255)), [])
    yield LargeRun('255 FLIPs', table, values, own[1], [own, reversed_of(own)] * 128)
    one = same_number(1, 1)
    nodes = [same_number(1, 0), one, *(same_number(1, k) for k in range(1, 255))]
    table = param(0, I16, 0, 0, ()) + const(I16, 1) + sum((apply(ADD, 0 if k == 2 else k - 1, 1) for k in range(2, 256)), [])
    yield LargeRun('254 ADDs', table, array('q', [0]), array('B', [1]), nodes)


def filled(own, other):
    """The cells of FILL: the own number where it is known, else the other."""
    values = array('q', (a if k else b for a, k, b in zip(own[0], own[1], other[0])))
    return values, array('B', map(int.__or__, own[1], other[1]))


def flags_of(cells_of):
    """The cells of KNOWN."""
    return cells(cells_of[1])


def fills():
    """1048576 cells filled by a row of 1024, and whether they are known then; a column of 1024 and such a row, each filled by the other."""
    values, row = array('q', (k * 7919 % 2001 - 1000 for k in range(LARGE))), array('q', range(-512, 512))
    flags, row_flags = with_gaps(LARGE, 3, 1), with_gaps(SIDE, 5, 4)
    own, other = cells(values, flags), cells(row, row_flags)
    result = filled(own, tuple(part * SIDE for part in other))
    table = param(0, I16, -1000, 1000, (SIDE, SIDE)) + param(1, I16, -512, 511, (SIDE,)) + apply(FILL, 0, 1) + apply(KNOWN, 2)
    yield LargeRun('FILL by a row, and KNOWN', table, values + row, flags + row_flags, [own, other, result, flags_of(result)])
    column, column_flags = array('q', range(1, SIDE + 1)), with_gaps(SIDE, 2, 0)
    first = cells(column, column_flags)
    spread = tuple(array(part.typecode, (cell for cell in part for _ in range(SIDE))) for part in first)
    beside = tuple(part * SIDE for part in other)
    table = param(0, I16, 1, SIDE, (SIDE, 1)) + param(1, I16, -512, 511, (1, SIDE)) + apply(FILL, 0, 1) + apply(FILL, 1, 0)
    yield LargeRun('FILL of 1024x1 and 1x1024', table, column + row, column_flags + row_flags,
                   [first, other, filled(spread, beside), filled(beside, spread)])


def joined(*parts):
    return tuple(sum(part[1:], part[0]) for part in zip(*parts))


def stacks():
    """Two of 512x1024 joined, whether that is known, and filled by one of them: 4194304 elements; three of 349525, which make 1048575."""
    half = LARGE // 2
    values, flags = array('q', range(LARGE)), with_gaps(LARGE, 7, 3)
    own = cells(values, flags)
    parts = [tuple(part[k * half:(k + 1) * half] for part in own) for k in range(2)]
    turned_round = joined(parts[1], parts[0])
    table = sum((param(k, I32, 0, LARGE, (half // SIDE, SIDE)) for k in range(2)), []) + stack(1, 0) + apply(KNOWN, 2) + apply(FILL, 2, 0)
    yield LargeRun('STACK of two of 512x1024', table, values, flags,
                   [*parts, turned_round, flags_of(turned_round), filled(turned_round, joined(parts[0], parts[0]))])
    third = LARGE // 3
    values, flags = array('q', range(3 * third)), with_gaps(3 * third, 11, 0)
    own = cells(values, flags)
    parts = [tuple(part[k * third:(k + 1) * third] for part in own) for k in range(3)]
    table = sum((param(k, I32, 0, LARGE, (third,)) for k in range(3)), []) + stack(2, 0, 1) + stack(0, 1, 2)
    yield LargeRun('STACK of three of 349525', table, values, flags, [*parts, joined(parts[2], parts[0], parts[1]), own])


def large_runs():
    for make in (flip_add_permute, wheres, copies, turned_over, expands, pads, products, reductions, fills, stacks,
                 sixteen_params, many_nodes):
        made = make()
        yield from (made,) if isinstance(made, LargeRun) else made
