#!/usr/bin/env python3
"""Writes the example data of the demo beside this file: the joining plan bay.lup, the strips of eleven machines, as one is dead, the field of zones,
the zeros that version one took for a dead machine, and the field of an hour before, which has a few gaps of its own.

usage: make_bay.py [DIRECTORY]

The bay is 16 rows of 38 columns. Strip k has the columns 3 k to 3 k + 4, so it shares two with the next strip. The field of zones says which strips have
a column: zone 2 k is strip k alone, zone 2 k - 1 the strips k - 1 and k. Winds are tenths of knots.
"""
import os
import struct
import sys

ROWS, WIDTH, STEP, STRIPS, DEAD = 16, 5, 3, 12, 7
COLUMNS = STEP * (STRIPS - 1) + WIDTH
LIMITS = (0, 600)


def zone_of(column):
    strips = [k for k in range(STRIPS) if STEP * k <= column < STEP * k + WIDTH]
    return strips[0] + strips[-1]


def wind(row, column):
    """A breeze that freshens towards the lower right, with a lull and two gusts; whole numbers all the way."""
    lull = 9 * max(0, 60 - (row - 4) ** 2 * 3 - (column - 9) ** 2)
    gust = 2 * max(0, 90 - (row - 11) ** 2 * 6 - (column - 29) ** 2 * 2) + 2 * max(0, 60 - (row - 3) ** 2 * 8 - (column - 33) ** 2 * 3)
    return max(8, 95 + 3 * row + 4 * column - lull // 5 + gust)


def strip(k):
    """What machine k computed: the wind, with an error of its own of some tenths."""
    return [wind(row, STEP * k + column) + (7 * k + 3 * row + column) % 5 - 2 for row in range(ROWS) for column in range(WIDTH)]


def hour_before(row, column):
    """The wind at five at a cell of the field, whose columns are those of the bay from 1 on: lighter than at six; None, a gap, in a corner."""
    if row >= 12 and 24 <= column < 28:
        return None
    return wind(row, column + 1) - 11 - (row + 2 * column) % 4


def field_bytes(extents, cells):
    """A field file; None is a gap."""
    values, flags = [cell or 0 for cell in cells], [int(cell is not None) for cell in cells]
    return struct.pack(f'<8sQ{len(extents)}Q{len(cells)}q{len(cells)}B', b'LUPFIELD', len(extents), *extents, *values, *flags)


def plan_lines():
    shape, bay = f'{ROWS}x{WIDTH}', f'{ROWS}x{COLUMNS}'
    yield '# Joins twelve strips of wind over a bay. Strip k has the columns 3 k to 3 k + 4 of 38; all of it in tenths of knots.'
    yield '# zone 2 k: strip k alone; zone 2 k - 1: strips k - 1 and k'
    for k in range(STRIPS):
        yield f'strip{k} = param i16 {LIMITS[0]}..{LIMITS[1]} {shape} device {k + 1}'
    yield f'zone = param u8 0..{2 * STRIPS - 2} {bay} device 13'
    yield '\n# each strip to the joining machine, and into the bay: gaps where it has no cells'
    for k in range(STRIPS):
        yield f'here{k} = load strip{k} device 13'
        yield f'bay{k} = pad here{k} {bay} at 0x{STEP * k}'
    for name, first in (('even', 0), ('odd', 1)):
        yield f'\n# the {name} strips, one over another'
        yield f'{name}{first} = reshape bay{first} {bay}'
        for k in range(first + 2, STRIPS, 2):
            yield f'from{k} = const u8 {2 * k - 1}'
            yield f'before{k} = cmplt zone from{k}'
            yield f'{name}{k} = where before{k} {name}{k - 2} bay{k}'
    yield '\n# where two strips meet, half their sum; elsewhere the one strip that is there'
    yield from ('two = const i16 2', f'both = add even{STRIPS - 2} odd{STRIPS - 1}', 'mean = idiv both two', 'none = const u8 0', 'second = const u8 2',
                'fourth = const u8 4', 'half = mod zone second', 'shared = cmpne half none', 'quarter = mod zone fourth', 'is_odd = cmpne quarter none',
                f'single = where is_odd odd{STRIPS - 1} even{STRIPS - 2}', 'joined = where shared mean single')
    yield '\n# without the outer columns, where the model has no neighbours; and the strongest wind of each column'
    yield f'field = shrink joined {ROWS}x{COLUMNS - 2} at 0x1'
    yield 'strongest = greatest field 1x0'


def main(arguments):
    target = arguments[0] if arguments else os.path.dirname(os.path.abspath(__file__))
    os.makedirs(target, exist_ok=True)
    files = {f'strip-{k:02}.field': field_bytes((ROWS, WIDTH), strip(k)) for k in range(STRIPS) if k != DEAD}
    files['zones.field'] = field_bytes((ROWS, COLUMNS), [zone_of(column) for _ in range(ROWS) for column in range(COLUMNS)])
    files['zeros.field'] = field_bytes((ROWS, WIDTH), [0] * (ROWS * WIDTH))
    files['five.field'] = field_bytes((ROWS, COLUMNS - 2), [hour_before(row, column) for row in range(ROWS) for column in range(COLUMNS - 2)])
    files['bay.lup'] = ('\n'.join(plan_lines()) + '\n').encode()
    for name, data in files.items():
        with open(os.path.join(target, name), 'wb') as file:
            file.write(data)


if __name__ == '__main__':
    main(sys.argv[1:])
