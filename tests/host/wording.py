"""What lup has to write, worded here from the papers and computed by the independent model."""

import re
import struct
from math import prod

import model

OPERATIONS = ('CONST PARAM PERMUTE FLIP RESHAPE EXPAND PAD SHRINK CAST ADD MUL MAX IDIV MOD CMPLT CMPNE AND OR WHERE REDUCE LOAD'
              ' FILL KNOWN STACK').split()
TYPES = ('bool', 'u8', 'i16', 'i32')
SHADES = '.:-=+*#%@'
LARGE = 1048576

# The refusals of a plan file. 1, 2 and 3 cannot come out of bytes that were unpacked (23 and 24 come first, unused words are zero); 13 and 14 are
# the program's own lengths and rooms; 15 is a flag that makes a field file unreadable.
RULES = {
    4: 'source negative or not earlier',
    5: 'type not 0..3',
    6: 'type rule broken (operands differ, bool misplaced, or WHERE condition not bool)',
    7: 'row or number wrong',
    8: 'shapes disagree, or over 1048576 elements',
    9: 'two devices',
    10: 'divisor bounds contain 0',
    11: 'bounds leave the type',
    12: 'all nodes together over 4194304 elements',
    16: 'known number outside limits',
    17: 'lookup node or element not there',
    20: 'bytes end before or inside a number',
    21: 'number not in its shortest form of at most 5 bytes',
    22: 'bytes left over',
    23: 'node count not 1..256, or a first byte 0 without a 2 after it',
    24: 'operation not 0..20, in a second edition file not 0..23',
    26: 'second edition file with no operation 21..23',
}
# The refusals of a table that is to be packed; 14 is the program's own room.
TABLE_RULES = {
    1: 'length no multiple of 17, or not 1..256 nodes',
    2: 'operation not 0..23',
    3: 'unused word not zero',
    25: 'a used word not in -17179869184..17179869183',
}
# What rule 7 asks of each operation.
ROWS = {
    'PARAM': 'slot not its turn or over 15, low above high, device not 1..255, or no shape',
    'PERMUTE': 'not each axis of the source once',
    'FLIP': 'not a flag 0 or 1 for each axis of the source',
    'RESHAPE': 'no shape',
    'EXPAND': 'no shape',
    'PAD': 'no shape, or an offset not 0..1048576 or past the rank',
    'SHRINK': 'no shape, or an offset not 0..1048576 or past the rank',
    'REDUCE': 'number neither 0 nor 1, or not a flag 0 or 1 for each axis of the source',
    'LOAD': 'device not 1..255',
    'STACK': 'number neither 2 nor 3, or word 3 not 0 with number 2',
}
# What rule 8 asks of an operation, where its words do not say all of it.
SHAPES = {'STACK': 'sources not of one shape, of a rank over 3, or of over 1048576 elements together'}


def shape_text(extents):
    return 'x'.join(map(str, extents)) or '-'


# ------------------------------------------------------------------ refusals

def refusal_text(name, data):
    """The message for a plan file that is refused."""
    number, place, _ = model.unpack_and_verdict(data)
    if number >= 20:
        return f'lup: {name}: refused {number} at byte {place}: {RULES[number]}\n'
    if number == 12:
        return f'lup: {name}: refused 12: {RULES[12]}\n'
    table = [0] * (17 * 256)
    model.unpack(data, table)
    operation = OPERATIONS[table[17 * place]]
    more = {7: ROWS, 8: SHAPES}.get(number, {}).get(operation, '')
    return f'lup: {name}: refused {number} at node {place} ({operation}): {RULES[number]}{": " * bool(more)}{more}\n'


def position_text(name, files, table, values, place):
    """The message for a known number outside its limits, 16."""
    start, slot = 0, 0
    for position, record in enumerate(model.verdict(table)[1]):
        if table[17 * position] != model.PARAM:
            continue
        if place < start + prod(record.extents):
            break
        start, slot = start + prod(record.extents), slot + 1
    where = place_text(record.extents, place - start)
    return (f'lup: {files[slot]}: refused 16 at element {place - start}{" (" + where + ")" if where else ""} of PARAM {slot} (node {position} of {name}, '
            f'input position {place}): {RULES[16]}: {values[place]}, not {record.low}..{record.high}\n')


# ------------------------------------------------------------------- lookups

def place_text(extents, element):
    *front, row, column = (0, 0, *model.coordinates_at(element, extents))
    axes = [f'row {row}', f'column {column}'][2 - min(len(extents), 2):]
    picture = ['picture ' + ','.join(map(str, front[2:]))] if len(extents) > 2 else []
    return ' '.join(picture + axes)


def pads_before(table, node):
    """The PADs that a lookup from the node passes or stops at."""
    found = []
    while model.PERMUTE <= table[17 * node] <= model.SHRINK or table[17 * node] == model.LOAD:
        found += [node] * (table[17 * node] == model.PAD)
        node = table[17 * node + 1]
    return found


def lookup_texts(name, table, node, element):
    """Exit status, standard output and standard error of a lookup in an accepted plan."""
    records = model.verdict(table)[1]
    reply = model.lookup(table, node, element)
    if reply.number == 17 and node >= len(records):
        return 1, '', f'lup: {name}: refused 17: {RULES[17]}: no node {node}, the last is {len(records) - 1}\n'
    if reply.number == 17:
        last = prod(records[node].extents) - 1
        operation = OPERATIONS[table[17 * node]]
        return 1, '', f'lup: {name}: refused 17: {RULES[17]}: no element {element} in node {node} ({operation}), its last is {last}\n'
    if reply.found == 2:
        pads = pads_before(table, node)
        which = f'node {pads[0]}' if len(pads) == 1 else 'one of the nodes ' + ', '.join(map(str, pads))
        return 0, f'a gap: PAD put it there ({which})\n', ''
    words, extents = table[17 * reply.node:17 * reply.node + 17], records[reply.node].extents
    what = f'{OPERATIONS[words[0]]} of shape {shape_text(extents)}'
    if words[0] == model.PARAM:
        what = f'PARAM {words[5]} of shape {shape_text(extents)}'
    if words[0] == model.CONST:
        what = f'CONST of the number {words[5]}'
    where = place_text(extents, reply.element)
    return 0, f'node {reply.node} element {reply.element}: {what}{", " + where if where else ""}\n', ''


# -------------------------------------------------------------------- fields

def range_bytes(low, high):
    """What a field file ends with where it has bounds."""
    return struct.pack('<8s2q', b'LUPRANGE', low, high)


def field_bytes(extents, cells, bounds=None):
    """A field file; None is a gap. bounds: low and high."""
    values = [0 if cell is None else cell for cell in cells]
    flags = [int(cell is not None) for cell in cells]
    data = struct.pack(f'<8sQ{len(extents)}Q{len(cells)}q{len(cells)}B', b'LUPFIELD', len(extents), *extents, *values, *flags)
    return data + (range_bytes(*bounds) if bounds else b'')


def read_field(data):
    """Extents and cells of a field file; None where it is unreadable."""
    if len(data) < 16 or data[:8] != b'LUPFIELD':
        return None
    rank = int.from_bytes(data[8:16], 'little')
    if rank > 4 or len(data) < 16 + 8 * rank:
        return None
    extents = struct.unpack_from(f'<{rank}Q', data, 16)
    count = prod(extents)
    if not all(1 <= extent <= LARGE for extent in extents) or count > LARGE or len(data) < 16 + 8 * rank + 9 * count:
        return None
    rest = data[16 + 8 * rank + 9 * count:]
    if rest and not (len(rest) == 24 and rest[:8] == b'LUPRANGE' and bounds_of(data)[0] <= bounds_of(data)[1]):
        return None
    numbers = struct.unpack_from(f'<{count}q{count}B', data, 16 + 8 * rank)
    if any(flag > 1 for flag in numbers[count:]):
        return None
    return extents, [value if flag else None for value, flag in zip(numbers[:count], numbers[count:])]


def bounds_of(data):
    """The bounds at the end of a readable field file; None where it has none."""
    return struct.unpack('<2q', data[-16:]) if data[-24:-16] == b'LUPRANGE' else None


# ------------------------------------------------------------------- drawing

def step(scale, value, steps):
    """The place of a value among equal steps from the low end of the scale to the high one; a value outside has the place of the end."""
    low, high = scale
    if not low <= value <= high:
        return 0 if value < low else steps - 1
    return min(steps - 1, (value - low) * steps // (high - low)) if high > low else steps // 2


def least_to_greatest(cells):
    """The scale of a field that has no bounds."""
    known = [cell for cell in cells if cell is not None]
    return (min(known), max(known)) if known else (0, 0)


def outside_text(cells, scale):
    """The legend's line for numbers outside the scale; nothing where there are none."""
    below, above = (sum(cell is not None and wrong(cell) for cell in cells) for wrong in (lambda cell: cell < scale[0], lambda cell: cell > scale[1]))
    return f'outside the scale, drawn as its ends: {below + above} of {len(cells)} cells, {below} below and {above} above' if below + above else ''


def titles(extents):
    if len(extents) < 3:
        return ['']
    return ['picture ' + ','.join(map(str, place)) + '\n' for place in model.all_coordinates(extents[:-2])]


def drawing(name, extents, cells, scale=None):
    """What lup show writes."""
    low, high = scale = scale or least_to_greatest(cells)
    drawn = ['//' if cell is None else 2 * SHADES[step(scale, cell, len(SHADES))] for cell in cells]
    rows, columns = ((1, 1) + tuple(extents))[-2:]
    text = f'{name}, shape {shape_text(extents)}\n\n'
    for picture, title in enumerate(titles(extents)):
        first = picture * rows * columns
        text += title + ''.join(''.join(drawn[first + row * columns:first + (row + 1) * columns]) + '\n' for row in range(rows)) + '\n'
    outside = outside_text(cells, scale)
    if cells.count(None) == len(cells):
        text += 'no known number\n'
    elif low == high:
        text += f'{2 * SHADES[len(SHADES) // 2]} {"" if outside else "every known number: "}{low}\n'
    else:
        text += f'{low} {" ".join(2 * shade for shade in SHADES)} {high}\n'
    text += outside + '\n' * bool(outside)
    return text + f'// gap: {cells.count(None)} of {len(cells)} cells\n'


def picture_rows(text):
    """The lines of a drawing that hold cells: all between the shape and the legend that are no titles."""
    body = text.split('\n\n', 1)[1].rsplit('\n\n', 1)[0]
    return [line for line in body.split('\n') if line and not re.fullmatch(r'picture \d+(,\d+)?', line)]
