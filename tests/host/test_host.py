#!/usr/bin/env python3
"""Drives the program lup against the independent model: every command, every refusal that can reach it, damaged files, misuse, and random damage. What
pack and unpack make of tables and plans is in test_table.py; here is what they share with the others.

usage: test_host.py [PROGRAM] [COUNT] [SEED]     PROGRAM: build/lup, or build/lup-sanitized; COUNT: random damages; last line: 'N passed, 0 failed'
"""

import base64
import ctypes
import errno
import json
import os
import re
import resource
import signal
import stat
import struct
import subprocess
import sys
import tempfile
import time
import tty
import zlib
from itertools import accumulate
from math import prod
from random import Random
from xml.etree import ElementTree

sys.dont_write_bytecode = True
HERE = os.path.dirname(os.path.abspath(__file__))
ROOT = os.path.dirname(os.path.dirname(HERE))
sys.path[:0] = [HERE, *(os.path.join(ROOT, 'tests', part) for part in ('model', 'tools'))]

import cases  # noqa: E402
import model  # noqa: E402
from cases import LARGE, apply, const, move, node, pack, param, reduce_node  # noqa: E402
from counting import Cases  # noqa: E402
from model import ADD, CAST, EXPAND, FILL, FLIP, IDIV, KNOWN, LOAD, MOD, PAD, PARAM, PERMUTE, RESHAPE, SHRINK, STACK, WHERE  # noqa: E402
from program import QUICK, Program  # noqa: E402
from wording import (LARGE as MOST, OPERATIONS, RULES, SHADES, TYPES, bounds_of, drawing, field_bytes, least_to_greatest, lookup_texts,  # noqa: E402
                     outside_text, picture_rows, position_text, range_bytes, read_field, refusal_text, shape_text, step)

BOOL, U8, I16, I32 = range(4)
LIST = os.path.join(ROOT, 'build', 'list')
COMMANDS = ('list', 'check', 'run', 'lookup', 'show', 'pack', 'unpack')
OLD = field_bytes((2,), [1, None])
PAIR = param(0, I16, -9, 9, (2,))
SIX = param(0, I16, -9, 9, (2, 3))
PADDED = PAIR + move(PAD, 0, (4,), (1,))
EVERY = range(len(OPERATIONS))
# The text of that table, and what is told of its plan.
TABLE = b'1 0 0 0 2 0 1 -9 9 2 0 0 0 0 0 0 0\n6 0 0 0 0 0 0 0 0 4 0 0 0 1 0 0 0\n'
PACKED = 'written: {}, 2 nodes in 21 bytes\n'


# ------------------------------------------------------- plans and refusals

def stack(number, *sources):
    """A STACK of that number, which may be wrong; words of sources that are not given are 0."""
    return node(STACK, {**dict(enumerate(sources, 1)), 5: number})


# One plan or more for each refusal that a plan file can meet: number, place, table.
REFUSED_TABLES = [
    (4, 1, PAIR + move(FLIP, 1, (1,))), (4, 0, apply(ADD, 0, 0)), (4, 1, PAIR + apply(ADD, 0, -1)),
    (5, 0, const(4, 0)), (5, 1, PAIR + node(CAST, {1: 0, 4: -1})),
    (6, 1, const(BOOL, 1) + apply(ADD, 0, 0)), (6, 2, PAIR + const(I32, 1) + apply(ADD, 0, 1)), (6, 1, PAIR + apply(WHERE, 0, 0, 0)),
    (7, 0, param(1, I16, 0, 9, (2,))), (7, 0, param(0, I16, 9, 0, (2,))), (7, 0, param(0, I16, 0, 9, (2,), 256)), (7, 0, param(0, I16, 0, 9, (0, 2))),
    (7, 1, SIX + move(PERMUTE, 0, (0, 0))), (7, 1, SIX + move(FLIP, 0, (2, 0))), (7, 1, SIX + move(RESHAPE, 0, (0, 6))),
    (7, 1, SIX + move(EXPAND, 0, (-1, 3))), (7, 1, SIX + move(PAD, 0, (2, 3), (0, 0, 1))), (7, 1, SIX + move(SHRINK, 0, (2, 3), (-1, 0))),
    (7, 1, SIX + reduce_node(0, 2, (0, 1))), (7, 1, SIX + node(LOAD, {1: 0})),
    (8, 1, PAIR + move(PAD, 0, (3,), (2,))), (8, 1, SIX + move(SHRINK, 0, (2, 3), (0, 1))), (8, 0, param(0, I16, 0, 9, (LARGE, 2))),
    (9, 2, PAIR + param(1, I16, 0, 9, (2,), 2) + apply(ADD, 0, 1)),
    (10, 1, PAIR + apply(IDIV, 0, 0)), (10, 1, PAIR + apply(MOD, 0, 0)),
    (11, 0, const(U8, 256)), (11, 1, PAIR + node(CAST, {1: 0, 4: U8})), (11, 1, param(0, I16, -20000, 20000, (2,)) + apply(ADD, 0, 0)),
    (11, 0, const(I16, -32768)), (11, 1, param(0, I16, -16384, 16383, (2,)) + apply(ADD, 0, 0)),
    (12, 0, param(0, BOOL, 0, 1, (LARGE,)) + node(LOAD, {1: 0, 6: 1}) * 3 + const(BOOL, 1)),
    (4, 1, PAIR + apply(FILL, 0, 1)), (4, 0, apply(KNOWN, 0)), (4, 1, PAIR + stack(2, 0, 1)), (4, 1, PAIR + stack(3, 0, 0, 1)), (4, 1, PAIR + stack(7, 0, 1, 1)),
    (6, 2, PAIR + const(I32, 1) + apply(FILL, 0, 1)), (6, 2, PAIR + const(I32, 1) + stack(2, 0, 1)), (6, 2, PAIR + const(I32, 1) + stack(3, 0, 0, 1)),
    (6, 2, PAIR + const(I32, 1) + stack(4, 0, 1, 9)),
    *((7, 1, PAIR + stack(number, 0, 0, third)) for number, third in ((1, 0), (4, 0), (0, 0), (-3, 9), (2, 1), (2, -1), (2, 9), (2 ** 33 + 2, 0), (2 ** 33 + 3, 0))),
    (8, 2, PAIR + param(1, I16, 0, 9, (3,)) + apply(FILL, 0, 1)), (8, 2, PAIR + const(I16, 1) + stack(2, 0, 1)), (8, 2, PAIR + const(I16, 1) + stack(3, 0, 0, 1)),
    (8, 1, param(0, I16, 0, 9, (1, 1, 1, 2)) + stack(2, 0, 0)), (8, 1, param(0, I16, 0, 9, (LARGE,)) + stack(2, 0, 0)),
    (9, 2, PAIR + param(1, I16, 0, 9, (2,), 2) + apply(FILL, 0, 1)), (9, 2, PAIR + param(1, I16, 0, 9, (2,), 2) + stack(3, 0, 0, 1)),
]
REFUSED_BYTES = [
    (20, 0, b''), (20, 3, b'\x01\x00\x04'), (20, 3, b'\x01\x00\x04\x80'), (21, 3, b'\x01\x00\x04\x80\x00'), (21, 0, b'\xff' * 5),
    (22, 4, b'\x01\x00\x04\x0a\x00'), (22, 4, b'\x01\x00\x04\x0a' + bytes(20000)), (23, 0, b'\x00'), (23, 0, b'\x81\x02'), (24, 1, b'\x01\x15'),
    *((number, place, bytes.fromhex(text)) for number, place, text in (
        (23, 0, '00 01'), (23, 0, '00 82 00'), (23, 0, '00 03 01 16 00'), (23, 0, '00 00 02 01 16 00'), (20, 2, '00 02'), (20, 2, '00 02 80'), (21, 2, '00 02 80 00'),
        (21, 2, '00 02 FF FF FF FF FF'), (23, 0, '00 02 00'), (23, 0, '00 02 81 02'), (20, 6, '00 02 02 00 04 0A'), (20, 7, '00 02 02 00 04 0A 17'),
        (21, 6, '00 02 02 00 04 0A 96 00 00'), (24, 3, '00 02 01 18'), (24, 6, '00 02 02 00 04 0A 18 00'), (24, 4, '02 00 04 0A 16 00'), (24, 1, '01 17 00 00 00 04'),
        (22, 8, '00 02 02 00 04 0A 16 00 00'), (22, 6, '00 02 01 00 04 0A 00'), (26, 0, '00 02 01 00 04 0A'), (26, 0, '00 02 02 00 04 0A 09 00 00'))),
    (26, 0, b'\x00\x02' + pack(node(PAD, dict.fromkeys(model.USED_WORDS[PAD], 2 ** 34 - 1)) * 256)),
]


def test_refusals(tally, lup):
    """Each refusal by each command that reads a plan: status 1, number, place, operation and rule; nothing is written."""
    several = [(number, place, pack(table)) for number, place, table in REFUSED_TABLES] + REFUSED_BYTES
    tally.same('every refusal that a plan file can meet', sorted({number for number, _, _ in several} | {16, 17}), sorted(RULES))
    lup.put('out.field', OLD)
    for number, place, data in several:
        with tally.case((number, place, data[:40].hex())):
            tally.same(('the model', data[:40].hex()), model.unpack_check(data), 65536 * number + place)
            lup.put('bay.plan', data)
            before, message = lup.files(), refusal_text('bay.plan', data)
            where = f' at {"node" if number < 20 else "byte"} {place}' if number != 12 else ''
            tally.holds('the message names number and place', message.startswith(f'lup: bay.plan: refused {number}{where}'), message)
            tally.same(('check', number), lup.run('check', 'bay.plan'), (1, '', message))
            tally.same(('list', number), lup.run('list', 'bay.plan'), (1, f'refused {number} at {place}\n', message))
            tally.same(('list --dot', number), lup.run('list', '--dot', 'bay.plan'), (1, '', message))
            tally.same(('run', number), lup.run('run', 'bay.plan', 'a.field', '-o', 'out.field'), (1, '', message))
            tally.same(('lookup', number), lup.run('lookup', 'bay.plan', '999', '0'), (1, '', message))
            tally.same(('nothing is written', number), lup.files() == before, True)


def test_wording(tally, lup):
    """Messages word for word."""
    for table, message in (
            (PAIR + stack(2, 0, 0, 1), 'lup: bay.plan: refused 7 at node 1 (STACK): row or number wrong: number neither 2 nor 3, or word 3 not 0 with number 2\n'),
            (SIX + const(I16, 1) + stack(2, 0, 1), 'lup: bay.plan: refused 8 at node 2 (STACK): shapes disagree, or over 1048576 elements: '
                                                   'sources not of one shape, of a rank over 3, or of over 1048576 elements together\n'),
            (PAIR + param(1, I16, 0, 9, (3,)) + apply(FILL, 0, 1), 'lup: bay.plan: refused 8 at node 2 (FILL): shapes disagree, or over 1048576 elements\n'),
            (PAIR + move(PAD, 0, (3,), (2,)), 'lup: bay.plan: refused 8 at node 1 (PAD): shapes disagree, or over 1048576 elements\n'),
            (SIX + move(FLIP, 0, (2, 0)),
             'lup: bay.plan: refused 7 at node 1 (FLIP): row or number wrong: not a flag 0 or 1 for each axis of the source\n'),
            (param(0, BOOL, 0, 1, (LARGE,)) + node(LOAD, {1: 0, 6: 1}) * 4, 'lup: bay.plan: refused 12: all nodes together over 4194304 elements\n')):
        lup.put('bay.plan', pack(table))
        tally.same(message, lup.run('check', 'bay.plan'), (1, '', message))
    for data, message in (
            ('00 02 01 00 04 0A', 'lup: bay.plan: refused 26 at byte 0: second edition file with no operation 21..23\n'),
            ('00', 'lup: bay.plan: refused 23 at byte 0: node count not 1..256, or a first byte 0 without a 2 after it\n'),
            ('00 02', 'lup: bay.plan: refused 20 at byte 2: bytes end before or inside a number\n'),
            ('02 00 04 0A 16 00', 'lup: bay.plan: refused 24 at byte 4: operation not 0..20, in a second edition file not 0..23\n')):
        lup.put('bay.plan', bytes.fromhex(data))
        tally.same(message, (lup.run('check', 'bay.plan'), lup.run('unpack', 'bay.plan')), ((1, '', message),) * 2)


TEXTS = [b'wind = param i16 -9..9 2 device 1\n', b'# a comment alone', b'a=b', b'x =\r\n\ty\v\f', 'wind = é € 𝄞 # ü\n'.encode(),
         b'a = ' + b'x' * 12281 + 'é'.encode() * 9, b'a = ' + b'x' * 12282 + '€'.encode() * 9, b'a = ' + b'x' * 20000]
NO_TEXTS = [b'wind', b'', b'a = b\0', b'a = \x01', b'a = \x7f', b'a = \x1b', b'a = \xff....', b'a = \xc3....', b'\x01= #', b'a = b\xed\xa0\x80.']


def test_plan_text(tally, lup):
    """The text of a plan in place of the plan: refused as ever, and a second line that says what to do."""
    second = 'lup: bay.lup: this looks like the text of a plan; assemble it first: lupasm bay.lup -o PLAN (not installed: python3 host/lupasm.py)\n'
    with open(os.path.join(ROOT, 'demo', 'bay.lup'), 'rb') as file:
        several = [(data, second) for data in (file.read(), *TEXTS)] + [(data, '') for data in NO_TEXTS]
    for data, more in several:
        lup.put('bay.lup', data)
        first = refusal_text('bay.lup', data)
        for call in (('check', 'bay.lup'), ('list', 'bay.lup'), ('run', 'bay.lup', '-o', 'x'), ('lookup', 'bay.lup', '0', '0'), ('unpack', 'bay.lup')):
            tally.same((call, data[:40]), lup.run(*call)[::2], (1, first + more))
    os.remove(lup.at('bay.lup'))


def listed(data):
    """What build/list writes."""
    return subprocess.run([LIST], input=data, stdout=subprocess.PIPE, check=True, timeout=60).stdout.decode()


def wanted_list(name, data):
    text = model.listing(data).decode()
    return (1, text, refusal_text(name, data)) if text.startswith('refused') else (0, text, '')


def wanted_check(name, data):
    number, _, records = model.unpack_and_verdict(data)
    if number:
        return 1, '', refusal_text(name, data)
    nodes, elements = len(records), sum(prod(record.extents) for record in records)
    return 0, f'accepted: {nodes} node{"s" * (nodes != 1)}, {elements} element{"s" * (elements != 1)}\n', ''


def longest_plans():
    """The longest bytes, the longest listing, and bytes after what is read."""
    yield pack(node(PAD, dict.fromkeys(model.USED_WORDS[PAD], 2 ** 34 - 1)) * 256)
    long = pack(param(0, I32, -2 ** 31, 2 ** 31 - 1, (1, 1024, 1, 4), 255) + node(LOAD, {1: 0, 6: 255}) * 255)
    yield from (long, long + bytes(12288), pack(const(I16, -300) * 256) + b'\xff' * 70000)


def test_lists(tally, lup, rng):
    tables = [make(rng, op) for op in EVERY for make in (lambda r, o: cases.make_plan(r, o, r.randint(0, 4)).table,) * 2]
    several = [pack(table) for table in tables] + [case.args[0] for case in cases.listings(60, rng.randrange(2 ** 32))]
    for data in [*several, *longest_plans()]:
        with tally.case(('list', data[:40].hex())):
            lup.put('p.plan', data)
            got = lup.run('list', 'p.plan')
            tally.same(('list', data[:40].hex()), got, wanted_list('p.plan', data))
            tally.same(('build/list', data[:40].hex()), got[1], listed(data))
            tally.same(('check', data[:40].hex()), lup.run('check', 'p.plan'), wanted_check('p.plan', data))
    lup.put('p.plan', pack(param(0, BOOL, 0, 1, (LARGE,)) + node(LOAD, {1: 0, 6: 1}) * 3))
    tally.same('the most elements', lup.run('check', 'p.plan'), (0, 'accepted: 4 nodes, 4194304 elements\n', ''))


# ------------------------------------------------------------------- graphs

NODE_LINE = re.compile(r'    n(\d+) \[label="(\d+): ([A-Z]+)(| \d+| sum| greatest)\\n(\w+) ([\dx]+|-)\\n'
                       r'(-?\d+)\.\.(-?\d+)\\n(no device|device \d+)"(|, peripheries=2)\];')
EDGE_LINE = re.compile(r'    n(\d+) -> n(\d+)(?: \[label="(\d)"\])?;')


def graph_of(table, records):
    """The nodes and edges that the graph has to have, as the patterns above find them."""
    nodes, edges = [], []
    for k, record in enumerate(records):
        words = table[17 * k:17 * k + 17]
        more = {PARAM: f' {words[5]}', model.REDUCE: (' sum', ' greatest')[words[5] == 1]}.get(words[0], '')
        nodes.append((str(k), str(k), OPERATIONS[words[0]], more, TYPES[record.dtype], shape_text(record.extents), str(record.low), str(record.high),
                      f'device {record.device}' if record.device else 'no device', ', peripheries=2' if k == len(records) - 1 else ''))
        sources = [words[w] for w in (1, 2, 3) if w in model.USED_WORDS[words[0]]]
        if words[0] == STACK:
            sources = sources[:words[5]]
        edges += [(str(source), str(k), str(place) if len(sources) > 1 else None) for place, source in enumerate(sources, 1)]
    return nodes, edges


def test_graphs(tally, lup, rng):
    met = set()
    for op in [*EVERY] * 2:
        table = cases.make_plan(rng, op, rng.randint(0, 4)).table
        lup.put('p.plan', pack(table))
        status, text, errors = lup.run('list', 'p.plan', '--dot')
        first, _, *body, last, end = text.split('\n')
        nodes, edges = graph_of(table, model.verdict(table)[1])
        found = [NODE_LINE.fullmatch(line) for line in body[:len(nodes)]], [EDGE_LINE.fullmatch(line) for line in body[len(nodes):]]
        with tally.case(('a graph', op)):
            tally.same('a graph', (status, errors, first, last, end), (0, '', 'digraph plan {', '}', ''))
            tally.same('a line a node', [match and match.groups() for match in found[0]], nodes)
            tally.same('an edge a source', [match and match.groups() for match in found[1]], edges)
        met |= {line[2] for line in nodes}
    tally.same('every operation in a graph', met, set(OPERATIONS))


# A table whose last node is a STACK, and the lines of its graph that lead there.
STACKED = (
    (PAIR + move(FLIP, 0, (1,)) + stack(2, 1, 1), ['    n1 -> n2 [label="1"];', '    n1 -> n2 [label="2"];']),
    (PAIR + move(FLIP, 0, (1,)) + stack(2, 1, 0), ['    n1 -> n2 [label="1"];', '    n0 -> n2 [label="2"];']),
    (PAIR + move(FLIP, 0, (1,)) + stack(3, 1, 1, 0), ['    n1 -> n2 [label="1"];', '    n1 -> n2 [label="2"];', '    n0 -> n2 [label="3"];']),
)


def test_stacked_graphs(tally, lup):
    """A STACK of two has two edges, none for its word 3, which is 0 and not node 0; one of three has three."""
    for table, edges in STACKED:
        lup.put('p.plan', pack(table))
        status, text, errors = lup.run('list', 'p.plan', '--dot')
        lines = text.split('\n')
        with tally.case(('the graph of a STACK', edges)):
            tally.same('its edges', (status, errors, [line for line in lines if ' -> n2' in line]), (0, '', edges))
            label = f'    n2 [label="2: STACK\\ni16 {len(edges)}x2\\n-9..9\\ndevice 1", peripheries=2];'
            tally.same('its label', [line for line in lines if line.startswith('    n2 [')], [label])


# --------------------------------------------------------------------- runs

def parts_of(table, values, flags):
    """The cells of each PARAM with its extents, and with what garbage lies under gaps."""
    shapes = [record.extents for position, record in enumerate(model.verdict(table)[1]) if table[17 * position] == PARAM]
    ends = [0, *accumulate(map(prod, shapes))]
    return [(shape, values[first:last], flags[first:last]) for shape, first, last in zip(shapes, ends, ends[1:])]


def garbled(extents, values, flags):
    """A field file with the numbers under its gaps as they are."""
    data = bytearray(field_bytes(extents, values))
    data[-len(flags):] = bytes(flags)
    return bytes(data)


def wanted_field(table, values, flags, number):
    """The field file of a node by the model, with the bounds that the model derives for it."""
    records = model.verdict(table)[1]
    field = model.all_fields(table, records, values, flags)[number]
    return field_bytes(records[number].extents, list(field.values()), (records[number].low, records[number].high))


def wanted_report(plan, table, flags, files, states, written, number, cells):
    """The report of a run as the usage says it, from the plan's table and the flags of all inputs."""
    records = model.verdict(table)[1]
    params = [k for k in range(len(records)) if table[17 * k] == PARAM]
    parts = [part for _, _, part in parts_of(table, flags, flags)]
    inputs = [{'file': name, 'param': slot, 'node': own, 'state': state, 'shape': list(records[own].extents), 'elements': len(part), 'gaps': part.count(0)}
              for slot, (name, own, state, part) in enumerate(zip(files, params, states, parts))]
    output = {'file': written, 'node': number, 'operation': OPERATIONS[table[17 * number]], 'shape': list(records[number].extents), 'elements': len(cells),
              'gaps': cells.count(None)}
    return {'plan': plan, 'inputs': inputs, 'output': output}


def report_of(lup, name):
    """The report, which is JSON in UTF-8; what is wrong with it where it is not."""
    try:
        return json.loads(lup.get(name).decode('utf-8'))
    except (OSError, ValueError) as wrong:
        return repr(wrong)


def run_once(tally, lup, rng, table, values, flags):
    """A run with some files missing, as many as may be, of the last node or of any; what it says, its field and its report."""
    files, missing = [], ''
    for slot, (extents, own_values, own_flags) in enumerate(parts_of(table, values, flags)):
        files.append(f'strip-{slot:02}.field')
        lup.put(files[slot], garbled(extents, own_values, own_flags))
        if rng.random() < 0.2:
            os.remove(lup.at(files[slot]))
            own_flags[:] = [0] * len(own_flags)
            missing += f'missing: {files[slot]} (PARAM {slot}, {shape_text(extents)}): read as gaps\n'
        first = sum(prod(shape) for shape, _, _ in parts_of(table, values, flags)[:slot])
        flags[first:first + len(own_flags)] = own_flags
    records = model.verdict(table)[1]
    number = rng.choice((len(records) - 1, rng.randrange(len(records))))
    asked = ['--node', str(number)] if number < len(records) - 1 or rng.random() < 0.5 else []
    lup.put('p.plan', pack(table))
    field = wanted_field(table, values, flags, number)
    extents, cells = read_field(field)
    told = (f'written: out.field, node {number} ({OPERATIONS[table[17 * number]]}) of shape {shape_text(extents)}, '
            f'{cells.count(None)} of {len(cells)} cells are gaps\nwritten: r.json, the report\n')
    asked += ['--missing', str(missing.count('\n'))]
    with tally.case(('run', told)):
        wanted = (3 if missing else 0, told, missing)
        tally.same(('run', files), lup.run('run', *asked, 'p.plan', *files, '-o', 'out.field', '--report', 'r.json'), wanted)
        tally.same(('field', files), lup.get('out.field') == field, True)
        states = ['missing' if f' {name} ' in missing else 'read' for name in files]
        tally.same(('report', files), report_of(lup, 'r.json'), wanted_report('p.plan', table, flags, files, states, 'out.field', number, cells))
    return bool(missing), cells.count(None) > 0, '--node' in asked


def test_runs(tally, lup, rng):
    met = set()
    for turn in range(4 * len(EVERY)):
        plan = cases.make_plan(rng, turn % len(EVERY), rng.randint(0, 4))
        values, flags = cases.random_inputs(rng, plan)
        met.add(run_once(tally, lup, rng, plan.table, values, flags))
    tally.same('with and without missing files, gaps and --node', len(met) >= 6, True)
    with tally.case('no PARAM'):
        lup.put('p.plan', pack(const(I16, -7)))
        tally.same('no PARAM', lup.run('run', 'p.plan', '-o', 'out.field'), (0, 'written: out.field, node 0 (CONST) of shape -, 0 of 1 cells are gaps\n', ''))
        tally.same('no PARAM: field', read_field(lup.get('out.field')), ((), [-7]))


# Two PARAMs of four cells and their files; then a FILL, a KNOWN, a STACK of two and one of three, each with its numbers and its bounds by hand.
FILLED = [(1, None, None, 4), (50, 60, None, None)]
FILLING = param(0, U8, 0, 9, (4,)) + param(1, U8, 5, 99, (4,)) + apply(FILL, 0, 1) + apply(KNOWN, 0) + stack(2, 0, 2) + stack(3, 2, 1, 0)
FILLING_NODES = {
    2: ('FILL', (4,), (1, 60, None, 4), (0, 99)), 3: ('KNOWN', (4,), (1, 0, 0, 1), (0, 1)), 4: ('STACK', (2, 4), (1, None, None, 4, 1, 60, None, 4), (0, 99)),
    5: ('STACK', (3, 4), (1, 60, None, 4, 50, 60, None, None, 1, None, None, 4), (0, 99))}


def test_filling(tally, lup):
    """FILL, KNOWN and STACK in a run, and the lookups that stop at them, also where a movement leads there."""
    for slot, cells in enumerate(FILLED):
        lup.put(f'in-{slot}.field', field_bytes((4,), cells))
    turned = move(FLIP, 2, (1,)) + move(RESHAPE, 3, (2, 2)) + move(SHRINK, 4, (1, 4), (1, 0))
    lup.put('p.plan', pack(FILLING + turned))
    for number, (name, extents, cells, bounds) in FILLING_NODES.items():
        with tally.case((name, cells)):
            told = f'written: out.field, node {number} ({name}) of shape {shape_text(extents)}, {cells.count(None)} of {len(cells)} cells are gaps\n'
            tally.same('the run', lup.run('run', 'p.plan', 'in-0.field', 'in-1.field', '-o', 'out.field', '--node', str(number)), (0, told, ''))
            tally.same('its field', lup.get('out.field'), field_bytes(extents, cells, bounds))
    for words, line in (((2, 1), 'node 2 element 1: FILL of shape 4, column 1'), ((3, 2), 'node 3 element 2: KNOWN of shape 4, column 2'),
                        ((4, 5), 'node 4 element 5: STACK of shape 2x4, row 1 column 1'), ((5, 11), 'node 5 element 11: STACK of shape 3x4, row 2 column 3'),
                        ((6, 0), 'node 2 element 3: FILL of shape 4, column 3'), ((7, 2), 'node 3 element 2: KNOWN of shape 4, column 2'),
                        ((8, 1), 'node 4 element 5: STACK of shape 2x4, row 1 column 1')):
        tally.same(('lookup', words), lup.run('lookup', 'p.plan', *map(str, words)), (0, line + '\n', ''))
    tally.same('no element past a STACK', lup.run('lookup', 'p.plan', '4', '8')[2],
               f'lup: p.plan: refused 17: {RULES[17]}: no element 8 in node 4 (STACK), its last is 7\n')


def test_large_run(tally, lup, rng):
    """A field of 1048576 cells through four nodes."""
    lup.put('p.plan', pack(param(0, I32, -2 ** 31, 2 ** 31 - 1, (1024, 1024)) + node(LOAD, {1: 0, 6: 1}) * 3))
    field = field_bytes((1024, 1024), [None if k % 7 == 0 else k * 4001 % 2 ** 32 - 2 ** 31 for k in range(MOST)])
    lup.put('large.field', field)
    report = f'written: out.field, node 3 (LOAD) of shape 1024x1024, {-(-MOST // 7)} of {MOST} cells are gaps\n'
    with tally.case('large run'):
        tally.same('large run', lup.run('run', 'p.plan', 'large.field', '-o', 'out.field'), (0, report, ''))
        tally.same('large field', lup.get('out.field') == field + range_bytes(-2 ** 31, 2 ** 31 - 1), True)
    os.remove(lup.at('large.field'))


def join_plan():
    """Twelve strips of 2x3 side by side: 2x36, each padded into its place, the first that is known taken."""
    table = sum((param(k, I16, -500, 500, (2, 3)) for k in range(12)), [])
    table += sum((move(PAD, k, (2, 36), (0, 3 * k)) for k in range(12)), [])
    return table


def too_many(count, inputs, most, kind='missing'):
    """The message for more missing inputs than may be."""
    return (f'lup: run: {count} of {inputs} input{"s" * (inputs != 1)} {"is" if count == 1 else "are"} {kind}, and at most {most} may be; '
            f'nothing was written (--missing {count} allows so many)\n')


def test_missing(tally, lup):
    """The strips of dead machines are gaps and are named, the status is 3; more than may be missing: status 1, and nothing is written."""
    lup.put('bay.plan', pack(join_plan()))
    files = [f'strip-{k:02}.field' for k in range(12)]
    for dead in ((), (7,), (0, 11), range(11), range(12)):
        for k, name in enumerate(files):
            lup.put(name, field_bytes((2, 3), [k * 10 + c for c in range(6)]))
        for k in dead:
            os.remove(lup.at(files[k]))
        told = ''.join(f'missing: {files[k]} (PARAM {k}, 2x3): read as gaps\n' for k in dead)
        gaps = 66 + 6 * (11 in dead)
        report = f'written: out.field, node 23 (PAD) of shape 2x36, {gaps} of 72 cells are gaps\n'
        for most in (None, 0, 1, 2, 3, 10, 11, 12, 13, 2 ** 64 - 1):
            lup.put('out.field', OLD)
            before, words = lup.files(), ('--missing', str(most)) if most is not None else ()
            got = lup.run('run', 'bay.plan', *files, '-o', 'out.field', *words)
            with tally.case(('missing', list(dead), most)):
                if len(dead) > (1 if most is None else most):
                    tally.same('too many', got, (1, '', told + too_many(len(dead), 12, 1 if most is None else most)))
                    tally.same('too many: nothing is written', lup.files() == before, True)
                else:
                    tally.same('missing', got, (3 if dead else 0, report, told))
                    tally.same('cells', read_field(lup.get('out.field'))[1].count(None), gaps)
    with tally.case('too many, with a report'):
        before = lup.files()
        tally.same('its status', lup.run('run', 'bay.plan', *files, '-o', 'new.field', '--report', 'new.json')[:2], (1, ''))
        tally.same('neither file is there', lup.files() == before, True)
    lup.put('p.plan', pack(PAIR + param(1, I16, -9, 9, (2,)) + apply(ADD, 0, 1)))
    lup.put('b.field', field_bytes((2,), [0, 10]))
    wanted = ('missing: gone.field (PARAM 0, 2): read as gaps\nlup: b.field: refused 16 at element 1 (column 1) of PARAM 1 (node 1 of p.plan, '
              'input position 3): known number outside limits: 10, not -9..9\n')
    tally.same('a refusal beside a missing strip', lup.run('run', 'p.plan', 'gone.field', 'b.field', '-o', 'out.field'), (1, '', wanted))
    lup.put('p.plan', pack(PAIR))
    wanted = 'missing: gone.field (PARAM 0, 2): read as gaps\n' + too_many(1, 1, 0)
    tally.same('one of one', lup.run('run', 'p.plan', 'gone.field', '-o', 'out.field', '--missing', '0'), (1, '', wanted))


def not_missing():
    """Inputs that are no missing strips, with words of the message."""
    yield 'no/where.field', 'it cannot be opened: its folder is not there'
    yield 'no/', 'it cannot be opened: its folder is not there'
    yield 'lost/strip.field', 'it cannot be opened: its folder is not there'
    yield 'a.field/strip.field', 'it cannot be opened: Not a directory'
    yield 'a.field/', 'it cannot be opened: Not a directory'
    yield 'dead.field', 'it cannot be opened: it is a link that leads nowhere'
    yield 'lost', 'it cannot be opened: it is a link that leads nowhere'
    yield 'loop.field', 'it cannot be opened: Too many levels of symbolic links'
    yield 'n' * 300, 'it cannot be opened: File name too long'
    yield 'folder', 'it cannot be read: Is a directory'
    yield 'mode.field', 'it cannot be opened: Permission denied'
    yield 'shut/there.field', 'it cannot be opened: Permission denied'
    yield 'shut/gone.field', 'it cannot be opened: Permission denied'


def test_not_missing(tally, lup):
    """What cannot be read is an error whatever may be missing; only a file that its folder does not have is missing. The folder is open to the user who
    runs this, so that a program that took one for missing would write its field."""
    shut, old = ('mode.field', 'shut'), lup.folder
    lup.folder = lup.at('open')
    for name in ('', 'folder', 'shut'):
        os.mkdir(lup.at(name))
    os.chmod(lup.folder, 0o777)
    lup.put('p.plan', pack(PADDED))
    for name in ('a.field', 'mode.field', 'shut/there.field'):
        lup.put(name, field_bytes((2,), [7, 9]))
    for target, name in (('gone.field', 'dead.field'), ('no/such', 'lost'), ('loop.field', 'loop.field'), ('folder', 'linked')):
        os.symlink(target, lup.at(name))
    before = lup.files()
    for name in shut:
        os.chmod(lup.at(name), 0)
    for name, words in not_missing():
        for more in ((), ('--missing', '9'), ('--missing', '9', '--damaged-as-gaps')):
            with tally.case((name, more)):
                wanted = (2, '', f'lup: {name}: {words}\n')
                tally.same('an error', lup.run('run', 'p.plan', name, '-o', 'out.field', *more, **as_nobody()), wanted)
    for name in ('gone.field', './gone.field', 'folder/gone.field', 'linked/gone.field', lup.at('gone.field')):
        tally.same(('missing', name), lup.run('run', 'p.plan', name, '-o', 'out.field', **as_nobody())[::2],
                   (3, f'missing: {name} (PARAM 0, 2): read as gaps\n'))
    for name in shut:
        os.chmod(lup.at(name), 0o755)
    written = lup.files()
    tally.same('the field of the last is written', written.pop(lup.at('out.field'), None), field_bytes((4,), [None] * 4, (-9, 9)))
    tally.same('nothing else is written', written == before, True)
    lup.folder = old


def test_damaged_as_gaps(tally, lup):
    """A damaged strip is read as gaps where that is asked for, is named, and counts with the missing ones."""
    lup.put('p.plan', pack(SIX + move(FLIP, 0, (0, 1))))
    wrong = [('shape', field_bytes(extents, [1] * prod(extents)), f'its shape is {shape_text(extents)}, and PARAM 0 (node 0) wants 2x3')
             for extents in ((), (6,), (3, 2), (2, 3, 1))]
    broken = [(what, data, 'not a field: ' + words.strip()) for what, data, words in damaged_fields()]
    written = 'written: out.field, node 1 (FLIP) of shape 2x3, 6 of 6 cells are gaps\n'
    for what, data, words in broken + wrong:
        with tally.case((what, words)):
            lup.put('bad.field', data)
            lup.put('out.field', OLD)
            before, call = lup.files(), ('run', 'p.plan', 'bad.field', '-o', 'out.field', '--damaged-as-gaps')
            status, text, errors = lup.run(*call, '--missing', '0')
            told = errors.split('\n')[0] + '\n'
            tally.same('too many', (status, text, errors), (1, '', told + too_many(1, 1, 0, 'missing or damaged')))
            tally.same('nothing is written', lup.files() == before, True)
            tally.same('read as gaps', lup.run(*call), (3, written, told))
            tally.holds('it is named', told.startswith(f'damaged: bad.field (PARAM 0, 2x3): {words}') and told.endswith(': read as gaps\n'), told)
            tally.same('all of it is a gap', read_field(lup.get('out.field')), ((2, 3), [None] * 6))
    lup.put('good.field', field_bytes((2, 3), [1, 2, None, 4, 5, 6]))
    tally.same('none is damaged', lup.run('run', 'p.plan', 'good.field', '-o', 'out.field', '--damaged-as-gaps')[::2], (0, ''))
    lup.put('p.plan', pack(sum((param(k, I16, -9, 9, (2, 3)) for k in range(3)), [])))
    lup.put('bad.field', field_bytes((2, 3), [1] * 6)[:-1])
    call = ('run', 'p.plan', 'gone.field', 'bad.field', 'good.field', '-o', 'out.field')
    told = ('missing: gone.field (PARAM 0, 2x3): read as gaps\n'
            'damaged: bad.field (PARAM 1, 2x3): not a field: it ends inside its flags, 1 bytes short: read as gaps\n')
    many = (1, '', told + too_many(2, 3, 1, 'missing or damaged'))
    tally.same('one missing and one damaged are two', lup.run(*call, '--damaged-as-gaps'), many)
    tally.same('and over one', lup.run(*call, '--damaged-as-gaps', '--missing', '1'), many)
    tally.same('and two may be', lup.run(*call, '--damaged-as-gaps', '--missing', '2')[::2], (3, told))
    tally.same('not asked for', lup.run(*call, '--missing', '9'), (2, '', 'lup: bad.field: not a field: it ends inside its flags, 1 bytes short\n'))


def test_report(tally, lup):
    """The report for files of strange names: JSON in UTF-8, a byte that is no UTF-8 as U+FFFD."""
    table = sum((param(k, I16, -9, 9, extents) for k, extents in enumerate(((2, 3), (2, 3), ()))), [])
    cells = [1, None, 3, None, None, 6]
    call = ('--damaged-as-gaps', '--missing', '2', '--report')
    raw = (b'\xff', b'\xe2\x82', b'\xe2\x82\xac', b'\xc0\xaf', b'\xed\xa0\x80', b'\xf0\x9f\x8c\xac', b'\xf4\x90\x80\x80',
           b'\xf0\x80\x80\x80', b'\xe0\x80\x80', b'\xf5\x80\x80\x80', b'\x80x')
    strange = ['a"b', 'a\\b', '\\"', 'a\nb\tc\x01\x1f\x7f', 'Wind é €', '{"a": [1]}', '%s%n', *map(os.fsdecode, raw)]
    for name in strange:
        plan, good, bad, gone, out, report = (f'{name}.{kind}' for kind in ('plan', 'field', 'bad', 'gone', 'out', 'json'))
        lup.put(plan, pack(table))
        lup.put(good, field_bytes((2, 3), cells))
        lup.put(bad, OLD)
        with tally.case(('a report', os.fsencode(name))):
            tally.same('its status', lup.run('run', '-o', out, '--node', '0', *call, report, '--', plan, good, bad, gone)[0], 3)
            flags = [int(cell is not None) for cell in cells] + [0] * 7
            files = [plan, good, bad, gone, out]
            shown = [re.sub('[\udc80-\udcff]', '\ufffd', file) for file in files]
            wanted = wanted_report(shown[0], table, flags, shown[1:4], ['read', 'damaged', 'missing'], shown[4], 0, cells)
            tally.same('what it says', report_of(lup, report), wanted)
        for file in filter(os.path.exists, map(lup.at, (plan, good, bad, out, report))):
            os.remove(file)
    with tally.case('no input'):
        lup.put('c.plan', pack(const(I16, 5)))
        lup.run('run', 'c.plan', '-o', 'out.field', '--report', 'r.json')
        tally.same('no input', report_of(lup, 'r.json'), wanted_report('c.plan', const(I16, 5), [], [], [], 'out.field', 0, [5]))


def test_limits(tally, lup, rng):
    """16 names the file, the PARAM, the element and the limits; numbers under gaps are not looked at."""
    for turn in range(40):
        plan = cases.make_plan(rng, turn % len(EVERY), rng.randint(0, 4))
        values, flags = cases.random_inputs(rng, plan)
        bad = rng.randrange(len(values))
        values[bad], flags[bad] = rng.choice((2 ** 63 - 1, -2 ** 63, 2 ** 31, -2 ** 31 - 1)), 1
        files = [f'in-{slot}.field' for slot in range(len(plan.params()))]
        for name, part in zip(files, parts_of(plan.table, values, flags)):
            lup.put(name, garbled(*part))
        lup.put('p.plan', pack(plan.table))
        lup.put('out.field', OLD)
        before = lup.files()
        with tally.case(('16', turn)):
            answer = model.run(plan.table, values, flags, *([0] * plan.total() for _ in range(2)))
            tally.same('the model', answer[:2], (16, bad))
            wanted = (1, '', position_text('p.plan', files, plan.table, values, bad))
            tally.same(('16', bad), lup.run('run', 'p.plan', *files, '-o', 'out.field'), wanted)
            tally.same('FIELD stays', lup.files() == before, True)
    lup.put('p.plan', pack(param(0, I16, -9, 9, (2,)) + param(1, I16, -5, 5, (2, 3)) + apply(ADD, 1, 1)))
    lup.put('a.field', field_bytes((2,), [1, 2]))
    lup.put('b.field', field_bytes((2, 3), [0, 0, 0, 0, 0, 6]))
    message = ('lup: b.field: refused 16 at element 5 (row 1 column 2) of PARAM 1 (node 1 of p.plan, input position 7): '
               'known number outside limits: 6, not -5..5\n')
    tally.same('16 word for word', lup.run('run', 'p.plan', 'a.field', 'b.field', '-o', 'out.field'), (1, '', message))
    # (02) "The buoys use −32768 for "no reading".": known it is outside all limits of i16, under a gap it is not looked at
    lup.put('p.plan', pack(param(0, I16, -32767, 32767, (3,))))
    lup.put('a.field', garbled((3,), [1, -32768, -32768], [1, 0, 1]))
    message = ('lup: a.field: refused 16 at element 2 (column 2) of PARAM 0 (node 0 of p.plan, input position 2): '
               'known number outside limits: -32768, not -32767..32767\n')
    tally.same('−32768 word for word', lup.run('run', 'p.plan', 'a.field', '-o', 'out.field'), (1, '', message))
    lup.put('a.field', garbled((3,), [1, -32768, -32768], [1, 0, 0]))
    tally.same('−32768 under gaps', lup.run('run', 'p.plan', 'a.field', '-o', 'out.field')[0::2], (0, ''))
    tally.same('−32768 under gaps: the field', lup.get('out.field'), field_bytes((3,), [1, None, None], (-32767, 32767)))


# ------------------------------------------------------------------ lookups

def test_lookups(tally, lup, rng):
    met = set()
    for case in [*cases.lookups(90, rng.randrange(2 ** 32)), *cases.hand_lookups()]:
        table, number, element = case.args
        if model.verdict(table)[0]:
            continue
        lup.put('p.plan', pack(table))
        wanted = lookup_texts('p.plan', table, number, element)
        tally.same(('lookup', number, element), lup.run('lookup', 'p.plan', str(number), str(element)), wanted)
        met.add((wanted[0], wanted[1][:5]))
    tally.same('places, gaps and 17', met >= {(0, 'node '), (0, 'a gap'), (1, '')}, True)
    turned = param(0, BOOL, 0, 1, ()) + param(1, I16, 0, 9, (40, 12)) + move(PERMUTE, 1, (1, 0))
    turned += move(PAD, 2, (14, 40), (1, 0)) + move(PAD, 3, (14, 41), (0, 1))
    lup.put('p.plan', pack(turned + const(I16, 5) + node(LOAD, {1: 3, 6: 2}) + move(FLIP, 6, (1, 0))))
    for words, line in (((1, 17), 'node 1 element 17: PARAM 1 of shape 40x12, row 1 column 5'),
                        ((2, 201), 'node 1 element 17: PARAM 1 of shape 40x12, row 1 column 5'),
                        ((3, 0), 'a gap: PAD put it there (node 3)'), ((4, 0), 'a gap: PAD put it there (one of the nodes 4, 3)'),
                        ((6, 0), 'a gap: PAD put it there (node 3)'), ((7, 0), 'a gap: PAD put it there (node 3)'),
                        ((0, 0), 'node 0 element 0: PARAM 0 of shape -'), ((5, 0), 'node 5 element 0: CONST of the number 5')):
        tally.same(('lookup', words), lup.run('lookup', 'p.plan', *map(str, words)), (0, line + '\n', ''))


# -------------------------------------------------------------------- shown

def fields_to_show(rng):
    """Extents and cells of every rank, all gaps, one value, and numbers as far apart as they can be."""
    for extents in ((), (1,), (7,), (3, 5), (1, 1), (40, 12), (2, 3, 4), (1, 1, 1), (2, 1, 3, 2), (1, 2, 2, 2)):
        count = prod(extents)
        yield extents, [None] * count
        yield extents, [5] * count
        yield extents, [rng.choice((None, -3)) for _ in range(count)]
        yield extents, [rng.choice((None, rng.randint(-500, 500))) for _ in range(count)]
        yield extents, [rng.randint(0, 9) for _ in range(count)]
    yield (11,), list(range(11))
    yield (3, 130), [k % 17 for k in range(390)]
    yield (1013, 1), [k % 17 for k in range(1013)]
    yield (9,), list(range(9))
    yield (2, 2), [-2 ** 63, 2 ** 63 - 1, 0, None]


def test_shown(tally, lup, rng):
    tally.same('no shade is a digit, a blank or a hatch', set(SHADES) & set('0123456789 /'), set())
    for extents, cells in fields_to_show(rng):
        flags = [int(cell is not None) for cell in cells]
        lup.put('f.field', garbled(extents, [rng.randint(-10 ** 6, 10 ** 6) if cell is None else cell for cell in cells], flags))
        with tally.case(('show', extents)):
            status, text, errors = lup.run('show', 'f.field')
            tally.same(('show', extents), (status, text, errors), (0, drawing('f.field', extents, cells), ''))
            rows = picture_rows(text)
            tally.same(('cells are two wide', extents), sum(map(len, rows)), 2 * len(cells))
            tally.same(('no number in a cell', extents), [row for row in rows if re.search(r'[0-9 ]', row)], [])
            pairs = [row[k:k + 2] for row in rows for k in range(0, len(row), 2)]
            tally.same(('gaps are hatched', extents), [pair == '//' for pair in pairs], [cell is None for cell in cells])
    tally.same('word for word', lup.run('show', lup.put('f.field', field_bytes((2, 3), [0, None, 8, 4, 2, 6])))[1],
               'f.field, shape 2x3\n\n..//@@\n++--##\n\n0 .. :: -- == ++ ** ## %% @@ 8\n// gap: 1 of 6 cells\n')


def scales_to_show(rng, cells):
    """Options of a scale, the bounds of the field file or None, and the scale that the two give. The ends are drawn at random, so cells lie outside."""
    low, high = least_to_greatest(cells)
    nothing = cells.count(None) == len(cells)
    yield (), None, (low, high)
    for bounds in ((-2 ** 63, 2 ** 63 - 1), (-7, 7), (5, 5), (-100, 0)):
        yield (), bounds, bounds
    first, second = sorted(rng.randint(-600, 600) for _ in range(2))
    for bounds in (None, (-7, 7)):
        yield ('--low', str(first), '--high', str(second)), bounds, (first, second)
        yield ('--high', str(second), '--low', str(second)), bounds, (second, second)
    yield ('--low', str(-2 ** 63), '--high', str(2 ** 63 - 1)), None, (-2 ** 63, 2 ** 63 - 1)
    yield ('--low', '-0', '--high', '0009'), (-7, 7), (0, 9)
    yield ('--low', '-40'), (-7, 7), (-40, 7)
    yield ('--high', '40'), (-7, 7), (-7, 40)
    yield ('--low', str(low - 3)), None, (low - 3, low - 3 if nothing else high) if low > -2 ** 63 else (low, high)
    yield ('--high', str(low + 3)), None, (low + 3 if nothing else low, low + 3)


def test_scales(tally, lup, rng):
    """The text and the SVG picture of a field on one scale, whichever says it: every shade, the legend, the count of the cells outside."""
    met = set()
    for extents, cells in fields_to_show(rng):
        for words, bounds, scale in scales_to_show(rng, cells):
            if scale[0] < -2 ** 63 or words and words[-1] == str(-2 ** 63 - 3):
                continue
            with tally.case(('a scale', extents, words, bounds)):
                lup.put('f.field', field_bytes(extents, cells, bounds))
                tally.same('the text', lup.run('show', *words, 'f.field'), (0, drawing('f.field', extents, cells, scale), ''))
                test_one_svg(tally, lup, extents, cells, words, bounds, scale)
            met.add(outside_text(cells, scale)[:7])
    tally.same('with and without cells outside', met, {'', 'outside'})
    lup.put('f.field', field_bytes((2, 3), [0, None, 8, 4, 2, 6], (0, 80)))
    tally.same('word for word', lup.run('show', 'f.field', '--low', '2', '--high', '4')[1],
               'f.field, shape 2x3\n\n..//@@\n@@..@@\n\n2 .. :: -- == ++ ** ## %% @@ 4\n'
               'outside the scale, drawn as its ends: 3 of 6 cells, 1 below and 2 above\n// gap: 1 of 6 cells\n')
    for words, low, high in ((('--low', '81'), 81, 80), (('--high', '-1'), 0, -1), (('--low', '5', '--high', '4'), 5, 4)):
        before = lup.files()
        for more in ((), ('--svg', 'new.svg')):
            with tally.case((words, more, 'low above high')):
                message = f"lup: show: the scale's low end {low} is above its high end {high}\n"
                tally.same('an error', lup.run('show', 'f.field', *words, *more), (2, '', message))
                tally.same('nothing is written', lup.files() == before, True)


def colour(scale, value):
    light, dark, at = (222, 235, 247), (8, 48, 107), step(scale, value, 254)
    return '#' + ''.join('%02x' % (a - (a - b) * at // 253) for a, b in zip(light, dark))


SVG = '{http://www.w3.org/2000/svg}'


def sides_of(extents):
    """Height and width of a cell: squares of 12 pixels, of fewer where a picture would be over 1200 along one side; one row or column alone keeps 12."""
    rows, columns = ((1, 1) + tuple(extents))[-2:]
    side = min(12, max(1, 1200 // max(rows, columns)))
    return side if rows > 1 else 12, side if columns > 1 else 12


def places(extents, shown):
    """Row and column of every rectangle within its picture, by its own x and y."""
    (rows, columns), (high, wide) = ((1, 1) + tuple(extents))[-2:], sides_of(extents)
    found = []
    for first in range(0, len(shown), rows * columns):
        own = [(int(rect.get('y')), int(rect.get('x'))) for rect in shown[first:first + rows * columns]]
        found += [((y - own[0][0]) / high, (x - own[0][1]) / wide) for y, x in own]
    return found


def test_one_svg(tally, lup, extents, cells, words=(), bounds=None, scale=None):
    known = [cell for cell in cells if cell is not None]
    scale = scale or least_to_greatest(cells)
    lup.put('f.field', field_bytes(extents, cells, bounds))
    report = f'written: f.svg, {cells.count(None)} of {len(cells)} cells are gaps\n'
    tally.same(('show --svg', extents), lup.run('show', 'f.field', '--svg', 'f.svg', *words), (0, report, ''))
    root = ElementTree.fromstring(lup.get('f.svg'))
    rects = [rect for rect in root.findall(f'{SVG}rect') if rect.get('class') in ('known', 'gap')]
    test_page(tally, root, rects)
    test_axes(tally, root, extents, rects)
    tally.same(('a rectangle a cell', extents), [rect.get('class') for rect in rects], ['gap' if cell is None else 'known' for cell in cells])
    tally.same(('their fill', extents), [rect.get('fill') for rect in rects], ['url(#gap)' if cell is None else colour(scale, cell) for cell in cells])
    rows, columns = ((1, 1) + tuple(extents))[-2:]
    tally.same(('their places', extents), places(extents, rects), [(k // columns % rows, k % columns) for k in range(len(cells))])
    tally.same(('no two at one place', extents), len({(rect.get('x'), rect.get('y')) for rect in rects}), len(cells))
    legend = root.find(f'{SVG}g[@id="legend"]')
    texts = {item.get('id'): item.text for item in legend.findall(f'{SVG}text')}
    wanted = {'gaps': f'gap: {cells.count(None)} of {len(cells)} cells', **({'low': str(scale[0]), 'high': str(scale[1])} if known else {None: 'no known number'})}
    wanted |= {'outside': outside_text(cells, scale)} if outside_text(cells, scale) else {}
    tally.same(('legend', extents), texts, wanted)
    tally.same(('low stands left of high', extents), not known or place_of(legend, 'low')[0] < place_of(legend, 'high')[0], True)
    stops = [(stop.get('offset'), stop.get('stop-color')) for stop in root.findall(f'{SVG}defs/{SVG}linearGradient[@id="colours"]/{SVG}stop')]
    tally.same(('the colours of the legend', extents), stops, [('0', colour(scale, scale[0])), ('1', colour(scale, scale[1]))])
    samples = ['url(#colours)'] * bool(known) + ['url(#gap)']
    tally.same(('samples', extents), [rect.get('fill') for rect in legend.findall(f'{SVG}rect')], samples)
    tally.same(('hatching', extents), len(root.findall(f'{SVG}defs/{SVG}pattern[@id="gap"]/{SVG}path')), 1)
    titles = [item.text for item in root.findall(f'{SVG}text')]
    tally.same(('titles', extents), len(titles), 1 + (prod(extents[:-2]) if len(extents) > 2 else 0))


def box(rect):
    return [int(rect.get(name)) for name in ('x', 'y', 'width', 'height')]


def test_page(tally, root, rects):
    """A white page as large as the viewBox under all else, and every cell and text on it; no text is white."""
    _, _, width, height = page = [int(number) for number in root.get('viewBox').split()]
    tally.same('the page', (page[:2], root.get('width'), root.get('height')), ([0, 0], str(width), str(height)))
    tally.same('its background is first', (root[0].tag, root[0].get('class'), root[0].get('fill'), box(root[0])), (SVG + 'rect', 'background', '#ffffff', page))
    tally.same('black text', (root.get('fill'), [item for item in root.iter(SVG + 'text') if item.get('fill')]), ('#000000', []))
    right, low = max(x + w for x, _, w, _ in map(box, rects)), max(y + h for _, y, _, h in map(box, rects))
    legend = root.find(f'{SVG}g[@id="legend"]')
    tops = [int(item.get('y')) for item in legend.iter() if item.get('y')]
    tally.same('cells and legend on the page', right <= width and low < min(tops) <= max(tops) <= height, True)


def tick_steps():
    """1, 2, 5, 10, 20, 50, .."""
    return [digit * 10 ** power for power in range(7) for digit in (1, 2, 5)]


def test_axes(tally, root, extents, rects):
    """Each number stands beside the middle of its row or under that of its column; numbers begin with 0, are equally far apart, and do not touch."""
    (rows, columns), (high, wide) = ((1, 1) + tuple(extents))[-2:], sides_of(extents)
    first = rects[::rows * columns] if len(rects) == prod(extents) else rects[:1]
    for axis, extent, rank, side in (('rows', rows, 2, high), ('columns', columns, 1, wide)):
        groups = root.findall(f'{SVG}g[@class="{axis}"]')
        tally.same(('an axis a picture', axis), len(groups), len(first) if len(extents) >= rank else 0)
        for group, (x, y, _, _) in zip(groups, map(box, first)):
            texts, paths = group.findall(f'{SVG}text'), group.findall(f'{SVG}path')
            numbers = [int(item.text) for item in texts]
            apart = numbers[1] if len(numbers) > 1 else extent
            tally.same(('numbers', axis), numbers, list(range(0, extent, apart)))
            tally.holds(('their step', axis), len(numbers) == 1 or apart in tick_steps(), numbers)
            tally.holds(('so many', axis, extent), len(numbers) <= 40 and (extent > 10 or side < 12 or len(numbers) == extent) and (extent * side < 100 or len(numbers) > 1), numbers)
            middles = [(y if axis == 'rows' else x) + side * number + side // 2 for number in numbers]
            wanted = [f'M{x} {middle}h-4' if axis == 'rows' else f'M{middle} {y + high * rows}v4' for middle in middles]
            tally.same(('ticks', axis), [path.get('d') for path in paths], wanted)
            at = [int(item.get('y')) - 4 if axis == 'rows' else int(item.get('x')) for item in texts]
            tally.same(('beside the ticks', axis), at, middles)
            tally.same(('clear of the cells', axis), all(int(item.get('x')) < x if axis == 'rows' else int(item.get('y')) - 9 >= y + high * rows for item in texts), True)
            across = 8 * len(str(numbers[-1]))
            tally.same(('they do not touch', axis), len(numbers) < 2 or side * apart >= (12 if axis == 'rows' else across), True)
            tally.same(('on the page', axis), axis == 'columns' or all(int(item.get('x')) >= 7 * len(item.text) for item in texts), True)


# ------------------------------------------------------------------- images

RED = '#b03030'


def chunks_of(data):
    """The chunks of a PNG file, each with a right CRC; nothing before or after them but the signature."""
    assert data[:8] == b'\x89PNG\r\n\x1a\n', data[:8]
    at, found = 8, []
    while at < len(data):
        length, kind = struct.unpack_from('>I4s', data, at)
        body, = struct.unpack_from(f'>{length}s', data, at + 8)
        assert struct.unpack_from('>I', data, at + 8 + length)[0] == zlib.crc32(kind + body), kind
        found.append((kind, body))
        at += 12 + length
    return found


def decoded(data):
    """The rows of a PNG file's pixels as colours. zlib checks the sum of Adler."""
    (first, header), (second, palette), *several, last = chunks_of(data)
    kinds, packed = {kind for kind, _ in several}, b''.join(body for _, body in several)
    assert (first, second, kinds, last) == (b'IHDR', b'PLTE', {b'IDAT'}, (b'IEND', b'')), (first, second, kinds, last)
    width, height, *rest = struct.unpack('>2I5B', header)
    inflater = zlib.decompressobj()
    pixels = inflater.decompress(packed)
    assert inflater.eof and not inflater.unused_data and rest == [8, 3, 0, 0, 0] and len(pixels) == (width + 1) * height, (rest, len(pixels))
    rows = [pixels[k * (width + 1):(k + 1) * (width + 1)] for k in range(height)]
    assert all(row[0] == 0 for row in rows), 'a filter'
    colours = ['#' + palette[k:k + 3].hex() for k in range(0, len(palette), 3)]
    return [[colours[pixel] for pixel in row[1:]] for row in rows]


def colours_of(extents, cells, scale):
    """The colour of each cell, red for gaps: rows of the pictures."""
    rows, columns = ((1, 1) + tuple(extents))[-2:]
    known = {value: colour(scale, value) for value in set(cells) - {None}}
    drawn = [RED if cell is None else known[cell] for cell in cells]
    lines = [drawn[k:k + columns] for k in range(0, len(drawn), columns)]
    return [lines[k:k + rows] for k in range(0, len(lines), rows)]


def pixels_of(pictures, size):
    """Pictures of colours with so many pixels a cell, a white line a cell high between two."""
    found = []
    for picture in pictures:
        lines = [[cell for cell in line for _ in range(size)] for line in picture for _ in range(size)]
        found += [['#ffffff'] * len(lines[0]) for _ in range(size)] * bool(found) + lines
    return found


def test_png(tally, lup, rng):
    """Every pixel of the PNG picture of fields of all ranks, on several scales; what is told of the scale."""
    several = [(extents, cells, *rng.choice(list(scales_to_show(rng, cells))[:6])) for extents, cells in fields_to_show(rng)]
    large = [rng.choice((None, rng.randint(-9, 9))) for _ in range(512 * 700)]
    several += [((512, 700), large, (), None, (-9, 9)), ((1, 70000), large[:70000], (), (-20, 20), (-20, 20)), ((65, 64), large[:4160], (), None, (-9, 9)),
                ((MOST,), [k % 5 for k in range(MOST)], (), None, (0, 4)), ((MOST, 1), [k % 5 for k in range(MOST)], (), None, (0, 4))]
    for extents, cells, words, bounds, scale in several:
        size = max(size for size in range(1, 17) if size == 1 or len(cells) * size * size <= 1048576)
        outside = outside_text(cells, scale)
        told = f'written: f.png, {cells.count(None)} of {len(cells)} cells are gaps\nscale: {scale[0]} to {scale[1]}\n{outside}' + '\n' * bool(outside)
        with tally.case(('show --png', extents, words, bounds)):
            lup.put('f.field', field_bytes(extents, cells, bounds))
            tally.same('what is told', lup.run('show', 'f.field', '--png', 'f.png', *words), (0, told, ''))
            tally.same('every pixel', decoded(lup.get('f.png')) == pixels_of(colours_of(extents, cells, scale), size), True)
    tally.same('no gap looks like a number', RED in {colour((0, 253), k) for k in range(254)}, False)
    lup.put('f.field', field_bytes((2,), [3, 7], (0, 600)))
    tally.same('title and unit', lup.run('show', 'f.field', '--png', 'f.png', '--title', 'Wind', '--unit', 'kn')[1],
               'written: f.png, 0 of 2 cells are gaps\ntitle: Wind\nscale: 0 to 600 kn\n')


def large_fields(rng):
    """Fields of many cells: extents, cells, and what draws them: cells, rectangles or images."""
    noise = [rng.choice((None, *range(9))) for _ in range(512 * 512)]
    bands = (lambda rows, columns, wide: [(None, 3, 700)[(column // wide + row // 7) % 3] for row in range(rows) for column in range(columns)])
    yield (100, 200), noise[:20000], 'cells'
    yield (100, 200), bands(100, 200, 40), 'cells'
    yield (1, 20001), bands(1, 20001, 100), 'runs'
    yield (3, 6667), noise[:20001], 'images'
    yield (512, 512), noise, 'images'
    yield (512, 512), [rng.randint(-2 ** 31, 2 ** 31 - 1) for _ in range(512 * 512)], 'images'
    yield (512, 512), bands(512, 512, 128), 'runs'
    yield (200, 200), [None] * 40000, 'runs'
    yield (200, 200), [7] * 40000, 'runs'
    yield (4, 50, 101), bands(200, 101, 20), 'runs'
    yield (2, 2, 60, 90), noise[:21600], 'images'
    yield (4000, 6), [row for row in range(4000) for _ in range(6)], 'runs'
    yield (4001, 6), [row for row in range(4001) for _ in range(6)], 'images'


def cells_drawn(root, extents):
    """The colour at each cell's place, by the rectangles and images of the page: pictures of rows; and the class of each. None where nothing is drawn."""
    (rows, columns), (high, wide) = ((1, 1) + tuple(extents))[-2:], sides_of(extents)
    numbered = root.findall(f'{SVG}g[@class="columns"]/{SVG}path')
    ends = sorted({int(path.get('d').split()[1].split('v')[0]) for path in numbered})
    tops, found = [end - high * rows for end in ends], [[[None] * columns for _ in range(rows)] for _ in ends]
    left = int(numbered[0].get('d')[1:].split()[0]) - wide // 2
    for item in root.findall(f'{SVG}rect') + root.findall(f'{SVG}image'):
        if item.get('class') not in ('known', 'gap', 'cells'):
            continue
        x, y, width, height = box(item)
        picture = max(k for k, top in enumerate(tops) if top <= y)
        row, column = (y - tops[picture]) // high, (x - left) // wide
        lines = decoded(base64.b64decode(item.get('href').split(',')[1], validate=True)) if item.get('class') == 'cells' else None
        lines = lines or [[{'known': item.get('fill'), 'gap': RED}[item.get('class')]] * (width // wide)]
        assert (high * len(lines), wide * len(lines[0])) == (height, width) and (y - tops[picture]) % high == (x - left) % wide == 0, (x, y, width, height)
        for k, line in enumerate(lines):
            assert found[picture][row + k][column:column + len(line)] == [None] * len(line), 'two at one place'
            found[picture][row + k][column:column + len(line)] = line
    return found


def test_large_svg(tally, lup, rng):
    """Fields of many cells: every cell has its colour, whatever draws it; gaps are hatched or have the legend's colour; no file is larger than it may be."""
    for extents, cells, way in large_fields(rng):
        with tally.case(('a large SVG', extents, way)):
            lup.put('f.field', field_bytes(extents, cells))
            tally.same('written', lup.run('show', 'f.field', '--svg', 'f.svg')[::2], (0, ''))
            data = lup.get('f.svg')
            root = ElementTree.fromstring(data)
            tally.same('every cell', cells_drawn(root, extents) == colours_of(extents, cells, least_to_greatest(cells)), True)
            kinds = [item.get('class') for item in root if item.get('class') in ('known', 'gap', 'cells')]
            drawn = 'images' if 'cells' in kinds else 'cells' if len(kinds) == len(cells) else 'runs'
            tally.same('drawn as', drawn, way)
            tally.same('images alone', way != 'images' or kinds == ['cells'] * prod(extents[:-2]), True)
            fills = {item.get('fill') for item in root if item.get('class') == 'gap'}
            tally.same('gaps are hatched', fills <= {'url(#gap)'}, True)
            sample = root.find(f'{SVG}g[@id="legend"]/{SVG}rect[@class="legend-gap"]').get('fill')
            tally.same('the mark for gaps in the legend', sample, RED if way == 'images' else 'url(#gap)')
            tally.holds('its size', way == 'cells' or len(data) < 500000, len(data))
            if way == 'runs':
                tally.same('each run once', kinds, runs_of(extents, cells))


def runs_of(extents, cells):
    """The class of each run of one colour in a row."""
    scale, found = least_to_greatest(cells), []
    for picture in colours_of(extents, cells, scale):
        for line in picture:
            found += ['gap' if cell == RED else 'known' for k, cell in enumerate(line) if k == 0 or cell != line[k - 1]]
    return found


def test_words(tally, lup):
    """Titles and units of any bytes: as they are in the text picture, in SVG escaped, what is no UTF-8 and no character of XML as U+FFFD."""
    field = field_bytes((2,), [3, 7], (0, 600))
    raw = (b'\xff', b'\xe2\x82', b'\xc0\xaf', b'\xed\xa0\x80', b'\xf4\x90\x80\x80', b'\xf0\x80\x80\x80', b'a\x80b', b'\xef\xbf')
    plain = ['', 'Wind, 06:00', 'é € \U0001f32c', '<b>&amp;"\'', ']]>', '<!--', '&#0;', '%s%n', 'x' * 3000, '-5', '--svg', '\ufffd\ufffc\ufdd0']
    strange = [os.fsdecode(word) for word in raw] + ['a\tb\nc\r\x01\x1f\x7f', '\ufffe\uffff']
    lup.put('f.field', field)
    for word in plain + strange:
        shown = re.sub('[\x00-\x1f\x7f\ufffe\uffff\udc80-\udcff]', '\ufffd', word)
        with tally.case(('words', word.encode(errors='surrogateescape')[:40])):
            for name, other in (('title', 'unit'), ('unit', 'title')):
                tally.same('written', lup.run('show', 'f.field', '--svg', 'f.svg', f'--{name}', word)[0], 0)
                root = ElementTree.fromstring(lup.get('f.svg').decode('utf-8'))
                found = {item.get('id'): item.text or '' for item in root.iter(SVG + 'text')}
                tally.same(name, found[name], shown)
                tally.same(('no other word', name), found.get(other), {'unit': None, 'title': 'f.field, shape 2'}[other])
                tally.holds(('on the page', name), int(root.get('width')) >= 300 * (name == 'unit') + 6 * len(shown))
            text = lup.run('show', 'f.field', '--unit', word, '--title', word)[1]
            tally.same('the text picture', text, f'{word}\n\n....\n\n0 .. :: -- == ++ ** ## %% @@ 600 {word}\n// gap: 0 of 2 cells\n')
    lup.put('f.field', field_bytes((2,), [None, None]))
    tally.same('no unit where nothing is known', lup.run('show', 'f.field', '--unit', 'kn')[1], drawing('f.field', (2,), [None] * 2))


def place_of(legend, name):
    """x and y of the legend's text of that id."""
    text = legend.find(f'{SVG}text[@id="{name}"]')
    return int(text.get('x')), int(text.get('y'))


def test_svg(tally, lup, rng):
    for extents, cells in fields_to_show(rng):
        with tally.case(('show --svg', extents)):
            test_one_svg(tally, lup, extents, cells)
    for name in ('a&b<c>"d".field', 'ünder\x01\n.field', '-- ]]>.field'):
        with tally.case(('a strange name', name)):
            lup.put(name, OLD)
            tally.same(('a strange name', name), lup.run('show', '--svg', 'f.svg', '--', name)[0], 0)
            shown = ''.join(c if ' ' <= c else '\ufffd' for c in name)
            tally.same(('its title', name), ElementTree.fromstring(lup.get('f.svg')).find(f'{SVG}text[@id="title"]').text, shown + ', shape 2')
        os.remove(lup.at(name))


# ------------------------------------------------------- damaged field files

def damaged_fields():
    """What is wrong, the bytes, and what the message says of it."""
    good = field_bytes((2, 3), [1, 2, None, 4, 5, 6])
    word = (lambda k, n: good[:8 * k] + n.to_bytes(8, 'little') + good[8 * k + 8:])
    yield from ((f'{cut} bytes', good[:cut], 'it ends inside its ' + part) for cut, part in (
        (0, 'first 8 bytes, 8 bytes short'), (7, 'first 8 bytes, 1 bytes short'), (8, 'rank, 8'), (15, 'rank, 1'), (16, 'extents, 16'), (31, 'extents, 1'),
        (32, 'values, 48'), (79, 'values, 1'), (80, 'flags, 6'), (85, 'flags, 1')))
    yield 'one byte more', good + b'\0', 'there are bytes after its last flag\n'
    yield 'many more', good + good, 'there are bytes after its last flag\n'
    ranged = range_bytes(-9, 9)
    yield from ((f'{cut} bytes of bounds', good + ranged[:cut], f'it ends inside its bounds, {24 - cut} bytes short\n') for cut in (1, 7, 8, 9, 16, 23))
    yield from (('after the bounds', good + ranged + more, 'there are bytes after its last flag\n') for more in (b'\0', ranged, good))
    yield from (('no bounds', good + more, 'there are bytes after its last flag\n') for more in (
        b'LUPRANGF' + ranged[8:], b'lUPRANGE' + ranged[8:], b'LUPX', bytes(24), b'\n', ranged[8:], bytes(MOST)))
    yield from (('bounds', good + range_bytes(low, high), f'its bounds are {low}..{high}, low above high\n') for low, high in (
        (1, 0), (0, -1), (2 ** 63 - 1, -2 ** 63)))
    yield from (('magic', good[:k] + b'x' + good[k + 1:], 'it does not begin with LUPFIELD') for k in (0, 7))
    yield from (('rank', word(1, n), f'its rank is {n}, not 0..4') for n in (5, 2 ** 32, 2 ** 64 - 1))
    yield from (('extent', word(2, n), f'its extent 0 is {n}, not 1..1048576') for n in (0, MOST + 1, 2 ** 32 + 2, 2 ** 64 - 1))
    yield from (('extent', word(3, n), f'its extent 1 is {n}, not 1..1048576') for n in (0, MOST + 1))
    yield 'too many', word(2, MOST), 'its shape 1048576x3 has over 1048576 elements'
    yield 'too many', word(2, 349526), 'its shape 349526x3 has over 1048576 elements'
    header = b'LUPFIELD' + (4).to_bytes(8, 'little')
    yield 'product 0 in 64 bits', header + MOST.to_bytes(8, 'little') * 4, 'its shape 1048576x1048576x1048576x1048576 has over 1048576 elements'
    yield 'the most elements, none there', word(2, 349525), 'it ends inside its values, 8388546 bytes short'
    yield from (('flag', good[:80 + k] + bytes([n]) + good[81 + k:], f'the flag of element {k} is {n}, neither 0 nor 1') for k, n in ((0, 2), (5, 255)))


def test_damaged_fields(tally, lup):
    lup.put('p.plan', pack(SIX + move(FLIP, 0, (0, 1))))
    lup.put('out.field', OLD)
    for what, data, words in damaged_fields():
        with tally.case((what, words)):
            lup.put('bad.field', data)
            before = lup.files()
            for call in (('show', 'bad.field'), ('show', 'bad.field', '--svg', 'x.svg'), ('run', 'p.plan', 'bad.field', '-o', 'out.field')):
                status, text, errors = lup.run(*call)
                tally.same((what, call[0]), (status, text), (2, ''))
                tally.holds((what, 'its message', call[0]), errors.startswith('lup: bad.field: not a field: ' + words), errors)
            tally.same((what, 'nothing is written'), lup.files() == before, True)
            tally.same((what, 'the reader here'), read_field(data), None)
    os.mkdir(lup.at('folder'))
    for call in (('show', 'folder'), ('run', 'p.plan', 'folder', '-o', 'out.field'), ('check', 'folder'), ('list', 'folder'), ('lookup', 'folder', '0', '0'),
                 ('unpack', 'folder'), ('pack', 'folder', '-o', 'out.plan')):
        status, text, errors = lup.run(*call)
        tally.same((call, 'a directory'), (status, text, errors.startswith('lup: folder: ')), (2, '', True))
    status, text, errors = lup.run('show', 'none.field')
    tally.same('show of nothing', (status, text, errors), (2, '', 'lup: none.field: it cannot be opened: No such file or directory\n'))
    for call in (('check', 'no.plan'), ('list', 'no.plan'), ('lookup', 'no.plan', '0', '0'), ('run', 'no.plan', '-o', 'out.field'), ('unpack', 'no.plan')):
        tally.same(call, lup.run(*call), (2, '', 'lup: no.plan: the plan cannot be opened: No such file or directory\n'))
    os.rmdir(lup.at('folder'))


def test_round_trip(tally, lup, rng):
    """A field through a plan of one PARAM comes back byte for byte, numbers under gaps aside, with the PARAM's limits as its bounds."""
    for extents in ((), (1,), (5,), (3, 4), (2, 3, 2), (2, 1, 2, 3)):
        for _ in range(3):
            cells = [rng.choice((None, rng.randint(-2 ** 31, 2 ** 31 - 1), 2 ** 31 - 1, -2 ** 31)) for _ in range(prod(extents))]
            lup.put('p.plan', pack(param(0, I32, -2 ** 31, 2 ** 31 - 1, extents)))
            lup.put('a.field', garbled(extents, [rng.randint(-2 ** 63, 2 ** 63 - 1) if cell is None else cell for cell in cells],
                                       [int(cell is not None) for cell in cells]))
            with tally.case(('round trip', extents)):
                tally.same(('round trip', extents), lup.run('run', 'p.plan', 'a.field', '-o', 'b.field')[0], 0)
                tally.same(('its bytes', extents), lup.get('b.field') == field_bytes(extents, cells, (-2 ** 31, 2 ** 31 - 1)), True)
                tally.same(('through once more', extents), lup.run('run', 'p.plan', 'b.field', '-o', 'c.field')[0], 0)
                tally.same(('the same bytes', extents), lup.get('c.field') == lup.get('b.field'), True)


# ----------------------------------------------------- output, whole or none

def refused_outputs(lup):
    """Calls that must leave everything as it was, with words of their message. Every name is in the test's own folder: a program that is wrong, run by
    root, would put a plain file in the place of a device."""
    run = ('run', 'p.plan', 'a.field', '-o')
    yield (*run, 'folder'), 'no plain file'
    yield (*run, 'link.field'), 'no plain file'
    yield (*run, 'pipe.field'), 'no plain file'
    yield (*run, 'none/out.field'), 'No such file or directory'
    yield (*run, 'none/'), 'No such file or directory'
    yield (*run, 'out.field/x'), 'Not a directory'
    yield (*run, ''), 'empty'
    yield (*run, 'n' * 300), 'File name too long'
    for same in ('a.field', './a.field', 'folder/../a.field', lup.at('a.field'), 'hard.field', 'p.plan'):
        yield (*run, same), 'to be read and to be written'
    yield ('run', 'p.plan', 'gone.field', '-o', './gone.field'), 'to be read and to be written'
    yield ('run', 'p.plan', 'wrong.field', '-o', 'out.field'), 'lup: wrong.field: its shape is 2x3, and PARAM 0 (node 0) wants 2\n'
    yield ('run', 'p.plan', 'rank.field', '-o', 'out.field'), 'lup: rank.field: its shape is 2x1, and PARAM 0 (node 0) wants 2\n'
    yield ('run', 'six.plan', 'a.field', '-o', 'out.field'), 'lup: a.field: its shape is 2, and PARAM 0 (node 0) wants 2x3\n'
    yield ('run', 'six.plan', 'point.field', '-o', 'out.field'), 'lup: point.field: its shape is -, and PARAM 0 (node 0) wants 2x3\n'
    yield ('run', 'p.plan', 'a.field/b', '-o', 'out.field'), 'lup: a.field/b: it cannot be opened: Not a directory\n'
    yield ('run', 'p.plan', '', '-o', 'out.field'), 'empty'
    report = ('run', 'p.plan', 'a.field', '-o', 'new.field', '--report')
    for same in ('a.field', './a.field', 'folder/../a.field', 'hard.field', 'p.plan'):
        yield (*report, same), 'to be read and to be written'
    yield from (((*report, same), 'the field and the report are one file') for same in ('new.field', './new.field', lup.at('new.field')))
    yield ('run', 'p.plan', 'a.field', '-o', 'out.field', '--report', './out.field'), 'the field and the report are one file'
    yield ('run', 'p.plan', 'gone.field', '-o', 'new.field', '--report', './gone.field'), 'to be read and to be written'
    yield (*report, ''), 'empty'
    yield from (((*report, name), 'no plain file') for name in ('folder', 'link.field', 'pipe.field'))
    yield (*report, 'none/r.json'), 'No such file or directory'
    yield ('run', 'p.plan', 'a.field', '-o', 'none/out.field', '--report', 'r.json'), 'No such file or directory'
    svg = ('show', 'a.field', '--svg')
    yield from (((*svg, same), 'to be read and to be written') for same in ('a.field', './a.field', 'hard.field'))
    yield from ((('show', 'a.field', '--png', same), 'to be read and to be written') for same in ('a.field', './a.field', 'hard.field'))
    yield from ((('show', 'a.field', '--png', name), 'no plain file') for name in ('folder', 'link.field', 'pipe.field'))
    yield (*svg, 'folder'), 'no plain file'
    yield (*svg, 'none/x.svg'), 'No such file or directory'
    for call, source, hard in ((('pack', 't.table', '-o'), 't.table', 'hard.table'), (('unpack', 'p.plan', '-o'), 'p.plan', 'hard.plan')):
        yield from (((*call, same), 'to be read and to be written') for same in (source, f'./{source}', f'folder/../{source}', lup.at(source), hard))
        yield from (((*call, name), 'no plain file') for name in ('folder', 'link.field', 'pipe.field'))
        yield (*call, 'none/x'), 'No such file or directory'
        yield (*call, ''), 'empty'


def test_output(tally, lup):
    lup.put('p.plan', pack(PADDED))
    lup.put('a.field', field_bytes((2,), [7, 9]))
    lup.put('six.plan', pack(SIX))
    lup.put('point.field', field_bytes((), [1]))
    lup.put('wrong.field', field_bytes((2, 3), [1] * 6))
    lup.put('rank.field', field_bytes((2, 1), [1] * 2))
    lup.put('out.field', OLD)
    os.mkdir(lup.at('folder'))
    os.symlink('out.field', lup.at('link.field'))
    os.mkfifo(lup.at('pipe.field'))
    lup.put('t.table', TABLE)
    hard = {'a.field': 'hard.field', 't.table': 'hard.table', 'p.plan': 'hard.plan'}
    for name, link in hard.items():
        os.link(lup.at(name), lup.at(link))
    before = lup.files()
    for call, words in refused_outputs(lup):
        with tally.case(call):
            status, text, errors = lup.run(*call)
            tally.same((call, 'status'), (status, text), (2, ''))
            tally.holds((call, 'message'), errors.startswith('lup: ') and words in errors and errors.count('\n') == 1, errors)
            tally.same((call, 'all stays'), lup.files() == before, True)
    for name in ('link.field', 'pipe.field', *hard.values()):
        os.remove(lup.at(name))
    with tally.case('a file in another folder'):
        tally.same('a file in another folder', lup.run('run', 'p.plan', 'a.field', '-o', 'folder/a.field')[0], 0)
        tally.same('its cells', read_field(lup.get('folder/a.field')), ((4,), [None, 7, 9, None]))
        tally.same('nothing beside it', os.listdir(lup.at('folder')), ['a.field'])
    os.remove(lup.at('folder/a.field'))
    os.rmdir(lup.at('folder'))


def as_nobody():
    """Root may write everywhere, so it becomes nobody."""
    return {'user': 65534, 'group': 65534} if os.getuid() == 0 else {}


def test_closed_folder(tally, lup):
    os.mkdir(lup.at('closed'))
    lup.put('closed/out.field', OLD)
    os.chmod(lup.at('closed/out.field'), 0o666)
    os.chmod(lup.at('closed'), 0o555)
    before = lup.files()
    for call in (('run', 'p.plan', 'a.field', '-o', 'closed/out.field'), ('show', 'a.field', '--svg', 'closed/out.svg'),
                 ('pack', 't.table', '-o', 'closed/out.plan'), ('unpack', 'p.plan', '-o', 'closed/out.table')):
        status, text, errors = lup.run(*call, **as_nobody())
        tally.same((call, 'a closed folder'), (status, text, errors.split(': ')[-1]), (2, '', 'Permission denied\n'))
    tally.same('nothing in a closed folder', lup.files() == before, True)
    os.chmod(lup.at('closed'), 0o755)
    os.remove(lup.at('closed/out.field'))
    os.rmdir(lup.at('closed'))


def short_files():
    resource.setrlimit(resource.RLIMIT_FSIZE, (60, 60))


def test_full(tally, lup):
    """A disk that is full under FIELD, and standard output that cannot be written."""
    lup.put('long.table', TABLE * 9)
    before = lup.files()
    for call in (('run', 'p.plan', 'a.field', '-o', 'out.field'), ('show', 'a.field', '--svg', 'out.svg'), ('show', 'a.field', '--png', 'out.png'),
                 ('pack', 'long.table', '-o', 'out.plan'), ('unpack', 'p.plan', '-o', 'out.table')):
        with tally.case((call, 'full')):
            status, text, errors = lup.run(*call, preexec_fn=short_files)
            tally.same((call, 'full'), (status, text, errors), (2, '', f'lup: {call[-1]}: it cannot be written: File too large\n'))
            tally.same((call, 'full, all stays'), lup.files() == before, True)
    with tally.case('a report that is full'):
        lup.put('c.plan', pack(const(I16, 5)))
        before = lup.files()
        wanted = (2, '', 'lup: r.json: it cannot be written: File too large\n')
        tally.same('full', lup.run('run', 'c.plan', '-o', 'out.field', '--report', 'r.json', preexec_fn=short_files), wanted)
        tally.same('the field stays', lup.files() == before, True)
    message = 'lup: standard output cannot be written\n'
    with os.fdopen(os.open('/dev/full', os.O_WRONLY), 'wb') as full:
        for call in (('list', 'p.plan'), ('list', '--dot', 'p.plan'), ('check', 'p.plan'), ('lookup', 'p.plan', '0', '0'), ('show', 'a.field'),
                     ('unpack', 'p.plan'), ('unpack', 'p.plan', '-o', '-'), ('pack', 't.table', '-o', '-'), ('--help',), ('--version',),
                     ('run', '--help')):
            tally.same((call, 'no output'), lup.run(*call, stdout=full), (2, '', message))
        tally.same('where the missing cannot be told', lup.run('run', 'p.plan', 'gone.field', '-o', 'out.field', stderr=full), (2, '', ''))
        tally.same('nothing is written', lup.files() == before, True)
        tally.same('a report that is lost', lup.run('run', 'p.plan', 'a.field', '-o', 'out.field', stdout=full), (2, '', message))
        tally.same('what is told is lost', lup.run('pack', 't.table', '-o', 'out.plan', stdout=full), (2, '', message))
    os.remove(lup.at('out.plan'))


# ------------------------------------------------- how files are replaced

def mode_of(lup, name):
    return stat.S_IMODE(os.lstat(lup.at(name)).st_mode)


def left_over(lup):
    return [name for name in os.listdir(lup.folder) if name.endswith('.tmp')]


WRITING = (('run', 'p.plan', 'a.field', '-o', 'n.out'), ('run', 'p.plan', 'a.field', '-o', 'n.field', '--report', 'n.out'),
           ('show', 'a.field', '--svg', 'n.out'), ('pack', 't.table', '-o', 'n.out'), ('unpack', 'p.plan', '-o', 'n.out'))


def test_modes(tally, lup):
    """A replaced file keeps its mode whatever the umask is; a new one has that of any new file."""
    for call in WRITING:
        for mask in (0, 0o022, 0o077):
            for mode in (None, 0o600, 0o640, 0o444, 0o666, 0o755):
                if mode is not None:
                    lup.put('n.out', OLD)
                    os.chmod(lup.at('n.out'), mode)
                with tally.case(('mode', call, mask, mode)):
                    tally.same('its status', lup.run(*call, preexec_fn=lambda: os.umask(mask))[0], 0)
                    tally.same('its mode', oct(mode_of(lup, 'n.out')), oct(0o666 & ~mask if mode is None else mode))
                    tally.same('it is new', lup.get('n.out') != OLD, True)
                os.remove(lup.at('n.out'))
    os.remove(lup.at('n.field'))
    name = 'n' * 255
    for turn in ('new', 'replaced'):
        tally.same(('the longest name', turn), lup.run('run', 'p.plan', 'a.field', '-o', name)[0], 0)
    os.remove(lup.at(name))


def test_taken(tally, lup):
    """Files and links that have the temporary names already: another name is taken, and they stay."""
    for makes in (lambda name: os.symlink('victim', name), lambda name: os.link('victim', name)):
        lup.put('victim', OLD)
        for call in WRITING:
            with tally.case(('taken', call)):
                held = lambda: [makes(f'.lup-{os.getpid()}-{k}.tmp') for k in range(3)]  # noqa: E731
                tally.same('its status', lup.run(*call, preexec_fn=held)[0], 0)
                tally.same('the victim stays', lup.get('victim'), OLD)
                tally.same('what was there stays', len(left_over(lup)), 3)
                tally.same('a plain file', stat.S_ISREG(os.lstat(lup.at('n.out')).st_mode), True)
                for name in left_over(lup) + ['n.out']:
                    os.remove(lup.at(name))
    every = lambda: [os.link('victim', f'.lup-{os.getpid()}-{k}.tmp') for k in range(100)]  # noqa: E731
    wanted = (2, '', 'lup: n.out: no file can be made beside it: File exists\n')
    tally.same('all names are taken', lup.run(*WRITING[0], preexec_fn=every), wanted)
    for name in left_over(lup) + ['victim', 'n.field']:
        os.remove(lup.at(name))


def gone_process():
    """The number of a process that is no more."""
    done = subprocess.Popen(['true'])
    done.wait()
    return done.pid


def test_left(tally, lup):
    """What a killed run has left is removed after a minute; whatever else has such a name, or nearly, stays."""
    gone, old = gone_process(), time.time() - 61
    removed = [f'.lup-{gone}-{k}.tmp' for k in (0, 1, 99)]
    kept = [f'.lup-{gone}-100.tmp', f'.lup-{gone}-00.tmp', f'.lup-0{gone}-0.tmp', f'.lup-+{gone}-0.tmp', f'.lup- {gone}-0.tmp', f'.lup-{gone}-0.tmpx',
            f'.lup-{gone}-0.tm', f'lup-{gone}-0.tmp', f'.lup-{gone}.tmp', '.lup--1-0.tmp', '.lup-0-0.tmp', f'.lup-{gone}--1.tmp',
            f'.lup-{2 ** 32 + gone}-0.tmp', f'.lupasm-{gone}-0.tmp', f'.lup-{os.getpid()}-0.tmp', f'x.{gone}-0.tmp']
    for name in removed + kept:
        lup.put(name, OLD)
        os.utime(lup.at(name), (old, old))
    lup.put(f'.lup-{gone}-3.tmp', OLD)
    os.mkdir(lup.at(f'.lup-{gone}-4.tmp'))
    os.symlink('p.plan', lup.at(f'.lup-{gone}-5.tmp'))
    own = [f'.lup-{gone}-{k}.tmp' for k in (3, 4, 5)]
    if os.getuid() == 0:
        own.append(lup.put(f'.lup-{gone}-6.tmp', OLD))
        os.chown(lup.at(own[-1]), 65534, 65534)
    for name in own[1:]:
        os.utime(lup.at(name), (old, old), follow_symlinks=False)
    before = set(os.listdir(lup.folder))
    for call in (('check', 'p.plan'), ('show', 'a.field')):
        tally.same(('nothing is written', call), (lup.run(*call)[0], set(os.listdir(lup.folder)) == before), (0, True))
    tally.same('a run', lup.run(*WRITING[0])[0], 0)
    after = set(os.listdir(lup.folder))
    tally.same('what is removed', before - after, set(removed))
    tally.same('what comes', after - before, {'n.out'})
    os.rmdir(lup.at(own[1]))
    for name in (after & set(own + kept) - {own[1]}) | {'n.out'}:
        os.remove(lup.at(name))


def met_writing(lup, number):
    """A program that has been sent the signal while its temporary file was there. It is started again where it was too quick for that."""
    for _ in range(20):
        process = subprocess.Popen([lup.path, 'show', 'large.field', '--svg', 'n.svg'], cwd=lup.folder, stdout=subprocess.PIPE, stderr=subprocess.PIPE,
                                   preexec_fn=lambda: signal.signal(number, signal.SIG_DFL))
        while not left_over(lup) and process.poll() is None:
            time.sleep(0.001)
        process.send_signal(signal.SIGSTOP)
        if left_over(lup):
            break
        process.send_signal(signal.SIGCONT)
        process.communicate(timeout=60)
    process.send_signal(number)
    process.send_signal(signal.SIGCONT)
    return process


def test_signals(tally, lup):
    """A signal that comes while a file is written ends the program once the file is there, and nothing beside it."""
    lup.put('large.field', field_bytes((512, 512), [k % 9 for k in range(512 * 512)]))
    for number in (signal.SIGHUP, signal.SIGINT, signal.SIGTERM):
        with tally.case(('a signal', number)):
            process = met_writing(lup, number)
            tally.same('what is told', process.communicate(timeout=60), (b'', b''))
            tally.same('its end', process.returncode, -number)
            tally.same('nothing beside the file', left_over(lup), [])
            tally.same('the whole file', os.path.exists(lup.at('n.svg')) and lup.get('n.svg')[-7:], b'</svg>\n')
        for name in [name for name in os.listdir(lup.folder) if name == 'n.svg' or name.endswith('.tmp')]:
            os.remove(lup.at(name))
    os.remove(lup.at('large.field'))


FSYNC, FCHMOD = 74, 91


def failing(call, descriptor, code):
    """Lets the kernel answer a call on a descriptor with an error: a filter of system calls, by their numbers on x86-64."""
    steps = ((0x20, 0, 0, 0), (0x15, 0, 3, call), (0x20, 0, 0, 16), (0x15, 0, 1, descriptor), (0x06, 0, 0, 0x50000 | code), (0x06, 0, 0, 0x7fff0000))
    program = ctypes.create_string_buffer(b''.join(struct.pack('=HBBI', *step) for step in steps))
    filled = ctypes.create_string_buffer(struct.pack('@HP', len(steps), ctypes.addressof(program)))
    control = ctypes.CDLL(None, use_errno=True).prctl
    if control(38, 1, 0, 0, 0) != 0 or control(22, 2, filled, 0, 0) != 0:
        raise OSError(ctypes.get_errno(), 'no filter of system calls')


def test_synced(tally, lup):
    """The file and after it its folder are brought to the disk; a folder that cannot be is told, unless its file system has no such call."""
    message = 'lup: n.out: it is written, and its folder cannot be brought to the disk: Input/output error\n'
    for call in (WRITING[0], *WRITING[2:]):
        for descriptor, code, wanted in ((3, errno.EIO, (2, '', message)), (3, errno.EINVAL, (0, None, '')),
                                         (4, errno.EIO, (2, '', 'lup: n.out: it cannot be written: Input/output error\n'))):
            lup.put('n.out', OLD)
            with tally.case(('fsync', call, descriptor, code)):
                got = lup.run(*call, preexec_fn=lambda: failing(FSYNC, descriptor, code))
                tally.same('what is told', got[::2] if wanted[1] is None else got, wanted[::2] if wanted[1] is None else wanted)
                tally.same('the old file stays', lup.get('n.out') == OLD, descriptor == 4)
                tally.same('nothing beside it', left_over(lup), [])
    for mode, wanted in ((0o600, (0, '')), (0o666, (2, 'lup: n.out: its mode cannot be kept: Operation not permitted\n'))):
        # a file that others may not read is never open to them, so that 0600 needs no change
        lup.put('n.out', OLD)
        os.chmod(lup.at('n.out'), mode)
        with tally.case(('fchmod', mode)):
            tally.same('what is told', lup.run(*WRITING[0], umask=0o022, preexec_fn=lambda: failing(FCHMOD, 4, errno.EPERM))[::2], wanted)
            tally.same('its mode', mode_of(lup, 'n.out'), mode)
            tally.same('nothing beside it', left_over(lup), [])
    with tally.case('a folder that may not be read'):
        os.mkdir(lup.at('drop'))
        os.chmod(lup.at('drop'), 0o333)
        wanted = (2, '', 'lup: drop/x: its folder cannot be opened: Permission denied\n')
        tally.same('a folder that may not be read', lup.run('run', 'p.plan', 'a.field', '-o', 'drop/x', **as_nobody()), wanted)
        os.chmod(lup.at('drop'), 0o755)
        tally.same('nothing is written', os.listdir(lup.at('drop')), [])
        os.rmdir(lup.at('drop'))
    os.remove(lup.at('n.out'))


# --------------------------------------------------------- standard streams

def piped(lup, data, *call, **more):
    """A call that gets the bytes on its standard input."""
    return lup.run(*call, input=data, **more)


def test_standard_input(tally, lup):
    plan, field = pack(PADDED), field_bytes((2,), [7, None])
    lup.put('p.plan', plan)
    lup.put('a.field', field)
    for call in (('list', 'p.plan'), ('list', '--dot', 'p.plan'), ('check', 'p.plan'), ('lookup', 'p.plan', '1', '1'), ('lookup', 'p.plan', '1', '0'),
                 ('run', 'p.plan', 'a.field', '-o', 'x.out'), ('show', 'a.field'), ('pack', 't.table', '-o', 'x.out'), ('unpack', 'p.plan'),
                 ('unpack', 'p.plan', '-o', 'x.out')):
        for name, data in (('p.plan', plan), ('a.field', field), ('t.table', TABLE)):
            if name in call:
                with tally.case(('from standard input', call, name)):
                    wanted = lup.run(*call)[:2] + (lup.get('x.out') if 'x.out' in call else b'',)
                    got = piped(lup, data, *('-' if word == name else word for word in call))[:2] + (lup.get('x.out') if 'x.out' in call else b'',)
                    tally.same('the same as from a file', got, (wanted[0], wanted[1].replace('a.field,', '-,'), wanted[2]))
    tally.same('a refusal', piped(lup, b'\1\0\4', 'check', '-'), (1, '', refusal_text('-', b'\1\0\4')))
    tally.same('no field', piped(lup, field[:-1], 'show', '-'), (2, '', 'lup: -: not a field: it ends inside its flags, 1 bytes short\n'))
    tally.same('no input is missing', piped(lup, b'', 'run', 'p.plan', '-', '-o', 'x.out')[0], 2)
    for words, count in ((('-', '-'), 2), (('-', 'a.field', '-'), 2), (('p.plan', '-', '-', '-'), 3)):
        wanted = (2, '', f'lup: run: - is given {count} times, and standard input can be read once\n')
        tally.same(('more than one', words), piped(lup, plan, 'run', *words, '-o', 'x.out'), wanted)
    for name, data in (('-', plan), ('x.out', OLD)):
        lup.put(name, data)
    tally.same('a file of that name', piped(lup, b'', 'check', './-'), (0, 'accepted: 2 nodes, 6 elements\n', ''))
    with open(lup.at('a.field'), 'rb') as file:
        tally.same('written where it is read', lup.run('run', 'p.plan', '-', '-o', 'a.field', stdin=file)[::2],
                   (2, 'lup: -: it is to be read and to be written; nothing was done\n'))
    for name in ('-', 'x.out'):
        os.remove(lup.at(name))


def test_standard_output(tally, lup):
    field = field_bytes((4,), [None, 7, None, None], (-9, 9))
    told = 'written: {}, node 1 (PAD) of shape 4, 3 of 4 cells are gaps\n'
    run = ('run', 'p.plan', 'a.field', '-o')
    code = (lambda got: (got[0], got[1].encode(errors='surrogateescape'), got[2]))
    tally.same('a field', code(lup.run(*run, '-')), (0, field, told.format('-')))
    with tally.case('a field, and a report in a file'):
        tally.same('a field', code(lup.run(*run, '-', '--report', 'r.json')), (0, field, told.format('-') + 'written: r.json, the report\n'))
        tally.same('its report', report_of(lup, 'r.json')['output']['file'], '-')
    with tally.case('a report'):
        status, text, errors = lup.run(*run, 'x.out', '--report', '-')
        tally.same('what is told', (status, errors), (0, told.format('x.out') + 'written: -, the report\n'))
        tally.same('what it says', (json.loads(text)['output']['file'], lup.get('x.out')), ('x.out', field))
    with tally.case('a picture'):
        lup.run('show', 'a.field', '--svg', 'x.out')
        tally.same('a picture', code(lup.run('show', 'a.field', '--svg', '-')), (0, lup.get('x.out'), 'written: -, 1 of 2 cells are gaps\n'))
    with tally.case('a plan and a table'):
        tally.same('a plan', code(lup.run('pack', 't.table', '-o', '-')), (0, pack(PADDED), PACKED.format('-')))
        tally.same('a table', code(lup.run('unpack', 'p.plan', '-o', '-')), (0, TABLE, 'written: -, 2 nodes\n'))
        tally.same('a table that is not named', code(lup.run('unpack', 'p.plan')), (0, TABLE, ''))
    with tally.case('a file of that name'):
        tally.same('a file of that name', lup.run(*run, './-'), (0, told.format('./-'), ''))
        tally.same('its field', lup.get('-'), field)
    for name in ('-', 'x.out', 'r.json'):
        os.remove(lup.at(name))
    before = lup.files()
    tally.same('two at once', lup.run(*run, '-', '--report', '-'), (2, '', 'lup: -: the field and the report are one file; nothing was done\n'))
    for name, call, words in (('a.field', (*run, '-'), 'lup: a.field: it is to be read'), ('p.plan', (*run, '-'), 'lup: p.plan: it is to be read'),
                              ('a.field', (*run, 'x.out', '--report', '-'), 'lup: a.field: it is to be read'),
                              ('a.field', ('show', 'a.field', '--svg', '-'), 'lup: a.field: it is to be read'),
                              ('t.table', ('pack', 't.table', '-o', '-'), 'lup: t.table: it is to be read'),
                              ('p.plan', ('unpack', 'p.plan'), 'lup: p.plan: it is to be read'),
                              ('p.plan', ('unpack', 'p.plan', '-o', '-'), 'lup: p.plan: it is to be read'),
                              ('b.field', (*run, 'b.field', '--report', '-'), 'lup: -: the field and the report are one file'),
                              ('b.field', (*run, '-', '--report', 'b.field'), 'lup: b.field: the field and the report are one file')):
        with open(lup.at(name), 'ab') as file, tally.case(('standard output is that file', call)):
            status, _, errors = lup.run(*call, stdout=file)
            tally.same('what is told', (status, errors[:len(words)]), (2, words))
    tally.same('all stays', lup.files() == before, True)


def close_both():
    os.close(0)
    os.close(1)


def test_lost_streams(tally, lup):
    """Standard output that is full, closed or read by nobody: nothing is written, nothing is left."""
    before, run = lup.files(), ('run', 'p.plan', 'a.field', '-o', '-', '--report', 'r.json')
    wanted = (2, '', 'lup: standard output cannot be written\n')
    with os.fdopen(os.open('/dev/full', os.O_WRONLY), 'wb') as full:
        for call in (run, ('run', 'p.plan', 'a.field', '-o', 'r.field', '--report', '-'), ('show', 'a.field', '--svg', '-'),
                     ('pack', 't.table', '-o', '-'), ('unpack', 'p.plan')):
            tally.same(('full', call), lup.run(*call, stdout=full), wanted)
    tally.same('closed', lup.run(*run, preexec_fn=close_both), wanted)
    for call, what in (('check', '-'), 'plan'), (('unpack', '-'), 'plan'), (('pack', '-', '-o', 'x.out'), 'table'):
        tally.same(('closed, and read', call), lup.run(*call, preexec_fn=close_both), (2, '', f'lup: -: the {what} cannot be read: Bad file descriptor\n'))
    ends = os.pipe()
    os.close(ends[0])
    tally.same('read by nobody', lup.run(*run, stdout=ends[1])[0], -signal.SIGPIPE)
    os.close(ends[1])
    tally.same('all stays', lup.files() == before, True)


def test_slow_reader(tally, lup):
    """A program that waits for the reader of its standard output ends by a signal."""
    lup.put('large.field', field_bytes((64, 64), [k % 9 for k in range(64 * 64)]))
    for number in (signal.SIGINT, signal.SIGTERM):
        with subprocess.Popen([lup.path, 'show', 'large.field', '--svg', '-'], cwd=lup.folder, stdout=subprocess.PIPE,
                              preexec_fn=lambda: signal.signal(number, signal.SIG_DFL)) as process:
            process.stdout.read(1)
            process.send_signal(number)
            try:
                ended = process.wait(timeout=20)
            except subprocess.TimeoutExpired:
                ended = process.kill()
            tally.same(('a reader that waits', number), ended, -number)
    os.remove(lup.at('large.field'))


def broken_input(data):
    """What gives these bytes and then an error in place of their end: a terminal whose other side is gone."""
    near, far = os.openpty()
    tty.setraw(far)
    os.write(far, data)
    os.close(far)
    return near


def test_broken_input(tally, lup):
    """An error after the last byte is no end: whole fields and plans that cannot be read to their end are not taken."""
    before = lup.files()
    for call, data, words in ((('show', '-'), field_bytes((2,), [7, 9]), 'it'), (('check', '-'), pack(PADDED), 'the plan'),
                              (('unpack', '-'), pack(PADDED), 'the plan'), (('pack', '-', '-o', 'x.out'), TABLE, 'the table'),
                              (('pack', '-', '-o', 'x.out'), TABLE + b'0 0', 'the table'), (('pack', '-', '-o', 'x.out'), b'', 'the table'),
                              (('run', 'p.plan', '-', '-o', 'x.out', '--missing', '9', '--damaged-as-gaps'), field_bytes((2,), [7, 9]), 'it'),
                              (('show', '-'), field_bytes((2,), [7, 9])[:-1], 'it'), (('show', '-'), b'', 'it'),
                              (('show', '-'), field_bytes((2,), [7, 9], (-9, 9)), 'it'), (('show', '-'), field_bytes((2,), [7, 9], (-9, 9))[:-1], 'it')):
        near = broken_input(data)
        tally.same(('an error at its end', call, len(data)), lup.run(*call, stdin=near), (2, '', f'lup: -: {words} cannot be read: Input/output error\n'))
        os.close(near)
    tally.same('nothing is written', lup.files() == before, True)


# ---------------------------------------------------------- help and misuse

RUN = ('run', 'p.plan', 'a.field', '-o', 'x')
NO_NUMBERS = ('-1', '1x', '', ' 1', '+1', '0x1', '18446744073709551616')
MISUSE = [
    ((), 'no command is given'), (('-q',), "no command '-q'"), (('lists', 'p.plan'), "no command 'lists'"),
    (('--versio',), "no command '--versio'"), (('check', '--version'), 'check: there is no option --version'), (('',), "no command ''"),
    (('list',), 'list: wanted one PLAN, and 0 given'), (('list', 'p.plan', 'p.plan'), 'and 2 given'),
    (('list', 'p.plan', '--svg'), 'no option --svg'), (('list', 'p.plan', '--dot', '--dot'), '--dot is given twice'),
    (('list', '--', '--dot'), 'lup: --dot: the plan cannot be opened'),
    (('check',), 'check: wanted one PLAN, and 0 given'), (('check', 'p.plan', '0'), 'and 2 given'), (('check', '--dot', 'p.plan'), 'no option --dot'),
    (('run',), 'run: wanted one PLAN and at most 16 INPUTs, and 0 given'), (('run', 'p.plan', 'a.field'), 'run: -o FIELD is not given'),
    (('run', 'p.plan', 'a.field', '-o'), 'nothing follows -o'), ((*RUN, '-o', 'y'), '-o is given twice'),
    (('run', 'p.plan', '-o', 'x'), 'p.plan has 1 PARAM, and 0 input files are given'),
    ((*RUN, 'a.field'), 'p.plan has 1 PARAM, and 2 input files are given'),
    (('run', 'c.plan', 'a.field', '-o', 'x'), 'c.plan has 0 PARAMs, and 1 input file is given'),
    ((*RUN, *['a.field'] * 16), 'and 18 given'), ((*RUN, '--nodes', '1'), 'no option --nodes'),
    ((*RUN, '--node'), 'nothing follows --node'), ((*RUN, '--node', '2'), 'run: --node 2: the nodes of p.plan are 0..1'),
    *(((*RUN, '--node', word), f"run: --node '{word}' is no whole number 0..1\n") for word in NO_NUMBERS),
    ((*RUN, '--node', '18446744073709551615'), 'run: --node 18446744073709551615: the nodes of p.plan are 0..1\n'),
    (('run', 'c.plan', '-o', 'x', '--node', 'one'), "run: --node 'one' is no whole number 0..0\n"),
    ((*RUN, '--missing'), 'nothing follows --missing'), ((*RUN, '--missing', '1', '--missing', '1'), '--missing is given twice'),
    *(((*RUN, '--missing', word), f"--missing '{word}' is no whole number 0..18446744073709551615\n") for word in (*NO_NUMBERS, 'all')),
    (('run', 'c.plan', '-o', 'x', '--missing', 'x'), "--missing 'x' is no whole number"),
    ((*RUN, '--damaged-as-gaps', '--damaged-as-gaps'), '--damaged-as-gaps is given twice'), ((*RUN, '--damaged'), 'no option --damaged'),
    ((*RUN, '--report'), 'nothing follows --report'), ((*RUN, '--report', 'r', '--report', 'r'), '--report is given twice'),
    (('lookup',), 'lookup: wanted PLAN, NODE and ELEMENT, and 0 given'), (('lookup', 'p.plan', '0'), 'and 2 given'),
    (('lookup', 'p.plan', '0', '0', '0'), 'and 4 given'), (('lookup', 'p.plan', '-1', '0'), 'lookup: there is no option -1, and no number here is below 0'),
    (('lookup', 'p.plan', '0', '-12'), 'lookup: there is no option -12, and no number here is below 0'),
    (('lookup', '--', 'p.plan', '-1', '0'), "NODE '-1' is no whole number"), ((*RUN, '-7'), 'run: there is no option -7, and'),
    (('lookup', 'p.plan', 'one', '0'), "lookup: NODE 'one' is no whole number 0..1\n"),
    (('lookup', 'p.plan', '0', '0.0'), "lookup: ELEMENT '0.0' is no whole number 0..1\n"),
    (('lookup', 'p.plan', '1', '0.0'), "lookup: ELEMENT '0.0' is no whole number 0..3\n"),
    (('lookup', 'p.plan', '9', 'x'), "lookup: ELEMENT 'x' is no whole number 0..1048575\n"),
    (('lookup', 'p.plan', '99999999999999999999', '0'), "lookup: NODE '99999999999999999999' is no whole number 0..1\n"),
    (('lookup', 'p.plan', '1', '18446744073709551616'), "lookup: ELEMENT '18446744073709551616' is no whole number 0..3\n"),
    (('show',), 'show: wanted one FIELD, and 0 given'), (('show', 'a.field', 'a.field'), 'and 2 given'),
    (('show', 'a.field', '--svg'), 'nothing follows --svg'), (('show', 'a.field', '--svg', 'x', '--svg', 'x'), '--svg is given twice'),
    *((('show', 'a.field', end, word), f"show: {end} '{word}' is no whole number from -9223372036854775808 to 9223372036854775807") for end in ('--low', '--high')
      for word in ('', '-', '--', '+1', '1x', ' 1', '0x1', '1-', '--1', '1.0', '9223372036854775808', '-9223372036854775809', '18446744073709551617')),
    (('show', 'a.field', '--low'), 'nothing follows --low'), (('show', 'a.field', '--title'), 'nothing follows --title'),
    (('show', 'a.field', '--png'), 'nothing follows --png'), (('show', 'a.field', '--png', 'x', '--svg', 'y'), '--svg and --png are both given'),
    (('show', 'a.field', '--png', ''), 'empty'),
    (('show', 'a.field', '--unit', 'kn', '--unit', 'kn'), '--unit is given twice'), (('show', 'a.field', '--high', '1', '--high', '1'), '--high is given twice'),
    (('show', '-o', 'x', 'a.field'), 'no option -o'), (('show', 'a.field', '--svg', ''), 'empty'), (('show', ''), 'cannot be opened'),
]


MISUSE += [
    (('pack',), 'pack: wanted one TABLE, and 0 given'), (('pack', 't.table', 't.table', '-o', 'x'), 'and 2 given'),
    (('pack', 't.table'), 'pack: -o PLAN is not given; see lup pack --help'), (('pack', 't.table', '-o'), 'pack: nothing follows -o'),
    (('pack', 't.table', '-o', 'x', '-oy'), 'pack: -o is given twice'), (('pack', 't.table', '-o', ''), 'empty'), (('pack', '--node', '1'), 'no option --node'),
    (('pack', '', '-o', 'x'), 'lup: : the table cannot be opened'), (('pack', '-1', '-o', 'x'), 'pack: there is no option -1'),
    (('unpack',), 'unpack: wanted one PLAN, and 0 given'), (('unpack', 'p.plan', 'x'), 'and 2 given'), (('unpack', 'p.plan', '-o'), 'nothing follows -o'),
    (('unpack', 'p.plan', '-ox', '-ox'), 'unpack: -o is given twice'), (('unpack', 'p.plan', '-o', ''), 'empty'), (('unpack', '--back', 'x'), 'no option --back'),
]
# Beginnings of names, values where none is taken, options joined to others.
MISUSE += [
    *(((*RUN, word), f'run: there is no option {name}; see lup run --help') for word, name in (
        ('--nod', '--nod'), ('--nod=1', '--nod'), ('--n', '--n'), ('--miss=1', '--miss'), ('--damaged-as-gap', '--damaged-as-gap'), ('--rep', '--rep'),
        ('--nodes=1', '--nodes'), ('--Node=1', '--Node'), ('--o=x', '--o'), ('--hel', '--hel'), ('-q', '-q'), ('-qo', '-q'), ('-n1', '-n'), ('-é', '-é'))),
    (('list', 'p.plan', '--do'), 'list: there is no option --do'), (('list', 'p.plan', '--d'), 'no option --d'),
    (('show', 'a.field', '--sv', 'x'), 'show: there is no option --sv'), (('check', 'p.plan', '--hel'), 'check: there is no option --hel'),
    (('list', 'p.plan', '--dot=1'), 'list: --dot takes no value'), (('list', 'p.plan', '--dot='), 'list: --dot takes no value'),
    ((*RUN, '--damaged-as-gaps=1'), 'run: --damaged-as-gaps takes no value'), (('check', '--help=1'), 'check: --help takes no value'),
    ((*RUN, '-oy'), 'run: -o is given twice'), ((*RUN, '--node=0', '--node', '0'), 'run: --node is given twice'),
    ((*RUN, '--node='), "--node '' is no whole number"), ((*RUN, '--node=-1'), "--node '-1' is no whole number"),
    (('run', 'p.plan', 'a.field', '-o', ''), 'empty'), (('show', 'a.field', '--svg='), 'empty'), (('run', '-q', '--help'), 'no option -q'),
    (('run', '--', 'p.plan', 'a.field', '-o', 'x'), 'run: -o FIELD is not given'),
]


def test_forms(tally, lup):
    """Every form of an option, anywhere among the words, also where the environment asks for POSIX."""
    lup.put('p.plan', pack(PADDED))
    lup.put('a.field', field_bytes((2,), [7, 9]))
    told = 'written: x.out, node 0 (PARAM) of shape 2, 0 of 2 cells are gaps\n'
    calls = [('p.plan', 'a.field', *output, *number) for output in (('-ox.out',), ('-o', 'x.out')) for number in (('--node=0',), ('--node', '0'))]
    calls += [('-ox.out', '--node=0', 'p.plan', 'a.field'), ('p.plan', '--node', '0', 'a.field', '-o', 'x.out'),
              ('--node=0', 'p.plan', '-ox.out', '--', 'a.field'),
              ('-o', 'x.out', '--node', '0', '--', 'p.plan', 'a.field'), ('p.plan', '-o', 'x.out', 'a.field', '--node=0', '--'),
              ('--missing=0', 'p.plan', '--damaged-as-gaps', 'a.field', '-ox.out', '--node=0')]
    for call in calls:
        for environment in (QUICK, {**QUICK, 'POSIXLY_CORRECT': '1'}):
            with tally.case((call, len(environment))):
                tally.same('a form', lup.run('run', *call, environment=environment), (0, told, ''))
                tally.same('its field', read_field(lup.get('x.out')), ((2,), [7, 9]))
    for value in ('-x', '--help', '--', '-o'):
        tally.same(('a value that looks like an option', value), lup.run('run', 'p.plan', 'a.field', '-o', value)[0], 0)
        os.remove(lup.at(value))
    lup.put('-p.plan', pack(PADDED))
    tally.same('a name that looks like an option', lup.run('check', '--', '-p.plan'), (0, 'accepted: 2 nodes, 6 elements\n', ''))
    tally.same('no help after --', lup.run('check', '--', '-h')[0], 2)
    for name in ('x.out', '-p.plan'):
        os.remove(lup.at(name))


def test_misuse(tally, lup):
    lup.put('p.plan', pack(PADDED))
    lup.put('c.plan', pack(const(I16, 5)))
    lup.put('a.field', field_bytes((2,), [7, 9]))
    before = lup.files()
    for call, words in MISUSE:
        with tally.case(call):
            status, text, errors = lup.run(*call)
            tally.same((call, 'status'), (status, text), (2, ''))
            tally.holds((call, 'message'), errors.startswith('lup: ') and words in errors, errors)
    tally.same('misuse writes nothing', lup.files() == before, True)
    tally.same('every command is misused', {call[0] for call, _ in MISUSE if call} >= set(COMMANDS), True)


def test_version(tally, lup):
    """The version is that of the header, which has it once."""
    with open(os.path.join(ROOT, 'include', 'lupetzarin.h'), encoding='ascii') as file:
        parts = dict(re.findall(r'^#define LUP_VERSION_(MAJOR|MINOR|PATCH) (\d+)$', file.read(), re.M))
    tally.same('--version', lup.run('--version'), (0, 'lup {MAJOR}.{MINOR}.{PATCH}\n'.format(**parts), ''))


def test_help(tally, lup):
    status, text, errors = lup.run('--help')
    tally.same('--help', (status, errors), (0, ''))
    tally.same('-h', lup.run('-h'), (0, text, ''))
    usages = re.findall(r'^    (lup (\w+) .*)$', text, re.M)
    tally.same('every command in the help', tuple(name for _, name in usages), COMMANDS)
    tally.same('the same on misuse', all(usage in lup.run()[2] for usage, _ in usages), True)
    for usage, name in usages:
        for call in ((name, '--help'), (name, '-h'), (name, 'x', '--help', '-q'), (name, 'x', '-h', 'x', 'x', '--none')):
            with tally.case(call):
                status, text, errors = lup.run(*call)
                tally.same((call, 'help'), (status, text.split('\n')[0], errors), (0, usage, ''))
                tally.holds((call, 'words'), "after '--' there" in text and "'-' is standard input" in text)
                tally.holds((call, 'exit statuses'), 'Exit status: 0 done; 1 refused' in text and '3 done, with inputs missing or damaged' in text)
                options = set(re.findall(r'--?[a-z][a-z-]*', usage))
                tally.same((call, 'a line for each option'), set(re.findall(r'^(--?[a-z][a-z-]*) ', text, re.M)), options)


# ------------------------------------------------------------ random damage

def changed(rng, data):
    """The bytes with one to three changed, put in, taken out, cut off or appended."""
    data = bytearray(data)
    for _ in range(rng.randint(1, 3)):
        way, at = rng.randrange(5), rng.randrange(len(data) + 1)
        if way < 2 and data:
            data[at % len(data)] = rng.choice((0, 1, 2, 127, 128, 255, rng.randrange(256)))
        elif way == 2:
            data.insert(at, rng.randrange(256))
        elif way == 3 and data:
            del data[at % len(data):rng.choice((at % len(data) + 1, None))]
        else:
            data += rng.randbytes(rng.randint(1, 9))
    return bytes(data)


def test_damaged_plans(tally, lup, rng, count):
    met = set()
    plans = [pack(cases.make_plan(rng, op, rng.randint(0, 4)).table) for op in EVERY]
    for turn in range(count):
        data = changed(rng, rng.choice(plans))
        lup.put('p.plan', data)
        number = model.unpack_check(data) // 65536
        met.add(number)
        if turn % 4 == 0:
            tally.same(('check', data.hex()), lup.run('check', 'p.plan', environment=QUICK), wanted_check('p.plan', data))
        elif turn % 4 == 1:
            status, text, errors = lup.run('list', '--dot', 'p.plan', environment=QUICK)
            tally.same(('dot', data.hex()), (status, bool(text), errors), (int(number > 0), number == 0, refusal_text('p.plan', data) if number else ''))
        elif turn % 4 == 2 or number:
            tally.same(('list', data.hex()), lup.run('list', 'p.plan', environment=QUICK), wanted_list('p.plan', data))
        else:
            table = model.unpack_and_verdict(data)[1]
            place = rng.randrange(len(table) // 17 + 1), rng.choice((0, rng.randrange(9), rng.randrange(2 ** 64)))
            tally.same(('lookup', data.hex()), lup.run('lookup', 'p.plan', *map(str, place), environment=QUICK), lookup_texts('p.plan', table, *place))
    tally.holds('damaged plans meet many refusals', len(met) >= 10 or count < 300, met)


def test_damaged_cells(tally, lup, rng, count):
    """Damaged field files: what can still be read is shown and run, all else is unreadable."""
    shapes = ((), (2,), (2, 3), (3, 2), (1, 2, 3), (1, 2, 1, 3))
    fields = [field_bytes(extents, [rng.choice((None, rng.randint(-9, 9))) for _ in range(prod(extents))], bounds)
              for extents in shapes for bounds in (None, (-9, 9))]
    lup.put('p.plan', pack(SIX + move(FLIP, 0, (0, 1))))
    lup.put('out.field', OLD)
    met = set()
    for turn in range(count):
        data = changed(rng, rng.choice(fields)) if turn % 5 else field_bytes((2, 3), [rng.choice((None, rng.randint(-10, 10))) for _ in range(6)])
        read, before = read_field(data), lup.get('out.field')
        lup.put('f.field', data)
        with tally.case((turn, data.hex())):
            if turn % 2:
                status, text, errors = lup.run('show', 'f.field', environment=QUICK)
                tally.same(('show', data.hex()), (status, text), (0, drawing('f.field', *read, bounds_of(data))) if read else (2, ''))
            else:
                status, text, errors = lup.run('run', 'p.plan', 'f.field', '-o', 'out.field', environment=QUICK)
                fits = read is not None and read[0] == (2, 3)
                inside = fits and all(cell is None or -9 <= cell <= 9 for cell in read[1])
                tally.same(('run', data.hex()), status, 0 if inside else 1 if fits else 2)
                flipped = field_bytes((2, 3), [read[1][k] for k in (2, 1, 0, 5, 4, 3)], (-9, 9)) if inside else before
                tally.same(('its field', data.hex()), lup.get('out.field') == flipped, True)
            tally.same(('a message where it failed', data.hex()), errors.startswith('lup: f.field: '), status != 0)
        met.add((turn % 2, status))
    tally.holds('readable and unreadable fields', met >= {(1, 0), (1, 2), (0, 0), (0, 1), (0, 2)} or count < 100, met)


WORDS = (*COMMANDS, '--help', '-h', '--dot', '--svg', '--png', '--low', '--high', '--title', '--unit', '--node', '--node=0', '--nod', '--missing',
         '-oout.field', '--damaged-as-gaps', '--report', '-o', '--', '-', '', '0', '1', '3', '99', '-1',
         '18446744073709551615', '18446744073709551616', '%s%n', 'x' * 5000, 'p.plan', 'join.plan', 'bad.plan', 'a.field', 'b.field', 'six.field',
         'none.field', 'out.field', 'out.svg', 'r.json', 'sub', 'sub/x', 'a.field/', '.', '\xff', 't.table', 'bad.table')


def random_call(rng):
    """Words at random, or a call that is right but for one or two of them."""
    if rng.random() < 0.3:
        return rng.choices(WORDS, k=rng.randint(0, 7))
    call = list(rng.choice((('list', 'p.plan', '--dot'), ('check', 'p.plan'), ('run', 'p.plan', 'a.field', '-o', 'out.field'),
                            ('run', 'join.plan', 'a.field', 'none.field', '-o', 'out.field', '--node', '1'),
                            ('run', 'join.plan', 'six.field', 'a.field', '-o', 'out.field', '--damaged-as-gaps', '--missing', '1', '--report', 'r.json'),
                            ('lookup', 'p.plan', '1', '3'), ('show', 'a.field'), ('show', 'six.field', '--svg', 'out.svg'), ('show', 'six.field', '--low', '3', '--high', '99'), ('show', 'six.field', '--png', 'out.png'),
                            ('pack', 't.table', '-o', 'out.plan'), ('pack', 'bad.table', '-o', 'out.plan'), ('unpack', 'p.plan', '-o', 'out.table'),
                            ('unpack', 'p.plan'))))
    for _ in range(rng.randint(0, 2)):
        way, at = rng.randrange(3), rng.randrange(len(call) + 1)
        if way == 0:
            call.insert(at, rng.choice(WORDS))
        elif way == 1:
            del call[at:at + 1]
        else:
            call[at:at + 1] = [rng.choice(WORDS)]
    return call


def test_random_calls(tally, lup, rng, count):
    """Any words: an exit status with or without a message, and no file but one that is told as written."""
    files = {'p.plan': pack(PADDED), 'join.plan': pack(PAIR + param(1, I16, -9, 9, (2,)) + apply(ADD, 0, 1)), 'bad.plan': b'\1\0\4',
             'a.field': field_bytes((2,), [7, None]), 'b.field': field_bytes((2,), [50, 0]), 'six.field': field_bytes((2, 3), [1, 2, None, 4, 5, 6]),
             't.table': TABLE, 'bad.table': TABLE.replace(b'6 0', b'24 0')}
    met = set()
    os.mkdir(lup.at('sub'))
    for name in os.listdir(lup.folder):
        if os.path.isfile(lup.at(name)):
            os.remove(lup.at(name))
    for _ in range(count):
        for name, data in files.items():
            if not os.path.exists(lup.at(name)) or lup.get(name) != data:
                lup.put(name, data)
        before, call = lup.files(), random_call(rng)
        status, text, errors = lup.run(*call, environment=QUICK)
        after = lup.files()
        with tally.case(call):
            absent = re.match(r'(?:(?:missing|damaged): .*: read as gaps\n)*', errors)[0]
            told = re.search(r'(?:written: .*\n)*\Z', errors)[0]
            tally.holds(('where it is told', call), not told or any(word[-1:] == '-' for word in call), errors)
            rest = errors[len(absent):len(errors) - len(told)]
            tally.holds(('status', call), {0: absent + rest == '', 1: rest.startswith('lup: '), 2: rest.startswith('lup: '),
                                           3: absent and rest == ''}.get(status), (status, errors))
            written = re.findall(r'^written: (.*?), (?:node|\d+ of|\d+ nodes|the report)', told or text, re.M)
            new = [os.path.relpath(path, lup.folder) for path in after if path not in before or before[path] != after[path]]
            tally.holds(('what is written', call), set(before) <= set(after) and all(os.path.normpath(name) in map(os.path.normpath, written) for name in new)
                        and bool(written) <= (status in (0, 3)), (new, written))
        met.add((call[0] if call else '', status))
        for name in new:
            os.remove(lup.at(name))
    wanted = {('run', 1), ('run', 3), ('pack', 1), *((name, status) for name in COMMANDS for status in (0, 2))}
    tally.holds('every command is done, refused and misused', count < 300 or met >= wanted, met)


# --------------------------------------------------------------------- all

def main():
    path = sys.argv[1] if len(sys.argv) > 1 else os.environ.get('LUP', os.path.join(ROOT, 'build', 'lup'))
    count = int(sys.argv[2]) if len(sys.argv) > 2 else 1500
    rng, tally = Random(int(sys.argv[3]) if len(sys.argv) > 3 else 6), Cases()
    with tempfile.TemporaryDirectory() as folder:
        os.chmod(folder, 0o755)
        lup = Program(path, folder)
        for test in (test_refusals, test_wording, test_plan_text, test_missing, test_not_missing, test_damaged_as_gaps, test_report, test_damaged_fields,
                     test_output, test_closed_folder, test_full, test_modes, test_taken, test_left, test_signals, test_synced,
                     test_standard_input, test_standard_output, test_lost_streams, test_slow_reader, test_broken_input, test_forms, test_misuse,
                     test_version, test_help, test_words, test_stacked_graphs, test_filling):
            test(tally, lup)
        for test in (test_lists, test_graphs, test_runs, test_large_run, test_limits, test_lookups, test_shown, test_scales, test_svg, test_png, test_large_svg,
                     test_round_trip):
            test(tally, lup, rng)
        for test in (test_damaged_plans, test_damaged_cells, test_random_calls):
            test(tally, lup, rng, count // 3)
        tally.same('no temporary file is left', [name for name in os.listdir(folder) if name.endswith('.tmp')], [])
    tally.finish(f'{lup.calls} of {os.path.relpath(lup.path)}')


if __name__ == '__main__':
    main()
