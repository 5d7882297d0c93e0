#!/usr/bin/env python3
"""The Python module against the independent model, with numpy and without it; a case is the same with both. To be
run by a Python that has numpy and distributed: Debian's are seen by /usr/bin/python3.

usage: test_python.py [COUNT] [SEED]     last line: 'N passed, 0 failed'
"""

import concurrent.futures
import copy
import importlib
import inspect
import multiprocessing
import os
import pickle
import py_compile
import re
import sys
import tempfile
from array import array
from contextlib import contextmanager
from math import prod
from random import Random

sys.dont_write_bytecode = True
ROOT = os.path.dirname(os.path.dirname(os.path.dirname(os.path.abspath(__file__))))
PARTS = 'python', 'host', 'demo', 'tests/python', 'tests/host', 'tests/model', 'tests/boundary', 'tests/tools'
sys.path[:0] = [os.path.join(ROOT, part) for part in PARTS]

import cases  # noqa: E402
import lookup_examples  # noqa: E402
import model  # noqa: E402
import run_cases  # noqa: E402
import run_examples  # noqa: E402
import wording  # noqa: E402
from counting import Cases  # noqa: E402
from test_host import FILLED, FILLING, FILLING_NODES  # noqa: E402
from watched import forms, watching  # noqa: E402

try:
    import numpy
    from distributed.protocol import pickle as protocol
except ImportError as error:
    sys.exit(f'test_python.py: {error}; tools/setup python3-numpy python3-distributed gets it for /usr/bin/python3')

# README's example: two numbers, padded to four at 1.
SMALL = cases.param(0, 2, -9, 9, (2,)) + cases.move(cases.PAD, 0, (4,), (1,))


def modules():
    """The module as it is imported here, and once more without numpy."""
    found = [importlib.import_module('lupetzarin')]
    sys.modules['numpy'] = None
    del sys.modules['lupetzarin']
    found.append(importlib.import_module('lupetzarin'))
    sys.modules['numpy'], sys.modules['lupetzarin'] = numpy, found[0]
    assert found[0].numpy is numpy and found[1].numpy is None
    return found


@contextmanager
def imported(lup):
    """The module is the one that is found by its name, which pickling asks for."""
    kept, sys.modules['lupetzarin'] = sys.modules['lupetzarin'], lup
    yield
    sys.modules['lupetzarin'] = kept


def told(lup, call, *arguments):
    """What a call gives, or number and place of its refusal."""
    try:
        return call(*arguments)
    except lup.Refused as refusal:
        return refusal.number, refusal.place


def words(call, *arguments):
    """The kind and the words of what a call raises."""
    try:
        return 'nothing was raised', call(*arguments)
    except Exception as error:
        return type(error).__name__, str(error)


def given(lup, rng, values, code):
    """The same numbers in one of the forms that are taken."""
    return rng.choice(list(forms(lup.numpy, values, code).values()))


def masked(values, flags, order='C', shape=None):
    shape = shape or (len(values),)
    data = numpy.array(values, 'int64').reshape(shape).copy(order=order)
    return numpy.ma.array(data, mask=(numpy.array(flags, 'uint8') == 0).reshape(shape).copy(order=order))


# ------------------------------------------------------- against the model

def test_result(tally, lup, got, records, wanted_values, wanted_flags, gaps):
    tally.same('values', got.values.tolist(), wanted_values)
    tally.same('flags', got.flags.tolist(), wanted_flags)
    tally.same('gaps', got.gaps, gaps)
    tally.same('records', [tuple(record) for record in got.records], [tuple(record) for record in records])
    first = 0
    for node, record in enumerate(records):
        part = slice(first, first + prod(record.extents))
        cells = [value if flag else None for value, flag in zip(wanted_values[part], wanted_flags[part])]
        tally.same('a slice', got.nodes[node], part)
        tally.same('cells', got.cells(node), cells)
        if lup.numpy:
            field = got.field(node)
            tally.same('the shape of a field', field.shape, record.extents)
            tally.same('a field', field.ravel().tolist(), cells)
            filled = [cell if cell is not None else lup.FILL_VALUE for cell in cells]
            tally.same('a field filled', field.filled().ravel().tolist(), filled)
            tally.same('a field without its mask', numpy.asarray(field).ravel().tolist(), filled)
        first = part.stop


def test_run(tally, lup, rng, table, values, flags):
    """A run by the table and by a Plan, in several forms; the memory that the library gets is watched."""
    number, records = model.verdict(table)
    total = 0 if number else sum(prod(record.extents) for record in records)
    wanted_values, wanted_flags = [0] * total, [0] * total
    answer = model.run(table, values, flags, wanted_values, wanted_flags)
    inputs = [(given(lup, rng, values, 'q'), given(lup, rng, flags, 'B'))]
    if lup.numpy and len(values) == len(flags) and set(flags) <= {0, 1}:
        inputs += [(masked(values, flags),), (masked(values, flags), given(lup, rng, flags, 'B'))]
    for arguments in inputs:
        with watching(tally, lup) as library:
            plan = told(lup, lup.Plan.of_table, given(lup, rng, table, 'q'))
            got = told(lup, plan.run, *arguments) if isinstance(plan, lup.Plan) else plan
            if not number:
                tally.same('what is handed over', library.read, [table, values, flags])
            one = told(lup, lup.run, given(lup, rng, table, 'q'), *arguments)
        if answer[0]:
            tally.same('a run refused', (got, one), (tuple(answer[:2]),) * 2)
            continue
        test_result(tally, lup, got, records, wanted_values, wanted_flags, answer[2])
        same = one.values.tolist(), one.flags.tolist(), one[2:]
        tally.same('the same by the table', same, (wanted_values, wanted_flags, got[2:]))


def test_plan(tally, lup, rng, table):
    data = cases.pack(table)
    number, rest = model.verdict(table)
    wanted = (number, rest) if number else [tuple(record) for record in rest]
    with watching(tally, lup):
        tally.same('unpack', lup.unpack(given(lup, rng, list(data), 'B')).tolist(), table)
        tally.same('pack', lup.pack(given(lup, rng, table, 'q')), data)
        tally.same('packed again', lup.pack(lup.unpack(data)), data)
        got = told(lup, lup.check, given(lup, rng, table, 'q'))
        tally.same('check', got if number else [tuple(record) for record in got], wanted)
        tally.same('unpack_check', told(lup, lup.unpack_check, data), (number, rest) if number else len(rest))
        plan = told(lup, lup.Plan, data)
        made = plan if number else (plan.table.tolist(), list(plan.records))
        tally.same('a Plan', made, (number, rest) if number else (table, wanted))
        if not number:
            tally.same('a Plan packed', lup.pack(plan), data)


def test_examples(tally, lups, rng):
    for example in run_examples.EXAMPLES:
        if example.answer[0] != 14:
            with tally.case(example.name):
                for lup in lups:
                    test_run(tally, lup, rng, example.table, example.values, example.flags)
    for example in lookup_examples.EXAMPLES:
        number, place, kind, node, element = example.reply
        wanted = (number, place) if number else (node, element) if kind == 1 else None
        with tally.case(example.name):
            for lup in lups:
                with watching(tally, lup):
                    place = example.node, example.element
                    tally.same(example.name, told(lup, lup.lookup, example.table, *place), wanted)
                    if not model.verdict(example.table)[0]:
                        tally.same('by a Plan', told(lup, lup.Plan.of_table(example.table).lookup, *place), wanted)


def test_plans(tally, lups, rng, count):
    for run in run_cases.random_runs(Random(rng.randrange(2 ** 32)), count):
        with tally.case(run.note):
            for lup in lups:
                test_plan(tally, lup, rng, run.table)
                test_run(tally, lup, rng, run.table, run.values, run.flags)


# ------------------------------------------------------------------ memory

def test_forms(tally, lups):
    """Every form of values, flags, tables and bytes, each alone: the library gets these numbers, in memory that the
    header allows."""
    values, flags = [7, -2 ** 63], [1, 0]
    for lup in lups:
        for which, numbers, code in ((0, SMALL, 'q'), (1, values, 'q'), (2, flags, 'B')):
            for name, form in forms(lup.numpy, numbers, code).items():
                arguments = [SMALL, values, flags]
                arguments[which] = form
                with watching(tally, lup) as library:
                    tally.same((name, which), lup.run(*arguments).cells(1), [None, 7, None, None])
                    tally.same((name, which, 'handed over'), library.read, [SMALL, values, flags])
                    kept = form.tolist() if hasattr(form, 'tolist') else list(form)
                    tally.same((name, which, 'as it was'), sum(kept, []) if name == 'a column' else kept, numbers)
        for which, code in ((0, 'q'), (1, 'B')):
            for name, form in forms(lup.numpy, [], code).items():
                arguments = [[], []]
                arguments[which] = form
                with watching(tally, lup):
                    tally.same((name, which, 'empty'), lup.run(cases.const(2, 3), *arguments).cells(0), [3])
        data = cases.pack(SMALL)
        for name, form in {**forms(lup.numpy, data, 'B'), 'bytes': data, 'view': memoryview(data)}.items():
            with watching(tally, lup):
                tally.same((name, 'data'), (lup.unpack(form).tolist(), lup.unpack_check(form)), (SMALL, 2))
        for name, form in forms(lup.numpy, SMALL, 'q').items():
            with watching(tally, lup) as library:
                tally.same((name, 'packed'), lup.pack(form), data)
                tally.same((name, 'handed over'), library.read, [SMALL])
        with watching(tally, lup):
            tally.same('bools in a table', lup.pack([cases.CONST, 0, 0, 0, False, True] + [0] * 11), bytes.fromhex('01000002'))


def address(form):
    """Where the numbers lie, None where that cannot be asked."""
    return form.buffer_info()[0] if isinstance(form, array) else getattr(form, 'ctypes', None) and form.ctypes.data


def test_no_copy(tally, lups):
    """Memory that is what the header asks for is handed over as it is, and no other; results are fresh and can be
    written."""
    straight = {'numpy', 'array', 'read-only', 'a column', 'a subclass'}
    for lup in lups:
        plan = lup.Plan.of_table(SMALL)
        for which, numbers, code in ((1, [7, 5], 'q'), (2, [1, 0], 'B')):
            for name, form in forms(lup.numpy, numbers, code).items():
                arguments = [None, [7, 5], [1, 0]]
                arguments[which] = form
                with watching(tally, lup) as library:
                    result = plan.run(*arguments[1:])
                wanted = name in straight | ({'wider'} if code == 'q' else {'misaligned', 'another order'})
                tally.same((name, which, 'no copy'), library.handed[which][1] == address(form), wanted)
                result.values[0], result.flags[0] = 1, 1
                again = form.tolist() if hasattr(form, 'tolist') else list(form)
                tally.same((name, which, 'not shared'), sum(again, []) if name == 'a column' else again, numbers)
        for name, form in forms(lup.numpy, SMALL, 'q').items():
            with watching(tally, lup) as library:
                lup.pack(form)
            tally.same((name, 'a table, no copy'), library.handed[0][1] == address(form), name in straight | {'wider'})
        numbers, tried = array('q', [7, 5]), []
        with watching(tally, lup) as library:
            library.before = lambda: tried.append(words(numbers.append, 1)[0])
            plan.run(numbers, [1, 0])
        tally.same('an array is not moved while it is read', tried, ['BufferError'])
        numbers.append(1)
    bools = numpy.array([True, False])
    with watching(tally, lups[0]) as library:
        lups[0].run(SMALL, [7, 5], bools)
    tally.same('bools are flags as they are', library.handed[2][1], bools.ctypes.data)


# ------------------------------------------------------------------- masks

def test_masks(tally, lup):
    """A masked cell is a gap whatever lies under it, in every layout; results are masked where they are gaps."""
    two = numpy.ma.array([7, 5], mask=[0, 1])
    run = lup.Plan.of_table(SMALL).run
    for given_flags in ((), (None,), ([1, 0],), (numpy.array([True, False]),), (array('B', [1, 0]),)):
        arguments = two, *given_flags
        tally.same('a masked cell', run(*arguments).cells(1), [None, 7, None, None])
        tally.same('by the table', lup.run(SMALL, *arguments).flags.tolist(), [1, 0, 0, 1, 0, 0])
    tally.same('no mask', run(numpy.ma.array([7, 5])).cells(1), [None, 7, 5, None])
    tally.same('all masked', run(numpy.ma.masked_all(2, 'int64')).cells(1), [None] * 4)
    tally.same('a hard mask', run(numpy.ma.array([7, 5], mask=[0, 1], hard_mask=True)).cells(0), [7, None])
    tally.same('a slice', run(numpy.ma.array([1, 7, 2, 5], mask=[1, 0, 0, 1])[1::2]).cells(0), [7, None])
    tally.same('the other byte order', run(two.astype('>i8')).cells(0), [7, None])
    tally.same('nothing of it changes', (two.tolist(), two.data.tolist()), ([7, None], [7, 5]))
    shaped = cases.param(0, 2, -9, 9, (2, 3))
    for order in 'CF':
        got = lup.run(shaped, masked(range(6), (1, 0, 1, 1, 1, 0), order, (2, 3)))
        tally.same(('a layout', order), got.field(0).tolist(), [[0, None, 2], [3, 4, None]])
        plain = numpy.arange(6).reshape(2, 3).copy(order=order)
        tally.same(('a layout', order), lup.run(shaped, plain, plain % 2).cells(0), [None, 1, None, 3, None, 5])
    alone = numpy.ma.array(5, mask=True)
    tally.same('a single cell', lup.run(cases.param(0, 2, -9, 9, ()), alone).field(0).tolist(), None)
    big = numpy.ma.array(numpy.array([7, 2 ** 64 - 1], 'uint64'), mask=[0, 1])
    tally.same('what lies under the mask', run(big).cells(1), [None, 7, None, None])


NO_FLAGS = 'flags: none are given, and the values are no masked array: 1 is a known number, 0 a gap'
MASKED_FLAGS = 'flags: this is a masked array, which is taken as the values of a run alone'
NO_NUMBERS = 'values: whole numbers are wanted, and '
# What values and flags are given, of a masked array of two; what is raised, and how its words begin.
WRONG_MASKS = (
    (lambda two: (two, [1, 1]), 'ValueError', 'flags: flag 1 is 1, and that cell of the values is masked'),
    (lambda two: (two, [0, 0]), 'ValueError', 'flags: flag 0 is 0, and that cell of the values is not masked'),
    (lambda two: (two, [2, 0]), 'ValueError', 'flags: flag 0 is 2, and that cell of the values is not masked'),
    (lambda two: (two, [1]), 'ValueError', 'flags: 1 of them, and the masked array has 2 cells'),
    (lambda two: ([7, 5],), 'TypeError', NO_FLAGS),
    (lambda two: (numpy.array([7, 5]),), 'TypeError', NO_FLAGS),
    (lambda two: (numpy.array([7, 5]), numpy.ma.array([1, 0], mask=[0, 1])), 'TypeError', MASKED_FLAGS),
    (lambda two: (two, numpy.ma.array([1, 0])), 'TypeError', MASKED_FLAGS),
    (lambda two: ([7, numpy.ma.array(5, mask=True)], [1, 1]), 'TypeError', NO_NUMBERS + 'item 1 is masked_array('),
    (lambda two: ([7, two[1]], [1, 1]), 'TypeError', NO_NUMBERS + 'item 1 is masked (MaskedConstant)'),
    (lambda two: ([7, 5], [1, numpy.ma.array(1, mask=True)]), 'TypeError', 'flags: whole numbers are wanted'),
    (lambda two: (two.astype(float),), 'TypeError', NO_NUMBERS + 'this array is of float64'),
    (lambda two: (numpy.ma.masked_all(2, [('a', 'i8')]),), 'TypeError', NO_NUMBERS + 'this array is of ['),
)


def test_wrong_masks(tally, lup):
    run, two = lup.Plan.of_table(SMALL).run, numpy.ma.array([7, 5], mask=[0, 1])
    for turn, (inputs, kind, message) in enumerate(WRONG_MASKS):
        got = words(run, *inputs(two))
        tally.same(('a wrong mask', turn), (got[0], got[1][:len(message)]), (kind, message))
    table, data = numpy.ma.array(SMALL), numpy.ma.array(list(cases.pack(SMALL)), 'uint8')
    calls = ((lup.check, table), (lup.pack, table), (lup.run, table, [7, 5], [1, 1]), (lup.lookup, table, 0, 0), (lup.Plan.of_table, table),
             (lup.unpack, data), (lup.unpack_check, data), (lup.Plan, data),
             (lup.lookup, SMALL, 0, numpy.ma.array(1, mask=True)))
    for call, *arguments in calls:
        tally.same(('masked', call.__name__), words(call, *arguments)[0], 'TypeError')


def test_fields(tally, lup):
    """A gap of a result stays none when it is filled, cut to fewer bits or stripped of its mask."""
    field = lup.run(SMALL, numpy.ma.array([7, 5], mask=[0, 1])).field(1)
    tally.same('a field', (type(field), field.dtype.name, field.tolist()),
               (numpy.ma.MaskedArray, 'int64', [None, 7, None, None]))
    tally.same('its fill value', (field.fill_value, *field.filled()[[0, 2, 3]]), (lup.FILL_VALUE,) * 4)
    for low, high in model.TYPE_LIMITS.values():
        tally.same('is in no range', low <= lup.FILL_VALUE <= high, False)
    for dtype in ('int32', 'int16', 'int8', 'float64'):
        tally.same(('cut', dtype), bool((field.astype(dtype).filled()[[0, 2, 3]] < -100).all()), True)
    tally.same('known everywhere', numpy.ma.is_masked(lup.run(SMALL, [7, 5], [1, 1]).field(0)), False)
    result = lup.run(SMALL, [7, 5], [1, 0])
    result.field(0)[:] = 9
    tally.same('a copy', result.cells(0), [7, None])
    tally.same('the output', (result.field(-1).tolist(), result.cells(-1)), ([None, 7, None, None],) * 2)
    for node in (2, -3):
        tally.same('no such node', words(result.field, node), ('IndexError', f'no node {node}, the last is 1'))
        tally.same('no such node', words(result.cells, node), ('IndexError', f'no node {node}, the last is 1'))


# ------------------------------------------------------------------- types

def test_types(tally, lup):
    """Which types are taken, and which are refused with a message; nothing is cast."""
    run, flags = lup.Plan.of_table(SMALL).run, [1, 0]
    for dtype in ('i1', 'i2', '<i4', '>i4', '<i8', '>i8', 'u1', '<u2', '>u2', '<u4', '<u8', '>u8'):
        tally.same(('values', dtype), run(numpy.array([7, 5], dtype), flags).cells(0), [7, None])
        tally.same(('flags', dtype), run([7, 5], numpy.array(flags, dtype)).cells(0), [7, None])
    refused = [numpy.zeros(2, dtype) for dtype in 'f2 f4 >f8 f8 c16 O U1 S1 m8[s] M8[s] V8 i4,i4'.split()]
    for wrong in (*refused, numpy.array([7, numpy.nan]), numpy.array([7, None])):
        message = f': whole numbers are wanted, and this array is of {wrong.dtype}'
        tally.same(('values', wrong.dtype), words(run, wrong, flags), ('TypeError', 'values' + message))
        tally.same(('flags', wrong.dtype), words(run, [7, 5], wrong), ('TypeError', 'flags' + message))
        for call in (lup.check, lup.pack):
            tally.same(('table', wrong.dtype), words(call, wrong), ('TypeError', 'table' + message))
    large = numpy.array([7, 2 ** 63], 'uint64')
    message = 'values: position 1 holds 9223372036854775808, not -9223372036854775808..9223372036854775807'
    tally.same('uint64', words(run, large, [1, 1]), ('OverflowError', message))
    tally.same('uint64 in a masked array', words(run, numpy.ma.array(large)), ('OverflowError', message))
    tally.same('uint64 under a gap', run(large, flags).cells(0), [7, None])
    greatest = words(run, numpy.array([7, 2 ** 63 - 1], 'uint64'), [1, 1])
    tally.holds('the greatest', greatest[1].endswith(': 9223372036854775807, not -9..9'), greatest)
    for number, dtype in ((256, 'int64'), (-1, 'int8'), (2 ** 64 - 1, 'uint64'), (-256, 'int16'), (257, '>u2')):
        wrong = words(run, [7, 5], numpy.array([1, number], dtype))
        tally.same(('a flag', number), wrong, ('OverflowError', f'flags: position 1 holds {number}, not 0..255'))
    message = NO_NUMBERS + 'this array is of bool (bools are taken as values where every PARAM is bool)'
    tally.same('bools for a number', words(run, numpy.array([True, False]), flags), ('TypeError', message))
    truth = cases.param(0, 0, 0, 1, (2,))
    tally.same('bools for a bool', lup.run(truth, numpy.array([True, False]), [1, 1]).cells(0), [1, 0])
    tally.same('masked bools', lup.run(truth, numpy.ma.array([True, True], mask=[0, 1])).cells(0), [1, None])
    mixed = truth + cases.param(1, 1, 0, 1, (1,))
    tally.same('bools for a bool and a u8', words(lup.run, mixed, numpy.ones(3, bool), [1] * 3)[0], 'TypeError')
    own = [numpy.int8(7), numpy.uint64(5)], [numpy.bool_(True), False]
    tally.same("numpy's own numbers", run(*own).cells(0), [7, None])


def test_sequences(tally, lups):
    """The same of lists and arrays, with numpy and without it."""
    for lup in lups:
        run = lup.Plan.of_table(SMALL).run
        for wrong in (1.0, float('nan'), None, '5', [5]):
            shown = f'{wrong!r} ({type(wrong).__name__})'
            message = NO_NUMBERS + 'item 1 is ' + shown
            tally.same(('values', shown), words(run, [7, wrong], [1, 0]), ('TypeError', message))
            tally.same(('flags', shown), words(run, [7, 5], [1, wrong])[0], 'TypeError')
            message = f'element: a whole number is wanted, and this is {shown}'
            tally.same(('a lookup', shown), words(lup.lookup, SMALL, 0, wrong), ('TypeError', message))
        tally.same('an array of floats', words(run, array('d', [7, 5]), [1, 0])[0], 'TypeError')
        tally.same('no sequence', words(run, 7, [1, 0]), ('TypeError', NO_NUMBERS + 'this is 7 (int)'))
        for wrong, kind in ((7, 'TypeError'), ('12', 'TypeError'), ([1.0] * 17, 'TypeError'), ([0] * 16 + [2 ** 63], 'OverflowError')):
            got = words(lup.pack, wrong)
            tally.same(('a table to pack', wrong), (got[0], got[1][:6]), (kind, 'table:'))
        tally.same('text', words(lup.unpack, '12')[0], 'TypeError')
        tally.same('a number of bytes', words(lup.unpack, 3)[0], 'TypeError')
        for number, flag, message in ((2 ** 63, 1, f'values: item 1 is {2 ** 63}, not {-2 ** 63}..{2 ** 63 - 1}'),
                                      (5, 256, 'flags: item 1 is 256, not 0..255'),
                                      (5, -1, 'flags: item 1 is -1, not 0..255')):
            tally.same(('too large', number, flag), words(run, [7, number], [1, flag]), ('OverflowError', message))
        tally.same('bytes are numbers each', run(b'\x07\x05', b'\x01\x00').cells(0), [7, None])
        tally.same('another type of array', run(array('h', [7, 5]), array('l', [1, 0])).cells(0), [7, None])
        tally.same('bools', run(iter([7, 5]), [True, False]).cells(0), [7, None])
    tally.same('a field without numpy', words(lups[1].run(SMALL, [7, 5], [1, 0]).field, 1)[0], 'ImportError')


# ---------------------------------------------------------------- refusals

def c_words(text, name):
    """The words of a table of host/plan.c, by their index."""
    body = text[text.index(f'const {name}[] = {{'):]
    return dict(re.findall(r'\[(?:LUP_OP_)?(\w+)\] = "(?:: )?([^"]*)"', body[:body.index('};')]))


def test_rules(tally, lups):
    with open(os.path.join(ROOT, 'host', 'plan.c'), encoding='utf-8') as file:
        text = file.read()
    rules = {int(number): said for number, said in c_words(text, 'RULES').items()}
    for lup in lups:
        tally.same('the words of lup', {number: said for number, (_, said) in lup.RULES.items()}, rules)
        tally.same('its words on rule 7', lup.ROWS, c_words(text, 'ROWS'))
        tally.same('its words on rule 8', lup.SHAPES, c_words(text, 'SHAPES'))
        for refusal, said in ((lup.Refused(99, 3), 'refused 99: a rule that this module does not know'),
                              (lup.Refused(8, 14), 'refused 8 at node 14: shapes disagree, or over 1048576 elements')):
            tally.same('number and place alone', str(refusal), said)


def refused_plans(count, seed):
    """Packed plans that are refused with each number that bytes can have, `count` of each at most."""
    found = {}
    for case in cases.all_cases(seed):
        if case.call in ('check', 'unpack', 'unpack_check'):
            try:
                data = cases.pack(case.args[0]) if case.call == 'check' else case.args[0]
            except (IndexError, ValueError):
                continue
            number = model.unpack_and_verdict(data)[0]
            if number and len(found.setdefault(number, set())) < count:
                found[number].add(data)
    return found


def test_plan_words(tally, lups):
    """What is said of a plan is what lup says, by the wording that lup's own tests have."""
    found = refused_plans(6, 3)
    found.setdefault(26, set()).add(NO_NEW)
    tally.same('every number', sorted(found), [4, 5, 6, 7, 8, 9, 10, 11, 12, 20, 21, 22, 23, 24, 26])
    for lup in lups:
        for data in sorted(set().union(*found.values())):
            wanted = 'Refused', wording.refusal_text('x', data).removeprefix('lup: x: ').rstrip('\n')
            tally.same(data.hex(), (words(lup.Plan, data), words(lup.unpack_check, data)), (wanted, wanted))
    for lup in lups:
        for table, message in (([1] * 35, 'refused 1: length no multiple of 17, or not 1..256 nodes: 35 words'),
                               ([], 'refused 1: length no multiple of 17, or not 1..256 nodes: 0 words'),
                               ([*SMALL, 99, *[0] * 16], 'refused 2 at node 2 (operation 99): operation not 0..23'),
                               ([*SMALL, -1, *[0] * 16], 'refused 2 at node 2 (operation -1): operation not 0..23'),
                               ([9, 0, 0, 1, *[0] * 13], 'refused 3 at node 0 (ADD): unused word not zero')):
            for call in (lup.check, lup.Plan.of_table, lup.pack):
                tally.same(message, words(call, table), ('Refused', message))
            tally.same(message, words(lup.run, table, [], []), ('Refused', message))


LEAST, MOST = -17179869184, 17179869183
OUTSIDE = 'a used word not in -17179869184..17179869183'
# Tables that cannot be packed: number, place, what follows the number.
NOT_PACKED = (
    (1, 0, ': length no multiple of 17, or not 1..256 nodes: 4369 words', cases.const(0, 1) * 257),
    (2, 0, ' at node 0 (operation 24): operation not 0..23', cases.node(24, dict.fromkeys(range(1, 17), MOST + 1))),
    (3, 0, ' at node 0 (KNOWN): unused word not zero', cases.node(22, {1: MOST + 1, 2: 1})),
    (25, 1, f' at node 1 (STACK): {OUTSIDE}: word 3 is {MOST + 1}', SMALL[:17] + cases.node(23, {3: MOST + 1, 5: 2})),
    (3, 1, ' at node 1 (ADD): unused word not zero', SMALL[:17] + cases.node(9, {1: MOST + 1, 3: MOST + 1})),
    (25, 0, f' at node 0 (CONST): {OUTSIDE}: word 4 is {MOST + 1}', cases.node(0, {4: MOST + 1, 5: LEAST - 1}) + cases.node(99)),
    (25, 2, f' at node 2 (SHRINK): {OUTSIDE}: word 16 is {LEAST - 1}', SMALL + cases.node(7, {1: MOST, 9: LEAST, 16: LEAST - 1})),
    (25, 1, f' at node 1 (LOAD): {OUTSIDE}: word 1 is {-2 ** 63}', SMALL[:17] + cases.node(20, {1: -2 ** 63, 6: 2 ** 63 - 1})),
)


def test_packing(tally, lups):
    """What pack refuses, in the words of lup; what the check refuses is packed; the longest plan."""
    for lup in lups:
        for number, place, said, table in NOT_PACKED:
            for form in forms(lup.numpy, table, 'q').values():
                with watching(tally, lup):
                    tally.same(said, words(lup.pack, form), ('Refused', f'refused {number}{said}'))
            tally.same((number, place), told(lup, lup.pack, table), (number, place))
        for op, used in enumerate(model.USED_WORDS):
            for word in (LEAST, MOST, -1, 64):
                table = cases.node(op, dict.fromkeys(used, word)) * 256
                data = lup.pack(table)
                tally.same((op, word), (type(data), data, lup.unpack(data).tolist()), (bytes, cases.pack(table), table))
        tally.same('the longest', len(lup.pack(cases.node(6, dict.fromkeys(model.USED_WORDS[6], MOST)) * 256)), lup.MOST_PACKED_BYTES)


def test_run_words(tally, lups):
    """13, 15, 16 and 17 say what was found and what was wanted; 16 and 17 as lup does."""
    table = cases.const(2, 3) + cases.param(0, 2, -9, 9, (2,)) + cases.param(1, 1, 5, 6, ())
    table += cases.param(2, 3, 0, 99, (2, 1, 2, 3))
    values, count = [0, 0, 5] + [0] * 12, 15
    for lup in lups:
        plan = lup.Plan.of_table(table)
        for place in range(count):
            for wrong in (100, -10, 2 ** 63 - 1):
                spoilt = values[:place] + [wrong] + values[place + 1:]
                text = wording.position_text('x', ['f'] * 3, table, spoilt, place)
                wanted = text.removeprefix('lup: f: ').rstrip('\n').replace(' of x, input', ', input')
                tally.same(('16', place), words(plan.run, spoilt, [1] * count), ('Refused', wanted))
                wanted = re.sub('^refused 16(.*): known .*', r'refused 15\1: flag neither 0 nor 1: 2', wanted)
                flags = [1] * place + [2] + [1] * (count - 1 - place)
                tally.same(('15', place), words(plan.run, spoilt, flags), ('Refused', wanted))
        for given_values, given_flags in ((14, 15), (15, 16), (0, 0)):
            said = f'input length is not the PARAM total: {given_values} values and {given_flags} flags, not 15'
            tally.same('13', words(plan.run, [0] * given_values, [0] * given_flags), ('Refused', 'refused 13: ' + said))
        for node, element in ((4, 0), (0, 1), (1, 2), (3, 12), (2 ** 64 - 1, 0), (2 ** 64, 0), (1, 2 ** 70)):
            wanted = wording.lookup_texts('x', table, node, element)[2].removeprefix('lup: x: ').rstrip('\n')
            tally.same(('17', node, element), words(plan.lookup, node, element), ('Refused', wanted))
            tally.same(('17', node, element), told(lup, lup.lookup, table, node, element), (17, 0))
        for node, element, said in ((-1, 0, 'no node -1, the last is 3'),
                                    (1, -1, 'no element -1 in node 1 (PARAM), its last is 1')):
            wanted = 'refused 17: lookup node or element not there: ' + said
            tally.same(said, words(plan.lookup, node, element), ('Refused', wanted))


def test_unpacking(tally, lups):
    for data in map(bytes.fromhex, ('', '010004', '8000', '0115', '0100040A00', '00', '008200', '0002', '00028000', '000200', '00020118', NO_NEW.hex(),
                                    '00020100040A00')):
        answer = model.unpack(data, [0] * 4352)
        with tally.case(('unpack', data.hex())):
            for lup in lups:
                tally.same(data.hex(), told(lup, lup.unpack, data), tuple(answer[:2]))


def test_filling(tally, lups):
    """FILL, KNOWN and STACK in a run, numbers, gaps and bounds by hand; a lookup stops at them."""
    cells = sum(FILLED, ())
    values, flags = [0 if cell is None else cell for cell in cells], [int(cell is not None) for cell in cells]
    for lup in lups:
        plan = lup.Plan.of_table(FILLING)
        for arguments in ((values, flags), *([(masked(values, flags),)] if lup.numpy else [])):
            result = plan.run(*arguments)
            for number, (name, extents, wanted, bounds) in FILLING_NODES.items():
                tally.same((name, number), (lup.OPERATIONS[FILLING[17 * number]], result.cells(number)), (name, list(wanted)))
                record = result.records[number]
                tally.same((name, number, 'derived'), (record.extents, record.low, record.high), (extents, *bounds))
                tally.same((name, number, 'its place'), plan.lookup(number, 1), (number, 1))
            tally.same('the gaps of the output', result.gaps, list(wanted).count(None))
        tally.same('a KNOWN of gaps alone', lup.run(cases.param(0, 2, 0, 9, (2,)) + cases.apply(22, 0), [5, 5], [0, 0]).cells(-1), [0, 0])


# Tables and their files of both editions by hand.
EDITIONS = (
    (cases.const(2, 5), '01 00 04 0A'),
    (cases.const(2, 5) + cases.apply(22, 0), '00 02 02 00 04 0A 16 00'),
    (cases.const(2, 5) + cases.apply(21, 0, 0) + cases.apply(9, 0, 1), '00 02 03 00 04 0A 15 00 00 09 00 02'),
    (cases.const(2, 5) + cases.node(23, {1: 0, 2: 0, 5: 2}), '00 02 02 00 04 0A 17 00 00 00 04'),
    (cases.const(2, 5) + cases.node(23, {1: 0, 2: 0, 3: 0, 5: 3}), '00 02 02 00 04 0A 17 00 00 00 06'),
)
NO_NEW = bytes.fromhex('00020100040A')
# What is refused of editions and of the three operations, word for word.
REFUSED = (
    ('00 02 01 00 04 0A', 'refused 26 at byte 0: second edition file with no operation 21..23'),
    ('00', 'refused 23 at byte 0: node count not 1..256, or a first byte 0 without a 2 after it'),
    ('01 16 00', 'refused 24 at byte 1: operation not 0..20, in a second edition file not 0..23'),
    ('00 02 02 00 04 0A 17 00 00 02 04', 'refused 7 at node 1 (STACK): row or number wrong: number neither 2 nor 3, or word 3 not 0 with number 2'),
    ('00 02 03 00 04 0A 04 00 02 00 00 00 17 00 02 00 04', 'refused 8 at node 2 (STACK): shapes disagree, or over 1048576 elements: '
                                                           'sources not of one shape, of a rank over 3, or of over 1048576 elements together'),
)


def test_editions(tally, lups):
    """The bytes of both editions; a plan has one file."""
    for lup in lups:
        for table, written in EDITIONS:
            data = bytes.fromhex(written)
            with watching(tally, lup):
                tally.same(('pack', written), lup.pack(table), data)
                tally.same(('unpack', written), (lup.unpack(data).tolist(), lup.unpack_check(data)), (table, len(table) // 17))
                tally.same(('a Plan', written), lup.pack(lup.Plan(data)), data)
        for data, said in REFUSED:
            for call in (lup.unpack_check, lup.Plan):
                tally.same(said, words(call, bytes.fromhex(data)), ('Refused', said))
        tally.same('number and place', told(lup, lup.unpack, NO_NEW), (26, 0))


def in_child(table, values, flags):
    """A run in another process."""
    return importlib.import_module('lupetzarin').run(table, values, flags)


def copies(thing):
    """What pickle and copy make of it, in every way."""
    yield from (pickle.loads(pickle.dumps(thing, number)) for number in range(pickle.HIGHEST_PROTOCOL + 1))
    yield from (copy.copy(thing), copy.deepcopy(thing))
    yield protocol.loads(protocol.dumps(thing))


def test_pickling(tally, lups):
    """Refusals, plans, results, records and places survive pickling and copying."""
    for lup in lups:
        with imported(lup):
            plan = lup.Plan.of_table(SMALL)
            try:
                plan.run([7, 50], [1, 1])
            except lup.Refused as error:
                refusal = error
            refusal.add_note('a note')
            said = ('refused 16 at element 1 (column 1) of PARAM 0 (node 0, input position 1): '
                    'known number outside limits: 50, not -9..9')
            for twin in (refusal, *copies(refusal)):
                tally.same('a refusal', (type(twin), twin.number, twin.place, str(twin), twin.args, twin.__notes__),
                           (lup.Refused, 16, 1, said, refusal.args, ['a note']))
            for twin in (plan, *copies(plan)):
                tally.same('a plan', (type(twin), twin.table.tolist(), twin.records, twin.nodes),
                           (lup.Plan, SMALL, plan.records, plan.nodes))
                tally.same('a run of it', twin.run([7, 5], [1, 0]).cells(1), [None, 7, None, None])
            result = plan.run([7, 5], [1, 0])
            for twin in copies(result):
                tally.same('a result', (type(twin), twin.cells(1), twin[2:]), (lup.Result, result.cells(1), result[2:]))
            for thing in (plan.records[1], plan.lookup(1, 1)):
                for twin in copies(thing):
                    tally.same('a tuple', (type(twin), twin), (type(thing), thing))


def test_pool(tally):
    """A process pool hands on a refusal, and takes and gives plans and results."""
    lup = importlib.import_module('lupetzarin')
    with concurrent.futures.ProcessPoolExecutor(1, multiprocessing.get_context('spawn')) as pool:
        for inputs in (([7, 50], [1, 1]), ([7], [1]), ([7, 5], [1, 3])):
            here, there = words(in_child, SMALL, *inputs), words(pool.submit(in_child, SMALL, *inputs).result)
            tally.same(('refused', inputs), (here[0], there), ('Refused', here))
            here, there = told(lup, in_child, SMALL, *inputs), told(lup, pool.submit(in_child, SMALL, *inputs).result)
            tally.same(('number and place', inputs), there, here)
        plan, two = lup.Plan.of_table(SMALL), numpy.ma.array([7, 5], mask=[0, 1])
        result = pool.submit(in_child, plan, two, None).result()
        tally.same('a plan and a masked array', result.field(1).tolist(), [None, 7, None, None])


# ------------------------------------------------------------------- plans

def test_plan_object(tally, lups):
    """A Plan does not change with the table that it was made of, and serves several threads."""
    for lup in lups:
        for table in (array('q', SMALL), *([numpy.array(SMALL)] if lup.numpy else [])):
            plan = lup.Plan.of_table(table)
            table[0] = 99
            plan.table[0] = 98
            tally.same('a Plan by itself', (plan.table.tolist(), plan.run([7, 5], [1, 0]).cells(0)), (SMALL, [7, None]))
        tally.same('its sizes', (plan.inputs, plan.elements, plan.nodes, repr(plan)),
                   (2, 6, (slice(0, 2), slice(2, 6)), '<Plan of 2 nodes, 2 inputs and 6 elements>'))
        tally.same('a Plan of a Plan', lup.Plan.of_table(plan) is plan, True)
        tally.same('check and run of a Plan', (lup.check(plan), lup.run(plan, [7, 5], [1, 0]).gaps), (list(plan.records), 3))
        tally.same('lookup in a Plan', (lup.lookup(plan, 1, 1), lup.lookup(plan, 1, 0)), ((0, 0), None))
        with concurrent.futures.ThreadPoolExecutor(8) as pool:
            found = pool.map(lambda k: [plan.run([k, 5], [1, 0]).cells(0) for _ in range(200)], range(8))
        tally.same('threads', list(found), [[[k, None]] * 200 for k in range(8)])


def test_checked_once(tally, lups):
    """A run of a Plan is one call of the library."""
    for lup in lups:
        plan = lup.Plan(cases.pack(SMALL))
        with watching(tally, lup) as library:
            made = []
            library.look = lambda name, arguments: made.append(name)
            plan.run([7, 5], [1, 0])
            plan.lookup(1, 1)
            tally.same('calls', made, ['lup_run', 'lup_lookup'])


# ---------------------------------------------------------------- documents

def test_hints(tally, lups):
    """Every function is annotated, whatever is public has a docstring, and py_compile takes the file."""
    for lup in lups:
        for name, thing in vars(lup).items():
            methods = vars(thing).items() if inspect.isclass(thing) and thing.__module__ == lup.__name__ else ()
            for label, function in ((name, thing), *methods):
                function = getattr(function, '__func__', getattr(function, 'fget', function))
                if not inspect.isfunction(function) or function.__code__.co_filename != lup.__file__:
                    continue
                hints = function.__annotations__
                arguments = {*inspect.signature(function).parameters, 'return'} - {'self', 'cls'}
                tally.same(('hints', name, label), arguments - set(hints), set())
                if not name.startswith('_') and not label.startswith('_'):
                    tally.holds(('a docstring', name, label), function.__doc__)
        for name in lup.__all__:
            thing = getattr(lup, name)
            tally.holds(('public', name), thing.__doc__ if callable(thing) else thing)
    with tempfile.TemporaryDirectory() as folder:
        made = os.path.join(folder, 'lup.pyc')
        tally.same('compiled', py_compile.compile(lups[0].__file__, made, doraise=True), made)


def main():
    count = int(sys.argv[1]) if len(sys.argv) > 1 else 400
    rng, tally, lups = Random(int(sys.argv[2]) if len(sys.argv) > 2 else 5), Cases(), modules()
    test_examples(tally, lups, rng)
    test_plans(tally, lups, rng, count)
    test_unpacking(tally, lups)
    for test in (test_filling, test_editions, test_forms, test_no_copy, test_sequences, test_rules, test_plan_words, test_packing, test_run_words, test_pickling,
                 test_plan_object, test_checked_once, test_hints):
        with tally.case(test.__name__):
            test(tally, lups)
    for test in test_masks, test_wrong_masks, test_fields, test_types:
        with tally.case(test.__name__):
            test(tally, lups[0])
    with tally.case('test_pool'):
        test_pool(tally)
    tally.finish()


if __name__ == '__main__':
    main()
