#!/usr/bin/env python3
"""Drives lup_run against the independent model, examples by hand and closed forms at the limits: answers, and both buffers compared whole.

usage: test_run.py [COUNT] [SEED]     last line: 'N passed, 0 failed'
"""

import collections
import faulthandler
import sys
from array import array
from itertools import chain
from math import prod
from random import Random

from test_boundary import Cases, Library, cases, changed, model, pattern, tables_of

import run_cases
import run_examples
import run_large
from cases import BIG, apply, const, node

EXTREMES = {-BIG, BIG - 1}
# A CONST has no axes, a STACK one at least.
OPERATIONS_AND_RANKS = {(model.CONST, 0), *((op, rank) for op in range(1, cases.OPERATIONS) for rank in range(5))} - {(model.STACK, 0)}


class Met:
    """What the runs came across."""

    def __init__(self):
        self.answers, self.cells, self.under_gaps = collections.Counter(), collections.Counter(), set()
        self.plans, self.again, self.deepest, self.most_nodes, self.in_a_row, self.widest = 0, 0, 0, 0, 0, 0

    def completed(self, run, records):
        self.plans += 1
        self.cells.update((run.table[17 * k], len(record.extents)) for k, record in enumerate(records))
        self.under_gaps.update(value for value, flag in zip(run.values, run.flags) if flag == 0)
        self.deepest = max(self.deepest, run_cases.depth(run.table))
        self.most_nodes = max(self.most_nodes, len(records))
        for length, size in run_cases.computed_in_a_row(run.table, records):
            self.in_a_row = max(self.in_a_row, length)
            self.widest = max(self.widest, size if length > 32 else 0)


def flag_pattern(room):
    return [2 + k % 254 for k in range(room)]


def difference(got, wanted):
    """None where the arrays are the same, else the first place that differs and what is there."""
    if got == wanted:
        return None
    at = next((k for k, pair in enumerate(zip(got, wanted)) if pair[0] != pair[1]), min(len(got), len(wanted)))
    return at, list(got[at:at + 1]), list(wanted[at:at + 1])


class Compared:
    """Calls of lup_run whose answer and buffers are compared whole."""

    def __init__(self, tally, library):
        self.tally, self.library, self.met = tally, library, Met()

    def same(self, what, got, answer, values, flags):
        """One comparison; what is a function that describes the call."""
        found = got[0], difference(got[1], values), difference(got[2], flags), got[3]
        wanted = tuple(answer), None, None, True
        self.tally.same(what() if found != wanted else '', found, wanted)

    def call(self, table, values, flags, rooms, null=False):
        outs = array('q', pattern(rooms[0])), array('B', flag_pattern(rooms[1]))
        return self.library.run(array('q', table), array('q', values), array('B', flags), *outs, null)

    def run(self, note, table, values, flags, rooms, wanted=None):
        """A call against the model, or against the wanted answer, values and flags; where a length is 0, with NULL too. What the call gave."""
        if wanted is None:
            out_values, out_flags = pattern(rooms[0]), flag_pattern(rooms[1])
            wanted = model.run(table, values, flags, out_values, out_flags), array('q', out_values), array('B', out_flags)
        self.met.answers[wanted[0][0]] += 1
        for null in ((False, True) if 0 in (len(table), len(values), len(flags), *rooms) else (False,)):
            got = self.call(table, values, flags, rooms, null)
            self.same(lambda: (note, described(table), values, flags, rooms, null), got, *wanted)
        return got


def described(table):
    """The table's used words, node by node."""
    if len(table) % 17 or not all(0 <= op < cases.OPERATIONS for op in table[::17]):
        return table
    return [[table[first], *(table[first + word] for word in model.USED_WORDS[table[first]])] for first in range(0, len(table), 17)]


# ------------------------------------------------------------- examples by hand

def test_examples(compared):
    for example in run_examples.EXAMPLES:
        values, flags = pattern(example.rooms[0]), flag_pattern(example.rooms[1])
        if example.elements is not None:
            values[:len(example.elements)] = [0 if element is None else element for element in example.elements]
            flags[:len(example.elements)] = [int(element is not None) for element in example.elements]
        wanted = example.answer, array('q', values), array('B', flags)
        inputs = example.table, example.values, example.flags, example.rooms
        with compared.tally.case(example.name):
            compared.run(example.name, *inputs, wanted)
            compared.run(example.name + ', by the model', *inputs)


# ------------------------------------------- accepted plans, and refusals of them

def other_garbage(rng, run):
    """The values with other numbers under the gaps."""
    return [value if flag else rng.choice([n for n in run_cases.GARBAGE if n != value]) for value, flag in zip(run.values, run.flags)]


def bad_lengths(rng, run, total):
    """(values, flags, rooms): each length wrong by one, by itself or with short rooms and bad inputs after it."""
    rooms = rng.choice(((total, total), (total - 1, total), (0, 0)))
    inputs = [run.values, run.flags]
    which = rng.randrange(2)
    longer = not run.values or rng.random() < 0.5
    inputs[which] = inputs[which] + [rng.choice((0, 1, 2))] if longer else inputs[which][:-1]
    return *inputs, rooms


def bad_inputs(rng, run, faults):
    """Values and flags with faults in rising positions."""
    plan = cases.Plan()
    plan.table, plan.records = run.table, model.verdict(run.table)[1]
    values, flags = list(run.values), list(run.flags)
    for number, place in zip(faults, sorted(rng.sample(range(len(values)), len(faults)))):
        cases.spoil(rng, plan, values, flags, number, place)
    return values, flags


def test_refusals(compared, rng, run, total, turn):
    """One way or two to refuse the run of an accepted plan."""
    shorts = ((total - 1, total), (total, total - 1), (total - 1, total + 9), (total + 9, total - 1), (rng.randrange(total), total), (total, 0))
    way, faults = turn % 4, cases.INPUT_FAULTS[turn // 4 % len(cases.INPUT_FAULTS)]
    inputs = run.values, run.flags
    if way == 0:
        compared.run(run.note + ', lengths', run.table, *bad_lengths(rng, run, total))
    if way >= 1 and len(run.values) >= len(faults):
        inputs = bad_inputs(rng, run, faults)
        compared.run(f'{run.note}, {faults}', run.table, *inputs, (total + turn % 3, total + turn % 2))
    if way <= 1:
        compared.run(run.note + ', rooms', run.table, *inputs, rng.choice(shorts))
    if way == 2:
        tail = rng.choice((node(99), const(0, 2), apply(model.ADD, 0, 999), [7], const(4, 0), node(model.CONST, {3: 1})))
        compared.run(run.note + ', refused plan', run.table + tail, *inputs, (total + 1, total + 1))


def test_run(compared, rng, run, turn):
    """A run with room that fits or is left over, again with other numbers under its gaps, and refused."""
    records = model.verdict(run.table)[1]
    total = sum(prod(record.extents) for record in records)
    rooms = rng.choice(((total, total), (total + 1, total), (total, total + 1), (total + rng.randint(2, 40), total + rng.randint(2, 40))))
    first = compared.run(run.note, run.table, run.values, run.flags, rooms)
    compared.met.completed(run, records)
    if 0 in run.flags:
        values = other_garbage(rng, run)
        again = compared.call(run.table, values, run.flags, rooms)
        compared.same(lambda: (run.note, 'other numbers under gaps', described(run.table), values, run.flags), again, *first[:3])
        compared.met.again += 1
    test_refusals(compared, rng, run, total, turn)


def test_accepted(compared, rng, count):
    runs = [run_cases.fixed_runs(rng), run_cases.chain_runs(rng, count // 50), run_cases.computed_runs(rng, max(16, count // 200)),
            run_cases.random_runs(rng, count)]
    for turn, run in enumerate(chain(*runs)):
        with compared.tally.case(run.note):
            test_run(compared, rng, run, turn)


# ------------------------------------------------------------------- no reading

def first_fault(what):
    """What is due by the first fault in what is done: 16 of a known number, 15 of a flag, 0 where there are gaps alone."""
    return next(({'known': 16, 'flag': 15}.get(done, done) for done in what if done != 'gap'), 0)


def test_no_reading(compared, rng, count):
    """−32768 in PARAMs of i16 and i32 by the model, whose number has to be what the faults say; the values under gaps do not matter."""
    for what, run in run_cases.no_reading_runs(rng, count):
        total = sum(prod(record.extents) for record in model.verdict(run.table)[1])
        rooms = total + rng.choice((0, 0, 3)), total + rng.choice((0, 0, 2))
        with compared.tally.case(run.note):
            got = compared.run(run.note, *run[1:], rooms)
            compared.tally.same((run.note, 'the first fault'), got[0][0], first_fault(what))
            values = other_garbage(rng, run)
            compared.same(lambda: (run.note, 'other numbers under gaps', described(run.table), values, run.flags),
                          compared.call(run.table, values, run.flags, rooms), *got[:3])


# ------------------------------------------------------ refusals of the check

def test_checked(compared, rng, scale):
    """Tables that the check refuses, and ones at its limits, by way of a run."""
    for case in (*cases.run_inputs(int(400 * scale), rng.randrange(2 ** 32)), *cases.buffer_cases(int(200 * scale), rng.randrange(2 ** 32))):
        if case.call == 'run':
            *inputs, room, flag_room = case.args
            with compared.tally.case(case.note):
                compared.run(case.note, *inputs, (room, flag_room))
    for table in tables_of(rng.randrange(2 ** 32), scale):
        with compared.tally.case(('check by way of a run', table)):
            for plan in (table, changed(rng, table)):
                number, rest = model.verdict(plan)
                small = number or sum(prod(record.extents) for record in rest) <= 2000
                inputs = run_cases.inputs_of(rng, plan, 0.2) if number == 0 and small else ([], [])
                compared.run('check by way of a run', plan, *inputs, (rng.choice((0, 300)), 300))


# ------------------------------------------------------------------ the limits

def filled(typecode, room):
    return array(typecode, [90]) * room


def large_call(compared, note, run, values, flags, rooms, answer, wanted=None):
    """A call with filled buffers; they stay as they were where nothing is wanted."""
    outs = filled('q', rooms[0]), filled('B', rooms[1])
    got = compared.library.run(array('q', run.table), values, flags, *outs)
    compared.met.answers[answer[0]] += 1
    written = [part + out[len(part):] for part, out in zip(wanted, outs)] if wanted else outs
    compared.same(lambda: f'{run.note}, {note}', got, answer, *written)


def with_item(items, at, item):
    items = items[:]
    items[at] = item
    return items


def test_large_run(compared, run):
    """Exact rooms; longer ones, with other numbers under the gaps; each length and room by one; bad inputs at the last position."""
    wanted = array('q'), array('B')
    for values, flags in run.nodes:
        wanted[0].extend(values)
        wanted[1].extend(flags)
    total, last, gaps = len(wanted[0]), len(run.values) - 1, run.nodes[-1][1].count(0)
    garbage = array('q', (value if flag else BIG - 1 - k for k, (value, flag) in enumerate(zip(run.values, run.flags))))
    large_call(compared, 'exact', run, run.values, run.flags, (total, total), (0, 0, gaps), wanted)
    large_call(compared, 'longer', run, garbage, run.flags, (total + 3, total + 5), (0, 0, gaps), wanted)
    large_call(compared, 'values one short', run, run.values[:-1], run.flags, (total, total), (13, 0, 0))
    large_call(compared, 'flags one long', run, run.values, run.flags + array('B', [1]), (total, total), (13, 0, 0))
    large_call(compared, 'values room one short', run, run.values, run.flags, (total - 1, total), (14, 0, 0))
    large_call(compared, 'flags room one short', run, run.values, run.flags, (total, total - 1), (14, 0, 0))
    known = with_item(run.flags, last, 1)
    large_call(compared, 'last flag', run, run.values, with_item(run.flags, last, 2), (total, total), (15, last, 0))
    large_call(compared, 'last number', run, with_item(run.values, last, 2 ** 31), known, (total, total), (16, last, 0))
    if total == model.MOST_PLAN_ELEMENTS and len(run.table) < 17 * model.MOST_NODES:
        over = run._replace(table=run.table + const(0, 1))
        large_call(compared, 'one element more', over, run.values, run.flags, (total + 1, total + 1), (12, 0, 0))


def test_large(compared):
    for run in run_large.large_runs():
        with compared.tally.case(run.note):
            test_large_run(compared, run)


# --------------------------------------------------------------------- totals

def test_met(tally, met, count):
    print('run answers met:', ', '.join('%d: %d times' % item for item in sorted(met.answers.items())))
    print('%d plans completed, %d of them again with other numbers under gaps; longest chain %d; most nodes %d; most binary operations and WHEREs in a row %d'
          % (met.plans, met.again, met.deepest, met.most_nodes, met.in_a_row))
    print('each operation in', ', '.join('%d: %d' % (op, sum(n for (o, _), n in met.cells.items() if o == op)) for op in range(cases.OPERATIONS)), 'nodes')
    tally.same('plans enough', met.plans >= count, True)
    tally.same('run answers met', sorted(met.answers), [*range(17)])
    tally.same('operations and ranks met', sorted(OPERATIONS_AND_RANKS - set(met.cells)), [])
    tally.same('the least and the greatest word under gaps', sorted(EXTREMES - met.under_gaps), [])
    tally.same('some chain is long', met.deepest >= 20, True)
    tally.same('over 32 binary operations and WHEREs in a row, on rows of over two parts', (met.in_a_row > 32, met.widest > 2 * 1024), (True, True))


def main():
    faulthandler.enable()
    count = int(sys.argv[1]) if len(sys.argv) > 1 else 10000
    rng = Random(int(sys.argv[2]) if len(sys.argv) > 2 else 7)
    tally = Cases()
    compared = Compared(tally, Library())
    test_examples(compared)
    test_accepted(compared, rng, count)
    test_no_reading(compared, rng, 680)
    test_checked(compared, rng, count / 10000)
    test_large(compared)
    test_met(tally, compared.met, count)
    tally.finish(compared.library.made)


if __name__ == '__main__':
    main()
