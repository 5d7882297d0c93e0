#!/usr/bin/env python3
"""Drives lup_lookup against the independent model, against lup_run on the same plans with random data, and on examples by hand.

usage: test_lookup.py [COUNT] [SEED]     last line: 'N passed, 0 failed'
"""

import collections
import faulthandler
import sys
from array import array
from itertools import accumulate, chain
from math import prod
from random import Random

from test_boundary import Cases, Library, changed, model, tables_of

import lookup_examples
import run_cases
from cases import OPERATIONS, const, move, param
from model import FLIP, LOAD, MOST_NODES, PERMUTE, SHRINK

FOLLOWED = {*range(PERMUTE, SHRINK + 1), LOAD}
STOPPING = {*range(OPERATIONS)} - FOLLOWED
NOT_THERE = (2 ** 64 - 1, 2 ** 63, 2 ** 32, 2 ** 20, 256, 255)
REPLIES = ((0, 1), (0, 2), *((number, 0) for number in (*range(1, 13), 17)))


class Met:
    """What the lookups came across."""

    def __init__(self):
        self.replies, self.operations, self.cells, self.longest = collections.Counter(), collections.Counter(), collections.Counter(), 0
        self.stops, self.moved_stops = collections.Counter(), collections.Counter()


class Compared:
    """Calls of lup_lookup, each compared with one reply."""

    def __init__(self, tally, library):
        self.tally, self.library, self.met = tally, library, Met()

    def lookup(self, note, table, node, element, wanted=None):
        """A lookup against the model, or against the wanted reply; what it gave."""
        wanted = tuple(model.lookup(table, node, element) if wanted is None else wanted)
        reply, unchanged = self.library.lookup(array('q', table), node, element)
        self.tally.same((note, node, element), (reply, unchanged), (wanted, True))
        self.met.replies[reply[0], reply[2]] += 1
        return reply


def steps(table, node):
    """The nodes that a lookup from this one can follow."""
    while table[17 * node] in FOLLOWED:
        yield table[17 * node]
        node = table[17 * node + 1]


def asked(rng, records, most):
    """Nodes and elements that are there, at most so many of them: all where they are few."""
    every = [(node, element) for node, record in enumerate(records) for element in range(min(prod(record.extents), 2000))]
    return every if len(every) <= most else rng.sample(every, most)


def test_examples(compared):
    for example in lookup_examples.EXAMPLES:
        with compared.tally.case(example.name):
            compared.lookup(example.name, example.table, example.node, example.element, example.reply)
            compared.lookup(example.name + ', by the model', example.table, example.node, example.element)


def test_cells(compared, run, records, place, reply, cells):
    """The cell of the place that was found is the cell here; a gap that was found is one here."""
    starts = [0, *accumulate(prod(record.extents) for record in records)]
    here = cells[starts[place[0]] + place[1]]
    _, _, found, node, element = reply
    there = cells[starts[node] + element] if found == 1 else (0, 0)
    compared.tally.same((run.note, place, 'its cell and the one found'), here, there)
    compared.met.cells[found, here[1]] += 1


def test_run(compared, rng, run, most):
    """Lookups in a plan, and the same cells by a run of it."""
    records = model.verdict(run.table)[1]
    total = sum(prod(record.extents) for record in records)
    outs = array('q', [0]) * total, array('B', [0]) * total
    answer, values, flags, _ = compared.library.run(array('q', run.table), array('q', run.values), array('B', run.flags), *outs)
    compared.tally.same((run.note, 'the run completes'), answer[0], 0)
    cells = list(zip(values, flags))
    for place in asked(rng, records, most):
        reply = compared.lookup(run.note, run.table, *place)
        test_cells(compared, run, records, place, reply, cells)
        passed = list(steps(run.table, place[0]))
        compared.met.operations.update(passed)
        if reply[2] == 1:
            (compared.met.moved_stops if passed else compared.met.stops)[run.table[17 * reply[3]]] += 1
        compared.met.longest = max(compared.met.longest, len(passed))
    node = rng.randrange(len(records))
    past = prod(records[node].extents)
    for place in ((len(records), 0), (node, past), (node, past + rng.randrange(9)), (rng.choice(NOT_THERE), 0), (node, max(past, rng.choice(NOT_THERE)))):
        compared.lookup(run.note + ', not there', run.table, *place)


def test_plans(compared, rng, count):
    for run in chain(run_cases.fixed_runs(rng), run_cases.chain_runs(rng, count // 100), run_cases.random_runs(rng, count // 5)):
        with compared.tally.case(run.note):
            test_run(compared, rng, run, 12)


def test_longest(compared):
    """255 movements of one PARAM, followed through all of them."""
    table = param(0, 2, 0, 9, (3,))
    for source in range(MOST_NODES - 1):
        table += move(FLIP, source, (1,))
    with compared.tally.case('255 FLIPs'):
        for element in range(3):
            compared.lookup('255 FLIPs', table, MOST_NODES - 1, element, (0, 0, 1, 0, 2 - element))
    compared.lookup('a node too many', table + const(0, 1), 0, 0, (1, 0, 0, 0, 0))


def test_checked(compared, rng, scale):
    """Tables that the check refuses, and ones at its limits."""
    for table in tables_of(rng.randrange(2 ** 32), scale):
        with compared.tally.case(('check by way of a lookup', table)):
            for plan in (table, changed(rng, table)):
                compared.lookup('check by way of a lookup', plan, rng.choice((0, 1, 300)), rng.choice((0, 5, 2 ** 64 - 1)))


def test_met(tally, met, count):
    print('lookups:', ', '.join('%s: %d' % item for item in sorted(met.replies.items())), '(number, kind)')
    print('followed through', ', '.join('%d: %d times' % item for item in sorted(met.operations.items())), 'longest chain', met.longest)
    print('cells compared with a run, by (kind, flag):', ', '.join('%s: %d' % item for item in sorted(met.cells.items())))
    tally.same('lookups enough', sum(met.replies.values()) >= count, True)
    tally.same('replies met', sorted(set(REPLIES) ^ set(met.replies)), [])
    tally.same('operations followed', sorted(met.operations), sorted(FOLLOWED))
    tally.same('operations that stop a lookup', sorted(met.stops), sorted(STOPPING))
    tally.same('operations that stop a lookup under movements', sorted(met.moved_stops), sorted(STOPPING))
    tally.same('places of gaps and of numbers, and gaps', sorted(met.cells), [(1, 0), (1, 1), (2, 0)])
    tally.same('some chain is long', met.longest >= 8, True)


def main():
    faulthandler.enable()
    count = int(sys.argv[1]) if len(sys.argv) > 1 else 10000
    rng = Random(int(sys.argv[2]) if len(sys.argv) > 2 else 11)
    tally = Cases()
    compared = Compared(tally, Library())
    test_examples(compared)
    test_plans(compared, rng, count)
    test_longest(compared)
    test_checked(compared, rng, count / 10000)
    test_met(tally, compared.met, count)
    tally.finish(compared.library.made)


if __name__ == '__main__':
    main()
