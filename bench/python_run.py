#!/usr/bin/env python3
"""A run of the demo's plan by Python's Plan against the library's call on memory that is there, as ratios.

usage: python_run.py     needs numpy
"""

import os
import sys
from time import perf_counter

sys.dont_write_bytecode = True
ROOT = os.path.dirname(os.path.dirname(os.path.abspath(__file__)))
sys.path[:0] = [os.path.join(ROOT, part) for part in ('python', 'host', 'demo')]

import numpy  # noqa: E402

import lupasm  # noqa: E402
import lupetzarin as lup  # noqa: E402
import make_bay  # noqa: E402

ROUNDS, REPEATS = 20, 100


def bay_inputs():
    """The demo's plan and its inputs, one strip missing."""
    with open(os.path.join(ROOT, 'demo', 'bay.lup'), encoding='utf-8') as file:
        table = lupasm.table_of(file.read())
    strips = [value for k in range(make_bay.STRIPS) for value in make_bay.strip(k)]
    flags = [int(k != make_bay.DEAD) for k in range(make_bay.STRIPS) for _ in range(make_bay.ROWS * make_bay.WIDTH)]
    zones = [make_bay.zone_of(column) for _ in range(make_bay.ROWS) for column in range(make_bay.COLUMNS)]
    return numpy.array(table), numpy.array(strips + zones), numpy.array(flags + [1] * len(zones), 'uint8')


def best(call):
    """The least seconds of a call."""
    least = float('inf')
    for _ in range(REPEATS):
        start = perf_counter()
        call()
        least = min(least, perf_counter() - start)
    return least


def main():
    table, values, flags = bay_inputs()
    plan = lup.Plan.of_table(table)
    results = [numpy.empty(plan.elements, dtype) for dtype in ('int64', 'uint8')]
    buffers = [part for memory in (table, values, flags, *results) for part in (memory.ctypes.data, memory.size)]
    masked = numpy.ma.array(values, mask=flags == 0)
    calls = {
        'lup_run on memory that is there': lambda: lup._LIBRARY.lup_run(*buffers),
        'Plan.run': lambda: plan.run(values, flags),
        'Plan.run of a masked array': lambda: plan.run(masked),
        'run of the table': lambda: lup.run(table, values, flags),
    }
    for given in (values, flags), (masked,):
        calls['lup_run on memory that is there']()
        got = plan.run(*given)
        assert all(numpy.array_equal(one, other) for one, other in zip(got[:2], results)), 'the answers differ'
    least = dict.fromkeys(calls, float('inf'))
    for _ in range(ROUNDS):
        for name, call in calls.items():
            least[name] = min(least[name], best(call))
    first = least['lup_run on memory that is there']
    for name, seconds in least.items():
        print(f'python: {name:32} {1e6 * seconds:8.1f} us  ratio {seconds / first:5.2f}')


if __name__ == '__main__':
    main()
