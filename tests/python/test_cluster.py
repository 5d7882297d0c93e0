#!/usr/bin/env python3
"""The Python module with distributed: plans, masked arrays, results and refusals between this process and a worker of a
LocalCluster, which is a process of its own. To be run by a Python that has numpy and distributed: Debian's are seen by
/usr/bin/python3.

A cluster that hangs is a failure: all of it runs in a session of its own, which is killed then. A worker process imports
this file once more, so nothing may happen at its import: a cluster that is started there starts workers without end.

usage: test_cluster.py     last line: 'N passed, 0 failed'
"""

import json
import logging
import os
import re
import signal
import subprocess
import sys
import time

sys.dont_write_bytecode = True
ROOT = os.path.dirname(os.path.dirname(os.path.dirname(os.path.abspath(__file__))))
sys.path[:0] = [os.path.join(ROOT, part) for part in ('python', 'tests/model', 'tests/tools')]

import cases  # noqa: E402
import lupetzarin as lup  # noqa: E402
from counting import Cases  # noqa: E402

try:
    import numpy
    from distributed import Client, LocalCluster
except ImportError as error:
    sys.exit(f'test_cluster.py: {error}; tools/setup python3-numpy python3-distributed gets it for /usr/bin/python3')

# Two numbers, padded to four at 1.
SMALL = cases.param(0, 2, -9, 9, (2,)) + cases.move(cases.PAD, 0, (4,), (1,))
INSIDE = 'inside'
MOST_SECONDS = 120


# ----------------------------------------------------- in the cluster's session

def process_of_plan(plan, values, flags):
    """The process that runs this, and the plan's result."""
    return os.getpid(), plan.run(values, flags)


def told(future):
    """What a worker gives, or kind, number, place and words of what it raises."""
    try:
        result = future.result(timeout=MOST_SECONDS)
    except lup.Refused as refusal:
        return type(refusal).__name__, refusal.number, refusal.place, str(refusal)
    return type(result).__name__, result.field(1).tolist(), result.gaps, [list(record) for record in result.records]


def documented_line():
    """The module's line on how a masked array is handed to a worker, as code."""
    return re.search(r'^    (result = client\.submit\(.*\)\.result\(\))', lup.__doc__, re.M)[1]


def submitted(client, plan, masked):
    """What that line gives."""
    names = {'client': client, 'plan': plan, 'masked': masked}
    exec(documented_line(), names)
    return names['result'].field(1).tolist()


def inside():
    """Everything that is asked of a worker, as JSON."""
    plan = lup.Plan.of_table(SMALL)
    two = [numpy.ma.array(numpy.array([7, 5], kind), mask=mask) for kind in ('i8', 'i1') for mask in ([0, 1], [1, 0], [0, 0])]
    with LocalCluster(n_workers=1, threads_per_worker=1, processes=True, host='127.0.0.1', dashboard_address=None,
                      silence_logs=logging.ERROR) as cluster:
        with Client(cluster) as client:
            worker, result = client.submit(process_of_plan, plan, [7, 12345], [1, 0]).result(timeout=MOST_SECONDS)
            # futures that are kept: their answers would be given again for what looks alike
            kept = [client.submit(plan.run, masked, pure=False) for masked in two]
            found = {
                'apart': worker != os.getpid(),
                'carried': [type(result).__name__, result.values.tolist(), result.flags.tolist(), result.gaps],
                'masked': [told(future) for future in kept],
                'documented': [submitted(client, plan, masked) for masked in two],
                'map': [told(future) for future in client.map(plan.run, two[:3], pure=False)],
                'scattered': told(client.submit(lup.run, plan, client.scatter(two[0], hash=False))),
                'refused': [told(client.submit(plan.run, *inputs)) for inputs in REFUSED_INPUTS],
                'refused plan': told(client.submit(lup.Plan, b'\1\0\4')),
            }
    print(json.dumps(found))


# --------------------------------------------------------------------- outside

MASKED = [[None, 7, None, None], [None, None, 5, None], [None, 7, 5, None]] * 2
PLACE = 'element 1 (column 1) of PARAM 0 (node 0, input position 1)'
REFUSED_INPUTS = (([7, 50], [1, 1]), ([7], [1]), ([7, 5], [1, 3]))
REFUSED = [
    ['Refused', 16, 1, f'refused 16 at {PLACE}: known number outside limits: 50, not -9..9'],
    ['Refused', 13, 0, 'refused 13: input length is not the PARAM total: 1 values and 1 flags, not 2'],
    ['Refused', 15, 1, f'refused 15 at {PLACE}: flag neither 0 nor 1: 3'],
]


def of_session(number):
    """The processes of a session that are still there."""
    found = []
    for name in filter(str.isdigit, os.listdir('/proc')):
        try:
            with open(f'/proc/{name}/stat', encoding='utf-8', errors='replace') as file:
                state, _, _, session = file.read().rpartition(') ')[2].split()[:4]
        except OSError:
            continue
        found += [int(name)] * (int(session) == number and state != 'Z')
    return found


def in_session():
    """What the cluster's session tells, its status and errors, and how many processes it leaves; it is killed where it hangs."""
    with subprocess.Popen([sys.executable, '-B', os.path.abspath(__file__), INSIDE], start_new_session=True, text=True,
                          stdout=subprocess.PIPE, stderr=subprocess.PIPE) as process:
        try:
            text, errors = process.communicate(timeout=MOST_SECONDS)
            left = remaining(process.pid)
        except subprocess.TimeoutExpired:
            text, errors, left = '', f'the cluster hangs: it did not end in {MOST_SECONDS} s', of_session(process.pid)
        for number in left:
            os.kill(number, signal.SIGKILL)
    return text, process.returncode, errors, len(left)


def remaining(session):
    """The processes of a session that do not end in some seconds."""
    for _ in range(100):
        if not of_session(session):
            break
        time.sleep(0.1)
    return of_session(session)


def main():
    tally = Cases()
    text, status, errors, left = in_session()
    tally.same('the session ends well', (status, errors), (0, ''))
    tally.same('no process is left', left, 0)
    found = json.loads(text) if status == 0 else {}
    records = [list(map(list_of, record)) for record in lup.Plan.of_table(SMALL).records]
    results = [['Result', cells, cells.count(None), records] for cells in MASKED]
    wanted = {'apart': True, 'carried': ['Result', [7, 0, 0, 7, 0, 0], [1, 0, 0, 1, 0, 0], 3], 'masked': results, 'documented': MASKED,
              'map': results[:3], 'scattered': results[0], 'refused': REFUSED,
              'refused plan': ['Refused', 20, 3, 'refused 20 at byte 3: bytes end before or inside a number']}
    for name, right in wanted.items():
        tally.same(name, found.get(name), right)
    tally.finish()


def list_of(item):
    """A tuple as JSON has it."""
    return list(item) if isinstance(item, tuple) else item


if __name__ == '__main__':
    inside() if sys.argv[1:] == [INSIDE] else main()
