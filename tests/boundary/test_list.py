#!/usr/bin/env python3
"""Runs build/list on packed plans, damaged and long ones among them, and compares what it writes with the independent model.

usage: test_list.py [COUNT] [SEED]     last line: 'N passed, 0 failed'
"""

import collections
import os
import subprocess
import sys
from random import Random

from test_boundary import EDITION, Cases, cases, damaged, fixed_bytes, model

LIST = os.path.join(os.path.dirname(os.path.abspath(__file__)), '..', '..', 'build', 'list')
LIMIT = 12288

# 01: "For bytes 01 00 04 0A it writes exactly"
EXAMPLE = bytes.fromhex('0100040a')
EXAMPLE_TEXT = b'node op dtype device low high shape\n0 0 2 0 5 5 -\naccepted 1\n'
# 02: "A second edition file starts with bytes 00 02, then count and nodes as before"; "26 for a second edition file with no new operation"
SECOND = bytes.fromhex('000204 00040a 150000 1600 1700000006')
SECOND_TEXT = b'node op dtype device low high shape\n0 0 2 0 5 5 -\n1 21 2 0 5 5 -\n2 22 0 0 0 1 -\n3 23 2 0 5 5 3\naccepted 4\n'
NO_NEW = EDITION + EXAMPLE


def written(data):
    """What the program writes for these bytes on standard input; its exit status and errors must be nothing."""
    done = subprocess.run([LIST], input=data, capture_output=True, timeout=60)
    return (done.returncode, done.stderr, done.stdout)


def longest_plan():
    """256 nodes of nine words of five bytes each: 11778 bytes, refused only by the check."""
    words = dict.fromkeys(model.USED_WORDS[model.PAD], 2 ** 34 - 1)
    return cases.pack(cases.node(model.PAD, words) * 256)


def longest_listing():
    """256 nodes with ends and shapes that are long to write."""
    scalar = cases.param(0, 3, -2 ** 31, 2 ** 31 - 1, (1, 1024, 1, 4), 255)
    load = cases.node(model.LOAD, {1: 0, 6: 255})
    return cases.pack(scalar + load * 255)


def around_the_limit():
    """Plans with bytes after them, up to, at and past what is read; and numbers that do not end before it."""
    for data in (EXAMPLE, SECOND, NO_NEW, longest_plan(), EDITION + longest_plan(), longest_listing(), cases.pack(cases.const(2, -300) * 256)):
        for length in (len(data), len(data) + 1, LIMIT - 1, LIMIT, LIMIT + 1, 2 * LIMIT, 70000):
            yield data + bytes(max(0, length - len(data)))
            yield data + b'\xff' * max(0, length - len(data))
    for length in (0, 1, 4, 5, LIMIT - 1, LIMIT, LIMIT + 1, 65536, 200000):
        yield bytes(length)
        yield b'\x80' * length


def inputs(rng, count):
    yield from around_the_limit()
    yield from rng.sample(list(fixed_bytes()), 400)
    for case in cases.listings(count, rng.randrange(2 ** 32)):
        yield case.args[0]
        yield damaged(rng, case.args[0])


def main():
    count = int(sys.argv[1]) if len(sys.argv) > 1 else 600
    rng = Random(int(sys.argv[2]) if len(sys.argv) > 2 else 7)
    tally, met, shapes = Cases(), collections.Counter(), collections.Counter()
    tally.same('the example of 01', written(EXAMPLE), (0, b'', EXAMPLE_TEXT))
    tally.same('a second edition file', written(SECOND), (0, b'', SECOND_TEXT))
    tally.same('a second edition file with no new operation', written(NO_NEW), (0, b'', b'refused 26 at 0\n'))
    tally.same('the longest plan', len(longest_plan()), 11778)
    for data in inputs(rng, count):
        text = model.listing(data)
        met[text.split()[1] if text.startswith(b'refused') else b'0'] += 1
        shapes.update(line.split()[6].count(b'x') for line in text.splitlines()[1:-1])
        tally.same((len(data), data[:40].hex()), written(data), (0, b'', text))
    print('answers met:', ', '.join('%s: %d times' % (number.decode(), n) for number, n in sorted(met.items(), key=lambda m: int(m[0]))))
    tally.same('shapes of every rank are listed', sorted(shapes), [0, 1, 2, 3])
    tally.same('refusals that unpacking gives are met', {b'20', b'21', b'22', b'23', b'24', b'26'} - set(met), set())
    tally.finish()


if __name__ == '__main__':
    main()
