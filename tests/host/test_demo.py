#!/usr/bin/env python3
"""The demo's output: the field against the independent model, a gap where the dead machine's strip is and nowhere else, the gaps filled from the hour
before and told apart, the share that is known, the pictures, the listing.

usage: test_demo.py     last line: 'N passed, 0 failed'
"""

import os
import re
import struct
import subprocess
import sys
import tempfile
import xml.etree.ElementTree
from math import prod

sys.dont_write_bytecode = True
ROOT = os.path.dirname(os.path.dirname(os.path.dirname(os.path.abspath(__file__))))
sys.path[:0] = [os.path.join(ROOT, part) for part in ('host', 'demo', 'tests/model')]

import lupasm  # noqa: E402
import make_bay  # noqa: E402
import model  # noqa: E402
from tally import Tally  # noqa: E402

OUT = os.path.join(ROOT, 'build', 'demo')
FIELD, STRONGEST = 81, 82
PERCENT, BOTH = 8, 10
SHAPE = (make_bay.ROWS, make_bay.COLUMNS - 2)
# the columns of the field that the dead machine's strip has a part in
DEAD = range(make_bay.STEP * make_bay.DEAD - 1, make_bay.STEP * make_bay.DEAD - 1 + make_bay.WIDTH)


def read_field(path, ends=24):
    """Extents, and a value or None for each cell; ends: the bytes after the flags, those of the bounds."""
    with open(path, 'rb') as file:
        data = file.read()
    magic, rank = struct.unpack_from('<8sQ', data)
    extents = struct.unpack_from(f'<{rank}Q', data, 16)
    count = prod(extents)
    cells = struct.unpack_from(f'<{count}q{count}B', data, 16 + 8 * rank)
    assert magic == b'LUPFIELD' and len(data) == 16 + 8 * rank + 9 * count + ends, path
    return extents, [value if flag else None for value, flag in zip(cells[:count], cells[count:])]


def table_of(name):
    """The table of a plan of the demo, which has to be accepted, and the records of its nodes."""
    with open(os.path.join(ROOT, 'demo', name), encoding='utf-8') as file:
        table = lupasm.table_of(file.read())
    number, records = model.verdict(table)
    assert number == 0, (name, number, records)
    return table, records


def hatched(lines):
    """Whether each cell of a picture's lines is drawn as a gap."""
    return [line[2 * column:2 * column + 2] == '//' for line in lines for column in range(len(line) // 2)]


def wanted(table, dead):
    """The model's cells of the two nodes, where the dead machine's strip holds `dead` in every cell."""
    cells = []
    for k in range(make_bay.STRIPS):
        cells += [dead] * (make_bay.ROWS * make_bay.WIDTH) if k == make_bay.DEAD else make_bay.strip(k)
    cells += [make_bay.zone_of(column) for _ in range(make_bay.ROWS) for column in range(make_bay.COLUMNS)]
    fields = model.all_fields(table, model.verdict(table)[1], [cell or 0 for cell in cells], [int(cell is not None) for cell in cells])
    return [list(fields[node].values()) for node in (FIELD, STRONGEST)]


def picture(text, title):
    """The lines of the picture under that title."""
    rest = text[text.index(title):].split('\n\n')
    return rest[2].split('\n')


def test_pictures(tally, text, cells):
    shown = picture(text, 'The field at six')
    tally.same('rows of the picture', len(shown), SHAPE[0])
    tally.same('its width', {len(line) for line in shown}, {2 * SHAPE[1]})
    tally.same('no number in a cell', re.search('[0-9]', ''.join(shown)), None)
    tally.same('hatched where it is a gap', hatched(shown), [cell is None for cell in cells])
    first = picture(text, 'What version one would have shown')
    tally.same('version one hatches nothing', '//' in ''.join(first), False)
    test_one_scale(tally, text)
    for name, gaps in (('field', cells.count(None)), ('zeros', 0)):
        tree = xml.etree.ElementTree.parse(os.path.join(OUT, name + '.svg'))
        kinds = [element.get('class') for element in tree.iter() if element.tag.endswith('rect')]
        tally.same(name + '.svg', (kinds.count('known'), kinds.count('gap')), (len(cells) - gaps, gaps))


def test_one_scale(tally, text):
    """All pictures of the demo have the scale of the bounds that the model derives, and a cell that is alike in two pictures has one colour in both."""
    record = table_of('bay.lup')[1][FIELD]
    legends = re.findall(r'^(-?\d+) \.\. .* @@ (-?\d+)$', text, re.M)
    tally.same('one scale in the four texts', legends, [(str(record.low), str(record.high))] * 4)
    trees = [xml.etree.ElementTree.parse(os.path.join(OUT, name + '.svg')) for name in ('field', 'zeros')]
    ends = [[element.text for element in tree.iter() if element.get('id') == end] for tree in trees for end in ('low', 'high')]
    tally.same('one scale in the two SVG pictures', ends, [[str(record.low)], [str(record.high)]] * 2)
    fills = [[element.get('fill') for element in tree.iter() if element.get('class') in ('known', 'gap')] for tree in trees]
    both = [pair for k, pair in enumerate(zip(*fills)) if k % SHAPE[1] not in DEAD]
    tally.same('cells away from the dead strip', (len(both), [pair for pair in both if pair[0] != pair[1]]), (SHAPE[0] * (SHAPE[1] - len(DEAD)), []))


def test_filled(tally, text, six):
    """The gaps at six filled from the hour before, cell by cell without the model: what is known at six stays, and both stand in one file."""
    shape, five = read_field(os.path.join(ROOT, 'demo', 'five.field'), ends=0)
    tally.same('the hour before', (shape, five), (SHAPE, [make_bay.hour_before(row, column) for row in range(SHAPE[0]) for column in range(SHAPE[1])]))
    pairs = list(zip(six, five))
    for name, kind in (('known at both', (True, True)), ('filled', (False, True)), ('known at six alone', (True, False)), ('known at neither', (False, False))):
        tally.holds(('the example has a cell', name), kind in [(now is not None, before is not None) for now, before in pairs])
    filled = [before if now is None else now for now, before in pairs]
    tally.same('both fields in one', read_field(os.path.join(OUT, 'filled.field')), ((2, *SHAPE), six + filled))
    percent = 100 * sum(cell is not None for cell in six) // len(six)
    tally.same('the share that is known', read_field(os.path.join(OUT, 'share.field')), ((1, 1), [percent]))
    tally.same('it is said', re.findall(r'^known at six: (\d+) percent of the cells$', text, re.M), [str(percent)])
    first, second = (part.split('\n', 1) for part in text[text.index('Picture 0 is the field at six'):].split('\n\n')[2:4])
    tally.same('two pictures', (first[0], second[0]), ('picture 0', 'picture 1'))
    for name, part, cells in (('six', first[1], six), ('filled', second[1], filled)):
        tally.same(('hatched where it is a gap', name), hatched(part.split('\n')), [cell is None for cell in cells])
    records = table_of('filled.lup')[1]
    tally.same('its plan', [(len(records) - 1, records[BOTH].extents), records[PERCENT][2:]], [(BOTH, (2, *SHAPE)), (0, 100, (1, 1))])
    with open(os.path.join(OUT, 'filled.plan'), 'rb') as file:
        tally.same('its file is of the second edition', file.read(2), b'\0\2')


def run_demo(root):
    return subprocess.run([os.path.join(root, 'demo', 'run')], capture_output=True, text=True, check=False, env={**os.environ, 'TERM': 'dumb', 'COLUMNS': '80'})


def test_statuses(tally):
    """The demo over a program whose statuses are other ones: it has to fail where a missing strip does not give 3, or no missing strip gives it."""
    for found, other, wanted in ((3, 0, 3), (3, 1, 3), (3, 2, 3), (0, 3, 0)):
        with tempfile.TemporaryDirectory() as root:
            for name in ('demo', 'host'):
                os.symlink(os.path.join(ROOT, name), os.path.join(root, name))
            os.mkdir(os.path.join(root, 'build'))
            with open(os.path.join(root, 'build', 'lup'), 'w', encoding='utf-8') as file:
                file.write(f'#!/bin/sh\n"{ROOT}/build/lup" "$@"\nstatus=$?\n[ "$1 $status" = "run {found}" ] && exit {other}\nexit $status\n')
                os.fchmod(file.fileno(), 0o755)
            done = run_demo(root)
        last = done.stderr.strip().split('\n')[-1]
        tally.same(f'the demo where {found} is {other}', (done.returncode, last), (1, f'demo/run: build/lup run ended with status {other}, not {wanted}'))


def main():
    tally = Tally()
    done = run_demo(ROOT)
    missing = f'missing: demo/strip-{make_bay.DEAD:02}.field (PARAM {make_bay.DEAD}, {make_bay.ROWS}x{make_bay.WIDTH}): read as gaps\n'
    tally.same('the demo ends well, and names the missing strip in each of two runs', (done.returncode, done.stderr), (0, 2 * missing))
    table = table_of('bay.lup')[0]
    field, strongest = wanted(table, None)
    tally.same('the field', read_field(os.path.join(OUT, 'field.field')), (SHAPE, field))
    tally.same('the strongest', read_field(os.path.join(OUT, 'strongest.field')), ((1, SHAPE[1]), strongest))
    tally.same('with zeros', read_field(os.path.join(OUT, 'zeros.field')), (SHAPE, wanted(table, 0)[0]))
    gaps = [k % SHAPE[1] in DEAD for k in range(SHAPE[0] * SHAPE[1])]
    tally.same('a gap in the columns of the dead strip and nowhere else', [cell is None for cell in field], gaps)
    tally.same('no line of it is on standard output', 'missing: ' in done.stdout, False)
    test_statuses(tally)
    test_pictures(tally, done.stdout, field)
    test_filled(tally, done.stdout, field)
    with open(os.path.join(OUT, 'bay.plan'), 'rb') as file:
        listed = subprocess.run([os.path.join(ROOT, 'build', 'list')], stdin=file, capture_output=True, text=True, check=True).stdout
    tally.same('the listing', listed in done.stdout, True)
    with open(os.path.join(OUT, 'field.svg'), encoding='utf-8') as fresh, open(os.path.join(ROOT, 'docs', 'bay.svg'), encoding='utf-8') as kept:
        tally.same('the picture of README is this one', fresh.read() == kept.read(), True)
    tally.finish()


if __name__ == '__main__':
    main()
