#!/usr/bin/env python3
"""The assembler of plans: text to bytes and back, against the tables and the packing of the independent model and the
library's own packing; what it reads, what it writes and what it leaves alone.

usage: test_assembler.py [COUNT] [SEED]     last line: 'N passed, 0 failed'
"""

import errno
import glob
import os
import resource
import signal
import socket
import stat
import subprocess
import sys
import tempfile
import time
from random import Random

sys.dont_write_bytecode = True
ROOT = os.path.dirname(os.path.dirname(os.path.dirname(os.path.abspath(__file__))))
sys.path[:0] = [os.path.join(ROOT, part) for part in
                ('host', 'python', 'tests/host', 'tests/model', 'tests/boundary', 'tests/tools', 'demo')]

import cases  # noqa: E402
import lupasm  # noqa: E402
import lupetzarin  # noqa: E402
import make_bay  # noqa: E402
import model  # noqa: E402
import run_cases  # noqa: E402
from cases import apply, const, move, node, param, reduce_node  # noqa: E402
from counting import Cases  # noqa: E402
from program import Program  # noqa: E402
from wording import RULES  # noqa: E402

PROGRAM = os.path.join(ROOT, 'host', 'lupasm.py')
WIND = param(0, 2, -500, 500, (40, 12))
# every form of a line after `w = param ..`, and its words
LINES = (
    ('const i16 -2', const(2, -2)), ('const bool 1', const(0, 1)), ('param u8 0..255 - device 9', param(1, 1, 0, 255, (), 9)),
    ('permute w 1,0', move(model.PERMUTE, 0, (1, 0))), ('flip w 0x1', move(model.FLIP, 0, (0, 1))), ('reshape w 480', move(model.RESHAPE, 0, (480,))),
    ('expand w 40x12', move(model.EXPAND, 0, (40, 12))), ('pad w 41x20 at 1x8', move(model.PAD, 0, (41, 20), (1, 8))),
    ('shrink w 40x10 at 0x2', move(model.SHRINK, 0, (40, 10), (0, 2))), ('cast w i32', node(model.CAST, {1: 0, 4: 3})),
    *((f'{name} w w', apply(op, 0, 0)) for op, name in enumerate('add mul max idiv mod cmplt cmpne and or'.split(), model.ADD)),
    ('where w w w', apply(model.WHERE, 0, 0, 0)), ('sum w 0x1', reduce_node(0, 0, (0, 1))), ('greatest w 1x1', reduce_node(0, 1, (1, 1))),
    ('load w device 3', node(model.LOAD, {1: 0, 6: 3})), ('node 6 1=0 9=5 13=-1', node(6, {1: 0, 9: 5, 13: -1})), ('node 20', node(20)),
    ('fill w w', apply(model.FILL, 0, 0)), ('known w', apply(model.KNOWN, 0)), ('stack w w', node(model.STACK, {1: 0, 2: 0, 5: 2})),
    ('stack w w w', node(model.STACK, {1: 0, 2: 0, 3: 0, 5: 3})), ('node 23', node(23)), ('node 23 3=1 5=2', node(23, {3: 1, 5: 2})),
    ('node 23 1=0 2=0 3=1 5=-3', node(23, {3: 1, 5: -3})), ('node 21 2=-1', node(21, {2: -1})), ('node 22 1=1', node(22, {1: 1})),
)
W, V = 'w = param i16 0..5 3x4 device 1\n', 'v = const i16 5\n'
# a row that is not of its source's rank: shorter, then longer
RANKS = (
    ('permute w -', '-', 0), ('permute w 0', '0', 1), ('flip w -', '-', 0), ('flip w 1', '1', 1), ('sum w 1', '1', 1),
    ('greatest w 1', '1', 1), ('expand w 3', '3', 1), ('pad w 5 at 1x1', '5', 1), ('pad w 5x5 at 1', '1', 1),
    ('pad w 5x5 at -', '-', 0), ('shrink w 2 at 0x0', '2', 1), ('shrink w 2x2 at 0', '0', 1),
    ('permute w 1,0,2', '1,0,2', 3), ('flip w 0x1x0', '0x1x0', 3), ('sum w 0x1x0', '0x1x0', 3),
    ('greatest w 0x1x0', '0x1x0', 3), ('expand w 3x4x1', '3x4x1', 3), ('pad w 5x5x1 at 0x0', '5x5x1', 3),
    ('pad w 5x5 at 0x0x0', '0x0x0', 3), ('shrink w 2x2x1 at 0x0', '2x2x1', 3), ('shrink w 2x2 at 0x0x0', '0x0x0', 3))
# a line after W and V, and its rank
RANKED = (
    ('const i16 1', 0), ('param u8 0..1 1x2x3 device 1', 3), ('param u8 0..1 - device 1', 0), ('permute w 1,0', 2),
    ('flip w 0x1', 2), ('reshape w 12', 1), ('reshape w 2x2x3x1', 4), ('expand w 3x4', 2), ('pad w 5x5 at 1x1', 2),
    ('shrink w 2x2 at 0x0', 2), ('cast w i32', 2), ('add v w', 2), ('add w v', 2), ('add v v', 0), ('where v v w', 2),
    ('where w v v', 2), ('sum w 1x1', 2), ('greatest w 0x0', 2), ('load w device 3', 2), ('load v device 3', 0),
    ('node 20 1=0', 2), ('node 4 1=0 9=12', 1), ('fill w v', 2), ('fill v w', 2), ('fill v v', 0), ('known w', 2), ('known v', 0),
    ('stack w w', 3), ('stack w w w', 3), ('stack v v', 1), ('stack v v v', 1), ('node 23 1=1 2=1 3=0 5=4', 1), ('node 23 1=1 2=1 3=0 5=3', 3))
# a text, and what the message says of it
WRONG = (
    *((f'{W}v = {line}', f"line 2: '{row}' is a row of rank {rank}, and the source has rank 2")
      for line, row, rank in RANKS),
    ('w = param i16 0..5 0 device 1', "'0' has an extent of 0"),
    ('w = param i16 0..5 3x0 device 1', "'3x0' has an extent of 0"),
    (W + 'v = reshape w 12x0', "line 2: '12x0' has an extent of 0"),
    (W + 'v = pad w 0x5 at 0x0', "'0x5' has an extent of 0"), (W + 'v = expand w 3x0', "'3x0' has an extent of 0"),
    (W + 'v = shrink w 3x0 at 0x0', "'3x0' has an extent of 0"),
    ('w = const i16 ' + '9' * 5000, '999 cannot be packed'),
    ('w = const i32 -17179869185', '-17179869185 cannot be packed'),
    ('w = node 0 \u00b2=3', 'operation 0 has the words 4, 5'),
    ('w = node 0 \u0664=3', 'operation 0 has the words 4, 5'),
    ('', 'there is no node'), ('# nothing\n\n', 'there is no node'), ('w', 'line 1: a line is'), ('\nw = const', 'line 2: a type is missing'),
    ('w = const i16', 'a number is missing'), ('w = const i17 5', "'i17' is no type"), ('w = const i16 five', "'five' is no whole number"),
    ('w = const i16 5 6', "'6' is left over"), ('w = cinst i16 5', "'cinst' is no operation"), ('w = load v device 1', "no node before this one is called 'v'"),
    ('w = load w device 1', "no node before this one is called 'w'"), ('w = const u8 1\nw = const u8 2', "line 2: 'w' is the name of another node"),
    ('w = param i16 5 3x4 device 1', "'5' are no limits"), ('w = param i16 0..5 3x4', "'device' is missing"), ('w = param i16 0..5 3x4 on 1', "'device' is wanted, not 'on'"),
    ('w = param i16 0..5 1x1x1x1x1 device 1', 'more than four axes'), ('w = param i16 0..5 3xx4 device 1', "'' is no whole number"),
    ('w = const u8 1\nv = pad w - to -', "'at' is wanted, not 'to'"), ('w = node 24', 'operation 24 cannot be packed: 0 to 23 can'), ('w = node 0 1=2', 'operation 0 has the words 4, 5'),
    ('w = node 0 4', 'operation 0 has the words 4, 5'), (f'w = const i32 {2 ** 34}', 'cannot be packed'), ('w = const u8 1\n' + ''.join(f'v{k} = const u8 1\n' for k in range(256)), 'at most 256 nodes'),
    *((f'{W}v = {line}', f'line 2: {message}') for line, message in (
        ('fill', 'a source is missing'), ('fill w', 'a source is missing'), ('fill w w w', "'w' is left over"), ('fill w 3', "no node before this one is called '3'"),
        ('known', 'a source is missing'), ('known w w', "'w' is left over"), ('stack', 'a source is missing'), ('stack w', 'a source is missing'),
        ('stack w w w w', "'w' is left over"), ('stack w w 2', "no node before this one is called '2'"), ('stack w w v', "no node before this one is called 'v'"),
        ('stack w w at 0', "no node before this one is called 'at'"), ('node 21 3=0', "'3=0': operation 21 has the words 1, 2"),
        ('node 22 2=0', "'2=0': operation 22 has the words 1"), ('node 23 4=0', "'4=0': operation 23 has the words 1, 2, 3, 5"))),
    ('w w = const u8 1', 'a line is'), ('w = const u8 1 # five\nv = const u8 x', "line 2: 'x' is no whole number"),
)


def expect_packed(tally, text):
    """The assembler has a writer of its own; its bytes are those of lup_pack."""
    tally.same(('lup_pack', text[:60]), lupasm.assemble(text), lupetzarin.pack(lupasm.table_of(text)))


def test_lines(tally):
    for line, words in LINES:
        text = f'w = param i16 -500..500 40x12 device 1\na = {line}  # the line\n'
        with tally.case(line):
            tally.same(line, lupasm.table_of(text), WIND + words)
            tally.same(line, lupasm.assemble(text), cases.pack(WIND + words))
            expect_packed(tally, text)
            again = lupasm.back(cases.pack(WIND + words))
            tally.same(f'{line}, back', lupasm.table_of(again), WIND + words)
            if not line.startswith('node'):
                tally.same(f'{line}, back in words', ' = node ' in again, False)
    for text, message in WRONG:
        try:
            tally.same(text[:60], lupasm.assemble(text), message)
        except lupasm.TextError as error:
            shown = f'line {error.line}: {error}' if error.line else str(error)
            tally.holds(text[:60], message in shown, shown)


# A text, its bytes, and the text that comes back; by hand.
EDITIONS = (
    ('five = const i16 5\n', '01 00 04 0A', 'n0 = const i16 5\n'),
    ('five = const i16 5\nk = known five\n', '00 02 02 00 04 0A 16 00', 'n0 = const i16 5\nn1 = known n0\n'),
    ('five = const i16 5\nf = fill five five\nk = load f device 1\n', '00 02 03 00 04 0A 15 00 00 14 02 02',
     'n0 = const i16 5\nn1 = fill n0 n0\nn2 = load n1 device 1\n'),
    ('five = const i16 5\ns = stack five five\n', '00 02 02 00 04 0A 17 00 00 00 04', 'n0 = const i16 5\nn1 = stack n0 n0\n'),
    ('a = const i16 5\nb = const i16 6\ns = stack b a b\nt = node 23 1=2 2=2 3=1 5=2\n', '00 02 04 00 04 0A 00 04 0C 17 02 00 02 06 17 04 04 02 04',
     'n0 = const i16 5\nn1 = const i16 6\nn2 = stack n1 n0 n1\nn3 = node 23 1=2 2=2 3=1 5=2\n'),
)


def test_editions(tally, asm):
    """The second edition where a new operation is used, and the first elsewhere; back in words."""
    for text, written, again in EDITIONS:
        data = bytes.fromhex(written)
        asm.put('plan.lup', text.encode())
        with tally.case(('the edition of', text)):
            tally.same('assembled', (asm.run('plan.lup', '-o', 'plan.plan'), asm.get('plan.plan')), (DONE, data))
            tally.same('back', asm.run('--back', 'plan.plan'), (0, again, ''))
            expect_packed(tally, text)


def accepts(text):
    try:
        return bool(lupasm.assemble(text))
    except lupasm.TextError:
        return False


def test_ranks(tally):
    """A row of the node's own rank, and of no other."""
    for line, rank in RANKED:
        text = f'{W}{V}a = {line}\nb = flip a '
        found = [k for k in range(5) if accepts(text + ('x'.join('1' * k) or '-'))]
        with tally.case(('the rank of', line)):
            tally.same('the rank', found, [rank])
            expect_packed(tally, text + ('x'.join('1' * rank) or '-'))


def without_last(line):
    """The line with each of its rows that a source measures, one after another, without its last word."""
    tokens = line.split()
    if tokens[2] in ('permute', 'flip', 'sum', 'greatest', 'expand', 'pad', 'shrink'):
        for at in (4, 6):
            if at < len(tokens) and tokens[at] != '-':
                separator = ',' if tokens[2] == 'permute' else 'x'
                shorter = separator.join(tokens[at].split(separator)[:-1]) or '-'
                yield ' '.join([*tokens[:at], shorter, *tokens[at + 1:]])


def test_plans(tally, rng, count):
    """Accepted plans come back in readable lines; any words at all come back as they were."""
    for run in run_cases.random_runs(rng, count):
        data = cases.pack(run.table)
        text = lupasm.back(data)
        with tally.case((run.note, text)):
            tally.same('there and back', lupasm.assemble(text), data)
            expect_packed(tally, text)
            tally.same('in words', ' = node ' in text, False)
            lines = text.split('\n')
            for number, line in enumerate(lines[:-1]):
                for shorter in without_last(line):
                    tally.same(shorter, accepts('\n'.join([*lines[:number], shorter])), False)
    ends = [n for k in (0, 6, 7, 13, 14, 33, 34) for n in (2 ** k, -2 ** k, 2 ** k - 1) if -2 ** 34 <= n < 2 ** 34]
    for _ in range(count):
        table = []
        for _ in range(rng.randint(1, 6)):
            op = rng.randrange(len(model.USED_WORDS))
            table += node(op, {word: rng.choice((0, 1, 2, 3, rng.choice(ends))) for word in model.USED_WORDS[op]})
        with tally.case(('any words', table)):
            text = lupasm.back(cases.pack(table))
            tally.same('there and back', lupasm.table_of(text), table)
            expect_packed(tally, text)


# ------------------------------------------------------------- the program

FIVE = bytes.fromhex('0100040A')
PACKED = FIVE.decode('latin-1')
TEXT, BACK = b'five = const i16 5\n', 'n0 = const i16 5\n'
OLD = b'what was there'
DONE = 0, '', ''
APART = 'it is to be read and to be written; nothing was done'
PLAIN = 'what has this name is no plain file; it stays as it is'
NO_LINE = 'a line is `name = operation ..`'


class Assembler(Program):
    """Runs the assembler in a folder of its own."""

    def call(self, *words, before=()):
        return [sys.executable, '-B', *before, self.path, *words]

    def run(self, *words, before=(), **more):
        """Exit status, standard output with a character a byte, standard error."""
        pipes = {'stdout': subprocess.PIPE, 'stderr': subprocess.PIPE, **more}
        if 'input' not in pipes:
            pipes.setdefault('stdin', subprocess.DEVNULL)
        done = subprocess.run(self.call(*words, before=before), cwd=self.folder, timeout=60, check=False, **pipes)
        return done.returncode, (done.stdout or b'').decode('latin-1'), (done.stderr or b'').decode(errors='replace')

    def start(self, *words):
        pipes = dict.fromkeys(('stdin', 'stdout', 'stderr'), subprocess.PIPE)
        return subprocess.Popen(self.call(*words), cwd=self.folder, bufsize=0, **pipes)

    def put_all(self):
        self.put('five.lup', TEXT)
        self.put('five.plan', FIVE)
        self.put('old.plan', OLD)

    def seen(self):
        """Everything in the folder: kind and mode, which file it is, what it holds."""
        found = {}
        for name in os.listdir(self.folder):
            there = os.lstat(self.at(name))
            data = self.get(name) if stat.S_ISREG(there.st_mode) else None
            found[name] = there.st_mode, there.st_ino, there.st_rdev, there.st_nlink, data
        return found


def failed(name, message, status=2):
    """What the program answers where it fails."""
    return status, '', f'lupasm.py: {name}: {message}\n'


def unread(name, why):
    return failed(name, f'it cannot be read: {os.strerror(why)}')


def unwritten(name, why):
    return failed(name, f'it cannot be written: {os.strerror(why)}')


def refused(name, number, place):
    return failed(name, f'refused {number} at byte {place}: {RULES[number]}', 1)


def test_program(tally, asm):
    asm.put('five.lup', TEXT)
    tally.same('assemble', asm.run('five.lup', '-o', 'five.plan'), DONE)
    tally.same('01 00 04 0A', asm.get('five.plan'), FIVE)
    tally.same('back', asm.run('--back', 'five.plan'), (0, BACK, ''))
    tally.same('back to a file', asm.run('--back', 'five.plan', '-o', 'back.lup'), DONE)
    tally.same('its text', asm.get('back.lup'), BACK.encode())
    asm.put('five.lup', b'five = const i16 5\nsix = const i16\n')
    tally.same('a wrong line', asm.run('five.lup', '-o', 'five.plan'), failed('five.lup:2', 'a number is missing'))
    tally.same('the plan stays as it was', asm.get('five.plan'), FIVE)
    tally.same('nothing else is left', sorted(os.listdir(asm.folder)), ['back.lup', 'five.lup', 'five.plan'])


MISUSE = (
    (), ('five.lup',), ('--back',), ('--check',), ('five.lup', '-o'), ('five.lup', '-x', 'five.plan'),
    ('five.lup', 'five.lup', '-o', 'five.plan'), ('five.lup', '-o', 'five.plan', '-o', 'five.plan'),
    ('five.lup', '-o', ''), ('', '-o', 'five.plan'), ('--back', ''), ('--bac', 'five.plan'), ('--chec', 'five.lup'),
    ('five.lup', '-o', 'five.plan', '--force'))


def test_messages(tally, asm):
    """Misuse shows the usage; any other message is a line, with the file that it is about."""
    asm.put_all()
    before = asm.seen()
    for call in MISUSE:
        with tally.case(call):
            status, text, errors = asm.run(*call)
            tally.same((call, 'status'), (status, text), (2, ''))
            tally.holds((call, 'usage'), errors.startswith('usage: lupasm.py TEXT -o PLAN'), errors)
            tally.holds((call, 'message'), '\nlupasm.py: error: ' in errors, errors)
            tally.same((call, 'all stays'), asm.seen() == before, True)
    for call, wanted in (
            (('none.lup', '-o', 'new.plan'), unread('none.lup', errno.ENOENT)),
            (('--back', 'none.plan'), unread('none.plan', errno.ENOENT)),
            (('.', '-o', 'new.plan'), unread('.', errno.EISDIR)),
            (('--back', '.'), unread('.', errno.EISDIR)),
            (('five.lup', '-o', 'none/new.plan'), unwritten('none/new.plan', errno.ENOENT)),
            (('five.lup', '-o', 'old.plan/new.plan'), unwritten('old.plan/new.plan', errno.ENOTDIR)),
            (('--back', 'five.plan', '-o', 'none/new.lup'), unwritten('none/new.lup', errno.ENOENT)),
            (('--back', 'five.lup'), refused('five.lup', 24, 1))):
        tally.same(call, (asm.run(*call), asm.seen() == before), (wanted, True))
    for data, wanted in (
            (b'', failed('wrong.lup', 'there is no node')),
            (TEXT + b'\n# \xc3\xa9\nsix = \xff\n', failed('wrong.lup:4', 'byte FF is no UTF-8')),
            (TEXT + b'# \xc3', failed('wrong.lup:2', 'byte C3 is no UTF-8')),
            (TEXT + b'# a comment\rsix\r\n', failed('wrong.lup:3', NO_LINE)),
            (bytes(1 << 20), failed('wrong.lup:1', NO_LINE))):
        asm.put('wrong.lup', data)
        got = asm.run('wrong.lup', '-o', 'new.plan')
        tally.same(('wrong.lup', data[:30]), (got, os.path.exists(asm.at('new.plan'))), (wanted, False))


# Runs the words after the first with that descriptor closed.
CLOSED = '''
import os, sys
os.close(int(sys.argv[1]))
os.execv(sys.executable, [sys.executable, *sys.argv[2:]])
'''


def test_standard(tally, asm):
    """`-` is standard input and standard output; a file of that name is ./-"""
    asm.put_all()
    tally.same('to standard output', asm.run('five.lup', '-o', '-'), (0, PACKED, ''))
    tally.same('from standard input', asm.run('-', '-o', '-', input=TEXT), (0, PACKED, ''))
    tally.same('to a file', (asm.run('-', '-o', 'new.plan', input=TEXT), asm.get('new.plan')), (DONE, FIVE))
    tally.same('back from standard input', asm.run('--back', '-', input=FIVE), (0, BACK, ''))
    tally.same('back to standard output', asm.run('--back', '-', '-o', '-', input=FIVE), (0, BACK, ''))
    got = asm.run('-', '-o', 'new.plan', input=TEXT + b'six\n')
    tally.same('a wrong line', got, failed('standard input:2', NO_LINE))
    tally.same('a refusal', asm.run('--back', '-', input=b'\0'), refused('standard input', 23, 0))
    asm.put('-', TEXT)
    tally.same('a file of that name', asm.run('./-', '-o', '-'), (0, PACKED, ''))
    tally.same('after --', asm.run('-o', '-', '--', '-', input=TEXT), (0, PACKED, ''))
    with open('/dev/full', 'wb') as full:
        for call in (('five.lup', '-o', '-'), ('--back', 'five.plan'), ('--help',)):
            tally.same((call, 'full'), asm.run(*call, stdout=full), unwritten('standard output', errno.ENOSPC))
    for number, call, wanted in (
            (0, ('-', '-o', 'new.plan'), unread('standard input', errno.EBADF)),
            (1, ('five.lup', '-o', '-'), unwritten('standard output', errno.EBADF)),
            (1, ('five.lup', '-o', 'new.plan'), DONE), (2, ('five.lup', '-o', '-'), (0, PACKED, '')),
            (2, ('none.lup', '-o', '-'), (2, '', ''))):
        tally.same((call, number, 'is closed'), asm.run(*call, before=('-c', CLOSED, str(number))), wanted)
    with open(asm.at('five.lup'), 'ab') as file:
        got = asm.run('five.lup', '-o', '-', stdout=file)
        tally.same('standard output is the text', got, failed('standard output', APART))
    tally.same('it stays', asm.get('five.lup'), TEXT)


def test_check(tally, asm):
    """--check answers as without it, and writes nothing."""
    asm.put_all()
    asm.put('wrong.lup', TEXT + b'six\n')
    asm.put('wrong.plan', b'\0')
    os.mkfifo(asm.at('pipe'))
    before = asm.seen()
    for call, wanted in (
            (('five.lup',), DONE), (('five.lup', '-o', 'new.plan'), DONE), (('five.lup', '-o', 'old.plan'), DONE),
            (('five.lup', '-o', '-'), DONE), (('-',), DONE), (('wrong.lup',), failed('wrong.lup:2', NO_LINE)),
            (('wrong.lup', '-o', 'old.plan'), failed('wrong.lup:2', NO_LINE)),
            (('five.lup', '-o', 'five.lup'), failed('five.lup', APART)),
            (('five.lup', '-o', 'pipe'), failed('pipe', PLAIN)),
            (('none.lup',), unread('none.lup', errno.ENOENT)),
            (('--back', 'five.plan'), DONE), (('--back', 'five.plan', '-o', 'old.plan'), DONE),
            (('--back', 'wrong.plan'), refused('wrong.plan', 23, 0)),
            (('--back', 'five.plan', '-o', 'five.plan'), failed('five.plan', APART))):
        tally.same(('--check', *call), (asm.run('--check', *call, input=TEXT), asm.seen() == before), (wanted, True))
    got = asm.run('five.lup', '-o', 'old.plan', '--check')
    tally.same('--check behind', (got, asm.seen() == before), (DONE, True))


# ------------------------------------------------ what the library refuses

# number, place, bytes: all that the library can refuse of bytes
REFUSED = [(number, place, bytes.fromhex(data)) for number, place, data in (
    (20, 0, ''), (20, 1, '01'), (20, 0, '80'), (20, 3, '010004'), (20, 3, '01000480'), (20, 3, '010004FFFFFFFF'),
    (21, 0, '8100040A'), (21, 0, '8000'), (21, 1, '018000040A'), (21, 2, '010084000A'), (21, 3, '0100048A00'),
    (21, 3, '0100048000'), (21, 0, 'FFFFFFFFFF'), (21, 3, '010004FFFFFFFFFF'), (21, 3, '010004FFFFFFFFFF01'),
    (22, 4, '0100040A00'), (22, 4, '0100040A0100040A'), (23, 0, '00'), (23, 0, '000004'), (23, 0, '8102'),
    (23, 0, 'FFFFFFFF7F'), (24, 1, '0115'), (24, 1, '017F'), (24, 1, '01FF01'), (24, 1, '011600'), (24, 4, '0200040A1700000004'),
    (23, 0, '0001'), (23, 0, '008200'), (23, 0, '00030100040A'), (20, 2, '0002'), (20, 2, '000280'), (21, 2, '00028100040A'), (23, 0, '000200'),
    (23, 0, '00028102'), (20, 3, '000201'), (20, 6, '00020200040A'), (21, 3, '0002019600'), (24, 3, '00020118'), (22, 5, '000201160000'),
    (22, 6, '00020100040A00'), (26, 0, '00020100040A'), (26, 0, '00020200040A090000'))]


def answer_of(data):
    """The model's: number and place of a refusal, or 0 and the table."""
    table = [0] * (17 * 256)
    number, place, count = model.unpack(data, table)
    return (number, place) if number else (0, table[:17 * count])


def back_of(data):
    """The same of the assembler."""
    try:
        return 0, lupasm.table_of(lupasm.back(data))
    except lupasm.Refused as error:
        return error.number, error.place


def test_back(tally, asm):
    asm.put('old.lup', OLD)
    for number, place, data in REFUSED:
        with tally.case((number, place, data.hex())):
            tally.same('the model', answer_of(data), (number, place))
            tally.same('the assembler', back_of(data), (number, place))
            asm.put('bad.plan', data)
            tally.same('the program', asm.run('--back', 'bad.plan'), refused('bad.plan', number, place))
    got = asm.run('--back', 'bad.plan', '-o', 'old.lup')
    tally.same('to a file', (got, asm.get('old.lup')), (refused('bad.plan', number, place), OLD))
    tally.same('every refusal', {number for number, _, _ in REFUSED}, {20, 21, 22, 23, 24, 26})


def test_damage(tally, rng, count):
    """Packed plans with bytes changed, put in, taken out or cut off: unpacked or refused as the model says."""
    met = set()
    plans = [cases.pack(run.table) for run in run_cases.random_runs(rng, 40)] + [FIVE, b'\0\2' + FIVE] * 4
    for _ in range(count):
        data = bytearray(rng.choice(plans))
        for _ in range(rng.randint(1, 2)):
            at = rng.randrange(len(data) + 1)
            part = rng.choice((b'', b'\0', b'\x80', b'\xff', b'\x80\0', rng.randbytes(1)))
            data[at:rng.choice((at, at + 1, at + 1, len(data)))] = part
        wanted = answer_of(bytes(data))
        met.add(wanted[0])
        tally.same(data.hex(), back_of(bytes(data)), wanted)
    tally.holds('every refusal is met', met == {0, 20, 21, 22, 23, 24, 26} or count < 300, met)


def test_library(tally, asm):
    """--back asks the library that is named, and does nothing without it; to assemble needs none."""
    asm.put_all()
    with open(os.path.join(ROOT, 'build', 'liblupetzarin.so'), 'rb') as file:
        asm.put('other.so', file.read())
    none = 2, '', 'lupasm.py: the library cannot be loaded: '
    for library, wanted in ((asm.at('other.so'), (0, BACK, '')), (asm.at('none.so'), none), (asm.at('five.lup'), none),
                            ('libc.so.6', none)):
        environment = {**os.environ, 'LUPETZARIN_LIBRARY': library}
        with tally.case(library):
            status, text, errors = asm.run('--back', 'five.plan', env=environment)
            tally.same('--back', (status, text, errors[:len(wanted[2])]), wanted)
            tally.same('one line', errors.count('\n'), int(status != 0))
            tally.same('assemble', asm.run('five.lup', '-o', '-', env=environment), (0, PACKED, ''))


# ------------------------------------------------------------------ reading

def test_long(tally, asm):
    """The longest plan and the longest text are read to their ends."""
    longest = cases.pack(node(model.PAD, dict.fromkeys(model.USED_WORDS[model.PAD], 2 ** 34 - 1)) * 256)
    tally.same('the longest plan', len(longest), 11778)
    asm.put('long.plan', longest)
    for words, more in (('long.plan',), {}), (('-',), {'input': longest}):
        status, text, errors = asm.run('--back', *words, **more)
        tally.same((words, 'back'), (status, text.count('\n'), errors), (0, 256, ''))
        again = asm.run('-', '-o', '-', input=text.encode())
        tally.same((words, 'and there again'), again, (0, longest.decode('latin-1'), ''))
    for more in (1, 510, 511, 70000):
        got = asm.run('--back', '-', input=longest + bytes(more))
        tally.same((more, 'bytes after it'), got, refused('standard input', 22, 11778))
    last = b'\nsix = const i16 6'
    for size in (1 << 12, 1 << 16, (1 << 16) + 1, 1 << 20, 3 << 20, 1 << 24):
        text = TEXT + b'#' * (size - len(TEXT + last)) + last
        asm.put('long.lup', text)
        two = 0, '\x02\x00\x04\x0a\x00\x04\x0c', ''
        tally.same((size, 'a long text'), asm.run('long.lup', '-o', '-'), two)
        tally.same((size, 'by standard input'), asm.run('-', '-o', '-', input=text), two)
    asm.put('long.lup', text + b' ')
    got = asm.run('long.lup', '-o', 'new.plan')
    tally.same('too long a text', got, failed('long.lup', f'a text has at most {1 << 24} bytes'))


def in_parts(asm, words, data):
    """The same as run, by standard input that comes in three parts."""
    process = asm.start(*words)
    cuts = 0, len(data) // 3, 2 * len(data) // 3, len(data)
    for first, last in zip(cuts, cuts[1:]):
        process.stdin.write(data[first:last])
        time.sleep(0.05)
    text, errors = process.communicate(timeout=60)
    return process.returncode, text.decode('latin-1'), errors.decode()


# Writes its first argument into a fifo, in parts.
SLOW = '''
import sys, time
with open('pipe.lup', 'wb', 0) as file:
    for letter in sys.argv[1]:
        file.write(letter.encode())
        time.sleep(0.005)
'''


def test_parts(tally, asm):
    """A pipe gives what it has: reading goes on to the end, and what ends early for now is an error."""
    asm.put_all()
    text = b''.join(b'n%d = const i16 %d\n' % (k, k) for k in range(256))
    packed = lupasm.assemble(text.decode())
    tally.same('a text in parts', in_parts(asm, ('-', '-o', '-'), text), (0, packed.decode('latin-1'), ''))
    tally.same('a plan in parts', in_parts(asm, ('--back', '-'), packed), (0, text.decode(), ''))
    os.mkfifo(asm.at('pipe.lup'))
    with subprocess.Popen([sys.executable, '-c', SLOW, TEXT.decode()], cwd=asm.folder):
        tally.same('a fifo', asm.run('pipe.lup', '-o', '-'), (0, PACKED, ''))
    reader, writer = os.pipe()
    os.set_blocking(reader, False)
    for call, data in (('-', '-o', 'old.plan'), TEXT), (('--back', '-', '-o', 'old.plan'), FIVE):
        os.write(writer, data)
        got = asm.run(*call, stdin=reader)
        tally.same((call, 'nothing for now'), got, unread('standard input', errno.EAGAIN))
    os.close(reader)
    os.close(writer)
    tally.same('nothing is written', asm.get('old.plan'), OLD)


# ------------------------------------------------------------------ writing

def make_device(path):
    """A character device like /dev/null; a fifo where this user may make none."""
    try:
        os.mknod(path, stat.S_IFCHR | 0o666, os.makedev(1, 3))
    except PermissionError:
        os.mkfifo(path)


def test_outputs(tally, asm):
    """What is never written over: the file that is read, by whatever name, and what is no plain file."""
    asm.put_all()
    os.mkdir(asm.at('folder'))
    os.mkfifo(asm.at('pipe'))
    make_device(asm.at('device'))
    links = {'here': '.', 'link': 'old.plan', 'dangling': 'nothing', 'ring': 'ring', 'device-link': 'device',
             'soft-lup': 'five.lup', 'softer-lup': 'soft-lup', 'soft-plan': 'five.plan', 'softer-plan': 'soft-plan'}
    for link, name in links.items():
        os.symlink(name, asm.at(link))
    os.link(asm.at('five.lup'), asm.at('hard-lup'))
    os.link(asm.at('five.plan'), asm.at('hard-plan'))
    with socket.socket(socket.AF_UNIX) as ear:
        ear.bind(os.path.relpath(asm.at('socket')))
    before = asm.seen()

    def refuses(wanted, *call, **more):
        tally.same(call, (asm.run(*call, **more), asm.seen() == before), (wanted, True))

    for words, kind in ((), 'lup'), (('--back',), 'plan'):
        source = f'five.{kind}'
        others = f'hard-{kind}', f'soft-{kind}', f'softer-{kind}', f'here/soft-{kind}'
        for name in (source, f'./{source}', f'folder/../{source}', f'here/{source}', asm.at(source), *others):
            refuses(failed(name, APART), *words, source, '-o', name)
        for name in (source, *others):
            with open(asm.at(source), 'rb') as file:
                refuses(failed(name, APART), *words, '-', '-o', name, stdin=file)
        for name in ('folder', 'folder/', '.', 'link', 'dangling', 'pipe', 'socket', 'device', 'device-link',
                     'here/device'):
            refuses(failed(name, PLAIN), *words, source, '-o', name)
        refuses(unwritten('ring', errno.ELOOP), *words, source, '-o', 'ring')
    tally.same('a link to the text is read', asm.run('soft-lup', '-o', 'folder/five.lup'), DONE)
    there = asm.get('folder/five.lup'), os.listdir(asm.at('folder'))
    tally.same('the same name in another folder', there, (FIVE, ['five.lup']))


def test_kept(tally, asm):
    """A file that is replaced: its mode is kept, and its other names keep what it held. The mode of a new file."""
    asm.put_all()
    for mode in (0o644, 0o600, 0o666, 0o755, 0o444, 0o640, 0o000, 0o4755):
        with tally.case(oct(mode)):
            asm.put('out', OLD)
            os.chmod(asm.at('out'), mode)
            os.link(asm.at('out'), asm.at('other'))
            tally.same('done', asm.run('five.lup', '-o', 'out', umask=0o027), DONE)
            tally.same('its mode', stat.S_IMODE(os.lstat(asm.at('out')).st_mode), mode)
            for name, data in ('out', FIVE), ('other', OLD):
                os.chmod(asm.at(name), 0o600)
                tally.same(name, asm.get(name), data)
                os.remove(asm.at(name))
    for mask in (0o022, 0o027, 0o077, 0o000):
        with tally.case(('a new file', oct(mask))):
            tally.same('done', asm.run('five.lup', '-o', 'out', umask=mask), DONE)
            tally.same('its mode', stat.S_IMODE(os.lstat(asm.at('out')).st_mode), 0o666 & ~mask)
        os.remove(asm.at('out'))
    name = 'n' * 255
    tally.same('the longest name', (asm.run('five.lup', '-o', name), asm.get(name)), (DONE, FIVE))
    tally.same('nothing beside them', sorted(os.listdir(asm.folder)), ['five.lup', 'five.plan', name, 'old.plan'])


# Runs a program whose calls of the system on a file that it makes are told, or fail, or meet a signal. POINT: the call;
# ACT: told, the name of an error, or of a signal that comes before the call (of open after it: then there is a file).
DRIVER = '''
import errno, os, runpy, signal, sys
point, act, program, *words = sys.argv[1:]
calls, files = [], set()

def acts():
    if act.startswith('SIG'):
        os.kill(os.getpid(), getattr(signal, act))
    elif act == 'MemoryError':
        raise MemoryError
    elif act != 'told':
        number = getattr(errno, act)
        raise OSError(number, os.strerror(number))

def wrap(name):
    real = getattr(os, name)
    late = name == 'open' and act.startswith('SIG')

    def call(*given, **more):
        if name == 'open' and not given[1] & os.O_CREAT or isinstance(given[0], int) and given[0] not in files:
            return real(*given, **more)
        if name == point and not late:
            acts()
        result = real(*given, **more)
        calls.append(name)
        if name == 'open':
            files.add(result)
            calls.append(f'{os.path.dirname(given[0])}:{os.fstat(result).st_mode & 0o7777:o}')
        if name == point and late:
            acts()
        return result
    setattr(os, name, call)

for name in 'open write fchmod fsync close replace rename remove unlink link truncate ftruncate'.split():
    wrap(name)
sys.argv[:] = [program, *words]
try:
    runpy.run_path(program, run_name='__main__')
finally:
    if act == 'told':
        print(*calls, file=sys.stderr)
'''
STEPS = ('open', 'write', 'fchmod', 'fsync', 'close', 'replace')


def driven(point, act):
    return {'before': ('-c', DRIVER, point, act)}


def test_failures(tally, asm):
    """Where a step fails the file stays, and nothing is left beside it; so where there was no file."""
    asm.put_all()
    before = asm.seen()
    for step in STEPS:
        for number in (errno.ENOSPC, errno.EIO):
            for call in (('five.lup', '-o', 'old.plan'), ('--back', 'five.plan', '-o', 'old.plan')):
                got = asm.run(*call, **driven(step, errno.errorcode[number]))
                tally.same((step, number, call), (got, asm.seen() == before), (unwritten('old.plan', number), True))
        if step != 'fchmod':
            got = asm.run('five.lup', '-o', 'new.plan', **driven(step, 'ENOSPC'))
            tally.same((step, 'new'), (got, asm.seen() == before), (unwritten('new.plan', errno.ENOSPC), True))
        status, _, errors = asm.run('five.lup', '-o', 'old.plan', **driven(step, 'MemoryError'))
        told = status, errors.endswith('MemoryError\n'), asm.seen() == before
        tally.same((step, 'no memory'), told, (1, True, True))


def test_order(tally, asm):
    """The temporary file stands in the same folder and is on the disk before it gets the name."""
    asm.put_all()
    os.mkdir(asm.at('folder'))
    os.chmod(asm.at('old.plan'), 0o604)
    new = 'write fsync close replace'
    for name, steps in (('old.plan', 'open :604 write fchmod fsync close replace'), ('new.plan', f'open :644 {new}'),
                        ('folder/new.plan', f'open folder:644 {new}')):
        with tally.case(name):
            got = asm.run('five.lup', '-o', name, umask=0o022, **driven('', 'told'))
            tally.same('steps', got, (0, '', steps + '\n'))
            tally.same('its bytes', asm.get(name), FIVE)
    tally.same('standard output', asm.run('five.lup', '-o', '-', **driven('', 'told')), (0, PACKED, '\n'))
    tally.same('--check', asm.run('five.lup', '--check', '-o', 'old.plan', **driven('', 'told')), (0, '', '\n'))


def short_files():
    resource.setrlimit(resource.RLIMIT_FSIZE, (3, 3))


def test_full(tally, asm):
    """Files end at three bytes, so that the first writing is done in part."""
    asm.put_all()
    before = asm.seen()
    for call in (('five.lup', '-o', 'old.plan'), ('five.lup', '-o', 'new.plan'),
                 ('--back', 'five.plan', '-o', 'old.plan')):
        got = asm.run(*call, preexec_fn=short_files)
        tally.same((call, 'full'), (got, asm.seen() == before), (unwritten(call[-1], errno.EFBIG), True))
    with tempfile.TemporaryFile() as file:
        for call in (('five.lup', '-o', '-'), ('--back', 'five.plan')):
            got = asm.run(*call, stdout=file, preexec_fn=short_files)
            tally.same((call, 'full'), got, unwritten('standard output', errno.EFBIG))


# Takes the first names that the temporary file of this process would have.
TAKEN = '''
import os, sys
for k in range(int(sys.argv[1])):
    os.symlink('victim', f'.lupasm-{os.getpid()}-{k}.tmp')
os.execv(sys.executable, [sys.executable, *sys.argv[2:]])
'''


def test_taken(tally, asm):
    """A name that the temporary file would have is left to what has it."""
    asm.put_all()
    asm.put('victim', OLD)
    for count, wanted in ((1, DONE), (99, DONE), (100, unwritten('old.plan', errno.EEXIST))):
        with tally.case(count):
            asm.put('old.plan', OLD)
            tally.same('answer', asm.run('five.lup', '-o', 'old.plan', before=('-c', TAKEN, str(count))), wanted)
            left = [name for name in os.listdir(asm.folder) if name.endswith('.tmp')]
            tally.same('what had the names', [os.path.islink(asm.at(name)) for name in left], [True] * count)
            tally.same('the files', (asm.get('victim'), asm.get('old.plan')), (OLD, OLD if wanted[0] else FIVE))
            for name in left:
                os.remove(asm.at(name))


def test_signals(tally, asm):
    """A signal at any step of the writing ends the program when the file is there and nothing beside it."""
    asm.put_all()
    names = sorted(os.listdir(asm.folder))
    for name in ('SIGINT', 'SIGTERM', 'SIGHUP'):
        for step in STEPS:
            with tally.case((name, step)):
                asm.put('old.plan', OLD)
                got = asm.run('five.lup', '-o', 'old.plan', **driven(step, name))
                tally.same('its end', got, (-getattr(signal, name), '', ''))
                tally.same('what is there', (sorted(os.listdir(asm.folder)), asm.get('old.plan')), (names, FIVE))


def test_waiting(tally, asm):
    """A signal while it reads ends it, in silence; nothing is written."""
    asm.put_all()
    before = asm.seen()
    for number in (signal.SIGINT, signal.SIGTERM):
        with asm.start('-', '-o', 'old.plan') as process:
            data = memoryview(TEXT * (1 << 16))     # more than a pipe holds, so it is reading
            while data:
                data = data[process.stdin.write(data):]
            process.send_signal(number)
            process.wait(timeout=60)
            told = process.stdout.read() + process.stderr.read()
        tally.same((number, 'waiting'), (process.returncode, told, asm.seen() == before), (-number, b'', True))


def test_help(tally, asm):
    for word in ('--help', '-h'):
        status, text, errors = asm.run(word)
        with tally.case(word):
            tally.same('status', (status, errors), (0, ''))
            for part in ('lupasm.py TEXT -o PLAN', '--back PLAN', '--check', 'Exit status: 0 done;', *lupasm.FORMS):
                tally.holds(part, part in text)
    for name in ('small.lup', 'bay.lup', 'filled.lup'):
        tally.same(('--check', name), asm.run('--check', os.path.join(ROOT, 'demo', name)), DONE)


def test_example(tally):
    """The example data is what its script writes, and its plan is accepted."""
    with tempfile.TemporaryDirectory() as here:
        make_bay.main([here])
        for name in sorted(os.listdir(here)):
            with open(os.path.join(here, name), 'rb') as fresh, open(os.path.join(ROOT, 'demo', name), 'rb') as kept:
                tally.same(name, fresh.read() == kept.read(), True)
    texts = glob.glob(os.path.join(ROOT, 'demo', '*.lup'))
    tally.holds('the plans of the demo', len(texts) >= 3, texts)
    for path in sorted(texts):
        with open(path, encoding='utf-8') as file:
            text = file.read()
        tally.same((path, 'is accepted'), model.verdict(lupasm.table_of(text))[0], 0)
        expect_packed(tally, text)


def main():
    # programs that this runs would have these of it: signals that are ignored in the background, Python's buffers
    os.environ.pop('PYTHONUNBUFFERED', None)
    for number in (signal.SIGINT, signal.SIGTERM, signal.SIGHUP):
        signal.signal(number, signal.SIG_DFL)
    signal.pthread_sigmask(signal.SIG_SETMASK, ())
    count = int(sys.argv[1]) if len(sys.argv) > 1 else 1000
    rng, tally = Random(int(sys.argv[2]) if len(sys.argv) > 2 else 3), Cases()
    test_lines(tally)
    test_ranks(tally)
    test_plans(tally, rng, count)
    test_damage(tally, rng, count)
    for test in (test_program, test_editions, test_messages, test_standard, test_check, test_back, test_library, test_long, test_parts,
                 test_outputs, test_kept, test_failures, test_full, test_order, test_taken, test_signals, test_waiting,
                 test_help):
        with tempfile.TemporaryDirectory() as here:
            test(tally, Assembler(PROGRAM, here))
    test_example(tally)
    tally.finish()


if __name__ == '__main__':
    main()
