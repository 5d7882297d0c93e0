#!/usr/bin/env python3
"""Tests the gate itself: how it counts (steps.sh, counting.py), on made-up steps, checks and cases; that tests/run
runs every test; what tools/setup installs; what map_names.py refuses.

usage: test_gate.py     last line: 'N passed, 0 failed'
"""

import contextlib
import glob
import io
import os
import re
import shutil
import subprocess
import sys
import tempfile
from shlex import quote

sys.dont_write_bytecode = True
ROOT = os.path.dirname(os.path.dirname(os.path.dirname(os.path.abspath(__file__))))
sys.path[:0] = [os.path.join(ROOT, 'tests', part) for part in ('model', 'tools')]

from counting import Cases  # noqa: E402
from tally import Tally  # noqa: E402

FIRST = '== first: 1 passed, 0 failed'
LAST = "its last line is not 'N passed, 0 failed' with N at least 1"
TWICE = '2 lines are like its last one'
# What a step does, and the count that is taken of it.
GOOD = (
    ('echo 3 passed, 0 failed', 3),
    ('echo some words; echo 1 passed, 0 failed', 1),
    ('echo 5 passed, 0 failed; echo', 5),
    ("printf '7 passed, 0 failed'", 7),
    ('echo words >&2; echo 100 passed, 0 failed', 100),
    ("printf '\\377\\n'; echo 2 passed, 0 failed", 2),
)
# What a step does that is not good, and the reason that is given.
BAD = (
    ('echo 0 passed, 0 failed', LAST),
    ('echo 3 passed, 1 failed', LAST),
    ('echo 0 passed, 1 failed', LAST),
    (':', LAST),
    ('echo; echo', LAST),
    ('echo words', LAST),
    ('echo 3 passed, 0 failed; echo words', LAST),
    ('echo 3 passed, 0 failed; echo words >&2', LAST),
    ("echo '== all: 3 passed, 0 failed'", LAST),
    ('echo 08 passed, 0 failed', LAST),
    ('echo 010 passed, 0 failed', LAST),
    ('echo 00 passed, 0 failed', LAST),
    ('echo 3 passed, 00 failed', LAST),
    ('echo -3 passed, 0 failed', LAST),
    ('echo 9999999999999999999 passed, 0 failed', LAST),
    ("echo '3 passed, 0 failed '", LAST),
    ("printf '3 passed, 0 failed\\r\\n'", LAST),
    ('echo 3 passed, 1 failed; echo 5 passed, 0 failed', TWICE),
    ('echo 3 passed, 0 failed; echo 3 passed, 0 failed', TWICE),
    ('exit 1', 'status 1'),
    ('exit 255', 'status 255'),
    ('echo 3 passed, 0 failed; exit 1', 'status 1'),
    ('echo 3 passed, 1 failed; exit 1', 'status 1'),
    ("exec python3 -c 'print(\"3 passed, 0 failed\"); 1 +'", 'status 1'),
    ("exec python3 -c 'print(\"3 passed, 0 failed\"); 1 / 0'", 'status 1'),
    ('exec python3 none.py', 'status 2'),
    ('exec /', 'status 126'),
    ('exec ./none', 'status 127'),
    ('echo 3 passed, 0 failed; kill -KILL $$', 'status 137'),
    ('echo 3 passed, 0 failed; kill -TERM $$', 'status 143'),
    ('kill -SEGV $$', 'status 139'),
)


def told(text, **environment):
    """Status and output of the text, after steps.sh."""
    script = '. ' + quote(os.path.join(ROOT, 'tests', 'tools', 'steps.sh')) + '\n' + text
    done = subprocess.run(['bash', '-u', '-c', script], capture_output=True, text=True, timeout=60, check=False,
                          env={**os.environ, **environment})
    return done.returncode, done.stdout


def shown(*lines):
    return ''.join(line + '\n' for line in lines)


def test_steps(tally):
    """Each step by itself and beside others, after one that is good."""
    for way in ('step', 'beside'):
        for does, count in GOOD:
            got = told(f'step first echo 1 passed, 0 failed\n{way} made sh -c {quote(does)}\nfinish')
            sums = f'== made: {count} passed, 0 failed', f'{count + 1} passed, 0 failed'
            tally.same((way, does), got, (0, shown(FIRST, *sums)))
        for does, reason in BAD:
            status, text = told(f'step first echo 1 passed, 0 failed\n{way} made sh -c {quote(does)}\nfinish')
            first, second, *_, last, _ = text.split('\n')
            tally.same((way, does), (status, first, second, last),
                       (1, FIRST, f'== made: FAILED: {reason}', 'FAILED: made'))
        text = told(f'{way} made ./none\nfinish')[1]
        tally.same((way, 'no such program'), text.split('\n')[0], '== made: FAILED: status 127')
    # what bash answers of a process that it has forgotten
    forgotten = 'wait() { builtin wait "$@"; echo not a child >&2; return 127; }\n'
    for status, wanted in ((0, (0, shown('== made: 3 passed, 0 failed', '3 passed, 0 failed'))),
                           (4, (1, shown('== made: FAILED: status 4', '    3 passed, 0 failed', 'FAILED: made')))):
        does = quote(f'echo 3 passed, 0 failed; exit {status}')
        tally.same(('forgotten', status), told(f'{forgotten}beside made sh -c {does}\nfinish'), wanted)
    killed = 'beside made sh -c "echo 3 passed, 0 failed; kill -KILL \\$PPID"\nfinish'
    tally.same('no status is left', told(killed), (1, shown('== made: FAILED: status 127', '    3 passed, 0 failed', 'FAILED: made')))


def test_shown(tally):
    """What a step or a check wrote, its last 60 lines; none of them can be taken for a line of the gate."""
    does = 'for k in $(seq 100); do echo line $k; done; echo the reason >&2; echo 3 passed, 0 failed; exit 3'
    last = [f'    line {k}' for k in range(43, 101)] + ['    the reason', '    3 passed, 0 failed']
    for way, reason in (('step', 'status 3'), ('beside', 'status 3'), ('holds', f'status 3 of sh -c {does}')):
        wanted = (1, shown(f'== made: FAILED: {reason}', *last, 'FAILED: made'))
        tally.same((way, 'the end of what it wrote'), told(f'{way} made sh -c {quote(does)}\nfinish'), wanted)
    does = "echo 'calls: 5, of them 2 refused'; echo 'the calls: 9'; echo 3 passed, 0 failed"
    wanted = (0, shown('== made: 3 passed, 0 failed; calls: 5, of them 2 refused', '3 passed, 0 failed'))
    tally.same('calls beside the count', told(f'step made sh -c {quote(does)}\nfinish'), wanted)


def test_checks(tally):
    for does in ('true', 'echo words', 'echo 0 passed, 9 failed'):
        got = told(f'holds made sh -c {quote(does)}\nfinish')
        tally.same(('a check', does), got, (0, shown('== made: holds', '1 passed, 0 failed')))
    for does, status in (('false', 1), ('exit 2', 2), ('kill -KILL $$', 137), ('exec ./none', 127)):
        got = told(f'holds first true\nholds made sh -c {quote(does)}\nfinish')
        wanted = ['== first: holds', f'== made: FAILED: status {status} of sh -c {does}']
        tally.same(('a check', does), (got[0], got[1].split('\n')[:2]), (1, wanted))
    for way in ('step', 'beside', 'holds'):
        tally.same((way, 'no command'), told(f'{way} made\nfinish')[1].split('\n')[-2], 'FAILED: made')


# What rt ci writes before its last line, and whether that tells that no must-fail edit is bad.
TOLD = 'rt: ok; handles allowed: none; must-fail edits: 102 refused'
EVERY = '; every proof and must-fail edit was done in this run'
EDITS = (
    (('rt: plan/u8_range.edit: refused', TOLD + EVERY), True),
    ((TOLD + ', 2 of them only by a limit' + EVERY,), True),
    (('rt: a note, 3 bad', TOLD + EVERY), True),
    (('rt: ok; handles allowed: none' + EVERY,), True),
    (('plan/u8_range.edit: BAD EDIT: it has no line', TOLD + ', 1 bad' + EVERY), False),
    ((TOLD + ', 2 of them only by a limit, 10 bad' + EVERY,), False),
    (('rt: ok; handles allowed: none; must-fail edits: 0 refused, 1 bad' + EVERY,), False),
    (('rt: FAILED: plan',), False),
    ((), False),
    (('words ' + TOLD + EVERY,), False),
    ((TOLD + EVERY, TOLD + ', 1 bad' + EVERY), False),
    ((TOLD + EVERY, TOLD + EVERY), False),
)


def test_edits(tally):
    """The check of what the step `proofs` wrote, by its log."""
    for lines, good in EDITS:
        does = f'printf %s {quote(shown(*lines, "134 passed, 0 failed"))}'
        status, text = told(f'step proofs sh -c {quote(does)}\nholds edits none_bad "$logs/proofs"\nfinish')
        wanted = (0, ['== edits: holds', '135 passed, 0 failed', '']) if good else (1, ['FAILED: edits', ''])
        tally.same(('edits', lines), (status, text.split('\n')[-3 if good else -2:]), wanted)
    status, text = told('holds edits none_bad "$logs/proofs"\nfinish')
    tally.same('no step before', (status, text.split('\n')[-2]), (1, 'FAILED: edits'))
    does = f'printf %s {quote(shown(*EDITS[4][0], "134 passed, 0 failed"))}'
    text = told(f'step proofs sh -c {quote(does)}\nholds edits none_bad "$logs/proofs"\nfinish')[1]
    tally.same('what is told of it', text.split('\n')[2:-2], ['    ' + line for line in EDITS[4][0]])


def test_sums(tally):
    steps = shown('beside a sh -c "sleep 0.2; echo 1 passed, 0 failed"', 'beside b echo 20 passed, 0 failed',
                  'step c echo 300 passed, 0 failed')
    sums = '== c: 300 passed, 0 failed', '== a: 1 passed, 0 failed', '== b: 20 passed, 0 failed'
    got = told(steps + 'collect\nholds d true\nfinish')
    tally.same('the sum', got, (0, shown(*sums, '== d: holds', '322 passed, 0 failed')))
    tally.same('what nobody has waited for', told(steps + 'finish'), (0, shown(*sums, '321 passed, 0 failed')))
    got = told('beside a sh -c "sleep 0.2; exit 1"\nstep b echo 2 passed, 0 failed\nfinish')
    tally.same('one that fails late', got[0], 1)
    names = told('step a false\nholds b true\nholds c false\nbeside d false\nfinish')[1].split('\n')[-2]
    tally.same('every name that failed', names, 'FAILED: a c d')
    tally.same('nothing was run', told('finish'), (1, shown('FAILED: nothing was run')))
    for way in ('step', 'beside', 'holds'):
        got = told(f'step a echo 1 passed, 0 failed\n{way} a echo 1 passed, 0 failed\nfinish')
        tally.same((way, 'a name twice'), (got[0], got[1].split('\n')[-2]), (1, 'FAILED: a'))
    good = 'step a echo 1 passed, 0 failed\n'
    tally.same('no folder for the logs', told(good + 'finish', TMPDIR='/none'), (1, ''))
    tally.same('a log that cannot be made', told(f'rm -r "$logs"\n{good}finish')[0], 1)
    left = told(good + 'echo "$logs"')[1].split('\n')[1]
    tally.same('no log is left', (left != '', os.path.exists(left)), (True, False))


# What is compared in a case, and whether it passes: a case counts once.
CASES = (
    (((1, 1),), True),
    (((1, 1), (2, 2), (3, 3)), True),
    (((1, 1), (2, 3), (3, 3)), False),
    (((1, 2), (2, 3)), False),
    ((), False),
)


def test_cases(tally):
    for pairs, passes in CASES:
        cases, text = Cases(), io.StringIO()
        with contextlib.redirect_stdout(text):
            cases.same('before', 1, 1)
            with cases.case('made up'):
                for got, right in pairs:
                    cases.same('a comparison', got, right)
        tally.same(('a case', pairs), (cases.passed - 1, cases.failed), (int(passes), int(not passes)))
        wanted = [f'a comparison: got {got}, wanted {right}' for got, right in pairs if got != right]
        wanted += [] if passes else ["this case failed: 'made up'"]
        tally.same(('what is told of it', pairs), text.getvalue(), shown(*wanted))


def test_run(tally):
    """tests/run counts by steps.sh, ends with it, and runs every test and every program of tests/tools; that of Python
    and of the installation by the system's own Python, for whose packages the Makefile asks."""
    with open(os.path.join(ROOT, 'tests', 'run'), encoding='utf-8') as file:
        text = file.read()
    tally.same('tests/run', ('\n. tests/tools/steps.sh\n' in text, text.endswith('\nfinish\n')), (True, True))
    paths = {*glob.glob('tests/*/test_*.py', root_dir=ROOT), *glob.glob('tests/tools/*.py', root_dir=ROOT)}
    for path in sorted(paths - {'tests/tools/counting.py'}):
        tally.holds((path, 'is run'), f' python3 {path}' in text or f' /usr/bin/python3 {path}\n' in text)
    tally.same('the proofs', re.findall(r'(?m)^.*(?<![\w-])rt (?!version).*$', text), ['step proofs rt ci'])
    tally.holds('no must-fail edit is bad', '\nstep proofs rt ci\nholds edits none_bad "$logs/proofs"\n' in text)
    for path in ('tests/python/test_python.py', 'tests/python/test_cluster.py', 'tests/host/test_install.py'):
        tally.holds((path, 'by the system\'s own Python'), f' /usr/bin/python3 {path}\n' in text)
    with open(os.path.join(ROOT, 'Makefile'), encoding='utf-8') as file:
        asked = re.search(r'\ntest:\n\t@tools/setup (.*)\n\t@tests/run\n', file.read())
    for package in ('libpng-dev', 'python3-numpy', 'python3-distributed', 'python3-pip', 'python3-setuptools', 'python3-venv', 'python3-wheel', 'g++', 'groff-base', 'man-db', 'pkg-config'):
        tally.holds((package, 'is asked for'), asked and package in asked[1].split())


# Made-up programs for tools/setup: what is installed stands in a file, and what apt-get was asked for in another.
PROGRAMS = {
    'dpkg-query': 'for name; do :; done\nif grep -qx "$name" installed; then echo installed\n'
                  'elif grep -qx "$name" removed; then echo config-files; else exit 1; fi',
    'apt-get': 'echo "$@" >>asked\ncase $1 in update) : >fetched ;; install)\n[ -e offline ] && exit 100\n'
               '[ -e stale ] && [ ! -e fetched ] && exit 100\nfor name; do echo "$name" >>installed; done ;; esac',
    'id': 'cat uid',
    'sudo': '[ -e sudoers ] || exit 1\necho sudo "$@" >>asked\nshift\nexec "$@"',
}
INSTALL = 'install -y --no-install-recommends '
SUDO = 'sudo -n env DEBIAN_FRONTEND=noninteractive apt-get '
TYPE = '; type: sudo apt-get update && sudo apt-get install -y '
# What is there, the packages, and: the status, what is said, what apt-get and sudo were asked.
SETUPS = (
    ({'installed': 'a\nb\n', 'uid': '0'}, 'a', 0, '', ''),
    ({'installed': 'a\nb\n', 'uid': '1'}, 'a b', 0, '', ''),
    ({'installed': 'a\n', 'uid': '0'}, 'a b', 0, 'tools/setup: installing b\n', f'{INSTALL}b\n'),
    ({'installed': '', 'removed': 'a\n', 'uid': '0'}, 'a b', 0, 'tools/setup: installing a b\n', f'{INSTALL}a b\n'),
    ({'installed': 'ab\n', 'uid': '0', 'stale': ''}, 'a', 0, 'tools/setup: installing a\n', f'{INSTALL}a\nupdate\n{INSTALL}a\n'),
    ({'installed': '', 'uid': '1', 'sudoers': ''}, 'a', 0, 'tools/setup: installing a\n',
     f'sudo -n true\n{SUDO}{INSTALL}a\n{INSTALL}a\n'),
    ({'installed': '', 'uid': '1'}, 'a b', 1, f'tools/setup: missing: a b, and this is not root{TYPE}a b\n', ''),
    ({'installed': 'b\n', 'uid': '0', 'offline': ''}, 'a b', 1,
     f'tools/setup: installing a\ntools/setup: a could not be installed{TYPE}a\n', f'{INSTALL}a\nupdate\n{INSTALL}a\n'),
    ({'uid': '0'}, '', 2, 'tools/setup: no package is named; usage: tools/setup PACKAGE..\n', ''),
)


def test_setup(tally):
    """tools/setup on a made-up machine."""
    for files, packages, *wanted in SETUPS:
        with tempfile.TemporaryDirectory() as folder:
            for name, text in {'installed': '', 'removed': '', 'asked': '', **files}.items():
                with open(os.path.join(folder, name), 'w', encoding='utf-8') as file:
                    file.write(text)
            os.mkdir(os.path.join(folder, 'bin'))
            for name, text in PROGRAMS.items():
                with open(os.path.join(folder, 'bin', name), 'w', encoding='utf-8') as file:
                    file.write(f'#!/bin/sh\n{text}\n')
                os.chmod(file.name, 0o755)
            for name in ('grep', 'env', 'cat', 'true', 'sh'):
                os.symlink(shutil.which(name), os.path.join(folder, 'bin', name))
            done = subprocess.run([os.path.join(ROOT, 'tools', 'setup'), *packages.split()], cwd=folder, text=True, timeout=60,
                                  check=False, stdout=subprocess.PIPE, stderr=subprocess.STDOUT,
                                  env={'PATH': os.path.join(folder, 'bin')})
            with open(os.path.join(folder, 'asked'), encoding='utf-8') as file:
                tally.same(('tools/setup', files, packages), [done.returncode, done.stdout, file.read()], wanted)


HEAD = '| 01 says | definition | contract | shown by |\n|---|---|---|---|\n'
ROW = ('"A sentence."', 'plan/Words: node_of, node_at (of `node_at`)', '`check`',
       'plan/Facts; proofs of verifier/unpack_check; plan must-fail u8_range; tests/run')
# Cells that have to be refused, by column.
WRONG = {
    1: ('', 'node_of', 'words', 'plan/Words', 'plan/Words: node_off', 'plan/Word: node_of', 'plans/Words: node_of',
        'plan/Words: node_of and node_at', 'plan/Words: node_of,', 'plan/Words: node_of (a) b', 'plan/Words: node_of (a',
        'plan/Words: node_of (as noSuchName)', 'plan/Words: node_of (as no_such_name)', 'plan/Words: node_of (`no_such`)',
        'plan/Masks: mask_bit', 'plan/lib.rt: Nodes', 'code: `derived` (verifier/lib.rt)', 'code: `derive`'),
    2: ('', 'check', '`none`', '`check` `run`', '`check` and `run`', '`size_at`', 'all the calls', '`check'),
    3: ('', 'NONE.md', 'tests/none.py', 'plan/Fact', 'laws/Facts', 'verifier/Nodes: none', 'plan/Words: node_of',
        'plan must-fail no_such', 'plan must-fail', 'plans must-fail u8_range', 'further words',
        'further (noSuchName)', 'model test none', 'Tables of plan', 'proofs of plans', 'proofs of verifier/none',
        'proofs of plan/Node', 'agreement, vectors'),
}
# The same of the table of wrong definitions.
OTHER_HEAD = '| wrong definition | statement | theorem |\n|---|---|---|\n'
OTHER_ROW = 'test_input for a flag', 'plan/Words: node_of (`node_at`); plan/lib.rt: Node', 'plan/Masks: mask_bit; further'
OTHER_WRONG = {
    0: ('noSuchName', '`no_such`', 'plan/Words: node_off'),
    1: ('', 'words', 'plan/Words: node_off', 'plan/Masks: mask_bit', 'further'),
    2: ('', 'words', 'plan/Masks: mask_bits', 'plan/Words: node_of', 'plan must-fail no_such', '`check`'),
}


def map_told(head, *rows):
    """Status and lines of map_names.py on a map of these rows."""
    with tempfile.TemporaryDirectory() as folder:
        path = os.path.join(folder, 'MAP.md')
        with open(path, 'w', encoding='utf-8') as file:
            file.write(head + ''.join('| ' + ' | '.join(row) + ' |\n' for row in rows))
        done = subprocess.run([sys.executable, os.path.join(ROOT, 'tests', 'tools', 'map_names.py'), path],
                              capture_output=True, text=True, timeout=60, check=False)
    return done.returncode, done.stdout.split('\n')


def test_map(tally):
    """A row whose citations are there; then that row with one cell wrong, which has to be named by its line."""
    for head, good, wrong, count in (HEAD, ROW, WRONG, 8), (OTHER_HEAD, OTHER_ROW, OTHER_WRONG, 6):
        tally.same(('a good row', good), map_told(head, good), (0, [f'{count} passed, 0 failed', '']))
        tally.same(('a cell too many', good), map_told(head, [*good, 'more'])[0], 1)
        rows = [[*good[:column], cell, *good[column + 1:]] for column, cells in wrong.items() for cell in cells]
        status, lines = map_told(head, *rows)
        named = {line.split(': ')[0] for line in lines}
        for number, row in enumerate(rows, 3):
            tally.holds(('a wrong cell', row), status == 1 and f'MAP.md:{number}' in named)


def main():
    tally = Tally()
    for test in (test_steps, test_shown, test_checks, test_edits, test_sums, test_cases, test_run, test_setup, test_map):
        test(tally)
    tally.finish()


if __name__ == '__main__':
    main()
