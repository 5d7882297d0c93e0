#!/usr/bin/env python3
"""README.md: what it prints to be typed is typed, as it is printed, in a copy of the checkout after `make demo`; what it
prints as answers has to come. There the kit's `rt` hands out the library that was built here, and tools/setup installs
nothing.

usage: test_readme.py     last line: 'N passed, 0 failed'
"""

import os
import re
import sys
import tempfile
from itertools import product
from xml.etree import ElementTree

sys.dont_write_bytecode = True
HERE = os.path.dirname(os.path.abspath(__file__))
ROOT = os.path.dirname(os.path.dirname(HERE))
sys.path[:0] = [HERE, os.path.join(ROOT, 'tests', 'tools')]

from counting import Cases  # noqa: E402
from program import Program  # noqa: E402

# What stands in for the kit, in a crate's folder: the library and the listing as they were built here.
RT = f'''#!/bin/sh
mkdir -p out
case "${{PWD##*/}} $1" in
'lupetzarin lib') cp '{ROOT}/build/liblupetzarin.a' out ;;
'list run') cp '{ROOT}/build/list' out ;;
*) exit 9 ;;
esac
'''
SETUP = '#!/bin/sh\n[ -e build/lup ] || echo "$@" >>asked\n'


def read(*parts):
    with open(os.path.join(ROOT, *parts), encoding='utf-8') as file:
        return file.read()


class Checkout(Program):
    """A copy of the checkout in which nothing is built, and a shell in it."""

    def __init__(self, folder):
        super().__init__('/bin/sh', folder)
        for name in set(os.listdir(ROOT)) - {'.git', 'build', 'crates', 'tools'}:
            if not name.endswith(('.lup', '.plan', '.field')):
                os.symlink(os.path.join(ROOT, name), self.at(name))
        for name in ('lupetzarin', 'list'):
            os.makedirs(self.at(f'crates/{name}'))
        for name, text in (('bin/rt', RT), ('tools/setup', SETUP)):
            os.makedirs(os.path.dirname(self.at(name)), exist_ok=True)
            os.chmod(self.at(self.put(name, text.encode())), 0o755)
        clean = {key: value for key, value in os.environ.items() if not key.startswith(('PYTHON', 'LUPETZARIN', 'MAKE', 'MFLAGS'))}
        path = self.at('bin') + os.pathsep + clean['PATH']
        self.environment = {**clean, 'PATH': path, 'PYTHONDONTWRITEBYTECODE': '1', 'TERM': 'dumb', 'COLUMNS': '80'}

    def type(self, command, *words, **more):
        """Exit status, standard output and standard error of a line that is typed."""
        return self.run('-c', command, *words, environment=self.environment, **more)


class Readme:
    """The blocks of the page, in order: its indented lines without what indents them. A block is taken once."""

    def __init__(self, text):
        self.text = text
        found = re.findall(r'(?:^|(?<=\n\n))((?:    .*\n|\n(?=    ))+)', text)
        self.blocks = [re.sub('^    ', '', block, flags=re.M) for block in found]

    def take(self, start):
        """The one block that begins so."""
        block, = [block for block in self.blocks if block.startswith(start)]
        self.blocks.remove(block)
        return block


def joined(lines):
    """Lines of usage without what is said beside them; a line that is indented goes on with the one before."""
    forms = []
    for line in lines:
        form = re.split(r'  +', line.strip())[0]
        if line.startswith(' '):
            forms[-1] += ' ' + form
        else:
            forms.append(form)
    return forms


def calls_of(form, words):
    """Every call that a form allows: each part in brackets given or left out, of parts beside `|` one; names as in words."""
    parts = re.findall(r'\[[^]]*\]|\S+', form)
    choices = [[*part[1:-1].split(' | '), ''] if part.startswith('[') else [part] for part in parts]
    for choice in product(*choices):
        yield ' '.join(words.get(word, word) for part in choice for word in part.split())


# -------------------------------------------------------------- the commands

def test_commands(tally, page, shell):
    """`make demo` in a checkout where nothing is built: it builds everything, and joins the strips; `make test` is a target."""
    lines = dict(re.split(r' +# ', line) for line in page.take('make demo').splitlines())
    tally.same('two commands', list(lines), ['make demo', 'make test'])
    status, text, errors = shell.type('make demo', timeout=600)
    tally.same('make demo', (status, errors), (0, 2 * 'missing: demo/strip-07.field (PARAM 7, 16x5): read as gaps\n'))
    tally.holds('builds everything', lines['make demo'].startswith('builds everything'), lines)
    built = [name for name in ('liblupetzarin.a', 'liblupetzarin.so', 'list', 'lup') if os.path.isfile(shell.at(f'build/{name}'))]
    tally.same('what is built', built, ['liblupetzarin.a', 'liblupetzarin.so', 'list', 'lup'])
    tally.same('nothing is left to be built', shell.type('make -q all')[0], 0)
    tally.same('the field is joined', os.path.isfile(shell.at('build/demo/field.field')), True)
    with open(shell.at('asked'), encoding='utf-8') as file:
        asked = set(file.read().split())
    named = set(re.findall(r'`([a-z0-9-]+)`', re.search(r'`make demo` asks for (.*?), and', page.text)[1]))
    tally.same('what tools/setup is asked for before it builds', asked, named)
    tally.same('twelve strips', len(set(re.findall(r'^\d+ 1 2 (\d+) ', text, re.M))), 12)
    tally.same('make test', shell.type('make -n test')[::2], (0, ''))
    tally.same('the kit', re.findall(r'`(rattle-kit-\S+ logic \w+)`', page.text), [read('TOOLCHAIN').strip()])
    test_picture(tally, page)


def test_picture(tally, page):
    """The picture has as many hatched columns as are said of it."""
    said, path = re.search(r'!\[a field of wind with (\w+) hatched columns\]\((.*?)\)', page.text).groups()
    rects = [rect for rect in ElementTree.fromstring(read(*path.split('/'))) if rect.get('class') == 'gap']
    columns = {rect.get('x') for rect in rects}
    tally.same('hatched columns', (said, len(columns)), ('five', 5))


# --------------------------------------------------------------- the program

WORDS = {'PLAN': 'small.plan', 'INPUT...': 'wind.field', 'FIELD': 'wide.field', 'N': '1', 'NODE': '1', 'ELEMENT': '2', 'FILE': 'out.file', 'TEXT': 'words',
         'TABLE': 'small.table'}
# What a command writes has another name.
WRITTEN = {'run': {'FIELD': 'new.field'}, 'pack': {'PLAN': 'new.plan'}, 'unpack': {'TABLE': 'new.table'}}


def test_usage(tally, page, shell):
    """Each form is one of the help, and every call that it allows is done."""
    forms = joined(page.take('build/lup check').splitlines())
    helped = re.findall(r'^    (lup \w+ .*)$', shell.type('build/lup --help')[1], re.M)
    tally.same('the forms of the help', sorted(form.removeprefix('build/') for form in forms), sorted(helped))
    shell.type('python3 host/lupasm.py demo/small.lup -o small.plan')
    shell.put('wind.field', b'LUPFIELD' + (1).to_bytes(8, 'little') + (2).to_bytes(8, 'little') + bytes(16) + b'\1\0')
    shell.type('build/lup run small.plan wind.field -o wide.field')
    shell.type('build/lup unpack small.plan >small.table')
    for form in forms:
        for call in calls_of(form, {**WORDS, **WRITTEN.get(form.split()[1], {})}):
            status, _, errors = shell.type(call)
            tally.same(call, (status, errors), (0, ''))
    tally.same('packed and unpacked', (shell.get('new.plan'), shell.get('new.table')), (shell.get('small.plan'), shell.get('small.table')))
    for line in re.findall(r'`(build/lup (?:COMMAND )?--\w+)`', page.text):
        tally.same(line, shell.type(line.replace('COMMAND', 'run'))[0], 0)


def test_refusal(tally, page, shell):
    """The refusal that is shown, of the demo's plan with a bay that is too small for the first strip."""
    line = page.take('lup: bay.plan: refused')
    text = read('demo', 'bay.lup')
    small = text.replace('bay0 = pad here0 16x38 at 0x0', 'bay0 = pad here0 16x4 at 0x0')
    tally.holds('another plan', small != text)
    shell.put('bay.lup', small.encode())
    tally.same('assembled', shell.type('python3 host/lupasm.py bay.lup -o bay.plan'), (0, '', ''))
    tally.same('the refusal', shell.type('build/lup check bay.plan'), (1, '', line))
    second = shell.type('build/lup check bay.lup')[2].splitlines()[1:]
    tally.holds('of a text the second line says to assemble it', len(second) == 1 and 'assemble it first' in second[0], second)


def typed(tally, shell, block, count):
    """A session of the shell of so many lines: after each what it writes, which is given back."""
    session = re.findall(r'^\$ (.*)\n((?:(?!\$ ).*\n)*)', block, re.M)
    tally.same('lines that are typed', len(session), count)
    for command, output in session:
        tally.same(command, shell.type(command), (0, output, ''))
    return [output for _, output in session]


def test_sessions(tally, page, shell):
    """The three sessions of the shell."""
    listing = typed(tally, shell, page.take('$ cat'), 3)[-1]
    tally.same('build/list', shell.type('build/list <small.plan'), (0, listing, ''))
    typed(tally, shell, page.take('$ build/lup unpack'), 3)
    typed(tally, shell, page.take('$ grep'), 3)


def test_assembler(tally, page, shell):
    """Each form of the assembler is one of its help, and every call that it allows is done."""
    forms = joined(page.take('python3 host/lupasm.py TEXT').splitlines())
    helped = shell.type('python3 host/lupasm.py --help')[1].split('\n\n')[0].removeprefix('usage: ')
    tally.same('the forms of the help', [form.removeprefix('python3 host/') for form in forms], [line.strip() for line in helped.splitlines()])
    for form in forms:
        back = '--back' in form
        names = {'TEXT': 'new.lup' if back else 'demo/small.lup', 'PLAN': 'small.plan' if back else 'new.plan'}
        for call in calls_of(form, names):
            status, text, errors = shell.type(call)
            tally.same(call, (status, bool(text), errors), (0, back and '-o' not in call and '--check' not in call, ''))
    tally.same('there and back', shell.get('new.plan'), shell.get('small.plan'))


# ------------------------------------------------------------- installing

# Without sudo; without an index of packages, and into a folder of its own.
SUDO = '#!/bin/sh\nexec "$@"\n'
PIP = '#!/bin/sh\nexec /usr/bin/python3 -m pip "$@" --quiet --no-build-isolation --no-index --root-user-action ignore --target site\n'


def test_installing(tally, page, shell):
    """The lines on installing, with a prefix of the test's own: a C program by the pkg-config file, and the module with the library beside it."""
    lines = [line.split('  ')[0] for line in page.take('make    ').splitlines()]
    for name, text in (('bin/sudo', SUDO), ('bin/pip', PIP)):
        os.chmod(shell.at(shell.put(name, text.encode())), 0o755)
    shell.put('program.c', b'#include <lupetzarin.h>\nint main(void) { return lup_version() != LUP_VERSION; }\n')
    prefix = shell.at('prefix')
    shell.environment.update(MAKEFLAGS=f'PREFIX={prefix}', PKG_CONFIG_PATH=f'{prefix}/lib/pkgconfig', LD_LIBRARY_PATH=f'{prefix}/lib')
    for line in lines:
        status, _, errors = shell.type(line, timeout=600)
        tally.same(line, (status, errors), (0, ''))
    tally.same('the program', shell.type('./a.out'), (0, '', ''))
    tally.same('what is installed', sorted(os.listdir(f'{prefix}/bin')), ['lup', 'lup-list', 'lupasm'])
    tally.same('the module', sorted(name for name in os.listdir(shell.at('site')) if 'info' not in name and name[0] != '_'), ['liblupetzarin.so', 'lupetzarin.py'])
    tally.same('taken away', shell.type('make uninstall')[0], 0)
    tally.same('nothing is left', os.listdir(f'{prefix}/bin'), [])
    for name in ('MAKEFLAGS', 'PKG_CONFIG_PATH', 'LD_LIBRARY_PATH'):
        del shell.environment[name]


# ------------------------------------------------------------------ from C

FRAME = '''#include <stdio.h>
%(includes)s
int main(void) {
%(before)s
%(lines)s
%(after)s
}
'''
FIRST = {'before': 'unsigned char bytes[64];\nsize_t nbytes = fread(bytes, 1, sizeof bytes, stdin);',
         'after': r'printf("%d %d %zu %d\n", (int)a.number, (int)a.count, words, (int)code);' '\n'
                  r'printf("%d %d %d %d\n", (int)f.number, (int)f.found, (int)f.node, (int)f.element);' '\n'
                  r'printf("%d %d\n", (int)derived[8], (int)derived[12]);'}
SECOND = {'before': '',
          'after': r'printf("%d, %d, %d\n", (int)a.number, (int)a.place, (int)a.count);' '\n'
                   r'for (int k = 0; k < 6; k++) printf("%d ", (int)out[k]);' '\n'
                   r'for (int k = 0; k < 6; k++) printf("%d ", known[k]);'}


def compiled(tally, shell, block, frame):
    """A snippet in a function, compiled over the header and the archive, as build/snippet."""
    lines = block.splitlines()
    includes = [line for line in lines if line.startswith('#include')] or ['#include "lupetzarin.h"']
    text = FRAME % {**frame, 'includes': '\n'.join(includes), 'lines': '\n'.join(line for line in lines if line not in includes)}
    shell.put('snippet.c', text.encode())
    made = shell.type('gcc -std=c11 -Wall -Wextra -Werror -Iinclude -o build/snippet snippet.c build/liblupetzarin.a')
    tally.same('it compiles', made, (0, '', ''))


def test_calls(tally, page, shell):
    """The first snippet, of the plan of two nodes and of bytes that are refused; the table of calls."""
    compiled(tally, shell, page.take('#include "lupetzarin.h"'), FIRST)
    tally.same('an accepted plan', shell.type('build/snippet <small.plan'), (0, '0 0 34 2\n0 1 0 1\n2 4\n', ''))
    status, text, _ = shell.type('build/snippet </dev/null')
    tally.same('no bytes', (status, text.split('\n')[0]), (0, 'refused 20 at 0'))
    rows = re.findall(r'^\| `(lup_\w+)\((.*?)\)` \|', page.text, re.M)
    header = dict(re.findall(r'^\w+ (lup_\w+)\((.*?)\);', read('include', 'lupetzarin.h'), re.M | re.S))
    tally.same('every call', sorted(name for name, _ in rows), sorted(header))
    for name, names in rows:
        given = re.findall(r'\w+', names)
        beside = {'n' + word for word in given} | {'nwords', 'nderived', 'void'}
        wanted = [word for word in re.findall(r'(\w+)(?=,|$)', header[name]) if word not in beside]
        tally.same(name, given, wanted)


def test_run(tally, page, shell):
    """The second snippet: its answer, numbers and flags are those that its comment says."""
    block = page.take('int64_t table[2 * 17]')
    answer, out, known = re.search(r'/\* a: (\d+, \d+, \d+) \(gaps in node 1\); out: (.*); known: (.*) \*/\n\Z', block).groups()
    compiled(tally, shell, block, SECOND)
    wanted = f'{answer}\n{out.replace(",", "")} {known.replace(",", "")} '
    tally.same('what it says', shell.type('build/snippet'), (0, wanted, ''))


# ------------------------------------------------------------------ from Python

SESSION = '''
import doctest, sys
text = sys.stdin.read()
test = doctest.DocTestParser().get_doctest(text, {}, 'README', 'README.md', 0)
print(doctest.DocTestRunner().run(test))
'''


def test_python(tally, page, shell):
    """Python's session."""
    lines = page.take('$ python3 host/lupasm.py').splitlines(keepends=True)
    commands = [line[2:].rstrip('\n') for line in lines if line.startswith('$ ')]
    text = ''.join(line for line in lines if not line.startswith('$ '))
    count = text.count('>>> ')
    tally.holds('the session', len(commands) == 2 and count >= 6 and commands[-1].endswith('/usr/bin/python3'))
    os.remove(shell.at('small.plan'))
    tally.same(commands[0], shell.type(commands[0]), (0, '', ''))
    done = shell.type(commands[1] + ' -c "$0"', SESSION, input=text.encode())
    tally.same('as printed', done, (0, f'TestResults(failed=0, attempted={count})\n', ''))
    lines = re.search(r'```python\n(.*?)```', read('docs', 'FORMAT.md'), re.S)[1].splitlines()
    tally.holds('ten lines of Python that write a field', 'ten lines of Python that write one' in page.text and len(lines) == 10, lines)


def main():
    tally, page = Cases(), Readme(read('README.md'))
    with tempfile.TemporaryDirectory() as folder:
        shell = Checkout(folder)
        for test in (test_commands, test_usage, test_refusal, test_sessions, test_assembler, test_installing, test_calls, test_run, test_python):
            test(tally, page, shell)
    tally.same('every block is tested', page.blocks, [])
    tally.finish()


if __name__ == '__main__':
    main()
