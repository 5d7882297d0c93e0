#!/usr/bin/env python3
"""What make install and pip install leave: files and modes, the shared object's names and versions, C programs by pkg-config, the installed programs, the
man pages, the Python module away from the checkout; and that everything says one version. No index of packages is asked. To be run by /usr/bin/python3,
which sees Debian's setuptools and wheel.

usage: test_install.py     last line: 'N passed, 0 failed'
"""

import os
import re
import shutil
import stat
import subprocess
import sys
import tempfile
import zipfile

sys.dont_write_bytecode = True
ROOT = os.path.dirname(os.path.dirname(os.path.dirname(os.path.abspath(__file__))))
sys.path[:0] = [os.path.join(ROOT, part) for part in ('host', 'tests/tools')]

import lupasm  # noqa: E402
from counting import Cases  # noqa: E402

STRICT = '-std=c99', '-Wall', '-Wextra', '-Wpedantic', '-Werror'
COMMANDS = 'list', 'check', 'run', 'lookup', 'show', 'pack', 'unpack'
CLEAN = {key: value for key, value in os.environ.items()
         if not key.startswith(('PYTHON', 'LUPETZARIN', 'PKG_CONFIG', 'LD_', 'PIP_', 'MAKE', 'MFLAGS', 'MAN', 'DESTDIR', 'PREFIX', 'VIRTUAL_ENV'))}
CLEAN.update(PYTHONDONTWRITEBYTECODE='1', LC_ALL='C.UTF-8', PIP_CONFIG_FILE=os.devnull, PIP_NO_INDEX='1', PIP_DISABLE_PIP_VERSION_CHECK='1')
# Two numbers, padded to four at 1; a run of 7 and a gap has three gaps.
with open(os.path.join(ROOT, 'demo', 'small.lup'), encoding='utf-8') as small:
    SMALL = small.read()
# The calls that programs of version 5.0 are linked with.
FIRST_CALLS = 'lup_check', 'lup_lookup', 'lup_pack', 'lup_run', 'lup_unpack', 'lup_unpack_check', 'lup_version'
LISTING = 'node op dtype device low high shape\n0 1 2 1 -9 9 2\n1 6 2 1 -9 9 4\naccepted 2\n'


def ran(*words, more=None, **how):
    """Exit status, standard output and standard error."""
    done = subprocess.run(words, capture_output=True, text=True, timeout=600, check=False, env={**CLEAN, **(more or {})}, **how)
    return done.returncode, done.stdout, done.stderr


def told(*words, **how):
    """Standard output of what has to end well."""
    status, text, errors = ran(*words, **how)
    assert status == 0, (words, status, text, errors)
    return text


def make(*words, root=ROOT, **how):
    return ran('make', '--no-print-directory', '-C', root, *words, **how)


def installed(*words):
    """make install, which has to end well."""
    status, text, errors = make('install', *words)
    assert status == 0, (words, text, errors)
    return text


def read(*parts):
    with open(os.path.join(ROOT, *parts), encoding='utf-8') as file:
        return file.read()


def put(text, *parts):
    path = os.path.join(*parts)
    os.makedirs(os.path.dirname(path), exist_ok=True)
    with open(path, 'w', encoding='utf-8') as file:
        file.write(text)
    return path


def version():
    """That of the header, as three numbers in text."""
    parts = dict(re.findall(r'^#define LUP_VERSION_(MAJOR|MINOR|PATCH) (\d+)$', read('include', 'lupetzarin.h'), re.M))
    return '{MAJOR}.{MINOR}.{PATCH}'.format(**parts)


def major():
    return version().split('.', maxsplit=1)[0]


def number_of(text):
    """A version in text as lup_version answers it."""
    parts = [int(part) for part in text.split('.')]
    return 1000000 * parts[0] + 1000 * parts[1] + parts[2]


# --------------------------------------------------------------- the files

def wanted_files(prefix, libdir):
    """Mode of every file, and where every link leads."""
    shared = f'liblupetzarin.so.{version()}'
    files = {f'{prefix}/bin/{name}': 0o755 for name in ('lup', 'lup-list', 'lupasm')}
    files.update({f'{prefix}/{name}': 0o644 for name in ('include/lupetzarin.h', 'share/man/man1/lup.1', 'share/man/man1/lup-list.1', 'share/man/man1/lupasm.1',
                                                         'share/man/man3/lupetzarin.3')})
    files.update({f'{libdir}/{name}': 0o644 for name in ('liblupetzarin.a', shared, 'pkgconfig/lupetzarin.pc')})
    return {**files, f'{libdir}/liblupetzarin.so.{major()}': shared, f'{libdir}/liblupetzarin.so': f'liblupetzarin.so.{major()}'}


def files_in(folder):
    """The same of what is there, by names from the folder on."""
    found = {}
    for place, _, names in os.walk(folder):
        for path in (os.path.join(place, name) for name in names):
            is_link = os.path.islink(path)
            found[path[len(folder):]] = os.readlink(path) if is_link else stat.S_IMODE(os.lstat(path).st_mode)
    return found


def built():
    return {name: os.stat(os.path.join(ROOT, 'build', name)).st_mtime_ns for name in ('liblupetzarin.a', 'liblupetzarin.so', 'list', 'lup')}


def test_files(tally, folder):
    """Every file with its mode, for several prefixes; a second installation over the first; nothing is built again; the same with another umask."""
    before = built()
    for name, words, prefix, libdir in (('a folder', ('PREFIX=/usr',), '/usr', '/usr/lib'), ('plain', (), '/usr/local', '/usr/local/lib'),
                                        ('opt', ('PREFIX=/opt/lup-5.0',), '/opt/lup-5.0', '/opt/lup-5.0/lib'),
                                        ('multi', ('PREFIX=/usr', 'LIBDIR=/usr/lib/x86_64-linux-gnu'), '/usr', '/usr/lib/x86_64-linux-gnu')):
        destination = os.path.join(folder, name)
        for time in ('first', 'again'):
            with tally.case((name, time)):
                installed(f'DESTDIR={destination}', *words)
                tally.same('files', files_in(destination), wanted_files(prefix, libdir))
                tally.same('the pkg-config file names no DESTDIR', folder in open(f'{destination}{libdir}/pkgconfig/lupetzarin.pc', encoding='utf-8').read(), False)
    masked = os.path.join(folder, 'masked')
    tally.same('another umask', make('install', f'DESTDIR={masked}', preexec_fn=lambda: os.umask(0o077))[0], 0)
    tally.same('files of another umask', files_in(masked), wanted_files('/usr/local', '/usr/local/lib'))
    tally.same('folders of another umask', stat.S_IMODE(os.stat(f'{masked}/usr/local/share/man/man3').st_mode), 0o755)
    tally.same('nothing is built again', built(), before)


def test_uninstall(tally, folder):
    """What others put there stays, folders with their modes among it; else nothing is left."""
    destination = os.path.join(folder, 'shared')
    other = put('other', destination, 'usr/local/lib/libother.so')
    os.chmod(os.path.dirname(other), 0o2775)
    before = files_in(destination)
    installed(f'DESTDIR={destination}')
    tally.holds('installed', len(files_in(destination)) > len(before))
    tally.same('the mode of a folder that was there', stat.S_IMODE(os.stat(os.path.dirname(other)).st_mode), 0o2775)
    tally.same('uninstall', make('uninstall', f'DESTDIR={destination}')[0], 0)
    tally.same('what is left', files_in(destination), before)
    tally.same('once more', make('uninstall', f'DESTDIR={destination}')[::2], (0, ''))


def test_directories(tally, folder):
    """A name that a pkg-config file cannot hold is refused before anything is done."""
    for word in ('PREFIX=opt', 'PREFIX=', 'PREFIX=/opt/a b', 'LIBDIR=lib', 'PREFIX=/opt/$$HOME', "BINDIR=/opt/it's", 'MANDIR=/a|b', 'INCLUDEDIR=/a&b'):
        destination = os.path.join(folder, 'refused')
        for target in ('install', 'uninstall'):
            with tally.case((word, target)):
                status, text, errors = make(target, f'DESTDIR={destination}', word)
                tally.same('status', status, 2)
                tally.holds('nothing is there', not os.path.exists(destination), text)
                if "'" not in word:
                    tally.holds('why', 'is no absolute name of letters, digits and _ . / + : ~ - alone: nothing was done' in errors, errors)


def test_nothing_built(tally, folder):
    """Where nothing is built, make says what it would build and install, and does nothing with -n."""
    copy = os.path.join(folder, 'unbuilt')
    shutil.copytree(ROOT, copy, symlinks=True, ignore=lambda place, names: {'build', '.git', 'out'} & set(names))
    status, text, errors = make('-n', 'install', f'DESTDIR={folder}/none', root=copy)
    tally.same('make -n install', (status, errors), (0, ''))
    for words in ('cd crates/lupetzarin && rt lib ', 'cd crates/list && rt run ', 'gcc -shared -o build/liblupetzarin.so ', ' -o build/lup ',
                  f"install -m 755 build/lup '{folder}/none/usr/local/bin/lup'"):
        tally.holds(words, words in text, text)
    tally.same('nothing was done', (os.path.exists(f'{copy}/build'), os.path.exists(f'{folder}/none')), (False, False))


# ------------------------------------------------------- the shared object

def declared():
    """The calls that the header declares."""
    return sorted(set(re.findall(r'^\w+ (lup_\w+)\(', read('include', 'lupetzarin.h'), re.M)))


def versioned():
    """The calls of each version, by the version script."""
    nodes = re.findall(r'^(LUPETZARIN_\d+\.\d+) \{(.*?)^\}', read('packaging', 'lupetzarin.map'), re.M | re.S)
    return {node: re.findall(r'\b(lup_\w+);', body) for node, body in nodes}


def test_shared(tally, place):
    """SONAME, what it needs, and what it exports and wants: the calls of the header, each with its version."""
    shared = f'{place}/lib/liblupetzarin.so'
    entries = re.findall(r'\((SONAME|NEEDED|RPATH|RUNPATH|TEXTREL)\).*\[(.*)\]', told('readelf', '-dW', shared))
    tally.same('what the loader reads', sorted(entries), [('NEEDED', 'libc.so.6'), ('SONAME', f'liblupetzarin.so.{major()}')])
    symbols = [line.split()[-2:] for line in told('nm', '-D', '--with-symbol-versions', shared).splitlines()]
    exported = [name for kind, name in symbols if kind not in 'AUw']
    tally.same('exports', sorted(exported), sorted(f'{call}@@{node}' for node, calls in versioned().items() for call in calls))
    tally.same('calls', sorted(name.partition('@')[0] for name in exported), declared())
    parents = re.findall(r'Name: (\S+)\n(?:.*Parent 1: (\S+)\n)?', told('readelf', '-VW', shared).split('Version needs')[0])
    nodes = list(versioned())
    tally.same('each version has those before', [pair for pair in parents if pair[0] in nodes], list(zip(nodes, ['', *nodes])))
    tally.same('calls of version 5.0', [name for name in FIRST_CALLS if f'{name}@@LUPETZARIN_5.0' not in exported], [])
    tally.same('versions', [name.partition('@')[0] for kind, name in symbols if kind == 'A'], list(versioned()))
    tally.same('wanted of the C library', sorted(name.partition('@')[0] for kind, name in symbols if kind == 'U'), ['memcpy', 'memset'])
    tally.same('the archive\'s calls', sorted(line.split()[-1] for line in told('nm', '-g', '--defined-only', f'{place}/lib/liblupetzarin.a').splitlines()
                                            if ' T lup_' in line), declared())


PROGRAM = r"""
#include <lupetzarin.h>
#include <stdio.h>
#include <string.h>
int main(void) {
    static int64_t table[LUP_MOST_NODES * LUP_NODE_WORDS], derived[LUP_MOST_NODES * LUP_DERIVED_WORDS];
    static const uint8_t bytes[] = {BYTES};
    int64_t values[] = {7, 12345}, out[6];
    uint8_t flags[] = {1, 0}, known[6];
    lup_answer a = lup_unpack(bytes, sizeof bytes, table, LUP_MOST_NODES * LUP_NODE_WORDS);
    size_t words = (size_t)a.count * LUP_NODE_WORDS;
    uint8_t packed[sizeof bytes + 1];
    lup_answer p = lup_pack(table, words, packed, sizeof packed);
    if (p.number != LUP_ACCEPTED || p.count != sizeof bytes || memcmp(packed, bytes, sizeof bytes) != 0) return 3;
    if (lup_version() != LUP_VERSION || lup_check(table, words, derived, LUP_MOST_NODES * LUP_DERIVED_WORDS).number != LUP_ACCEPTED) return 1;
    if (lup_unpack_check(bytes, sizeof bytes) != a.count) return 2;
    a = lup_run(table, words, values, 2, flags, 2, out, 6, known, 6);
    lup_found f = lup_lookup(table, words, 1, 1);
    printf("%d %s %d %d %d", (int)lup_version(), LUP_VERSION_TEXT, (int)a.number, (int)a.count, (int)f.node);
    for (int k = 0; k < 6; k++) printf(" %d/%d", (int)out[k], (int)known[k]);
    return 0;
}
"""


def pkg_config(place, *words, **more):
    return told('pkg-config', *words, 'lupetzarin', more={'PKG_CONFIG_LIBDIR': f'{place}/lib/pkgconfig', **more}).split()


def test_programs_in_c(tally, folder, place):
    """A C program by the pkg-config file: with the shared object, with the archive, and where the whole lies in another root."""
    source = put(PROGRAM.replace('BYTES', ', '.join(map(str, lupasm.assemble(SMALL)))), folder, 'program.c')
    said = f'{number_of(version())} {version()} 0 3 0 7/1 0/0 0/0 7/1 0/0 0/0'
    moved = os.path.join(folder, 'sysroot')
    installed(f'DESTDIR={moved}', 'PREFIX=/opt/lup')
    installed(f'PREFIX={place}-32', f'LIBDIR={place}-32/lib/x86_64-linux-gnu')
    for name, where, words, more, static in (
            ('shared', place, (), {}, False), ('static', place, ('--static',), {}, True),
            ('moved', f'{moved}/opt/lup', (), {'PKG_CONFIG_SYSROOT_DIR': moved}, False),
            ('defined', f'{moved}/opt/lup', ('--define-prefix',), {}, False)):
        with tally.case(name):
            flags = pkg_config(where, '--cflags', '--libs', *words, **more)
            tally.same('flags', flags, [f'-I{where}/include', f'-L{where}/lib', '-llupetzarin'])
            program, how = os.path.join(folder, name), ['-static'] if static else []
            tally.same('compiled', ran('gcc', *STRICT, *how, '-o', program, source, *flags), (0, '', ''))
            tally.same('needs the object', f'[liblupetzarin.so.{major()}]' in told('readelf', '-dW', program), not static)
            tally.same('needs the versions of its calls', sorted(set(re.findall(r'Name: (LUPETZARIN_\S+)', told('readelf', '-VW', program)))),
                       [] if static else list(versioned()))
            tally.same('says', ran(program, more={} if static else {'LD_LIBRARY_PATH': f'{where}/lib'}), (0, said, ''))
            tally.same('without the object', ran(program)[0] == 0, static)
    other = told('pkg-config', '--libs', 'lupetzarin', more={'PKG_CONFIG_LIBDIR': f'{place}-32/lib/x86_64-linux-gnu/pkgconfig'}).split()
    tally.same('another LIBDIR', other, [f'-L{place}-32/lib/x86_64-linux-gnu', '-llupetzarin'])
    variables = {name: pkg_config(place, '--variable=' + name) for name in ('prefix', 'libdir', 'includedir')}
    tally.same('variables', variables, {'prefix': [place], 'libdir': [f'{place}/lib'], 'includedir': [f'{place}/include']})


# --------------------------------------------------- the installed programs

def test_programs(tally, folder, place):
    """lup, lup-list and lupasm away from the checkout, with nothing in the environment that helps them."""
    text, plan = put(SMALL, folder, 'work', 'small.lup'), os.path.join(folder, 'work', 'small.plan')
    how = {'cwd': os.path.join(folder, 'work')}
    lup, lister, asm = (f'{place}/bin/{name}' for name in ('lup', 'lup-list', 'lupasm'))
    tally.same('lup --version', ran(lup, '--version', **how), (0, f'lup {version()}\n', ''))
    tally.same('lupasm', ran(asm, text, '-o', plan, **how), (0, '', ''))
    tally.same('lup list', ran(lup, 'list', 'small.plan', **how), (0, LISTING, ''))
    with open(plan, 'rb') as file:
        tally.same('lup-list', ran(lister, stdin=file, **how), (0, LISTING, ''))
    text = '1 0 0 0 2 0 1 -9 9 2 0 0 0 0 0 0 0\n6 0 0 0 0 0 0 0 0 4 0 0 0 1 0 0 0\n'
    tally.same('lup unpack', ran(lup, 'unpack', 'small.plan', **how), (0, text, ''))
    tally.same('lup pack', ran(lup, 'pack', '-', '-o', 'small.plan', input=text, **how), (0, 'written: small.plan, 2 nodes in 21 bytes\n', ''))
    back = 'n0 = param i16 -9..9 2 device 1\nn1 = pad n0 4 at 1\n'
    tally.same('lupasm --back', ran(asm, '--back', plan, **how), (0, back, ''))
    link = os.path.join(folder, 'work', 'linked')
    os.symlink(asm, link)
    tally.same('by a link', ran(link, '--back', plan, **how), (0, back, ''))
    tally.same('its name in messages', ran(asm, 'none.lup', '-o', plan, **how), (2, '', 'lupasm: none.lup: it cannot be read: No such file or directory\n'))
    tally.holds('its name in the help', ran(asm, '--help', **how)[1].startswith('usage: lupasm TEXT -o PLAN [--check]\n'))
    tally.same('a text for a plan', ran(lup, 'check', 'small.lup', **how)[2].splitlines()[1],
               'lup: small.lup: this looks like the text of a plan; assemble it first: lupasm small.lup -o PLAN (not installed: python3 host/lupasm.py)')
    elsewhere = os.path.join(folder, 'apart')
    installed(f'DESTDIR={elsewhere}', 'LIBDIR=/libraries')
    asm = f'{elsewhere}/usr/local/bin/lupasm'
    tally.same('by the loader', ran(asm, '--back', plan, more={'LD_LIBRARY_PATH': f'{elsewhere}/libraries'}, **how), (0, back, ''))
    tally.same('an empty name is none', ran(asm, '--back', plan, more={'LUPETZARIN_LIBRARY': '', 'LD_LIBRARY_PATH': f'{elsewhere}/libraries'}, **how), (0, back, ''))
    tally.same('by its name', ran(asm, '--back', plan, more={'LUPETZARIN_LIBRARY': f'{elsewhere}/libraries/liblupetzarin.so'}, **how), (0, back, ''))
    status, text, errors = ran(asm, '--back', plan, **how)
    tally.same('nowhere', (status, text, errors.startswith(f'lupasm: the library cannot be loaded: liblupetzarin.so.{major()}: ')), (2, '', True))


# --------------------------------------------------------------- man pages

def page_text(path):
    """A page as it is read, without marks."""
    text = told('man', '-l', '-Tascii', '-P', 'cat', '--no-hyphenation', '--no-justification', path, more={'MANWIDTH': '200'})
    return re.sub('.\b|\x1b\\[[0-9;]*m', '', text)


def options_in(text):
    """Options as they are written: -o, --node; not what stands within a name."""
    return set(re.findall(r'(?<![\w\\-])(--?[a-z][a-z-]*)', text)) - {'-oFILE'}


def sections(text, head):
    """The parts of a page by their heads, which a pattern finds."""
    parts = re.split(head, text, flags=re.M)
    return dict(zip(parts[1::2], parts[2::2]))


def test_warnings(tally, place):
    for page in ('man1/lup.1', 'man1/lup-list.1', 'man1/lupasm.1', 'man3/lupetzarin.3'):
        path, name = f'{place}/share/man/{page}', os.path.basename(page)
        with tally.case(name):
            tally.same('man', ran('man', '--warnings', '-E', 'UTF-8', '-l', '-Tutf8', '-Z', path, more={'MANROFFSEQ': '', 'MANWIDTH': '80'})[::2], (0, ''))
            tally.same('groff', ran('groff', '-man', '-ww', '-z', '-Tutf8', path), (0, '', ''))
            text = page_text(path)
            tally.same('its foot', text.rstrip('\n').rsplit('\n', 1)[-1].split()[:2], ['Lupetzarin', version()])
            tally.holds('its head', text.startswith(f'{name[:-2].upper()}({name[-1]})'), text[:40])
            tally.same('placeholders', re.findall('@[A-Z]+@', text), [])
            names = set(re.findall(r'\b(lup[\w-]*)\((\d)\)', text)) - {(call, '3') for call in declared()}
            tally.same('pages that it names', [pair for pair in names if not os.path.exists('{0}/share/man/man{2}/{1}.{2}'.format(place, *pair))], [])


def statuses(text):
    """Exit statuses of a page, and of a help text."""
    return re.findall(r'^ +(\d)(?:  +|$)', text, re.M)


def test_pages(tally, place):
    """lup.1 has the options of every command's help and no others, and every status; lupasm.1 the same."""
    heads = sections(page_text(f'{place}/share/man/man1/lup.1'), r'^([A-Z][A-Z ]+)$')
    parts = sections(heads['COMMANDS'], r'^   lup (\w+) .*$')
    lup = f'{place}/bin/lup'
    tally.same('commands', tuple(parts), COMMANDS)
    every = {'-h', '--help', '--version'}
    for name, part in parts.items():
        options = options_in(told(lup, name, '--help').split('\nOptions may stand')[0])
        tally.same((name, 'options'), options_in(part), options)
        every |= options
    general = told(lup, '--help')
    tally.same('options of the usage', options_in(general), every)
    tally.same('options of the synopsis', every - options_in(heads['SYNOPSIS'] + heads['COMMANDS']), set())
    tally.same('other options', options_in(''.join(heads.values())) - every, set())
    tally.same('statuses', statuses(heads['EXIT STATUS']), re.findall(r'(?:Exit status: |; )(\d) ', general[general.index('Exit status: '):].replace('\n', ' ')))
    heads = sections(page_text(f'{place}/share/man/man1/lupasm.1'), r'^([A-Z][A-Z ]+)$')
    text = told(f'{place}/bin/lupasm', '--help')
    tally.same('lupasm', options_in(heads['OPTIONS']), options_in(text[text.index('\noptions:'):text.index('\nA file is written')]))
    tally.same('its statuses', statuses(heads['EXIT STATUS']), ['0', '1', '2'])
    tally.same('its operations', [name for name in lupasm.FORMS if not re.search(rf'\b{name}\b', heads['DESCRIPTION'])], [])
    lines = [line.strip() for line in heads['DESCRIPTION'].splitlines()]
    forms = [line.strip() for line in lupasm.__doc__.splitlines() if re.match(r'    \w+ += ', line)]
    tally.same('its forms', [form for form in forms if not any(line and form.startswith(line) for line in lines)], [])
    tally.same('status of lup-list', ran(f'{place}/bin/lup-list', input='')[:2], (0, 'refused 20 at 0\n'))


def test_page_of_calls(tally, folder, place):
    """lupetzarin.3 has the header's calls as they are declared, and its example does what it says."""
    text = page_text(f'{place}/share/man/man3/lupetzarin.3')
    heads = sections(text, r'^([A-Z][A-Z ]+)$')
    said = re.findall(r'\w+ lup_\w+\([^;]*;', heads['SYNOPSIS'])
    header = re.findall(r'^\w+ lup_\w+\([^;]*;', read('include', 'lupetzarin.h'), re.M)
    tally.same('declarations', [' '.join(call.split()) for call in said], [' '.join(call.split()) for call in header])
    tally.same('every call in words', re.findall(r'^ +(lup_\w+)\(\)$', heads['DESCRIPTION'], re.M), [re.search(r'(lup_\w+)\(', call)[1] for call in header])
    code, words = heads['EXAMPLES'].split('This writes ')
    source, program = put(code, folder, 'example.c'), os.path.join(folder, 'example')
    tally.same('the example', ran('gcc', *STRICT, '-o', program, source, *pkg_config(place, '--cflags', '--libs')), (0, '', ''))
    tally.same('what it writes', ran(program, more={'LD_LIBRARY_PATH': f'{place}/lib'}), (0, words.strip().rstrip('.') + '\n', ''))


# ---------------------------------------------------------- Python's module

SESSION = """
import os, sys, lupetzarin as lup
plan = lup.Plan(bytes.fromhex(sys.argv[1]))
result = plan.run([7, 12345], [1, 0])
print(lup.__version__, lup.version(), os.path.dirname(lup.__file__), lup._LIBRARY._name, result.cells(1), result.gaps, plan.lookup(1, 1))
"""


def pip_tree(folder, name, *parts):
    """A copy of what pip reads of the checkout: nothing is left in the checkout itself."""
    tree = os.path.join(folder, name)
    for part in ('pyproject.toml', 'setup.py', 'README.md', 'python/lupetzarin.py', *parts):
        os.makedirs(os.path.dirname(os.path.join(tree, part)), exist_ok=True)
        shutil.copy(os.path.join(ROOT, part), os.path.join(tree, part))
    return tree


def test_pip(tally, folder):
    """pip install . in a fresh environment: the module runs a plan from another directory, with the object that was installed; then it goes again."""
    python = os.path.join(folder, 'venv', 'bin', 'python')
    told('/usr/bin/python3', '-m', 'venv', '--system-site-packages', os.path.join(folder, 'venv'))
    tree, pip = pip_tree(folder, 'checkout', 'build/liblupetzarin.so'), (python, '-m', 'pip')
    status, text, errors = ran(*pip, 'install', '--no-build-isolation', '--no-index', '.', cwd=tree)
    tally.holds('pip install .', status == 0 and f'Successfully installed lupetzarin-{version()}\n' in text, text + errors)
    tally.same('what it leaves', sorted(os.listdir(tree)), ['README.md', 'build', 'pyproject.toml', 'python', 'setup.py'])
    tally.same('beside the module', os.listdir(f'{tree}/python'), ['lupetzarin.py'])
    shutil.rmtree(tree)
    site = told(python, '-c', 'import sysconfig; print(sysconfig.get_path("platlib"))').strip()
    said = f'{version()} {number_of(version())} {site} {site}/liblupetzarin.so [None, 7, None, None] 3 Place(node=0, element=0)\n'
    tally.same('a run', ran(python, '-c', SESSION, lupasm.assemble(SMALL).hex(), cwd=folder), (0, said, ''))
    shown = told(*pip, 'show', '-f', 'lupetzarin')
    tally.same('files', [line.strip() for line in shown[shown.index('Files:'):].splitlines()[1:] if 'dist-info' not in line and '__pycache__' not in line],
               ['liblupetzarin.so', 'lupetzarin.py'])
    tally.same('metadata', ran(python, '-c', 'from importlib.metadata import version; print(version("lupetzarin"))', cwd=folder), (0, version() + '\n', ''))
    tally.same('pip uninstall', ran(*pip, 'uninstall', '-y', 'lupetzarin')[0], 0)
    tally.same('nothing is left', [name for name in os.listdir(site) if 'lupetzarin' in name], [])


PIP_WHEEL = '/usr/bin/python3', '-m', 'pip', 'wheel', '--no-build-isolation', '--no-index', '-w'


def test_wheel(tally, folder):
    """The wheel is for this platform and any Python 3; without the object none is made; installed to be edited, the module finds that of the checkout."""
    tree = pip_tree(folder, 'wheel', 'build/liblupetzarin.so')
    told(*PIP_WHEEL, folder, '.', cwd=tree)
    wheels = [name for name in os.listdir(folder) if name.endswith('.whl')]
    tally.same('its name', wheels, [f'lupetzarin-{version()}-py3-none-linux_x86_64.whl'])
    with zipfile.ZipFile(os.path.join(folder, wheels[0])) as wheel:
        about = f'lupetzarin-{version()}.dist-info'
        names = ['METADATA', 'RECORD', 'WHEEL', 'top_level.txt']
        tally.same('its files', sorted(wheel.namelist()), ['liblupetzarin.so', *(f'{about}/{name}' for name in names), 'lupetzarin.py'])
        metadata, tags = wheel.read(about + '/METADATA').decode(), wheel.read(about + '/WHEEL').decode()
        with open(os.path.join(ROOT, 'build', 'liblupetzarin.so'), 'rb') as file:
            tally.same('its object', wheel.read('liblupetzarin.so') == file.read(), True)
    tally.same('its version', re.findall(r'^Version: (.*)$', metadata, re.M), [version()])
    tally.same('numpy is an extra', re.findall(r'^Requires-Dist: (.*)$', metadata, re.M), ["numpy ; extra == 'numpy'"])
    tally.same('its tag', re.findall(r'^(?:Root-Is-Purelib|Tag): (.*)$', tags, re.M), ['false', 'py3-none-linux_x86_64'])
    status, text, errors = ran(*PIP_WHEEL, f'{folder}/none', '.', cwd=pip_tree(folder, 'empty'))
    tally.holds('no object', status == 1 and re.search(r'^ *error: build/liblupetzarin\.so is not there: run make first$', text + errors, re.M), text + errors)
    tally.same('no wheel', os.path.isdir(f'{folder}/none') and os.listdir(f'{folder}/none'), [])


def stub_of(calls):
    """C of these calls; lup_version answers the number that is put in."""
    return 'unsigned long lup_version(void) { return %d; }\n' + ''.join(f'void {name}(void) {{}}\n' for name in calls if name != 'lup_version')


def stub(folder, number, *parts):
    """A shared object of a library of that version, which is what its lup_version answers."""
    path = os.path.join(folder, *parts)
    os.makedirs(os.path.dirname(path), exist_ok=True)
    told('gcc', '-w', '-shared', '-o', path, put(stub_of(declared()) % number, folder, 'stub.c'))
    return path


def imported(tree, **more):
    """What the module of a tree says of its library: its version, or its last line where it cannot be imported."""
    status, text, errors = ran('/usr/bin/python3', '-c', 'import lupetzarin; print(lupetzarin.version())', more={'PYTHONPATH': f'{tree}/python', **more}, cwd='/')
    return int(text) if status == 0 else errors.splitlines()[-1]


def refused_by(tree, folder, number, text, own):
    """What the module of a tree, of version own, says of a library of another one, and what it has to say."""
    path = stub(folder, number, 'other.so')
    return imported(tree, LUPETZARIN_LIBRARY=path), f"ImportError: lupetzarin: the library '{path}' is version {text}, and this module is {own}"


def test_search(tally, folder):
    """Which library the module takes, each by a number of its own; one of another major version or of an older minor one, and one without a version, is
    refused."""
    tree, own = pip_tree(folder, 'search'), number_of(version())
    first, least = int(major()) * 1000000, own // 1000 * 1000
    named = {'LUPETZARIN_LIBRARY': stub(tree, least + 1, 'named.so')}
    loader = {'LD_LIBRARY_PATH': os.path.dirname(stub(tree, least + 4, 'loader', f'liblupetzarin.so.{major()}'))}
    beside, in_build = stub(tree, least, 'python', 'liblupetzarin.so'), stub(tree, first + 999003, 'build', 'liblupetzarin.so')
    tally.same('named', imported(tree, **named, **loader), least + 1)
    tally.same('beside the module', imported(tree, **loader), least)
    tally.same('an empty name is none', imported(tree, LUPETZARIN_LIBRARY='', **loader), least)
    os.remove(beside)
    tally.same('in the checkout', imported(tree, **loader), first + 999003)
    os.remove(in_build)
    tally.same('by the loader', imported(tree, **loader), least + 4)
    cannot = f"ImportError: lupetzarin: the library 'liblupetzarin.so.{major()}' cannot be loaded: "
    tally.same('nowhere', imported(tree)[:len(cannot)], cannot)
    for number, text in ((first + 1000000, f'{int(major()) + 1}.0.0'), (first - 1, f'{int(major()) - 1}.999.999'), (first + 1002003, f'{int(major()) + 1}.2.3'),
                         (0, '0.0.0'), (4001000, '4.1.0'), (5000000, '5.0.0')):
        tally.same(text, *refused_by(tree, tree, number, text, version()))
    later = f'{major()}.{least // 1000 % 1000 + 1}.0'
    put(read('python', 'lupetzarin.py').replace(f"__version__ = '{version()}'", f"__version__ = '{later}'"), folder, 'later/python/lupetzarin.py')
    tally.same('a later module', *refused_by(f'{folder}/later', tree, least + 999, '{}.{}.999'.format(*version().split('.')), later))
    tally.holds('no version', 'lup_version' in str(imported(tree, LUPETZARIN_LIBRARY='libc.so.6')), own)
    tally.same('that of the checkout', imported(ROOT), own)


# ------------------------------------------------------------ one version

def test_versions(tally, place):
    """Everything says the version of the header."""
    for call in (f'{place}/bin/lup', os.path.join(ROOT, 'build', 'lup')):
        tally.same(call, told(call, '--version'), f'lup {version()}\n')
    tally.same('pkg-config', pkg_config(place, '--modversion'), [version()])
    tally.same('the module', re.findall(r"^__version__ = '(.*)'$", read('python', 'lupetzarin.py'), re.M), [version()])
    heads = re.findall(r'^## \[?(\w[\w.]*)\]?(?: - (\S+))?$', read('CHANGELOG.md'), re.M)
    tally.same('CHANGELOG begins with', heads[0], ('Unreleased', ''))
    tally.holds('its newest release', heads[1][0] == version() and re.fullmatch(r'\d{4}-\d\d-\d\d', heads[1][1]), heads)
    tally.same('the assembler\'s library', lupasm.LIBRARIES[-1], f'lib/liblupetzarin.so.{major()}')
    nodes = [node.removeprefix('LUPETZARIN_').split('.') for node in versioned()]
    own, minor = version().split('.')[:2]
    tally.same('nodes of the version script', [node for node in nodes if node[0] != own or int(node[1]) > int(minor)], [])


def main():
    tally = Cases()
    with tempfile.TemporaryDirectory() as folder:
        place = os.path.join(folder, 'prefix')
        installed(f'PREFIX={place}')
        for test in test_files, test_uninstall, test_directories, test_nothing_built, test_pip, test_wheel, test_search:
            with tempfile.TemporaryDirectory() as own:
                test(tally, own)
        for test in test_shared, test_warnings, test_pages, test_versions:
            test(tally, place)
        for test in test_programs_in_c, test_programs, test_page_of_calls:
            test(tally, folder, place)
    tally.finish()


if __name__ == '__main__':
    main()
