#!/usr/bin/env python3
"""Plans as text, a line a node, to packed bytes and back.

A line is `name = operation ..`; `#` begins a comment. Types are bool, u8, i16 (-32767..32767) and i32. Shapes,
offsets and flags are written a word an axis, as 3x4, and - where there are no axes; a shape has no 0.

    wind = param i16 -500..500 40x12 device 1      its slot is its turn among the PARAMs
    two  = const i16 2
    a    = permute wind 1,0         result axis k is source axis A_k
    a    = flip wind 0x1            flag 1 reverses
    a    = reshape wind 480         expand wind 40x12
    a    = pad wind 40x100 at 0x8   shrink wind 40x10 at 0x1
    a    = cast wind i32            load wind device 3
    a    = add x y                  mul max idiv mod cmplt cmpne and or
    a    = where c x y
    a    = sum wind 0x1             greatest wind 0x1      flag 1 gathers
    a    = fill x y                 x where it is known, else y
    a    = known wind               1 where it is known, 0 where it is a gap
    a    = stack x y                stack x y z      two or three of one shape on a new leading axis
    a    = node 6 1=0 9=5 13=1      an operation and its words, for what no other line can say

All rows but the shapes of param and reshape have a word for each axis of the source. Nothing else is checked
of a plan: `lup check` does. A plan with fill, known or stack is written as a file of the second edition, any
other as one of the first. --back unpacks by the library: what LUPETZARIN_LIBRARY names, else that of the
checkout or that installed with this program, else what the loader finds under the name liblupetzarin.so.5.
"""
import argparse
import ctypes
import errno
import os
import re
import signal
import stat
import sys
from contextlib import contextmanager, suppress

# as it is called: lupasm.py in the checkout, lupasm where it is installed
PROGRAM = os.path.basename(__file__)
# where the library lies, from the folder over this program's own; else the loader is asked for the last part
LIBRARIES = 'build/liblupetzarin.so', 'lib/liblupetzarin.so.5'
TYPES = ('bool', 'u8', 'i16', 'i32')
NODE_WORDS, MOST_NODES = 17, 256
SOURCE, TYPE, NUMBER, DEVICE, LOW, HIGH, ROW_A, ROW_B = 1, 4, 5, 6, 7, 8, 9, 13
PARAM, REDUCE, FILL, STACK = 1, 19, 21, 23
# a plan with an operation from FILL on is a file of the second edition: these numbers stand before its node count
SECOND_EDITION = 0, 2
# the bytes of a text that are read, and of a packed plan: bytes past these change no answer of the library
MOST_TEXT, MOST_BYTES = 1 << 24, 12288
# "| op | words used |": those that a packed plan carries, in rising order
A, B = tuple(range(9, 13)), tuple(range(13, 17))
USED = ((4, 5), (4, 5, 6, 7, 8, *A), *[(1, *A)] * 4, *[(1, *A, *B)] * 2, (1, 4), *[(1, 2)] * 9, (1, 2, 3),
        (1, 5, *A), (1, 6), (1, 2), (1,), (1, 2, 3, 5))

# what follows the operation's name, in order; a `shape` has axes of its own, other rows have those of the source;
# `others` may be a third source or nothing
FORMS = {
    'const': (0, 'type number'),
    'param': (1, 'type limits shape device'),
    'permute': (2, 'first axes'),
    'flip': (3, 'first flags'),
    'reshape': (4, 'first shape'),
    'expand': (5, 'first extents'),
    'pad': (6, 'first extents offsets'),
    'shrink': (7, 'first extents offsets'),
    'cast': (8, 'first type'),
    **{name: (9 + k, 'first second') for k, name in enumerate('add mul max idiv mod cmplt cmpne and or'.split())},
    'where': (18, 'first second third'),
    'sum': (19, 'first flags'),
    'greatest': (19, 'first flags'),
    'load': (20, 'first device'),
    'fill': (21, 'first second'),
    'known': (22, 'first'),
    'stack': (23, 'first second others'),
}
# the library's words for what it refuses of packed bytes
RULES = {
    20: 'bytes end before or inside a number',
    21: 'number not in its shortest form of at most 5 bytes',
    22: 'bytes left over',
    23: 'node count not 1..256, or a first byte 0 without a 2 after it',
    24: 'operation not 0..20, in a second edition file not 0..23',
    26: 'second edition file with no operation 21..23',
}


class TextError(Exception):
    """What is wrong with a text, and in which line where it is one."""

    def __init__(self, message, line=None):
        super().__init__(message)
        self.line = line


class FileError(Exception):
    """Which file cannot be read or written, and why."""


class Refused(Exception):
    """A refusal of the library."""

    def __init__(self, number, place):
        rule = RULES.get(number, 'a rule that this program does not know')
        super().__init__(f'refused {number} at byte {place}: {rule}')
        self.number, self.place = number, place


# --------------------------------------------------------------- from text

def whole(text):
    if not re.fullmatch(r'-?[0-9]+', text):
        raise TextError(f'{text!r} is no whole number')
    if len(text.lstrip('-0')) > 11:
        raise TextError(f'{text} cannot be packed')
    return int(text)


def row_of(text, rank=None, separator='x'):
    """The words of a row: as many as there are axes, at most four; a rank that is given has to be met."""
    words = [] if text == '-' else [whole(part) for part in text.split(separator)]
    if len(words) > 4:
        raise TextError(f'{text!r} has more than four axes')
    if rank is not None and len(words) != rank:
        raise TextError(f'{text!r} is a row of rank {len(words)}, and the source has rank {rank}')
    return words


def shape_of(text, rank=None):
    """The extents of a shape. A 0 would end the shape in the packed words, whatever the text says."""
    words = row_of(text, rank)
    if 0 in words:
        raise TextError(f'{text!r} has an extent of 0')
    return words


class Line:
    """The words after the operation's name, read one after another."""

    def __init__(self, tokens, names, ranks):
        self.tokens, self.names, self.ranks = list(tokens), names, ranks
        self.rank = 0

    def take(self, what):
        if not self.tokens:
            raise TextError(f'{what} is missing')
        return self.tokens.pop(0)

    def after(self, keyword, what):
        token = self.take(f'{keyword!r}')
        if token != keyword:
            raise TextError(f'{keyword!r} is wanted, not {token!r}')
        return self.take(what)

    def source(self):
        name = self.take('a source')
        if name not in self.names:
            raise TextError(f'no node before this one is called {name!r}')
        return self.names[name]

    def dtype(self):
        name = self.take('a type')
        if name not in TYPES:
            raise TextError(f'{name!r} is no type: {", ".join(TYPES)}')
        return TYPES.index(name)

    def limits(self):
        text = self.take('limits')
        ends = text.split('..')
        if len(ends) != 2:
            raise TextError(f'{text!r} are no limits: low..high')
        return [whole(end) for end in ends]

    def part(self, part):
        """Pairs of word and value."""
        if part == 'first':
            source = self.source()
            self.rank = self.ranks[source]
            return [(SOURCE, source)]
        if part in ('second', 'third'):
            return [(SOURCE + ('first', 'second', 'third').index(part), self.source())]
        if part == 'others':
            return [(NUMBER, 3), *self.part('third')] if self.tokens else [(NUMBER, 2)]
        if part == 'type':
            return [(TYPE, self.dtype())]
        if part == 'number':
            return [(NUMBER, whole(self.take('a number')))]
        if part == 'limits':
            return list(zip((LOW, HIGH), self.limits()))
        if part == 'device':
            return [(DEVICE, whole(self.after('device', 'a device')))]
        if part == 'offsets':
            return list(zip(B, row_of(self.after('at', 'a row of offsets'), self.rank)))
        if part in ('shape', 'extents'):
            return list(zip(A, shape_of(self.take('a shape'), self.rank if part == 'extents' else None)))
        return list(zip(A, row_of(self.take('a row'), self.rank, ',' if part == 'axes' else 'x')))

    def raw(self):
        """`node`: an operation and pairs of word and value."""
        op = whole(self.take('an operation'))
        if not 0 <= op < len(USED):
            raise TextError(f'operation {op} cannot be packed: 0 to {len(USED) - 1} can')
        yield 0, op
        for token in self.tokens:
            word, equals, value = token.partition('=')
            if not equals or word not in map(str, USED[op]):
                raise TextError(f'{token!r}: operation {op} has the words {", ".join(map(str, USED[op]))}')
            yield int(word), whole(value)
        self.tokens = []


def node_words(line, name, params):
    """The 17 words of a line whose operation has this name, after so many PARAMs."""
    words = [0] * NODE_WORDS
    if name == 'node':
        pairs = list(line.raw())
    elif name in FORMS:
        op, parts = FORMS[name]
        fixed = {'param': [(NUMBER, params)], 'greatest': [(NUMBER, 1)]}
        pairs = [(0, op), *fixed.get(name, [])]
        for part in parts.split():
            pairs += line.part(part)
    else:
        raise TextError(f'{name!r} is no operation')
    for word, value in pairs:
        if not -2 ** 34 <= value < 2 ** 34:
            raise TextError(f'{value} cannot be packed')
        words[word] = value
    if line.tokens:
        raise TextError(f'{" ".join(line.tokens)!r} is left over')
    return words


def table_of(text):
    """The table of a plan's text."""
    table, names, ranks, params = [], {}, [], 0
    for number, content in enumerate(text.split('\n'), 1):
        content = content.partition('#')[0].strip()
        if not content:
            continue
        try:
            match = re.fullmatch(r'([\w-]+)\s*=\s*(\S+)(.*)', content)
            if not match:
                raise TextError('a line is `name = operation ..`')
            if match[1] in names:
                raise TextError(f'{match[1]!r} is the name of another node')
            if len(names) == MOST_NODES:
                raise TextError(f'a plan has at most {MOST_NODES} nodes')
            words = node_words(Line(match[3].split(), names, ranks), match[2], params)
        except TextError as error:
            raise TextError(str(error), number) from None
        names[match[1]] = len(names)
        ranks.append(rank_of(words, ranks))
        params += words[0] == PARAM
        table += words
    return table


def text_of(data):
    """The text that stands in these bytes; a line may end as on other systems."""
    if len(data) > MOST_TEXT:
        raise TextError(f'a text has at most {MOST_TEXT} bytes')
    data = data.replace(b'\r\n', b'\n').replace(b'\r', b'\n')
    try:
        return data.decode('utf-8')
    except UnicodeDecodeError as error:
        line = data.count(b'\n', 0, error.start) + 1
        raise TextError(f'byte {data[error.start]:02X} is no UTF-8', line) from None


def number_bytes(number):
    """"groups of seven bits, lowest first, the high bit of a byte set when more follow, shortest form\""""
    groups = []
    while number > 127:
        groups.append(number % 128 + 128)
        number //= 128
    return bytes([*groups, number])


def assemble(text):
    """The packed bytes of a plan's text."""
    table = table_of(text)
    if not table:
        raise TextError('there is no node')
    operations = table[::NODE_WORDS]
    numbers = [*(SECOND_EDITION if max(operations) >= FILL else ()), len(operations)]
    for first in range(0, len(table), NODE_WORDS):
        words = table[first:first + NODE_WORDS]
        numbers += [words[0], *(2 * words[w] if words[w] >= 0 else -2 * words[w] - 1 for w in USED[words[0]])]
    return b''.join(map(number_bytes, numbers))


# ------------------------------------------------------------ back to text

class Answer(ctypes.Structure):
    """lup_answer of include/lupetzarin.h"""
    _fields_ = [(name, ctypes.c_uint64) for name in ('number', 'place', 'count')]


def library_path():
    """The library's file, or the name that the loader looks for."""
    root = os.path.dirname(os.path.dirname(os.path.realpath(__file__)))
    paths = [os.path.join(root, path) for path in LIBRARIES]
    there = next(filter(os.path.exists, paths), os.path.basename(LIBRARIES[-1]))
    return os.environ.get('LUPETZARIN_LIBRARY') or there


def unpacked(data):
    """The table of packed bytes, by the library."""
    try:
        call = ctypes.CDLL(library_path()).lup_unpack
    except (OSError, AttributeError) as error:
        raise FileError(f'the library cannot be loaded: {error}') from None
    call.argtypes, call.restype = [ctypes.c_void_p, ctypes.c_size_t] * 2, Answer
    table = (ctypes.c_int64 * (NODE_WORDS * MOST_NODES))()
    answer = call(data, len(data), table, len(table))
    if answer.number:
        raise Refused(answer.number, answer.place)
    return table[:NODE_WORDS * answer.count]


def joined(words, separator='x'):
    return separator.join(map(str, words)) or '-'


def sources_of(words):
    """The words of a node that name its sources; a STACK has a third one with number 3 alone."""
    most = 2 if words[0] == STACK and words[NUMBER] != 3 else 3
    return [words[w] for w in USED[words[0]] if w <= most]


def rank_of(words, ranks):
    """How many axes a node has, as far as its rows and its sources tell; a STACK has one more than its sources."""
    if ROW_A in USED[words[0]] and words[0] not in (2, 3, REDUCE):
        return next((k for k, word in enumerate(words[9:13]) if not word), 4)
    sources = [ranks[source] for source in sources_of(words) if 0 <= source < len(ranks)]
    return max(sources, default=0) + (words[0] == STACK)


def readable(name, words, ranks):
    """The node's line by the form of that name."""
    rank = rank_of(words, ranks)
    source = ranks[words[1]] if SOURCE in USED[words[0]] and 0 <= words[1] < len(ranks) else 0
    row = joined(words[9:9 + rank])
    texts = {'first': f'n{words[1]}', 'second': f'n{words[2]}', 'third': f'n{words[3]}', 'number': str(words[NUMBER]),
             'type': TYPES[words[TYPE]] if 0 <= words[TYPE] < 4 else '?', 'limits': f'{words[LOW]}..{words[HIGH]}',
             'shape': row, 'extents': row, 'flags': row, 'axes': joined(words[9:9 + rank], ','),
             'others': f'n{words[3]}' if words[NUMBER] == 3 else '',
             'offsets': f'at {joined(words[13:13 + source])}', 'device': f'device {words[DEVICE]}'}
    return ' '.join(filter(None, [name, *(texts[part] for part in FORMS[name][1].split())]))


def back(data):
    """The text of a packed plan: the readable form of a node where it says the same words, else `node`."""
    table = unpacked(data)
    lines, ranks, names, params = [], [], {}, 0
    for first in range(0, len(table), NODE_WORDS):
        words = table[first:first + NODE_WORDS]
        line = ' '.join(['node', str(words[0]), *(f'{w}={words[w]}' for w in USED[words[0]] if words[w])])
        for name, (op, _) in FORMS.items():
            text = readable(name, words, ranks) if op == words[0] else ''
            if text and says(text, names, ranks, params, words):
                line = text
        number = len(ranks)
        lines.append(f'n{number} = {line}\n')
        ranks.append(rank_of(words, ranks))
        names[f'n{number}'] = number
        params += words[0] == PARAM
    return ''.join(lines)


def says(text, names, ranks, params, words):
    name, *tokens = text.split()
    try:
        return node_words(Line(tokens, names, ranks), name, params) == words
    except TextError:
        return False


# ------------------------------------------------------------------- files

HELD = signal.SIGHUP, signal.SIGINT, signal.SIGTERM
MOST_TRIES = 100


def told(name, way):
    return f'standard {way}' if name == '-' else name


@contextmanager
def named(name, what):
    """What the system says, with the file that it says it of."""
    try:
        yield
    except OSError as error:
        raise FileError(f'{name}: it cannot be {what}: {error.strerror}') from None


def read_all(descriptor, most):
    """What is there up to its end, at most so many bytes: a pipe gives it in parts."""
    data = bytearray()
    while len(data) < most:
        part = os.read(descriptor, min(most - len(data), 1 << 16))
        if not part:
            break
        data += part
    return bytes(data)


def write_all(descriptor, data):
    while data:
        data = data[os.write(descriptor, data):]


def read_source(name, most):
    """At most so many bytes of a file, or of standard input where the name is `-`; and which file it was."""
    descriptor = 0 if name == '-' else os.open(name, os.O_RDONLY)
    try:
        return read_all(descriptor, most), os.fstat(descriptor)
    finally:
        if name != '-':
            os.close(descriptor)


def expect_apart(name, source):
    """The name to write, `-` standard output, is not that of the file that is read, by no link either."""
    there = None
    with suppress(FileNotFoundError):
        there = os.fstat(1) if name == '-' else os.stat(name)
    if there is None or not os.path.samestat(there, source):
        return
    # a terminal may well be read and written
    if name != '-' or stat.S_ISREG(there.st_mode):
        raise FileError(f'{told(name, "output")}: it is to be read and to be written; nothing was done')


def mode_there(name):
    """The mode of the plain file that has this name, None where nothing has it."""
    try:
        there = os.lstat(name)
    except FileNotFoundError:
        return None
    if not stat.S_ISREG(there.st_mode):
        raise FileError(f'{name}: what has this name is no plain file; it stays as it is')
    return stat.S_IMODE(there.st_mode)


def open_temporary(folder, mode):
    """A file of a name that none has yet: the process and a number."""
    for k in range(MOST_TRIES):
        name = os.path.join(folder, f'.lupasm-{os.getpid()}-{k}.tmp')
        with suppress(FileExistsError):
            return name, os.open(name, os.O_WRONLY | os.O_CREAT | os.O_EXCL, mode)
    raise FileExistsError(errno.EEXIST, os.strerror(errno.EEXIST))


def write_temporary(descriptor, data, mode):
    """All of it, on the disk."""
    try:
        write_all(descriptor, data)
        if mode is not None:
            os.fchmod(descriptor, mode)
        os.fsync(descriptor)
    finally:
        os.close(descriptor)


def write_whole(name, data, mode):
    """All of it under its name, or nothing: a temporary file beside it gets the name, with this mode, or with that
    of any new file. A signal that would leave the temporary file waits until it is gone."""
    signals = signal.pthread_sigmask(signal.SIG_BLOCK, HELD)
    try:
        temporary, descriptor = open_temporary(os.path.dirname(name), 0o666 if mode is None else mode & 0o777)
        try:
            write_temporary(descriptor, data, mode)
            os.replace(temporary, name)
        except BaseException:
            with suppress(OSError):
                os.unlink(temporary)
            raise
    finally:
        signal.pthread_sigmask(signal.SIG_SETMASK, signals)


# ----------------------------------------------------------------- program

class Once(argparse.Action):
    """An option that is given once."""

    def __call__(self, parser, asked, value, option_string=None):
        if getattr(asked, self.dest) is not None:
            parser.error(f'{option_string} is given twice')
        setattr(asked, self.dest, value)


class Parser(argparse.ArgumentParser):
    def print_help(self, file=None):
        write_all(1, self.format_help().encode())


def asked_of(arguments):
    parser = Parser(
        prog=PROGRAM, allow_abbrev=False, formatter_class=argparse.RawDescriptionHelpFormatter,
        usage=f'{PROGRAM} TEXT -o PLAN [--check]\n       {PROGRAM} --back PLAN [-o TEXT] [--check]',
        description=__doc__,
        epilog='A file is written whole or not at all, never over the one that is read or what is no plain file.\n'
               'Exit status: 0 done; 1 --back: refused by the library, with number, place and rule;\n'
               '2 misuse, text that is no plan, or a file that cannot be read or written.')
    parser.add_argument('source', metavar='TEXT, PLAN', help='the file to read; - is standard input')
    parser.add_argument('-o', dest='output', metavar='FILE', action=Once,
                        help='the file to write; - is standard output, where --back writes without -o')
    parser.add_argument('--back', action='store_true', help='the text of a packed plan')
    parser.add_argument('--check', action='store_true', help='does all but the writing; -o may be left out')
    asked = parser.parse_args(arguments)
    if asked.output is None and not asked.check:
        if not asked.back:
            parser.error('-o PLAN is not given')
        asked.output = '-'
    if '' in (asked.source, asked.output):
        parser.error('the name of a file is empty')
    return asked


def convert(asked):
    """Reads, makes the bytes or the text, and writes."""
    with named(told(asked.source, 'input'), 'read'):
        data, source = read_source(asked.source, MOST_BYTES if asked.back else MOST_TEXT + 1)
    result = back(data).encode() if asked.back else assemble(text_of(data))
    if asked.output is None:
        return
    with named(told(asked.output, 'output'), 'written'):
        expect_apart(asked.output, source)
        mode = None if asked.output == '-' else mode_there(asked.output)
        if asked.check:
            return
        if asked.output == '-':
            write_all(1, result)
        else:
            write_whole(asked.output, result, mode)


def complain(message):
    if sys.stderr:
        print(f'{PROGRAM}: {message}', file=sys.stderr)


def main(arguments):
    try:
        with named('standard output', 'written'):
            asked = asked_of(arguments)
        convert(asked)
    except FileError as error:
        complain(error)
        return 2
    except (TextError, Refused) as error:
        line = f':{error.line}' if isinstance(error, TextError) and error.line else ''
        complain(f'{told(asked.source, "input")}{line}: {error}')
        return 1 if isinstance(error, Refused) else 2
    return 0


if __name__ == '__main__':
    # an interrupt ends it as it ends lup, without Python's account of where it was
    if signal.getsignal(signal.SIGINT) is signal.default_int_handler:
        signal.signal(signal.SIGINT, signal.SIG_DFL)
    sys.exit(main(sys.argv[1:]))
