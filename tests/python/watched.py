"""What the tests of the Python module look at the library with, and the forms in which they give numbers."""

import ctypes
import struct
from array import array
from contextlib import contextmanager

# Of each call: its buffers in order, 'q' for 64-bit words and 'B' for bytes, and which of them it writes.
CALLS = {'lup_unpack': ('Bq', (1,)), 'lup_pack': ('qB', (1,)), 'lup_check': ('qq', (1,)), 'lup_unpack_check': ('B', ()),
         'lup_run': ('qqBqB', (3, 4)), 'lup_lookup': ('q', ())}


class Watched:
    """The library. What the header asks of the buffers is looked at before each call. broken: what was not kept of
    it; handed: the buffers of the last call; read: the numbers in those that it reads; before: called before each."""

    def __init__(self, library):
        self.library, self.broken, self.handed, self.read, self.before = library, [], [], [], None

    def __getattr__(self, name):
        def call(*arguments):
            self.look(name, arguments)
            if self.before:
                self.before()
            return getattr(self.library, name)(*arguments)
        return call

    def look(self, name, arguments):
        codes, written = CALLS[name]
        self.handed = [(code, *arguments[2 * k:2 * k + 2]) for k, code in enumerate(codes)]
        self.read = [numbers_at(*buffer) for k, buffer in enumerate(self.handed) if k not in written]
        parts = [(start, start + struct.calcsize(f'={count}{code}')) for code, start, count in self.handed]
        self.broken += [(name, k, 'not aligned') for k, (code, start, _) in enumerate(self.handed)
                        if code == 'q' and start % 8]
        self.broken += [(name, k, other, 'overlap') for k in written for other, (first, last) in enumerate(parts)
                        if other != k and first < parts[k][1] and parts[k][0] < last]


def numbers_at(code, start, count):
    """The numbers of a buffer as the library reads them."""
    return list(struct.unpack(f'={count}{code}', ctypes.string_at(start, struct.calcsize(f'={count}{code}'))))


@contextmanager
def watching(tally, lup):
    """The module's calls are watched; nothing of the header is broken."""
    kept, lup._LIBRARY = lup._LIBRARY, Watched(lup._LIBRARY)
    try:
        yield lup._LIBRARY
        tally.same('the header', lup._LIBRARY.broken, [])
    finally:
        lup._LIBRARY = kept


def forms(numpy, numbers, code):
    """The same numbers in every form that is taken, by name."""
    given = {'list': list(numbers), 'tuple': tuple(numbers), 'array': array(code, numbers)}
    if not numpy:
        return given
    plain = numpy.array(list(numbers), 'int64' if code == 'q' else 'uint8')
    count = len(plain)
    shifted = numpy.frombuffer(b'\x55' + plain.tobytes(), plain.dtype, offset=1)
    if code == 'q' and count:
        assert shifted.ctypes.data % 8 and not shifted.flags.aligned, 'these numbers should not be aligned'
    spread = numpy.full(3 * count, 77, plain.dtype)
    spread[::3] = plain
    fixed = plain.copy()
    fixed.flags.writeable = False
    return {**given, 'numpy': plain, 'numpy integers': list(plain), 'misaligned': shifted, 'every third': spread[::3],
            'backwards': plain[::-1].copy()[::-1], 'read-only': fixed,
            'another order': plain.astype(plain.dtype.newbyteorder()), 'a column': plain.reshape(count, 1),
            'a field of a record': record_field(numpy, plain), 'a subclass': plain.view(numpy.memmap),
            'wider': plain.astype('int64' if code == 'B' else 'longlong')}


def record_field(numpy, plain):
    """The numbers between others, as a packed record has them: neither aligned nor contiguous."""
    records = numpy.zeros(len(plain), [('before', 'u1'), ('number', plain.dtype)])
    records['number'] = plain
    return records['number']
