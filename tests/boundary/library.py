"""The shared object behind the C header, for tests: buffers hold a pattern between guards and are compared whole."""

import ctypes
import mmap
import os
import re
import subprocess
from array import array

ROOT = os.path.dirname(os.path.dirname(os.path.dirname(os.path.abspath(__file__))))
SHARED_OBJECT = os.path.join(ROOT, 'build', 'liblupetzarin.so')
HEADER = os.path.join(ROOT, 'include', 'lupetzarin.h')
WORDS = ctypes.POINTER(ctypes.c_int64)
GUARD = [-7] * 16
# What all PARAMs together can hold: 4194304 elements of eight bytes.
MOST_INPUT_BYTES = 2 ** 25


class Answer(ctypes.Structure):
    _fields_ = [('number', ctypes.c_uint64), ('place', ctypes.c_uint64), ('count', ctypes.c_uint64)]

    def triple(self):
        return self.number, self.place, self.count


class Found(ctypes.Structure):
    _fields_ = [(name, ctypes.c_uint64) for name in ('number', 'place', 'found', 'node', 'element')]

    def five(self):
        return self.number, self.place, self.found, self.node, self.element


class Bytes:
    """Input bytes that end where a page begins that cannot be read: reading past them ends the process."""

    def __init__(self, most=16384):
        self.size = -(-most // mmap.PAGESIZE) * mmap.PAGESIZE
        self.memory = mmap.mmap(-1, self.size + mmap.PAGESIZE)
        self.end = ctypes.addressof(ctypes.c_char.from_buffer(self.memory)) + self.size
        libc = ctypes.CDLL(None, use_errno=True)
        if libc.mprotect(ctypes.c_void_p(self.end), ctypes.c_size_t(mmap.PAGESIZE), 0):
            raise OSError(ctypes.get_errno(), 'mprotect')

    def put(self, data):
        """The address of the bytes."""
        self.memory[self.size - len(data):self.size] = data
        return self.end - len(data)

    def hold(self, data):
        return self.memory[self.size - len(data):self.size] == data


class Table:
    """Words between guards."""

    def __init__(self, words):
        self.room = len(words)
        guarded = GUARD + words + GUARD
        self.memory = (ctypes.c_int64 * len(guarded))(*guarded)
        self.start = ctypes.cast(ctypes.byref(self.memory, 8 * len(GUARD)), WORDS)

    def words(self):
        return self.memory[len(GUARD):len(GUARD) + self.room]

    def guards_hold(self):
        return self.memory[:len(GUARD)] == GUARD and self.memory[len(GUARD) + self.room:] == GUARD


class Guarded:
    """The items of an array between guards, for results of any size."""

    def __init__(self, items):
        self.guard = array(items.typecode, [93] * 16)
        self.memory = self.guard + items + self.guard
        self.start = self.memory.buffer_info()[0] + len(self.guard) * items.itemsize

    def items(self):
        return self.memory[len(self.guard):-len(self.guard)]

    def guards_hold(self):
        return self.memory[:len(self.guard)] == self.guard == self.memory[-len(self.guard):]


def declared():
    """The calls that the header declares."""
    with open(HEADER, encoding='utf-8') as header:
        return set(re.findall(r'\b(lup_\w+)\(', header.read()))


def exported():
    """The functions and data that the shared object defines, without their versions and the names of those."""
    listed = subprocess.run(['nm', '-D', '--defined-only', SHARED_OBJECT], check=True, capture_output=True, text=True)
    symbols = [line.split()[-2:] for line in listed.stdout.splitlines()]
    return {name.partition('@')[0] for kind, name in symbols if kind != 'A'}


class Library:
    def __init__(self):
        self.calls = ctypes.CDLL(SHARED_OBJECT)
        self.calls.lup_unpack.argtypes = [ctypes.c_void_p, ctypes.c_size_t, WORDS, ctypes.c_size_t]
        self.calls.lup_unpack.restype = Answer
        self.calls.lup_check.argtypes = [WORDS, ctypes.c_size_t, WORDS, ctypes.c_size_t]
        self.calls.lup_check.restype = Answer
        self.calls.lup_unpack_check.argtypes = [ctypes.c_void_p, ctypes.c_size_t]
        self.calls.lup_unpack_check.restype = ctypes.c_uint64
        self.calls.lup_run.argtypes = [ctypes.c_void_p, ctypes.c_size_t] * 5
        self.calls.lup_run.restype = Answer
        self.calls.lup_lookup.argtypes = [ctypes.c_void_p, ctypes.c_size_t, ctypes.c_uint64, ctypes.c_uint64]
        self.calls.lup_lookup.restype = Found
        self.calls.lup_pack.argtypes = [ctypes.c_void_p, ctypes.c_size_t] * 2
        self.calls.lup_pack.restype = Answer
        self.made = 0
        self.bytes = Bytes()
        self.inputs = [Bytes(40000), Bytes(MOST_INPUT_BYTES), Bytes(MOST_INPUT_BYTES)]

    def unpack(self, data, words, null=False):
        """The answer, the table afterwards, and whether all else is as it was. null: NULL where a length is 0."""
        table = Table(words)
        source = None if null and not data else self.bytes.put(data)
        target = None if null and not words else table.start
        self.made += 1
        answer = self.calls.lup_unpack(source, len(data), target, table.room).triple()
        return answer, table.words(), table.guards_hold() and self.bytes.hold(data)

    def check(self, plan, words, null=False):
        """The same of a check of the plan's table: what it writes is the derived words."""
        table, derived = Table(plan), Table(words)
        source = None if null and not plan else table.start
        target = None if null and not words else derived.start
        self.made += 1
        answer = self.calls.lup_check(source, table.room, target, derived.room).triple()
        return answer, derived.words(), table.guards_hold() and table.words() == plan and derived.guards_hold()

    def unpack_check(self, data, null=False):
        """The answer, and whether the bytes are as they were."""
        source = None if null and not data else self.bytes.put(data)
        self.made += 1
        return self.calls.lup_unpack_check(source, len(data)), self.bytes.hold(data)

    def run(self, plan, values, flags, out_values, out_flags, null=False):
        """The answer of a run, both result buffers afterwards, and whether all else is as it was. Words and values are arrays of 'q', flags of
        'B'; each input ends where a page begins that cannot be read."""
        inputs = [(memory, items.tobytes(), len(items)) for memory, items in zip(self.inputs, (plan, values, flags))]
        results = [Guarded(out_values), Guarded(out_flags)]
        starts = [memory.put(data) for memory, data, _ in inputs] + [result.start for result in results]
        rooms = [room for _, _, room in inputs] + [len(out_values), len(out_flags)]
        starts = [None if null and room == 0 else start for start, room in zip(starts, rooms)]
        self.made += 1
        answer = self.calls.lup_run(*(argument for pair in zip(starts, rooms) for argument in pair)).triple()
        unchanged = all(memory.hold(data) for memory, data, _ in inputs) and all(result.guards_hold() for result in results)
        return answer, *(result.items() for result in results), unchanged

    def pack(self, plan, data, null=False):
        """The answer of a packing of the plan's table, the bytes afterwards, and whether all else is as it was. The words end where a page begins
        that cannot be read."""
        words, result = array('q', plan).tobytes(), Guarded(array('B', data))
        source = None if null and not plan else self.inputs[0].put(words)
        target = None if null and not data else result.start
        self.made += 1
        answer = self.calls.lup_pack(source, len(plan), target, len(data)).triple()
        return answer, result.items().tobytes(), result.guards_hold() and self.inputs[0].hold(words)

    def lookup(self, plan, node, element):
        """The five numbers of a lookup, and whether the plan is as it was. The words are an array of 'q' that ends where a page begins that
        cannot be read; where there are none, NULL."""
        data = plan.tobytes()
        start = self.inputs[0].put(data) if data else None
        self.made += 1
        return self.calls.lup_lookup(start, len(plan), node, element).five(), self.inputs[0].hold(data)
