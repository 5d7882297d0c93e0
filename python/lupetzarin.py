"""Lupetzarin from Python: plans over whole numbers with gaps, packed, unpacked, checked, run and traced back by
proved code.

    import lupetzarin as lup
    plan = lup.Plan(open('bay.plan', 'rb').read())         # unpacked and checked, once
    result = plan.run(values, flags)                       # every element of every node
    result = plan.run(masked)                              # the same of a masked array: a gap where it is masked
    field = result.field(node)                             # a node's elements as a masked array of the node's shape
    place = plan.lookup(node, element)                     # where an element comes from; None for a gap
    data = lup.pack(table)                                 # the bytes of a plan file, of a table of 17 words a node

OPERATIONS has the names of the operations by their numbers. A table with FILL, KNOWN or STACK is packed as a file of
the second edition, any other as one of the first; both are read.

unpack, pack, check, unpack_check, run and lookup are the calls of the header, on a plan's table of 17 words a node.
A refusal raises Refused, with its number, its place and, in words, what was wrong and where. What is no whole
numbers, or none that fit, raises TypeError or OverflowError; flags that contradict a mask raise ValueError.

What is taken as numbers; nothing is ever rounded or cut:
  - a sequence of int, or of numpy's integers and bools; no arrays within it, no float, no None;
  - an array.array of whole numbers;
  - a numpy array of any signed or unsigned type in either byte order; a known number over 2^63 - 1 is refused, and
    a flag that is not 0..255. A bool array is taken as flags, and as values where every PARAM is bool. An array of
    several axes is read row by row.
Floats, and so NaN, objects, dates and all other types are refused.

A masked array (numpy.ma) is taken as the values of a run and nowhere else. It carries its own flags: known where it
is not masked; flags that are given besides have to say the same. Other values need flags: 1 for a known number, 0
for a gap. Join masked arrays with numpy.ma.concatenate: numpy.concatenate drops their masks.

To a worker of distributed (dask) a masked array is handed with pure=False, and scattered with hash=False:

    result = client.submit(plan.run, masked, pure=False).result()

Else the call is named after its arguments: of most masked arrays no name can be made, and of those of 8 bits it leaves
out the mask, so that the result for one mask would be given for another.

Memory is handed to the library as it is, without a copy, where it is what the header asks for: int64 (flags: uint8
or bool) in the machine's byte order, contiguous, at a multiple of 8 bytes; it may be read-only, as the library only
reads it. All else is copied first. What a call writes is fresh memory of this module, so it overlaps nothing.
Results are numpy arrays where numpy can be imported, else arrays of array.array.

The library is what LUPETZARIN_LIBRARY names; else liblupetzarin.so beside this file, where pip puts it; else
build/liblupetzarin.so of the checkout; else what the loader finds under the name liblupetzarin.so.5. One of another
major version, or of an older minor one, is an ImportError. __version__ is this module's version, version() the
library's.
"""

from __future__ import annotations

import ctypes
import os
import reprlib
from array import array
from itertools import accumulate
from math import prod
from typing import TYPE_CHECKING, Any, Iterable, NamedTuple, Optional, Union

try:
    import numpy
except ImportError:
    numpy = None  # type: ignore[assignment]

if TYPE_CHECKING:
    # What is handed to the library and what a run gives; what a caller gives.
    Memory = Union['array[int]', memoryview, 'numpy.ndarray[Any, Any]']
    Numbers = Union[Iterable[int], Memory]

__version__ = '5.1.0'
__all__ = ['DTYPES', 'FILL_VALUE', 'OPERATIONS', 'Place', 'Plan', 'RULES', 'Record', 'Refused', 'Result', 'check',
           'lookup', 'pack', 'run', 'unpack', 'unpack_check', 'version']

NODE_WORDS, RECORD_WORDS, MOST_NODES, NUMBER_WORD, PARAM, BOOL = 17, 8, 256, 5, 1, 0
# Of packed plans: the most bytes, and the ends of what a word can be.
MOST_PACKED_BYTES, LEAST_PACKED_WORD, MOST_PACKED_WORD = 11778, -17179869184, 17179869183
DTYPES = ('bool', 'u8', 'i16', 'i32')
OPERATIONS = tuple('CONST PARAM PERMUTE FLIP RESHAPE EXPAND PAD SHRINK CAST ADD MUL MAX IDIV MOD CMPLT CMPNE AND OR '
                   'WHERE REDUCE LOAD FILL KNOWN STACK'.split())
# What stands in a gap of a masked array: outside every type; cut to 32, 16 or 8 bits it is far below 0, and not 0.
FILL_VALUE = -2 ** 63 + 2 ** 31 + 2 ** 15 + 2 ** 7

# Every refusal: what its place counts, nothing where it has none, and what was wrong; the words are those of lup.
RULES = {
    1: ('', 'length no multiple of 17, or not 1..256 nodes'),
    2: ('node', 'operation not 0..23'),
    3: ('node', 'unused word not zero'),
    4: ('node', 'source negative or not earlier'),
    5: ('node', 'type not 0..3'),
    6: ('node', 'type rule broken (operands differ, bool misplaced, or WHERE condition not bool)'),
    7: ('node', 'row or number wrong'),
    8: ('node', 'shapes disagree, or over 1048576 elements'),
    9: ('node', 'two devices'),
    10: ('node', 'divisor bounds contain 0'),
    11: ('node', 'bounds leave the type'),
    12: ('', 'all nodes together over 4194304 elements'),
    13: ('', 'input length is not the PARAM total'),
    14: ('', 'a buffer written to is too short'),
    15: ('input position', 'flag neither 0 nor 1'),
    16: ('input position', 'known number outside limits'),
    17: ('', 'lookup node or element not there'),
    20: ('byte', 'bytes end before or inside a number'),
    21: ('byte', 'number not in its shortest form of at most 5 bytes'),
    22: ('byte', 'bytes left over'),
    23: ('byte', 'node count not 1..256, or a first byte 0 without a 2 after it'),
    24: ('byte', 'operation not 0..20, in a second edition file not 0..23'),
    25: ('node', 'a used word not in -17179869184..17179869183'),
    26: ('byte', 'second edition file with no operation 21..23'),
}
# What rule 7 asks of an operation's row and number.
ROWS = {
    'PARAM': 'slot not its turn or over 15, low above high, device not 1..255, or no shape',
    'PERMUTE': 'not each axis of the source once',
    'FLIP': 'not a flag 0 or 1 for each axis of the source',
    'RESHAPE': 'no shape',
    'EXPAND': 'no shape',
    'PAD': 'no shape, or an offset not 0..1048576 or past the rank',
    'SHRINK': 'no shape, or an offset not 0..1048576 or past the rank',
    'REDUCE': 'number neither 0 nor 1, or not a flag 0 or 1 for each axis of the source',
    'LOAD': 'device not 1..255',
    'STACK': 'number neither 2 nor 3, or word 3 not 0 with number 2',
}
# What rule 8 asks of an operation's sources, where its words do not say all of it.
SHAPES = {'STACK': 'sources not of one shape, of a rank over 3, or of over 1048576 elements together'}


class Refused(Exception):
    """A refusal: its number and its place; where and more are the place in words and what was found there, where
    they are known. It can be pickled, so a process pool hands it on."""

    def __init__(self, number: int, place: int, where: str = '', more: str = '') -> None:
        super().__init__(number, place, where, more)
        self.number, self.place = number, place

    def __str__(self) -> str:
        number, place, where, more = self.args
        counted, words = RULES.get(number, ('', 'a rule that this module does not know'))
        where = where or (f'{counted} {place}' if counted else '')
        return f'refused {number}{" at " + where if where else ""}: {words}{": " + more if more else ""}'


class Record(NamedTuple):
    """What is derived of a node."""

    dtype: int
    device: int
    low: int
    high: int
    extents: tuple[int, ...]


class Place(NamedTuple):
    """An element of a node, both counted from 0."""

    node: int
    element: int


class Result(NamedTuple):
    """What a run gives: the elements of all nodes end to end, a gap as value 0 and flag 0; one slice of them a node;
    the gaps of the output, the last node; what is derived of each node."""

    values: Memory
    flags: Memory
    nodes: tuple[slice, ...]
    gaps: int
    records: tuple[Record, ...]

    def field(self, node: int) -> numpy.ma.MaskedArray[Any, Any]:
        """The elements of a node (-1: the output) as a masked array in the node's shape, gaps masked: a copy.
        FILL_VALUE, which is in no type's range, is its fill_value, and also lies under the mask: where something
        drops the mask, a gap is still no number of the plan."""
        if numpy is None:
            raise ImportError('field: masked arrays need numpy, which cannot be imported here; cells gives a list')
        part, shape = self._part(node), self.records[node].extents
        gaps = (self.flags[part] == 0).reshape(shape)
        data = numpy.where(gaps, FILL_VALUE, self.values[part].reshape(shape))
        return numpy.ma.array(data, mask=gaps, fill_value=FILL_VALUE)

    def cells(self, node: int) -> list[Optional[int]]:
        """The elements of a node (-1: the output) as a list, row by row; None for a gap."""
        part = self._part(node)
        cells = zip(self.values[part].tolist(), self.flags[part].tolist())
        return [value if flag else None for value, flag in cells]

    def _part(self, node: int) -> slice:
        if not -len(self.nodes) <= node < len(self.nodes):
            raise IndexError(f'no node {node}, the last is {len(self.nodes) - 1}')
        return self.nodes[node]


class _Answer(ctypes.Structure):
    _fields_ = [(name, ctypes.c_uint64) for name in ('number', 'place', 'count')]


class _Found(ctypes.Structure):
    _fields_ = [(name, ctypes.c_uint64) for name in ('number', 'place', 'found', 'node', 'element')]


_MAJOR, _MINOR = map(int, __version__.split('.')[:2])


def _path() -> str:
    """The library's file, or the name that the loader looks for."""
    folder = os.path.dirname(os.path.abspath(__file__))
    places = folder, os.path.join(os.path.dirname(folder), 'build')
    paths = [os.path.join(place, 'liblupetzarin.so') for place in places]
    there = next(filter(os.path.exists, paths), f'liblupetzarin.so.{_MAJOR}')
    return os.environ.get('LUPETZARIN_LIBRARY') or there


def _opened(path: str) -> ctypes.CDLL:
    """The library of that path, if it is of this major version, since the calls of another one may mean something
    else, and not of an older minor one, which has not all of them."""
    try:
        library = ctypes.CDLL(path)
        library.lup_version.argtypes, library.lup_version.restype = [], ctypes.c_uint64
        number = library.lup_version()
    except (OSError, AttributeError) as error:
        raise ImportError(f'lupetzarin: the library {path!r} cannot be loaded: {error}') from None
    if number // 1000000 != _MAJOR or number // 1000 % 1000 < _MINOR:
        found = f'{number // 1000000}.{number // 1000 % 1000}.{number % 1000}'
        raise ImportError(f'lupetzarin: the library {path!r} is version {found}, and this module is {__version__}')
    return library


def _load() -> ctypes.CDLL:
    library = _opened(_path())
    buffer = [ctypes.c_void_p, ctypes.c_size_t]
    calls = (('unpack', 2, 0, _Answer), ('pack', 2, 0, _Answer), ('check', 2, 0, _Answer), ('run', 5, 0, _Answer),
             ('lookup', 1, 2, _Found), ('unpack_check', 1, 0, ctypes.c_uint64))
    for name, buffers, numbers, answer in calls:
        call = getattr(library, 'lup_' + name)
        call.argtypes, call.restype = buffer * buffers + [ctypes.c_uint64] * numbers, answer
    return library


_LIBRARY = _load()

# ------------------------------------------------------------------ memory

# The two kinds of memory that the library knows, by their letters in array.array: the least and the greatest number,
# and numpy's type. What is a whole number by itself: no array of one number, which may be masked.
_LIMITS = {'q': (-2 ** 63, 2 ** 63 - 1), 'B': (0, 255)}
if numpy is not None:
    _TYPES = {'q': numpy.dtype(numpy.int64), 'B': numpy.dtype(numpy.uint8)}
    _WHOLE: tuple[type, ...] = (int, numpy.integer, numpy.bool_)
    # Whether numpy's own flag says what the header asks for; it does not of an empty array.
    _EIGHT = _TYPES['q'].alignment == 8
else:
    _WHOLE = (int,)


def _is_masked(items: object) -> bool:
    return numpy is not None and isinstance(items, numpy.ma.MaskedArray)


def _shown(item: object) -> str:
    return f'{" ".join(reprlib.repr(item).split())} ({type(item).__name__})'


def _listed(items: Numbers, code: str, name: str) -> array[int]:
    """The items of any sequence in memory of that type."""
    if code == 'B' and isinstance(items, (bytes, bytearray)):
        return array(code, items)
    if not hasattr(items, '__iter__'):
        raise TypeError(f'{name}: whole numbers are wanted, and this is {_shown(items)}')
    numbers = list(items)
    kinds = set(map(type, numbers))
    if not all(issubclass(kind, _WHOLE) for kind in kinds):
        position, wrong = next(pair for pair in enumerate(numbers) if not isinstance(pair[1], _WHOLE))
        raise TypeError(f'{name}: whole numbers are wanted, and item {position} is {_shown(wrong)}')
    if not kinds <= {int}:
        numbers = list(map(int, numbers))
    low, high = _LIMITS[code]
    if numbers and not (low <= min(numbers) and max(numbers) <= high):
        position = next(k for k, number in enumerate(numbers) if not low <= number <= high)
        raise OverflowError(f'{name}: item {position} is {numbers[position]}, not {low}..{high}')
    return array(code, numbers)


def _converted(items: numpy.ndarray[Any, Any], code: str, name: str,
               known: Optional[Memory]) -> numpy.ndarray[Any, Any]:
    """A copy of whole numbers as the library wants them; where known has 0 a number need not fit."""
    low, high = _LIMITS[code]
    if not numpy.can_cast(items.dtype, _TYPES[code]):
        over = items > items.dtype.type(min(high, numpy.iinfo(items.dtype).max))
        if items.dtype.kind == 'i':
            over |= items < 0
        wrong = over.ravel()
        if known is not None and len(known) == len(wrong):
            wrong = wrong & (numpy.asarray(known) != 0)
        if wrong.any():
            position = int(wrong.argmax())
            raise OverflowError(f'{name}: position {position} holds {items.ravel()[position]}, not {low}..{high}')
    return items.astype(_TYPES[code], order='C')


def _expect_whole(dtype: numpy.dtype[Any], name: str, bools: bool) -> None:
    if dtype.kind not in 'iu' and not (bools and dtype == bool):
        why = ' (bools are taken as values where every PARAM is bool)' if dtype == bool else ''
        raise TypeError(f'{name}: whole numbers are wanted, and this array is of {dtype}{why}')


def _held(items: Numbers, code: str, name: str, known: Optional[Memory] = None, bools: bool = True) -> Memory:
    """The items as memory that the header's conditions hold of: as they are where they are such memory, else a copy
    of them. A mask is never dropped. known: flags of the items, 0 where the number does not matter; bools: whether
    an array of bools is taken."""
    if isinstance(items, array) and items.typecode == code:
        return memoryview(items)    # nobody can make the array longer, and so move it, while the library reads it
    if numpy is None or not isinstance(items, numpy.ndarray):
        return _listed(items, code, name)
    if isinstance(items, numpy.ma.MaskedArray):
        raise TypeError(f'{name}: this is a masked array, which is taken as the values of a run alone')
    if type(items) is not numpy.ndarray:
        items = items.view(numpy.ndarray)
    if items.dtype != _TYPES[code]:
        _expect_whole(items.dtype, name, bools)
        items = items.view(numpy.uint8) if items.dtype == bool else items
    if items.dtype != _TYPES[code]:
        held = _converted(items, code, name, known)
    else:
        flags = items.flags
        aligned = flags.aligned if _EIGHT and items.size else items.ctypes.data % 8 == 0
        fits = flags.c_contiguous and aligned
        held = items if fits else items.copy(order='C')
    return held if held.ndim == 1 else held.reshape(-1)


def _fresh(code: str, count: int) -> Memory:
    """Memory that a call writes."""
    return numpy.empty(count, _TYPES[code]) if numpy is not None else array(code, (0,)) * count


def _lent(memory: Memory) -> tuple[int, int]:
    """The address of the items and how many they are. The memory has to be held by a name until the call is over."""
    if isinstance(memory, memoryview):
        memory = memory.obj
    return memory.buffer_info() if isinstance(memory, array) else (memory.ctypes.data, memory.size)


def _flagged(values: numpy.ma.MaskedArray[Any, Any], flags: Optional[Numbers]) -> Memory:
    """The flags of a masked array; those that are given besides have to be the same."""
    _expect_whole(values.dtype, 'values', True)
    known = (~numpy.ma.getmaskarray(values).reshape(-1)).view(numpy.uint8)
    if flags is None:
        return known
    given = numpy.asarray(_held(flags, 'B', 'flags'))
    if len(given) != len(known):
        raise ValueError(f'flags: {len(given)} of them, and the masked array has {len(known)} cells')
    if (given != known).any():
        position = int((given != known).argmax())
        masked = 'not masked' if known[position] else 'masked'
        raise ValueError(f'flags: flag {position} is {given[position]}, and that cell of the values is {masked}')
    return known


def _inputs(values: Numbers, flags: Optional[Numbers], bools: bool) -> tuple[Memory, Memory]:
    """Values and flags of a run as memory."""
    if _is_masked(values):
        known = _flagged(values, flags)
        return _held(numpy.ma.getdata(values), 'q', 'values', known, bools), known
    if flags is None:
        raise TypeError('flags: none are given, and the values are no masked array: 1 is a known number, 0 a gap')
    known = _held(flags, 'B', 'flags')
    return _held(values, 'q', 'values', known, bools), known


def _whole(number: int, name: str) -> int:
    """A number that is no array: what is masked has none."""
    if not isinstance(number, _WHOLE):
        raise TypeError(f'{name}: a whole number is wanted, and this is {_shown(number)}')
    return int(number)


# ---------------------------------------------------------------- refusals

def _named(operation: int) -> str:
    return OPERATIONS[operation] if 0 <= operation < len(OPERATIONS) else f'operation {operation}'


def _refused_table(number: int, place: int, table: Memory) -> Refused:
    """A refusal of a table, by the check or the packing."""
    if RULES.get(number, ('', ''))[0] != 'node':
        return Refused(number, place, '', f'{len(table)} words' if number == 1 else '')
    words = [int(word) for word in table[NODE_WORDS * place:NODE_WORDS * (place + 1)]]
    operation = _named(words[0])
    more = _out_of_range(words) if number == 25 else {7: ROWS, 8: SHAPES}.get(number, {}).get(operation, '')
    return Refused(number, place, f'node {place} ({operation})', more)


def _out_of_range(words: list[int]) -> str:
    """The first word of a node after the operation that cannot be packed."""
    word = next(k for k in range(1, NODE_WORDS) if not LEAST_PACKED_WORD <= words[k] <= MOST_PACKED_WORD)
    return f'word {word} is {words[word]}'


def _place_text(extents: tuple[int, ...], element: int) -> str:
    """An element in words, as lup says it: its picture, row and column."""
    coordinates: list[int] = []
    for extent in reversed(extents):
        element, coordinate = divmod(element, extent)
        coordinates.insert(0, coordinate)
    front, last = coordinates[:-2], coordinates[-2:]
    words = ['picture ' + ','.join(map(str, front))] if front else []
    return ' '.join(words + [f'{axis} {k}' for axis, k in zip(('row', 'column')[2 - len(last):], last)])


# -------------------------------------------------------------------- plans

class Plan:
    """A plan that is unpacked and checked once, for many runs and lookups. It does not change, can be used by
    several threads at once, and can be pickled.

    records: what is derived of each node; nodes: the slice of each in the elements of all nodes, end to end; inputs:
    how many elements all PARAMs have together; elements: how many all nodes have."""

    __slots__ = ('records', 'nodes', 'inputs', 'elements', '_words', '_lent', '_params', '_bools')

    def __init__(self, data: Numbers) -> None:
        """Unpacks and checks the bytes of a packed plan."""
        self._settle(unpack(data))

    @classmethod
    def of_table(cls, table: Union[Plan, Numbers]) -> Plan:
        """Checks a table, 17 words a node; a Plan is given back as it is. The table is copied: what happens to it
        afterwards changes nothing."""
        if isinstance(table, Plan):
            return table
        plan = cls.__new__(cls)
        plan._settle(table)
        return plan

    def _settle(self, table: Numbers) -> None:
        self._words = array('q', _held(table, 'q', 'table').tobytes())
        self._lent = self._words.buffer_info()
        self.records = tuple(_derived(self._words))
        counts = [prod(record.extents) for record in self.records]
        ends = [0, *accumulate(counts)]
        self.nodes, self.elements = tuple(map(slice, ends, ends[1:])), ends[-1]
        params = [node for node in range(len(counts)) if self._words[NODE_WORDS * node] == PARAM]
        starts = [0, *accumulate(counts[node] for node in params)]
        self._params, self.inputs = tuple(zip(starts, params)), starts[-1]
        self._bools = all(self.records[node].dtype == BOOL for node in params)

    def __reduce__(self) -> tuple[Any, ...]:
        return type(self).of_table, (self._words,)

    def __repr__(self) -> str:
        return f'<Plan of {len(self.nodes)} nodes, {self.inputs} inputs and {self.elements} elements>'

    @property
    def table(self) -> Memory:
        """A copy of the table, 17 words a node."""
        return numpy.array(self._words) if numpy is not None else self._words[:]

    def run(self, values: Numbers, flags: Optional[Numbers] = None) -> Result:
        """Every element of every node, on the elements of all PARAMs end to end: flag 1 a known number, 0 a gap,
        whatever its value is. The values may be a masked array, which has its own flags."""
        held, known = _inputs(values, flags, self._bools)
        count = self.elements
        out_values, out_flags = _fresh('q', count), _fresh('B', count)
        answer = _LIBRARY.lup_run(*self._lent, *_lent(held), *_lent(known), *_lent(out_values), *_lent(out_flags))
        if answer.number:
            raise self._refused_run(answer.number, answer.place, held, known)
        return Result(out_values, out_flags, self.nodes, answer.count, self.records)

    def lookup(self, node: int, element: int) -> Optional[Place]:
        """The place that an element of a node comes from; None where it is a gap that a PAD put there."""
        node, element = _whole(node, 'node'), _whole(element, 'element')
        if not (0 <= node < 2 ** 64 and 0 <= element < 2 ** 64):
            raise self._refused_lookup(17, 0, node, element)
        found = _LIBRARY.lup_lookup(*self._lent, node, element)
        if found.number:
            raise self._refused_lookup(found.number, found.place, node, element)
        return Place(found.node, found.element) if found.found == 1 else None

    def _refused_run(self, number: int, place: int, values: Memory, flags: Memory) -> Refused:
        if number == 13:
            return Refused(number, place, '', f'{len(values)} values and {len(flags)} flags, not {self.inputs}')
        if number not in (15, 16) or place >= self.inputs:
            return _refused_table(number, place, self._words)
        start, node = [pair for pair in self._params if pair[0] <= place][-1]
        record, element = self.records[node], place - start
        words = _place_text(record.extents, element)
        param = f'PARAM {self._words[NODE_WORDS * node + NUMBER_WORD]} (node {node}, input position {place})'
        found = f'{values[place]}, not {record.low}..{record.high}' if number == 16 else f'{flags[place]}'
        return Refused(number, place, f'element {element}{" (" + words + ")" if words else ""} of {param}', found)

    def _refused_lookup(self, number: int, place: int, node: int, element: int) -> Refused:
        last = len(self.records) - 1
        if not 0 <= node <= last:
            return Refused(number, place, '', f'no node {node}, the last is {last}')
        operation, most = _named(self._words[NODE_WORDS * node]), prod(self.records[node].extents) - 1
        return Refused(number, place, '', f'no element {element} in node {node} ({operation}), its last is {most}')


# ---------------------------------------------------- the calls of the header

def _derived(table: Memory) -> list[Record]:
    derived = array('q', (0,)) * (RECORD_WORDS * MOST_NODES)
    answer = _LIBRARY.lup_check(*_lent(table), *_lent(derived))
    if answer.number:
        raise _refused_table(answer.number, answer.place, table)
    nodes = range(len(table) // NODE_WORDS)
    rows = [derived[RECORD_WORDS * node:RECORD_WORDS * (node + 1)].tolist() for node in nodes]
    return [Record(*row[:4], tuple(extent for extent in row[4:] if extent)) for row in rows]


def version() -> int:
    """The version of the library that is loaded: 1000000 times the major number plus 1000 times the minor number
    plus the patch. That of this module, as text, is __version__."""
    return _LIBRARY.lup_version()


def unpack(data: Numbers) -> Memory:
    """The table of a packed plan of either edition, 17 words a node."""
    table, held = _fresh('q', NODE_WORDS * MOST_NODES), _held(data, 'B', 'data')
    answer = _LIBRARY.lup_unpack(*_lent(held), *_lent(table))
    if answer.number:
        raise Refused(answer.number, answer.place)
    return table[:NODE_WORDS * answer.count]


def pack(table: Union[Plan, Numbers]) -> bytes:
    """The packed bytes of a plan's table, which unpack gives back, in the edition that its operations ask for. Of the
    rules 1, 2 and 3 alone are asked, and that used words can be packed (25): a table that check refuses is packed
    too."""
    words = table._words if isinstance(table, Plan) else table
    held, room = _held(words, 'q', 'table'), _fresh('B', MOST_PACKED_BYTES)
    answer = _LIBRARY.lup_pack(*_lent(held), *_lent(room))
    if answer.number:
        raise _refused_table(answer.number, answer.place, held)
    return room[:answer.count].tobytes()


def check(table: Union[Plan, Numbers]) -> list[Record]:
    """What is derived of each node of a plan's table."""
    return list(Plan.of_table(table).records)


def unpack_check(data: Numbers) -> int:
    """The node count of a packed plan that is accepted."""
    held = _held(data, 'B', 'data')
    answer = _LIBRARY.lup_unpack_check(*_lent(held))
    if answer < 65536:
        return answer
    number, place = divmod(answer, 65536)
    raise Refused(number, place) if number >= 20 else _refused_table(number, place, unpack(held))


def run(table: Union[Plan, Numbers], values: Numbers, flags: Optional[Numbers] = None) -> Result:
    """Plan.run of a table, or of a Plan."""
    return Plan.of_table(table).run(values, flags)


def lookup(table: Union[Plan, Numbers], node: int, element: int) -> Optional[Place]:
    """Plan.lookup in a table, or in a Plan."""
    return Plan.of_table(table).lookup(node, element)
