"""The rules of the specification in plain Python, written from the papers alone.

The quoted sentences are those of 01; (02) stands before those of 02. Whole
numbers are unbounded. A buffer is a list that a call changes in place; a
refusal leaves it as it was. A field is a dict from coordinates to a number,
or to None for a gap.
"""

from collections import namedtuple
from itertools import product
from math import prod

Answer = namedtuple('Answer', 'number place count')
Found = namedtuple('Found', 'number place found node element')
Record = namedtuple('Record', 'dtype device low high extents')

(CONST, PARAM, PERMUTE, FLIP, RESHAPE, EXPAND, PAD, SHRINK, CAST, ADD, MUL,
 MAX, IDIV, MOD, CMPLT, CMPNE, AND, OR, WHERE, REDUCE, LOAD, FILL, KNOWN, STACK) = range(24)
BINARY = (ADD, MUL, MAX, IDIV, MOD, CMPLT, CMPNE, AND, OR)
# (02) "Model people want three operations."
NEW = (FILL, KNOWN, STACK)

# "each of 17 signed 64-bit words"; "A plan is a table of 1 to 256 nodes"
NODE_WORDS = 17
MOST_NODES = 256
# "A shape row is rank extents of 1..1048576, then zeros."
LARGEST_EXTENT = 1048576
# "over 1048576 elements" and "all nodes together over 4194304 elements"
MOST_NODE_ELEMENTS = 1048576
MOST_PLAN_ELEMENTS = 4194304
# "reads up to 12288 bytes on standard input"
MOST_LISTING_BYTES = 12288
# (02) "whose used words lie in −17179869184..17179869183"
LEAST_WORD, GREATEST_WORD = -17179869184, 17179869183
# (02) "A second edition file starts with bytes 00 02"
SECOND_EDITION = [0x00, 0x02]
# (02) "source rank at most 3"
MOST_STACKED_RANK = 3

# "Types: 0 bool (0..1), 1 u8 (0..255), .. 3 i32 (−2147483648..2147483647)."
# (02) "The range of i16 becomes −32767..32767, wherever a type's range is asked for."
BOOL = 0
TYPE_LIMITS = {0: (0, 1), 1: (0, 255), 2: (-32767, 32767),
               3: (-2147483648, 2147483647)}

# "Which words an operation uses is a constant table indexed by its number."
# (02) "FILL (21, sources T and C ..", "KNOWN (22, one source)", "STACK (23, words 1,2,3,5)"
ROW_A, ROW_B = (9, 10, 11, 12), (13, 14, 15, 16)
USED_WORDS = (
    (4, 5), (4, 5, 6, 7, 8, *ROW_A),                    # CONST PARAM
    *[(1, *ROW_A)] * 4, *[(1, *ROW_A, *ROW_B)] * 2,     # PERMUTE to EXPAND, PAD SHRINK
    (1, 4), *[(1, 2)] * 9,                              # CAST, ADD to OR
    (1, 2, 3), (1, 5, *ROW_A), (1, 6),                  # WHERE REDUCE LOAD
    (1, 2), (1,), (1, 2, 3, 5))                         # FILL KNOWN STACK


# "1 to 3 sources"; (02) "number 2 or 3 of sources"; "rules 4 and 6 read word 3 only with
#  number 3"
def source_words(words):
    """Those of words 1 to 3 that name a source."""
    named = [w for w in (1, 2, 3) if w in USED_WORDS[words[0]]]
    return [1, 2] if words[0] == STACK and words[5] != 3 else named


class Node:
    """One node's words, seen with the records of the nodes before it."""

    # "Word 0 is the operation; 1 to 3 sources; 4 type; 5 number; 6 device;
    #  7 and 8 low and high; 9 to 12 row A; 13 to 16 row B."
    def __init__(self, words, earlier, params_before):
        self.words = list(words)
        self.earlier = earlier
        self.params_before = params_before
        self.op = self.words[0]
        self.row_a = self.words[9:13]
        self.row_b = self.words[13:17]

    def uses(self, word):
        return word in USED_WORDS[self.op]

    @property
    def sources(self):
        """Records of the sources; only after rule 4 has passed."""
        return [self.earlier[self.words[w]] for w in source_words(self.words)]


# ---------------------------------------------------------------- shapes

# "Rank is 0 to 4. A shape row is rank extents of 1..1048576, then zeros."
def extents_of_row(row):
    for rank in range(5):
        head, tail = row[:rank], row[rank:]
        if all(1 <= extent <= LARGEST_EXTENT for extent in head) and not any(tail):
            return tuple(head)
    return None


# "Binary and WHERE: right-aligned; each axis equal or 1; the larger wins."
def broadcast(shapes):
    rank = max(len(shape) for shape in shapes)
    aligned = [(1,) * (rank - len(shape)) + shape for shape in shapes]
    result = []
    for axis in range(rank):
        extents = {shape[axis] for shape in aligned}
        if len(extents - {1}) > 1:
            return None
        result.append(max(extents))
    return tuple(result)


# "PAD: same rank, offset o_k + s_k ≤ s'_k. SHRINK: same rank,
#  o_k + s'_k ≤ s_k. A is s', B is o."
def offsets_fit(inner, outer, offsets):
    if len(inner) != len(outer):
        return False
    return all(o + i <= e for o, i, e in zip(offsets, inner, outer))


# (02) "number 2 or 3 of sources joined on a new leading axis, all shapes .. equal,
#  source rank at most 3"
def stacked(shapes):
    if len(set(shapes)) > 1 or len(shapes[0]) > MOST_STACKED_RANK:
        return None
    return len(shapes), *shapes[0]


# "PERMUTE: result axis k is source axis A_k. FLIP: flag 1 reverses. RESHAPE:
#  equal element counts. EXPAND: same rank, s_k is 1 or s'_k."
# "REDUCE: flagged axes become 1; rank stays." (02) "FILL (21, .. broadcast)"
def result_extents(node):
    """The extents of the result, or None where the shapes disagree."""
    if node.op == CONST:
        return ()
    if node.op == PARAM:
        return extents_of_row(node.row_a)
    shapes = [source.extents for source in node.sources]
    if node.op in BINARY or node.op in (WHERE, FILL):
        return broadcast(shapes)
    if node.op == STACK:
        return stacked(shapes)
    source = shapes[0]
    if node.op == PERMUTE:
        return tuple(source[axis] for axis in node.row_a[:len(source)])
    if node.op == REDUCE:
        return tuple(1 if flag else s for s, flag in zip(source, node.row_a))
    if node.op in (FLIP, CAST, LOAD, KNOWN):
        return source
    wanted = extents_of_row(node.row_a)
    if node.op == RESHAPE:
        agree = prod(wanted) == prod(source)
    elif node.op == EXPAND:
        agree = len(wanted) == len(source) and all(
            s in (1, w) for s, w in zip(source, wanted))
    elif node.op == PAD:
        agree = offsets_fit(source, wanted, node.row_b)
    else:
        agree = offsets_fit(wanted, source, node.row_b)
    return wanted if agree else None


# "Elements are numbered row-major."
def element_at(coordinates, extents):
    element = 0
    for coordinate, extent in zip(coordinates, extents):
        element = element * extent + coordinate
    return element


def coordinates_at(element, extents):
    coordinates = []
    for extent in reversed(extents):
        element, coordinate = divmod(element, extent)
        coordinates.insert(0, coordinate)
    return tuple(coordinates)


def all_coordinates(extents):
    return list(product(*(range(extent) for extent in extents)))


# ------------------------------------------- type, device and bounds

# The column "dtype of result" of the table of operations. (02) "KNOWN (22, one
#  source): bool"
def result_dtype(node):
    if node.uses(4):
        return node.words[4]
    if node.op in (CMPLT, CMPNE, AND, OR, KNOWN):
        return BOOL
    return node.sources[1 if node.op == WHERE else 0].dtype


# "CONST has device 0. PARAM and LOAD name theirs, 1..255. Others take the one
#  non-zero device of their sources, or 0; two different ones are refused."
# (02) "All three carry devices as binary operations do"
def result_devices(node):
    """The set of devices that meet in the node, without NULL."""
    if node.uses(6):
        return {node.words[6]}
    return {source.device for source in node.sources} - {0}


# "ADD [a+b,A+B]; MUL least and greatest of four products; MAX
#  [max(a,b),max(A,B)]; IDIV least and greatest of four floored corner
#  quotients; MOD [0,B−1] for b>0, [b+1,0] for B<0; AND [min(a,b),min(A,B)],
#  OR [max(a,b),max(A,B)]" "CMPLT is [1,1] if A<b, [0,0] if a≥B, else [0,1].
#  CMPNE is [1,1] if the two are disjoint, [0,0] if all four ends are equal,
#  else [0,1]."
def binary_interval(op, first, second):
    a, A = first.low, first.high
    b, B = second.low, second.high
    if op == ADD:
        return a + b, A + B
    if op in (MUL, IDIV):
        corners = [x * y if op == MUL else x // y for x in (a, A) for y in (b, B)]
        return min(corners), max(corners)
    if op in (MAX, OR):
        return max(a, b), max(A, B)
    if op == AND:
        return min(a, b), min(A, B)
    if op == MOD:
        return (0, B - 1) if b > 0 else (b + 1, 0)
    if op == CMPLT:
        always, never = A < b, a >= B
    else:
        always, never = A < b or B < a, a == A == b == B
    return (1, 1) if always else (0, 0) if never else (0, 1)


# "CONST [v,v]; PARAM [low,high]; movement (2–7) and LOAD, the source's"
# "WHERE [min(b,c),max(B,C)]; CAST the source's." "REDUCE sum over n elements
#  [n·a,n·A]; max, the source's. n is the product of flagged extents, 1 if none."
# (02) FILL "bounds least low and greatest high"; KNOWN "bounds [0,1]"; STACK "bounds
#  least and greatest"
def result_interval(node):
    if node.op == CONST:
        return node.words[5], node.words[5]
    if node.op == PARAM:
        return node.words[7], node.words[8]
    if node.op in BINARY:
        return binary_interval(node.op, *node.sources)
    if node.op == WHERE:
        _, second, third = node.sources
        return min(second.low, third.low), max(second.high, third.high)
    if node.op in (FILL, STACK):
        return min(s.low for s in node.sources), max(s.high for s in node.sources)
    if node.op == KNOWN:
        return 0, 1
    source = node.sources[0]
    if node.op == REDUCE and node.words[5] == 0:
        n = prod(s for s, flag in zip(source.extents, node.row_a) if flag)
        return n * source.low, n * source.high
    return source.low, source.high


# ------------------------------------- rules 2 to 11: True where broken

# 2 "operation not 0..20"; (02) "in 01's rule 2 .. the limit is 23"
def operation_unknown(node):
    return not 0 <= node.op <= STACK


# 3 "unused word not zero"
def unused_word_set(node):
    return any(node.words[w] != 0 for w in range(1, NODE_WORDS) if not node.uses(w))


# 4 "source negative or not earlier"
def source_not_earlier(node):
    return any(not 0 <= node.words[w] < len(node.earlier)
               for w in source_words(node.words))


# 5 "word 4 used and not 0..3"
def dtype_unknown(node):
    return node.uses(4) and node.words[4] not in TYPE_LIMITS


# 6 "type rule broken (operands differ, bool misplaced, WHERE condition not bool)"
# (02) FILL "same type"; STACK "all shapes and types equal"
def dtypes_wrong(node):
    dtypes = [source.dtype for source in node.sources]
    if node.op == WHERE:
        return dtypes[0] != BOOL or dtypes[1] != dtypes[2]
    if node.op in (AND, OR):
        return dtypes != [BOOL, BOOL]
    if node.op in (CMPNE, FILL, STACK):
        return len(set(dtypes)) > 1
    if node.op in BINARY:
        return dtypes[0] != dtypes[1] or BOOL in dtypes
    return node.op == REDUCE and dtypes[0] == BOOL


# 7 "the k-th PARAM from zero has slot (word 5) k ≤ 15 and low ≤ high; a device
#  used is 1..255; REDUCE's number is 0 or 1" "shape rows as above"
# (02) "STACK's number, or a word 3 not zero with number 2, is 7"
def row_or_number_wrong(node):
    slot = number = node.words[5]
    if node.op == PARAM:
        if slot != node.params_before or slot > 15:
            return True
        if node.words[7] > node.words[8]:
            return True
    if node.uses(6) and not 1 <= node.words[6] <= 255:
        return True
    if node.op == REDUCE and number not in (0, 1):
        return True
    if node.op == STACK and (number not in (2, 3) or (number == 2 and node.words[3] != 0)):
        return True
    if node.op in (PARAM, RESHAPE, EXPAND, PAD, SHRINK):
        if extents_of_row(node.row_a) is None:
            return True
    return row_by_source_wrong(node)


# 7 "PERMUTE's row is 0..rank−1 once each, FLIP's and REDUCE's are flags, B holds
#  0..1048576 over the source's rank; all with zeros after"
def row_by_source_wrong(node):
    if node.op not in (PERMUTE, FLIP, REDUCE, PAD, SHRINK):
        return False
    rank = len(node.sources[0].extents)
    row = node.row_b if node.op in (PAD, SHRINK) else node.row_a
    head, tail = row[:rank], row[rank:]
    if any(tail):
        return True
    if node.op == PERMUTE:
        return sorted(head) != list(range(rank))
    greatest = 1 if node.op in (FLIP, REDUCE) else LARGEST_EXTENT
    return any(not 0 <= word <= greatest for word in head)


# 8 "shapes disagree, or over 1048576 elements"; (02) STACK's "shapes and rank 8"
def shapes_disagree(node):
    extents = result_extents(node)
    return extents is None or prod(extents) > MOST_NODE_ELEMENTS


# 9 "two devices"
def devices_differ(node):
    return len(result_devices(node)) > 1


# 10 "divisor bounds contain 0"
def divisor_may_be_zero(node):
    if node.op not in (IDIV, MOD):
        return False
    divisor = node.sources[1]
    return divisor.low <= 0 <= divisor.high


# 11 "bounds leave the type"; "A CONST number or PARAM limit outside its type is 11."
def bounds_leave_type(node):
    least, greatest = TYPE_LIMITS[result_dtype(node)]
    low, high = result_interval(node)
    return low < least or high > greatest


# "nodes in turn, within a node 2 to 11 by number"
NODE_RULES = (
    (2, operation_unknown), (3, unused_word_set), (4, source_not_earlier),
    (5, dtype_unknown), (6, dtypes_wrong), (7, row_or_number_wrong),
    (8, shapes_disagree), (9, devices_differ), (10, divisor_may_be_zero),
    (11, bounds_leave_type),
)


# 1 "length no multiple of 17, or not 1..256 nodes"
def length_wrong(table):
    nodes, rest = divmod(len(table), NODE_WORDS)
    return rest != 0 or not 1 <= nodes <= MOST_NODES


def node_words(table, position):
    return table[NODE_WORDS * position:NODE_WORDS * (position + 1)]


# "Order: 1; nodes in turn, within a node 2 to 11 by number; 12"
def verdict(table):
    """(0, records) of an accepted table, (number, place) of a refused one."""
    if length_wrong(table):
        return 1, 0
    records = []
    params = 0
    for position in range(len(table) // NODE_WORDS):
        node = Node(node_words(table, position), records, params)
        for number, broken in NODE_RULES:
            if broken(node):
                return number, position
        device = max(result_devices(node), default=0)
        records.append(Record(result_dtype(node), device, *result_interval(node),
                              result_extents(node)))
        params += node.op == PARAM
    if sum(prod(record.extents) for record in records) > MOST_PLAN_ELEMENTS:
        return 12, 0
    return 0, records


# ----------------------------------------------------------------- check

# "A check writes eight words a node: type, device, low, high, four extents
#  (zeros past the rank)." "A check skips 13, 15, 16."
def check(table, derived):
    number, rest = verdict(table)
    if number:
        return Answer(number, rest, 0)
    words = []
    for record in rest:
        zeros = (0,) * (4 - len(record.extents))
        words += [*record[:4], *record.extents, *zeros]
    if len(derived) < len(words):
        return Answer(14, 0, 0)
    derived[:len(words)] = words
    return Answer(0, 0, 0)


# ---------------------------------------------------------------- values

# "PERMUTE: result axis k is source axis A_k. FLIP: flag 1 reverses."
# "PAD's new cells are gaps."
def source_coordinates(words, coordinates, extents, source_extents):
    """Where a result of 2–7 or 20 comes from in its source; None for a gap."""
    op, row_a, row_b = words[0], words[9:13], words[13:17]
    if op == RESHAPE:
        return coordinates_at(element_at(coordinates, extents), source_extents)
    origin = list(coordinates)
    for axis, c in enumerate(coordinates):
        if op == PERMUTE:
            origin[row_a[axis]] = c
        elif op == FLIP and row_a[axis] == 1:
            origin[axis] = source_extents[axis] - 1 - c
        elif op == EXPAND and source_extents[axis] == 1:
            origin[axis] = 0
        elif op == PAD:
            origin[axis] = c - row_b[axis]
            if not 0 <= origin[axis] < source_extents[axis]:
                return None
        elif op == SHRINK:
            origin[axis] = c + row_b[axis]
    return tuple(origin)


# "right-aligned; each axis equal or 1"
def operand_at(field, coordinates, extents):
    own = coordinates[len(coordinates) - len(extents):]
    return field[tuple(0 if e == 1 else c for c, e in zip(own, extents))]


# "IDIV is the floor of a/b and MOD is a − b·floor(a/b)"
# "A binary result is a gap if either side is"
def binary_value(op, a, b):
    if a is None or b is None:
        return None
    if op == ADD:
        return a + b
    if op == MUL:
        return a * b
    if op in (MAX, OR):
        return max(a, b)
    if op == AND:
        return min(a, b)
    if op == IDIV:
        return a // b
    if op == MOD:
        return a - b * (a // b)
    return int(a < b) if op == CMPLT else int(a != b)


# "WHERE is a gap if the condition is one or the chosen side is."
def where_value(condition, second, third):
    if condition is None:
        return None
    return second if condition == 1 else third


# (02) "T where known, else C"
def fill_value(t, c):
    return c if t is None else t


# (02) "1 where the source is known, else 0, never a gap"
def known_value(value):
    return int(value is not None)


# (02) "sources joined on a new leading axis"
def stack_value(coordinates, sources):
    _, field = sources[coordinates[0]]
    return field[coordinates[1:]]


# "REDUCE if any element it gathers is." "(number 0 sum, 1 max)"
def reduce_value(words, coordinates, field):
    flags = words[9:13]
    gathered = [value for place, value in field.items()
                if all(flag or p == c
                       for flag, p, c in zip(flags, place, coordinates))]
    if None in gathered:
        return None
    return sum(gathered) if words[5] == 0 else max(gathered)


# "All other operations carry gaps along. CAST and LOAD keep numbers."
def element_value(words, coordinates, extents, sources):
    """One element; sources are the pairs (extents, field) of the sources."""
    op = words[0]
    if op == CONST:
        return words[5]
    if op in BINARY or op in (WHERE, FILL):
        operands = [operand_at(field, coordinates, own) for own, field in sources]
        if op == FILL:
            return fill_value(*operands)
        return where_value(*operands) if op == WHERE else binary_value(op, *operands)
    if op == STACK:
        return stack_value(coordinates, sources)
    own, field = sources[0]
    if op == KNOWN:
        return known_value(field[coordinates])
    if op == REDUCE:
        return reduce_value(words, coordinates, field)
    if op == CAST:
        return field[coordinates]
    origin = source_coordinates(words, coordinates, extents, own)
    return None if origin is None else field[origin]


# ------------------------------------------------------------------- run

# "15 and 16 at the first bad position, 15 before 16"
def input_refusal(params, values, flags):
    """(number, position) of the first bad input, or (0, 0)."""
    limits = [record for record in params for _ in range(prod(record.extents))]
    for position, (record, value, flag) in enumerate(zip(limits, values, flags)):
        if flag not in (0, 1):
            return 15, position
        if flag == 1 and not record.low <= value <= record.high:
            return 16, position
    return 0, 0


# "A run takes values (i64) and flags (u8, 1 known, 0 gap) of all PARAMs end to
#  end in node order, and writes all nodes' elements end to end"
def all_fields(table, records, values, flags):
    inputs = iter([v if flag == 1 else None for v, flag in zip(values, flags)])
    fields = []
    for position, record in enumerate(records):
        words = node_words(table, position)
        numbers = [words[w] for w in source_words(words)]
        sources = [(records[n].extents, fields[n]) for n in numbers]
        fields.append({
            place: next(inputs) if words[0] == PARAM
            else element_value(words, place, record.extents, sources)
            for place in all_coordinates(record.extents)})
    return fields


# "then 13, 14; then 15 and 16" "A gap is written as value 0, flag 0. Buffer
#  places past what any call writes stay as they were. The answer carries the
#  number of gaps in the output node."
def run(table, values, flags, out_values, out_flags):
    number, rest = verdict(table)
    if number:
        return Answer(number, rest, 0)
    params = [record for position, record in enumerate(rest)
              if table[NODE_WORDS * position] == PARAM]
    wanted = sum(prod(record.extents) for record in params)
    if len(values) != wanted or len(flags) != wanted:
        return Answer(13, 0, 0)
    total = sum(prod(record.extents) for record in rest)
    if len(out_values) < total or len(out_flags) < total:
        return Answer(14, 0, 0)
    number, position = input_refusal(params, values, flags)
    if number:
        return Answer(number, position, 0)
    fields = all_fields(table, rest, values, flags)
    elements = [value for field in fields for value in field.values()]
    out_values[:total] = [0 if value is None else value for value in elements]
    out_flags[:total] = [0 if value is None else 1 for value in elements]
    return Answer(0, 0, list(fields[-1].values()).count(None))


# ---------------------------------------------------------------- lookup

# "A lookup takes a plan, a node and an element, and follows nodes 2–7 and 20
#  back, the source always being an earlier node, to the first other node: its
#  answer is either a place (node with element) or a gap." "A lookup gives 17
#  after 12." (02) "lookups stop at them"
def lookup(table, node, element):
    number, rest = verdict(table)
    if number:
        return Found(number, rest, 0, 0, 0)
    if not 0 <= node < len(rest) or not 0 <= element < prod(rest[node].extents):
        return Found(17, 0, 0, 0, 0)
    words = node_words(table, node)
    while PERMUTE <= words[0] <= SHRINK or words[0] == LOAD:
        source = words[1]
        extents, source_extents = rest[node].extents, rest[source].extents
        origin = source_coordinates(words, coordinates_at(element, extents),
                                    extents, source_extents)
        if origin is None:
            return Found(0, 0, 2, 0, 0)
        node, element = source, element_at(origin, source_extents)
        words = node_words(table, node)
    return Found(0, 0, 1, node, element)


# ---------------------------------------------------------- packed plans

class Refused(Exception):
    """Raised with a number and a place while bytes are read."""


# "Numbers are written in groups of seven bits, lowest first, the high bit of a
#  byte set when more follow, shortest form, at most 5 bytes."
def read_number(data, first):
    """The number that starts at byte first, and the byte after it."""
    value = 0
    for group in range(5):
        if first + group >= len(data):
            raise Refused(20, first)
        byte = data[first + group]
        value += (byte % 128) * 128 ** group
        if byte < 128:
            if group > 0 and byte == 0:
                raise Refused(21, first)
            return value, first + group + 1
    raise Refused(21, first)


# "other words n are written as 2n, or −2n−1 below zero"
def word_of(written):
    return written // 2 if written % 2 == 0 else -(written + 1) // 2


# (02) "A second edition file starts with bytes 00 02, then count and nodes as
#  before"; "a leading 00 not followed by 02 is 23"; "First edition readers keep
#  refusing 23 and 24"; "for second edition files, rule 24 the limit is 23"
def read_edition(data):
    """The file's highest operation, and the first byte of its count."""
    start = list(data[:2])
    if start[:1] != SECOND_EDITION[:1]:
        return LOAD, 0
    if start != SECOND_EDITION:
        raise Refused(23, 0)
    return STACK, len(SECOND_EDITION)


# "A packed plan is the node count, then for each node its operation and its used
#  words in rising order." "Unpacking makes the 17-word table with zeros elsewhere."
def read_node(data, first, highest):
    op, position = read_number(data, first)
    if op > highest:
        raise Refused(24, first)
    words = [op] + [0] * (NODE_WORDS - 1)
    for word in USED_WORDS[op]:
        written, position = read_number(data, position)
        words[word] = word_of(written)
    return words, position


def holds_new(table):
    return any(op in NEW for op in table[::NODE_WORDS])


# "Unpacking: count (20, 21, 23), 14 for the table's room, numbers in byte order,
#  22 last." "unpacking also answers the node count" (02) "26 for a second edition
#  file with no new operation, after 22"
def unpack(data, table):
    try:
        highest, start = read_edition(data)
        count, position = read_number(data, start)
        if not 1 <= count <= MOST_NODES:
            raise Refused(23, 0)
        if len(table) < NODE_WORDS * count:
            raise Refused(14, 0)
        words = []
        for _ in range(count):
            node, position = read_node(data, position, highest)
            words += node
        if position < len(data):
            raise Refused(22, position)
        if highest == STACK and not holds_new(words):
            raise Refused(26, 0)
    except Refused as refused:
        return Answer(*refused.args, 0)
    table[:len(words)] = words
    return Answer(0, 0, count)


# (02) "whose used words lie in −17179869184..17179869183"; "25 for a word outside
#  that range (place: node)"
def word_out_of_range(node):
    return any(node.uses(w) and not LEAST_WORD <= node.words[w] <= GREATEST_WORD
               for w in range(1, NODE_WORDS))


# (02) "Refusals: 1; nodes in turn, 2, 3, then 25 for a word outside that range"
PACK_RULES = ((2, operation_unknown), (3, unused_word_set), (25, word_out_of_range))


def pack_refusal(table):
    """(number, place) of the first rule that keeps a table from being packed, or (0, 0)."""
    if length_wrong(table):
        return 1, 0
    for position in range(len(table) // NODE_WORDS):
        node = Node(node_words(table, position), [], 0)
        for number, broken in PACK_RULES:
            if broken(node):
                return number, position
    return 0, 0


# "Numbers are written in groups of seven bits, lowest first, the high bit of a
#  byte set when more follow, shortest form"
def written_number(number):
    groups = [number % 128]
    while number >= 128:
        number //= 128
        groups.append(number % 128)
    return [group + 128 for group in groups[:-1]] + groups[-1:]


# "other words n are written as 2n, or −2n−1 below zero"
def number_of(word):
    return 2 * word if word >= 0 else -2 * word - 1


# "for each node its operation and its used words in rising order. Count and
#  operation are plain"
def written_node(words):
    data = written_number(words[0])
    for word in USED_WORDS[words[0]]:
        data += written_number(number_of(words[word]))
    return data


# "A packed plan is the node count, then for each node .." (02) "a table in, packed
#  bytes out." "The answer carries the length written." "then 14 for room"; "The
#  writer picks the edition."
def pack(table, buffer):
    number, place = pack_refusal(table)
    if number:
        return Answer(number, place, 0)
    count = len(table) // NODE_WORDS
    data = (SECOND_EDITION if holds_new(table) else []) + written_number(count)
    for position in range(count):
        data += written_node(node_words(table, position))
    if len(buffer) < len(data):
        return Answer(14, 0, 0)
    buffer[:len(data)] = data
    return Answer(0, 0, len(data))


# "hands the packed bytes over, for unpack and check in one call" "The program and
#  the C call work on 256 node records at most."
def unpack_and_verdict(data):
    """(0, table, records) or (number, place, None)."""
    table = [0] * (NODE_WORDS * MOST_NODES)
    answer = unpack(data, table)
    if answer.number:
        return answer.number, answer.place, None
    table = table[:NODE_WORDS * answer.count]
    number, rest = verdict(table)
    return (number, rest, None) if number else (0, table, rest)


# "the answer is the node count or, refused, 65536 times the number plus the place"
def unpack_check(data):
    number, place, records = unpack_and_verdict(data)
    return 65536 * number + place if number else len(records)


# "A small program reads up to 12288 bytes on standard input and lists" "Extents
#  are joined by x; the last line has the node count; each line ends in a line
#  feed. A refusal writes only `refused N at P`."
def listing(data):
    number, rest, records = unpack_and_verdict(data[:MOST_LISTING_BYTES])
    if number:
        return f'refused {number} at {rest}\n'.encode()
    lines = ['node op dtype device low high shape']
    for position, record in enumerate(records):
        op = rest[NODE_WORDS * position]
        shape = 'x'.join(map(str, record.extents)) or '-'
        lines.append(f'{position} {op} {record.dtype} {record.device} '
                     f'{record.low} {record.high} {shape}')
    lines.append(f'accepted {len(records)}')
    return ''.join(line + '\n' for line in lines).encode()
