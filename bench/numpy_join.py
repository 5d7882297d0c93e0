"""The joining plan by the library and by numpy.ma in int64, in one process and on the same input.

Takes the file that `run write FILE` makes and the shared library. Every node's cells are
compared first. numpy tests the input and keeps every node, as the library does; it does not
check the plan, and its nodes stay where it puts them.
"""

import sys
from ctypes import CDLL, Structure, c_size_t, c_uint64, c_void_p
from time import perf_counter

try:
    import numpy as np
except ImportError:
    sys.exit('bench: this Python has no numpy; Debian has it as python3-numpy')

WORDS = 17
ROUNDS = 4
REPEATS = 16
GOAL = 5
CONST, PARAM, PAD, WHERE, REDUCE = 0, 1, 6, 18, 19
BINARY = {9: np.ma.add, 12: np.ma.floor_divide, 13: np.ma.mod, 14: np.ma.less,
          15: np.ma.not_equal}


class Answer(Structure):
    _fields_ = [('number', c_uint64), ('place', c_uint64), ('count', c_uint64)]


def read_plan(name):
    """The table, a row a node, and the values and flags of the input."""
    with open(name, 'rb') as file:
        nodes, inputs = np.fromfile(file, np.uint64, 2).tolist()
        table = np.fromfile(file, np.int64, nodes * WORDS).reshape(nodes, WORDS)
        return table, np.fromfile(file, np.int64, inputs), np.fromfile(file, np.uint8, inputs)


def masked_params(rows, values, flags):
    """The PARAMs as masked arrays, in node order; flags and known numbers are tested."""
    params, first = [], 0
    for words in rows:
        if words[0] == PARAM:
            low, high, shape = words[7], words[8], tuple(words[9:11])
            part = slice(first, first + shape[0] * shape[1])
            mask = flags[part].reshape(shape) == 0
            params.append(np.ma.array(values[part].reshape(shape), mask=mask))
            if (flags[part] > 1).any() or ((params[-1] < low) | (params[-1] > high)).any():
                sys.exit('bench: joining plan: bad input')
            first = part.stop
    return params


def pad(source, shape, offsets):
    padded = np.ma.masked_all(shape, np.int64)
    padded[tuple(slice(o, o + e) for o, e in zip(offsets, source.shape))] = source
    return padded


def total(source, axis):
    """The sums along an axis, masked where any cell is: numpy.ma's own sum leaves gaps out."""
    mask = np.ma.getmaskarray(source).any(axis=axis, keepdims=True)
    return np.ma.array(source.data.sum(axis=axis, keepdims=True), mask=mask)


def node_cells(words, nodes, params):
    op, a, b, c = words[:4]
    if op == CONST:
        return np.int64(words[5])
    if op == PARAM:
        return params[words[5]]
    if op == PAD:
        return pad(nodes[a], tuple(words[9:11]), words[13:15])
    if op == WHERE:
        return np.ma.where(nodes[a], nodes[b], nodes[c])
    if op == REDUCE:
        return total(nodes[a], words[9:11].index(1))
    return BINARY[op](nodes[a], nodes[b])


def numpy_run(rows, values, flags):
    params, nodes = masked_params(rows, values, flags), []
    for words in rows:
        nodes.append(node_cells(words, nodes, params))
    return nodes


def load_run(name):
    run = CDLL(name).lup_run
    run.argtypes = [c_void_p, c_size_t] * 5
    run.restype = Answer
    return run


def buffer(array):
    return array.ctypes.data, array.size


def same(nodes, values, flags, gaps):
    """Whether the cells of all nodes, and the gaps of the last, are those of the library."""
    first = 0
    for cells in nodes:
        known = ~np.ma.getmaskarray(np.ma.asarray(cells)).ravel()
        numbers = np.ma.filled(np.ma.asarray(cells).astype(np.int64), 0).ravel()
        part = slice(first, first + known.size)
        if not (np.array_equal(numbers, values[part]) and np.array_equal(known, flags[part] == 1)):
            return False
        first = part.stop
    return first == values.size and gaps == np.count_nonzero(~known)


def best_times(*calls):
    """The least milliseconds of each call, several of one and then of the next: the first ones find the other's buffers in the caches."""
    best = [float('inf')] * len(calls)
    for k in list(range(len(calls))) * ROUNDS:
        for _ in range(REPEATS):
            start = perf_counter()
            calls[k]()
            best[k] = min(best[k], 1000 * (perf_counter() - start))
    return best


def main(plan_name, library_name):
    table, values, flags = read_plan(plan_name)
    rows, run = table.tolist(), load_run(library_name)
    nodes = numpy_run(rows, values, flags)
    cells = sum(np.size(node) for node in nodes)
    out_values, out_flags = np.ones(cells, np.int64), np.ones(cells, np.uint8)
    buffers = [x for array in (table, values, flags, out_values, out_flags) for x in buffer(array)]
    answer = run(*buffers)
    if answer.number or not same(nodes, out_values, out_flags, answer.count):
        sys.exit('bench: joining plan: library and numpy.ma differ')
    library, numpy = best_times(lambda: run(*buffers), lambda: numpy_run(rows, values, flags))
    missed = '' if numpy >= GOAL * library else ', missed'
    rounds = f'best of {ROUNDS * REPEATS}, milliseconds'
    print(f'\nthe joining plan and numpy.ma {np.__version__}, {rounds}\n')
    print('| library | numpy.ma | times faster | goal |\n|---|---|---|---|')
    print(f'| {library:.2f} | {numpy:.2f} | {numpy / library:.1f} | {GOAL}{missed} |')


if __name__ == '__main__':
    main(*sys.argv[1:])
