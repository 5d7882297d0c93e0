"""Self check of model.py and cases.py: python3 tests/model/test_model.py"""

import sys
import unittest
from math import prod

sys.dont_write_bytecode = True

import cases
import model
from cases import OPERATIONS, UNKNOWN, apply, const, move, node, pack, param, reduce_node, stack
from model import (ADD, AND, CAST, CMPLT, CMPNE, EXPAND, FILL, FLIP, IDIV, KNOWN, LOAD, MAX, MOD, MUL, OR,
                   PAD, PERMUTE, RESHAPE, SHRINK, STACK, WHERE, Answer, Found)

GAP = None
I32_LOW = -2147483648
LARGE = 1048576
TALLY = {'passed': 0, 'failed': 0}


class Compared(unittest.TestCase):
    def same(self, got, want, note=''):
        TALLY['passed' if got == want else 'failed'] += 1
        with self.subTest(note):
            self.assertEqual(got, want)

    def refused(self, table, number, place, note=''):
        derived = cases.fresh_words(8 * 256)
        answer = model.check(table, derived)
        self.same((answer, derived), (Answer(number, place, 0), cases.fresh_words(8 * 256)), note)

    def bounds(self, table, low, high, note=''):
        derived = [0] * 8 * 256
        answer = model.check(table, derived)
        last = 8 * (len(table) // 17 - 1)
        self.same((answer, derived[last + 2:last + 4]), (Answer(0, 0, 0), [low, high]), note)

    def values(self, table, inputs, want, note=''):
        """The output's elements of a run, GAP for a gap."""
        values = [999999 if v is GAP else v for v in inputs]
        flags = [int(v is not GAP) for v in inputs]
        out, known = [5] * 200, [5] * 200
        answer = model.run(table, values, flags, out, known)
        end = known.index(5) if 5 in known else 200
        first = end - len(want)
        cells = [v if f else GAP for v, f in zip(out[first:end], known[first:end])]
        under_gaps = {v for v, f in zip(out[:end], known) if f == 0} - {0}
        self.same((answer, cells, under_gaps, out[end:] + known[end:]),
                  (Answer(0, 0, want.count(GAP)), want, set(), [5] * (400 - 2 * end)), note)


def two(op, first, second, dtype=3):
    """A binary of two PARAMs without axes, of the given bounds."""
    return param(0, dtype, *first, ()) + param(1, dtype, *second, ()) + apply(op, 0, 1)


class WorkedExamples(Compared):
    """Every worked example of 01, the first as 02 changes it, the slips too."""

    def test_bounds(self):
        self.refused(param(0, 2, -16384, 16383, ()) + apply(ADD, 0, 0), 11, 1)
        self.bounds(param(0, 2, -16383, 16383, ()) + apply(ADD, 0, 0), -32766, 32766)
        self.refused(param(0, 2, -20000, 20000, ()) + apply(ADD, 0, 0), 11, 1)
        self.refused(param(0, 1, 0, 255, ()) + const(1, 2) + apply(MUL, 0, 1), 11, 2)
        self.bounds(param(0, 2, -4, 10, (3,)) + reduce_node(0, 0, (1,)), -12, 30)
        self.bounds(param(0, 2, -7, 7, ()) + const(2, 2) + apply(IDIV, 0, 1), -4, 3)
        self.refused(param(0, 3, I32_LOW, 0, ()) + const(3, -1) + apply(IDIV, 0, 1), 11, 2)
        self.bounds(two(MOD, (-9, 9), (-3, -2)), -2, 0)
        self.bounds(two(CMPLT, (4, 9), (0, 4)), 0, 0)

    def test_values(self):
        plan = param(0, 1, 0, 9, (2,)) + move(PAD, 0, (5,), (1,))
        self.values(plan, [7, 9], [GAP, 7, 9, GAP, GAP])
        self.values(plan + move(FLIP, 1, (1,)), [7, 9], [GAP, GAP, 9, 7, GAP])
        turned = param(0, 1, 0, 9, (2, 3)) + move(PERMUTE, 0, (1, 0))
        self.same(model.lookup(turned, 1, 3), Found(0, 0, 1, 0, 4))
        where = (param(0, 0, 0, 1, ()) + param(1, 1, 0, 9, ()) + param(2, 1, 0, 9, ())
                 + apply(WHERE, 0, 1, 2))
        self.values(where, [1, 4, GAP], [4])
        self.same(model.unpack(b'', []), Answer(20, 0, 0))
        self.bounds(param(0, 1, 0, 9, (2,)) + move(PAD, 0, (3,), (1,)), 0, 9)
        self.refused(param(0, 1, 0, 9, (2,)) + move(PAD, 0, (3,), (2,)), 8, 1)

    def test_bytes(self):
        data = bytes.fromhex('010004D804')
        table = cases.fresh_words(18)
        self.same(pack(const(2, 300)), data)
        self.same(model.unpack(data, table), Answer(0, 0, 1))
        self.same(table, const(2, 300) + [1017])
        text = b'node op dtype device low high shape\n0 0 2 0 5 5 -\naccepted 1\n'
        self.same(model.listing(bytes([1, 0, 4, 10])), text)
        self.same(model.listing(b''), b'refused 20 at 0\n')
        self.same(model.unpack_check(bytes([1, 0, 4, 10])), 1)
        self.same(model.unpack_check(bytes([1, 0, 8, 10])), 65536 * 5)
        self.same(max(1 + 5 * len(used) for used in model.USED_WORDS), 46)
        for extreme in (2 ** 34 - 1, -2 ** 34):
            longest = node(1, {w: extreme for w in model.USED_WORDS[1]}) * 256
            table = [7] * 4352
            self.same(len(pack(longest)), 11778)
            self.same(model.unpack(pack(longest), table), Answer(0, 0, 256))
            self.same(table, longest)
        full = pack(const(2, 5) * 256)
        self.same(model.listing(full + bytes(12288)), b'refused 22 at %d\n' % len(full))

    def test_slips(self):
        self.values(param(0, 1, 0, 9, (3,)) + reduce_node(0, 0, (1,)), [1, GAP, 3], [GAP])
        self.values(param(0, 1, 1, 3, (2,)), [GAP, 2], [GAP, 2], 'limits under a gap')
        self.bounds(two(MUL, (-3, 5), (-7, 2)), -35, 21)
        self.values(two(MOD, (-7, 7), (2, 2)), [-7, 2], [1])
        self.values(two(MOD, (-7, 7), (3, 3)), [-7, 3], [2])
        self.values(two(MOD, (-7, 7), (-3, -2)), [7, -3], [-2])
        self.values(two(IDIV, (-7, 7), (2, 2)), [-7, 2], [-4])
        self.values(two(IDIV, (-7, 7), (-3, -2)), [7, -3], [-3])
        out, known = [5, 5, 5], [5, 5, 5]
        answer = model.run(param(0, 1, 1, 3, (2,)), [2, 4], [1, 1], out, known)
        self.same((answer, out, known), (Answer(16, 1, 0), [5] * 3, [5] * 3))


class ExamplesBeyond(Compared):
    """The further examples: each, turned, is a wrong definition."""

    def test_movements(self):
        turned = param(0, 1, 0, 99, (2, 3, 4)) + move(PERMUTE, 0, (1, 2, 0))
        self.same(model.lookup(turned, 1, 1), Found(0, 0, 1, 0, 12))
        square = param(0, 1, 0, 9, (2, 3))
        source = [1, 2, 3, 4, 5, 6]
        self.values(square + move(PAD, 0, (3, 4), (1, 0)), source,
                    [GAP] * 4 + [1, 2, 3, GAP, 4, 5, 6, GAP])
        self.values(square + move(SHRINK, 0, (1, 2), (1, 1)), source, [5, 6])
        self.values(square + move(FLIP, 0, (0, 1)), source, [3, 2, 1, 6, 5, 4])
        self.values(square + move(FLIP, 0, (1, 0)), source, [4, 5, 6, 1, 2, 3])
        self.values(square + move(RESHAPE, 0, (3, 1, 2)), source, source)
        column = param(0, 1, 0, 9, (2, 1)) + move(EXPAND, 0, (2, 3))
        self.values(column, [8, GAP], [8, 8, 8, GAP, GAP, GAP])
        padded = square + move(PAD, 0, (3, 4), (1, 0))
        self.same(model.lookup(padded, 1, 3), Found(0, 0, 2, 0, 0))
        self.same(model.lookup(padded, 1, 10), Found(0, 0, 1, 0, 5))
        cast = square + node(CAST, {1: 0, 4: 2}) + node(LOAD, {1: 1, 6: 4})
        self.same(model.lookup(cast, 2, 5), Found(0, 0, 1, 1, 5))

    def test_computed(self):
        pair = param(0, 1, 0, 9, (2, 3)) + param(1, 1, 0, 90, (3,))
        self.values(pair + apply(ADD, 0, 1), [1, 2, 3, 4, 5, 6, 10, 20, 30],
                    [11, 22, 33, 14, 25, 36])
        square = param(0, 1, 0, 9, (2, 3))
        source = [1, 2, 3, 4, 5, 6]
        for number, flags, want in ((0, (1, 0), [5, 7, 9]), (0, (1, 1), [21]), (0, (0, 0), source),
                                    (1, (1, 0), [4, 5, 6]), (1, (0, 1), [3, 6])):
            self.values(square + reduce_node(0, number, flags), source, want)
        where = (param(0, 0, 0, 1, ()) + param(1, 1, 0, 9, (3,)) + param(2, 1, 0, 9, ())
                 + apply(WHERE, 0, 1, 2))
        self.values(where, [GAP, 1, 2, 3, 4], [GAP] * 3)
        self.values(where, [1, 1, GAP, 3, GAP], [1, GAP, 3])
        self.values(where, [0, GAP, GAP, GAP, 4], [4] * 3)
        self.values(two(AND, (0, 1), (0, 1), 0), [0, GAP], [GAP])
        self.values(two(OR, (0, 1), (0, 1), 0), [1, GAP], [GAP])
        self.values(two(MUL, (0, 1), (0, 1)), [0, GAP], [GAP])
        self.values(two(CMPNE, (0, 1), (0, 1), 0), [0, 1], [1])
        self.values(two(MAX, (-9, 9), (-9, 9)), [-3, -4], [-3])

    def test_bounds_as_printed(self):
        self.bounds(two(MOD, (3, 3), (5, 5)), 0, 4)
        self.bounds(two(CMPNE, (1, 2), (1, 2)), 0, 1)
        self.bounds(two(CMPNE, (2, 2), (2, 2)), 0, 0)
        self.bounds(two(CMPNE, (1, 2), (3, 4)), 1, 1)
        self.bounds(two(CMPLT, (1, 2), (3, 4)), 1, 1)
        self.bounds(two(CMPLT, (1, 3), (3, 4)), 0, 1)
        table = const(0, 1) + const(2, 4) + const(2, -9) + apply(WHERE, 0, 1, 2)
        self.bounds(table, -9, 4)

    def test_order_within_a_node(self):
        self.refused(param(0, 0, 0, 1, (2,)) + reduce_node(0, 5, (1,)), 6, 1)
        self.refused(two(IDIV, (I32_LOW, 0), (-1, 0)), 10, 2)
        one_axis = param(0, 1, 0, 9, (2,))
        self.refused(one_axis + move(PAD, 0, (4, 4), (1,)), 8, 1)
        self.refused(one_axis + move(PAD, 0, (4, 4), (1, 1)), 7, 1)
        self.refused(node(CAST, {1: 0, 4: 9}), 4, 0)

    def test_rules_of_nodes(self):
        self.refused(param(0, 1, 0, 9, (), 256), 7, 0)
        self.bounds(param(0, 1, 0, 9, (), 255), 0, 9)
        self.refused(param(16, 1, 0, 9, ()), 7, 0)
        sixteen = [w for slot in range(16) for w in param(slot, 1, 0, 9, ())]
        self.bounds(sixteen, 0, 9)
        self.refused(sixteen + param(16, 1, 0, 9, ()), 7, 16)
        self.bounds(const(1, 1) + param(0, 1, 0, 9, ()), 0, 9, 'slots count PARAMs')
        self.refused(const(1, 1) + param(1, 1, 0, 9, ()), 7, 1)
        self.refused(param(0, 1, 0, 9, (3,)) + move(EXPAND, 0, (1,)), 8, 1)
        self.refused(param(0, 1, 0, 9, (3,)) + move(EXPAND, 0, (3, 3)), 8, 1)
        self.refused(param(0, 1, 0, 9, ()) + param(1, 1, 0, 9, (), 2) + apply(ADD, 0, 1), 9, 2)
        self.refused(const(1, 1) + const(2, 1) + apply(ADD, 0, 1), 6, 2)
        self.refused(const(1, 1) + const(1, 1) + apply(WHERE, 0, 1, 1), 6, 2)

    def test_sizes(self):
        self.bounds(param(0, 1, 0, 9, (1024, 1024)), 0, 9)
        self.refused(param(0, 1, 0, 9, (17, 61681)), 8, 0, '1048577 elements')
        self.refused(param(0, 1, 0, 9, (LARGE + 1,)), 7, 0)
        self.refused(param(0, 1, 0, 9, (LARGE,) * 4), 8, 0)
        full = param(0, 1, 0, 9, (LARGE,)) + move(FLIP, 0, (1,)) * 3
        self.bounds(full, 0, 9)
        self.refused(full + const(1, 1), 12, 0)
        self.refused(full + const(1, 1) + node(99), 2, 5)
        self.same(model.run(full + const(1, 1), [], [], [], []), Answer(12, 0, 0))
        self.same(model.lookup(full + const(1, 1), 99, 0), Found(12, 0, 0, 0, 0))
        self.same(model.unpack_check(pack(full + const(1, 1))), 12 * 65536)

    def test_run_refusals(self):
        plan = param(0, 1, 0, 9, (2,)) + move(FLIP, 0, (1,))
        for values, flags, rooms, want in (
                ([1], [1, 1], (0, 0), (13, 0)), ([1, 1], [1], (9, 9), (13, 0)),
                ([1, 2, 3], [1, 1, 1], (9, 9), (13, 0)), ([1, 77], [1, 2], (3, 4), (14, 0)),
                ([1, 77], [1, 2], (4, 3), (14, 0)), ([1, 77], [1, 2], (4, 4), (15, 1)),
                ([77, 1], [1, 2], (4, 4), (16, 0)), ([1, 77], [2, 1], (4, 4), (15, 0)),
                ([1, 10], [1, 1], (4, 4), (16, 1)), ([-1, 3], [1, 1], (4, 4), (16, 0)),
                ([77, -77], [0, 0], (4, 4), (0, 0))):
            out = cases.fresh_words(rooms[0]), cases.fresh_flags(rooms[1])
            answer = model.run(plan, values, flags, *out)
            self.same(answer[:2], want, (values, flags, rooms))

    def test_other_refusals(self):
        self.same(model.check(const(1, 1), cases.fresh_words(7)), Answer(14, 0, 0))
        plan = param(0, 1, 0, 9, (2,))
        for at, element, number in ((0, 1, 0), (0, 2, 17), (1, 0, 17), (2 ** 64 - 1, 0, 17)):
            self.same(model.lookup(plan, at, element).number, number)
        for length in (0, 16, 18, 17 * 257):
            self.same(model.check((const(1, 1) * 257)[:length], []), Answer(1, 0, 0))

    def test_unpack_refusals(self):
        for text, room, want in (
                ('', 0, (20, 0)), ('80808080', 0, (20, 0)), ('8080808080', 0, (21, 0)),
                ('8000', 0, (21, 0)), ('00', 0, (23, 0)), ('8102', 9999, (23, 0)),
                ('8002', 4351, (14, 0)), ('8002', 4352, (20, 2)), ('0115', 16, (14, 0)),
                ('0115', 17, (24, 1)), ('01', 17, (20, 1)), ('0100', 17, (20, 2)),
                ('010004', 17, (20, 3)), ('01000480', 17, (20, 3)), ('0100040A00', 17, (22, 4)),
                ('0200040A00', 34, (20, 5)), ('0200040A8103', 34, (24, 4)),
                ('0200040A9500', 34, (21, 4)), ('01008080808080', 17, (21, 2)),
                ('010080808080', 17, (20, 2)), ('010004808000', 17, (21, 3)),
                ('0100040A1580', 17, (22, 4)), ('008200', 0, (23, 0))):
            table = cases.fresh_words(room)
            self.same(model.unpack(bytes.fromhex(text), table), Answer(*want, 0), text)
            self.same(table, cases.fresh_words(room), text)
            if want[0] != 14:
                answer = 65536 * want[0] + want[1]
                self.same(model.unpack_check(bytes.fromhex(text)), answer, text)


class NoReading(Compared):
    """02: "The buoys use −32768 for "no reading". The range of i16 becomes −32767..32767, wherever a
    type's range is asked for.\""""

    def test_numbers_and_limits(self):
        for number, due in ((-32768, 11), (-32767, 0), (32767, 0), (32768, 11)):
            self.same(model.verdict(const(2, number))[0], due, ('CONST', number))
            self.same(model.verdict(const(3, number))[0], 0, ('CONST of i32', number))
        self.refused(const(2, 5) + const(2, -32768), 11, 1)
        self.refused(param(0, 2, -32768, 32767, ()), 11, 0)
        self.refused(param(0, 2, -32768, -32768, ()), 11, 0)
        self.bounds(param(0, 2, -32767, 32767, ()), -32767, 32767)
        self.refused(param(0, 2, 0, -32768, ()), 7, 0, 'low above high comes first')

    def test_bounds(self):
        wide = param(0, 3, -32768, 0, ()), param(0, 3, -32767, 0, ())
        self.refused(wide[0] + node(CAST, {1: 0, 4: 2}), 11, 1)
        self.bounds(wide[1] + node(CAST, {1: 0, 4: 2}), -32767, 0)
        self.bounds(wide[0] + node(CAST, {1: 0, 4: 3}), -32768, 0)
        self.bounds(two(ADD, (-16384, 16383), (-16383, 16384), 2), -32767, 32767)
        self.refused(two(ADD, (-1, 0), (-32767, 0), 2), 11, 2)
        self.bounds(two(MUL, (-217, 217), (151, 151), 2), -32767, 32767)
        self.refused(two(MUL, (-256, 1), (1, 128), 2), 11, 2)
        self.bounds(param(0, 2, -4681, 4681, (7,)) + reduce_node(0, 0, (1,)), -32767, 32767)
        self.refused(param(0, 2, -4096, 0, (8,)) + reduce_node(0, 0, (1,)), 11, 1)
        self.bounds(two(IDIV, (-32767, 32767), (-1, -1), 2), -32767, 32767, 'no IDIV of i16 leaves it')
        self.bounds(two(MAX, (-32767, 32767), (-32767, -32767), 2), -32767, 32767)
        self.bounds(two(ADD, (-16384, 0), (-16384, 0)), -32768, 0, 'i32 has it')

    def runs(self, table, pairs, number, place, cells=None):
        """A run of pairs (value, flag): its answer, and the cells of all nodes where it is accepted."""
        out, known = [5] * 9, [5] * 9
        answer = model.run(table, *zip(*pairs), out, known)
        want = [] if cells is None else cells
        gaps = want[-len(pairs):].count(GAP)
        self.same((answer, out, known),
                  (Answer(number, place, gaps), [0 if v is GAP else v for v in want] + [5] * (9 - len(want)),
                   [int(v is not GAP) for v in want] + [5] * (9 - len(want))), pairs)

    def test_runs(self):
        whole = param(0, 2, -32767, 32767, (3,))
        flipped = whole + move(FLIP, 0, (1,))
        self.runs(whole, [(1, 1), (-32767, 1), (-32768, 1)], 16, 2)
        self.runs(whole, [(-32768, 1), (-32768, 1), (9, 2)], 16, 0)
        self.runs(whole, [(9, 2), (-32768, 1), (9, 1)], 15, 0)
        self.runs(whole, [(9, 1), (-32768, 2), (-32768, 1)], 15, 1)
        self.runs(whole, [(-32768, 0), (40000, 1), (-32768, 1)], 16, 1)
        for under in (-32768, -32767, 0):
            self.runs(flipped, [(7, 1), (under, 0), (9, 1)], 0, 0, [7, GAP, 9, 9, GAP, 7])
        self.runs(whole, [(-32768, 0)] * 3, 0, 0, [GAP] * 3)
        self.runs(whole, [(-32767, 1), (0, 1), (32767, 1)], 0, 0, [-32767, 0, 32767])
        self.runs(param(0, 2, -9, 9, (3,)), [(1, 1), (-32768, 1), (1, 1)], 16, 1)
        wide = param(0, 3, -32768, 0, (3,))
        doubled = [-32768, GAP, 0, -65536, GAP, 0]
        self.runs(wide + apply(ADD, 0, 0), [(-32768, 1), (-32768, 0), (0, 1)], 0, 0, doubled)
        self.runs(param(0, 3, -32767, 0, (3,)), [(0, 1), (-32768, 1), (0, 1)], 16, 1)
        both = param(0, 3, -32768, 0, ()) + param(1, 2, -32767, 0, (2,))
        self.runs(both, [(-32768, 1), (-32767, 1), (-32768, 1)], 16, 2)


def shown(text):
    """The bytes of a text in hex, as a list."""
    return list(bytes.fromhex(text))


class Files(Compared):
    """Plans against their bytes, in hex."""

    def packs(self, table, text, note=''):
        """The table packs into the bytes: exact, longer and one short."""
        data = shown(text)
        for room in (len(data), len(data) + 3, len(data) - 1):
            buffer = cases.fresh_flags(room)
            fits = room >= len(data)
            want = data + cases.fresh_flags(room)[len(data):] if fits else cases.fresh_flags(room)
            answer = model.pack(table, buffer)
            due = Answer(0, 0, len(data)) if fits else Answer(14, 0, 0)
            self.same((answer, buffer), (due, want), (note, room))

    def pack_refused(self, table, number, place, note=''):
        """The refusal, with room enough and with none: 14 is the last."""
        for room in (60, 0):
            buffer = cases.fresh_flags(room)
            answer = model.pack(table, buffer)
            self.same((answer, buffer), (Answer(number, place, 0), cases.fresh_flags(room)), (note, room))


class Packing(Files):
    """02: "Write packed plans too.\""""

    def test_printed(self):
        self.packs(const(2, 5), '01 00 04 0A')
        self.packs(const(2, 300), '01 00 04 D8 04')
        self.packs(node(model.PARAM, {4: 2, 6: 1, 7: -9, 8: 9, 9: 2}) + move(PAD, 0, (4,), (1,)),
                   '02 01 04 00 02 11 12 04 00 00 00 06 00 08 00 00 00 02 00 00 00')

    def test_words(self):
        for word, text in ((0, '00'), (-1, '01'), (1, '02'), (-2, '03'), (63, '7E'), (-64, '7F'),
                           (64, '80 01'), (-65, '81 01'),
                           (8191, 'FE 7F'), (-8192, 'FF 7F'), (8192, '80 80 01'), (-8193, '81 80 01'),
                           (1048575, 'FE FF 7F'), (1048576, '80 80 80 01'), (134217727, 'FE FF FF 7F'),
                           (134217728, '80 80 80 80 01'), (-2147483648, 'FF FF FF FF 0F'),
                           (17179869183, 'FE FF FF FF 7F'), (-17179869184, 'FF FF FF FF 7F')):
            self.packs(const(3, word), '01 00 06 ' + text, word)
        for word in (17179869184, -17179869185, 2 ** 63 - 1, -2 ** 63):
            self.pack_refused(const(3, word), 25, 0, word)
            self.pack_refused(const(2, 5) + node(LOAD, {1: word, 6: 1}), 25, 1, word)

    def test_plain_numbers(self):
        self.packs(node(LOAD, {6: 1}), '01 14 00 02', 'operation 20 is 14')
        self.packs(const(0, 0) * 128, '80 01' + '00 00 00' * 128, 'the count 128')
        self.packs(const(0, 0) * 256, '80 02' + '00 00 00' * 256, 'the count 256')

    def test_unchecked(self):
        self.packs(apply(ADD, 9, -1), '01 09 12 01', 'sources that are not earlier')
        self.packs(const(7, 5), '01 00 0E 0A', 'a type that is none')

    def test_order(self):
        self.pack_refused(node(UNKNOWN, {w: 2 ** 40 for w in range(1, 17)}), 2, 0, '2 before 3 and 25')
        self.pack_refused(node(0, {4: 2 ** 40, 9: 1}), 3, 0, '3 before 25, the used word first')
        self.pack_refused(node(9, {1: 1, 2: 2 ** 40, 3: 1}), 3, 0, '3 before 25, beside each other')
        self.pack_refused(node(20, {2: 1, 6: 2 ** 40}), 3, 0, '3 before 25, the unused word first')
        self.pack_refused(node(0, {1: 2 ** 40}), 3, 0, 'an unused word is 3 however large')
        self.pack_refused(const(2, 2 ** 40) + node(UNKNOWN), 25, 0, '25 of node 0 before 2 of node 1')
        self.pack_refused(const(2, 2 ** 40) + node(0, {1: 1}), 25, 0, '25 of node 0 before 3 of node 1')
        self.pack_refused(node(0, {1: 1}) + node(UNKNOWN), 3, 0, '3 of node 0 before 2 of node 1')
        self.pack_refused(const(2, 5) * 255 + node(-1), 2, 255, 'the last of 256 nodes')
        for length in (0, 1, 16, 18, 17 * 256 + 1, 17 * 257):
            self.pack_refused((node(UNKNOWN) + const(2, 2 ** 40) * 256)[:length], 1, 0, length)

    def test_longest(self):
        for extreme in (17179869183, -17179869184):
            table = node(model.PARAM, dict.fromkeys(model.USED_WORDS[model.PARAM], extreme)) * 256
            buffer = [0] * 11778
            self.same(model.pack(table, buffer), Answer(0, 0, 11778), '"256 nodes take at most 11778"')
            self.same(bytes(buffer), pack(table))
            self.same(model.pack(table, [0] * 11777), Answer(14, 0, 0))


class ThreeOperations(Compared):
    """02: "Model people want three operations.\""""

    def test_fill(self):
        fill = param(0, 2, -9, 9, (4,)) + param(1, 2, -9, 9, (4,)) + apply(FILL, 0, 1)
        self.values(fill, [3, 0, GAP, GAP, 4, 4, 4, GAP], [3, 0, 4, GAP])
        table = param(0, 2, 0, 9, (2, 2)) + param(1, 2, 10, 19, (2,)) + apply(FILL, 0, 1)
        self.values(table, [1, GAP, GAP, 4, 10, GAP], [1, GAP, 10, 4])
        self.values(table[:-17] + apply(FILL, 1, 0), [1, GAP, GAP, 4, 10, GAP], [10, GAP, 10, 4])
        self.bounds(table, 0, 19)
        self.bounds(const(2, -3) + const(2, 7) + apply(FILL, 1, 0), -3, 7)
        self.refused(const(2, 1) + const(3, 1) + apply(FILL, 0, 1), 6, 2)
        self.refused(param(0, 2, 0, 1, (2,)) + param(1, 2, 0, 1, (3,)) + apply(FILL, 0, 1), 8, 2)
        self.refused(param(0, 2, 0, 1, ()) + param(1, 2, 0, 1, (), 2) + apply(FILL, 0, 1), 9, 2)

    def test_known(self):
        self.values(param(0, 2, -9, 9, (3,)) + apply(KNOWN, 0), [0, GAP, -9], [1, 0, 1])
        self.values(param(0, 0, 0, 1, (2,)) + apply(KNOWN, 0), [0, GAP], [1, 0])
        for source in (const(2, 5), const(0, 1), param(0, 3, 5, 9, (2,))):
            self.bounds(source + apply(KNOWN, 0), 0, 1)
        self.same(model.verdict(param(0, 3, 5, 9, (2, 3), 7) + apply(KNOWN, 0))[1][1],
                  model.Record(model.BOOL, 7, 0, 1, (2, 3)))

    def test_stack(self):
        rows = param(0, 2, 0, 9, (2,)) + param(1, 2, 10, 19, (2,))
        self.values(rows + stack(1, 0), [1, GAP, 11, 12], [11, 12, 1, GAP])
        self.values(rows + stack(0, 1, 0), [1, GAP, 11, 12], [1, GAP, 11, 12, 1, GAP])
        self.bounds(rows + stack(1, 0), 0, 19)
        self.same(model.verdict(rows + stack(0, 1, 1))[1][2].extents, (3, 2))
        for rank in range(4):
            self.same(model.verdict(param(0, 2, 0, 9, (2,) * rank) + stack(0, 0))[1][1].extents,
                      (2,) * (rank + 1))
        self.refused(param(0, 2, 0, 9, (2,) * 4) + stack(0, 0), 8, 1)
        self.refused(param(0, 2, 0, 9, (1,)) + param(1, 2, 0, 9, (2,)) + stack(0, 1), 8, 2, 'no broadcast')
        self.bounds(param(0, 2, 0, 9, (512, 1024)) + stack(0, 0), 0, 9)
        self.refused(param(0, 2, 0, 9, (512, 1024)) + stack(0, 0, 0), 8, 1)

    def test_word_3(self):
        """"rules 4 and 6 read word 3 only with number 3\""""
        apart = param(0, 3, -99, 99, (4,), 9) + param(1, 2, -9, 1, (2,)) + param(2, 2, -1, 9, (2,))
        self.same(model.verdict(apart + stack(1, 2))[1][3], model.Record(2, 1, -9, 9, (2, 2)), 'not node 0')
        for number, word, due in ((2, 1, 7), (2, 99, 7), (2, -2 ** 63, 7), (3, 99, 4), (3, -1, 4), (3, 0, 6),
                                  (3, 2, 0), (0, 99, 7), (1, 0, 7), (4, 0, 7), (4, 2 ** 63 - 1, 7),
                                  (-2 ** 63, 0, 7)):
            found = model.verdict(apart + node(STACK, {1: 1, 2: 2, 3: word, 5: number}))
            self.same((found[0], found[1] if due else 0), (due, 3 if due else 0), (number, word))
        for first, second, due in ((9, 1, 4), (1, -1, 4), (0, 1, 6)):
            self.refused(apart + node(STACK, {1: first, 2: second, 3: 99, 5: 9}), due, 3, 'before 7')

    def test_lookups(self):
        pair = param(0, 2, 0, 9, (2,)) + move(FLIP, 0, (1,))
        for new in (apply(FILL, 1, 0), apply(KNOWN, 1), stack(1, 0)):
            turned = pair + new + node(LOAD, {1: 2, 6: 3})
            self.same(model.lookup(turned, 3, 1), Found(0, 0, 1, 2, 1))


class SecondEdition(Files):
    """02: "Second edition of the plan file.\""""

    def test_written(self):
        self.packs(const(2, 5) + apply(KNOWN, 0), '00 02 02 00 04 0A 16 00')
        self.packs(apply(FILL, 1, -2), '00 02 01 15 02 03')
        self.packs(node(STACK, {1: 1, 2: 2, 3: 3, 5: -4}), '00 02 01 17 02 04 06 07')
        self.packs(node(LOAD), '01 14 00 00', 'the last operation of the first edition')
        for number in (UNKNOWN, -1):
            self.pack_refused(apply(KNOWN, 0) + node(number), 2, 1, number)
        self.pack_refused(node(STACK, {3: 2 ** 40, 5: 2}), 25, 0, 'word 3 is a used word')

    def test_read(self):
        for text, room, want in (
                ('00', 0, (23, 0)), ('0000', 0, (23, 0)), ('0003011600', 40, (23, 0)),
                ('008200', 0, (23, 0)), ('0002', 0, (20, 2)), ('000281', 0, (20, 2)),
                ('00028100', 0, (21, 2)), ('000200', 0, (23, 0)), ('00028102', 0, (23, 0)),
                ('000201', 16, (14, 0)), ('000201', 17, (20, 3)), ('00020118', 17, (24, 3)),
                ('00020116', 17, (20, 4)), ('000201160000', 17, (22, 5)), ('00020100040A', 16, (14, 0)),
                ('00020100040A', 17, (26, 0)), ('00020100040A16', 17, (22, 6)), ('0002010004', 17, (20, 5)),
                ('0115', 17, (24, 1)), ('0116', 17, (24, 1)), ('0117', 17, (24, 1)),
                ('0200040A1600', 34, (24, 4))):
            table = cases.fresh_words(room)
            self.same(model.unpack(bytes.fromhex(text), table), Answer(*want, 0), text)
            self.same(table, cases.fresh_words(room), text)
        table = cases.fresh_words(18)
        self.same(model.unpack(bytes.fromhex('0002011602'), table), Answer(0, 0, 1))
        self.same(table, apply(KNOWN, 1) + [1017])

    def test_one_call(self):
        data = bytes.fromhex('00020200040A1600')
        self.same(model.unpack_check(data), 2)
        text = b'node op dtype device low high shape\n0 0 2 0 5 5 -\n1 22 0 0 0 1 -\naccepted 2\n'
        self.same(model.listing(data), text)
        self.same(model.listing(bytes.fromhex('00020100040A')), b'refused 26 at 0\n')

    def test_longest(self):
        """11778 bytes stay the limit of what the writer writes."""
        sizes = [1 + 5 * len(used) for used in model.USED_WORDS]
        self.same(2 + 2 + 255 * max(sizes) + max(sizes[op] for op in model.NEW), 11755)
        longest = [node(op, dict.fromkeys(model.USED_WORDS[op], -17179869184)) for op in (model.PARAM, STACK)]
        table = longest[0] * 255 + longest[1]
        self.same((len(pack(table)), model.pack(table, [0] * 11755).count), (11755, 11755))


def other_edition(data):
    """The same file with the other edition's start."""
    return data[2:] if data[:2] == bytes([0, 2]) else bytes([0, 2]) + data


def outcome(case):
    """The number, the count and the buffers of a case, whatever its call answers."""
    answer, buffers = cases.expected(case)
    if case.call == 'unpack_check':
        return answer // 65536, 0, buffers
    if case.call == 'listing':
        words = answer.split()
        return int(words[1]) if words[0] == b'refused' else 0, 0, buffers
    return answer.number, answer[2], buffers


class GeneratedCases(Compared):
    @classmethod
    def setUpClass(cls):
        cls.every = list(cases.all_cases(1))
        cls.outcomes = [(case, *outcome(case)) for case in cls.every]

    def test_counts(self):
        self.same(list(cases.all_cases(1)) == self.every, True, 'deterministic')
        self.same(list(cases.all_cases(2)) == self.every, False, 'seeded')
        self.same(2650 <= len(self.every) <= 2850, True, len(self.every))
        asked = {(case.call, repr(case.args)) for case in self.every}
        self.same(len(asked), len(self.every), 'no case twice')
        for call, least in (('check', 900), ('run', 250), ('unpack', 330), ('lookup', 150),
                            ('unpack_check', 180), ('listing', 25), ('pack', 550)):
            self.same(sum(c.call == call for c in self.every) >= least, True, call)
        for name in ('by hand', 'packs', 'second edition', 'short numbers'):
            count = cases.GROUPS[name][1]
            several = [list(cases.group(name, most, 1)) for most in (count, 10 * count)]
            self.same(several[0] == several[1], True, f'no case is left out: {name}')

    def test_every_number_is_reached(self):
        for call, numbers in (('check', (*range(13), 14)), ('run', (0, 2, 12, 13, 14, 15, 16)),
                              ('lookup', (0, 12, 17)), ('unpack', (0, 14, *range(20, 25), 26)),
                              ('unpack_check', (0, 12, *range(20, 25), 26)), ('listing', (0, 20, 26)),
                              ('pack', (0, 1, 2, 3, 14, 25))):
            reached = {number for case, number, _, _ in self.outcomes if case.call == call}
            self.same(set(numbers) - reached, set(), call)
        lookups = [c for c in self.every if c.call == 'lookup']
        self.same({model.lookup(*c.args).found for c in lookups}, {0, 1, 2})

    def test_accepted_runs(self):
        accepted = [case for case, number, _, _ in self.outcomes
                    if case.call == 'run' and number == 0]
        self.same({op for c in accepted for op in c.args[0][::17]}, set(range(OPERATIONS)))
        totals = []
        for case in accepted:
            _, records = model.verdict(case.args[0])
            totals.append(sum(prod(r.extents) for r in records))
            self.same(len(records) <= 12 and totals[-1] <= 200, True, case.note)
            self.run_agrees(case, records)
        self.same(sum(t <= 40 for t in totals) > len(totals) / 2, True)
        ranks = {len(r.extents) for c in accepted for r in model.verdict(c.args[0])[1]}
        self.same(ranks, set(range(5)))

    def run_agrees(self, case, records):
        """Values lie in their bounds; a lookup tells the value of its place."""
        table = case.args[0]
        _, (values, flags) = cases.expected(case)
        starts = [sum(prod(r.extents) for r in records[:k]) for k in range(len(records))]
        wrong = []
        for k, record in enumerate(records):
            for element in range(prod(record.extents)):
                at = starts[k] + element
                inside = record.low <= values[at] <= record.high
                found = model.lookup(table, k, element)
                origin = starts[found.node] + found.element
                want = (0, 0) if found.found == 2 else (values[origin], flags[origin])
                if (values[at], flags[at]) != want or not (inside or flags[at] == 0):
                    wrong.append((k, element))
        self.same(wrong, [], case.note)

    def test_refusals_write_nothing(self):
        for case, number, third, buffers in self.outcomes:
            if number:
                self.same((third, buffers), (0, cases.fresh_buffers(case)), case.note)

    def test_rule_pairs(self):
        for op, (base, _) in cases.DRAFTS.items():
            self.same(model.verdict(cases.draft(op, base))[0], 0, op)
            for rule, change in cases.breaks_of(op):
                number, _ = model.verdict(cases.draft(op, base, change))
                self.same(number, rule, (op, change))
            for first, second, table in cases.broken_pairs(op):
                place = len(table) // 17 - 1
                self.same(model.verdict(table), (first, place), (op, first, second))
        pairs = {(r, s) for r in range(2, 12) for s in range(r + 1, 12)}
        reached = {(r, s) for op in cases.DRAFTS for r, s, _ in cases.broken_pairs(op)}
        self.same(pairs - reached, {(5, 6), (5, 9), (5, 10), (7, 10)})

    def test_round_trips(self):
        """(02) "Reading what it wrote gives the table back; writing what was read gives the same
        bytes.\""""
        for case in self.every:
            if case.call == 'pack':
                data, table = [0] * 11778, [0] * len(case.args[0])
                answer = model.pack(case.args[0], data)
                if answer.number == 0:
                    read = model.unpack(bytes(data[:answer.count]), table)
                    self.same((read, table), (Answer(0, 0, len(table) // 17), case.args[0]), case.note)
            if case.call == 'unpack':
                table, data = [0] * 4352, [0] * 11778
                answer = model.unpack(case.args[0], table)
                if answer.number == 0:
                    written = model.pack(table[:17 * answer.count], data)
                    self.same(bytes(data[:written.count]), bytes(case.args[0]), case.note)

    def test_one_file(self):
        """(02) "each plan still has one file": as one of the other edition it is refused."""
        for case in self.every:
            data = case.args[0] if case.call in ('unpack', 'unpack_check') else b''
            if model.unpack(data, [0] * 4352).number == 0:
                due = 24 if data[0] == 0 else 26
                self.same(model.unpack(other_edition(data), [0] * 4352).number, due, case.note)

    def test_packed_forms(self):
        for case in self.every:
            if case.call == 'run' and case.note.startswith('valid'):
                table = case.args[0]
                room = [0] * len(table)
                answer = model.unpack(pack(table), room)
                self.same((answer, room), (Answer(0, 0, len(table) // 17), table), case.note)


if __name__ == '__main__':
    ran = unittest.main(exit=False, verbosity=0).result
    failed = TALLY['failed'] + len(ran.errors)
    print(f"{TALLY['passed']} passed, {failed} failed", flush=True)
    sys.exit(0 if ran.wasSuccessful() and failed == 0 else 1)
