#!/usr/bin/env python3
"""Wrong definitions that a theorem of crates/guarantees rules out: with each of them the theorem's statement is refuted.

usage: wrong_definitions.py [NAME..]     last line: 'N passed, 0 failed', N the number of wrong definitions

The definitions (specs/ of the crates that guarantees names, and the types that their code declares) are copied without
their proofs, which would fail one after another and show nothing of the statement, and into one crate, so that rt has
one to check. In the copy one definition is spoilt, and a proof that the statement is false has to be accepted by rt.
With the definition as it is, the same proof has to be refused.
"""

import glob
import os
import re
import subprocess
import sys
import tempfile
from collections import namedtuple

ROOT = os.path.dirname(os.path.dirname(os.path.dirname(os.path.abspath(__file__))))
CRATES = 'laws plan codec packing shapes bounds rules verifier cells runner lookup guarantees'.split()
EVERYTHING = 'crates/guarantees/proofs/Everything.antt'

# file below crates/, the text in it and what stands there instead; the statement that is false then, and the proof of that.
Wrong = namedtuple('Wrong', 'name file right wrong statement proof')

HEAD = '''use Prim.Native.Nat.{ℕ, zero, suc, ◌+◌, ◌*◌, ◌/◌, ◌<◌, ◌≤◌}
use mathlib.Core.Path.{◌≡◌, refl, ap, sym, ◌∙◌}
use mathlib.Core.Logic.{◌⊎◌, inl, inr, ⊎_elim}
use mathlib.Core.Bool.{true, false, true≢false}
use mathlib.Core.List.{List, [], ◌∷◌, ◌++◌}
use native.Mathlib.Omega.{arith}
use lib.IntN.{ℤ, pos, negsuc, nat_abs}
use lib.Signed.{◌≤ℤ◌, ◌<ℤ◌}
use lib.ListN.{get_or, length, replicate}
use Rattle.plan.specs.declared.Answer.{Answer}
use Rattle.plan.specs.declared.ElementNumber.{ElementNumber}
use Rattle.plan.specs.Types.{between}
use Rattle.plan.specs.Words.{node, element}
use Rattle.plan.specs.Answers.{Outcome, accepted, refused}
use Rattle.rules.specs.Rules.{Derived}
use Rattle.verifier.specs.Check.{verdict, check_answer}
use Rattle.verifier.specs.Meets.{rule_holds, NodeMeets, MeetsAt, NodesMeet}
use Rattle.cells.specs.Cells.{Cell, known, gap}
use Rattle.runner.specs.Run.{fields_of, value_of, flag_of}
use Rattle.lookup.specs.declared.Reply.{Reply}
use Rattle.guarantees.specs.Questions.{u8, i16, i32, zeros, param, constant, movement, binary, reduce, stack, cast}
use Rattle.guarantees.specs.Demand3.{Lent, word, as_count, elements, result_at, Proper}
use Rattle.guarantees.specs.Rules.{ReadsSource, RulesSay}
use Rattle.guarantees.specs.Acceptance.{Nodes, Acceptance, bad_node}
use Rattle.guarantees.specs.Values.{EveryValue, Moved, from, new}
use Rattle.guarantees.specs.Runs.{RunsExactly}
use Rattle.guarantees.specs.Ranges.{RangesSay}
use Rattle.guarantees.specs.Records.{RecordsSay}
use Rattle.guarantees.specs.Checks.{ChecksExactly}
use Rattle.guarantees.specs.Unpacks.{Opens, first_edition, second_edition, New, Begins, first, next_node, UnpacksExactly}
use Rattle.guarantees.specs.Packs.{RoundTrips}
use Rattle.guarantees.specs.Refusals.{RefusalsKeep}
use Rattle.guarantees.specs.Lookups.{LeadsTo, LookupAgrees, here}
use Rattle.guarantees.specs.Whole.{FromBytes}
use Rattle.guarantees.specs.Witnesses.{division, division_records, lend, PremisesMet}
use Rattle.guarantees.proofs.Everything.{everything}

never : {m n : ℕ} → m ≡ n → (m ≡ n → ⊥) → ⊥
never e f = f e

-- two cells with other numbers or flags
apart : {c d : Cell} → c ≡ d → (flag_of c + nat_abs (value_of c) ≡ flag_of d + nat_abs (value_of d) → ⊥) → ⊥
apart e f = f (ap (λ (c : Cell). flag_of c + nat_abs (value_of c)) e)

-- records of a type and extents, of one device
abbrev derived : ℕ → ℕ → ℤ → ℤ → List ℕ → Derived
derived dtype device low high extents = record { dtype = dtype; device = device; bounds = between low high; extents = extents }

abbrev nothing : Lent
nothing = record { values = []; flags = []; value_buffer = []; flag_buffer = [] }

'''


def numeral(k):
    return 'zero' if k == 0 else f'(suc {numeral(k - 1)})'


def by_number(name, premises, says, first, last):
    """A function by cases of the numbers from 0 on: refl from first to last, and no other can be."""
    arguments = ' '.join('ab'[:premises.count('→')])
    clauses = [f'{name} {numeral(k)} {arguments} = {"refl" if first <= k else "absurd (omega arith)"}'
               for k in range(last + 1)]
    more = 'k'
    for _ in range(last + 1):
        more = f'(suc {more})'
    return '\n'.join([f'{name} : (k : ℕ) → {premises} {says}', 'unfolding everything', *clauses,
                      f'{name} {more} {arguments} = absurd (omega arith)']) + '\n\n'


TWO_RULES = '''abbrev two_rules : List ℤ
two_rules = param 0 0 (pos 0) (pos 1) [] ++ reduce 0 5 []

abbrev before : List Derived
before = derived 0 1 (pos 0) (pos 1) [] ∷ []

'''

WRONG = (
    Wrong('every cell a gap', 'cells/specs/Nodes.antt',
          'eval_cell x r s e = by_operation x.op (cell_rules x r s e) gap', 'eval_cell x r s e = gap', 'EveryValue', '''
refuted h =
    let two = h (constant i16 (pos 2)) (derived i16 0 (pos 2) (pos 2) [] ∷ []) nothing 0 (element 0) refl refl (omega arith) (omega arith) in
    apart (two.constant refl) (λ e. absurd (omega (arith, e)))
'''),
    Wrong('the first node copied to the rest', 'runner/specs/Run.antt',
          'cells = eval_node (node_at t n) r (operands_of t ds input n earlier)',
          'cells = eval_node (node_at t 0) r (operands_of t ds input 0 earlier)', 'EveryValue', '''
refuted h =
    let five = h (constant i16 (pos 2) ++ constant i16 (pos 5)) (derived i16 0 (pos 2) (pos 2) [] ∷ derived i16 0 (pos 5) (pos 5) [] ∷ []) nothing 1 (element 0) refl refl (omega arith) (omega arith) in
    apart (five.constant refl) (λ e. absurd (omega (arith, e)))
'''),
    Wrong('FLIP never reverses', 'shapes/specs/Sources.antt',
          '(extent s k - 1 - coord r e k) (coord r e k)', '(coord r e k) (coord r e k)', 'EveryValue', '''
refuted h =
    let first = h flipped ends two 1 (element 0) refl refl (omega arith) (omega arith) in
    moved (first.moved 3 refl (inl (omega arith, omega arith)))
  where
    at : (k : ℕ) → k / 1 + 0 + 1 ≡ 2 → known (pos 1) ≡ get_or (known (pos 1) ∷ known (pos 2) ∷ []) k gap → ⊥
    at zero e c = absurd (omega (arith, e))
    at (suc zero) e c = apart c (λ z. absurd (omega (arith, z)))
    at (suc (suc k)) e c = absurd (omega (arith, e))

    moved : Moved flipped ends two 1 (element 0) 3 → ⊥
    moved (from m c e) = at m.0 ((c.flip refl 0 (omega arith)).0 refl) e
    moved (new z c e) = absurd (omega (arith, z))
'''),
    Wrong('rules 6 and 7 swapped', 'rules/specs/Rules.antt',
          '    ∷ rule 6 (types_agree x a.dtype b.dtype c.dtype)\n'
          '    ∷ rule 7 (rows_right x params (length a.extents))\n',
          '    ∷ rule 7 (rows_right x params (length a.extents))\n'
          '    ∷ rule 6 (types_agree x a.dtype b.dtype c.dtype)\n', 'Acceptance', '''
refuted h =
    let nodes : Nodes two_rules 2 = record { words = refl; some = omega arith; few = omega arith } in
    let six = (h.refused_when two_rules (record { number = 6; place = 1 })).1 (bad_node {m = 2} {n = 1} {k = 6} {ds = before} nodes (omega arith) first (omega arith) (omega arith) smaller refl) in
    never (ap (λ (o : Outcome (List Derived)). (check_answer o).number) six) (λ e. absurd (omega (arith, e)))
  where
    each : (i : ℕ) → i < 1 → MeetsAt two_rules before i
    each zero l = record { holds = all; derived = refl }
    each (suc i) l = absurd (omega arith)

    first : NodesMeet two_rules 1 before
    first = record { as_many = refl; each = each }
'''),
    Wrong('rule 6 always holds', 'rules/specs/Rules.antt',
          'types_agree x a b c = by_operation x.op (type_rules x a b c) false', 'types_agree x a b c = true', 'RulesSay', '''
refuted h = ((h.rule_6 two_rules 1 before 19 refl (omega arith)).0 refl).reduces refl refl
'''),
    Wrong('rule 3 always holds', 'plan/specs/Words.antt',
          'unused_zero op w = all_below words_per_node', 'unused_zero op w = true || all_below words_per_node', 'RulesSay', '''
refuted h = never (ap nat_abs ((h.rule_3 (pos 0 ∷ zeros 8 ++ pos 7 ∷ zeros 7) 0 [] 0 refl (omega arith)).0 refl 9 (omega arith) (omega arith) refl)) (λ e. absurd (omega (arith, e)))
'''),
    Wrong('i16 from −32768', 'plan/specs/Types.antt',
          'between (negsuc 32766) (pos 32767)', 'between (negsuc 32767) (pos 32767)', 'RulesSay', '''
refuted h = absurd (((h.rule_11 (constant i16 (negsuc 32767)) 0 [] (omega arith)).0 refl).0.i16 refl).0.le
'''),
    Wrong('i16 to 32766', 'plan/specs/Types.antt',
          'between (negsuc 32766) (pos 32767)', 'between (negsuc 32766) (pos 32766)', 'RangesSay', '''
refuted h =
    let most = (h.range i16 (pos 32767) (omega arith)).1 (record { bool = λ q. absurd (omega (arith, q)); u8 = λ q. absurd (omega (arith, q)); i16 = λ q. (record { le = tt }, record { le = tt }); i32 = λ q. absurd (omega (arith, q)) }) in
    absurd most.1.le
'''),
    Wrong('rule 9 never holds', 'rules/specs/Rules.antt',
          'devices_agree d e f = one_device d e && one_device (join_device d e) f', 'devices_agree d e f = false',
          'PremisesMet', '''
refuted h = never (ap (λ (o : Outcome (List Derived)). (check_answer o).number) h.first.accepts) (λ e. absurd (omega (arith, e)))
'''),
    Wrong('an input flag of 7 accepted', 'runner/specs/Inputs.antt',
          'need (leb flag 1) 15 p', 'need (leb flag 1 || eqb flag 7) 15 p', 'RunsExactly', '''
refuted h =
    let x = lend (negsuc 6) (pos 99) 1 7 in
    let proper = (h.accepted_when division division_records x refl).0 (fields_of division division_records x.values x.flags) refl in
    ⊎_elim (λ e. absurd (omega (arith, e))) (λ e. absurd (omega (arith, e))) (proper.zero_or_one 1 (omega arith))
'''),
    Wrong('a lookup follows CAST', 'plan/specs/Operations.antt',
          'followed = movements ++ LOAD ∷ []', 'followed = movements ++ LOAD ∷ CAST ∷ []', 'LookupAgrees', '''
refuted h =
    let way : LeadsTo casts ends (node 1) (element 0) (node 1) (element 0) = record { way = here; op = 8; is_op = refl; other = ⊎_elim (λ f. absurd (omega (arith, f.1))) (λ f. absurd (omega (arith, f))) } in
    let found = ((h casts ends (node 1) (element 0) refl (omega arith, omega arith)).place (node 1) (element 0)).1 way in
    never (ap (λ (r : Reply). r.found) found) (λ e. absurd (omega (arith, e)))
'''),
    Wrong('node and element swapped in the reply', 'lookup/specs/Following.antt',
          'node = found_node o; element = found_element o', 'node = found_element o; element = found_node o', 'LookupAgrees', '''
refuted h =
    let way : LeadsTo casts ends (node 1) (element 0) (node 1) (element 0) = record { way = here; op = 8; is_op = refl; other = ⊎_elim (λ f. absurd (omega (arith, f.1))) (λ f. absurd (omega (arith, f))) } in
    let found = ((h casts ends (node 1) (element 0) refl (omega arith, omega arith)).place (node 1) (element 0)).1 way in
    never (ap (λ (r : Reply). r.node) found) (λ e. absurd (omega (arith, e)))
'''),
    Wrong("a record's words swapped", 'verifier/specs/Check.antt',
          'pos d.dtype ∷ pos d.device ∷', 'pos d.device ∷ pos d.dtype ∷', 'ChecksExactly', '''
refuted h =
    let words = (h.writes casts (zeros 16) ends refl).each 0 (omega arith) in
    never (ap nat_abs words.dtype) (λ e. absurd (omega (arith, e)))
'''),
    Wrong("ADD's bounds one too wide", 'bounds/specs/Rules.antt',
          'add_bounds a b = between (a.low +ℤ b.low) (a.high +ℤ b.high)',
          'add_bounds a b = between (a.low +ℤ b.low) (a.high +ℤ b.high +ℤ pos 1)', 'RecordsSay', '''
refuted h =
    let twice = h.bounds (constant i16 (pos 2) ++ binary 9 0 0) 1 (derived i16 0 (pos 2) (pos 2) [] ∷ []) 9 refl (omega arith) (omega arith) in
    never (ap nat_abs (twice.add refl).1) (λ e. absurd (omega (arith, e)))
'''),
    Wrong('every device 0', 'rules/specs/Rules.antt',
          'device = result_device x a.device b.device c.device;', 'device = 0;', 'RecordsSay', '''
refuted h =
    let own = h.device (param 0 i16 (pos 0) (pos 9) []) 0 [] 1 refl (omega arith) (record { le = tt }) (λ j k a b c d e f. inl refl) in
    never (ap nat_abs (own.named (inl refl))) (λ e. absurd (omega (arith, e)))
'''),
    Wrong('128 is a number of one byte', 'codec/specs/Numbers.antt', 'cond (ltb byte 128)', 'cond (ltb byte 129)', 'UnpacksExactly', '''
refuted h =
    let read = (h.number_accepted (128 ∷ 1 ∷ []) 0 (record { value = 128; next = 1 })).0 refl in
    alone read.more read.after read.last
  where
    alone : (more : ℕ) → 1 ≡ 0 + more + 1 → get_or (128 ∷ 1 ∷ []) (0 + more) 0 < 128 → ⊥
    alone zero e l = absurd (omega (arith, l))
    alone (suc k) e l = absurd (omega (arith, e))
'''),
    Wrong('bytes left over accepted', 'codec/specs/Plans.antt',
          'need (leb (length s) u.next) 22 u.next\n', 'need true 22 u.next\n', 'UnpacksExactly', '''
refuted h =
    let read = (h.accepted_when (1 ∷ 0 ∷ 4 ∷ 10 ∷ 0 ∷ []) 17 (record { words = constant i16 (pos 5); next = 4 })).0 refl in
    never read.end (λ e. absurd (omega (arith, e)))
'''),
    Wrong("a refusal's count is not 0", 'plan/specs/Answers.antt',
          'place = r.place; count = 0 }', 'place = r.place; count = 1 }', 'RefusalsKeep', '''
refuted h = never (h.of_check [] [] (record { number = 1; place = 0 }) refl).0.count (λ e. absurd (omega (arith, e)))
'''),
    Wrong('a constant node count of the C call', 'verifier/specs/Check.antt',
          'code_of (accepted p) = length p.records', 'code_of (accepted p) = 1', 'FromBytes', '''
refuted h =
    let one : 1 ≤ 256 = omega arith in
    let words : 17 ≤ 34 = omega arith in
    let records : 8 ≤ 16 = omega arith in
    never (ap (λ (a : Answer). a.count) (h (2 ∷ 0 ∷ 4 ∷ 10 ∷ 0 ∷ 4 ∷ 12 ∷ []) (zeros 34) (zeros 16) one words records).unpacked) (λ e. absurd (omega (arith, e)))
'''),
    Wrong('a constant node count of unpacking', 'codec/specs/Plans.antt',
          'answer_of (λ (u : Unpacked). length u.words / words_per_node)', 'answer_of (λ (u : Unpacked). 1)', 'FromBytes', '''
refuted h =
    let two : 2 ≤ 256 = omega arith in
    let words : 34 ≤ 34 = omega arith in
    let records : 16 ≤ 16 = omega arith in
    never (ap (λ (a : Answer). a.count) (h (2 ∷ 0 ∷ 4 ∷ 10 ∷ 0 ∷ 4 ∷ 12 ∷ []) (zeros 34) (zeros 16) two words records).unpacked) (λ e. absurd (omega (arith, e)))
'''),
    Wrong('the writer counts 1', 'packing/specs/Packing.antt',
          'pack_answer = answer_of (λ (bytes : List ℕ). length bytes)', 'pack_answer = answer_of (λ (bytes : List ℕ). 1)', 'RoundTrips', '''
refuted h =
    let words : 17 ≤ 17 = omega arith in
    never (ap (λ (a : Answer). a.number) (h.read_back (constant i16 (pos 5)) (replicate 4 0) (zeros 17) refl words).2) (λ e. absurd (omega (arith, e)))
'''),
    Wrong('the writer pads numbers', 'packing/specs/Bytes.antt',
          'cond (ltb m 128) (m ∷ [])', 'cond (ltb m 1) (m ∷ [])', 'RoundTrips', '''
refuted h =
    let words : 17 ≤ 17 = omega arith in
    never (ap (λ (a : Answer). a.number) (h.read_back (constant i16 (pos 5)) (replicate 9 0) (zeros 17) refl words).2) (λ e. absurd (omega (arith, e)))
'''),
    Wrong('the writer refuses every plan', 'packing/specs/Packing.antt',
          'need (length_right t) 1 0', 'need (not (length_right t)) 1 0', 'RoundTrips', '''
refuted h =
    let room : 4 ≤ 4 = omega arith in
    never (ap (λ (a : Answer). a.number) (h.written_back four are (zeros 17) (replicate 4 0) refl room).0) (λ e. absurd (omega (arith, e)))
'''),
    Wrong('FILL takes the second where the first is known', 'cells/specs/Cells.antt',
          'fill_cell (known z) d = known z', 'fill_cell (known z) d = d', 'EveryValue', '''
refuted h =
    let over = (h fills pairs (lends 1) 2 (element 0) refl refl (omega arith) (omega arith)).overlaid refl in
    apart (over.if_known (pos 1) (ap (λ (m : ElementNumber). result_at fills pairs (lends 1) 0 m) (only over.first over.under_first.inside))) (λ e. absurd (omega (arith, e)))
'''),
    Wrong('FILL leaves a gap', 'cells/specs/Cells.antt', 'fill_cell gap d = d', 'fill_cell gap d = gap', 'EveryValue', '''
refuted h =
    let over = (h fills pairs (lends 0) 2 (element 0) refl refl (omega arith) (omega arith)).overlaid refl in
    let first = ap (λ (m : ElementNumber). result_at fills pairs (lends 0) 0 m) (only over.first over.under_first.inside) in
    let second = ap (λ (m : ElementNumber). result_at fills pairs (lends 0) 1 m) (only over.second over.under_second.inside) in
    apart (over.if_gap first ∙ second) (λ e. absurd (omega (arith, e)))
'''),
    Wrong('KNOWN of a gap is a gap', 'cells/specs/Cells.antt', 'known_cell gap = known (pos 0)', 'known_cell gap = gap', 'EveryValue', '''
refuted h =
    let told = (h (param 0 i16 (pos 0) (pos 9) [] ++ pos 22 ∷ zeros 16) (derived i16 1 (pos 0) (pos 9) [] ∷ derived 0 1 (pos 0) (pos 1) [] ∷ []) (record { values = pos 5 ∷ []; flags = 0 ∷ []; value_buffer = []; flag_buffer = [] }) 1 (element 0) refl refl (omega arith) (omega arith)).tells refl in
    apart (told.if_gap refl) (λ e. absurd (omega (arith, e)))
'''),
    Wrong("STACK's first two sources swapped", 'cells/specs/Nodes.antt',
          'cell_at (cond (ltb e.0 n) s.a (cond (ltb e.0 (n + n)) s.b s.c))',
          'cell_at (cond (ltb e.0 n) s.b (cond (ltb e.0 (n + n)) s.a s.c))', 'EveryValue', '''
refuted h =
    let first = (h stacks joined (lends 1) 2 (element 0) refl refl (omega arith) (omega arith)).stacked refl in
    at first.turn first.of first.aligned.0 first.inside first.same
  where
    at : (turn : ℕ) (m : ElementNumber) → 0 ≡ turn → m.0 < elements joined (as_count (word stacks 2 (1 + turn))) → known (pos 2) ≡ result_at stacks joined (lends 1) (as_count (word stacks 2 (1 + turn))) m → ⊥
    at zero m e l c = apart (c ∙ ap (λ (m : ElementNumber). result_at stacks joined (lends 1) 0 m) (only m l)) (λ z. absurd (omega (arith, z)))
    at (suc turn) m e l c = absurd (omega (arith, e))
'''),
    Wrong('a STACK of two reads word 3', 'plan/specs/Words.antt',
          'reads x k = uses x.op k && in_number x k', 'reads x k = uses x.op k', 'RulesSay', '''
refuted h = true≢false (sym ((h.rule_4 two 1 [] 23 refl (omega arith) (omega arith)).1 sources))
  where
    sources : (k : ℕ) → 1 ≤ k → k ≤ 3 → ReadsSource two 1 23 k → (pos 0 ≤ℤ word two 1 k) × (word two 1 k <ℤ pos 1)
    sources zero a b r = absurd (omega arith)
    sources (suc zero) a b r = (record { le = tt }, record { lt = tt })
    sources (suc (suc zero)) a b r = (record { le = tt }, record { lt = tt })
    sources (suc (suc (suc zero))) a b r = absurd (never (ap nat_abs (r.1 refl refl)) (λ e. absurd (omega (arith, e))))
    sources (suc (suc (suc (suc k)))) a b r = absurd (omega arith)
'''),
    Wrong("KNOWN's bounds are [1,1]", 'bounds/specs/Rules.antt',
          '(KNOWN ∷ []) ⇒ between (pos 0) (pos 1)', '(KNOWN ∷ []) ⇒ between (pos 1) (pos 1)', 'RecordsSay', '''
refuted h =
    let told = h.bounds (constant i16 (pos 2) ++ pos 22 ∷ zeros 16) 1 (derived i16 0 (pos 2) (pos 2) [] ∷ []) 22 refl (omega arith) (omega arith) in
    never (ap nat_abs (told.tells refl).0) (λ e. absurd (omega (arith, e)))
'''),
    Wrong('a second edition file of old operations accepted', 'codec/specs/Plans.antt',
          'need (eqb edition (edition_of u.words)) 26 0', 'need true 26 0', 'UnpacksExactly', '''
refuted h =
    let read = (h.accepted_when old 17 (record { words = constant i16 (pos 5); next = 6 })).0 refl in
    none read.count read.long (read.some_new (second (begun read.all).1))
  where
    begun : {edition room count : ℕ} {t : List ℤ} {n p : ℕ} → Begins old edition room count t n p → (place : ℕ) × Opens old edition place
    begun (first c) = (c.place, c.opens)
    begun (next_node b l w) = begun b

    second : {edition place : ℕ} → Opens old edition place → edition ≡ 2
    second (first_edition f) = absurd (f (omega arith) refl)
    second (second_edition l a b) = refl

    none : (count : ℕ) → 17 ≡ 17 * count → (n : ℕ) × (n < count) × New (constant i16 (pos 5)) n → ⊥
    none count one (zero, l, w) = w.0.le
    none count one (suc n, l, w) = absurd (omega (arith, one, l))
'''),
    Wrong('26 for a first edition file', 'plan/specs/Operations.antt',
          'in_file edition op = is_operation op && (eqb edition 2 || not (is_new op))', 'in_file edition op = is_operation op', 'UnpacksExactly', '''
refuted h = other (h.first_never_26 (2 ∷ 0 ∷ 4 ∷ 10 ∷ 22 ∷ 0 ∷ []) 34 (record { number = 26; place = 0 }) refl refl)
  where
    other : Opens (2 ∷ 0 ∷ 4 ∷ 10 ∷ 22 ∷ 0 ∷ []) 2 2 → ⊥
    other (second_edition l a b) = absurd (omega (arith, a))
'''),
    Wrong('the writer knows one edition', 'packing/specs/Packing.antt',
          'opening_bytes t = header_of (edition_of t) ++ bytes_of (node_count t)', 'opening_bytes t = bytes_of (node_count t)', 'RoundTrips', '''
refuted h =
    let words : 34 ≤ 34 = omega arith in
    never (ap (λ (a : Answer). a.number) (h.read_back (constant i16 (pos 5) ++ pos 22 ∷ zeros 16) (replicate 9 0) (zeros 34) refl words).2) (λ e. absurd (omega (arith, e)))
'''),
)

# What a proof uses beside the head.
NEEDS = {
    'the writer refuses every plan': '''abbrev four : List ℕ
four = 1 ∷ 0 ∷ 4 ∷ 10 ∷ []

are : (i : ℕ) → i < 4 → get_or four i 0 < 256
are zero l = omega arith
are (suc zero) l = omega arith
are (suc (suc zero)) l = omega arith
are (suc (suc (suc zero))) l = omega arith
are (suc (suc (suc (suc i)))) l = absurd (omega arith)

''',
    'FLIP never reverses': '''abbrev flipped : List ℤ
flipped = param 0 i16 (pos 0) (pos 9) (2 ∷ []) ++ movement 3 0 (1 ∷ []) []

abbrev ends : List Derived
ends = derived i16 1 (pos 0) (pos 9) (2 ∷ []) ∷ derived i16 1 (pos 0) (pos 9) (2 ∷ []) ∷ []

abbrev two : Lent
two = record { values = pos 1 ∷ pos 2 ∷ []; flags = 1 ∷ 1 ∷ []; value_buffer = []; flag_buffer = [] }

''',
    'rules 6 and 7 swapped': TWO_RULES
    + by_number('all', '2 ≤ k → k ≤ 11 →', 'rule_holds two_rules 0 [] k ≡ true', 2, 11)
    + by_number('smaller', '2 ≤ k → k < 6 →', 'rule_holds two_rules 1 before k ≡ true', 2, 5),
    'rule 6 always holds': TWO_RULES,
}
CASTS = '''abbrev casts : List ℤ
casts = param 0 i16 (pos 0) (pos 9) (2 ∷ []) ++ cast 0 i32

abbrev ends : List Derived
ends = derived i16 1 (pos 0) (pos 9) (2 ∷ []) ∷ derived i32 1 (pos 0) (pos 9) (2 ∷ []) ∷ []

'''
# Two numbers of one cell each, and the only element that such a node has.
PAIRS = '''abbrev lends : ℕ → Lent
lends flag = record { values = pos 1 ∷ pos 2 ∷ []; flags = flag ∷ 1 ∷ []; value_buffer = []; flag_buffer = [] }

abbrev inputs : List ℤ
inputs = param 0 i16 (pos 0) (pos 9) [] ++ param 1 i16 (pos 0) (pos 9) []

abbrev fills : List ℤ
fills = inputs ++ binary 21 0 1

abbrev stacks : List ℤ
stacks = inputs ++ stack 0 1 0 2

abbrev pairs : List Derived
pairs = derived i16 1 (pos 0) (pos 9) [] ∷ derived i16 1 (pos 0) (pos 9) [] ∷ derived i16 1 (pos 0) (pos 9) [] ∷ []

abbrev joined : List Derived
joined = derived i16 1 (pos 0) (pos 9) [] ∷ derived i16 1 (pos 0) (pos 9) [] ∷ derived i16 1 (pos 0) (pos 9) (2 ∷ []) ∷ []

only : (m : ElementNumber) → m.0 < 1 → m ≡ element 0
only m l = let none : m.0 ≡ 0 = omega arith in ap element none

'''
NEEDS.update(dict.fromkeys(('FILL takes the second where the first is known', 'FILL leaves a gap', "STACK's first two sources swapped"), PAIRS))
NEEDS['a STACK of two reads word 3'] = '''abbrev two : List ℤ
two = constant i16 (pos 5) ++ stack 0 0 7 2

'''
NEEDS['a second edition file of old operations accepted'] = '''abbrev old : List ℕ
old = 0 ∷ 2 ∷ 1 ∷ 0 ∷ 4 ∷ 10 ∷ []

'''
NEEDS.update(dict.fromkeys(('a lookup follows CAST', 'node and element swapped in the reply', "a record's words swapped"), CASTS))


# The crate of the copy: one, whose modules are the definitions of each crate.
COPY = 'crates/definitions'
REFUTED = f'{COPY}/proofs/Refuted.antt'


def text_of(path):
    with open(path, encoding='utf-8') as file:
        return file.read()


def write(path, text):
    os.makedirs(os.path.dirname(path), exist_ok=True)
    with open(path, 'w', encoding='utf-8') as file:
        file.write(text)


def in_copy(text):
    """Text with the paths that its modules have in the copy: Rattle.plan.specs.Words is Rattle.definitions.specs.Plan.Words there."""
    text = re.sub(r'\bRattle\.guarantees\.proofs\b', 'Rattle.definitions.proofs', text)
    text = re.sub(rf'\bRattle\.(?:{"|".join(CRATES)})\.specs\.declared\b(?:\.[a-z]\w*)?', 'Rattle.definitions.specs.declared', text)
    return re.sub(rf'\bRattle\.({"|".join(CRATES)})\.specs\b', lambda match: f'Rattle.definitions.specs.{match[1].title()}', text)


def place_of(file):
    """Where a file of crates/ lies in the copy."""
    crate, _, name = file.split('/')
    return f'{COPY}/specs/{crate.title()}/{name}' if name != 'Lib.antt' else f'{COPY}/specs/{crate.title()}.antt'


def copy_definitions(folder):
    """The definitions alone: specs/, and of the code the types that it declares, with what their ghost fields cite."""
    types, ghosts, modules = [], [], []
    for crate in CRATES:
        for path in sorted(glob.glob(f'crates/{crate}/specs/*.antt', root_dir=ROOT)):
            write(os.path.join(folder, place_of(path[len('crates/'):])), in_copy(text_of(os.path.join(ROOT, path))))
            modules += [crate] * path.endswith('/Lib.antt')
        for path in sorted(glob.glob(f'crates/{crate}/src/*.rt', root_dir=ROOT)):
            text = text_of(os.path.join(ROOT, path))
            here = re.findall(r'^(?:pub )?(?:struct|enum) \w+(?: \{.*?^\}|[^{;]*;)', text, re.S | re.M)
            types += ['#[derive(Clone, Copy)]\n' + kind for kind in here]
            if any(re.search(r'^    (?:pub )?ghost ', kind, re.M) for kind in here):
                ghosts += [in_copy(line) for line in re.findall(r'^ghost use .*;$', text, re.M)]
    for path, text in ((f'{COPY}/src/lib.rt', '\n\n'.join(['#![tactic(auto)]', '\n'.join(ghosts), *types]) + '\n'),
                       (f'{COPY}/specs/Lib.antt', ''.join(f'pub mod {crate.title()}\n' for crate in modules)),
                       (f'{COPY}/proofs/Lib.antt', 'pub mod Everything\npub mod Refuted\n'),
                       (f'{COPY}/proofs/Everything.antt', in_copy(text_of(os.path.join(ROOT, EVERYTHING)))),
                       ('crates.txt', os.path.basename(COPY) + ':\n')):
        write(os.path.join(folder, path), text)


def refutes(folder, wrong):
    """Whether the proof that the statement is false is accepted, and what rt wrote."""
    proof = f'pub refuted : {wrong.statement} → ⊥\nunfolding everything{wrong.proof}'
    write(os.path.join(folder, REFUTED), in_copy(HEAD + NEEDS.get(wrong.name, '') + proof))
    ran = subprocess.run(['rt', 'check'], cwd=os.path.join(folder, COPY), capture_output=True, text=True)
    return ran.returncode == 0, ran.stdout + ran.stderr


def spoilt(right, wrong):
    """The file with the wrong definition, and what that uses and the file does not bring in."""
    brought = re.findall(r'[^\s{},]+', ' '.join(re.findall(r'^use (.*)', right, re.M)))
    more = [word for word in ('true', 'false', 'not') if re.search(rf'\b{word}\b', wrong.wrong) and word not in brought]
    return ''.join(f'use Rattle.std.specs.Prelude.{{{word}}}\n' for word in more) + right.replace(wrong.right, wrong.wrong)


def tried(folder, wrong):
    """None where the definition, spoilt, refutes the statement, and as it is does not; else what is wrong."""
    path = os.path.join(folder, place_of(wrong.file))
    right = text_of(path)
    if right.count(wrong.right) != 1:
        return f'{wrong.file} has not once {wrong.right!r}'
    good, log = refutes(folder, wrong)
    if good or 'Refuted.antt' not in log:
        return 'with the definition as it is the proof is not refused for what it says:\n' + log[-2000:]
    write(path, spoilt(right, wrong))
    good, log = refutes(folder, wrong)
    write(path, right)
    return None if good else 'the statement is not refuted:\n' + log[-4000:]


def main():
    passed = failed = 0
    with tempfile.TemporaryDirectory() as folder:
        copy_definitions(folder)
        for wrong in WRONG:
            if len(sys.argv) > 1 and wrong.name not in sys.argv[1:]:
                continue
            fault = tried(folder, wrong)
            passed, failed = passed + (fault is None), failed + (fault is not None)
            if fault is not None:
                print(f'{wrong.name}: {fault}')
    print(f'{passed} passed, {failed} failed')
    sys.exit(failed != 0)


if __name__ == '__main__':
    main()
