#!/usr/bin/env python3
"""Every wrong model of wrong_models.py has to change the outcome of a case of the agreement tables (cases.py) and of
a case of the program vectors (tests/tools/vectors.py, the examples of run, lookup and pack with it); an exception is
a change too. The right model agrees with every case, and so does every control.

usage: test_wrong_models.py [--list]     last line: 'N passed, 0 failed', N the number of wrong models
       --list: each of them with the first case of each set that sees it
"""

import os
import sys

sys.dont_write_bytecode = True
sys.path.insert(1, os.path.join(os.path.dirname(os.path.dirname(os.path.abspath(__file__))), 'tools'))

import cases
import model
import vectors
from tables import SCALE, SEED
from tally import Tally
from wrong_models import CONTROLS, FAMILIES, NAMES, ONE_SET_ONLY, patched

# The calls that an attribute of model can change, where these are not all.
RUN, PACKED = ('run',), ('unpack', 'unpack_check', 'listing')
CALLS = {**dict.fromkeys(('run', 'all_fields', 'input_refusal', 'operand_at', 'binary_value', 'where_value',
                          'fill_value', 'known_value', 'reduce_value', 'element_value'), RUN),
         **dict.fromkeys(('unpack', 'read_number', 'read_edition', 'read_node', 'word_of'), PACKED),
         **dict.fromkeys(('pack_refusal', 'PACK_RULES', 'LEAST_WORD', 'GREATEST_WORD', 'written_number', 'written_node',
                          'number_of'), ('pack',)),
         **{call: (call,) for call in ('check', 'lookup', 'unpack_check', 'listing', 'pack')}}
ALL_CALLS = {'check', 'lookup', 'pack', *RUN, *PACKED}


def size(case):
    """Small cases first, and those of one call last: they take the longest."""
    return case.call == 'unpack_check', len(repr(case))


def operations(source):
    """The words that can be operations in a plan, or None for packed bytes."""
    return None if isinstance(source, bytes) else {*getattr(source, 'table', source)[::17]}


# A case is told by its call and name, the case itself, its operations and its right outcome.

def of_agreement():
    for case in sorted(cases.all_cases(SEED, SCALE), key=size):
        yield f'{case.call}, {case.note}', case, operations(case.args[0]), cases.expected(case)


def of_vectors():
    for case in sorted(vectors.CASES, key=size):
        yield f'{case.call}, {case.name}', case, operations(case.source), (case.answer, case.buffer)


def vector_outcome(case):
    other = vectors.of_model(case)
    return other.answer, other.buffer


def differs(ask, case, right):
    try:
        return ask(case) != right
    except Exception:
        return True


def first_seen(name, patches, ask, rights):
    """The call and name of the first case that a slip changes, or None; those that it cannot change are passed over."""
    named = {op for op, operation in enumerate(NAMES) if operation in name.split()}
    calls = {call for attribute in patches for call in CALLS.get(attribute, ALL_CALLS)}
    with patched(patches):
        for told, case, present, right in rights:
            if case.call in calls and not (named and present is not None and named.isdisjoint(present)):
                if differs(ask, case, right):
                    return told
    return None


def main():
    tally = Tally()
    sets = {'agreement': (cases.expected, list(of_agreement())), 'vectors': (vector_outcome, list(of_vectors()))}
    for name, patches in (('the right model', {'verdict': model.verdict}), *CONTROLS):
        for cases_of in sets:
            told = first_seen(name, patches, *sets[cases_of])
            if told:
                sys.exit(f'{name} differs in a case of {cases_of}: {told}')
    slips = [(name, patches, sets) for family in FAMILIES for name, patches in family()]
    slips += [(name, patches, [only]) for only, family, _ in ONE_SET_ONLY for name, patches in family()]
    for name, patches, wanted in slips:
        seen = {cases_of: first_seen(name, patches, *sets[cases_of]) for cases_of in wanted}
        tally.same(f'{name}: not seen by', [cases_of for cases_of, told in seen.items() if told is None], [])
        if '--list' in sys.argv[1:]:
            print(name, *(f'{cases_of}: {told}' for cases_of, told in seen.items()), sep='\t')
    tally.finish()


if __name__ == '__main__':
    main()
