#!/usr/bin/env python3
"""Writes crates/agreement/proofs/: the cases of cases.py as tables that the prover computes.

usage: tables.py [--check]     --check: exit 1 where the committed files are not what it would write
"""

import os
import re
import sys

sys.dont_write_bytecode = True

from cases import FRESH, all_cases, expected, fresh_flags

ROOT = os.path.dirname(os.path.dirname(os.path.dirname(os.path.abspath(__file__))))
FOLDER = os.path.join(ROOT, 'crates', 'agreement', 'proofs')
SEED, SCALE, CASES_PER_TABLE = 1, 1, 50


# ------------------------------------------------------------ writing lists

def repeats(items, first, period):
    """How often the items from first on stand there, one time after the other."""
    chunk, times = items[first:first + period], 1
    while items[first + times * period:first + (times + 1) * period] == chunk:
        times += 1
    return times


def pieces(items):
    """The parts of a list as (times, items), long repetitions taken together."""
    found, plain, at = [], [], 0
    while at < len(items):
        spared, period = max(((repeats(items, at, p) - 1) * p, -p) for p in range(1, 9))
        if spared < 16:
            plain.append(items[at])
            at += 1
            continue
        found += [(1, plain)] * bool(plain)
        found.append((spared // -period + 1, items[at:at - period]))
        plain, at = [], at + spared - period
    return found + [(1, plain)] * bool(plain)


def argument(texts):
    """The lists that the texts are, end to end, as an argument."""
    if texts and texts[0].startswith('(') and len(texts) == 1:
        return texts[0]
    return '(' + ' ++ '.join(texts) + ')' if texts else '[]'


def listed(items, show=str):
    texts = []
    for times, part in pieces(list(items)):
        plain = '(' + ' ∷ '.join([*map(show, part), '[]']) + ')'
        texts.append(plain if times == 1 else f'times {times} {plain}')
    return argument(texts)


def numeral(word):
    return str(2 * word if word >= 0 else -2 * word - 1)


def word_texts(words):
    return [f'words {listed(words, numeral)}'] if words else []


def node_text(row):
    used = max((k + 1 for k, word in enumerate(row) if word), default=0)
    return listed(row[:used], numeral)


def table_texts(table):
    """Whole nodes without the zeros that end them, and the words after the last."""
    whole = len(table) // 17 * 17
    rows = [table[first:first + 17] for first in range(0, whole, 17)]
    nodes = [f'nodes {listed(rows, node_text)}'] if rows else []
    return nodes + word_texts(table[whole:])


def buffer_text(buffer, fresh, fresh_name, texts_of):
    """A whole buffer after a call: what is new in it, and its end that is as it was."""
    kept = len(buffer)
    while kept and buffer[kept - 1] == fresh[kept - 1]:
        kept -= 1
    end = [f'{fresh_name} {kept} {len(buffer) - kept}'] if kept < len(buffer) else []
    return argument((texts_of(buffer[:kept]) if kept else []) + end)


# ------------------------------------------------------------ writing cases

CALLS = {'unpack': 'to_unpack', 'check': 'to_check', 'unpack_check': 'to_unpack_check',
         'run': 'to_run', 'lookup': 'to_lookup', 'listing': 'to_list', 'pack': 'to_pack'}


def call_text(case):
    if case.call in ('unpack', 'unpack_check', 'listing'):
        texts = [listed(case.args[0])]
    else:
        texts = [argument(table_texts(case.args[0]))]
    if case.call == 'run':
        texts += [argument(word_texts(case.args[1])), listed(case.args[2])]
    numbers = case.args[len(texts):]
    return ' '.join([CALLS[case.call], *texts, *map(str, numbers)])


def result_text(case):
    answer, buffers = expected(case)
    if case.call == 'unpack_check':
        return f'number {answer}'
    if case.call == 'listing':
        return f'text {listed(answer)}'
    if case.call == 'lookup':
        number, place, *found = answer
        return ' '.join([f'finds (answer {number} {place} 0)', *map(str, found)])
    kinds = {'run': 'leaves_both', 'pack': 'leaves_bytes'}
    texts = [kinds.get(case.call, 'leaves'), '(answer %d %d %d)' % answer]
    for buffer, make in zip(buffers, FRESH[case.call]):
        if make is fresh_flags:
            fresh_name, texts_of = 'flags_from', lambda items: [listed(items)]
        else:
            fresh_name, texts_of = 'fresh_from', table_texts if case.call == 'unpack' else word_texts
        texts.append(buffer_text(buffer, make(len(buffer)), fresh_name, texts_of))
    return ' '.join(texts)


# ------------------------------------------------------------ writing files

HEAD = '-- Written by tests/model/tables.py: change that script or cases.py, never this file.\n'
TABLE = HEAD + '''use mathlib.Core.Path.{{refl}}
use mathlib.Core.List.{{{lists}}}
use Rattle.guarantees.proofs.Everything.{{everything}}
use Rattle.agreement.specs.Cases.{{{names}}}

abbrev pub {name} : List Case
{name} =
    {rows}
    ∷ []

pub {name}_agrees : Agree {name}
unfolding everything
{name}_agrees = refl
'''


# The tables of pack stand by themselves, so that no other table changes with them. For each kind of table its name
# and its calls.
PACKS = ('pack',)
OTHERS = tuple(call for call in CALLS if call not in PACKS)
KINDS = (('Table', OTHERS), ('Packs', PACKS))
# What a table can cite of the library and of Cases, in the order in which it brings it in.
LISTS = 'List', '[]', '◌∷◌', '◌++◌'
NAMES = ('words', 'nodes', 'times', 'fresh_from', 'flags_from', *CALLS.values(), 'leaves', 'leaves_both', 'leaves_bytes',
         'finds', 'number', 'text', 'answer', 'Case', '◌gives◌', 'Agree')


def cited(names, rows):
    """Those of the names that the rows, or the lines around them that all tables have, cite: rt tidy leaves no other."""
    words = {'List', 'Case', 'Agree', '∷', '[]', *(word for row in rows for word in re.findall(r'[^\s()]+', row.split('\n')[-1]))}
    return ', '.join(name for name in names if name.strip('◌') in words)


def is_large(case):
    return sum(len(a) for a in case.args if not isinstance(a, int)) > 700


def dealt(cases):
    """About 50 cases a table and at most one large one: a theorem has 50 million steps."""
    small = [case for case in cases if not is_large(case)]
    large = [case for case in cases if is_large(case)]
    tables = [small[k:k + CASES_PER_TABLE] for k in range(0, len(small), CASES_PER_TABLE)]
    tables += [[] for _ in large[len(tables):]]
    for table, case in zip(tables, large):
        table.append(case)
    return tables


def files(cases):
    """The texts of all files by name."""
    texts = {}
    for kind, calls in KINDS:
        for number, table in enumerate(dealt([case for case in cases if case.call in calls]), 1):
            rows = [f'-- {case.note}\n    {"∷ " * (k > 0)}{call_text(case)} gives {result_text(case)}'
                    for k, case in enumerate(table)]
            texts[f'{kind}{number:02}.antt'] = TABLE.format(
                name=f'{kind.lower()}{number:02}', rows='\n    '.join(rows), lists=cited(LISTS, rows), names=cited(NAMES, rows))
    texts['Lib.antt'] = HEAD + ''.join(f'pub mod {name[:-5]}\n' for name in texts)
    return texts


def committed():
    texts = {}
    for name in os.listdir(FOLDER):
        with open(os.path.join(FOLDER, name), encoding='utf-8') as file:
            texts[name] = file.read()
    return texts


def write(texts):
    for name in committed().keys() - texts.keys():
        os.remove(os.path.join(FOLDER, name))
    for name, text in texts.items():
        with open(os.path.join(FOLDER, name), 'w', encoding='utf-8') as file:
            file.write(text)


def main():
    cases = list(all_cases(SEED, SCALE))
    made = files(cases)
    if '--check' in sys.argv[1:]:
        sys.exit(made != committed())
    write(made)
    for call in CALLS:
        print(f'{call}: {sum(case.call == call for case in cases)}')
    print(f'{len(cases)} cases in {len(made) - 1} tables')


if __name__ == '__main__':
    main()
