#!/usr/bin/env python3
"""Counts the instructions of a `build` by cause, and prints a table.

usage: instructions.py SCRIPT [--program PATH] [--room FOLDER] [--functions N]

`valgrind` counts (callgrind), the same at each run. A function belongs to the cause whose rule it meets. What meets
none, as the growing of a list, belongs to its callers, by what each of them spent in it. With --functions the N
functions with most instructions of their own are told too.
"""
import argparse
import collections
import re
import shutil
import subprocess
from pathlib import Path

from bench import PROGRAM, ROOM

# The first rule decides that is found in the name of a function.
CAUSES = [
    ('the script read, an operation at a time as a JSON tree', 'seg_script::(json_values|operation_list)|^json::'),
    ('documents and deletes out of it', '^seg_script'),
    ('tokens', 'seg_tokens::tokenizers'),
    ('the check of a document, with its JSON paths', '^seg_(check|paths)'),
    ('column values', 'seg_fastfield|seg_column_writer::writer'),
    ('terms and their occurrences', 'seg_terms::known_terms|seg_build::(field|path_tokens)'),
    ('the rest of adding documents: the map of a document, stored bytes', 'add_pairs'),
    ('the segment of a batch: terms in order, postings, columns, files', 'seg_build::finished_segment'),
    ('the rest of a batch: deletes, files written', 'seg_batches'),
    ('files read', 'seg_directory::calls::read_file'),
    ('opened and checked', '^seg_open'),
    ('merged', 'seg_index_build::filtered_merge'),
    ('the text', 'seg_tool::printed_index|^seg_text'),
]
REST = 'all else'
# What is counted across all causes.
ACROSS = [
    ('memory taken and given back', 'malloc|free|realloc|rattle_|unlink_chunk|sysmalloc|consolidate'),
    ('copied', 'mem(cpy|move)'),
    ('cleared', 'memset'),
    ('sorted', 'slice::sort'),
]


def run_counted(words):
    folder, told = words.room / 'run', words.room / 'callgrind'
    shutil.rmtree(folder, ignore_errors=True)
    folder.mkdir(parents=True)
    command = ['valgrind', '--tool=callgrind', f'--callgrind-out-file={told}', words.program.resolve(), 'build']
    with words.script.open('rb') as script:
        subprocess.run(command, stdin=script, stdout=subprocess.DEVNULL, stderr=subprocess.DEVNULL, cwd=folder, check=True)
    return told


def calls_of(path):
    """The instructions of each function itself, and what each function spent in each that it called."""
    own, calls, names = collections.Counter(), collections.Counter(), {}

    def name(text):
        number, _, rest = text.partition(' ')
        return names.setdefault(number, rest or number)

    function = called = None
    for line in path.read_text().splitlines():
        if line.startswith('fn='):
            function = name(line[3:])
        elif line.startswith('cfn='):
            called = name(line[4:])
        elif found := re.match(r'[+*\-\d]\S* (\d+)$', line):
            if called:
                calls[function, called] += int(found[1])
            else:
                own[function] += int(found[1])
            called = None
    return own, calls


def cause_of(function):
    return next((cause for cause, rule in CAUSES if re.search(rule, function)), None)


def shares_of(calls):
    """Of each function the part that belongs to each cause."""
    callers = collections.defaultdict(dict)
    for (caller, called), spent in calls.items():
        if caller != called:
            callers[called][caller] = spent
    functions = {each for pair in calls for each in pair}
    shares = {each: {cause_of(each) or REST: 1.0} for each in functions}
    for _ in range(40):
        for each in functions:
            if not cause_of(each) and (total := sum(callers[each].values())):
                mixed = collections.Counter()
                for caller, spent in callers[each].items():
                    for cause, part in shares[caller].items():
                        mixed[cause] += part * spent / total
                shares[each] = mixed
    return shares


def main():
    parser = argparse.ArgumentParser(description=__doc__, formatter_class=argparse.RawDescriptionHelpFormatter)
    parser.add_argument('script', type=Path)
    parser.add_argument('--program', type=Path, default=PROGRAM)
    parser.add_argument('--room', type=Path, default=ROOM / 'instructions')
    parser.add_argument('--functions', type=int, default=0)
    words = parser.parse_args()
    own, calls = calls_of(run_counted(words))
    total, shares, sums = sum(own.values()), shares_of(calls), collections.Counter()
    for function, spent in own.items():
        for cause, part in shares.get(function, {REST: 1.0}).items():
            sums[cause] += spent * part
    print(f'{words.script.stat().st_size / 1e6:.1f} MB, {total / 1e6:.0f} million instructions')
    for cause, spent in sums.most_common():
        print(f'{100 * spent / total:5.1f} % {cause}')
    for what, rule in ACROSS:
        spent = sum(spent for each, spent in own.items() if re.search(rule, each))
        print(f'{100 * spent / total:5.1f} % across: {what}')
    for function, spent in own.most_common(words.functions):
        print(f'{100 * spent / total:5.1f} % {function}')


if __name__ == '__main__':
    main()
