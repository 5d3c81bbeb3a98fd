#!/usr/bin/env python3
"""Times the writer, the reader and the merge of files of columns, beside a plain Rust program, and prints a table.

usage: columns.py [--program PATH] [--rows 1000000] [--files 10] [--repeat 3] [--room FOLDER]

Without PATH the program is seg_bench, which scratch.py proves and builds in a scratch checkout; the plain one is
bench/plain_columns.rs. Both write a column of one number a row, one of one text a row with 1,000 distinct ones and one with
half as many distinct ones as rows, read each file with all its checks, and stack as many such files as `--files` says. The
files of both have to be the same bytes. Of several runs of each, in turn, the least processor time counts; peak is the most
memory for each value that is written or read.
"""
import argparse
import filecmp
import subprocess
import sys
from pathlib import Path

from bench import ROOM, wait_for
from scratch import program

HERE = Path(__file__).resolve().parent


def built(room):
    """The plain program."""
    plain = room / 'plain_columns'
    subprocess.run(['rustc', '--edition', '2021', '-C', 'opt-level=3', '-o', plain, HERE / 'plain_columns.rs'], check=True)
    return plain


def run(command):
    """The processor seconds and the most memory of a run."""
    child = subprocess.Popen([str(word) for word in command], stdout=subprocess.DEVNULL)
    used = wait_for(child, 600)
    if used is None or child.returncode:
        sys.exit(f'{command[:3]}: status {child.returncode}')
    return used.ru_utime + used.ru_stime, used.ru_maxrss * 1024


def best(commands, repeat):
    """The best of several runs of each command, in turn."""
    found = [[run(command) for command in commands] for _ in range(repeat)]
    return [(min(r[at][0] for r in found), min(r[at][1] for r in found)) for at in range(len(commands))]


def tasks(words):
    """What is done: a name, the words of both programs, the files that both write, and how many values there are."""
    room, rows = words.room, words.rows
    for kind, given in [('numbers', []), ('texts', [1000]), ('texts', [rows // 2])]:
        name = '-'.join(str(part) for part in [kind, *given])
        ours, theirs = room / f'{name}.ours', room / f'{name}.plain'
        plain_kind = 'u64' if kind == 'numbers' else kind
        yield f'write {name}', [f'column-{kind}', rows, *given, ours], [plain_kind, rows, *given, theirs], (ours, theirs), rows
        yield f'read {name}', ['column-read', ours], ['read', ours], None, rows
        many = [ours] * words.files
        stacked = room / f'{name}.stacked.ours', room / f'{name}.stacked.plain'
        yield f'stack {words.files} of {name}', ['column-stack', stacked[0], *many], ['merge', stacked[1], *many], stacked, \
            words.files * rows


def main():
    parser = argparse.ArgumentParser(description=__doc__, formatter_class=argparse.RawDescriptionHelpFormatter)
    parser.add_argument('--program', type=Path)
    parser.add_argument('--rows', type=int, default=1000000)
    parser.add_argument('--files', type=int, default=10)
    parser.add_argument('--repeat', type=int, default=3)
    parser.add_argument('--room', type=Path, default=ROOM)
    words = parser.parse_args()
    words.room.mkdir(parents=True, exist_ok=True)
    tried = (words.program or program('seg_bench')).resolve()
    plain = built(words.room)
    print(f'{"task":28} {"values":>9} {"CPU s":>7} {"plain":>7} {"times":>6} {"peak B/v":>9} {"plain":>7}')
    for name, ours, theirs, files, values in tasks(words):
        mine, other = best([[tried, *ours], [plain, *theirs]], words.repeat)
        if files and not filecmp.cmp(*files, shallow=False):
            sys.exit(f'{name}: the files differ')
        print(f'{name:28} {values:>9} {mine[0]:7.2f} {other[0]:7.2f} {mine[0] / other[0]:6.2f}'
              f' {mine[1] / values:9.1f} {other[1] / values:7.1f}', flush=True)


if __name__ == '__main__':
    main()
