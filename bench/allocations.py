#!/usr/bin/env python3
"""Counts what the program takes from `malloc` while it builds, by cause, and prints a table.

usage: allocations.py SCRIPT [--program PATH] [--room FOLDER] [--paths N]

  times      how often memory was taken or made larger
  MB taken   the sizes that were asked for, one after another: a list that grows counts at each size that it had
  MB live    of these what is held when most is. A list that grew may have twice the room of what is in it, and room
             that nothing was written into is no memory yet: so this is more than the peak that the system tells

With --paths the N callers that took most are told too, the innermost function first. The counts are the same at each
run. allocations.rs is the library that counts; it needs `rustc`, and `objdump` and `nm` tell the frames and names of
the program.
"""
import argparse
import bisect
import collections
import os
import re
import shutil
import statistics
import struct
import subprocess
from pathlib import Path

from bench import PROGRAM, ROOM

HERE = Path(__file__).resolve().parent

# The first rule that the innermost frame meets decides, then those of the frame that called it, and so on.
CAUSES = [
    ('the script: its bytes, and an operation as a JSON tree', 'seg_script::(json_values|operation_list|pushed_item)'),
    ('documents and deletes out of it', 'seg_script'),
    ('tokens', 'seg_tokens::tokenizers'),
    ('the check of a document, with its JSON paths', 'seg_check|seg_paths'),
    ('column values', 'seg_fastfield|seg_column_writer::writer'),
    ('terms and their occurrences', 'seg_terms::known_terms|seg_build::(field|path_tokens)'),
    ('stored bytes', 'seg_store'),
    ('the rest of adding a document: a map of its fields', 'add_pairs'),
    ('the segment of a batch: terms in order, postings, columns, files', 'seg_build::finished_segment'),
    ('files as they are read', 'seg_directory::calls::read_file'),
    ('opening and checking', 'seg_open'),
    ('merging', 'seg_index_build::filtered_merge'),
    ('the text', 'seg_tool::printed_index'),
    ('the script: its bytes, and an operation as a JSON tree', 'seg_tool::command::build_job|segments::run_in_folders'),
]
PURPOSES = {'files as they are read': [('merge_filtered', ', for the merge'), ('printed_index', ', for the text')]}
REST = 'all else'


# ---- the frames of the program

def told_by(*words):
    return subprocess.run(words, capture_output=True, text=True, check=True).stdout.splitlines()


def functions_of(program):
    """The name and the instructions of each function: addresses, with words."""
    name, code = None, []
    for line in told_by('objdump', '-d', '--no-show-raw-insn', program):
        if head := re.match(r'[0-9a-f]+ <(.*)>:$', line):
            yield name, code
            name, code = head[1], []
        elif found := re.match(r' *([0-9a-f]+):\t(.*)', line):
            code.append((int(found[1], 16), found[2]))
    yield name, code


def moved(depth, words):
    """How deep the stack is after an instruction; none where that can't be told."""
    if words.startswith(('push', 'pop')):
        return depth + (8 if words.startswith('push') else -8)
    if found := re.match(r'(sub|add) +\$(-?)0x([0-9a-f]+),%rsp', words):
        size = int(found[3], 16)
        size = size - (1 << 64) if size >> 63 else size
        return depth + (size if (found[1] == 'sub') != bool(found[2]) else -size)
    return None if words.endswith(',%rsp') else depth


def follow(code, places, depths, start, depth):
    """Fills in the depths of all that is reached from an instruction."""
    left = [(start, depth)]
    while left:
        at, depth = left.pop()
        while depth is not None and at < len(code) and at not in depths:
            depths[at], words = depth, code[at][1]
            if jump := re.match(r'j\w+ +([0-9a-f]+) ', words):
                left.extend((places[to], depth) for to in [int(jump[1], 16)] if to in places)
            if words.startswith(('ret', 'jmp', 'ud2', 'notrack jmp')):
                break
            at, depth = at + 1, moved(depth, words)


def frames_of(code):
    """For each place where a call returns, how deep the frame is. What tables of jumps lead to is as most calls are."""
    places, depths = {address: at for at, (address, _) in enumerate(code)}, {}
    follow(code, places, depths, 0, 8)
    calls = [at for at, (_, words) in enumerate(code) if words.startswith('call') and at + 1 < len(code)]
    usual = statistics.mode([depths[at] for at in calls if at in depths] or [max(depths.values(), default=8)])
    for at in calls:
        yield code[at + 1][0], depths.get(at, usual)


def write_frames(program, path):
    table = bytearray(2 * program.stat().st_size)
    for _, code in functions_of(program):
        for back, depth in frames_of(code):
            struct.pack_into('<H', table, 2 * back, depth)
    path.write_bytes(table)


# ---- runs

def prepare(program, library, frames):
    source = HERE / 'allocations.rs'
    if not library.exists() or library.stat().st_mtime < source.stat().st_mtime:
        words = ['rustc', '--edition', '2024', '-C', 'opt-level=3', '--crate-type', 'cdylib', '-o', library, source]
        subprocess.run(words, check=True)
    write_frames(program, frames)


def counted(words, library, frames, event):
    """What a run took: the first line of numbers, and the numbers of each path that leads to `malloc`."""
    folder, told = words.room / 'run', words.room / 'allocations'
    shutil.rmtree(folder, ignore_errors=True)
    folder.mkdir(parents=True)
    more = {'LD_PRELOAD': library, 'ALLOCATIONS_FRAMES': frames, 'ALLOCATIONS_OUT': told, 'ALLOCATIONS_AT': str(event)}
    with open(words.script, 'rb') as script, open(words.room / 'text', 'wb') as text:
        subprocess.run([words.program.resolve(), 'build'], stdin=script, stdout=text, cwd=folder, check=True,
                       env={**os.environ, **{name: str(value) for name, value in more.items()}})
    rows = [[int(word) for word in line.split()] for line in told.read_text().splitlines()]
    return rows[0], rows[1:]


def named(program):
    """The function of a return address."""
    parts = [line.split(' ', 2) for line in told_by('nm', '-n', program) if re.match('[0-9a-f]+ [tT] ', line)]
    starts = [int(part[0], 16) for part in parts]
    return lambda back: parts[bisect.bisect(starts, back - 1) - 1][2].split('::<')[0]


def cause_of(path):
    for frame in path:
        for cause, rule in CAUSES:
            if re.search(rule, frame):
                outer = ' '.join(path)
                return cause + next((more for name, more in PURPOSES.get(cause, []) if name in outer), '')
    return REST


# ---- the table

def summed(rows, key):
    sums = collections.defaultdict(lambda: [0, 0, 0])
    for row in rows:
        for place in range(3):
            sums[key(row)][place] += row[place]
    return sorted(sums.items(), key=lambda pair: -pair[1][1])


def main():
    parser = argparse.ArgumentParser(description=__doc__, formatter_class=argparse.RawDescriptionHelpFormatter)
    parser.add_argument('script', type=Path)
    parser.add_argument('--program', type=Path, default=PROGRAM)
    parser.add_argument('--room', type=Path, default=ROOM / 'allocations')
    parser.add_argument('--paths', type=int, default=0)
    words = parser.parse_args()
    words.room.mkdir(parents=True, exist_ok=True)
    library, frames = words.room / 'allocations.so', words.room / 'frames'
    prepare(words.program, library, frames)
    head, _ = counted(words, library, frames, 0)
    (most, event, events), rows = counted(words, library, frames, head[1])
    name = named(words.program)
    paths = {tuple(row[4:]): [frame for frame in map(name, row[4:]) if not frame.startswith('rattle_')] for row in rows}
    size = words.script.stat().st_size
    print(f'{size / 1e6:.1f} MB; most is live after {event} of {events} requests: {most / 1e6:.1f} MB')
    print(f'{"times":>9} {"MB taken":>9} {"MB live":>8}')
    for cause, (times, taken, live) in summed(rows, lambda row: cause_of(paths[tuple(row[4:])])):
        print(f'{times:9} {taken / 1e6:9.1f} {live / 1e6:8.1f} {cause}')
    shown = summed(rows, lambda row: ' < '.join(dict.fromkeys(paths[tuple(row[4:])])))
    for path, (times, taken, live) in shown[:words.paths]:
        print(f'{times:9} {taken / 1e6:9.1f} {live / 1e6:8.1f} {path}')


if __name__ == '__main__':
    main()
