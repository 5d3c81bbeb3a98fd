#!/usr/bin/env python3
"""Counts what calls of the layers below the program cost, and prints tables.

usage: layers.py [--program PATH] [--largest 1000000] [--room FOLDER] [--only look-up,open,merge,get]

Without PATH the program is seg_bench, which scratch.py proves and builds in a scratch checkout. The files are written here, as
docs/FORMATS.md has them. valgrind counts the instructions of a run, which are the same each time; a call costs what the run
takes above one that does it 0 times, divided by how often. The most memory is that of Debian's `time`.
"""
import argparse
import math
import os
import re
import struct
import subprocess
import sys
import tempfile
from pathlib import Path

from scratch import program


# ---- files

def dictionary(numbers):
    """A term dictionary of these numbers, ascending, each in four bytes; each has 3 bytes of postings and one of positions."""
    count = len(numbers)
    keys = b''.join(struct.pack('>I', number) for number in numbers)
    ends = b''.join(struct.pack('<Q', 4 * at + 4) for at in range(count))
    infos = b''.join(struct.pack('<IQQ', 1, 3 * at + 3, at + 1) for at in range(count))
    store = struct.pack('<QQQ', count, 0, 0) + infos
    return struct.pack('<Q', count) + ends + keys + store + struct.pack('<QII', len(store), 1, 3)


def postings(count):
    """The postings of that many terms: each once, in one of 100 documents."""
    return struct.pack('<Q', count) + b''.join(bytes([2, at % 100, 1]) for at in range(count))


def store(documents, in_block):
    """A store of that many documents, each of one text of 60 bytes, and that many in a block."""
    document = bytes([1, 0, 1, 60]) + b'x' * 60
    out, checkpoints, done = bytearray(), bytearray(), 0
    while done < documents:
        count = min(in_block, documents - done)
        done += count
        out += document * count
        out += b''.join(struct.pack('<Q', len(document) * (at + 1)) for at in range(count))
        out += struct.pack('<I', count)
        checkpoints += struct.pack('<IQ', done, len(out))
    return bytes(out + checkpoints) + struct.pack('<IIB', len(checkpoints) // 12, documents, 0)


def written(room, name, make):
    """A file of this name, made once."""
    path = room / name
    if not path.exists():
        part = path.with_suffix('.part')
        part.write_bytes(make())
        part.rename(path)
    return path


# ---- runs

def calls_in(profile, function):
    """How often functions were called that have this in their name."""
    names, callee, calls = {}, '', 0
    for line in profile.read_text().splitlines():
        key, _, rest = line.partition('=')
        if key in ('fn', 'cfn'):
            number, _, name = rest.partition(' ')
            names.setdefault(number, name)
            callee = names[number]
        elif key == 'calls' and function in callee:
            calls += int(rest.split()[0])
    return calls


class Bench:
    def __init__(self, program, room):
        self.program, self.room = Path(program).resolve(), room

    def run(self, *words):
        """How many instructions a run takes, how often it compares keys, and what it prints."""
        profile = self.room / 'callgrind.out'
        run = subprocess.run(
            ['valgrind', '--tool=callgrind', f'--callgrind-out-file={profile}', self.program, *map(str, words)],
            capture_output=True, text=True)
        found = re.search(r'Collected : (\d+)', run.stderr)
        if run.returncode or not found:
            sys.exit(f'{words[0]} ended with {run.returncode}: {run.stderr[-500:]}')
        return int(found[1]), calls_in(profile, 'cmp::slices'), int(run.stdout)

    def cost(self, task, times, *files):
        """Instructions and comparisons of keys in one call, and what all calls found."""
        none, some = self.run(task, 0, *files), self.run(task, times, *files)
        return (some[0] - none[0]) / times, (some[1] - none[1]) / times, some[2]

    def peak(self, *words):
        """The most memory of a run, in thousands of bytes."""
        run = subprocess.run(['/usr/bin/time', '-f', '%M', self.program, *map(str, words)], capture_output=True, text=True)
        if run.returncode:
            sys.exit(f'{words[0]} ended with {run.returncode}: {run.stderr}')
        return int(run.stderr) * 1.024


def sizes(largest):
    size = 1000
    while size <= largest:
        yield size
        size *= 10


def terms_file(bench, count):
    return written(bench.room, f'{count}.terms', lambda: dictionary(range(0, 2 * count, 2)))


def field_files(bench, count):
    return (terms_file(bench, count),
            written(bench.room, f'{count}.postings', lambda: postings(count)),
            written(bench.room, f'{count}.positions', lambda: bytes(count)))


def store_file(bench, documents, in_block):
    return written(bench.room, f'{documents}-{in_block}.store', lambda: store(documents, in_block))


# ---- tables

def look_ups(bench, largest):
    print('A look-up in a term dictionary, of which half find their key\n')
    print(f'{"keys":>9} {"log2":>5} {"keys compared":>14} {"instructions":>13}')
    for size in sizes(largest):
        cost, compared, _ = bench.cost('look-up', 20000, terms_file(bench, size))
        print(f'{size:>9} {math.log2(size):5.1f} {compared:14.1f} {cost:13.0f}', flush=True)


def openings(bench, largest):
    print('\nOpening a part: instructions for each of its bytes\n')
    print(f'{"terms":>9} {"dictionary":>11} {"whole field":>12} {"documents":>10} {"store":>6}')
    for size in sizes(largest):
        terms, field, kept = terms_file(bench, size), field_files(bench, size), store_file(bench, size, 256)
        times = max(1, 10000 // size)
        costs = [bench.cost(task, times, *files)[0] / sum(file.stat().st_size for file in files)
                 for task, files in (('open-terms', (terms,)), ('open-field', field), ('open-store', (kept,)))]
        print(f'{size:>9} {costs[0]:11.1f} {costs[1]:12.1f} {size:>10} {costs[2]:6.1f}', flush=True)


def merges(bench, largest):
    count = largest // 10
    print(f'\nA merge of {count} terms in all, no two alike: instructions for each term, and the most memory without it and with it\n')
    print(f'{"streams":>9} {"instructions":>13} {"and stream":>11} {"files KB":>9} {"opened KB":>10} {"merged KB":>10}')
    for streams in 1, 2, 4, 8, 16, 32:
        files = [written(bench.room, f'{count}-{streams}-{at}.terms', lambda: dictionary(range(at, count, streams))) for at in range(streams)]
        cost, _, found = bench.cost('merge', 1, *files)
        if found != count:
            sys.exit(f'{found} terms came')
        total = sum(file.stat().st_size for file in files)
        opened, merged = bench.peak('merge', 0, *files), bench.peak('merge', 1, *files)
        print(f'{streams:>9} {cost / count:13.0f} {cost / count / streams:11.0f} {total / 1000:9.0f} {opened:10.0f} {merged:10.0f}', flush=True)


def gets(bench, largest):
    print('\nReading one document of a store, each of 64 bytes\n')
    print(f'{"documents":>10} {"in a block":>11} {"blocks":>8} {"instructions":>13}')
    for size, in_block in [(size, 256) for size in sizes(largest)] + [(largest, many) for many in (1, 16, 4096)]:
        cost, _, _ = bench.cost('get', 20000, store_file(bench, size, in_block))
        print(f'{size:>10} {in_block:>11} {-(-size // in_block):>8} {cost:13.0f}', flush=True)


TABLES = {'look-up': look_ups, 'open': openings, 'merge': merges, 'get': gets}


def main():
    parser = argparse.ArgumentParser(description=__doc__, formatter_class=argparse.RawDescriptionHelpFormatter)
    parser.add_argument('--program', type=Path)
    parser.add_argument('--largest', type=int, default=1000000)
    parser.add_argument('--room', type=Path, default=Path(tempfile.gettempdir()) / 'segments-bench')
    parser.add_argument('--only', default=','.join(TABLES))
    words = parser.parse_args()
    words.room.mkdir(parents=True, exist_ok=True)
    bench = Bench(words.program or program('seg_bench'), words.room)
    for name in words.only.split(','):
        TABLES[name](bench, words.largest)


if __name__ == '__main__':
    main()
