#!/usr/bin/env python3
"""Measures indices that are built in parts and merged into one by `merge_indices`, and prints a table.

usage: scale.py parts [--documents 80000] [--parts 1,2,4,8] ..
       scale.py copy [--indices 10] [--megabytes 40] ..
       both: [--program PATH] [--merge PATH] [--repeat 3] [--room FOLDER]

`--program` is `segments`, which any run of ./segments proves and builds, and `--merge` is `seg_merge_bench`, which
scratch.py proves and builds in a scratch checkout where it isn't given. Each figure is of the quickest of several runs:
seconds by the clock, and in brackets of processor time.

parts: the documents and deletes of gen_corpus.py's `textids`, cut into parts. Each part is built as on a machine of its
own: its operations, and after them the deletes of all later parts. The indices in `out` are merged at once, and by
twos in a tree. There are 8 batches in all. `build` is the part that took longest, `tree` the longest way through the
tree, where merges of one level go beside each other, `all` the sum of its merges, and `machines` build and tree
together. `peak` is the most memory of the merge at once, for each byte of the indices. `text` says whether both merged
indices are shown as that of the whole script is, but for the segment's id, and `alike` which files of all three have
the same bytes.

copy: indices without deletes, of which stores make up nine tenths, are merged; each of their files is read whole and
written, with a sync (copy_whole.rs, built by `rustc`); and each is copied by `cp`, with a `sync`, which hands no byte to
a program. `cold` is without the files in the system's cache, `warm` with them.
"""
import argparse
import hashlib
import os
import random
import shutil
import subprocess
import sys
import time
from dataclasses import dataclass
from pathlib import Path

from bench import PROGRAM, ROOM, bytes_below, wait_for
from gen_corpus import TEXT_ID, body, json_text, operations_of, schema_of, vocabulary
from scratch import program

HERE = Path(__file__).resolve().parent
SHAPE = 'textids'
BATCHES = 8
EXTENSIONS = 'term', 'idx', 'pos', 'store', 'fast', 'fieldnorm'
KEPT = [TEXT_ID, {'name': 'body', 'kind': 'text', 'stored': True}]
COPY = 'out=$1; shift; mkdir "$out"; n=0; for file; do n=$((n+1)); cp "$file" "$out/$n"; sync "$out/$n"; done'


# ---- runs

@dataclass(frozen=True)
class Took:
    wall: float
    cpu: float
    peak: int = 0

    def clock(self):
        return self.wall

    def __add__(self, other):
        return Took(self.wall + other.wall, self.cpu + other.cpu, max(self.peak, other.peak))

    def __str__(self):
        return f'{self.wall:.2f} ({self.cpu:.2f})'


NOTHING = Took(0, 0)


def fresh(folder):
    shutil.rmtree(folder, ignore_errors=True)
    folder.mkdir(parents=True)
    return folder


def run(command, folder, given='/dev/null'):
    """What a command in a folder took. Its text stays in a file there."""
    began = time.monotonic()
    with open(given, 'rb') as source, (folder / 'text').open('wb') as out:
        child = subprocess.Popen(command, stdin=source, stdout=out, cwd=folder)
        used = wait_for(child, 1800)
    wall = time.monotonic() - began
    if used is None or child.returncode:
        sys.exit(f'{command[0]} in {folder}: status {child.returncode}')
    return Took(wall, used.ru_utime + used.ru_stime, used.ru_maxrss * 1024)


def least(times, work):
    """The quickest of several runs."""
    return min((work() for _ in range(times)), key=Took.clock)


def build(words, script, folder):
    """Builds a script, of whose merged segment the index is in `out`."""
    return least(words.repeat, lambda: run([words.program, 'build'], fresh(folder), script))


def merge(words, output, indices):
    """Merges indices into a new one."""
    def once():
        shutil.rmtree(output, ignore_errors=True)
        return run([words.merge, output, *indices], words.room)
    return least(words.repeat, once)


def shown(words, index):
    """What `show` prints of an index of one segment, without the id of the segment."""
    folder = fresh(words.room / 'shown')
    (folder / 'work').symlink_to(index)
    run([words.program, 'show'], folder)
    with (folder / 'text').open('rb') as text:
        head = text.readline().split()
        return head[:1] + head[2:], hashlib.file_digest(text, 'sha256').hexdigest()


def file_of(index, extension):
    return next(index.glob(f'*.{extension}')).read_bytes()


# ---- parts of one corpus

def part_scripts(words, operations, parts):
    """The scripts of the parts: of each its operations, and after them the deletes of all later parts."""
    scripts, batches = [], BATCHES // parts
    for part in range(parts):
        begin, end = (len(operations) * place // parts for place in (part, part + 1))
        later = [operation for operation in operations[end:] if operation.startswith('{"delete"')]
        cuts = [(end - begin) * batch // batches for batch in range(1, batches)]
        script = words.room / f'part-{parts}-{part}.json'
        script.write_text(script_text(schema_of(SHAPE), cuts, operations[begin:end] + later))
        scripts.append(script)
    return scripts


def script_text(schema, cuts, operations):
    return f'{{"schema":{json_text(schema)},"cuts":{json_text(cuts)},"operations":[{",".join(operations)}]}}'


def merge_in_tree(words, indices):
    """Merges neighbours by twos until one index is left: this one, the longest way to it, and the sum of all merges."""
    longest, total, level = NOTHING, NOTHING, 0
    while len(indices) > 1:
        made, slowest = [], NOTHING
        for at in range(0, len(indices) - 1, 2):
            made.append(words.room / f'tree-{level}-{at}')
            took = merge(words, made[-1], indices[at:at + 2])
            total, slowest = total + took, max(slowest, took, key=Took.clock)
        indices = made + indices[len(made) * 2:]
        longest, level = longest + slowest, level + 1
    return indices[0], longest, total


def row(words, operations, parts, whole):
    """A line of the table, and the index of the whole script."""
    folders = [words.room / f'built-{parts}-{part}' for part in range(parts)]
    built = [build(words, script, folder) for script, folder in zip(part_scripts(words, operations, parts), folders)]
    slowest = max(built, key=Took.clock)
    indices = [folder / 'out' for folder in folders]
    size = sum(map(bytes_below, indices))
    whole = whole or indices[0]
    if parts == 1:
        return f'{parts:>5} {slowest!s:>14} {"":>14} {"":>14} {"":>14} {slowest!s:>14} {size / 1e6:7.1f}', whole
    at_once = words.room / 'at-once'
    took = merge(words, at_once, indices)
    merged, longest, total = merge_in_tree(words, indices)
    expected = shown(words, whole)
    same = 'same' if shown(words, at_once) == shown(words, merged) == expected else 'ANOTHER'
    alike = [e for e in EXTENSIONS if file_of(at_once, e) == file_of(merged, e) == file_of(whole, e)]
    line = (f'{parts:>5} {slowest!s:>14} {took!s:>14} {longest!s:>14} {total!s:>14} {slowest + longest!s:>14}'
            f' {size / 1e6:7.1f} {bytes_below(merged) / 1e6:7.1f} {took.peak / size:6.1f} {same} {",".join(alike)}')
    return line, whole


def measure_parts(words):
    operations = list(operations_of(random.Random(7), SHAPE, words.documents))
    print(f'{"parts":>5} {"build":>14} {"at once":>14} {"tree":>14} {"all":>14} {"machines":>14}'
          f' {"MB":>7} {"merged":>7} {"peak":>6} text alike', flush=True)
    whole = None
    for parts in map(int, words.parts.split(',')):
        line, whole = row(words, operations, parts, whole)
        print(line, flush=True)


# ---- beside a copy

def stored_script(words, place):
    """A script of one batch, of documents with an id and a text that is only stored, for an index of that many bytes."""
    rng, words_of_texts = random.Random(place), vocabulary(random.Random(1))
    weights = list(range(1, len(words_of_texts) + 1))
    bodies = [body(rng, words_of_texts, weights) for _ in range(1000)]
    operations, size = [], 0
    while size < words.megabytes * 1_000_000:
        number = f'{place:02}{len(operations):07}'
        operations.append(f'{{"add":[["id","{number}"],["body","{bodies[len(operations) % len(bodies)]}"]]}}')
        size += len(operations[-1])
    script = words.room / f'stored-{place}.json'
    script.write_text(script_text(KEPT, [], operations))
    return script


def forget(file):
    """Takes a file out of the system's cache."""
    with file.open('rb') as opened:
        os.posix_fadvise(opened.fileno(), 0, 0, os.POSIX_FADV_DONTNEED)


def measure_copy(words):
    folders = [words.room / f'stored-{place}' for place in range(words.indices)]
    for place, folder in enumerate(folders):
        run([words.program, 'build'], fresh(folder), stored_script(words, place))
    indices = [folder / 'out' for folder in folders]
    files = [file for index in indices for file in sorted(index.iterdir())]
    size, stores = sum(map(bytes_below, indices)), sum(len(file_of(index, 'store')) for index in indices)
    print(f'{words.indices} indices, {size / 1e6:.1f} MB, of which stores make up {stores / size:.3f}')
    whole = words.room / 'copy_whole'
    subprocess.run(['rustc', '--edition', '2021', '-C', 'opt-level=3', '-o', whole, HERE / 'copy_whole.rs'], check=True)
    print(f'{"":>5} {"merge":>14} {"read, write":>14} {"times":>6} {"cp, sync":>14} {"times":>6} {"peak":>6}', flush=True)
    for name, is_cold in (('warm', False), ('cold', True)):
        merged, written, copied = [], [], []
        for _ in range(words.repeat):
            merged.append(run_over(words, files, is_cold, 'merged', [words.merge], indices))
            written.append(run_over(words, files, is_cold, 'written', [whole], files))
            copied.append(run_over(words, files, is_cold, 'copied', ['sh', '-c', COPY, 'sh'], files))
        took, plain, copy = (min(found, key=Took.clock) for found in (merged, written, copied))
        print(f'{name:>5} {took!s:>14} {plain!s:>14} {took.wall / plain.wall:6.2f} {copy!s:>14}'
              f' {took.wall / copy.wall:6.2f} {took.peak / size:6.1f}', flush=True)


def run_over(words, files, is_cold, output, command, given):
    """What a command took that reads these files into a new folder, with or without them in the system's cache."""
    shutil.rmtree(words.room / output, ignore_errors=True)
    os.sync()
    touch = forget if is_cold else Path.read_bytes
    for file in files:
        touch(file)
    return run([*command, words.room / output, *given], words.room)


def main():
    parser = argparse.ArgumentParser(description=__doc__, formatter_class=argparse.RawDescriptionHelpFormatter)
    parser.add_argument('task', choices=('parts', 'copy'))
    parser.add_argument('--program', type=Path, default=PROGRAM)
    parser.add_argument('--merge', type=Path)
    parser.add_argument('--documents', type=int, default=80_000)
    parser.add_argument('--parts', default='1,2,4,8')
    parser.add_argument('--indices', type=int, default=10)
    parser.add_argument('--megabytes', type=float, default=40)
    parser.add_argument('--repeat', type=int, default=3)
    parser.add_argument('--room', type=Path, default=ROOM / 'scale')
    words = parser.parse_args()
    words.program, words.merge = words.program.resolve(), (words.merge or program('seg_merge_bench')).resolve()
    words.room = fresh(words.room / words.task).resolve()
    print(f'{os.cpu_count()} processors, load {os.getloadavg()[0]:.1f}')
    {'parts': measure_parts, 'copy': measure_copy}[words.task](words)


if __name__ == '__main__':
    main()
