#!/usr/bin/env python3
"""Times `merge` of indexes of several numbers of segments, each segment of as many documents, and prints a table.

usage: merging.py [--program PATH] [--segments 25,50,100] [--documents 1000] [--repeat 3] [--room FOLDER]

The documents are those of gen_corpus.py without deletes. They are built once for each number of segments; then `merge` is
run over the folder `work` and an empty folder `out`, several times, and the least processor time counts. `grows` is by how
much it grew from the number before, over the growth of the bytes in `work`; 1 is linear. `peak B/B` is the most memory for
each byte in `work`.
"""
import argparse
import shutil
import subprocess
import sys
from pathlib import Path

from bench import PROGRAM, ROOM, bytes_below, corpus, wait_for


def run(program, word, folder, given):
    """What a run in the folder used."""
    with given.open('rb') as source, (folder / f'{word}.text').open('wb') as text:
        child = subprocess.Popen([program, word], stdin=source, stdout=text, cwd=folder)
        used = wait_for(child, 1800)
    if used is None or child.returncode:
        sys.exit(f'{word} in {folder}: status {child.returncode}')
    return used


def merged(words, segments):
    """The bytes of an index, and the best of several merges of its segments."""
    script = corpus(words.room, [str(segments * words.documents), '7', 'undeleted', str(segments)])
    folder = words.room / 'merging'
    shutil.rmtree(folder, ignore_errors=True)
    folder.mkdir(parents=True)
    run(words.program, 'build', folder, script)
    found = []
    for _ in range(words.repeat):
        shutil.rmtree(folder / 'out')
        found.append(run(words.program, 'merge', folder, Path('/dev/null')))
    best = min(found, key=lambda used: used.ru_utime + used.ru_stime)
    return bytes_below(folder / 'work'), best.ru_utime + best.ru_stime, best.ru_maxrss * 1024


def main():
    parser = argparse.ArgumentParser(description=__doc__, formatter_class=argparse.RawDescriptionHelpFormatter)
    parser.add_argument('--program', type=Path, default=PROGRAM)
    parser.add_argument('--segments', default='25,50,100')
    parser.add_argument('--documents', type=int, default=1000)
    parser.add_argument('--repeat', type=int, default=3)
    parser.add_argument('--room', type=Path, default=ROOM)
    words = parser.parse_args()
    words.program = words.program.resolve()
    words.room.mkdir(parents=True, exist_ok=True)
    print(f'{"segments":>8} {"work MB":>8} {"CPU s":>7} {"grows":>6} {"peak B/B":>9}')
    before = None
    for segments in map(int, words.segments.split(',')):
        size, cpu, peak = merged(words, segments)
        grows = f'{cpu / before[1] / (size / before[0]):.2f}' if before else ''
        print(f'{segments:>8} {size / 1e6:8.1f} {cpu:7.2f} {grows:>6} {peak / size:9.1f}', flush=True)
        before = size, cpu


if __name__ == '__main__':
    main()
