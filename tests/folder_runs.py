#!/usr/bin/env python3
"""Runs the program in folders, over each script of crates/seg_cases/data that `build` ends with Done, and reads the files that it leaves by
docs/FORMATS.md (read_segment.py): the printed texts are to be those of the files, and the columns and token totals right.

usage: folder_runs.py PROGRAM
"""
import json
import os
import shutil
import subprocess
import sys
import tempfile
from pathlib import Path

from formats import Malformed
from read_segment import index_in, segment_text

DATA = Path(__file__).resolve().parent.parent / 'crates' / 'seg_cases' / 'data'
# a title of 41 tokens is left of two documents: its length id stands for 40
KNOWN_TOTALS = {'full/long_title_left': {0: 40}}
# a filter drops what no column holds together with the rest, and an index has no filters
MERGE_REFUSED = 'columns/numbers_of_a_filter',


def expect(holds, what):
    if not holds:
        raise Malformed(what)


def text_of(folder, label, is_full):
    return ''.join(segment_text(segment, label, is_full) for segment in index_in(folder))


class Room:
    """A folder that the program runs in."""

    def __init__(self, program, folder):
        self.program, self.folder = program, folder
        self.work, self.out = folder / 'work', folder / 'out'

    def run(self, script, *words):
        ran = subprocess.run([self.program, *words], input=script, cwd=self.folder, capture_output=True)
        expect(ran.returncode == 0, f'{words} ends with {ran.returncode}: {ran.stderr.decode()}')
        return ran.stdout.decode()

    def try_build(self, script, known_total):
        text = self.run(script, 'build', '--full')
        expect(text == text_of(self.work, 'work', True) + text_of(self.out, 'output', True), 'build --full prints another text')
        work, (output,) = index_in(self.work), index_in(self.out)
        for segment in work:
            segment.check_from_documents()
        for segment, dropped in zip(work, json.loads(script).get('filters') or []):
            if dropped:
                segment.alive = [is_alive and document not in dropped['drop'] for document, is_alive in enumerate(segment.alive)]
        output.check_merged_from(work)
        expect(known_total in (None, output.totals), f'the token totals are {output.totals}')

    def try_show(self):
        expect(self.run(b'', 'show') == text_of(self.work, 'segment', True), 'show prints another text')

    def try_merge(self):
        shutil.rmtree(self.out)
        expect(self.run(b'', 'merge') == text_of(self.out, 'output', False), 'merge prints another text')
        merged, = index_in(self.out)
        expect(merged.id == 32 * 'f', 'the merged segment has another id')
        merged.check_merged_from(index_in(self.work))


def main():
    program = os.path.abspath(sys.argv[1])
    cases = [path for path in sorted(DATA.glob('*/*.txt')) if '.' not in path.stem and not path.with_suffix('.words').exists()]
    for path in cases:
        case = f'{path.parent.name}/{path.stem}'
        with tempfile.TemporaryDirectory() as folder:
            room = Room(program, Path(folder))
            try:
                room.try_build(path.with_suffix('.json').read_bytes(), KNOWN_TOTALS.get(case))
                room.try_show()
                if case not in MERGE_REFUSED:
                    room.try_merge()
            except Malformed as wrong:
                sys.exit(f'{case}: {wrong}')
    print(f'{len(cases)} scripts: all texts are those of the files, and the columns and token totals are right')


if __name__ == '__main__':
    main()
