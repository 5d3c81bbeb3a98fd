#!/usr/bin/env python3
"""Runs the program over random scripts, in folders, and compares all it prints with reference_text.py, and its files with docs/FORMATS.md.

usage: random_scripts.py PROGRAM [--runs 200] [--seed 1]
       random_scripts.py --script SEED      prints one script

A script has fields of every kind, at random indexed, stored and fast, and few distinct values, so that documents share terms and batches
share texts. Of each `build --full`, `show` and `merge` are run: text, or status and line, are to be the expected ones, and the files are
read and checked (read_segment.py). A few scripts are refused: for numbers that no column holds, or a tokenizer that isn't known. A script
that goes wrong is printed.
"""
import argparse
import json
import os
import random
import shutil
import subprocess
import sys
import tempfile
from pathlib import Path

from formats import Malformed
from read_segment import index_in
from reference_text import text_lines
from script_values import Refused

WORDS = 'red', 'Blue', 'mug', 'tea', 'pan', 'a', 'b', 'ü', 'x-y', '7'
KEYS = 'a', 'b', 'a.b', '', 'size', 'ü'
MOMENTS = ('1969-12-31T23:59:59.5Z', '1970-01-01T00:00:00.000000001Z', '2024-02-29T12:30:00.25+01:00', '2024-02-29T11:30:00.250Z',
           '2024-02-29T11:30:00.2500001Z')
FACETS = '/', '/a', '/a/b', '/a/b/c', '/b', '/ü/a', '/a b'
BYTES = '', 'AA==', 'AQID', 'AQI=', '/w=='
ADDRESSES = '10.0.0.1', '0:0:0:0:0:ffff:a00:1', '::', '::1', '2001:db8::1'
KINDS = 'text', 'u64', 'i64', 'bool', 'date', 'facet', 'bytes', 'ip', 'json'
TOKENIZERS = None, 'default', 'raw', 'whitespace'


class Maker:
    """Draws a script."""

    def __init__(self, seed):
        self.random = random.Random(seed)
        self.has_mixed = self.chance(0.25)
        self.schema = [self.entry(kind, number) for number, kind in enumerate(self.random.choices(KINDS, k=self.random.randint(1, 7)))]

    def chance(self, part):
        return self.random.random() < part

    def entry(self, kind, number):
        draw = self.random.choice
        entry = {'name': draw(('f', 'f.a', 'ü', 'a "b"', 'F')) + str(number), 'kind': kind, 'stored': self.chance(0.5)}
        if kind == 'facet':
            return entry
        entry['fast'] = self.chance(0.7)
        entry['index'] = draw(('no', 'basic', 'freqs', 'positions') if kind in ('text', 'json') else ('no', 'basic'))
        if self.chance(0.3):
            entry['norms'] = self.chance(0.5)
        if kind in ('text', 'json'):
            entry['tokenizer'], entry['fast_tokenizer'] = draw(TOKENIZERS), draw(TOKENIZERS)
            if self.chance(0.02):
                entry['fast_tokenizer'] = 'odd'
        if kind == 'date':
            entry['precision'] = draw(('seconds', 'milliseconds', 'microseconds', 'nanoseconds'))
        if kind == 'json':
            entry['expand_dots'] = self.chance(0.3)
        return entry

    def text(self):
        return self.random.choice((' ', ', ', '')).join(self.random.choices(WORDS, k=self.random.randint(0, 4)))

    def number(self, kind):
        if kind == 'u64':
            return self.random.choice((0, 1, 2, 7, 2 ** 63, 2 ** 64 - 1))
        return self.random.choice((0, 1, -1, 7, -2 ** 63, 2 ** 63 - 1))

    def leaf(self, kind):
        draw = self.random.choice
        if kind in ('u64', 'i64'):
            return self.number(kind)
        return {'text': self.text, 'bool': lambda: self.chance(0.5), 'date': lambda: draw(MOMENTS), 'facet': lambda: draw(FACETS),
                'bytes': lambda: draw(BYTES), 'ip': lambda: draw(ADDRESSES), 'json': lambda: self.tree(0)}[kind]()

    def json_leaf(self):
        if self.has_mixed and self.chance(0.5):
            return self.random.choice((2 ** 63, -1))
        return self.random.choice((None, True, False, 0, 5, 2 ** 62, self.text(), self.random.choice(MOMENTS)))

    def tree(self, level):
        if level > 3 or self.chance(0.4 if level else 0.1):
            return self.json_leaf()
        if self.chance(0.3):
            return [self.tree(level + 1) for _ in range(self.random.randint(0, 3))]
        if self.chance(0.02):
            return self.deep(self.random.randint(18, 22))
        return {self.random.choice(KEYS): self.tree(level + 1) for _ in range(self.random.randint(0, 3))}

    def deep(self, levels):
        tree = self.json_leaf()
        for _ in range(levels):
            tree = [tree] if self.chance(0.8) else {'d': tree}
        return tree

    def tokens(self):
        texts = self.random.choices(WORDS, k=self.random.randint(0, 3))
        tokens = [{'offset_from': 0, 'offset_to': 1, 'position': 2 * at, 'position_length': 1, 'text': text} for at, text in enumerate(texts)]
        return {'text': ' '.join(texts), 'tokens': tokens}

    def pair(self):
        entry = self.random.choice(self.schema)
        kind = entry['kind']
        if kind == 'text' and self.chance(0.1):
            return [entry['name'], self.tokens(), 'tokens']
        value = self.leaf(kind)
        if kind not in ('json', 'facet') and entry['index'] == 'no' and entry['fast'] and self.chance(0.3):
            value = self.random.choice((None, [], [value], [None, value, [value]]))
        return [entry['name'], value]

    def delete(self):
        """A delete, where there is an indexed field."""
        indexed = [entry for entry in self.schema if entry.get('index') != 'no']
        if not indexed:
            return []
        entry = self.random.choice(indexed)
        if entry['kind'] != 'json':
            return [{'delete': [entry['name'], self.random.choice(WORDS) if entry['kind'] == 'text' else self.leaf(entry['kind'])]}]
        leaf = self.random.choice((5, True, 'red', 'a', self.random.choice(MOMENTS)))
        return [{'delete': [entry['name'], self.random.choice(('a', 'b', 'a.b', 'a\\.b', '', 'size.a')), leaf]}]

    def operations(self):
        for _ in range(self.random.randint(0, 12)):
            if self.chance(0.25):
                yield from self.delete()
            else:
                yield {'add': [self.pair() for _ in range(self.random.randint(0, 6))]}

    def script(self):
        operations = list(self.operations())
        cuts = sorted(self.random.choices(range(len(operations) + 1), k=self.random.randint(0, 3)))
        script = {'schema': self.schema, 'operations': operations, 'cuts': cuts, 'settings': {'docstore_blocksize': self.random.choice((0, 30, 16384))}}
        if self.chance(0.4):
            bounds = [0, *cuts, len(operations)]
            added = [sum('add' in operation for operation in operations[start:end]) for start, end in zip(bounds, bounds[1:])]
            script['filters'] = [self.filter(count) if self.chance(0.6) else None for count in added]
        return script

    def filter(self, size):
        return {'size': size, 'drop': [number for number in range(size) if self.chance(0.3)]}


def expected(script, command, is_full):
    """The status, the text and the line on standard error."""
    try:
        return 0, ''.join(line + '\n' for line in text_lines(json.loads(script), command, is_full)), ''
    except Refused as refused:
        return 4, '', f'refused: {refused}\n'


def try_words(program, folder, script, words, command):
    ran = subprocess.run([program, *words], input=script.encode() if words[0] == 'build' else b'', cwd=folder, capture_output=True)
    found = ran.returncode, ran.stdout.decode(), ran.stderr.decode()
    if found != (wanted := expected(script, command, len(words) > 1)):
        raise Malformed(f'{" ".join(words)} answers {found}, and not {wanted}')
    return ran.returncode == 0


def try_script(program, script, folder):
    if not try_words(program, folder, script, ['build', '--full'], 'build'):
        return 'refused'
    work = index_in(folder / 'work')
    for segment in work:
        segment.check_from_documents()
    try_words(program, folder, script, ['show'], 'show')
    shutil.rmtree(folder / 'out')
    if try_words(program, folder, script, ['merge'], 'merge'):
        merged, = index_in(folder / 'out')
        merged.check_merged_from(work)
    return 'done'


def main():
    parser = argparse.ArgumentParser(description=__doc__, formatter_class=argparse.RawDescriptionHelpFormatter)
    parser.add_argument('program', nargs='?')
    parser.add_argument('--runs', type=int, default=200)
    parser.add_argument('--seed', type=int, default=1)
    parser.add_argument('--script', type=int, metavar='SEED')
    words = parser.parse_args()
    if words.script is not None:
        return print(json.dumps(Maker(words.script).script(), ensure_ascii=False))
    outcomes = []
    for seed in range(words.seed, words.seed + words.runs):
        script = json.dumps(Maker(seed).script(), ensure_ascii=False)
        with tempfile.TemporaryDirectory() as folder:
            try:
                outcomes.append(try_script(os.path.abspath(words.program), script, Path(folder)))
            except Malformed as wrong:
                sys.exit(f'seed {seed}: {wrong}\n{script}')
    print(f'{len(outcomes)} scripts: {outcomes.count("done")} done, {outcomes.count("refused")} refused, all as expected')


if __name__ == '__main__':
    main()
