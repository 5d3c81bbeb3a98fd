#!/usr/bin/env python3
"""Runs the program over scripts that are hard by their shape and not by their size, and prints how its time grows.

usage: hostile.py [PROGRAM] [--only SHAPE,SHAPE] [--seconds 2] [--repeat 3] [--most 1.2] [--limit 120] [--room FOLDER]
                  [--sizes N,N,..] [--instructions [--each-byte]]

Each shape is made at two sizes, the second twice the first. The first is doubled until a run takes two seconds of
processor time, or until the second would be longer than a script may be. Of three runs of each, in turn, the least
counts. `growth` is by how much the time grew, over the growth of the script: 1 is linear. The status is 1 where it is
above 1.2, or where a run fails or takes more than the limit. With --sizes a shape is made at those sizes, and each is
printed beside the next one.

With --instructions each shape is run once at its first size and once at twice that size, under `valgrind`, which counts
the program's instructions: the same at each run, whatever else the machine does. What the system does isn't counted.
The C library is told to clear memory without `rep stosb`, for `valgrind` counts each byte that one clears as an
instruction of its own. With --each-byte it isn't told so.

  batches    a batch for each document
  fields     many fields, without lengths, and ten documents of one pair for each field
  deletes    100 batches, and a delete of each second document by a term of its own
  deletes-over-batches    a batch for each document, and as many deletes by words that many have
  text       one document of one long text
  pairs      one document of many short texts
  wide       as many fields without lengths as documents, each of one pair
  long-key   a JSON key of a megabyte above many leaves of one value
  paths      many paths of JSON in each of 1,000 documents
  columns    as many fields in columns as documents, each of one number
  distinct   100 batches of documents with a text of their own in a column
  catalogue, log, stored, textids    those of gen_corpus.py
"""
import argparse
import json
import random
import re
import sys
from pathlib import Path

from bench import PROGRAM, ROOM, best, corpus, run
from gen_corpus import LIMIT

WORDS = [f'w{number}' for number in range(5000)]


# ---- shapes

def entry(name, **more):
    return {'name': name, 'kind': 'text', 'stored': True, 'index': 'positions', 'tokenizer': 'default', **more}


def text(rng, count):
    return ' '.join(rng.choices(WORDS, k=count))


def addition(*pairs):
    return {'add': list(pairs)}


def one_field(operations, cuts=()):
    return {'schema': [entry('t')], 'cuts': list(cuts), 'operations': operations}


def batches(rng, count):
    return one_field([addition(['t', text(rng, 4)]) for _ in range(count)], range(1, count))


def fields(rng, count):
    return {
        'schema': [entry(f'f{number}', norms=False) for number in range(count)],
        'operations': [addition([f'f{rng.randrange(count)}', text(rng, 3)]) for _ in range(10 * count)],
    }


def deletes(rng, count):
    documents = [addition(['t', f'id{number} {text(rng, 4)}']) for number in range(count)]
    gone = [{'delete': ['t', f'id{number}']} for number in range(0, count, 2)]
    return one_field(documents + gone, [count * batch // 100 for batch in range(1, 100)])


def deletes_over_batches(rng, count):
    documents = [addition(['t', text(rng, 4)]) for _ in range(count)]
    gone = [{'delete': ['t', f'w{number}']} for number in range(count)]
    return one_field(documents + gone, range(1, count))


def long_text(rng, count):
    return one_field([addition(['t', text(rng, count)])])


def pairs(rng, count):
    return one_field([addition(*(['t', text(rng, 3)] for _ in range(count)))])


def wide(rng, count):
    return {
        'schema': [entry(f'f{number}', norms=False) for number in range(count)],
        'operations': [addition([f'f{number}', text(rng, 3)]) for number in range(count)],
    }


def json_field(operations):
    return {'schema': [{'name': 'j', 'kind': 'json', 'index': 'positions', 'tokenizer': 'default'}], 'operations': operations}


def long_key(rng, count):
    return json_field([addition(['j', {'k' * 1000000: [7] * count}])])


def paths(rng, count):
    values = {f'k{number}': number for number in range(count)}
    return json_field([addition(['j', values]) for _ in range(1000)])


def columns(rng, count):
    return {
        'schema': [{'name': f'f{number}', 'kind': 'u64', 'fast': True} for number in range(count)],
        'operations': [addition([f'f{number}', rng.randrange(100000)]) for number in range(count)],
    }


def distinct(rng, count):
    return {
        'schema': [{'name': 't', 'kind': 'text', 'fast': True}],
        'operations': [addition(['t', f'{rng.randrange(10 ** 9)} {number}']) for number in range(count)],
        'cuts': [count * batch // 100 for batch in range(1, 100)],
    }


SHAPES = {
    'batches': (batches, 1000),
    'fields': (fields, 500),
    'deletes': (deletes, 25000),
    'deletes-over-batches': (deletes_over_batches, 500),
    'text': (long_text, 200000),
    'pairs': (pairs, 50000),
    'wide': (wide, 2000),
    'long-key': (long_key, 50000),
    'paths': (paths, 500),
    'columns': (columns, 500),
    'distinct': (distinct, 20000),
    'catalogue': (None, 1000),
    'log': (None, 1000),
    'stored': (None, 1000),
    'textids': (None, 1000),
}
# Smaller ones, for counting.
COUNTED = {'deletes': 5000, 'deletes-over-batches': 100, 'text': 50000, 'pairs': 10000, 'paths': 10, 'batches': 200,
           'distinct': 10000}


# ---- runs

HEAD = f'{"shape":21} {"size":>8} {"MB":>7} {"CPU s":>7} {"next MB":>9} {"CPU s":>7} {"growth":>7} {"s/MB":>7}'


def script_of(words, name, make, count):
    if not make:
        return corpus(words.room, [str(count), '7', name])
    script = words.room / f'hostile-{name}.{count}.json'
    script.write_text(json.dumps(make(random.Random(5), count), separators=(',', ':')))
    return script


class Hostile:
    def __init__(self, words):
        self.command, self.words = [Path(words.program).resolve(), 'build'], words

    def run(self, script):
        return run(self.command, self.words.room, script, self.words.limit)

    def first_size(self, name, make, count):
        """The first size whose run takes long enough, its script, and what that run took."""
        while True:
            script = script_of(self.words, name, make, count)
            got = self.run(script)
            if got['status'] != 'done' or got['cpu'] >= self.words.seconds or 4.1 * script.stat().st_size > LIMIT:
                return count, script, got
            script.unlink()
            count *= 2

    def measure(self, name):
        """Prints the lines of a shape, and answers whether it grows as is wanted."""
        make, count = SHAPES[name]
        if self.words.sizes:
            counts = self.words.sizes
            scripts = [script_of(self.words, name, make, count) for count in counts]
            found = [[] for _ in scripts]
        else:
            count, script, got = self.first_size(name, make, count)
            counts = [count, 2 * count]
            scripts = [script, script_of(self.words, name, make, 2 * count)]
            found = [[got], []]
        for turn in range(self.words.repeat):
            for script, runs in zip(scripts, found):
                if len(runs) <= turn:
                    runs.append(self.run(script))
        sizes = [script.stat().st_size for script in scripts]
        for script in scripts:
            script.unlink()
        return all([self.tell(name, counts[at], sizes[at:at + 2], found[at:at + 2]) for at in range(len(counts) - 1)])

    def tell(self, name, count, sizes, found):
        start = f'{name:21} {count:8}'
        if failed := [got for got in found[0] + found[1] if got['status'] != 'done']:
            print(f'{start} {failed[0]["status"]}', flush=True)
            return False
        first, second = best(found[0])['cpu'], best(found[1])['cpu']
        growth = second / first / (sizes[1] / sizes[0])
        print(f'{start} {sizes[0] / 1e6:7.2f} {first:7.3f} {sizes[1] / 1e6:9.2f} {second:7.3f} {growth:7.2f}'
              f' {second / (sizes[1] / 1e6):7.2f}', flush=True)
        return growth <= self.words.most


# For the C library: no `rep stosb` up to that many bytes.
BY_WORDS = 'GLIBC_TUNABLES=glibc.cpu.x86_rep_stosb_threshold=1000000000'


class Counted:
    """As `Hostile`, by instructions."""

    def __init__(self, words):
        self.words = words
        setting = [] if words.each_byte else [BY_WORDS]
        self.command = ['env', *setting, 'valgrind', '--tool=cachegrind', '--cache-sim=no', '--cachegrind-out-file=/dev/null',
                        '--log-file=counted', Path(words.program).resolve(), 'build']

    def count(self, script):
        got = run(self.command, self.words.room, script, self.words.limit)
        if got['status'] != 'done':
            sys.exit(f'{script.name}: {got["status"]}')
        told = (self.words.room / 'run' / 'counted').read_text()
        return int(re.search(r'I\s+refs:\s+([\d,]+)', told)[1].replace(',', '')), script.stat().st_size

    def measure(self, name):
        make, count = SHAPES[name]
        count = COUNTED.get(name, count)
        counts = self.words.sizes or [count, 2 * count]
        told = [self.count(script_of(self.words, name, make, count)) for count in counts]
        return all([self.tell(name, *pair) for pair in zip(counts, told, told[1:])])

    def tell(self, name, count, before, after):
        (first, size), (second, twice) = before, after
        growth = second / first / (twice / size)
        print(f'{name:21} {count:8} {size / 1e6:7.2f} {first / 1e6:7.0f} {twice / 1e6:9.2f} {second / 1e6:7.0f} {growth:7.2f}'
              f' {second / twice:7.0f}', flush=True)
        return growth <= self.words.most


def main():
    parser = argparse.ArgumentParser(description=__doc__, formatter_class=argparse.RawDescriptionHelpFormatter)
    parser.add_argument('program', nargs='?', default=PROGRAM)
    parser.add_argument('--only', default=','.join(SHAPES))
    parser.add_argument('--seconds', type=float, default=2)
    parser.add_argument('--repeat', type=int, default=3)
    parser.add_argument('--most', type=float, default=1.2)
    parser.add_argument('--limit', type=float, default=120)
    parser.add_argument('--room', type=Path, default=ROOM)
    parser.add_argument('--sizes', type=lambda text: [int(size) for size in text.split(',')])
    parser.add_argument('--instructions', action='store_true')
    parser.add_argument('--each-byte', action='store_true')
    words = parser.parse_args()
    words.room.mkdir(parents=True, exist_ok=True)
    hostile = Counted(words) if words.instructions else Hostile(words)
    print(HEAD.replace('CPU s', 'million').replace('   s/MB', '  a byte') if words.instructions else HEAD, flush=True)
    grown = [hostile.measure(name) for name in words.only.split(',')]
    sys.exit(0 if all(grown) else 1)


if __name__ == '__main__':
    main()
