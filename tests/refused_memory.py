#!/usr/bin/env python3
"""Refuses each of a run's requests for memory in turn: the run is to end with Memory, or as if nothing had been refused.

usage: refused_memory.py PROGRAM [--every K]

The runs are `build` of five small scripts (two documents and a delete between them, one with filters, one with four batches, one with numbers in columns,
and the catalogue that is the program's stored run), and `merge` and `show` over the work index of the last one. Each is run in a fresh folder with its first request refused, then with its second one, and so on, up
to the first number that it doesn't come to; with --every K only each K-th number is tried. A run is right if it ends

  with status 9, no byte on standard output, and on standard error nothing or the line of Memory, or
  with status 0 and the very text of the undisturbed run;

and if then `out` is no index, the empty one or the whole one, as crash_kills.py reads it, and whole after status 0; `merge` and `show`
are to leave `work` as it was, and `show` also `out`. The status is 1 at the first run that isn't, and 2 where this can't be tried here.

The program itself is run, the proved one, over a small library (refuse_memory.c) that is built by `cc` and stands between it and the C
library (LD_PRELOAD). It needs Linux with glibc. What the C library asks for itself, as for the reading of a folder, is refused too.
"""
import argparse
import json
import os
import shutil
import subprocess
import sys
import tempfile
from collections import Counter
from pathlib import Path

from crash_kills import WHOLE, Wrong, contents, outcome, show

LIBRARY = Path(__file__).resolve().parent / 'refuse_memory.c'
CATALOGUE = Path(__file__).resolve().parent.parent / 'crates' / 'segments' / 'stdin'
MEMORY, LINE = 9, b'memory: not enough\n'
LONGEST = 60  # seconds of a run
FIELD = [{'name': 'title', 'kind': 'text', 'stored': True, 'index': 'positions'}]


class NotHere(Exception):
    """Requests can't be refused here."""


def add(text):
    return {'add': [['title', text]]}


def delete(text):
    return {'delete': ['title', text]}


SCRIPTS = {
    'add, delete, add': {'schema': FIELD, 'operations': [add('a'), delete('a'), add('a')]},
    'filters': {
        'schema': FIELD, 'operations': [add('a b'), add('b c'), add('c d'), add('d e'), delete('e')], 'cuts': [2],
        'filters': [{'size': 2, 'drop': [1]}, {'size': 2, 'drop': [0]}]},
    'four batches': {
        'schema': FIELD, 'operations': [add('a b'), add('b c'), delete('c'), add('c d'), add('d e'), delete('d'), add('e f'), add('a f')],
        'cuts': [2, 4, 6]},
    'numbers': {
        'schema': [{'name': 'attrs', 'kind': 'json', 'fast': True}],
        'operations': [{'add': [['attrs', {'n': 5}]]}, {'add': [['attrs', {'n': 2 ** 63}]]}], 'cuts': [1]},
    'catalogue': json.loads(CATALOGUE.read_text()),
}


class Job:
    """A command over a script, or over an index in `work`."""

    def __init__(self, title, word, script=b'', work=None):
        self.title, self.word, self.script, self.work = title, word, script, work

    def prepare(self, room):
        if self.work is not None:
            shutil.copytree(self.work, room / 'work')


class Machine:
    """The program, with the library that refuses a request."""

    def __init__(self, program, room):
        self.program, self.room, self.library = program, room, room / 'refuse_memory.so'
        if shutil.which('cc') is None:
            raise NotHere('there is no C compiler (cc) on the PATH')
        built = subprocess.run(['cc', '-O1', '-shared', '-fPIC', '-fno-builtin', '-o', self.library, LIBRARY], capture_output=True)
        if built.returncode != 0:
            raise NotHere(f'{LIBRARY.name} could not be built: {built.stderr.decode()}')

    def run(self, job, folder, number):
        """Runs a job with the request of this number refused (none: 0). Answers how it ended, and how many requests there were."""
        report = self.room / 'report'
        report.unlink(missing_ok=True)
        environment = {**os.environ, 'LD_PRELOAD': str(self.library), 'REFUSE_AT': str(number), 'REFUSE_REPORT': str(report)}
        ran = subprocess.run([self.program, job.word], input=job.script, cwd=folder, env=environment, capture_output=True, timeout=LONGEST)
        if ran.returncode < 0:
            raise Wrong(f'the run ended by signal {-ran.returncode}')
        if not report.exists():
            raise NotHere('the program did not load the library that refuses requests')
        return ran, int(report.read_text())


def check_end(ran, text):
    if ran.returncode == MEMORY:
        if ran.stdout or ran.stderr not in (b'', LINE):
            raise Wrong(f'status {MEMORY}, with {ran.stdout!r} on standard output and {ran.stderr!r} on standard error')
    elif (ran.returncode, ran.stdout, ran.stderr) != (0, text, b''):
        raise Wrong(f'status {ran.returncode}, {ran.stdout!r} on standard output and {ran.stderr!r} on standard error')


class Check:
    """What a job leaves and prints undisturbed, and whether a run of it with a refusal is right."""

    def __init__(self, machine, job, folder):
        self.machine, self.job = machine, job
        job.prepare(folder)
        ran, self.requests = machine.run(job, folder, 0)
        if ran.returncode != 0 or not ran.stdout:
            raise Wrong(f'undisturbed it ends with status {ran.returncode}: {ran.stderr!r}')
        if self.requests == 0:
            raise NotHere('the program asks for no memory through the library that refuses it')
        self.text = ran.stdout
        self.whole = b'' if job.word == 'show' else show(machine.program, folder / 'out')[1]

    def check_folders(self, folder, status):
        """Looks at what is in the folders, and answers which of the three the output is."""
        found = outcome(self.machine.program, folder / 'out', self.whole)
        if self.job.word == 'show' and contents(folder / 'out'):
            raise Wrong('out is changed')
        if self.job.word != 'show' and status == 0 and found != WHOLE:
            raise Wrong(f'status 0, and out is {found}')
        if self.job.work is not None and contents(folder / 'work') != contents(self.job.work):
            raise Wrong('work is changed')
        return found

    def refuse(self, folder, number):
        """Runs the job with a request refused: how it ended; nothing where it doesn't come to that request."""
        self.job.prepare(folder)
        ran, requests = self.machine.run(self.job, folder, number)
        check_end(ran, self.text)
        found = self.check_folders(folder, ran.returncode)
        if requests >= number:
            return ('Memory' if ran.returncode else 'Done') + (f', out is {found}' if self.job.word != 'show' else '')
        if ran.returncode != 0:
            raise Wrong(f'status {ran.returncode}, and nothing was refused')
        return None


def ends_of(check, room, every):
    """How the runs with one refusal each end, counted."""
    ends, number = Counter(), 1
    while True:
        folder = room / str(number)
        folder.mkdir()
        try:
            end = check.refuse(folder, number)
        except Wrong as wrong:
            raise Wrong(f'request {number} refused: {wrong}') from None
        shutil.rmtree(folder)
        if end is None:
            return ends
        ends[end] += 1
        number += every


def try_job(machine, job, room, every):
    undisturbed = room / 'undisturbed'
    undisturbed.mkdir(parents=True)
    try:
        check = Check(machine, job, undisturbed)
        ends = ends_of(check, room, every)
    except Wrong as wrong:
        raise Wrong(f'{job.title}: {wrong}') from None
    said = '; '.join(f'{end}: {count}' for end, count in sorted(ends.items()))
    print(f'{job.title}: {check.requests} requests, {ends.total()} refused in turn: {said}', flush=True)


def try_all(program, room, every):
    machine = Machine(program, room)
    for at, (title, script) in enumerate(SCRIPTS.items()):
        try_job(machine, Job(f'build, {title}', 'build', json.dumps(script).encode()), room / f'build{at}', every)
    work = room / f'build{len(SCRIPTS) - 1}' / 'undisturbed' / 'work'
    for word in ('merge', 'show'):
        try_job(machine, Job(word, word, work=work), room / word, every)


def arguments():
    parser = argparse.ArgumentParser(description=__doc__, formatter_class=argparse.RawDescriptionHelpFormatter)
    parser.add_argument('program', type=os.path.abspath)
    parser.add_argument('--every', type=int, default=1)
    return parser.parse_args()


def main():
    said = arguments()
    with tempfile.TemporaryDirectory() as room:
        try:
            try_all(said.program, Path(room), said.every)
        except Wrong as wrong:
            print(wrong)
            return 1
        except NotHere as why:
            print(f'refused_memory: nothing was refused: {why}', file=sys.stderr)
            return 2
    print('each run ends with Memory, or as if nothing had been refused')
    return 0


if __name__ == '__main__':
    sys.exit(main())
