#!/usr/bin/env python3
"""Kills the program at random moments, and checks that `out` is no index, the empty one or the whole one.

usage: crash_kills.py PROGRAM [--runs 200] [--seed N] [--documents 2000]

Every second run is `build` of one script in an empty folder, and every second one `merge` over the work index that an undisturbed
`build` left. Half of them are killed (SIGKILL) after a random part of the time that an undisturbed run takes; the other half a moment
after something is seen in `out` (.unfinished, meta.json, a file of a segment). Then `show` runs over a copy of `out` as the folder
`work`, and its answer has to be one of three:

  no index  status 7, and there is no meta.json
  empty     status 0, and the text of an index without segments, which is empty
  whole     status 0, and the text of what the undisturbed run left

A run that ended by itself has to have status 0 and the whole; `merge` is to leave `work` as it was. It prints how often each came;
anything else is printed, its folder is kept, and the status is 1.

A kill is no power failure: what the program handed to the system stays there, written or not. What of it reaches the disk, and in what
order, is up to the calls that crash_calls.py looks at.
"""
import argparse
import json
import os
import random
import shutil
import subprocess
import sys
import tempfile
import time
from collections import Counter
from pathlib import Path

OUTCOMES = NO_INDEX, EMPTY, WHOLE = 'no index', 'empty', 'whole'
COMMANDS = 'build', 'merge'
LONGEST = 600  # seconds of a run, after which something is wrong with it
# what is waited for in `out`, as a test of the names there; after it comes a moment of up to AFTER seconds
SIGHTS = {
    'the first .unfinished': lambda names: '.unfinished' in names,
    'the first meta.json': lambda names: 'meta.json' in names,
    'the first file of a segment': lambda names: len(names) > 1,
    'the last file of a segment': lambda names: any(name.endswith('.store') for name in names),
    'the second .unfinished': lambda names: '.unfinished' in names and 'meta.json' in names,
}
AFTER = 0.01


class Wrong(Exception):
    """An outcome that is none of the three, or not the one that has to come."""


def script_of(documents, rng):
    """A script of four batches with deletes."""
    schema = [{'name': 'id', 'kind': 'text', 'stored': True, 'index': 'basic'},
              {'name': 'body', 'kind': 'text', 'stored': True, 'index': 'positions'}]
    operations = []
    for number in range(documents):
        body = ' '.join(f'w{int(5000 ** rng.random())}' for _ in range(30))
        operations.append({'add': [['id', str(number)], ['body', body]]})
        if number % 10 == 9:
            operations.append({'delete': ['id', str(rng.randrange(number))]})
    cuts = [len(operations) * batch // 4 for batch in (1, 2, 3)]
    return json.dumps({'schema': schema, 'operations': operations, 'cuts': cuts}).encode()


def contents(folder):
    return {path.name: path.read_bytes() for path in folder.iterdir()} if folder.is_dir() else {}


def show(program, index):
    """The status and the text of `show` over a copy of a folder as `work`."""
    with tempfile.TemporaryDirectory() as room:
        if index.is_dir():
            shutil.copytree(index, Path(room) / 'work')
        ran = subprocess.run([program, 'show'], cwd=room, stdin=subprocess.DEVNULL, capture_output=True, timeout=LONGEST)
        return ran.returncode, ran.stdout


def outcome(program, out, whole):
    """Which of the three a folder is."""
    status, text = show(program, out)
    if status == 7 and not (out / 'meta.json').exists():
        return NO_INDEX
    if status == 0 and text in (b'', whole):
        return EMPTY if text == b'' else WHOLE
    raise Wrong(f'show over out ends with {status}, and {len(text)} bytes of text')


class Trial:
    """The program with a command, in a folder of its own for each run."""

    def __init__(self, program, command, script, work):
        self.program, self.command, self.script, self.work = program, command, script, work
        self.seconds = self.whole = None

    def prepare(self, room):
        if self.command == 'merge':
            shutil.copytree(self.work, room / 'work')

    def start(self, room):
        with open(self.script, 'rb') as script:
            return subprocess.Popen([self.program, self.command], cwd=room, stdin=script, stdout=subprocess.DEVNULL,
                                    stderr=subprocess.DEVNULL)

    def run_undisturbed(self, room):
        """Learns how long a run takes, and what it leaves."""
        self.prepare(room)
        begin = time.monotonic()
        status = self.start(room).wait(LONGEST)
        self.seconds = time.monotonic() - begin
        shown, self.whole = show(self.program, room / 'out')
        if (status, shown) != (0, 0) or not self.whole:
            raise Wrong(f'an undisturbed {self.command} ends with {status}, and show over its out with {shown}')

    def check(self, room, status):
        """Which of the three a run has left that ended with this status (below 0: by a signal)."""
        if status not in (0, -9):
            raise Wrong(f'the run ended by itself with {status}')
        found = outcome(self.program, room / 'out', self.whole)
        if status == 0 and found != WHOLE:
            raise Wrong(f'the run ended with status 0, and left {found}')
        if self.command == 'merge' and contents(room / 'work') != contents(self.work):
            raise Wrong('work is changed')
        return found


# ---- when a run is killed

def kill_after(process, seconds):
    try:
        process.wait(seconds)
    except subprocess.TimeoutExpired:
        process.kill()


def kill_at_sight(process, out, is_seen, seconds):
    """Kills a run some seconds after the names in `out` are as they are waited for."""
    end = time.monotonic() + LONGEST
    while process.poll() is None and time.monotonic() < end:
        try:
            if is_seen(os.listdir(out)):
                return kill_after(process, seconds)
        except FileNotFoundError:
            pass


def kill(process, out, trial, rng, is_aimed):
    """Kills a run, and says when."""
    if is_aimed:
        sight, seconds = rng.choice(list(SIGHTS)), rng.uniform(0, AFTER) * rng.randrange(2)
        kill_at_sight(process, out, SIGHTS[sight], seconds)
        return f'{seconds:.4f} s after {sight}'
    seconds = rng.uniform(0, 1.05 * trial.seconds)
    kill_after(process, seconds)
    return f'after {seconds:.4f} s'


def run_once(trial, room, rng, is_aimed):
    """Runs and kills the program once: what it left, and whether it ended by itself."""
    trial.prepare(room)
    process = trial.start(room)
    try:
        when = kill(process, room / 'out', trial, rng, is_aimed)
        status = process.wait(LONGEST)
    finally:
        process.kill()
    try:
        return trial.check(room, status), status == 0
    except Wrong as wrong:
        raise Wrong(f'{trial.command}, killed {when}: {wrong}') from None


# ---- all runs

def prepared_trials(program, room, documents, rng):
    script = room / 'script.json'
    script.write_bytes(script_of(documents, rng))
    work = room / 'build' / 'work'
    trials = [Trial(program, 'build', script, None), Trial(program, 'merge', os.devnull, work)]
    for trial in trials:
        (room / trial.command).mkdir()
        trial.run_undisturbed(room / trial.command)
        print(f'{trial.command}: an undisturbed run takes {trial.seconds:.3f} s, and show prints {len(trial.whole)} bytes of its out')
    return trials


def print_counts(command, counts):
    ended = counts['ended by itself']
    said = ', '.join(f'{name} {counts[name]}' for name in OUTCOMES)
    print(f'{command}: killed {sum(counts[name] for name in OUTCOMES)} times: {said}; ended by itself {ended} times: whole')
    unseen = [name for name in OUTCOMES if not counts[name]]
    if unseen:
        print(f'{command}: not seen after a kill: {", ".join(unseen)} (try other --documents or --seed, or more --runs)')


def try_all(program, runs, rng, documents, room):
    trials = prepared_trials(program, room, documents, rng)
    counts = {command: Counter() for command in COMMANDS}
    for number in range(runs):
        trial, is_aimed = trials[number % 2], number // 2 % 2 == 1
        folder = room / f'run{number}'
        folder.mkdir()
        found, is_ended = run_once(trial, folder, rng, is_aimed)
        counts[trial.command]['ended by itself' if is_ended else found] += 1
        shutil.rmtree(folder)
    for command in COMMANDS:
        print_counts(command, counts[command])


def arguments():
    parser = argparse.ArgumentParser(description=__doc__, formatter_class=argparse.RawDescriptionHelpFormatter)
    parser.add_argument('program', type=os.path.abspath)
    parser.add_argument('--runs', type=int, default=200)
    parser.add_argument('--seed', type=int, default=1)
    parser.add_argument('--documents', type=int, default=2000)
    return parser.parse_args()


def main():
    said = arguments()
    room = Path(tempfile.mkdtemp(prefix='crash_kills-'))
    try:
        try_all(said.program, said.runs, random.Random(said.seed), said.documents, room)
    except Wrong as wrong:
        print(f'{wrong} (kept: {room})')
        return 1
    shutil.rmtree(room)
    print('after each run out is no index, the empty one or the whole one')
    return 0


if __name__ == '__main__':
    sys.exit(main())
