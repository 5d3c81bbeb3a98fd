#!/usr/bin/env python3
"""Runs the program and others over the same scripts, and prints a table.

usage: bench.py [--program PATH] [--shape textids] [--full] [--sizes 1000,10000,100000,max] [--seed 7] [--repeat 3]
                [--only plain,program] [--limit SECONDS] [--room FOLDER] [--json FILE]

  plain    plain.rs, one thread, std alone: the same job, file formats and text
  nosync   the same, which asks for no file to be on the disk
  sqlite   sqlite.py: Python's SQLite with FTS5, and with a table of the columns for `catalogue`, a transaction for each
           batch, and `optimize`
  program  crates/segments/out/segments, once it is proved and built (`rt run` in crates/segments); never a build of
           `rt try`, which is checked as it runs and some ten to two hundred times slower

With --full, plain, nosync and program run `build --full`, which prints columns and length ids too. gen_corpus.py says what
the shapes and sizes are. plain.rs stops at a batch of which no document is left, as `deleted`
has some. Each run has an empty folder, reads the script on standard input and writes into a file. Of several runs, in
turn, the one with the least processor time counts. `x plain` and `grows` go by processor time: `grows` is by how much
it grew from the size before, over the growth of the script; 1 is linear. `peak B/B` is the most memory for each byte
of the script; it can't show less than the 20 MB of the Python process that starts the run. `steal` is the part of the
machine's processor time that its host took during the run, in percent: above 1, seconds of the clock say little.
`text` says whether the printed text is that of the plain program.
"""
import argparse
import hashlib
import json
import os
import shutil
import subprocess
import sys
import tempfile
import time
from pathlib import Path

from gen_corpus import SHAPES

HERE = Path(__file__).resolve().parent
PROGRAM = HERE.parent / 'crates' / 'segments' / 'out' / 'segments'
ROOM = Path(tempfile.gettempdir()) / 'segments-bench'
ALL = 'plain', 'nosync', 'sqlite', 'program'
PLAIN = 'plain.rs', 'plain_fast.rs', 'column_files.rs'


# ---- what is run

def command(who, words):
    """The words of a command, and what its environment has beside this one's."""
    build = ['build', '--full'] if words.full else ['build']
    if who in ('plain', 'nosync'):
        return [words.room / 'plain', *build], {'PLAIN_NOSYNC': '1'} if who == 'nosync' else {}
    if who == 'sqlite':
        return [sys.executable, HERE / 'sqlite.py'], {}
    return [Path(words.program).resolve(), *build], {}


def prepare(room, wanted, program):
    room.mkdir(parents=True, exist_ok=True)
    if 'program' in wanted and not Path(program).exists():
        sys.exit(f'{program} is not there: `rt run` in crates/segments proves and builds it')
    made = room / 'plain'
    changed = max((HERE / name).stat().st_mtime for name in PLAIN)
    if {'plain', 'nosync'} & set(wanted) and (not made.exists() or made.stat().st_mtime < changed):
        subprocess.run(['rustc', '--edition', '2024', '-C', 'opt-level=3', '-o', made, HERE / PLAIN[0]], check=True)


def corpus(room, words):
    """The script that gen_corpus.py writes for these words, which is made once."""
    script = room / f'{"-".join(words)}.json'
    if not script.exists():
        part = script.with_suffix('.part')
        with part.open('wb') as out:
            subprocess.run([sys.executable, HERE / 'gen_corpus.py', *words], stdout=out, check=True)
        part.rename(script)
    return script


# ---- one run

def processor_ticks():
    """What the machine's host took, and all that passed."""
    with open('/proc/stat') as stat:
        ticks = [int(word) for word in stat.readline().split()[1:9]]
    return ticks[7], sum(ticks)


def wait_for(child, limit):
    """What a process used; none where it took longer than `limit` seconds, and was ended."""
    end = time.monotonic() + limit
    while time.monotonic() < end:
        pid, status, used = os.wait4(child.pid, os.WNOHANG)
        if pid:
            child.returncode = os.waitstatus_to_exitcode(status)
            return used
        time.sleep(0.002)
    child.kill()
    child.wait()
    return None


def bytes_below(folder):
    return sum(path.stat().st_size for path in folder.rglob('*') if path.is_file())


def run(words, room, script, limit, environment=None):
    """What a run took, and its status. Its text stays in a file."""
    folder, text, errors = room / 'run', room / 'text', room / 'errors'
    shutil.rmtree(folder, ignore_errors=True)
    folder.mkdir(parents=True)
    taken, all_before = processor_ticks()
    began = time.monotonic()
    with script.open('rb') as given, text.open('wb') as out, errors.open('wb') as said:
        child = subprocess.Popen(
            words, stdin=given, stdout=out, stderr=said, cwd=folder, env={**os.environ, **(environment or {})})
        used = wait_for(child, limit)
    wall = time.monotonic() - began
    if used is None:
        return {'status': f'more than {limit} s', 'wall': wall}
    if child.returncode:
        told = errors.read_text(errors='replace').strip()[-300:]
        return {'status': f'status {child.returncode}: {told}', 'wall': wall}
    taken_after, all_after = processor_ticks()
    return {
        'status': 'done',
        'cpu': used.ru_utime + used.ru_stime,
        'wall': wall,
        'peak': used.ru_maxrss * 1024,
        'disk': bytes_below(folder),
        'text': text.stat().st_size,
        'sum': hashlib.sha256(text.read_bytes()).hexdigest(),
        'steal': 100 * (taken_after - taken) / max(1, all_after - all_before),
    }


def best(found):
    return min(found, key=lambda got: got.get('cpu', float('inf')))


# ---- the table

HEAD = (f'{"documents":>9} {"MB":>6} {"who":8} {"CPU s":>7} {"wall s":>7} {"x plain":>8} {"grows":>6} {"peak B/B":>9}'
        f' {"disk MB":>8} {"text MB":>8} {"steal":>6} text')


def line(row, plain, before):
    """A line of the table, beside the row of plain Rust and the row of the size before, where there are any."""
    start = f'{row["size"]:>9} {row["script"] / 1e6:6.1f} {row["who"]:8}'
    if row['status'] != 'done':
        return f'{start} {row["status"]}'
    ratio = f'{row["cpu"] / plain["cpu"]:.2f}' if plain else ''
    grows = f'{row["cpu"] / before["cpu"] / (row["script"] / before["script"]):.2f}' if before else ''
    same = '' if not plain else 'as plain' if row['sum'] == plain['sum'] else 'another'
    return (f'{start} {row["cpu"]:7.2f} {row["wall"]:7.2f} {ratio:>8} {grows:>6} {row["peak"] / row["script"]:9.1f}'
            f' {row["disk"] / 1e6:8.1f} {row["text"] / 1e6:8.1f} {row["steal"]:6.1f} {same}')


def rows_of(words, wanted, size):
    """What each takes of a script of this size: the best of several runs, in turn."""
    script = corpus(words.room, [size, str(words.seed), words.shape])
    found = {who: [] for who in wanted}
    for _ in range(words.repeat):
        for who in wanted:
            os.sync()
            parts, environment = command(who, words)
            found[who].append(run(parts, words.room, script, words.limit, environment))
    return [{'size': size, 'script': script.stat().st_size, 'who': who, **best(found[who])} for who in wanted]


def table(words, wanted):
    print(f'{os.cpu_count()} processors, load {os.getloadavg()[0]:.1f}')
    print(HEAD, flush=True)
    before, rows = {}, []
    for size in words.sizes.split(','):
        new = rows_of(words, wanted, size)
        done = {row['who']: row for row in new if row['status'] == 'done'}
        for row in new:
            print(line(row, done.get('plain'), before.get(row['who'])), flush=True)
        before = done
        rows += new
    return rows


def main():
    parser = argparse.ArgumentParser(description=__doc__, formatter_class=argparse.RawDescriptionHelpFormatter)
    parser.add_argument('--program', default=PROGRAM)
    parser.add_argument('--shape', choices=SHAPES, default=SHAPES[0])
    parser.add_argument('--full', action='store_true')
    parser.add_argument('--sizes', default='1000,10000,100000,max')
    parser.add_argument('--seed', type=int, default=7)
    parser.add_argument('--repeat', type=int, default=3)
    parser.add_argument('--only', default=','.join(ALL))
    parser.add_argument('--limit', type=float, default=1800)
    parser.add_argument('--room', type=Path, default=ROOM)
    parser.add_argument('--json', type=Path)
    words = parser.parse_args()
    wanted = [who for who in words.only.split(',') if who]
    if unknown := set(wanted) - set(ALL):
        parser.error(f'{", ".join(sorted(unknown))}: none of {", ".join(ALL)}')
    prepare(words.room, wanted, words.program)
    rows = table(words, wanted)
    if words.json:
        words.json.write_text(json.dumps(rows, indent=1))


if __name__ == '__main__':
    main()
