#!/usr/bin/env python3
"""What the gate takes, in minutes of one processor, crate by crate, and in units of one crate.

    python3 bench/gate.py                     runs `rt ci --anew` in a clean clone, and prints the table
    python3 bench/gate.py --write             the same, and puts the table into CONTRIBUTING.md
    python3 bench/gate.py --record FILE DIR   records into FILE what every prover of the checkout DIR takes, until a
                                              signal ends it: for a gate that was started by hand, or in parts
    python3 bench/gate.py --from FILE ..      prints the table of what was recorded, with --write too

The time of a prover is what the kernel counts for its process, looked at every two seconds; so what else runs on the
machine makes it dearer by the caches it takes, and not by waiting. A program is proved once and built twice, and both
count. The unit is the proof of `seg_bits` in the same records: minutes of two machines compare by it.
"""
import argparse
import collections
import json
import os
import platform
import re
import signal
import subprocess
import sys
import tempfile
import time
from pathlib import Path

TOP = Path(__file__).resolve().parent.parent
TICKS = os.sysconf('SC_CLK_TCK')
UNIT = 'seg_bits'
BEGIN, END = '<!-- gate: begin -->', '<!-- gate: end -->'
KINDS = ('proof', 'tests', 'edits')


def process(pid):
    """Where a process runs, its words, its parent, and the seconds that it took; None where it is gone."""
    try:
        words = Path(f'/proc/{pid}/cmdline').read_text(errors='replace').split('\0')
        state = Path(f'/proc/{pid}/stat').read_text(errors='replace')
        folder = os.readlink(f'/proc/{pid}/cwd')
    except OSError:
        return None
    fields = state[state.rindex(')') + 2:].split()
    return folder, words, int(fields[1]), (int(fields[11]) + int(fields[12])) / TICKS, fields[19]


def kind_of(folder, words):
    """Whether a prover is at a crate, at its tests, or at one of its edits."""
    if 'rt-edit' in folder:
        return 'edits'
    return 'tests' if '--test' in words else 'proof'


def look(checkout, records):
    """Adds what each prover of a checkout has taken by now."""
    found = {int(pid): process(pid) for pid in os.listdir('/proc') if pid.isdigit()}
    gates = {pid for pid, seen in found.items() if seen and seen[0] == checkout and 'ci' in seen[1][1:4]}
    for pid, seen in found.items():
        if not seen or os.path.basename(seen[1][0]) != 'rattle' or '--crate-name' not in seen[1]:
            continue
        folder, words, parent, seconds, start = seen
        if not folder.startswith(f'{checkout}/crates/') and parent not in gates:
            continue
        crate = words[words.index('--crate-name') + 1]
        records[f'{pid}:{start}'] = [crate, kind_of(folder, words), folder, seconds, time.time()]


def record(checkout, file, until=lambda: False):
    """Records until a signal, or until a test says that it is over."""
    records, over = {}, []
    signal.signal(signal.SIGTERM, lambda *_: over.append(True))
    signal.signal(signal.SIGINT, lambda *_: over.append(True))
    while not over and not until():
        look(checkout, records)
        Path(f'{file}.part').write_text(json.dumps(records))
        os.replace(f'{file}.part', file)
        time.sleep(2)


def times(files):
    """Of each crate and kind its minutes; of a crate that is in several files those of the last one."""
    minutes = collections.defaultdict(dict)
    for file in files:
        sums = collections.Counter()
        for crate, kind, _, seconds, _ in json.loads(Path(file).read_text()).values():
            sums[crate, kind] += seconds
        for (crate, kind), seconds in sums.items():
            minutes[crate][kind] = seconds / 60
    return minutes


def machine():
    names = re.findall(r'^model name\s*: (.*)$', Path('/proc/cpuinfo').read_text(), re.M)
    return f'{len(names)} processors ({names[0] if names else platform.machine()})'


def table(minutes):
    """The lines of the table, in the order of crates.txt, and the sums."""
    rows = (TOP / 'crates.txt').read_text().splitlines()
    order = [row.partition(':')[0] for row in rows if ':' in row and not row.startswith('#')]
    tried = {crate: len(list((TOP / 'crates' / crate / 'must-fail').glob('*.edit'))) for crate in order}
    lines = ['| Crate | Proof | Tests | Edits (how many) |', '|---|---|---|---|']
    for crate in order:
        row = [f'{minutes[crate][kind]:.1f}' if kind in minutes.get(crate, {}) else '' for kind in KINDS]
        if tried[crate]:
            row[2] = f'{row[2]} ({tried[crate]})'.strip()
        lines.append(f'| `{crate}` | ' + ' | '.join(row) + ' |')
    sums = {kind: sum(minutes.get(crate, {}).get(kind, 0) for crate in order) for kind in KINDS}
    whole = sum(sums.values())
    unit = minutes.get(UNIT, {}).get('proof')
    lines.append(f'| **all** | **{sums["proof"]:.0f}** | **{sums["tests"]:.0f}** | **{sums["edits"]:.0f}** ({sum(tried.values())}) |')
    said = f'{whole:.0f} minutes of one processor in all'
    if unit:
        said += f', or {whole / unit:.0f} times what `{UNIT}` takes ({unit:.2f} minutes)'
    head = (f'From nothing, in minutes of one processor, on a machine of {machine()}, {time.strftime("%Y-%m-%d")}, by '
            f'`python3 bench/gate.py`: {said}.')
    return [head, ''] + lines


def write(lines):
    page = TOP / 'CONTRIBUTING.md'
    text = page.read_text()
    before, after = text.split(BEGIN)[0], text.split(END)[1]
    page.write_text(f'{before}{BEGIN}\n' + '\n'.join(lines) + f'\n{END}{after}')


def run_gate(file):
    """Runs the gate from nothing in a clean clone, and records it."""
    with tempfile.TemporaryDirectory(prefix='gate-') as room:
        checkout = f'{room}/tree'
        subprocess.run(['git', 'clone', '-q', str(TOP), checkout], check=True)
        with open(f'{file}.log', 'w') as log:
            gate = subprocess.Popen(['rt', 'ci', '--anew'], cwd=checkout, stdout=log, stderr=subprocess.STDOUT)
            record(checkout, file, lambda: gate.poll() is not None)
        print(Path(f'{file}.log').read_text().rstrip().rpartition('\n')[2], file=sys.stderr)
        return gate.returncode


def main():
    words = argparse.ArgumentParser(description='What the gate takes.')
    words.add_argument('--write', action='store_true', help='put the table into CONTRIBUTING.md')
    words.add_argument('--record', nargs=2, metavar=('FILE', 'DIR'))
    words.add_argument('--from', nargs='+', dest='files', metavar='FILE')
    given = words.parse_args()
    if given.record:
        record(os.path.realpath(given.record[1]), given.record[0])
        return 0
    files, status = given.files, 0
    if not files:
        files = [f'{tempfile.gettempdir()}/gate-{os.getpid()}.json']
        status = run_gate(files[0])
    lines = table(times(files))
    print('\n'.join(lines))
    if given.write:
        write(lines)
    return status


if __name__ == '__main__':
    sys.exit(main())
