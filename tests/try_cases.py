#!/usr/bin/env python3
"""Tries the cases of seg_cases before anything is proved: those of one step, by `build`. Seven minutes, most of it the compiler.

Each script is run by `rt try segments --cases`, which compiles the program without a proof. A text that differs from the expected one
is told by `differs`; a status that isn't the expected one is printed here. What a refusal says is not compared.
"""
import re
import shutil
import subprocess
import sys
import tempfile
from pathlib import Path

TOP = Path(__file__).resolve().parent.parent
DATA = TOP / 'crates/seg_cases/data'


def is_one_step(script):
    """Whether a script is a case by itself, of the word `build`, over directories that answer."""
    return script.parent.name != 'damage' and '.' not in script.stem and not any(script.with_suffix(end).exists() for end in ('.words', '.fails'))


def wanted_status(script):
    for file in (script.with_suffix('.status'), script.parent / 'all.status'):
        if file.exists():
            return int(file.read_text().split()[0])
    return 0


def main():
    cases = {f'{script.parent.name}-{script.stem}': script for script in sorted(DATA.glob('*/*.json')) if is_one_step(script)}
    with tempfile.TemporaryDirectory() as folder:
        for name, script in cases.items():
            shutil.copy(script, Path(folder, name))
            text = script.with_suffix('.txt')
            Path(folder, f'{name}.stdout').write_bytes(text.read_bytes() if text.exists() else b'')
        tried = subprocess.run(['rt', 'try', '--steps', '2000000000', '--seconds', '600', '--cases', folder, '--', 'build'],
                               cwd=TOP / 'crates/segments', stdout=subprocess.PIPE, stderr=subprocess.STDOUT, text=True)
    statuses = dict(re.findall(r'^case=(\S+) .*status=(\d+)', tried.stdout, re.M))
    wrong = [name for name, script in cases.items() if int(statuses.get(name, -1)) != wanted_status(script)]
    for name in wrong:
        print(f'{name}: status {statuses.get(name, "none")}, not {wanted_status(cases[name])}')
    print(tried.stdout.strip().rpartition('\n')[2])
    return 1 if wrong or ' differs=0 ' not in tried.stdout else 0


if __name__ == '__main__':
    sys.exit(main())
