#!/usr/bin/env python3
"""Types each command of docs/TUTORIAL.md at the top of the repository, and compares what it prints with what stands there; where
nothing stands there, it has to end with status 0.

The program is to be built (any run of ./segments), and there may be no folder `demo`. The status is 1 where a text differs.
"""
import re
import subprocess
import sys
from pathlib import Path

TOP = Path(__file__).resolve().parent.parent
BLOCK = re.compile(r'^```(\w*)\n(.*?)^```$', re.M | re.S)


def main():
    if (TOP / 'demo').exists():
        sys.exit('there is a folder demo already')
    blocks = BLOCK.findall((TOP / 'docs' / 'TUTORIAL.md').read_text())
    differ = 0
    for (kind, commands), (next_kind, expected) in zip(blocks, blocks[1:] + [('sh', '')]):
        if kind != 'sh':
            continue
        run = subprocess.run(['bash', '-c', commands], cwd=TOP, stdout=subprocess.PIPE, stderr=subprocess.STDOUT, text=True)
        is_same = run.returncode == 0 if next_kind else run.stdout.strip() == expected.strip()
        differ += not is_same
        print('as it stands' if is_same else f'DIFFERS:\n{run.stdout}', '|', commands.strip().splitlines()[-1])
    sys.exit(differ > 0)


if __name__ == '__main__':
    main()
