#!/usr/bin/env python3
"""Proves and builds the programs that only benchmarks run, in a scratch checkout, and prints where they are.

usage: scratch.py [--room FOLDER] NAME..
       scratch.py [--room FOLDER] --put

  seg_bench        works the layers below the program, for layers.py and columns.py
  seg_merge_bench  merges the indexes in several folders, for scale.py

They are no crates of the repository, so the merge gate spends nothing on them. The sources of NAME are in bench/NAME,
where each .rt and .antt file has a further ending `.txt`; `crate.txt` there is its line for crates.txt. The scratch
checkout is a clone of the last commit in FOLDER/checkout, into which they are put as crates, and there `rt run` proves
and builds them. The first time that takes as long as the proofs of all crates below; later on only what changed is
proved. With --put both are only put there. layers.py, columns.py and scale.py call this where they are given no program.
"""
import argparse
import subprocess
import sys
import tempfile
from pathlib import Path

HERE = Path(__file__).resolve().parent
TOP = HERE.parent
ROOM = Path(tempfile.gettempdir()) / 'segments-bench'
# The line for crates.txt, beside the sources. (`rt ci` refuses a second file of that name.)
LINE = 'crate.txt'
# What each program says where it is run without words: by this it shows that it was proved and built.
SAYS = {
    'seg_bench': 'a task, how often, and files',
    'seg_merge_bench': 'a folder for the merged index, and the folders of indices',
}


def git(folder, *words):
    return subprocess.run(['git', '-C', folder, *words], check=True, stdout=subprocess.PIPE, text=True).stdout


def checkout(room):
    """A clone of the tree's last commit, without what was put into it before but for what proofs have left."""
    clone = room / 'checkout'
    if not (clone / '.git').exists():
        clone.mkdir(parents=True, exist_ok=True)
        git(clone, 'init', '--quiet')
    git(clone, 'fetch', '--quiet', '--depth', '1', f'file://{TOP}', 'HEAD')
    git(clone, 'checkout', '--quiet', '--force', '--detach', 'FETCH_HEAD')
    return clone


def sources(name):
    """The sources of a program: where each stands in its crate, and its bytes."""
    found = (path for path in sorted((HERE / name).rglob('*')) if path.is_file() and path != HERE / name / LINE)
    return {as_in_crate(path.relative_to(HERE / name)): path.read_bytes() for path in found}


def as_in_crate(path):
    return path.with_suffix('') if path.name.endswith(('.rt.txt', '.antt.txt')) else path


def put(name, clone):
    """Puts a program into the clone, as a crate with its line. A file that is there already stays as it is."""
    crate, wanted = clone / 'crates' / name, sources(name)
    for path in sorted(crate.rglob('*')):
        inside = path.relative_to(crate)
        if path.is_file() and inside.parts[0] != 'out' and inside not in wanted:
            path.unlink()
    for inside, text in wanted.items():
        path = crate / inside
        if not path.exists() or path.read_bytes() != text:
            path.parent.mkdir(parents=True, exist_ok=True)
            path.write_bytes(text)
    with (clone / 'crates.txt').open('a') as lines:
        lines.write((HERE / name / LINE).read_text())


def prove(name, crate):
    """The program of a crate, which `rt run` proves, builds and runs."""
    ran = subprocess.run(
        ['rt', 'run'], cwd=crate, stdin=subprocess.DEVNULL, stdout=subprocess.PIPE, stderr=subprocess.STDOUT, text=True)
    if SAYS[name] not in ran.stdout:
        sys.exit(f'{name} could not be proved and built in {crate}:\n{ran.stdout[-3000:]}')
    return crate / 'out' / name


def put_all(room):
    """A scratch checkout with all programs."""
    if git(TOP, 'status', '--porcelain', 'crates', 'crates.txt'):
        print('scratch.py: crates have changes that are not committed; the last commit counts', file=sys.stderr)
    clone = checkout(room)
    for name in SAYS:
        put(name, clone)
    return clone


def program(name, room=ROOM):
    """A program, proved and built."""
    clone = put_all(room)
    print(f'scratch.py: proving {name} in {clone}', file=sys.stderr)
    return prove(name, clone / 'crates' / name)


def main():
    parser = argparse.ArgumentParser(description=__doc__, formatter_class=argparse.RawDescriptionHelpFormatter)
    parser.add_argument('names', metavar='NAME', nargs='*', help=' or '.join(SAYS))
    parser.add_argument('--put', action='store_true')
    parser.add_argument('--room', type=Path, default=ROOM)
    words = parser.parse_args()
    if not set(words.names) <= set(SAYS) or not (words.put or words.names):
        parser.error(f'NAME is {" or ".join(SAYS)}')
    if words.put:
        print(put_all(words.room))
    for name in words.names:
        print(program(name, words.room))


if __name__ == '__main__':
    main()
