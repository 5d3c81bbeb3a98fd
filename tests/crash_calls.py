#!/usr/bin/env python3
"""Runs the program under strace, and checks the order of its system calls: what a crash of the system may leave rests on it.

usage: crash_calls.py PROGRAM [SCRIPT..] | --self-test

It runs `build` over each SCRIPT (examples/deletes.json and examples/filters.json, where none is given) in an empty folder, and then
`merge` over the work index into an empty folder. It prints a line for each check (crash_trace.py): `all right`, or what was out of
order. The status is 0 if all is right, 1 if something isn't, and 2 where strace isn't there or can't be used.

`--self-test` feeds made-up traces to the checks, each with one disorder, which is to be found. It needs no program and no strace.
"""
import os
import shutil
import subprocess
import sys
import tempfile
from pathlib import Path

from crash_trace import CHECKS, UNFINISHED, Unreadable, changes_of, faults_of, names_of

EXAMPLES = Path(__file__).resolve().parent.parent / 'examples'
WHOLE = '10000000'  # bytes of a text that strace prints: all of them
TOLD = 3  # the most faults of a check that are printed


class NoTrace(Exception):
    """strace isn't there, or can't be used."""


# ---- runs

def contents(folder):
    return {path.name: path.read_bytes() for path in folder.iterdir()} if folder.is_dir() else {}


def traced(program, folder, script, word):
    """The lines that strace writes of a run, which is to end with status 0."""
    lines = folder.parent / f'{folder.name}.trace'
    strace = ['strace', '-f', '-s', WHOLE, '-e', 'trace=%file,%desc', '-o', lines]
    with open(script, 'rb') as it:
        ran = subprocess.run([*strace, program, word], stdin=it, cwd=folder, capture_output=True)
    said = lines.read_text(errors='replace').splitlines() if lines.exists() else []
    if not any('openat(' in line or 'open(' in line for line in said):
        raise NoTrace(f'strace could not trace the program: {ran.stderr.decode()}')
    if ran.returncode != 0:
        sys.exit(f'{word} of {script} ended with status {ran.returncode}: {ran.stderr.decode()}')
    return said


def report(title, faults):
    """Prints a check's line, with the first faults, and answers whether all was right."""
    more = f'; and {len(faults) - TOLD} more' if len(faults) > TOLD else ''
    print(f'{title}: {"all right" if not faults else "OUT OF ORDER: " + "; ".join(faults[:TOLD]) + more}')
    return not faults


def try_build(program, folder, script):
    lines = traced(program, folder, script, 'build')
    found = [faults_of(lines, name, contents(folder / name)) for name in ('work', 'out')]
    return [report(f'{Path(script).name}, build: {CHECKS[check]}', [fault for faults in found for fault in faults[check]])
            for check in CHECKS]


def try_merge(program, folder, script):
    shutil.rmtree(folder / 'out', ignore_errors=True)
    lines = traced(program, folder, os.devnull, 'merge')
    faults = faults_of(lines, 'out', contents(folder / 'out'))
    title = f'{Path(script).name}, merge'
    verdicts = [report(f'{title}: {CHECKS[check]}', faults[check]) for check in CHECKS]
    return [*verdicts, report(f'{title}: nothing in the folder work is changed', changes_of(lines, 'work'))]


def run_all(program, scripts):
    if shutil.which('strace') is None:
        raise NoTrace('there is no strace on the PATH')
    verdicts = []
    for script in scripts:
        with tempfile.TemporaryDirectory() as room:
            folder = Path(room) / 'run'
            folder.mkdir()
            verdicts += try_build(program, folder, script)
            verdicts += try_merge(program, folder, script)
    return all(verdicts)


# ---- the self-test: a run in order, as blocks of calls, and edits of it

ID = 31 * '0' + '1'


def written(path, text, flags='O_RDWR|O_CREAT|O_EXCL|O_CLOEXEC', fd=3):
    return [f'openat(AT_FDCWD, "{path}", {flags}, 0666) = {fd}', f'write({fd}, "{text}", {len(text)}) = {len(text)}', f'fsync({fd}) = 0',
            f'close({fd}) = 0']


def replaced(segments):
    """A meta: made, synced, renamed, closed. Its quotes are written as strace does."""
    open_it, write, sync, close = written(f'out/{UNFINISHED}', f"{{'segments': [{segments}]}}", 'O_WRONLY|O_CREAT|O_TRUNC', 4)
    return [open_it, write.replace("'", r'\"'), sync, f'rename("out/{UNFINISHED}", "out/meta.json") = 0', close]


def folder_synced():
    return ['openat(AT_FDCWD, "out", O_RDONLY|O_CLOEXEC) = 5', 'fsync(5) = 0', 'close(5)                = 0']


def in_order():
    """A run that is in order, in blocks: the empty index, the six files and the alive file of a segment, and the meta that names it."""
    names = names_of({'segment_id': ID, 'deletes': {'opstamp': 3}})
    blocks = {'begin': folder_synced(), 'empty': replaced('')}
    blocks |= {name.removeprefix(f'{ID}.'): written(f'out/{name}', r'bytes') for name in names}
    segment = f"{{'segment_id': '{ID}', 'deletes': {{'opstamp': 3}}}}"
    return blocks | {'sync': folder_synced(), 'whole': replaced(segment), 'last': folder_synced()}


def without(block, at=None):
    def edit(blocks):
        blocks[block] = [] if at is None else blocks[block][:at] + blocks[block][at + 1:]
    return edit


def changed(block, at, old, new):
    def edit(blocks):
        assert old in blocks[block][at]
        blocks[block][at] = blocks[block][at].replace(old, new)
    return edit


def half_written(block, at):
    def edit(blocks):
        call, _, length = blocks[block][at].rpartition('= ')
        blocks[block][at] = f'{call}= {int(length) // 2}'
    return edit


def swapped(block, at, other):
    def edit(blocks):
        lines = blocks[block]
        lines[at], lines[other] = lines[other], lines[at]
    return edit


def put_before(block, at, line):
    return lambda blocks: blocks[block].insert(at, line)


def followed(block, *lines):
    return lambda blocks: blocks[block].extend(lines)


def moved(block, after):
    return lambda blocks: blocks[after].extend(blocks.pop(block))


META_ALONE = written('out/meta.json', '{}', 'O_WRONLY|O_CREAT|O_TRUNC')
# What is out of order, the checks that are to find it, and the edit.
DISORDERS = [
    ('a file without O_EXCL', {'made'}, changed('term', 0, '|O_EXCL', '')),
    ('a file that is opened and not made', {'made'}, changed('term', 0, '|O_CREAT|O_EXCL', '')),
    ('a file that is never synced', {'synced', 'named'}, without('store', 2)),
    ('a sync that failed', {'synced', 'named'}, changed('store', 2, '= 0', '= -1 EIO (Input/output error)')),
    ('a sync before the write', {'synced', 'named'}, swapped('pos', 1, 2)),
    ('a sync of another file', {'synced', 'named'}, changed('pos', 2, 'fsync(3)', 'fsync(9)')),
    ('a sync after the close', {'synced', 'named'}, swapped('pos', 2, 3)),
    ('fdatasync in place of fsync', {'synced', 'named'}, changed('fast', 2, 'fsync', 'fdatasync')),
    ('a meta that is written in place', {'replaced'}, followed('empty', *META_ALONE)),
    ('a meta that is renamed from elsewhere', {'replaced'}, followed('empty', 'rename("out/other", "out/meta.json") = 0')),
    ('a meta that is written to after its rename', {'replaced'}, changed('whole', 4, 'close(4) = 0', 'write(4, "x", 1) = 1')),
    ('a file that is renamed', {'replaced'}, followed('fast', f'renameat(AT_FDCWD, "out/{ID}.fast", AT_FDCWD, "out/b") = 0')),
    ('no meta at all', {'replaced', 'last'}, lambda blocks: (without('empty')(blocks), without('whole')(blocks))),
    ('a meta that is not synced before its rename', {'unfinished'}, without('whole', 2)),
    ('a meta that is synced after its rename', {'unfinished'}, swapped('whole', 2, 3)),
    ('a meta over old bytes', {'unfinished'}, changed('whole', 0, '|O_TRUNC', '')),
    ('a meta that is renamed half written', {'unfinished', 'last'}, half_written('whole', 1)),
    ('no sync of the folder before the meta', {'named'}, without('sync')),
    ('a sync of another folder before the meta', {'named'}, changed('sync', 0, '"out"', '"work"')),
    ('a sync of the folder before the last file', {'named'}, moved('sync', 'pos')),
    ('a sync of the folder after the meta alone', {'named'}, moved('sync', 'whole')),
    ('a file that is written after the meta', {'named', 'last'}, moved('3.del', 'whole')),
    ('a file that is written after the last sync', {'named', 'last'}, moved('term', 'last')),
    ('a file that no meta names', {'last'}, followed('pos', *written(f'out/{32 * "a"}.pos', 'bytes'))),
    ('a meta that names no segment', {'last'}, lambda blocks: blocks.update(whole=replaced(''))),
    ('no sync of the folder at the end', {'end'}, without('last')),
    ('a sync of a file at the end', {'end'}, changed('last', 0, '"out"', f'"out/{ID}.term"')),
    ('a file that is removed', {'whole'}, followed('begin', f'unlink("out/{ID}.idx") = 0')),
    ('a file that is cut', {'whole'}, put_before('idx', 2, 'ftruncate(3, 0) = 0')),
    ('a file that is written to through memory', {'whole'}, put_before(
        'idx', 2, 'mmap(NULL, 4096, PROT_READ|PROT_WRITE, MAP_SHARED, 3, 0) = 0x7f0000000000')),
    ('a file of another name', {'whole'}, followed('begin', *written('out/other', 'bytes'))),
]


def lines_of(blocks):
    return [f'1234  {line}' for lines in blocks.values() for line in lines]


def found_in(lines, there=None):
    return {check for check, faults in faults_of(lines, 'out', there).items() if faults}


def cut_in_two(lines):
    """The same calls, each cut in two by one of another thread that changes nothing."""
    for line in lines:
        thread, _, call = line.partition('  ')
        begin, middle, end = call.rpartition(') ')
        yield from (f'{thread} {begin} <unfinished ...>', '77 close(99) = -1 EBADF (Bad file descriptor)',
                    f'{thread} <... {call.partition("(")[0]} resumed>{middle}{end}')


def expect(title, found, expected):
    print(f'{title}: {", ".join(sorted(found)) or "nothing"}')
    if found != expected:
        sys.exit(f'{title}: expected {sorted(expected)}')


def self_test():
    lines = lines_of(in_order())
    expect('a run in order', found_in(lines), set())
    expect('a run in order, its calls cut in two', found_in(cut_in_two(lines)), set())
    expect('no call at all', found_in([]), {'replaced'})
    expect('a file with other bytes afterwards', found_in(lines, {}), {'whole'})
    for title, expected, edit in DISORDERS:
        blocks = in_order()
        edit(blocks)
        expect(title, found_in(lines_of(blocks)), expected)
    expect('a folder that is changed', set(changes_of(lines_of({'one': folder_synced() + META_ALONE}), 'out')),
           {'out/meta.json: open', 'out/meta.json: write'})
    expect('a folder that is only read', set(changes_of(lines, 'work')), set())
    print(f'{len(DISORDERS)} disorders: each is found')


def main():
    if sys.argv[1:] == ['--self-test']:
        return self_test()
    if len(sys.argv) < 2:
        sys.exit(__doc__)
    scripts = [os.path.abspath(script) for script in sys.argv[2:]] or [EXAMPLES / 'deletes.json', EXAMPLES / 'filters.json']
    try:
        return 0 if run_all(os.path.abspath(sys.argv[1]), scripts) else 1
    except (NoTrace, Unreadable) as why:
        print(f'crash_calls: nothing was checked: {why}', file=sys.stderr)
        return 2


if __name__ == '__main__':
    sys.exit(main())
