#!/usr/bin/env python3
"""Runs the program over a folder with a file whose name isn't UTF-8: the listing is to fail, and nothing is to change.

usage: odd_names.py PROGRAM

Such a file can't lie in the repository, since not every system can check it out; so it is made here, in a folder of its own.
"""
import os
import subprocess
import sys
import tempfile

SCRIPT = b'{"schema": [], "operations": []}'
NAME = b'\xff'


def main():
    program = os.path.abspath(sys.argv[1])
    for folder in (b'work', b'out'):
        with tempfile.TemporaryDirectory() as room:
            place = os.path.join(os.fsencode(room), folder)
            os.mkdir(place)
            open(os.path.join(place, NAME), 'wb').close()
            ran = subprocess.run([program, 'build'], input=SCRIPT, cwd=room, capture_output=True)
            found = (ran.returncode, ran.stdout, ran.stderr, os.listdir(place))
            expected = (6, b'', b'directory: list or read failed\n', [NAME])
            if found != expected:
                sys.exit(f'{folder.decode()}: {found}')
    print('names that are not UTF-8: the listing fails, and nothing changes')


main()
