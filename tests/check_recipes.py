#!/usr/bin/env python3
"""Checks that the recipes in docs/ARCHITECTURE.md are whole: each path that they name is there, and what a recipe's marker finds is
just what the recipe lists.

usage: check_recipes.py [--found]

A recipe is a section of the page with a line

    Marker: `REGEX` in `PATH PATH..`.

or some of them, and with items

    - `PATH`, `PATH`: what is to be done there
    - also `PATH`: what is to be done there, though no marker is in it

REGEX is one of `git grep -E`. In a path of an item * stands for some of a name, and ** for any folders. One line is printed for each
fault, and then the status is 1. With --found the files that the markers find are printed, recipe by recipe, and those that no item
names begin with '+'.
"""
import re
import subprocess
import sys
from pathlib import Path

TOP = Path(__file__).resolve().parent.parent
PAGE = 'docs/ARCHITECTURE.md'
SECTION = re.compile(r'^#{2,4} (.+)$', re.M)
MARKER = re.compile(r'^Marker: (`+) ?(.+?) ?\1 in `([^`]+)`\.$', re.M)
ITEM = re.compile(r'^- (also )?((?:`[^`]+`(?:, )?)+):', re.M)


def git(*words):
    done = subprocess.run(['git', '-C', str(TOP), *words], capture_output=True, text=True)
    if done.returncode > 1:
        sys.exit(done.stderr.strip())
    return done.stdout.splitlines()


def pattern(path):
    """The paths that `path` stands for, as an expression."""
    return re.compile(''.join({'**': '.*', '*': '[^/]*'}.get(part, re.escape(part)) for part in re.split(r'(\*\*|\*)', path)))


class Recipe:
    def __init__(self, name, text):
        self.name = name
        self.markers = [(regex, paths.split()) for _, regex, paths in MARKER.findall(text)]
        items = [(bool(also), re.findall(r'`([^`]+)`', paths)) for also, paths in ITEM.findall(text)]
        self.marked = [path for also, paths in items if not also for path in paths]
        self.others = [path for also, paths in items if also for path in paths]

    def found(self):
        """The files that have a marker; the page itself is none of them."""
        return sorted({path for regex, paths in self.markers for path in git('grep', '-lIE', regex, '--', *paths)} - {PAGE})

    def faults(self, files):
        found = self.found()
        for path in self.marked + self.others:
            if not any(pattern(path).fullmatch(file) for file in files):
                yield f'{path} is not there'
        for path in self.marked:
            if not any(pattern(path).fullmatch(file) for file in found):
                yield f'{path} has no marker'
        for file in self.unnamed(found):
            yield f'{file} has a marker, and no item names it'

    def unnamed(self, found):
        patterns = [pattern(path) for path in self.marked + self.others]
        return [file for file in found if not any(p.fullmatch(file) for p in patterns)]


def recipes(page):
    parts = SECTION.split(page)
    return [recipe for recipe in map(Recipe, parts[1::2], parts[2::2]) if recipe.markers]


def main():
    is_list = sys.argv[1:] == ['--found']
    if sys.argv[1:] and not is_list:
        sys.exit(__doc__)
    files = git('ls-files')
    all_ = recipes((TOP / PAGE).read_text())
    if is_list:
        for recipe in all_:
            found = recipe.found()
            unnamed = recipe.unnamed(found)
            print(f'{recipe.name}: {len(found)} files')
            print(''.join(f'{"+ " if file in unnamed else "  "}{file}\n' for file in found))
        return
    faults = [f'{recipe.name}: {fault}' for recipe in all_ for fault in recipe.faults(files)]
    if len(all_) < 4:
        faults.append(f'there are {len(all_)} recipes, and not four')
    print(''.join(f'{fault}\n' for fault in faults), end='')
    sys.exit(bool(faults))


if __name__ == '__main__':
    main()
