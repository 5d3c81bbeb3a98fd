#!/usr/bin/env python3
"""Says which links, cited sections and paths in the repository's pages lead nowhere, a line for each.

usage: check_links.py

A link goes to a file or folder from the page's own folder, perhaps with `#` and an anchor, which a heading of that page
has to give. A section is cited by its page and its name, as in (`docs/SCRIPT.md`, "Deletes"). A path in backticks that
begins with a folder of the repository goes from the top, perhaps without its ending; one with a star or a space is no path,
nor is one below `crates/NAME`.
"""
import re
import subprocess
import sys
from pathlib import Path

TOP = Path(__file__).resolve().parent.parent
LINK = re.compile(r'\]\(([^)\s]+)\)')
CITED = re.compile(r'`?(docs/\w+\.md|README)`?, "([^"]+)"')
PATH = re.compile(r'`((?:bench|crates|docs|examples|tests)/[^`*\s]+)`')
FENCE = re.compile(r'^```.*?^```', re.S | re.M)
HEADING = re.compile(r'^#+ +(.+)$', re.M)


def headings(page):
    """The headings of a page, as they are printed."""
    titles = HEADING.findall(FENCE.sub('', page.read_text()))
    return [re.sub(r'`|\[([^]]*)\]\([^)]*\)', r'\1', title).strip() for title in titles]


def anchor(title):
    return re.sub(r'[^\w\- ]', '', title.lower()).replace(' ', '-')


def faults_of_link(page, link):
    if re.match(r'[a-z]+:', link):
        return
    name, _, part = link.partition('#')
    target = (page.parent / name).resolve() if name else page
    if not target.exists():
        yield f'{link} is not there'
    elif part and part not in map(anchor, headings(target)):
        yield f'{link}: no heading gives this anchor'


def is_there(path):
    return path.exists() or any(path.parent.glob(f'{path.name}.*'))


def faults(page):
    text = page.read_text()
    for link in LINK.findall(FENCE.sub('', text)):
        yield from faults_of_link(page, link)
    for name, title in CITED.findall(text):
        cited = TOP / name.replace('README', 'README.md')
        if not cited.exists() or title not in headings(cited):
            yield f'{name} has no section "{title}"'
    for path in PATH.findall(FENCE.sub('', text)):
        if '/out/' not in path and not path.startswith('crates/NAME') and not is_there(TOP / path.split(':')[0]):
            yield f'`{path}` is not there'


def main():
    listed = subprocess.run(['git', 'ls-files', '*.md'], cwd=TOP, check=True, stdout=subprocess.PIPE, text=True).stdout
    found = [f'{name}: {fault}' for name in listed.split() for fault in faults(TOP / name)]
    print(*found, sep='\n', end='\n' if found else '')
    sys.exit(1 if found else 0)


if __name__ == '__main__':
    main()
