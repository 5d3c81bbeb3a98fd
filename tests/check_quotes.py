#!/usr/bin/env python3
"""Says which functions and definitions that docs/crates quotes don't stand so in the file that is named before them.

usage: check_quotes.py
"""
import re
import sys
from pathlib import Path

TOP = Path(__file__).resolve().parent.parent
QUOTE = re.compile(r'\(`((?:crates|bench)/[^`]+\.(?:rt|antt)(?:\.txt)?)`\)[^`]*?```(?:rust|antt)\n(.*?)```', re.S)


def without_indent(text):
    return '\n'.join(line.strip() for line in text.strip().split('\n'))


def main():
    stale = 0
    for page in sorted((TOP / 'docs' / 'crates').glob('*.md')):
        for source, quote in QUOTE.findall(page.read_text()):
            if without_indent(quote) not in without_indent((TOP / source).read_text()):
                print(f'{page.name}: not as in {source}')
                stale += 1
    sys.exit(1 if stale else 0)


if __name__ == '__main__':
    main()
