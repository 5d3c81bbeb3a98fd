#!/usr/bin/env python3
"""Checks docs/HEADLINE.md against the specs: each quote is in the file that it names, letter by letter, and begins with the head of
its definition; the clauses of `run` and the laws that the page names are there; and the numbers are right of the definitions that
these clauses reach.

usage: check_headline.py [--numbers]

A definition reaches another where its text has the other's name. One line is printed for each fault, and then the status is 1. With
--numbers the right numbers are written into the page first.
"""
import re
import sys
from collections import Counter
from pathlib import Path

TOP = Path(__file__).resolve().parent.parent
PAGE = TOP / 'docs/HEADLINE.md'
USE = re.compile(r'^(?:ghost |pub )?use ([\w.]+?)(?:\.\{(.*)\}| as (\w+))?;?$', re.M)
HEAD = re.compile(r'^ *(?:(?:abbrev|unfoldable)(?: pub)?|pub record|pub data) (?P<name>[^\s:]+)')
MEMBER = re.compile(r'^  pub (?P<name>[^\s:]+) :')
WORD = re.compile(r'[^\s(){},;]+')
ENTRY = re.compile(r'^### `(\S+)` in `crates/(\w+)/specs/([\w/]+)\.antt`\n\n```antt\n(.*?)\n```$', re.M | re.S)
QUOTE = re.compile(r'^From `(\S+)`:\n\n```antt\n(.*?)\n```$', re.M | re.S)
THEME = re.compile(r'^\| ([^|]+) \| ([^|]+) \| (\d+) \|$', re.M)
CLAUSES = re.compile(r'^- ((?:`\w+`(?:, )?)+): ', re.M)


def file_of(module):
    """`seg_model/Fields`, of `Rattle.seg_model.specs.Fields`; none of a module that is no spec of this repository."""
    crate, *inside = re.sub(r'^Rattle\.(seg_\w+)\.specs\.', r'\1.', module).split('.')
    return '/'.join([crate, *inside]) if crate.startswith('seg_') else None


def scope(text):
    """Where each name, and each file by its short name, is from."""
    names, files = {}, {}
    for module, items, short in USE.findall(text):
        file = file_of(module)
        for item in filter(None, items.split(', ')):
            name, _, here = item.partition(' as ')
            names[here or name] = (file, name)
        if not items:
            files[short or module.split('.')[-1]] = file
    return names, files


class Spec:
    def __init__(self, path):
        self.text = path.read_text()
        self.names, self.files = scope(self.text)
        self.definitions = {}
        name, is_mutual = None, False
        for line in self.text.splitlines():
            head = HEAD.match(line) or (MEMBER.match(line) if is_mutual else None)
            if head:
                name = head['name']
                is_mutual = name == 'mutual' or is_mutual and line.startswith('  ')
                self.definitions[name] = [line]
            elif line and not line.startswith(' ') and re.match('use|pub|mutual|module', line):
                name, is_mutual = None, False
            elif name in self.definitions and line.strip() and not line.strip().startswith('--'):
                self.definitions[name].append(line)


class Specs:
    def __init__(self):
        folders = sorted(TOP.glob('crates/*/specs'))
        self.files = {f'{folder.parent.name}/{path.relative_to(folder).with_suffix("")}': Spec(path)
                      for folder in folders for path in sorted(folder.rglob('*.antt'))}

    def definition(self, file, name):
        """Where the definition of that name is, though the file may only hand it on."""
        spec = self.files.get(file)
        if not spec:
            return None
        if name in spec.definitions:
            return file, name
        return self.definition(*spec.names[name]) if name in spec.names else None

    def cited(self, text, names, files, own=None):
        for word in WORD.findall(text):
            first, *more = word.split('.')
            if first in files and more:
                yield self.definition(files[first], more[0])
            else:
                yield self.definition(*names.get(first, (own, first)))

    def reached(self, text, uses):
        """All definitions that a text reaches, however far."""
        found, open_ends = set(), set(self.cited(text, *scope(uses)))
        while open_ends:
            key = open_ends.pop()
            if key and key not in found:
                found.add(key)
                spec = self.files[key[0]]
                open_ends.update(self.cited('\n'.join(spec.definitions[key[1]]), spec.names, spec.files, key[0]))
        return found


def run_clauses():
    """The source that has `run`, the names of its clauses, and their text."""
    source = (TOP / 'crates/seg_tool/src/command.rt').read_text()
    contract = source[source.index('pub fn run<'):]
    contract = re.sub(r'//.*', '', contract[contract.index('    ensures'):contract.index('\n{\n')])
    return source, re.findall(r'ensures (\w+)', contract), re.sub(r'ensures \w+', '', contract)


def quote_faults(page, specs):
    for name, crate, stem, quote in ENTRY.findall(page):
        spec = specs.files.get(f'{crate}/{stem}')
        if not spec or name not in spec.definitions:
            yield f'{name}: there is no such definition in {crate}/{stem}'
        elif quote.splitlines()[0] != spec.definitions[name][0]:
            yield f'{name}: the quote begins otherwise than the definition'
        elif f'\n{quote}\n' not in spec.text:
            yield f'{name}: the quote is not in {crate}/{stem}'
    if page.count('```antt\n') != len(ENTRY.findall(page)) + len(QUOTE.findall(page)):
        yield 'a quote does not name its file as the others do'
    for path, quote in QUOTE.findall(page):
        if f'\n{quote}\n' not in (TOP / path).read_text():
            yield f'{quote.split(" {")[0].strip()}: the quote is not in {path}'


class Counts:
    """How many definitions the clauses of `run` reach, and which of them the page walks."""
    def __init__(self, page, reached):
        self.reached = reached
        self.walked = {(f'{crate}/{stem}', name) for name, crate, stem, _ in ENTRY.findall(page)}
        self.rest = reached - self.walked
        self.told = {theme: int(number) for theme, _, number in THEME.findall(page)}
        theme_of = {place: theme for theme, places, _ in THEME.findall(page) for place in re.findall(r'`(\S+?)`', places)}
        self.themes = Counter(theme_of.get(file, theme_of.get(file.split('/')[0], file)) for file, _ in self.rest)

    def faults(self, page):
        for file, name in sorted(self.walked - self.reached):
            yield f'{name}: no clause of run reaches it'
        for words in f'{len(self.walked)} of the {len(self.reached)} definitions', f'The other {len(self.rest)} ':
            if words not in page:
                yield f'the page does not say "{words.strip()}"'
        for theme in sorted(set(self.themes) | set(self.told)):
            if self.themes[theme] != self.told.get(theme):
                yield f'{theme}: {self.themes[theme]} definitions, and the page says {self.told.get(theme, "nothing")}'

    def put_into(self, page):
        page = re.sub(r'\d+ of the \d+ definitions', f'{len(self.walked)} of the {len(self.reached)} definitions', page)
        page = re.sub(r'The other \d+ ', f'The other {len(self.rest)} ', page)
        return THEME.sub(lambda row: f'| {row[1]} | {row[2]} | {self.themes[row[1]]} |', page)


def name_faults(page, clauses):
    named = [name for names in CLAUSES.findall(page) for name in re.findall(r'\w+', names)]
    if named != clauses:
        yield f'the clauses of run are {", ".join(clauses)}'
    for crate, law in sorted(set(re.findall(r'`(seg_\w+)::(\w+)`', page))):
        files = (TOP / 'crates' / crate / 'src').rglob('*.rt')
        if not any(re.search(rf'^pub fn {law}\b', file.read_text(), re.M) for file in files):
            yield f'{crate}::{law}: there is no such law'


def main():
    if sys.argv[1:] not in ([], ['--numbers']):
        sys.exit(__doc__)
    page = PAGE.read_text()
    specs = Specs()
    source, clauses, contract = run_clauses()
    reached = specs.reached(contract, source)
    counts = Counts(page, reached)
    if sys.argv[1:]:
        page = counts.put_into(page)
        PAGE.write_text(page)
        counts = Counts(page, reached)
    faults = [*quote_faults(page, specs), *counts.faults(page), *name_faults(page, clauses)]
    for fault in faults:
        print(fault)
    sys.exit(bool(faults))


if __name__ == '__main__':
    main()
