#!/usr/bin/env python3
"""Prints what `seg_cases` is to print of the cases in its folder `damage`: of each how many damaged forms are refused.

It reads the damaged bytes by docs/FORMATS.md (formats.py), and knows nothing of the program.
"""
import json
from pathlib import Path

import formats
import read_segment
from columns import columns
from formats import Malformed, check
from reference_text import told_schema

DATA = Path(__file__).resolve().parent.parent / 'crates' / 'seg_cases' / 'data' / 'damage'
MAX_DOC = 3  # of the fields that are no whole segment


def before_comment(line):
    return line.partition('#')[0]


def bytes_of(name, extension):
    path = DATA / f'{name}.{extension}'
    return path.read_bytes() if extension == 'json' else bytes.fromhex(' '.join(map(before_comment, path.read_text().splitlines())))


# ---- what reads the files of a case: each raises Malformed with the extension of the file that is told

def read_terms(entry, data):
    terms = formats.dictionary(data)
    for term in terms:
        term.kind = formats.term_kind(entry, term.key)
    return terms


def read_postings(terms, data, max_doc):
    """The postings of a field fill their part, and each term is read without its positions."""
    check(len(data) == 8 + terms[-1].postings_end, 'postings of another length')
    formats.read_postings(terms, data, max_doc)


def read_positions(terms, data):
    """The positions of these terms fill their part."""
    check(len(data) == terms[-1].positions_end, 'positions of another length')
    for term, piece in zip(terms, formats.cut(data, [term.positions_end for term in terms])):
        formats.read_positions(term, piece)


def read_field(parts, index, max_doc):
    terms = read_terms({'kind': 'text', 'index': index}, parts['term'])
    read_postings(terms, parts['idx'], max_doc)
    read_positions(terms, parts['pos'])


def read_store(data):
    """A store by itself has no schema: a pair may have any field."""
    for stored in formats.store(data):
        reader = formats.Reader(stored)
        for _ in range(reader.varint()):
            reader.varint()
            formats.value(reader, 1)
        reader.end()


def read_stored(data, schema, max_doc):
    """The store of this many documents, each pair of which has a stored field of the schema."""
    documents = formats.store(data)
    check(len(documents) == max_doc, 'another number of documents')
    for stored in documents:
        formats.stored_document(stored, schema)


def read_lengths(data, fields, max_doc):
    parts = formats.composite(data)
    check(list(parts) == fields and all(len(part) == max_doc for part in parts.values()), 'other lengths')


def composite_of(data, fields):
    parts = formats.composite(data)
    check(list(parts) == fields, 'other fields')
    return parts


class Run:
    """The files of the segment that a script makes."""

    def __init__(self, files):
        script = json.loads(files['json'])
        self.schema = [{'index': 'no', 'fast': False, 'stored': False, **told_schema(entry)} for entry in script['schema']]
        self.max_doc = sum('add' in operation for operation in script['operations'])
        self.indexed = [at for at, entry in enumerate(self.schema) if entry['index'] != 'no']
        self.with_lengths = [at for at in self.indexed if self.schema[at].get('norms', True)]
        self.alive = {name: formats.alive_set(data) for name, data in files.items() if name.endswith('.del')}

    def read(self, files):
        """Raises Malformed with the extension of the file that is told: the first that is wrong by itself or with those before it."""
        terms = {}
        for extension in 'term', 'store', 'idx', 'pos', 'fast', 'fieldnorm', *self.alive:
            try:
                self.read_file(files, extension, terms)
            except Malformed:
                raise Malformed(extension) from None

    def read_file(self, files, extension, terms):
        data = files[extension]
        parts = composite_of(data, self.indexed) if extension in ('term', 'idx', 'pos') else {}
        for at, part in parts.items():
            if extension == 'term':
                terms[at] = read_terms(self.schema[at], part)
            elif extension == 'idx':
                read_postings(terms[at], part, self.max_doc)
            else:
                read_positions(terms[at], part)
        if extension == 'store':
            read_stored(data, self.schema, self.max_doc)
        if extension == 'fast':
            rows, found = columns(data)
            check(rows == self.max_doc, 'another number of rows')
            read_segment.check_columns(self.schema, found)
        if extension == 'fieldnorm':
            read_lengths(data, self.with_lengths, self.max_doc)
        if extension in self.alive:
            alive, whole = formats.alive_set(data), self.alive[extension]
            check(len(alive) == len(whole) and sum(alive) == sum(whole), 'another number of documents')


FORMATS = {
    'composite': formats.composite, 'dictionary': formats.dictionary, 'store': read_store, 'columns': columns,
    'alive': formats.alive_set, 'meta': read_segment.meta_of,
}
INDEXES = {'documents': 'basic', 'counts': 'freqs', 'positions': 'positions'}


def reader_of(reader, files):
    if reader == 'run':
        return Run(files).read
    if reader in INDEXES:
        return lambda files: read_field(files, INDEXES[reader], MAX_DOC)
    return lambda files: FORMATS[reader](*files.values())


# ---- damage

def flipped(data, mask):
    return [data[:at] + bytes([data[at] ^ mask]) + data[at + 1:] for at in range(len(data))]


DAMAGES = {
    'cut': lambda data: [data[:end] for end in range(len(data))],
    'all bits of a byte flipped': lambda data: flipped(data, 0xff),
    'the lowest bit of a byte flipped': lambda data: flipped(data, 1),
    'a byte longer': lambda data: [data + b'\0'],
}


def told(read, files, extension, data):
    """The file that is told to be damaged where one has other bytes; none where all are read."""
    try:
        read({**files, extension: data})
    except Malformed as wrong:
        return str(wrong) if str(wrong) in files else extension
    return None


def counts(outcomes, extension):
    later = [outcome for outcome in outcomes if outcome not in (None, extension)]
    line = f'{outcomes.count(extension)} refused, {outcomes.count(None)} read'
    return line + (f', {len(later)} told of a later file' if later else '')


def print_case(reader, name, extensions):
    files = {extension: bytes_of(name, extension) for extension in extensions}
    read = reader_of(reader, files)
    read(files)
    for extension, data in files.items():
        if reader == 'run' and extension == 'json':
            continue
        print(f'  .{extension}: {len(data)} bytes')
        for title, damaged in DAMAGES.items():
            outcomes = [told(read, files, extension, other) for other in damaged(data)]
            if reader != 'run':
                outcomes = [outcome and extension for outcome in outcomes]
            print(f'    {title}: {counts(outcomes, extension)}')


def print_edits(name):
    text, outcomes = bytes_of(name, 'json').decode(), []
    for line in map(before_comment, (DATA / f'{name}.edits').read_text().splitlines()):
        if line:
            old, new = line.split(' =>')
            assert old in text
            outcomes.append(told(lambda files: read_segment.meta_of(files['json']), {}, 'json', text.replace(old, new, 1).encode()))
    print(f'  a piece for another: {counts(outcomes, "json")}')


def main():
    for line in map(before_comment, (DATA / 'cases').read_text().splitlines()):
        reader, name, *extensions = line.split() or ('', '')
        if reader:
            print(line)
        if reader == 'edits':
            print_edits(name)
        elif reader:
            print_case(reader, name, extensions)


if __name__ == '__main__':
    main()
