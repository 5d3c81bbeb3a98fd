#!/usr/bin/env python3
"""Reads the segments of a folder by docs/FORMATS.md, checks each rule of it, and prints them as the program does.

It was written from that document and not from the code, so the one can judge the other (tests/README.md).
"""
import argparse
import json
import sys
from contextlib import contextmanager
from pathlib import Path

import formats
from columns import TYPES, Column
from columns import columns as read_columns
from formats import COUNTS, POSITIONS, Malformed, check

# that many blocks at least stay as they are in a merge, where no document is dead
LEAST_STACKED = 6

# the type of the column of a fast field, by its kind; JSON fields have columns by their values
COLUMN_TYPES = {
    'text': 'Str', 'facet': 'Str', 'u64': 'U64', 'i64': 'I64', 'bool': 'Bool', 'date': 'DateTime', 'bytes': 'Bytes', 'ip': 'IpAddr',
}


@contextmanager
def reading(name):
    """Puts the name of a file before what is wrong in it."""
    try:
        yield
    except Malformed as wrong:
        raise Malformed(f'{name}: {wrong}') from None


def bytes_of(read, name):
    try:
        return read(name)
    except (OSError, KeyError):
        raise Malformed('it is missing or cannot be read') from None


# ---- the meta

def is_text(v):
    return type(v) is str and not any('\ud800' <= c <= '\udfff' for c in v)


def is_id(v):
    return is_text(v) and len(v) == 32 and set(v) <= set('0123456789abcdef')


def is_flag(v):
    return type(v) is bool


def is_list(v):
    return type(v) is list


def below(limit):
    return lambda v: type(v) is int and 0 <= v < limit


def one_of(*words):
    return lambda v: v in words


def nullable(test):
    return lambda v: v is None or test(v)


def is_object(members):
    """A test for objects with exactly these members, each of which passes its test."""
    return lambda v: type(v) is dict and v.keys() == members.keys() and all(test(v[name]) for name, test in members.items())


is_settings = is_object({
    'docstore_blocksize': below(2 ** 32),
    'docstore_compress_dedicated_thread': is_flag,
    'docstore_compression': one_of('none', 'lz4', 'zstd'),
})
is_entry = is_object({
    'expand_dots': is_flag,
    'fast': is_flag,
    'fast_tokenizer': nullable(is_text),
    'index': one_of('no', 'basic', 'freqs', 'positions'),
    'kind': one_of('text', 'u64', 'i64', 'bool', 'date', 'facet', 'bytes', 'ip', 'json'),
    'name': is_text,
    'norms': is_flag,
    'precision': one_of('seconds', 'milliseconds', 'microseconds', 'nanoseconds'),
    'stored': is_flag,
    'tokenizer': nullable(is_text),
})
is_deletes = is_object({'num_deleted_docs': below(2 ** 31), 'opstamp': below(2 ** 64)})
is_segment = is_object({'deletes': nullable(is_deletes), 'max_doc': below(2 ** 31), 'segment_id': is_id})
is_meta = is_object({
    'index_settings': is_settings,
    'opstamp': below(2 ** 64),
    'payload': nullable(is_text),
    'schema': is_list,
    'segments': is_list,
})


def goes_with_kind(entry):
    """Whether the kind of a field allows what else is told of it."""
    if entry['kind'] == 'facet':
        return entry['index'] == 'basic' and entry['fast'] and not entry['norms']
    return entry['kind'] in ('text', 'json') or entry['index'] in ('no', 'basic')


def refuse(number):
    raise Malformed(f'{number} is no number of a meta')


def meta_of(data):
    try:
        meta = json.loads(formats.utf8(data), parse_float=refuse, parse_constant=refuse)
    except (ValueError, RecursionError):
        raise Malformed('it is no JSON text') from None
    check(is_meta(meta), 'a member is missing, too many, or of another kind')
    check(all(map(is_entry, meta['schema'])), 'a field has a member that is missing, too many, or of another kind')
    check(all(map(goes_with_kind, meta['schema'])), 'a field has an option that its kind does not allow')
    check(all(map(is_segment, meta['segments'])), 'a segment has a member that is missing, too many, or of another kind')
    for items, name in (meta['schema'], 'name'), (meta['segments'], 'segment_id'):
        check(len({item[name] for item in items}) == len(items), f'a {name} stands twice')
    for segment in meta['segments']:
        deletes = segment['deletes']
        check(not deletes or 1 <= deletes['num_deleted_docs'] <= segment['max_doc'], 'the number of deletes is not one of documents')
    return meta


# ---- a whole segment

class Segment:
    """What the six files of a segment hold, and which of its documents are alive, all of it checked."""

    def __init__(self, read, meta, listed):
        self.read, self.id, self.max_doc = read, listed['segment_id'], listed['max_doc']
        self.schema = schema = meta['schema']
        self.block_size = meta['index_settings']['docstore_blocksize']
        indexed = [at for at, entry in enumerate(schema) if entry['index'] != 'no']
        self.norms = self.parts('fieldnorm', [at for at in indexed if schema[at]['norms']])
        self.check_norms()
        self.columns = self.read_columns()
        self.terms = self.read_terms(self.parts('term', indexed))
        self.totals = self.read_postings(self.parts('idx', indexed))
        self.read_positions(self.parts('pos', indexed))
        self.stored = self.read_store()
        self.alive = self.read_alive(listed['deletes'])

    def name(self, extension):
        return f'{self.id}.{extension}'

    def bytes_of(self, extension):
        return bytes_of(self.read, self.name(extension))

    def parts(self, extension, fields):
        with reading(self.name(extension)):
            parts = formats.composite(self.bytes_of(extension))
            check(list(parts) == fields, 'the parts are of other fields than those of the schema')
            return parts

    def check_norms(self):
        with reading(self.name('fieldnorm')):
            for part in self.norms.values():
                check(len(part) == self.max_doc, 'a part has more or fewer length ids than documents')

    def read_columns(self):
        with reading(self.name('fast')):
            rows, columns = read_columns(self.bytes_of('fast'))
            check(rows == self.max_doc, 'the number of rows is not max_doc')
            check_columns(self.schema, columns)
            return columns

    def read_terms(self, parts):
        with reading(self.name('term')):
            terms = {at: formats.dictionary(part) for at, part in parts.items()}
            for at, of_field in terms.items():
                for term in of_field:
                    term.kind = formats.term_kind(self.schema[at], term.key)
            return terms

    def read_postings(self, parts):
        with reading(self.name('idx')):
            return {at: formats.read_postings(self.terms[at], part, self.max_doc) for at, part in parts.items()}

    def read_positions(self, parts):
        with reading(self.name('pos')):
            for at, part in parts.items():
                pieces = formats.cut(part, [term.positions_end for term in self.terms[at]])
                for term, piece in zip(self.terms[at], pieces):
                    formats.read_positions(term, piece)

    def read_store(self):
        with reading(self.name('store')):
            self.blocks = formats.store_blocks(self.bytes_of('store'))
            stored = self.raw_documents()
            check(len(stored) == self.max_doc, 'the number of documents is not max_doc')
            return [formats.stored_document(data, self.schema) for data in stored]

    def raw_documents(self):
        return [document for block in self.blocks for document in block]

    def read_alive(self, deletes):
        if deletes is None:
            return [True] * self.max_doc
        with reading(self.name(f'{deletes["opstamp"]}.del')):
            alive = formats.alive_set(self.bytes_of(f'{deletes["opstamp"]}.del'))
            check(len(alive) == self.max_doc, 'the number of documents is not max_doc')
            check(alive.count(False) == deletes['num_deleted_docs'], 'the meta tells another number of deletes')
            return alive

    def check_from_documents(self):
        """What holds besides where the segment was written from documents: the token totals and the lengths."""
        for at, terms in self.terms.items():
            with reading(self.name('idx')):
                total = sum(count for term in terms for _, count in term.counts)
                check(self.totals[at] == min(total, formats.MAX_TOTAL), f'the token total of field {at} is not the sum of the counts')
            if at in self.norms:
                with reading(self.name('fieldnorm')):
                    formats.check_lengths(self.schema[at], terms, self.norms[at])

    def check_merged_from(self, segments):
        """What holds besides where the segment was merged from these, without filters: the columns, the blocks of the store
        and the token totals."""
        with reading(self.name('fast')):
            check(self.columns == merged_columns(self.schema, segments), 'the columns are not those of the segments')
        with reading(self.name('store')):
            check(self.blocks == merged_blocks(segments, self.block_size), 'the blocks are not those of the segments')
        for at, total in self.totals.items():
            with reading(self.name('idx')):
                merged = sum(formats.live_tokens(s.totals[at], s.norms.get(at), s.alive) for s in segments if any(s.alive))
                check(total == min(merged, formats.MAX_TOTAL), f'the token total of field {at} is {total} and not {merged}')


def check_columns(schema, columns):
    """Whether these are columns under a schema: those that it declares are there, and each other one has a value and is of
    a JSON field."""
    fast = [entry for entry in schema if entry['fast']]
    declared = {(entry['name'], COLUMN_TYPES[entry['kind']]) for entry in fast if entry['kind'] != 'json'}
    names = [entry['name'] for entry in fast if entry['kind'] == 'json']
    check(declared <= {(column.path, column.type) for column in columns}, 'a declared column is not there')
    for column in columns:
        if (column.path, column.type) not in declared:
            check(any(column.rows), 'a column that is not declared has no value')
            check(column.type not in ('Bytes', 'IpAddr'), 'a column of a JSON field has a type that JSON has not')
            check(any(f'{column.path}\1'.startswith(f'{name}\1') for name in names), 'a column is of no fast field')


def merged_columns(schema, segments):
    """The columns of the documents of segments that are alive."""
    declared = [(entry['name'], COLUMN_TYPES[entry['kind']]) for entry in schema if entry['fast'] and entry['kind'] != 'json']
    found = {(*key, True): [] for key in declared}
    rows = 0
    for segment in segments:
        for column in segment.columns:
            is_declared = (column.path, column.type) in declared
            is_number = not is_declared and column.type in ('I64', 'U64')
            kept = found.setdefault((column.path, 'number' if is_number else column.type, is_declared), [])
            kept += [[] for _ in range(rows - len(kept))] + [row for row, is_alive in zip(column.rows, segment.alive) if is_alive]
        rows += sum(segment.alive)
    for kept in found.values():
        kept += [[] for _ in range(rows - len(kept))]
    columns = [Column(path, type_of(word, kept), kept) for (path, word, is_declared), kept in found.items() if is_declared or any(kept)]
    return sorted(columns, key=lambda column: (column.path.encode(), TYPES.index(column.type)))


def type_of(word, rows):
    """The type of a column; that of numbers by what they are."""
    return word if word != 'number' else 'U64' if any(number >= 2 ** 63 for row in rows for number in row) else 'I64'


class BlockWriter:
    """Cuts documents into blocks."""

    def __init__(self, block_size):
        self.block_size, self.blocks, self.opened = block_size, [], []

    def close(self):
        if self.opened:
            self.blocks.append(self.opened)
        self.opened = []

    def add(self, document):
        self.opened.append(document)
        if sum(map(len, self.opened)) >= self.block_size:
            self.close()

    def stack(self, blocks):
        self.close()
        self.blocks += blocks


def merged_blocks(segments, block_size):
    """The blocks of the store that segments are merged to."""
    merged = BlockWriter(block_size)
    for segment in segments:
        if all(segment.alive) and len(segment.blocks) >= LEAST_STACKED:
            merged.stack(segment.blocks)
            continue
        for document, is_alive in zip(segment.raw_documents(), segment.alive):
            if is_alive:
                merged.add(document)
    merged.close()
    return merged.blocks


def read_index(read):
    """The segments of an index, whose files `read` answers by their names."""
    with reading('meta.json'):
        meta = meta_of(bytes_of(read, 'meta.json'))
    return [Segment(read, meta, listed) for listed in meta['segments']]


# ---- the printed text

def json_text(v):
    return json.dumps(v, ensure_ascii=False, separators=(',', ':'))


def term_text(key):
    return ''.join(chr(b) if 0x21 <= b <= 0x7e and b != 0x5c else f'\\{b:02x}' for b in key) or '\\e'


def posting_text(term, place):
    document, count = term.counts[place]
    text = f' {document}'
    if term.kind >= COUNTS:
        text += f'x{count}'
    if term.kind == POSITIONS:
        text += '@' + ','.join(map(str, term.positions[place]))
    return text


def column_line(column):
    rows = [f'{row}:' + ','.join(map(json_text, values)) for row, values in enumerate(column.rows) if values]
    return ' '.join([f'column {json_text(column.path)} {column.type}', *rows])


def segment_text(segment, label, is_full=False):
    lines = [f'{label} {segment.id} docs {segment.max_doc} alive {segment.alive.count(True)}']
    dead = [document for document, is_alive in enumerate(segment.alive) if not is_alive]
    if dead:
        lines.append('dead ' + ' '.join(map(str, dead)))
    for at, terms in segment.terms.items():
        lines.append(f'field {json_text(segment.schema[at]["name"])} terms {len(terms)}')
        for term in terms:
            lines.append(term_text(term.key) + ''.join(posting_text(term, place) for place in range(len(term.counts))))
    lines += [f'doc {document} {json_text(pairs)}' for document, pairs in enumerate(segment.stored)]
    lines += [column_line(column) for column in segment.columns if is_full]
    for at, ids in segment.norms.items() if is_full else []:
        lines.append(' '.join([f'norms {json_text(segment.schema[at]["name"])}', *map(str, ids)]))
    return ''.join(line + '\n' for line in lines)


def totals_text(segment):
    """A line for each indexed field. The program prints no such line."""
    return ''.join(f'total {json_text(segment.schema[at]["name"])} {total}\n' for at, total in segment.totals.items())


def main():
    parser = argparse.ArgumentParser(description='Reads the segments of a folder by docs/FORMATS.md and prints them.')
    parser.add_argument('folder', nargs='?', type=Path, help='the folder with meta.json')
    parser.add_argument('label', nargs='?', default='work', help='the word before the id of a segment (work)')
    parser.add_argument('--full', action='store_true', help='print the columns and the length ids too')
    parser.add_argument('--totals', action='store_true', help='print the token total of each field too, which the program does not')
    parser.add_argument('--from-documents', action='store_true', help='check the token totals and the lengths too, of segments that no merge made')
    parser.add_argument('--merged-from', type=Path, metavar='WORK', help='check the columns, the blocks of the store and the token totals too, of a segment that the segments of this folder were merged into, without filters')
    parser.add_argument('--self-test', action='store_true', help='read the segment that docs/FORMATS.md gives in bytes, and damaged ones')
    words = parser.parse_args()
    if words.self_test:
        import self_test
        return self_test.run()
    if words.folder is None:
        parser.error('a folder is wanted')
    try:
        segments = checked_segments(words)
    except Malformed as wrong:
        sys.exit(str(wrong))
    for segment in segments:
        text = segment_text(segment, words.label, words.full) + (totals_text(segment) if words.totals else '')
        sys.stdout.buffer.write(text.encode())


def checked_segments(words):
    """The segments of the folder, with what holds of them besides."""
    segments = index_in(words.folder)
    work = index_in(words.merged_from) if words.merged_from else None
    for segment in segments:
        if words.from_documents:
            segment.check_from_documents()
        if work is not None:
            segment.check_merged_from(work)
    return segments


def index_in(folder):
    return read_index(lambda name: (folder / name).read_bytes())


if __name__ == '__main__':
    main()
