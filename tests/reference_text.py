#!/usr/bin/env python3
"""Prints what docs/SCRIPT.md says that `build` prints of a script on standard input; or what `merge` or `show` prints over the
folder `work` that `build` leaves of it.

It was written from that document and docs/FORMATS.md, and not from the code: it knows no segment, posting list or merge. Of the refusals it
knows FastTokenizer and Numbers, which it tells with status 4.
"""
import argparse
import json
import sys
from dataclasses import dataclass

from formats import length_id
from script_columns import check_tokenizers, columns
from script_terms import deleted_term, is_of_text, length, occurrences
from script_values import Refused, pairs, stored

MERGED_ID = 32 * 'f'


def json_text(value):
    return json.dumps(value, ensure_ascii=False, separators=(',', ':'))


def term_text(term):
    return ''.join(chr(b) if 0x21 <= b <= 0x7e and b != 0x5c else f'\\{b:02x}' for b in term) or '\\e'


def posting_text(index, document, places):
    count = f'x{len(places)}' if index != 'basic' else ''
    return f' {document}{count}' + ('@' + ','.join(map(str, places)) if index == 'positions' else '')


def values_of(entry, document):
    return [value for name, value in document if name == entry['name']]


def positions(entry, document):
    """The positions of each term of a field in a document."""
    found = {}
    for term, place in occurrences(entry, values_of(entry, document)):
        found.setdefault(term, []).append(place)
    return found


def field_lines(entry, documents):
    """A term that is no text records its documents alone."""
    terms = {}
    for number, document in enumerate(documents):
        for term, places in positions(entry, document).items():
            index = entry['index'] if is_of_text(entry, term) else 'basic'
            terms.setdefault(term, []).append(posting_text(index, number, places))
    return [f'field {json_text(entry["name"])} terms {len(terms)}'] + [term_text(term) + ''.join(terms[term]) for term in sorted(terms)]


def is_indexed(entry):
    return entry.get('index', 'no') != 'no'


def has_lengths(entry):
    return is_indexed(entry) and entry.get('norms', entry['kind'] == 'text')


def norms_line(entry, documents):
    """The length ids of a field."""
    return ' '.join([f'norms {json_text(entry["name"])}', *(str(length_id(length(entry, values_of(entry, document)))) for document in documents)])


def column_line(column):
    rows = [f'{row}:' + ','.join(map(json_text, values)) for row, values in enumerate(column.rows) if values]
    return ' '.join([f'column {json_text(column.path)} {column.type}', *rows])


def segment_lines(schema, label, segment_id, documents, alive, is_full):
    lines = [f'{label} {segment_id} docs {len(documents)} alive {sum(alive)}']
    dead = [number for number, is_alive in enumerate(alive) if not is_alive]
    if dead:
        lines.append('dead ' + ' '.join(map(str, dead)))
    for entry in filter(is_indexed, schema):
        lines += field_lines(entry, documents)
    names = {entry['name'] for entry in schema if entry.get('stored')}
    for number, document in enumerate(documents):
        lines.append(f'doc {number} ' + json_text([(name, stored(value)) for name, value in document if name in names]))
    found = columns(schema, documents)
    if is_full:
        lines += map(column_line, found)
        lines += [norms_line(entry, documents) for entry in filter(has_lengths, schema)]
    return lines


def has_term(schema, document, name, *given):
    entry = next(entry for entry in schema if entry['name'] == name)
    return deleted_term(entry, given) in positions(entry, document)


def is_removed(schema, document, later):
    return any('delete' in operation and has_term(schema, document, *operation['delete']) for operation in later)


@dataclass
class Batch:
    """The documents of a batch, and for each whether it is alive, and whether the filter drops it."""
    id: str
    documents: list
    alive: list
    dropped: list


def batches(script):
    operations, cuts = script['operations'], script.get('cuts', [])
    filters = script.get('filters') or [None] * (len(cuts) + 1)
    bounds = [0, *cuts, len(operations)]
    for segment_id, start, end, dropped in zip(segment_ids(script), bounds, bounds[1:], filters):
        places = [place for place in range(start, end) if 'add' in operations[place]]
        documents = [pairs(script['schema'], operations[place]['add']) for place in places]
        alive = [not is_removed(script['schema'], document, operations[place + 1:]) for place, document in zip(places, documents)]
        yield Batch(segment_id, documents, alive, [dropped is not None and number in dropped['drop'] for number in range(len(documents))])


def segment_ids(script):
    return script.get('ids') or [f'{number + 1:032x}' for number in range(len(script.get('cuts', [])) + 2)]


def work_lines(script, label, is_full):
    return [line for batch in batches(script) for line in segment_lines(script['schema'], label, batch.id, batch.documents, batch.alive, is_full)]


def output_lines(script, segment_id, is_kept, is_full):
    """The output segment of the documents that are kept."""
    kept = [document for batch in batches(script) for number, document in enumerate(batch.documents) if is_kept(batch, number)]
    return segment_lines(script['schema'], 'output', segment_id, kept, [True] * len(kept), is_full)


def build_lines(script, is_full):
    """A filter leaves out what it drops."""
    is_kept = lambda batch, number: batch.alive[number] and not batch.dropped[number]
    return work_lines(script, 'work', is_full) + output_lines(script, segment_ids(script)[-1], is_kept, is_full)


def merge_lines(script):
    """An index has no filters: all that is alive is kept."""
    return output_lines(script, MERGED_ID, lambda batch, number: batch.alive[number], False)


def told_schema(entry):
    """A field as it is built: one of facets is always indexed and fast, without norms."""
    return {**entry, 'index': 'basic', 'fast': True, 'norms': False} if entry['kind'] == 'facet' else entry


def text_lines(script, command, is_full):
    script['schema'] = [told_schema(entry) for entry in script['schema']]
    check_tokenizers(script['schema'])
    if command == 'merge':
        return merge_lines(script)
    return build_lines(script, is_full) if command == 'build' else work_lines(script, 'segment', True)


def main():
    parser = argparse.ArgumentParser(description='Prints what the program is to print of a script, which is read from standard input.')
    parser.add_argument('command', nargs='?', choices=['build', 'merge', 'show'], default='build', help='merge and show are over the folder work of a build')
    parser.add_argument('--full', action='store_true', help='with build: the columns and the length ids too')
    words = parser.parse_args()
    if words.full and words.command != 'build':
        parser.error('--full goes with build')
    try:
        lines = text_lines(json.load(sys.stdin), words.command, words.full)
    except Refused as refused:
        print(f'refused: {refused}', file=sys.stderr)
        sys.exit(4)
    sys.stdout.buffer.write(''.join(line + '\n' for line in lines).encode())


if __name__ == '__main__':
    main()
