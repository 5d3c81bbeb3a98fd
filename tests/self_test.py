"""Tries the reader: on the segment that docs/FORMATS.md gives in bytes, on damaged ones, and on single values."""
import json
import re
from pathlib import Path

import formats
from columns import columns
from formats import COUNTS, DOCUMENTS, POSITIONS, Malformed, Reader, Term
from read_segment import read_index, segment_text, totals_text

DOCUMENT = Path(__file__).resolve().parent.parent / 'docs' / 'FORMATS.md'
ID = '0' * 31 + '1'


def expect(holds, what):
    if not holds:
        raise SystemExit(f'self-test: {what}')


def refusal(call, *words):
    """What a call says is malformed, or nothing where it isn't refused."""
    try:
        call(*words)
    except Malformed as wrong:
        return str(wrong)
    return None


def example():
    """The files and the printed text that the document gives: lines of hexadecimal bytes below the name of each file."""
    text = DOCUMENT.read_text()
    meta = json.loads(re.search(r'```json\n(.*?)```', text, re.DOTALL)[1])
    meta['segments'] = [{'deletes': None, 'max_doc': 1, 'segment_id': ID}]
    blocks = re.findall(r'```\n(.*?)```', text[text.index('## A segment in bytes'):], re.DOTALL)
    files = {'meta.json': json.dumps(meta).encode()}
    for line in blocks[0].splitlines():
        if line.startswith('.'):
            name = ID + line
            files[name] = b''
        else:
            files[name] += bytes.fromhex(re.match(r'(?:[0-9a-f]{2} )*[0-9a-f]{2}(?= |$)', line)[0])
    return files, blocks[1]


def with_byte(data, at, byte):
    return data[:at] + bytes([byte]) + data[at + 1:]


def read_with(files, name, data):
    """Reads the segment with other bytes of one file."""
    segment, = read_index({**files, name: data}.__getitem__)
    segment.check_from_documents()


# bytes that another byte may stand in for: the token total and the length id, which are not part of what is read, and the letter of the key
FREE = {'.fieldnorm': {0}, '.idx': set(range(8)), '.term': {16}}


def try_damage(files):
    """Each file cut, lengthened, or with the highest bit of a byte changed."""
    for name in files:
        if name == 'meta.json':
            continue
        data, free = files[name], FREE.get(name[len(ID):], set())
        expect(refusal(read_with, files, name, data[:-1]), f'{name}, cut by a byte, is read')
        expect(refusal(read_with, files, name, data + b'\0'), f'{name} with a byte more is read')
        expect(refusal(read_index, {n: b for n, b in files.items() if n != name}.__getitem__), f'the segment is read without {name}')
        for at, byte in enumerate(data):
            changed = {**files, name: with_byte(data, at, byte ^ 0x80)}
            expect((refusal(read_index, changed.__getitem__) is None) == (at in free), f'{name} with byte {at} changed: {refusal(read_index, changed.__getitem__)}')
    for extension in '.idx', '.fieldnorm':
        name = ID + extension
        expect(refusal(read_with, files, name, with_byte(files[name], 0, 7)), f'a wrong first byte of {name} is not found')


DAMAGES = [
    ('.store', 2, 5, 'a value has the tag 5'),
    ('.store', 2, 2, 'a pre-tokenized text stands at the top'),
    ('.store', 4, 0xff, 'a text is not UTF-8'),
    ('.store', -1, 1, 'the store is compressed'),
    ('.fast', 16, 3, 'the number of rows is not max_doc'),
    ('.fast', 20, 2, 'the version is not 1'),
    ('.term', 73, 1, 'a dictionary has type 1'),
    ('.term', 69, 2, 'a dictionary has version 2'),
    ('.term', 17, 2, 'there are more or fewer infos than keys'),
    ('.term', 25, 1, 'a first range does not start at 0'),
    ('.term', 33, 1, 'a first range does not start at 0'),
    ('.idx', 8, 1, 'postings have another kind than their term'),
    ('.idx', 9, 1, 'a document is not below max_doc'),
    ('.idx', 10, 0, 'a count is 0'),
]

# varints that are read, and that are not
VARINTS = [('00', 0), ('7f', 127), ('ac02', 300), ('ff' * 9 + '01', 2 ** 64 - 1), ('8000', None), ('80', None), ('ff' * 9 + '02', None), ('80' * 10 + '01', None)]

# stored values, as they are printed
VALUES = [
    ('00', 'null'), ('0102c3bc', '"ü"'), ('03ffffffffffffffff', '18446744073709551615'), ('04ffffffffffffffff', '-1'),
    ('0600', 'false'), ('0601', 'true'), ('0602', None), ('07ffffffffffffffff', '"1969-12-31T23:59:59.999999999Z"'),
    ('070065cd1d00000000', '"1970-01-01T00:00:00.5Z"'), ('0800', '"/"'), ('08036100' + '62', '"/a/b"'), ('09020102', '"AQI="'),
    ('0a020006' + '01', '[null,true]'), ('0b020162000161' + '0601', '{"a":true,"b":null}'), ('0b020161000161' + '0601', '{"a":true}'),
    ('0c' + '00' * 10 + 'ffff7f000001', '"127.0.0.1"'), ('0c' + '20010db8' + '00' * 11 + '01', '"2001:db8::1"'),
    ('0a01020141010001000101' + '41', '[{"text":"A","tokens":[{"offset_from":0,"offset_to":1,"position":0,"position_length":1,"text":"A"}]}]'),
    ('0a01' * 199 + '00', '[' * 199 + 'null' + ']' * 199), ('0a01' * 200 + '00', None),
]

# kind, number of documents, postings, positions, and what is read
POSTINGS = [
    (POSITIONS, 2, '0200020301', '000602', ([(0, 2), (3, 1)], [[0, 6], [2]])),
    (POSITIONS, 1, '020002', '0000', ([(0, 2)], [[0, 0]])),
    (COUNTS, 2, '0100020301', '', ([(0, 2), (3, 1)], [])),
    (DOCUMENTS, 2, '000003', '', ([(0, 1), (3, 1)], [])),
    (DOCUMENTS, 2, '000000', '', None), (DOCUMENTS, 1, '000003', '', None), (DOCUMENTS, 0, '00', '', None), (DOCUMENTS, 1, '0004', '', None),
    (DOCUMENTS, 1, '0000', '00', None), (POSITIONS, 1, '020002', '00', None), (POSITIONS, 1, '020001', '8080808010', None),
]


# the bytes of an alive set, and the documents that are alive
ALIVE_SETS = [
    ('07000000' + '3200000000000000', [1, 4, 5]), ('00000000', []), ('40000000' + 'ff' * 8, list(range(64))), ('41000000' + '00' * 8 + '01' + '00' * 7, [64]),
    ('07000000' + '8000000000000000', None), ('07000000', None), ('07000000' + '00' * 16, None), ('0700', None),
]


# a token total, the length ids, who is alive, and what a merge counts of it
TOTALS = [
    (42, [40, 1], [True, True], 42), (42, [40, 1], [True, False], 40), (42, [40, 1], [False, True], 1), (42, [40, 1], [False, False], 0), (42, None, [True, False], 21),
    (7, None, [False, True, False], 2), (2 ** 64 - 1, None, [True, False], 2 ** 63 - 1), (0, [], [], 0), (0, None, [], 0),
]


# numbers of eight bytes, and a dictionary after them; path and type; and the values of each of two rows
DICTIONARY = [2, 1, 2], b'ab'
COLUMNS = [
    ([1, 1, 2 ** 63 + 5], b'', b'n', 0, [[5], []]), ([0, 2, 7, 7], b'', b'n', 1, [[], [7, 7]]), ([1, 2, 0, 1], b'', b'n', 4, [[False], [True]]),
    ([0, 0], b'', b'n', 5, [[], []]), ([0, 1], bytes(10) + b'\xff\xff\x7f\0\0\1', b'n', 5, [[], ['127.0.0.1']]),
    ([1, 1, 2 ** 63 + 5 * 10 ** 8], b'', b'n', 6, [['1970-01-01T00:00:00.5Z'], []]),
    ([2, 3, 1, 0, 1, *DICTIONARY[0]], DICTIONARY[1], b'n', 3, [['b', 'a'], ['b']]), ([1, 2, 0, 1, *DICTIONARY[0]], DICTIONARY[1], b'n', 2, [['YQ=='], ['Yg==']]),
    ([1, 1, 5], b'0', b'n', 1, None), ([1, 0, 5], b'', b'n', 1, None), ([1, 1], b'', b'n', 1, None), ([1, 1, 2], b'', b'n', 4, None), ([0, 0], b'', b'n', 7, None),
    ([0, 0], b'', b'\xff', 1, None), ([1, 2, 0, 0, *DICTIONARY[0]], DICTIONARY[1], b'n', 3, None), ([1, 2, 0, 1, *DICTIONARY[0]], b'ba', b'n', 3, None),
    ([1, 2, 0, 1, *DICTIONARY[0]], b'a\xff', b'n', 3, None), ([1, 2, 0, 2 ** 40], b'', b'n', 3, None),
]


def u64s(*numbers):
    return b''.join(number.to_bytes(8, 'little') for number in numbers)


def rows_of(numbers, rest, path, type):
    """The values of the one column of a file with two rows."""
    data = u64s(*numbers) + rest
    table = u64s(1, len(path)) + path + bytes([type]) + u64s(len(data))
    rows, (column,) = columns(data + table + u64s(len(table)) + bytes.fromhex('0200000001000000'))
    return column.rows


def alive_of(data):
    return [document for document, is_alive in enumerate(formats.alive_set(data)) if is_alive]


def value_text(data):
    reader = Reader(data)
    value = formats.value(reader, 1)
    reader.end()
    return json.dumps(value, ensure_ascii=False, separators=(',', ':'))


def postings_of(kind, number, postings, positions):
    term = Term(b'a', number, len(postings), len(positions), kind)
    formats.read_documents(term, bytes.fromhex(postings), 4)
    formats.read_positions(term, bytes.fromhex(positions))
    return term.counts, term.positions


def or_none(call, *words):
    try:
        return call(*words)
    except Malformed:
        return None


def run():
    files, text = example()
    segment, = read_index(files.__getitem__)
    segment.check_from_documents()
    expect(segment_text(segment, 'work') == text, 'the example is printed otherwise')
    expect(segment_text(segment, 'work', True) == text + 'norms "title" 1\n', 'the length ids are printed otherwise')
    expect(totals_text(segment) == 'total "title" 1\n', 'the token total is told otherwise')
    segment.check_merged_from([segment])
    expect(refusal(segment.check_merged_from, [segment] * 2), 'a wrong token total of a merge is not found')
    try_damage(files)
    for extension, at, byte, rule in DAMAGES:
        name = ID + extension
        at %= len(files[name])
        said = refusal(read_with, files, name, with_byte(files[name], at, byte))
        expect(said == f'{name}: {rule}', f'{name} with byte {at} set to {byte}: {said}')
    for form, alive in ALIVE_SETS:
        expect(or_none(alive_of, bytes.fromhex(form)) == alive, f'the alive set {form}')
    for *given, rows in COLUMNS:
        expect(or_none(rows_of, *given) == rows, f'the column {given}: {or_none(rows_of, *given)}')
    for form, number in VARINTS:
        expect(or_none(Reader(bytes.fromhex(form)).varint) == number, f'the varint {form}')
    for form, shown in VALUES:
        expect(or_none(value_text, bytes.fromhex(form)) == shown, f'the value {form}: {or_none(value_text, bytes.fromhex(form))}')
    for *given, read in POSTINGS:
        expect(or_none(postings_of, *given) == read, f'the postings {given}')
    for *given, merged in TOTALS:
        expect(formats.live_tokens(*given) == merged, f'the token total {given}')
    lengths = formats.LENGTHS
    expect(lengths == sorted(set(lengths)) and [lengths[i] for i in (39, 41, 48, 63, 248, 255)] == [39, 42, 56, 144, 1073741848, 2013265944], 'the lengths')
    print('self-test: all as docs/FORMATS.md says')
