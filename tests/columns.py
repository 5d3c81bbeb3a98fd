"""A file of columns, read by docs/FORMATS.md into plain values."""
import base64
from dataclasses import dataclass

from formats import Reader, address_text, check, cut, date_text, utf8

TYPES = ['I64', 'U64', 'Bytes', 'Str', 'Bool', 'IpAddr', 'DateTime']
I64, U64, BYTES, STR, BOOL, IP_ADDR, DATE_TIME = range(7)
RAISED = 2 ** 63


@dataclass
class Column:
    """A column with the name of its type, and the values of each row as they are printed."""
    path: str
    type: int
    rows: list


@dataclass
class Entry:
    path: bytes
    type: int
    end: int


def columns(data):
    """The number of rows, and the columns in order of path and type."""
    check(len(data) >= 16, 'the bytes end too early')
    footer = Reader(data[-16:])
    length, rows, version = footer.u64(), footer.u32(), footer.u32()
    check(version == 1, 'the version is not 1')
    check(length <= len(data) - 16, 'the table is longer than the file')
    start = len(data) - 16 - length
    entries = table(data[start:-16])
    pieces = cut(data[:start], [entry.end for entry in entries])
    return rows, [Column(utf8(entry.path), TYPES[entry.type], values_of(entry.type, piece, rows)) for entry, piece in zip(entries, pieces)]


def table(data):
    reader = Reader(data)
    entries = [Entry(reader.take(reader.u64()), reader.take(1)[0], reader.u64()) for _ in range(reader.u64())]
    reader.end()
    for entry in entries:
        check(entry.type < len(TYPES), f'a column has the type {entry.type}')
        utf8(entry.path)
    keys = [(entry.path, entry.type) for entry in entries]
    for key, later in zip(keys, keys[1:]):
        check(key < later, 'columns are not in order')
        check((key, later) != ((key[0], I64), (key[0], U64)), 'a path has columns of both types of numbers')
    return entries


def values_of(type, data, rows):
    """The values of each row of a column."""
    reader = Reader(data)
    check(8 * rows <= len(data), 'the bytes end too early')
    ends = [reader.u64() for _ in range(rows)]
    check(all(end <= later for end, later in zip([0, *ends], ends)), 'ends fall')
    count, width = (ends or [0])[-1], 16 if type == IP_ADDR else 8
    check(8 * rows + width * count <= len(data), 'the bytes end too early')
    numbers = [reader.take(16) if type == IP_ADDR else reader.u64() for _ in range(count)]
    values = terms_at(numbers, type, reader.rest()) if type in (BYTES, STR) else [SHOWN[type](number) for number in numbers]
    reader.end()
    return [values[start:end] for start, end in zip([0, *ends], ends)]


def truth(number):
    check(number < 2, 'a bool is neither 0 nor 1')
    return number == 1


SHOWN = {
    I64: lambda number: number - RAISED,
    U64: lambda number: number,
    BOOL: truth,
    IP_ADDR: address_text,
    DATE_TIME: lambda number: date_text(number - RAISED),
}


def terms_at(ordinals, type, data):
    """The terms at these places of a dictionary, each of which is some value's."""
    terms = dictionary(data)
    check(set(ordinals) == set(range(len(terms))), 'the ordinals of the values are not those of the terms')
    shown = [utf8(term) if type == STR else base64.b64encode(term).decode() for term in terms]
    return [shown[ordinal] for ordinal in ordinals]


def dictionary(data):
    reader = Reader(data)
    count = reader.u64()
    check(8 + 8 * count <= len(data), 'the bytes end too early')
    terms = cut(data[8 + 8 * count:], [reader.u64() for _ in range(count)])
    check(all(term < later for term, later in zip(terms, terms[1:])), 'terms are not in order')
    return terms
