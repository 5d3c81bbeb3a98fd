"""The files of a segment, each read by docs/FORMATS.md into plain values. A rule that doesn't hold raises Malformed."""
import base64
import ipaddress
from bisect import bisect_right
from dataclasses import dataclass, field
from datetime import datetime, timedelta

DOCUMENTS, COUNTS, POSITIONS = range(3)  # the kinds of postings


class Malformed(Exception):
    """A rule that doesn't hold, in words."""


def check(holds, what_is_wrong):
    if not holds:
        raise Malformed(what_is_wrong)


# ---- numbers and pieces

class Reader:
    """Takes numbers, texts and bytes from the front of some bytes."""

    def __init__(self, data):
        self.data, self.at = data, 0

    def take(self, count):
        start, self.at = self.at, self.at + count
        check(self.at <= len(self.data), 'the bytes end too early')
        return self.data[start:self.at]

    def rest(self):
        return self.take(len(self.data) - self.at)

    def end(self):
        check(self.at == len(self.data), 'bytes are left over')

    def u32(self):
        return int.from_bytes(self.take(4), 'little')

    def u64(self):
        return int.from_bytes(self.take(8), 'little')

    def i64(self):
        return int.from_bytes(self.take(8), 'little', signed=True)

    def varint(self):
        value, shift, byte = 0, 0, 0x80
        while byte & 0x80:
            byte = self.take(1)[0]
            value |= (byte & 0x7f) << shift
            shift += 7
            check(value < 2 ** 64 and shift <= 70, 'a varint is from 2^64 on')
        check(byte or shift == 7, 'a varint is not in its shortest form')
        return value

    def small(self):
        value = self.varint()
        check(value < 2 ** 32, 'a number is from 2^32 on')
        return value

    def sized(self):
        return self.take(self.varint())

    def text(self):
        return utf8(self.sized())


def utf8(data):
    try:
        return data.decode()
    except UnicodeDecodeError:
        raise Malformed('a text is not UTF-8') from None


def cut(data, ends):
    """The pieces of some bytes, each up to its end."""
    pieces, start = [], 0
    for end in ends:
        check(start <= end <= len(data), 'an end falls or lies outside')
        pieces.append(data[start:end])
        start = end
    check(start == len(data), 'bytes belong to nothing')
    return pieces


def split_table(data, tail, width):
    """The bytes before a table, and the table; its number of rows is first in the tail after it."""
    check(len(data) >= tail, 'the bytes end too early')
    count = int.from_bytes(data[len(data) - tail:][:4], 'little')
    start = len(data) - tail - width * count
    check(start >= 0, 'the table does not fit')
    return data[:start], count, Reader(data[start:])


def composite(data):
    """The parts of a composite file, by field."""
    body, count, table = split_table(data, 4, 12)
    entries = [(table.u32(), table.u64()) for _ in range(count)]
    fields = [at for at, _ in entries]
    check(all(a < b for a, b in zip(fields, fields[1:])), 'fields do not strictly ascend')
    return dict(zip(fields, cut(body, [end for _, end in entries])))


# ---- terms

@dataclass
class Term:
    key: bytes
    number: int
    postings_end: int
    positions_end: int
    kind: int = DOCUMENTS
    counts: list = field(default_factory=list)      # (document, count); the count is 1 in kind 0
    positions: list = field(default_factory=list)   # for each document its positions, in kind 2


def dictionary(data):
    """The terms of a field, without their postings."""
    check(len(data) >= 16, 'a dictionary ends too early')
    tail = Reader(data[-16:])
    length, version, form = tail.u64(), tail.u32(), tail.u32()
    check(form == 3, f'a dictionary has type {form}')
    check(version == 1, f'a dictionary has version {version}')
    check(length <= len(data) - 16, 'an info store does not fit')
    store_at = len(data) - 16 - length
    table, store = Reader(data[:store_at]), Reader(data[store_at:-16])
    count = table.u64()
    check(store.u64() == count and length == 24 + 20 * count, 'there are more or fewer infos than keys')
    starts = store.u64(), store.u64()
    check(count == 0 or starts == (0, 0), 'a first range does not start at 0')
    check(8 * count <= len(data), 'the ends of keys do not fit')
    ends = [table.u64() for _ in range(count)]
    keys = cut(table.rest(), ends)
    check(all(a < b for a, b in zip(keys, keys[1:])), 'keys do not strictly ascend')
    terms = [Term(key, store.u32(), store.u64(), store.u64()) for key in keys]
    for before, after in zip(terms, terms[1:]):
        check(before.postings_end <= after.postings_end and before.positions_end <= after.positions_end, 'an end falls')
    return terms


def term_kind(entry, key):
    """The kind that a term of a field has; checks what keys of JSON and facet fields are."""
    kind = {'basic': DOCUMENTS, 'freqs': COUNTS, 'positions': POSITIONS}[entry['index']]
    if entry['kind'] == 'facet':
        utf8(key)
    if entry['kind'] == 'json':
        path, _, rest = key.partition(b'\0')
        utf8(path)
        check(rest[:1] in (b's', b'i', b'u', b'o', b'd'), 'a JSON term has no type code')
        return kind if rest[:1] == b's' else DOCUMENTS
    return kind if entry['kind'] == 'text' else DOCUMENTS


def read_documents(term, data, max_doc):
    """The documents of a term, and how often it occurs in each."""
    reader, document = Reader(data), 0
    check(reader.take(1)[0] == term.kind, 'postings have another kind than their term')
    check(term.number >= 1, 'a term has no document')
    for place in range(term.number):
        difference = reader.varint()
        check(place == 0 or difference >= 1, 'documents do not ascend')
        document += difference
        check(document < max_doc, 'a document is not below max_doc')
        count = reader.small() if term.kind != DOCUMENTS else 1
        check(count >= 1, 'a count is 0')
        term.counts.append((document, count))
    reader.end()


def read_positions(term, data):
    """The positions of a term in each of its documents."""
    reader = Reader(data)
    for _, count in term.counts if term.kind == POSITIONS else []:
        position, positions = 0, []
        for _ in range(count):
            position += reader.varint()
            check(position < 2 ** 32, 'a position is from 2^32 on')
            positions.append(position)
        term.positions.append(positions)
    reader.end()


def read_postings(terms, data, max_doc):
    """The documents of all terms; answers the token total."""
    reader = Reader(data)
    total = reader.u64()
    for term, piece in zip(terms, cut(reader.rest(), [term.postings_end for term in terms])):
        read_documents(term, piece, max_doc)
    return total


# ---- field norms

# the length that each id stands for
LENGTHS = list(range(32)) + [24 + (i % 8 + 8) * 2 ** (i // 8 - 1) for i in range(8, 232)]


def length_id(length):
    """The greatest id whose length is at most this one."""
    return bisect_right(LENGTHS, length) - 1


def check_lengths(entry, terms, norms):
    """Whether the lengths are those that the postings tell, in a field whose postings tell them."""
    lengths = [0] * len(norms)
    for term in terms:
        for document, count in term.counts:
            lengths[document] += count if entry['kind'] == 'text' else 0
    if entry['kind'] == 'json' or entry['kind'] == 'text' and entry['index'] != 'basic':
        check(list(norms) == list(map(length_id, lengths)), 'a length id is not that of the tokens')


# ---- token totals of a merge

MAX_TOTAL = 2 ** 64 - 1


def live_tokens(total, norms, alive):
    """How many tokens of a field a merge counts in the documents of a segment that are alive; `norms` is None where it has no lengths."""
    if all(alive):
        return total
    if norms is not None:
        return min(sum(LENGTHS[length] for length, is_alive in zip(norms, alive) if is_alive), MAX_TOTAL)
    return total * alive.count(True) // len(alive)


# ---- alive documents

def alive_set(data):
    """For each document whether it is alive."""
    reader = Reader(data)
    documents = reader.u32()
    words = [reader.u64() for _ in range((documents + 63) // 64)]
    reader.end()
    bits = [word >> bit & 1 for word in words for bit in range(64)]
    check(not any(bits[documents:]), 'a bit after the last document is set')
    return [bit == 1 for bit in bits[:documents]]


# ---- the store

def block(data):
    """The bytes of each document of a block."""
    body, count, ends = split_table(data, 4, 8)
    check(count >= 1, 'a block has no document')
    return cut(body, [ends.u64() for _ in range(count)])


def store_blocks(data):
    """The blocks of a store, each the bytes of its documents."""
    body, count, table = split_table(data, 9, 12)
    checkpoints = [(table.u32(), table.u64()) for _ in range(count)]
    table.u32()
    documents, compression, blocks, stored = table.u32(), table.take(1)[0], [], 0
    check(compression == 0, 'the store is compressed')
    for (last, _), piece in zip(checkpoints, cut(body, [end for _, end in checkpoints])):
        blocks.append(block(piece))
        stored += len(blocks[-1])
        check(stored == last, 'a checkpoint tells another number of documents')
    check(stored == documents, 'the store tells another number of documents')
    return blocks


def store(data):
    """The bytes of each stored document."""
    return [document for documents in store_blocks(data) for document in documents]


def token(reader):
    members = {'offset_from': reader.varint(), 'offset_to': reader.varint(), 'position': reader.small()}
    return members | {'position_length': reader.small(), 'text': reader.text()}


def date_text(nanoseconds):
    seconds, fraction = divmod(nanoseconds, 10 ** 9)
    moment = (datetime(1970, 1, 1) + timedelta(seconds=seconds)).isoformat()
    return moment + (f'.{fraction:09}'.rstrip('0') if fraction else '') + 'Z'


def address_text(octets):
    address = ipaddress.IPv6Address(octets)
    return str(address.ipv4_mapped or address)


def flag(reader):
    byte = reader.take(1)[0]
    check(byte < 2, 'a bool is neither 0 nor 1')
    return byte == 1


LEAVES = {
    0: lambda reader: None,
    1: lambda reader: reader.text(),
    2: lambda reader: {'text': reader.text(), 'tokens': [token(reader) for _ in range(reader.varint())]},
    3: lambda reader: reader.u64(),
    4: lambda reader: reader.i64(),
    6: flag,
    7: lambda reader: date_text(reader.i64()),
    8: lambda reader: '/' + reader.text().replace('\0', '/'),
    9: lambda reader: base64.b64encode(reader.sized()).decode(),
    12: lambda reader: address_text(reader.take(16)),
}


def value(reader, level):
    """A stored value, as it is printed."""
    check(level <= 200, 'a value has more than 200 levels')
    tag = reader.take(1)[0]
    check(level > 1 or tag != 2, 'a pre-tokenized text stands at the top')
    if tag == 10:
        return [value(reader, level + 1) for _ in range(reader.varint())]
    if tag == 11:
        members = [(reader.text(), value(reader, level + 1)) for _ in range(reader.varint())]
        return dict(sorted(dict(members).items()))
    check(tag in LEAVES, f'a value has the tag {tag}')
    return LEAVES[tag](reader)


def stored_document(data, schema):
    """The name and the value of each stored pair."""
    reader, pairs = Reader(data), []
    for _ in range(reader.varint()):
        at = reader.varint()
        check(at < len(schema) and schema[at]['stored'], 'a pair has a field that is not stored')
        pairs.append([schema[at]['name'], value(reader, 1)])
    reader.end()
    return pairs
