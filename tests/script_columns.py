"""The columns of the documents of a script, as docs/SCRIPT.md says ("Columns"), for reference_text.py."""
from dataclasses import dataclass

from script_terms import KNOWN, cut, steps
from script_values import Facet, Moment, Refused, Tokenized, moment_at, nanoseconds

TYPES = ['I64', 'U64', 'Bytes', 'Str', 'Bool', 'IpAddr', 'DateTime']
DECLARED = {
    'text': 'Str', 'facet': 'Str', 'u64': 'U64', 'i64': 'I64', 'bool': 'Bool', 'date': 'DateTime', 'bytes': 'Bytes', 'ip': 'IpAddr',
}
UNITS = {'seconds': 10 ** 9, 'milliseconds': 10 ** 6, 'microseconds': 10 ** 3, 'nanoseconds': 1}
DEEPEST = 20


@dataclass
class Column:
    """The values of each row, as they are printed."""
    path: str
    type: str
    rows: list


def truncated(moment, precision):
    """A moment cut to a precision, toward 1970."""
    nanos, unit = nanoseconds(moment), UNITS[precision]
    return moment_at(abs(nanos) // unit * unit * (1 if nanos >= 0 else -1))


def pieces(entry, text):
    """The values that a text gives: itself, or its tokens."""
    if isinstance(text, Tokenized):
        return [token['text'] for token in text.tokens]
    return cut(text, entry['fast_tokenizer']) if entry.get('fast_tokenizer') else [text]


def flat(tree):
    """The leaves of arrays in arrays, without null."""
    if isinstance(tree, list):
        return [leaf for below in tree for leaf in flat(below)]
    return [] if tree is None else [tree]


def declared_values(entry, tree):
    for leaf in flat(tree):
        if entry['kind'] == 'text':
            yield from pieces(entry, leaf)
        elif entry['kind'] == 'date':
            yield truncated(leaf, entry.get('precision', 'seconds'))
        else:
            yield '\0'.join(step.decode() for step in steps(leaf)) if isinstance(leaf, Facet) else leaf


def declared_row(entry, values):
    row = [given for tree in values for given in declared_values(entry, tree)]
    return sorted(row, key=str.encode) if entry['kind'] == 'facet' else row


def leaves(tree, keys=None, level=0):
    """The leaves of a JSON value, each with its keys, or with none where it is outside of all objects. The level counts from the first
    object on."""
    if isinstance(tree, dict):
        for key, below in tree.items():
            yield from leaves(below, (*(keys or ()), key), level + 1)
    elif isinstance(tree, list):
        for below in tree:
            yield from leaves(below, keys, level if keys is None else level + 1)
    elif tree is not None and level <= DEEPEST:
        yield keys, tree


def json_path(entry, keys):
    if keys is None:
        return entry['name']
    path = '\1'.join(keys)
    return entry['name'] + '\1' + (path.replace('.', '\1') if entry.get('expand_dots') else path)


def json_values(entry, tree):
    """The values of a JSON value, each with its path and its type; of a number the type is that of all numbers of its path."""
    for keys, leaf in leaves(tree):
        path = json_path(entry, keys)
        if isinstance(leaf, bool):
            yield path, 'Bool', leaf
        elif isinstance(leaf, int):
            yield path, 'number', leaf
        elif isinstance(leaf, Moment):
            yield path, 'DateTime', truncated(leaf, 'seconds') if keys is None else leaf
        else:
            yield from ((path, 'Str', piece) for piece in pieces(entry, leaf))


def number_type(rows):
    """The type of the numbers of a path."""
    numbers = [number for row in rows for number in row]
    if all(number < 2 ** 63 for number in numbers):
        return 'I64'
    if min(numbers) < 0:
        raise Refused('Numbers')
    return 'U64'


def json_columns(entry, documents):
    found = {}
    for row, values in enumerate(documents):
        for path, type_name, given in (column for tree in values for column in json_values(entry, tree)):
            found.setdefault((path, type_name), [[] for _ in documents])[row].append(given)
    return [Column(path, number_type(rows) if type_name == 'number' else type_name, rows) for (path, type_name), rows in found.items()]


def columns(schema, documents):
    """The columns of documents, of which each is pairs of a name and a value, in order of path and type."""
    found = []
    for entry in schema:
        values = [[given for name, given in document if name == entry['name']] for document in documents]
        if entry.get('fast') and entry['kind'] == 'json':
            found += json_columns(entry, values)
        elif entry.get('fast'):
            found.append(Column(entry['name'], DECLARED[entry['kind']], [declared_row(entry, given) for given in values]))
    return sorted(found, key=lambda column: (column.path.encode(), TYPES.index(column.type)))


def check_tokenizers(schema):
    """Refuses a fast field of texts or JSON that names a tokenizer that isn't known."""
    for entry in schema:
        name = entry.get('fast_tokenizer')
        if entry.get('fast') and entry['kind'] in ('text', 'json') and name is not None and name not in KNOWN:
            raise Refused('FastTokenizer')
