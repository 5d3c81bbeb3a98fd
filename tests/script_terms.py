"""The terms of the values of a script, as docs/FORMATS.md writes them and docs/SCRIPT.md counts their positions, for
reference_text.py."""
import base64
import ipaddress
import re

from script_values import Facet, Moment, Tokenized, nanoseconds, value

SPLITS = {'default': '[\x00-\x2f\x3a-\x40\x5b-\x60\x7b-\x7f]+', 'whitespace': '[ \t\r\n]+'}
KNOWN = 'default', 'raw', 'whitespace'
SECOND = 10 ** 9


def lowered(text):
    return ''.join(c.lower() if c.isascii() else c for c in text)


def cut(text, tokenizer):
    if tokenizer == 'raw':
        return [text] if text else []
    pieces = [piece for piece in re.split(SPLITS[tokenizer], text) if piece]
    return [lowered(piece) for piece in pieces] if tokenizer == 'default' else pieces


def tokens_of(entry, text):
    """The tokens that give terms, each with its position and its length in positions."""
    if isinstance(text, Tokenized):
        found = [(token['text'], token['position'], token['position_length']) for token in text.tokens]
    else:
        found = [(token, place, 1) for place, token in enumerate(cut(text, entry.get('tokenizer') or 'default'))]
    return [token for token in found if len(token[0].encode()) <= 65530]


def number(n):
    return n.to_bytes(8, 'big')


def raised(n):
    return number(n + 2 ** 63)


def seconds_term(moment):
    """A moment cut to seconds, toward 1970."""
    nanos = nanoseconds(moment)
    return raised((abs(nanos) // SECOND * SECOND) * (1 if nanos >= 0 else -1))


def address_term(text):
    found = ipaddress.ip_address(text)
    return found.packed if found.version == 6 else bytes(10) + b'\xff\xff' + found.packed


def steps(facet):
    return [] if facet == '/' else [step.encode() for step in facet[1:].split('/')]


PLAIN = {'u64': number, 'i64': raised, 'bool': number, 'date': seconds_term, 'bytes': base64.b64decode, 'ip': address_term}


def plain_terms(kind, given):
    """The terms of a value of a field that is neither text nor JSON: of a facet one for each of its prefixes."""
    if kind == 'facet':
        return [b'\0'.join(steps(given)[:count]) for count in range(len(steps(given)) + 1)]
    return [PLAIN[kind](given)]


def leaves(tree, keys=()):
    """The leaves of a JSON value from left to right, each with its keys."""
    if isinstance(tree, dict):
        for key, below in tree.items():
            yield from leaves(below, (*keys, key.encode()))
    elif isinstance(tree, list):
        for below in tree:
            yield from leaves(below, keys)
    else:
        yield keys, tree


def joined(entry, keys):
    path = b'\1'.join(keys)
    return path.replace(b'.', b'\1') if entry.get('expand_dots') else path


def coded(leaf):
    """The type code and the bytes of a leaf that is no text; none of null."""
    if leaf is None:
        return None
    if isinstance(leaf, bool):
        return b'o' + number(leaf)
    if isinstance(leaf, Moment):
        return b'd' + seconds_term(leaf)
    return b'i' + raised(leaf) if leaf < 2 ** 63 else b'u' + number(leaf)


def is_json_text(leaf):
    return isinstance(leaf, str) and not isinstance(leaf, Moment)


def occurrences(entry, values):
    """The terms in the values of a field of a document, each with its position. A text begins one past the end of the text
    before it: in its field, or in JSON under its path."""
    starts = {}

    def texts(path, text):
        start = starts.get(path, 0)
        found = tokens_of(entry, text)
        starts[path] = 1 + max([start] + [start + place + length for _, place, length in found])
        return [(path + token.encode(), start + place) for token, place, _ in found]

    for given in values:
        if entry['kind'] == 'text':
            yield from texts(b'', given)
        elif entry['kind'] != 'json':
            yield from ((term, 0) for term in plain_terms(entry['kind'], given))
        else:
            for keys, leaf in leaves(given):
                path = joined(entry, keys) + b'\0'
                if is_json_text(leaf):
                    yield from texts(path + b's', leaf)
                elif leaf is not None:
                    yield path + coded(leaf), 0


def is_of_text(entry, term):
    return entry['kind'] == 'text' or entry['kind'] == 'json' and term[term.index(0) + 1:][:1] == b's'


def length(entry, values):
    """The length of a field: of texts the number of tokens, of other kinds the number of values, of JSON 0."""
    if entry['kind'] == 'text':
        return sum(len(tokens_of(entry, given)) for given in values)
    return 0 if entry['kind'] == 'json' else len(values)


def keys_of(path):
    """The keys that a path names: dots part them, but for those after a backslash."""
    found = ['']
    for piece in re.findall(r'\\\.|.', path, re.DOTALL):
        if piece == '.':
            found.append('')
        else:
            found[-1] += piece[-1] if piece == '\\.' else piece
    return [key.encode() for key in found]


def deleted_term(entry, given):
    """The term that a delete names, from what comes after the name."""
    if entry['kind'] == 'json':
        path, leaf = given[0], value('json', given[1])
        return joined(entry, keys_of(path)) + b'\0' + (b's' + leaf.encode() if is_json_text(leaf) else coded(leaf))
    leaf = value(entry['kind'], given[0])
    if entry['kind'] == 'text':
        return leaf.encode()
    return b'\0'.join(steps(leaf)) if isinstance(leaf, Facet) else PLAIN[entry['kind']](leaf)
