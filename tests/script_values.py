"""The values of a script, read as docs/SCRIPT.md says, for reference_text.py. A value is what is printed of it, as JSON; a text that
comes with its tokens is a `Tokenized`."""
import base64
import binascii
import ipaddress
import re
from dataclasses import dataclass
from datetime import datetime, timedelta, timezone

MOMENT = re.compile(r'(\d{4})-(\d\d)-(\d\d)[Tt](\d\d):(\d\d):(\d\d)(?:\.(\d+))?(?:[Zz]|([+-])(\d\d):(\d\d))', re.ASCII)
EPOCH = datetime(1970, 1, 1, tzinfo=timezone.utc)


class Refused(Exception):
    """What is not built, with the name of its cause."""


@dataclass
class Tokenized:
    text: str
    tokens: list


class Moment(str):
    """A date, as it is printed."""


class Facet(str):
    """A facet, as its path."""


def moment(text):
    """The moment that a text of RFC 3339 tells, in UTC with no zeros at the end of its fraction; none of any other text."""
    found = MOMENT.fullmatch(text)
    if not found:
        return None
    *civil, fraction, sign, hours, minutes = found.groups()
    try:
        at = datetime(*map(int, civil), tzinfo=timezone.utc)
        if int(hours or 0) > 23 or int(minutes or 0) > 59:
            return None
        offset = timedelta(hours=int(hours or 0), minutes=int(minutes or 0))
        at += offset if sign == '-' else -offset
    except (ValueError, OverflowError):
        return None
    digits = (fraction or '')[:9].ljust(9, '0')
    seconds = (at - EPOCH) // timedelta(seconds=1)
    if not -2 ** 63 <= seconds * 10 ** 9 + int(digits) < 2 ** 63:
        return None
    return moment_at(seconds * 10 ** 9 + int(digits))


def moment_at(nanos):
    """The moment that many nanoseconds from 1970."""
    seconds, rest = divmod(nanos, 10 ** 9)
    fraction = f'.{rest:09}'.rstrip('0').rstrip('.')
    return Moment((EPOCH + timedelta(seconds=seconds)).strftime('%Y-%m-%dT%H:%M:%S') + fraction + 'Z')


def nanoseconds(moment):
    """The nanoseconds from 1970 to a moment."""
    civil, _, fraction = moment[:-1].partition('.')
    at = datetime.strptime(civil, '%Y-%m-%dT%H:%M:%S').replace(tzinfo=timezone.utc)
    return (at - EPOCH) // timedelta(seconds=1) * 10 ** 9 + int(fraction.ljust(9, '0'))


def address(text):
    """The address that a text tells, as it is printed; none of any other text."""
    try:
        if ':' not in text:
            return str(ipaddress.IPv4Address(text))
        if '.' in text or '%' in text:
            return None
        found = ipaddress.IPv6Address(text)
    except ValueError:
        return None
    return str(found.ipv4_mapped or found)


def encoded(text):
    """The text itself, where it is the standard base64 of some bytes; none of any other text."""
    try:
        return text if base64.b64encode(base64.b64decode(text, validate=True)).decode() == text else None
    except (binascii.Error, ValueError):
        return None


def facet(text):
    """The path itself, where it is one; none of any other text."""
    return Facet(text) if text == '/' or text.startswith('/') and all(text[1:].split('/')) and '\0' not in text else None


def json_leaf(text):
    return moment(text) if text[:1] in tuple('0123456789') else None


TEXTS = {'date': moment, 'facet': facet, 'bytes': encoded, 'ip': address, 'json': json_leaf}


def value(kind, given):
    """A value that is read by a kind, or by `tokens`."""
    if isinstance(given, str) and kind in TEXTS:
        return TEXTS[kind](given) or given
    if isinstance(given, list):
        return [value(kind, member) for member in given]
    if isinstance(given, dict) and kind == 'tokens':
        return Tokenized(given['text'], given['tokens'])
    if isinstance(given, dict):
        return {key: value('json', given[key]) for key in sorted(given, key=str.encode)}
    return given


def stored(read):
    """A value as it is stored: of a text that comes with its tokens, the text alone."""
    return read.text if isinstance(read, Tokenized) else read


def pairs(schema, document):
    """The pairs of a document, each a name with the value that is read."""
    kinds = {entry['name']: entry['kind'] for entry in schema}
    return [(name, value(kind[0] if kind else kinds[name], given)) for name, given, *kind in document]
