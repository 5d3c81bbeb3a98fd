#!/usr/bin/env python3
"""Writes a script for `build` to standard output.

usage: gen_corpus.py DOCUMENTS [SEED] [SHAPE] [BATCHES]    DOCUMENTS may be `max`: as many as fit into a script

Each document has an id (stored, `basic`) and a body of 50 words (stored, `positions`, with lengths). Words are drawn
from 200,000 by Zipf's law (weight 1 / rank); there are some upper case letters, commas and full stops. After each 20th
document there is a delete by id: three in four name a document before it, one in four an id that comes later or never.
There are 9 batches, if no number of them is given, of about as many operations.

The shape says what differs:
  textids    the id is a text without lengths (the default)
  full       the id is a u64
  texts      no id, so no deletes, and one batch
  undeleted  as textids, without deletes
  deleted    as textids, with as many deletes as documents, all after them, each of a document at random
  stored     no id and no body: one JSON object, which is only stored, with a date, a list and an object in it
  log        no id and no body: one JSON object of five keys, as a line of a log, which is stored and indexed with positions
  catalogue  items of a shop, all of it stored and, where it may be, in columns: the id, a title of 8 words, a price, a date, one or two
             facets and a JSON object with numbers, texts, a date, a truth value and a list; deletes as in textids
"""
import argparse
import bisect
import itertools
import json
import random
import sys

LIMIT = 67_108_864
VOCABULARY = 200_000
WORDS = 50
BATCHES = 9
LETTERS = 'etaoinshrdlucmfwygpbvkxqjz'
SHAPES = 'textids', 'full', 'texts', 'undeleted', 'deleted', 'stored', 'log', 'catalogue'
LEVELS = 'debug', 'info', 'info', 'info', 'warn', 'error'
TEXT_ID = {'name': 'id', 'kind': 'text', 'stored': True, 'index': 'basic', 'tokenizer': 'default', 'norms': False}
NUMBER_ID = {'name': 'id', 'kind': 'u64', 'stored': True, 'index': 'basic'}
STORED = {'name': 'record', 'kind': 'json', 'stored': True}
LOG = {'name': 'record', 'kind': 'json', 'stored': True, 'index': 'positions'}
CATALOGUE = [
    {**TEXT_ID, 'fast': True},
    {'name': 'title', 'kind': 'text', 'stored': True, 'index': 'positions', 'tokenizer': 'default', 'norms': True, 'fast': True},
    {'name': 'price', 'kind': 'u64', 'stored': True, 'index': 'basic', 'fast': True},
    {'name': 'added', 'kind': 'date', 'stored': True, 'fast': True},
    {'name': 'shelf', 'kind': 'facet', 'stored': True},
    {'name': 'attributes', 'kind': 'json', 'stored': True, 'index': 'basic', 'fast': True},
]
BODY = {'name': 'body', 'kind': 'text', 'stored': True, 'index': 'positions', 'tokenizer': 'default', 'norms': True}


def json_text(value):
    return json.dumps(value, separators=(',', ':'))


def schema_of(shape):
    if shape in ('texts', 'catalogue'):
        return [BODY] if shape == 'texts' else CATALOGUE
    if shape in ('stored', 'log'):
        return [STORED if shape == 'stored' else LOG]
    return [NUMBER_ID if shape == 'full' else TEXT_ID, BODY]


def id_text(shape, number):
    return f'{number}' if shape == 'full' else f'"{number}"'


def vocabulary(rng):
    """Distinct words: short ones first, as in a language, with a few numbers among them."""
    seen, weights = {}, list(itertools.accumulate(1 / (place + 2) for place in range(len(LETTERS))))
    while len(seen) < VOCABULARY:
        length = min(2 + len(seen).bit_length() // 3 + rng.randrange(4), 12)
        if rng.random() < 0.02:
            word = str(rng.randrange(10 ** min(length, 7)))
        else:
            word = ''.join(LETTERS[bisect.bisect(weights, rng.random() * weights[-1])] for _ in range(length))
        seen[word] = None
    return list(seen)


def body(rng, words, weights):
    chosen = rng.choices(words, cum_weights=weights, k=WORDS)
    chosen[0] = chosen[0].capitalize()
    for place in range(9, WORDS, 10):
        chosen[place] += '.' if place % 20 == 9 else ','
    return ' '.join(chosen)


def day(number):
    return f'{2000 + number % 25}-{1 + number % 12:02}-{1 + number % 28:02}'


def record(number, text):
    words = text.split(' ')
    return json_text({
        'number': number, 'balance': -number, 'live': number % 3 == 0, 'parent': None,
        'made': f'{day(number)}T{number % 24:02}:{number % 60:02}:00.{number % 1000:03}+01:00', 'tags': words[:4],
        'author': {'name': ' '.join(words[4:6]), 'age': 20 + number % 60}, 'text': ' '.join(words[6:40])})


def log_line(number, text):
    words = text.split(' ')
    hour, minute, second = number // 3600 % 24, number // 60 % 60, number % 60
    return json_text({
        'time': f'2024-{1 + number // 2592000 % 12:02}-{1 + number // 86400 % 28:02}T{hour:02}:{minute:02}:{second:02}.{number % 1000:03}Z',
        'level': LEVELS[number * 7 % len(LEVELS)], 'host': f'web-{number * 31 % 40}', 'millis': number * 97 % 5000,
        'message': ' '.join(words[:16])})


def item(number, text):
    """The pairs of an item of a shop."""
    words = text.split(' ')
    shelves = [f'/shop-{number % 7}/aisle-{number % 41}/shelf-{number * 31 % 997}', f'/brand/{words[8].strip(".,")}']
    attributes = {
        'colour': words[9].strip('.,'), 'weight': number * 97 % 5000, 'change': number % 200 - 100, 'made': f'{day(number * 3)}T08:00:00.{number % 1000:03}Z',
        'live': number % 3 == 0, 'tags': words[10:13], 'maker': {'name': ' '.join(words[13:15]), 'code': number % 3000}}
    pairs = [['id', f'{number}'], ['title', ' '.join(words[:8])], ['price', number * 7919 % 100000],
             ['added', f'{day(number)}T{number % 24:02}:{number % 60:02}:00.{number % 1000:03}+01:00'], ['shelf', shelves[0]]]
    return json_text(pairs + ([['shelf', shelves[1]]] if number % 2 else []) + [['attributes', attributes]])


def addition(shape, number, text):
    if shape == 'catalogue':
        return f'{{"add":{item(number, text)}}}'
    if shape == 'log':
        return f'{{"add":[["record",{log_line(number, text)}]]}}'
    if shape == 'stored':
        return f'{{"add":[["record",{record(number, text)}]]}}'
    given_id = '' if shape == 'texts' else f'["id",{id_text(shape, number)}],'
    return f'{{"add":[{given_id}["body","{text}"]]}}'


def deletion(shape, number):
    return f'{{"delete":["id",{id_text(shape, number)}]}}'


def operations_of(rng, shape, want):
    """The operations, as JSON texts, up to the wanted number of documents or the greatest size of a script."""
    words = vocabulary(random.Random(1))
    weights = list(itertools.accumulate(1 / (place + 1) for place in range(VOCABULARY)))
    room, size, documents = LIMIT - 1000 - len(json_text(schema_of(shape))), 0, 0
    while want is None or documents < want:
        more = [addition(shape, documents, body(rng, words, weights))]
        if shape in ('textids', 'full', 'catalogue') and documents % 20 == 19:
            gone = rng.randrange(documents) if rng.randrange(4) else documents + 1 + rng.randrange(1000)
            more.append(deletion(shape, gone))
        size += sum(len(text) + 1 for text in more)
        if size > room:
            if want is not None:
                sys.exit(f'{want} documents do not fit into {LIMIT} bytes')
            return
        documents += 1
        yield from more
    if shape == 'deleted':
        yield from (deletion(shape, rng.randrange(documents)) for _ in range(documents))


def main():
    parser = argparse.ArgumentParser(description=__doc__, formatter_class=argparse.RawDescriptionHelpFormatter)
    parser.add_argument('documents')
    parser.add_argument('seed', type=int, nargs='?', default=7)
    parser.add_argument('shape', choices=SHAPES, nargs='?', default=SHAPES[0])
    parser.add_argument('batches', type=int, nargs='?', default=BATCHES)
    words = parser.parse_args()
    want = None if words.documents == 'max' else int(words.documents)
    operations = list(operations_of(random.Random(words.seed), words.shape, want))
    batches = 1 if words.shape == 'texts' else words.batches
    cuts = [len(operations) * batch // batches for batch in range(1, batches)]
    sys.stdout.write(f'{{"schema":{json_text(schema_of(words.shape))},"cuts":{json_text(cuts)},"operations":[')
    sys.stdout.write(','.join(operations))
    sys.stdout.write(']}')


if __name__ == '__main__':
    main()
