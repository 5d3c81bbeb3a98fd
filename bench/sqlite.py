#!/usr/bin/env python3
"""The same job over SQLite's full text search (FTS5): a script on standard input, a database in the current folder, and
the terms and documents of the merged index on standard output.

A batch is one transaction, the merge is `optimize`, and what is left of deletes is printed out of the vocabulary table.
The id and the text that is indexed with positions are columns of the table of FTS5. Where a script has fast fields, their
values are rows of a table of their own (document, path, value), and the table of FTS5 keeps the whole document beside them.
"""
import json
import sqlite3
import sys


class Shape:
    """What is kept of documents: the name of the text that is searched, and the fields that have columns."""

    def __init__(self, schema):
        self.text = next(entry['name'] for entry in schema if entry.get('index') == 'positions')
        self.fast = {entry['name'] for entry in schema if entry.get('fast') or entry['kind'] == 'facet'}


def build(connection, shape, script):
    create(connection, shape)
    rows = {}
    operations, bounds = script['operations'], [0, *script.get('cuts', []), len(script['operations'])]
    for start, end in zip(bounds, bounds[1:]):
        with connection:
            for operation in operations[start:end]:
                apply(connection, shape, rows, operation)
    with connection:
        connection.execute("insert into texts(texts) values ('optimize')")


def create(connection, shape):
    rest = 'rest unindexed, ' if shape.fast else ''
    connection.execute(f'create virtual table texts using fts5(id, body, {rest}tokenize = "ascii")')
    if shape.fast:
        connection.execute('create table columns(document integer, path text, value)')
        connection.execute('create index of_documents on columns(document)')


def leaves(path, value):
    """The values below a path."""
    if isinstance(value, dict):
        for key, below in value.items():
            yield from leaves(f'{path}\1{key}', below)
    elif isinstance(value, list):
        for below in value:
            yield from leaves(path, below)
    elif value is not None:
        yield path, value


def apply(connection, shape, rows, operation):
    if 'add' in operation:
        rows[dict(operation['add']).get('id')] = add(connection, shape, operation['add'])
        return
    row = rows.pop(operation['delete'][1], None)
    if row is not None:
        connection.execute('delete from texts where rowid = ?', (row,))
        if shape.fast:
            connection.execute('delete from columns where document = ?', (row,))


def add(connection, shape, pairs):
    """The number of the document that is added."""
    first = dict(pairs)
    texts = first.get('id'), first[shape.text]
    if not shape.fast:
        return connection.execute('insert into texts(id, body) values (?, ?)', texts).lastrowid
    row = connection.execute('insert into texts(id, body, rest) values (?, ?, ?)', (*texts, json.dumps(pairs))).lastrowid
    values = (found for name, value in pairs if name in shape.fast for found in leaves(name, value))
    connection.executemany('insert into columns values (?, ?, ?)', ((row, *found) for found in values))
    return row


def show(connection, shape, out):
    connection.execute("create virtual table terms using fts5vocab('texts', 'instance')")
    before = None
    hits = "select term, doc, offset from terms where col = 'body' order by term"
    for term, document, offset in connection.execute(hits):
        out.write(f'\n{term} {document}@{offset}' if term != before else f' {document}@{offset}')
        before = term
    if not shape.fast:
        for row in connection.execute('select rowid, id, body from texts'):
            out.write('\ndoc %d %s' % (row[0], json.dumps(row[1:])))
        return
    for row in connection.execute('select rowid, rest from texts'):
        out.write('\ndoc %d %s' % row)
    for path, document, value in connection.execute('select path, document, value from columns order by path, document'):
        out.write(f'\ncolumn {json.dumps(path)} {document}:{json.dumps(value)}')


def main():
    script = json.load(sys.stdin)
    shape = Shape(script['schema'])
    connection = sqlite3.connect('index.db')
    connection.execute('pragma journal_mode = wal')
    build(connection, shape, script)
    show(connection, shape, sys.stdout)


if __name__ == '__main__':
    main()
