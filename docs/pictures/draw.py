#!/usr/bin/env python3
"""Draws the pictures of docs: python3 docs/pictures/draw.py writes life-cycle.svg, files.svg, columns.svg, merge.svg and index_merge.svg beside this file."""
from pathlib import Path
from xml.sax.saxutils import escape

HERE = Path(__file__).resolve().parent
INK, PAPER, STEP, FILE, GONE = '#222222', '#ffffff', '#dfe9f5', '#f6efdc', '#eeeeee'
LINE = 17


class Picture:
    """An SVG that is drawn box by box."""

    def __init__(self, width, height):
        self.width, self.height, self.parts = width, height, []

    def text(self, x, y, words, size=13, weight='normal', anchor='middle', family='sans-serif'):
        self.parts.append(f'<text x="{x}" y="{y}" font-family="{family}" font-size="{size}" font-weight="{weight}" text-anchor="{anchor}" fill="{INK}">{escape(words)}</text>')

    def box(self, x, y, width, lines, fill=STEP, family='sans-serif'):
        """A box with its lines, the first of which is its title; answers the y of its lower edge."""
        height = LINE * len(lines) + 14
        self.parts.append(f'<rect x="{x}" y="{y}" width="{width}" height="{height}" rx="6" fill="{fill}" stroke="{INK}"/>')
        for place, line in enumerate(lines):
            self.text(x + width / 2, y + 20 + LINE * place, line, weight='bold' if place == 0 else 'normal', family=family)
        return y + height

    def arrow(self, x, y, to_x, to_y, words=''):
        self.parts.append(f'<line x1="{x}" y1="{y}" x2="{to_x}" y2="{to_y}" stroke="{INK}" stroke-width="1.4" marker-end="url(#head)"/>')
        if words:
            self.text((x + to_x) / 2 + 8, (y + to_y) / 2 + 4, words, size=12, anchor='start')

    def cells(self, x, y, widths, words, fill=FILE, under=()):
        """A row of cells side by side, with small words under them; answers the x where it ends."""
        for place, (width, word) in enumerate(zip(widths, words)):
            self.parts.append(f'<rect x="{x}" y="{y}" width="{width}" height="28" fill="{fill}" stroke="{INK}"/>')
            self.text(x + width / 2, y + 19, word, size=12, family='monospace')
            if place < len(under):
                self.text(x + width / 2, y + 43, under[place], size=11)
            x += width
        return x

    def lead(self, x, y, to_x, to_y):
        """A thin broken line from a cell to what it consists of."""
        self.parts.append(f'<line x1="{x}" y1="{y}" x2="{to_x}" y2="{to_y}" stroke="{INK}" stroke-width="0.8" stroke-dasharray="4 3"/>')

    def save(self, name):
        head = f'<svg xmlns="http://www.w3.org/2000/svg" width="{self.width}" height="{self.height}" viewBox="0 0 {self.width} {self.height}">'
        marker = f'<defs><marker id="head" markerWidth="9" markerHeight="9" refX="8" refY="3.5" orient="auto"><path d="M0,0 l8,3.5 l-8,3.5 z" fill="{INK}"/></marker></defs>'
        paper = f'<rect width="{self.width}" height="{self.height}" fill="{PAPER}"/>'
        (HERE / name).write_text('\n'.join([head, marker, paper, *self.parts, '</svg>', '']))


def life_cycle():
    picture = Picture(780, 470)
    low = picture.box(240, 16, 300, ['script', 'additions, deletes, cuts, filters'], FILE)
    for x, words in (60, 'batch 1'), (300, 'batch 2'), (540, 'batch 3'):
        picture.arrow(390, low, x + 90, 116)
        picture.box(x, 116, 180, [f'{words}: work segment', 'all its documents'])
        picture.arrow(x + 90, 164, x + 90, 206)
        picture.box(x, 206, 180, ['alive set', 'what later deletes leave'], GONE)
        picture.arrow(x + 90, 254, 390, 306)
    low = picture.box(240, 306, 300, ['merge', 'each file is read back once; documents that', 'are alive, and kept by the filter of their batch'])
    picture.arrow(390, low, 390, 404)
    picture.box(240, 404, 300, ['output segment', 'the survivors, numbered anew from 0'])
    picture.save('life-cycle.svg')


def files():
    rows = [
        ('meta.json', 'schema, settings, and the segments with their numbers of documents'),
        ('ID.term', 'of each field its terms in byte order, and where their postings lie'),
        ('ID.idx', 'postings: in which documents a term occurs, and how often'),
        ('ID.pos', 'at which places it occurs there'),
        ('ID.fieldnorm', 'the length of each field in each document, one byte each'),
        ('ID.store', 'the stored documents, in blocks'),
        ('ID.fast', 'columns: the values of fast fields, document by document'),
        ('ID.STAMP.del', 'which documents are alive, where deletes remove some'),
    ]
    picture = Picture(780, 40 + 50 * len(rows))
    for place, (name, words) in enumerate(rows):
        y = 20 + 50 * place
        picture.box(20, y, 160, [name], FILE, 'monospace')
        picture.text(200, y + 20, words, anchor='start')
    for start, end in (1, 2), (2, 3):
        picture.arrow(100, 20 + 50 * start + 31, 100, 20 + 50 * end)
    picture.save('files.svg')


def columns():
    """The file of columns, taken apart from above to below; the last row is the example with the texts b, a | b."""
    picture = Picture(780, 520)

    def title(y, words):
        picture.text(20, y, words, weight='bold', anchor='start')

    title(24, 'the file ID.fast')
    picture.cells(20, 34, [120, 120, 60, 200, 110, 70, 70], ['column', 'column', '..', 'table', 'length', 'rows', '1'])
    for x, words in (575, 'of the table'), (665, 'max_doc'), (735, 'version'):
        picture.text(x, 77, words, size=11)
    picture.lead(320, 82, 20, 107)
    picture.lead(520, 82, 760, 107)
    title(122, 'the table: one entry for each column, in order of path and type')
    picture.cells(20, 132, [110, 120, 160, 90, 170, 90], ['number', 'length', 'path', 'type', 'end of its bytes', '..'], under=['of columns', 'of its path', 'UTF-8', '0 to 6', 'it begins at the end before'])
    title(214, 'a column: where the values of each document end, and the values')
    picture.cells(20, 224, [100, 100, 60], ['end', 'end', '..'], under=['document 0', 'document 1'])
    picture.cells(290, 224, [80, 80, 60], ['value', 'value', '..'], STEP, under=['', '8 bytes, an address 16'])
    picture.cells(540, 224, [220], ['dictionary'], GONE, under=['of texts and bytes alone'])
    picture.lead(540, 272, 20, 297)
    picture.lead(760, 272, 760, 297)
    title(312, 'a dictionary: the terms of the column, each once, in byte order')
    picture.cells(20, 322, [110, 100, 100, 60, 370], ['number', 'end', 'end', '..', 'bytes of the terms'], GONE, under=['of terms', 'of term 0', 'of term 1'])
    title(404, 'the column of two documents: the texts b and a, and the text b')
    x = picture.cells(20, 414, [90, 90], ['2', '3'], under=['document 0', 'document 1'])
    x = picture.cells(x + 20, 414, [55, 55, 55], ['1', '0', '1'], STEP, under=['b', 'a', 'b'])
    picture.cells(x + 20, 414, [80, 80, 80, 45, 45], ['2', '1', '2', 'a', 'b'], GONE, under=['terms', 'end of 0', 'end of 1', 'term 0', 'term 1'])
    picture.text(20, 488, 'A value of texts or bytes is the place of a term in the dictionary. Numbers are eight bytes, the', size=12, anchor='start')
    picture.text(20, 506, 'least first; signed numbers and dates are written plus 2^63.', size=12, anchor='start')
    picture.save('columns.svg')


def merge():
    """Two segments with the documents that are alive, and file by file what a merge makes of them."""
    picture = Picture(780, 570)
    for x, name, alive in (20, 'segment 1', [True, False, True]), (470, 'segment 2', [True, True]):
        picture.box(x, 16, 290, [name, 'six files, and which are alive'], FILE)
        for place, is_alive in enumerate(alive):
            picture.cells(x + 20 + 88 * place, 82, [74], [f'doc {place}'], STEP if is_alive else GONE, under=['alive' if is_alive else 'dead'])
    for x, to_x in (77, 220), (253, 355), (527, 490), (615, 625):
        picture.arrow(x, 132, to_x, 168)
    for place in range(4):
        picture.cells(183 + 135 * place, 170, [74], [f'doc {place}'], STEP)
    picture.text(390, 220, 'the documents that are alive, segment by segment, numbered anew from 0', size=12)
    rows = [
        ('terms', 'merged in byte order, term by term; one without a live document is left out'),
        ('postings', 'of each term those of the segments in turn, with the new numbers'),
        ('positions', 'with their postings, as they are'),
        ('lengths', 'the length ids of the live documents, as they are'),
        ('store', 'whole blocks of a segment with six or more, all alive; else document by document'),
        ('columns', 'by path and type; numbers of a path get one type, texts and bytes a new dictionary'),
    ]
    for place, (name, words) in enumerate(rows):
        y = 240 + 40 * place
        picture.box(20, y, 110, [name])
        picture.text(142, y + 20, words, size=12, anchor='start')
    picture.arrow(390, 476, 390, 506)
    picture.box(200, 508, 380, ['one segment', 'its six files, under one id'], FILE)
    picture.save('merge.svg')


def index_merge():
    """Three indexes, each in a directory of its own, merged into one; and the same in two merges."""
    picture = Picture(780, 590)
    dead = 'a1', 'b2'
    indexes = [
        ('index a', '2 segments', [['a0', 'a1'], ['a2']]),
        ('index b', '1 segment', [['b0', 'b1', 'b2']]),
        ('index c', '2 segments', [['c0'], ['c1', 'c2']]),
    ]
    for place, (name, count, segments) in enumerate(indexes):
        x = 20 + 255 * place
        picture.box(x, 16, 230, [name, f'in a directory, {count}'], FILE)
        at = x + (230 - 58 * 3 - 20 * (len(segments) - 1)) / 2
        for documents in segments:
            for document in documents:
                gone = document in dead
                at = picture.cells(at, 78, [58], [document], GONE if gone else STEP, under=['dead'] if gone else ())
            at += 20
        picture.arrow(x + 115, 126, 390 + 110 * (place - 1), 150)
    low = picture.box(150, 152, 480, ['merge_indices', 'settings and schemas have to be alike, else no directory is called;', 'then the segments are opened, index by index'])
    picture.arrow(390, low, 390, low + 22)
    kept = [document for _, _, segments in indexes for documents in segments for document in documents if document not in dead]
    picture.cells(390 - 29 * len(kept), 241, [58] * len(kept), kept, STEP, under=[str(number) for number in range(len(kept))])
    picture.text(390, 303, 'the documents that are alive, one segment after another, one index after another, numbered anew from 0', size=12)
    picture.arrow(390, 312, 390, 336)
    picture.box(200, 338, 380, ['an index of one segment', 'in the directory of the output: six files, then meta.json'], FILE)
    picture.lead(20, 410, 760, 410)
    picture.text(20, 434, 'in groups', weight='bold', anchor='start')
    for x, name in (120, 'index a'), (240, 'index b'), (480, 'index c'):
        picture.box(x, 416, 90, [name], FILE)
    picture.arrow(165, 447, 222, 476)
    picture.arrow(285, 447, 238, 476)
    picture.box(165, 478, 130, ['a and b, merged'], FILE)
    picture.arrow(230, 509, 352, 540)
    picture.arrow(525, 447, 408, 540)
    picture.box(300, 542, 160, ['a, b and c, merged'], FILE)
    picture.text(472, 562, 'holds the same contents as all at once', size=12, anchor='start')
    picture.save('index_merge.svg')


if __name__ == '__main__':
    life_cycle()
    files()
    columns()
    merge()
    index_merge()
