// Files of columns, in the format of the product's `.fast` files: written, and read with all its checks. Std only.
use std::ops::Range;

pub type Bytes = Vec<u8>;

pub const I64: u8 = 0;
pub const U64: u8 = 1;
pub const BYTES: u8 = 2;
pub const STR: u8 = 3;
pub const BOOL: u8 = 4;
pub const IP: u8 = 5;
pub const DATE: u8 = 6;

// ---- writing

pub struct Column {
    pub path: Bytes,
    pub kind: u8,
    pub data: Bytes,
}

pub fn number(out: &mut Bytes, value: u64) {
    out.extend_from_slice(&value.to_le_bytes())
}

pub fn file(rows: u32, columns: &[Column]) -> Bytes {
    let mut out = Vec::with_capacity(columns.iter().map(|c| c.data.len() + c.path.len() + 17).sum::<usize>() + 24);
    let mut table = Vec::new();
    number(&mut table, columns.len() as u64);
    for column in columns {
        out.extend_from_slice(&column.data);
        number(&mut table, column.path.len() as u64);
        table.extend_from_slice(&column.path);
        table.push(column.kind);
        number(&mut table, out.len() as u64);
    }
    let length = table.len() as u64;
    out.extend_from_slice(&table);
    number(&mut out, length);
    out.extend_from_slice(&rows.to_le_bytes());
    out.extend_from_slice(&1u32.to_le_bytes());
    out
}

pub fn data(ends: impl Iterator<Item = u64>, values: impl Iterator<Item = u64>, room: usize) -> Bytes {
    let mut out = Vec::with_capacity(room);
    ends.for_each(|end| number(&mut out, end));
    values.for_each(|value| number(&mut out, value));
    out
}

pub fn dictionary(out: &mut Bytes, terms: &[&[u8]]) {
    number(out, terms.len() as u64);
    let mut end = 0;
    for term in terms {
        end += term.len() as u64;
        number(out, end);
    }
    terms.iter().for_each(|term| out.extend_from_slice(term));
}

// ---- reading

pub struct View<'a> {
    pub ends: &'a [u8],
    pub values: &'a [u8],
    pub term_ends: &'a [u8],
    terms: &'a [u8],
}

pub struct Opened<'a> {
    pub rows: u32,
    pub columns: Vec<(&'a [u8], u8, View<'a>)>,
}

pub fn malformed() -> ! {
    eprintln!("malformed");
    std::process::exit(1)
}

fn part(bytes: &[u8], range: Range<usize>) -> &[u8] {
    bytes.get(range).unwrap_or_else(|| malformed())
}

pub fn at(bytes: &[u8], place: usize) -> u64 {
    u64::from_le_bytes(bytes[8 * place..8 * place + 8].try_into().unwrap())
}

fn take<'a>(rest: &mut &'a [u8], count: u64) -> &'a [u8] {
    if count > rest.len() as u64 {
        malformed()
    }
    let (taken, after) = rest.split_at(count as usize);
    *rest = after;
    taken
}

impl<'a> View<'a> {
    fn open(bytes: &'a [u8], rows: u32, kind: u8) -> View<'a> {
        let mut rest = bytes;
        let ends = take(&mut rest, 8 * rows as u64);
        let mut before = 0;
        for row in 0..rows as usize {
            let end = at(ends, row);
            if end < before {
                malformed()
            }
            before = end;
        }
        let width = if kind == IP { 16 } else { 8 };
        let values = take(&mut rest, before.checked_mul(width).unwrap_or_else(|| malformed()));
        let (mut term_ends, mut terms) = (&rest[..0], &rest[..0]);
        if kind == STR || kind == BYTES {
            let count = at(take(&mut rest, 8), 0);
            if count > before {
                malformed()
            }
            term_ends = take(&mut rest, 8 * count);
            terms = rest;
            let end = if count == 0 { 0 } else { at(term_ends, count as usize - 1) };
            if end != terms.len() as u64 {
                malformed()
            }
            check_terms(term_ends, terms, kind);
            check_ordinals(values, count as usize);
        } else if !rest.is_empty() || kind == BOOL && (0..before as usize).any(|place| at(values, place) > 1) {
            malformed()
        }
        View { ends, values, term_ends, terms }
    }

    pub fn term(&self, ordinal: usize) -> &'a [u8] {
        let from = if ordinal == 0 { 0 } else { at(self.term_ends, ordinal - 1) };
        &self.terms[from as usize..at(self.term_ends, ordinal) as usize]
    }

    pub fn row(&self, row: usize) -> Range<usize> {
        let from = if row == 0 { 0 } else { at(self.ends, row - 1) };
        from as usize..at(self.ends, row) as usize
    }
}

fn check_terms(ends: &[u8], terms: &[u8], kind: u8) {
    let mut from = 0;
    let mut last: Option<&[u8]> = None;
    for place in 0..ends.len() / 8 {
        let end = at(ends, place) as usize;
        if end < from {
            malformed()
        }
        let term = part(terms, from..end);
        if last.is_some_and(|last| last >= term) || kind == STR && std::str::from_utf8(term).is_err() {
            malformed()
        }
        (last, from) = (Some(term), end);
    }
}

fn check_ordinals(values: &[u8], count: usize) {
    let mut used = vec![0u64; count.div_ceil(64)];
    let mut left = count;
    for place in 0..values.len() / 8 {
        let ordinal = at(values, place) as usize;
        if ordinal >= count {
            malformed()
        }
        let bit = 1 << (ordinal % 64);
        left -= (used[ordinal / 64] & bit == 0) as usize;
        used[ordinal / 64] |= bit;
    }
    if left != 0 {
        malformed()
    }
}

pub fn open(bytes: &[u8]) -> Opened<'_> {
    let tail = bytes.len().checked_sub(16).unwrap_or_else(|| malformed());
    let length = at(&bytes[tail..], 0);
    let rows = u32::from_le_bytes(bytes[tail + 8..tail + 12].try_into().unwrap());
    if length > tail as u64 || bytes[tail + 12..] != 1u32.to_le_bytes() {
        malformed()
    }
    let (data, mut table) = bytes[..tail].split_at(tail - length as usize);
    let mut columns: Vec<(&[u8], u8, View)> = Vec::new();
    let mut from = 0;
    for _ in 0..at(take(&mut table, 8), 0) {
        let size = at(take(&mut table, 8), 0);
        let path = take(&mut table, size);
        let kind = take(&mut table, 1)[0];
        let end = at(take(&mut table, 8), 0) as usize;
        if kind > DATE || end < from || std::str::from_utf8(path).is_err() {
            malformed()
        }
        if columns.last().is_some_and(|c| (c.0, c.1) >= (path, kind) || c.0 == path && c.1 == I64 && kind == U64) {
            malformed()
        }
        columns.push((path, kind, View::open(part(data, from..end), rows, kind)));
        from = end;
    }
    if !table.is_empty() || from != data.len() {
        malformed()
    }
    Opened { rows, columns }
}
