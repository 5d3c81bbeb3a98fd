// The columns of fast fields, for the plain program: recorded while documents come, written, checked against the schema when they are read,
// merged with the rows that are alive, and printed.
use crate::column_files::{BOOL, Bytes, Column, DATE, I64, Opened, STR, U64, View, at, data, dictionary, file, malformed, number};
use crate::{Entry, Kind, Map, decimal, json_text, print_moment};
use std::cmp::Reverse;
use std::collections::{BTreeMap, BinaryHeap};

pub const RAISED: u64 = 1 << 63;

// ---- recording

#[derive(Default)]
pub struct Texts {
    known: Map<Box<[u8]>, u32>,
    rows: Vec<(u32, u64)>,
}
impl Texts {
    pub fn record(&mut self, doc: u32, text: &[u8]) {
        let term = match self.known.get(text) {
            Some(term) => *term,
            None => {
                let next = self.known.len() as u32;
                self.known.insert(text.into(), next);
                next
            }
        };
        self.rows.push((doc, term as u64));
    }

    fn data(mut self, docs: u32, is_sorted: bool) -> Bytes {
        let mut sorted: Vec<(&[u8], u32)> = self.known.iter().map(|(text, term)| (&**text, *term)).collect();
        sorted.sort_unstable();
        let mut ordinals = vec![0u64; sorted.len()];
        for (ordinal, (_, term)) in sorted.iter().enumerate() {
            ordinals[*term as usize] = ordinal as u64;
        }
        self.rows.iter_mut().for_each(|row| row.1 = ordinals[row.1 as usize]);
        if is_sorted {
            self.rows.sort_unstable();
        }
        let mut data = numbers(&self.rows, docs);
        dictionary(&mut data, &sorted.iter().map(|s| s.0).collect::<Vec<_>>());
        data
    }
}

fn numbers(rows: &[(u32, u64)], docs: u32) -> Bytes {
    let mut next = 0;
    let ends = (0..docs).map(|doc| {
        while rows.get(next).is_some_and(|row| row.0 == doc) {
            next += 1;
        }
        next as u64
    });
    data(ends, rows.iter().map(|row| row.1), 8 * (docs as usize + rows.len()))
}

// the values of one path of a JSON field
#[derive(Default)]
pub struct Leaves {
    numbers: Vec<(u32, u64)>,
    is_negative: bool,
    is_big: bool,
    pub texts: Texts,
    pub bools: Vec<(u32, u64)>,
    pub dates: Vec<(u32, u64)>,
}
impl Leaves {
    pub fn unsigned(&mut self, doc: u32, value: u64) {
        self.is_big |= value >= RAISED;
        self.numbers.push((doc, value));
    }

    pub fn signed(&mut self, doc: u32, value: i64) {
        self.is_negative |= value < 0;
        self.numbers.push((doc, value as u64));
    }

    fn columns(mut self, path: Bytes, docs: u32, out: &mut Vec<Column>) {
        let mut put = |kind, data| out.push(Column { path: path.clone(), kind, data });
        if !self.numbers.is_empty() {
            let kind = number_type(self.is_negative, self.is_big);
            if kind == I64 {
                self.numbers.iter_mut().for_each(|row| row.1 ^= RAISED);
            }
            put(kind, numbers(&self.numbers, docs));
        }
        if !self.texts.rows.is_empty() {
            put(STR, self.texts.data(docs, false));
        }
        for (kind, rows) in [(BOOL, self.bools), (DATE, self.dates)] {
            if !rows.is_empty() {
                put(kind, numbers(&rows, docs));
            }
        }
    }
}

fn number_type(is_negative: bool, is_big: bool) -> u8 {
    if is_negative && is_big {
        eprintln!("refused: Numbers");
        std::process::exit(4)
    }
    if is_big { U64 } else { I64 }
}

#[derive(Default)]
pub struct JsonColumns {
    outside: Leaves,
    below: Map<Box<[u8]>, Leaves>,
}
impl JsonColumns {
    // the leaves of a path, or of what is outside of all objects
    pub fn at(&mut self, path: Option<&[u8]>) -> &mut Leaves {
        let Some(path) = path else { return &mut self.outside };
        if !self.below.contains_key(path) {
            self.below.insert(path.into(), Leaves::default());
        }
        self.below.get_mut(path).unwrap()
    }
}

// what is recorded of a field
#[derive(Default)]
pub struct FieldColumns {
    pub numbers: Vec<(u32, u64)>,
    pub texts: Texts,
    pub json: JsonColumns,
}

pub fn written(schema: &[Entry], fields: Vec<FieldColumns>, docs: u32) -> Bytes {
    let mut columns = Vec::new();
    for (entry, recorded) in schema.iter().zip(fields).filter(|f| f.0.fast) {
        let path = entry.name.as_bytes().to_vec();
        let Some(kind) = declared(entry) else {
            recorded.json.outside.columns(path.clone(), docs, &mut columns);
            for (below, leaves) in recorded.json.below {
                leaves.columns([&path, &b"\x01"[..], &below].concat(), docs, &mut columns);
            }
            continue;
        };
        let data = if kind == STR { recorded.texts.data(docs, entry.kind == Kind::Facet) } else { numbers(&recorded.numbers, docs) };
        columns.push(Column { path, kind, data });
    }
    columns.sort_by(|a, b| (&a.path, a.kind).cmp(&(&b.path, b.kind)));
    file(docs, &columns)
}

// ---- reading

// the type of a field's column; none of JSON
fn declared(entry: &Entry) -> Option<u8> {
    match entry.kind {
        Kind::Text | Kind::Facet => Some(STR),
        Kind::Number => Some(U64),
        Kind::Date => Some(DATE),
        Kind::Json => None,
    }
}

pub fn checked<'a>(schema: &[Entry], bytes: &'a [u8], docs: u32) -> Opened<'a> {
    let opened = crate::column_files::open(bytes);
    let fast = || schema.iter().filter(|e| e.fast);
    let is_declared = |path: &[u8], kind| fast().any(|e| e.name.as_bytes() == path && declared(e) == Some(kind));
    let is_below = |path: &[u8], name: &[u8]| path.strip_prefix(name).is_some_and(|rest| rest.is_empty() || rest[0] == 1);
    let found = opened.columns.iter().filter(|c| is_declared(c.0, c.1)).count();
    let others = opened.columns.iter().filter(|c| !is_declared(c.0, c.1));
    let are_right = others.into_iter().all(|(path, kind, view)| {
        matches!(*kind, I64 | U64 | STR | BOOL | DATE)
            && !view.values.is_empty()
            && fast().any(|e| e.kind == Kind::Json && is_below(path, e.name.as_bytes()))
    });
    if opened.rows != docs || found != fast().filter(|e| e.kind != Kind::Json).count() || !are_right {
        malformed()
    }
    opened
}

// ---- merging

// a file with the new numbers of its rows (u32::MAX for those that are left out), and whether one is left out
pub struct Part<'a> {
    pub opened: Opened<'a>,
    pub new_ids: &'a [u32],
    pub has_dead: bool,
}
impl Part<'_> {
    fn live(&self) -> impl Iterator<Item = usize> {
        (0..self.new_ids.len()).filter(|row| self.new_ids[*row] != u32::MAX)
    }
}

#[derive(PartialEq, Eq, PartialOrd, Ord, Clone, Copy)]
enum Group {
    Declared(u8),
    Numbers,
    Other(u8),
}

pub fn merged(schema: &[Entry], parts: &[Part], docs: u32) -> Bytes {
    let mut found: BTreeMap<(&[u8], Group), Vec<(usize, u8, &View)>> = BTreeMap::new();
    for entry in schema.iter().filter(|e| e.fast) {
        if let Some(kind) = declared(entry) {
            found.insert((entry.name.as_bytes(), Group::Declared(kind)), Vec::new());
        }
    }
    for (place, part) in parts.iter().enumerate() {
        for (path, kind, view) in &part.opened.columns {
            match found.get_mut(&(*path, Group::Declared(*kind))) {
                Some(views) => views.push((place, *kind, view)),
                None => {
                    let group = if *kind <= U64 { Group::Numbers } else { Group::Other(*kind) };
                    found.entry((path, group)).or_default().push((place, *kind, view));
                }
            }
        }
    }
    let mut columns = Vec::new();
    for ((path, group), views) in found {
        let kind = match group {
            Group::Declared(kind) | Group::Other(kind) => kind,
            Group::Numbers => kept_type(parts, &views),
        };
        let is_kept = matches!(group, Group::Declared(_)) || views.iter().any(|v| parts[v.0].live().any(|row| !v.2.row(row).is_empty()));
        if is_kept {
            columns.push(Column { path: path.to_vec(), kind, data: joined(parts, &views, kind, docs) });
        }
    }
    columns.sort_by(|a, b| (&a.path, a.kind).cmp(&(&b.path, b.kind)));
    file(docs, &columns)
}

// the type of the numbers of a path that are kept
fn kept_type(parts: &[Part], views: &[(usize, u8, &View)]) -> u8 {
    let (mut is_negative, mut is_big) = (false, false);
    for (place, kind, view) in views {
        for row in parts[*place].live() {
            for value in view.row(row) {
                let is_high = at(view.values, value) >= RAISED;
                is_negative |= *kind == I64 && !is_high;
                is_big |= *kind == U64 && is_high;
            }
        }
    }
    number_type(is_negative, is_big)
}

fn joined(parts: &[Part], views: &[(usize, u8, &View)], kind: u8, docs: u32) -> Bytes {
    let mut out = Vec::with_capacity(8 * docs as usize + views.iter().map(|v| v.2.values.len()).sum::<usize>());
    let mut end = 0;
    for (place, part) in parts.iter().enumerate() {
        match views.iter().find(|v| v.0 == place) {
            None => part.live().for_each(|_| number(&mut out, end)),
            Some((_, _, view)) => {
                for row in part.live() {
                    end += view.row(row).len() as u64;
                    number(&mut out, end);
                }
            }
        }
    }
    if kind == STR {
        join_texts(parts, views, &mut out);
        return out;
    }
    for (place, from, view) in views {
        if *from == kind && !parts[*place].has_dead {
            out.extend_from_slice(view.values);
            continue;
        }
        let flip = if *from == kind { 0 } else { RAISED };
        for row in parts[*place].live() {
            view.row(row).for_each(|value| number(&mut out, at(view.values, value) ^ flip));
        }
    }
    out
}

fn join_texts(parts: &[Part], views: &[(usize, u8, &View)], out: &mut Bytes) {
    let mut ordinals: Vec<Vec<u64>> = views.iter().map(|v| marks(&parts[v.0], v.2)).collect();
    let mut terms: Vec<&[u8]> = Vec::new();
    let next_kept = |ordinals: &[u64], from: usize| (from..ordinals.len()).find(|ordinal| ordinals[*ordinal] != 0);
    let mut heap = BinaryHeap::new();
    for (place, view) in views.iter().enumerate() {
        if let Some(ordinal) = next_kept(&ordinals[place], 0) {
            heap.push(Reverse((view.2.term(ordinal), place, ordinal)));
        }
    }
    while let Some(Reverse((term, place, ordinal))) = heap.pop() {
        if terms.last() != Some(&term) {
            terms.push(term);
        }
        ordinals[place][ordinal] = terms.len() as u64 - 1;
        if let Some(later) = next_kept(&ordinals[place], ordinal + 1) {
            heap.push(Reverse((views[place].2.term(later), place, later)));
        }
    }
    for ((place, _, view), ordinals) in views.iter().zip(&ordinals) {
        for row in parts[*place].live() {
            view.row(row).for_each(|value| number(out, ordinals[at(view.values, value) as usize]));
        }
    }
    dictionary(out, &terms);
}

// 1 for each term that a row has which is alive, else 0
fn marks(part: &Part, view: &View) -> Vec<u64> {
    let count = view.term_ends.len() / 8;
    if !part.has_dead {
        return vec![1; count];
    }
    let mut marks = vec![0; count];
    for row in part.live() {
        view.row(row).for_each(|value| marks[at(view.values, value) as usize] = 1);
    }
    marks
}

// ---- printing

pub fn print_columns(out: &mut Bytes, opened: &Opened) {
    const TYPES: [&str; 7] = ["I64", "U64", "Bytes", "Str", "Bool", "IpAddr", "DateTime"];
    for (path, kind, view) in &opened.columns {
        out.extend_from_slice(b"column ");
        json_text(out, path);
        out.push(b' ');
        out.extend_from_slice(TYPES[*kind as usize].as_bytes());
        for row in 0..opened.rows as usize {
            for (place, value) in view.row(row).enumerate() {
                if place == 0 {
                    out.push(b' ');
                    decimal(out, row as u64);
                }
                out.push(if place == 0 { b':' } else { b',' });
                print_value(out, *kind, view, at(view.values, value));
            }
        }
        out.push(b'\n');
    }
}

fn print_value(out: &mut Bytes, kind: u8, view: &View, value: u64) {
    match kind {
        I64 => {
            let value = (value ^ RAISED) as i64;
            if value < 0 {
                out.push(b'-');
            }
            decimal(out, value.unsigned_abs());
        }
        BOOL => out.extend_from_slice(if value == 1 { b"true" } else { b"false" }),
        DATE => print_moment(out, (value ^ RAISED) as i64),
        STR => json_text(out, view.term(value as usize)),
        _ => decimal(out, value),
    }
}
