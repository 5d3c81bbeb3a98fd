// The plain Rust anchor for files of columns, in the format of the product's `.fast` files. One thread, std only.
//
// plain_columns u64 ROWS FILE               writes a column of one u64 a row
// plain_columns texts ROWS DISTINCT FILE    writes a column of one text a row, of that many distinct ones
// plain_columns merge FILE FILES..          stacks files into one
// plain_columns read FILE                   opens a file, with all its checks, and adds up the first value of each row
mod column_files;

use column_files::{BYTES, Bytes, Column, Opened, STR, U64, View, at, data, dictionary, file, number, open};
use std::cmp::Reverse;
use std::collections::{BTreeMap, BinaryHeap, HashMap};
use std::env;
use std::fs;

// ---- drawing values

struct Drawn(u64);
impl Iterator for Drawn {
    type Item = u64;
    fn next(&mut self) -> Option<u64> {
        self.0 = self.0.wrapping_mul(6364136223846793005).wrapping_add(1442695040888963407);
        Some(self.0 >> 20)
    }
}

fn word(number: u64) -> String {
    format!("catalogue/shelf-{:03}/item-{:06}", number % 997, number)
}

// ---- the columns of a file

fn numbers(rows: u32) -> Bytes {
    let mut recorded: HashMap<&str, Vec<(u32, u64)>> = HashMap::new();
    for (row, value) in (0..rows).zip(Drawn(7)) {
        recorded.entry("number").or_default().push((row, value));
    }
    let values = &recorded["number"];
    let data = data(1..rows as u64 + 1, values.iter().map(|v| v.1), 16 * values.len());
    file(rows, &[Column { path: b"number".to_vec(), kind: U64, data }])
}

fn texts(rows: u32, distinct: u64) -> Bytes {
    let mut known: HashMap<String, u32> = HashMap::new();
    let mut recorded = Vec::new();
    for (row, value) in (0..rows).zip(Drawn(7)) {
        let next = known.len() as u32;
        recorded.push((row, *known.entry(word(value % distinct)).or_insert(next)));
    }
    let mut sorted: Vec<(&str, u32)> = known.iter().map(|(text, at)| (text.as_str(), *at)).collect();
    sorted.sort_unstable();
    let mut ordinals = vec![0u64; sorted.len()];
    for (ordinal, (_, at)) in sorted.iter().enumerate() {
        ordinals[*at as usize] = ordinal as u64;
    }
    let mut data = data(1..rows as u64 + 1, recorded.iter().map(|r| ordinals[r.1 as usize]), 16 * recorded.len());
    dictionary(&mut data, &sorted.iter().map(|s| s.0.as_bytes()).collect::<Vec<_>>());
    file(rows, &[Column { path: b"text".to_vec(), kind: STR, data }])
}

// ---- merging

fn merge(files: &[Opened]) -> Bytes {
    let rows = files.iter().map(|f| f.rows as u64).sum::<u64>() as u32;
    let mut found: BTreeMap<(&[u8], u8), Vec<Option<&View>>> = BTreeMap::new();
    for (place, opened) in files.iter().enumerate() {
        for (path, kind, view) in &opened.columns {
            found.entry((path, *kind)).or_insert_with(|| vec![None; files.len()])[place] = Some(view);
        }
    }
    let columns: Vec<Column> = found
        .into_iter()
        .map(|((path, kind), views)| Column { path: path.to_vec(), kind, data: stacked(files, &views, kind) })
        .collect();
    file(rows, &columns)
}

fn stacked(files: &[Opened], views: &[Option<&View>], kind: u8) -> Bytes {
    let room = views.iter().flatten().map(|v| v.ends.len() + v.values.len()).sum::<usize>();
    let mut out = Vec::with_capacity(room);
    let mut end = 0;
    for (opened, view) in files.iter().zip(views) {
        let from = end;
        for row in 0..opened.rows as usize {
            end = view.map_or(end, |v| from + at(v.ends, row));
            number(&mut out, end);
        }
    }
    if kind != STR && kind != BYTES {
        views.iter().flatten().for_each(|v| out.extend_from_slice(v.values));
        return out;
    }
    let (terms, ordinals) = merged_terms(views);
    for (view, ordinals) in views.iter().zip(&ordinals) {
        let Some(view) = view else { continue };
        for place in 0..view.values.len() / 8 {
            number(&mut out, ordinals[at(view.values, place) as usize]);
        }
    }
    dictionary(&mut out, &terms);
    out
}

fn merged_terms<'a>(views: &[Option<&'a View<'a>>]) -> (Vec<&'a [u8]>, Vec<Vec<u64>>) {
    let mut terms: Vec<&[u8]> = Vec::new();
    let count = |view: &View| view.term_ends.len() / 8;
    let mut ordinals: Vec<Vec<u64>> = views.iter().map(|v| vec![0; v.map_or(0, count)]).collect();
    let mut next = BinaryHeap::new();
    for (place, view) in views.iter().enumerate() {
        if let Some(view) = view.filter(|v| count(v) > 0) {
            next.push(Reverse((view.term(0), place, 0)));
        }
    }
    while let Some(Reverse((term, place, ordinal))) = next.pop() {
        if terms.last() != Some(&term) {
            terms.push(term);
        }
        ordinals[place][ordinal] = terms.len() as u64 - 1;
        let view = views[place].unwrap();
        if ordinal + 1 < count(view) {
            next.push(Reverse((view.term(ordinal + 1), place, ordinal + 1)));
        }
    }
    (terms, ordinals)
}

fn first(view: &View, row: usize) -> Option<u64> {
    let values = view.row(row);
    (!values.is_empty()).then(|| at(view.values, values.start))
}

fn main() {
    let words: Vec<String> = env::args().skip(1).collect();
    let words: Vec<&str> = words.iter().map(|w| w.as_str()).collect();
    match words.as_slice() {
        ["u64", rows, to] => fs::write(to, numbers(rows.parse().unwrap())).unwrap(),
        ["texts", rows, distinct, to] => fs::write(to, texts(rows.parse().unwrap(), distinct.parse().unwrap())).unwrap(),
        ["merge", to, names @ ..] => {
            let bytes: Vec<Bytes> = names.iter().map(|name| fs::read(name).unwrap()).collect();
            let files: Vec<Opened> = bytes.iter().map(|b| open(b)).collect();
            fs::write(to, merge(&files)).unwrap()
        }
        ["read", name] => {
            let bytes = fs::read(name).unwrap();
            let opened = open(&bytes);
            for (path, _, view) in &opened.columns {
                let sum = (0..opened.rows as usize).filter_map(|row| first(view, row)).fold(0u64, |a, b| a.wrapping_add(b));
                println!("{} {} {sum}", String::from_utf8_lossy(path), opened.rows);
            }
        }
        _ => {
            eprintln!("usage: plain_columns u64 ROWS FILE | texts ROWS DISTINCT FILE | merge FILE FILES.. | read FILE");
            std::process::exit(2)
        }
    }
}
