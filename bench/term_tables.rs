// Forms of the table of terms that indexing fills, over the words of a script of gen_corpus.py: seconds each.
//
//   rustc --edition 2024 -C opt-level=3 -o /tmp/term_tables bench/term_tables.rs && /tmp/term_tables SCRIPT [ROUNDS]
//
// tokens   a text of its own for each token, and then as own
// short    the same, with texts of up to 15 bytes in the token itself (as the program does, with up to 16)
// own      a list of occurrences for each term, in the table
// numbered terms have numbers; all occurrences are one list, sorted by number at the end (as plain.rs has it)
// inline   as own, with keys of up to 15 bytes in the table itself
// both     numbered, with such keys (as seg_terms has it)
use std::collections::HashMap;
use std::hash::{BuildHasherDefault, Hash, Hasher};
use std::time::Instant;

#[derive(Default)]
struct Fx(u64);
impl Hasher for Fx {
    fn finish(&self) -> u64 {
        self.0.rotate_left(26)
    }
    fn write(&mut self, bytes: &[u8]) {
        for part in bytes.chunks(8) {
            let word = part.iter().fold(0u64, |word, byte| word << 8 | u64::from(*byte));
            self.0 = (self.0.rotate_left(5) ^ word).wrapping_mul(0x517c_c1b7_2722_0a95);
        }
    }
}
type Table<K, V> = HashMap<K, V, BuildHasherDefault<Fx>>;

#[derive(PartialEq, Eq)]
enum Key {
    Short(u8, [u8; 15]),
    Long(Box<[u8]>),
}
impl Key {
    fn of(word: &[u8]) -> Key {
        let mut bytes = [0; 15];
        match bytes.get_mut(..word.len()) {
            Some(front) => {
                front.copy_from_slice(word);
                Key::Short(word.len() as u8, bytes)
            }
            None => Key::Long(word.into()),
        }
    }
    fn bytes(&self) -> &[u8] {
        match self {
            Key::Short(length, bytes) => &bytes[..*length as usize],
            Key::Long(bytes) => bytes,
        }
    }
}
impl Hash for Key {
    fn hash<H: Hasher>(&self, hasher: &mut H) {
        hasher.write(self.bytes());
    }
}

// each word with its document: a line of `texts` after another
fn words(script: &[u8]) -> Vec<(u32, &[u8])> {
    let mut words = Vec::new();
    let (mut document, mut from) = (0, None);
    for (at, byte) in script.iter().enumerate() {
        document += u32::from(*byte == b'{');
        match (byte.is_ascii_alphanumeric(), from) {
            (true, None) => from = Some(at),
            (false, Some(start)) => {
                words.push((document, &script[start..at]));
                from = None;
            }
            _ => {}
        }
    }
    words
}

fn own(words: &[(u32, &[u8])]) -> usize {
    let mut table: Table<Vec<u8>, Vec<(u32, u32)>> = Table::default();
    for (at, (document, word)) in words.iter().enumerate() {
        match table.get_mut(*word) {
            Some(hits) => hits.push((*document, at as u32)),
            None => {
                table.insert(word.to_vec(), vec![(*document, at as u32)]);
            }
        }
    }
    let mut terms: Vec<_> = table.into_iter().collect();
    terms.sort_unstable_by(|a, b| a.0.cmp(&b.0));
    terms.iter().map(|(_, hits)| hits.iter().filter(|hit| hit.0 % 2 == 0).count()).sum()
}

// tokens of a document with their texts, each made by `text` and read by `bytes`, before they go into the table
fn by_tokens<T>(words: &[(u32, &[u8])], text: fn(&[u8]) -> T, bytes: fn(&T) -> &[u8]) -> usize {
    let mut table: Table<Vec<u8>, Vec<(u32, u32)>> = Table::default();
    let mut at = 0;
    for document in words.chunk_by(|word, next| word.0 == next.0) {
        let tokens: Vec<(T, usize)> = document.iter().map(|word| (text(word.1), word.1.len())).collect();
        for (token, _) in &tokens {
            match table.get_mut(bytes(token)) {
                Some(hits) => hits.push((document[0].0, at)),
                None => {
                    table.insert(bytes(token).to_vec(), vec![(document[0].0, at)]);
                }
            }
            at += 1;
        }
    }
    let mut terms: Vec<_> = table.into_iter().collect();
    terms.sort_unstable_by(|a, b| a.0.cmp(&b.0));
    terms.iter().map(|(_, hits)| hits.iter().filter(|hit| hit.0 % 2 == 0).count()).sum()
}

fn tokens(words: &[(u32, &[u8])]) -> usize {
    by_tokens(words, |word| word.to_vec(), |text| text.as_slice())
}

fn short(words: &[(u32, &[u8])]) -> usize {
    by_tokens(words, Key::of, Key::bytes)
}

fn inline(words: &[(u32, &[u8])]) -> usize {
    let mut table: Table<Key, Vec<(u32, u32)>> = Table::default();
    for (at, (document, word)) in words.iter().enumerate() {
        table.entry(Key::of(word)).or_default().push((*document, at as u32));
    }
    let mut terms: Vec<_> = table.into_iter().collect();
    terms.sort_unstable_by(|a, b| a.0.bytes().cmp(b.0.bytes()));
    terms.iter().map(|(_, hits)| hits.iter().filter(|hit| hit.0 % 2 == 0).count()).sum()
}

// occurrences by the numbers of their terms, each term's together
fn by_number(hits: &[(u32, u32, u32)], terms: usize, order: &[u32]) -> usize {
    let mut from = vec![0usize; terms + 1];
    for hit in hits {
        from[hit.0 as usize + 1] += 1;
    }
    for number in 0..terms {
        from[number + 1] += from[number];
    }
    let (mut next, mut sorted) = (from.clone(), vec![(0, 0); hits.len()]);
    for hit in hits {
        sorted[next[hit.0 as usize]] = (hit.1, hit.2);
        next[hit.0 as usize] += 1;
    }
    let of = |number: &u32| &sorted[from[*number as usize]..from[*number as usize + 1]];
    order.iter().map(|number| of(number).iter().filter(|hit| hit.0 % 2 == 0).count()).sum()
}

fn numbered(words: &[(u32, &[u8])]) -> usize {
    let (mut table, mut hits): (Table<Vec<u8>, u32>, _) = (Table::default(), Vec::new());
    for (at, (document, word)) in words.iter().enumerate() {
        let next = table.len() as u32;
        let number = match table.get(*word) {
            Some(number) => *number,
            None => *table.entry(word.to_vec()).or_insert(next),
        };
        hits.push((number, *document, at as u32));
    }
    let mut terms: Vec<_> = table.iter().collect();
    terms.sort_unstable();
    let order: Vec<u32> = terms.iter().map(|term| *term.1).collect();
    by_number(&hits, order.len(), &order)
}

fn both(words: &[(u32, &[u8])]) -> usize {
    let (mut table, mut hits): (Table<Key, u32>, _) = (Table::default(), Vec::new());
    for (at, (document, word)) in words.iter().enumerate() {
        let next = table.len() as u32;
        hits.push((*table.entry(Key::of(word)).or_insert(next), *document, at as u32));
    }
    let mut terms: Vec<_> = table.iter().map(|(key, number)| (key.bytes(), *number)).collect();
    terms.sort_unstable();
    let order: Vec<u32> = terms.iter().map(|term| term.1).collect();
    by_number(&hits, order.len(), &order)
}

fn main() {
    let mut given = std::env::args().skip(1);
    let script = std::fs::read(given.next().expect("a script")).expect("the script is read");
    let rounds = given.next().map_or(3, |word| word.parse().expect("a number"));
    let words = words(&script);
    println!("{} words", words.len());
    let forms: [(&str, fn(&[(u32, &[u8])]) -> usize); 6] =
        [("tokens", tokens), ("short", short), ("own", own), ("numbered", numbered), ("inline", inline), ("both", both)];
    for (name, form) in forms {
        let mut least = f64::MAX;
        let mut said = 0;
        for _ in 0..rounds {
            let began = Instant::now();
            said = form(&words);
            least = least.min(began.elapsed().as_secs_f64());
        }
        println!("{name:10} {least:6.2} s ({said})");
    }
}
