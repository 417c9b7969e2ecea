// Dictionaries in Rust: terms in one arena, a table of ids with stored hashes, sorted by their first eight bytes.
use std::time::Instant;

fn step(state: u64) -> u64 {
    state.wrapping_mul(6364136223846793005).wrapping_add(1442695040888963407)
}

fn term(letters: u64, number: u64) -> Vec<u8> {
    let mut out = Vec::new();
    let mut rest = letters;
    for _ in 0..8 {
        out.push(97 + (rest % 26) as u8);
        rest /= 26;
    }
    let mut rest = number;
    for _ in 0..5 {
        out.push(48 + (rest % 10) as u8);
        rest /= 10;
    }
    out
}

fn terms(count: u64) -> Vec<Vec<u8>> {
    let mut state = 12345;
    (0..count)
        .map(|number| {
            state = step(state);
            term(state >> 25, number)
        })
        .collect()
}

const EMPTY: u32 = u32::MAX;

// Terms by their ids. A place of the table is taken by an id, and there are at least twice as many as ids.
#[derive(Default)]
struct Ids {
    bytes: Vec<u8>,
    ends: Vec<u64>,
    hashes: Vec<u32>,
    places: Vec<u32>,
}

// The first eight bytes as a number, with zeros behind where there are fewer.
fn head(term: &[u8]) -> u64 {
    match term.first_chunk() {
        Some(head) => u64::from_be_bytes(*head),
        None => {
            let mut head = [0; 8];
            head[..term.len()].copy_from_slice(term);
            u64::from_be_bytes(head)
        }
    }
}

fn mix(hash: u64, word: u64) -> u64 {
    let product = (hash ^ word).wrapping_mul(0x9e37_79b9_7f4a_7c15);
    product ^ (product >> 32)
}

fn hash(term: &[u8]) -> u32 {
    let words = term.chunks_exact(8).fold(0, |hash, word| mix(hash, head(word)));
    let last = mix(words, head(&term[term.len().saturating_sub(8)..]));
    (mix(last, term.len() as u64) >> 32) as u32
}

impl Ids {
    fn term(&self, id: u32) -> &[u8] {
        let id = id as usize;
        let start = if id == 0 { 0 } else { self.ends[id - 1] };
        &self.bytes[start as usize..self.ends[id] as usize]
    }

    fn grow(&mut self) {
        let places = (2 * self.places.len()).max(16);
        self.places = vec![EMPTY; places];
        for (id, hash) in self.hashes.iter().enumerate() {
            let mut place = *hash as usize & (places - 1);
            while self.places[place] != EMPTY {
                place = (place + 1) & (places - 1);
            }
            self.places[place] = id as u32;
        }
    }

    fn allocate(&mut self, term: &[u8]) -> u32 {
        if 2 * (self.ends.len() + 1) > self.places.len() {
            self.grow();
        }
        let hash = hash(term);
        let last = self.places.len() - 1;
        let mut place = hash as usize & last;
        while self.places[place] != EMPTY {
            let id = self.places[place];
            if self.hashes[id as usize] == hash && self.term(id) == term {
                return id;
            }
            place = (place + 1) & last;
        }
        let id = self.ends.len() as u32;
        self.places[place] = id;
        self.hashes.push(hash);
        self.bytes.extend_from_slice(term);
        self.ends.push(self.bytes.len() as u64);
        id
    }
}

// A number added to a sum that tells their order.
fn add(all: u64, number: u64) -> u64 {
    all.wrapping_mul(31).wrapping_add(number)
}

fn allocated(ids: &mut Ids, terms: &[Vec<u8>]) -> u64 {
    terms.iter().fold(0, |all, term| add(all, u64::from(ids.allocate(term))))
}

fn serialize(ids: &Ids, out: &mut Vec<u8>) -> Vec<u32> {
    let num_terms = ids.ends.len() as u32;
    let mut sorted: Vec<(u64, &[u8], u32)> = (0..num_terms)
        .map(|id| (head(ids.term(id)), ids.term(id), id))
        .collect();
    sorted.sort_unstable();
    let mut ords = vec![0; sorted.len()];
    for (ord, (_, _, id)) in sorted.iter().enumerate() {
        ords[*id as usize] = ord as u32;
    }
    out.reserve(4 + 4 * sorted.len() + ids.bytes.len());
    out.extend_from_slice(&num_terms.to_le_bytes());
    let mut end = 0;
    for (_, term, _) in &sorted {
        end += term.len() as u32;
        out.extend_from_slice(&end.to_le_bytes());
    }
    for (_, term, _) in &sorted {
        out.extend_from_slice(term);
    }
    ords
}

struct Table {
    bytes: Vec<u8>,
    num_terms: usize,
}

fn number(bytes: &[u8], at: usize) -> usize {
    u32::from_le_bytes(bytes[at..at + 4].try_into().unwrap()) as usize
}

impl Table {
    fn open(bytes: Vec<u8>) -> Option<Table> {
        let num_terms = number(&bytes, 0);
        let text = bytes.get(4 + 4 * num_terms..)?;
        let mut start = 0;
        let mut last: Option<&[u8]> = None;
        for i in 0..num_terms {
            let end = number(&bytes, 4 + 4 * i);
            let term = text.get(start..end)?;
            if last.is_some_and(|last| last >= term) {
                return None;
            }
            start = end;
            last = Some(term);
        }
        (start == text.len()).then_some(Table { bytes, num_terms })
    }

    fn term(&self, ord: usize) -> Option<&[u8]> {
        if ord >= self.num_terms {
            return None;
        }
        let start = if ord == 0 { 0 } else { number(&self.bytes, 4 * ord) };
        let end = number(&self.bytes, 4 + 4 * ord);
        let text = 4 + 4 * self.num_terms;
        Some(&self.bytes[text + start..text + end])
    }

    fn ord(&self, key: &[u8]) -> Option<u64> {
        let (mut low, mut high) = (0, self.num_terms);
        while low < high {
            let middle = low + (high - low) / 2;
            match self.term(middle)?.cmp(key) {
                std::cmp::Ordering::Less => low = middle + 1,
                std::cmp::Ordering::Equal => return Some(middle as u64),
                std::cmp::Ordering::Greater => high = middle,
            }
        }
        None
    }
}

fn found(table: &Table, terms: &[Vec<u8>]) -> u64 {
    terms.iter().filter_map(|term| table.ord(term)).fold(0, add)
}

fn read(table: &Table) -> u64 {
    let (mut all, mut state) = (0, 54321);
    for _ in 0..table.num_terms {
        state = step(state);
        if let Some(term) = table.term((state >> 32) as usize % table.num_terms) {
            all ^= term.len() as u64;
            if let Some(byte) = term.first() {
                all ^= u64::from(*byte);
            }
        }
    }
    all
}

fn walked(table: &Table) -> u64 {
    let mut all = 0;
    for ord in 0..table.num_terms {
        all ^= ord as u64;
        all ^= table.term(ord).map_or(0, |term| term.len() as u64);
    }
    all
}

fn main() {
    let count = std::env::args().nth(1).and_then(|word| word.parse().ok());
    let terms = terms(count.expect("count"));
    for _ in 0..5 {
        let tell = |name, start: Instant, sum| println!("{name} {} {sum}", start.elapsed().as_nanos());
        let mut ids = Ids::default();
        let start = Instant::now();
        let sum = allocated(&mut ids, &terms);
        tell("new", start, sum);
        let start = Instant::now();
        let sum = allocated(&mut ids, &terms);
        tell("known", start, sum);
        let mut bytes = Vec::new();
        let start = Instant::now();
        std::hint::black_box(serialize(&ids, &mut bytes));
        tell("serialize", start, bytes.len() as u64);
        let num_bytes = bytes.len() as u64;
        let start = Instant::now();
        let table = Table::open(bytes).unwrap();
        tell("open", start, num_bytes);
        let start = Instant::now();
        let sum = found(&table, &terms);
        tell("term_ord", start, sum);
        let start = Instant::now();
        let sum = read(&table);
        tell("term_at", start, sum);
        let start = Instant::now();
        let sum = walked(&table);
        tell("stream", start, sum);
    }
}
