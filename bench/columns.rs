// The same columns in Rust. Where a proof makes a test needless, `unsafe` leaves it out here too.
mod numbers;
mod shared;

use numbers::{Numbers, put_list, set_bytes};
use shared::{Bitpacked, List, Told, best, draws, load, take_vint};
use std::hint::black_box;
use std::ops::Range;

const BLOCK_LEN: usize = 1024;
const MASK: u64 = 0xf_ffff;

// Rows with a value, as a list and as bits, with how many bits are set before each word.
struct Set { num_rows: u32, rows: Numbers, words: Vec<u64>, before: Vec<u32> }

impl Set {
    fn open(mut bytes: &'static [u8]) -> Option<Set> {
        let num_rows = u32::try_from(take_vint(&mut bytes)).ok()?;
        let rows = Numbers::open(bytes)?;
        let mut words = vec![0u64; num_rows.div_ceil(64) as usize];
        let mut next = 0;
        for at in 0..rows.count {
            let row = rows.get(at);
            if row < next || row >= u64::from(num_rows) { return None; }
            words[row as usize / 64] |= 1 << (row % 64);
            next = row + 1;
        }
        let mut count = 0;
        let before = words.iter().map(|word| {
            let here = count;
            count += word.count_ones();
            here
        });
        let before = before.collect();
        Some(Set { num_rows, rows, words, before })
    }

    // How many rows before a row have a value, and whether this one has.
    #[inline(always)]
    fn rank(&self, row: u32) -> (u32, bool) {
        let at = row as usize / 64;
        let (word, before) = unsafe { (*self.words.get_unchecked(at), *self.before.get_unchecked(at)) };
        (before + (word & ((1 << (row % 64)) - 1)).count_ones(), word >> (row % 64) & 1 == 1)
    }
}

enum Index { Full, Optional(Set), Multivalued(Set, Numbers) }

impl Index {
    fn open(bytes: &'static [u8]) -> Option<Index> {
        match bytes.split_first()? {
            (0, _) => Some(Index::Full),
            (1, rest) => Some(Index::Optional(Set::open(rest)?)),
            (_, rest) => {
                let (parts, len) = rest.split_last_chunk()?;
                let (set, starts) = parts.split_at_checked(u64::from_le_bytes(*len) as usize)?;
                let (set, starts) = (Set::open(set)?, Numbers::open(starts)?);
                if u64::from(starts.count) != u64::from(set.rows.count) + 1 || starts.get(0) != 0 { return None; }
                let mut last = 0;
                for at in 1..starts.count {
                    let start = starts.get(at);
                    if start <= last || start > u64::from(u32::MAX) { return None; }
                    last = start;
                }
                Some(Index::Multivalued(set, starts))
            }
        }
    }

    #[inline(always)]
    fn positions(&self, doc: u32) -> Range<u32> {
        match self {
            Index::Full => doc..doc + 1,
            Index::Optional(set) => {
                let (rank, has) = set.rank(doc);
                rank..rank + u32::from(has)
            }
            Index::Multivalued(set, starts) => match set.rank(doc) {
                (rank, true) => starts.get(rank) as u32..starts.get(rank + 1) as u32,
                (_, false) => 0..0,
            },
        }
    }

    // Puts in the place of ascending positions the rows that have them, each once.
    fn select(&self, hits: &mut Vec<u32>) {
        match self {
            Index::Full => {}
            Index::Optional(set) => {
                for hit in hits { *hit = set.rows.get(*hit) as u32 }
            }
            Index::Multivalued(set, starts) => {
                let apart = hits.last().map_or(0, |last| (last - hits[0]) as usize / 32);
                let kept = if apart <= hits.len() { select_close(set, starts, hits) } else { select_distant(set, starts, hits) };
                hits.truncate(kept);
            }
        }
    }
}

// The rows of positions in the front of their list, by windows in which the offsets at or before each are counted.
fn select_close(set: &Set, starts: &Numbers, hits: &mut [u32]) -> usize {
    let mut table = [0; BLOCK_LEN];
    let (mut position, mut len, mut before, mut kept) = (0, 0, 0, 0);
    for at in 0..hits.len() {
        let hit = hits[at];
        if hit < position || hit - position >= len { (position, len) = (hit, fill(starts, hit, &mut table)) }
        let started = table[(hit - position) as usize];
        hits[kept] = set.rows.get(started - 1) as u32;
        kept += (started != before) as usize;
        before = started;
    }
    kept
}

// Counts the offsets at or before each of so many positions from one on.
#[inline(never)]
fn fill(starts: &Numbers, position: u32, table: &mut [u32; BLOCK_LEN]) -> u32 {
    let (behind, mut marks, mut block) = (u64::from(position) + 1, [0; BLOCK_LEN], [0; BLOCK_LEN / 2]);
    let first = starts.rank(behind);
    let count = ((starts.count - first) as usize).min(block.len());
    for at in 0..count { block[at] = starts.get(first + at as u32) }
    for start in &block[..count] { marks[((start - behind) as usize).min(BLOCK_LEN - 1)] = 1 }
    let len = (block[count - 1] - u64::from(position)).min(BLOCK_LEN as u64 - 1) as u32;
    let mut run = first;
    for at in 0..len as usize {
        table[at] = run;
        run += marks[at];
    }
    len
}

// The same by a walk.
fn select_distant(set: &Set, starts: &Numbers, hits: &mut [u32]) -> usize {
    let (mut place, mut kept) = (starts.place(0, 0), 0);
    for at in 0..hits.len() {
        let before = place.at;
        place = place.seek(starts, u64::from(hits[at]) + 1);
        if place.at == before { continue; }
        hits[kept] = set.rows.get(place.at - 1) as u32;
        kept += 1;
    }
    kept
}

struct Column { index: Index, values: Bitpacked, told: Told }

impl Column {
    #[inline(never)]
    fn open(bytes: &'static [u8], num_docs: u32) -> Option<Column> {
        let (parts, len) = bytes.split_last_chunk()?;
        let (index, values) = parts.split_at_checked(u64::from_le_bytes(*len) as usize)?;
        let (values, told) = load::<Bitpacked>(values)?;
        let index = Index::open(index)?;
        let (rows, counted) = match &index {
            Index::Full => (told.count as u32, told.count),
            Index::Optional(set) => (set.num_rows, set.rows.count as usize),
            Index::Multivalued(set, starts) => (set.num_rows, starts.get(starts.count - 1) as usize),
        };
        (rows == num_docs && counted == told.count).then_some(Column { index, values, told })
    }

    #[inline(never)]
    fn sum_of_rows(&self, num_docs: u32) -> u64 {
        let mut sum = 0u64;
        for doc in 0..num_docs {
            for at in self.index.positions(doc) { sum = sum.wrapping_add(self.values.get(at as usize)) }
        }
        sum
    }

    #[inline(never)]
    fn lookup_by_if(&self, low: u64, high: u64, hits: &mut Vec<u32>) {
        hits.clear();
        hits.reserve(self.told.count);
        self.values.each(0..self.told.count, |at, value| {
            if low <= value && value <= high { hits.push(at as u32) }
        });
        self.index.select(hits);
    }

    #[inline(never)]
    fn lookup_by_slots(&self, low: u64, high: u64, hits: &mut Vec<u32>) {
        hits.clear();
        let mut block = [0; BLOCK_LEN];
        for start in (0..self.told.count).step_by(BLOCK_LEN) {
            let mut found = 0;
            self.values.each(start..self.told.count.min(start + BLOCK_LEN), |at, value| {
                unsafe { *block.get_unchecked_mut(found) = at as u32 }
                found += (low <= value && value <= high) as usize;
            });
            hits.extend_from_slice(&block[..found]);
        }
        self.index.select(hits);
    }
}

// The documents that have values, where the values of each start, and behind the last where they end.
fn lists(xs: &[u64], num_values: impl Fn(u64) -> u64) -> (Vec<u64>, Vec<u64>) {
    let (mut rows, mut starts, mut start) = (vec![], vec![], 0);
    for (doc, count) in xs.iter().map(|x| num_values(*x)).enumerate().filter(|(_, count)| *count > 0) {
        rows.push(doc as u64);
        starts.push(start);
        start += count;
    }
    starts.push(start);
    (rows, starts)
}

// The bytes of a column: its index, its values, and its index's length.
fn column_bytes(code: u8, xs: &[u64], num_values: impl Fn(u64) -> u64) -> &'static [u8] {
    let (rows, starts) = lists(xs, num_values);
    let mut out = vec![code];
    if code > 0 {
        let set = set_bytes(xs.len(), &rows);
        out.extend_from_slice(&set);
        if code == 2 {
            put_list(&starts, &mut out);
            out.extend_from_slice(&(set.len() as u64).to_le_bytes());
        }
    }
    let index_len = out.len() as u64;
    let values: Vec<u64> = draws(starts[starts.len() - 1] as usize, 5).map(|x| x & MASK).collect();
    out.push(Bitpacked::CODE);
    Bitpacked::write(&values, &mut out);
    out.extend_from_slice(&index_len.to_le_bytes());
    out.leak()
}

// One pass over bytes.
#[inline(never)]
fn pass(bytes: &[u8]) -> u64 {
    let (words, rest) = bytes.as_chunks::<8>();
    let sum = words.iter().fold(0u64, |sum, word| sum.wrapping_add(u64::from_le_bytes(*word)));
    rest.iter().fold(sum, |sum, byte| sum.wrapping_add(u64::from(*byte)))
}

// Measures a column, and prints a line for each measure: kind, name, nanoseconds, items and sum.
fn measure(kind: &str, bytes: &'static [u8], num_docs: u32) {
    let say = |name: &str, items: usize, nanos: u128, sum: u64| println!("{kind} {name} {nanos} {items} {sum}");
    let hash = |hash: u64, byte: &u8| hash.wrapping_mul(31).wrapping_add(u64::from(*byte));
    let hash = bytes.iter().fold(0, hash);
    let docs = num_docs as usize;
    say("open", docs, best(|| Column::open(black_box(bytes), num_docs).unwrap()).0, hash);
    say("pass", docs, best(|| black_box(pass(black_box(bytes)))).0, hash);
    let column = Column::open(bytes, num_docs).unwrap();
    let (nanos, sum) = best(|| black_box(&column).sum_of_rows(num_docs));
    say("rows", docs, nanos, sum);
    let mut hits = Vec::new();
    for percent in [1, 10, 50] {
        let low = MASK / 4;
        let high = low + MASK * percent / 100;
        let by_if = best(|| black_box(&column).lookup_by_if(low, high, &mut hits)).0;
        let by_slots = best(|| black_box(&column).lookup_by_slots(low, high, &mut hits)).0;
        let sum = hits.iter().fold(0, |sum: u64, hit| sum.wrapping_mul(31).wrapping_add(u64::from(*hit)));
        say(&format!("lookup_{percent}"), column.told.count, by_if.min(by_slots), sum);
    }
}

fn main() {
    for word in std::env::args().skip(1) {
        let count = word.parse().unwrap();
        let xs: Vec<u64> = draws(count, 1).collect();
        let num_docs = count as u32;
        measure("full", column_bytes(0, &xs, |_| 1), num_docs);
        for density in [80, 20, 2] {
            let bytes = column_bytes(1, &xs, |x| u64::from(x % 100 < density));
            measure(&format!("{density}%"), bytes, num_docs);
        }
        measure("multi", column_bytes(2, &xs, |x| x % 3), num_docs);
    }
}
