// The same indexes in Rust. Where a proof makes a test needless, `unsafe` leaves it out here too.
mod numbers;
mod shared;

use numbers::{Numbers, put_list, run_bytes, set_bytes};
use shared::{best, draws, take_vint};
use std::fmt::Display;
use std::hint::black_box;

const BLOCK_LEN: usize = 1024;
const NUM_SEGMENTS: usize = 8;

// A bit for each row, set where it has a value, and how many are set before each word.
struct Words { bits: Vec<u64>, before: Vec<u32> }

impl Words {
    fn of(num_rows: u32, rows: &Numbers) -> Option<Words> {
        let mut bits = vec![0u64; num_rows.div_ceil(64) as usize];
        rows.each_rising(num_rows, |row| bits[row as usize / 64] |= 1 << (row % 64))?;
        let mut count = 0;
        let before = bits.iter().map(|word| {
            count += word.count_ones();
            count - word.count_ones()
        });
        Some(Words { before: before.collect(), bits })
    }

    #[inline(always)]
    unsafe fn rank(&self, row: u32) -> u32 {
        let at = row as usize / 64;
        let (word, before) = unsafe { (self.bits.get_unchecked(at), self.before.get_unchecked(at)) };
        before + (word & ((1 << (row % 64)) - 1)).count_ones()
    }

    #[inline(always)]
    unsafe fn holds(&self, row: u32) -> bool {
        unsafe { self.bits.get_unchecked(row as usize / 64) >> (row % 64) & 1 == 1 }
    }
}

// How many rows with a value stand before each part of 2 ^ shift rows, and before the end.
struct Parts { shift: u32, before: Vec<u32> }

impl Parts {
    fn of(num_rows: u32, rows: &Numbers) -> Option<Parts> {
        let shift = (32 - (num_rows / rows.count.max(1)).leading_zeros()).min(31);
        let mut counts = vec![0u32; (num_rows >> shift) as usize + 2];
        rows.each_rising(num_rows, |row| counts[(row >> shift) as usize] += 1)?;
        let mut sum = 0;
        for count in &mut counts {
            sum += *count;
            *count = sum - *count;
        }
        Some(Parts { shift, before: counts })
    }

    #[inline(always)]
    unsafe fn rank(&self, rows: &Numbers, row: u32) -> u32 {
        let part = (row >> self.shift) as usize;
        let (low, high) = unsafe { (self.before.get_unchecked(part), self.before.get_unchecked(part + 1)) };
        rows.narrow(*low, *high, u64::from(row))
    }
}

enum Ranks { Words(Words), Parts(Parts) }

// Rows in runs: where these start, with the greatest number of 32 bits behind them; how many starts stand before each
// part of 2 ^ shift rows; for so many of the runs how many rows they have and how far a row in the last is above its rank;
// and where runs are short a bit for each row.
struct Runs { num_rows: u32, count: u32, nexts: Vec<u32>, shift: u32, parts: Vec<u32>, before: Vec<u32>, gaps: Vec<u32>, words: Words }

const MAX_ROWS_A_RUN: u64 = 1024;

impl Runs {
    fn open(mut bytes: &'static [u8]) -> Option<Runs> {
        let num_rows = u32::try_from(take_vint(&mut bytes)).ok()?;
        let (lists, len) = bytes.split_last_chunk()?;
        let (starts, lengths) = lists.split_at_checked(u64::from_le_bytes(*len) as usize)?;
        let (starts, lengths) = (Numbers::open(starts)?, Numbers::open(lengths)?);
        let count = starts.count;
        if count != lengths.count { return None; }
        let room = count as usize + 1;
        let (mut nexts, mut before, mut gaps) = (Vec::with_capacity(room), Vec::with_capacity(room), Vec::with_capacity(room));
        gaps.push(0);
        let (mut next, mut total) = (0, 0);
        for at in 0..count {
            let (start, len) = (starts.get(at), lengths.get(at));
            if start < next || len == 0 || start > u64::from(num_rows) || len > u64::from(num_rows) - start { return None; }
            nexts.push(start as u32);
            before.push(total);
            gaps.push(start as u32 - total);
            total += len as u32;
            next = start + len + 1;
        }
        nexts.push(u32::MAX);
        before.push(total);
        let shift = (32 - (num_rows / count.max(1)).leading_zeros()).min(31).saturating_sub(2);
        let mut parts = vec![0u32; (num_rows >> shift) as usize + 2];
        for at in 0..count as usize { parts[(nexts[at] >> shift) as usize] += 1 }
        let mut sum = 0;
        for part in &mut parts {
            sum += *part;
            *part = sum - *part;
        }
        let words = Runs::words_of(num_rows, &nexts[..count as usize], &before);
        Some(Runs { num_rows, count, nexts, shift, parts, before, gaps, words })
    }

    fn words_of(num_rows: u32, starts: &[u32], before: &[u32]) -> Words {
        let are_long = u64::from(num_rows) > MAX_ROWS_A_RUN * starts.len() as u64;
        let mut bits = vec![0u64; if are_long { 0 } else { num_rows.div_ceil(64) as usize }];
        if !are_long {
            for (start, sums) in starts.iter().zip(before.windows(2)) {
                let (mut row, end) = (*start, *start + (sums[1] - sums[0]));
                while row < end {
                    let len = (64 - row % 64).min(end - row);
                    bits[row as usize / 64] |= u64::MAX >> (64 - len) << (row % 64);
                    row += len;
                }
            }
        }
        let mut count = 0;
        let before = bits.iter().map(|word| {
            count += word.count_ones();
            count - word.count_ones()
        });
        Words { before: before.collect(), bits }
    }

    fn num_with_value(&self) -> u32 { self.before[self.count as usize] }

    // How many runs start at a row or before it.
    #[inline(always)]
    fn count_upto(&self, row: u32) -> usize {
        if row >= self.num_rows { return self.count as usize; }
        unsafe {
            let low = *self.parts.get_unchecked((row >> self.shift) as usize) as usize;
            let at = low + usize::from(*self.nexts.get_unchecked(low) <= row);
            if *self.nexts.get_unchecked(at) > row { at } else { self.count_in_part(row) }
        }
    }

    #[cold]
    #[inline(never)]
    fn count_in_part(&self, row: u32) -> usize {
        let part = (row >> self.shift) as usize;
        let (low, high) = (self.parts[part] as usize, self.parts[part + 1] as usize);
        low + self.nexts[low..high].partition_point(|start| *start <= row)
    }

    #[inline(always)]
    fn has_bit(&self, row: u32) -> bool { (row as usize / 64) < self.words.bits.len() }

    #[inline(always)]
    fn rank(&self, row: u32) -> u32 {
        if row >= self.num_rows { return self.num_with_value(); }
        if !self.words.bits.is_empty() { return unsafe { self.words.rank(row) }; }
        let count = self.count_upto(row);
        unsafe { (row - self.gaps.get_unchecked(count)).min(*self.before.get_unchecked(count)) }
    }

    #[inline(always)]
    fn rank_if_exists(&self, row: u32) -> Option<u32> {
        if self.has_bit(row) {
            let rank = unsafe { self.words.rank(row) };
            return unsafe { self.words.holds(row) }.then_some(rank);
        }
        let count = self.count_upto(row);
        let (rank, upto) = unsafe { (row - self.gaps.get_unchecked(count), *self.before.get_unchecked(count)) };
        (rank < upto).then_some(rank)
    }

    // The first row of a run, and of how many rows it is.
    fn run(&self, at: usize) -> (u32, u32) { (self.nexts[at], self.before[at + 1] - self.before[at]) }

    // Sees those of the documents that have a value, with their ranks.
    #[inline(never)]
    fn push_ranks(&self, docs: &[u32], out: &mut Pairs) {
        let (mut start, mut len, mut before, mut span) = (0, 0, 0, None);
        for &doc in docs {
            if span.is_none_or(|span| doc.wrapping_sub(start) > span) {
                let count = self.count_upto(doc);
                (start, len) = if count == 0 { (0, 0) } else { self.run(count - 1) };
                before = if count == 0 { 0 } else { self.before[count - 1] };
                span = Some(if count < self.count as usize { self.nexts[count] - 1 } else { u32::MAX } - start);
            }
            if doc - start < len { out.push(doc, before + (doc - start)) }
        }
    }

    // The run with the row of a rank, by halves.
    #[inline(never)]
    fn run_with(&self, rank: u32) -> usize { self.before.partition_point(|sum| *sum <= rank) - 1 }
}

// The run that the last row was found in, by its number, its first row, how many rows it has and how many stand before it.
#[derive(Clone, Copy, Default)]
struct Near { number: usize, start: u32, len: u32, before: u32 }

impl Runs {
    // Makes a run that of a rank, which is looked for behind it first.
    #[inline(never)]
    fn seek(&self, near: &mut Near, rank: u32) {
        let next = near.number + usize::from(near.len > 0);
        let is_next = next < self.count as usize && self.before[next] <= rank && rank < self.before[next + 1];
        let number = if is_next { next } else { self.run_with(rank) };
        let (start, len) = self.run(number);
        *near = Near { number, start, len, before: self.before[number] };
    }

    #[inline(always)]
    fn select_near(&self, near: &mut Near, rank: u32) -> u32 {
        if rank.wrapping_sub(near.before) >= near.len { self.seek(near, rank); }
        near.start + (rank - near.before)
    }
}

// A walk of rows in runs: `place` is the rank of the next one, `sum` the first rank behind its run, and `segment` the run's number.
impl Walked for &Runs {
    #[inline(always)]
    fn next(&self, at: &mut Walk) -> Option<u32> {
        if at.place == at.sum {
            if at.segment == self.count as usize { return None; }
            at.sum += u64::from(self.run(at.segment).1);
            at.segment += 1;
        }
        at.place += 1;
        Some(self.nexts[at.segment - 1] + (at.place - 1) as u32 - self.before[at.segment - 1])
    }
}

struct Optional { num_rows: u32, rows: Numbers, ranks: Ranks }

impl Optional {
    fn open(mut bytes: &'static [u8]) -> Option<Optional> {
        let num_rows = u32::try_from(take_vint(&mut bytes)).ok()?;
        let rows = Numbers::open(bytes)?;
        let are_few = u64::from(num_rows) > 64 * u64::from(rows.count);
        let ranks = if are_few { Ranks::Parts(Parts::of(num_rows, &rows)?) }
            else { Ranks::Words(Words::of(num_rows, &rows)?) };
        Some(Optional { num_rows, rows, ranks })
    }

    #[inline(always)]
    fn select(&self, rank: u32) -> u32 { self.rows.get(rank) as u32 }

    #[inline(always)]
    fn rank(&self, row: u32) -> u32 {
        if row >= self.num_rows { return self.rows.count; }
        match &self.ranks {
            Ranks::Words(words) => unsafe { words.rank(row) },
            Ranks::Parts(parts) => unsafe { parts.rank(&self.rows, row) },
        }
    }

    #[inline(always)]
    fn rank_if_exists(&self, row: u32) -> Option<u32> {
        if row >= self.num_rows { return None; }
        match &self.ranks {
            Ranks::Words(words) => unsafe { words.holds(row).then(|| words.rank(row)) },
            Ranks::Parts(parts) => {
                let rank = unsafe { parts.rank(&self.rows, row) };
                (rank < self.rows.count && self.select(rank) == row).then_some(rank)
            }
        }
    }

    // Sees those of the documents that have a value, with their ranks.
    #[inline(always)]
    fn each_rank(&self, docs: &[u32], mut f: impl FnMut(u32, u32)) {
        if let Ranks::Words(_) = self.ranks {
            for &doc in docs {
                if let Some(rank) = self.rank_if_exists(doc) { f(doc, rank) }
            }
            return;
        }
        let mut place = self.rows.place(0, 0);
        for &doc in docs {
            place = place.near(&self.rows, u64::from(doc))
                .unwrap_or_else(|| self.rows.place(self.rank(doc), u64::from(doc)));
            if place.next == u64::from(doc) { f(doc, place.at) }
        }
    }

    #[inline(never)]
    fn push_ranks(&self, docs: &[u32], out: &mut Pairs) {
        self.each_rank(docs, |doc, rank| out.push(doc, rank));
    }
}

struct Multivalued { rows: Optional, starts: Numbers }

impl Multivalued {
    fn open(bytes: &'static [u8]) -> Option<Multivalued> {
        let (parts, len) = bytes.split_last_chunk()?;
        let (rows, starts) = parts.split_at_checked(u64::from_le_bytes(*len) as usize)?;
        let rows = Optional::open(rows)?;
        let starts = Numbers::open(starts)?;
        if u64::from(starts.count) != u64::from(rows.rows.count) + 1 || starts.get(0) != 0 { return None; }
        let mut last = 0;
        for at in 1..starts.count {
            let start = starts.get(at);
            if start <= last || start > u64::from(u32::MAX) { return None; }
            last = start;
        }
        Some(Multivalued { rows, starts })
    }

    #[inline(always)]
    fn start_at(&self, rank: u32) -> u32 { self.starts.get(rank) as u32 }

    fn num_values(&self, row: u32) -> u32 {
        let Some(rank) = self.rows.rank_if_exists(row) else { return 0 };
        self.start_at(rank + 1) - self.start_at(rank)
    }

    #[inline(never)]
    fn push_positions(&self, docs: &[u32], out: &mut Pairs) {
        self.rows.each_rank(docs, |doc, rank| {
            for position in self.start_at(rank)..self.start_at(rank + 1) { out.push(doc, position) }
        });
    }
}

enum Index { Optional(Optional), Multivalued(Multivalued) }

impl Index {
    #[inline(never)]
    fn open(bytes: &'static [u8]) -> Option<Index> {
        match bytes.split_first()? {
            (1, behind) => Optional::open(behind).map(Index::Optional),
            (2, behind) => Multivalued::open(behind).map(Index::Multivalued),
            _ => None,
        }
    }

    fn set(&self) -> &Optional {
        match self {
            Index::Optional(index) => index,
            Index::Multivalued(index) => &index.rows,
        }
    }

    fn push_positions(&self, docs: &[u32], out: &mut Pairs) {
        match self {
            Index::Optional(index) => index.push_ranks(docs, out),
            Index::Multivalued(index) => index.push_positions(docs, out),
        }
    }

    fn has_value(&self, row: u32) -> bool { self.set().rank_if_exists(row).is_some() }

    fn num_values(&self, row: u32) -> u32 {
        match self {
            Index::Optional(index) => u32::from(index.rank_if_exists(row).is_some()),
            Index::Multivalued(index) => index.num_values(row),
        }
    }

    fn start(&self, place: u64) -> Option<u32> {
        match self {
            Index::Optional(index) => (place <= u64::from(index.rows.count)).then_some(place as u32),
            Index::Multivalued(index) => {
                (place < u64::from(index.starts.count)).then(|| index.start_at(place as u32))
            }
        }
    }

    fn last_start(&self) -> u32 {
        match self {
            Index::Optional(index) => index.rows.count,
            Index::Multivalued(index) => index.start_at(index.starts.count - 1),
        }
    }
}

#[derive(Default)]
struct Pairs { docs: Vec<u32>, rows: Vec<u32> }

impl Pairs {
    #[inline(always)]
    fn push(&mut self, doc: u32, row: u32) {
        self.docs.push(doc);
        self.rows.push(row);
    }

    fn clear(&mut self) {
        self.docs.clear();
        self.rows.clear();
    }

    fn sum(&self) -> u64 {
        let last = |list: &[u32]| u64::from(list.last().copied().unwrap_or_default());
        self.rows.len() as u64 + last(&self.docs) + last(&self.rows)
    }
}

#[derive(Clone, Copy, Default)]
struct Walk { segment: usize, place: u64, sum: u64 }

// A list that is walked from the front.
trait Walked {
    fn next(&self, at: &mut Walk) -> Option<u32>;

    #[inline(never)]
    fn sum(&self) -> u64 {
        let (mut sum, mut at) = (0u64, Walk::default());
        while let Some(item) = self.next(&mut at) {
            sum = sum.wrapping_add(u64::from(item));
        }
        sum
    }
}

impl Walked for &Optional {
    #[inline(always)]
    fn next(&self, at: &mut Walk) -> Option<u32> {
        if at.place >= u64::from(self.rows.count) { return None; }
        at.place += 1;
        Some(self.select(at.place as u32 - 1))
    }
}

struct StackedRows<'a>(&'a [Index]);

impl Walked for StackedRows<'_> {
    #[inline(always)]
    fn next(&self, at: &mut Walk) -> Option<u32> {
        while at.segment < self.0.len() {
            let set = unsafe { self.0.get_unchecked(at.segment) }.set();
            if at.place < u64::from(set.rows.count) {
                at.place += 1;
                return Some(at.sum as u32 + set.select(at.place as u32 - 1));
            }
            *at = Walk { segment: at.segment + 1, place: 0, sum: at.sum + u64::from(set.num_rows) };
        }
        None
    }
}

struct StackedStarts<'a>(&'a [Index]);

impl Walked for StackedStarts<'_> {
    #[inline(always)]
    fn next(&self, at: &mut Walk) -> Option<u32> {
        if at.place == 0 {
            at.place = 1;
            return Some(at.sum as u32);
        }
        while at.segment < self.0.len() {
            let index = unsafe { self.0.get_unchecked(at.segment) };
            if let Some(start) = index.start(at.place) {
                at.place += 1;
                return Some(at.sum as u32 + start);
            }
            *at = Walk { segment: at.segment + 1, place: 1, sum: at.sum + u64::from(index.last_start()) };
        }
        None
    }
}

// Rows by segment and row there.
type Addresses = [(u32, u32)];

struct ShuffledRows<'a>(&'a [Index], &'a Addresses);

impl Walked for ShuffledRows<'_> {
    #[inline(always)]
    fn next(&self, at: &mut Walk) -> Option<u32> {
        while at.place < self.1.len() as u64 {
            let (segment, row) = unsafe { *self.1.get_unchecked(at.place as usize) };
            at.place += 1;
            if unsafe { self.0.get_unchecked(segment as usize) }.has_value(row) {
                return Some(at.place as u32 - 1);
            }
        }
        None
    }
}

struct ShuffledStarts<'a>(&'a [Index], &'a Addresses);

impl Walked for ShuffledStarts<'_> {
    #[inline(always)]
    fn next(&self, at: &mut Walk) -> Option<u32> {
        if at.segment == 0 {
            at.segment = 1;
            return Some(0);
        }
        while at.place < self.1.len() as u64 {
            let (segment, row) = unsafe { *self.1.get_unchecked(at.place as usize) };
            at.place += 1;
            let count = unsafe { self.0.get_unchecked(segment as usize) }.num_values(row);
            if count != 0 {
                at.sum += u64::from(count);
                return Some(at.sum as u32);
            }
        }
        None
    }
}

// The bytes of an index of the documents with these draws.
fn index_bytes(xs: &[u64], density: u64, multivalued: bool) -> &'static [u8] {
    let (mut rows, mut starts, mut start) = (vec![], vec![], 0);
    for (doc, x) in xs.iter().enumerate().filter(|(_, x)| **x % 100 < density) {
        rows.push(doc as u64);
        starts.push(start);
        start += 1 + x % 3;
    }
    starts.push(start);
    let set = set_bytes(xs.len(), &rows);
    let mut out = vec![if multivalued { 2 } else { 1 }];
    out.extend_from_slice(&set);
    if multivalued {
        put_list(&starts, &mut out);
        out.extend_from_slice(&(set.len() as u64).to_le_bytes());
    }
    out.leak()
}

#[inline(never)]
fn sum_of_ranks(index: &Optional, rows: &[u32]) -> u64 {
    rows.iter().fold(0, |sum, row| sum.wrapping_add(u64::from(index.rank(*row))))
}

#[inline(never)]
fn sum_of_held(index: &Optional, rows: &[u32]) -> u64 {
    rows.iter().fold(0, |sum, row| sum.wrapping_add(index.rank_if_exists(*row).map_or(0, |rank| u64::from(rank) + 1)))
}

#[inline(never)]
fn sum_by_select(index: &Optional) -> u64 {
    (0..index.rows.count).fold(0, |sum, rank| sum.wrapping_add(u64::from(index.select(rank))))
}

// Asks for blocks of documents, into lists that keep their room.
fn sum_of_blocks(docs: &[u32], out: &mut Pairs, mut ask: impl FnMut(&[u32], &mut Pairs)) -> u64 {
    docs.chunks(BLOCK_LEN).fold(0, |sum, block| {
        out.clear();
        ask(block, out);
        sum.wrapping_add(out.sum())
    })
}

// Prints a line: density, name, nanoseconds, items and sum.
fn say(density: impl Display, name: &str, count: usize, (nanos, sum): (u128, u64)) {
    println!("{density} {name} {nanos} {count} {sum}");
}

fn measure_positions(density: u64, kind: &str, index: &Index) {
    let mut out = Pairs::default();
    let count = index.set().num_rows as usize;
    for percent in [1, 10, 50] {
        let picks = draws(count, 2).enumerate().filter(|(_, x)| x % 100 < percent);
        let docs: Vec<u32> = picks.map(|(doc, _)| doc as u32).collect();
        let ask = |block: &[u32], out: &mut Pairs| black_box(index).push_positions(block, out);
        let name = format!("{kind}docids_{percent}");
        say(density, &name, docs.len(), best(|| sum_of_blocks(black_box(&docs), &mut out, ask)));
    }
}

fn hash(bytes: &[u8]) -> u64 { bytes.iter().fold(0u64, |sum, byte| sum.wrapping_mul(31).wrapping_add(u64::from(*byte))) }

fn measure_open(density: &dyn Display, kind: &str, bytes: &'static [u8]) -> Index {
    let (nanos, count) = best(|| Index::open(black_box(bytes)).unwrap().set().rows.count as usize);
    say(density, &format!("{kind}open"), count, (nanos, hash(bytes)));
    Index::open(bytes).unwrap()
}

fn random_rows(count: usize) -> Vec<u32> { draws(count, 3).map(|x| (x % count as u64) as u32).collect() }

fn measure_set(density: &dyn Display, kind: &str, set: &Optional) {
    let count = set.num_rows as usize;
    let random = random_rows(count);
    let all: Vec<u32> = (0..count as u32).collect();
    let mut out = Pairs::default();
    let say = |name: &str, count, told| say(density, &format!("{kind}{name}"), count, told);
    say("rank_random", count, best(|| sum_of_ranks(black_box(set), black_box(&random))));
    say("held_random", count, best(|| sum_of_held(black_box(set), black_box(&random))));
    let ask = |block: &[u32], out: &mut Pairs| black_box(set).push_ranks(block, out);
    say("rank_in_order", count, best(|| sum_of_blocks(black_box(&all), &mut out, ask)));
    let with_value = set.rows.count as usize;
    say("select_in_order", with_value, best(|| sum_by_select(black_box(set))));
    say("iter", with_value, best(|| black_box(set).sum()));
}

fn measure_optional(density: u64, xs: &[u64]) {
    let index = measure_open(&density, "", index_bytes(xs, density, false));
    measure_set(&density, "", index.set());
    measure_positions(density, "", &index);
}

// A number from 1 on that is about another, by a draw.
fn about(number: u64, draw: u64) -> u64 { draw % (number * 2).saturating_sub(1).max(1) + 1 }

// Where runs of about so many rows start, as far as the documents go, of which so many in a hundred are in them, and how
// many rows each has: by two draws a run.
fn draw_runs(count: usize, share: u64, length: u64) -> (Vec<u64>, Vec<u64>) {
    let (mut starts, mut lengths, mut end) = (vec![], vec![], 0);
    let draws: Vec<u64> = draws(count, 4).collect();
    for pair in draws.chunks_exact(2) {
        let start = end + about(length * (100 - share) / share, pair[0]);
        let len = about(length, pair[1]);
        end = start + len;
        if end > count as u64 { break; }
        starts.push(start);
        lengths.push(len);
    }
    (starts, lengths)
}

fn measure_runs(count: usize, share: u64, length: u64) {
    let key = format!("{share}/{length}");
    let (starts, lengths) = draw_runs(count, share, length);
    let bytes = run_bytes(count, &starts, &lengths);
    let whole = [&[1, 1], &bytes[..]].concat();
    let bytes: &'static [u8] = bytes.leak();
    let (nanos, num_runs) = best(|| Runs::open(black_box(bytes)).unwrap().count as usize);
    say(&key, "open", num_runs, (nanos, hash(&whole)));
    let runs = &Runs::open(bytes).unwrap();
    let random = random_rows(count);
    let all: Vec<u32> = (0..count as u32).collect();
    let mut out = Pairs::default();
    say(&key, "rank_random", count, best(|| runs_sum_of_ranks(black_box(runs), black_box(&random))));
    say(&key, "held_random", count, best(|| runs_sum_of_held(black_box(runs), black_box(&random))));
    let ask = |block: &[u32], out: &mut Pairs| black_box(runs).push_ranks(block, out);
    say(&key, "rank_in_order", count, best(|| sum_of_blocks(black_box(&all), &mut out, ask)));
    let with_value = runs.num_with_value() as usize;
    say(&key, "select_in_order", with_value, best(|| runs_sum_by_select(black_box(runs))));
    say(&key, "iter", with_value, best(|| black_box(runs).sum()));
    let rows: Vec<u64> = starts.iter().zip(&lengths).flat_map(|(start, len)| *start..start + len).collect();
    let listed = [vec![1], set_bytes(count, &rows)].concat();
    let index = measure_open(&key, "listed_", listed.leak());
    measure_set(&key, "listed_", index.set());
}

#[inline(never)]
fn runs_sum_of_ranks(runs: &Runs, rows: &[u32]) -> u64 {
    rows.iter().fold(0, |sum, row| sum.wrapping_add(u64::from(runs.rank(*row))))
}

#[inline(never)]
fn runs_sum_of_held(runs: &Runs, rows: &[u32]) -> u64 {
    rows.iter().fold(0, |sum, row| sum.wrapping_add(runs.rank_if_exists(*row).map_or(0, |rank| u64::from(rank) + 1)))
}

#[inline(never)]
fn runs_sum_by_select(runs: &Runs) -> u64 {
    let mut near = Near::default();
    (0..runs.num_with_value()).fold(0, |sum, rank| sum.wrapping_add(u64::from(runs.select_near(&mut near, rank))))
}

fn measure_merges(density: u64, xs: &[u64]) {
    let len = xs.len() / NUM_SEGMENTS;
    let segments = xs.chunks_exact(len).take(NUM_SEGMENTS);
    let indexes = segments.map(|xs| Index::open(index_bytes(xs, density, true)).unwrap());
    let indexes: &[Index] = &indexes.collect::<Vec<_>>();
    let count = len * NUM_SEGMENTS;
    let address = |at: usize| ((at % NUM_SEGMENTS) as u32, (at / NUM_SEGMENTS) as u32);
    let addresses: &Addresses = &(0..count).map(address).collect::<Vec<_>>();
    say(density, "stacked_rows", count, best(|| StackedRows(black_box(indexes)).sum()));
    say(density, "stacked_starts", count, best(|| StackedStarts(black_box(indexes)).sum()));
    say(density, "shuffled_rows", count, best(|| ShuffledRows(black_box(indexes), addresses).sum()));
    say(density, "shuffled_starts", count, best(|| ShuffledStarts(black_box(indexes), addresses).sum()));
}

fn main() {
    for word in std::env::args().skip(1) {
        let xs: Vec<u64> = draws(word.parse().unwrap(), 1).collect();
        for density in [80, 20, 2, 1] {
            measure_optional(density, &xs);
            let index = measure_open(&density, "multi_", index_bytes(&xs, density, true));
            measure_positions(density, "multi_", &index);
            measure_merges(density, &xs);
        }
        for share in [50, 80] {
            for length in [10, 100, 1_000, 10_000, 100_000] { measure_runs(xs.len(), share, length); }
        }
    }
}
