// The forms of kernels that the crates' own are compared with: each the fastest of several that were tried in Rust.
// They read packed lists with room behind the last number, and test nothing that a proof makes needless.
mod shared;

use shared::{Blockwise, List, best, draws, take_vint};
use std::arch::x86_64::*;
use std::hint::black_box;
use std::ops::Range;

const BLOCK: usize = 1024;
const GROUP: usize = 8;
// The bytes behind a list that loads may touch.
const ROOM: usize = 64;

#[inline(always)]
unsafe fn word(data: &[u8], at: usize) -> u64 {
    unsafe { data.as_ptr().add(at).cast::<u64>().read_unaligned() }
}

#[inline(always)]
unsafe fn item(data: &[u8], width: usize, mask: u64, at: usize) -> u64 {
    let bit = at * width;
    unsafe { word(data, bit / 8) >> (bit % 8) & mask }
}

// Numbers of one width, one behind another, with room behind them.
fn pack(width: usize, vals: impl Iterator<Item = u64>) -> Vec<u8> {
    let mut data = Vec::new();
    let (mut held, mut filled) = (0u128, 0);
    for val in vals {
        held |= u128::from(val) << filled;
        filled += width;
        while filled >= 8 {
            data.push(held as u8);
            held >>= 8;
            filled -= 8;
        }
    }
    data.push(held as u8);
    data.resize(data.len() + ROOM, 0);
    data
}

// Decodes numbers from a group's first on, by whole groups.
#[inline(always)]
fn decode<const W: usize>(start: usize, count: usize, data: &[u8], out: &mut [u32; BLOCK]) {
    let mask = (1u64 << W) - 1;
    for group in 0..count.div_ceil(GROUP) {
        let from = (start / GROUP + group) * W;
        for k in 0..GROUP {
            let bit = k * W;
            unsafe {
                let number = word(data, from + bit / 8) >> (bit % 8) & mask;
                *out.get_unchecked_mut(GROUP * group + k) = number as u32;
            }
        }
    }
}

// Which of 64 numbers lie at most `span` above `low`: a bit for each, the first the lowest.
#[inline(always)]
fn mask_of(numbers: &[u32], low: u32, span: u32) -> u64 {
    let mut mask = 0;
    if numbers.len() < 64 {
        for (at, number) in numbers.iter().enumerate() {
            mask |= u64::from(number.wrapping_sub(low) <= span) << at;
        }
        return mask;
    }
    unsafe {
        let (low, span) = (_mm_set1_epi32(low as i32), _mm_set1_epi32(span as i32));
        for quarter in 0..4 {
            let mut hits = [_mm_setzero_si128(); 4];
            for (part, hit) in hits.iter_mut().enumerate() {
                let four = _mm_loadu_si128(numbers.as_ptr().add(quarter * 16 + part * 4).cast());
                let above = _mm_sub_epi32(four, low);
                *hit = _mm_cmpeq_epi32(_mm_min_epu32(above, span), above);
            }
            let bytes = _mm_packs_epi16(_mm_packs_epi32(hits[0], hits[1]), _mm_packs_epi32(hits[2], hits[3]));
            mask |= u64::from(_mm_movemask_epi8(bytes) as u32) << (quarter * 16);
        }
    }
    mask
}

// Ids of the steps in a range, for widths up to 32: a block is decoded and compared, and a mask without bits is skipped.
#[inline(never)]
fn ids_by_masks<const W: usize>(data: &[u8], low: u32, high: u32, count: usize, out: &mut Vec<u32>) {
    out.clear();
    out.reserve(count + GROUP);
    let ids = out.as_mut_ptr();
    let mut block = [0; BLOCK];
    let mut kept = 0;
    for start in (0..count).step_by(BLOCK) {
        let len = BLOCK.min(count - start);
        decode::<W>(start, len, data, &mut block);
        for from in (0..len).step_by(64) {
            let mut mask = mask_of(&block[from..len.min(from + 64)], low, high - low);
            while mask != 0 {
                unsafe { *ids.add(kept) = (start + from) as u32 + mask.trailing_zeros() }
                kept += 1;
                mask &= mask - 1;
            }
        }
    }
    unsafe { out.set_len(kept) }
}

// The same for any width: steps compared one by one, straight into the room.
#[inline(never)]
fn ids_one_by_one(data: &[u8], width: usize, mask: u64, low: u64, high: u64, count: usize, out: &mut Vec<u32>) {
    out.clear();
    out.reserve(count + GROUP);
    let ids = out.as_mut_ptr();
    let span = high - low;
    let (mut kept, mut bit) = (0, 0);
    for id in 0..count {
        unsafe {
            let number = word(data, bit / 8) >> (bit % 8) & mask;
            *ids.add(kept) = id as u32;
            kept += usize::from(number.wrapping_sub(low) <= span);
        }
        bit += width;
    }
    unsafe { out.set_len(kept) }
}

// Values from a group's first on, by whole groups.
#[inline(never)]
fn get_range<const W: usize>(data: &[u8], min: u64, gcd: u64, start: usize, out: &mut [u64]) {
    let mask = if W == 0 { 0 } else { u64::MAX >> (64 - W) };
    let mut from = start * W / 8;
    for group in out.chunks_exact_mut(GROUP) {
        for (k, number) in group.iter_mut().enumerate() {
            let bit = k * W;
            *number = unsafe { word(data, from + bit / 8) >> (bit % 8) & mask };
        }
        from += W;
    }
    if gcd != 1 {
        for value in out { *value = min + gcd * *value }
    } else if min != 0 {
        for value in out { *value += min }
    }
}

// Values at positions: what doesn't change is read before the loop.
#[inline(never)]
fn get_vals(data: &[u8], width: usize, mask: u64, min: u64, gcd: u64, places: &[u32], out: &mut [u64]) {
    for (value, &at) in out.iter_mut().zip(places) {
        let bit = at as usize * width;
        let step = if bit / 8 + 8 <= data.len() { unsafe { item(data, width, mask, at as usize) } } else { no_step() };
        *value = min + gcd * step;
    }
}

#[cold]
#[inline(never)]
fn no_step() -> u64 { 0 }

// The least and the greatest step, for widths up to 32.
#[inline(never)]
fn ends_by_blocks<const W: usize>(data: &[u8], count: usize) -> (u64, u64) {
    let mut block = [0; BLOCK];
    let (mut least, mut greatest) = (u32::MAX, 0);
    for start in (0..count).step_by(BLOCK) {
        let len = BLOCK.min(count - start);
        decode::<W>(start, len, data, &mut block);
        for &number in &block[..len] {
            least = least.min(number);
            greatest = greatest.max(number);
        }
    }
    (u64::from(least), u64::from(greatest))
}

// The same for any width, four at a time.
#[inline(never)]
fn ends_by_fours(data: &[u8], width: usize, mask: u64, count: usize) -> (u64, u64) {
    let (mut least, mut greatest) = ([u64::MAX; 4], [0; 4]);
    let mut take = |lane: usize, at: usize| {
        let number = unsafe { item(data, width, mask, at) };
        least[lane] = least[lane].min(number);
        greatest[lane] = greatest[lane].max(number);
    };
    for from in (0..count / 4 * 4).step_by(4) {
        for lane in 0..4 { take(lane, from + lane) }
    }
    for at in count / 4 * 4..count { take(0, at) }
    (least.into_iter().min().unwrap(), greatest.into_iter().max().unwrap())
}

// A list under Bitpacked.
struct Packed { data: Vec<u8>, mask: u64, min: u64, gcd: u64, count: usize }

impl Packed {
    fn of<const W: usize>(vals: &[u64]) -> Packed {
        let min = vals.iter().copied().min().unwrap();
        let data = pack(W, vals.iter().map(|val| val - min));
        Packed { data, mask: (1 << W) - 1, min, gcd: 1, count: vals.len() }
    }

    // The ends of a range become steps once. They lie within the values here.
    fn lookup<const W: usize>(&self, low: u64, high: u64, out: &mut Vec<u32>) {
        let (low, high) = ((low - self.min).div_ceil(self.gcd), (high - self.min) / self.gcd);
        if W <= 32 {
            ids_by_masks::<W>(&self.data, low as u32, high as u32, self.count, out)
        } else {
            ids_one_by_one(&self.data, W, self.mask, low, high, self.count, out)
        }
    }

    fn open<const W: usize>(&self) -> (u64, u64) {
        let (least, greatest) =
            if W <= 32 { ends_by_blocks::<W>(&self.data, self.count) }
            else { ends_by_fours(&self.data, W, self.mask, self.count) };
        (self.min + self.gcd * least, self.min + self.gcd * greatest)
    }

    fn sum_of_ranges<const W: usize>(&self) -> u64 {
        let mut block = [0; BLOCK];
        (0..self.count / BLOCK).fold(0, |sum, id| {
            get_range::<W>(&self.data, self.min, self.gcd, id * BLOCK, &mut block);
            sum.wrapping_add(block[0])
        })
    }

    fn sum_of_vals<const W: usize>(&self, places: &[u32]) -> u64 {
        let mut block = [0; BLOCK];
        places.chunks_exact(BLOCK).fold(0, |sum, part| {
            get_vals(&self.data, W, self.mask, self.min, self.gcd, part, &mut block);
            sum.wrapping_add(block[0])
        })
    }
}

const LINE_BLOCK: usize = 512;

// A block of a list under BlockwiseLinear.
struct Line { slope: u64, intercept: u64, width: usize, start: usize }

// A block's offsets, by whole groups.
#[inline(never)]
fn offsets<const W: usize>(data: &[u8], out: &mut [u64; LINE_BLOCK], count: usize) {
    get_range::<W>(data, 0, 1, 0, &mut out[..count.next_multiple_of(GROUP)]);
}

macro_rules! by_width {
    ($width:expr, $f:ident $args:tt, $($w:literal)*) => {
        match $width { $($w => $f::<$w> $args,)* _ => panic!("no width") }
    };
}

// Opens a list under BlockwiseLinear with room behind it: its blocks, and its least and greatest value. A block is decoded
// at once, and divisors are sought until they come to 1.
#[inline(never)]
fn open_blockwise(bytes: &[u8]) -> Option<(Vec<Line>, u64, u64)> {
    let mut rest = &bytes[..bytes.len() - ROOM];
    let [min, gcd, steps, count] = [(); 4].map(|_| take_vint(&mut rest));
    let count = count as usize;
    let from_data_on = &bytes[bytes.len() - ROOM - rest.len()..];
    let (parts, len) = rest.split_last_chunk()?;
    let (data, mut lines) = parts.split_at_checked(parts.len().checked_sub(u64::from_le_bytes(*len) as usize)?)?;
    let mut blocks = Vec::with_capacity(count.div_ceil(LINE_BLOCK));
    let mut start = 0;
    for from in (0..count).step_by(LINE_BLOCK) {
        let [slope, intercept] = [(); 2].map(|_| take_vint(&mut lines));
        let width = lines[0] as usize;
        lines = &lines[1..];
        blocks.push(Line { slope, intercept, width, start });
        start += (width * LINE_BLOCK.min(count - from)).div_ceil(8);
    }
    if start != data.len() { return None; }
    let (mut least, mut greatest, mut divisor, mut first) = (u64::MAX, 0, 0, None);
    let mut block = [0; LINE_BLOCK];
    for (line, from) in blocks.iter().zip((0..count).step_by(LINE_BLOCK)) {
        let len = LINE_BLOCK.min(count - from);
        by_width!(line.width, offsets(&from_data_on[line.start..], &mut block, len),
            0 1 2 3 4 5 6 7 8 9 10 11 12 13 14 15 16 17 18 19 20 21 22 23 24 25 26 27 28
            29 30 31 32 33 34 35 36 37 38 39 40 41 42 43 44 45 46 47 48 49 50 51 52 53 54 55 56 64);
        for (at, step) in block[..len].iter_mut().enumerate() {
            let rise = ((at as u64).wrapping_mul(line.slope) >> 32) as i32;
            *step = step.wrapping_add(line.intercept).wrapping_add(rise as i64 as u64);
            least = least.min(*step);
            greatest = greatest.max(*step);
        }
        let first = *first.get_or_insert(block[0]);
        for step in &block[..len] {
            if divisor == 1 { break; }
            divisor = common(step.abs_diff(first), divisor);
        }
    }
    let is_right = (least, greatest) == (0, steps) && (divisor == 1 || steps == 0);
    is_right.then_some((blocks, min, min + gcd * greatest))
}

fn common(mut a: u64, mut b: u64) -> u64 {
    while b != 0 { (a, b) = (b, a % b); }
    a
}

// A bit for each row, set where it has a value, and how many are set before each word.
struct Words { bits: Vec<u64>, before: Vec<u32> }

impl Words {
    fn of(num_rows: usize, rows: &[u32]) -> Words {
        let mut bits = vec![0u64; num_rows / 64 + 1];
        for &row in rows { bits[row as usize / 64] |= 1 << (row % 64) }
        let mut sum = 0;
        let before = bits.iter().map(|word| {
            sum += word.count_ones();
            sum - word.count_ones()
        });
        Words { before: before.collect(), bits }
    }

    #[inline(always)]
    fn rank_if_exists(&self, row: u32) -> Option<u32> {
        let at = row as usize / 64;
        let (word, before) = unsafe { (*self.bits.get_unchecked(at), *self.before.get_unchecked(at)) };
        let bit = 1 << (row % 64);
        (word & bit != 0).then(|| before + (word & (bit - 1)).count_ones())
    }
}

// Packed rows, and how many stand before each part of 2 ^ shift rows: a rank looks through one part.
struct Buckets { data: Vec<u8>, width: usize, mask: u64, shift: u32, before: Vec<u32> }

impl Buckets {
    fn of(num_rows: usize, rows: &[u32]) -> Buckets {
        let width = 64 - (num_rows as u64).leading_zeros() as usize;
        let shift = (2 * num_rows / rows.len().max(1)).max(1).ilog2();
        let mut before = vec![0; (num_rows >> shift) + 2];
        for row in rows { before[(row >> shift) as usize + 1] += 1 }
        for at in 1..before.len() { before[at] += before[at - 1] }
        let data = pack(width, rows.iter().map(|row| u64::from(*row)));
        Buckets { data, width, mask: (1 << width) - 1, shift, before }
    }
}

trait Ranks {
    fn rank_if_exists(&self, row: u32) -> Option<u32>;
}

impl Ranks for Words {
    #[inline(always)]
    fn rank_if_exists(&self, row: u32) -> Option<u32> { Words::rank_if_exists(self, row) }
}

impl Ranks for Buckets {
    #[inline(always)]
    fn rank_if_exists(&self, row: u32) -> Option<u32> {
        let part = (row >> self.shift) as usize;
        let (first, end) = unsafe { (*self.before.get_unchecked(part), *self.before.get_unchecked(part + 1)) };
        let (mut rank, mut found) = (first, false);
        for at in first..end {
            let other = unsafe { item(&self.data, self.width, self.mask, at as usize) as u32 };
            rank += u32::from(other < row);
            found |= other == row;
        }
        found.then_some(rank)
    }
}

// The rows with a value, and where the values of each start.
struct Starts<R> { ranks: R, data: Vec<u8>, width: usize, mask: u64 }

impl<R: Ranks> Starts<R> {
    #[inline(always)]
    fn start(&self, rank: u32) -> u32 {
        unsafe { item(&self.data, self.width, self.mask, rank as usize) as u32 }
    }

    #[inline(always)]
    fn range(&self, row: u32) -> Range<u32> {
        match self.ranks.rank_if_exists(row) {
            Some(rank) => self.start(rank)..self.start(rank + 1),
            None => 0..0,
        }
    }
}

#[inline(never)]
fn sum_of_ranks(ranks: &impl Ranks, rows: impl Iterator<Item = u32>) -> u64 {
    rows.map(|row| ranks.rank_if_exists(row).map_or(0, |rank| u64::from(rank) + 1)).sum()
}

#[inline(never)]
fn sum_of_values(starts: &Starts<impl Ranks>, num_rows: u32) -> u64 {
    (0..num_rows).map(|row| {
        let positions = starts.range(row);
        u64::from(positions.end - positions.start)
    }).sum()
}

fn say(name: String, items: usize, (nanos, sum): (u128, u64)) {
    println!("{name} {nanos} {items} {sum}");
}

fn measure_list<const W: usize>(count: usize, bound: u64, places: &[u32]) {
    let num_draws = if W > 31 { 2 } else { 1 };
    let draws: Vec<u64> = draws(num_draws * count, W as u64).collect();
    let number = |part: &[u64]| part.iter().fold(0, |all, draw| all << 31 | draw) % bound;
    let mut vals: Vec<u64> = draws.chunks(num_draws).map(number).collect();
    vals[0] = 0;
    let list = Packed::of::<W>(&vals);
    let ends = |(nanos, (least, greatest)): (u128, (u64, u64))| (nanos, least.wrapping_add(greatest));
    say(format!("open_{W}"), count, ends(best(|| black_box(&list).open::<W>())));
    let mut bytes = Vec::new();
    Blockwise::write(&vals, &mut bytes);
    bytes.resize(bytes.len() + ROOM, 0);
    let blockwise = best(|| {
        let (_blocks, least, greatest) = open_blockwise(black_box(&bytes)).unwrap();
        (least, greatest)
    });
    say(format!("open_blockwise_{W}"), count, ends(blockwise));
    say(format!("get_range_{W}"), count, best(|| black_box(&list).sum_of_ranges::<W>()));
    let vals = best(|| black_box(&list).sum_of_vals::<W>(black_box(places)));
    say(format!("get_vals_{W}"), places.len(), vals);
    let mut hits = Vec::new();
    for (percent, part) in [(1, 100), (10, 10), (50, 2)] {
        let (low, high) = (bound / 4, bound / 4 + bound / part - 1);
        let nanos = best(|| black_box(&list).lookup::<W>(low, high, &mut hits)).0;
        let sum = hits.iter().fold(0u64, |sum, id| sum.wrapping_mul(31).wrapping_add(u64::from(*id)));
        say(format!("lookup_{W}_{percent}"), count, (nanos, sum));
    }
}

fn measure_index<R: Ranks>(count: usize, percent: u64, places: &[u32], ranks_of: fn(usize, &[u32]) -> R) {
    let draws: Vec<u64> = draws(count, percent).collect();
    let (mut rows, mut starts) = (Vec::new(), vec![0]);
    for (row, draw) in draws.iter().enumerate() {
        if draw % 100 < percent {
            rows.push(row as u32);
            starts.push(starts[starts.len() - 1] + 1 + draw % 3);
        }
    }
    let ranks = ranks_of(count, &rows);
    let random = best(|| sum_of_ranks(black_box(&ranks), black_box(places).iter().copied()));
    say(format!("rank_random_{percent}"), places.len(), random);
    let in_order = best(|| sum_of_ranks(black_box(&ranks), 0..black_box(count) as u32));
    say(format!("rank_in_order_{percent}"), count, in_order);
    let width = 64 - starts[starts.len() - 1].leading_zeros() as usize;
    let starts = Starts { ranks, data: pack(width, starts.iter().copied()), width, mask: (1 << width) - 1 };
    let values = best(|| sum_of_values(black_box(&starts), black_box(count) as u32));
    say(format!("values_in_order_{percent}"), count, values);
}

fn main() {
    for word in std::env::args().skip(1) {
        let count: usize = word.parse().unwrap();
        let places: Vec<u32> = draws(count, 99).map(|draw| (draw % count as u64) as u32).collect();
        measure_list::<10>(count, 1000, &places);
        measure_list::<20>(count, 1_000_000, &places);
        measure_list::<33>(count, 8_000_000_000, &places);
        for percent in [80, 20, 2] { measure_index(count, percent, &places, Words::of) }
        measure_index(count, 1, &places, Buckets::of);
    }
}
