// What the measures in Rust share: lists of numbers in their packed forms, and the best of several runs.
// Where a proof makes a test needless, `unsafe` leaves it out here too.
#![allow(dead_code)] // each measure takes a part of it

use std::ops::Range;
use std::time::Instant;

const RUNS: usize = 3;
pub const BLOCK: usize = 512;
const HALF_SPACE: u64 = u64::MAX / 2;

fn width(n: u64) -> usize {
    let digits = 64 - n.leading_zeros() as usize;
    if digits <= 56 { digits } else { 64 }
}

#[derive(Clone, Copy, Default)]
struct Line { slope: u64, intercept: u64 }

impl Line {
    #[inline(always)]
    fn eval(self, x: usize) -> u64 {
        let rise = ((x as u64).wrapping_mul(self.slope) >> 32) as i32;
        self.intercept.wrapping_add(rise as i64 as u64)
    }

    // How many bytes the line takes with its width.
    fn num_bytes(self) -> usize { vint_len(self.slope) + vint_len(self.intercept) + 1 }

    fn put(self, bits: usize, out: &mut Vec<u8>) {
        put_vint(self.slope, out);
        put_vint(self.intercept, out);
        out.push(bits as u8);
    }

    fn train(ys: &[u64]) -> Line {
        let steps = ys.len() as u64 - 1;
        if steps == 0 { return Line::default(); }
        let up = ys[ys.len() - 1].wrapping_sub(ys[0]);
        let down = up.wrapping_neg();
        let slope = if up < 1 << 31 { (up << 32) / steps }
            else if down < 1 << 31 { u64::MAX - (down << 32) / steps }
            else { 0 };
        let mark = ys[0].wrapping_sub(u32::MAX as u64);
        let bare = Line { slope, intercept: 0 };
        let heights = ys.iter().enumerate().map(|(x, y)| y.wrapping_sub(bare.eval(x)).wrapping_sub(mark));
        Line { slope, intercept: mark.wrapping_add(heights.min().unwrap()) }
    }
}

#[derive(Clone, Copy)]
pub struct Packed { data: &'static [u8], bits: usize, mask: u64 }

impl Packed {
    pub fn new(data: &'static [u8], bits: usize) -> Self {
        Packed { data, bits, mask: if bits == 64 { u64::MAX } else { (1 << bits) - 1 } }
    }

    #[inline(always)]
    pub fn get(&self, at: usize) -> u64 {
        let from = at * self.bits;
        if from / 8 + 8 > self.data.len() { return self.get_last(at); }
        unsafe { self.get_padded(at) }
    }

    #[inline(always)]
    unsafe fn get_padded(&self, at: usize) -> u64 {
        let from = at * self.bits;
        let word = unsafe { self.data.as_ptr().add(from / 8).cast::<u64>().read_unaligned() };
        u64::from_le(word) >> (from % 8) & self.mask
    }

    #[cold]
    #[inline(never)]
    fn get_last(&self, at: usize) -> u64 {
        let from = at * self.bits;
        let mut word = [0; 8];
        let rest = self.data.get(from / 8..).unwrap_or_default();
        word[..rest.len()].copy_from_slice(rest);
        u64::from_le_bytes(word) >> (from % 8) & self.mask
    }

    // Numbers whose eight bytes are there come first, without a test.
    #[inline(always)]
    pub fn each(self, places: Range<usize>, mut f: impl FnMut(usize, u64)) {
        let padded = match self.data.len().checked_sub(8) {
            None => places.start,
            Some(last) => (last * 8 / self.bits.max(1) + 1).clamp(places.start, places.end),
        };
        for at in places.start..padded { f(at, unsafe { self.get_padded(at) }) }
        for at in padded..places.end { f(at, self.get(at)) }
    }
}

pub fn take_vint(data: &mut &[u8]) -> u64 {
    let (mut value, mut shift) = (0, 0);
    loop {
        let byte = data[0];
        *data = &data[1..];
        value |= u64::from(byte & 127) << shift;
        if byte >= 128 { return value; }
        shift += 7;
    }
}

pub fn put_vint(mut value: u64, out: &mut Vec<u8>) {
    while value >= 128 {
        out.push(value as u8 & 127);
        value >>= 7;
    }
    out.push(value as u8 | 128);
}

fn vint_len(value: u64) -> usize { (64 - value.leading_zeros() as usize).div_ceil(7).max(1) }

fn pack(bits: usize, values: impl Iterator<Item = u64>, out: &mut Vec<u8>) {
    let (mut held, mut filled) = (0, 0);
    for value in values {
        held |= value << filled;
        filled += bits;
        if filled >= 64 {
            out.extend_from_slice(&held.to_le_bytes());
            filled -= 64;
            held = if filled == 0 { 0 } else { value >> (bits - filled) };
        }
    }
    out.extend_from_slice(&held.to_le_bytes()[..filled.div_ceil(8)]);
}

fn gcd(mut a: u64, mut b: u64) -> u64 {
    while b != 0 { (a, b) = (b, a % b); }
    a
}

// The statistics of a list.
pub struct Stats { min: u64, gcd: u64, steps: u64, count: usize }

impl Stats {
    pub fn of(vals: &[u64]) -> Stats {
        let first = vals.first().copied().unwrap_or_default();
        let (mut min, mut max, mut divisor) = (first, first, 0);
        for &val in vals {
            if divisor != 1 { divisor = gcd(val.abs_diff(first), divisor); }
            min = min.min(val);
            max = max.max(val);
        }
        let divisor = divisor.max(1);
        Stats { min, gcd: divisor, steps: (max - min) / divisor, count: vals.len() }
    }

    fn parts(&self) -> [u64; 4] { [self.min, self.gcd, self.steps, self.count as u64] }

    fn put(&self, out: &mut Vec<u8>) { for part in self.parts() { put_vint(part, out) } }

    fn num_bytes(&self) -> usize { self.parts().into_iter().map(vint_len).sum() }
}

// What statistics tell of a list.
pub struct Told { pub count: usize, pub min: u64, pub max: u64 }

pub trait List: Sized {
    const CODE: u8;
    // How many bytes the list takes, as the choice among codecs counts them.
    fn estimate(vals: &[u64], stats: &Stats) -> usize;
    // Adds what stands behind the statistics.
    fn put(vals: &[u64], stats: &Stats, out: &mut Vec<u8>);
    fn open(rest: &'static [u8], min: u64, gcd: u64, steps: u64, count: usize) -> Self;
    fn get(&self, row: usize) -> u64;
    fn each(&self, rows: Range<usize>, f: impl FnMut(usize, u64));

    fn write(vals: &[u64], out: &mut Vec<u8>) {
        let stats = Stats::of(vals);
        stats.put(out);
        Self::put(vals, &stats, out);
    }

    fn read(mut bytes: &'static [u8]) -> (Self, Told) {
        bytes = &bytes[1..];
        let [min, gcd, steps, count] = [(); 4].map(|_| take_vint(&mut bytes));
        let told = Told { count: count as usize, min, max: min + gcd * steps };
        (Self::open(bytes, min, gcd, steps, told.count), told)
    }
}

pub struct Bitpacked { packed: Packed, min: u64, gcd: u64 }

impl List for Bitpacked {
    const CODE: u8 = 0;

    fn estimate(vals: &[u64], stats: &Stats) -> usize {
        stats.num_bytes() + (vals.len() * width(stats.steps)).div_ceil(8)
    }

    fn put(vals: &[u64], stats: &Stats, out: &mut Vec<u8>) {
        let &Stats { min, gcd, steps, .. } = stats;
        if gcd == 1 { pack(width(steps), vals.iter().map(|val| val - min), out) }
        else { pack(width(steps), vals.iter().map(|val| (val - min) / gcd), out) }
    }

    fn open(rest: &'static [u8], min: u64, gcd: u64, steps: u64, _: usize) -> Self {
        Bitpacked { packed: Packed::new(rest, width(steps)), min, gcd }
    }

    #[inline(always)]
    fn get(&self, row: usize) -> u64 { self.min + self.gcd * self.packed.get(row) }

    #[inline(always)]
    fn each(&self, rows: Range<usize>, mut f: impl FnMut(usize, u64)) {
        let (min, gcd) = (self.min, self.gcd);
        self.packed.each(rows, |row, step| f(row, min + gcd * step))
    }
}

pub struct Linear { packed: Packed, line: Line }

impl Linear {
    // The line below all values, and the width of what they lie above it.
    fn fit(vals: &[u64]) -> (Line, usize) {
        let mut line = Line::train(&vals[..BLOCK]);
        let (mut least, mut greatest) = (u64::MAX, 0);
        for (row, val) in vals.iter().enumerate() {
            let deviation = val.wrapping_add(HALF_SPACE).wrapping_sub(line.eval(row));
            least = least.min(deviation);
            greatest = greatest.max(deviation);
        }
        line.intercept = line.intercept.wrapping_add(least).wrapping_sub(HALF_SPACE);
        (line, width(greatest - least))
    }
}

impl List for Linear {
    const CODE: u8 = 1;

    fn estimate(vals: &[u64], stats: &Stats) -> usize {
        if vals.len() < BLOCK { return usize::MAX; }
        let (line, bits) = Linear::fit(vals);
        stats.num_bytes() + line.num_bytes() + (vals.len() * bits).div_ceil(8)
    }

    fn put(vals: &[u64], _: &Stats, out: &mut Vec<u8>) {
        let (line, bits) = Linear::fit(vals);
        line.put(bits, out);
        let offsets = vals.iter().enumerate().map(|(row, val)| val.wrapping_sub(line.eval(row)));
        pack(bits, offsets, out);
    }

    fn open(mut rest: &'static [u8], _: u64, _: u64, _: u64, _: usize) -> Self {
        let [slope, intercept] = [(); 2].map(|_| take_vint(&mut rest));
        Linear { packed: Packed::new(&rest[1..], rest[0] as usize), line: Line { slope, intercept } }
    }

    #[inline(always)]
    fn get(&self, row: usize) -> u64 { self.line.eval(row).wrapping_add(self.packed.get(row)) }

    #[inline(always)]
    fn each(&self, rows: Range<usize>, mut f: impl FnMut(usize, u64)) {
        let line = self.line;
        self.packed.each(rows, |row, offset| f(row, line.eval(row).wrapping_add(offset)))
    }
}

pub struct Blockwise { blocks: Vec<Linear>, min: u64, gcd: u64 }

impl List for Blockwise {
    const CODE: u8 = 2;

    fn estimate(vals: &[u64], stats: &Stats) -> usize {
        let blocks = vals.chunks(BLOCK).map(|block| {
            let line = Line::train(block);
            let offsets = block.iter().enumerate().map(|(at, val)| val.wrapping_sub(line.eval(at)));
            line.num_bytes() + (block.len() * width(offsets.max().unwrap())).div_ceil(8)
        });
        let spared = stats.gcd.ilog2() as usize * vals.len() / 8;
        (8 + stats.num_bytes() + blocks.sum::<usize>()).saturating_sub(spared)
    }

    fn put(vals: &[u64], stats: &Stats, out: &mut Vec<u8>) {
        let &Stats { min, gcd, .. } = stats;
        let mut lines = Vec::new();
        let mut block = [0; BLOCK];
        for part in vals.chunks(BLOCK) {
            let block = &mut block[..part.len()];
            for (step, val) in block.iter_mut().zip(part) {
                *step = if gcd == 1 { val - min } else { (val - min) / gcd };
            }
            let line = Line::train(block);
            let mut greatest = 0;
            for (at, step) in block.iter_mut().enumerate() {
                *step = step.wrapping_sub(line.eval(at));
                greatest = greatest.max(*step);
            }
            line.put(width(greatest), &mut lines);
            pack(width(greatest), block.iter().copied(), out);
        }
        out.extend_from_slice(&lines);
        out.extend_from_slice(&(lines.len() as u64).to_le_bytes());
    }

    fn open(rest: &'static [u8], min: u64, gcd: u64, _: u64, count: usize) -> Self {
        let (parts, len) = rest.split_at(rest.len() - 8);
        let len = u64::from_le_bytes(len.try_into().unwrap()) as usize;
        let (data, mut lines) = parts.split_at(parts.len() - len);
        let mut start = 0;
        let blocks = (0..count).step_by(BLOCK).map(|from| {
            let [slope, intercept] = [(); 2].map(|_| take_vint(&mut lines));
            let packed = Packed::new(&data[start..], lines[0] as usize);
            lines = &lines[1..];
            start += (packed.bits * BLOCK.min(count - from)).div_ceil(8);
            Linear { packed, line: Line { slope, intercept } }
        });
        Blockwise { blocks: blocks.collect(), min, gcd }
    }

    #[inline(always)]
    fn get(&self, row: usize) -> u64 {
        self.min.wrapping_add(self.gcd.wrapping_mul(self.blocks[row / BLOCK].get(row % BLOCK)))
    }

    #[inline(always)]
    fn each(&self, rows: Range<usize>, mut f: impl FnMut(usize, u64)) {
        let (min, gcd) = (self.min, self.gcd);
        let mut start = rows.start;
        while start < rows.end {
            let base = start / BLOCK * BLOCK;
            let end = rows.end.min(base + BLOCK);
            let see = |at, step| f(base + at, min.wrapping_add(gcd.wrapping_mul(step)));
            self.blocks[start / BLOCK].each(start - base..end - base, see);
            start = end;
        }
    }
}

// Writes a list as Bitpacked, or under another codec where that takes fewer bytes.
pub fn put_best<L: List>(vals: &[u64], out: &mut Vec<u8>) {
    let stats = Stats::of(vals);
    let is_other = L::estimate(vals, &stats) < Bitpacked::estimate(vals, &stats);
    out.push(if is_other { L::CODE } else { Bitpacked::CODE });
    stats.put(out);
    if is_other { L::put(vals, &stats, out) } else { Bitpacked::put(vals, &stats, out) }
}

// The list of the bytes, if its least and its greatest value are those that are told.
#[inline(never)]
pub fn load<L: List>(bytes: &'static [u8]) -> Option<(L, Told)> {
    let (list, told) = L::read(bytes);
    let (mut min, mut max) = (u64::MAX, 0);
    list.each(0..told.count, |_, value| {
        min = min.min(value);
        max = max.max(value);
    });
    (told.count == 0 || (min, max) == (told.min, told.max)).then_some((list, told))
}

pub fn best<T>(mut run: impl FnMut() -> T) -> (u128, T) {
    let runs: [_; RUNS] = std::array::from_fn(|_| {
        let start = Instant::now();
        let result = run();
        (start.elapsed().as_nanos(), result)
    });
    runs.into_iter().min_by_key(|run| run.0).unwrap()
}

// The first of the numbers that the scripts draw, from a state on.
pub fn draws(count: usize, mut state: u64) -> impl Iterator<Item = u64> {
    (0..count).map(move |_| {
        state = state.wrapping_mul(6364136223846793005).wrapping_add(1442695040888963407);
        state >> 33
    })
}
