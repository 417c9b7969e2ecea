// Lists of addresses by codes: the ranges that hold all, the bytes, and back.
#![allow(dead_code)] // each measure takes a part of it

use crate::shared::Packed;

const COST: u64 = 36;
const BLOCK_LEN: usize = 1024;

pub fn bits(n: u128) -> u64 { u64::from(128 - n.leading_zeros()) }

// Start, end and the code of the start.
pub type Range = (u128, u128, u32);

pub fn train(vals: &[u128]) -> Vec<Range> {
    let mut sorted = vals.to_vec();
    sorted.sort_unstable();
    sorted.dedup();
    let (first, last) = (sorted[0], sorted[sorted.len() - 1]);
    let mut large = 0;
    let mut sizes = Vec::new();
    for pair in sorted.windows(2) {
        let size = pair[1] - pair[0] - 1;
        if size < 3 { continue; }
        match u32::try_from(size) { Ok(small) => sizes.push(small), Err(_) => large += size }
    }
    sizes.sort_unstable();
    let (mut codes, mut kept) = (last - first - large, sizes.len());
    let mut batch = codes;
    for (at, size) in sizes.iter().enumerate().rev() {
        batch -= u128::from(*size);
        let saved = vals.len() as u64 * (bits(codes + 1) - bits(batch + 1));
        if codes >= u128::from(u32::MAX) || COST * ((kept - at) as u64) < saved {
            codes = batch;
            kept = at;
        }
    }
    let above = sizes.get(kept).map_or(u128::from(u32::MAX), |size| u128::from(*size));
    let mut ties = sizes.partition_point(|size| u128::from(*size) <= above).saturating_sub(kept);
    let mut ranges = Vec::new();
    let (mut start, mut end, mut code) = (first, first, 1);
    for &val in &sorted[1..] {
        let size = val - end - 1;
        let tie = size == above && ties > 0;
        if size > above || tie {
            ties -= usize::from(tie);
            ranges.push((start, end, code));
            code += (end - start) as u32 + 1;
            start = val;
        }
        end = val;
    }
    ranges.push((start, end, code));
    ranges
}

fn put_vint(mut value: u128, out: &mut Vec<u8>) {
    while value >= 128 {
        out.push(value as u8 & 127);
        value >>= 7;
    }
    out.push(value as u8 | 128);
}

pub fn write(vals: &[u128], out: &mut Vec<u8>) {
    let ranges = train(vals);
    let last = ranges[ranges.len() - 1];
    let width = bits(u128::from(last.2) + (last.1 - last.0));
    put_vint(vals.len() as u128, out);
    out.push(1);
    let (mut held, mut filled) = (0u64, 0);
    for &val in vals {
        let (start, _, code) = ranges[ranges.partition_point(|range| range.0 <= val) - 1];
        let code = u64::from(code) + (val - start) as u64;
        held |= code << filled;
        filled += width;
        if filled >= 64 {
            out.extend_from_slice(&held.to_le_bytes());
            filled -= 64;
            held = if filled == 0 { 0 } else { code >> (width - filled) };
        }
    }
    out.extend_from_slice(&held.to_le_bytes()[..filled.div_ceil(8) as usize]);
    let footer = out.len();
    out.extend_from_slice(&[0; 8]);
    for part in [ranges[0].0, last.1, vals.len() as u128] { put_vint(part, out); }
    out.push(width as u8);
    put_vint(ranges.len() as u128, out);
    let mut before = 0;
    for (start, end, _) in ranges {
        put_vint(start - before, out);
        put_vint(end - start, out);
        before = end;
    }
    let footer_len = (out.len() - footer) as u64;
    out.extend_from_slice(&footer_len.to_le_bytes());
}

fn take_vint(data: &mut &[u8]) -> u128 {
    let (mut value, mut shift) = (0, 0);
    loop {
        let byte = data[0];
        *data = &data[1..];
        value |= u128::from(byte & 127) << shift;
        if byte >= 128 { return value; }
        shift += 7;
    }
}

// A list of codes, read in place, with its ranges.
pub struct Codes { pub packed: Packed, pub ranges: Vec<Range>, pub count: usize }

impl Codes {
    pub fn open(mut bytes: &'static [u8]) -> Codes {
        let count = take_vint(&mut bytes) as usize;
        let (parts, len) = bytes[1..].split_last_chunk().unwrap();
        let (codes, footer) = parts.split_at(parts.len() - u64::from_le_bytes(*len) as usize);
        let mut footer = &footer[8..];
        let _bounds_and_count = [(); 3].map(|_| take_vint(&mut footer));
        let width = footer[0] as usize;
        footer = &footer[1..];
        let (mut end, mut code) = (0, 1);
        let num_ranges = take_vint(&mut footer);
        let ranges = (0..num_ranges).map(|_| {
            let start = end + take_vint(&mut footer);
            end = start + take_vint(&mut footer);
            let range = (start, end, code);
            code += (end - start) as u32 + 1;
            range
        });
        let ranges = ranges.collect();
        Codes { packed: Packed::new(codes, width), ranges, count }
    }

    // Whether all codes are of numbers in the ranges, and the first and the last of these are there.
    pub fn are_whole(&self) -> bool {
        let last = self.ranges[self.ranges.len() - 1];
        let (mut least, mut greatest) = (u64::MAX, 0);
        self.packed.each(0..self.count, |_, code| {
            least = least.min(code);
            greatest = greatest.max(code);
        });
        least == 1 && greatest == u64::from(last.2) + (last.1 - last.0) as u64
    }

    #[inline(always)]
    fn number(&self, code: u64) -> u128 {
        let range = self.ranges[self.ranges.partition_point(|range| u64::from(range.2) <= code) - 1];
        range.0 + u128::from(code - u64::from(range.2))
    }

    #[inline(always)]
    pub fn get(&self, at: usize) -> u128 { self.number(self.packed.get(at)) }

    pub fn count(&self) -> usize { self.count }

    // The positions of the numbers from one to another, both of which are in ranges, in place of what was there.
    pub fn lookup(&self, low: u128, high: u128, hits: &mut Vec<u32>) {
        let code = |val| {
            let (start, _, code) = self.ranges[self.ranges.partition_point(|range| range.0 <= val) - 1];
            u64::from(code) + (val - start) as u64
        };
        let (low, high) = (code(low), code(high));
        hits.clear();
        let mut block = [0; BLOCK_LEN];
        for start in (0..self.count).step_by(BLOCK_LEN) {
            let mut found = 0;
            self.packed.each(start..self.count.min(start + BLOCK_LEN), |row, code| {
                unsafe { *block.get_unchecked_mut(found) = row as u32 }
                found += usize::from(low <= code && code <= high);
            });
            hits.extend_from_slice(&block[..found]);
        }
    }
}

pub fn read(bytes: &'static [u8]) -> Vec<u128> {
    let codes = Codes::open(bytes);
    let mut vals = Vec::with_capacity(codes.count);
    codes.packed.each(0..codes.count, |_, code| vals.push(codes.number(code)));
    vals
}
