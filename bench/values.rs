// The same lists in Rust.
mod shared;

use shared::{Bitpacked, Blockwise, Linear, List, Told, best, draws, load};
use std::hint::black_box;

const BLOCK_LEN: usize = 1024;

#[inline(never)]
fn sum_by_get_val<L: List>(list: &L, count: usize) -> u64 {
    let mut sum = 0u64;
    for row in 0..count {
        sum = sum.wrapping_add(list.get(row));
    }
    sum
}

#[inline(never)]
fn get_range<L: List>(list: &L, start: usize, out: &mut [u64; BLOCK_LEN]) {
    list.each(start..start + out.len(), |row, value| {
        unsafe { *out.get_unchecked_mut(row - start) = value }
    });
}

fn sum_by_get_range<L: List>(list: &L, count: usize) -> u64 {
    let mut block = [0; BLOCK_LEN];
    (0..count / BLOCK_LEN).fold(0, |sum, id| {
        get_range(list, id * BLOCK_LEN, &mut block);
        sum.wrapping_add(block[0])
    })
}

#[inline(never)]
fn lookup_by_if<L: List>(list: &L, low: u64, high: u64, count: usize, hits: &mut Vec<u32>) {
    hits.clear();
    hits.reserve(count);
    list.each(0..count, |row, value| {
        if low <= value && value <= high {
            hits.push(row as u32);
        }
    });
}

#[inline(never)]
fn lookup_by_slots<L: List>(list: &L, low: u64, high: u64, count: usize, hits: &mut Vec<u32>) {
    hits.clear();
    let mut block = [0; BLOCK_LEN];
    for start in (0..count).step_by(BLOCK_LEN) {
        let mut found = 0;
        list.each(start..count.min(start + BLOCK_LEN), |row, value| {
            unsafe { *block.get_unchecked_mut(found) = row as u32 }
            found += (low <= value && value <= high) as usize;
        });
        hits.extend_from_slice(&block[..found]);
    }
}

// The least and the greatest value of each block.
fn bounds<L: List>(list: &L, count: usize) -> Vec<(u64, u64)> {
    let of = |start| {
        let (mut least, mut greatest) = (u64::MAX, 0);
        list.each(start..count.min(start + BLOCK_LEN), |_, value| {
            least = least.min(value);
            greatest = greatest.max(value);
        });
        (least, greatest)
    };
    (0..count).step_by(BLOCK_LEN).map(of).collect()
}

// A lookup that skips each block outside the range, and takes each block inside whole.
#[inline(never)]
fn lookup_by_blocks<L: List>(list: &L, bounds: &[(u64, u64)], low: u64, high: u64, count: usize, hits: &mut Vec<u32>) {
    hits.clear();
    for (&(least, greatest), start) in bounds.iter().zip((0..count).step_by(BLOCK_LEN)) {
        let end = count.min(start + BLOCK_LEN);
        if greatest < low || high < least {
            continue;
        }
        if low <= least && greatest <= high {
            hits.extend(start as u32..end as u32);
            continue;
        }
        list.each(start..end, |row, value| {
            if low <= value && value <= high {
                hits.push(row as u32);
            }
        });
    }
}

// Measures lookups in values that rise.
fn measure_rising<L: List>(count: usize, mask: u64) {
    let vals: Vec<u64> = (0..count as u64).map(|row| row * mask / count as u64).collect();
    let mut bytes = vec![L::CODE];
    L::write(&vals, &mut bytes);
    let bytes: &'static [u8] = bytes.leak();
    let list = load::<L>(bytes).unwrap().0;
    let bounds = bounds(&list, count);
    let (low, high) = (mask / 4, mask / 4 + mask / 100);
    let mut hits = Vec::new();
    let (nanos, ()) = best(|| lookup_by_blocks(black_box(&list), black_box(&bounds), low, high, count, &mut hits));
    println!("{mask} {} rising_1 {nanos} {}", L::CODE, hits.len());
}

// Measures a codec's list, and prints a line for each measure: mask, code, name, nanoseconds and sum.
fn measure<L: List>(vals: &[u64], mask: u64) {
    let say = |name: &str, (nanos, sum): (u128, u64)| println!("{mask} {} {name} {nanos} {sum}", L::CODE);
    let mut bytes = Vec::with_capacity(vals.len());
    let (nanos, ()) = best(|| {
        bytes.clear();
        bytes.push(L::CODE);
        L::write(black_box(vals), &mut bytes);
    });
    let sum = |sum: u64, byte: &u8| sum.wrapping_mul(31).wrapping_add(u64::from(*byte));
    say("serialize", (nanos, bytes.iter().fold(0, sum)));
    let bytes: &'static [u8] = bytes.leak();
    say("load", best(|| load::<L>(black_box(bytes)).unwrap().1.max));
    let (list, Told { count, .. }) = load::<L>(bytes).unwrap();
    say("get_val", best(|| sum_by_get_val(black_box(&list), count)));
    say("iter", best(|| sum_by_get_val(black_box(&list), count)));
    say("get_range", best(|| sum_by_get_range(black_box(&list), count)));
    let mut hits = Vec::new();
    for percent in [1, 10, 50] {
        let low = mask / 4;
        let high = low + mask * percent / 100;
        let by_if = best(|| lookup_by_if(black_box(&list), low, high, count, &mut hits)).0;
        let by_slots = best(|| lookup_by_slots(black_box(&list), low, high, count, &mut hits)).0;
        say(&format!("lookup_{percent}"), (by_if.min(by_slots), hits.len() as u64));
    }
}

fn main() {
    for word in std::env::args().skip(1) {
        for mask in [0x3ff, 0xf_ffff, 0x7fff_ffff] {
            let count = word.parse().unwrap();
            let vals: Vec<u64> = draws(count, 1).map(|draw| draw & mask).collect();
            measure::<Bitpacked>(&vals, mask);
            measure::<Linear>(&vals, mask);
            measure::<Blockwise>(&vals, mask);
            measure_rising::<Bitpacked>(count, mask);
            measure_rising::<Linear>(count, mask);
            measure_rising::<Blockwise>(count, mask);
        }
    }
}
