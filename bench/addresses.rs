// The same lists of addresses in Rust.
mod compact;
mod shared;

use compact::{Codes, train, write};
use std::time::Instant;

const RUNS: usize = 3;
const PREFIX: u128 = 0x2001_0db8_0000_0000;

fn best<T>(mut f: impl FnMut() -> T) -> (u128, T) {
    let mut least = u128::MAX;
    let mut last = None;
    for _ in 0..RUNS {
        let start = Instant::now();
        let found = f();
        least = least.min(start.elapsed().as_nanos());
        last = Some(found);
    }
    (least, last.unwrap())
}

fn draws() -> impl Iterator<Item = u64> {
    let mut x = 1u64;
    std::iter::repeat_with(move || {
        x = x.wrapping_mul(6364136223846793005).wrapping_add(1442695040888963407);
        x
    })
}

fn measure(name: &str, vals: &[u128]) {
    let (nanos, ranges) = best(|| train(vals));
    std::hint::black_box(ranges);
    println!("{name} train {nanos} {}", vals.len());
    let (nanos, bytes) = best(|| {
        let mut bytes = Vec::new();
        write(vals, &mut bytes);
        bytes
    });
    let sum = |sum: u64, byte: &u8| sum.wrapping_mul(31).wrapping_add(u64::from(*byte));
    println!("{name} write {nanos} {}", bytes.iter().fold(0, sum));
    read(name, bytes.leak(), vals.to_vec());
}

fn read(name: &str, bytes: &'static [u8], mut sorted: Vec<u128>) {
    let (nanos, codes) = best(|| {
        let codes = Codes::open(bytes);
        assert!(codes.are_whole());
        codes
    });
    println!("{name} open {nanos} {}", bytes.len());
    let (nanos, sum) = best(|| (0..codes.count()).fold(0u128, |sum, at| sum.wrapping_add(codes.get(at))));
    println!("{name} get_val {nanos} {sum}");
    sorted.sort_unstable();
    let mut hits = Vec::new();
    for percent in [1, 10] {
        let first = sorted.len() / 4;
        let (low, high) = (sorted[first], sorted[first + sorted.len() * percent / 100]);
        let (nanos, ()) = best(|| codes.lookup(low, high, &mut hits));
        let sum = |sum: u64, row: &u32| sum.wrapping_mul(31).wrapping_add(u64::from(*row));
        println!("{name} lookup_{percent} {nanos} {}", hits.iter().fold(0, sum));
    }
}

fn main() {
    for word in std::env::args().skip(1) {
        let count = word.parse().unwrap();
        let clustered: Vec<u128> = draws()
            .map(|x| PREFIX << 64 | u128::from(x >> 60 << 32 | x >> 40 & 0xffff))
            .take(count)
            .collect();
        measure("clustered", &clustered);
        let mut draws = draws();
        let mut wide = Vec::with_capacity(count);
        for _ in 0..count {
            let (upper, lower) = (draws.next().unwrap(), draws.next().unwrap());
            wide.push(u128::from(upper) << 64 | u128::from(lower));
        }
        measure("wide", &wide);
    }
}
