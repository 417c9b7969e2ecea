// The same queries in Rust, over sets of documents as bits. Where a proof makes a test needless, `unsafe` leaves it out here too.
mod shared;

use shared::{Bitpacked, List, best, draws};
use std::hint::black_box;

const MASK: u64 = 0xf_ffff;

// A packed list, behind the byte of its codec.
fn packed(values: &[u64]) -> Bitpacked {
    let mut bytes = vec![Bitpacked::CODE];
    Bitpacked::write(values, &mut bytes);
    bytes.extend_from_slice(&[0; 8]);
    Bitpacked::read(bytes.leak()).0
}

struct Table { columns: [Bitpacked; 3], count: usize }

type Set = Vec<u64>;

impl Table {
    // The documents with a value in a share of all numbers, from a quarter of them on.
    #[inline(never)]
    fn range(&self, column: usize, per_thousand: u64) -> Set {
        let low = MASK / 4;
        let high = low + MASK * per_thousand / 1000;
        let mut words = vec![0u64; self.count.div_ceil(64)];
        self.columns[column].each(0..self.count, |doc, value| {
            let bit = u64::from(low <= value && value <= high);
            unsafe { *words.get_unchecked_mut(doc / 64) |= bit << (doc % 64) }
        });
        words
    }

    fn list(&self, set: &Set) -> Vec<u32> {
        let mut docs = Vec::new();
        for (at, word) in set.iter().enumerate() {
            let mut left = *word;
            while left != 0 {
                docs.push(at as u32 * 64 + left.trailing_zeros());
                left &= left - 1;
            }
        }
        docs
    }

    fn not(&self, mut set: Set) -> Set {
        for word in &mut set { *word = !*word }
        let rest = self.count % 64;
        if rest > 0 { *set.last_mut().unwrap() &= (1 << rest) - 1 }
        set
    }
}

fn and(mut left: Set, right: Set) -> Set {
    for (word, other) in left.iter_mut().zip(right) { *word &= other }
    left
}

fn or(mut left: Set, right: Set) -> Set {
    for (word, other) in left.iter_mut().zip(right) { *word |= other }
    left
}

fn main() {
    for word in std::env::args().skip(1) {
        let count: usize = word.parse().unwrap();
        let xs: Vec<u64> = draws(3 * count, 1).collect();
        let column = |at: usize| packed(&(0..count).map(|doc| xs[3 * doc + at] & MASK).collect::<Vec<u64>>());
        let table = Table { columns: [column(0), column(1), column(2)], count };
        let say = |name: &str, (nanos, docs): (u128, Vec<u32>)| {
            let sum = docs.iter().fold(0u64, |sum, doc| sum.wrapping_mul(31).wrapping_add(u64::from(*doc)));
            println!("{name} {nanos} {sum}");
        };
        let t = || black_box(&table);
        say("range", best(|| t().list(&t().range(0, 500))));
        say("and", best(|| t().list(&and(and(t().range(0, 500), t().range(1, 200)), t().range(2, 10)))));
        say("or", best(|| t().list(&or(or(t().range(0, 500), t().range(1, 200)), t().range(2, 10)))));
        say("nots", best(|| {
            let each = and(and(t().not(t().range(0, 500)), t().not(t().range(1, 200))), t().not(t().range(2, 10)));
            t().list(&t().not(each))
        }));
        say("rare", best(|| t().list(&and(t().range(0, 1), t().range(1, 1)))));
        say("none", best(|| t().list(&t().not(vec![0u64; count.div_ceil(64)]))));
    }
}
