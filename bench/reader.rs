// The keys of a file in Rust: read into a list, and found by halves.
mod compact;
mod files;
mod numbers;
mod shared;

use files::{File, U64, put_numbers};
use shared::{best, take_vint};
use std::hint::black_box;

const FOOTER_LEN: usize = 20;

struct Key { name: String, code: u8, start: u64, end: u64 }

// The keys of a file, if they rise, have a known code, and their columns fill what stands in front of them.
fn keys(bytes: &[u8]) -> Option<Vec<Key>> {
    let (front, footer) = bytes.split_at(bytes.len().checked_sub(FOOTER_LEN)?);
    if footer[12..] != [3, 0, 0, 0, 2, 0x71, 0x77, 0x42] { return None; }
    let keys_len = u64::from_le_bytes(footer[..8].try_into().ok()?) as usize;
    let (columns, mut table) = front.split_at(front.len().checked_sub(keys_len)?);
    let count = take_vint(&mut table) as usize;
    let mut keys: Vec<Key> = Vec::with_capacity(count.min(table.len()));
    let mut start = 0;
    for _ in 0..count {
        let len = take_vint(&mut table) as usize;
        let (key, behind) = table.split_at_checked(len)?;
        table = behind;
        let (&[zero, code], name) = key.split_last_chunk::<2>().map(|(name, end)| (end, name))?;
        if zero != 0 || code > 6 { return None; }
        let name = std::str::from_utf8(name).ok()?;
        if keys.last().is_some_and(|last| (last.name.as_str(), last.code) >= (name, code)) { return None; }
        let end = start + take_vint(&mut table);
        keys.push(Key { name: name.to_string(), code, start, end });
        start = end;
    }
    (table.is_empty() && start == columns.len() as u64).then_some(keys)
}

fn find(keys: &[Key], name: &str) -> Vec<(u8, u64, u64)> {
    let first = keys.partition_point(|key| key.name.as_str() < name);
    let named = keys[first..].iter().take_while(|key| key.name == name);
    named.map(|key| (key.code, key.start, key.end)).collect()
}

// Words: a path and how many columns, and `write` behind them where the file is to be written and nothing measured.
fn main() {
    let words: Vec<String> = std::env::args().skip(1).collect();
    let [path, count, rest @ ..] = &words[..] else { panic!("path and count") };
    let count: usize = count.parse().unwrap();
    let name = |place: usize| format!("column/{place:08}");
    if rest == ["write"] {
        let mut file = File::default();
        for place in 0..count {
            file.put(&name(place), U64, |out| put_numbers(&[0], &[place as u64], 1, out));
        }
        return std::fs::write(path, file.finish(1)).unwrap();
    }
    let bytes = std::fs::read(path).unwrap();
    let (nanos, _) = best(|| keys(black_box(&bytes)).unwrap().len() as u64);
    println!("open {nanos} {}", bytes.len());
    let keys = keys(&bytes).unwrap();
    let names: Vec<String> = shared::draws(count, 1).map(|draw| name(draw as usize % count)).collect();
    let (nanos, sum) = best(|| {
        let found = names.iter().flat_map(|name| find(black_box(&keys), name));
        found.fold(0u64, |sum, (_, start, _)| sum.wrapping_mul(31).wrapping_add(start))
    });
    println!("find {nanos} {sum}");
}
