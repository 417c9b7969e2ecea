// Questions to a file in Rust: columns are read alone, checked as they are opened, and looked up as bits over the
// packed values. Each row has one value.
use crate::compact::Codes;
use crate::files::{I64, IP_ADDR, SIGN_BIT, STR};
use crate::shared::{Bitpacked, Blockwise, List, load, take_vint};
use std::fs::File;
use std::io::Result;
use std::net::Ipv4Addr;
use std::os::unix::fs::FileExt;

const FOOTER: u64 = 20;

fn read(file: &File, at: u64, len: u64) -> Result<&'static [u8]> {
    let mut bytes = vec![0; len as usize];
    file.read_exact_at(&mut bytes, at)?;
    Ok(bytes.leak())
}

// The bytes of a column, behind the byte of its index of all rows, and without that one's length.
fn column(file: &File, name: &str, code: u8) -> Result<&'static [u8]> {
    let end = file.metadata()?.len() - FOOTER;
    let keys_len = u64::from_le_bytes(*read(file, end, FOOTER)?.first_chunk().unwrap());
    let mut keys = read(file, end - keys_len, keys_len)?;
    let mut at = 0;
    for _ in 0..take_vint(&mut keys) {
        let key_len = take_vint(&mut keys) as usize;
        let (key, rest) = keys.split_at(key_len);
        keys = rest;
        let len = take_vint(&mut keys);
        if key[..key_len - 2] == *name.as_bytes() && key[key_len - 1] == code { return read(file, at, len); }
        at += len;
    }
    panic!("there is no column {name}")
}

fn values(column: &'static [u8]) -> &'static [u8] {
    assert!(column[0] == 0, "some rows have no value, or several");
    &column[1..column.len() - 8]
}

fn number(bytes: &[u8], at: usize) -> usize { u32::from_le_bytes(bytes[at..at + 4].try_into().unwrap()) as usize }

// The terms of a dictionary, in order, and the rest of the column.
fn terms(column: &'static [u8]) -> (Vec<&'static [u8]>, &'static [u8]) {
    let (rest, len) = column.split_at(column.len() - 4);
    let (dictionary, rest) = rest.split_at(number(len, 0));
    let count = number(dictionary, 0);
    let (ends, text) = dictionary[4..].split_at(4 * count);
    let mut start = 0;
    let term = |at| {
        let end = number(ends, 4 * at);
        &text[std::mem::replace(&mut start, end)..end]
    };
    let terms: Vec<_> = (0..count).map(term).collect();
    assert!(terms.is_sorted_by(|term, next| term < next), "the terms don't rise");
    (terms, rest)
}

fn marks_in<L: List>(bytes: &'static [u8], low: u64, high: u64) -> Vec<u64> {
    let (list, told) = load::<L>(bytes).expect("a list of numbers");
    let mut marks = vec![0; told.count.div_ceil(64)];
    list.each(0..told.count, |row, val| marks[row / 64] |= u64::from(low <= val && val <= high) << (row % 64));
    marks
}

// A bit for each row, which tells whether its value lies there.
fn marks(bytes: &'static [u8], low: u64, high: u64) -> Vec<u64> {
    match bytes[0] {
        0 => marks_in::<Bitpacked>(bytes, low, high),
        _ => marks_in::<Blockwise>(bytes, low, high),
    }
}

// How many rows have level = error and size 1000..2000.
pub fn count_of_two(file: &File) -> Result<u32> {
    let (terms, ords) = terms(column(file, "level", STR)?);
    let Ok(ord) = terms.binary_search(&&b"error"[..]) else { return Ok(0) };
    let levels = marks(values(ords), ord as u64, ord as u64);
    let sizes = marks(values(column(file, "size", I64)?), SIGN_BIT + 1000, SIGN_BIT + 2000);
    Ok(levels.iter().zip(sizes).map(|(levels, sizes)| (levels & sizes).count_ones()).sum())
}

// How many rows have from = 10.0.0.0/16.
pub fn count_of_net(file: &File) -> Result<u32> {
    let codes = Codes::open(values(column(file, "from", IP_ADDR)?));
    assert!(codes.are_whole(), "the codes aren't those of the ranges");
    let number = |parts: [u8; 4]| u128::from(Ipv4Addr::from(parts).to_ipv6_mapped());
    let [low, high] = [[10, 0, 0, 0], [10, 0, 255, 255]].map(number);
    let first = codes.ranges.partition_point(|range| range.1 < low);
    let behind = codes.ranges.partition_point(|range| range.0 <= high);
    if first >= behind { return Ok(0); }
    let code = |range: (u128, u128, u32), val: u128| u64::from(range.2) + (val - range.0) as u64;
    let (from, to) = (codes.ranges[first], codes.ranges[behind - 1]);
    let (low, high) = (code(from, low.max(from.0)), code(to, high.min(to.1)));
    let mut count = 0;
    codes.packed.each(0..codes.count, |_, code| count += u32::from(low <= code && code <= high));
    Ok(count)
}
