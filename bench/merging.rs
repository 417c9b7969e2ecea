// Merges of files in Rust, which write the same bytes: columns are decoded, put in order, and written.
#![allow(dead_code)] // each measure takes a part of it

use crate::compact;
use crate::files::{File, IP_ADDR, STR, put_addresses, put_numbers, put_texts};
use crate::numbers::Numbers;
use crate::shared::take_vint;
use std::cmp::Reverse;
use std::collections::BinaryHeap;
use std::ops::Range;

pub const NUM_FILES: usize = 8;

// The columns of a file, each under its key.
pub struct Reader { pub num_docs: u32, columns: Vec<(&'static [u8], &'static [u8])> }

impl Reader {
    pub fn open(bytes: &'static [u8]) -> Reader {
        let (parts, footer) = bytes.split_last_chunk::<20>().unwrap();
        let keys_len = u64::from_le_bytes(footer[..8].try_into().unwrap()) as usize;
        let num_docs = u32::from_le_bytes(footer[8..12].try_into().unwrap());
        let (mut left, mut keys) = parts.split_at(parts.len() - keys_len);
        let mut columns = Vec::new();
        for _ in 0..take_vint(&mut keys) {
            let key_len = take_vint(&mut keys) as usize;
            let key = take(key_len, &mut keys);
            let column_len = take_vint(&mut keys) as usize;
            columns.push((key, take(column_len, &mut left)));
        }
        Reader { num_docs, columns }
    }

    pub fn column(&self, key: &[u8]) -> Option<&'static [u8]> {
        Some(self.columns.iter().find(|column| column.0 == key)?.1)
    }
}

fn take(len: usize, bytes: &mut &'static [u8]) -> &'static [u8] {
    let (taken, rest) = bytes.split_at(len);
    *bytes = rest;
    taken
}

// Where the values of each row start, and the last end, unless each row has one; and the values.
pub struct Part<T> { starts: Option<Vec<u32>>, pub vals: Vec<T> }

pub fn list(bytes: &'static [u8]) -> Vec<u64> { Numbers::open(bytes).unwrap().to_vec() }

// The rows with a value, under either form.
fn rows(bytes: &'static [u8]) -> Vec<u64> {
    let (form, mut set) = bytes.split_first().unwrap();
    take_vint(&mut set);
    if *form == 0 { return list(set); }
    let (lists, len) = set.split_last_chunk().unwrap();
    let (starts, lengths) = lists.split_at(u64::from_le_bytes(*len) as usize);
    list(starts).into_iter().zip(list(lengths)).flat_map(|(start, len)| start..start + len).collect()
}

fn starts(bytes: &'static [u8], num_docs: u32) -> Option<Vec<u32>> {
    let (code, rest) = bytes.split_first().unwrap();
    let (rows, offsets) = match code {
        0 => return None,
        1 => (rows(rest), None),
        _ => {
            let (parts, len) = rest.split_last_chunk().unwrap();
            let (set, offsets) = parts.split_at(u64::from_le_bytes(*len) as usize);
            (rows(set), Some(list(offsets)))
        }
    };
    let mut starts = Vec::with_capacity(num_docs as usize + 1);
    for (at, row) in rows.iter().enumerate() {
        let start = offsets.as_ref().map_or(at as u32, |offsets| offsets[at] as u32);
        starts.resize(*row as usize + 1, start);
    }
    let end = offsets.map_or(rows.len() as u32, |offsets| offsets[rows.len()] as u32);
    starts.resize(num_docs as usize + 1, end);
    Some(starts)
}

impl<T: Copy> Part<T> {
    // Of a file that lacks the column no row has a value.
    pub fn open(bytes: Option<&'static [u8]>, num_docs: u32, vals: impl Fn(&'static [u8]) -> Vec<T>) -> Part<T> {
        let Some(bytes) = bytes else {
            return Part { starts: Some(vec![0; num_docs as usize + 1]), vals: vec![] };
        };
        let (parts, len) = bytes.split_last_chunk().unwrap();
        let (index, rest) = parts.split_at(u64::from_le_bytes(*len) as usize);
        Part { starts: starts(index, num_docs), vals: vals(rest) }
    }

    #[inline(always)]
    pub fn places(&self, row: u32) -> Range<usize> {
        match &self.starts {
            None => row as usize..row as usize + 1,
            Some(starts) => starts[row as usize] as usize..starts[row as usize + 1] as usize,
        }
    }
}

// Terms ascending, and ordinals.
pub fn open_texts(bytes: Option<&'static [u8]>, num_docs: u32) -> (Vec<&'static [u8]>, Part<u64>) {
    let Some(bytes) = bytes else { return (vec![], Part::open(None, num_docs, list)) };
    let (parts, len) = bytes.split_last_chunk().unwrap();
    let (dictionary, ords) = parts.split_at(u32::from_le_bytes(*len) as usize);
    let number = |at| u32::from_le_bytes(*dictionary[at..].first_chunk().unwrap()) as usize;
    let (count, mut start) = (number(0), 4 + 4 * number(0));
    let terms = (0..count).map(|ord| {
        let end = 4 + 4 * count + number(4 + 4 * ord);
        let term = &dictionary[start..end];
        start = end;
        term
    });
    (terms.collect(), Part::open(Some(ords), num_docs, list))
}

// The terms of all columns, and the place there of each column's terms.
fn merge_terms(columns: &[Vec<&'static [u8]>]) -> (Vec<&'static [u8]>, Vec<Vec<u64>>) {
    let mut places: Vec<Vec<u64>> = columns.iter().map(|terms| Vec::with_capacity(terms.len())).collect();
    let first = columns.iter().enumerate().filter_map(|(at, terms)| Some(Reverse((*terms.first()?, at))));
    let mut heap: BinaryHeap<_> = first.collect();
    let mut all: Vec<&[u8]> = Vec::new();
    while let Some(mut top) = heap.peek_mut() {
        let (term, at) = top.0;
        if all.last() != Some(&term) { all.push(term) }
        places[at].push(all.len() as u64 - 1);
        match columns[at].get(places[at].len()) {
            Some(next) => *top = Reverse((*next, at)),
            None => drop(std::collections::binary_heap::PeekMut::pop(top)),
        }
    }
    (all, places)
}

// All rows, file after file, or those that are named, by file and row.
pub enum Order { Stack, Shuffle(Vec<(u32, u32)>) }

impl Order {
    fn each(&self, readers: &[Reader], mut f: impl FnMut(usize, u32)) {
        match self {
            Order::Stack => for (at, reader) in readers.iter().enumerate() {
                for row in 0..reader.num_docs { f(at, row) }
            },
            Order::Shuffle(rows) => for (at, row) in rows { f(*at as usize, *row) },
        }
    }
}

// The values of the rows, each beside its new row.
fn join<T: Copy>(readers: &[Reader], parts: &[Part<T>], order: &Order) -> (Vec<u32>, Vec<T>) {
    let count = parts.iter().map(|part| part.vals.len()).sum();
    let (mut docs, mut vals) = (Vec::with_capacity(count), Vec::with_capacity(count));
    let mut doc = 0;
    order.each(readers, |at, row| {
        for val in &parts[at].vals[parts[at].places(row)] {
            docs.push(doc);
            vals.push(*val);
        }
        doc += 1;
    });
    (docs, vals)
}

// The first file has each column, and each row is named once.
#[inline(never)]
pub fn merge(files: &[&'static [u8]], order: &Order) -> Vec<u8> {
    let readers: Vec<Reader> = files.iter().map(|bytes| Reader::open(bytes)).collect();
    let num_docs = readers.iter().map(|reader| reader.num_docs).sum();
    let mut file = File::default();
    for (key, _) in &readers[0].columns {
        let (code, name) = (key[key.len() - 1], str::from_utf8(&key[..key.len() - 2]).unwrap());
        let columns = readers.iter().map(|reader| (reader.column(key), reader.num_docs));
        if code == STR {
            let opened = columns.map(|(bytes, num_docs)| open_texts(bytes, num_docs));
            let (terms, mut parts): (Vec<_>, Vec<_>) = opened.unzip();
            let (terms, places) = merge_terms(&terms);
            for (part, places) in parts.iter_mut().zip(places) {
                for ord in &mut part.vals { *ord = places[*ord as usize] }
            }
            let (docs, ords) = join(&readers, &parts, order);
            file.put(name, code, |out| put_texts(&terms, &docs, &ords, num_docs, out));
        } else if code == IP_ADDR {
            let parts = columns.map(|(bytes, num_docs)| Part::open(bytes, num_docs, compact::read));
            let (docs, vals) = join(&readers, &parts.collect::<Vec<_>>(), order);
            file.put(name, code, |out| put_addresses(&docs, &vals, num_docs, out));
        } else {
            let parts = columns.map(|(bytes, num_docs)| Part::open(bytes, num_docs, list));
            let (docs, vals) = join(&readers, &parts.collect::<Vec<_>>(), order);
            file.put(name, code, |out| put_numbers(&docs, &vals, num_docs, out));
        }
    }
    file.finish(num_docs)
}

// The files of a path, each with its number behind it.
pub fn read(path: &str) -> Vec<&'static [u8]> {
    (0..NUM_FILES).map(|at| &*std::fs::read(format!("{path}{at}")).unwrap().leak()).collect()
}
