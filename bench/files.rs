// Files as their format has them, written of documents beside values, and the documents that are measured.
#![allow(dead_code)] // each measure takes a part of it

use crate::compact;
use crate::numbers::{put_list, run_bytes, set_bytes};
use crate::shared::{Blockwise, put_best, put_vint};

pub const NUM_TEXTS: usize = 20_000;
const PREFIX: u128 = 0x2001_0db8_0000_0000;
pub const I64: u8 = 0;
pub const U64: u8 = 1;
pub const STR: u8 = 4;
pub const BOOL: u8 = 5;
pub const IP_ADDR: u8 = 6;
pub const SIGN_BIT: u64 = 1 << 63;

// A document, whose text is the one at a place, if there is one.
#[derive(Clone, Copy)]
pub struct Doc { pub id: u64, pub text: usize, pub count: u64, pub sizes: [i64; 2], pub flag: bool, pub address: Option<u128> }

pub fn docs(count: usize) -> Vec<Doc> {
    let mut state = 1u64;
    let mut draw = || {
        state = state.wrapping_mul(6364136223846793005).wrapping_add(1442695040888963407);
        state
    };
    let doc = |doc: usize| {
        let id = 1_600_000_000_000 + 1000 * doc as u64 + (draw() >> 33) % 1000;
        let text = draw() >> 33;
        let text = if text % 4 == 0 { NUM_TEXTS } else { text as usize / 4 % NUM_TEXTS };
        let count = (draw() >> 33) % 3;
        let sizes = [(); 2].map(|_| (draw() >> 44) as i64 - 0x8_0000);
        let flag = draw() >> 63 == 1;
        let has_address = (draw() >> 33) % 5 == 0;
        let x = draw();
        let address = PREFIX << 64 | u128::from(x >> 60 << 32 | x >> 40 & 0xffff);
        Doc { id, text, count, sizes, flag, address: has_address.then_some(address) }
    };
    (0..count).map(doc).collect()
}

// A text of 16 letters.
pub fn text(place: u64) -> String {
    let code = (place + 1).wrapping_mul(0x9e37_79b9_7f4a_7c15);
    (0..16).map(|at| char::from(97 + (code >> (60 - 4 * at)) as u8 % 16)).collect()
}

pub fn texts() -> Vec<String> { (0..NUM_TEXTS as u64).map(text).collect() }

// Rows with a value in runs, where these hold more than 32 rows each on the average, else one by one.
fn formed_bytes(num_docs: usize, rows: &[u64]) -> Vec<u8> {
    let num_runs = rows.chunk_by(|row, next| row + 1 == *next).count();
    if 32 * num_runs >= rows.len() { return [vec![0], set_bytes(num_docs, rows)].concat(); }
    let runs = rows.chunk_by(|row, next| row + 1 == *next).map(|run| (run[0], run.len() as u64));
    let (starts, lengths): (Vec<u64>, Vec<u64>) = runs.unzip();
    [vec![1], run_bytes(num_docs, &starts, &lengths)].concat()
}

// The index of the documents of values, which never fall.
fn put_index(docs: &[u32], num_docs: u32, out: &mut Vec<u8>) {
    let rises = docs.windows(2).all(|pair| pair[0] < pair[1]);
    if rises && docs.len() == num_docs as usize { return out.push(0); }
    let (mut rows, mut starts) = (Vec::with_capacity(docs.len()), Vec::new());
    if rises {
        rows.extend(docs.iter().map(|doc| u64::from(*doc)));
        out.push(1);
        return out.extend_from_slice(&formed_bytes(num_docs as usize, &rows));
    }
    for (at, doc) in docs.iter().enumerate() {
        if at > 0 && docs[at - 1] == *doc { continue; }
        rows.push(u64::from(*doc));
        starts.push(at as u64);
    }
    starts.push(docs.len() as u64);
    let set = formed_bytes(num_docs as usize, &rows);
    out.push(2);
    out.extend_from_slice(&set);
    put_list(&starts, out);
    out.extend_from_slice(&(set.len() as u64).to_le_bytes());
}

fn put_column(docs: &[u32], num_docs: u32, put_values: impl FnOnce(&mut Vec<u8>), out: &mut Vec<u8>) {
    let start = out.len();
    put_index(docs, num_docs, out);
    let index_len = (out.len() - start) as u64;
    put_values(out);
    out.extend_from_slice(&index_len.to_le_bytes());
}

// Numbers as they are stored, each beside its document.
pub fn put_numbers(docs: &[u32], vals: &[u64], num_docs: u32, out: &mut Vec<u8>) {
    put_column(docs, num_docs, |out| put_best::<Blockwise>(vals, out), out);
}

pub fn put_addresses(docs: &[u32], vals: &[u128], num_docs: u32, out: &mut Vec<u8>) {
    put_column(docs, num_docs, |out| compact::write(vals, out), out);
}

// Ordinals of ascending terms.
pub fn put_texts(terms: &[&[u8]], docs: &[u32], ords: &[u64], num_docs: u32, out: &mut Vec<u8>) {
    let start = out.len();
    out.extend_from_slice(&(terms.len() as u32).to_le_bytes());
    let mut end = 0;
    for term in terms {
        end += term.len() as u32;
        out.extend_from_slice(&end.to_le_bytes());
    }
    for term in terms { out.extend_from_slice(term) }
    let dictionary_len = (out.len() - start) as u32;
    put_numbers(docs, ords, num_docs, out);
    out.extend_from_slice(&dictionary_len.to_le_bytes());
}

// A file on its way: its columns, and their keys with their lengths.
#[derive(Default)]
pub struct File { bytes: Vec<u8>, keys: Vec<u8>, count: u64 }

impl File {
    // Adds a column behind those whose keys are less.
    pub fn put(&mut self, name: &str, code: u8, put: impl FnOnce(&mut Vec<u8>)) {
        let start = self.bytes.len();
        put(&mut self.bytes);
        put_vint(name.len() as u64 + 2, &mut self.keys);
        self.keys.extend_from_slice(name.as_bytes());
        self.keys.extend_from_slice(&[0, code]);
        put_vint((self.bytes.len() - start) as u64, &mut self.keys);
        self.count += 1;
    }

    pub fn finish(mut self, num_docs: u32) -> Vec<u8> {
        let start = self.bytes.len();
        put_vint(self.count, &mut self.bytes);
        self.bytes.extend_from_slice(&self.keys);
        let keys_len = (self.bytes.len() - start) as u64;
        self.bytes.extend_from_slice(&keys_len.to_le_bytes());
        self.bytes.extend_from_slice(&num_docs.to_le_bytes());
        self.bytes.extend_from_slice(&[3, 0, 0, 0, 2, 0x71, 0x77, 0x42]);
        self.bytes
    }
}

pub fn hash(bytes: &[u8]) -> u64 {
    bytes.iter().fold(0, |hash: u64, byte| hash.wrapping_mul(31).wrapping_add(u64::from(*byte)))
}
