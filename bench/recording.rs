// Columns that record, in Rust: values beside their documents, and the terms of texts.
#![allow(dead_code)] // each measure takes a part of it

use crate::files::*;
use std::collections::HashMap;
use std::hash::{BuildHasherDefault, Hasher};

// A hash by folded products.
#[derive(Default)]
pub struct Fold(u64);

impl Hasher for Fold {
    fn write(&mut self, bytes: &[u8]) {
        let (words, rest) = bytes.as_chunks::<8>();
        let mut last = [0; 8];
        last[..rest.len()].copy_from_slice(rest);
        let last = u64::from_le_bytes(last) ^ (bytes.len() as u64) << 56;
        for word in words.iter().map(|word| u64::from_le_bytes(*word)).chain([last]) {
            let product = u128::from(self.0 ^ word) * 0x9e37_79b9_7f4a_7c15;
            self.0 = product as u64 ^ (product >> 64) as u64;
        }
    }

    fn finish(&self) -> u64 { self.0 }
}

pub type ByName<C> = HashMap<String, C, BuildHasherDefault<Fold>>;

// Calls with the column of a name, which is made where it is the first of its name.
#[inline(always)]
pub fn with<C: Default, R>(columns: &mut ByName<C>, name: &str, call: impl FnOnce(&mut C) -> R) -> R {
    if let Some(column) = columns.get_mut(name) { return call(column); }
    call(columns.entry(name.to_string()).or_default())
}

// Values beside their documents, in order of recording.
pub struct Column<T> { pub docs: Vec<u32>, pub vals: Vec<T> }

impl<T> Default for Column<T> {
    fn default() -> Self { Column { docs: vec![], vals: vec![] } }
}

#[derive(Debug)]
pub enum Refusal { DocOrder, ForcedType, NumericalConflict }

impl<T> Column<T> {
    pub fn record(&mut self, doc: u32, val: T) -> Result<(), Refusal> {
        if self.docs.last().is_some_and(|last| doc < *last) { return Err(Refusal::DocOrder); }
        self.docs.push(doc);
        self.vals.push(val);
        Ok(())
    }

    pub fn num_bytes(&self, name: &str, bytes_each: usize) -> usize { name.len() + self.docs.len() * bytes_each }
}

// Numbers of either type, by their bits.
#[derive(Default)]
pub struct Numbers { pub column: Column<u64>, pub forced: Option<u8>, is_negative: bool, is_great: bool }

impl Numbers {
    pub fn of(code: u8) -> Numbers { Numbers { forced: Some(code), ..Numbers::default() } }

    pub fn record(&mut self, doc: u32, bits: u64, code: u8) -> Result<(), Refusal> {
        if self.forced.is_some_and(|forced| forced != code) { return Err(Refusal::ForcedType); }
        self.column.record(doc, bits)?;
        self.is_negative |= code == I64 && bits >= SIGN_BIT;
        self.is_great |= code == U64 && bits >= SIGN_BIT - 1;
        Ok(())
    }

    pub fn code(&self) -> Result<u8, Refusal> {
        match (self.forced, self.is_great, self.is_negative) {
            (Some(code), ..) => Ok(code),
            (None, false, _) => Ok(I64),
            (None, true, false) => Ok(U64),
            _ => Err(Refusal::NumericalConflict),
        }
    }
}

// Distinct terms by their ids, found by open addressing; a slot has a hash, and the id and 1.
#[derive(Default)]
pub struct Terms { pub bytes: Vec<u8>, ends: Vec<usize>, slots: Vec<(u32, u32)> }

impl Terms {
    fn term(&self, id: usize) -> &[u8] {
        let start = if id == 0 { 0 } else { self.ends[id - 1] };
        &self.bytes[start..self.ends[id]]
    }

    fn grow(&mut self) {
        let len = (2 * self.slots.len()).max(64);
        for slot in std::mem::replace(&mut self.slots, vec![(0, 0); len]) {
            if slot.1 == 0 { continue; }
            let mut at = slot.0 as usize % len;
            while self.slots[at].1 > 0 { at = (at + 1) % len }
            self.slots[at] = slot;
        }
    }

    pub fn id(&mut self, term: &[u8]) -> u32 {
        if 2 * self.ends.len() >= self.slots.len() { self.grow() }
        let mut hasher = Fold::default();
        hasher.write(term);
        let hash = hasher.finish() as u32;
        let mask = self.slots.len() - 1;
        let mut at = hash as usize & mask;
        loop {
            let (held, next) = self.slots[at];
            if next == 0 { break; }
            if held == hash && self.term(next as usize - 1) == term { return next - 1; }
            at = (at + 1) & mask;
        }
        self.bytes.extend_from_slice(term);
        self.ends.push(self.bytes.len());
        self.slots[at] = (hash, self.ends.len() as u32);
        self.ends.len() as u32 - 1
    }
}

#[derive(Default)]
pub struct Texts { pub column: Column<u32>, pub terms: Terms }

impl Texts {
    pub fn put(&self, num_docs: u32, out: &mut Vec<u8>) {
        let ids = 0..self.terms.ends.len();
        let mut sorted: Vec<(&[u8], usize)> = ids.map(|id| (self.terms.term(id), id)).collect();
        sorted.sort_unstable();
        let mut ord_of = vec![0u32; sorted.len()];
        for (ord, (_, id)) in sorted.iter().enumerate() { ord_of[*id] = ord as u32 }
        let terms: Vec<&[u8]> = sorted.iter().map(|term| term.0).collect();
        let ords: Vec<u64> = self.column.vals.iter().map(|id| u64::from(ord_of[*id as usize])).collect();
        put_texts(&terms, &self.column.docs, &ords, num_docs, out);
    }
}
