// Ascending lists under any codec, and places in them: what the measures of indexes and columns share.
#![allow(dead_code)] // each measure takes a part of it

use crate::shared::{Bitpacked, Blockwise, Linear, List, load, put_best, put_vint};

enum Codec { Bitpacked(Bitpacked), Linear(Linear), Blockwise(Blockwise) }

// An ascending list.
pub struct Numbers { codec: Codec, pub count: u32 }

impl Numbers {
    pub fn open(bytes: &'static [u8]) -> Option<Numbers> {
        let (codec, told) = match bytes.first()? {
            0 => load(bytes).map(|(list, told)| (Codec::Bitpacked(list), told))?,
            1 => load(bytes).map(|(list, told)| (Codec::Linear(list), told))?,
            _ => load(bytes).map(|(list, told)| (Codec::Blockwise(list), told))?,
        };
        Some(Numbers { codec, count: told.count as u32 })
    }

    #[inline(always)]
    pub fn get(&self, at: u32) -> u64 {
        match &self.codec {
            Codec::Bitpacked(list) => list.get(at as usize),
            Codec::Linear(list) => list.get(at as usize),
            Codec::Blockwise(list) => list.get(at as usize),
        }
    }

    pub fn each(&self, mut f: impl FnMut(u64)) {
        let places = 0..self.count as usize;
        match &self.codec {
            Codec::Bitpacked(list) => list.each(places, |_, val| f(val)),
            Codec::Linear(list) => list.each(places, |_, val| f(val)),
            Codec::Blockwise(list) => list.each(places, |_, val| f(val)),
        }
    }

    pub fn to_vec(&self) -> Vec<u64> {
        let mut vals = Vec::with_capacity(self.count as usize);
        self.each(|val| vals.push(val));
        vals
    }

    // How many are below a target, by halves. Out of line, which keeps walks short.
    #[inline(never)]
    pub fn narrow(&self, mut low: u32, mut high: u32, target: u64) -> u32 {
        while low < high {
            let middle = low + (high - low) / 2;
            if self.get(middle) < target { low = middle + 1 } else { high = middle }
        }
        low
    }

    pub fn rank(&self, target: u64) -> u32 { self.narrow(0, self.count, target) }

    // The same in steps that double, where those before a place are below the target.
    #[inline(never)]
    fn gallop(&self, mut low: u32, target: u64) -> u32 {
        let mut step = 1u32;
        while low < self.count {
            let probe = low + (step - 1).min(self.count - 1 - low);
            if self.get(probe) >= target { return self.narrow(low, probe, target); }
            low = probe + 1;
            step = step.saturating_mul(2);
        }
        low
    }

    // Sees the rows, if they rise and stay below the count.
    #[inline(always)]
    pub fn each_rising(&self, num_rows: u32, mut f: impl FnMut(u32)) -> Option<()> {
        let mut next = 0;
        for at in 0..self.count {
            let row = self.get(at);
            if row < next || row >= u64::from(num_rows) { return None; }
            f(row as u32);
            next = row + 1;
        }
        Some(())
    }

    pub fn place(&self, at: u32, target: u64) -> Place {
        Place { at, next: if at < self.count { self.get(at) } else { u64::MAX }, target }
    }
}

// How many numbers are below a target, and the first that isn't.
#[derive(Clone, Copy)]
pub struct Place { pub at: u32, pub next: u64, target: u64 }

impl Place {
    // The place of a target, where it is this one or the one behind it.
    #[inline(always)]
    pub fn near(self, numbers: &Numbers, target: u64) -> Option<Place> {
        if target < self.target { return None; }
        if target <= self.next { return Some(Place { target, ..self }); }
        let behind = numbers.place(self.at + 1, self.next + 1);
        (target <= behind.next).then_some(Place { target, ..behind })
    }

    #[inline(always)]
    pub fn seek(self, numbers: &Numbers, target: u64) -> Place {
        if target < self.target { return numbers.place(numbers.rank(target), target); }
        if target <= self.next { return Place { target, ..self }; }
        let behind = numbers.place(self.at + 1, self.next + 1);
        if target <= behind.next { return Place { target, ..behind }; }
        numbers.place(numbers.gallop(behind.at, target), target)
    }
}

// Writes a list under Bitpacked or Linear, whichever takes fewer bytes.
pub fn put_list(vals: &[u64], out: &mut Vec<u8>) { put_best::<Linear>(vals, out) }

// The rows with a value, one by one.
pub fn set_bytes(num_rows: usize, rows: &[u64]) -> Vec<u8> {
    let mut out = Vec::new();
    put_vint(num_rows as u64, &mut out);
    put_list(rows, &mut out);
    out
}

// The same by the runs that they stand in.
pub fn run_bytes(num_rows: usize, starts: &[u64], lengths: &[u64]) -> Vec<u8> {
    let mut out = Vec::new();
    put_vint(num_rows as u64, &mut out);
    let front = out.len();
    put_list(starts, &mut out);
    let starts_len = (out.len() - front) as u64;
    put_list(lengths, &mut out);
    out.extend_from_slice(&starts_len.to_le_bytes());
    out
}
