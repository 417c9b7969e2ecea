// Tables as CSV in Rust: a file's columns are decoded and written as text, and a text becomes the same file again.
mod compact;
mod files;
mod merging;
mod numbers;
mod recording;
mod shared;

use files::*;
use merging::{Part, Reader, list, open_texts};
use recording::*;
use shared::best;
use std::hint::black_box;

const DIGITS: &[u8; 16] = b"0123456789abcdef";

fn put_number(mut number: u64, out: &mut Vec<u8>) {
    let mut digits = [0; 20];
    let mut at = 20;
    loop {
        at -= 1;
        digits[at] = b'0' + (number % 10) as u8;
        number /= 10;
        if number == 0 { break; }
    }
    out.extend_from_slice(&digits[at..]);
}

fn put_text(text: &[u8], out: &mut Vec<u8>) {
    if !text.iter().any(|byte| matches!(byte, b',' | b'"' | b'\r' | b'\n')) {
        out.push(b'=');
        out.extend_from_slice(text);
        return;
    }
    out.extend_from_slice(b"\"=");
    for byte in text {
        if *byte == b'"' { out.push(b'"') }
        out.push(*byte);
    }
    out.push(b'"');
}

fn put_field<T: Copy>(column: &Part<T>, row: u32, out: &mut Vec<u8>, put: impl FnOnce(T, &mut Vec<u8>)) {
    out.push(b',');
    let places = column.places(row);
    if !places.is_empty() { put(column.vals[places.start], out) }
}

#[inline(never)]
fn export(bytes: &'static [u8]) -> Vec<u8> {
    let file = Reader::open(bytes);
    let numbers = |key: &[u8]| Part::open(file.column(key), file.num_docs, list);
    let addresses = Part::open(file.column(b"address\0\x06"), file.num_docs, compact::read);
    let (flags, ids, sizes) = (numbers(b"flag\0\x05"), numbers(b"id\0\x01"), numbers(b"size\0\0"));
    let (terms, ords) = open_texts(file.column(b"text\0\x04"), file.num_docs);
    let mut out = b"#,ip:address,bool:flag,u64:id,i64:size,str:text\n".to_vec();
    for row in 0..file.num_docs {
        put_number(u64::from(row), &mut out);
        put_field(&addresses, row, &mut out, |address, out| {
            out.push(b'=');
            for byte in address.to_be_bytes() {
                out.extend_from_slice(&[DIGITS[usize::from(byte >> 4)], DIGITS[usize::from(byte & 15)]]);
            }
        });
        put_field(&flags, row, &mut out, |flag, out| out.extend_from_slice(if flag == 1 { b"=true" } else { b"=false" }));
        put_field(&ids, row, &mut out, |id, out| {
            out.push(b'=');
            put_number(id, out);
        });
        put_field(&sizes, row, &mut out, |size, out| {
            let size = (size ^ SIGN_BIT) as i64;
            out.extend_from_slice(if size < 0 { b"=-" } else { b"=" });
            put_number(size.unsigned_abs(), out);
        });
        put_field(&ords, row, &mut out, |ord, out| put_text(terms[ord as usize], out));
        out.push(b'\n');
    }
    out
}

enum Kind { Numbers(u8, Numbers), Flags(Column<bool>), Addresses(Column<u128>), Texts(Texts) }

struct Named { name: String, kind: Kind }

fn heading(field: &[u8]) -> Option<Named> {
    let (word, name) = std::str::from_utf8(field).ok()?.split_once(':')?;
    let kind = match word {
        "u64" => Kind::Numbers(U64, Numbers::of(U64)),
        "i64" => Kind::Numbers(I64, Numbers::of(I64)),
        "bool" => Kind::Flags(Column::default()),
        "ip" => Kind::Addresses(Column::default()),
        "str" => Kind::Texts(Texts::default()),
        _ => return None,
    };
    Some(Named { name: name.to_string(), kind })
}

fn number(digits: &[u8]) -> Option<u64> {
    if digits.is_empty() || digits.len() > 1 && digits[0] == b'0' { return None; }
    digits.iter().try_fold(0u64, |number, digit| {
        let value = digit.wrapping_sub(b'0');
        if value > 9 { return None; }
        number.checked_mul(10)?.checked_add(u64::from(value))
    })
}

fn signed(text: &[u8]) -> Option<i64> {
    match text.strip_prefix(b"-") {
        Some(digits) => 0i64.checked_sub_unsigned(number(digits).filter(|number| *number > 0)?),
        None => i64::try_from(number(text)?).ok(),
    }
}

fn address(digits: &[u8]) -> Option<u128> {
    if digits.len() != 32 { return None; }
    digits.iter().try_fold(0, |number, digit| {
        let value = match digit {
            b'0'..=b'9' => digit - b'0',
            b'a'..=b'f' => digit - b'a' + 10,
            _ => return None,
        };
        Some(number << 4 | u128::from(value))
    })
}

impl Named {
    #[inline(always)]
    fn take(&mut self, doc: u32, field: &[u8]) -> Option<()> {
        if field.is_empty() { return Some(()); }
        let value = field.strip_prefix(b"=")?;
        match &mut self.kind {
            Kind::Numbers(U64, column) => column.record(doc, number(value)?, U64).ok(),
            Kind::Numbers(_, column) => column.record(doc, signed(value)? as u64, I64).ok(),
            Kind::Flags(column) => match value {
                b"true" => column.record(doc, true).ok(),
                b"false" => column.record(doc, false).ok(),
                _ => None,
            },
            Kind::Addresses(column) => column.record(doc, address(value)?).ok(),
            Kind::Texts(texts) => {
                let id = texts.terms.id(value);
                texts.column.record(doc, id).ok()
            }
        }
    }

    fn put(&self, num_docs: u32, file: &mut File) {
        match &self.kind {
            Kind::Numbers(code, column) => {
                let sign = if *code == I64 { SIGN_BIT } else { 0 };
                let vals: Vec<u64> = column.column.vals.iter().map(|bits| bits ^ sign).collect();
                file.put(&self.name, *code, |out| put_numbers(&column.column.docs, &vals, num_docs, out));
            }
            Kind::Flags(column) => {
                let vals: Vec<u64> = column.vals.iter().map(|flag| u64::from(*flag)).collect();
                file.put(&self.name, BOOL, |out| put_numbers(&column.docs, &vals, num_docs, out));
            }
            Kind::Addresses(column) => {
                file.put(&self.name, IP_ADDR, |out| put_addresses(&column.docs, &column.vals, num_docs, out));
            }
            Kind::Texts(texts) => file.put(&self.name, STR, |out| texts.put(num_docs, out)),
        }
    }
}

// Takes the next field, which is unquoted into `held` where it stands in quotes, and whether a comma follows it.
#[inline(always)]
fn field<'t: 'f, 'f>(left: &mut &'t [u8], held: &'f mut Vec<u8>) -> (&'f [u8], bool) {
    if left.first() != Some(&b'"') {
        let len = left.iter().position(|byte| matches!(byte, b',' | b'\n')).unwrap_or(left.len());
        let (field, rest) = left.split_at(len);
        let has_next = rest.first() == Some(&b',');
        *left = rest.get(1..).unwrap_or(&[]);
        return (field, has_next);
    }
    held.clear();
    let mut at = 1;
    while at < left.len() {
        if left[at] != b'"' {
            held.push(left[at]);
            at += 1;
        } else if left.get(at + 1) == Some(&b'"') {
            held.push(b'"');
            at += 2;
        } else {
            break;
        }
    }
    let has_next = left.get(at + 1) == Some(&b',');
    *left = left.get(at + 2..).unwrap_or(&[]);
    (held, has_next)
}

// The file of a text, unless it has a bad record. No byte but those of quotes, commas and line feeds is looked at.
#[inline(never)]
fn import(text: &[u8]) -> Option<Vec<u8>> {
    let (mut left, mut held) = (text, Vec::new());
    let mut columns = Vec::new();
    let (mark, mut has_next) = field(&mut left, &mut held);
    if mark != b"#" { return None; }
    while has_next {
        let taken = field(&mut left, &mut held);
        columns.push(heading(taken.0)?);
        has_next = taken.1;
    }
    let mut row = 0;
    while !left.is_empty() {
        let (first, mut has_next) = field(&mut left, &mut held);
        if number(first) != Some(u64::from(row)) { return None; }
        for column in &mut columns {
            if !has_next { return None; }
            let (value, more) = field(&mut left, &mut held);
            column.take(row, value)?;
            has_next = more;
        }
        if has_next { return None; }
        row += 1;
    }
    let mut file = File::default();
    for column in &columns { column.put(row, &mut file) }
    Some(file.finish(row))
}

// The file of documents with at most one size each.
fn file_of(docs: &[Doc], texts: &[String]) -> Vec<u8> {
    let mut columns = [&b"ip:address"[..], b"bool:flag", b"u64:id", b"i64:size", b"str:text"].map(|head| heading(head).unwrap());
    for (at, doc) in (0..).zip(docs) {
        let mut fields = [const { Vec::new() }; 5];
        if let Some(address) = doc.address { fields[0].extend_from_slice(format!("={address:032x}").as_bytes()) }
        fields[1].extend_from_slice(format!("={}", doc.flag).as_bytes());
        fields[2].extend_from_slice(format!("={}", doc.id).as_bytes());
        if doc.count > 0 { fields[3].extend_from_slice(format!("={}", doc.sizes[0]).as_bytes()) }
        if let Some(text) = texts.get(doc.text) { fields[4].extend_from_slice(format!("={text}").as_bytes()) }
        for (column, field) in columns.iter_mut().zip(&fields) { column.take(at, field).unwrap() }
    }
    let mut file = File::default();
    for column in &columns { column.put(docs.len() as u32, &mut file) }
    file.finish(docs.len() as u32)
}

// Words: how many documents; 0 to make their file and text, 1 to write the text too, 2 to read it too, 3 to measure both.
fn main() {
    let words: Vec<usize> = std::env::args().skip(1).map(|word| word.parse().unwrap()).collect();
    let [count, step] = words[..] else { panic!("count and step") };
    let file: &'static [u8] = file_of(&docs(count), &texts()).leak();
    let text = export(file);
    match step {
        1 => _ = black_box(export(black_box(file))),
        2 => _ = black_box(import(black_box(&text))),
        3 => {
            let (nanos, bytes) = best(|| export(black_box(file)));
            println!("export {nanos} {} {}", hash(&bytes), text.len());
            let (nanos, bytes) = best(|| import(black_box(&text)));
            println!("import {nanos} {} {}", hash(&bytes.unwrap()), text.len());
        }
        _ => println!("{}", black_box(text).len()),
    }
}
