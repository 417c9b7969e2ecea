// Lines of a log in Rust: JSON and CSV are read by hand, values are recorded, and the same bytes are written. Two
// questions to the file are answered.
mod asking;
mod compact;
mod files;
mod numbers;
mod recording;
mod shared;

use files::*;
use recording::*;
use std::io::BufRead;
use std::net::{Ipv4Addr, Ipv6Addr};

const DATE_TIME: u8 = 7;
const FIELDS: [&[u8]; 5] = [b"at", b"level", b"from", b"size", b"message"];
const SIZE: usize = 3;
const BUFFER: usize = 1 << 16;
const ONES: u64 = u64::MAX / 255;
const TOPS: u64 = ONES << 7;

// A line on its way. What is wrong with it ends it without a reason.
struct Line<'a> { text: &'a [u8], at: usize }

fn is_blank(byte: u8) -> bool { matches!(byte, b' ' | b'\t' | b'\r') }

// The top bit of the first byte in a word that is this one, which is below 128, and perhaps of bytes behind it.
fn is_byte(word: u64, byte: u8) -> u64 { (word ^ ONES * u64::from(byte)).wrapping_sub(ONES) & !word & TOPS }

// The same of the first byte that is a quote, a backslash or below a blank.
fn ends_text(word: u64) -> u64 {
    let is_below = word.wrapping_sub(ONES * u64::from(b' ')) & !word & TOPS;
    is_byte(word, b'"') | is_byte(word, b'\\') | is_below
}

impl<'a> Line<'a> {
    fn peek(&self) -> Option<u8> { self.text.get(self.at).copied() }

    fn pass_blanks(&mut self) { while self.peek().is_some_and(is_blank) { self.at += 1 } }

    // Whether a byte is the next one behind blanks, which is passed then.
    fn passes(&mut self, byte: u8) -> bool {
        self.pass_blanks();
        let is_next = self.peek() == Some(byte);
        self.at += usize::from(is_next);
        is_next
    }

    fn passes_word(&mut self, word: &[u8]) -> bool {
        let is_next = self.text[self.at..].starts_with(word);
        self.at += if is_next { word.len() } else { 0 };
        is_next
    }

    // Up to the next byte that is found in words of eight, or to the end.
    #[inline(always)]
    fn pass_until(&mut self, find: impl Fn(u64) -> u64) {
        while let Some(word) = self.text[self.at..].first_chunk::<8>() {
            let found = find(u64::from_le_bytes(*word));
            if found != 0 { return self.at += found.trailing_zeros() as usize / 8; }
            self.at += 8;
        }
        while self.peek().is_some_and(|byte| find(u64::from(byte)) & 255 == 0) { self.at += 1 }
    }

    // A text, of which the opening quote is passed: its bytes in place, or in `room` where it has escapes.
    fn text<'r>(&mut self, room: &'r mut Vec<u8>) -> Option<&'r [u8]> where 'a: 'r {
        let mut start = self.at;
        self.pass_until(ends_text);
        if self.peek()? == b'"' {
            self.at += 1;
            return Some(&self.text[start..self.at - 1]);
        }
        room.clear();
        loop {
            room.extend_from_slice(&self.text[start..self.at]);
            self.at += 1;
            match self.text[self.at - 1] {
                b'"' => return Some(room),
                b'\\' => self.escape(room)?,
                _ => return None,
            }
            start = self.at;
            self.pass_until(ends_text);
            self.peek()?;
        }
    }

    // A field of CSV, up to a comma or the end: its bytes in place, or in `room` where it has quotes in quotes.
    fn field<'r>(&mut self, room: &'r mut Vec<u8>) -> Option<&'r [u8]> where 'a: 'r {
        if self.peek() != Some(b'"') {
            let start = self.at;
            self.pass_until(|word| is_byte(word, b','));
            return Some(&self.text[start..self.at]);
        }
        room.clear();
        loop {
            self.at += 1;
            let start = self.at;
            self.pass_until(|word| is_byte(word, b'"'));
            let part = &self.text[start..self.at];
            self.at += 1;
            match self.peek() {
                Some(b'"') => room.extend_from_slice(&self.text[start..self.at]),
                None | Some(b',') if room.is_empty() => return Some(part),
                None | Some(b',') => {
                    room.extend_from_slice(part);
                    return Some(room);
                }
                Some(_) => return None,
            }
        }
    }

    fn escape(&mut self, room: &mut Vec<u8>) -> Option<()> {
        self.at += 1;
        room.push(match self.text.get(self.at - 1)? {
            b'n' => b'\n',
            b't' => b'\t',
            b'r' => b'\r',
            b'b' => 8,
            b'f' => 12,
            b'u' => {
                let mut code = self.unit()?;
                if code & 0xfc00 == 0xd800 {
                    let low = if self.passes_word(b"\\u") { self.unit()? } else { return None };
                    if low & 0xfc00 != 0xdc00 { return None; }
                    code = 0x1_0000 + ((code & 0x3ff) << 10) + (low & 0x3ff);
                }
                room.extend_from_slice(char::from_u32(code)?.encode_utf8(&mut [0; 4]).as_bytes());
                return Some(());
            }
            byte @ (b'"' | b'\\' | b'/') => *byte,
            _ => return None,
        });
        Some(())
    }

    fn unit(&mut self) -> Option<u32> {
        let digits = self.text.get(self.at..self.at + 4)?;
        self.at += 4;
        digits.iter().try_fold(0, |unit, digit| Some(unit * 16 + char::from(*digit).to_digit(16)?))
    }

    // A whole number that i64 holds.
    fn number(&mut self) -> Option<i64> {
        let is_below = self.passes_word(b"-");
        let start = self.at;
        let mut all: u64 = 0;
        while let Some(digit @ b'0'..=b'9') = self.peek() {
            all = all.checked_mul(10)?.checked_add(u64::from(digit - b'0'))?;
            self.at += 1;
        }
        let digits = &self.text[start..self.at];
        if digits.is_empty() || digits.len() > 1 && digits[0] == b'0' { return None; }
        if is_below { 0i64.checked_sub_unsigned(all) } else { i64::try_from(all).ok() }
    }
}

// The number of so many digits.
fn digits(text: &[u8], from: usize, count: usize) -> Option<i64> {
    text.get(from..from + count)?.iter().try_fold(0, |all, digit| {
        digit.is_ascii_digit().then(|| all * 10 + i64::from(digit - b'0'))
    })
}

// Days since 1970: years begin in March here, and 400 of them have 146,097 days.
fn day(year: i64, month: i64, day: i64) -> Option<i64> {
    let is_leap = year % 4 == 0 && (year % 100 != 0 || year % 400 == 0);
    let last = match month {
        2 => 28 + i64::from(is_leap),
        4 | 6 | 9 | 11 => 30,
        1..=12 => 31,
        _ => return None,
    };
    if !(1..=last).contains(&day) { return None; }
    let year = year - i64::from(month < 3);
    let behind_march = (month + 9) % 12;
    Some(year * 365 + year.div_euclid(4) - year.div_euclid(100) + year.div_euclid(400)
        + (153 * behind_march + 2) / 5 + day - 719_469)
}

// Nanoseconds since 1970 of a time as RFC 3339 has it.
fn time(text: &[u8]) -> Option<i64> {
    let is_at = |at: usize, byte: u8| text.get(at) == Some(&byte);
    let marks = [(4, b'-'), (7, b'-'), (13, b':'), (16, b':')];
    if !marks.into_iter().all(|(at, byte)| is_at(at, byte)) || !matches!(text[10], b'T' | b't' | b' ') { return None; }
    let day = day(digits(text, 0, 4)?, digits(text, 5, 2)?, digits(text, 8, 2)?)?;
    let (hour, minute, second) = (digits(text, 11, 2)?, digits(text, 14, 2)?, digits(text, 17, 2)?);
    if hour > 23 || minute > 59 || second > 59 { return None; }
    let (mut at, mut nanos) = (19, 0);
    if is_at(at, b'.') {
        let count = text[at + 1..].iter().take_while(|byte| byte.is_ascii_digit()).count();
        if count == 0 || count > 9 { return None; }
        nanos = digits(text, at + 1, count)? * 10i64.pow(9 - count as u32);
        at += 1 + count;
    }
    let offset = match text[at..] {
        [b'Z' | b'z'] => 0,
        [sign @ (b'+' | b'-'), _, _, b':', _, _] => {
            let (hours, minutes) = (digits(text, at + 1, 2)?, digits(text, at + 4, 2)?);
            if hours > 23 || minutes > 59 { return None; }
            (hours * 60 + minutes) * if sign == b'+' { 60 } else { -60 }
        }
        _ => return None,
    };
    let seconds = day * 86_400 + hour * 3600 + minute * 60 + second - offset;
    seconds.checked_mul(1_000_000_000)?.checked_add(nanos)
}

fn address(text: &[u8]) -> Option<u128> {
    let text = str::from_utf8(text).ok()?;
    let dotted = text.parse::<Ipv4Addr>().map(|address| address.to_ipv6_mapped());
    dotted.or_else(|_| text.parse::<Ipv6Addr>()).ok().map(u128::from)
}

#[derive(Default)]
struct Log { at: Column<u64>, level: Texts, from: Column<u128>, size: Column<u64>, message: Texts }

impl Log {
    // Takes a document. Members may stand in any order; of a name that comes twice both values count.
    fn take(&mut self, doc: u32, line: &[u8], rooms: &mut [Vec<u8>; 2]) -> Option<()> {
        str::from_utf8(line).ok()?;
        let [name_room, room] = rooms;
        let mut line = Line { text: line, at: 0 };
        if !line.passes(b'{') { return None; }
        let mut next = 0;
        let mut ended = line.passes(b'}');
        while !ended {
            if !line.passes(b'"') { return None; }
            let name = line.text(name_room)?;
            if name != FIELDS[next] { next = FIELDS.iter().position(|field| name == *field)? }
            if !line.passes(b':') { return None; }
            line.pass_blanks();
            if !line.passes_word(b"null") { self.take_value(doc, next, &mut line, room)? }
            next = (next + 1) % FIELDS.len();
            ended = line.passes(b'}');
            if !ended && !line.passes(b',') { return None; }
        }
        line.pass_blanks();
        line.peek().is_none().then_some(())
    }

    #[inline(always)]
    fn take_value(&mut self, doc: u32, field: usize, line: &mut Line, room: &mut Vec<u8>) -> Option<()> {
        if field == SIZE { return self.size.record(doc, line.number()? as u64 ^ SIGN_BIT).ok(); }
        if line.passes(b'"') { self.put(doc, field, line.text(room)?) } else { None }
    }

    // Takes a record of CSV, whose fields are those of the header line. An empty one is no value.
    fn take_record(&mut self, doc: u32, record: &[u8], header: &[usize], room: &mut Vec<u8>) -> Option<()> {
        str::from_utf8(record).ok()?;
        let mut line = Line { text: record, at: 0 };
        for (nth, &field) in header.iter().enumerate() {
            if nth > 0 && line.peek()? != b',' { return None; }
            line.at += usize::from(nth > 0);
            let text = line.field(room)?;
            if !text.is_empty() { self.put(doc, field, text)? }
        }
        line.peek().is_none().then_some(())
    }

    #[inline(always)]
    fn put(&mut self, doc: u32, field: usize, text: &[u8]) -> Option<()> {
        match field {
            SIZE => {
                let mut line = Line { text, at: 0 };
                let number = line.number()? as u64 ^ SIGN_BIT;
                if line.at < text.len() { return None; }
                self.size.record(doc, number)
            }
            0 => self.at.record(doc, time(text)? as u64 ^ SIGN_BIT),
            1 => { let id = self.level.terms.id(text); self.level.column.record(doc, id) }
            2 => self.from.record(doc, address(text)?),
            _ => { let id = self.message.terms.id(text); self.message.column.record(doc, id) }
        }
        .ok()
    }

    // The columns that have values, by their names.
    fn file(&self, num_docs: u32) -> Vec<u8> {
        let mut file = File::default();
        let Log { at, level, from, size, message } = self;
        if !at.docs.is_empty() { file.put("at", DATE_TIME, |out| put_numbers(&at.docs, &at.vals, num_docs, out)) }
        if !from.docs.is_empty() {
            file.put("from", IP_ADDR, |out| put_addresses(&from.docs, &from.vals, num_docs, out))
        }
        if !level.column.docs.is_empty() { file.put("level", STR, |out| level.put(num_docs, out)) }
        if !message.column.docs.is_empty() { file.put("message", STR, |out| message.put(num_docs, out)) }
        if !size.docs.is_empty() { file.put("size", I64, |out| put_numbers(&size.docs, &size.vals, num_docs, out)) }
        file.finish(num_docs)
    }
}

// A line without its end, which is put in place of what was there; none behind the last one.
fn next_line(lines: &mut impl BufRead, line: &mut Vec<u8>) -> std::io::Result<bool> {
    line.clear();
    let is_there = lines.read_until(b'\n', line)? > 0;
    if line.last() == Some(&b'\n') { line.pop(); }
    Ok(is_there)
}

fn log_of_json(lines: &mut impl BufRead) -> std::io::Result<(Log, u32)> {
    let (mut log, mut rooms, mut line) = (Log::default(), [vec![], vec![]], Vec::new());
    let mut doc = 0;
    while next_line(lines, &mut line)? {
        if line.iter().all(|byte| is_blank(*byte)) { continue; }
        log.take(doc, &line, &mut rooms).unwrap_or_else(|| panic!("document {doc}"));
        doc += 1;
    }
    Ok((log, doc))
}

// A record without its end, which goes on in the next line where its quotes are odd; none behind the last one.
fn next_record(lines: &mut impl BufRead, record: &mut Vec<u8>, rest: &mut Vec<u8>) -> std::io::Result<bool> {
    let is_there = next_line(lines, record)?;
    while record.iter().filter(|byte| **byte == b'"').count() % 2 == 1 && next_line(lines, rest)? {
        record.push(b'\n');
        record.extend_from_slice(rest);
    }
    if record.last() == Some(&b'\r') { record.pop(); }
    Ok(is_there)
}

fn log_of_csv(lines: &mut impl BufRead) -> std::io::Result<(Log, u32)> {
    let (mut log, mut room, mut record, mut rest) = (Log::default(), Vec::new(), Vec::new(), Vec::new());
    next_record(lines, &mut record, &mut rest)?;
    let place = |name: &[u8]| FIELDS.iter().position(|field| name == *field).expect("a name");
    let header: Vec<usize> = record.split(|byte| *byte == b',').map(place).collect();
    let mut doc = 0;
    while next_record(lines, &mut record, &mut rest)? {
        if record.is_empty() { continue; }
        log.take_record(doc, &record, &header, &mut room).unwrap_or_else(|| panic!("record {doc}"));
        doc += 1;
    }
    Ok((log, doc))
}

// Words: a question and a file, or a file to write and lines of JSON, or of CSV where their name says so.
fn main() -> std::io::Result<()> {
    let words: Vec<String> = std::env::args().skip(1).collect();
    let [output, input] = &words[..] else { panic!("two words") };
    let file = std::fs::File::open(input)?;
    match &output[..] {
        "two" => return asking::count_of_two(&file).map(|count| println!("{count}")),
        "net" => return asking::count_of_net(&file).map(|count| println!("{count}")),
        _ => (),
    }
    let mut lines = std::io::BufReader::with_capacity(BUFFER, file);
    let (log, num_docs) = if input.ends_with(".csv") { log_of_csv(&mut lines)? } else { log_of_json(&mut lines)? };
    std::fs::write(output, log.file(num_docs))
}
