// A writer of records in Rust, which writes the same bytes.
mod compact;
mod files;
mod numbers;
mod recording;
mod shared;

use files::*;
use recording::*;
use shared::best;
use std::hint::black_box;

#[derive(Default)]
struct Writer { numbers: ByName<Numbers>, texts: ByName<Texts>, flags: ByName<Column<bool>>, addresses: ByName<Column<u128>> }

enum Kind<'a> { Numbers(&'a Numbers), Texts(&'a Texts), Flags(&'a Column<bool>), Addresses(&'a Column<u128>) }

impl Writer {
    fn of(docs: &[Doc], texts: &[String]) -> Result<Writer, Refusal> {
        let mut writer = Writer::default();
        with(&mut writer.numbers, "id", |column| column.forced = Some(U64));
        for (at, doc) in docs.iter().enumerate() { writer.record(at as u32, doc, texts)? }
        Ok(writer)
    }

    #[inline(never)]
    fn record(&mut self, at: u32, doc: &Doc, texts: &[String]) -> Result<(), Refusal> {
        with(&mut self.numbers, "id", |column| column.record(at, doc.id, U64))?;
        if let Some(text) = texts.get(doc.text) {
            with(&mut self.texts, "text", |column| {
                let id = column.terms.id(text.as_bytes());
                column.column.record(at, id)
            })?;
        }
        for size in &doc.sizes[..doc.count as usize] {
            with(&mut self.numbers, "sizes", |column| column.record(at, *size as u64, I64))?;
        }
        with(&mut self.flags, "flag", |column| column.record(at, doc.flag))?;
        match doc.address {
            Some(address) => with(&mut self.addresses, "address", |column| column.record(at, address)),
            None => Ok(()),
        }
    }

    // How many bytes the names, the records and the distinct texts have.
    fn num_bytes(&self) -> usize {
        let numbers = self.numbers.iter().map(|(name, column)| column.column.num_bytes(name, 12));
        let texts = self.texts.iter().map(|(name, column)| column.column.num_bytes(name, 8) + column.terms.bytes.len());
        let flags = self.flags.iter().map(|(name, column)| column.num_bytes(name, 5));
        let addresses = self.addresses.iter().map(|(name, column)| column.num_bytes(name, 20));
        numbers.chain(texts).chain(flags).chain(addresses).sum()
    }

    #[inline(never)]
    fn serialize(&self, num_docs: u32) -> Result<Vec<u8>, Refusal> {
        let mut columns = Vec::new();
        for (name, column) in &self.numbers { columns.push((name, column.code()?, Kind::Numbers(column))) }
        columns.extend(self.texts.iter().map(|(name, column)| (name, STR, Kind::Texts(column))));
        columns.extend(self.flags.iter().map(|(name, column)| (name, BOOL, Kind::Flags(column))));
        columns.extend(self.addresses.iter().map(|(name, column)| (name, IP_ADDR, Kind::Addresses(column))));
        columns.sort_unstable_by_key(|column| (column.0, column.1));
        let mut file = File::default();
        for (name, code, column) in columns {
            file.put(name, code, |out| match column {
                Kind::Numbers(numbers) => {
                    let sign = if code == I64 { SIGN_BIT } else { 0 };
                    let vals: Vec<u64> = numbers.column.vals.iter().map(|bits| bits ^ sign).collect();
                    put_numbers(&numbers.column.docs, &vals, num_docs, out);
                }
                Kind::Texts(texts) => texts.put(num_docs, out),
                Kind::Flags(column) => {
                    let vals: Vec<u64> = column.vals.iter().map(|flag| u64::from(*flag)).collect();
                    put_numbers(&column.docs, &vals, num_docs, out);
                }
                Kind::Addresses(column) => put_addresses(&column.docs, &column.vals, num_docs, out),
            });
        }
        Ok(file.finish(num_docs))
    }
}

// Words: how many documents; 0 to draw them, 1 to record them too, 2 to write them too, 3 to measure both.
fn main() -> Result<(), Refusal> {
    let words: Vec<usize> = std::env::args().skip(1).map(|word| word.parse().unwrap()).collect();
    let [count, step] = words[..] else { panic!("count and step") };
    let (docs, texts) = (docs(count), texts());
    if step == 0 {
        black_box((&docs, &texts));
        return Ok(());
    }
    if step == 3 {
        let (nanos, writer) = best(|| Writer::of(black_box(&docs), &texts));
        println!("record {nanos} {}", writer?.num_bytes());
    }
    let writer = Writer::of(&docs, &texts)?;
    if step == 2 { println!("{}", writer.serialize(count as u32)?.len()) }
    if step == 3 {
        let (nanos, bytes) = best(|| black_box(&writer).serialize(count as u32));
        println!("serialize {nanos} {}", hash(&bytes?));
    }
    black_box(&writer);
    Ok(())
}
