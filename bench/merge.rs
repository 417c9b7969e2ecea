// Merges of files in Rust.
mod compact;
mod files;
mod merging;
mod numbers;
mod shared;

use files::*;
use merging::*;
use shared::best;
use std::hint::black_box;

// A file of documents.
fn file_of(docs: &[Doc], texts: &[String]) -> Vec<u8> {
    fn beside<T>(docs: &[Doc], vals: impl Fn(&Doc) -> Vec<T>) -> (Vec<u32>, Vec<T>) {
        let all = docs.iter().enumerate().flat_map(|(at, doc)| vals(doc).into_iter().map(move |val| (at as u32, val)));
        all.unzip()
    }
    let num_docs = docs.len() as u32;
    let mut file = File::default();
    let (rows, vals) = beside(docs, |doc| Vec::from_iter(doc.address));
    file.put("address", IP_ADDR, |out| put_addresses(&rows, &vals, num_docs, out));
    let (rows, vals) = beside(docs, |doc| vec![u64::from(doc.flag)]);
    file.put("flag", BOOL, |out| put_numbers(&rows, &vals, num_docs, out));
    let (rows, vals) = beside(docs, |doc| vec![doc.id]);
    file.put("id", U64, |out| put_numbers(&rows, &vals, num_docs, out));
    let sizes = |doc: &Doc| doc.sizes[..doc.count as usize].iter().map(|size| *size as u64 ^ SIGN_BIT).collect();
    let (rows, vals) = beside(docs, sizes);
    file.put("sizes", I64, |out| put_numbers(&rows, &vals, num_docs, out));
    let (rows, vals) = beside(docs, |doc| Vec::from_iter(texts.get(doc.text)));
    let mut terms: Vec<&[u8]> = vals.iter().map(|text| text.as_bytes()).collect();
    terms.sort_unstable();
    terms.dedup();
    let ords: Vec<u64> = vals.iter().map(|text| terms.binary_search(&text.as_bytes()).unwrap() as u64).collect();
    file.put("text", STR, |out| put_texts(&terms, &rows, &ords, num_docs, out));
    file.finish(num_docs)
}

// A file of the numbers of documents, or without a column.
fn file_of_ids(docs: &[Doc], has_ids: bool) -> Vec<u8> {
    let num_docs = docs.len() as u32;
    let mut file = File::default();
    if has_ids {
        let (rows, vals): (Vec<u32>, Vec<u64>) = (0..).zip(docs.iter().map(|doc| doc.id)).unzip();
        file.put("id", U64, |out| put_numbers(&rows, &vals, num_docs, out));
    }
    file.finish(num_docs)
}

// Each row i as row i / 8 of file i mod 8, or these rows at random.
fn named(num_rows: usize, is_random: bool) -> Order {
    let mut rows: Vec<(u32, u32)> = (0..num_rows).map(|row| ((row % NUM_FILES) as u32, (row / NUM_FILES) as u32)).collect();
    if is_random {
        for (at, draw) in (1..num_rows).zip(shared::draws(num_rows, 1)) { rows.swap(at, draw as usize % (at + 1)) }
    }
    Order::Shuffle(rows)
}

fn say(name: &str, files: &[&'static [u8]], order: &Order) {
    let (nanos, bytes) = best(|| merge(black_box(files), order));
    println!("{name} {nanos} {}", hash(&bytes));
}

// Words: a path, how many rows, and 0 to read the files, 1 to 3 to merge them stacked, in turn or at random, 4 to
// measure each, and 5 to write the files.
fn main() {
    let words: Vec<String> = std::env::args().skip(1).collect();
    let [path, count, step] = &words[..] else { panic!("path, count and step") };
    let (count, step): (usize, u32) = (count.parse().unwrap(), step.parse().unwrap());
    let lacking_path = format!("{path}_lacking");
    if step == 5 {
        let (docs, texts) = (docs(count), texts());
        for (at, docs) in docs.chunks(count / NUM_FILES).enumerate() {
            std::fs::write(format!("{path}{at}"), file_of(docs, &texts)).unwrap();
            std::fs::write(format!("{lacking_path}{at}"), file_of_ids(docs, at % 2 == 0)).unwrap();
        }
        return;
    }
    let files = read(path);
    for (kind, name) in [(1, "stacked"), (2, "in_turn"), (3, "random")] {
        if step != kind && step != 4 { continue; }
        let order = if kind == 1 { Order::Stack } else { named(count, kind == 3) };
        if step == kind { println!("{}", merge(&files, &order).len()) } else { say(name, &files, &order) }
    }
    if step == 4 { say("lacking", &read(&lacking_path), &Order::Stack) }
}
