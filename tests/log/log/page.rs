//! The worked log of docs/LOG.md: the page's bytes are the writer's, and the reader reads them.

use super::lender::Lender;
use super::types::Record;
use super::{makers, model};
use crate::failure::{expect, Failure};

/// The bytes of the page's hex dump: a place, then two digits for each byte, then words.
fn dump(page: &str) -> Vec<u8> {
    let mut bytes = Vec::new();
    for line in page.lines() {
        let mut words = line.split_whitespace();
        let place = words.next().and_then(|word| usize::from_str_radix(word, 16).ok());
        if place != Some(bytes.len()) || !line.starts_with("0") {
            continue;
        }
        let byte = |word: &str| (word.len() == 2).then(|| u8::from_str_radix(word, 16).ok())?;
        bytes.extend(words.map_while(byte));
    }
    bytes
}

pub fn check(page: &str) -> Result<(), Failure> {
    let (settings, note, records) = makers::worked();
    let page = dump(page);
    let mut lender = Lender::new(true);
    lender.lend(&vec![0; 175]);
    let (answer, mut state) = lender.begin(&settings, note);
    expect("the answer of begin", answer, 0)?;
    for record in &records {
        let added = lender.add(state, record);
        expect("the answer of add", added.0, 0)?;
        state = added.1;
    }
    expect("the log that was written", lender.lent(), &page)?;
    for (i, record) in records.iter().enumerate() {
        expect("a record read", lender.read(i as u64), (0, i as u64 + 1, *record))?;
    }
    expect("the end", lender.read(3), (model::END, 3, Record::default()))
}
