//! The whole case of the document of rules, as a log: the figures are the document's, so a
//! misreading that model and library share would show here.

use super::lender::Lender;
use super::model::{Replayed, BYTES, PROBABILITY, VERDICT};
use crate::failure::{expect, Failure};
use crate::log::makers;
use crate::log::types::Record;

/// `t 14999` is refused by 5, and the second `d` by 6.
const SOON: Record = Record { clock: 14_999, ..TICK };
const EMPTY: Record = Record { kind: b'd', clock: 15_002, bytes: 0, ..TICK };
const TICK: Record = Record {
    kind: b't',
    ecn: 0,
    unused: 0,
    handle: 0,
    clock: 15_000,
    size: 0,
    u: 0,
    verdict: 0,
    bytes: 1_000,
    probability: 0,
};

/// The records, the answer, and what was found: record, refusal, verdict, probability, bytes.
fn cases() -> Vec<(Vec<Record>, u32, [u64; 5])> {
    let right = makers::worked().2;
    let [arrival, tick, departure] = right[..] else { unreachable!() };
    let back = Record { clock: 14_999, ..departure };
    vec![
        (right.clone(), 0, [3, 0, 0, 0, 0]),
        (vec![arrival, SOON], VERDICT, [1, 5, 0, 0, 1_000]),
        (vec![arrival, tick, departure, EMPTY], VERDICT, [3, 6, 0, 0, 0]),
        (vec![arrival, tick, back], VERDICT, [2, 4, 0, 0, 1_000]),
        (vec![Record { verdict: 4, bytes: 0, ..arrival }], VERDICT, [0, 0, 0, 0, 1_000]),
        (
            vec![arrival, Record { probability: 1, bytes: 0, ..tick }],
            PROBABILITY,
            [1, 0, 0, 0, 1_000],
        ),
        (vec![arrival, Record { bytes: 999, ..tick }], BYTES, [1, 0, 0, 0, 1_000]),
        (vec![arrival, tick, Record { verdict: 8, ..departure }], VERDICT, [2, 0, 7, 0, 0]),
        (vec![arrival, tick], 0, [2, 0, 0, 0, 1_000]),
        (vec![], 0, [0, 0, 0, 0, 0]),
    ]
}

pub fn run(lender: &mut Lender) -> Result<(), Failure> {
    for (records, answer, [record, refusal, verdict, probability, bytes]) in cases() {
        let (settings, note, _) = makers::worked();
        lender.lend(&makers::log(&settings, note, &records));
        let found = lender.replay(&[11; 4], &[12; 4]);
        let figures = Replayed { record, refusal, verdict, probability, bytes };
        expect("a replay of the whole case", found, (answer, figures))?;
        let written = if records.is_empty() { [11, 12] } else { [7, 1_000] };
        let (handles, sizes) = lender.tables();
        expect("the handles", handles, &[written[0], 11, 11, 11])?;
        expect("the sizes", sizes, &[written[1], 12, 12, 12])?;
    }
    Ok(())
}
