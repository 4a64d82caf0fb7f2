//! Jumps (docs/FORMAT.md, 7): the question that a jump is refused with, worked out by document 01's order and 02's change of it, and not by the
//! plain implementation; and tables, walkers and streams with which several are answered with no at once.

use plain::words::WalkerWords;
use plain::{AUDIO, COUNT_LIMIT, RECORD, VIDEO};

use crate::calls;
use crate::files;
use crate::pages;
use crate::rules;
use crate::said::{Said, refused};
use crate::tally::Tally;

/// Where the first record stands that has another tag, or 2^62 samples or more: either of the two highest bits is then set.
pub fn bad_record(table: &[u8]) -> Option<u64> {
    let bad = |record: &[u8]| !matches!(&record[..4], b"00dc" | b"01wb") || record[23] >= 0x40;
    let found = table.chunks_exact(RECORD).position(bad);
    found.map(|i| (RECORD * i) as u64)
}

/// The number and place of the first question that is answered with no, in 01's order; the C interface's own, 1, is before them.
fn by_01(table: &[u8], walker: &WalkerWords, stream: u32) -> Option<(u32, u64)> {
    let [cursor, frames, samples, blocks, end, cut, _] = *walker;
    let most = [cursor, frames, samples, blocks].into_iter().max();
    let questions = [
        (1, (end > 1 || cut > 1).then_some(0)),
        (41, (table.len() % RECORD > 0).then_some(0)),
        (42, (stream > 1).then_some(0)),
        (43, bad_record(table)),
        (32, (most > Some(1 << 62)).then_some(0)),
    ];
    let mut noes = questions.into_iter();
    noes.find_map(|(number, place)| Some((number, place?)))
}

/// Whether a jump is refused as 01 says, or, of a stream that does not exist, with 42 where 01 has 41: that is all that 02 changes. A jump
/// that has no question against it is accepted.
pub fn stands(
    tally: &mut Tally,
    table: &[u8],
    walker: &WalkerWords,
    stream: u32,
    said: Said<2>,
) -> bool {
    match by_01(table, walker, stream) {
        None => said.number == 0,
        Some((41, _)) if stream > 1 => {
            tally.met(rules::STREAM_FIRST);
            said == refused(42, 0)
        }
        Some((number, place)) => said == refused(number, place),
    }
}

/// All lists of up to three records that the questions turn on, whole and ragged; walkers that are in range, at its end, past it and of
/// no walker; streams that exist and not, among them those of which 8 or 16 bits would be one that does.
pub fn short(tally: &mut Tally) {
    let kinds = [
        (VIDEO, 0),
        (AUDIO, COUNT_LIMIT - 1),
        (AUDIO, COUNT_LIMIT),
        (0, 0),
    ];
    for count in 0..=3 {
        files::all_lists(&kinds, count, |kinds| {
            for more in [0, 1, RECORD - 1] {
                let mut table = pages::table_of(kinds);
                table.resize(table.len() + more, 0);
                questions(tally, &table);
            }
        });
    }
}

/// Jumps with every kind of walker and stream over a table.
fn questions(tally: &mut Tally, table: &[u8]) {
    let (most, over) = (COUNT_LIMIT, COUNT_LIMIT + 1);
    for given in [
        [316, 0, 0, 0, 0, 0, u64::MAX],
        [most, most, most, most, 1, 1, 345],
        [over, 0, 0, 0, 0, 0, u64::MAX],
        [316, over, 0, 0, 0, 0, u64::MAX],
        [316, 0, over, 0, 0, 0, u64::MAX],
        [316, 0, 0, over, 0, 0, u64::MAX],
        [316, 0, 0, 0, 2, 0, u64::MAX],
        [over, 0, 0, 0, 0, 2, u64::MAX],
    ] {
        for stream in [0, 1, 2, 256, 65_537, u32::MAX] {
            for request in [-1, 10] {
                let mut walker = given;
                calls::seek_to_via_index(tally, table, &mut walker, stream, request);
            }
        }
    }
}
