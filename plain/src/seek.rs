//! Jumps (docs/FORMAT.md, 7).

use crate::index::good_records;
use crate::{AUDIO, Answer, RECORD, Record, VIDEO, Walker, ask, stream_tag};

/// Takes the walker to the first record of the stream that is stamped at or after the request, or to the end, and gives the stamp there.
/// Refuses with 42, 41, 43 and 32.
#[inline]
pub fn seek_to_via_index(
    table: &[u8],
    walker: &mut Walker,
    stream: u32,
    request: i64,
) -> Answer<u64> {
    ask(stream <= 1, 42, 0)?;
    let records = good_records(table, |_, _| {})?;
    walker.in_range()?;
    Ok(jump(records, walker, stream, request))
}

/// A jump after its questions.
#[inline]
pub fn jump(records: &[[u8; RECORD]], walker: &mut Walker, stream: u32, request: i64) -> u64 {
    let tag = stream_tag(stream);
    let found = records
        .iter()
        .map(Record::read)
        .find(|record| record.tag == tag && record.stamp(stream) as i64 >= request);
    if let Some(record) = found {
        walker.cursor = record.offset as u64;
        walker.frames = record.frames as u64;
        walker.samples = record.samples;
        walker.blocks = record.blocks as u64;
        walker.end = false;
        return record.stamp(stream);
    }
    if let Some(last) = records.last().map(Record::read) {
        walker.cursor = last.offset as u64 + 8;
        walker.frames = last.frames as u64 + (last.tag == VIDEO) as u64;
        walker.samples = last.samples;
        walker.blocks = last.blocks as u64 + (last.tag == AUDIO) as u64;
    }
    walker.end = true;
    if stream == 0 {
        walker.frames
    } else {
        walker.samples
    }
}
