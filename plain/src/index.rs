//! The index and the summary (docs/FORMAT.md, 6).

use crate::head::{count_of, head_at};
use crate::within_limit;
use crate::{AUDIO, Answer, COUNT_LIMIT, PRELUDE, RECORD, VIDEO, ask, refuse, u32_at, u64_at};

/// A record of the index: a chunk, and what stands before it.
#[derive(Clone, Copy, Debug, PartialEq, Eq)]
pub struct Record {
    /// The chunk's tag.
    pub tag: u32,
    /// The chunk's offset.
    pub offset: u32,
    /// The frames before it.
    pub frames: u32,
    /// The blocks before it.
    pub blocks: u32,
    /// The samples before it.
    pub samples: u64,
}

impl Record {
    /// The record as a table has it.
    pub fn bytes(&self) -> [u8; RECORD] {
        let mut bytes = [0; RECORD];
        bytes[0..4].copy_from_slice(&self.tag.to_le_bytes());
        bytes[4..8].copy_from_slice(&self.offset.to_le_bytes());
        bytes[8..12].copy_from_slice(&self.frames.to_le_bytes());
        bytes[12..16].copy_from_slice(&self.blocks.to_le_bytes());
        bytes[16..24].copy_from_slice(&self.samples.to_le_bytes());
        bytes
    }

    /// The record that a table has there.
    pub fn read(bytes: &[u8; RECORD]) -> Self {
        Self {
            tag: u32_at(bytes, 0),
            offset: u32_at(bytes, 4),
            frames: u32_at(bytes, 8),
            blocks: u32_at(bytes, 12),
            samples: u64_at(bytes, 16),
        }
    }

    /// Whether a table may have it: a known tag, and fewer than 2^62 samples.
    fn is_good(&self) -> bool {
        (self.tag == VIDEO || self.tag == AUDIO) && self.samples < COUNT_LIMIT
    }

    /// The stamp of a record of the stream.
    pub(crate) fn stamp(&self, stream: u32) -> u64 {
        if stream == 0 {
            self.frames as u64
        } else {
            self.samples
        }
    }
}

/// The walk of the index, from 316: calls `each` with the record of every chunk that has one, and whether its payload is whole. Refuses
/// with 31.
#[inline(always)]
fn walk(file: &[u8], mut each: impl FnMut(Record, bool)) -> Answer<()> {
    let mut at = PRELUDE;
    let (mut frames, mut blocks, mut samples) = (0, 0, 0);
    while let Some((head, rest)) = head_at(file, at) {
        if head.is_trailer() {
            break;
        }
        let (tag, length) = (head.tag(), head.length());
        let count = match tag {
            VIDEO => 0,
            AUDIO => match rest.get(..length.min(8)) {
                Some(preamble) => count_of(preamble),
                None => break,
            },
            _ => return refuse(31, at as u64),
        };
        let record = Record {
            tag,
            offset: at as u32,
            frames,
            blocks,
            samples,
        };
        each(record, rest.len() >= length);
        if tag == VIDEO {
            frames += 1;
        } else {
            blocks += 1;
            samples += count;
        }
        at += 8 + length;
    }
    Ok(())
}

/// The records of a file as a list; the length of the file is not asked about.
pub fn records(file: &[u8]) -> Answer<Vec<Record>> {
    let mut records = Vec::new();
    walk(file, |record, _| records.push(record))?;
    Ok(records)
}

/// Writes the records of a file into a table, and gives their number. Refuses with 10, 31 and 40.
#[inline]
pub fn build_chunk_index(file: &[u8], table: &mut [u8]) -> Answer<u64> {
    within_limit(file)?;
    // A refusal must leave the table as it is, so the records are counted first.
    let mut count = 0;
    walk(file, |_, _| count += 1)?;
    let (room, _) = table.as_chunks_mut();
    ask(room.len() >= count, 40, 0)?;
    let mut room = room.iter_mut();
    walk(file, |record, _| {
        if let Some(bytes) = room.next() {
            *bytes = record.bytes();
        }
    })?;
    Ok(count as u64)
}

/// The records of a table that a call is given. Asks 41, then 43 of each record, from the first to the last, and calls `each` with the place
/// and the record if that passes.
#[inline(always)]
pub(crate) fn good_records(
    table: &[u8],
    mut each: impl FnMut(u64, Record),
) -> Answer<&[[u8; RECORD]]> {
    let (records, rest) = table.as_chunks();
    ask(rest.is_empty(), 41, 0)?;
    for (i, bytes) in records.iter().enumerate() {
        let (place, record) = ((RECORD * i) as u64, Record::read(bytes));
        ask(record.is_good(), 43, place)?;
        each(place, record);
    }
    Ok(records)
}

/// How many whole frames and blocks the index has records of. Refuses with 10 and 31.
#[inline]
pub fn summary(file: &[u8]) -> Answer<(u64, u64)> {
    within_limit(file)?;
    let (mut frames, mut blocks) = (0, 0);
    walk(file, |record, whole| {
        frames += u64::from(whole && record.tag == VIDEO);
        blocks += u64::from(whole && record.tag == AUDIO);
    })?;
    Ok((frames, blocks))
}
