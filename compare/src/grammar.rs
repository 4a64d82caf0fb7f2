//! The finished recording as 01's grammar has it, the chunks of any other file, and what they say: this shares no walk with the plain
//! implementation's check, reads and index.

use plain::{AUDIO, PRELUDE, Packet, Record, TRAILER, VIDEO, parse_strict};

use crate::pieces;

/// A chunk.
#[derive(Clone, Copy, Debug, PartialEq, Eq)]
pub struct Chunk {
    pub tag: u32,
    pub offset: u64,
    pub length: u64,
}

/// The grammar as a recogniser: the chunks of a finished file, or none.
pub fn finished(file: &[u8]) -> Option<Vec<Chunk>> {
    parse_strict(file).ok()?;
    let mut rest = &file[PRELUDE..];
    let mut chunks = Vec::new();
    while rest != TRAILER {
        let tag = u32::from_le_bytes(*rest.first_chunk()?);
        let length = u32::from_le_bytes(*rest.get(4..)?.first_chunk()?);
        if tag != VIDEO && tag != AUDIO {
            return None;
        }
        chunks.push(Chunk {
            tag,
            offset: (file.len() - rest.len()) as u64,
            length: length as u64,
        });
        rest = rest.get(8..)?.get(length as usize..)?;
    }
    Some(chunks)
}

/// Where the walk over a file stops.
enum Stop {
    /// The file runs out: fewer than 8 bytes are left, or the last chunk is cut.
    Short,
    /// The offset of the trailer.
    Trailer(u64),
    /// The offset of a tag that is neither of the two.
    Unknown(u64),
}

/// The chunks that stand in any file from 316 on (docs/FORMAT.md, 1 and 6), of which the last may be cut, and where their walk stops.
fn walk(file: &[u8]) -> (Vec<Chunk>, Stop) {
    let mut chunks = Vec::new();
    let mut offset = PRELUDE as u64;
    loop {
        let rest = file.get(offset as usize..).unwrap_or_default();
        let Some(header) = rest.first_chunk::<8>() else {
            return (chunks, Stop::Short);
        };
        if header == TRAILER {
            return (chunks, Stop::Trailer(offset));
        }
        let halves = [header.first_chunk(), header.last_chunk()];
        let [tag, length] = halves.map(|half| u32::from_le_bytes(*half.unwrap()));
        if tag != VIDEO && tag != AUDIO {
            return (chunks, Stop::Unknown(offset));
        }
        let length = u64::from(length);
        chunks.push(Chunk {
            tag,
            offset,
            length,
        });
        offset += 8 + length;
    }
}

/// The full drain, with the position before each packet: offset, frames, samples, blocks. The position is right for a last chunk that is cut
/// too.
pub fn drain(file: &[u8], chunks: &[Chunk]) -> Vec<(Packet, [u64; 4])> {
    let (mut frames, mut samples, mut blocks) = (0, 0, 0);
    let mut packets = Vec::new();
    for chunk in chunks {
        let before = [chunk.offset, frames, samples, blocks];
        let start = chunk.offset + 8;
        let end = (start + chunk.length).min(file.len() as u64);
        let payload = &file[start as usize..end as usize];
        let video = chunk.tag == VIDEO;
        let packet = Packet {
            stream: if video { 0 } else { 1 },
            start,
            length: chunk.length,
            stamp: if video { frames } else { samples },
            duration: if video { 1 } else { count_of(payload) },
        };
        packets.push((packet, before));
        if video {
            frames += 1;
        } else {
            blocks += 1;
            samples += packet.duration;
        }
    }
    packets
}

/// The count of a block by its preamble, 0 where it is too short to have one.
fn count_of(payload: &[u8]) -> u64 {
    pieces::parse_preamble(payload).map_or(0, |(_, count, _)| count as u64)
}

/// How much of a chunk's payload its record asks for.
pub fn recorded_part(chunk: &Chunk) -> u64 {
    chunk.length.min(if chunk.tag == VIDEO { 0 } else { 8 })
}

/// What lists of reads and jumps meet in a file. In a finished recording packets and records are both its drain.
#[derive(Clone, Debug, PartialEq, Eq)]
pub struct Contents {
    /// What reads give: the packets of the whole chunks.
    pub packets: Vec<Packet>,
    /// What jumps look through: the records of the whole chunks, and of the one that is cut where it has one.
    pub records: Vec<Record>,
    /// The offset of the trailer, none where the file ends before it.
    pub trailer: Option<u64>,
}

impl Contents {
    /// Of the first n bytes of a file with these chunks, and with that trailer, if it is among them. All chunks are looked at.
    fn new(file: &[u8], chunks: &[Chunk], n: u64, trailer: Option<u64>) -> Self {
        let drained = drain(file, chunks);
        let there = |part: fn(&Chunk) -> u64| {
            let all = chunks.iter().zip(&drained);
            all.filter(move |(chunk, _)| chunk.offset + 8 + part(chunk) <= n)
        };
        let record = |tag, [offset, frames, samples, blocks]: [u64; 4]| Record {
            tag,
            offset: offset as u32,
            frames: frames as u32,
            blocks: blocks as u32,
            samples,
        };
        Self {
            packets: there(|chunk| chunk.length)
                .map(|(_, (packet, _))| *packet)
                .collect(),
            records: there(recorded_part)
                .map(|(chunk, (_, before))| record(chunk.tag, *before))
                .collect(),
            trailer,
        }
    }

    /// Of a finished recording with these chunks, cut to n bytes: this asks no walk over the cut file.
    pub fn cut(file: &[u8], chunks: &[Chunk], n: u64) -> Self {
        let len = file.len() as u64;
        Self::new(file, chunks, n, (n == len).then_some(len - 8))
    }

    /// Of a finished recording.
    pub fn finished(file: &[u8]) -> Self {
        let chunks = finished(file).expect("a finished recording");
        Self::cut(file, &chunks, file.len() as u64)
    }

    /// Of the part of any file that has an index: all of it, or the bytes before an unknown tag.
    pub fn indexed(file: &[u8]) -> (&[u8], Self) {
        let (chunks, stop) = walk(file);
        let (part, trailer) = match stop {
            Stop::Short => (file, None),
            Stop::Trailer(offset) => (file, Some(offset)),
            Stop::Unknown(offset) => (&file[..offset as usize], None),
        };
        let contents = Self::new(part, &chunks, part.len() as u64, trailer);
        (part, contents)
    }
}
