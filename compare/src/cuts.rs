//! Which packets survive where a finished recording is cut to a length (document 02, M-107). What must be told of its first so many bytes is
//! worked out from the list of its chunks and from what the library tells of the whole file: no walk over a cut file is asked for it.

use plain::words::WalkerWords;
use plain::{AUDIO, RECORD, VIDEO};

use crate::calls::{Guarded, drain_totals, original_agrees};
use crate::grammar::{self, Chunk, recorded_part};
use crate::interface::{Interface, LIBRARY, PLAIN};
use crate::lists::{OriginalSide, Side, WordsSide};
use crate::random::Random;
use crate::said::{Said, accepted, refused, said_read};
use crate::tally::{Tally, hex};
use crate::{files, original, rules};

/// Where each tag, size and body of the prelude that a parse asks about starts and ends (docs/FORMAT.md, 2 and 4).
const ITEMS: [(u64, u64); 22] = [
    (0, 4),     // `RIFF`
    (8, 12),    // `AMV `, after a size that is free
    (12, 16),   // `LIST`
    (20, 24),   // `hdrl`
    (24, 28),   // `amvh`
    (28, 32),   // the size 56
    (32, 88),   // the body
    (88, 92),   // `LIST`
    (96, 100),  // `strl`
    (100, 104), // `strh`
    (104, 108), // the size 56
    (164, 168), // `strf`
    (168, 172), // the size 36
    (208, 212), // `LIST`
    (216, 220), // `strl`
    (220, 224), // `strh`
    (224, 228), // the size 48
    (276, 280), // `strf`
    (280, 284), // the size 20
    (284, 304), // the body
    (304, 308), // `LIST`
    (312, 316), // `movi`
];

/// What is told of a file.
#[derive(Debug, PartialEq)]
struct Told {
    /// Not strict, and strict.
    parses: [Said<16>; 2],
    check: Said<6>,
    summary: Said<3>,
    index: Said<2>,
    /// The records, and what was lent beyond them.
    table: Vec<u8>,
    /// Reads from a fresh walker.
    reads: Vec<(Said<7>, WalkerWords)>,
}

/// What a side tells of a file, with so many reads and room for so many records.
fn told(side: Interface, file: &[u8], reads: usize, records: usize) -> Told {
    let mut table = vec![0xc3; RECORD * records];
    Told {
        parses: [false, true].map(|strict| side.parse(file, strict)),
        check: side.check(file),
        summary: side.summary(file),
        index: side.build_chunk_index(file, &mut table),
        table,
        reads: reads_of(&mut WordsSide::new(side, file, 0), reads),
    }
}

/// So many reads, each with the walker that it leaves.
fn reads_of(side: &mut dyn Side, count: usize) -> Vec<(Said<7>, WalkerWords)> {
    (0..count).map(|_| (side.read(), side.walker())).collect()
}

/// A finished recording, its chunks, and what the library tells of the whole of it.
struct Recording<'a> {
    file: &'a [u8],
    chunks: Vec<Chunk>,
    whole: Told,
}

impl<'a> Recording<'a> {
    /// The whole is accepted by both parses, and its packets are those of its chunks.
    fn new(tally: &mut Tally, file: &'a [u8]) -> Self {
        let chunks = grammar::finished(file).expect("a finished recording");
        let whole = told(LIBRARY, file, chunks.len(), chunks.len());
        let packets = grammar::drain(file, &chunks).into_iter();
        let packets = packets.map(|(packet, _)| said_read(Ok(Some(packet))));
        let drained = packets.eq(whole.reads.iter().map(|(said, _)| *said));
        let parsed = whole.parses.iter().all(|said| said.number == 0);
        tally.judge("recording to be cut", parsed && drained, || {
            format!("{whole:?} of {}", hex(file))
        });
        Self {
            file,
            chunks,
            whole,
        }
    }

    /// Of a list with an item for each chunk, the items of those chunks whose header and that much of the payload end within n bytes. All
    /// chunks are looked at.
    fn within<T: Copy>(&self, n: u64, part: impl Fn(&Chunk) -> u64, items: &[T]) -> Vec<T> {
        let there = |chunk: &Chunk| chunk.offset + 8 + part(chunk) <= n;
        let pairs = self.chunks.iter().zip(items);
        let kept = pairs.filter(|(chunk, _)| there(chunk));
        kept.map(|(_, item)| *item).collect()
    }

    /// The offset of the first chunk that does not end within n bytes; where all do, the trailer's.
    fn first_lost(&self, n: u64) -> u64 {
        let mut chunks = self.chunks.iter();
        let lost = chunks.find(|chunk| chunk.offset + 8 + chunk.length > n);
        lost.map_or(self.file.len() as u64 - 8, |chunk| chunk.offset)
    }

    /// What must be told of the first n bytes.
    fn expected(&self, n: u64) -> Told {
        let mut reads = self.within(n, |chunk| chunk.length, &self.whole.reads);
        let packets = reads.iter().map(|(said, _)| said.out);
        let of = |stream| packets.clone().filter(move |out| out[2] == stream);
        let (frames, blocks) = (of(0).count() as u64, of(1).count() as u64);
        let samples = of(1).map(|out| out[6]).sum();
        let stop = self.first_lost(n);
        let cut = n < self.file.len() as u64;
        let trailer = if cut { u64::MAX } else { stop };
        let walker = [stop, frames, samples, blocks, 1, cut as u64, trailer];
        // End, and once more the same.
        reads.extend([(accepted(&[]), walker); 2]);
        let records = self.within(n, recorded_part, self.whole.table.as_chunks::<RECORD>().0);
        let mut table = records.concat();
        table.resize(self.whole.table.len(), 0xc3);
        let (parses, check) = match ITEMS.iter().find(|(_, end)| *end > n) {
            Some((start, _)) => ([refused(11, *start); 2], refused(11, *start)),
            None if cut => (self.whole.parses, refused(60, stop)),
            None => (self.whole.parses, drain_totals(self.file, &self.chunks)),
        };
        Told {
            parses,
            check,
            summary: accepted(&[frames, blocks]),
            index: accepted(&[records.len() as u64]),
            table,
            reads,
        }
    }
}

/// A recording cut to n bytes: what each side tells. The cut file is a copy, so that other bytes stand after it.
fn cut_to(tally: &mut Tally, recording: &Recording, n: u64) {
    let mut lent = Guarded::new(&recording.file[..n as usize]);
    let cut = &*lent.lent();
    let expected = recording.expected(n);
    let (reads, records) = (expected.reads.len(), recording.chunks.len());
    let input = || format!("{n} bytes of {}", hex(recording.file));
    let [plain, library] = [PLAIN, LIBRARY].map(|side| told(side, cut, reads, records));
    tally.equal("cut recording on plain", &expected, &plain, input);
    tally.equal("cut recording on library", &expected, &library, input);
    let same = original_tells(tally, cut, &expected);
    tally.judge("cut recording on original", same, input);
}

/// Whether the original tells the same. It has no check and no summary, and where a size is cut its parse panics, which is a rule.
fn original_tells(tally: &mut Tally, cut: &[u8], expected: &Told) -> bool {
    let parsed = [false, true].map(|strict| {
        let stated = rules::parse(expected.parses[strict as usize]);
        original_agrees(tally, &stated, &Some(original::parse(cut, strict)))
    });
    let mut side = OriginalSide::new(cut);
    let reads = reads_of(&mut side, expected.reads.len());
    let records = &expected.table[..RECORD * expected.index.out[1] as usize];
    let indexed = side.records() == Some(&original::read_table(records));
    parsed == [true, true] && reads == expected.reads && indexed
}

/// A recording cut to every length.
pub fn everywhere(tally: &mut Tally, file: &[u8]) {
    let recording = Recording::new(tally, file);
    for n in 0..=file.len() as u64 {
        cut_to(tally, &recording, n);
    }
}

/// The lengths about a chunk: where it starts, where its header ends, 8 bytes of its payload and all of it; each, and a byte less and more.
fn about(chunk: &Chunk) -> impl Iterator<Item = u64> {
    let (start, payload) = (chunk.offset, chunk.offset + 8);
    let edges = [start, payload, payload + 8, payload + chunk.length];
    edges.into_iter().flat_map(|edge| edge - 1..=edge + 1)
}

/// The nested recording at every length; and one with payloads whose lengths take two bytes and three, about each of its chunks.
pub fn short(tally: &mut Tally) {
    everywhere(tally, &files::nested());
    let (two, three) = (&[1; 300][..], &[2; 70_000][..]);
    let long = &files::recording(&[(AUDIO, two), (VIDEO, three), (AUDIO, three), (VIDEO, two)]);
    let long = Recording::new(tally, long);
    for n in long.chunks.iter().flat_map(about) {
        cut_to(tally, &long, n);
    }
}

/// Lengths to cut a recording to: inside its prelude and after it, in its trailer or just before, about one of its chunks, and the whole.
pub fn lengths(random: &mut Random, chunks: &[Chunk], len: u64) -> Vec<u64> {
    let (early, late) = (random.below(316), 316 + random.below(len - 316));
    let mut lengths = vec![early, late, len - 1 - random.below(9), len];
    if !chunks.is_empty() {
        lengths.extend(about(&random.pick(chunks)).map(|n| n.min(len)));
    }
    lengths
}

/// A recording cut to telling lengths.
pub fn round(tally: &mut Tally, random: &mut Random, file: &[u8]) {
    let recording = Recording::new(tally, file);
    for n in lengths(random, &recording.chunks, file.len() as u64) {
        cut_to(tally, &recording, n);
    }
}
