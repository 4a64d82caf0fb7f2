//! One comparison of one call: the plain implementation, the library, and the original under the rules.

use plain::words::{WalkerWords, WriterWords, walker_of, walker_words, writer_of};
use plain::{AUDIO, Record, Refusal, TRAILER, VIDEO, Walker};

use crate::grammar;
use crate::interface::{LIBRARY, PLAIN};
use crate::original::{self, Told};
use crate::pages;
use crate::registers;
use crate::rules::{self, Expected};
use crate::said::{Said, Write, accepted, refused};
use crate::seeks;
use crate::sounds;
use crate::tally::{Tally, hex};

/// Whether the original agrees with what is expected of it. The rule that was needed is entered. Where the original cannot be
/// asked there is no answer on either side.
pub fn original_agrees<T: PartialEq>(
    tally: &mut Tally,
    expected: &Expected<T>,
    told: &Option<T>,
) -> bool {
    if let Some(rule) = expected.rule {
        tally.met(rule);
    }
    expected.answer == *told
}

/// The packed run length of so many frames.
pub fn from_frame_count(tally: &mut Tally, frames: u64, fps: u32) {
    let plain = PLAIN.run_length(frames, fps);
    let library = LIBRARY.run_length(frames, fps);
    let original = original::from_frame_count(frames, fps);
    let expected = rules::from_frame_count(frames, fps, plain);
    // 02: "Up to the cap the oracle is the Rust; above it, this rule."
    let stated = match expected.rule {
        None => original,
        Some(_) => u32::from_le_bytes(rules::LONGEST),
    };
    let library_same = plain == library && library == stated;
    let same = library_same & original_agrees(tally, &expected, &Some(original));
    tally.judge("from_frame_count", same, || {
        format!("{frames} {fps}: plain {plain}, library {library:?}, original {original}")
    });
}

pub fn validate_movi_interleave(tally: &mut Tally, tags: &[u32]) {
    let plain = PLAIN.validate_movi_interleave(tags);
    let library = LIBRARY.validate_movi_interleave(tags);
    let original = original::validate_movi_interleave(tags);
    let same = plain == library && original == Told::Said(plain);
    tally.judge("validate_movi_interleave", same, || {
        format!("{tags:x?}: plain {plain:?}, library {library:?}, original {original:?}")
    });
}

/// Both parses.
pub fn parse(tally: &mut Tally, file: &[u8]) {
    for strict in [false, true] {
        let plain = PLAIN.parse(file, strict);
        let library = LIBRARY.parse(file, strict);
        let original = original::parse(file, strict);
        let expected = rules::parse(plain);
        let same = (plain == library) & original_agrees(tally, &expected, &Some(original));
        let function = if strict { "parse_strict" } else { "parse" };
        tally.judge(function, same, || {
            format!(
                "{}: plain {plain:?}, library {library:?}, original {original:?}",
                hex(file)
            )
        });
    }
}

/// One read. The walker that the plain implementation leaves is stored.
pub fn next_packet(
    tally: &mut Tally,
    original: &mut original::File,
    file: &[u8],
    walker: &mut WalkerWords,
) -> Said<7> {
    let given = *walker;
    let plain = PLAIN.next_packet(file, walker);
    let mut library_walker = given;
    let library = LIBRARY.next_packet(file, &mut library_walker);
    let expected = rules::next_packet(file, walker_of(&given).ok(), plain, walker_of(walker).ok());
    let told = walker_of(&given).ok().map(|mut state| {
        let told = original.next_packet(&mut state);
        (told, state)
    });
    let left_same = library_walker == *walker;
    let same = (plain == library) & left_same & original_agrees(tally, &expected, &told);
    tally.judge("next_packet", same, || {
        format!(
            "{given:?} on {}: plain {plain:?} {walker:?}, library {library:?} {library_walker:?}, original {told:?}",
            hex(file)
        )
    });
    plain
}

/// What a read answers (number, and `out` up to the payload's length) and where it leaves the walker (cursor, end, cut, trailer), by the
/// header at its cursor: tag and length, or none where fewer than 8 bytes are left.
fn read_of(header: Option<(u32, u32)>, left: u64, at: u64) -> (u32, [u64; 5], [u64; 4]) {
    let none = u64::MAX;
    let cut = (0, [0; 5], [at, 1, 1, none]);
    let Some((tag, size)) = header else {
        return cut;
    };
    if [tag.to_le_bytes(), size.to_le_bytes()].concat() == TRAILER {
        return (0, [0; 5], [at, 1, 0, at]);
    }
    let stream = match tag {
        VIDEO => 0,
        AUDIO => 1,
        _ => return (31, [at, 0, 0, 0, 0], [at, 0, 0, none]),
    };
    let (start, size) = (at + 8, u64::from(size));
    if left < 8 + size {
        return cut;
    }
    (0, [0, 1, stream, start, size], [start + size, 0, 0, none])
}

/// One read of the library at an offset up to the file's length, by the header that the original's `ChunkHeader::parse` gives of the bytes
/// from there: 02 has the two agree. Neither the plain walk nor the original's is asked.
pub fn read_by_header(tally: &mut Tally, file: &[u8], at: usize) {
    let from_there = &file[at..];
    let header = match original::chunk_header(from_there) {
        Told::Said(Said { number: 0, out }) => Some((out[1] as u32, out[2] as u32)),
        Told::Said(Said { number: 29, .. }) => None,
        told => panic!("ChunkHeader::parse told {told:?}"),
    };
    let expected = read_of(header, from_there.len() as u64, at as u64);
    let mut walker = [at as u64, 0, 0, 0, 0, 0, u64::MAX];
    let Said { number, out } = LIBRARY.next_packet(file, &mut walker);
    let [place, packet, stream, start, length, ..] = out;
    let [cursor, _, _, _, end, cut, trailer] = walker;
    let got = (
        number,
        [place, packet, stream, start, length],
        [cursor, end, cut, trailer],
    );
    tally.equal("a read by its header", expected, got, || {
        format!("{at} on {}", hex(file))
    });
}

/// A lent buffer in the middle of a larger one, whose other entries must stay.
pub struct Guarded<T> {
    entries: Vec<T>,
    start: usize,
    end: usize,
}

impl<T: Copy + PartialEq + From<u8>> Guarded<T> {
    /// The start varies with the length, so that aligned and unaligned buffers are both lent.
    pub fn new(contents: &[T]) -> Self {
        Self::shifted(contents, contents.len())
    }

    /// The start varies with a number, for buffers that mostly have one length.
    pub fn shifted(contents: &[T], number: usize) -> Self {
        let start = 8 + number % 8;
        let mut entries = vec![0x5a.into(); start + contents.len() + 16];
        let end = start + contents.len();
        entries[start..end].copy_from_slice(contents);
        Self {
            entries,
            start,
            end,
        }
    }

    pub fn lent(&mut self) -> &mut [T] {
        &mut self.entries[self.start..self.end]
    }

    /// Whether the contents are these and nothing beside them was written.
    pub fn holds(&self, contents: &[T]) -> bool {
        let mut beside = self.entries[..self.start]
            .iter()
            .chain(&self.entries[self.end..]);
        self.entries[self.start..self.end] == *contents && beside.all(|entry| *entry == 0x5a.into())
    }
}

/// The index into a table of that length, whose bytes are filled with a pattern first.
pub fn build_chunk_index(
    tally: &mut Tally,
    original: &mut original::File,
    file: &[u8],
    table_len: usize,
) {
    let given = vec![0xc3; table_len];
    let mut table = given.clone();
    let plain = PLAIN.build_chunk_index(file, &mut table);
    let mut lent = Guarded::new(&given);
    let library = LIBRARY.build_chunk_index(file, lent.lent());
    let library_same = plain == library && lent.holds(&table);
    let original_same = index_agrees(tally, plain, &table, original.records(), file);
    tally.judge("build_chunk_index", library_same && original_same, || {
        format!(
            "table of {table_len} on {}: plain {plain:?} {}, library {library:?} {}, original agrees {original_same}",
            hex(file),
            hex(&table),
            hex(lent.lent())
        )
    });
}

/// A file whose index is refused with 31 at p: its first p bytes have one, with a record for each packet that reads of the whole file
/// give before they come to p.
pub fn before_unknown_tag(tally: &mut Tally, file: &[u8]) {
    let refusal = LIBRARY.build_chunk_index(file, &mut []);
    if refusal.number != 31 {
        return;
    }
    let before = &file[..refusal.out[0] as usize];
    let mut walker = Walker::fresh();
    let mut expected = Vec::new();
    loop {
        let position = walker;
        let Ok(Some(packet)) = plain::next_packet(file, &mut walker) else {
            break;
        };
        let record = plain::Record {
            tag: plain::stream_tag(packet.stream),
            offset: position.cursor as u32,
            frames: position.frames as u32,
            blocks: position.blocks as u32,
            samples: position.samples,
        };
        expected.extend(record.bytes());
    }
    let mut table = vec![0; expected.len()];
    let said = LIBRARY.build_chunk_index(before, &mut table);
    let count = (expected.len() / plain::RECORD) as u64;
    let same = said == accepted(&[count]) && table == expected;
    tally.judge("the index before an unknown tag", same, || {
        format!("{}: {said:?} {}", hex(before), hex(&table))
    });
}

/// The original has the records of the walk, which the table then begins with, or its refusal; a table that is too short is no concern
/// of it.
fn index_agrees(
    tally: &mut Tally,
    plain: Said<2>,
    table: &[u8],
    original: Result<Vec<Record>, Told<2>>,
    file: &[u8],
) -> bool {
    if plain.number == 40 {
        tally.met(rules::TABLE_ROOM);
    }
    match plain::records(file) {
        Ok(records) => {
            let bytes: Vec<u8> = records.iter().flat_map(Record::bytes).collect();
            original == Ok(records) && (plain.number == 40 || table.starts_with(&bytes))
        }
        Err(Refusal { number, place }) => {
            original == Err(Told::Said(refused(number, place))) && plain == refused(number, place)
        }
    }
}

pub fn seek_to_via_index(
    tally: &mut Tally,
    table: &[u8],
    walker: &mut WalkerWords,
    stream: u32,
    request: i64,
) {
    let given = *walker;
    let plain = PLAIN.seek_to_via_index(table, walker, stream, request);
    let mut library_walker = given;
    let library = LIBRARY.seek_to_via_index(table, &mut library_walker, stream, request);
    let expected = rules::seek_to_via_index(
        table,
        walker_of(&given).ok(),
        stream,
        request,
        plain,
        walker_of(walker).ok(),
    );
    let told = expected
        .answer
        .as_ref()
        .and(walker_of(&given).ok())
        .map(|state| told_seek(table, state, stream, request));
    let left_same = library_walker == *walker;
    let stands = seeks::stands(tally, table, &given, stream, library);
    let same = (plain == library) & left_same & stands & original_agrees(tally, &expected, &told);
    tally.judge("seek_to_via_index", same, || {
        format!(
            "stream {stream} request {request} walker {given:?} table {}: plain {plain:?} {walker:?}, library {library:?} {library_walker:?}, stands {stands}, original {told:?}",
            hex(table)
        )
    });
}

/// The public seek of the original on the same records. It asks about the stream before it looks at them: where it refuses the stream, the
/// library does, whatever the table is.
pub fn seek_to(tally: &mut Tally, table: &[u8], given: Walker, stream: u32, request: i64) {
    let private = told_seek(table, given, stream, request);
    let expected = rules::seek_to(stream, request, given, private);
    let mut state = given;
    let told = original::seek_to(&original::read_table(table), &mut state, stream, request);
    let library = LIBRARY.seek_to_via_index(table, &mut walker_words(&given), stream, request);
    let stream_same = told != Told::Number(42) || library == refused(42, 0);
    let told = Some((told, state));
    let same = original_agrees(tally, &expected, &told) & stream_same;
    tally.judge("seek_to (original)", same, || {
        format!(
            "stream {stream} request {request} walker {given:?} table {}: {told:?}, library {library:?}",
            hex(table)
        )
    });
}

/// Whether the original's `open` takes the settings.
pub fn open(tally: &mut Tally, settings: &plain::Settings) {
    let expected = rules::open(settings);
    let told = Some(original::open(settings));
    let same = original_agrees(tally, &expected, &told);
    tally.judge("open (original)", same, || {
        format!("{settings:?}: {told:?}")
    });
}

fn told_seek(table: &[u8], mut state: Walker, stream: u32, request: i64) -> (Told<2>, Walker) {
    let records = original::read_table(table);
    let told = original::seek_to_via_index(&records, &mut state, stream, request);
    (told, state)
}

/// A step of the register block, over copies of file and table, which must stay. Walker and block become those that the plain implementation
/// leaves. The original has no register block: what is said of every step takes its place.
pub fn register_step(
    tally: &mut Tally,
    file: &[u8],
    table: &[u8],
    walker: &mut WalkerWords,
    block: &mut [u8],
) {
    let (given, given_block) = (*walker, block.to_vec());
    let plain = PLAIN.register_step(file, table, walker, block);
    let mut library_walker = given;
    let [mut lent_file, mut lent_table] = [file, table].map(Guarded::new);
    let any = given_block.iter().map(|byte| usize::from(*byte)).sum();
    let mut lent = Guarded::shifted(&given_block, any);
    let (bytes, records) = (lent_file.lent(), lent_table.lent());
    let library = LIBRARY.register_step(bytes, records, &mut library_walker, lent.lent());
    let left_same = library_walker == *walker && lent.holds(block);
    let read_only = lent_file.holds(file) && lent_table.holds(table);
    let reader = registers::Reader {
        file,
        table,
        walker: given,
    };
    let left = (library_walker, &*lent.lent());
    let stands = registers::stands(&reader, &given_block, library, left);
    let same = plain == library && left_same && read_only && stands;
    tally.judge("register_step", same, || {
        format!(
            "block {} walker {given:?} table {} on {}: plain {plain:?} {walker:?} {}, library {library:?} {library_walker:?} {}, file and table stay {read_only}, stands {stands}",
            hex(&given_block),
            hex(table),
            hex(file),
            hex(block),
            hex(lent.lent())
        )
    });
}

/// The page of a table, into lent bytes. The original has none: what is said of every page takes its place.
pub fn print_index(tally: &mut Tally, table: &[u8], given: &[u8]) {
    let mut page = given.to_vec();
    let plain = PLAIN.print_index(table, &mut page);
    let mut lent = Guarded::new(given);
    let library = LIBRARY.print_index(table, lent.lent());
    let library_same = plain == library && lent.holds(&page);
    let stands = pages::stands(table, given, library, lent.lent());
    tally.judge("print_index", library_same && stands, || {
        format!(
            "page {} of table {}: plain {plain:?} {}, library {library:?} {}, stands {stands}",
            hex(given),
            hex(table),
            hex(&page),
            hex(lent.lent())
        )
    });
}

/// The samples of a block, into a lent buffer. The original does not decode: what is said of every block takes its place.
pub fn decode_block(tally: &mut Tally, block: &[u8], given: &[i16]) {
    let mut samples = given.to_vec();
    let plain = PLAIN.decode_block(block, &mut samples);
    let mut lent = Guarded::new(given);
    let library = LIBRARY.decode_block(block, lent.lent());
    let library_same = plain == library && lent.holds(&samples);
    let stands = sounds::stands(block, given, library, lent.lent());
    tally.judge("decode_block", library_same && stands, || {
        format!(
            "buffer {given:?} of block {}: plain {plain:?} {samples:?}, library {library:?} {:?}, stands {stands}",
            hex(block),
            lent.lent()
        )
    });
}

/// The summary. The original has none: it refuses what the original's index does, and else says what the original's reads give. The index
/// has a record more where the chunk of its last is cut.
pub fn summary(tally: &mut Tally, original: &mut original::File, file: &[u8]) {
    let plain = PLAIN.summary(file);
    let library = LIBRARY.summary(file);
    let (stated, records) = match original.records() {
        Err(Told::Said(said)) => (refused(said.number, said.out[0]), Vec::new()),
        Err(_) => (refused(u32::MAX, 0), Vec::new()),
        Ok(records) => (accepted(&original.drained()), records),
    };
    let last_cut = records.last().is_some_and(|last| {
        let payload = last.offset as usize + 8;
        file.len() - payload < plain::u32_at(file, payload - 4) as usize
    });
    let counted = library.out[1] + library.out[2] + last_cut as u64;
    let same = plain == library && plain == stated && records.len() as u64 == counted;
    tally.judge("summary", same, || {
        format!(
            "{}: plain {plain:?}, library {library:?}, original {stated:?}, {} records",
            hex(file),
            records.len()
        )
    });
}

/// The check, which the original lacks: it accepts what the grammar recognises, and its totals are the drain's.
pub fn check(tally: &mut Tally, file: &[u8]) -> bool {
    let plain = PLAIN.check(file);
    let library = LIBRARY.check(file);
    let finished = grammar::finished(file);
    let by_grammar = finished.as_deref().map(|chunks| drain_totals(file, chunks));
    let grammar_same = by_grammar == (plain.number == 0).then_some(plain);
    let same = plain == library && grammar_same;
    tally.judge("check", same, || {
        format!(
            "{}: plain {plain:?}, library {library:?}, grammar {by_grammar:?}",
            hex(file)
        )
    });
    finished.is_some()
}

/// What the check answers of a finished recording with these chunks.
pub fn drain_totals(file: &[u8], chunks: &[grammar::Chunk]) -> Said<6> {
    let tags: Vec<u32> = chunks.iter().map(|chunk| chunk.tag).collect();
    let packets = grammar::drain(file, chunks);
    let of = |stream| packets.iter().filter(move |(p, _)| p.stream == stream);
    accepted(&[
        of(0).count() as u64,
        of(1).count() as u64,
        of(1).map(|(packet, _)| packet.duration).sum(),
        file.len() as u64 - 8,
        plain::validate_movi_interleave(&tags).is_ok() as u64,
    ])
}

/// A writing call. State and buffer become those that the plain implementation leaves.
pub fn write(tally: &mut Tally, writer: &mut WriterWords, buf: &mut [u8], call: Write) -> Said<1> {
    let given = *writer;
    let mut lent = Guarded::new(buf);
    let mut original_buf = buf.to_vec();
    let expected = match writer_of(&given) {
        Err(_) => Expected {
            rule: Some(rules::STATE_WORDS),
            answer: None,
        },
        Ok(state) => rules::write(&state, buf, call),
    };
    let plain = PLAIN.write(writer, buf, call);
    let mut library_writer = given;
    let library = LIBRARY.write(&mut library_writer, lent.lent(), call);
    let library_same = plain == library && library_writer == *writer && lent.holds(buf);
    // 02: above the cap an accepted trailer puts the longest run length at 84.
    let capped = plain.number == 0 && expected.rule == Some(rules::RUN_LENGTH);
    let stated_same = !capped || buf[84..88] == rules::LONGEST;
    let told = expected
        .answer
        .as_ref()
        .and(writer_of(&given).ok())
        .map(|state| original::write(&state, &mut original_buf, call))
        .map(|wrote| (wrote, original_buf));
    let same = library_same & stated_same & original_agrees(tally, &expected, &told);
    let function = match call {
        Write::Header => "write_header",
        Write::Packet(..) => "write_packet",
        Write::Trailer => "write_trailer",
    };
    tally.judge(function, same, || {
        format!(
            "{call:?} on {given:?}, buffer of {}: plain {plain:?} {writer:?} {}, library {library:?} {library_writer:?} {}, original {:?} {}",
            buf.len(),
            hex(buf),
            hex(lent.lent()),
            told.as_ref().map(|(wrote, _)| wrote),
            told.as_ref().map_or(String::new(), |(_, bytes)| hex(bytes)),
        )
    });
    plain
}
