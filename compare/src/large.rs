//! Files, payloads and buffers at the file limit, and a printer's page and tables, a sound block and its samples, a register block and its
//! file and table past it. Their memory is zero until written, so they take little of it.

use plain::words::{WalkerWords, walker_words, writer_words};
use plain::{FILE_LIMIT as LIMIT, PRELUDE, REGISTERS, TRAILER, VIDEO, Walker, Writer};

use crate::grammar::Contents;
use crate::interface::{Interface, LIBRARY, PLAIN};
use crate::jumps;
use crate::lists::{self, WordsSide};
use crate::rules;
use crate::said::{Said, Write, accepted, refused};
use crate::tally::Tally;
use crate::{files, original};

/// A recording of exactly the limit: one frame that fills it. A byte more stands after it.
fn full_recording() -> Vec<u8> {
    let mut file = vec![0; LIMIT + 1];
    let prelude = plain::build_prelude_bytes(files::EXAMPLE_SETTINGS, 0);
    file[..PRELUDE].copy_from_slice(&prelude);
    let length = LIMIT - PRELUDE - 16;
    file[PRELUDE..PRELUDE + 4].copy_from_slice(&VIDEO.to_le_bytes());
    file[PRELUDE + 4..PRELUDE + 8].copy_from_slice(&(length as u32).to_le_bytes());
    file[LIMIT - 8..LIMIT].copy_from_slice(TRAILER);
    file
}

pub fn suite(tally: &mut Tally) {
    let mut file = full_recording();
    within(tally, &file[..LIMIT]);
    beyond(tally, &file);
    long_payload(tally, &file);
    lists_within(tally, &mut file[..LIMIT]);
    writes(tally, &mut file);
    pages(tally, &mut file);
    long_registers(tally, &mut file);
    long_block(tally, &mut file);
    long_samples(tally, &mut file);
    tally.equal("write_packet", 52, original::write_by_value(file), || {
        "a payload past the limit".into()
    });
    let file = full_recording();
    let records = plain::records(&file[..LIMIT]).ok();
    let told = original::records_by_value(file);
    tally.equal("build_chunk_index", records, told, || {
        "a file past the limit".into()
    });
    tally.met(rules::FILE_LIMIT);
}

fn judge<T: PartialEq + std::fmt::Debug>(
    tally: &mut Tally,
    name: &'static str,
    expected: T,
    plain: T,
    library: T,
) {
    let same = plain == expected && library == expected;
    tally.judge(name, same, || {
        format!("expected {expected:?}, plain {plain:?}, library {library:?}")
    });
}

/// A file at the limit is read like any other, and so is one that is cut a little below.
fn within(tally: &mut Tally, file: &[u8]) {
    let trailer = (LIMIT - 8) as u64;
    let totals = accepted(&[1, 0, 0, trailer, 0]);
    judge(
        tally,
        "check",
        totals,
        PLAIN.check(file),
        LIBRARY.check(file),
    );
    let counts = accepted(&[1, 0]);
    judge(
        tally,
        "summary",
        counts,
        PLAIN.summary(file),
        LIBRARY.summary(file),
    );
    let packet = accepted(&[1, 0, 324, (LIMIT - PRELUDE - 16) as u64, 0, 1]);
    let left = [trailer, 1, 0, 0, 0, 0, u64::MAX];
    read(tally, file, (packet, left));
    let block = [0, 1, 0xff, 1, 0, 0, 6, 7, 0, 0, 0, 0, 0, 0, 0, 0];
    step(tally, file, &[], 1, (packet, left, block));
    // Cut where its frame ends it gives the frame, and a byte before it does not.
    let lost = (accepted(&[]), [316, 0, 0, 0, 1, 1, u64::MAX]);
    for (length, first, frames, place) in [
        (LIMIT - 8, (packet, left), 1, trailer),
        (LIMIT - 9, lost, 0, 316),
    ] {
        let cut = &file[..length];
        read(tally, cut, first);
        let [plain, library] = [PLAIN, LIBRARY].map(|side| (side.check(cut), side.summary(cut)));
        let expected = (refused(60, place), accepted(&[frames, 0]));
        judge(tally, "check", expected, plain, library);
    }
}

/// A list on a file of the limit whose second frame has its last 12 bytes, and is cut.
fn lists_within(tally: &mut Tally, file: &mut [u8]) {
    let second = LIMIT - 20;
    for (offset, length) in [(PRELUDE, second - PRELUDE - 8), (second, 13)] {
        file[offset..offset + 4].copy_from_slice(&VIDEO.to_le_bytes());
        file[offset + 4..offset + 8].copy_from_slice(&(length as u32).to_le_bytes());
    }
    let (_, contents) = Contents::indexed(file);
    let list = jumps::telling_list(&contents.records);
    for (name, interface) in [(jumps::ANY[0], PLAIN), (jumps::ANY[2], LIBRARY)] {
        let mut side = WordsSide::new(interface, file, 2);
        let differs = lists::differs(&contents, &list, &mut side);
        tally.equal(name, None, differs, || format!("{list:?} at the limit"));
    }
}

fn read(tally: &mut Tally, file: &[u8], expected: (Said<7>, WalkerWords)) {
    let mut walker = walker_words(&Walker::fresh());
    let mut library_walker = walker;
    let plain = PLAIN.next_packet(file, &mut walker);
    let library = LIBRARY.next_packet(file, &mut library_walker);
    let library = (library, library_walker);
    judge(tally, "next_packet", expected, (plain, walker), library);
}

/// A frame's record: frames, blocks and samples before it differ.
const FRAME_RECORD: plain::Record = plain::Record {
    tag: VIDEO,
    offset: 316,
    frames: 2,
    blocks: 3,
    samples: 4,
};

/// A register block with that command, and the request 1; every bit may interrupt.
fn block_of(command: u8) -> [u8; REGISTERS] {
    [command, 0, 0xff, 0, 0, 9, 6, 7, 1, 0, 0, 0, 0, 0, 0, 0]
}

/// A step of such a block from a fresh walker: answer, walker and block after it.
fn step(
    tally: &mut Tally,
    file: &[u8],
    table: &[u8],
    command: u8,
    expected: (Said<7>, WalkerWords, [u8; REGISTERS]),
) {
    let [plain, library] = [PLAIN, LIBRARY].map(|side| {
        let mut walker = walker_words(&Walker::fresh());
        let mut block = block_of(command);
        let said = side.register_step(file, table, &mut walker, &mut block);
        (said, walker, block)
    });
    judge(tally, "register_step", expected, plain, library);
}

/// Of a file past the limit a read is refused, which the block shows; a seek and the command 0 do not ask about it.
fn steps_beyond(tally: &mut Tally, file: &[u8]) {
    let fresh = walker_words(&Walker::fresh());
    let at_record = [316, 2, 4, 3, 0, 0, u64::MAX];
    let at_end = [324, 3, 4, 3, 1, 0, u64::MAX];
    for (command, walker, [status, refusal, stamp]) in [
        (0, fresh, [0, 0, 1]),
        (1, fresh, [8, 10, 1]),
        (2, at_record, [0, 0, 2]),
        (3, at_end, [2, 0, 4]),
    ] {
        let left = [
            0, status, 0xff, status, 0, refusal, 6, 7, stamp, 0, 0, 0, 0, 0, 0, 0,
        ];
        let expected = (accepted(&[]), walker, left);
        step(tally, file, &FRAME_RECORD.bytes(), command, expected);
    }
}

/// A byte more than the limit is 10 everywhere. The original has no limit: it answers as for the file without that byte.
fn beyond(tally: &mut Tally, file: &[u8]) {
    judge(
        tally,
        "check",
        refused(10, 0),
        PLAIN.check(file),
        LIBRARY.check(file),
    );
    judge(
        tally,
        "summary",
        refused(10, 0),
        PLAIN.summary(file),
        LIBRARY.summary(file),
    );
    let fresh = walker_words(&Walker::fresh());
    read(tally, file, (refused(10, 0), fresh));
    steps_beyond(tally, file);
    let (mut table, mut library_table) = ([0xc3; 24], [0xc3; 24]);
    let plain = PLAIN.build_chunk_index(file, &mut table);
    let library = LIBRARY.build_chunk_index(file, &mut library_table);
    let library = (library, library_table);
    let expected = (refused(10, 0), [0xc3; 24]);
    judge(
        tally,
        "build_chunk_index",
        expected,
        (plain, table),
        library,
    );
    for strict in [false, true] {
        let (plain, library) = (PLAIN.parse(file, strict), LIBRARY.parse(file, strict));
        judge(tally, "parse", refused(10, 0), plain, library);
        let told = original::parse(file, strict);
        let unlimited = original::Told::Said(PLAIN.parse(&file[..LIMIT], strict));
        tally.equal("parse", unlimited, told, || "a file past the limit".into());
        tally.met(rules::FILE_LIMIT);
    }
}

/// A payload of a byte more than its length field can say.
fn long_payload(tally: &mut Tally, payload: &[u8]) {
    let mut writer = Writer::fresh(files::EXAMPLE_SETTINGS);
    let mut buf = [0xc3; 400];
    writer.write_header(&mut buf).unwrap();
    let given = writer_words(&writer);
    let (mut plain_writer, mut library_writer) = (given, given);
    let mut library_buf = buf;
    let expected = (refused(52, 316), given, buf);
    let call = Write::Packet(payload, 0);
    let plain = PLAIN.write(&mut plain_writer, &mut buf, call);
    let library = LIBRARY.write(&mut library_writer, &mut library_buf, call);
    let library = (library, library_writer, library_buf);
    judge(
        tally,
        "write_packet",
        expected,
        (plain, plain_writer, buf),
        library,
    );
}

/// Writes that end at the limit, and a byte after it, in a buffer that reaches further.
fn writes(tally: &mut Tally, buf: &mut Vec<u8>) {
    buf.resize(LIMIT + 100, 0);
    for (call, past) in [
        (Write::Packet(b"abc", 0), 11),
        (Write::Trailer, 8),
        (Write::Packet(b"", 1), 8),
    ] {
        for over in [0, 1] {
            let mut writer = Writer::fresh(files::EXAMPLE_SETTINGS);
            writer.begun = true;
            writer.written = (LIMIT - past + over) as u64;
            write_at_limit(tally, &writer, buf, call);
        }
    }
}

/// The bytes that such a write could change.
fn tail(buf: &[u8]) -> Vec<u8> {
    buf[LIMIT - 20..].to_vec()
}

fn write_at_limit(tally: &mut Tally, given: &Writer, buf: &mut Vec<u8>, call: Write) {
    let words = writer_words(given);
    let fill = |buf: &mut [u8]| buf[LIMIT - 20..].fill(0xc3);
    fill(buf);
    let mut writer = words;
    let said = PLAIN.write(&mut writer, buf, call);
    let plain = (said, writer, tail(buf));
    fill(buf);
    let mut writer = words;
    let said = LIBRARY.write(&mut writer, buf, call);
    let library = (said, writer, tail(buf));
    let same = library == plain;
    tally.judge("writes at the limit", same, || {
        format!("{call:?} on {words:?}: plain {plain:?}, library {library:?}")
    });
    // The original knows no limit: it writes.
    fill(buf);
    let wrote = original::write(given, buf, call);
    let accepted = wrote.number == 0;
    let same = accepted && (plain.0.number == 54 || tail(buf) == plain.2);
    tally.judge("writes at the limit", same, || {
        format!("original {wrote:?}")
    });
    if plain.0.number == 54 {
        tally.met(rules::WRITE_LIMIT);
    }
}

/// The least length that needs more than 32 bits.
const WRAPS: usize = 1 << 32;

/// A page and tables whose lengths need more than 32 bits: what 32 bits keep of each would be answered otherwise.
fn pages(tally: &mut Tally, bytes: &mut [u8]) {
    let mut print = |interface: Interface| {
        bytes[..80].fill(0xc3);
        let said = interface.print_index(&FRAME_RECORD.bytes(), &mut bytes[..WRAPS + 39]);
        (said, bytes[..80].to_vec())
    };
    let line = b"V       316         2                  4";
    let page = [&line[..], &[0xc3; 40]].concat();
    let expected = (accepted(&[1]), page);
    judge(tally, "print_index", expected, print(PLAIN), print(LIBRARY));
    for (table_len, number) in [(WRAPS + 8, 43), (WRAPS + 24, 41)] {
        let table = &bytes[..table_len];
        let [plain, library] = [PLAIN, LIBRARY].map(|side| side.print_index(table, &mut []));
        judge(tally, "print_index", refused(number, 0), plain, library);
    }
}

/// A block of registers, and tables of its seek, whose lengths need more than 32 bits: what 32 bits keep of each would be answered otherwise.
fn long_registers(tally: &mut Tally, bytes: &mut [u8]) {
    let given = block_of(1);
    let mut run = |side: Interface| {
        bytes[..REGISTERS].copy_from_slice(&given);
        let mut walker = walker_words(&Walker::fresh());
        let said = side.register_step(&[], &[], &mut walker, &mut bytes[..WRAPS + REGISTERS]);
        (said, walker, bytes[..REGISTERS].to_vec())
    };
    let fresh = walker_words(&Walker::fresh());
    let expected = (refused(74, 0), fresh, given.to_vec());
    judge(tally, "register_step", expected, run(PLAIN), run(LIBRARY));
    bytes[..REGISTERS].fill(0);
    for (table_len, number) in [(WRAPS + 8, 43), (WRAPS + 24, 41)] {
        let left = [0, 8, 0xff, 8, 0, number, 6, 7, 1, 0, 0, 0, 0, 0, 0, 0];
        let expected = (accepted(&[]), fresh, left);
        step(tally, &[], &bytes[..table_len], 2, expected);
    }
}

/// A block whose length, or twice the bytes after its preamble, needs more than 32 bits: what 32 bits keep of either
/// would be 25 or 72.
fn long_block(tally: &mut Tally, bytes: &mut [u8]) {
    for length in [WRAPS / 2 + 8, WRAPS, WRAPS + 7, WRAPS + 8] {
        for count in [2, WRAPS / 2, WRAPS - 1] {
            bytes[..8].copy_from_slice(&((count as u64) << 32).to_le_bytes());
            bytes[8] = 0x7f;
            let decode = |side: Interface| {
                let mut samples = [0x3cc3; 3];
                let said = side.decode_block(&bytes[..length], &mut samples);
                (said, samples)
            };
            let expected = match count {
                2 => (accepted(&[2]), [11, -19, 0x3cc3]),
                _ => (refused(73, 0), [0x3cc3; 3]),
            };
            judge(
                tally,
                "decode_block",
                expected,
                decode(PLAIN),
                decode(LIBRARY),
            );
        }
    }
}

/// A buffer of samples whose bytes are more than 32 bits can count: what they keep would be 73.
fn long_samples(tally: &mut Tally, bytes: &mut [u8]) {
    let block = [0, 0, 0, 0, 4, 0, 0, 0, 0x7f, 0x08];
    // SAFETY: any two bytes are a number.
    let (_, samples, _) = unsafe { bytes.align_to_mut::<i16>() };
    let samples = &mut samples[..WRAPS / 2 + 3];
    let mut decode = |side: Interface| {
        samples[..8].fill(0x3cc3);
        let said = side.decode_block(&block, samples);
        (said, samples[..5].to_vec())
    };
    let expected = (accepted(&[4]), vec![11, -19, -15, -18, 0x3cc3]);
    judge(
        tally,
        "decode_block",
        expected,
        decode(PLAIN),
        decode(LIBRARY),
    );
}
