//! Answers that the original does not have. Each is written out here from 01's text, those with number 1 from the
//! header of the C interface, those of a page, of a sound block and of a run length above the cap from 02's text; the plain implementation
//! must answer the same before a case is stored, so that two readings of each text meet.

use plain::words::{WalkerWords, WriterWords};
use plain::{AUDIO, VIDEO};

use super::{
    BUILD_CHUNK_INDEX, CHECK, Call, Cases, DECODE_BLOCK, LISTING, NEXT_PACKET, PARSE, PRINT_INDEX,
    SEEK_TO_VIA_INDEX, SUMMARY, WRITE_TRAILER, add_run_length, request_words, written_parts,
};
use crate::interface::PLAIN;
use crate::said::{Said, Write, accepted, refused};
use crate::{files, listing, sounds};

/// 2^62, and a number past it.
const MOST: u64 = 4_611_686_018_427_387_904;
pub const OVER: u64 = 4_611_686_018_427_387_905;

/// 10^18, and 2^64 - 1.
const MANY: u64 = 1_000_000_000_000_000_000;
pub const LAST: u64 = 18_446_744_073_709_551_615;

/// A walker's word where no trailer was met.
pub const NOT_MET: u64 = LAST;

pub const FRESH: WalkerWords = [316, 0, 0, 0, 0, 0, NOT_MET];

/// A call of a whole file, or of a table to read.
pub fn call_of<'a>(function: (u8, &'static str), bytes: &'a [u8]) -> Call<'a> {
    Call {
        function,
        bytes,
        lent: &[],
        parameters: [0; 3],
        state: &[],
    }
}

fn parse_strict(cases: &mut Cases, file: &[u8], stated: Said<16>) {
    assert_eq!(PLAIN.parse(file, true), stated);
    let call = Call {
        parameters: [1, 0, 0],
        ..call_of(PARSE, file)
    };
    cases.add(call, stated.number.into(), &stated.out, &[]);
}

fn summary(cases: &mut Cases, file: &[u8], stated: Said<3>) {
    assert_eq!(PLAIN.summary(file), stated);
    let call = call_of(SUMMARY, file);
    cases.add(call, stated.number.into(), &stated.out, &[]);
}

fn check(cases: &mut Cases, file: &[u8], stated: Said<6>) {
    assert_eq!(PLAIN.check(file), stated);
    let call = call_of(CHECK, file);
    cases.add(call, stated.number.into(), &stated.out, &[]);
}

fn listing(cases: &mut Cases, file: &[u8], text: &str) {
    assert_eq!(listing::of(file), text);
    cases.add(call_of(LISTING, file), 0, &[], text.as_bytes());
}

/// A read, and the walker after it.
fn next_packet(
    cases: &mut Cases,
    file: &[u8],
    given: WalkerWords,
    stated: Said<7>,
    after: WalkerWords,
) {
    let mut walker = given;
    let said = PLAIN.next_packet(file, &mut walker);
    assert_eq!((said, walker), (stated, after));
    let call = Call {
        state: &given,
        ..call_of(NEXT_PACKET, file)
    };
    let words = [&stated.out[..], &after[..]].concat();
    cases.add(call, stated.number.into(), &words, &[]);
}

/// A jump of a stream to a request, and the walker after it.
fn seek_to_via_index(
    cases: &mut Cases,
    table: &[u8],
    given: WalkerWords,
    (stream, request): (u32, i64),
    stated: Said<2>,
    after: WalkerWords,
) {
    let mut walker = given;
    let said = PLAIN.seek_to_via_index(table, &mut walker, stream, request);
    assert_eq!((said, walker), (stated, after));
    let [request, mark] = request_words(request);
    let call = Call {
        parameters: [stream.into(), request, mark],
        state: &given,
        ..call_of(SEEK_TO_VIA_INDEX, table)
    };
    let words = [&stated.out[..], &after[..]].concat();
    cases.add(call, stated.number.into(), &words, &[]);
}

/// A refused index: every byte of the table stays.
fn refused_index(cases: &mut Cases, file: &[u8], room: usize, number: u32, place: u64) {
    let lent = vec![0xc3; room];
    let mut table = lent.clone();
    let said = PLAIN.build_chunk_index(file, &mut table);
    assert_eq!((said, &table), (refused(number, place), &lent));
    let call = Call {
        lent: &lent,
        ..call_of(BUILD_CHUNK_INDEX, file)
    };
    cases.add(call, number.into(), &[place, 0], &lent);
}

/// A page of so many bytes, and the lines that it begins with after the call; every other byte stays.
fn print_index(cases: &mut Cases, table: &[u8], room: usize, stated: Said<2>, lines: &[&str]) {
    let lent = vec![0xc3; room];
    let lines = lines.concat();
    let after = [lines.as_bytes(), &lent[lines.len()..]].concat();
    let mut page = lent.clone();
    let said = PLAIN.print_index(table, &mut page);
    assert_eq!((said, &page), (stated, &after));
    let call = Call {
        lent: &lent,
        ..call_of(PRINT_INDEX, table)
    };
    cases.add(call, stated.number.into(), &stated.out, &after);
}

/// The samples of a block in a buffer of so many entries, each of which is 77 before the call: those past the count stay. The program prints a
/// sample as the number of its 16 bits.
fn decode_block(cases: &mut Cases, block: &[u8], room: usize, stated: Said<2>, samples: &[i16]) {
    let after = [samples, &vec![77; room - samples.len()]].concat();
    let mut lent = vec![77; room];
    let said = PLAIN.decode_block(block, &mut lent);
    assert_eq!((said, &lent), (stated, &after));
    let call = Call {
        parameters: [room as u64, 0, 0],
        ..call_of(DECODE_BLOCK, block)
    };
    let bits = after.iter().map(|sample| u64::from(*sample as u16));
    let words: Vec<u64> = stated.out.into_iter().chain(bits).collect();
    cases.add(call, stated.number.into(), &words, &[]);
}

/// A refused writing call: every word of the state and every byte of the buffer stays.
fn refused_write(
    cases: &mut Cases,
    given: WriterWords,
    room: usize,
    write: Write,
    number: u32,
    place: u64,
) {
    let lent = vec![0xa5; room];
    let (mut writer, mut buf) = (given, lent.clone());
    let said = PLAIN.write(&mut writer, &mut buf, write);
    assert_eq!(
        (said, writer, &buf),
        (refused(number, place), given, &lent),
        "{write:?}"
    );
    let (function, bytes, stream) = written_parts(write);
    let call = Call {
        function,
        bytes,
        lent: &lent,
        parameters: [stream.into(), 0, 0],
        state: &given,
    };
    let words = [&[place][..], &given[..]].concat();
    cases.add(call, number.into(), &words, &lent);
}

/// A frame of so many bytes, or a block of so many with a count, which it has from 8 bytes on.
enum Chunk {
    V(usize),
    A(usize, u32),
}
use Chunk::{A, V};

fn recording(chunks: &[Chunk]) -> Vec<u8> {
    let mut file = after_prelude(b"");
    for chunk in chunks {
        match *chunk {
            V(length) => files::push_chunk(&mut file, VIDEO, &vec![0xd8; length]),
            A(length, count) => {
                let mut payload = vec![0x11; length];
                if length >= 8 {
                    payload[4..8].copy_from_slice(&count.to_le_bytes());
                }
                files::push_chunk(&mut file, AUDIO, &payload);
            }
        }
    }
    file.extend(b"AMV_END_");
    file
}

/// E's prelude, and then these bytes.
fn after_prelude(bytes: &[u8]) -> Vec<u8> {
    [&files::example()[..316], bytes].concat()
}

/// E with one byte changed.
pub fn example_with(at: usize, byte: u8) -> Vec<u8> {
    let mut file = files::example();
    assert_ne!(file[at], byte);
    file[at] = byte;
    file
}

/// Finished recordings: what the check answers, of which the summary has the first two.
fn totals(cases: &mut Cases) {
    // Frames, blocks, samples, offset of the trailer, paired.
    let recordings: [(&[Chunk], [u64; 5]); 9] = [
        (&[], [0, 0, 0, 316, 1]),
        (&[V(3), A(10, 2)], [1, 1, 2, 345, 1]),
        (&[V(0), A(8, 7), V(9), A(11, 300)], [2, 2, 307, 376, 1]),
        (
            &[V(1), V(2), V(3), A(8, 4_294_967_295), A(9, 4_294_967_295)],
            [3, 2, 8_589_934_590, 379, 0],
        ),
        (&[V(4), A(9, 5), V(2)], [2, 1, 5, 355, 0]),
        (&[V(5)], [1, 0, 0, 329, 0]),
        (&[V(8), V(1)], [2, 0, 0, 341, 0]),
        (&[A(7, 0), V(2)], [1, 1, 0, 341, 0]),
        (&[A(12, 6), A(0, 0), A(8, 0)], [0, 3, 6, 360, 0]),
    ];
    for (chunks, totals) in recordings {
        let file = recording(chunks);
        check(cases, &file, accepted(&totals));
        summary(cases, &file, accepted(&totals[..2]));
    }
    // Sizes that are free, and width, height and run length.
    for at in [4, 16, 92, 212, 308, 64, 68, 84] {
        check(cases, &example_with(at, 9), accepted(&[1, 1, 2, 345, 1]));
    }
}

/// E cut: in the prelude, and after it.
fn cuts(cases: &mut Cases) {
    let example = files::example();
    // Where a tag is there and its size is cut the original panics.
    for (cut, place) in [
        (28, 28),
        (31, 28),
        (104, 104),
        (107, 104),
        (168, 168),
        (171, 168),
        (224, 224),
        (227, 224),
        (280, 280),
        (283, 280),
    ] {
        parse_strict(cases, &example[..cut], refused(11, place));
    }
    for (cut, place) in [
        (0, 0),
        (3, 0),
        (4, 8),
        (28, 28),
        (32, 32),
        (87, 32),
        (88, 88),
        (284, 284),
        (303, 284),
        (304, 304),
        (315, 312),
    ] {
        check(cases, &example[..cut], refused(11, place));
        summary(cases, &example[..cut], accepted(&[0, 0]));
    }
    // Where E is cut, the chunk that is not whole, the frames and blocks that are.
    for (cut, chunk, whole) in [
        (316, 316, [0, 0]),
        (317, 316, [0, 0]),
        (323, 316, [0, 0]),
        (324, 316, [0, 0]),
        (326, 316, [0, 0]),
        (327, 327, [1, 0]),
        (334, 327, [1, 0]),
        (335, 327, [1, 0]),
        (342, 327, [1, 0]),
        (343, 327, [1, 0]),
        (344, 327, [1, 0]),
        (345, 345, [1, 1]),
        (352, 345, [1, 1]),
    ] {
        check(cases, &example[..cut], refused(60, chunk));
        summary(cases, &example[..cut], accepted(&whole));
    }
}

/// E with a byte changed.
fn changes(cases: &mut Cases) {
    // The byte, what it is changed to, the check's number and place.
    for (at, byte, number, place) in [
        (0, b'r', 12, 0),
        (223, b'H', 12, 220),
        (312, b'M', 12, 312),
        (28, 57, 13, 28),
        (171, 1, 13, 168),
        (280, 18, 13, 280),
        (72, 0, 14, 72),
        (32, 0, 15, 32),
        (76, 0, 16, 76),
        (80, 1, 17, 80),
        (36, 1, 18, 36),
        (163, 1, 18, 163),
        (172, 1, 18, 172),
        (275, 1, 18, 275),
        (284, 2, 19, 284),
        (286, 2, 20, 286),
        (292, 0, 21, 292),
        (296, 4, 22, 296),
        (298, 8, 23, 298),
        (300, 1, 24, 300),
        (316, b'1', 31, 316),
        (330, b'c', 31, 327),
        (352, b'-', 31, 345),
        // A length of 4 or 9 where 3 or 10 are there: the next chunk starts inside what follows.
        (320, 4, 31, 328),
        (331, 9, 31, 344),
        // A length that takes the trailer, and one that ends past the file.
        (331, 18, 60, 353),
        (331, 19, 60, 327),
    ] {
        check(cases, &example_with(at, byte), refused(number, place));
    }
    // The summary does not ask about the prelude.
    summary(cases, &example_with(0, b'r'), accepted(&[1, 1]));
    summary(cases, &example_with(72, 0), accepted(&[1, 1]));
    summary(cases, &example_with(330, b'c'), refused(31, 327));
}

/// More after E, and other bytes after its prelude.
fn tails(cases: &mut Cases) {
    let example = files::example();
    for more in [&b"x"[..], b"AMV_END_", b"00dc\0\0\0\0"] {
        let file = [&example[..], more].concat();
        check(cases, &file, refused(61, 345));
        summary(cases, &file, accepted(&[1, 1]));
    }
    let tails: [(&[u8], Said<6>, Said<3>); 12] = [
        (b"AMV_END", refused(60, 316), accepted(&[0, 0])),
        (b"AMV_END!", refused(31, 316), refused(31, 316)),
        (b"AMV_END_00dc", refused(61, 316), accepted(&[0, 0])),
        (b"00dbxyz", refused(60, 316), accepted(&[0, 0])),
        (b"00db\xff\xff\xff\xff", refused(31, 316), refused(31, 316)),
        (b"00dc\xff\xff\xff\xff", refused(60, 316), accepted(&[0, 0])),
        (
            b"01wb\xff\xff\xff\xff.seven.",
            refused(60, 316),
            accepted(&[0, 0]),
        ),
        (
            b"01wb\xff\xff\xff\xff.eight..",
            refused(60, 316),
            accepted(&[0, 0]),
        ),
        (b"01wb\x04\0\0\0abc", refused(60, 316), accepted(&[0, 0])),
        (
            b"01wb\x02\0\0\0xAMV_END_",
            refused(60, 326),
            accepted(&[0, 1]),
        ),
        // A zero byte after an odd payload.
        (
            b"00dc\x01\0\0\0x\0AMV_END_",
            refused(31, 325),
            refused(31, 325),
        ),
        (
            b"00dc\0\0\0\0AMV_END_AMV_END_",
            refused(61, 324),
            accepted(&[1, 0]),
        ),
    ];
    for (tail, checked, counted) in tails {
        let file = after_prelude(tail);
        check(cases, &file, checked);
        summary(cases, &file, counted);
    }
}

/// A walker's word, what it is changed to, and the number that a read and a jump refuse it with.
const BAD_WALKERS: [(usize, u64, u32); 9] = [
    (0, OVER, 32),
    (1, OVER, 32),
    (2, OVER, 32),
    (3, OVER, 32),
    (0, 18_446_744_073_709_551_615, 32),
    (4, 2, 1),
    (5, 2, 1),
    (4, 18_446_744_073_709_551_615, 1),
    (5, 256, 1),
];

fn bad_walkers() -> impl Iterator<Item = (WalkerWords, u32)> {
    BAD_WALKERS.into_iter().map(|(i, word, number)| {
        let mut walker = FRESH;
        walker[i] = word;
        (walker, number)
    })
}

fn reads(cases: &mut Cases) {
    let example = files::example();
    for (walker, number) in bad_walkers() {
        next_packet(cases, &example, walker, refused(number, 0), walker);
    }
    // The order 1, 32, 31; and 32 though the walker has ended.
    let unknown = example_with(316, b'1');
    for (walker, number, place) in [
        ([OVER, 0, 0, 0, 2, 0, NOT_MET], 1, 0),
        ([316, 0, 0, OVER, 0, 0, NOT_MET], 32, 0),
        ([316, 0, 0, OVER, 1, 0, NOT_MET], 32, 0),
        ([316, MOST, MOST, MOST, 0, 0, NOT_MET], 31, 316),
    ] {
        next_packet(cases, &unknown, walker, refused(number, place), walker);
    }
    // Words of a read (packet, stream, payload's start and length, stamp, duration), and the walker after it.
    let taken = [
        (
            [MOST, MOST, MOST, MOST, 0, 0, NOT_MET],
            [0, 0, 0, 0, 0, 0],
            [MOST, MOST, MOST, MOST, 1, 1, NOT_MET],
        ),
        (
            [316, MOST, MOST, MOST, 0, 1, OVER],
            [1, 0, 324, 3, MOST, 1],
            [327, OVER, MOST, MOST, 0, 1, OVER],
        ),
        (
            [327, MOST, MOST, MOST, 0, 0, NOT_MET],
            [1, 1, 335, 10, MOST, 2],
            [345, MOST, MOST + 2, OVER, 0, 0, NOT_MET],
        ),
    ];
    for (given, read, after) in taken {
        next_packet(cases, &example, given, accepted(&read), after);
    }
}

/// E's index with these tags and samples before.
pub fn index_of(first: (&[u8; 4], u64), second: (&[u8; 4], u64)) -> Vec<u8> {
    let record = |(tag, samples): (&[u8; 4], u64), offset, frames| {
        plain::Record {
            tag: u32::from_le_bytes(*tag),
            offset,
            frames,
            blocks: 0,
            samples,
        }
        .bytes()
    };
    [record(first, 316, 0), record(second, 327, 1)].concat()
}

fn indexes_and_jumps(cases: &mut Cases) {
    let example = files::example();
    for room in [0, 23, 24, 47] {
        refused_index(cases, &example, room, 40, 0);
        refused_index(cases, &example_with(330, b'c'), room, 31, 327);
    }
    // A frame is recorded though its body is cut.
    refused_index(cases, &example[..324], 23, 40, 0);

    let index = index_of((b"00dc", 0), (b"01wb", 0));
    for (walker, number) in bad_walkers() {
        seek_to_via_index(cases, &index, walker, (0, 0), refused(number, 0), walker);
    }
    for length in [1, 23, 25, 47] {
        seek_to_via_index(
            cases,
            &index[..length],
            FRESH,
            (0, 0),
            refused(41, 0),
            FRESH,
        );
    }
    // 02: the stream is asked about first, so the table may be whatever it is.
    for stream in [2, 4_294_967_295] {
        for length in [0, 1, 23, 25, 47, 48] {
            let table = &index[..length];
            seek_to_via_index(cases, table, FRESH, (stream, 0), refused(42, 0), FRESH);
        }
    }
    for (first, second, place) in [
        ((b"00db", 0), (b"01wb", 0), 0),
        ((b"00dc", MOST), (b"01wb", 0), 0),
        ((b"00dc", 0), (b"01wc", 0), 24),
        ((b"00dc", 0), (b"01wb", MOST), 24),
        ((b"00dc", MOST), (b"01wc", 0), 0),
        ((b"AMV_", 0), (b"01wb", 18_446_744_073_709_551_615), 0),
    ] {
        let index = index_of(first, second);
        seek_to_via_index(cases, &index, FRESH, (0, 0), refused(43, place), FRESH);
    }
    // The order 1, 42, 41, 43, 32: what is asked later has the answer no as well.
    let bad = index_of((b"00dc", 0), (b"01wc", 0));
    let ragged = &index_of((b"01wc", 0), (b"01wc", 0))[..47];
    let over = [316, OVER, 0, 0, 0, 0, NOT_MET];
    for (table, walker, stream, number, place) in [
        (ragged, [316, OVER, 0, 0, 2, 0, NOT_MET], 2, 1, 0),
        (ragged, over, 2, 42, 0),
        (&bad, over, 2, 42, 0),
        (ragged, over, 1, 41, 0),
        (&bad, over, 1, 43, 24),
        (&index, over, 1, 32, 0),
    ] {
        let stated = refused(number, place);
        seek_to_via_index(cases, table, walker, (stream, 0), stated, walker);
    }
    // All four counts at 2^62; the stamp that is returned, and the walker after it.
    let most = [MOST, MOST, MOST, MOST, 0, 1, 7];
    for (table, asked, stamp, after) in [
        (&index[..], (0, -1), 0, [316, 0, 0, 0, 0, 1, 7]),
        (&index, (1, 0), 0, [327, 1, 0, 0, 0, 1, 7]),
        (&index, (0, 1), 1, [335, 1, 0, 1, 1, 1, 7]),
        (&index, (1, 1), 0, [335, 1, 0, 1, 1, 1, 7]),
        (&[], (0, 0), MOST, [MOST, MOST, MOST, MOST, 1, 1, 7]),
        (&[], (1, 0), MOST, [MOST, MOST, MOST, MOST, 1, 1, 7]),
    ] {
        seek_to_via_index(cases, table, most, asked, accepted(&[stamp]), after);
    }
}

/// Pages of E's index, with room to spare and without, and of other counts.
fn pages(cases: &mut Cases) {
    let index = index_of((b"00dc", 0), (b"01wb", 0));
    let lines = [
        "V       316         0                  0",
        "A       327         1                  0",
    ];
    for room in [80, 81, 160] {
        print_index(cases, &index, room, accepted(&[2]), &lines);
    }
    print_index(cases, &index[..24], 40, accepted(&[1]), &lines[..1]);
    for room in [0, 1, 40] {
        print_index(cases, &[], room, accepted(&[0]), &[]);
    }
    // Samples of 1, 2, 17 and 18 digits, and the largest of every field.
    for (samples, line) in [
        (9, "A       327         1                  9"),
        (10, "A       327         1                 10"),
        (
            99_999_999_999_999_999,
            "A       327         1  99999999999999999",
        ),
        (
            100_000_000_000_000_000,
            "A       327         1 100000000000000000",
        ),
        (
            999_999_999_999_999_999,
            "A       327         1 999999999999999999",
        ),
    ] {
        let index = index_of((b"00dc", 0), (b"01wb", samples));
        let lines = [lines[0], line];
        print_index(cases, &index, 81, accepted(&[2]), &lines);
    }
    let largest = plain::Record {
        tag: VIDEO,
        offset: u32::MAX,
        frames: u32::MAX,
        blocks: 5,
        samples: MANY - 1,
    };
    let line = "V42949672954294967295 999999999999999999";
    print_index(cases, &largest.bytes(), 41, accepted(&[1]), &[line]);
}

fn refused_pages(cases: &mut Cases) {
    let index = index_of((b"00dc", 0), (b"01wb", 0));
    let mut refuse = |table: &[u8], room, number, place| {
        print_index(cases, table, room, refused(number, place), &[]);
    };
    for length in [1, 23, 25, 47] {
        refuse(&index[..length], 80, 41, 0);
    }
    for room in [0, 1, 39, 40, 79] {
        refuse(&index, room, 40, 0);
    }
    // The order 41, 43, 70, 40, each of the whole table: what is asked later has the answer no as well.
    let bad = index_of((b"00dc", MANY), (b"01wc", 0));
    refuse(&bad[..47], 0, 41, 0);
    for (first, second, number, place) in [
        ((b"00db", 0), (b"01wb", 0), 43, 0),
        ((b"00dc", 0), (b"01wc", 0), 43, 24),
        ((b"00dc", MOST), (b"01wb", 0), 43, 0),
        ((b"00dc", 0), (b"01wb", LAST), 43, 24),
        ((b"00dc", MANY), (b"01wc", 0), 43, 24),
        ((b"00dc", MANY), (b"01wb", MOST), 43, 24),
        ((b"00dc", MANY), (b"01wb", 0), 70, 0),
        ((b"00dc", 0), (b"01wb", MANY), 70, 24),
        ((b"00dc", MANY), (b"01wb", MANY), 70, 0),
        ((b"00dc", 0), (b"01wb", MOST - 1), 70, 24),
    ] {
        let index = index_of(first, second);
        refuse(&index, 80, number, place);
        refuse(&index, 79, number, place);
    }
}

/// Blocks whose samples are written out, in buffers that they fill and in longer ones.
fn blocks(cases: &mut Cases) {
    for (block, samples) in sounds::WRITTEN_OUT {
        for room in [samples.len(), samples.len() + 2] {
            let count = accepted(&[samples.len() as u64]);
            decode_block(cases, block, room, count, samples);
        }
    }
    // The same nibbles from two starting levels: 5 apart, and where the rail holds both, not at all.
    let nibbles = [0, 0, 88, 0, 2, 0, 0, 0, 0x07];
    for (level, samples) in [(0, [4095, 32767]), (5, [4100, 32767])] {
        let mut block = nibbles;
        block[0] = level;
        decode_block(cases, &block, 2, accepted(&[2]), &samples);
    }
    // As many samples as nibbles, and one fewer: the last nibble is free. Byte 3 and bytes after the nibbles are free too.
    decode_block(
        cases,
        &[0, 0, 0, 0xff, 4, 0, 0, 0, 0x11, 0x22],
        4,
        accepted(&[4]),
        &[1, 2, 5, 8],
    );
    decode_block(
        cases,
        &[0, 0, 0, 0, 3, 0, 0, 0, 0x11, 0x22, 0xff, 0xff],
        4,
        accepted(&[3]),
        &[1, 2, 5],
    );
}

/// Each number of a block alone, and the first of several.
fn refused_blocks(cases: &mut Cases) {
    let mut refuse = |block: &[u8], room, number, place| {
        decode_block(cases, block, room, refused(number, place), &[]);
    };
    for length in [0, 7] {
        refuse(&[0xff; 7][..length], 1, 25, 0);
    }
    for step_index in [89, 255] {
        refuse(&[0, 0, step_index, 0, 1, 0, 0, 0, 0], 1, 71, 2);
        refuse(&[0, 0, step_index, 0, 9, 0, 0, 0, 0], 0, 71, 2);
    }
    refuse(&[0, 0, 88, 0, 1, 0, 0, 0], 1, 72, 4);
    refuse(&[0, 0, 88, 0, 3, 0, 0, 0, 0], 3, 72, 4);
    refuse(&[0, 0, 88, 0, 3, 0, 0, 0, 0], 0, 72, 4);
    refuse(&[0, 0, 88, 0, 0, 0, 0, 0x80, 0], 3, 72, 4);
    refuse(&[0, 0, 88, 0, 255, 255, 255, 255, 0], 3, 72, 4);
    refuse(&[0, 0, 88, 0, 2, 0, 0, 0, 0], 1, 73, 0);
    refuse(&[0, 0, 88, 0, 1, 0, 0, 0, 0], 0, 73, 0);
}

/// The writer of E with these words: begun, ended, bytes written, frames.
fn writer([begun, ended, written, frames]: [u64; 4]) -> WriterWords {
    [8, 8, 12, 8000, 1, begun, ended, written, frames]
}

fn writes(cases: &mut Cases) {
    use Write::{Header, Packet, Trailer};
    // A word that its field cannot hold.
    for (i, word) in [
        (0, 4_294_967_296),
        (1, 4_294_967_296),
        (2, 4_294_967_296),
        (3, 4_294_967_296),
        (4, 65_536),
        (5, 2),
        (6, 2),
    ] {
        for (write, begun) in [(Header, 0), (Packet(b"abc", 0), 1), (Trailer, 1)] {
            let mut words = writer([begun, 0, 316 * begun, begun]);
            words[i] = word;
            refused_write(cases, words, 327, write, 1, 0);
        }
    }
    const WRAPS_11: u64 = 18_446_744_073_709_551_605;
    const WRAPS_8: u64 = 18_446_744_073_709_551_608;
    // The call; begun, ended, bytes written, frames; the buffer's length; number and place.
    for (write, state, room, number, place) in [
        (Header, [0, 0, 0, 0], 0, 54, 0),
        (Header, [0, 0, 0, 0], 315, 54, 0),
        (Header, [0, 0, LAST, 5], 315, 54, LAST),
        (Packet(b"abc", 0), [1, 0, 316, 4], 326, 54, 316),
        (Packet(b"abc", 1), [1, 0, 316, 4], 326, 54, 316),
        (Packet(b"", 0), [1, 0, 316, 4], 323, 54, 316),
        (Packet(b"", 1), [1, 0, 316, 4], 315, 54, 316),
        (Trailer, [1, 0, 316, 720], 323, 54, 316),
        (Trailer, [1, 0, 316, 720], 0, 54, 316),
        // The sum is 2^64, or a little more.
        (Packet(b"abc", 0), [1, 0, WRAPS_11, 4], 330, 54, WRAPS_11),
        (Packet(b"abc", 1), [1, 0, LAST, 4], 330, 54, LAST),
        (Packet(b"abc", 0), [1, 0, WRAPS_8, 4], 330, 54, WRAPS_8),
        (Trailer, [1, 0, WRAPS_8, 720], 330, 54, WRAPS_8),
        (Trailer, [1, 0, LAST, 720], 330, 54, LAST),
        (Packet(b"abc", 0), [1, 1, 324, 1], 340, 55, 324),
        (Packet(b"abc", 1), [1, 1, 324, 1], 340, 55, 324),
        (Trailer, [1, 1, 324, 720], 340, 55, 324),
        (Header, [0, 1, 0, 0], 340, 55, 0),
        (Header, [0, 1, 324, 1], 340, 55, 324),
        (Packet(b"abc", 0), [1, 0, 315, 1], 340, 56, 315),
        (Packet(b"abc", 1), [1, 0, 0, 1], 340, 56, 0),
        (Trailer, [1, 0, 315, 720], 340, 56, 315),
        (Trailer, [1, 0, 0, 720], 340, 56, 0),
        // The order 50 or 51, 55, 56, 53, 54: what is asked later has the answer no as well.
        (Header, [1, 1, 315, 1], 5, 50, 315),
        (Header, [0, 1, 315, 1], 5, 55, 315),
        (Packet(b"abc", 2), [0, 1, 315, 1], 5, 51, 315),
        (Packet(b"abc", 2), [1, 1, 315, 1], 5, 55, 315),
        (Packet(b"abc", 2), [1, 0, 315, 1], 5, 56, 315),
        (Packet(b"abc", 2), [1, 0, 316, 1], 5, 53, 316),
        (Trailer, [0, 1, 315, 720], 5, 51, 315),
        (Trailer, [1, 1, 315, 720], 5, 55, 315),
        (Trailer, [1, 0, 315, 720], 5, 56, 315),
    ] {
        refused_write(cases, writer(state), room, write, number, place);
    }
}

/// Above 921,599 seconds: 255 h, 59 min, 59 s.
fn run_lengths(cases: &mut Cases) {
    let longest = [59, 59, 255, 0];
    for (frames, fps) in [
        (921_600, 1),
        (921_601, 1),
        (921_660, 1),
        (933_299, 1),
        (933_300, 1),
        (933_360, 1),
        (1_000_000_000_000, 1),
        (LAST, 1),
        (1_843_200, 2),
        (11_059_200, 12),
        (11_059_201, 12),
        (1_000_000_000_000, 12),
        (LAST, 12),
        (LAST, u32::MAX),
    ] {
        let packed = u32::from_le_bytes(longest);
        assert_eq!(PLAIN.run_length(frames, fps), packed, "{frames} {fps}");
        add_run_length(cases, frames, fps, packed);
    }
    for frames in [11_059_200, 11_059_212, 11_919_600, LAST] {
        trailer(cases, frames, longest);
    }
}

/// An accepted trailer after E's prelude, with so many frames: it ends the file, and the run length goes to 84.
fn trailer(cases: &mut Cases, frames: u64, run_length: [u8; 4]) {
    let given = writer([1, 0, 316, frames]);
    let left = writer([1, 1, 324, frames]);
    let lent = [0xa5; 330];
    let mut after = lent;
    after[84..88].copy_from_slice(&run_length);
    after[316..324].copy_from_slice(b"AMV_END_");
    let (mut writer, mut buf) = (given, lent);
    let said = PLAIN.write(&mut writer, &mut buf, Write::Trailer);
    assert_eq!((said, writer, buf), (accepted(&[]), left, after));
    let call = Call {
        lent: &lent,
        state: &given,
        ..call_of(WRITE_TRAILER, &[])
    };
    cases.add(call, 0, &[&[0][..], &left[..]].concat(), &after);
}

fn listings(cases: &mut Cases) {
    let example = files::example();
    let longest = recording(&[V(3), A(10, 2), A(65_175, 5)]);
    let longer = recording(&[V(3), A(10, 2), A(65_176, 5)]);
    assert_eq!((longest.len(), longer.len()), (65_536, 65_537));
    for (file, text) in [
        (
            &example,
            "V 316 0 0 0\nA 327 1 0 0\nEND 345 FRAMES 1 BLOCKS 1 SAMPLES 2 PAIRED Y\n",
        ),
        (&[&example[..], b"x"].concat(), "NO 61 345\n"),
        (&vec![], "NO 11 0\n"),
        (&example_with(32, 0), "NO 15 32\n"),
        (&example_with(330, b'c'), "NO 31 327\n"),
        (&example[..344].to_vec(), "NO 60 327\n"),
        (
            &recording(&[]),
            "END 316 FRAMES 0 BLOCKS 0 SAMPLES 0 PAIRED Y\n",
        ),
        (
            &recording(&[V(1), V(2), A(8, 4_294_967_295), A(9, 1), V(3), A(7, 0)]),
            "V 316 0 0 0\nV 325 1 0 0\nA 335 2 0 0\nA 351 2 4294967295 1\nV 368 2 4294967296 2\n\
             A 379 3 4294967296 2\nEND 394 FRAMES 3 BLOCKS 3 SAMPLES 4294967296 PAIRED N\n",
        ),
        (
            &recording(&[A(12, 60), A(4, 0), V(0)]),
            "A 316 0 0 0\nA 336 0 60 1\nV 348 0 60 2\nEND 356 FRAMES 1 BLOCKS 2 SAMPLES 60 PAIRED N\n",
        ),
        (
            &longest,
            "V 316 0 0 0\nA 327 1 0 0\nA 345 1 2 1\nEND 65528 FRAMES 1 BLOCKS 2 SAMPLES 7 PAIRED N\n",
        ),
        (&longer, "NO LONG\n"),
    ] {
        listing(cases, file, text);
    }
}

pub fn all(cases: &mut Cases) {
    totals(cases);
    cuts(cases);
    changes(cases);
    tails(cases);
    reads(cases);
    indexes_and_jumps(cases);
    pages(cases);
    refused_pages(cases);
    blocks(cases);
    refused_blocks(cases);
    writes(cases);
    run_lengths(cases);
    listings(cases);
}
