//! Answers, stored: the calls as bytes that the program `vectors` replays, and what it must print. Those here are the original's: only
//! calls that it answers as 01 does are taken, and where its text names no place, the place is 01's. What it does not have is in `stated` and
//! `steps`.

mod stated;
mod steps;

use std::fmt::Write as _;
use std::fs;
use std::path::Path;

use plain::words::{self, WalkerWords, WriterWords};
use plain::{AUDIO, Settings, VIDEO, Walker, Writer};

use crate::files::{self, EXAMPLE_SETTINGS};
use crate::interface::PLAIN;
use crate::original::{self, Told};
use crate::pieces;
use crate::rules;
use crate::said::{Said, Write, said};

/// The numbers of the functions in a case's first byte, with their names: the program has the same.
const PARSE: (u8, &str) = (1, "parse");
const NEXT_PACKET: (u8, &str) = (2, "next_packet");
const BUILD_CHUNK_INDEX: (u8, &str) = (3, "build_chunk_index");
const WRITE_HEADER: (u8, &str) = (4, "write_header");
const WRITE_PACKET: (u8, &str) = (5, "write_packet");
const WRITE_TRAILER: (u8, &str) = (6, "write_trailer");
const SEEK_TO_VIA_INDEX: (u8, &str) = (7, "seek_to_via_index");
const VALIDATE_MOVI_INTERLEAVE: (u8, &str) = (8, "interleave");
const FROM_FRAME_COUNT: (u8, &str) = (9, "from_frame_count");
const SUMMARY: (u8, &str) = (10, "summary");
const CHECK: (u8, &str) = (11, "check");
const LISTING: (u8, &str) = (12, "listing");
const PRINT_INDEX: (u8, &str) = (13, "print_index");
const DECODE_BLOCK: (u8, &str) = (14, "decode_block");
const CHUNK_HEADER: (u8, &str) = (15, "chunk_header");
const REGISTER_STEP: (u8, &str) = (16, "register_step");

/// In the order of the counts that the program prints last.
const FUNCTIONS: [(u8, &str); 16] = [
    PARSE,
    NEXT_PACKET,
    BUILD_CHUNK_INDEX,
    SEEK_TO_VIA_INDEX,
    WRITE_HEADER,
    WRITE_PACKET,
    WRITE_TRAILER,
    VALIDATE_MOVI_INTERLEAVE,
    FROM_FRAME_COUNT,
    SUMMARY,
    CHECK,
    LISTING,
    PRINT_INDEX,
    DECODE_BLOCK,
    CHUNK_HEADER,
    REGISTER_STEP,
];

/// Where the tags, sizes and bodies of a prelude start.
const ITEMS: [usize; 22] = [
    0, 8, 12, 20, 24, 28, 32, 88, 96, 100, 104, 164, 168, 208, 216, 220, 224, 276, 280, 284, 304,
    312,
];

/// The longest lent bytes, and the longest calls, that the program has room for.
const LENT: usize = 1024;
const CALLS: usize = 524_288;

#[derive(Default)]
struct Cases {
    calls: Vec<u8>,
    printed: String,
    counts: [u64; 17],
    /// How many calls were not taken, since the original answers otherwise.
    left_out: u64,
}

/// A call's bytes: a file, a table to read, a payload, tags, or a file and then a table; and the bytes that it is lent to write.
struct Call<'a> {
    function: (u8, &'static str),
    bytes: &'a [u8],
    lent: &'a [u8],
    parameters: [u64; 3],
    state: &'a [u64],
}

impl Cases {
    /// The call, what it returned, and all words and bytes after it.
    fn add(&mut self, call: Call, number: u64, words: &[u64], lent_after: &[u8]) {
        assert!(call.lent.len() <= LENT);
        self.calls.push(call.function.0);
        let lengths = [call.bytes.len() as u64, call.lent.len() as u64];
        let mut state = [0; 9];
        state[..call.state.len()].copy_from_slice(call.state);
        for word in lengths.iter().chain(&call.parameters).chain(&state) {
            self.calls.extend(word.to_le_bytes());
        }
        self.calls.extend(call.bytes);
        self.calls.extend(call.lent);
        self.printed.push_str(call.function.1);
        let bytes = lent_after.iter().map(|byte| u64::from(*byte));
        for value in std::iter::once(number)
            .chain(words.iter().copied())
            .chain(bytes)
        {
            write!(self.printed, " {value}").unwrap();
        }
        self.printed.push('\n');
        self.counts[usize::from(call.function.0)] += 1;
    }

    fn print_counts(&mut self) {
        for (function, name) in FUNCTIONS {
            let count = self.counts[usize::from(function)];
            writeln!(self.printed, "cases of {name} {count}").unwrap();
        }
    }
}

/// What the original told as number and words; the place of a refusal that names none is taken from the plain answer.
fn answer<const N: usize>(told: Told<N>, plain: Said<N>) -> Option<Said<N>> {
    match told {
        Told::Said(said) => Some(said),
        Told::Number(number) => Some(Said { number, ..plain }),
        Told::Panicked => None,
    }
}

fn parse(cases: &mut Cases, file: &[u8], strict: bool) {
    let plain = PLAIN.parse(file, strict);
    let Some(said) = answer(original::parse(file, strict), plain) else {
        cases.left_out += 1;
        return;
    };
    let call = Call {
        function: PARSE,
        bytes: file,
        lent: &[],
        parameters: [strict as u64, 0, 0],
        state: &[],
    };
    cases.add(call, said.number.into(), &said.out, &[]);
}

/// One read; answers whether it gave a packet. The walker becomes the one that the original leaves.
fn next_packet(cases: &mut Cases, file: &[u8], walker: &mut WalkerWords) -> bool {
    let given = *walker;
    let mut after = given;
    let plain = PLAIN.next_packet(file, &mut after);
    if plain.number == 32 || plain.number == 1 {
        cases.left_out += 1;
        return false;
    }
    let mut state = words::walker_of(&given).unwrap();
    let told = original::File::new(file).next_packet(&mut state);
    let said = answer(told, plain).expect("a read does not panic");
    *walker = words::walker_words(&state);
    let call = Call {
        function: NEXT_PACKET,
        bytes: file,
        lent: &[],
        parameters: [0; 3],
        state: &given,
    };
    let words = [&said.out[..], &walker[..]].concat();
    cases.add(call, said.number.into(), &words, &[]);
    said.number == 0 && said.out[1] == 1
}

fn drain(cases: &mut Cases, file: &[u8]) {
    let mut walker = words::walker_words(&Walker::fresh());
    while next_packet(cases, file, &mut walker) {}
    next_packet(cases, file, &mut walker);
}

fn build_chunk_index(cases: &mut Cases, file: &[u8], slack: usize) {
    let records = original::File::new(file).records();
    let (number, out, table) = match &records {
        Ok(records) => {
            let table: Vec<u8> = records.iter().flat_map(plain::Record::bytes).collect();
            (0, [0, records.len() as u64], table)
        }
        Err(Told::Said(said)) => (said.number, said.out, Vec::new()),
        Err(_) => unreachable!("a refused index names its place"),
    };
    let lent = vec![0xc3; table.len() + slack];
    let mut after = lent.clone();
    after[..table.len()].copy_from_slice(&table);
    let call = Call {
        function: BUILD_CHUNK_INDEX,
        bytes: file,
        lent: &lent,
        parameters: [0; 3],
        state: &[],
    };
    cases.add(call, number.into(), &out, &after);
}

/// A signed request as the program takes it: below 0 only the largest and the smallest.
fn request_words(request: i64) -> [u64; 2] {
    match request {
        -1 => [0, 1],
        i64::MIN => [0, 2],
        request => [request.try_into().unwrap(), 0],
    }
}

fn seek_to_via_index(
    cases: &mut Cases,
    table: &[u8],
    given: WalkerWords,
    stream: u32,
    request: i64,
) {
    let mut after = given;
    let plain = PLAIN.seek_to_via_index(table, &mut after, stream, request);
    if plain.number != 0 {
        cases.left_out += 1;
        return;
    }
    let mut state = words::walker_of(&given).unwrap();
    let told =
        original::seek_to_via_index(&original::read_table(table), &mut state, stream, request);
    let said = answer(told, plain).expect("a seek of stream 0 or 1 does not panic");
    let [request, mark] = request_words(request);
    let call = Call {
        function: SEEK_TO_VIA_INDEX,
        bytes: table,
        lent: &[],
        parameters: [stream.into(), request, mark],
        state: &given,
    };
    let words = [&said.out[..], &words::walker_words(&state)[..]].concat();
    cases.add(call, said.number.into(), &words, &[]);
}

/// Function, payload and stream of a writing call.
fn written_parts(call: Write<'_>) -> ((u8, &'static str), &[u8], u32) {
    match call {
        Write::Header => (WRITE_HEADER, &[], 0),
        Write::Packet(payload, stream) => (WRITE_PACKET, payload, stream),
        Write::Trailer => (WRITE_TRAILER, &[], 0),
    }
}

/// A writing call. The original keeps no ended mark and no count of bytes: the mark is set by an accepted trailer, and the count is
/// where its writer stands; a refusal leaves both.
fn write(cases: &mut Cases, given: WriterWords, buf: &[u8], call: Write) {
    let state = words::writer_of(&given).unwrap();
    let expected = rules::write(&state, buf, call);
    if expected.rule.is_some() {
        cases.left_out += 1;
        return;
    }
    let mut after = buf.to_vec();
    let wrote = original::write(&state, &mut after, call);
    let accepted = wrote.number == 0;
    let ended = state.ended || (accepted && matches!(call, Write::Trailer));
    let written = if accepted {
        wrote.position
    } else {
        state.written
    };
    let left = Writer {
        settings: state.settings,
        begun: wrote.begun,
        ended,
        written,
        frames: wrote.frames,
    };
    let (function, bytes, stream) = written_parts(call);
    let place = if accepted { 0 } else { state.written };
    let words = [&[place][..], &words::writer_words(&left)[..]].concat();
    let call = Call {
        function,
        bytes,
        lent: buf,
        parameters: [stream.into(), 0, 0],
        state: &given,
    };
    cases.add(call, wrote.number.into(), &words, &after);
}

fn validate_movi_interleave(cases: &mut Cases, tags: &[u32]) {
    let plain = PLAIN.validate_movi_interleave(tags);
    let said = answer(original::validate_movi_interleave(tags), plain).unwrap();
    let bytes: Vec<u8> = tags.iter().flat_map(|tag| tag.to_le_bytes()).collect();
    let call = Call {
        function: VALIDATE_MOVI_INTERLEAVE,
        bytes: &bytes,
        lent: &[],
        parameters: [0; 3],
        state: &[],
    };
    cases.add(call, said.number.into(), &said.out, &[]);
}

/// The call of a run length, and the number that it returns.
fn add_run_length(cases: &mut Cases, frames: u64, fps: u32, packed: u32) {
    let call = Call {
        function: FROM_FRAME_COUNT,
        bytes: &[],
        lent: &[],
        parameters: [frames, fps.into(), 0],
        state: &[],
    };
    cases.add(call, packed.into(), &[], &[]);
}

fn from_frame_count(cases: &mut Cases, frames: u64, fps: u32) {
    let plain = PLAIN.run_length(frames, fps);
    if rules::from_frame_count(frames, fps, plain).rule.is_some() {
        cases.left_out += 1;
        return;
    }
    let packed = original::from_frame_count(frames, fps);
    add_run_length(cases, frames, fps, packed);
}

/// The header at an offset, by the original's parse of the bytes from there: 02 has the two answer alike.
fn chunk_header(cases: &mut Cases, file: &[u8], at: usize) {
    let from_there = &file[at..];
    let plain = said(pieces::parse_chunk_header(from_there));
    let said = answer(original::chunk_header(from_there), plain).unwrap();
    let call = Call {
        function: CHUNK_HEADER,
        bytes: file,
        lent: &[],
        parameters: [at as u64, 0, 0],
        state: &[],
    };
    cases.add(call, said.number.into(), &said.out, &[]);
}

/// Preludes: each tag, size and field made wrong, each item cut, and telling settings.
fn preludes(cases: &mut Cases) {
    let example = &files::example()[..316];
    for strict in [false, true] {
        parse(cases, &files::example(), strict);
    }
    for at in ITEMS {
        parse(cases, &example[..at], true);
        parse(cases, &example[..at + 3], true);
        let mut damaged = example.to_vec();
        damaged[at] ^= 1;
        parse(cases, &damaged, false);
    }
    let fields = [
        32, 36, 63, 72, 76, 80, 108, 163, 172, 207, 228, 275, 284, 286, 292, 296, 298, 300,
    ];
    for at in fields {
        let mut damaged = example.to_vec();
        damaged[at] ^= 4;
        parse(cases, &damaged, true);
    }
    for (fps, rate) in [
        (0, 1),
        (1, 0),
        (1_000_000, 2_147_483_647),
        (1_000_001, 2_147_483_648),
        (u32::MAX, u32::MAX),
    ] {
        let settings = Settings {
            fps,
            rate,
            ..EXAMPLE_SETTINGS
        };
        parse(
            cases,
            &plain::build_prelude_bytes(settings, 0x0102_0304),
            true,
        );
    }
}

/// Chunks, cut everywhere from the first on.
fn chunks(cases: &mut Cases) {
    let example = files::example();
    for cut in 316..=example.len() {
        build_chunk_index(cases, &example[..cut], cut % 5);
        if cut % 3 == 0 || cut > 340 {
            drain(cases, &example[..cut]);
        }
    }
    for file in files::shapes() {
        drain(cases, &file);
        build_chunk_index(cases, &file, 24);
    }
    let mut unknown = example.clone();
    unknown[327] = b'x';
    drain(cases, &unknown);
    build_chunk_index(cases, &unknown, 48);
    let limit = plain::COUNT_LIMIT;
    for walker in [
        [limit, 0, 0, 0, 0, 0, u64::MAX],
        [316, limit, limit, limit, 0, 1, 5],
        [327, limit, limit, limit, 0, 0, u64::MAX],
        [316, 3, 4, 5, 1, 0, u64::MAX],
    ] {
        next_packet(cases, &example, &mut { walker });
    }
}

fn jumps(cases: &mut Cases) {
    let fresh = words::walker_words(&Walker::fresh());
    let elsewhere = [5, 6, 7, 8, 1, 1, 9];
    for file in files::shapes() {
        let records = original::File::new(&file).records().unwrap();
        let table: Vec<u8> = records.iter().flat_map(plain::Record::bytes).collect();
        for stream in [0, 1] {
            for request in [i64::MIN, -1, 0, 1, 2, i64::MAX] {
                seek_to_via_index(
                    cases,
                    &table,
                    if request == 1 { elsewhere } else { fresh },
                    stream,
                    request,
                );
            }
        }
    }
    let largest = plain::Record {
        tag: AUDIO,
        offset: u32::MAX,
        frames: u32::MAX,
        blocks: u32::MAX,
        samples: plain::COUNT_LIMIT - 1,
    }
    .bytes();
    for request in [i64::MAX, (plain::COUNT_LIMIT - 1) as i64] {
        seek_to_via_index(cases, &largest, fresh, 1, request);
    }
}

fn writes(cases: &mut Cases) {
    let fresh = |settings| words::writer_words(&Writer::fresh(settings));
    let begun = |settings, written, frames| {
        words::writer_words(&Writer {
            begun: true,
            written,
            frames,
            ..Writer::fresh(settings)
        })
    };
    let wide = Settings {
        width: u32::MAX,
        height: 1,
        fps: 0,
        rate: u32::MAX,
        channels: u16::MAX,
    };
    for settings in [EXAMPLE_SETTINGS, wide] {
        write(cases, fresh(settings), &[0xa5; 316], Write::Header);
        write(cases, begun(settings, 316, 0), &[0xa5; 317], Write::Header);
        write(cases, fresh(settings), &[0xa5; 5], Write::Trailer);
        write(
            cases,
            begun(settings, 316, 921_600),
            &[0xa5; 324],
            Write::Trailer,
        );
        write(cases, begun(settings, 317, 0), &[0xa5; 326], Write::Trailer);
    }
    for payload in [&[][..], &[1], &[1, 2, 3], &[7; 10]] {
        for stream in [0, 1, 2, u32::MAX] {
            let room = 316 + 8 + payload.len();
            write(
                cases,
                begun(EXAMPLE_SETTINGS, 316, 4),
                &vec![0xa5; room],
                Write::Packet(payload, stream),
            );
        }
        write(
            cases,
            fresh(EXAMPLE_SETTINGS),
            &[0xa5; 340],
            Write::Packet(payload, 0),
        );
    }
    write(
        cases,
        begun(EXAMPLE_SETTINGS, 316, u64::MAX),
        &[0xa5; 330],
        Write::Packet(&[9], 0),
    );
    write(
        cases,
        begun(EXAMPLE_SETTINGS, 316, u64::MAX),
        &[0xa5; 330],
        Write::Trailer,
    );
}

fn tags(cases: &mut Cases) {
    let other = u32::from_le_bytes(*b"00db");
    let kinds = [VIDEO, AUDIO, other];
    validate_movi_interleave(cases, &[]);
    for a in kinds {
        validate_movi_interleave(cases, &[a]);
        for b in kinds {
            validate_movi_interleave(cases, &[a, b]);
            for c in kinds {
                validate_movi_interleave(cases, &[a, b, c]);
            }
        }
    }
}

/// Headers at every offset of short files, up to the length, and at telling ones of the example. No two bytes of a short file are equal.
fn headers(cases: &mut Cases) {
    let bytes: [u8; 20] = std::array::from_fn(|i| 255 - 11 * i as u8);
    for length in [0, 7, 8, 9, 20] {
        for at in 0..=length {
            chunk_header(cases, &bytes[..length], at);
        }
    }
    let example = files::example();
    let last = example.len() - 8;
    for at in [0, 316, 327].into_iter().chain(last..=example.len()) {
        chunk_header(cases, &example, at);
    }
}

fn run_lengths(cases: &mut Cases) {
    let frames = [
        0,
        1,
        11,
        12,
        719,
        720,
        1116,
        43_199,
        43_200,
        921_598,
        921_599,
        921_600,
        11_059_188,
        11_059_199,
        11_059_200,
        1_000_000_000_000,
        u64::MAX,
    ];
    for frames in frames {
        for fps in [0, 1, 12, u32::MAX] {
            from_frame_count(cases, frames, fps);
        }
    }
}

/// Writes the calls and what the program must print of them into its folder.
pub fn store(folder: &Path) {
    let mut cases = Cases::default();
    preludes(&mut cases);
    chunks(&mut cases);
    jumps(&mut cases);
    writes(&mut cases);
    tags(&mut cases);
    run_lengths(&mut cases);
    headers(&mut cases);
    let of_the_original = cases.counts;
    stated::all(&mut cases);
    steps::all(&mut cases);
    cases.print_counts();
    assert!(cases.calls.len() < CALLS);
    fs::write(folder.join("stdin"), &cases.calls).unwrap();
    fs::write(folder.join("stdout"), &cases.printed).unwrap();
    for (function, name) in FUNCTIONS {
        let theirs = of_the_original[usize::from(function)];
        let stated = cases.counts[usize::from(function)] - theirs;
        println!("{name}: {theirs} of the original, {stated} of 01 and 02");
    }
    let theirs = of_the_original.iter().sum::<u64>();
    println!(
        "{theirs} of the original and {} of 01 and 02 stored, {} bytes of calls; {} left out, where the original answers otherwise",
        cases.counts.iter().sum::<u64>() - theirs,
        cases.calls.len(),
        cases.left_out
    );
}
