//! The calls with the library's own C interface (docs/FORMAT.md, 12; include/amv.h): states and answers are arrays of words, and a state
//! word that its field cannot hold is refused with 1.
//!
//! # Safety
//!
//! As for the library's functions: a pointer goes with the length of what it points to, one to no bytes may be NULL, and no two lent
//! parts overlap.
#![allow(clippy::missing_safety_doc)] // It stands above, once for all.

use crate::{
    Answer, Header, PRELUDE, Packet, Prelude, Refusal, Settings, Totals, Walker, Wave, Writer,
};

/// Cursor, frames, samples, blocks, end, cut, and the trailer's offset or 2^64 - 1 where it was not met.
pub type WalkerWords = [u64; 7];
/// Width, height, fps, rate, channels, begun, ended, bytes written, frames.
pub type WriterWords = [u64; 9];

/// The refusal of a state word that its field cannot hold.
const BAD_WORD: Refusal = Refusal {
    number: 1,
    place: 0,
};

fn mark(word: u64) -> Answer<bool> {
    match word {
        0 | 1 => Ok(word == 1),
        _ => Err(BAD_WORD),
    }
}

fn field<T: TryFrom<u64>>(word: u64) -> Answer<T> {
    word.try_into().or(Err(BAD_WORD))
}

/// The walker that the words are. Refuses with 1.
pub fn walker_of(words: &WalkerWords) -> Answer<Walker> {
    Ok(Walker {
        cursor: words[0],
        frames: words[1],
        samples: words[2],
        blocks: words[3],
        end: mark(words[4])?,
        cut: mark(words[5])?,
        trailer: (words[6] != u64::MAX).then_some(words[6]),
    })
}

/// The words of a walker.
pub fn walker_words(walker: &Walker) -> WalkerWords {
    [
        walker.cursor,
        walker.frames,
        walker.samples,
        walker.blocks,
        walker.end as u64,
        walker.cut as u64,
        walker.trailer.unwrap_or(u64::MAX),
    ]
}

/// The writer that the words are. Refuses with 1.
pub fn writer_of(words: &WriterWords) -> Answer<Writer> {
    Ok(Writer {
        settings: Settings {
            width: field(words[0])?,
            height: field(words[1])?,
            fps: field(words[2])?,
            rate: field(words[3])?,
            channels: field(words[4])?,
        },
        begun: mark(words[5])?,
        ended: mark(words[6])?,
        written: words[7],
        frames: words[8],
    })
}

/// The words of a writer.
pub fn writer_words(writer: &Writer) -> WriterWords {
    let settings = writer.settings;
    let [begun, ended, written, frames] = changing_words(writer);
    [
        settings.width as u64,
        settings.height as u64,
        settings.fps as u64,
        settings.rate as u64,
        settings.channels as u64,
        begun,
        ended,
        written,
        frames,
    ]
}

/// The last four words of a writer: a call can change no others.
fn changing_words(writer: &Writer) -> [u64; 4] {
    [
        writer.begun as u64,
        writer.ended as u64,
        writer.written,
        writer.frames,
    ]
}

/// The words of the body at 32.
pub fn header_words(header: Header) -> [u64; 7] {
    [
        header.micros as u64,
        header.width as u64,
        header.height as u64,
        header.fps as u64,
        header.flag as u64,
        header.reserved as u64,
        header.duration as u64,
    ]
}

/// The words of the body at 284.
pub fn wave_words(wave: Wave) -> [u64; 7] {
    [
        wave.format as u64,
        wave.channels as u64,
        wave.rate as u64,
        wave.average as u64,
        wave.align as u64,
        wave.bits as u64,
        wave.cb_size as u64,
    ]
}

/// `out` of a parse.
fn parse_out(prelude: Prelude) -> [u64; 16] {
    let mut out = [0; 16];
    out[1..8].copy_from_slice(&header_words(prelude.header));
    out[8..15].copy_from_slice(&wave_words(prelude.wave));
    out[15] = PRELUDE as u64;
    out
}

/// `out` of a read, which is all zeros at the End.
pub fn read_out(read: Option<Packet>) -> [u64; 7] {
    read.map_or([0; 7], |packet| {
        [
            0,
            1,
            packet.stream as u64,
            packet.start,
            packet.length,
            packet.stamp,
            packet.duration,
        ]
    })
}

/// `out` of a check.
fn check_out(totals: Totals) -> [u64; 6] {
    [
        0,
        totals.frames,
        totals.blocks,
        totals.samples,
        totals.trailer,
        totals.paired as u64,
    ]
}

/// Stores the `out` of what a call gives, or the place of its refusal and zeros, and returns its number.
#[inline(always)]
unsafe fn store<T, const N: usize>(
    answer: Answer<T>,
    out: *mut [u64; N],
    out_of: impl FnOnce(T) -> [u64; N],
) -> u32 {
    let out = unsafe { &mut *out };
    match answer {
        Ok(given) => {
            *out = out_of(given);
            0
        }
        Err(Refusal { number, place }) => {
            *out = [0; N];
            out[0] = place;
            number
        }
    }
}

/// A call on a walker; a refusal leaves the words.
#[inline(always)]
unsafe fn with_walker<T>(
    words: *mut WalkerWords,
    call: impl FnOnce(&mut Walker) -> Answer<T>,
) -> Answer<T> {
    let words = unsafe { &mut *words };
    let mut walker = walker_of(words)?;
    let answer = call(&mut walker);
    if answer.is_ok() {
        *words = walker_words(&walker);
    }
    answer
}

/// A call on a writer, which can change only the last four words; a refusal leaves them.
#[inline(always)]
unsafe fn with_writer(
    words: *mut WriterWords,
    call: impl FnOnce(&mut Writer) -> Answer<()>,
) -> Answer<()> {
    let words = unsafe { &mut *words };
    let mut writer = writer_of(words)?;
    call(&mut writer)?;
    words[5..].copy_from_slice(&changing_words(&writer));
    Ok(())
}

/// The fields of the prelude.
#[inline(never)]
pub unsafe extern "C" fn parse(
    file: *const u8,
    len: usize,
    strict: bool,
    out: *mut [u64; 16],
) -> u32 {
    let file = unsafe { slice(file, len) };
    let prelude = if strict {
        crate::parse_strict(file)
    } else {
        crate::parse(file)
    };
    unsafe { store(prelude, out, parse_out) }
}

/// A read.
#[inline(never)]
pub unsafe extern "C" fn next_packet(
    file: *const u8,
    len: usize,
    walker: *mut WalkerWords,
    out: *mut [u64; 7],
) -> u32 {
    unsafe {
        let file = slice(file, len);
        let read = with_walker(walker, |walker| crate::next_packet(file, walker));
        store(read, out, read_out)
    }
}

/// The index.
#[inline(never)]
pub unsafe extern "C" fn build_chunk_index(
    file: *const u8,
    len: usize,
    table: *mut u8,
    table_len: usize,
    out: *mut [u64; 2],
) -> u32 {
    unsafe {
        let count = crate::build_chunk_index(slice(file, len), slice_mut(table, table_len));
        store(count, out, |count| [0, count])
    }
}

/// A jump.
#[inline(never)]
pub unsafe extern "C" fn seek_to_via_index(
    table: *const u8,
    table_len: usize,
    walker: *mut WalkerWords,
    stream: u32,
    request: i64,
    out: *mut [u64; 2],
) -> u32 {
    unsafe {
        let table = slice(table, table_len);
        let stamp = with_walker(walker, |walker| {
            crate::seek_to_via_index(table, walker, stream, request)
        });
        store(stamp, out, |stamp| [0, stamp])
    }
}

/// A step of the register block.
#[inline(never)]
pub unsafe extern "C" fn register_step(
    file: *const u8,
    len: usize,
    table: *const u8,
    table_len: usize,
    walker: *mut WalkerWords,
    block: *mut u8,
    block_len: usize,
    out: *mut [u64; 7],
) -> u32 {
    unsafe {
        let (file, table) = (slice(file, len), slice(table, table_len));
        let block = slice_mut(block, block_len);
        let step = with_walker(walker, |walker| {
            crate::register_step(file, table, walker, block)
        });
        store(step, out, read_out)
    }
}

/// The page.
#[inline(never)]
pub unsafe extern "C" fn print_index(
    table: *const u8,
    table_len: usize,
    page: *mut u8,
    page_len: usize,
    out: *mut [u64; 2],
) -> u32 {
    unsafe {
        let lines = crate::print_index(slice(table, table_len), slice_mut(page, page_len));
        store(lines, out, |lines| [0, lines])
    }
}

/// The samples of a block.
#[inline(never)]
pub unsafe extern "C" fn decode_block(
    block: *const u8,
    len: usize,
    samples: *mut i16,
    samples_len: usize,
    out: *mut [u64; 2],
) -> u32 {
    unsafe {
        let count = crate::decode_block(slice(block, len), slice_mut(samples, samples_len));
        store(count, out, |count| [0, count])
    }
}

/// The samples of a block by a table.
#[inline(never)]
pub unsafe extern "C" fn decode_block_by_table(
    block: *const u8,
    len: usize,
    samples: *mut i16,
    samples_len: usize,
    out: *mut [u64; 2],
) -> u32 {
    unsafe {
        let (block, samples) = (slice(block, len), slice_mut(samples, samples_len));
        let count = crate::decode_block_by_table(block, samples);
        store(count, out, |count| [0, count])
    }
}

/// The summary.
#[inline(never)]
pub unsafe extern "C" fn summary(file: *const u8, len: usize, out: *mut [u64; 3]) -> u32 {
    unsafe {
        let counts = crate::summary(slice(file, len));
        store(counts, out, |(frames, blocks)| [0, frames, blocks])
    }
}

/// The check.
#[inline(never)]
pub unsafe extern "C" fn check(file: *const u8, len: usize, out: *mut [u64; 6]) -> u32 {
    unsafe { store(crate::check(slice(file, len)), out, check_out) }
}

/// The header.
#[inline(never)]
pub unsafe extern "C" fn write_header(
    writer: *mut WriterWords,
    buf: *mut u8,
    len: usize,
    out: *mut [u64; 1],
) -> u32 {
    unsafe {
        let buf = slice_mut(buf, len);
        let wrote = with_writer(writer, |writer| writer.write_header(buf));
        store(wrote, out, |()| [0])
    }
}

/// A packet.
#[inline(never)]
pub unsafe extern "C" fn write_packet(
    writer: *mut WriterWords,
    buf: *mut u8,
    len: usize,
    payload: *const u8,
    payload_len: usize,
    stream: u32,
    out: *mut [u64; 1],
) -> u32 {
    unsafe {
        let (buf, payload) = (slice_mut(buf, len), slice(payload, payload_len));
        let wrote = with_writer(writer, |writer| writer.write_packet(buf, payload, stream));
        store(wrote, out, |()| [0])
    }
}

/// The trailer.
#[inline(never)]
pub unsafe extern "C" fn write_trailer(
    writer: *mut WriterWords,
    buf: *mut u8,
    len: usize,
    out: *mut [u64; 1],
) -> u32 {
    unsafe {
        let buf = slice_mut(buf, len);
        let wrote = with_writer(writer, |writer| writer.write_trailer(buf));
        store(wrote, out, |()| [0])
    }
}

/// The order of tags.
#[inline(never)]
pub unsafe extern "C" fn validate_movi_interleave(
    tags: *const u32,
    count: usize,
    out: *mut [u64; 1],
) -> u32 {
    unsafe {
        let valid = crate::validate_movi_interleave(slice(tags, count));
        store(valid, out, |()| [0])
    }
}

/// The run length, which is what it returns.
#[inline(never)]
pub unsafe extern "C" fn from_frame_count(frames: u64, fps: u32) -> u32 {
    u32::from_le_bytes(crate::from_frame_count(frames, fps))
}

/// What is lent at `start`, which may be NULL where that is nothing.
unsafe fn slice<'a, T>(start: *const T, len: usize) -> &'a [T] {
    if len == 0 {
        return &[];
    }
    unsafe { std::slice::from_raw_parts(start, len) }
}

/// The same, to be written.
unsafe fn slice_mut<'a, T>(start: *mut T, len: usize) -> &'a mut [T] {
    if len == 0 {
        return &mut [];
    }
    unsafe { std::slice::from_raw_parts_mut(start, len) }
}
