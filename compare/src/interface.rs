//! The C interface, of the library and of the plain implementation: both have the same functions, and are called in the same way.
//!
//! `out` and a state stand between guard words, and `out` is filled with a pattern first, so a word that is not written, or one
//! written beside them, is seen. Buffers of length 0 go as NULL, which the interface allows.

use amv::sys as c;
use plain::words::{self, WalkerWords, WriterWords};

use crate::said::{Said, Write};

type Out<const N: usize> = *mut [u64; N];

/// A function that reads bytes, writes others from their start on, and answers how many items these are.
type Filling = unsafe extern "C" fn(*const u8, usize, *mut u8, usize, Out<2>) -> u32;

/// The functions of the interface.
pub struct Interface {
    parse: unsafe extern "C" fn(*const u8, usize, bool, Out<16>) -> u32,
    next_packet: unsafe extern "C" fn(*const u8, usize, *mut WalkerWords, Out<7>) -> u32,
    build_chunk_index: Filling,
    seek_to_via_index:
        unsafe extern "C" fn(*const u8, usize, *mut WalkerWords, u32, i64, Out<2>) -> u32,
    register_step: unsafe extern "C" fn(
        *const u8,
        usize,
        *const u8,
        usize,
        *mut WalkerWords,
        *mut u8,
        usize,
        Out<7>,
    ) -> u32,
    print_index: Filling,
    decode_block: unsafe extern "C" fn(*const u8, usize, *mut i16, usize, Out<2>) -> u32,
    summary: unsafe extern "C" fn(*const u8, usize, Out<3>) -> u32,
    check: unsafe extern "C" fn(*const u8, usize, Out<6>) -> u32,
    write_header: unsafe extern "C" fn(*mut WriterWords, *mut u8, usize, Out<1>) -> u32,
    write_packet: unsafe extern "C" fn(
        *mut WriterWords,
        *mut u8,
        usize,
        *const u8,
        usize,
        u32,
        Out<1>,
    ) -> u32,
    write_trailer: unsafe extern "C" fn(*mut WriterWords, *mut u8, usize, Out<1>) -> u32,
    validate_movi_interleave: unsafe extern "C" fn(*const u32, usize, Out<1>) -> u32,
    from_frame_count: unsafe extern "C" fn(u64, u32) -> u32,
}

/// The library.
pub const LIBRARY: Interface = Interface {
    parse: c::amv_parse,
    next_packet: c::amv_next_packet,
    build_chunk_index: c::amv_build_chunk_index,
    seek_to_via_index: c::amv_seek_to_via_index,
    register_step: c::amv_register_step,
    print_index: c::amv_print_index,
    decode_block: c::amv_decode_block,
    summary: c::amv_summary,
    check: c::amv_check,
    write_header: c::amv_write_header,
    write_packet: c::amv_write_packet,
    write_trailer: c::amv_write_trailer,
    validate_movi_interleave: c::amv_validate_movi_interleave,
    from_frame_count: c::amv_from_frame_count,
};

/// The plain implementation.
pub const PLAIN: Interface = Interface {
    parse: words::parse,
    next_packet: words::next_packet,
    build_chunk_index: words::build_chunk_index,
    seek_to_via_index: words::seek_to_via_index,
    register_step: words::register_step,
    print_index: words::print_index,
    decode_block: words::decode_block,
    summary: words::summary,
    check: words::check,
    write_header: words::write_header,
    write_packet: words::write_packet,
    write_trailer: words::write_trailer,
    validate_movi_interleave: words::validate_movi_interleave,
    from_frame_count: words::from_frame_count,
};

const PATTERN: u64 = 0xa5a5_a5a5_a5a5_a5a5;

/// N words between two guards.
fn guarded<const N: usize, T>(words: &mut [u64; N], call: impl FnOnce(Out<N>) -> T) -> T {
    let mut wide = [PATTERN; 18];
    wide[1..=N].copy_from_slice(words);
    let answer = call(wide[1..].as_mut_ptr().cast());
    let beside = wide[0] == PATTERN && wide[N + 1..].iter().all(|word| *word == PATTERN);
    assert!(beside, "a call wrote beside its words");
    words.copy_from_slice(&wide[1..=N]);
    answer
}

fn with_out<const N: usize>(call: impl FnOnce(Out<N>) -> u32) -> Said<N> {
    let mut out = [PATTERN; N];
    let number = guarded(&mut out, call);
    Said { number, out }
}

fn start<T>(slice: &[T]) -> *const T {
    if slice.is_empty() {
        std::ptr::null()
    } else {
        slice.as_ptr()
    }
}

fn start_mut<T>(slice: &mut [T]) -> *mut T {
    if slice.is_empty() {
        std::ptr::null_mut()
    } else {
        slice.as_mut_ptr()
    }
}

// SAFETY, for each call below: the arrays have the lengths that the interface names, slices go with their own length, and no two
// of them overlap.

fn fill(function: Filling, from: &[u8], to: &mut [u8]) -> Said<2> {
    let (bytes, len) = (start_mut(to), to.len());
    with_out(|out| unsafe { function(start(from), from.len(), bytes, len, out) })
}

impl Interface {
    pub fn parse(&self, file: &[u8], strict: bool) -> Said<16> {
        with_out(|out| unsafe { (self.parse)(start(file), file.len(), strict, out) })
    }

    pub fn next_packet(&self, file: &[u8], walker: &mut WalkerWords) -> Said<7> {
        guarded(walker, |walker| {
            with_out(|out| unsafe { (self.next_packet)(start(file), file.len(), walker, out) })
        })
    }

    pub fn build_chunk_index(&self, file: &[u8], table: &mut [u8]) -> Said<2> {
        fill(self.build_chunk_index, file, table)
    }

    pub fn seek_to_via_index(
        &self,
        table: &[u8],
        walker: &mut WalkerWords,
        stream: u32,
        request: i64,
    ) -> Said<2> {
        let (records, len) = (start(table), table.len());
        guarded(walker, |walker| {
            with_out(|out| unsafe {
                (self.seek_to_via_index)(records, len, walker, stream, request, out)
            })
        })
    }

    /// A step on a block of any length, over a file and the records of an index.
    pub fn register_step(
        &self,
        file: &[u8],
        table: &[u8],
        walker: &mut WalkerWords,
        block: &mut [u8],
    ) -> Said<7> {
        let (bytes, len) = (start(file), file.len());
        let (records, table_len) = (start(table), table.len());
        let (registers, block_len) = (start_mut(block), block.len());
        guarded(walker, |walker| {
            with_out(|out| unsafe {
                (self.register_step)(
                    bytes, len, records, table_len, walker, registers, block_len, out,
                )
            })
        })
    }

    pub fn print_index(&self, table: &[u8], page: &mut [u8]) -> Said<2> {
        fill(self.print_index, table, page)
    }

    pub fn decode_block(&self, block: &[u8], samples: &mut [i16]) -> Said<2> {
        let (to, room) = (start_mut(samples), samples.len());
        with_out(|out| unsafe { (self.decode_block)(start(block), block.len(), to, room, out) })
    }

    pub fn summary(&self, file: &[u8]) -> Said<3> {
        with_out(|out| unsafe { (self.summary)(start(file), file.len(), out) })
    }

    pub fn check(&self, file: &[u8]) -> Said<6> {
        with_out(|out| unsafe { (self.check)(start(file), file.len(), out) })
    }

    pub fn write(&self, writer: &mut WriterWords, buf: &mut [u8], call: Write) -> Said<1> {
        let (bytes, len) = (start_mut(buf), buf.len());
        guarded(writer, |writer| {
            with_out(|out| unsafe {
                match call {
                    Write::Header => (self.write_header)(writer, bytes, len, out),
                    Write::Trailer => (self.write_trailer)(writer, bytes, len, out),
                    Write::Packet(payload, stream) => {
                        let (from, size) = (start(payload), payload.len());
                        (self.write_packet)(writer, bytes, len, from, size, stream, out)
                    }
                }
            })
        })
    }

    pub fn validate_movi_interleave(&self, tags: &[u32]) -> Said<1> {
        with_out(|out| unsafe { (self.validate_movi_interleave)(start(tags), tags.len(), out) })
    }

    /// What `from_frame_count` returns.
    pub fn run_length(&self, frames: u64, fps: u32) -> u32 {
        unsafe { (self.from_frame_count)(frames, fps) }
    }
}
