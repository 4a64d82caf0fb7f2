//! The calls that are timed, with Rust's types.

use crate::{Answer, Packet, Totals, Walker, Writer};

/// A read.
#[inline(never)]
pub fn next_packet(file: &[u8], walker: &mut Walker) -> Answer<Option<Packet>> {
    crate::next_packet(file, walker)
}

/// The index.
#[inline(never)]
pub fn build_chunk_index(file: &[u8], table: &mut [u8]) -> Answer<u64> {
    crate::build_chunk_index(file, table)
}

/// The summary.
#[inline(never)]
pub fn summary(file: &[u8]) -> Answer<(u64, u64)> {
    crate::summary(file)
}

/// A jump.
#[inline(never)]
pub fn seek_to_via_index(
    table: &[u8],
    walker: &mut Walker,
    stream: u32,
    request: i64,
) -> Answer<u64> {
    crate::seek_to_via_index(table, walker, stream, request)
}

/// A step of the register block.
#[inline(never)]
pub fn register_step(
    file: &[u8],
    table: &[u8],
    walker: &mut Walker,
    block: &mut [u8],
) -> Answer<Option<Packet>> {
    crate::register_step(file, table, walker, block)
}

/// The page.
#[inline(never)]
pub fn print_index(table: &[u8], page: &mut [u8]) -> Answer<u64> {
    crate::print_index(table, page)
}

/// The samples of a block.
#[inline(never)]
pub fn decode_block_by_table(block: &[u8], samples: &mut [i16]) -> Answer<u64> {
    crate::decode_block_by_table(block, samples)
}

/// The check.
#[inline(never)]
pub fn check(file: &[u8]) -> Answer<Totals> {
    crate::check(file)
}

/// The header.
#[inline(never)]
pub fn write_header(writer: &mut Writer, buf: &mut [u8]) -> Answer<()> {
    writer.write_header(buf)
}

/// A packet.
#[inline(never)]
pub fn write_packet(
    writer: &mut Writer,
    buf: &mut [u8],
    payload: &[u8],
    stream: u32,
) -> Answer<()> {
    writer.write_packet(buf, payload, stream)
}

/// The trailer.
#[inline(never)]
pub fn write_trailer(writer: &mut Writer, buf: &mut [u8]) -> Answer<()> {
    writer.write_trailer(buf)
}
