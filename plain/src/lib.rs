//! A second implementation of document 01, written from 01 alone, in 01's order, and of the calls that document 02
//! adds, each written from its request; docs/FORMAT.md says the same in other words, and its sections are cited
//! here. It serves twice: `compare/` holds the library and the original against it, and `bench/` times the library
//! against it. So it is as one would write it in Rust for speed, and as plain as that allows.
//!
//! 01's headings, and where they are here:
//!
//! - From a written packet to its file: `writer`, with the prelude's bytes in `prelude`
//! - From the file to the walker: `prelude`
//! - One read: `walker`, over `head`, which every walk over a file goes by
//! - Index and seek: `index`, `seek`
//! - The finished recording: `finished`
//! - Other pieces: `summary` in `index`, `validate_movi_interleave` in `finished`; single bodies are in `compare/`, which alone needs them
//!
//! 02's requests:
//!
//! - M-100, a page for the printer: `page`; what it asks of a table first, and a jump too, is `good_records` in `index`
//! - M-101, hear the paste: `sound`, by the rule, which is compared, and by a table, which is timed
//! - M-106, the register block: `registers`, over a read and a jump
//!
//! Where a call on a state asks questions first and then acts, the acting part is a function of its own. The rules for known differences
//! in `compare/` use it to say what the original, which does not ask, answers instead.
//!
//! The calls have two forms more: `words` is the library's own C interface, which is timed and which `compare/` goes through, and `calls`
//! has Rust's types, to be timed too. Neither is inlined into its caller, since the library's calls cannot be; what they call is inlined
//! into them.

pub mod calls;
mod finished;
mod head;
mod index;
mod page;
mod prelude;
mod registers;
mod seek;
mod sound;
mod walker;
pub mod words;
mod writer;

pub use finished::{Totals, check, validate_movi_interleave};
pub use index::{Record, build_chunk_index, records, summary};
pub use page::{LINE, print_index};
pub use prelude::{Header, Prelude, Settings, Wave, build_prelude_bytes, parse, parse_strict};
pub use registers::{REGISTERS, register_step};
pub use seek::{jump, seek_to_via_index};
pub use sound::{PREAMBLE, STEPS, decode_block, decode_block_by_table};
pub use walker::{Packet, Walker, next_packet, read_on};
pub use writer::{Writer, from_frame_count};

/// A refusal: the number of the question that was answered with no, and the place.
#[derive(Clone, Copy, Debug, PartialEq, Eq)]
pub struct Refusal {
    /// The question's number (docs/FORMAT.md, 14).
    pub number: u32,
    /// A byte offset, a position or a count, as the question has it; 0 where it has none.
    pub place: u64,
}

/// What a call answers.
pub type Answer<T> = Result<T, Refusal>;

fn refuse<T>(number: u32, place: u64) -> Answer<T> {
    Err(Refusal { number, place })
}

/// A question: refuses unless the answer is yes.
pub fn ask(yes: bool, number: u32, place: u64) -> Answer<()> {
    if yes { Ok(()) } else { refuse(number, place) }
}

/// The longest file, in bytes.
pub const FILE_LIMIT: usize = 4_294_967_295;
/// The largest cursor and counts of a walker.
pub const COUNT_LIMIT: u64 = 1 << 62;
/// The length of the prelude, which is where the first chunk stands.
pub const PRELUDE: usize = 316;
/// The length of a record of the index.
pub const RECORD: usize = 24;
/// The tag of a frame.
pub const VIDEO: u32 = u32::from_le_bytes(*b"00dc");
/// The tag of a block.
pub const AUDIO: u32 = u32::from_le_bytes(*b"01wb");
/// The trailer.
pub const TRAILER: &[u8; 8] = b"AMV_END_";

/// The tag of the chunks of stream 0, or of stream 1.
pub fn stream_tag(stream: u32) -> u32 {
    if stream == 0 { VIDEO } else { AUDIO }
}

fn u16_at(bytes: &[u8], at: usize) -> u16 {
    u16::from_le_bytes(bytes[at..at + 2].try_into().unwrap())
}

/// The little-endian number of 4 bytes at an offset where they are.
pub fn u32_at(bytes: &[u8], at: usize) -> u32 {
    u32::from_le_bytes(bytes[at..at + 4].try_into().unwrap())
}

fn u64_at(bytes: &[u8], at: usize) -> u64 {
    u64::from_le_bytes(bytes[at..at + 8].try_into().unwrap())
}

/// Asks 10.
fn within_limit(file: &[u8]) -> Answer<()> {
    ask(file.len() <= FILE_LIMIT, 10, 0)
}
