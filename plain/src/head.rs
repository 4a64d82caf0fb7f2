//! What stands at an offset of a file: the one reading that every walk goes by.

use crate::{AUDIO, TRAILER, VIDEO};

/// The eight bytes that a chunk or the trailer begins with, loaded at once, as one number.
#[derive(Clone, Copy)]
pub struct Head(u64);

impl Head {
    /// Whether they are the trailer.
    pub fn is_trailer(self) -> bool {
        self.0 == u64::from_le_bytes(*TRAILER)
    }

    /// A chunk's tag.
    pub fn tag(self) -> u32 {
        self.0 as u32
    }

    /// Whether the tag is a frame's or a block's.
    pub fn is_known(self) -> bool {
        self.tag() == VIDEO || self.tag() == AUDIO
    }

    /// The length of its payload.
    pub fn length(self) -> usize {
        (self.0 >> 32) as usize
    }
}

/// The head at an offset, and all that follows it in the file; none where fewer than eight bytes are left.
pub fn head_at(file: &[u8], at: usize) -> Option<(Head, &[u8])> {
    let (head, rest) = file.get(at..)?.split_first_chunk()?;
    Some((Head(u64::from_le_bytes(*head)), rest))
}

/// The sample count of a block by its payload, or by the first eight bytes of it; 0 where it has fewer.
pub fn count_of(payload: &[u8]) -> u64 {
    let preamble = payload.first_chunk::<8>();
    preamble.map_or(0, |preamble| u64::from_le_bytes(*preamble) >> 32)
}
