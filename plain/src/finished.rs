//! The check of a finished recording (docs/FORMAT.md, 8), and of the order of its chunks (10).

use crate::head::{count_of, head_at};
use crate::prelude::ask_strictly;
use crate::{AUDIO, Answer, PRELUDE, VIDEO, ask, refuse, within_limit};

/// What the check gives of a finished recording.
#[derive(Clone, Copy, Debug, PartialEq, Eq)]
pub struct Totals {
    /// Its frames.
    pub frames: u64,
    /// Its blocks.
    pub blocks: u64,
    /// The samples of all blocks.
    pub samples: u64,
    /// The offset of the trailer.
    pub trailer: u64,
    /// Whether frames and blocks alternate, a frame first and as many of each.
    pub paired: bool,
}

/// The totals of a finished recording, in one pass over its chunks. Refuses with 10 to 24, 60, 61 and 31.
#[inline]
pub fn check(file: &[u8]) -> Answer<Totals> {
    within_limit(file)?;
    ask_strictly(file)?;
    let mut at = PRELUDE;
    let (mut frames, mut blocks, mut samples) = (0, 0, 0);
    let mut paired = true;
    loop {
        let Some((head, rest)) = head_at(file, at) else {
            return refuse(60, at as u64);
        };
        if head.is_trailer() {
            ask(rest.is_empty(), 61, at as u64)?;
            break;
        }
        ask(head.is_known(), 31, at as u64)?;
        let Some(payload) = rest.get(..head.length()) else {
            return refuse(60, at as u64);
        };
        // Frames stand at even positions, blocks at odd ones.
        let odd = (frames + blocks) % 2 == 1;
        if head.tag() == VIDEO {
            paired &= !odd;
            frames += 1;
        } else {
            paired &= odd;
            blocks += 1;
            samples += count_of(payload);
        }
        at += 8 + payload.len();
    }
    Ok(Totals {
        frames,
        blocks,
        samples,
        trailer: at as u64,
        paired: paired && (frames + blocks) % 2 == 0,
    })
}

/// Accepts tags that alternate, a frame's first and as many of each. Refuses with 62 to 65.
pub fn validate_movi_interleave(tags: &[u32]) -> Answer<()> {
    for (i, tag) in tags.iter().enumerate() {
        ask(!(*tag == VIDEO && i % 2 == 1), 62, i as u64)?;
        ask(!(*tag == AUDIO && i % 2 == 0), 63, i as u64)?;
        ask(*tag == VIDEO || *tag == AUDIO, 64, i as u64)?;
    }
    ask(tags.len().is_multiple_of(2), 65, tags.len() as u64)
}
