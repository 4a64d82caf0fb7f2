//! One read (docs/FORMAT.md, 5).

use crate::head::{count_of, head_at};
use crate::{Answer, COUNT_LIMIT, PRELUDE, VIDEO, ask, within_limit};

/// Where a reader stands.
#[derive(Clone, Copy, Debug, PartialEq, Eq)]
pub struct Walker {
    /// The offset of the next chunk.
    pub cursor: u64,
    /// The frames before it.
    pub frames: u64,
    /// The samples before it.
    pub samples: u64,
    /// The blocks before it.
    pub blocks: u64,
    /// Whether a read answers End.
    pub end: bool,
    /// Whether a read has found that the file ends before its trailer, at a chunk or inside one.
    pub cut: bool,
    /// The offset of the trailer, once a read has met it.
    pub trailer: Option<u64>,
}

impl Walker {
    /// A walker at the first chunk.
    pub fn fresh() -> Self {
        Self {
            cursor: PRELUDE as u64,
            frames: 0,
            samples: 0,
            blocks: 0,
            end: false,
            cut: false,
            trailer: None,
        }
    }

    /// Asks 32.
    pub(crate) fn in_range(&self) -> Answer<()> {
        let counts = [self.cursor, self.frames, self.samples, self.blocks];
        let in_range = counts.into_iter().all(|count| count <= COUNT_LIMIT);
        ask(in_range, 32, 0)
    }

    /// The End of a file that is cut here.
    fn end_cut(&mut self) -> Option<Packet> {
        self.end = true;
        self.cut = true;
        None
    }

    /// The packet of a whole chunk at the cursor, and the walker past it. Sums wrap, as the original's do in an optimised build; in range
    /// none does.
    fn take(&mut self, tag: u32, payload: &[u8]) -> Packet {
        let start = self.cursor.wrapping_add(8);
        self.cursor = start.wrapping_add(payload.len() as u64);
        let (stream, stamp, duration);
        if tag == VIDEO {
            (stream, stamp, duration) = (0, self.frames, 1);
            self.frames = stamp.wrapping_add(1);
        } else {
            (stream, stamp, duration) = (1, self.samples, count_of(payload));
            self.samples = stamp.wrapping_add(duration);
            self.blocks = self.blocks.wrapping_add(1);
        }
        Packet {
            stream,
            start,
            length: payload.len() as u64,
            stamp,
            duration,
        }
    }
}

/// A packet; its payload is `length` bytes of the file from `start`.
#[derive(Clone, Copy, Debug, PartialEq, Eq)]
pub struct Packet {
    /// 0 for a frame, 1 for a block.
    pub stream: u32,
    /// The offset of the payload.
    pub start: u64,
    /// The length of the payload.
    pub length: u64,
    /// The frames or the samples before it.
    pub stamp: u64,
    /// 1, or the block's sample count; 0 is shown as none.
    pub duration: u64,
}

/// The packet at the walker's cursor, none at the End. Refuses with 10, 32 and 31.
#[inline]
pub fn next_packet(file: &[u8], walker: &mut Walker) -> Answer<Option<Packet>> {
    within_limit(file)?;
    walker.in_range()?;
    read_on(file, walker)
}

/// A read after its first two questions. A walker out of range reads on as the original's does.
#[inline]
pub fn read_on(file: &[u8], walker: &mut Walker) -> Answer<Option<Packet>> {
    if walker.end {
        return Ok(None);
    }
    let Some((head, rest)) = head_at(file, walker.cursor as usize) else {
        return Ok(walker.end_cut());
    };
    if head.is_trailer() {
        walker.end = true;
        walker.trailer = Some(walker.cursor);
        return Ok(None);
    }
    ask(head.is_known(), 31, walker.cursor)?;
    let Some(payload) = rest.get(..head.length()) else {
        return Ok(walker.end_cut());
    };
    Ok(Some(walker.take(head.tag(), payload)))
}
