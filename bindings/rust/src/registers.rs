//! The names of the register block, which are those of include/amv.h: `AMV_REGISTER_STATUS` is `register::STATUS`, and so on.
//! `tests/signatures.rs` holds the two against each other.

/// Where each register starts in the register block, the 16 bytes through which a controller drives a reader. Bytes 6 and 7 are free.
pub mod register {
    /// What the controller asks for, a number of [`command`](crate::command); each step sets it to 0.
    pub const COMMAND: usize = 0;
    /// What became of it, in bits of [`status`](crate::status); each step writes it anew.
    pub const STATUS: usize = 1;
    /// The bits of status that may interrupt, as the controller leaves them.
    pub const ENABLE: usize = 2;
    /// The interrupts that are pending, by the same bits.
    pub const PENDING: usize = 3;
    /// The bits of pending that the next step is to clear; each step sets it to 0.
    pub const ACKNOWLEDGE: usize = 4;
    /// The number of the step's refused read or seek; 0 where none was refused.
    pub const REFUSAL: usize = 5;
    /// The request of a seek, an `i64` in little-endian bytes to the block's end; a step leaves here the stamp that its read or seek gave.
    pub const REQUEST: usize = 8;
    /// The bytes of the block.
    pub const BLOCK_LEN: usize = 16;
}

/// The numbers that the register command may hold; any other refuses the step.
pub mod command {
    /// Nothing is performed; pending is acknowledged, and status is written anew all the same.
    pub const NONE: u8 = 0;
    /// A read, as [`next_packet`](crate::AmvDemuxer::next_packet).
    pub const READ: u8 = 1;
    /// A seek of stream 0 to the request, as [`seek_to_via_index`](crate::AmvDemuxer::seek_to_via_index).
    pub const SEEK_PICTURE: u8 = 2;
    /// The same of stream 1.
    pub const SEEK_SOUND: u8 = 3;
}

/// The bits of the register status, and so of enable, pending and acknowledge.
pub mod status {
    /// This step's read gave a packet.
    pub const PACKET: u8 = 1;
    /// The reader stands at the end.
    pub const END: u8 = 2;
    /// A read has found the file cut.
    pub const CUT: u8 = 4;
    /// This step's read or seek was refused, with the number in refusal.
    pub const REFUSED: u8 = 8;
}
