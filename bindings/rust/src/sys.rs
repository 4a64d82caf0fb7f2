//! The C interface as include/amv.h declares it, which says of each function what its words are. Every function returns 0 or the number of
//! its refusal, but for the last, which returns its value. `tests/signatures.rs` holds the two against the library's source.
//!
//! For all of them: a pointer goes with the length of what it points to, and no two lent parts overlap.

unsafe extern "C" {
    /// The fields of the prelude. Refuses with 10 to 13, and strict with 14 to 24 too.
    pub fn amv_parse(file: *const u8, len: usize, strict: bool, out: *mut [u64; 16]) -> u32;
    /// The packet at the walker's cursor, or End, and the walker past it. Refuses with 1, 10, 32 and 31.
    pub fn amv_next_packet(
        file: *const u8,
        len: usize,
        walker: *mut [u64; 7],
        out: *mut [u64; 7],
    ) -> u32;
    /// The records of a file into a table, and their number. Refuses with 10, 31 and 40.
    pub fn amv_build_chunk_index(
        file: *const u8,
        len: usize,
        table: *mut u8,
        table_len: usize,
        out: *mut [u64; 2],
    ) -> u32;
    /// The walker at the first chunk of a stream at or after a request, or at the end. Refuses with 1, 42, 41, 43 and 32.
    pub fn amv_seek_to_via_index(
        table: *const u8,
        table_len: usize,
        walker: *mut [u64; 7],
        stream: u32,
        request: i64,
        out: *mut [u64; 2],
    ) -> u32;
    /// A step of the register block: acknowledges, performs its command on the walker and writes it anew; the packet that a read gave. Refuses
    /// with 1, 74 and 75.
    pub fn amv_register_step(
        file: *const u8,
        len: usize,
        table: *const u8,
        table_len: usize,
        walker: *mut [u64; 7],
        block: *mut u8,
        block_len: usize,
        out: *mut [u64; 7],
    ) -> u32;
    /// The page of an index: a line of 40 columns for each record, and their number. Refuses with 41, 43, 70 and 40.
    pub fn amv_print_index(
        table: *const u8,
        table_len: usize,
        page: *mut u8,
        page_len: usize,
        out: *mut [u64; 2],
    ) -> u32;
    /// The samples of a sound block, and their number; the buffer's length is in samples. Refuses with 25, 71, 72 and 73.
    pub fn amv_decode_block(
        block: *const u8,
        len: usize,
        samples: *mut i16,
        samples_len: usize,
        out: *mut [u64; 2],
    ) -> u32;
    /// How many frames and blocks a file has. Refuses with 10 and 31.
    pub fn amv_summary(file: *const u8, len: usize, out: *mut [u64; 3]) -> u32;
    /// The totals of a finished recording. Refuses with 10 to 24, 60, 61 and 31.
    pub fn amv_check(file: *const u8, len: usize, out: *mut [u64; 6]) -> u32;
    /// Writes the prelude. Refuses with 1, 50, 55 and 54.
    pub fn amv_write_header(
        writer: *mut [u64; 9],
        buf: *mut u8,
        len: usize,
        out: *mut [u64; 1],
    ) -> u32;
    /// Writes a packet. Refuses with 1, 51, 55, 56, 52, 53 and 54.
    pub fn amv_write_packet(
        writer: *mut [u64; 9],
        buf: *mut u8,
        len: usize,
        payload: *const u8,
        payload_len: usize,
        stream: u32,
        out: *mut [u64; 1],
    ) -> u32;
    /// Writes the trailer and the run length. Refuses with 1, 51, 55, 56 and 54.
    pub fn amv_write_trailer(
        writer: *mut [u64; 9],
        buf: *mut u8,
        len: usize,
        out: *mut [u64; 1],
    ) -> u32;
    /// Accepts tags that alternate, a picture first and as many of each. Refuses with 62 to 65.
    pub fn amv_validate_movi_interleave(tags: *const u32, count: usize, out: *mut [u64; 1]) -> u32;
    /// The packed run length of a number of frames, which is what it returns. Never refuses.
    pub fn amv_from_frame_count(frames: u64, fps: u32) -> u32;
}
