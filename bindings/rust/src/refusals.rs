//! The refusals by name: the rows of `AMV_REFUSALS` in include/amv.h. `tests/signatures.rs` holds the two against each other and
//! against the library's source.

use crate::AmvError;

macro_rules! refusals {
    ($(($number:literal, $name:ident, $question:literal, $place:literal),)*) => {
        /// The numbers by name; each is described by its question.
        impl AmvError {
            $(#[doc = $question]
            pub const $name: u32 = $number;)*

            /// The question that was answered with no.
            pub fn question(&self) -> &'static str {
                match self.number {
                    $($number => $question,)*
                    _ => "a number that this version does not know",
                }
            }

            /// What the place is.
            pub fn place_is(&self) -> &'static str {
                match self.number {
                    $($number => $place,)*
                    _ => "0",
                }
            }
        }
    };
}

#[rustfmt::skip]
refusals! {
    (1, ILLEGAL_STATE, "Is each word of the state in its field's range: marks 0 or 1, width, height, fps and rate within 32 bits, channels within 16?", "0"),
    // The file
    (10, FILE_TOO_LONG, "Has the file at most 4,294,967,295 bytes?", "0"),
    // The prelude
    (11, PRELUDE_CUT, "Does the file reach the end of this tag, size or body of the prelude?", "its start"),
    (12, WRONG_TAG, "Is the tag the one that belongs here?", "its start"),
    (13, WRONG_SIZE, "Is the size the one that belongs here?", "its start"),
    (14, ZERO_FPS, "Is fps above 0?", "72"),
    (15, WRONG_MICROS, "Are the microseconds a frame 1,000,000/fps?", "32"),
    (16, WRONG_FLAG, "Is the flag 1?", "76"),
    (17, NONZERO_RESERVED, "Is the reserved number zero?", "80"),
    (18, NONZERO_BYTE, "Are the bytes 36..64, 108..164, 172..208 and 228..276 zero?", "the first that is not"),
    (19, WRONG_FORMAT, "Is the sound format 1?", "284"),
    (20, WRONG_CHANNELS, "Is there one channel?", "286"),
    (21, WRONG_AVERAGE, "Are the average bytes a second twice the rate, at most 4,294,967,295?", "292"),
    (22, WRONG_ALIGN, "Is the align 2?", "296"),
    (23, WRONG_BITS, "Are the bits 16?", "298"),
    (24, WRONG_CB_SIZE, "Is cbSize 0?", "300"),
    // Single bodies
    (25, PREAMBLE_TOO_SHORT, "Has the preamble of a sound block 8 bytes?", "0"),
    (26, NO_SAMPLES, "Is the block's sample count above 0?", "0"),
    (27, WAVE_FORMAT_TOO_SHORT, "Has the wave format 18 bytes?", "0"),
    (28, HEADER_TOO_SHORT, "Has the header 56 bytes?", "0"),
    (29, CHUNK_HEADER_TOO_SHORT, "Has the chunk header 8 bytes?", "0"),
    // Reads, index, jumps
    (31, UNKNOWN_TAG, "Is the tag 00dc or 01wb, a picture's or sound's?", "the chunk's offset"),
    (32, STATE_OUT_OF_RANGE, "Are cursor, frames, samples and blocks each at most 2^62?", "0"),
    (40, TABLE_TOO_SHORT, "Does the table hold all records, or the page all lines?", "0"),
    (41, TABLE_RAGGED, "Is the table whole records of 24 bytes?", "0"),
    (42, NO_SUCH_STREAM, "Is the stream of the jump 0 or 1?", "0"),
    (43, BAD_RECORD, "Has the record a known tag, and fewer than 2^62 samples before it?", "the record's start in the table"),
    // Writing
    (50, ALREADY_BEGUN, "Header: has the writer not begun?", "bytes written"),
    (51, NOT_BEGUN, "Packet and trailer: has the writer begun?", "bytes written"),
    (52, PAYLOAD_TOO_LONG, "Has the payload at most 4,294,967,295 bytes?", "bytes written"),
    (53, PACKET_OF_NO_STREAM, "Is the stream of the packet 0 or 1?", "bytes written"),
    (54, NO_ROOM, "Does what is to be written end within the buffer and the file limit?", "bytes written"),
    (55, ALREADY_ENDED, "Has the writer not ended?", "bytes written"),
    (56, PRELUDE_MISSING, "Has a writer that has begun written at least 316 bytes?", "bytes written"),
    // The finished recording
    (60, CHUNK_CUT, "Is the chunk whole: 8 bytes of header and all of its payload?", "the chunk's offset"),
    (61, AFTER_TRAILER, "Is the trailer the last 8 bytes of the file?", "the trailer's offset"),
    // The interleave check
    (62, VIDEO_AT_ODD_POSITION, "Does no picture stand at an odd position?", "its position"),
    (63, AUDIO_AT_EVEN_POSITION, "Does no sound stand at an even position?", "its position"),
    (64, OTHER_AT_POSITION, "Is every tag a picture's or sound's?", "its position"),
    (65, ODD_CHUNK_COUNT, "Is the number of tags even?", "the number of tags"),
    // The page
    (70, SAMPLES_TOO_WIDE, "Has the number of samples before the record at most 18 digits?", "the record's start in the table"),
    // The sound block
    (71, STEP_INDEX_TOO_LARGE, "Is the block's step index at most 88?", "2"),
    (72, NIBBLES_MISSING, "Is the block's sample count at most twice the bytes after its preamble?", "4"),
    (73, SAMPLE_BUFFER_TOO_SHORT, "Does the buffer hold all samples of the block?", "0"),
    // The register block
    (74, WRONG_REGISTER_BLOCK, "Has the register block 16 bytes?", "0"),
    (75, UNKNOWN_COMMAND, "Is the command 0, 1, 2 or 3?", "0"),
}
