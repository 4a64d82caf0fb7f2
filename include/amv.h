/* AMV recordings: read, index, jump, check and write them, print the index, decode the sound, and drive a reader by registers.
 *
 * The functions of the proved library, for callers in C and C++. docs/FORMAT.md has the format, what each call gives for every argument, and
 * what is proved of whole lists of calls. Link libamv: ./build-library.sh makes target/lib/libamv.a and ./install.sh PREFIX installs it, for
 * x86-64 Linux. Nothing allocates, nothing is kept between calls, and every call ends. A caller lends all memory, and may call from several
 * threads as long as nothing that one call writes is lent to another at the same time.
 *
 * What a call returns. 0: accepted. Any other number: the call is refused, and the number says which question was answered with no (the
 * table AMV_REFUSALS below; amv_question gives its text). amv_from_frame_count alone has no refusals and returns its value.
 *
 * out. A call writes every word of its `out`, whatever it returns. out[AMV_PLACE] is the place of a refusal: a byte offset in the file or the
 * table, or what the table of refusals says. On a refusal every other word is 0; on acceptance out[AMV_PLACE] is 0.
 *
 * A refused call changes nothing but `out`: no word of a state, no byte of a table or buffer, no sample.
 *
 * Buffers. A buffer of length 0 may be NULL. Byte buffers need no alignment. No two buffers, states or outs of a call overlap. Lengths are in
 * bytes, but for amv_validate_movi_interleave, where they are in tags, and for samples_len of amv_decode_block, which is in samples.
 *
 * Cut. A file is cut where it ends before its trailer, at a chunk or inside one: the supply dropped while it was written. What stands before
 * can be read, indexed and jumped to. Of every finished recording, cut to any length, it is proved: reads from a fresh walker give exactly the
 * packets whose chunk ends within the cut, each as in the whole recording, then End, with cut set; amv_check gives 60 at the first chunk that is
 * lost. Below 316 bytes, AMV_PRELUDE_LEN, amv_parse and amv_check give 11. And of every list of reads and jumps, in whatever order, with the file's
 * own index: every packet is one of the whole recording, and a jump to a chunk that is there answers the stamp, leaves the cursor and the counts and
 * plays on with the packets that it would have in the whole recording, as far as the file has them. Of every file that amv_build_chunk_index accepts,
 * finished, cut or with bytes after its trailer: after any run of jumps, sound and clock belong to that picture.
 */
#ifndef AMV_H
#define AMV_H

#include <stdbool.h>
#include <stddef.h>
#include <stdint.h>

#ifdef __cplusplus
extern "C" {
#endif

/* The version of this header and its library: a change of what a call answers, of a state's words or of a record's bytes moves the second
 * number while the first is 0, and an addition the third. */
#define AMV_VERSION_MAJOR 0
#define AMV_VERSION_MINOR 4
#define AMV_VERSION_PATCH 1
#define AMV_VERSION "0.4.1"

/* A file's longest length in bytes; the bytes of a prelude, at whose end the first chunk stands. */
#define AMV_FILE_LIMIT 4294967295
#define AMV_PRELUDE_LEN 316

/* The longest run length in seconds, 255 h 59 min 59 s: what a longer recording has too. */
#define AMV_DURATION_MAX_SECONDS 921599

/* The two streams, and the tags of their chunks as little-endian numbers: 00dc and 01wb. */
#define AMV_STREAM_VIDEO 0
#define AMV_STREAM_AUDIO 1
#define AMV_VIDEO_CHUNK_TAG 0x63643030
#define AMV_AUDIO_CHUNK_TAG 0x62773130

/* What a call returns that is accepted, and the word of its `out` that has the place where it is refused. */
#define AMV_OK 0
#define AMV_PLACE 0

/* A walker is where a reader stands. Its words: the cursor, which is the offset of the next chunk; the frames, samples and blocks before it;
 * end (0 or 1: a read gives End); cut (0 or 1: a read has found that the file ends before its trailer, at a chunk or inside one); and the
 * offset of the trailer, or AMV_NOT_MET where no read has met it. A reader starts with
 *
 *     uint64_t walker[AMV_WALKER_WORDS] = AMV_FRESH_WALKER;
 *
 * and hands the same words to each call. */
enum {
    AMV_WALKER_CURSOR,
    AMV_WALKER_FRAMES,
    AMV_WALKER_SAMPLES,
    AMV_WALKER_BLOCKS,
    AMV_WALKER_END,
    AMV_WALKER_CUT,
    AMV_WALKER_TRAILER,
    AMV_WALKER_WORDS
};
#define AMV_NOT_MET UINT64_MAX
#define AMV_FRESH_WALKER { AMV_PRELUDE_LEN, 0, 0, 0, 0, 0, AMV_NOT_MET }

/* A writer is what has been written. Its words: width, height, fps, rate (each at most 4294967295), channels (at most 65535), begun, ended (0
 * or 1), bytes written, frames. A writer starts with its settings and
 *
 *     uint64_t writer[AMV_WRITER_WORDS] = AMV_FRESH_WRITER(width, height, fps, rate, channels);
 *
 * and hands the same words to each call. The file is the first writer[AMV_WRITER_WRITTEN] bytes of the buffer. A finished recording needs fps
 * above 0 and one channel. */
enum {
    AMV_WRITER_WIDTH,
    AMV_WRITER_HEIGHT,
    AMV_WRITER_FPS,
    AMV_WRITER_RATE,
    AMV_WRITER_CHANNELS,
    AMV_WRITER_BEGUN,
    AMV_WRITER_ENDED,
    AMV_WRITER_WRITTEN,
    AMV_WRITER_FRAMES,
    AMV_WRITER_WORDS
};
#define AMV_FRESH_WRITER(width, height, fps, rate, channels) \
    { (uint64_t)(width), (uint64_t)(height), (uint64_t)(fps), (uint64_t)(rate), (uint64_t)(channels), 0, 0, 0, 0 }

/* The 316 bytes at the start of a file. Without strict only the layout is asked for: that is enough to play a file. With strict every field
 * that a device fixes is asked for too, as amv_check does; files of other programs, FFmpeg's among them, can be turned away by that and play
 * all the same. out: place, microseconds a frame, width, height, fps, flag, reserved, run length (packed: seconds, minutes times 256, hours
 * times 65536), format, channels, rate, average bytes a second, align, bits, cbSize, offset of the first chunk. Refuses with 10 to 13; with
 * strict with 14 to 24 too.
 *
 * The run length is what stands in the file, and is not asked about. It is written with the trailer, so a recording that was never finished
 * has 0; another program, or this library up to version 0.3, can have left minutes over 59. To show how long a file plays, give the frames of
 * amv_summary to amv_from_frame_count. */
enum {
    AMV_PARSE_MICROS_PER_FRAME = 1,
    AMV_PARSE_WIDTH,
    AMV_PARSE_HEIGHT,
    AMV_PARSE_FPS,
    AMV_PARSE_FLAG_ONE,
    AMV_PARSE_RESERVED_30,
    AMV_PARSE_DURATION_PACKED,
    AMV_PARSE_FORMAT_TAG,
    AMV_PARSE_CHANNELS,
    AMV_PARSE_SAMPLES_PER_SEC,
    AMV_PARSE_AVG_BYTES_PER_SEC,
    AMV_PARSE_BLOCK_ALIGN,
    AMV_PARSE_BITS_PER_SAMPLE,
    AMV_PARSE_CB_SIZE,
    AMV_PARSE_MOVI_PAYLOAD_START,
    AMV_PARSE_WORDS
};
uint32_t amv_parse(const uint8_t *file, size_t len, bool strict, uint64_t out[AMV_PARSE_WORDS]);

/* The packet at the walker's cursor, and the walker past it. out: place, 1 for a packet or 0 for End, stream (0 picture, 1 sound), offset
 * and length of the payload in the file, stamp, duration (0: none). On End every word of out is 0 and the walker's end is 1; its cut is
 * 1 once a read has found that the file ends before its trailer, at a chunk or inside one, and it has the trailer's offset once a read has
 * met the trailer. Refuses with 1, 10, 32 and 31. */
enum {
    AMV_PACKET_IS_PACKET = 1,
    AMV_PACKET_STREAM,
    AMV_PACKET_START,
    AMV_PACKET_LEN,
    AMV_PACKET_STAMP,
    AMV_PACKET_DURATION,
    AMV_PACKET_WORDS
};
uint32_t amv_next_packet(const uint8_t *file, size_t len, uint64_t walker[AMV_WALKER_WORDS], uint64_t out[AMV_PACKET_WORDS]);

/* The index of a file, a record of AMV_ENTRY_LEN bytes for each chunk, into a table: tag (4 bytes), offset (4), frames before (4), blocks
 * before (4), samples before (8), little-endian. Bytes after the last record stay as they are. A table of (len / 8) * AMV_ENTRY_LEN bytes is
 * always enough. out: place, the number of records. Refuses with 10, 31 and 40.
 *
 * A file that is refused with 31 at p has something other than a chunk at offset p, as a damaged one can, and one of FFmpeg's, which puts a zero byte
 * before the trailer where the last chunk ends at an odd offset. Its first p bytes have an index, a record for each chunk before p, each of which is
 * whole: go on with p as the length of the file, for this call, for reads and for the summary. They are a file that is cut, and every list of reads
 * and jumps on them is proved to agree with these chunks. */
enum {
    AMV_ENTRY_TAG = 0,
    AMV_ENTRY_OFFSET = 4,
    AMV_ENTRY_FRAMES = 8,
    AMV_ENTRY_BLOCKS = 12,
    AMV_ENTRY_SAMPLES = 16,
    AMV_ENTRY_LEN = 24
};
enum { AMV_INDEX_COUNT = 1, AMV_INDEX_WORDS };
uint32_t amv_build_chunk_index(const uint8_t *file, size_t len, uint8_t *table, size_t table_len, uint64_t out[AMV_INDEX_WORDS]);

/* A jump: the walker goes to the first chunk of the stream whose stamp is the request or later, and its counts are those of that chunk, so
 * sound and clock belong to the picture. Where there is none, the walker stands at the end: its end is 1. Cut and trailer stay as they
 * are. The table is the records of amv_build_chunk_index and nothing after them: table_len is AMV_ENTRY_LEN times their number. out: place,
 * the stream's stamp where the walker stands. Refuses with 1, 42, 41, 43 and 32, in this order: a stream that does not exist is told whatever
 * the table is.
 *
 * The last record can be of the chunk in which a file ends. A jump goes there as to any other and answers its stamp, and the read that follows gives
 * End, with cut. A jump to the end does not look at the file: after it a read gives End, and cut and trailer are what reads before it found. */
enum { AMV_SEEK_STAMP = 1, AMV_SEEK_WORDS };
uint32_t amv_seek_to_via_index(const uint8_t *table, size_t table_len, uint64_t walker[AMV_WALKER_WORDS], uint32_t stream, int64_t request, uint64_t out[AMV_SEEK_WORDS]);

/* The register block, 16 bytes through which a panel's controller drives a reader. The names are the bytes where each register starts.
 *
 *     byte     register      written by           what it holds
 *     0        command       controller           0 none, 1 read, 2 seek picture, 3 seek sound; each step sets it to 0
 *     1        status        step                 bit 0 packet waiting, bit 1 end, bit 2 cut, bit 3 refused; bits 4 to 7 are 0
 *     2        enable        controller           the bits of status that may interrupt, by the same bits
 *     3        pending       step                 the interrupts that are pending, by the same bits
 *     4        acknowledge   controller           the bits of pending to clear; each step sets it to 0
 *     5        refusal       step                 the number of this step's refused read or seek, 0 where none was refused
 *     6, 7     free          controller           never changed
 *     8 to 15  request       controller, step     the request of a seek, signed, little-endian; a step leaves here the stamp of the packet that its
 *                                                 read gave, or that its accepted seek answered, and else what it found
 */
enum {
    AMV_REGISTER_COMMAND = 0,
    AMV_REGISTER_STATUS = 1,
    AMV_REGISTER_ENABLE = 2,
    AMV_REGISTER_PENDING = 3,
    AMV_REGISTER_ACKNOWLEDGE = 4,
    AMV_REGISTER_REFUSAL = 5,
    AMV_REGISTER_REQUEST = 8,
    AMV_REGISTER_BLOCK_LEN = 16
};
enum {
    AMV_COMMAND_NONE = 0,
    AMV_COMMAND_READ = 1,
    AMV_COMMAND_SEEK_PICTURE = 2,
    AMV_COMMAND_SEEK_SOUND = 3
};
enum {
    AMV_STATUS_PACKET = 1,
    AMV_STATUS_END = 2,
    AMV_STATUS_CUT = 4,
    AMV_STATUS_REFUSED = 8
};

/* A step of the register block. It clears in pending each bit that is set in acknowledge; performs the command, a read as amv_next_packet and
 * a seek as amv_seek_to_via_index of stream 0 (picture) or 1 (sound) to the request; writes status anew, end and cut being the walker's; makes
 * pending each enabled bit that was 0 in the status it found and is 1 now; and sets command and acknowledge to 0. A bit that is acknowledged
 * and rises in one step is pending after it. Where one read after another gives a packet, bit 0 stays 1 and rises once: to be interrupted for
 * each, set status to 0 before the next read, or run a step with the command 0 between two. The table is that of a jump; a read does not look
 * at it, and a seek does not look at the file.
 * out: as amv_next_packet's where this step's read gave a packet, else all 0. Refuses with 1, 74 and 75, in this order, and then no byte of
 * the block is changed. A read or seek that is refused does not refuse the step: it shows in the block alone, by bit 3 of status and by its
 * number in the register refusal, and walker and request stay as they are. */
uint32_t amv_register_step(const uint8_t *file, size_t len, const uint8_t *table, size_t table_len, uint64_t walker[AMV_WALKER_WORDS], uint8_t *block, size_t block_len, uint64_t out[AMV_PACKET_WORDS]);

/* The page of an index for a strip printer: a line of AMV_PAGE_COLUMNS bytes of ASCII for each record, one after another, without line ends.
 * Bytes after the last line stay as they are. The table is the records of amv_build_chunk_index and nothing after them, as for a jump. A page
 * of table_len / AMV_ENTRY_LEN * AMV_PAGE_COLUMNS bytes is always enough. out: place, the number of lines. Refuses with 41, 43, 70 and 40.
 *
 * A line has in column 1 V for a picture or A for sound, in 2 to 11 the chunk's offset, in 12 to 21 the frames before it, in 22 to 40 the
 * samples before it. A number is decimal, at the right of its columns, with spaces left of it; column 22 is always a space. Blocks are not
 * printed. The names AMV_LINE_.. are where these columns start in a line, counted from 0; each end where the next start. */
enum {
    AMV_LINE_KIND = 0,
    AMV_LINE_OFFSET = 1,
    AMV_LINE_FRAMES = 11,
    AMV_LINE_SAMPLES = 21,
    AMV_PAGE_COLUMNS = 40
};
enum { AMV_PAGE_LINES = 1, AMV_PAGE_WORDS };
uint32_t amv_print_index(const uint8_t *table, size_t table_len, uint8_t *page, size_t page_len, uint64_t out[AMV_PAGE_WORDS]);

/* The samples of a sound block, for a speaker: IMA ADPCM, a signed 16-bit number for each nibble, to the front of a buffer. Entries after the
 * last sample stay as they are. The block is the payload of a sound packet. samples_len is the number of samples that the buffer holds;
 * 2 * (len - AMV_BLOCK_NIBBLES) are always enough, whatever the block's count says. out: place, the number of samples, which may be 0.
 * Refuses with 25, 71, 72 and 73. Each block is decoded by itself: one that is refused can be left out, and the next one decoded.
 *
 * A block has the starting level, signed (2 bytes), the step index (1), a byte that is ignored, the count of samples (4), little-endian, and
 * then the nibbles, two in a byte, the high one first. The starting level is not a sample. Bytes after the last nibble are ignored. The names
 * AMV_BLOCK_.. are where these start in a block. */
enum {
    AMV_BLOCK_LEVEL = 0,
    AMV_BLOCK_STEP_INDEX = 2,
    AMV_BLOCK_COUNT = 4,
    AMV_BLOCK_NIBBLES = 8
};
enum { AMV_DECODE_COUNT = 1, AMV_DECODE_WORDS };
uint32_t amv_decode_block(const uint8_t *block, size_t len, int16_t *samples, size_t samples_len, uint64_t out[AMV_DECODE_WORDS]);

/* How many frames and blocks a file plays: as many as reads of amv_next_packet from a fresh walker give. A chunk that is cut does not count.
 * The index has a record for each that counts, and one more where it records a chunk that is cut, which is then its last: a table of
 * (frames + blocks + 1) * AMV_ENTRY_LEN bytes is always enough. out: place, frames, blocks. Refuses with 10 and 31, as the index does. */
enum { AMV_SUMMARY_FRAMES = 1, AMV_SUMMARY_BLOCKS, AMV_SUMMARY_WORDS };
uint32_t amv_summary(const uint8_t *file, size_t len, uint64_t out[AMV_SUMMARY_WORDS]);

/* Whether a file is a finished recording: the strict prelude, whole chunks, the trailer, and nothing after it. Ask it of what must be
 * finished, before it is handed on or graded; a file need not be finished to be played. out: place, frames, blocks, samples, offset of the
 * trailer, paired (1: pictures and sound alternate, a picture first and as many of each). Refuses with 10 to 24, 60, 61 and 31. A
 * recording that is cut is 60; one that ends inside its prelude is 11. */
enum {
    AMV_CHECK_FRAMES = 1,
    AMV_CHECK_BLOCKS,
    AMV_CHECK_SAMPLES,
    AMV_CHECK_TRAILER,
    AMV_CHECK_PAIRED,
    AMV_CHECK_WORDS
};
uint32_t amv_check(const uint8_t *file, size_t len, uint64_t out[AMV_CHECK_WORDS]);

/* Writes the prelude, 316 bytes, at the start of the buffer; the first call of a writer. out: place. Refuses with 1, 50, 55 and 54. */
uint32_t amv_write_header(uint64_t writer[AMV_WRITER_WORDS], uint8_t *buf, size_t len, uint64_t out[1]);

/* Writes a packet after what is written: stream 0 is a picture and counts one frame, stream 1 is sound. out: place. Refuses with 1, 51, 55,
 * 56, 52, 53 and 54. */
uint32_t amv_write_packet(uint64_t writer[AMV_WRITER_WORDS], uint8_t *buf, size_t len, const uint8_t *payload, size_t payload_len, uint32_t stream, uint64_t out[1]);

/* Writes the trailer, and the run length into the prelude if there is one, as amv_from_frame_count gives it; the last call of a writer. out:
 * place. Refuses with 1, 51, 55, 56 and 54. */
uint32_t amv_write_trailer(uint64_t writer[AMV_WRITER_WORDS], uint8_t *buf, size_t len, uint64_t out[1]);

/* Whether tags (AMV_VIDEO_CHUNK_TAG, AMV_AUDIO_CHUNK_TAG) alternate, a picture first and as many of each. out: place, a position among the
 * tags. Refuses with 62 to 65. */
uint32_t amv_validate_movi_interleave(const uint32_t *tags, size_t count, uint64_t out[1]);

/* The packed run length of a number of frames: seconds, minutes times 256, hours times 65536; 0 for fps 0. Minutes and seconds are at most
 * 59, and above AMV_DURATION_MAX_SECONDS seconds it is 255 h 59 min 59 s, so a display can show each of the three as it is. More frames never
 * give a smaller number. Never refuses. */
uint32_t amv_from_frame_count(uint64_t frames, uint32_t fps);

#ifdef __cplusplus
}
#endif

/* Refusals. "60 at 4711" is number 60 with out[AMV_PLACE] 4711: look up the question that was answered with no, and what the place means. A
 * row has the number, its name, the question and the place. 26 to 29 are asked inside the library, and no function above returns them. */
#define AMV_REFUSALS(ROW) \
    ROW(1, AMV_ERROR_ILLEGAL_STATE, \
        "Is each word of the state in its field's range: marks 0 or 1, width, height, fps and rate within 32 bits, channels within 16?", \
        "0") \
    /* the file */ \
    ROW(10, AMV_ERROR_FILE_TOO_LONG, "Has the file at most 4,294,967,295 bytes?", "0") \
    /* the prelude */ \
    ROW(11, AMV_ERROR_PRELUDE_CUT, "Does the file reach the end of this tag, size or body of the prelude?", "its start") \
    ROW(12, AMV_ERROR_WRONG_TAG, "Is the tag the one that belongs here?", "its start") \
    ROW(13, AMV_ERROR_WRONG_SIZE, "Is the size the one that belongs here?", "its start") \
    ROW(14, AMV_ERROR_ZERO_FPS, "Is fps above 0?", "72") \
    ROW(15, AMV_ERROR_WRONG_MICROS, "Are the microseconds a frame 1,000,000/fps?", "32") \
    ROW(16, AMV_ERROR_WRONG_FLAG, "Is the flag 1?", "76") \
    ROW(17, AMV_ERROR_NONZERO_RESERVED, "Is the reserved number zero?", "80") \
    ROW(18, AMV_ERROR_NONZERO_BYTE, "Are the bytes 36..64, 108..164, 172..208 and 228..276 zero?", "the first that is not") \
    ROW(19, AMV_ERROR_WRONG_FORMAT, "Is the sound format 1?", "284") \
    ROW(20, AMV_ERROR_WRONG_CHANNELS, "Is there one channel?", "286") \
    ROW(21, AMV_ERROR_WRONG_AVERAGE, "Are the average bytes a second twice the rate, at most 4,294,967,295?", "292") \
    ROW(22, AMV_ERROR_WRONG_ALIGN, "Is the align 2?", "296") \
    ROW(23, AMV_ERROR_WRONG_BITS, "Are the bits 16?", "298") \
    ROW(24, AMV_ERROR_WRONG_CB_SIZE, "Is cbSize 0?", "300") \
    /* single bodies */ \
    ROW(25, AMV_ERROR_PREAMBLE_TOO_SHORT, "Has the preamble of a sound block 8 bytes?", "0") \
    ROW(26, AMV_ERROR_NO_SAMPLES, "Is the block's sample count above 0?", "0") \
    ROW(27, AMV_ERROR_WAVE_FORMAT_TOO_SHORT, "Has the wave format 18 bytes?", "0") \
    ROW(28, AMV_ERROR_HEADER_TOO_SHORT, "Has the header 56 bytes?", "0") \
    ROW(29, AMV_ERROR_CHUNK_HEADER_TOO_SHORT, "Has the chunk header 8 bytes?", "0") \
    /* reads, index, jumps */ \
    ROW(31, AMV_ERROR_UNKNOWN_TAG, "Is the tag 00dc or 01wb, a picture's or sound's?", "the chunk's offset") \
    ROW(32, AMV_ERROR_STATE_OUT_OF_RANGE, "Are cursor, frames, samples and blocks each at most 2^62?", "0") \
    ROW(40, AMV_ERROR_TABLE_TOO_SHORT, "Does the table hold all records, or the page all lines?", "0") \
    ROW(41, AMV_ERROR_TABLE_RAGGED, "Is the table whole records of 24 bytes?", "0") \
    ROW(42, AMV_ERROR_NO_SUCH_STREAM, "Is the stream of the jump 0 or 1?", "0") \
    ROW(43, AMV_ERROR_BAD_RECORD, "Has the record a known tag, and fewer than 2^62 samples before it?", "the record's start in the table") \
    /* writing */ \
    ROW(50, AMV_ERROR_ALREADY_BEGUN, "Header: has the writer not begun?", "bytes written") \
    ROW(51, AMV_ERROR_NOT_BEGUN, "Packet and trailer: has the writer begun?", "bytes written") \
    ROW(52, AMV_ERROR_PAYLOAD_TOO_LONG, "Has the payload at most 4,294,967,295 bytes?", "bytes written") \
    ROW(53, AMV_ERROR_PACKET_OF_NO_STREAM, "Is the stream of the packet 0 or 1?", "bytes written") \
    ROW(54, AMV_ERROR_NO_ROOM, "Does what is to be written end within the buffer and the file limit?", "bytes written") \
    ROW(55, AMV_ERROR_ALREADY_ENDED, "Has the writer not ended?", "bytes written") \
    ROW(56, AMV_ERROR_PRELUDE_MISSING, "Has a writer that has begun written at least 316 bytes?", "bytes written") \
    /* the finished recording */ \
    ROW(60, AMV_ERROR_CHUNK_CUT, "Is the chunk whole: 8 bytes of header and all of its payload?", "the chunk's offset") \
    ROW(61, AMV_ERROR_AFTER_TRAILER, "Is the trailer the last 8 bytes of the file?", "the trailer's offset") \
    /* the interleave check */ \
    ROW(62, AMV_ERROR_VIDEO_AT_ODD_POSITION, "Does no picture stand at an odd position?", "its position") \
    ROW(63, AMV_ERROR_AUDIO_AT_EVEN_POSITION, "Does no sound stand at an even position?", "its position") \
    ROW(64, AMV_ERROR_OTHER_AT_POSITION, "Is every tag a picture's or sound's?", "its position") \
    ROW(65, AMV_ERROR_ODD_CHUNK_COUNT, "Is the number of tags even?", "the number of tags") \
    /* the page */ \
    ROW(70, AMV_ERROR_SAMPLES_TOO_WIDE, "Has the number of samples before the record at most 18 digits?", "the record's start in the table") \
    /* the sound block */ \
    ROW(71, AMV_ERROR_STEP_INDEX_TOO_LARGE, "Is the block's step index at most 88?", "2") \
    ROW(72, AMV_ERROR_NIBBLES_MISSING, "Is the block's sample count at most twice the bytes after its preamble?", "4") \
    ROW(73, AMV_ERROR_SAMPLE_BUFFER_TOO_SHORT, "Does the buffer hold all samples of the block?", "0") \
    /* the register block */ \
    ROW(74, AMV_ERROR_WRONG_REGISTER_BLOCK, "Has the register block 16 bytes?", "0") \
    ROW(75, AMV_ERROR_UNKNOWN_COMMAND, "Is the command 0, 1, 2 or 3?", "0")

#define AMV_NUMBER_OF(number, name, question, place) name = number,
enum { AMV_REFUSALS(AMV_NUMBER_OF) };

/* The question that a number stands for, for a panel to show: it was answered with no. Never NULL. */
#define AMV_QUESTION_OF(number, name, question, place) case number: return question;
static inline const char *amv_question(uint32_t number)
{
    switch (number) {
    AMV_REFUSALS(AMV_QUESTION_OF)
    case AMV_OK: return "accepted";
    default: return "a number that this version of amv.h does not know";
    }
}

/* What the place of that number's refusal is. Never NULL. */
#define AMV_PLACE_IS_OF(number, name, question, place) case number: return place;
static inline const char *amv_place_is(uint32_t number)
{
    switch (number) {
    AMV_REFUSALS(AMV_PLACE_IS_OF)
    default: return "0";
    }
}

#endif
