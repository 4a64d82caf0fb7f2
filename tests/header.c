/*
 * Holds the names of include/amv.h against the library: every word of a state and of an out, every field of a record, of a line and of a
 * sound block and every register, on inputs in which each has another value, the commands and the bits of status, the tags and streams, and
 * some of the numbers. The numbers and texts of all refusals and the file limit are held against the source by
 * bindings/rust/tests/signatures.rs. Both C99 and C++11, so that the header is compiled as both.
 */
#include <stdio.h>
#include <string.h>

#include "amv.h"
#include "amv.h"

static int failures;

static void expect(uint64_t expected, uint64_t got, const char *what)
{
    if (expected != got) {
        printf("%s: expected %llu, got %llu\n", what, (unsigned long long)expected, (unsigned long long)got);
        failures++;
    }
}

#define EXPECT(expected, got) expect((uint64_t)(expected), (uint64_t)(got), #got)

static void put(uint8_t *to, uint64_t value, int bytes)
{
    for (int i = 0; i < bytes; i++)
        to[i] = (uint8_t)(value >> 8 * i);
}

static uint64_t get(const uint8_t *from, int bytes)
{
    uint64_t value = 0;
    for (int i = 0; i < bytes; i++)
        value |= (uint64_t)from[i] << 8 * i;
    return value;
}

static uint8_t file[1024];
static size_t len;

/* Sound of 5 samples, a picture, sound of 6 samples, the trailer. */
static void record(void)
{
    uint64_t writer[AMV_WRITER_WORDS] = AMV_FRESH_WRITER(101, 102, 103, 104, 1);
    uint64_t out[1] = {7};
    uint8_t block[10] = {0};
    const uint8_t picture[3] = {1, 2, 3};
    EXPECT(101, writer[AMV_WRITER_WIDTH]);
    EXPECT(102, writer[AMV_WRITER_HEIGHT]);
    EXPECT(103, writer[AMV_WRITER_FPS]);
    EXPECT(104, writer[AMV_WRITER_RATE]);
    EXPECT(1, writer[AMV_WRITER_CHANNELS]);
    EXPECT(AMV_OK, amv_write_header(writer, file, sizeof file, out));
    EXPECT(0, out[AMV_PLACE]);
    EXPECT(1, writer[AMV_WRITER_BEGUN]);
    EXPECT(AMV_PRELUDE_LEN, writer[AMV_WRITER_WRITTEN]);
    EXPECT(AMV_ERROR_ALREADY_BEGUN, amv_write_header(writer, file, sizeof file, out));
    EXPECT(AMV_PRELUDE_LEN, out[AMV_PLACE]);
    put(block + 4, 5, 4);
    EXPECT(AMV_OK, amv_write_packet(writer, file, sizeof file, block, 10, AMV_STREAM_AUDIO, out));
    EXPECT(0, writer[AMV_WRITER_FRAMES]);
    EXPECT(AMV_OK, amv_write_packet(writer, file, sizeof file, picture, 3, AMV_STREAM_VIDEO, out));
    EXPECT(1, writer[AMV_WRITER_FRAMES]);
    put(block + 4, 6, 4);
    EXPECT(AMV_OK, amv_write_packet(writer, file, sizeof file, block, 10, AMV_STREAM_AUDIO, out));
    EXPECT(0, writer[AMV_WRITER_ENDED]);
    EXPECT(AMV_OK, amv_write_trailer(writer, file, sizeof file, out));
    EXPECT(1, writer[AMV_WRITER_ENDED]);
    len = (size_t)writer[AMV_WRITER_WRITTEN];
    EXPECT(316 + 18 + 11 + 18 + 8, len);
}

/* A prelude with another number in each field. */
static void parse(void)
{
    uint8_t prelude[AMV_PRELUDE_LEN];
    uint64_t out[AMV_PARSE_WORDS];
    memcpy(prelude, file, sizeof prelude);
    for (int i = 0; i < 7; i++)
        put(prelude + (i == 0 ? 32 : 60 + 4 * i), 1001 + (uint64_t)i, 4);
    put(prelude + 284, 1008, 2);
    put(prelude + 286, 1009, 2);
    put(prelude + 288, 1010, 4);
    put(prelude + 292, 1011, 4);
    put(prelude + 296, 1012, 2);
    put(prelude + 298, 1013, 2);
    put(prelude + 300, 1014, 2);
    EXPECT(AMV_ERROR_WRONG_MICROS, amv_parse(prelude, sizeof prelude, true, out));
    EXPECT(32, out[AMV_PLACE]);
    EXPECT(AMV_OK, amv_parse(prelude, sizeof prelude, false, out));
    EXPECT(1001, out[AMV_PARSE_MICROS_PER_FRAME]);
    EXPECT(1002, out[AMV_PARSE_WIDTH]);
    EXPECT(1003, out[AMV_PARSE_HEIGHT]);
    EXPECT(1004, out[AMV_PARSE_FPS]);
    EXPECT(1005, out[AMV_PARSE_FLAG_ONE]);
    EXPECT(1006, out[AMV_PARSE_RESERVED_30]);
    EXPECT(1007, out[AMV_PARSE_DURATION_PACKED]);
    EXPECT(1008, out[AMV_PARSE_FORMAT_TAG]);
    EXPECT(1009, out[AMV_PARSE_CHANNELS]);
    EXPECT(1010, out[AMV_PARSE_SAMPLES_PER_SEC]);
    EXPECT(1011, out[AMV_PARSE_AVG_BYTES_PER_SEC]);
    EXPECT(1012, out[AMV_PARSE_BLOCK_ALIGN]);
    EXPECT(1013, out[AMV_PARSE_BITS_PER_SAMPLE]);
    EXPECT(1014, out[AMV_PARSE_CB_SIZE]);
    EXPECT(AMV_PRELUDE_LEN, out[AMV_PARSE_MOVI_PAYLOAD_START]);
}

static void reads(void)
{
    uint64_t walker[AMV_WALKER_WORDS] = AMV_FRESH_WALKER;
    uint64_t out[AMV_PACKET_WORDS];
    EXPECT(AMV_OK, amv_next_packet(file, len, walker, out));
    EXPECT(AMV_OK, amv_next_packet(file, len, walker, out));
    EXPECT(AMV_STREAM_VIDEO, out[AMV_PACKET_STREAM]);
    EXPECT(AMV_OK, amv_next_packet(file, len, walker, out));
    EXPECT(1, out[AMV_PACKET_IS_PACKET]);
    EXPECT(AMV_STREAM_AUDIO, out[AMV_PACKET_STREAM]);
    EXPECT(316 + 18 + 11 + 8, out[AMV_PACKET_START]);
    EXPECT(10, out[AMV_PACKET_LEN]);
    EXPECT(5, out[AMV_PACKET_STAMP]);
    EXPECT(6, out[AMV_PACKET_DURATION]);
    EXPECT(len - 8, walker[AMV_WALKER_CURSOR]);
    EXPECT(1, walker[AMV_WALKER_FRAMES]);
    EXPECT(11, walker[AMV_WALKER_SAMPLES]);
    EXPECT(2, walker[AMV_WALKER_BLOCKS]);
    EXPECT(AMV_NOT_MET, walker[AMV_WALKER_TRAILER]);
    uint64_t other[AMV_WALKER_WORDS];
    memcpy(other, walker, sizeof other);
    EXPECT(AMV_OK, amv_next_packet(file, len, walker, out));
    EXPECT(0, out[AMV_PACKET_IS_PACKET]);
    EXPECT(1, walker[AMV_WALKER_END]);
    EXPECT(0, walker[AMV_WALKER_CUT]);
    EXPECT(len - 8, walker[AMV_WALKER_TRAILER]);
    EXPECT(AMV_OK, amv_next_packet(file, len - 1, other, out));
    EXPECT(1, other[AMV_WALKER_CUT]);
    walker[AMV_WALKER_END] = 2;
    EXPECT(AMV_ERROR_ILLEGAL_STATE, amv_next_packet(file, len, walker, out));
}

static void index_and_jump(void)
{
    uint8_t table[3 * AMV_ENTRY_LEN];
    uint64_t out[AMV_INDEX_WORDS], sought[AMV_SEEK_WORDS], counts[AMV_SUMMARY_WORDS];
    uint64_t walker[AMV_WALKER_WORDS] = AMV_FRESH_WALKER;
    EXPECT(AMV_ERROR_TABLE_TOO_SHORT, amv_build_chunk_index(file, len, table, sizeof table - 1, out));
    EXPECT(AMV_OK, amv_build_chunk_index(file, len, table, sizeof table, out));
    EXPECT(3, out[AMV_INDEX_COUNT]);
    const uint8_t *last = table + 2 * AMV_ENTRY_LEN;
    EXPECT(AMV_VIDEO_CHUNK_TAG, get(table + AMV_ENTRY_LEN + AMV_ENTRY_TAG, 4));
    EXPECT(AMV_AUDIO_CHUNK_TAG, get(last + AMV_ENTRY_TAG, 4));
    EXPECT(316 + 18 + 11, get(last + AMV_ENTRY_OFFSET, 4));
    EXPECT(1, get(last + AMV_ENTRY_FRAMES, 4));
    EXPECT(1, get(last + AMV_ENTRY_BLOCKS, 4));
    EXPECT(0, get(table + AMV_ENTRY_LEN + AMV_ENTRY_FRAMES, 4));
    EXPECT(1, get(table + AMV_ENTRY_LEN + AMV_ENTRY_BLOCKS, 4));
    EXPECT(5, get(last + AMV_ENTRY_SAMPLES, 8));
    EXPECT(AMV_OK, amv_seek_to_via_index(table, sizeof table, walker, AMV_STREAM_AUDIO, 1, sought));
    EXPECT(5, sought[AMV_SEEK_STAMP]);
    /* What is asked of a jump, in its order: each call answers the question before with yes, and this one and those after it with no. */
    uint8_t bad[sizeof table];
    memcpy(bad, table, sizeof bad);
    bad[AMV_ENTRY_LEN + AMV_ENTRY_TAG] = 'X';
    walker[AMV_WALKER_BLOCKS] = UINT64_MAX;
    walker[AMV_WALKER_END] = 2;
    EXPECT(AMV_ERROR_ILLEGAL_STATE, amv_seek_to_via_index(bad, sizeof bad - 1, walker, 2, 0, sought));
    walker[AMV_WALKER_END] = 0;
    EXPECT(AMV_ERROR_NO_SUCH_STREAM, amv_seek_to_via_index(bad, sizeof bad - 1, walker, 2, 0, sought));
    EXPECT(AMV_ERROR_TABLE_RAGGED, amv_seek_to_via_index(bad, sizeof bad - 1, walker, AMV_STREAM_AUDIO, 0, sought));
    EXPECT(AMV_ERROR_BAD_RECORD, amv_seek_to_via_index(bad, sizeof bad, walker, AMV_STREAM_AUDIO, 0, sought));
    EXPECT(AMV_ENTRY_LEN, sought[AMV_PLACE]);
    EXPECT(AMV_ERROR_STATE_OUT_OF_RANGE, amv_seek_to_via_index(table, sizeof table, walker, AMV_STREAM_AUDIO, 0, sought));
    EXPECT(AMV_OK, amv_summary(file, len, counts));
    EXPECT(1, counts[AMV_SUMMARY_FRAMES]);
    EXPECT(2, counts[AMV_SUMMARY_BLOCKS]);
    /* A file that ends in the frame plays the block before it, and has a record of both. */
    EXPECT(AMV_OK, amv_summary(file, 316 + 18 + 10, counts));
    EXPECT(0, counts[AMV_SUMMARY_FRAMES]);
    EXPECT(1, counts[AMV_SUMMARY_BLOCKS]);
    EXPECT(AMV_OK, amv_build_chunk_index(file, 316 + 18 + 10, table, sizeof table, out));
    EXPECT(2, out[AMV_INDEX_COUNT]);
    /* A file that is damaged at the last chunk: its first bytes have an index of the two before. */
    uint8_t damaged[sizeof file];
    memcpy(damaged, file, len);
    damaged[316 + 18 + 11] = 'X';
    EXPECT(AMV_ERROR_UNKNOWN_TAG, amv_build_chunk_index(damaged, len, table, sizeof table, out));
    EXPECT(316 + 18 + 11, out[AMV_PLACE]);
    EXPECT(AMV_OK, amv_build_chunk_index(damaged, (size_t)out[AMV_PLACE], table, sizeof table, out));
    EXPECT(2, out[AMV_INDEX_COUNT]);
}

/* Bits of a register that are none of status: one that is enabled, two that are pending, and of these one that is acknowledged. */
enum { OTHER_ENABLED = 0x80, OTHER_PENDING = 0x50, OTHER_ACKNOWLEDGED = 0x10, OTHER_LEFT = 0x40 };
enum { ENABLED = AMV_STATUS_PACKET | AMV_STATUS_END | AMV_STATUS_REFUSED | OTHER_ENABLED };

/* What a list of steps goes by, and what the last of them gave. */
struct stepper {
    uint8_t table[3 * AMV_ENTRY_LEN], block[AMV_REGISTER_BLOCK_LEN];
    uint64_t walker[AMV_WALKER_WORDS], out[AMV_PACKET_WORDS];
};

/* Leaves another value in each register. Status shows nothing, so that each bit that a step sets rises; all but cut may interrupt. */
static void leave(uint8_t *block, uint64_t command, int64_t request)
{
    put(block + AMV_REGISTER_COMMAND, command, 1);
    put(block + AMV_REGISTER_STATUS, 0x20, 1);
    put(block + AMV_REGISTER_ENABLE, ENABLED, 1);
    put(block + AMV_REGISTER_PENDING, OTHER_PENDING, 1);
    put(block + AMV_REGISTER_ACKNOWLEDGE, OTHER_ACKNOWLEDGED, 1);
    put(block + AMV_REGISTER_REFUSAL, 99, 1);
    put(block + 6, 0x7766, 2); /* the free bytes */
    put(block + AMV_REGISTER_REQUEST, (uint64_t)request, 8);
}

/* A step that is accepted, over so many bytes of a file. */
static void step(struct stepper *s, const uint8_t *of, size_t of_len, uint64_t command, int64_t request)
{
    leave(s->block, command, request);
    memset(s->out, 7, sizeof s->out);
    EXPECT(AMV_OK, amv_register_step(of, of_len, s->table, sizeof s->table, s->walker, s->block, sizeof s->block, s->out));
    EXPECT(0, s->out[AMV_PLACE]);
}

/* What the step has made of the registers: a bit of status is pending where it may interrupt. Where packet is not set, all of out is 0. */
static void expect_registers(const struct stepper *s, uint64_t status, uint64_t refusal, int64_t request)
{
    EXPECT(0, s->block[AMV_REGISTER_COMMAND]);
    EXPECT(status, s->block[AMV_REGISTER_STATUS]);
    EXPECT(ENABLED, s->block[AMV_REGISTER_ENABLE]);
    EXPECT(OTHER_LEFT | (status & ENABLED), s->block[AMV_REGISTER_PENDING]);
    EXPECT(0, s->block[AMV_REGISTER_ACKNOWLEDGE]);
    EXPECT(refusal, s->block[AMV_REGISTER_REFUSAL]);
    EXPECT(0x7766, get(s->block + 6, 2));
    EXPECT(request, get(s->block + AMV_REGISTER_REQUEST, 8));
    EXPECT((status & AMV_STATUS_PACKET) != 0, s->out[AMV_PACKET_IS_PACKET]);
    for (int i = 0; i < AMV_PACKET_WORDS && !(status & AMV_STATUS_PACKET); i++)
        EXPECT(0, s->out[i]);
}

static void seek_and_read(struct stepper *s)
{
    step(s, file, len, AMV_COMMAND_SEEK_SOUND, 1);
    expect_registers(s, 0, 0, 5);
    step(s, file, len, AMV_COMMAND_NONE, -2);
    expect_registers(s, 0, 0, -2);
    step(s, file, len, AMV_COMMAND_READ, -3);
    expect_registers(s, AMV_STATUS_PACKET, 0, 5);
    EXPECT(AMV_STREAM_AUDIO, s->out[AMV_PACKET_STREAM]);
    EXPECT(316 + 18 + 11 + 8, s->out[AMV_PACKET_START]);
    EXPECT(10, s->out[AMV_PACKET_LEN]);
    EXPECT(5, s->out[AMV_PACKET_STAMP]);
    EXPECT(6, s->out[AMV_PACKET_DURATION]);
    step(s, file, len, AMV_COMMAND_READ, -4);
    expect_registers(s, AMV_STATUS_END, 0, -4);
    EXPECT(len - 8, s->walker[AMV_WALKER_TRAILER]);
    /* A picture after the last one is at the end too, and its stamp is the number of pictures. */
    step(s, file, len, AMV_COMMAND_SEEK_PICTURE, 9);
    expect_registers(s, AMV_STATUS_END, 0, 1);
    step(s, file, len, AMV_COMMAND_SEEK_PICTURE, -1);
    expect_registers(s, 0, 0, 0);
    EXPECT(316 + 18, s->walker[AMV_WALKER_CURSOR]);
}

/* From the picture on: it is damaged, and the read is refused but the step is not; the file ends inside it, and is cut. */
static void step_over_damage_and_cut(struct stepper *s)
{
    uint8_t damaged[sizeof file];
    memcpy(damaged, file, len);
    damaged[316 + 18] = 'X';
    step(s, damaged, len, AMV_COMMAND_READ, -5);
    expect_registers(s, AMV_STATUS_REFUSED, AMV_ERROR_UNKNOWN_TAG, -5);
    EXPECT(316 + 18, s->walker[AMV_WALKER_CURSOR]);
    step(s, file, 316 + 18 + 10, AMV_COMMAND_READ, -6);
    expect_registers(s, AMV_STATUS_END | AMV_STATUS_CUT, 0, -6);
    step(s, file, len, AMV_COMMAND_SEEK_PICTURE, 0);
    expect_registers(s, AMV_STATUS_CUT, 0, 0);
}

/* A step over a block of that length, with no records, that is refused at 0 and leaves block and walker. */
static uint32_t refused_step(uint64_t walker[AMV_WALKER_WORDS], size_t block_len)
{
    uint8_t block[AMV_REGISTER_BLOCK_LEN + 1], before[sizeof block];
    uint64_t out[AMV_PACKET_WORDS];
    memset(block, 0xEE, sizeof block);
    leave(block, AMV_COMMAND_SEEK_SOUND + 1, -7);
    memcpy(before, block, sizeof before);
    memset(out, 7, sizeof out);
    uint32_t number = amv_register_step(file, len, NULL, 0, walker, block, block_len, out);
    for (int i = 0; i < AMV_PACKET_WORDS; i++)
        EXPECT(0, out[i]);
    EXPECT(0, memcmp(before, block, sizeof before));
    EXPECT(AMV_PRELUDE_LEN, walker[AMV_WALKER_CURSOR]);
    return number;
}

static void register_step(void)
{
    struct stepper s = {{0}, {0}, AMV_FRESH_WALKER, {0}};
    uint64_t indexed[AMV_INDEX_WORDS], walker[AMV_WALKER_WORDS] = AMV_FRESH_WALKER;
    EXPECT(AMV_OK, amv_build_chunk_index(file, len, s.table, sizeof s.table, indexed));
    seek_and_read(&s);
    step_over_damage_and_cut(&s);
    /* What is asked of a step, in its order: each call answers the question before with yes, and this one and those after it with no. */
    walker[AMV_WALKER_CUT] = 2;
    EXPECT(AMV_ERROR_ILLEGAL_STATE, refused_step(walker, AMV_REGISTER_BLOCK_LEN - 1));
    walker[AMV_WALKER_CUT] = 0;
    EXPECT(AMV_ERROR_WRONG_REGISTER_BLOCK, refused_step(walker, AMV_REGISTER_BLOCK_LEN - 1));
    EXPECT(AMV_ERROR_WRONG_REGISTER_BLOCK, refused_step(walker, AMV_REGISTER_BLOCK_LEN + 1));
    EXPECT(AMV_ERROR_UNKNOWN_COMMAND, refused_step(walker, AMV_REGISTER_BLOCK_LEN));
}

/* The number in the columns of a line from one to before another, after the spaces. */
static uint64_t number_in(const uint8_t *line, int from, int to)
{
    uint64_t number = 0;
    for (int i = from; i < to; i++)
        if (line[i] != ' ')
            number = 10 * number + (uint64_t)(line[i] - '0');
    return number;
}

/* A page of three lines. */
enum { FULL_PAGE = 3 * AMV_PAGE_COLUMNS };

/* Prints a table to a page of that length, which is left as it was where the call is refused; a byte after it is always left. */
static uint32_t print_to(uint8_t page[FULL_PAGE + 1], const uint8_t *table, size_t table_len, size_t page_len, uint64_t out[AMV_PAGE_WORDS])
{
    uint8_t before[FULL_PAGE + 1];
    memset(before, '#', sizeof before);
    memset(page, '#', sizeof before);
    uint32_t number = amv_print_index(table, table_len, page, page_len, out);
    EXPECT('#', page[page_len]);
    if (number != AMV_OK) {
        EXPECT(0, out[AMV_PAGE_LINES]);
        EXPECT(0, memcmp(page, before, sizeof before));
    }
    return number;
}

static void print_index(void)
{
    uint8_t table[3 * AMV_ENTRY_LEN], page[FULL_PAGE + 1];
    uint64_t indexed[AMV_INDEX_WORDS], out[AMV_PAGE_WORDS] = {7, 7};
    const uint8_t *second = page + AMV_PAGE_COLUMNS, *last = second + AMV_PAGE_COLUMNS;
    EXPECT(AMV_OK, amv_build_chunk_index(file, len, table, sizeof table, indexed));
    EXPECT(AMV_OK, print_to(page, table, sizeof table, FULL_PAGE, out));
    EXPECT(0, out[AMV_PLACE]);
    EXPECT(3, out[AMV_PAGE_LINES]);
    const char *lines = "A       316         0                  0"
                        "V       334         0                  5"
                        "A       345         1                  5";
    EXPECT(0, memcmp(lines, page, FULL_PAGE));
    EXPECT('V', second[AMV_LINE_KIND]);
    EXPECT('A', last[AMV_LINE_KIND]);
    EXPECT(345, number_in(last, AMV_LINE_OFFSET, AMV_LINE_FRAMES));
    EXPECT(1, number_in(last, AMV_LINE_FRAMES, AMV_LINE_SAMPLES));
    EXPECT(5, number_in(last, AMV_LINE_SAMPLES, AMV_PAGE_COLUMNS));
    /* No records are no lines, and need no page. */
    EXPECT(AMV_OK, amv_print_index(NULL, 0, NULL, 0, out));
    EXPECT(0, out[AMV_PAGE_LINES]);
    EXPECT(AMV_ERROR_TABLE_TOO_SHORT, print_to(page, table, sizeof table, FULL_PAGE - 1, out));
    EXPECT(0, out[AMV_PLACE]);
    EXPECT(AMV_ERROR_TABLE_RAGGED, print_to(page, table, sizeof table - 1, FULL_PAGE, out));
    EXPECT(0, out[AMV_PLACE]);
    /* The greatest numbers that a line shows: they fill their columns, but for column 22. */
    put(table + AMV_ENTRY_LEN + AMV_ENTRY_OFFSET, 4294967295, 4);
    put(table + AMV_ENTRY_LEN + AMV_ENTRY_FRAMES, 4294967294, 4);
    put(table + AMV_ENTRY_LEN + AMV_ENTRY_SAMPLES, 999999999999999999, 8);
    EXPECT(AMV_OK, print_to(page, table, sizeof table, FULL_PAGE, out));
    EXPECT(4294967295, number_in(second, AMV_LINE_OFFSET, AMV_LINE_FRAMES));
    EXPECT(4294967294, number_in(second, AMV_LINE_FRAMES, AMV_LINE_SAMPLES));
    EXPECT(' ', second[AMV_LINE_SAMPLES]);
    EXPECT(999999999999999999, number_in(second, AMV_LINE_SAMPLES, AMV_PAGE_COLUMNS));
    /* A sample more comes before a page that is too short, and after a bad record anywhere. */
    put(table + AMV_ENTRY_LEN + AMV_ENTRY_SAMPLES, 1000000000000000000, 8);
    EXPECT(AMV_ERROR_SAMPLES_TOO_WIDE, print_to(page, table, sizeof table, FULL_PAGE - 1, out));
    EXPECT(AMV_ENTRY_LEN, out[AMV_PLACE]);
    table[2 * AMV_ENTRY_LEN + AMV_ENTRY_TAG] = 'X';
    EXPECT(AMV_ERROR_BAD_RECORD, print_to(page, table, sizeof table, FULL_PAGE, out));
    EXPECT(2 * AMV_ENTRY_LEN, out[AMV_PLACE]);
}

/* A block of two bytes of nibbles, which are 7, 15, 8 and 0. */
enum { BLOCK_LEN = AMV_BLOCK_NIBBLES + 2 };

static void make_block(uint8_t block[BLOCK_LEN], int16_t level, uint8_t step_index, uint32_t samples)
{
    memset(block, 0xEE, BLOCK_LEN); /* the ignored byte */
    put(block + AMV_BLOCK_LEVEL, (uint16_t)level, 2);
    put(block + AMV_BLOCK_STEP_INDEX, step_index, 1);
    put(block + AMV_BLOCK_COUNT, samples, 4);
    block[AMV_BLOCK_NIBBLES] = 0x7F;
    block[AMV_BLOCK_NIBBLES + 1] = 0x80;
}

/* An entry that no block here gives, and as many entries as the buffer of the tests has: one more than a block's nibbles. */
enum { UNTOUCHED = -12345, ENTRIES = 5 };

/* Decodes to a buffer of that length, which is left as it was where the call is refused; what is past the count is always left. */
static uint32_t decode_to(int16_t samples[ENTRIES], const uint8_t *block, size_t block_len, size_t samples_len, uint64_t out[AMV_DECODE_WORDS])
{
    for (int i = 0; i < ENTRIES; i++)
        samples[i] = UNTOUCHED;
    uint32_t number = amv_decode_block(block, block_len, samples, samples_len, out);
    if (number != AMV_OK)
        EXPECT(0, out[AMV_DECODE_COUNT]);
    for (uint64_t i = out[AMV_DECODE_COUNT]; i < ENTRIES; i++)
        EXPECT(UNTOUCHED, samples[i]);
    return number;
}

static void decode_block(void)
{
    uint8_t block[BLOCK_LEN];
    int16_t samples[ENTRIES];
    uint64_t out[AMV_DECODE_WORDS] = {7, 7};
    make_block(block, 1000, 16, 4);
    EXPECT(AMV_OK, decode_to(samples, block, BLOCK_LEN, 4, out));
    EXPECT(0, out[AMV_PLACE]);
    EXPECT(4, out[AMV_DECODE_COUNT]);
    EXPECT(1063, samples[0]);
    EXPECT(927, samples[1]);
    EXPECT(908, samples[2]);
    EXPECT(925, samples[3]);
    /* A count that ends between the two nibbles of a byte. */
    make_block(block, -1000, 16, 3);
    EXPECT(AMV_OK, decode_to(samples, block, BLOCK_LEN, ENTRIES, out));
    EXPECT(3, out[AMV_DECODE_COUNT]);
    EXPECT(-937, samples[0]);
    EXPECT(-1092, samples[2]);
    /* Samples are held within 16 bits. */
    make_block(block, INT16_MAX, 88, 2);
    EXPECT(AMV_OK, decode_to(samples, block, BLOCK_LEN, 2, out));
    EXPECT(INT16_MAX, samples[0]);
    EXPECT(-28669, samples[1]);
    make_block(block, INT16_MIN, 88, 3);
    block[AMV_BLOCK_NIBBLES] = 0xF7;
    EXPECT(AMV_OK, decode_to(samples, block, BLOCK_LEN, 3, out));
    EXPECT(INT16_MIN, samples[0]);
    EXPECT(28668, samples[1]);
    /* No samples need no nibbles and no buffer. */
    make_block(block, 0, 0, 0);
    EXPECT(AMV_OK, amv_decode_block(block, AMV_BLOCK_NIBBLES, NULL, 0, out));
    EXPECT(0, out[AMV_DECODE_COUNT]);
    /* Each question before the ones that are asked after it. */
    make_block(block, 0, 89, 5);
    EXPECT(AMV_ERROR_PREAMBLE_TOO_SHORT, decode_to(samples, block, AMV_BLOCK_NIBBLES - 1, 4, out));
    EXPECT(0, out[AMV_PLACE]);
    EXPECT(AMV_ERROR_STEP_INDEX_TOO_LARGE, decode_to(samples, block, BLOCK_LEN, 4, out));
    EXPECT(2, out[AMV_PLACE]);
    make_block(block, 0, 88, 5);
    EXPECT(AMV_ERROR_NIBBLES_MISSING, decode_to(samples, block, BLOCK_LEN, 4, out));
    EXPECT(4, out[AMV_PLACE]);
    make_block(block, 0, 88, 4);
    EXPECT(AMV_ERROR_SAMPLE_BUFFER_TOO_SHORT, decode_to(samples, block, BLOCK_LEN, 3, out));
    EXPECT(0, out[AMV_PLACE]);
}

static void check(void)
{
    uint64_t out[AMV_CHECK_WORDS];
    EXPECT(AMV_OK, amv_check(file, len, out));
    EXPECT(1, out[AMV_CHECK_FRAMES]);
    EXPECT(2, out[AMV_CHECK_BLOCKS]);
    EXPECT(11, out[AMV_CHECK_SAMPLES]);
    EXPECT(len - 8, out[AMV_CHECK_TRAILER]);
    EXPECT(0, out[AMV_CHECK_PAIRED]);
    EXPECT(AMV_ERROR_CHUNK_CUT, amv_check(file, len - 1, out));
    EXPECT(len - 8, out[AMV_PLACE]);
    EXPECT(AMV_ERROR_PRELUDE_CUT, amv_check(file, 0, out));
}

/* The two functions give the texts of their own column; a number that is none gives one text. */
static void texts(void)
{
#define ROW(number, name, question, place) \
    EXPECT(0, strcmp(question, amv_question(number))); \
    EXPECT(0, strcmp(place, amv_place_is(number)));
    AMV_REFUSALS(ROW)
    EXPECT(0, strcmp("accepted", amv_question(AMV_OK)));
    EXPECT(0, strcmp(amv_question(30), amv_question(4711)));
    EXPECT(1, strcmp(amv_question(30), amv_question(31)) != 0);
    char version[32];
    snprintf(version, sizeof version, "%d.%d.%d", AMV_VERSION_MAJOR, AMV_VERSION_MINOR, AMV_VERSION_PATCH);
    EXPECT(0, strcmp(version, AMV_VERSION));
}

static void others(void)
{
    const uint32_t tags[2] = {AMV_VIDEO_CHUNK_TAG, AMV_AUDIO_CHUNK_TAG};
    uint64_t out[1];
    EXPECT(AMV_OK, amv_validate_movi_interleave(tags, 2, out));
    EXPECT(AMV_ERROR_ODD_CHUNK_COUNT, amv_validate_movi_interleave(tags, 1, out));
}

/* Seconds, minutes, hours; above AMV_DURATION_MAX_SECONDS no minute over 59, in a trailer too. */
static void run_lengths(void)
{
    const uint32_t longest = (255 << 16) + (59 << 8) + 59;
    uint8_t buf[AMV_PRELUDE_LEN + 8] = {0};
    uint64_t writer[AMV_WRITER_WORDS] = AMV_FRESH_WRITER(8, 8, 1, 8000, 1);
    uint64_t out[1], fields[AMV_PARSE_WORDS];
    EXPECT(289, amv_from_frame_count(1116, 12));
    EXPECT(0, amv_from_frame_count(1116, 0));
    EXPECT(longest - 1, amv_from_frame_count(AMV_DURATION_MAX_SECONDS - 1, 1));
    EXPECT(longest, amv_from_frame_count(AMV_DURATION_MAX_SECONDS, 1));
    EXPECT(longest, amv_from_frame_count(AMV_DURATION_MAX_SECONDS + 1, 1));
    EXPECT(longest, amv_from_frame_count(UINT64_MAX, 1));
    EXPECT(AMV_OK, amv_write_header(writer, buf, sizeof buf, out));
    writer[AMV_WRITER_FRAMES] = AMV_DURATION_MAX_SECONDS + 1;
    EXPECT(AMV_OK, amv_write_trailer(writer, buf, sizeof buf, out));
    EXPECT(AMV_OK, amv_parse(buf, sizeof buf, true, fields));
    EXPECT(longest, fields[AMV_PARSE_DURATION_PACKED]);
}

int main(void)
{
    record();
    parse();
    reads();
    index_and_jump();
    register_step();
    print_index();
    decode_block();
    check();
    texts();
    others();
    run_lengths();
    return failures != 0;
}
