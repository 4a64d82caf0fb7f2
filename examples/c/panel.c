/*
 * What a control panel does with a recording.
 *
 *   panel play FILE PICTURE   opens it, builds the index, jumps to a picture and plays on with the sound that belongs to it. Any file
 *                             with the format's layout will do: cut, damaged, or written by another program.
 *   panel print FILE          prints its index on the strip printer, to be pinned beside the vat.
 *   panel hear FILE           decodes its sound block by block, and shows how loud each one is.
 *   panel drive FILE PICTURE  has a controller seek to a picture and read on to the end, through the 16 bytes of the register block.
 *   panel check FILE          says whether it is a finished recording, before it is handed on or graded.
 */
#include <inttypes.h>
#include <stdbool.h>
#include <stdint.h>
#include <stdio.h>
#include <stdlib.h>
#include <string.h>

#include "amv.h"

/* A file in memory, and its pictures a second for the clock. */
struct recording {
    uint8_t *file;
    size_t len;
    uint64_t fps;
};

/* The records of its index. */
struct table {
    uint8_t *records;
    size_t len;
};

/* A refusal as a fitter can look it up, and what it means. */
static void show_refusal(const char *what, uint32_t number, const uint64_t *out)
{
    printf("%s: refused with %" PRIu32 " at %" PRIu64 ". %s No.\n", what, number, out[AMV_PLACE], amv_question(number));
}

static bool read_file(const char *name, struct recording *r)
{
    FILE *from = fopen(name, "rb");
    long size = -1;
    r->file = NULL;
    if (from != NULL && fseek(from, 0, SEEK_END) == 0)
        size = ftell(from);
    if (size >= 0) {
        rewind(from);
        r->len = (size_t)size;
        r->file = malloc(r->len + 1);
    }
    if (r->file != NULL && fread(r->file, 1, r->len, from) != r->len) {
        free(r->file);
        r->file = NULL;
    }
    if (r->file == NULL)
        perror(name);
    if (from != NULL)
        fclose(from);
    return r->file != NULL;
}

/* To play a file only its layout is asked for, so not strictly. */
static bool open_recording(const char *name, struct recording *r)
{
    uint64_t out[AMV_PARSE_WORDS];
    if (!read_file(name, r))
        return false;
    uint32_t number = amv_parse(r->file, r->len, false, out);
    if (number != AMV_OK) {
        show_refusal(name, number, out);
        return false;
    }
    printf("%s: %" PRIu64 " x %" PRIu64 ", %" PRIu64 " pictures a second, sound at %" PRIu64 " Hz\n", name, out[AMV_PARSE_WIDTH],
           out[AMV_PARSE_HEIGHT], out[AMV_PARSE_FPS], out[AMV_PARSE_SAMPLES_PER_SEC]);
    r->fps = out[AMV_PARSE_FPS];
    return true;
}

/* How long so many pictures play, in hours, minutes and seconds; without a rate there is nothing to show. The prelude of a file that is cut has
 * another run length: none, since it comes with the trailer, or that of all the pictures there once were. */
static void show_run_length(uint64_t frames, uint64_t fps)
{
    if (fps == 0)
        return;
    uint32_t packed = amv_from_frame_count(frames, (uint32_t)fps);
    printf(", %" PRIu32 ":%02" PRIu32 ":%02" PRIu32, packed >> 16, packed >> 8 & 0xFF, packed & 0xFF);
}

/* Leaves of a damaged file what stands before the damage; that has a summary and an index. The summary is what the file plays. */
static bool show_summary(struct recording *r, uint64_t counts[AMV_SUMMARY_WORDS])
{
    uint32_t number = amv_summary(r->file, r->len, counts);
    if (number == AMV_ERROR_UNKNOWN_TAG) {
        show_refusal("damaged", number, counts);
        r->len = (size_t)counts[AMV_PLACE];
        number = amv_summary(r->file, r->len, counts);
    }
    if (number != AMV_OK) {
        show_refusal("summary", number, counts);
        return false;
    }
    printf("plays %" PRIu64 " pictures and %" PRIu64 " sound blocks", counts[AMV_SUMMARY_FRAMES], counts[AMV_SUMMARY_BLOCKS]);
    show_run_length(counts[AMV_SUMMARY_FRAMES], r->fps);
    putchar('\n');
    return true;
}

/* The index has a record for each chunk that plays, and at most one more: that of a chunk in which the file ends. */
static bool build_index(struct recording *r, struct table *table)
{
    uint64_t counts[AMV_SUMMARY_WORDS], out[AMV_INDEX_WORDS];
    if (!show_summary(r, counts))
        return false;
    size_t room = AMV_ENTRY_LEN * (size_t)(counts[AMV_SUMMARY_FRAMES] + counts[AMV_SUMMARY_BLOCKS] + 1);
    table->records = malloc(room);
    if (table->records == NULL) {
        perror("index");
        return false;
    }
    uint32_t number = amv_build_chunk_index(r->file, r->len, table->records, room, out);
    table->len = AMV_ENTRY_LEN * (size_t)out[AMV_INDEX_COUNT];
    if (number != AMV_OK) {
        show_refusal("index", number, out);
        free(table->records);
    }
    return number == AMV_OK;
}

/* The clock of a picture, to hundredths of a second; without a rate there is none. */
static void show_clock(uint64_t frames, uint64_t fps)
{
    if (fps == 0)
        return;
    uint64_t hundredths = frames * 100 / fps;
    printf(" at %" PRIu64 ":%02" PRIu64 ".%02" PRIu64, hundredths / 6000, hundredths / 100 % 60, hundredths % 100);
}

static void show_packet(const struct recording *r, const uint64_t packet[AMV_PACKET_WORDS])
{
    if (packet[AMV_PACKET_STREAM] == AMV_STREAM_VIDEO) {
        printf("  picture %" PRIu64, packet[AMV_PACKET_STAMP]);
        show_clock(packet[AMV_PACKET_STAMP], r->fps);
    } else {
        printf("  sound from sample %" PRIu64 " on, %" PRIu64 " samples", packet[AMV_PACKET_STAMP], packet[AMV_PACKET_DURATION]);
    }
    printf(", %" PRIu64 " bytes at %" PRIu64 "\n", packet[AMV_PACKET_LEN], packet[AMV_PACKET_START]);
}

/* Plays on from the walker, at most so many packets; answers how many there were. */
static uint64_t play_on(const struct recording *r, uint64_t walker[AMV_WALKER_WORDS], uint64_t most, bool show)
{
    uint64_t packet[AMV_PACKET_WORDS], played = 0;
    while (played < most) {
        uint32_t number = amv_next_packet(r->file, r->len, walker, packet);
        if (number != AMV_OK) {
            show_refusal("read", number, packet);
            break;
        }
        if (!packet[AMV_PACKET_IS_PACKET])
            break;
        if (show)
            show_packet(r, packet);
        played++;
    }
    return played;
}

/* Jumps to a picture: the sound and the clock come along. */
static bool jump(const struct table *table, uint64_t walker[AMV_WALKER_WORDS], int64_t picture)
{
    uint64_t out[AMV_SEEK_WORDS];
    uint32_t number = amv_seek_to_via_index(table->records, table->len, walker, AMV_STREAM_VIDEO, picture, out);
    if (number != AMV_OK) {
        show_refusal("jump", number, out);
        return false;
    }
    if (walker[AMV_WALKER_END]) {
        printf("jump to picture %" PRId64 ": the recording ends before it\n", picture);
        return true;
    }
    printf("jump to picture %" PRIu64 ": %" PRIu64 " pictures, %" PRIu64 " samples, %" PRIu64 " blocks before it\n",
           out[AMV_SEEK_STAMP], walker[AMV_WALKER_FRAMES], walker[AMV_WALKER_SAMPLES], walker[AMV_WALKER_BLOCKS]);
    return true;
}

static int play(const char *name, int64_t picture)
{
    struct recording r;
    struct table table;
    uint64_t walker[AMV_WALKER_WORDS] = AMV_FRESH_WALKER;
    if (!open_recording(name, &r) || !build_index(&r, &table))
        return 1;
    bool jumped = jump(&table, walker, picture);
    if (jumped && !walker[AMV_WALKER_END]) {
        /* The index can have a record of the chunk in which the file ends, and a jump can go there. */
        if (play_on(&r, walker, 4, true) == 0)
            printf("  the file ends inside this picture\n");
        printf("  and %" PRIu64 " more to the end\n", play_on(&r, walker, UINT64_MAX, false));
        if (walker[AMV_WALKER_CUT])
            printf("the recording is cut: it ends before its trailer, at byte %zu\n", r.len);
    }
    free(table.records);
    free(r.file);
    return jumped ? 0 : 1;
}

/* The strip printer, for which standard output stands in: it is fed with 40 columns, and moves on by a line. */
static void feed_line(const uint8_t *line)
{
    fwrite(line, 1, AMV_PAGE_COLUMNS, stdout);
    putchar('\n');
}

/* Lays the index out as a page, and feeds the printer with it line by line. A page that is refused has no lines. */
static bool print_page(const struct table *table)
{
    uint64_t out[AMV_PAGE_WORDS];
    size_t page_len = table->len / AMV_ENTRY_LEN * AMV_PAGE_COLUMNS;
    uint8_t *page = malloc(page_len + 1);
    if (page == NULL) {
        perror("page");
        return false;
    }
    uint32_t number = amv_print_index(table->records, table->len, page, page_len, out);
    if (number != AMV_OK)
        show_refusal("page", number, out);
    for (size_t line = 0; line < out[AMV_PAGE_LINES]; line++)
        feed_line(page + AMV_PAGE_COLUMNS * line);
    free(page);
    return number == AMV_OK;
}

static int print_index(const char *name)
{
    struct recording r;
    struct table table;
    if (!open_recording(name, &r) || !build_index(&r, &table))
        return 1;
    bool printed = print_page(&table);
    free(table.records);
    free(r.file);
    return printed ? 0 : 1;
}

/* The buffer that feeds the speaker. A block with more samples than it holds is refused with 73. */
static int16_t speaker[65536];

/* What has been heard. A level meter shows the least and the greatest sample, and means something where there are samples. */
struct meter {
    uint64_t samples;
    int16_t least, greatest;
};

static void meter_sample(struct meter *meter, int16_t sample)
{
    if (meter->samples == 0 || sample < meter->least)
        meter->least = sample;
    if (meter->samples == 0 || sample > meter->greatest)
        meter->greatest = sample;
    meter->samples++;
}

static void show_meter(const char *what, const struct meter *meter)
{
    printf("%s: %" PRIu64 " samples", what, meter->samples);
    if (meter->samples != 0)
        printf(", %" PRId16 " to %" PRId16, meter->least, meter->greatest);
    putchar('\n');
}

/* Decodes one block to the speaker's buffer, and shows its meter. A block that is refused has no samples: the others can be heard. */
static bool hear_block(const uint8_t *block, size_t len, uint64_t n, struct meter *total)
{
    uint64_t out[AMV_DECODE_WORDS];
    struct meter meter = {0, 0, 0};
    char what[32];
    snprintf(what, sizeof what, "block %" PRIu64, n);
    uint32_t number = amv_decode_block(block, len, speaker, sizeof speaker / sizeof speaker[0], out);
    if (number != AMV_OK) {
        show_refusal(what, number, out);
        return false;
    }
    for (uint64_t i = 0; i < out[AMV_DECODE_COUNT]; i++) {
        meter_sample(&meter, speaker[i]);
        meter_sample(total, speaker[i]);
    }
    show_meter(what, &meter);
    return true;
}

/* Walks over all packets and hears the sound among them; answers whether every read and every block was accepted. */
static bool hear_all(const struct recording *r, struct meter *total)
{
    uint64_t walker[AMV_WALKER_WORDS] = AMV_FRESH_WALKER, packet[AMV_PACKET_WORDS];
    bool all = true;
    for (;;) {
        uint32_t number = amv_next_packet(r->file, r->len, walker, packet);
        if (number != AMV_OK) {
            show_refusal("read", number, packet);
            return false;
        }
        if (!packet[AMV_PACKET_IS_PACKET])
            return all;
        if (packet[AMV_PACKET_STREAM] == AMV_STREAM_AUDIO &&
            !hear_block(r->file + packet[AMV_PACKET_START], (size_t)packet[AMV_PACKET_LEN], walker[AMV_WALKER_BLOCKS] - 1, total))
            all = false;
    }
}

static int hear(const char *name)
{
    struct recording r;
    struct meter total = {0, 0, 0};
    if (!open_recording(name, &r))
        return 1;
    bool all = hear_all(&r, &total);
    show_meter("total", &total);
    free(r.file);
    return all ? 0 : 1;
}

/* A controller and the panel share the 16 bytes of the register block. The controller's functions are these, up to show_outcome: they touch the
 * 16 bytes and nothing else of the panel.
 *
 * What a controller keeps for itself: the command and the bits to acknowledge that it has left for the step, the number of a refusal, or 0, how
 * many steps it has seen, and how many packets it was interrupted for. */
struct controller {
    uint8_t command, acknowledge, refusal;
    uint64_t steps, packets;
};

/* So many steps are shown, and later ones that interrupt for anything but a packet. */
enum { SHOWN_STEPS = 8 };

/* Leaves a command, and which interrupts are handled. The step sets both registers to 0. */
static void leave_command(struct controller *c, uint8_t *block, uint8_t command, uint8_t acknowledge)
{
    c->command = command;
    c->acknowledge = acknowledge;
    block[AMV_REGISTER_COMMAND] = command;
    block[AMV_REGISTER_ACKNOWLEDGE] = acknowledge;
}

/* Leaves a request: 8 bytes, the lowest first. */
static void leave_request(uint8_t *block, int64_t request)
{
    for (int i = 0; i < 8; i++)
        block[AMV_REGISTER_REQUEST + i] = (uint8_t)((uint64_t)request >> 8 * i);
}

/* What the register request holds: after a step that gave one, a stamp. */
static int64_t request_in(const uint8_t *block)
{
    uint64_t request = 0;
    for (int i = 0; i < 8; i++)
        request |= (uint64_t)block[AMV_REGISTER_REQUEST + i] << 8 * i;
    return (int64_t)request;
}

/* A register and the bits that are set in it, by their names. */
static void show_bits(const char *name, uint8_t bits)
{
    printf(", %s%s%s%s%s%s", name, bits == 0 ? " none" : "", bits & AMV_STATUS_PACKET ? " packet" : "", bits & AMV_STATUS_END ? " end" : "",
           bits & AMV_STATUS_CUT ? " cut" : "", bits & AMV_STATUS_REFUSED ? " refused" : "");
}

/* What was left for the step, and what the registers hold after it. */
static void show_registers(const struct controller *c, const uint8_t *block)
{
    static const char *const commands[] = {"none", "read", "seek picture", "seek sound"};
    printf("step: command %s", commands[c->command]);
    if (c->acknowledge != 0)
        show_bits("acknowledge", c->acknowledge);
    show_bits("status", block[AMV_REGISTER_STATUS]);
    show_bits("pending", block[AMV_REGISTER_PENDING]);
    if (block[AMV_REGISTER_REFUSAL] != 0)
        printf(", refusal %d", block[AMV_REGISTER_REFUSAL]);
    printf(", request %" PRId64 "\n", request_in(block));
}

/* Before the first step: seeks to a picture, and is to be interrupted for a packet, for the end, and where a read or seek is refused. */
static void leave_seek(struct controller *c, uint8_t *block, int64_t picture)
{
    block[AMV_REGISTER_ENABLE] = AMV_STATUS_PACKET | AMV_STATUS_END | AMV_STATUS_REFUSED;
    leave_request(block, picture);
    leave_command(c, block, AMV_COMMAND_SEEK_PICTURE, 0);
}

/* After a step: handles the interrupts that are pending, and shows the registers. */
static void handle_interrupts(struct controller *c, const uint8_t *block)
{
    uint8_t pending = block[AMV_REGISTER_PENDING];
    c->steps++;
    if (pending & AMV_STATUS_PACKET)
        c->packets++;
    if (pending & AMV_STATUS_REFUSED)
        c->refusal = block[AMV_REGISTER_REFUSAL];
    if (c->steps <= SHOWN_STEPS || pending & ~AMV_STATUS_PACKET)
        show_registers(c, block);
}

/* Before each other step: acknowledges what is pending, and reads where nothing is. A bit interrupts where it rises, and packet would stay 1 from
 * one read to the next: the step without a command lets it fall. Answers false where nothing is left to do, at the end and after a refusal. */
static bool leave_next(struct controller *c, uint8_t *block)
{
    uint8_t pending = block[AMV_REGISTER_PENDING];
    if (pending == 0 && (block[AMV_REGISTER_STATUS] & AMV_STATUS_END || c->refusal != 0))
        return false;
    leave_command(c, block, pending != 0 ? AMV_COMMAND_NONE : AMV_COMMAND_READ, pending);
    return true;
}

/* After the last step. Cut is set once a read has found it, and stays. */
static void show_outcome(const struct controller *c, const uint8_t *block)
{
    printf("packets: %" PRIu64 ", steps: %" PRIu64 "; ", c->packets, c->steps);
    if (c->refusal != 0)
        printf("refused with %d. %s No.\n", c->refusal, amv_question(c->refusal));
    else if (block[AMV_REGISTER_STATUS] & AMV_STATUS_CUT)
        printf("the recording is cut: it ends before its trailer\n");
    else
        printf("no read has found the recording cut\n");
}

/* The panel's side: it has the file, its index and the walker, and runs a step where the controller has left a command. */
struct reader {
    struct recording r;
    struct table table;
    uint64_t walker[AMV_WALKER_WORDS], packet[AMV_PACKET_WORDS];
};

/* The reader keeps all of a damaged file: a read that comes to the damage is refused, and the controller sees it. */
static bool open_reader(const char *name, struct reader *reader)
{
    if (!open_recording(name, &reader->r))
        return false;
    size_t len = reader->r.len;
    bool built = build_index(&reader->r, &reader->table);
    reader->r.len = len;
    return built;
}

/* Runs a step. It is refused where the block or its command is none; a read or seek that is refused is told in the block alone. */
static bool run_step(struct reader *reader, uint8_t block[AMV_REGISTER_BLOCK_LEN])
{
    uint32_t number = amv_register_step(reader->r.file, reader->r.len, reader->table.records, reader->table.len, reader->walker, block,
                                        AMV_REGISTER_BLOCK_LEN, reader->packet);
    if (number != AMV_OK)
        show_refusal("step", number, reader->packet);
    return number == AMV_OK;
}

/* Shows the packet of the last step, where its read gave one. */
static void show_given(const struct reader *reader)
{
    if (reader->packet[AMV_PACKET_IS_PACKET])
        show_packet(&reader->r, reader->packet);
}

/* The two take turns: the panel runs a step, the controller looks at what became of it and leaves what comes next. */
static bool take_turns(struct reader *reader, struct controller *c, uint8_t block[AMV_REGISTER_BLOCK_LEN])
{
    do {
        if (!run_step(reader, block))
            return false;
        handle_interrupts(c, block);
        if (c->steps <= SHOWN_STEPS)
            show_given(reader);
    } while (leave_next(c, block));
    return c->refusal == 0;
}

/* All that the two have in common is the block. */
static int drive(const char *name, int64_t picture)
{
    struct reader reader = {.walker = AMV_FRESH_WALKER};
    struct controller controller = {0, 0, 0, 0, 0};
    uint8_t block[AMV_REGISTER_BLOCK_LEN] = {0};
    if (!open_reader(name, &reader))
        return 1;
    leave_seek(&controller, block, picture);
    bool driven = take_turns(&reader, &controller, block);
    show_outcome(&controller, block);
    free(reader.table.records);
    free(reader.r.file);
    return driven ? 0 : 1;
}

/* What must be finished is asked strictly: every field, every chunk, the trailer, nothing after it. */
static int check(const char *name)
{
    struct recording r;
    uint64_t out[AMV_CHECK_WORDS];
    if (!read_file(name, &r))
        return 1;
    uint32_t number = amv_check(r.file, r.len, out);
    if (number == AMV_OK)
        printf("%s: finished, %" PRIu64 " pictures, %" PRIu64 " sound blocks, %" PRIu64 " samples, %s\n", name,
               out[AMV_CHECK_FRAMES], out[AMV_CHECK_BLOCKS], out[AMV_CHECK_SAMPLES],
               out[AMV_CHECK_PAIRED] ? "paired" : "not paired");
    else
        show_refusal(name, number, out);
    free(r.file);
    return number == AMV_OK ? 0 : 1;
}

int main(int argc, char **argv)
{
    if (argc == 4 && strcmp(argv[1], "play") == 0)
        return play(argv[2], strtoll(argv[3], NULL, 10));
    if (argc == 3 && strcmp(argv[1], "print") == 0)
        return print_index(argv[2]);
    if (argc == 3 && strcmp(argv[1], "hear") == 0)
        return hear(argv[2]);
    if (argc == 4 && strcmp(argv[1], "drive") == 0)
        return drive(argv[2], strtoll(argv[3], NULL, 10));
    if (argc == 3 && strcmp(argv[1], "check") == 0)
        return check(argv[2]);
    fprintf(stderr, "usage: panel play FILE PICTURE\n       panel print FILE\n       panel hear FILE\n       panel drive FILE PICTURE\n"
                    "       panel check FILE\n");
    return 2;
}
