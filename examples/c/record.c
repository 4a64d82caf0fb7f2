/* Writes a recording: two seconds of small pictures, each followed by its sound, into the file that is named. */
#include <inttypes.h>
#include <stdint.h>
#include <stdio.h>
#include <stdlib.h>

#include "amv.h"

enum { FPS = 12, RATE = 8000, PICTURES = 2 * FPS, SAMPLES = RATE / FPS, ROOM = 64 * 1024 };

/* A call that is refused has written nothing; its number and place say why. */
static void must(uint32_t number, const uint64_t *out, const char *call)
{
    if (number != AMV_OK) {
        fprintf(stderr, "%s: refused with %" PRIu32 " at %" PRIu64 ". %s No.\n", call, number, out[AMV_PLACE], amv_question(number));
        exit(1);
    }
}

/* A picture of our own: the two bytes that begin a JPEG, its number, the two that end one. */
static size_t picture(uint8_t *to, unsigned n)
{
    const uint8_t bytes[] = {0xFF, 0xD8, (uint8_t)n, (uint8_t)(n >> 8), 0xFF, 0xD9};
    for (size_t i = 0; i < sizeof bytes; i++)
        to[i] = bytes[i];
    return sizeof bytes;
}

/* A sound block: the starting level 0, the step index, the number of samples, and half a byte for each of them. These are a hum: six of
 * them lead level and step index back to where they were, and the larger the step index the louder it is. */
static size_t sound(uint8_t *to, uint8_t step_index, unsigned samples)
{
    const uint8_t hum[] = {0x33, 0xCB, 0xB4};
    for (size_t i = 0; i < AMV_BLOCK_NIBBLES; i++)
        to[i] = 0;
    to[AMV_BLOCK_STEP_INDEX] = step_index;
    for (unsigned i = 0; i < 4; i++)
        to[AMV_BLOCK_COUNT + i] = (uint8_t)(samples >> 8 * i);
    for (size_t i = 0; i < samples / 2; i++)
        to[AMV_BLOCK_NIBBLES + i] = hum[i % sizeof hum];
    return AMV_BLOCK_NIBBLES + samples / 2;
}

int main(int argc, char **argv)
{
    static uint8_t file[ROOM], payload[1024];
    uint64_t writer[AMV_WRITER_WORDS] = AMV_FRESH_WRITER(64, 48, FPS, RATE, 1);
    uint64_t out[1], totals[AMV_CHECK_WORDS];

    if (argc != 2) {
        fprintf(stderr, "usage: record FILE\n");
        return 2;
    }
    must(amv_write_header(writer, file, ROOM, out), out, "header");
    for (unsigned n = 0; n < PICTURES; n++) {
        size_t len = picture(payload, n);
        must(amv_write_packet(writer, file, ROOM, payload, len, AMV_STREAM_VIDEO, out), out, "picture");
        len = sound(payload, (uint8_t)(20 + 2 * n), SAMPLES);
        must(amv_write_packet(writer, file, ROOM, payload, len, AMV_STREAM_AUDIO, out), out, "sound");
    }
    must(amv_write_trailer(writer, file, ROOM, out), out, "trailer");

    /* The file is the first bytes of the buffer. It must be finished, and the check says so. */
    size_t len = (size_t)writer[AMV_WRITER_WRITTEN];
    must(amv_check(file, len, totals), totals, "check");
    FILE *to = fopen(argv[1], "wb");
    if (to == NULL || fwrite(file, 1, len, to) != len || fclose(to) != 0) {
        perror(argv[1]);
        return 1;
    }
    printf("recorded %" PRIu64 " pictures, %zu bytes\n", totals[AMV_CHECK_FRAMES], len);
    return 0;
}
