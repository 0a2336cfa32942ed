/* drive WHAT CAPTURE TIMES: runs frames through a fresh relay (frame), reads the capture (read), writes it (write), reads it and runs its
   frames (run), finds the strongest window of each of the six channels (strongest), or makes as many frames of a test waveform from the numbers
   k * 2^26 + 1 (generate, the C in plain ISO C; vectors, the same with the C in vectors by hand), so many times; or runs its frames on, all
   enabled, through one relay with pickups 1 and restraint off (off) or on (on).
   drive generated FRAMES: what crates/relay_check does, over frames of the same small generator. drive restrained FRAMES R: the same with
   all enabled, each pickup 1 and each restraint level R, as a first byte of 128 + R asks of it.
   With -DARCHIVE the proved archive does the work, through its C interface; otherwise the second implementation in C, compiled into this
   unit. */
#include <stdio.h>
#include <stdlib.h>
#include <string.h>

#ifdef ARCHIVE
#include "../../host/c/export.h"

static size_t read_capture(const uint8_t *bytes, size_t size, uint16_t *cells, size_t room)
{
    return p6k_read(bytes, size, cells, room).count;
}

static size_t write_capture(const uint16_t *cells, size_t size, uint8_t *bytes, size_t room)
{
    return p6k_write(cells, size, bytes, room).count;
}

static unsigned long strongest(const uint16_t *cells, size_t size, unsigned channel)
{
    p6k_strongest_window found = p6k_strongest(cells, size, channel);
    return found.sum + found.frame;
}

typedef p6k_numbers given_numbers;

static size_t generate(const given_numbers *given, size_t frames, uint16_t *cells, size_t room, int vectors)
{
    (void)vectors;
    return p6k_generate(*given, frames, cells, room).count;
}

typedef p6k_relay relay_state;

static relay_state fresh(uint16_t pickup, uint8_t restraint)
{
    p6k_levels levels = {{819, 819, 819, 819, 819, 819}, {pickup, pickup, pickup}, {restraint, restraint, restraint}};
    p6k_settings settings = {levels, {.loss = 16, .over = 4}};
    return p6k_fresh(settings).relay;
}

static unsigned long step(relay_state *relay, const uint16_t *cells, uint8_t enable)
{
    p6k_codes codes;
    memcpy(codes.codes, cells, sizeof codes.codes);
    p6k_frame_answer answer = p6k_frame(*relay, codes, enable);
    *relay = answer.relay;
    unsigned long sum = answer.output;
    for (int c = 0; c < 6; c++)
        sum += answer.amplitudes[c];
    return sum;
}
#else
#include "../c/relay.c"

static size_t read_capture(const uint8_t *bytes, size_t size, uint16_t *cells, size_t room)
{
    size_t count;
    capture_read(bytes, size, cells, room, &count);
    return count;
}

static size_t write_capture(const uint16_t *cells, size_t size, uint8_t *bytes, size_t room)
{
    size_t count;
    capture_write(cells, size, bytes, room, &count);
    return count;
}

static unsigned long strongest(const uint16_t *cells, size_t size, unsigned channel)
{
    uint32_t sum;
    size_t frame;
    capture_strongest(cells, size, channel, &sum, &frame);
    return sum + frame;
}

typedef struct {
    uint32_t numbers[55];
} given_numbers;

static size_t generate(const given_numbers *given, size_t frames, uint16_t *cells, size_t room, int vectors)
{
    size_t count;
    (vectors ? generator_make : generator_make_plain)(given->numbers, frames, cells, room, &count);
    return count;
}

typedef struct relay relay_state;

static relay_state fresh(uint16_t pickup, uint8_t restraint)
{
    const uint16_t drops[6] = {819, 819, 819, 819, 819, 819}, pickups[3] = {pickup, pickup, pickup};
    const uint8_t restraints[3] = {restraint, restraint, restraint};
    struct relay relay;
    relay_fresh(&relay, drops, pickups, restraints, (struct lengths){.loss = 16, .over = 4});
    return relay;
}

static unsigned long step(relay_state *relay, const uint16_t *cells, uint8_t enable)
{
    struct framed answer;
    relay_frame(relay, cells, enable, &answer);
    unsigned long sum = answer.output;
    for (int c = 0; c < 6; c++)
        sum += answer.amplitudes[c];
    return sum;
}
#endif

static unsigned long run(const uint16_t *cells, size_t frames)
{
    relay_state relay = fresh(3413, 0);
    unsigned long sum = 0;
    for (size_t n = 0; n < frames; n++, cells += 7)
        sum += step(&relay, cells, (uint8_t)cells[6]);
    return sum;
}

static unsigned long run_on(relay_state *relay, const uint16_t *cells, size_t frames)
{
    unsigned long sum = 0;
    for (size_t n = 0; n < frames; n++, cells += 7)
        sum += step(relay, cells, 127);
    return sum;
}

/* Each enable byte stands for 2 to the power of hold frames. */
static unsigned long generated(uint64_t frames, relay_state relay, int hold)
{
    uint64_t state = 1;
    unsigned long sum = 0;
    for (uint64_t n = 0; n < frames; n++) {
        uint16_t codes[6];
        for (int c = 0; c < 6; c++) {
            state = (state * 1103515245 + 12345) % 2147483648;
            codes[c] = (uint16_t)((state >> 16) % 1024);
        }
        sum += step(&relay, codes, (uint8_t)(127 - (n >> hold) % 64));
    }
    return sum;
}

static uint8_t capture[53254], bytes[53254];
static uint16_t cells[7 * 4096];
static given_numbers given;

int main(int words, char **word)
{
    if (words == 3 && strcmp(word[1], "generated") == 0) {
        printf("%lu\n", generated(strtoull(word[2], NULL, 10), fresh(3413, 0), 6));
        return 0;
    }
    if (words == 4 && strcmp(word[1], "restrained") == 0) {
        printf("%lu\n", generated(strtoull(word[2], NULL, 10), fresh(1, (uint8_t)atoi(word[3])), 63));
        return 0;
    }
    FILE *file = words == 4 ? fopen(word[2], "rb") : NULL;
    if (!file)
        return 1;
    size_t size = fread(capture, 1, sizeof capture, file);
    size_t frames = read_capture(capture, size, cells, sizeof cells / sizeof *cells);
    relay_state relay = fresh(1, strcmp(word[1], "on") == 0 ? 15 : 0);
    for (uint32_t k = 1; k <= 55; k++)
        given.numbers[k - 1] = (k << 26) + 1;
    unsigned long sum = 0;
    for (long times = atol(word[3]); times > 0; times--) {
        if (word[1][0] == 'g' || word[1][0] == 'v') {
            sum += generate(&given, frames, cells, sizeof cells / sizeof *cells, word[1][0] == 'v');
            for (size_t c = 0; c < 7; c++)
                sum += cells[c * frames];
        } else if (strcmp(word[1], "frame") == 0)
            sum += run(cells, frames);
        else if (strcmp(word[1], "read") == 0)
            sum += read_capture(capture, size, cells, sizeof cells / sizeof *cells);
        else if (strcmp(word[1], "write") == 0)
            sum += write_capture(cells, 7 * frames, bytes, sizeof bytes);
        else if (strcmp(word[1], "strongest") == 0)
            for (unsigned channel = 0; channel < 6; channel++)
                sum += strongest(cells, 7 * frames, channel);
        else if (word[1][0] == 'o')
            sum += run_on(&relay, cells, frames);
        else
            sum += run(cells, read_capture(capture, size, cells, sizeof cells / sizeof *cells));
    }
    printf("%lu\n", sum);
    return 0;
}
