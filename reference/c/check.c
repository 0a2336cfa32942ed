/* Reads the lines of `reference trace` on standard input, makes each call with
   the C functions and compares number, relay, amplitudes, cells and bytes. On the
   relay of each accepted reset it also asks the law of Paper 2. An input of no
   bytes is read twice, the second time from a null pointer. Both functions of the
   generator are tried on each of its lines. With a number as its
   argument it asks that the strongest window was refused so often, by each of 12, 9
   and 13, and met 7, 8 and 9 frames so often, and 4,096 frames at all; and likewise of
   the generator's faults, alone and together, and of its room and frames. */
#include "relay.h"

#include <stdio.h>
#include <stdlib.h>
#include <string.h>

enum { MOST = FRAME_CELLS * (MOST_FRAMES + 1), OLD = 0xEE, MASKS = 64 };

static long line = 1;
static long pairs = 0;
static long without_bytes = 0;
/* Calls of the strongest window: refused ones by number, and by frames, whatever
   they answered, but of 4,096 frames only those that were accepted. */
static long strongest_refused[REFUSED_TOO_FEW + 1];
static long strongest_frames[MOST_FRAMES + 1];

/* Calls of the generator by their faults, which go together in any way. */
enum { FAULT_EVEN = 1, FAULT_RANGE = 2, FAULT_NO_ROOM = 4, FAULTS = 8 };
static long generator_faults[FAULTS];
/* Accepted ones, by frames, by room, and by the place of the only odd number. Then those
   to which one cell is missing and nothing else. */
static long generator_frames[MOST_FRAMES + 1];
static long generator_exact, generator_more;
static long generator_odd_at[GENERATOR_GIVEN];
static long generator_cell_short;

static void differs(const char *what)
{
    printf("line %ld: %s differs\n", line, what);
    exit(1);
}

static long take(void)
{
    long number;
    if (scanf("%ld", &number) != 1)
        differs("shape of the line");
    return number;
}

static size_t take_size(void)
{
    long size = take();
    if (size < 0 || size > MOST)
        differs("size");
    return (size_t)size;
}

static void take_levels(uint16_t drop[CHANNELS], uint16_t pickup[CURRENTS], uint8_t restraint[CURRENTS])
{
    for (int c = 0; c < CHANNELS; c++)
        drop[c] = (uint16_t)take();
    for (int c = 0; c < CURRENTS; c++)
        pickup[c] = (uint16_t)take();
    for (int c = 0; c < CURRENTS; c++)
        restraint[c] = (uint8_t)take();
}

static struct lengths take_lengths(void)
{
    struct lengths lengths;
    lengths.loss = (uint8_t)take();
    lengths.over = (uint8_t)take();
    return lengths;
}

static void take_relay(struct relay *relay)
{
    memset(relay, 0, sizeof *relay);
    take_levels(relay->drop, relay->pickup, relay->restraint);
    relay->lengths = take_lengths();
    relay->age = (uint8_t)take();
    relay->slot = (uint8_t)take();
    relay->device_on = take() != 0;
    for (int c = 0; c < CHANNELS; c++) {
        struct channel *channel = &relay->channels[c];
        for (int k = 0; k < SLOTS; k++)
            channel->samples[k] = (int16_t)take();
        channel->loss_run = (uint8_t)take();
        channel->over_run = (uint8_t)take();
        channel->loss_latch = take() != 0;
        channel->over_latch = take() != 0;
    }
}

static void same_number(long number)
{
    if (take() != number)
        differs("number");
}

static void same_relay(const struct relay *relay)
{
    /* The structs have no padding: the sizes are the sums of the fields' sizes.
       device_on is the last of 146 bytes. */
    _Static_assert(sizeof(bool) == 1 && sizeof(struct channel) == SLOTS * 2 + 4, "no padding");
    _Static_assert(sizeof(struct lengths) == 2, "no padding");
    _Static_assert(sizeof(struct relay) == CHANNELS * (20 + 2) + CURRENTS * (2 + 1) + 2 + 3, "no padding");
    struct relay expected;
    take_relay(&expected);
    if (memcmp(relay, &expected, sizeof expected) != 0)
        differs("relay");
}

static void check_fresh(void)
{
    uint16_t drop[CHANNELS], pickup[CURRENTS];
    uint8_t restraint[CURRENTS];
    struct relay relay;
    take_levels(drop, pickup, restraint);
    struct lengths lengths = take_lengths();
    memset(&relay, 1, sizeof relay);
    same_number(relay_fresh(&relay, drop, pickup, restraint, lengths));
    same_relay(&relay);
}

static void check_frame(void)
{
    struct relay relay;
    struct framed answer = {{9, 9, 9, 9, 9, 9}, 9};
    uint16_t codes[CHANNELS];
    take_relay(&relay);
    for (int c = 0; c < CHANNELS; c++)
        codes[c] = (uint16_t)take();
    uint8_t enable = (uint8_t)take();
    same_number(relay_frame(&relay, codes, enable, &answer));
    same_relay(&relay);
    for (int c = 0; c < CHANNELS; c++)
        if (take() != answer.amplitudes[c])
            differs("amplitude");
    if (take() != answer.output)
        differs("output");
}

static struct relay pressed(struct relay relay, uint8_t mask)
{
    if (relay_reset(&relay, mask) != 0)
        differs("number of a stroke");
    return relay;
}

/* Paper 2 on a sound relay: this mask and each other one, in either order and at
   once, and each mask twice. */
static void check_strokes(struct relay relay, uint8_t a)
{
    struct relay after = pressed(relay, a);
    for (uint8_t b = 0; b < MASKS; b++) {
        struct relay other = pressed(relay, b);
        struct relay at_once = pressed(relay, a | b);
        struct relay a_then_b = pressed(after, b);
        struct relay b_then_a = pressed(other, a);
        struct relay twice = pressed(other, b);
        if (memcmp(&a_then_b, &at_once, sizeof at_once) != 0 || memcmp(&b_then_a, &at_once, sizeof at_once) != 0)
            differs("relay after two strokes");
        if (memcmp(&twice, &other, sizeof other) != 0)
            differs("relay after the same mask twice");
        pairs++;
    }
}

static void check_reset(void)
{
    struct relay relay;
    take_relay(&relay);
    uint8_t mask = (uint8_t)take();
    struct relay given = relay;
    int number = relay_reset(&relay, mask);
    same_number(number);
    same_relay(&relay);
    if (number == 0)
        check_strokes(given, mask);
}

static void check_change(void)
{
    uint16_t drop[CHANNELS], pickup[CURRENTS];
    uint8_t restraint[CURRENTS];
    struct relay relay;
    take_relay(&relay);
    take_levels(drop, pickup, restraint);
    same_number(relay_change(&relay, drop, pickup, restraint));
    same_relay(&relay);
}

/* Buffers are of the exact size, so that a sanitizer sees a step too far. */
static void *exactly(size_t size)
{
    void *memory = malloc(size ? size : 1);
    if (!memory)
        differs("memory");
    return memory;
}

static uint8_t *take_bytes(size_t *size)
{
    *size = take_size();
    uint8_t *bytes = exactly(*size);
    for (size_t i = 0; i < *size; i++)
        bytes[i] = (uint8_t)take();
    return bytes;
}

static uint16_t *take_cells(size_t *size)
{
    *size = take_size();
    uint16_t *cells = exactly(*size * sizeof *cells);
    for (size_t i = 0; i < *size; i++)
        cells[i] = (uint16_t)take();
    return cells;
}

static void check_read(void)
{
    size_t size, count = 9;
    uint8_t *bytes = take_bytes(&size);
    size_t room = take_size();
    uint16_t *cells = exactly(room * sizeof *cells);
    for (size_t i = 0; i < room; i++)
        cells[i] = OLD;
    int number = capture_read(bytes, size, cells, room, &count);
    if (size == 0) {
        size_t again = 9;
        if (capture_read(NULL, 0, room ? cells : NULL, room, &again) != number || again != count)
            differs("second reading of no bytes");
        without_bytes++;
    }
    same_number(number);
    same_number((long)count);
    for (size_t i = 0; i < room; i++)
        if (take() != cells[i])
            differs("cell");
    free(bytes);
    free(cells);
}

static void check_write(void)
{
    size_t size, count = 9;
    uint16_t *cells = take_cells(&size);
    size_t room = take_size();
    uint8_t *bytes = exactly(room);
    memset(bytes, OLD, room);
    same_number(capture_write(cells, size, bytes, room, &count));
    same_number((long)count);
    for (size_t i = 0; i < room; i++)
        if (take() != bytes[i])
            differs("byte");
    free(cells);
    free(bytes);
}

static void check_strongest(void)
{
    size_t size, frame = 9;
    uint32_t sum = 9;
    uint16_t *cells = take_cells(&size);
    unsigned channel = (unsigned)take();
    int number = capture_strongest(cells, size, channel, &sum, &frame);
    same_number(number);
    same_number((long)sum);
    same_number((long)frame);
    strongest_refused[number]++;
    size_t frames = size / FRAME_CELLS;
    if (frames < MOST_FRAMES || (frames == MOST_FRAMES && number == 0))
        strongest_frames[frames]++;
    free(cells);
}

static void count_generator(const uint32_t given[GENERATOR_GIVEN], size_t frames, size_t room)
{
    size_t odd = 0, odd_at = 0;
    for (size_t i = 0; i < GENERATOR_GIVEN; i++) {
        if (given[i] % 2 == 1) {
            odd++;
            odd_at = i;
        }
    }
    bool fits = frames <= room / FRAME_CELLS;
    int faults = (odd == 0 ? FAULT_EVEN : 0) | (frames > MOST_FRAMES ? FAULT_RANGE : 0) | (fits ? 0 : FAULT_NO_ROOM);
    generator_faults[faults]++;
    generator_cell_short += faults == FAULT_NO_ROOM && room + 1 == frames * FRAME_CELLS;
    if (faults == 0) {
        generator_frames[frames]++;
        generator_exact += room == frames * FRAME_CELLS;
        generator_more += room > frames * FRAME_CELLS;
        generator_odd_at[odd_at] += odd == 1;
    }
}

typedef int generator(const uint32_t given[GENERATOR_GIVEN], size_t frames, uint16_t *cells, size_t room,
                      size_t *count);

/* The answer is number, count and cells, as the trace has them. */
static void try_generator(generator *make, const uint32_t given[GENERATOR_GIVEN], size_t frames, size_t room,
                          const long *answer)
{
    size_t count = 9;
    uint16_t *cells = exactly(room * sizeof *cells);
    for (size_t i = 0; i < room; i++)
        cells[i] = OLD;
    int number = make(given, frames, cells, room, &count);
    if (room == 0) {
        size_t again = 9;
        if (make(given, frames, NULL, 0, &again) != number || again != count)
            differs("second making into no cells");
    }
    if (answer[0] != number || answer[1] != (long)count)
        differs("number");
    for (size_t i = 0; i < room; i++)
        if (answer[2 + i] != cells[i])
            differs("made cell");
    free(cells);
}

static void check_generator(void)
{
    uint32_t given[GENERATOR_GIVEN];
    for (size_t i = 0; i < GENERATOR_GIVEN; i++)
        given[i] = (uint32_t)take();
    size_t frames = (size_t)take();
    size_t room = take_size();
    long *answer = exactly((2 + room) * sizeof *answer);
    for (size_t i = 0; i < 2 + room; i++)
        answer[i] = take();
    try_generator(generator_make, given, frames, room, answer);
    try_generator(generator_make_plain, given, frames, room, answer);
    count_generator(given, frames, room);
    free(answer);
}

/* Whether the trace asked enough of the generator. Too many frames are long where there
   is room for them, so those calls are few. */
static void check_generator_counts(long least)
{
    const long *by = generator_faults, *of = generator_frames;
    for (int faults = 0; faults < FAULTS; faults++) {
        bool is_long = (faults & FAULT_RANGE) && !(faults & FAULT_NO_ROOM);
        if (by[faults] < (is_long ? least / 50 : least))
            differs("count of the generator's faults");
    }
    if (of[0] < least || of[MOST_FRAMES - 1] < least / 50 || of[MOST_FRAMES] < least / 50)
        differs("count of frames of the generator");
    if (generator_exact < least || generator_more < least || generator_cell_short < least / 5)
        differs("count of the generator's room");
    for (size_t i = 0; i < GENERATOR_GIVEN; i++)
        if (generator_odd_at[i] < least / 50)
            differs("count of single odd numbers");
}

/* Whether the trace asked enough of the strongest window. */
static void check_counts(long least)
{
    const long *by = strongest_refused, *of = strongest_frames;
    if (by[REFUSED_SHAPE] < least || by[REFUSED_RANGE] < least || by[REFUSED_TOO_FEW] < least)
        differs("count of refused strongest windows");
    if (of[7] < least || of[8] < least || of[9] < least || (least > 0 && of[MOST_FRAMES] == 0))
        differs("count of frames of strongest windows");
}

static void check_estimate(void)
{
    int16_t samples[SLOTS];
    uint16_t amplitude = 9;
    for (int k = 0; k < SLOTS; k++)
        samples[k] = (int16_t)take();
    uint8_t order = (uint8_t)take();
    same_number(relay_estimate(samples, order, &amplitude));
    if (take() != amplitude)
        differs("amplitude");
}

int main(int argc, char **argv)
{
    int kind;
    for (; scanf("%d", &kind) == 1; line++) {
        switch (kind) {
        case 1: check_fresh(); break;
        case 2: check_frame(); break;
        case 3: check_reset(); break;
        case 4: check_read(); break;
        case 5: check_write(); break;
        case 6: check_strongest(); break;
        case 7: check_estimate(); break;
        case 8: check_change(); break;
        case 9: check_generator(); break;
        default: differs("kind");
        }
    }
    if (!feof(stdin) || line == 1)
        differs("end");
    long least = argc > 1 ? atol(argv[1]) : 0;
    check_counts(least);
    check_generator_counts(least);
    printf("%ld calls agree, %ld pairs of strokes, %ld readings of no bytes, ", line - 1, pairs, without_bytes);
    printf("strongest of 7, 8, 9 and %d frames: %ld, %ld, %ld and %ld, ", MOST_FRAMES, strongest_frames[7],
           strongest_frames[8], strongest_frames[9], strongest_frames[MOST_FRAMES]);
    printf("refused by 12, 9 and 13: %ld, %ld and %ld, ", strongest_refused[REFUSED_SHAPE],
           strongest_refused[REFUSED_RANGE], strongest_refused[REFUSED_TOO_FEW]);
    const long *by = generator_faults;
    printf("generator accepted %ld, with faults 24, 9 and 11: %ld, %ld and %ld, ", by[0], by[FAULT_EVEN],
           by[FAULT_RANGE], by[FAULT_NO_ROOM]);
    printf("with 24 and 9, 24 and 11, 9 and 11, all three: %ld, %ld, %ld and %ld, ", by[FAULT_EVEN | FAULT_RANGE],
           by[FAULT_EVEN | FAULT_NO_ROOM], by[FAULT_RANGE | FAULT_NO_ROOM], by[FAULTS - 1]);
    printf("no frames %ld, %d frames %ld, just enough room %ld, more %ld, a cell short %ld\n", generator_frames[0],
           MOST_FRAMES, generator_frames[MOST_FRAMES], generator_exact, generator_more, generator_cell_short);
    return 0;
}
