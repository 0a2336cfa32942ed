/* Six-channel phasor relay, after document 01 and Papers 3, 4, 5, 6, 8, 9
   and 12 of document 02. Every function answers the document's refusal number, 0 if the
   call is accepted. */
#ifndef RELAY_H
#define RELAY_H

#include <stdbool.h>
#include <stddef.h>
#include <stdint.h>

enum {
    CHANNELS = 6,
    FIRST_CURRENT = 3,
    CURRENTS = 3,
    SLOTS = 8,
    HIGHEST_LEVEL = 10700,
    HIGHEST_RESTRAINT = 100,
    HIGHEST_ORDER = 3,
    FULL_AGE = 72,
    HIGHEST_LENGTH = 24,
    FRAME_CELLS = 7,
    MOST_FRAMES = 4096,
    LONGEST_CAPTURE = 53253,
    GENERATOR_GIVEN = 55
};

enum {
    REFUSED_SETTING = 1,
    REFUSED_NOT_SOUND,
    REFUSED_CODE,
    REFUSED_ENABLE,
    REFUSED_MASK,
    REFUSED_MARK,
    REFUSED_SECOND_BYTE,
    REFUSED_ENDS_EARLY,
    REFUSED_RANGE,
    REFUSED_TAIL,
    REFUSED_NO_ROOM,
    REFUSED_SHAPE,
    REFUSED_TOO_FEW,
    REFUSED_ESTIMATE = 19,
    REFUSED_RESTRAINT,
    REFUSED_LENGTH,
    REFUSED_EVEN = 24
};

/* How many frames a full run has. */
struct lengths {
    uint8_t loss;
    uint8_t over;
};

struct channel {
    int16_t samples[SLOTS];
    uint8_t loss_run;
    uint8_t over_run;
    bool loss_latch;
    bool over_latch;
};

struct relay {
    struct channel channels[CHANNELS];
    uint16_t drop[CHANNELS];
    uint16_t pickup[CURRENTS];
    uint8_t restraint[CURRENTS];
    struct lengths lengths;
    uint8_t age;
    uint8_t slot;
    bool device_on; /* bit 6 of the latest accepted frame; fresh, it is on */
};

struct framed {
    uint16_t amplitudes[CHANNELS];
    uint8_t output;
};

/* Refused, the amplitude is 0. Order 1 is the fundamental. */
int relay_estimate(const int16_t samples[SLOTS], uint8_t order, uint16_t *amplitude);

/* Refused, the relay becomes all zero. Restraint 0 is off. */
int relay_fresh(struct relay *relay, const uint16_t drop[CHANNELS], const uint16_t pickup[CURRENTS],
                const uint8_t restraint[CURRENTS], struct lengths lengths);

/* Refused, the relay stays as it is and the answer is all zero. */
int relay_frame(struct relay *relay, const uint16_t codes[CHANNELS], uint8_t enable, struct framed *answer);

int relay_reset(struct relay *relay, uint8_t mask);

/* New levels, all of them. A run whose own level gets another value becomes 0;
   all else carries over, the lengths too. Refused, the relay stays as it is. */
int relay_change(struct relay *relay, const uint16_t drop[CHANNELS], const uint16_t pickup[CURRENTS],
                 const uint8_t restraint[CURRENTS]);

/* Refused, cells or bytes stay as they are and the count is 0. Reading counts
   frames, writing counts bytes. No bytes are read as zero frames; then `bytes`
   may be NULL, as `cells` may where room is 0. */
int capture_read(const uint8_t *bytes, size_t size, uint16_t *cells, size_t room, size_t *count);
int capture_write(const uint16_t *cells, size_t size, uint8_t *bytes, size_t room, size_t *count);

/* Refused, sum and frame are 0. */
int capture_strongest(const uint16_t *cells, size_t size, unsigned channel, uint32_t *sum, size_t *frame);

/* Frames made from 55 numbers, oldest first. It counts frames. Refused, by 24, 9 or
   11 in this order, the cells stay as they are and the count is 0. Where no frames are
   asked for, `cells` may be NULL. */
int generator_make(const uint32_t given[GENERATOR_GIVEN], size_t frames, uint16_t *cells, size_t room, size_t *count);

/* The same in plain C. */
int generator_make_plain(const uint32_t given[GENERATOR_GIVEN], size_t frames, uint16_t *cells, size_t room,
                         size_t *count);

#endif
