/* The proved six-channel phasor relay, for C: link crates/export/out/libexport.a, which `rt lib` in crates/export makes.
 *
 * Every function is total: its contract, proved, says the whole answer for whatever values it is handed, refusals
 * included. An answer's `refusal` is one of p6k_refusal; where several checks fail, the first in the order that the
 * call names gives it.
 *
 * What the caller owes, since nothing checks it at run time and no promise holds without it:
 *  - a pointer with a length points to at least so many elements, is aligned for its type, and is not NULL, also where
 *    the length is 0;
 *  - what is lent for writing (a pointer without `const`) overlaps no other argument of the call;
 *  - a bool is 0 or 1: a relay that was read from elsewhere, byte by byte, has to be looked at first;
 *  - the program is compiled for x86-64 with the System V calling convention, as the archive is.
 * The functions keep nothing between calls, allocate nothing and may be called from several threads at once. Of the C
 * library they need memcpy, and p6k_generate memset too. What an answer's padding holds is not promised: p6k_relay has
 * a byte of it before its settings, and p6k_levels ends in one, so relays are compared field by field.
 *
 * This file is written by hand. c/calls.c checks sizes, places of fields and the numbers, c/stack.c the stack, and
 * the tests each function's answers. */
#ifndef EXPORT_H
#define EXPORT_H

#include <stdbool.h>
#include <stddef.h>
#include <stdint.h>

#ifdef __cplusplus
extern "C" {
#endif

/* The refusal of an answer: the numbers of document 01's table, and document 02's. */
enum p6k_refusal {
    P6K_ACCEPTED = 0,
    P6K_BAD_SETTING = 1,     /* a setting outside 1 to 10,700 */
    P6K_UNSOUND_RELAY = 2,   /* relay not sound */
    P6K_BAD_CODE = 3,        /* a code above 1023 */
    P6K_BAD_ENABLE = 4,      /* enable bit 7 is 1 */
    P6K_BAD_MASK = 5,        /* reset mask bit 6 or 7 is 1 */
    P6K_MARK_DIFFERS = 6,    /* a mark byte differs */
    P6K_BAD_SECOND_BYTE = 7, /* second byte is 0 or has its top bit set */
    P6K_ENDS_EARLY = 8,      /* capture ends early */
    P6K_OUT_OF_RANGE = 9,    /* frame count, code or enable byte out of range */
    P6K_BYTES_AFTER = 10,    /* bytes after the last frame */
    P6K_DOES_NOT_FIT = 11,   /* answer does not fit */
    P6K_WRONG_SHAPE = 12,    /* cells no multiple of seven, or channel above 5 */
    P6K_FEW_FRAMES = 13,     /* fewer than eight frames */
    P6K_BAD_ESTIMATE = 19,   /* an order outside 1 to 3, or a window sample outside -512 to 511 */
    P6K_BAD_RESTRAINT = 20,  /* a restraint level above 100 */
    P6K_BAD_LENGTH = 21,     /* a run length outside 1 to 24 */
    P6K_ALL_EVEN = 24        /* the numbers that a test waveform starts from are all even */
};

#define P6K_FRAME_CELLS 7      /* the cells of a frame: six codes, then the enable byte */
#define P6K_READ_ROOM 28672    /* cells that hold every capture, of 4,096 frames at most */
#define P6K_WRITE_ROOM 53253   /* bytes that hold every capture */
#define P6K_REPORT_ROOM 184332 /* bytes that hold every report */

/* The stack that a call needs at most, in bytes, with arguments and answer that pass by value. Measured by c/stack.c:
 * calls of every kind on a painted stack; none takes more than its number here, and the gate fails where one does. A
 * dynamic linker's first look-up of memcpy or memset and what interrupts the call are not counted. */
#define P6K_FRESH_STACK 512
#define P6K_FRAME_STACK 1536
#define P6K_RESET_STACK 1024
#define P6K_CHANGE_STACK 1024
#define P6K_ESTIMATE_STACK 512
#define P6K_READ_STACK 512
#define P6K_WRITE_STACK 256
#define P6K_EXCERPT_STACK 256
#define P6K_STRONGEST_STACK 256
#define P6K_GENERATE_STACK 2560
#define P6K_REPORT_STACK 1536

/* Channels 0, 1, 2 are voltages; 3, 4, 5 are currents. A voltage has no over run and no over latch: 0 and false. */
typedef struct {
    int16_t samples[8]; /* by slot, -512 to 511 */
    uint8_t loss_run;   /* 0 to the relay's loss length */
    uint8_t over_run;   /* 0 to the relay's over length */
    bool loss_latch;
    bool over_latch;
} p6k_channel;

/* What a dispatcher can change. Levels in sixteenths of a code, 1 to 10,700: a drop for each channel, a pickup for each
 * current. And a restraint level for each current, in hundredths: a frame feeds the over run only if the second
 * harmonic's amplitude is less than so many hundredths of the fundamental's. */
typedef struct {
    uint16_t drop[6];
    uint16_t pickup[3];
    uint8_t restraint[3]; /* 0 off, or 1 to 100 */
} p6k_levels;

/* How many successive counted frames make a full run and turn the latch on, 1 to 24: one pair for the device, fixed
 * when it is made. Either may be the greater. The bench program has 16 and 4. */
typedef struct {
    uint8_t loss;
    uint8_t over;
} p6k_lengths;

/* All that a relay is made with. */
typedef struct {
    p6k_levels levels;
    p6k_lengths lengths;
} p6k_settings;

/* The relay goes in and comes back by value; the caller keeps it. */
typedef struct {
    p6k_channel channels[6];
    uint8_t age;    /* 0 to 72 */
    uint8_t slot;   /* 0 to 7 */
    bool device_on; /* bit 6 of the latest accepted frame's enable byte; true in a fresh relay */
    p6k_settings settings;
} p6k_relay;

/* Six codes, 0 to 1023, in channel order. */
typedef struct {
    uint16_t codes[6];
} p6k_codes;

/* Eight samples, -512 to 511, by slot. */
typedef struct {
    int16_t samples[8];
} p6k_samples;

/* The 55 numbers that a test waveform starts from, the oldest first. */
typedef struct {
    uint32_t numbers[55];
} p6k_numbers;

typedef struct {
    p6k_relay relay;
    uint8_t refusal;
} p6k_fresh_answer;

typedef struct {
    p6k_relay relay;
    uint8_t refusal;
    uint16_t amplitudes[6]; /* in sixteenths of a code */
    uint8_t output;         /* bit c: channel c has a latch on and is enabled in this frame */
} p6k_frame_answer;

typedef struct {
    p6k_relay relay;
    uint8_t refusal;
} p6k_reset_answer;

typedef struct {
    p6k_relay relay;
    uint8_t refusal;
} p6k_change_answer;

typedef struct {
    uint8_t refusal;
    uint16_t amplitude; /* in sixteenths of a code */
} p6k_estimate_answer;

/* count: frames for p6k_read and p6k_generate, bytes for p6k_write. */
typedef struct {
    uint8_t refusal;
    size_t count;
} p6k_answer;

typedef struct {
    uint8_t refusal;
    uint32_t sum;
    size_t frame;
} p6k_strongest_window;

/* A part of the caller's own cells, counted in cells: cells[start] to cells[start + length - 1]. */
typedef struct {
    size_t start;
    size_t length;
} p6k_part;

/* A fresh relay. Checks 1, 20, 21; refused: the all-zero relay. */
p6k_fresh_answer p6k_fresh(p6k_settings settings);

/* One frame. enable: bits 0 to 5 enable channels, bit 6 the device; with bit 6 on after a frame with it off, the relay
 * settles again, from age 0. Checks 2, 3, 4; refused: the relay as given, amplitudes and output 0. */
p6k_frame_answer p6k_frame(p6k_relay relay, p6k_codes codes, uint8_t enable);

/* Clears runs and latches of the channels that mask's bits 0 to 5 name. Checks 2, 5; refused: the relay as given. */
p6k_reset_answer p6k_reset(p6k_relay relay, uint8_t mask);

/* New levels, all of them, while the relay goes on; its lengths stay. Windows, slot, age, latches and the remembered
 * bit 6 carry over. A run carries over where its own level is equal, the drop for a loss run, pickup and restraint for
 * an over run; otherwise it becomes 0. Levels changed and changed back are two changes: the run is 0. Checks 2, 1, 20;
 * refused: the relay as given. Latches and bit 6 are bools: of one that came in as a byte other than 0 or 1 nothing is
 * promised. */
p6k_change_answer p6k_change(p6k_relay relay, p6k_levels levels);

/* The amplitude of one window for an order: 1 for the fundamental, which a frame answers, 2 or 3 for that harmonic.
 * Checks 19; refused: amplitude 0. */
p6k_estimate_answer p6k_estimate(p6k_samples window, uint8_t order);

/* Reads a capture into the front of the cells. Checks 6 to 10 byte by byte, first fault first, then 11; refused:
 * count 0, the cells as lent. No bytes (bytes_length 0) are a capture of zero frames: refusal 0, count 0, the cells as
 * lent, also where there are none. They still need a pointer that is not NULL. An input whose read failed before its
 * first byte would look like a unit that has recorded nothing: look at the read before this call. */
p6k_answer p6k_read(const uint8_t *bytes, size_t bytes_length, uint16_t *cells, size_t cells_length);

/* Writes cells as a capture into the front of the bytes. Checks 12, 9, 11; refused: count 0, the bytes as lent. */
p6k_answer p6k_write(const uint16_t *cells, size_t cells_length, uint8_t *bytes, size_t bytes_length);

/* The part of the cells from a frame on, for so many frames. It has no refusal: where frame + frames exceeds the
 * frames, or the cells are no multiple of seven, it is the empty part at the start, start 0 and length 0. */
p6k_part p6k_excerpt(const uint16_t *cells, size_t cells_length, size_t frame, size_t frames);

/* The largest sum of eight squared samples of successive frames of a channel, and the first frame where it occurs.
 * Checks 12, 9, 13; refused: sum and frame 0. */
p6k_strongest_window p6k_strongest(const uint16_t *cells, size_t cells_length, size_t channel);

/* Makes so many frames of a test waveform into the front of the cells, so that two benches make one load. Each next
 * number is the sum modulo 2^32 of the numbers 24 and 55 places back; the top ten bits of six successive made numbers
 * are the codes of a frame, and its enable byte is 0x7F. Each call starts anew from the given numbers. Checks 24, 9
 * (more than 4,096 frames), 11; refused: count 0, the cells as lent. */
p6k_answer p6k_generate(p6k_numbers given, size_t frames, uint16_t *cells, size_t cells_length);

/* Puts the bench program's whole output for a capture at the front of the text and answers its length; of a refused
 * capture that is the line `refused N`, of no bytes the line `frames 0` (their pointer is not NULL either; see p6k_read
 * on a read that failed). It has no refusal: where the text is shorter than P6K_REPORT_ROOM, the answer is 0 and the
 * text is as lent. */
size_t p6k_report(const uint8_t *capture, size_t capture_length, uint8_t *text, size_t text_length);

#ifdef __cplusplus
}
#endif

#endif
