/* How much stack each call needs. It runs on a stack of its own that was painted before; the depth to which the
 * paint is gone is what it took. Calls of every kind are made, accepted and refused, the longest capture among them.
 * It says the most that each took, and fails where that is more than export.h says. */
#define _XOPEN_SOURCE 700 /* for ucontext.h */
#include "export.h"

#include <stdio.h>
#include <string.h>
#include <ucontext.h>

static _Alignas(16) uint8_t stack[1 << 17];

/* The depth to which a function touches its stack, by one paint. */
static size_t depth(void (*function)(void), uint8_t paint)
{
    static ucontext_t back, there;
    memset(stack, paint, sizeof stack);
    if (getcontext(&there) != 0)
        return sizeof stack;
    there.uc_stack.ss_sp = stack;
    there.uc_stack.ss_size = sizeof stack;
    there.uc_link = &back;
    makecontext(&there, function, 0);
    if (swapcontext(&back, &there) != 0)
        return sizeof stack;
    size_t low = 0;
    while (low < sizeof stack && stack[low] == paint)
        low++;
    return sizeof stack - low;
}

/* What the calls are handed and what they answer. Each has a function that does nothing else. */
static p6k_settings settings;
static p6k_levels levels;
static p6k_relay relay;
static p6k_codes codes;
static p6k_samples samples;
static p6k_numbers given;
static uint8_t enable, mask, order;
static uint16_t cells[P6K_READ_ROOM];
static uint8_t bytes[P6K_WRITE_ROOM + 1], text[P6K_REPORT_ROOM];
static size_t cells_length, bytes_length, text_length, first, count, channel;

static p6k_fresh_answer made;
static p6k_frame_answer framed;
static p6k_reset_answer cleared;
static p6k_change_answer changed;
static p6k_estimate_answer estimated;
static p6k_answer taken, written, generated;
static p6k_part part;
static p6k_strongest_window window;
static size_t reported;

static void make(void) { made = p6k_fresh(settings); }
static void frame(void) { framed = p6k_frame(relay, codes, enable); }
static void reset(void) { cleared = p6k_reset(relay, mask); }
static void change(void) { changed = p6k_change(relay, levels); }
static void estimate(void) { estimated = p6k_estimate(samples, order); }
static void read_cells(void) { taken = p6k_read(bytes, bytes_length, cells, cells_length); }
static void write_bytes(void) { written = p6k_write(cells, cells_length, bytes, bytes_length); }
static void excerpt(void) { part = p6k_excerpt(cells, cells_length, first, count); }
static void search(void) { window = p6k_strongest(cells, cells_length, channel); }
static void generate(void) { generated = p6k_generate(given, count, cells, cells_length); }
static void report(void) { reported = p6k_report(bytes, bytes_length, text, text_length); }

/* It takes 10,000 bytes and little more: that depths are found at all. */
static void known(void)
{
    volatile uint8_t room[10000];
    for (size_t k = 0; k < sizeof room; k++)
        room[k] = 1;
}

enum { FRESH, FRAME, RESET, CHANGE, ESTIMATE, READ, WRITE, EXCERPT, STRONGEST, GENERATE, REPORT, KNOWN, CALLS };
static const struct {
    const char *name;
    void (*call)(void);
    size_t most; /* what export.h says */
} row[CALLS] = {
    {"fresh", make, P6K_FRESH_STACK},
    {"frame", frame, P6K_FRAME_STACK},
    {"reset", reset, P6K_RESET_STACK},
    {"change", change, P6K_CHANGE_STACK},
    {"estimate", estimate, P6K_ESTIMATE_STACK},
    {"read", read_cells, P6K_READ_STACK},
    {"write", write_bytes, P6K_WRITE_STACK},
    {"excerpt", excerpt, P6K_EXCERPT_STACK},
    {"strongest", search, P6K_STRONGEST_STACK},
    {"generate", generate, P6K_GENERATE_STACK},
    {"report", report, P6K_REPORT_STACK},
    {"known", known, 10256},
};
static size_t deepest[CALLS];
static unsigned refusals[P6K_ALL_EVEN + 1], refusals_of_changes[P6K_ALL_EVEN + 1];

/* Two paints, since a byte that was written may be the paint of one. The call goes first on the program's own stack,
 * for a dynamic linker's look-up. */
static void measure(int k)
{
    const uint8_t paints[2] = {0xA5, 0x5A};
    row[k].call();
    for (int i = 0; i < 2; i++) {
        size_t found = depth(row[k].call, paints[i]);
        if (deepest[k] < found)
            deepest[k] = found;
    }
}

/* A frame, a reset, and changes to levels that are equal, that differ in some places or in all, and that are wrong. */
static void calls_on_the_relay(unsigned n)
{
    measure(FRAME);
    refusals[framed.refusal]++;
    measure(RESET);
    refusals[cleared.refusal]++;
    for (int kind = 0; kind < 5; kind++) {
        levels = relay.settings.levels;
        for (unsigned c = 0; c < 6; c++)
            levels.drop[c] = (uint16_t)(levels.drop[c] + (kind == 1 ? n >> c & 1 : kind >= 2));
        for (unsigned c = 0; c < 3; c++) {
            levels.pickup[c] = (uint16_t)(levels.pickup[c] + (kind == 1 ? n >> (c + 3) & 1 : kind >= 2));
            levels.restraint[c] = (uint8_t)(levels.restraint[c] + (kind == 1 ? n >> (c + 5) & 1 : kind >= 2));
        }
        if (kind == 3)
            levels.pickup[2] = 0;
        if (kind == 4)
            levels.restraint[2] = 101;
        measure(CHANGE);
        refusals_of_changes[changed.refusal]++;
    }
}

/* Relays without restraint and with it, and of some lengths, that are fresh, settled, tripped, settling again and not
 * sound, and what refuses a frame, a reset or a change. */
static void relays(uint8_t restraint, uint8_t loss, uint8_t over)
{
    settings.lengths.loss = loss;
    settings.lengths.over = over;
    for (int c = 0; c < 6; c++)
        settings.levels.drop[c] = 819;
    for (int c = 0; c < 3; c++) {
        settings.levels.pickup[c] = 3413;
        settings.levels.restraint[c] = restraint;
    }
    measure(FRESH);
    relay = made.relay;
    for (unsigned n = 0; n < 200; n++) {
        for (unsigned c = 0; c < 6; c++)
            codes.codes[c] = (uint16_t)(n % 8 < 4 ? 1023 : 0);
        enable = n % 100 == 50 ? 0 : 0x7F;
        mask = (uint8_t)(n % 64);
        calls_on_the_relay(n);
        relay = framed.relay;
    }
    enable = 0x80;
    mask = 0x40;
    calls_on_the_relay(0);
    codes.codes[5] = 1024;
    calls_on_the_relay(0);
    relay.channels[5].samples[7] = 512;
    calls_on_the_relay(0);
    settings.lengths.over = 25;
    measure(FRESH);
    refusals[made.refusal]++;
    settings.levels.restraint[2] = 101;
    measure(FRESH);
    refusals[made.refusal]++;
    settings.levels.pickup[2] = 0;
    measure(FRESH);
    refusals[made.refusal]++;
}

/* Windows of all orders, the greatest and a wrong one among them. */
static void estimates(void)
{
    for (order = 0; order < 5; order++)
        for (int k = 0; k < 256; k++)
            for (int wrong = 0; wrong < 2; wrong++) {
                for (int slot = 0; slot < 8; slot++)
                    samples.samples[slot] = (int16_t)(k >> slot & 1 ? 511 : -512);
                if (wrong)
                    samples.samples[k % 8] = 512;
                measure(ESTIMATE);
                refusals[estimated.refusal]++;
            }
}

/* A capture that was written: whole, a byte long, a byte short, and damaged in its mark, its count and its first
 * change; with all room and with none. */
static void read_and_report(void)
{
    const size_t place[4] = {0, 2, 3, 6};
    for (int k = 0; k < 7; k++) {
        uint8_t old = 0;
        bytes_length = written.count + (k == 1) - (k == 2);
        if (k >= 3) {
            old = bytes[place[k - 3]];
            bytes[place[k - 3]] = k == 5 ? 0xFF : 0x80;
        }
        for (int room = 0; room < 2; room++) {
            cells_length = room ? P6K_READ_ROOM : 0;
            text_length = room ? P6K_REPORT_ROOM : 0;
            measure(REPORT);
            measure(READ);
            refusals[taken.refusal]++;
        }
        if (k >= 3)
            bytes[place[k - 3]] = old;
    }
}

/* Cells of 0 to 4,096 frames, in shape and not, in range and not. */
static void captures(void)
{
    const size_t lengths[8] = {0, 1, 7, 49, 56, 63, 1008, P6K_READ_ROOM};
    for (int i = 0; i < 8; i++) {
        for (size_t k = 0; k < P6K_READ_ROOM; k++)
            cells[k] = k % P6K_FRAME_CELLS == 6 ? 0x7F : k / P6K_FRAME_CELLS % 2 == 0 ? 1023 : 0;
        for (int wrong = 0; wrong < 2; wrong++) {
            cells_length = lengths[i];
            cells[0] = wrong ? 1024 : 1023;
            for (channel = 0; channel < 7; channel++) {
                measure(STRONGEST);
                refusals[window.refusal]++;
            }
            for (first = 0; first < 12; first++) {
                count = 11 - first;
                measure(EXCERPT);
            }
            bytes_length = 3;
            measure(WRITE);
            refusals[written.refusal]++;
            bytes_length = P6K_WRITE_ROOM;
            measure(WRITE);
            refusals[written.refusal]++;
            if (written.refusal == P6K_ACCEPTED)
                read_and_report();
        }
    }
}

/* 0 to 4,097 frames, with an odd number and without, with room and without. The row of kept numbers holds those of 67
 * frames and is moved to the front at 68, and again at 132. */
static void waveforms(void)
{
    const size_t frames[9] = {0, 1, 4, 64, 67, 68, 132, 4096, 4097};
    for (uint32_t odd = 0; odd < 2; odd++)
        for (int i = 0; i < 9; i++)
            for (int room = 0; room < 2; room++) {
                for (uint32_t k = 0; k < 55; k++)
                    given.numbers[k] = ((k + 1) << 26) + odd;
                count = frames[i];
                cells_length = room ? P6K_READ_ROOM : 0;
                measure(GENERATE);
                refusals[generated.refusal]++;
            }
}

/* Some call answers with this number: 14 to 16, 18, 22 and 23 are of requests that have not landed, 17 is of none. */
static bool in_use(int n)
{
    return n <= P6K_FEW_FRAMES || (n >= P6K_BAD_ESTIMATE && n <= P6K_BAD_LENGTH) || n == P6K_ALL_EVEN;
}

int main(void)
{
    int failed = 0;
    relays(0, 16, 4);
    relays(15, 16, 4);
    relays(15, 1, 24);
    estimates();
    captures();
    waveforms();
    measure(KNOWN);
    if (deepest[KNOWN] < 10000) {
        puts("failed: the depths are not measured");
        failed = 1;
    }
    for (int n = P6K_ACCEPTED; n <= P6K_ALL_EVEN; n++)
        if (refusals[n] == 0 && in_use(n)) {
            printf("failed: no call was answered with %d\n", n);
            failed = 1;
        }
    const int of_changes[4] = {P6K_ACCEPTED, P6K_BAD_SETTING, P6K_UNSOUND_RELAY, P6K_BAD_RESTRAINT};
    for (int k = 0; k < 4; k++)
        if (refusals_of_changes[of_changes[k]] == 0) {
            printf("failed: no change was answered with %d\n", of_changes[k]);
            failed = 1;
        }
    for (int k = 0; k < CALLS; k++)
        if (deepest[k] > row[k].most) {
            printf("failed: %s took %zu bytes of stack, and no more than %zu are said\n", row[k].name, deepest[k],
                   row[k].most);
            failed = 1;
        }
    printf("c/stack.c:");
    for (int k = 0; k < KNOWN; k++)
        printf(" %s %zu", row[k].name, deepest[k]);
    puts(failed ? ": failed" : ": ok");
    return failed;
}
