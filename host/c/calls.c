/* Uses the archive as a firmware team would: a relay is made, fed and reset, settles again after the device switch,
 * takes new levels, and counts runs of other lengths; a harmonic is measured and restrains; a recording is written,
 * read back, searched and reported; a test waveform is made, written and read back. The values are document 01's bench
 * figures and those of Paper 12's note; each refusal occurs, with all that it answers. It says `ok`, or what failed. */
#include "export.h"

#include <stdio.h>
#include <string.h>

_Static_assert(sizeof(bool) == 1 && sizeof(p6k_channel) == 20, "layout");
_Static_assert(offsetof(p6k_channel, loss_run) == 16 && offsetof(p6k_channel, over_run) == 17, "layout");
_Static_assert(offsetof(p6k_channel, loss_latch) == 18 && offsetof(p6k_channel, over_latch) == 19, "layout");
_Static_assert(sizeof(p6k_levels) == 22 && offsetof(p6k_levels, drop) == 0, "layout");
_Static_assert(offsetof(p6k_levels, pickup) == 12 && offsetof(p6k_levels, restraint) == 18, "layout");
_Static_assert(sizeof(p6k_lengths) == 2 && offsetof(p6k_lengths, loss) == 0, "layout");
_Static_assert(offsetof(p6k_lengths, over) == 1, "layout");
_Static_assert(sizeof(p6k_settings) == 24 && offsetof(p6k_settings, levels) == 0, "layout");
_Static_assert(offsetof(p6k_settings, lengths) == 22, "layout");
_Static_assert(sizeof(p6k_codes) == 12, "layout");
_Static_assert(sizeof(p6k_relay) == 148 && offsetof(p6k_relay, age) == 120, "layout");
_Static_assert(offsetof(p6k_relay, slot) == 121 && offsetof(p6k_relay, device_on) == 122, "layout");
_Static_assert(offsetof(p6k_relay, settings) == 124, "layout");
_Static_assert(sizeof(p6k_fresh_answer) == 150 && offsetof(p6k_fresh_answer, refusal) == 148, "layout");
_Static_assert(sizeof(p6k_reset_answer) == 150 && offsetof(p6k_reset_answer, refusal) == 148, "layout");
_Static_assert(sizeof(p6k_change_answer) == 150 && offsetof(p6k_change_answer, refusal) == 148, "layout");
_Static_assert(sizeof(p6k_frame_answer) == 164 && offsetof(p6k_frame_answer, refusal) == 148, "layout");
_Static_assert(offsetof(p6k_frame_answer, amplitudes) == 150 && offsetof(p6k_frame_answer, output) == 162, "layout");
_Static_assert(sizeof(p6k_samples) == 16 && sizeof(p6k_estimate_answer) == 4, "layout");
_Static_assert(offsetof(p6k_estimate_answer, amplitude) == 2, "layout");
_Static_assert(sizeof(p6k_answer) == 16 && offsetof(p6k_answer, count) == 8, "layout");
_Static_assert(sizeof(p6k_strongest_window) == 16 && offsetof(p6k_strongest_window, sum) == 4, "layout");
_Static_assert(offsetof(p6k_strongest_window, frame) == 8, "layout");
_Static_assert(sizeof(p6k_numbers) == 220 && sizeof(((p6k_numbers *)0)->numbers[0]) == 4, "layout");
_Static_assert(sizeof(p6k_part) == 16 && offsetof(p6k_part, length) == 8, "layout");

/* 4,096 frames; the mark, two bytes of the count, and for each frame the enable byte and six numbers of two bytes. */
_Static_assert(P6K_READ_ROOM == 4096 * P6K_FRAME_CELLS && P6K_WRITE_ROOM == 3 + 2 + 4096 * (1 + 6 * 2), "room");

#define CHECK(holds) do { if (!(holds)) { printf("failed: %s, line %d\n", #holds, __LINE__); return 1; } } while (0)

/* The wave of the bench figures, of amplitude 1603, on channel 3; the others are still. The second wave has a second
 * harmonic of amplitude 400 on top: 25 hundredths of 1603 are just more than that. */
static const int16_t wave[8] = {100, 71, 0, -71, -100, -71, 0, 71};
static const int16_t harmonic[8] = {125, 71, -25, -71, -75, -71, -25, 71};

static p6k_codes codes_of(const int16_t samples[8], unsigned frame)
{
    p6k_codes codes = {{512, 512, 512, 512, 512, 512}};
    codes.codes[3] = (uint16_t)(512 + samples[frame % 8]);
    return codes;
}

static p6k_codes codes_at(unsigned frame)
{
    return codes_of(wave, frame);
}

/* Without restraint, and with the bench figures' lengths. */
static p6k_settings settings_of(uint16_t drop, uint16_t pickup)
{
    p6k_settings settings = {.levels = {.restraint = {0, 0, 0}}, .lengths = {.loss = 16, .over = 4}};
    for (int c = 0; c < 6; c++)
        settings.levels.drop[c] = drop;
    for (int c = 0; c < 3; c++)
        settings.levels.pickup[c] = pickup;
    return settings;
}

/* The same with a restraint level for channel 3. */
static p6k_settings restrained(uint16_t drop, uint16_t pickup, uint8_t restraint)
{
    p6k_settings settings = settings_of(drop, pickup);
    settings.levels.restraint[0] = restraint;
    return settings;
}

/* The wave just reaches the pickups, the still channels are just below the drops; other lengths. */
static p6k_settings lasting(uint8_t loss, uint8_t over)
{
    p6k_settings settings = settings_of(1, 1603);
    settings.lengths.loss = loss;
    settings.lengths.over = over;
    return settings;
}

/* Relays are the same in all but padding: the byte before the settings and the one between levels and lengths. */
static bool same(p6k_relay a, p6k_relay b)
{
    const p6k_levels *l = &a.settings.levels, *m = &b.settings.levels;
    return memcmp(&a, &b, offsetof(p6k_relay, device_on) + sizeof a.device_on) == 0 &&
           memcmp(l, m, offsetof(p6k_levels, restraint) + sizeof l->restraint) == 0 &&
           memcmp(&a.settings.lengths, &b.settings.lengths, sizeof a.settings.lengths) == 0;
}

/* The first of 100 frames of a wave after which channel c shows in the output, 100 if none does. */
static unsigned first_trip_of(const int16_t samples[8], p6k_settings settings, int c)
{
    p6k_relay relay = p6k_fresh(settings).relay;
    for (unsigned n = 0; n < 100; n++) {
        p6k_frame_answer answer = p6k_frame(relay, codes_of(samples, n), 0x7F);
        if (answer.refusal != P6K_ACCEPTED)
            return 200;
        relay = answer.relay;
        if (answer.output >> c & 1)
            return n;
    }
    return 100;
}

static unsigned first_trip(p6k_settings settings, int c)
{
    return first_trip_of(wave, settings, c);
}

static int relays(void)
{
    CHECK(first_trip(settings_of(1, 1603), 3) == 75);
    CHECK(first_trip(settings_of(1, 1604), 3) == 100);
    CHECK(first_trip(settings_of(1, 1604), 0) == 87);

    p6k_fresh_answer refused = p6k_fresh(settings_of(0, 3413));
    p6k_relay zero;
    memset(&zero, 0, sizeof zero);
    CHECK(refused.refusal == P6K_BAD_SETTING && same(refused.relay, zero));
    CHECK(p6k_frame(zero, codes_at(0), 0x7F).refusal == P6K_UNSOUND_RELAY);
    CHECK(p6k_reset(zero, 0).refusal == P6K_UNSOUND_RELAY);

    p6k_relay relay = p6k_fresh(settings_of(1, 1603)).relay;
    for (unsigned n = 0; n < 90; n++)
        relay = p6k_frame(relay, codes_at(n), 0x7F).relay;
    p6k_frame_answer answer = p6k_frame(relay, codes_at(90), 0x7F);
    CHECK(answer.output == 0x3F && answer.amplitudes[3] == 1603 && answer.amplitudes[0] == 0);
    CHECK(p6k_frame(relay, codes_at(90), 0x77).output == 0x37);
    CHECK(p6k_frame(relay, codes_at(90), 0x3F).output == 0x00);

    p6k_codes wrong = codes_at(0);
    wrong.codes[5] = 1024;
    answer = p6k_frame(relay, wrong, 0xFF);
    CHECK(answer.refusal == P6K_BAD_CODE && answer.output == 0 && same(answer.relay, relay));
    answer = p6k_frame(relay, codes_at(90), 0xFF);
    CHECK(answer.refusal == P6K_BAD_ENABLE && answer.output == 0 && same(answer.relay, relay));
    for (int c = 0; c < 6; c++)
        CHECK(answer.amplitudes[c] == 0);

    p6k_reset_answer reset = p6k_reset(relay, 0x48);
    CHECK(reset.refusal == P6K_BAD_MASK && same(reset.relay, relay));
    reset = p6k_reset(relay, 0x08);
    CHECK(reset.refusal == P6K_ACCEPTED);
    CHECK(!reset.relay.channels[3].over_latch && reset.relay.channels[3].over_run == 0);
    CHECK(reset.relay.channels[2].loss_latch && reset.relay.age == 72);
    CHECK(p6k_frame(reset.relay, codes_at(90), 0x7F).output == 0x37);
    return 0;
}

/* The relay after frames `first` to `last` of the wave. */
static p6k_relay after(p6k_relay relay, unsigned first, unsigned last, uint8_t enable)
{
    for (unsigned n = first; n <= last; n++)
        relay = p6k_frame(relay, codes_at(n), enable).relay;
    return relay;
}

/* Bit 6 goes off and on again: frame 100 is the first with it on, so that frames 100 to 171 are not counted. */
static int settling(void)
{
    p6k_relay fresh = p6k_fresh(settings_of(1, 1603)).relay;
    CHECK(fresh.device_on && fresh.age == 0);
    CHECK(!p6k_fresh(settings_of(0, 1603)).relay.device_on);
    p6k_relay tripped = after(fresh, 0, 89, 0x7F);
    CHECK(tripped.device_on && tripped.age == 72);
    CHECK(tripped.channels[3].over_run == 4 && tripped.channels[3].over_latch);

    p6k_relay off = after(tripped, 90, 99, 0x3F);
    CHECK(!off.device_on && off.age == 72 && off.channels[3].over_run == 0 && off.channels[3].over_latch);
    p6k_codes wrong = codes_at(100);
    wrong.codes[0] = 1024;
    CHECK(same(p6k_frame(off, wrong, 0x7F).relay, off) && same(p6k_frame(off, codes_at(100), 0xFF).relay, off));
    CHECK(same(p6k_frame(tripped, wrong, 0x3F).relay, tripped));
    CHECK(p6k_reset(tripped, 0x3F).relay.device_on);
    p6k_reset_answer reset = p6k_reset(off, 0x3F);
    CHECK(reset.refusal == P6K_ACCEPTED && !reset.relay.device_on && reset.relay.age == 72);

    /* A latch that is on shows while the relay settles. */
    p6k_frame_answer risen = p6k_frame(off, codes_at(100), 0x7F);
    CHECK(risen.refusal == P6K_ACCEPTED && risen.output == 0x3F && risen.amplitudes[3] == 1603);
    CHECK(risen.relay.device_on && risen.relay.age == 1);

    p6k_relay relay = p6k_frame(reset.relay, codes_at(100), 0x7F).relay;
    CHECK(relay.device_on && relay.age == 1 && relay.channels[3].over_run == 0);
    relay = after(relay, 101, 170, 0x7F);
    CHECK(relay.age == 71);
    relay = after(relay, 171, 171, 0x7F);
    CHECK(relay.age == 72 && relay.channels[3].over_run == 0 && relay.channels[0].loss_run == 0);
    relay = after(relay, 172, 172, 0x7F);
    CHECK(relay.age == 72 && relay.channels[3].over_run == 1 && relay.channels[0].loss_run == 1);
    relay = after(relay, 173, 174, 0x7F);
    CHECK(!relay.channels[3].over_latch && p6k_frame(relay, codes_at(175), 0x7F).output == 0x08);
    relay = after(relay, 175, 186, 0x7F);
    CHECK(!relay.channels[0].loss_latch && p6k_frame(relay, codes_at(187), 0x7F).output == 0x3F);

    /* A rise before the relay has settled, and a second one. */
    relay = after(after(fresh, 0, 9, 0x7F), 10, 10, 0x3F);
    CHECK(relay.age == 11);
    relay = after(relay, 11, 11, 0x7F);
    CHECK(relay.age == 1);
    relay = after(after(after(relay, 12, 60, 0x7F), 61, 61, 0x00), 62, 62, 0x40);
    CHECK(relay.age == 1 && relay.device_on);

    /* Off in frame 0, on in frame 1: a rise as well. Off throughout: none. */
    CHECK(after(after(fresh, 0, 0, 0x3F), 1, 1, 0x7F).age == 1 && after(fresh, 0, 1, 0x3F).age == 2);

    /* The rise clears no run that is handed in, and counts none. */
    relay = off;
    relay.channels[3] = fresh.channels[3];
    relay.channels[3].over_run = 3;
    relay = after(relay, 100, 100, 0x7F);
    CHECK(relay.channels[3].over_run == 3 && !relay.channels[3].over_latch);
    return 0;
}

/* The first frame from `first` on after which channel c shows in the output, 200 if none before that does. */
static unsigned shows(p6k_relay relay, unsigned first, int c)
{
    for (unsigned n = first; n < 200; n++) {
        p6k_frame_answer answer = p6k_frame(relay, codes_at(n), 0x7F);
        if (answer.output >> c & 1)
            return n;
        relay = answer.relay;
    }
    return 200;
}

/* Refused: the relay as given. */
static bool refused_change(p6k_relay relay, p6k_levels levels, enum p6k_refusal refusal)
{
    p6k_change_answer answer = p6k_change(relay, levels);
    return answer.refusal == refusal && same(answer.relay, relay);
}

/* The wave just reaches the pickups, the still channels are just below the drops. Frames 72 to 74 are counted: channel
 * 3 has an over run of 3 and trips with frame 75; the others have loss runs of 3 and trip with frame 87. */
static int changes(void)
{
    const p6k_levels made = settings_of(1, 1603).levels;
    p6k_relay fresh = p6k_fresh(settings_of(1, 1603)).relay;
    p6k_relay relay = after(fresh, 0, 74, 0x7F);
    CHECK(relay.channels[3].over_run == 3 && relay.channels[3].loss_run == 0 && relay.channels[0].loss_run == 3);
    CHECK(shows(relay, 75, 3) == 75 && shows(relay, 75, 0) == 87);

    /* The levels in force change nothing. */
    p6k_change_answer answer = p6k_change(relay, made);
    CHECK(answer.refusal == P6K_ACCEPTED && same(answer.relay, relay));

    /* The summer pickup: the over run is gone and does not come again; loss runs, age, slot and memory stay. */
    p6k_levels levels = made;
    levels.pickup[0] = 1604;
    answer = p6k_change(relay, levels);
    p6k_relay expected = relay;
    expected.settings.levels = levels;
    expected.channels[3].over_run = 0;
    CHECK(answer.refusal == P6K_ACCEPTED && same(answer.relay, expected));
    CHECK(shows(answer.relay, 75, 3) == 200 && shows(answer.relay, 75, 0) == 87);
    /* Back before another frame: the run starts anew, and frames 75 to 78 make a full one. */
    answer = p6k_change(answer.relay, made);
    expected.settings.levels = made;
    CHECK(answer.refusal == P6K_ACCEPTED && same(answer.relay, expected) && shows(answer.relay, 75, 3) == 78);

    /* Restraint is part of the over run's own level, each current's of its own run. */
    levels = made;
    levels.restraint[0] = 100;
    answer = p6k_change(relay, levels);
    CHECK(answer.relay.channels[3].over_run == 0 && shows(answer.relay, 75, 3) == 78);
    levels.restraint[0] = 0;
    levels.restraint[1] = 100;
    levels.pickup[2] = 10700;
    answer = p6k_change(relay, levels);
    CHECK(answer.relay.channels[3].over_run == 3 && shows(answer.relay, 75, 3) == 75);

    /* A drop is its channel's loss run's alone: channel 0 needs frames 75 to 90, the others have their runs. */
    levels = made;
    levels.drop[0] = 2;
    answer = p6k_change(relay, levels);
    CHECK(answer.relay.channels[0].loss_run == 0 && answer.relay.channels[1].loss_run == 3);
    CHECK(answer.relay.channels[3].over_run == 3 && shows(answer.relay, 75, 3) == 75);
    CHECK(shows(answer.relay, 75, 0) == 90 && shows(answer.relay, 75, 1) == 87);

    /* A latch stays and shows, though the new level would not have tripped it. A reset keeps the levels. */
    p6k_relay tripped = after(relay, 75, 75, 0x7F);
    levels = made;
    levels.pickup[0] = 10700;
    answer = p6k_change(tripped, levels);
    CHECK(answer.relay.channels[3].over_latch && answer.relay.channels[3].over_run == 0);
    CHECK(p6k_frame(answer.relay, codes_at(76), 0x7F).output == 0x08);
    p6k_reset_answer reset = p6k_reset(answer.relay, 0x08);
    CHECK(reset.relay.settings.levels.pickup[0] == 10700 && shows(reset.relay, 76, 3) == 200);

    /* Age, slot and remembered bit 6 of a relay that has not settled. */
    relay = after(after(fresh, 0, 9, 0x7F), 10, 10, 0x3F);
    answer = p6k_change(relay, levels);
    expected = relay;
    expected.settings.levels = levels;
    CHECK(same(answer.relay, expected) && answer.relay.age == 11 && answer.relay.slot == 3);
    CHECK(!answer.relay.device_on && after(answer.relay, 11, 11, 0x7F).age == 1);

    /* Refused by 20, then also by 1, then also by 2; a wrong drop; the all-zero relay. */
    levels.restraint[2] = 101;
    CHECK(refused_change(tripped, levels, P6K_BAD_RESTRAINT));
    levels.pickup[1] = 0;
    CHECK(refused_change(tripped, levels, P6K_BAD_SETTING));
    relay = tripped;
    relay.slot = 8;
    CHECK(refused_change(relay, levels, P6K_UNSOUND_RELAY) && refused_change(relay, made, P6K_UNSOUND_RELAY));
    levels = made;
    levels.drop[5] = 10701;
    CHECK(refused_change(tripped, levels, P6K_BAD_SETTING));
    p6k_relay zero;
    memset(&zero, 0, sizeof zero);
    CHECK(refused_change(zero, made, P6K_UNSOUND_RELAY));
    return 0;
}

static bool estimated(const int16_t samples[8], uint8_t order, enum p6k_refusal refusal, unsigned amplitude)
{
    p6k_samples window;
    memcpy(window.samples, samples, sizeof window.samples);
    p6k_estimate_answer answer = p6k_estimate(window, order);
    return answer.refusal == refusal && answer.amplitude == amplitude;
}

static int harmonics(void)
{
    CHECK(estimated(wave, 1, P6K_ACCEPTED, 1603) && estimated(wave, 2, P6K_ACCEPTED, 0));
    CHECK(estimated(harmonic, 1, P6K_ACCEPTED, 1603) && estimated(harmonic, 2, P6K_ACCEPTED, 400));
    const int16_t third[8] = {100, -71, 0, 71, -100, 71, 0, -71};
    CHECK(estimated(third, 3, P6K_ACCEPTED, 1603) && estimated(third, 2, P6K_ACCEPTED, 0));
    CHECK(estimated(wave, 0, P6K_BAD_ESTIMATE, 0) && estimated(wave, 4, P6K_BAD_ESTIMATE, 0));
    const int16_t high[8] = {0, 0, 0, 0, 0, 0, 0, 512}, low[8] = {-513, 0, 0, 0, 0, 0, 0, 0};
    CHECK(estimated(high, 1, P6K_BAD_ESTIMATE, 0) && estimated(low, 3, P6K_BAD_ESTIMATE, 0));

    CHECK(first_trip_of(harmonic, restrained(1, 1603, 0), 3) == 75);
    CHECK(first_trip_of(harmonic, restrained(1, 1603, 25), 3) == 75);
    CHECK(first_trip_of(harmonic, restrained(1, 1603, 24), 3) == 100);
    CHECK(first_trip_of(wave, restrained(1, 1603, 1), 3) == 75);

    p6k_fresh_answer refused = p6k_fresh(restrained(1, 1603, 101));
    p6k_relay zero;
    memset(&zero, 0, sizeof zero);
    CHECK(refused.refusal == P6K_BAD_RESTRAINT && same(refused.relay, zero));
    CHECK(p6k_fresh(restrained(1, 10701, 101)).refusal == P6K_BAD_SETTING);
    p6k_relay relay = p6k_fresh(restrained(1, 1603, 100)).relay;
    relay.settings.levels.restraint[2] = 101;
    p6k_frame_answer answer = p6k_frame(relay, codes_at(0), 0x7F);
    CHECK(answer.refusal == P6K_UNSOUND_RELAY && same(answer.relay, relay));
    CHECK(p6k_reset(relay, 0).refusal == P6K_UNSOUND_RELAY);
    return 0;
}

/* Refused: the all-zero relay, whose lengths are 0 too. */
static bool refused_fresh(p6k_settings settings, enum p6k_refusal refusal)
{
    p6k_fresh_answer answer = p6k_fresh(settings);
    p6k_relay zero;
    memset(&zero, 0, sizeof zero);
    return answer.refusal == refusal && same(answer.relay, zero);
}

/* A relay that is not sound: no call takes it, and each hands it back. */
static bool unsound(p6k_relay relay)
{
    p6k_frame_answer answer = p6k_frame(relay, codes_at(0), 0x7F);
    p6k_reset_answer reset = p6k_reset(relay, 0);
    return answer.refusal == P6K_UNSOUND_RELAY && same(answer.relay, relay) &&
           reset.refusal == P6K_UNSOUND_RELAY && same(reset.relay, relay) &&
           refused_change(relay, relay.settings.levels, P6K_UNSOUND_RELAY);
}

/* Frame 72 is the first that is counted: channel 3 trips with frame 71 + over length, the others with 71 + loss
 * length. */
static int lengths(void)
{
    CHECK(first_trip(lasting(16, 4), 3) == 75 && first_trip(lasting(16, 4), 0) == 87);
    CHECK(first_trip(lasting(1, 1), 3) == 72 && first_trip(lasting(1, 1), 0) == 72);
    CHECK(first_trip(lasting(24, 24), 3) == 95 && first_trip(lasting(24, 24), 0) == 95);
    CHECK(first_trip(lasting(1, 24), 3) == 95 && first_trip(lasting(1, 24), 0) == 72);
    CHECK(first_trip(lasting(24, 1), 3) == 72 && first_trip(lasting(24, 1), 5) == 95);
    for (unsigned k = 1; k <= 24; k++) {
        CHECK(first_trip(lasting((uint8_t)k, (uint8_t)(25 - k)), 0) == 71 + k);
        CHECK(first_trip(lasting((uint8_t)k, (uint8_t)(25 - k)), 3) == 96 - k);
    }

    /* Refused by 21: each length below and above its range. A bad level comes before it, and so does a restraint. */
    CHECK(refused_fresh(lasting(0, 4), P6K_BAD_LENGTH) && refused_fresh(lasting(16, 0), P6K_BAD_LENGTH));
    CHECK(refused_fresh(lasting(25, 4), P6K_BAD_LENGTH) && refused_fresh(lasting(16, 25), P6K_BAD_LENGTH));
    CHECK(refused_fresh(lasting(0, 0), P6K_BAD_LENGTH) && refused_fresh(lasting(255, 255), P6K_BAD_LENGTH));
    p6k_settings wrong = lasting(0, 4);
    wrong.levels.restraint[2] = 101;
    CHECK(refused_fresh(wrong, P6K_BAD_RESTRAINT));
    wrong.levels.drop[5] = 0;
    CHECK(refused_fresh(wrong, P6K_BAD_SETTING));
    wrong = lasting(16, 25);
    wrong.levels.pickup[2] = 10701;
    CHECK(refused_fresh(wrong, P6K_BAD_SETTING));

    /* Runs stay at their lengths, and the lengths as they were: over frames, a reset and a change. */
    p6k_fresh_answer made = p6k_fresh(lasting(20, 6));
    CHECK(made.refusal == P6K_ACCEPTED);
    CHECK(made.relay.settings.lengths.loss == 20 && made.relay.settings.lengths.over == 6);
    p6k_relay relay = after(made.relay, 0, 76, 0x7F);
    CHECK(relay.channels[3].over_run == 5 && relay.channels[0].loss_run == 5 && shows(relay, 77, 3) == 77);
    p6k_levels levels = relay.settings.levels;
    levels.pickup[0] = 1602;
    p6k_change_answer answer = p6k_change(relay, levels);
    CHECK(answer.refusal == P6K_ACCEPTED && answer.relay.channels[3].over_run == 0);
    CHECK(answer.relay.settings.lengths.loss == 20 && answer.relay.settings.lengths.over == 6);
    CHECK(shows(answer.relay, 77, 3) == 82 && shows(answer.relay, 77, 0) == 91);
    relay = after(relay, 77, 99, 0x7F);
    CHECK(relay.channels[3].over_run == 6 && relay.channels[0].loss_run == 20);
    relay = p6k_reset(relay, 0x3F).relay;
    CHECK(relay.settings.lengths.loss == 20 && relay.settings.lengths.over == 6);
    CHECK(shows(relay, 100, 3) == 105 && shows(relay, 100, 0) == 119);

    /* Not sound: a run above its own length, though below another's; a length out of range. */
    relay = p6k_fresh(lasting(3, 2)).relay;
    relay.channels[0].loss_run = 3;
    relay.channels[5].over_run = 2;
    CHECK(p6k_reset(relay, 0).refusal == P6K_ACCEPTED);
    p6k_relay other = relay;
    other.channels[0].loss_run = 4;
    CHECK(unsound(other));
    other = relay;
    other.channels[5].over_run = 3;
    CHECK(unsound(other));
    other = relay;
    other.settings.lengths.loss = 25;
    CHECK(unsound(other));
    other = p6k_fresh(lasting(3, 2)).relay;
    other.settings.lengths.over = 0;
    CHECK(unsound(other));
    return 0;
}

/* Refused: count 0, and what was lent is as it was. */
static bool refused(p6k_answer answer, enum p6k_refusal refusal, const void *lent, const void *before, size_t size)
{
    return answer.refusal == refusal && answer.count == 0 && memcmp(lent, before, size) == 0;
}

static int captures(void)
{
    enum { FRAMES = 20, CELLS = P6K_FRAME_CELLS * FRAMES };
    uint16_t cells[CELLS], back[CELLS + 1], old[CELLS + 1];
    uint8_t bytes[300], before[300];
    for (unsigned n = 0; n < FRAMES; n++) {
        p6k_codes codes = codes_at(n);
        memcpy(cells + P6K_FRAME_CELLS * n, codes.codes, sizeof codes.codes);
        cells[P6K_FRAME_CELLS * n + 6] = 0x7F;
    }
    memset(bytes, 0xEE, sizeof bytes);
    p6k_answer written = p6k_write(cells, CELLS, bytes, sizeof bytes);
    CHECK(written.refusal == P6K_ACCEPTED && memcmp(bytes, "P6K\x14", 4) == 0 && bytes[written.count] == 0xEE);
    memcpy(before, bytes, sizeof bytes);
    CHECK(refused(p6k_write(cells, CELLS, bytes, written.count - 1), P6K_DOES_NOT_FIT, bytes, before, sizeof bytes));
    CHECK(refused(p6k_write(cells, CELLS - 1, bytes, sizeof bytes), P6K_WRONG_SHAPE, bytes, before, sizeof bytes));
    cells[6] = 0x80;
    CHECK(refused(p6k_write(cells, CELLS, bytes, sizeof bytes), P6K_OUT_OF_RANGE, bytes, before, sizeof bytes));
    cells[6] = 0x7F;

    back[CELLS] = 0xEEEE;
    p6k_answer read = p6k_read(bytes, written.count, back, CELLS + 1);
    CHECK(read.refusal == P6K_ACCEPTED && read.count == FRAMES);
    CHECK(memcmp(cells, back, sizeof cells) == 0 && back[CELLS] == 0xEEEE);
    memcpy(old, back, sizeof back);
    CHECK(refused(p6k_read(bytes + 1, 5, back, CELLS), P6K_MARK_DIFFERS, back, old, sizeof back));
    p6k_answer second = p6k_read((const uint8_t *)"P6K\x80\x00", 5, back, CELLS);
    CHECK(refused(second, P6K_BAD_SECOND_BYTE, back, old, sizeof back));
    CHECK(refused(p6k_read(bytes, written.count - 1, back, CELLS), P6K_ENDS_EARLY, back, old, sizeof back));
    CHECK(refused(p6k_read((const uint8_t *)"P6K\x81\x20", 5, back, CELLS), P6K_OUT_OF_RANGE, back, old, sizeof back));
    CHECK(refused(p6k_read(bytes, written.count + 1, back, CELLS), P6K_BYTES_AFTER, back, old, sizeof back));
    CHECK(refused(p6k_read(bytes, written.count, back, CELLS - 1), P6K_DOES_NOT_FIT, back, old, sizeof back));

    /* No bytes are zero frames, in all cells and in none; one byte, two or three of the mark are not. Zero frames are
     * written as four bytes. */
    for (size_t room = 0; room <= CELLS; room += CELLS) {
        read = p6k_read(bytes, 0, back, room);
        CHECK(read.refusal == P6K_ACCEPTED && read.count == 0 && memcmp(back, old, sizeof back) == 0);
        for (size_t length = 1; length <= 3; length++)
            CHECK(refused(p6k_read(bytes, length, back, room), P6K_ENDS_EARLY, back, old, sizeof back));
    }
    memset(bytes, 0xEE, sizeof bytes);
    written = p6k_write(cells, 0, bytes, 4);
    CHECK(written.refusal == P6K_ACCEPTED && written.count == 4 && memcmp(bytes, "P6K\0\xEE", 5) == 0);

    p6k_part part = p6k_excerpt(cells, CELLS, 3, 2);
    CHECK(part.start == 21 && part.length == 14);
    part = p6k_excerpt(cells, CELLS, SIZE_MAX, 2);
    CHECK(part.start == 0 && part.length == 0);
    part = p6k_excerpt(cells, CELLS - 1, 3, 2);
    CHECK(part.start == 0 && part.length == 0);

    cells[P6K_FRAME_CELLS * 11 + 3] = 1023;
    p6k_strongest_window strongest = p6k_strongest(cells, CELLS, 3);
    /* Eight frames of the wave have the sum 40,164; frame 11 had -71 and now has 511. It first lies in the window from
     * frame 4. */
    CHECK(strongest.refusal == P6K_ACCEPTED && strongest.sum == 40164 - 71 * 71 + 511 * 511 && strongest.frame == 4);
    strongest = p6k_strongest(cells, CELLS, 6);
    CHECK(strongest.refusal == P6K_WRONG_SHAPE && strongest.sum == 0 && strongest.frame == 0);
    strongest = p6k_strongest(cells, P6K_FRAME_CELLS * 7, 3);
    CHECK(strongest.refusal == P6K_FEW_FRAMES && strongest.sum == 0 && strongest.frame == 0);
    cells[6] = 0x80;
    strongest = p6k_strongest(cells, CELLS, 3);
    CHECK(strongest.refusal == P6K_OUT_OF_RANGE && strongest.sum == 0 && strongest.frame == 0);
    return 0;
}

/* The figures of Paper 12's note: 55 numbers k * 2^26 + 1, k = 1 to 55. */
static int waveforms(void)
{
    enum { FRAMES = 3, CELLS = P6K_FRAME_CELLS * FRAMES };
    const uint16_t expected[CELLS + 1] = {528, 560, 592, 624,  656, 688, 0x7F, 720, 752, 784,    816,
                                          848, 880, 0x7F, 912, 944, 976, 1008, 16,  48,  0x7F, 0xEEEE};
    static uint16_t most[P6K_READ_ROOM];
    uint16_t cells[CELLS + 1], old[CELLS + 1], first[CELLS + 1];
    uint8_t bytes[100];
    p6k_numbers given, even;
    for (uint32_t k = 0; k < 55; k++) {
        given.numbers[k] = ((k + 1) << 26) + 1;
        even.numbers[k] = (k + 1) << 26;
    }
    memset(cells, 0xEE, sizeof cells);
    memcpy(old, cells, sizeof cells);
    CHECK(refused(p6k_generate(even, FRAMES, cells, CELLS), P6K_ALL_EVEN, cells, old, sizeof cells));
    CHECK(refused(p6k_generate(even, 0, cells, CELLS), P6K_ALL_EVEN, cells, old, sizeof cells));
    CHECK(refused(p6k_generate(even, SIZE_MAX, cells, 0), P6K_ALL_EVEN, cells, old, sizeof cells));
    CHECK(refused(p6k_generate(given, 4097, cells, 0), P6K_OUT_OF_RANGE, cells, old, sizeof cells));
    CHECK(refused(p6k_generate(given, SIZE_MAX, cells, CELLS), P6K_OUT_OF_RANGE, cells, old, sizeof cells));
    CHECK(refused(p6k_generate(given, FRAMES, cells, CELLS - 1), P6K_DOES_NOT_FIT, cells, old, sizeof cells));
    p6k_answer none = p6k_generate(given, 0, cells, 0);
    CHECK(none.refusal == P6K_ACCEPTED && none.count == 0 && memcmp(cells, old, sizeof cells) == 0);
    p6k_answer made = p6k_generate(given, FRAMES, cells, CELLS + 1);
    CHECK(made.refusal == P6K_ACCEPTED && made.count == FRAMES && memcmp(cells, expected, sizeof cells) == 0);

    /* The last number alone is odd, which is enough: one frame, and the cells behind it as lent. */
    memcpy(cells, old, sizeof cells);
    memcpy(first, old, sizeof first);
    memcpy(first, expected, P6K_FRAME_CELLS * sizeof *first);
    even.numbers[54] |= 1;
    made = p6k_generate(even, 1, cells, CELLS);
    CHECK(made.refusal == P6K_ACCEPTED && made.count == 1 && memcmp(cells, first, sizeof cells) == 0);

    /* 4,096 frames, of which the first three are those above. These three are written and read back. */
    made = p6k_generate(given, 4096, most, P6K_READ_ROOM);
    CHECK(made.refusal == P6K_ACCEPTED && made.count == 4096 && memcmp(most, expected, CELLS * sizeof *most) == 0);
    p6k_answer written = p6k_write(most, CELLS, bytes, sizeof bytes);
    CHECK(written.refusal == P6K_ACCEPTED);
    memcpy(cells, old, sizeof cells);
    p6k_answer read = p6k_read(bytes, written.count, cells, CELLS + 1);
    CHECK(read.refusal == P6K_ACCEPTED && read.count == FRAMES && memcmp(cells, expected, sizeof cells) == 0);
    return 0;
}

static int reports(void)
{
    static uint8_t text[P6K_REPORT_ROOM];
    const uint8_t example[12] = {0x50, 0x36, 0x4B, 0x01, 0x7F, 0xC8, 0x01, 0, 0, 0, 0, 0};
    const char *expected = "0 400 0 0 0 0 0 00\nframes 1\n";
    size_t length = p6k_report(example, sizeof example, text, sizeof text);
    CHECK(length == strlen(expected) && memcmp(text, expected, length) == 0);
    length = p6k_report(example, 11, text, sizeof text);
    CHECK(length == 10 && memcmp(text, "refused 8\n", length) == 0);
    CHECK(p6k_report(example, sizeof example, text, sizeof text - 1) == 0 && memcmp(text, "refused 8\n", length) == 0);
    length = p6k_report(example, 0, text, sizeof text);
    CHECK(length == 9 && memcmp(text, "frames 0\n", length) == 0);
    return 0;
}

int main(void)
{
    if (relays() || settling() || changes() || harmonics() || lengths() || captures() || waveforms() || reports())
        return 1;
    puts("c/calls.c: ok");
    return 0;
}
