//! Paper 2: resetting in two strokes. "On a sound relay, accepted masks a then b
//! give the relay that the union of a and b gives, in either order, and the same
//! mask twice gives what once gives." Several wrong resets obey this law, so what
//! one reset clears and leaves is asked here too.

use reference::amplitude::Window;
use reference::bench::LENGTHS;
use reference::levels::{BASE, ENABLE, WAVE};
use reference::prng::Prng;
use reference::relay::FULL_AGE;
use reference::strokes::{pressed, start, MASKS};
use reference::*;

const LENGTH_PAIRS: [(u8, u8); 5] = [(1, 1), (16, 4), (4, 16), (24, 24), (1, 24)];

/// What a made-up relay has in its channels. No list of calls reaches full runs
/// without latches, nor any of the four at age 0.
#[derive(Clone, Copy, Debug, PartialEq)]
enum Held {
    LatchesWithoutRuns,
    FullRunsWithoutLatches,
    All,
    OneThing,
}

const KINDS: [Held; 4] = [Held::LatchesWithoutRuns, Held::FullRunsWithoutLatches, Held::All, Held::OneThing];

/// Windows of −512 and 511 alone, another in each channel. A voltage has a loss
/// run and a loss latch only.
fn channel(held: Held, c: usize, slot: u8, lengths: Lengths) -> Channel {
    let samples = std::array::from_fn(|k| [511, -512, -512][(c + k + usize::from(slot)) % 3]);
    let all = Channel {
        samples,
        loss_run: lengths.loss,
        over_run: if c < 3 { 0 } else { lengths.over },
        loss_latch: true,
        over_latch: c >= 3,
    };
    let nothing = Channel { samples, ..Channel::default() };
    match held {
        Held::LatchesWithoutRuns => Channel { loss_run: 0, over_run: 0, ..all },
        Held::FullRunsWithoutLatches => Channel { loss_latch: false, over_latch: false, ..all },
        Held::All => all,
        Held::OneThing => match (c + usize::from(slot)) % if c < 3 { 2 } else { 4 } {
            0 => Channel { loss_run: 1, ..nothing },
            1 => Channel { loss_latch: true, ..nothing },
            2 => Channel { over_run: 1, ..nothing },
            _ => Channel { over_latch: true, ..nothing },
        },
    }
}

/// Sound relays with something to clear in every channel: each kind, five pairs of
/// lengths, ages 0, 71 and 72, every slot, either remembered bit.
fn made_up() -> Vec<Relay> {
    let levels = Levels { drop: [1, 2, 3, 10_700, 5, 6], pickup: [7, 10_700, 1], restraint: [0, 100, 37] };
    let mut relays = Vec::new();
    for held in KINDS {
        for (loss, over) in LENGTH_PAIRS {
            let lengths = Lengths { loss, over };
            for age in [0, 71, FULL_AGE] {
                for slot in 0..8 {
                    for device_on in [true, false] {
                        let channels = std::array::from_fn(|c| channel(held, c, slot, lengths));
                        let relay = Relay { settings: Settings { levels, lengths }, channels, age, slot, device_on };
                        assert!(is_sound(&relay));
                        assert!((0..6).all(|c| !is_clear(&relay.channels[c])));
                        relays.push(relay);
                    }
                }
            }
        }
    }
    relays
}

/// Sound relays at random, of the trace for the C twin.
fn random_relays(seed: u64) -> impl Iterator<Item = Relay> {
    let mut prng = Prng(seed);
    std::iter::repeat_with(move || trace::relay(&mut prng)).filter(is_sound)
}

/// No run and no latch.
fn is_clear(channel: &Channel) -> bool {
    let Channel { samples: _, loss_run, over_run, loss_latch, over_latch } = *channel;
    (loss_run, over_run, loss_latch, over_latch) == (0, 0, false, false)
}

/// The channels that a mask names, read from its binary digits as text: the last
/// digit is channel 0's.
fn named(mask: u8) -> [bool; 6] {
    let digits: Vec<char> = format!("{mask:06b}").chars().rev().collect();
    std::array::from_fn(|c| digits[c] == '1')
}

fn accepted(relay: Relay) -> Reset {
    Reset { number: 0, relay }
}

/// Every pair of masks: a then b, b then a, and both at once, each call answered
/// by 0; a twice. The relays are compared whole.
fn assert_law(relay: Relay) {
    let once: Vec<Relay> = MASKS
        .map(|mask| {
            let answer = reset(relay, mask);
            assert_eq!(answer.number, 0, "mask {mask}");
            answer.relay
        })
        .collect();
    for a in MASKS {
        let after_a = once[usize::from(a)];
        assert_eq!(reset(after_a, a), accepted(after_a), "{a} twice");
        for b in MASKS {
            let union = accepted(once[usize::from(a | b)]);
            assert_eq!(reset(after_a, b), union, "{a} then {b}");
            assert_eq!(reset(once[usize::from(b)], a), union, "{b} then {a}");
        }
    }
}

#[test]
fn the_law_on_made_up_relays() {
    let relays = made_up();
    assert_eq!(relays.len(), 4 * 5 * 3 * 8 * 2);
    relays.into_iter().for_each(assert_law);
}

#[test]
fn the_law_on_random_relays_and_on_that_of_the_command() {
    assert_law(start().relay);
    random_relays(21).take(300).for_each(assert_law);
}

fn shuffle(prng: &mut Prng, masks: &mut [u8]) {
    for last in (1..masks.len()).rev() {
        masks.swap(last, prng.below(last as u64 + 1) as usize);
    }
}

/// 0 to 8 masks in any order give what their union gives, and mask 0 gives the
/// relay back.
#[test]
fn lists_of_masks_give_their_union() {
    let mut prng = Prng(22);
    // By number of masks; then lists with a repeated channel, and whose union is not all.
    let (mut by_count, mut repeated, mut partial) = ([0; 9], 0, 0);
    for relay in random_relays(23).take(20_000).chain(made_up()) {
        let count = prng.below(9) as usize;
        let sparse = prng.once_in(2);
        let mut mask = || match prng.below(6) {
            0 => 0,
            _ if sparse => 1 << prng.below(6),
            _ => prng.below(64) as u8,
        };
        let mut masks: Vec<u8> = (0..count).map(|_| mask()).collect();
        let union = masks.iter().fold(0, |union, mask| union | mask);
        let at_once = reset(relay, union);
        assert_eq!(at_once.number, 0);
        assert_eq!(pressed(relay, &masks), at_once.relay, "{masks:?}");
        shuffle(&mut prng, &mut masks);
        assert_eq!(pressed(relay, &masks), at_once.relay, "shuffled {masks:?}");
        assert_eq!(reset(relay, 0), accepted(relay));
        assert_eq!(pressed(relay, &vec![0; count]), relay);
        by_count[count] += 1;
        repeated += usize::from(masks.iter().map(|mask| mask.count_ones()).sum::<u32>() > union.count_ones());
        partial += usize::from(union != 0 && union != 63);
    }
    println!("by count {by_count:?}, a channel named twice {repeated}, union neither none nor all {partial}");
    assert!(by_count.iter().all(|&count| count > 1000) && repeated > 5000 && partial > 5000);
}

/// All that a reset has to leave, field by field: a new field of the relay has to
/// be named here or this does not compile.
fn left(relay: &Relay, mask: u8) -> (Settings, u8, u8, bool, [Window; 6], Vec<Channel>) {
    let Relay { settings, channels, age, slot, device_on } = *relay;
    let named = named(mask);
    let others = (0..6).filter(|&c| !named[c]).map(|c| channels[c]).collect();
    (settings, age, slot, device_on, channels.map(|channel| channel.samples), others)
}

/// "It clears runs and latches of the named channels and nothing else." The law
/// alone does not say so.
#[test]
fn one_reset_clears_the_named_channels_and_nothing_else() {
    for relay in made_up().into_iter().chain(random_relays(24).take(2000)) {
        for mask in MASKS {
            let answer = reset(relay, mask);
            assert_eq!(answer.number, 0);
            assert_eq!(left(&answer.relay, mask), left(&relay, mask), "mask {mask}");
            for c in (0..6).filter(|&c| named(mask)[c]) {
                assert!(is_clear(&answer.relay.channels[c]), "mask {mask}, channel {c}");
            }
        }
    }
    // By hand, so that the digits are read from the right end.
    assert_eq!(named(1), [true, false, false, false, false, false]);
    assert_eq!(named(24), [false, false, false, true, true, false]);
    for (mask, c) in [(1, 0), (2, 1), (4, 2), (8, 3), (16, 4), (32, 5)] {
        let channels = reset(start().relay, mask).relay.channels;
        assert!((0..6).all(|other| is_clear(&channels[other]) == (other == c)));
    }
}

/// What a reset leaves, seen by the frames after it. The relay that was reset and
/// the one that was not answer the same amplitudes and agree in age, slot, memory
/// and windows and in the channels not named. A channel that was named goes on as
/// in a relay with the same windows that never had a run or a latch.
#[test]
fn frames_after_two_strokes() {
    let mut prng = Prng(25);
    let (mut output_differs, mut counted, mut rises) = (0, 0, 0);
    for relay in random_relays(26).take(3000) {
        let (a, b) = (prng.below(64) as u8, prng.below(64) as u8);
        let named = named(a | b);
        let mut untouched = relay;
        let without = |channel: Channel| Channel { samples: channel.samples, ..Channel::default() };
        let mut bare = Relay { channels: relay.channels.map(without), ..relay };
        let mut after = pressed(relay, &[a, b]);
        for _ in 0..prng.within(1, 30) {
            let codes = std::array::from_fn(|_| prng.code());
            let enable = if prng.once_in(10) { prng.below(128) } else { 0x7F } as u8;
            counted += usize::from(after.age == FULL_AGE);
            rises += usize::from(!after.device_on && enable & 0x40 != 0);
            let answers = [after, untouched, bare].map(|relay| frame(relay, codes, enable));
            for answer in &answers {
                assert_eq!((answer.number, answer.amplitudes), (0, answers[0].amplitudes));
            }
            for c in 0..6 {
                let like = &answers[if named[c] { 2 } else { 1 }];
                assert_eq!(answers[0].relay.channels[c], like.relay.channels[c], "{a} then {b}, channel {c}");
                assert_eq!(answers[0].output >> c & 1, like.output >> c & 1);
            }
            assert_eq!(left(&answers[0].relay, 63), left(&answers[1].relay, 63));
            output_differs += usize::from(answers[0].output != answers[1].output);
            [after, untouched, bare] = answers.map(|answer| answer.relay);
        }
    }
    println!("frames with another output than without the strokes {output_differs}, counted {counted}, rises {rises}");
    assert!(output_differs > 5000 && counted > 5000 && rises > 1000);
}

/// Two masks whose union is this one. Channels may be in both, in either order.
fn two_strokes(prng: &mut Prng, mask: u8) -> [u8; 2] {
    let (some, more) = (prng.below(64) as u8 & mask, prng.below(64) as u8 & mask);
    let strokes = [some, mask & !some | more];
    let first = usize::from(prng.once_in(2));
    [strokes[first], strokes[1 - first]]
}

/// Whole lists, with every accepted reset made in two strokes: the relay is the same
/// after every call. The history, which steps no relay, has the same latches and
/// outputs for both lists, and they are the relay's.
#[test]
fn lists_with_each_reset_in_two_strokes() {
    let mut prng = Prng(27);
    let (mut resets, mut cleared) = (0, 0);
    for _ in 0..150 {
        let (settings, calls) = trace::list(&mut prng);
        let mut split = Vec::new();
        // How many calls of the split list are done after each call of the other.
        let mut done = Vec::new();
        for call in &calls {
            match *call {
                Call::Reset { mask } if mask < 64 => {
                    split.extend(two_strokes(&mut prng, mask).map(|mask| Call::Reset { mask }));
                }
                call => split.push(call),
            }
            done.push(split.len());
        }
        let mut relays = [fresh(settings).relay; 2];
        let mut from = 0;
        for (call, &end) in calls.iter().zip(&done) {
            let before = relays[0];
            let (after, number) = trace::play(before, call);
            relays[0] = after;
            for stroke in &split[from..end] {
                let (after, answered) = trace::play(relays[1], stroke);
                assert_eq!(answered, number);
                relays[1] = after;
            }
            from = end;
            assert_eq!(relays[0], relays[1]);
            if matches!(call, Call::Reset { .. }) && number == 0 {
                resets += 1;
                cleared += usize::from(before != after);
            }
        }
        let histories = [History::of(settings, &calls), History::of(settings, &split)];
        for n in 0..histories[0].frames.len() {
            assert_eq!(histories[0].output(n), histories[1].output(n));
        }
        for (latch, on) in [
            (Latch::Loss, relays[0].channels.map(|channel| channel.loss_latch)),
            (Latch::Over, relays[0].channels.map(|channel| channel.over_latch)),
        ] {
            assert_eq!(std::array::from_fn(|c| histories[0].is_on(latch, c, calls.len())), on);
            assert_eq!(std::array::from_fn(|c| histories[1].is_on(latch, c, split.len())), on);
        }
    }
    println!("resets {resets}, of which {cleared} cleared something");
    assert!(resets > 1000 && cleared > 300);
}

/// What the law does not say: a frame between the strokes may make a difference. By
/// hand: the wave meets pickup 1603, so frame 90 makes channel 3's over run 1 after
/// mask 8, and mask 16 leaves it. At once before the frame, both runs are 1 after it;
/// at once after the frame, both are 0.
#[test]
fn a_frame_between_the_strokes_may_differ() {
    let relay = start().relay;
    let next = |relay| frame(relay, strokes::codes(90), ENABLE).relay;
    let over_runs = |relay: &Relay| [relay.channels[3].over_run, relay.channels[4].over_run];
    let between = pressed(next(pressed(relay, &[8])), &[16]);
    let before = next(pressed(relay, &[24]));
    let after = pressed(next(relay), &[24]);
    assert_eq!([between, before, after].map(|relay| over_runs(&relay)), [[1, 0], [1, 1], [0, 0]]);
    // Three frames more: four in all for channel 3, three for channel 4.
    let outputs = [between, before, after].map(|relay| {
        let answer = |relay: Relay, n| frame(relay, strokes::codes(n), ENABLE);
        answer(answer(answer(relay, 91).relay, 92).relay, 93).output
    });
    assert_eq!(outputs, [0x2F, 0x3F, 0x27]);
    // In a frame that counts nothing there is no difference.
    let young = Relay { age: 5, ..relay };
    assert_eq!(pressed(next(pressed(young, &[8])), &[16]), pressed(next(young), &[24]));
    assert_eq!(pressed(next(pressed(young, &[8])), &[16]), next(pressed(young, &[24])));
}

/// The law is on accepted masks. Bit 6 or 7 is refused by 5, and the other bits of
/// such a mask clear nothing: 64 then 1 is 1, but 65 at once is refused.
#[test]
fn a_refused_mask_is_no_stroke() {
    let relay = start().relay;
    let one = reset(relay, 1);
    assert!(one.number == 0 && one.relay != relay);
    assert_eq!(reset(relay, 64), Reset { number: 5, relay });
    assert_eq!(reset(reset(relay, 64).relay, 1), one);
    assert_eq!(reset(relay, 65), Reset { number: 5, relay });
    for relay in made_up().into_iter().step_by(20).chain([relay]) {
        for refused in 64..=255 {
            assert_eq!(reset(relay, refused), Reset { number: 5, relay });
            for mask in MASKS {
                let alone = reset(relay, mask);
                assert_eq!(alone.number, 0);
                assert_eq!(reset(reset(relay, refused).relay, mask), alone);
                assert_eq!(reset(alone.relay, refused), Reset { number: 5, relay: alone.relay });
                assert_eq!(reset(relay, refused | mask), Reset { number: 5, relay });
            }
        }
    }
}

/// Nor is it on relays that are not sound: these come back as given, and no stroke
/// heals them, even one that names the channel with the fault.
#[test]
fn no_stroke_heals_an_unsound_relay() {
    let relay = start().relay;
    let mut unsound = vec![Relay { age: 73, ..relay }, Relay { slot: 8, ..relay }, Relay::default()];
    for c in 0..6 {
        let mut loss = relay;
        loss.channels[c].loss_run = 17;
        let mut over = relay;
        over.channels[c].over_run = 5;
        let mut latch = relay;
        latch.channels[c].over_latch = true;
        unsound.extend([loss, over]);
        unsound.extend((c < 3).then_some(latch));
    }
    for relay in unsound {
        for mask in 0..=255 {
            assert_eq!(reset(relay, mask), Reset { number: 2, relay });
        }
    }
}

/// The relay as printed, word by word. It does not go by the comparison of relays.
fn words(relay: &Relay) -> Vec<String> {
    format!("{relay:?}").split([' ', ',', '[', ']']).map(String::from).collect()
}

/// What the last line of the text counts: 89 relays, each with one word other than
/// in the relay, each at another place.
#[test]
fn each_field_alone_makes_a_relay_different() {
    let relay = start().relay;
    let printed = words(&relay);
    let values = printed.iter().filter(|word| word.parse::<i64>().is_ok() || word.parse::<bool>().is_ok());
    assert_eq!(values.count(), 89);
    let mut places = Vec::new();
    for altered in strokes::altered(relay) {
        let other = words(&altered);
        assert_eq!(other.len(), printed.len());
        let differing: Vec<usize> = (0..printed.len()).filter(|&place| other[place] != printed[place]).collect();
        assert_eq!(differing.len(), 1, "{altered:?}");
        assert_ne!(altered, relay);
        places.extend(differing);
    }
    places.sort();
    places.dedup();
    assert_eq!(places.len(), 89);
}

/// By hand. Still channels have amplitude 0, below drop 1: loss latches in frame 87.
/// The wave has 1603: over latches of channels 3 and 4 in frame 75. So all six are on
/// in frame 89. Without channels 3 and 4, 3F is 27; their runs are 1 in frame 90. Each
/// channel has something to clear, so b adds nothing to a where a has all of b: a
/// channel is in none, in a alone or in both, and 3 to the power of 6 is 729. Fields
/// are 6 times 12 in the channels, 3, 12 levels and 2 lengths: 89.
#[test]
fn the_text_of_the_strokes() {
    let relay = start().relay;
    assert_eq!(relay.settings, Settings { levels: BASE, lengths: LENGTHS });
    assert_eq!((relay.age, relay.slot, relay.device_on), (72, 2, true));
    for (c, channel) in relay.channels.iter().enumerate() {
        let wave = WAVE.map(|code| code as i16 - 512);
        let expected = if c == 3 || c == 4 {
            Channel { samples: wave, loss_run: 0, over_run: 4, loss_latch: false, over_latch: true }
        } else {
            Channel { samples: [0; 8], loss_run: 16, over_run: 0, loss_latch: true, over_latch: false }
        };
        assert_eq!(*channel, expected);
    }
    let expected = "\
89 0 0 0 1603 1603 0 3F
8 answers 0
16 answers 0
90 0 0 0 1603 1603 0 27
16 answers 0
8 answers 0
90 0 0 0 1603 1603 0 27
24 answers 0
90 0 0 0 1603 1603 0 27
8 then 16, and 16 then 8: equal
8 then 16, and 24: equal
16 then 8, and 24: equal
8 then 8, and 8: equal
0, and no press: equal
8, and 24: different
8, and 16: different
8, frame 90, 16, and frame 90, 24: different
a then b, b then a, and both at once are equal: 4096 of 4096 pairs of masks
a then b, and a alone, are equal: 729 of 4096 pairs of masks
one field altered, and not: different in 89 of 89 fields
";
    assert_eq!(strokes::text(), expected);
}
