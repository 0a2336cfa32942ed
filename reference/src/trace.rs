//! Random calls with their answers, as numbers, for a test of the C twin. A
//! line is: kind, what is handed in, what is handed back. c/check.c reads it.
//! Random lists of calls on a fresh relay too, for tests of the history.

use crate::amplitude::{amplitude, amplitude_of_order, estimate, Window, COSINE};
use crate::capture::{read, strongest, write, CELLS, MOST_FRAMES, WINDOW};
use crate::generator::{generate, GIVEN};
use crate::history::Call;
use crate::prng::Prng;
use crate::relay::{
    change, frame, fresh, reset, Channel, Lengths, Levels, Relay, Settings, FIRST_CURRENT, FULL_AGE, HIGHEST_LENGTH,
    HIGHEST_LEVEL, HIGHEST_RESTRAINT,
};

/// What cells and bytes hold before a call, to see that the rest is untouched.
pub const OLD: u8 = 0xEE;

#[derive(Default)]
struct Line(Vec<i64>);

impl Line {
    fn put(&mut self, number: impl TryInto<i64>) {
        self.0.push(number.try_into().ok().expect("small numbers only"));
    }

    fn put_all<T: Copy + TryInto<i64>>(&mut self, numbers: &[T]) {
        for &number in numbers {
            self.put(number);
        }
    }

    fn levels(&mut self, levels: &Levels) {
        self.put_all(&levels.drop);
        self.put_all(&levels.pickup);
        self.put_all(&levels.restraint);
    }

    fn settings(&mut self, settings: &Settings) {
        self.levels(&settings.levels);
        self.put_all(&[settings.lengths.loss, settings.lengths.over]);
    }

    fn relay(&mut self, relay: &Relay) {
        self.settings(&relay.settings);
        self.put_all(&[relay.age, relay.slot, u8::from(relay.device_on)]);
        for channel in &relay.channels {
            self.put_all(&channel.samples);
            self.put_all(&[channel.loss_run, channel.over_run]);
            self.put_all(&[u8::from(channel.loss_latch), u8::from(channel.over_latch)]);
        }
    }
}

fn level(prng: &mut Prng) -> u16 {
    match prng.below(60) {
        0 => 1,
        1 => 10_700,
        _ => prng.within(1, 10_700) as u16,
    }
}

fn restraint(prng: &mut Prng) -> u8 {
    match prng.below(6) {
        0 => 0,
        1 => [1, 100][prng.below(2) as usize],
        _ => prng.within(1, 100) as u8,
    }
}

fn levels(prng: &mut Prng) -> Levels {
    let mut levels = Levels {
        drop: std::array::from_fn(|_| level(prng)),
        pickup: std::array::from_fn(|_| level(prng)),
        restraint: std::array::from_fn(|_| restraint(prng)),
    };
    if prng.once_in(8) {
        spoil_restraint(prng, &mut levels);
    }
    if prng.once_in(8) {
        spoil_level(prng, &mut levels);
    }
    levels
}

/// One of the nine levels out of range.
fn spoil_level(prng: &mut Prng, levels: &mut Levels) {
    let wrong = [0, 10_701, 65_535][prng.below(3) as usize];
    match prng.below(9) as usize {
        c @ 0..=5 => levels.drop[c] = wrong,
        c => levels.pickup[c - 6] = wrong,
    }
}

/// One of the restraint levels above 100.
fn spoil_restraint(prng: &mut Prng, levels: &mut Levels) {
    levels.restraint[prng.below(3) as usize] = [101, 255][prng.below(2) as usize];
}

/// A run length in range: any of them, some of them more often, and short ones,
/// so that latches go on.
fn length(prng: &mut Prng) -> u8 {
    match prng.below(8) {
        0 | 1 => [1, 4, 16, 24][prng.below(4) as usize],
        2 => prng.within(1, 6) as u8,
        _ => prng.within(1, HIGHEST_LENGTH.into()) as u8,
    }
}

/// Either may be the greater.
pub(crate) fn lengths(prng: &mut Prng) -> Lengths {
    Lengths { loss: length(prng), over: length(prng) }
}

/// Settings that make a relay more often than not.
fn settings(prng: &mut Prng) -> Settings {
    let mut settings = Settings { levels: levels(prng), lengths: lengths(prng) };
    if prng.once_in(10) {
        let lengths = &mut settings.lengths;
        let wrong = [0, 25, 255, prng.within(25, 255) as u8][prng.below(4) as usize];
        *[&mut lengths.loss, &mut lengths.over][prng.below(2) as usize] = wrong;
    }
    settings
}

/// A run up to its length, often at it or one below.
fn run(prng: &mut Prng, length: u8) -> u8 {
    match prng.below(4) {
        0 => length,
        1 => length.saturating_sub(1),
        _ => prng.within(0, length.into()) as u8,
    }
}

/// A run above its length, often by one, or one that a greater length would allow.
fn run_above(prng: &mut Prng, length: u8) -> u8 {
    let least = length.saturating_add(1);
    let most = [least, least.max(HIGHEST_LENGTH), 255][prng.below(3) as usize];
    prng.within(least.into(), most.into()) as u8
}

/// Windows at restraint level 37: amplitudes 100 and 37, which is at equality and
/// restrains, and 173 and 64, which is one less and does not.
pub const AT_37: [Window; 2] = [[4, 18, -10, 12, -3, -14, 8, 1], [-7, -14, -1, 10, 9, 13, 3, 5]];

/// A window at random: noise, or a wave with a second harmonic of up to half
/// its peak, or one of the two above.
fn window(prng: &mut Prng, spread: i64) -> Window {
    if prng.once_in(8) {
        return AT_37[prng.below(2) as usize];
    }
    if prng.once_in(2) {
        return std::array::from_fn(|_| prng.within(-spread, spread - 1) as i16);
    }
    let peak = prng.within(0, 330);
    let second = prng.within(0, peak / 2);
    let turn = prng.below(8) as usize;
    std::array::from_fn(|k| {
        let sum = peak * COSINE[(k + turn) % 8] + second * COSINE[2 * (k + turn) % 8];
        ((sum >> 14) + prng.within(-2, 2)) as i16
    })
}

/// A relay at random, sound more often than not, with either remembered bit. Some
/// have a length out of range and runs up to it, some a run above its length.
pub fn relay(prng: &mut Prng) -> Relay {
    let spread = prng.within(1, 512);
    let mut relay = Relay {
        settings: settings(prng),
        age: if prng.once_in(4) { prng.within(0, 72) as u8 } else { 72 },
        slot: prng.below(8) as u8,
        device_on: !prng.once_in(3),
        ..Relay::default()
    };
    let lengths = relay.settings.lengths;
    for c in 0..6 {
        relay.channels[c] = Channel {
            samples: window(prng, spread),
            loss_run: run(prng, lengths.loss),
            over_run: if c < FIRST_CURRENT { 0 } else { run(prng, lengths.over) },
            loss_latch: prng.once_in(3),
            over_latch: c >= FIRST_CURRENT && prng.once_in(3),
        };
    }
    if prng.once_in(5) {
        let c = prng.below(6) as usize;
        let slot = prng.below(8) as usize;
        let channel = &mut relay.channels[c];
        match prng.below(7) {
            0 => channel.samples[slot] = [-513, 512, i16::MIN, i16::MAX][prng.below(4) as usize],
            1 => channel.loss_run = run_above(prng, lengths.loss),
            2 => channel.over_run = run_above(prng, if c < FIRST_CURRENT { 0 } else { lengths.over }),
            3 => channel.over_latch = true,
            4 => relay.age = prng.within(73, 255) as u8,
            5 => relay.slot = prng.within(8, 255) as u8,
            _ => relay.settings.levels.drop[c] = 0,
        }
    }
    relay
}

fn cells(prng: &mut Prng) -> Vec<u16> {
    let spread = prng.within(1, 512);
    let mut cells: Vec<u16> = (0..7 * prng.below(20))
        .map(|at| if at % 7 == 6 { prng.below(128) as u16 } else { (512 + prng.within(-spread, spread - 1)) as u16 })
        .collect();
    if prng.once_in(5) && !cells.is_empty() {
        let at = prng.below(cells.len() as u64) as usize;
        cells[at] = [128, 255, 256, 1023, 1024, 65_535][prng.below(6) as usize];
    }
    if prng.once_in(6) {
        cells.push(0);
    }
    cells
}

/// So many lines, and after them one of the generator for each hundred.
pub fn text(lines: usize) -> String {
    let mut prng = Prng(7);
    let mut text = String::new();
    let mut add = |line: Line| {
        let numbers: Vec<String> = line.0.iter().map(i64::to_string).collect();
        text += &numbers.join(" ");
        text += "\n";
    };
    let mut strongest_calls = 0;
    for _ in 0..lines {
        add(match prng.below(11) {
            0 => fresh_line(&mut prng),
            1 => reset_line(&mut prng),
            2 => read_line(&mut prng),
            3 => write_line(&mut prng),
            4 => {
                strongest_calls += 1;
                strongest_line(&mut prng, strongest_calls)
            }
            5 => estimate_line(&mut prng),
            6 => change_line(&mut prng),
            _ => frame_line(&mut prng),
        });
    }
    for call in 0..lines / GENERATOR_SHARE {
        add(generator_line(call));
    }
    text
}

fn fresh_line(prng: &mut Prng) -> Line {
    let settings = settings(prng);
    let answer = fresh(settings);
    let mut line = Line(vec![1]);
    line.settings(&settings);
    line.put(answer.number);
    line.relay(&answer.relay);
    line
}

/// What a frame is given: a relay, codes and the enable byte. Half of the codes
/// leave the window as it is. Bit 6 is mostly on, whatever the relay remembers.
pub fn frame_arguments(prng: &mut Prng) -> (Relay, [u16; 6], u8) {
    let mut relay = relay(prng);
    let slot = usize::from(relay.slot % 8);
    let mut codes: [u16; 6] = std::array::from_fn(|c| {
        let old = relay.channels[c].samples[slot];
        if prng.once_in(2) && (-512..=511).contains(&old) {
            (old + 512) as u16
        } else {
            prng.code()
        }
    });
    // A restraint level at the edge: the highest that restrains, or one above.
    if prng.once_in(2) {
        let c = prng.below(3) as usize;
        let mut window = relay.channels[FIRST_CURRENT + c].samples;
        window[slot] = codes[FIRST_CURRENT + c] as i16 - 512;
        let (m1, m2) = (amplitude(&window), amplitude_of_order(&window, 2));
        if m1 > 0 && m2 < m1 {
            relay.settings.levels.restraint[c] = (100 * m2 / m1 + prng.within(0, 1)) as u8;
            relay.settings.levels.pickup[c] = prng.within(1, m1.min(10_700)) as u16;
        }
    }
    if prng.once_in(10) {
        codes[prng.below(6) as usize] = [1024, 65_535][prng.below(2) as usize];
    }
    let enable = match prng.below(8) {
        0 => prng.below(256),
        1 => prng.below(64),
        _ => 0x40 | prng.below(64),
    } as u8;
    (relay, codes, enable)
}

fn frame_line(prng: &mut Prng) -> Line {
    let (relay, codes, enable) = frame_arguments(prng);
    let answer = frame(relay, codes, enable);
    let mut line = Line(vec![2]);
    line.relay(&relay);
    line.put_all(&codes);
    line.put(enable);
    line.put(answer.number);
    line.relay(&answer.relay);
    line.put_all(&answer.amplitudes);
    line.put(answer.output);
    line
}

fn reset_line(prng: &mut Prng) -> Line {
    let relay = relay(prng);
    let mask = if prng.once_in(4) { prng.below(256) } else { prng.below(64) } as u8;
    let answer = reset(relay, mask);
    let mut line = Line(vec![3]);
    line.relay(&relay);
    line.put(mask);
    line.put(answer.number);
    line.relay(&answer.relay);
    line
}

/// What a change is given: a relay and levels. The levels are the relay's own in
/// many places: all the same, one off by one, or each the same or another. Then,
/// now and then, a level is out of range, a restraint level above 100, or both.
pub fn change_arguments(prng: &mut Prng) -> (Relay, Levels) {
    let relay = relay(prng);
    let mut new = relay.settings.levels;
    match prng.below(8) {
        0 => {}
        1 | 2 | 3 => {
            let up = prng.once_in(2);
            let off_by_one = |level: u16| if up { level.saturating_add(1) } else { level.saturating_sub(1) };
            match prng.below(12) as usize {
                c @ 0..=5 => new.drop[c] = off_by_one(new.drop[c]),
                c @ 6..=8 => new.pickup[c - 6] = off_by_one(new.pickup[c - 6]),
                c => new.restraint[c - 9] = off_by_one(new.restraint[c - 9].into()).min(255) as u8,
            }
        }
        _ => {
            let other = levels(prng);
            let mut mixed = |old: u16, new: u16| if prng.once_in(2) { old } else { new };
            new.drop = std::array::from_fn(|c| mixed(new.drop[c], other.drop[c]));
            new.pickup = std::array::from_fn(|c| mixed(new.pickup[c], other.pickup[c]));
            new.restraint = std::array::from_fn(|c| mixed(new.restraint[c].into(), other.restraint[c].into()) as u8);
        }
    }
    if prng.once_in(8) {
        spoil_level(prng, &mut new);
    }
    if prng.once_in(8) {
        spoil_restraint(prng, &mut new);
    }
    (relay, new)
}

fn change_line(prng: &mut Prng) -> Line {
    let (relay, levels) = change_arguments(prng);
    let answer = change(relay, levels);
    let mut line = Line(vec![8]);
    line.relay(&relay);
    line.levels(&levels);
    line.put(answer.number);
    line.relay(&answer.relay);
    line
}

fn read_line(prng: &mut Prng) -> Line {
    let mut bytes = vec![0; 400 * 7];
    let mut source = cells(prng);
    source.truncate(source.len() / 7 * 7);
    let written = write(&source, &mut bytes);
    bytes.truncate(written.count);
    if prng.once_in(2) && !bytes.is_empty() {
        let at = prng.below(bytes.len() as u64) as usize;
        match prng.below(3) {
            0 => bytes[at] = prng.below(256) as u8,
            1 => bytes.truncate(at),
            _ => bytes.insert(at, prng.below(256) as u8),
        }
    }
    let mut room = (source.len() as i64 + prng.within(-2, 9)).max(0) as usize;
    // No bytes, mostly because the cells were not fit to be written: half of them go
    // into few cells or none. Nothing is drawn for it, so all other lines stay.
    if bytes.is_empty() && room % 2 == 0 {
        room = room / 2 % 10;
    }
    let mut cells = vec![u16::from(OLD); room];
    let answer = read(&bytes, &mut cells);
    let mut line = Line(vec![4]);
    line.put(bytes.len());
    line.put_all(&bytes);
    line.put(room);
    line.put(answer.number);
    line.put(answer.count);
    line.put_all(&cells);
    line
}

fn write_line(prng: &mut Prng) -> Line {
    let cells = cells(prng);
    let needed = write(&cells, &mut [OLD; 400 * 7]).count;
    let room = (needed as i64 + prng.within(-2, 9)).max(0) as usize;
    let mut bytes = vec![OLD; room];
    let answer = write(&cells, &mut bytes);
    let mut line = Line(vec![5]);
    line.put(cells.len());
    line.put_all(&cells);
    line.put(room);
    line.put(answer.number);
    line.put(answer.count);
    line.put_all(&bytes);
    line
}

/// One call in so many of the strongest window has a long capture: few, since such
/// a line is as long as two hundred others.
const LONG_SHARE: usize = 500;

/// Long cells and a channel, by their number. Of three in a row one is accepted and
/// has 4,096 frames, one is refused, and one has 4,089 to 4,095 frames, so that eights
/// of frames leave some over.
fn long_arguments(number: usize) -> (Vec<u16>, usize) {
    let mut prng = Prng(number as u64);
    let kind = number / 3;
    let frames = if number % 3 == 2 { MOST_FRAMES - 1 - kind % 7 } else { MOST_FRAMES };
    let last = frames - 1;
    // Quiet but for one frame, or two that tie, at the edges of the first and the last
    // window; else noise.
    let (first_end, last_start) = (WINDOW - 1, frames - WINDOW);
    let loud = [
        vec![0],
        vec![first_end],
        vec![first_end + 1],
        vec![last_start - 1],
        vec![last_start],
        vec![last],
        vec![0, last],
        vec![first_end + 1, last_start - 1],
    ];
    let spread = prng.within(1, 512);
    let mut cells: Vec<u16> = (0..CELLS * frames)
        .map(|at| match loud.get(kind % 12) {
            _ if at % CELLS == 6 => prng.below(128) as u16,
            Some(loud) if loud.contains(&(at / CELLS)) => 0,
            Some(_) => 512,
            None => (512 + prng.within(-spread, spread - 1)) as u16,
        })
        .collect();
    let mut channel = prng.below(6) as usize;
    if number % 3 == 1 {
        match kind % 5 {
            0 => cells.push(512),
            1 => channel = 6,
            2 => cells.extend([0; CELLS]),
            3 => cells[CELLS * last + prng.below(6) as usize] = 1024,
            _ => cells[CELLS * last + 6] = 128,
        }
    }
    (cells, channel)
}

/// The `calls`-th call of the strongest window. A long one takes the place of one
/// that was drawn all the same, so all other lines stay.
fn strongest_line(prng: &mut Prng, calls: usize) -> Line {
    let mut cells = cells(prng);
    let mut channel = prng.below(7) as usize;
    if calls % LONG_SHARE == 0 {
        (cells, channel) = long_arguments(calls / LONG_SHARE);
    }
    let answer = strongest(&cells, channel);
    let mut line = Line(vec![6]);
    line.put(cells.len());
    line.put_all(&cells);
    line.put(channel);
    line.put(answer.number);
    line.put(answer.sum);
    line.put(answer.frame);
    line
}

fn estimate_line(prng: &mut Prng) -> Line {
    let spread = prng.within(1, 512);
    let mut samples: Window = match prng.below(4) {
        0 => std::array::from_fn(|_| [-512, 511][prng.below(2) as usize]),
        _ => window(prng, spread),
    };
    if prng.once_in(5) {
        samples[prng.below(8) as usize] = [-513, 512, i16::MIN, i16::MAX][prng.below(4) as usize];
    }
    let order = if prng.once_in(3) { [0, 1, 2, 3, 4, 5, 255][prng.below(7) as usize] } else { 1 + prng.below(3) as u8 };
    let answer = estimate(samples, order);
    let mut line = Line(vec![7]);
    line.put_all(&samples);
    line.put(order);
    line.put(answer.refusal);
    line.put(answer.amplitude);
    line
}

/// One call of the generator for so many other lines.
const GENERATOR_SHARE: usize = 100;
/// One in so many of these is long: few, since such a line has 28,672 cells.
const LONG_GENERATOR_SHARE: usize = 100;

/// Numbers for the generator: noise, or extremes, or one odd number among even ones, its
/// place by the number of the call. Where all are to be even, the odd ones lose a bit.
fn given(prng: &mut Prng, call: usize, all_even: bool) -> [u32; GIVEN] {
    let extremes = [0, 1, 2, 1 << 31, (1 << 31) - 1, (1 << 31) + 1, u32::MAX - 1, u32::MAX];
    let kind = prng.below(3);
    let mut given: [u32; GIVEN] = std::array::from_fn(|_| match prng.below(4) {
        _ if kind == 0 => prng.next() as u32,
        0 => prng.next() as u32,
        _ => extremes[prng.below(8) as usize],
    });
    if all_even || kind == 1 {
        given = given.map(|number| number & !1);
    }
    if !all_even {
        given[call % GIVEN] |= 1;
    }
    given
}

/// What a call of the generator is given: the numbers, how many frames, and room in
/// cells. All even is a fault, and so are too many frames and too little room. Too many
/// frames with room for them are long, so they come only where long calls do.
fn generator_arguments(call: usize) -> ([u32; GIVEN], usize, usize) {
    let mut prng = Prng(call as u64);
    if call % LONG_GENERATOR_SHARE == 0 {
        let kind = call / LONG_GENERATOR_SHARE;
        let frames = MOST_FRAMES - 1 + kind % 3;
        // 4,095 frames, 4,096 and 4,097, each with room for a frame more (4,097 with just
        // enough), with all even, with a cell less than is needed, and with just enough.
        let (all_even, room) = match kind / 3 % 4 {
            0 => (false, CELLS * frames.min(MOST_FRAMES) + CELLS),
            1 => (true, CELLS * frames),
            2 => (false, CELLS * frames - 1),
            _ => (false, CELLS * frames),
        };
        return (given(&mut prng, call, all_even), frames, room);
    }
    let faults = prng.below(16);
    let all_even = faults < 4;
    let frames = match (faults % 4, prng.below(8)) {
        // Refused by 9, if not by 24. Seven times the last two is little, modulo 2^64.
        (2, way) if faults < 8 => {
            [4097, 4098, 8192, 65_536, 1 << 32, i64::MAX as usize, usize::MAX / 7 + 1, usize::MAX / 7 + 2][way as usize]
        }
        (_, 0) => 0,
        (_, 1) if prng.once_in(6) => prng.within(200, 600) as usize,
        _ => prng.within(0, 40) as usize,
    };
    let needed = if frames > MOST_FRAMES { prng.within(0, 99) as usize } else { CELLS * frames };
    let room = match (faults % 4, prng.below(4)) {
        (3, 0) if faults < 12 => prng.below(needed as u64 + 1) as usize,
        (3, _) if faults < 12 => needed.saturating_sub(prng.within(1, 7) as usize),
        (_, 0) => needed + prng.within(1, 20) as usize,
        (_, 1) => needed + CELLS,
        _ => needed,
    };
    (given(&mut prng, call, all_even), frames, room)
}

fn generator_line(call: usize) -> Line {
    let (given, frames, room) = generator_arguments(call);
    let mut cells = vec![u16::from(OLD); room];
    let answer = generate(given, frames, &mut cells);
    let mut line = Line(vec![9]);
    line.put_all(&given);
    line.put(frames);
    line.put(room);
    line.put(answer.number);
    line.put(answer.count);
    line.put_all(&cells);
    line
}

/// The device switch of a list: bit 6 as it is and for how many more accepted
/// frames it stays so, if it ever changes.
struct Switch {
    on: bool,
    left: Option<i64>,
}

impl Switch {
    fn new(prng: &mut Prng) -> Switch {
        let mut switch = Switch { on: true, left: None };
        if !prng.once_in(3) {
            // Now and then the device is off in frame 0.
            switch.on = prng.once_in(6);
            switch.turn(prng);
        }
        switch
    }

    /// Mostly off for a few frames, and on for long enough that frames are
    /// counted again.
    fn turn(&mut self, prng: &mut Prng) {
        self.on = !self.on;
        self.left = Some(match (self.on, prng.below(8)) {
            (true, 0 | 1) => prng.within(1, 71),
            (true, 2) => prng.within(71, 77),
            (true, _) => prng.within(80, 400),
            (false, 0) => prng.within(50, 90),
            (false, 1 | 2 | 3) => 1,
            (false, _) => prng.within(1, 6),
        });
    }

    fn is_at_turn(&self) -> bool {
        self.left == Some(0)
    }

    /// Bit 6 of the next accepted frame.
    fn next(&mut self, prng: &mut Prng) -> u8 {
        if self.is_at_turn() {
            self.turn(prng);
        }
        self.left = self.left.map(|left| left - 1);
        u8::from(self.on) << 6
    }
}

/// Accepted levels for a list. The amplitudes of its waves are often near them.
pub(crate) fn levels_of_list(prng: &mut Prng) -> Levels {
    Levels {
        drop: std::array::from_fn(|_| match prng.below(8) {
            0 => prng.within(1, 4),
            1 => prng.within(10_600, 10_700),
            _ => prng.within(500, 6_000),
        } as u16),
        // Mostly low, so that there are over runs in spite of restraint.
        pickup: std::array::from_fn(|_| match prng.below(16) {
            0 | 1 => prng.within(1, 4),
            2 => prng.within(10_600, 10_700),
            3..=5 => prng.within(2_500, 6_000),
            _ => prng.within(400, 2_500),
        } as u16),
        restraint: std::array::from_fn(|_| match prng.below(9) {
            0 | 1 => 0,
            2 => prng.within(1, 5) as u8,
            3..=5 => 100,
            _ => prng.within(6, 60) as u8,
        }),
    }
}

/// A list of calls on a fresh relay at random, and settings that make one, with
/// lengths of the whole range. The amplitudes are often near the levels. In most
/// lists the device goes off and comes back, and refused frames, mostly with bit 6
/// the other way, and resets come between, more often where it changes. About one
/// call in twenty is a change of levels. It comes mostly where runs are above 0,
/// and the levels stay near the amplitudes. `RunsAtChanges` counts what the changes
/// did: lists of 300,000 calls in all have more than 11,000 of each of its four
/// kinds.
pub fn list(prng: &mut Prng) -> (Settings, Vec<Call>) {
    let settings = Settings { levels: levels_of_list(prng), lengths: lengths(prng) };
    let enable_faults = prng.within(4, 60) as u64;
    let reset_share = prng.within(5, 80) as u64;
    let length = if prng.once_in(4) { prng.below(300) } else { prng.within(300, 900) as u64 } as usize;
    let mut switch = Switch::new(prng);
    let mut peaks = [200i64; 6];
    // The second harmonic, as a part of the peak in hundredths.
    let mut second = [0i64; 6];
    let mut phase = [0; 6];
    let mut frames = 0;
    let mut calls = Vec::new();
    // A relay that plays the list, to see where changes find runs.
    let mut relay = fresh(settings).relay;
    while calls.len() < length {
        let done = calls.len();
        if prng.once_in(if switch.is_at_turn() { 3 } else { reset_share }) {
            let mask = if prng.once_in(4) { prng.below(256) } else { 1 << prng.below(6) };
            calls.push(Call::Reset { mask: mask as u8 });
        }
        if prng.once_in(if switch.is_at_turn() { 6 } else { change_share(&relay) }) {
            calls.extend(changes(prng, &relay).into_iter().map(Call::Change));
        }
        for c in 0..6 {
            if prng.once_in(25) {
                peaks[c] = prng.within(0, 450);
                phase[c] = prng.below(8) as usize;
                second[c] = if prng.once_in(2) { 0 } else { prng.within(0, 60) };
            }
        }
        let codes: [u16; 6] = std::array::from_fn(|c| {
            let slot = frames + phase[c];
            let sum = peaks[c] * COSINE[slot % 8] + peaks[c] * second[c] * COSINE[2 * slot % 8] / 100;
            let code = 512 + (sum >> 14) + prng.within(-3, 3);
            code.clamp(0, 1023) as u16
        });
        if prng.once_in(if !switch.on || switch.is_at_turn() { 3 } else { 30 }) {
            calls.push(refused_frame(prng, codes, switch.on));
        }
        let channels = if prng.once_in(enable_faults) { prng.below(64) as u8 } else { 0x3F };
        calls.push(Call::Frame { codes, enable: switch.next(prng) | channels });
        frames += 1;
        for call in &calls[done..] {
            relay = play(relay, call).0;
        }
    }
    (settings, calls)
}

/// A call on a relay: the relay as it then is, and the number.
pub fn play(relay: Relay, call: &Call) -> (Relay, u8) {
    match *call {
        Call::Frame { codes, enable } => {
            let answer = frame(relay, codes, enable);
            (answer.relay, answer.number)
        }
        Call::Reset { mask } => {
            let answer = reset(relay, mask);
            (answer.relay, answer.number)
        }
        Call::Change(levels) => {
            let answer = change(relay, levels);
            (answer.relay, answer.number)
        }
    }
}

/// A change comes once in so many frames: seldom where there are no runs, often
/// where there are over runs, of which there are fewer than loss runs. It comes
/// less often where over runs are long, so that some get full.
fn change_share(relay: &Relay) -> u64 {
    let over_runs = relay.channels.iter().filter(|channel| channel.over_run > 0).count();
    let long = relay.settings.lengths.over > 6;
    match (relay.age < FULL_AGE, over_runs, long) {
        (true, _, _) => 200,
        (_, 0, _) => 50,
        (_, 1, _) => 18,
        (_, 2, false) => 5,
        (_, 2, true) => 8,
        (_, _, false) => 2,
        (_, _, true) => 5,
    }
}

/// The places of the twelve levels: six drops, three pickups, three restraints.
const PLACES: usize = 12;

/// One change, or two at once of which the second takes the first back. Refused
/// ones are among them, with other levels moved too.
fn changes(prng: &mut Prng, relay: &Relay) -> Vec<Levels> {
    let old = relay.settings.levels;
    let mut new = old;
    // Which levels move: none, one, all of a kind as in summer, or some of all.
    match prng.below(15) {
        0 => {}
        1..=3 => {
            let place = prng.below(PLACES as u64) as usize;
            move_level(prng, &mut new, place, relay);
        }
        4 | 5 => {
            let places = [0..6, 6..9, 9..12][prng.below(3) as usize].clone();
            for place in places {
                move_level(prng, &mut new, place, relay);
            }
        }
        _ => {
            for place in 0..PLACES {
                if prng.once_in(2) {
                    move_level(prng, &mut new, place, relay);
                }
            }
        }
    }
    match prng.below(10) {
        // Refused by 1, by 20, or by 1 with both faults.
        0 => {
            let faults = prng.within(1, 3);
            if faults & 1 != 0 {
                spoil_level(prng, &mut new);
            }
            if faults & 2 != 0 {
                spoil_restraint(prng, &mut new);
            }
            vec![new]
        }
        1 => vec![new, old],
        _ => vec![new],
    }
}

/// Moves one of the twelve levels: mostly by a little, now and then to the edge
/// of what the channel's window has now, or near it.
pub(crate) fn move_level(prng: &mut Prng, levels: &mut Levels, place: usize, relay: &Relay) {
    let channel = if place < 6 { place } else { FIRST_CURRENT + place % 3 };
    let window = &relay.channels[channel].samples;
    let m = amplitude(window);
    let little = prng.within(1, 3) * if prng.once_in(2) { 1 } else { -1 };
    let way = prng.below(8);
    // Near the amplitude is mostly on the side where the level is met.
    let mut moved = |level: u16, met: i64| {
        let moved = match way {
            0 => m + prng.within(-1, 2),
            1 => m + met * prng.within(-100, 600),
            _ => i64::from(level) + little,
        };
        moved.clamp(1, HIGHEST_LEVEL.into()) as u16
    };
    match place {
        0..=5 => levels.drop[place] = moved(levels.drop[place], 1),
        6..=8 => levels.pickup[place - 6] = moved(levels.pickup[place - 6], -1),
        _ => {
            let r = &mut levels.restraint[place - 9];
            let moved = match way {
                0 => 100 * amplitude_of_order(window, 2) / m.max(1) + prng.within(0, 1),
                1 => [0, 100][prng.below(2) as usize],
                _ => i64::from(*r) + little,
            };
            *r = moved.clamp(0, HIGHEST_RESTRAINT.into()) as u8;
        }
    }
}

/// How many runs above 0 accepted changes kept, and how many they made 0. A test
/// that compares two relays on lists counts here what its lists met.
#[derive(Clone, Copy, Debug, Default, PartialEq, Eq)]
pub struct RunsAtChanges {
    pub loss_kept: u64,
    pub loss_broken: u64,
    pub over_kept: u64,
    pub over_broken: u64,
}

impl RunsAtChanges {
    /// Adds one accepted change, by the relay before and after it.
    pub fn add_change(&mut self, before: &Relay, after: &Relay) {
        for (before, after) in before.channels.iter().zip(&after.channels) {
            self.loss_kept += u64::from(before.loss_run > 0 && after.loss_run > 0);
            self.loss_broken += u64::from(before.loss_run > 0 && after.loss_run == 0);
            self.over_kept += u64::from(before.over_run > 0 && after.over_run > 0);
            self.over_broken += u64::from(before.over_run > 0 && after.over_run == 0);
        }
    }

    /// Adds the accepted changes of a list of calls on a fresh relay.
    pub fn add_list(&mut self, settings: Settings, calls: &[Call]) {
        let mut relay = fresh(settings).relay;
        for call in calls {
            let (next, number) = play(relay, call);
            if matches!(call, Call::Change(_)) && number == 0 {
                self.add_change(&relay, &next);
            }
            relay = next;
        }
    }
}

/// A frame refused by 3 or 4, with bit 6 mostly other than `on`.
fn refused_frame(prng: &mut Prng, mut codes: [u16; 6], on: bool) -> Call {
    let device = on == prng.once_in(4);
    let mut enable = u8::from(device) << 6 | prng.below(64) as u8;
    let causes = prng.within(1, 3);
    if causes & 1 != 0 {
        codes[prng.below(6) as usize] = prng.within(1024, 65_535) as u16;
    }
    if causes & 2 != 0 {
        enable |= 0x80;
    }
    Call::Frame { codes, enable }
}
