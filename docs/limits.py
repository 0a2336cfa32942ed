#!/usr/bin/env python3
"""Computes every figure of LIMITS.md from the rules of document 01 and of Papers 5, 6, 8, 9 and 12, and fails where it says something else.

Standard library only, about a minute on one core of its own. `say` prints a sentence made of computed figures and looks it up, word for word,
in the page's section of the same number; `cite` names what was read by hand in a document. A number of the page that neither has
met is a fault too. Nothing here is a proof: a sweep covers the phases, slots, signs and steps that its lines name, and no more.
"""
import itertools
import math
import os
import random
import re
import sys
from decimal import Decimal, getcontext

TAU = 2 * math.pi
FULL = 16 * 512                        # a code of 512 in sixteenths
OVER, LOSS, SETTLED = 4, 16, 72        # the bench program's run lengths; the age from which frames count
LENGTHS = range(1, 25)                 # Paper 9: what either length may be
SIX = (0.5, 1, 2, 3, 4, 5)             # time constants of documents 000 and 003, in cycles
TAUS = (0.5, 0.65, 1, 2, 3, 4, 5)      # and the one where the overreach is greatest
LEVELS = (10, 15, 20, 30, 50, 100)     # restraint levels r of section 8
getcontext().prec = 40


# ---- the page

def plain(text):
    return ' '.join(text.replace('**', '').split())


with open(os.path.join(os.path.dirname(os.path.abspath(__file__)), 'LIMITS.md'), encoding='utf-8') as page:
    LEFT = [plain(part) for part in re.split(r'^## ', page.read(), flags=re.M)]   # LEFT[n]: what of section n is still to be met
FAULTS, NOW = [], 0


def head(n):
    global NOW
    NOW = n
    title = '%d.' % n if n else ''
    print('\nSection %d' % n)
    if not LEFT[n].startswith(title):
        FAULTS.append('section %d is not where it was' % n)
    LEFT[n] = LEFT[n][len(title):]


def strike(text):
    text = plain(text)
    if text not in LEFT[NOW]:
        FAULTS.append('section %d does not say: %s' % (NOW, text))
    LEFT[NOW] = LEFT[NOW].replace(text, ' # ', 1)


def say(text):
    print('  ' + text)
    strike(text)


def row(*cells):
    say('| ' + ' | '.join(cells) + ' |')


def cite(*texts):
    for text in texts:
        strike(text)


def num(v, digits=0, sign=''):
    return format(v, sign + ',.%df' % digits).replace('-', '−')


def span(vs, digits=0, sign='', word=' to '):
    return num(min(vs), digits, sign) + word + num(max(vs), digits, sign)


# ---- the relay

COSINE = (16384, 11585, 0, -11585, -16384, -11585, 0, 11585)
SINE = (0, 11585, 16384, 11585, 0, -11585, -16384, -11585)


def cordic(re, im):
    """Document 01: m of the two sums; step 0 has y >= 0 and shifts nothing."""
    x, y = abs(re), abs(im)
    x, y = x + y, y - x
    for i in (1, 2, 3, 4, 5, 6, 7, 8, 9, 10, 11, 12, 13, 14, 15):
        if y >= 0:
            x, y = x + (y >> i), y - (x >> i)
        else:
            x, y = x - (y >> i), y + (x >> i)
    return x * 39797 >> 28


def amplitude(w):
    """Document 01: m of a window, w[k] being the sample in slot k."""
    s0, s1, s2, s3, s4, s5, s6, s7 = w
    return cordic(16384 * (s0 - s4) + 11585 * (s1 - s3 - s5 + s7), 16384 * (s2 - s6) + 11585 * (s1 + s3 - s5 - s7))


def second(w):
    """Paper 8: m of order 2."""
    s0, s1, s2, s3, s4, s5, s6, s7 = w
    return cordic(16384 * (s0 - s2 + s4 - s6), 16384 * (s1 - s3 + s5 - s7))


def estimate(w, p):
    """Paper 8: m of order p."""
    return cordic(*(sum(s * table[p * k % 8] for k, s in enumerate(w)) for table in (COSINE, SINE)))


def exact(w):
    """Document 01: Z of a window, Z² = P + Q√2, to more than 30 digits."""
    a, b = w[0] - w[4], w[1] - w[3] - w[5] + w[7]
    c, d = w[2] - w[6], w[1] + w[3] - w[5] - w[7]
    return (16 * (a * a + c * c) + 8 * (b * b + d * d) + 16 * (a * b + c * d) * Decimal(2).sqrt()).sqrt()


def channel(calls, pickup, drop, r=0, over_length=OVER, loss_length=LOSS):
    """One current channel by document 01 and Papers 5, 6, 8 and 9. A call is (sample, its bit), with bit 6 on, (sample, its bit, bit 6), 'reset' or
    new levels ('levels', pickup, drop, r). For each frame: m, over latch, loss latch, output bit, and the whole state that the next call finds;
    the run lengths are fixed when the relay is made."""
    assert over_length in LENGTHS and loss_length in LENGTHS
    w, age, slot, over, loss, lo, ll, out = [0] * 8, 0, 0, 0, 0, False, False, []
    was = True
    for c in calls:
        if c == 'reset':
            over = loss = 0
            lo = ll = False
            continue
        if c[0] == 'levels':
            over, loss = over if (pickup, r) == (c[1], c[3]) else 0, loss if drop == c[2] else 0
            pickup, drop, r = c[1:]
            continue
        s, device = c[0], c[2] if len(c) > 2 else True
        on = c[1] and device
        if device and not was:
            age = 0
        was = device
        w[slot] = s
        m = amplitude(w)
        if age < SETTLED:
            age += 1
        elif not on:
            over = loss = 0
        else:
            loss = min(loss_length, loss + 1) if m < drop else 0
            over = min(over_length, over + 1) if m >= pickup and (r == 0 or 100 * second(w) < r * m) else 0
        ll, lo = ll or loss == loss_length, lo or over == over_length
        slot = (slot + 1) % 8
        out.append((m, lo, ll, (lo or ll) and on, (tuple(w), age, slot, was, over, loss, lo, ll)))
    return out


def enabled(samples):
    return [(s, True) for s in samples]


# ---- samples and readings

def sample(v):
    """A converter of whole codes: nearest code, halves up, clipped at ten bits. The 1e-9 is for a half that floating point missed."""
    return max(-512, min(511, math.floor(v + 0.5 + 1e-9)))


def sine(a, phase, n=8, f=60.0):
    return [sample(a * math.cos(TAU * f * k / 480 + phase)) for k in range(n)]


def phases(n):
    return [TAU * k / n for k in range(n)]


def every(a, h=1):
    """Phases that give every window of a sine of a codes, h-th harmonic: those with a sample halfway between two codes, and one between each two."""
    half = [s * math.acos((j + 0.5) / a) for j in range(-512, 511) if abs(j + 0.5) <= a for s in (1, -1)]
    at = sorted({round((p - TAU * h * k / 8) % TAU, 13) for p in half for k in range(8)})
    return at + [(p + q) / 2 for p, q in zip(at, at[1:] + [at[0] + TAU])]


def steady(a, h=1):
    """The windows of a steady sine in every phase; a phase turned by a slot is a phase too, so every slot is in it."""
    return [[sample(a * math.cos(TAU * h * k / 8 + p)) for k in range(8)] for p in every(a, h)]


def frames(samples, first=0, before=(0,) * 8):
    """m of each frame; the first goes to slot `first` of the window before."""
    w = list(before)
    for n, s in enumerate(samples, first):
        w[n % 8] = s
        yield amplitude(w)


def readings(*args):
    return list(frames(*args))


def latch(ms, met, run):
    """Frames until `run` successive ones satisfy `met`, the first being 1; asks for no further m."""
    r = 0
    for n, m in enumerate(ms, 1):
        r = r + 1 if met(m) else 0
        if r == run:
            return n


def four(ms):
    """The highest pickup that four successive frames of ms meet."""
    return max(map(min, ms, ms[1:], ms[2:], ms[3:]))


def filtered(signal, n, sub=20):
    """Samples of signal(t) after document 001's filter (1.3), started at rest at t = 0, by the bilinear rule in steps of 1/(480 sub) s;
    four times n of them, the first frame 0, 1/4, 1/2 and 3/4 of a frame after t = 0."""
    h = 480.0 * sub * 2
    b = 125.7 * h
    d0, d1, d2 = h * h + b + 138174, 2 * 138174 - 2 * h * h, h * h - b + 138174
    x1 = x2 = y1 = y2 = 0.0
    out = []
    for k in range(n * sub):
        x = signal(k / (480.0 * sub))
        y = (b * (x - x2) - d1 * y1 - d2 * y2) / d0
        x2, x1, y2, y1 = x1, x, y1, y
        out.append(y)
    return [[sample(y) for y in out[d::sub]] for d in range(0, sub, sub // 4)]


# ---- the sections

def opening():
    head(0)
    wave = [100, 71, 0, -71, -100, -71, 0, 71]
    got = [amplitude([0] * 8), amplitude([100] * 8), amplitude(wave), amplitude([100] + [0] * 7), amplitude([0, 100] + [0] * 6)]
    over = [k for k, r in enumerate(channel(enabled(wave * 25), 1603, 1)) if r[1]]
    never = [k for k, r in enumerate(channel(enabled(wave * 25), 1604, 1)) if r[1]]
    loss = [k for k, r in enumerate(channel(enabled([0] * 100), 1, 1)) if r[2]]
    print('  bench figures 0, 0, 1603, 400, 399, frames 75, none, 87:', got, over[0], never, loss[0])
    assert (got, over[0], never, loss[0]) == ([0, 0, 1603, 400, 399], 75, [], 87)
    say('full scale (512 codes) is %s. A frame is 1/480 s = %s ms, a cycle 8 frames' % (num(FULL), num(1000 / 480, 3)))
    cite("document 01's and those of Papers 5, 6, 8 and 9 (document 02)", 'r (section 8) is 0', 'Documents 000 to 004')
    say("the run lengths (section 10) are the bench program's, %d frames (over) and %d (loss), unless named" % (OVER, LOSS))


def bandpass(f):
    """Document 001, equation (1.3)."""
    s = 1j * TAU * f
    return abs(125.7 * s / (s * s + 125.7 * s + 138174))


def lowpass(f, cut, order):
    """Butterworth modulus, 1/√2 at the cut-off."""
    return 1 / math.sqrt(1 + (f / cut) ** (2 * order))


def harmonics():
    head(1)
    say('Harmonics 7 and 9 read as fundamental')
    cells = []
    for group in ((0, 2, 4, 6, 8), (3, 5, 11, 13), (1,), (7, 9, 15, 17)):
        ms = [amplitude(w) / 64 for h in group for w in steady(400, h)]
        print('  harmonics %s of 400 codes, every phase: %.3f to %.3f %%' % (group, min(ms), max(ms)))
        cells.append(num(max(ms)) if group[0] == 0 else 'at most ' + num(max(ms), 3) if group[0] == 3 else span(ms, 1))
    row('Harmonic', '0, 2, 4, 6, 8', '3, 5, 11, 13', '1', '7, 9, 15, 17 (all 8k ± 1)')
    row('m, % of its amplitude (400 codes, every phase)', *cells)
    ms = [amplitude(w) / 64 - 100 for a in (360, 440) for w in steady(a)]
    say('A 7th of 10 %% makes of 400 codes a sine of 360 to 440: m moves by %s %% (both ends, every phase)' % span(ms, 1, '+'))
    cite('With N samples "(N/2) − 1 harmonics can be computed" (document 003, 2.1): three here, by orders 1 to 3',
         '(document 000, 2.1.1) ends below the 7th', 'Document 001, 1.5, calls 8 samples', '(document 002, 3.3.1, took 12)')
    row('Gain by closed formula (1/√2 at the cut-off), %', '60 Hz', '120 Hz', '420 Hz', '540 Hz')
    for name, g in (('document 001, equation (1.3): band-pass 50 to 70 Hz', bandpass),
                    ('document 000, 5.2: Butterworth, order 3, 180 Hz', lambda f: lowpass(f, 180, 3)),
                    ('document 003, 4: Butterworth, order 2, 540 Hz (for 64 samples and more)', lambda f: lowpass(f, 540, 2))):
        row(name, *(num(100 * g(f), 1) for f in (60, 120, 420, 540)))


def flicker():
    head(2)
    say('Over needs %d successive frames, loss %d (the lengths: section 10); one frame on the other side sets the run to 0' % (OVER, LOSS))
    cite('document 001, 1.6.2', 'document 004, 3.2.2,')
    # 59.5/480 = 119/960: in 960 frames the sine meets every multiple of 0.375 degrees and repeats, so phases below 0.375 degrees are all there are
    lows, highs, counts, runs = set(), set(), set(), set()
    for j in range(16):
        s = sine(213.3125, math.radians(0.375 * j / 16), 960 + 8, 59.5)
        for first in range(8):
            ms = readings(s, first)[8:]
            lows.add(min(ms))
            highs.add(max(ms))
            counts.add(sum(m >= 3413 for m in ms))
            runs.add(max(len(list(g)) for k, g in itertools.groupby(ms + ms, lambda m: m >= 3413) if k))
    assert runs == {OVER - 1}
    say('A 59.5 Hz sine of exactly pickup 3,413 reads %s, at or above it in %s of 960 frames, longest run %d'
        % (span(lows | highs), span(counts), max(runs)))
    say('at over length %d or more it never trips, at 1 to %d it does (samples repeat after 960 frames; 16 phases to each 0.375°)'
        % (max(runs) + 1, min(runs)))

    # the greatest pickup that one bad code trips, for each slot; a lower one meets the same m
    top = {}
    for code in (0, 1023):
        for slot in range(8):
            calls = enabled([0] * (80 + slot) + [code - 512] + [0] * 16)
            top[code, slot] = next(p for p in range(2100, 0, -1) if channel(calls, p, 1)[-1][1])
    print('  greatest pickup that one bad sample trips, by code and slot:', top)
    parts = [{top[code, slot] for slot in range(parity, 8, 2)} for code in (0, 1023) for parity in (0, 1)]
    assert all(len(part) == 1 for part in parts)
    say('A sample stays in the window for eight frames, twice an over length of %d' % OVER)
    say('In a dead channel (all others code 512) one code 0 trips pickups up to %s in an even slot (even frame number), %s in an odd one; one '
        'code 1023 up to %s and %s' % tuple(num(*part) for part in parts))
    # only differences count, so a bad code among others at any one code reads as its distance among zeros
    assert all(amplitude([s if j == k else 0 for j in range(8)]) <= 4 * abs(s) for s in range(-1023, 1024) for k in range(8))
    assert max(top.values()) == 4 * 512
    noisy, w = max((amplitude(w), w) for k in range(8) for s in (-512, 511)
                   for w in itertools.product(*[(s,) if j == k else (-1, 0, 1) for j in range(8)]))
    quiet = [s if abs(s) < 2 else 0 for s in w]
    assert [channel(enabled(quiet * 10 + list(w) + quiet * 3), p, 1)[-1][1] for p in (noisy, noisy + 1)] == [True, False]
    say('From %s on no single sample trips a dead channel; noise of one code in the other seven makes that %s, each code that the channel idles off '
        '512 adds up to 4' % (num(4 * 512 + 1), num(noisy + 1)))
    # a steady sine keeps its window, so m is the same in the eight frames that hold the bad sample; below 112 codes Z stays below 3413
    best = {}
    for a in range(112 * 16, 114 * 16 + 1):
        for p in every(a / 16):
            w = sine(a / 16, p)
            for k in range(8):
                for s in (-512, 511):
                    m = amplitude(w[:k] + [s] + w[k + 1:])
                    if m > best.get(a, (0,))[0]:
                        best[a] = m, p, k, s
    least = min(a for a in best if best[a][0] >= 3413)
    assert all(best[a][0] >= 3413 for a in best if a >= least)
    assert all(amplitude(sine(a, 0)[:4] + [-512] + sine(a, 0)[5:]) >= 3413 for a in range(114, 215))
    for a, trips in ((least, True), (least - 1, False)):
        m, p, k, s = best[a]
        w = sine(a / 16, p)
        calls = enabled((w * 11)[:80 + k] + [s] + (w * 4)[k + 1:])
        assert channel(calls, 3413, 1)[-1][1] == trips
    say('pickup 3,413 can trip on one code 0 or 1023 from %s codes of load up (%s %% of pickup; load in sixteenths of a code, every phase)'
        % (num(least / 16, 4), num(100 * least / 3413)))
    for gap, on in ((23, False), (24, True)):
        for s in (300, -300):
            for first in range(8):
                r = channel(enabled([s if n % gap == first else 0 for n in range(600)]), 10700, 819)
                assert r[-1][2] == on
                assert on or r[300][4] == r[300 + 8 * gap][4]
    say('In a dead channel with drop 819, loss length %d, one sample of ±300 codes every 23 frames keeps loss off for good '
        '(state as %d frames before)' % (LOSS, 8 * 23))


def offset_wave(a, alpha, tau, d, n):
    """a (cos(wt + alpha) - cos(alpha) e^(-t/tau)): document 003 (36) without harmonics, the first frame d frames after the step."""
    return [sample(a * (math.cos(TAU * t + alpha) - math.cos(alpha) * math.exp(-t / tau))) for t in ((k + d) / 8 for k in range(n))]


def overshoot(n, alpha, sign, harmonics=1):
    """Max of the floating-point full-cycle Fourier above 1 in % for each of the six time constants."""
    co = [math.cos(TAU * k / n) for k in range(n)]
    si = [math.sin(TAU * k / n) for k in range(n)]
    steady_part = [sum(math.cos(h * (TAU * k / n + alpha)) / h for h in range(1, harmonics + 1)) for k in range(n)]
    tops = []
    for tau in SIX:
        s = [0.0] * n + [steady_part[k % n] + sign * math.cos(alpha) * math.exp(-k / n / tau) for k in range(3 * n)]
        tops.append(200 / n * max(math.hypot(sum(map(float.__mul__, s[k:], co)), sum(map(float.__mul__, s[k:], si)))
                                  for k in range(1, 3 * n + 1)) - 100)
    return tops


def offset():
    head(3)
    tops, helds, lows = [], [], []
    for tau in TAUS:
        ms = [readings(offset_wave(250, alpha, tau, d / 8, 40), first) for alpha in phases(72) for d in range(8) for first in range(8)]
        tops.append(max(map(max, ms)) / 40 - 100)
        helds.append(max(map(four, ms)) / 40 - 100)
        lows.append(min(min(m[7:]) for m in ms) / 40 - 100)
    fine = {t / 20: max(max(frames(offset_wave(250, alpha, t / 20, d / 8, 24))) for alpha in phases(72) for d in range(8)) for t in range(4, 21)}
    print('  tau 0.2 to 1 in steps of 0.05, frames from slot 0: greatest', max(fine.values()) / 40 - 100, 'at', max(fine, key=fine.get))
    assert fine[0.65] == max(fine.values())
    say('Decaying offset: overreach up to %s %%' % num(max(tops), 1))
    say('A = 250 codes, 72 angles, 8 instants between frames, 40 frames; % of A')
    say('in %d successive frames: what a pickup feels at length %d (at 1 the maximum)' % (OVER, OVER))
    row('τ, cycles', *map(str, TAUS))
    row('Maximum of m', *(num(v, 1, '+') for v in tops))
    row('Held four frames', *(num(v, 1, '+') for v in helds))
    row('Minimum from frame 8 on, the window full', *(num(v, 1, '+') for v in lows))
    say('τ = 0.65 is the worst of 0.2 to 1 in steps of 0.05 (frames from slot 0)')
    cite('Over τ = 0.5, 1, 2, 3, 4, 5 document 003 prints means of 10.428 % (α = 10°, table 1) and 8.2091 % (45°, table 2) at 64 samples')
    mean = [sum(overshoot(n, math.radians(alpha), -1, h)) / 6 for n, h in ((64, 30), (8, 1)) for alpha in (10, 45)]
    say('its equation (36) gives us %s and %s, and without harmonics at 8 samples %s and %s' % tuple(num(v, 2) for v in mean))
    cite('Document 000 (tables 6.2 and 6.5; 16 samples) prints 15.2 and 16.1 % at τ = 0.5')
    minus, plus = overshoot(16, 0, -1), overshoot(16, 0, 1)
    assert (num(minus[0], 1), num(plus[0], 1)) == ('15.2', '16.1')
    say('(not its 6.80 %% at τ = 5 in table 6.2: %s)' % num(minus[5], 2))
    cite('(document 003, 5)', 'document 01 leaves that out', "document 001's band-pass", 'section 7')
    top = max(max(readings(s, first)) for tau in TAUS for p in phases(24)
              for s in filtered(lambda t: 250 * (math.cos(TAU * 60 * t + p) - math.cos(p) * math.exp(-t * 60 / tau)), 64) for first in range(8))
    say('m stayed at %s %% or below (24 angles, 4 instants)' % num(top / 40 - 100, 1))


def ratio(w):
    """m2 in % of m."""
    return 100 * second(w) / amplitude(w)


def leak(f):
    """The greatest m2 in % of m of a sine of f Hz, 500 codes, 24 phases, 480 frames of full windows, the first of them in slot 0."""
    waves = [sine(500, p, 488, f) for p in phases(24)]
    return max(ratio([s[n - (n - k) % 8] for k in range(8)]) for s in waves for n in range(8, 488))


def frequency():
    head(4)
    kernel = lambda f: abs(math.sin(math.pi * f / 60) / (8 * math.sin(math.pi * f / 480)))
    lows, highs, helds, apart = [], [], [], 0
    hertz = (56.5, 57, 59, 59.5, 60.5, 61, 63, 66)
    for f in hertz:
        ms = [readings(s, first)[8:] for s in (sine(500, p, 488, f) for p in phases(24)) for first in range(8)]
        lows.append(min(map(min, ms)) / 80)
        highs.append(max(map(max, ms)) / 80)
        helds.append(min(map(four, ms)) / 80)
        near, far = 100 * kernel(f - 60), 100 * kernel(f + 60)
        apart = max(apart, abs(lows[-1] - (near - far)), abs(highs[-1] - (near + far)))
    say('Sine of 500 codes, 24 phases, 480 frames; %% of amplitude (closed formula agrees within %s)' % num(apart, 2))
    row('Hz', *map(str, hertz))
    row('Least m', *(num(v, 2) for v in lows))
    row('Greatest m', *(num(v, 2) for v in highs))
    row('Highest pickup tripped in 1 s in all of them (over length %d)' % OVER, *(num(v, 2) for v in helds))
    cite('Document 004, 2.6.5,', '56.5 and 66 Hz are from its 5.3.5')
    tops = list(map(leak, hertz))
    row('Greatest second harmonic m2, % of m (from slot 0)', *(num(v, 2) for v in tops))
    row('Least r that feeds every frame (section 8)', *(str(math.floor(v) + 1) for v in tops))


def clipping():
    head(5)
    say('Clipping at ten bits')
    sizes = (1, 1.5, 2, 3, 5)
    ms = [list(map(amplitude, steady(512 * k))) for k in sizes]
    row('Sine, × 512 codes', *map(str, sizes))
    row('True amplitude', *(num(FULL * k) for k in sizes))
    row('m, every phase', *(span(m, word='–') for m in ms))
    top = max(amplitude(w) for a in range(510 * 16, 8184) for w in steady(a / 16))
    say('A sine that is not clipped (peak below 511.5 codes) read at most %s (peaks from 510 in sixteenths, every phase)' % num(top))
    bound = 16 * 511.5 + 4 / math.sin(math.pi / 8) + 0.15        # half a code in each sample; m - Z of section 6
    say('by closed formula it never reads above %s' % num(math.floor(bound)))
    # with its peak on slot 0 a sine of any size has three samples: the peak, the peak / √2 and 0; the last size is where both are clipped
    edges = sorted([j + 0.5 for j in range(512)] + [(j + 0.5) * math.sqrt(2) for j in range(512)]) + [10 ** 6]
    sure = max(amplitude(sine(a, 0)) for e, f in zip(edges, edges[1:]) for a in (e, (e + f) / 2))
    assert sure == min(ms[2]) == min(ms[3]) == min(ms[4])
    say('Above %s no sine of any size is sure to meet a pickup: with its peak on a sample in slot 0 none reads more' % num(sure))
    ends = max((amplitude(w), w) for w in itertools.product((-512, 511), repeat=8))
    assert (43797732 + 128) // 4096 == ends[0]
    print('  greatest m of the 256 windows of -512 and 511: %d at %s' % ends)
    say('%s to 10,700 are accepted settings that nothing meets: bounds inside the proof (`reached`, `ceiling`: 4096 m ≤ 43,797,732 + 128) give '
        'm ≤ %s, which 511 in slots 0 to 3 and −512 in 4 to 7 reads' % (num(ends[0] + 1), num(ends[0])))
    assert amplitude([511] * 4 + [-512] * 4) == ends[0]
    say('Proved: m is never above 10,700')
    say('A fully offset current peaks near 2 A and can clip above %s codes (m %s)' % (num(511.5 / 2, 2), num(511.5 * 8)))
    low = [min(min(readings(offset_wave(a, alpha, 5, d / 8, 40), first)[7:])
               for alpha in (0, math.pi) for d in range(8) for first in range(8)) / a / 0.16 for a in (400, 500)]
    say('with τ = 5 cycles, from frame 8 on, 400 codes read down to %s %%, 500 codes %s %% (8 instants)' % tuple(num(v, 1) for v in low))
    cite("document 001's, equation (1.2)")


# The greatest Z - m and m - Z known. Found by hill climbing with restarts on s0 - s4, s1 - s5, s2 - s6, s3 - s7 (nothing else counts), and by trying
# all values of these for which bounds worked out by hand leave room for more; the script only evaluates them.
HIGH = (-489, 511, 3, -512, 489, -512, -3, 511)
LOW = (213, -510, 511, -209, -214, 509, -511, 209)
# The same of order 2, and its greatest m: from all sizes of its two sums, 0 to 2046 each, by a search that is not kept.
HIGH2 = (42, 138, 0, 0, 0, 0, 0, 0)
LOW2 = (511, 511, -507, -487, 511, 511, -507, -486)
MOST2 = (511, 511, -512, -512, 511, 511, -512, -512)


def rounding():
    head(6)
    high, low = (exact(w) - amplitude(w) for w in (HIGH, LOW))
    for w, d in ((HIGH, high), (LOW, low)):
        print('  window %s: m %d, Z - m %.12f' % (w, amplitude(w), d))
    say('Proved (`accurate`, for orders 1, 2 and 3): m is within 2 of Z')
    say('m ≥ pickup wherever Z ≥ pickup + 2, and only where Z ≥ pickup − 2')
    weight = 4 * 2046 * (1 / math.sqrt(2) - 11585 / 16384)       # the weight 11585 for 16384/√2, B² + D² being at most 2046²
    down, up = weight + 128 / 4096, weight + 5597 / 4096
    assert down + up < 2
    say('(`near`: 4096 m ≤ n + 128 and n ≤ 4096 m + 5596 for n = ⌊√(Re² + Im²)⌋) and the weight 11585 for 16384/√2 leave Z − m from −%s to +%s'
        % (num(math.ceil(100 * down) / 100, 2), num(math.ceil(100 * up) / 100, 2)))
    say('the extremes found by search are %s at %s and %s at %s (slots 0 to 7), so "within 1" would be false'
        % (num(low, 5), ', '.join(map(num, LOW)), num(high, 5, '+'), ', '.join(map(num, HIGH))))
    rng = random.Random(5)
    for _ in range(5000):
        w = [rng.randint(-512, 511) for _ in range(8)]
        turned = [amplitude(w[k:] + w[:k]) for k in range(8)]
        assert max(turned) - min(turned) <= 1 and all(low <= exact(w) - m <= high for m in turned)
        assert [amplitude(w), second(w), amplitude([w[3 * k % 8] for k in range(8)])] == [estimate(w, p) for p in (1, 2, 3)]
    ds = [amplitude(w) - 16 * a / 7 for a in range(35, 3578, 23) for w in steady(a / 7)]
    say('for steady sines of 5 to 511 codes (steps of 23/7, every phase) m − 16A was %s' % span(ds, 1, '+'))
    say("(closed bound for the samples' part: %s)" % num(4 / math.sin(math.pi / 8), 2))
    pc = {a: [100 * amplitude(w) / 16 / a - 100 for w in steady(a)] for a in (5, 51.1875, 100, 213.3125)}
    say('%s at 5 codes, %s at 51.2 (819), %s at 100, %s at 213.3 (3,413)' % tuple(span(v, 1, '+') for v in pc.values()))
    say('So 100, 71, 0, −71 … reads %s (proved), not 1,600' % num(amplitude([100, 71, 0, -71, -100, -71, 0, 71])))
    cite('Document 001, chapter 2, calls 10 bits "reasonable"')
    say('may read 1 apart: 100 in slot 0 reads %d, in slot 1 %d (proved); never more, as Z stays and the bounds above are less than 2 apart'
        % (amplitude([100] + [0] * 7), amplitude([0, 100] + [0] * 6)))
    ones = {amplitude([s if j == k else 0 for j in range(8)]) for k in range(8) for s in (-1, 1)}
    most = max(map(amplitude, itertools.product((-1, 0, 1), repeat=8)))
    say('One code of noise reads %s, windows of −1, 0, 1 (all of them) up to %d: a drop of %d or less may miss a dead channel'
        % (' or '.join(map(str, sorted(ones))), most, most))
    low, high = (4 * Decimal((w[0] - w[2] + w[4] - w[6]) ** 2 + (w[1] - w[3] + w[5] - w[7]) ** 2).sqrt() - second(w) for w in (LOW2, HIGH2))
    print('  order 2: Z - m %.12f at %s, %.12f at %s; m %d at %s' % (low, LOW2, high, HIGH2, second(MOST2), MOST2))
    say('Order 3 is order 1 of other slots (3k mod 8), with the same extremes')
    say('Order 2 has Z − m from %s to %s and m up to %s (all 2047² sizes of its two sums, by a search that is not kept; the windows found are in '
        '`limits.py`)' % (num(low, 5), num(high, 5, '+'), num(second(MOST2))))


def onset():
    head(7)
    cell = lambda ns: '%s (%s)' % (span(ns, word='–'), num(max(ns) / 0.48, 1))
    tripped = lambda s: {latch(frames(s, first), lambda m: m >= 800, OVER) for first in range(8)}
    times = (1.05, 1.1, 1.5, 2, 5)
    rows = [], [], []
    for k in times:
        full = set()                                             # the first frame at or above pickup; no later one is below it (section 10)
        for p in every(50 * k):
            w = sine(50 * k, p)
            for first in range(8):
                met = [m >= 800 for m in frames(w, first)]
                assert met[7] and met == sorted(met)
                full.add(1 + met.index(True))
        rows[0].append(cell({n + OVER - 1 for n in full}))
        rows[1].append(cell(set.union(*(tripped(offset_wave(50 * k, p, tau, d / 4, 40)) for p in phases(36) for tau in TAUS for d in range(4)))))
        rows[2].append(cell(set.union(*(tripped(s) for p in phases(24) for s in filtered(lambda t: 50 * k * math.cos(TAU * 60 * t + p), 80))))
                       if k > 1.05 else '–')
    say('Lengths %d and %d. Pickup 800 (50 codes)' % (OVER, LOSS))
    row('Over: from zero to × pickup', *map(str, times))
    row('Pure sine, every phase', *rows[0])
    row('With the offset of section 3, 36 angles, 4 instants', *rows[1])
    row("Behind document 001's band-pass, 24 phases, 4 instants", *rows[2])
    # zeros after a steady window: its m in the eight frames that still hold some of it, then 0
    drops = (10, 20, 50, 80)
    last = {q: set() for q in drops}
    for w in steady(400):
        for first in range(8):
            ms = readings([0] * 8, first, w)
            for q in drops:
                last[q].add(max((n for n, m in enumerate(ms, 1) if m >= 64 * q), default=0) + LOSS)
    slow = {latch(readings(s, first)[96:], lambda m: m < 640, LOSS) for p in phases(24)
            for s in filtered(lambda t: 400 * math.cos(TAU * 60 * t + p) if t < 0.2 else 0.0, 96 + 80) for first in range(8)}
    row('Loss: sine of 400 codes to zero, drop in % of it', *map(str, drops), '10, behind the band-pass')
    row('Frames (ms)', *(cell(last[q]) for q in drops), cell(slow))
    say('At length %d a trip before frame %d counts windows with old samples' % (OVER, 8 + OVER - 1))
    cite('(document 003, 2.3.2)', 'Document 001, chapter 2, measured 0.0694 s, "about 4 cycles"')
    say('its over run trips in the fifth frame (A.13), ours at length %d in the fourth' % OVER)
    over = next(k for k, r in enumerate(channel(enabled(sine(400, 0, 120)), 1, 1)) if r[1])
    loss = next(k for k, r in enumerate(channel(enabled([0] * 120), 1, 1)) if r[2])
    say('Frames 0 to %d (%s s) count no run: at lengths %d and %d the earliest over latch is in frame %d (%s ms after frame 0), loss in '
        'frame %d (%s ms)' % (SETTLED - 1, num(SETTLED / 480, 2), OVER, LOSS, over, num(over / 0.48), loss, num(loss / 0.48)))
    cite('The same again from each frame in which bit 6 returns (section 9)')


def pulses(peak, width, p, a=0.0, q=0.0):
    """A cycle of pulses of one sign, `width` degrees of it, and of a sine of a codes, q ahead of them."""
    foot = math.cos(math.radians(width / 2))
    return [sample(peak * max(0.0, math.cos(t) - foot) / (1 - foot) + a * math.cos(t + q)) for t in (TAU * k / 8 + p for k in range(8))]


def content(h, width):
    """The h-th harmonic of such pulses of peak 1."""
    b = math.radians(width / 2)
    area = lambda n: 2 * math.sin(n * b) / n if n else 2 * b
    return ((area(h - 1) + area(h + 1)) / 2 - math.cos(b) * area(h)) / math.pi / (1 - math.cos(b))


def saturated(a, alpha, tau, limit, flux, d, sub=8):
    """Sixty cycles of offset_wave's current behind a current transformer. Its flux counts peaks of the flux that the steady part swings; at ±limit it
    stays while the current drives it on, and such a sample is 0. In steps of 1/sub of a frame, the first frame d/4 of a frame after the fault."""
    c, e, fall = math.cos(alpha), 1.0, math.exp(-1 / 8 / sub / tau)
    old = math.sin(alpha) + c * TAU * tau
    for j in range(1, 480 * sub):
        e *= fall
        angle = TAU * j / 8 / sub + alpha
        new = math.sin(angle) + c * TAU * tau * e
        free = flux + new - old
        flux, old = max(-limit, min(limit, free)), new
        if (j - d * sub // 4) % sub == 0:
            yield sample(a * (math.cos(angle) - c * e)) if flux == free else 0


def trips(samples, before=(0,) * 8, pickup=800, run=OVER):
    """Frames until over latches, for r = 0 and then for LEVELS from the greatest down (none is earlier than the one before), as far as it does."""
    w, last, got, rs = list(before), [math.inf] * run, [], (math.inf,) + LEVELS[::-1]
    for n, s in enumerate(samples):
        w[n % 8] = s
        m = amplitude(w)
        last = last[1:] + [100 * second(w) // m if m >= pickup else math.inf]        # the frame feeds every r above this
        while len(got) < len(rs) and max(last) < rs[len(got)]:
            got.append(n + 1)
        if len(got) == len(rs):
            break
    return got


def price(name, cases):
    """A row: the greatest delay against r = 0 for each of LEVELS, and the share of the cases that r = 15 makes more than a cycle late."""
    delays = [[n - got[0] for n in got[:0:-1]] for got in cases]
    assert all(len(one) == len(LEVELS) for one in delays)
    worst = [max(one[k] for one in delays) for k in range(len(LEVELS))]
    if name:
        row(name, *map(str, worst), num(100 * sum(one[1] > 8 for one in delays) / len(delays)))
    return worst


def restraint():
    head(8)
    cite('r of a current is 0 (off) or 1 to 100', '100 m2 < r m, m2 being', 'any other counted frame makes the run 0',
         'r = 1 blocks most, r = 100 least, r = 0 nothing', 'answer shows m2')
    cite('document 004, 6.1', 'failed in 9 of 27 tests and took 1 to 4 cycles (6.3.5)', 'Frames from slot 0')
    below = []
    for a in (100, 250, 50, 25):
        for h in (10, 15, 20, 30, 40):
            got = [ratio([sample(a * (math.cos(TAU * k / 8 + p) + h / 100 * math.cos(TAU * k / 4 + q)) + z / 4) for k in range(8)])
                   for p in phases(72) for q in phases(24) for z in range(4)]
            below.append((h - math.floor(min(got)), math.floor(max(got)) + 1 - h))
    below = [tuple(map(max, zip(*below[k:n]))) for k, n in ((0, 10), (10, 15), (15, 20))]
    say('h %% of second harmonic, h = 10, 15, 20, 30, 40: at 100 and 250 codes of fundamental every r up to h − %d blocks it and every r from h + %d '
        "on feeds; at 50 codes it is h − %d and h + %d, at 25 codes h − %d and h + %d (72 × 24 phases, the converter's zero at 0, 1/4, 1/2, 3/4 of a "
        'code)' % (*below[0], *below[1], *below[2]))
    widths = (120, 180, 210, 240, 270, 300)
    say('cos θ − cos(β/2) where that is positive and else 0, peak ±250 codes, 360 instants')
    both = lambda width: [pulses(peak, width, p) for peak in (250, -250) for p in phases(360)]
    row('β, degrees', *map(str, widths))
    row('Second harmonic by closed formula, % of the fundamental', *(num(100 * content(2, b) / content(1, b), 1) for b in widths))
    row('m2, % of m', *(span(list(map(ratio, both(b))), 1) for b in widths))
    least = {b: min(map(ratio, both(b))) for b in range(180, 270)}
    some = (10, 15, 20, 30)
    ends = [next(b - 1 for b in least if least[b] < r) for r in some]
    early = {run: set() for run in (1, 2, OVER)}                 # from the first pulse on: what blocks the steady pulses blocks them
    for b in (*widths, *ends):
        for w in both(b):
            feeds = 1 + sum(r > ratio(w) for r in LEVELS)
            for run in early:
                if len(trips(w * 3, pickup=1, run=run)) != feeds:
                    early[run].add(b)
    assert not early[2] and not early[OVER]                      # a run that length 2 does not find no greater length finds
    say('r = %s, %s, %s, %s block pulses of up to β = %s, %s, %s, %s (in steps of 1 from 180)' % (*some, *ends))
    say('from the first pulse on (pickup 1, the β named here, over length 2 or more; at 1 the first pulse can trip, β = %s)'
        % ' and '.join(map(str, sorted(early[1]))))
    cite('changes neither m nor m2 unless it clips')
    assert all(f([s + z for s in w]) == f(w) for f in (amplitude, second) for z in (-250, -1, 1, 200) for w in both(240)[:360])
    got = [ratio(pulses(s * 250, 240, p, s * 250 * content(1, 240))) for p in phases(360) for s in (1, -1)]
    say('as much load as the pulses have fundamental, in phase, makes β = 240 read %s %%' % span(got, 1))
    fault = {x: max(ratio(pulses(125, 180, p, 62.5 * x / 10, q)) for p in phases(24) for q in phases(24)) for x in range(20, 61)}
    say('Beside pulses of β = 180 (62.5 codes of fundamental) a fault in any phase trips from %s, %s, %s times that on with r = 15, 20, 30 '
        '(2 to 6 in steps of 0.1, 24 × 24 phases)' % tuple(num(max(x for x in fault if fault[x] >= r) / 10 + 0.1, 1) for r in (15, 20, 30)))
    got = [second([sample(400 * math.cos(TAU * h * k / 8 + p)) for k in range(8)]) / 64 for h in (6, 10, 14) for p in phases(360)]
    assert num(min(got)) == num(max(got)) == '100'
    say('Harmonics 6, 10 and 14 read as second')
    behind = [ratio(s[-8:]) for p in phases(8) for q in phases(8)
              for s in filtered(lambda t: 250 * (math.cos(TAU * 60 * t + p) + 0.4 * math.cos(TAU * 120 * t + q)), 96)]
    assert min(behind) > leak(63)
    say("Behind document 001's band-pass (section 1) a second harmonic of 40 %% reads %s %%, little more than a clean sine of 63 Hz (section 4)"
        % span(behind, 1))

    # the price
    say('Trips later than with r = 0, at worst; over length %d, pickup 800 (50 codes), 8 frames a cycle' % OVER)
    row('Later than with r = 0, frames', *('r = %d' % r for r in LEVELS), '% of cases over a cycle late at r = 15')
    steps = [trips(sine(50 * k, p) * 3, sine(50 * old, q)) for k in (1.1, 1.5, 2, 5) for p in phases(72)
             for old, n in ((0, 1), (0.5, 24), (0.9, 24)) for q in phases(n)]
    price('Sine from 0, 50, 90 % of pickup to 1.1, 1.5, 2, 5 × (72 × 24 phases)', steps)
    wave = lambda a, taus: [trips(offset_wave(a, alpha, tau, d / 4, 480)) for tau in taus for alpha in phases(24) for d in range(4)]
    price('250 codes with the offset of section 3, not clipped', wave(250, TAUS))
    for a, tau in ((500, 5), (1000, 1), (1000, 5), (2500, 5)):
        price('%s codes, clipped, τ = %d' % (num(a), tau), wave(a, (tau,)))
    sizes, fluxes = (1, 2, 4, 8, 16), (0, 0.5, -0.5, 0.8, -0.8)
    for tau in (1, 3, 5):
        held = price('250 codes, current transformer saturates, τ = %d' % tau, [trips(saturated(250, alpha, tau, size, size * f, d))
                     for size in sizes for f in fluxes for alpha in phases(24) for d in (1, 2, 3, 4)])
    once = list(saturated(250, math.pi / 6, 5, 2, 0, 1))
    assert trips(once) == [next(k - 79 for k, got in enumerate(channel(enabled([0] * 80 + once), 800, 1, r)) if got[1]) for r in (0,) + LEVELS[::-1]]
    say('Offsets: 24 angles, 4 instants')
    say('The clean sine trips in frame %d at the latest, the window full (section 7)' % max(got[-1] for got in steps))
    cite('and 0 while it would leave')
    say('L = 1, 2, 4, 8, 16 peaks of the flux that the steady part swings; flux at the fault 0, ±50, ±80 % of L')
    say('at r = 15 up to %d frames (%s ms)' % (held[1], num(held[1] / 0.48)))
    say('All of these trip within 60 cycles')
    room = [price('', [trips(saturated(250, alpha, tau, 8, 8 - x, d)) for tau in (1, 3, 5) for alpha in phases(72) for d in (1, 2, 3, 4)])
            for x in (6.5, 5.5)]
    assert room[1][1] == held[1]
    say('With 6.5 peaks of room between flux and L at the fault the delay is %d frames at most, with 5.5 at r = 15 again %d (L = 8, 72 angles)'
        % (max(room[0]), room[1][1]))
    small = [trips(saturated(100, alpha, tau, 0.4, 0, d, 16)) for tau in (1, 3, 5) for alpha in phases(24) for d in (1, 2, 3, 4)]
    off = [sum(0 < len(got) <= n for got in small) for n in range(len(LEVELS), 0, -1)]
    assert off[:4] == off[:1] * 4 and off[5] == 0
    say('with L = 0.4, 100 codes and no flux at the fault r = 0 trips in %d of %d cases; of these r = 10 to 30 leaves %d without a trip in 60 '
        'cycles, r = 50 %d, r = 100 none' % (sum(len(got) > 0 for got in small), len(small), off[0], off[4]))
    over = [w for k in (1, 1.5, 2, 3, 5) for p in phases(720) for w in [sine(512 * k, p)]]
    say('Clipped on both sides alike m2 is at most %s %% of m (third harmonic up to %s %%)'
        % (num(max(map(ratio, over)), 1), num(max(100 * estimate(w, 3) / amplitude(w) for w in over), 1)))
    aside = [max(ratio([sample(512 * k * math.cos(TAU * j / 8 + p) + z) for j in range(8)]) for k in (1, 1.5, 2, 3, 5) for p in phases(720))
             for z in (50, 100)]
    say('a standing offset of 50 or 100 codes makes it up to %s or %s %% for good (1, 1.5, 2, 3, 5 × 512 codes, 720 phases)'
        % tuple(num(v, 1) for v in aside))
    cite('(255.75 codes, section 5)')

    # small amplitudes, bad samples
    exactly = max(second([sample(a * math.cos(TAU * k / 8 + p) + z / 16) for k in range(8)])
                  for a in (1, 2, 5, 10, 25, 50, 100, 250, 500) for p in phases(72) for z in range(16))
    noise = max(map(second, itertools.product((-1, 0, 1), repeat=8)))
    say('a clean 60 Hz sine reads m2 up to %d (1 to 500 codes, 72 phases, zero in sixteenths of a code), noise of one code in each sample up to %d '
        '(all windows): r = 1 may block them up to m %s and %s, r = 15 up to %d and %d'
        % (exactly, noise, num(100 * exactly), num(100 * noise), 100 * exactly // 15, 100 * noise // 15))
    assert all(second(w) >= amplitude(w) for s in range(-1023, 1024) for k in range(8) for w in [[s if j == k else 0 for j in range(8)]])
    say('Of one bad sample in a dead channel (section 2) m2 is at least m, whatever its size and slot: every r of 1 to 100 blocks it')

    def spoilt(d, gap):
        """Over, for each phase and sign, of a sine of 100 codes at r = 15 with one sample in `gap` d codes off; the relay repeats itself."""
        for p in phases(24):
            for s in (d, -d):
                wave = [v + s * (k % gap == 0) for k, v in enumerate(sine(100, p, 250))]
                got = channel(enabled(wave), 800, 1, 15)
                assert got[-1][1] or got[150][4] == got[150 + 8 * gap][4]
                yield got[-1][1]
    bad = next(d for d in range(60, 100) if not any(spoilt(d, 11)))
    assert all(spoilt(bad, 12))
    say('In a fault of 100 codes one sample in 11 that is %d codes off keeps over off for good at r = 15 and over length %d (24 phases, both signs); '
        'one in 12 does not' % (bad, OVER))
    cite('A second input with r = 0', '0 where no transformer')
    say('(%d at 63 Hz, section 4)' % (math.floor(leak(63)) + 1))
    say('by %d point from 100 codes up, by %d at 50' % (below[0][0], below[1][0]))


def switches():
    head(9)
    cite('document 002, 2.3.3 and 2.3.4', 'section 7')
    cite('No inverse-time curve: always the over length')
    assert all(amplitude([s] * 8) == 0 for s in range(-512, 512))
    say('any constant code reads 0')
    say('Drop is at least 1')
    wave = lambda n: sine(300, 0.2, n)
    back, late = set(), set()
    for at in range(112, 120):                                   # a reset, and an enable that returns, in front of every slot
        again = channel(enabled(wave(at)) + ['reset'] + enabled(wave(at + 40)[at:]), 3413, 1)
        dead = channel(enabled([0] * at) + ['reset'] + enabled([0] * 40), 3413, 819)
        back.add(tuple(next(k - at + 1 for k, r in enumerate(rs) if k >= at and r[i]) for rs, i in ((again, 1), (dead, 2))))
        off = channel([(s, not at - 10 <= n < at) for n, s in enumerate(wave(160))], 3413, 1)
        assert [off[k][3] for k in (at - 11, at - 10, at - 1, at)] == [True, False, False, True]
        late.add(next(k - at + 1 for k, r in enumerate(channel([(s, n >= at) for n, s in enumerate(wave(160))], 3413, 1)) if r[1]))
    assert len(back) == len(late) == 1
    say('Enable bit or bit 6 off: runs become 0 in counted frames and the output bit is 0')
    cite("A latched output returns with the enable, bit 6 or the channel's own")
    say('over latches in the %dth enabled frame, without a new start delay' % late.pop())
    # bit 6 off for 1, 10 or 100 frames and back in frame `at`, in front of every slot
    again, shown = set(), set()
    for at in range(212, 220):
        for gap in (1, 10, 100):
            device = lambda n: not at - gap <= n < at
            over = channel([(s if n >= at - gap else 0, True, device(n)) for n, s in enumerate(wave(at + 100))], 3413, 1)
            dead = channel([(0 if n >= at - gap else s, True, device(n)) for n, s in enumerate(wave(at + 100))], 3413, 819)
            again.add((next(k - at for k, r in enumerate(over) if r[1]), next(k - at for k, r in enumerate(dead) if k >= at and r[2])))
            shown.add(dead[at][3] and dead[at - gap - 1][3] and not dead[at - 1][3])
    assert len(again) == 1 and shown == {True}
    frame = again.pop()
    say('After bit 6 (Paper 5) the relay settles anew for %d frames (%s s): with current flowing over latches %d frames (%s ms) after the return, '
        'loss %d (%s ms)' % (SETTLED, num(SETTLED / 480, 2), frame[0], num(frame[0] / 0.48), frame[1], num(frame[1] / 0.48)))
    # bit 6 off in one frame of every p
    blink = lambda p, samples, drop: channel([(s, True, n % p > 0) for n, s in enumerate(samples)], 3413, drop)
    blind = [max(p for p in range(2, 120) if not any(r[i] for r in blink(p, samples, drop)))
             for i, samples, drop in ((1, wave(600), 1), (2, [0] * 600, 819))]
    say('With bit 6 off for one frame in every %d or fewer, over never latches, and in every %d or fewer loss does not' % tuple(blind))
    back = back.pop()
    say('over is back in the %dth frame, loss in the %dth' % back)
    # the second press is another channel's, which leaves this one: it finds it as so many frames after its own reset do
    cite('Two phases reset one after the other are as reset at once (Paper 2) where no frame comes between')
    say('it is latched again before the second press from %d frames between on (%s ms; loss %d, %s ms)'
        % (back[0], num(back[0] / 0.48), back[1], num(back[1] / 0.48)))
    # Paper 14 is proved and not computed (crate one_phase); `channel` here is one channel alone
    cite("One phase's history is its own (Paper 14)", 'bit 6 and the settling after it', 'a code above 1023 on one wire refuses the frame for all six')
    # new levels in front of frame `at`, met before and after, with one frame missing to a full run; and new ones after every p frames
    renewed, often = set(), lambda p, samples, drop: [c for n, s in enumerate(samples) for c in (
        [('levels', 1000 + n, drop + n, 0)] if n % p == 0 else []) + [(s, True)]]
    for at in range(212, 220):
        calls = lambda samples, run, drop: [(s, n > at - run) for n, s in enumerate(samples[:at])] + [('levels', 3412, drop + 1, 0)] + enabled(samples[at:])
        over, dead = channel(calls(wave(at + 40), OVER, 1), 3413, 1), channel(calls([0] * (at + 40), LOSS, 819), 3413, 819)
        assert (over[at - 1][4][4], dead[at - 1][4][5]) == (OVER - 1, LOSS - 1)
        renewed.add((next(k - at + 1 for k, r in enumerate(over) if k >= at and r[1]), next(k - at + 1 for k, r in enumerate(dead) if k >= at and r[2])))
    assert len(renewed) == 1
    runs = renewed.pop()
    say('a fault in progress waits for a whole run again, over %d frames (%s ms), loss %d (%s ms), where the new level is met'
        % (runs[0], num(runs[0] / 0.48), runs[1], num(runs[1] / 0.48)))
    kept = [max(p for p in range(1, 40) if not any(r[i] for r in channel(often(p, samples, drop), 3413, drop)))
            for i, samples, drop in ((1, wave(400), 1), (2, [0] * 400, 819))]
    say('With a level of its own moved after every %d frames or fewer over never latches, after every %d or fewer loss does not' % tuple(kept))
    cite('New levels (Paper 6) take effect with the next frame')
    # the same at every length: after a reset, the channel's bit, bit 6, new levels with one frame missing, bit 6 or new levels again and again
    at = 212
    for n in LENGTHS:
        for i, samples, drop in ((1, wave(400), 1), (2, [0] * 400, 819)):
            ran = lambda calls: [r[i] for r in channel(calls, 3413, drop, 0, n, n)]
            tail = enabled(samples[at:])
            assert ran(enabled(samples[:at]) + ['reset'] + tail).index(True, at) == at + n - 1
            assert ran([(s, k >= at) for k, s in enumerate(samples)]).index(True) == at + n - 1
            assert ran([(s, True, k >= at) for k, s in enumerate(samples)]).index(True) == at + SETTLED + n - 1
            assert ran([(s, k > at - n) for k, s in enumerate(samples[:at])] + [('levels', 3412, drop + 1, 0)] + tail).index(True) == at + n - 1
            assert [any(ran([(s, True, k % p > 0) for k, s in enumerate(samples)])) for p in (SETTLED + n, SETTLED + n + 1)] == [False, True]
            assert any(ran(often(n, samples, drop))) and (n == 1 or not any(ran(often(n - 1, samples, drop))))
    say('Also to know (lengths %d and %d)' % (OVER, LOSS))
    # Paper 3 is proved and not computed (`read_no_bytes`, `read_cut` in crate reader)
    cite('A capture of no bytes is a unit that has recorded nothing (Paper 3)', 'cut at any other place it is refused (by 8')
    # sums of smaller numbers are smaller until one wraps, which these do not: 1,000 in each place is the worst of them
    small = 1000
    numbers = [small] * 55
    while numbers[-1] < 1 << 22:
        numbers.append(numbers[-24] + numbers[-55])
    cite('The test waveform (Paper 12)')
    say('From 55 numbers of at most %s the first %d frames have code 0 in every channel' % (num(small), (len(numbers) - 56) // 6))
    say('A refused frame (any code above 1023, enable bit 7) is lost to all six channels')
    # after the loss slot k gets what belonged to slot k + 1
    ms = [m / 64 for w in steady(400) for first in range(8) for m in readings([w[(first + 1 + j) % 8] for j in range(8)], first, w)]
    say('One lost frame is a 45° jump: m of a steady sine of 400 codes swings from %s %%, every phase' % span(ms, 1))


def lengths():
    head(10)
    cite('Run lengths (Paper 9)')
    say('Each is %d to %d frames' % (LENGTHS[0], LENGTHS[-1]))
    # the time: the earliest latches of all lengths, and section 7's offsets at 9
    for n in LENGTHS:
        loud, dead = channel(enabled(sine(400, 0, 100)), 1, 1, 0, n, 1), channel(enabled([0] * 100), 1, 1, 0, 1, n)
        assert [next(k for k, r in enumerate(rs) if r[i]) for rs, i in ((loud, 1), (dead, 2))] == [SETTLED - 1 + n] * 2
    say('At length n the earliest latch is in frame %d + n (over and loss, all %d). Each frame of length is %s ms'
        % (SETTLED - 1, len(LENGTHS), num(1000 / 480, 3)))
    cite("section 7's pure sines trip as much later, and section 9's frames after a reset, an enable, bit 6 or new levels move as much")
    # ... since in `onset` pickup, once met, is met in all later frames; `switches` tries all lengths
    last = {}
    for k in (1.05, 1.1, 1.5, 2, 5):
        for s in (offset_wave(50 * k, p, tau, d / 4, 40) for p in phases(36) for tau in TAUS for d in range(4)):
            for first in range(8):
                run = short = 0
                for n, m in enumerate(frames(s, first), 1):
                    run = run + 1 if m >= 800 else 0
                    short = short or n * (run == OVER)
                    if run == 9:
                        break
                assert run == 9
                old = last.get(k, (0, 0, False))
                last[k] = max(old[0], short), max(old[1], n), old[2] or n - short != 9 - OVER
    assert [last[k][2] for k in last] == [True, True, False, False, False] and last[1.05][0] == last[1.1][0]
    say('With the offset of section 7 length 9 is %d frames (%s ms) later than %d from 1.5 × pickup on'
        % (9 - OVER, num((9 - OVER) / 0.48, 1), OVER))
    say('at 1.05 and 1.1 × a dip of m may break the run: frame %d (%s ms) and %d (%s ms) at the latest, not %d'
        % (last[1.05][1], num(last[1.05][1] / 0.48, 1), last[1.1][1], num(last[1.1][1] / 0.48, 1), last[1.05][0] + 9 - OVER))

    # one bad sample in a dead channel. m is 0 or `high`, and pickups between two values of m act alike: four of them stand for all 10,700
    tops = {}
    for code in (0, 1023):
        for slot in range(8):
            calls = enabled([0] * (80 + slot) + [code - 512] + [0] * 24)
            high, = {r[0] for r in channel(calls, 1, 1)} - {0}
            for n in LENGTHS:
                ran = [channel(calls, p, 1, 0, n)[-1][1] for p in (1, high, high + 1, 10700)]
                assert ran in ([True, True, False, False], [False] * 4)
                tops[n, code, slot] = high if ran[0] else 0
    found = {n: [tops[n, code, slot] for code in (0, 1023) for slot in range(8)] for n in LENGTHS}
    print('  greatest pickup that one bad sample trips, by length:', {n: sorted(set(found[n])) for n in LENGTHS})
    hit = [n for n in LENGTHS if any(found[n])]
    assert hit == list(range(1, 1 + len(hit))) and all(found[n] == found[OVER] for n in hit)
    say('over lengths 1 to %d can trip on one code 0 or 1023 at every pickup from 1 to %s and at none above; lengths %d to %d at no pickup'
        % (hit[-1], num(max(tops.values())), hit[-1] + 1, LENGTHS[-1]))
    say('(all %d, every slot, all 10,700 pickups; by slot and code the limits of section 2, the same for each of the %d)' % (len(LENGTHS), len(hit)))

    # under load: the window of a steady sine is steady, so that m has one value in the eight frames with the bad sample and one in all others
    sizes, most, least, before = (25, 50, 75, 100, 150, 170, 200, 300, 400, 500), [], [], max(tops.values())
    for a in sizes:                                              # a higher load can trip a higher pickup
        got = [(amplitude(w[:k] + [s] + w[k + 1:]), k, s, w) for w in steady(a) for k in range(8) for s in (-512, 511)]
        top, low = max(got), min(got)
        for i, (m, k, s, w) in ((1, top), (2, low)):
            own, calls = amplitude(w), enabled((w * 11)[:80 + k] + [s] + (w * 5)[k + 1:])
            assert [r[0] for r in channel(calls, 1, 1)[8:]] == [own] * (72 + k) + [m] * 8 + [own] * (len(calls) - 88 - k)
            if i == 1:
                assert own < m
                assert all(channel(calls, m + d, 1, 0, n)[-1][1] == (d == 0 and n in hit) for d in (0, 1) for n in LENGTHS)
            else:
                assert m < own or low[0] >= max(map(amplitude, steady(a)))
                assert m >= own or all(channel(calls, 10700, m + d, 0, 1, n)[-1][2] == (d == 1 and n in hit) for d in (0, 1) for n in LENGTHS)
        most.append(num(100 * top[0] / 16 / a))
        assert top[0] > before
        before = top[0]
        least.append(num(100 * (low[0] + 1) / 16 / a, 1) if low[0] < amplitude(low[3]) else '–')
    say('Under load, a steady 60 Hz sine below pickup and not below drop, lengths 1 to %d, over and loss, can trip and %d to %d do not (one '
        'code 0 or 1023, every phase and slot)' % (hit[-1], hit[-1] + 1, LENGTHS[-1]))
    row('Load, codes', *map(str, sizes))
    row('Over lengths 1 to %d can trip at pickups up to, %% of load' % hit[-1], *most)
    row('Loss lengths 1 to %d can trip at drops from, %% of load' % hit[-1], *least)
    small = 0
    for a in range(25, 171):
        for k in range(8):                                       # the peak in slot k, and three times it the other way
            w = sine(a, -TAU * k / 8)
            small = max(small, 100 * (amplitude(w[:k] + [max(-512, -3 * a)] + w[k + 1:]) + 1) / 16 / a)
    say('Other codes can be worse for loss: three times the peak, reversed, trips at 25 to 170 codes of load drops from %s %% on' % num(small, 1))

    # two bad samples d frames apart in a dead channel, both codes in each
    reach, highest = [], {}
    for d in range(1, 25):
        pairs = [enabled([0] * (80 + k) + [s] + [0] * (d - 1) + [t] + [0] * 10) for s in (-512, 511) for t in (-512, 511) for k in range(8)]
        ran = [[r[0] for r in channel(calls, 1, 1)] for calls in pairs]
        n = 8 + d if d <= 8 else 8
        assert not any(latch(ms, lambda m: m >= 1, n + 1) for ms in ran)
        held, calls = max((max(min(ms[k:k + n]) for k in range(80, len(ms) - n + 1)), calls) for ms, calls in zip(ran, pairs))
        assert [channel(calls, held, 1, 0, j)[-1][1] for j in LENGTHS] == [j <= n for j in LENGTHS]
        reach.append((n, held))
        highest[d] = max(map(four, ran))
    top = max(highest.values())
    assert [d for d in highest if highest[d] == top] == [4]
    say('Two codes 0 or 1023, d = 1 to 8 frames apart, can trip lengths up to 8 + d (pickups up to %s) and length %d up to pickup %s (4 apart)'
        % (num(min(held for n, held in reach)), OVER, num(top)))
    # the sine of section 2 that is at pickup in up to three frames together, and one bad sample
    bridge = 0
    for j in range(0, 16, 4):
        s = sine(213.3125, math.radians(0.375 * j / 16), 984, 59.5)
        for n in range(16, 960):
            for bad in (-512, 511):
                ms = readings(s[n - 16:n] + [bad] + s[n + 1:n + 24], n % 8)[8:]
                bridge = max([bridge] + [len(list(g)) for met, g in itertools.groupby(ms, lambda m: m >= 3413) if met])
    say("Section 2's 59.5 Hz sine with one bad sample reads at or above pickup for up to %d frames (4 phases, from slot 0)" % bridge)
    say('Over length %d or more, at %s ms more than %d' % (hit[-1] + 1, num((hit[-1] + 1 - OVER) / 0.48, 1), OVER))
    say('(%d for that sine, %d against two bad samples)' % (bridge + 1, max(n for n, held in reach) + 1))
    say('or a pickup above %s and above the table at the highest load' % num(max(tops.values())))
    say('Loss length %d or more, as %d is' % (hit[-1] + 1, LOSS))
    cite('r on (section 8)')


if __name__ == '__main__':
    for part in (opening, harmonics, flicker, offset, frequency, clipping, rounding, onset, restraint, switches, lengths):
        part()
    for n, text in enumerate(LEFT):
        FAULTS += ['section %d has a number that is not computed here: %s' % (n, part) for part in text.split(' # ') if re.search(r'\d', part)]
    print('\nThe page says what was computed.' if not FAULTS else '\n'.join(['', 'The page is out of step:'] + FAULTS))
    sys.exit(bool(FAULTS))
