"""Makes the sounds of the tune, at 48,000 frames a second: ten bars of four beats, 128,000 frames a bar.

drums.wav   stereo, 24 bits: a bar of groove, a bar of fill, two bars of a cymbal that dies away
bass.wav    mono, 16 bits: bars 2 to 10
guitar.wav  mono, 24 bits: bars 1 to 10
strings.wav stereo, 24 bits: bars 3 to 10
lead_1.wav  mono, 24 bits: the melody of bars 1 to 10, with a slip in bar 6
lead_2.wav  mono, 24 bits: bars 5 and 6 once more
device-in.wav  mono, 24 bits: what the microphone hears, a bar of silence and then a flute, which plays bars 6 to 8
"""
import array
import functools
import math
import operator
import os
import random
import sys
import wave

RATE = 48000
BEAT = 32000  # 90 beats a minute
BAR = 4 * BEAT
HERE = os.path.dirname(os.path.abspath(__file__))

# Of each bar the bass, the chord, and the melody in half beats (0 rests).
BARS = [
    (48, [60, 64, 67], [76, 0, 79, 76, 74, 72, 74, 76]),
    (45, [57, 60, 64], [72, 0, 76, 72, 69, 72, 74, 72]),
    (41, [57, 60, 65], [69, 0, 72, 69, 77, 76, 74, 72]),
    (43, [59, 62, 67], [74, 0, 71, 74, 79, 0, 77, 74]),
    (48, [60, 64, 67], [76, 0, 79, 76, 84, 0, 83, 79]),
    (45, [57, 60, 64], [81, 0, 79, 78, 72, 0, 74, 75]),
    (41, [57, 60, 65], [77, 0, 81, 77, 76, 74, 72, 69]),
    (43, [59, 62, 65], [74, 0, 71, 67, 71, 74, 77, 74]),
    (41, [57, 60, 65], [72, 0, 0, 77, 76, 0, 72, 74]),
    (48, [60, 64, 67], [72, 0, 0, 0, 0, 0, 0, 0]),
]
AGAIN = [[84, 83, 84, 79, 76, 0, 79, 84], [81, 84, 81, 79, 76, 0, 74, 72]]  # bars 5 and 6, as they were meant
FLUTE = [(0, 60, 2), (2, 64, 2), (4, 65, 2), (6, 69, 1), (7, 67, 1), (8, 67, 1.5), (9.5, 65, 0.5), (10, 62, 2)]  # beat, note, beats


def frequency(note):
    return 440.0 * 2 ** ((note - 69) / 12)


def lay(track, at, sound, loudness=1.0):
    """Adds a sound to a track from a frame on; what passes the track's end is left out."""
    end = min(len(track), at + len(sound))
    if loudness == 1.0:
        track[at:end] = map(operator.add, track[at:end], sound)
    else:
        track[at:end] = [a + loudness * b for a, b in zip(track[at:end], sound)]


@functools.lru_cache(None)
def pluck(note, seconds, brightness):
    """A string after Karplus and Strong: noise that goes round a delay line and is smoothed at each turn."""
    noise = random.Random(note)
    line = [noise.uniform(-1, 1) for _ in range(round(RATE / frequency(note) - 0.5))]
    for i in range(1, len(line)):
        line[i] = brightness * line[i] + (1 - brightness) * line[i - 1]
    made = list(line)
    while len(made) < seconds * RATE:
        line = [0.4985 * (a + b) for a, b in zip(line, line[1:] + line[:1])]
        made += line
    return faded(made[: int(seconds * RATE)], 2000)


@functools.lru_cache(None)
def bell(note, seconds):
    """A bar of metal that is struck: three sines that die away, the higher the sooner."""
    made = [0.0] * int(seconds * RATE)
    for times, loudness, life in ((1, 1.0, 0.55), (2.0, 0.12, 0.3), (3.98, 0.35, 0.12)):
        turn = 2 * math.pi * frequency(note) * times / RATE
        decay = math.exp(-1 / (life * RATE))
        a, b, last, now = 2 * decay * math.cos(turn), decay * decay, 0.0, loudness * math.sin(turn)
        for i in range(len(made)):
            made[i] += now
            last, now = now, a * now - b * last
    return faded(made, 2000)


def faded(sound, frames):
    frames = min(frames, len(sound))
    sound[-frames:] = [v * (frames - i) / frames for i, v in enumerate(sound[-frames:])]
    return sound


@functools.lru_cache(None)
def wide(chord, off):
    """A second of a chord of bowed strings, which may be repeated: each sine has a whole number of turns."""
    made = [0.0] * RATE
    for note in chord + (chord[0] + 12,):
        for partial, loudness in ((1, 1.0), (2, 0.5), (3, 0.22)):
            turns = 2 * round((frequency(note) + off) * partial / 2)
            phase = random.Random(turns).random()
            table = [loudness * math.sin(2 * math.pi * (turns * i / RATE + phase)) for i in range(RATE // math.gcd(turns, RATE))]
            lay(made, 0, table * (RATE // len(table)))
    return made


def drums():
    noise = random.Random(3)
    left, right = [0.0] * (4 * BAR), [0.0] * (4 * BAR)
    kick = [math.sin(2 * math.pi * (48 * i / RATE + 9 * (1 - math.exp(-i / 1500)) / 4)) * math.exp(-i / 6000) for i in range(18000)]
    hiss = [noise.uniform(-1, 1) for _ in range(2 * BAR)]
    sharp = [a - b for a, b in zip(hiss[1:], hiss)]
    snare = [(0.5 * hiss[i] + 0.6 * math.sin(2 * math.pi * 190 * i / RATE)) * math.exp(-i / 3500) for i in range(16000)]
    hat = [sharp[i] * math.exp(-i / 900) for i in range(6000)]
    crash = faded([sharp[i] * math.exp(-i / 45000) for i in range(2 * BAR - 1)], 20000)

    def both(at, sound, loudness, place):
        lay(left, at, sound, loudness * (1 - place))
        lay(right, at, sound, loudness * place)

    for bar in (0, 1):
        for beat in (0, 2, 2.5):
            both(bar * BAR + int(beat * BEAT), kick, 1.0, 0.5)
        for beat in (1, 3) if bar == 0 else (1, 2.75, 3, 3.25, 3.5, 3.75):
            both(bar * BAR + int(beat * BEAT), snare, 0.55 if beat in (1, 3) else 0.3 + 0.08 * beat, 0.45)
        for half in range(8):
            both(bar * BAR + half * BEAT // 2 + (1400 if half % 2 else 0), hat, 0.22 if half % 2 else 0.13, 0.65)
    both(2 * BAR, crash, 0.3, 0.4)
    return [left, right]


def bass():
    track = [0.0] * (9 * BAR)
    for bar, (root, _, _) in enumerate(BARS[1:]):
        steps = [(0, root), (1.5, root), (2, root + 7), (3.5, root + 12)] if bar < 8 else [(0, root)]
        for beat, note in steps:
            lay(track, bar * BAR + int(beat * BEAT), pluck(note, 1.2 if bar < 8 else 2.6, 0.18))
    return [track]


def guitar():
    track = [0.0] * (10 * BAR)
    for bar, (_, chord, _) in enumerate(BARS[:9]):
        for half, string in enumerate((0, 1, 2, 1, 3, 1, 2, 1)):
            note = (chord + [chord[0] + 12])[string]
            lay(track, bar * BAR + half * BEAT // 2, pluck(note, 1.3, 0.5), 1.0 if half % 4 == 0 else 0.75)
    for i, note in enumerate((48, 55, 60, 64, 67, 72)):
        lay(track, 9 * BAR + i * 1600, pluck(note, 2.5, 0.5), 0.9)
    return [track]


def strings():
    sides = []
    for off in (-0.8, 0.9):
        side = [0.0] * (8 * BAR)
        for bar, (_, chord, _) in enumerate(BARS[2:]):
            sound = (wide(tuple(chord), off) * 4)[: BAR + 16000]
            rise = [min(1.0, i / 16000) for i in range(len(sound))]
            lay(side, bar * BAR, faded([a * b for a, b in zip(sound, rise)], 16000))
        sides.append(side)
    return sides


def lead(bars):
    track = [0.0] * (len(bars) * BAR)
    for bar, notes in enumerate(bars):
        for half, note in enumerate(notes):
            if note:
                long = 2.5 if notes.count(0) == 7 else 1.2
                lay(track, bar * BAR + half * BEAT // 2, bell(note, long), 0.9 if half % 2 else 1.0)
    return [track]


def flute():
    noise = random.Random(9)
    track = [0.0] * (4 * BAR)
    for beat, note, beats in FLUTE:
        frames, phase, breath = int(beats * BEAT) + 2000, 0.0, 0.0
        made = []
        for i in range(frames):
            swing = 0.004 * min(1.0, i / 20000) * math.sin(2 * math.pi * 5 * i / RATE)
            phase += 2 * math.pi * frequency(note + 12) * (1 + swing) / RATE
            breath += 0.2 * (noise.uniform(-1, 1) - breath)
            made.append(min(1.0, i / 2500) * (math.sin(phase) + 0.25 * math.sin(2 * phase) + 0.08 * breath))
        lay(track, BAR + int(beat * BEAT), faded(made, 3000))
    return [track]


def write(name, sides, size, peak=0.6):
    """Writes a file of so many bytes a sample, whose loudest sample is that part of full scale."""
    loudest = max(max(max(side), -min(side)) for side in sides)
    full = peak / loudest * (256**size // 2 - 1)
    data = bytearray(size * len(sides) * len(sides[0]))
    for c, side in enumerate(sides):
        samples = array.array("i", [round(full * v) for v in side])
        if sys.byteorder == "big":
            samples.byteswap()
        samples = samples.tobytes()
        for b in range(size):
            data[c * size + b :: len(sides) * size] = samples[b::4]
    with wave.open(os.path.join(HERE, name), "wb") as file:
        file.setnchannels(len(sides))
        file.setsampwidth(size)
        file.setframerate(RATE)
        file.writeframes(data)


if __name__ == "__main__":
    write("drums.wav", drums(), 3)
    write("bass.wav", bass(), 2)
    write("guitar.wav", guitar(), 3)
    write("strings.wav", strings(), 3)
    write("lead_1.wav", lead([notes for _, _, notes in BARS]), 3)
    write("lead_2.wav", lead(AGAIN), 3)
    write("device-in.wav", flute(), 3)
