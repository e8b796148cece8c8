"""The sessions that exports are timed with, as s.toml with its sources in the current folder: mixed stems, many tracks, one long track, and
sessions of so many tracks and regions, or of nothing. One key stands in a line, since export.c reads them so. All are at 48,000 frames a second, 16
blocks ahead, and by blocks of 1,024 frames where nothing else is said."""
import random
import struct

MINUTE = 2880000
BLOCK = 1024


def cycles_of(frames):
    return -(-frames // BLOCK)


class Session:
    """A session's text, part by part."""

    def __init__(self, bits, channels, block=BLOCK):
        random.seed(1)
        self.lines = []
        self.part("[session]", version=2, rate=48000, bits=bits, channels=channels, block=block, depth=16)

    def part(self, head, **keys):
        self.lines.append(head)
        self.lines.extend('%s = %s' % (key, '"%s"' % v if isinstance(v, str) else str(v).lower()) for key, v in keys.items())

    def source(self, name, bits, channels, frames):
        """A file of noise; one of the name that is there is taken as it is."""
        align = channels * bits // 8
        data = random.randbytes(align * frames)
        form = struct.pack("<4sI4s4sIHHIIHH4sI", b"RIFF", 36 + len(data), b"WAVE", b"fmt ", 16, 1, channels, 48000, 48000 * align, align, bits, b"data", len(data))
        with open(name + ".wav", "wb") as file:
            file.write(form + data)
        self.part("[[source]]", name=name, file=name + ".wav", channels=channels)

    def write(self):
        with open("s.toml", "w") as file:
            file.write("\n".join(self.lines) + "\n")


def stems():
    """Eight stereo stems of 24 bits, a minute, at a fader each, into a stereo master of 24 bits; and the same for sox."""
    s = Session(24, 2)
    for k in range(8):
        s.source("f%d" % k, 24, 2, MINUTE)
    sox = []
    for k in range(8):
        gain = random.randrange(6000, 9000)
        s.part("[[track]]", name="t%d" % k, channels=2, gain=gain)
        s.part("[[track.region]]", id=1, source="f%d" % k, length=MINUTE, at=0)
        sox += ["-v", "%.6f" % (gain / 65536), "f%d.wav" % k]
    s.part("[master]")
    s.write()
    return MINUTE, ["sox", "-D", "-m", *sox, "-b", "24", "sox.wav"]


def many():
    """32 mono tracks of four faded regions, four stereo busses with sends, a stereo master of 16 bits; for sox the regions alone, mixed."""
    files, frames, end, number = 8, 1000000, MINUTE, random.randrange
    s = Session(16, 2)
    for k in range(files):
        s.source("f%d" % k, 16, 1, frames)
    sox = []
    for t in range(32):
        # every eighth track leads to the master, and the others to the busses in turn; every second send is before the fader
        out = "master" if t % 8 == 7 else "b%d" % (t % 4)
        s.part("[[track]]", name="t%d" % t, channels=1, out=out, gain=number(10000, 30000), left=number(20000, 65537), right=number(20000, 65537))
        s.part("[[track.send]]", to="b%d" % ((t + 1) % 4), pre=t % 2 == 0, gain=number(5000, 20000))
        ids = random.sample(range(1, 1000), 4)
        for k in range(4):
            # a region every 700,000 frames: most last longer, so that the next begins while they sound, above or below them
            at = 700000 * k + number(40000)
            long = min(number(700000, 880000), end - at)
            source, start, gain = "f%d" % number(files), number(frames - long), number(20000, 80000)
            fade_in, fade_out = number(480, 96000), number(480, 96000)
            s.part("[[track.region]]", id=ids[k], source=source, start=start, length=long, at=at, layer=number(3), gain=gain, opaque=number(4) > 0,
                   fade_in=fade_in, fade_out=fade_out, shape_in=random.choice(["linear", "slow"]), shape_out=random.choice(["linear", "slow"]))
            sox += ["-v", "%.6f" % (gain / 65536 / 12), "|sox -D %s.wav -p trim %ds %ds fade t %ds %ds %ds pad %ds" % (source, start, long, fade_in, long, fade_out, at)]
    for b in range(4):
        s.part("[[bus]]", name="b%d" % b, channels=2, gain=number(40000, 60000))
        if b < 3:
            s.part("[[bus.send]]", to="b%d" % (b + 1), pre=b == 1, gain=number(5000, 20000))
    s.part("[master]", gain=20000)
    s.write()
    return MINUTE, ["sox", "-D", "-m", *sox, "-b", "16", "-c", "2", "sox.wav"]


def long():
    """One mono track of 24 bits, ten minutes, at a fader, into a mono master of 24 bits; and the same for sox."""
    s = Session(24, 1)
    s.source("f0", 24, 1, 10 * MINUTE)
    s.part("[[track]]", name="t0", channels=1, gain=50000)
    s.part("[[track.region]]", id=1, source="f0", length=10 * MINUTE, at=0)
    s.part("[master]")
    s.write()
    return 10 * MINUTE, ["sox", "-D", "-v", "%.6f" % (50000 / 65536), "f0.wav", "-b", "24", "sox.wav"]


def grid(tracks, regions, stacked=False):
    """So many mono tracks of so many regions: one behind the other with short fades over a minute, or all over one another and transparent."""
    s = Session(16, 2)
    s.source("f0", 16, 1, MINUTE)
    for t in range(tracks):
        s.part("[[track]]", name="t%d" % t, channels=1, gain=20000)
        for k in range(regions):
            at = 0 if stacked else MINUTE * k // regions
            long = MINUTE if stacked else min(MINUTE // regions + 480, MINUTE - at)
            keys = dict(opaque=False, gain=65536 // regions) if stacked else dict(fade_in=480, fade_out=480)
            s.part("[[track.region]]", id=k + 1, source="f0", start=0 if stacked else at, length=long, at=at, layer=k, **keys)
    s.part("[master]")
    s.write()
    return MINUTE, None


def nothing(tracks, block):
    """So many mono tracks on which nothing lies, by blocks of so many frames, into a stereo master of 24 bits."""
    s = Session(24, 2, block)
    for t in range(tracks):
        s.part("[[track]]", name="t%d" % t, channels=1)
    s.part("[master]")
    s.write()


WORKLOADS = {"stems": stems, "many": many, "long": long}
