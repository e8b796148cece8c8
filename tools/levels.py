#!/usr/bin/env python3
"""Says how loud a WAV file is, and whether it is clipped.

    levels.py MASTER

MASTER is a WAV file of PCM, of 16 or 24 bits, with a plain or an extensible head. For each channel a line is printed:

    channel 1: peak -3.42 dB, sample -5657012, full scale 0 times

The peak is the sample farthest from 0 (of two as far the one above), in dB of full scale, which is 32768 at 16 bits and 8388608 at 24;
of silence it is `-inf`. A sample stands at full scale where it is the highest or the lowest that its bits can say: it is clipped then, or
as good as that. A frame that the end of the data cuts isn't looked at. The status is 0 where no sample stands at full scale, 1 where one
does, and 2 where the file can't be read."""
import array
import math
import os
import signal
import struct
import sys

PCM, EXTENSIBLE = 1, 0xFFFE
PCM_SUBFORMAT = bytes.fromhex("0100000000001000800000aa00389b71")
# No chunk is looked for behind this byte; and about so many bytes are held at a time.
LAST_PLACE, PIECE = 16777216, 1 << 20


class Unread(Exception):
    pass


def chunks(file):
    """The name, the place and the size of each chunk, in the order of the file."""
    head = file.read(12)
    if head[:4] != b"RIFF" or head[8:] != b"WAVE":
        raise Unread("it isn't a WAV file")
    at = 12
    while at <= LAST_PLACE:
        file.seek(at)
        head = file.read(8)
        if len(head) < 8:
            return
        size = struct.unpack("<I", head[4:])[0]
        yield head[:4], at + 8, size
        at += 8 + size + size % 2


def form_of(fields):
    """The channels and the bytes of a sample, by a chunk `fmt `."""
    if len(fields) < 16:
        raise Unread("its format is cut short")
    tag, channels, _, _, align, bits = struct.unpack("<HHIIHH", fields[:16])
    if tag != PCM and not (tag == EXTENSIBLE and fields[24:40] == PCM_SUBFORMAT):
        raise Unread("it holds no PCM: its format is %d" % tag)
    if bits not in (16, 24):
        raise Unread("its samples have %d bits, and those of 16 and 24 are read" % bits)
    if channels == 0 or align != channels * bits // 8:
        raise Unread("its frames have %d bytes, which %d channels of %d bits don't fill" % (align, channels, bits))
    return channels, bits // 8


def samples_of(data, size):
    """Samples of so many bytes each, the low byte first, as the upper bytes of numbers of 32 bits."""
    wide = bytearray(len(data) // size * 4)
    for byte in range(size):
        wide[4 - size + byte :: 4] = data[byte::size]
    samples = array.array("i", bytes(wide))
    if sys.byteorder == "big":
        samples.byteswap()
    return samples


class Channel:
    """What was heard of a channel whose samples have so many bytes."""

    def __init__(self, size):
        self.shift, self.full = 32 - 8 * size, 2 ** (8 * size - 1)
        self.high, self.low, self.clipped = 0, 0, 0

    def take(self, samples):
        high, low = max(samples) >> self.shift, min(samples) >> self.shift
        if high == self.full - 1:
            self.clipped += samples.count(high << self.shift)
        if low == -self.full:
            self.clipped += samples.count(low << self.shift)
        self.high, self.low = max(self.high, high), min(self.low, low)

    def line(self):
        peak = self.high if self.high >= -self.low else self.low
        # (so that none is written as -0.00)
        level = "%.2f" % (round(20 * math.log10(abs(peak) / self.full), 2) + 0.0) if peak else "-inf"
        return "peak %s dB, sample %d, full scale %d times" % (level, peak, self.clipped)


def measured(file, channels, size, left):
    """The channels of so many bytes of data, which the file gives next."""
    frame = channels * size
    found = [Channel(size) for _ in range(channels)]
    left -= left % frame
    while left:
        wanted = min(left, max(1, PIECE // frame) * frame)
        data = file.read(wanted)
        if len(data) < wanted:
            raise Unread("it ends %d bytes before its data does" % (left - len(data)))
        samples = samples_of(data, size)
        for number, channel in enumerate(found):
            channel.take(samples[number::channels])
        left -= wanted
    return found


def channels_of(file):
    form = None
    for name, at, size in chunks(file):
        file.seek(at)
        if name == b"fmt " and not form:
            form = form_of(file.read(min(size, 40)))
        elif name == b"data":
            if not form:
                raise Unread("its data stands before its format")
            return measured(file, *form, size)
    raise Unread("it has no data")


def main(words):
    if len(words) != 1:
        print("usage: levels.py MASTER", file=sys.stderr)
        return 2
    try:
        with open(words[0], "rb") as file:
            found = channels_of(file)
    except Unread as why:
        print("levels.py: %s: %s" % (words[0], why), file=sys.stderr)
        return 2
    for number, channel in enumerate(found, 1):
        print("channel %d: %s" % (number, channel.line()))
    return 1 if any(channel.clipped for channel in found) else 0


if __name__ == "__main__":
    signal.signal(signal.SIGPIPE, signal.SIG_DFL)
    try:
        status = main(sys.argv[1:])
        sys.stdout.flush()
    except OSError as fault:
        print("levels.py: %s" % ": ".join(it for it in (fault.filename, fault.strerror or str(fault)) if it), file=sys.stderr)
        # (what a full disk didn't take isn't written once more)
        os._exit(2)
    sys.exit(status)
