#!/usr/bin/env python3
"""Turns decibels, seconds, cycles and bars in a session or in lines of control into the numbers that the engine reads.

    units.py RATE BLOCK < TEXT > NUMBERS        RATE in frames a second, BLOCK in frames

    -6dB  +1.5dB  0dB    becomes a gain, 65536 being 0 dB, rounded down; it is 262144 at most, which is some 12.04 dB
    4s  0.25s  250ms     frames, by seconds and by thousandths of a second
    1:01.5               frames, by minutes, and seconds of two digits below 60
    12c                  frames, by cycles
    3|2.5@90/4           the frame of beat 2.5 of bar 3, both counted from 1, at 90 beats a minute and 4 beats a bar
    4sc  250msc  1:01.5c  2|1@90/4c    the number of cycles that cover so many frames, for `wait`; it is 1 to 100000

A number has 1 to 20 digits, and those of dB, s, ms, seconds, beat and tempo may have a point and 1 to 20 digits behind it. Frames are worked
out in fractions and rounded down, and are 1099511627776 at most.

A word is a longest run of bytes other than blanks, line ends, `,`, `=`, `#`, quotes, brackets and braces. Turned are words that are as above from
end to end and stand as a value: behind another word of their line or in brackets that opened behind a `=`, and not before a `=`. In a line
that begins with a bracket (the head of a table), within quotes, and from a `#` outside of quotes to the end of the line nothing is turned. All
else is byte for byte as it was, also what is nearly such a word, as `-6db`, which the engine refuses then.

The status is 0, or 1 where a value is out of range, whose line and word are told, or 2 where RATE or BLOCK is wrong; then nothing is written."""
import decimal
import os
import re
import signal
import sys
from fractions import Fraction

MOST_GAIN, MOST_FRAMES, MOST_CYCLES = 262144, 2**40, 100000
WHOLE = r"([0-9]{1,20})"
NUMBER = r"([0-9]{1,20}(?:\.[0-9]{1,20})?)"
DECIBELS = re.compile(r"([+-]?)%sdB" % NUMBER)
CYCLES = re.compile(r"%sc" % WHOLE)
SECONDS = re.compile(r"%s(s|ms)(c?)" % NUMBER)
MINUTES = re.compile(r"%s:([0-9]{2}(?:\.[0-9]{1,20})?)(c?)" % WHOLE)
BARS = re.compile(r"%s\|%s@%s/%s(c?)" % (WHOLE, NUMBER, NUMBER, WHOLE))
# What a text is made of: strings over lines, strings, comments, blanks, line ends, signs, and words.
PARTS = re.compile(rb'"""(?:[^\\]|\\.)*?(?:"""|\Z)|\'\'\'.*?(?:\'\'\'|\Z)|"(?:[^"\\\n]|\\[^\n])*"?|\'[^\'\n]*\'?|#[^\n]*|[^\S\n]+|\n'
                   rb'|[][{}=,]|(?P<word>[^][{}=,"\'#\s]+)', re.S)
KEY_ENDS = re.compile(rb"[ \t]*=")


class OutOfRange(Exception):
    pass


def held(number, least, most):
    if not least <= number <= most:
        raise OutOfRange
    return number


def gain_of(decibels):
    # (a gain of 13 dB is too high, and below -200 dB there is none)
    level = max(decimal.Decimal(-200), min(decimal.Decimal(decibels), decimal.Decimal(13)))
    with decimal.localcontext() as context:
        context.prec = 60
        return held(int(65536 * decimal.Decimal(10) ** (level / 20)), 0, MOST_GAIN)


def seconds_of(word):
    """How many seconds a word means, and whether it asks for cycles; nothing where it is no such word."""
    found = SECONDS.fullmatch(word)
    if found:
        return Fraction(found[1]) / (1000 if found[2] == "ms" else 1), found[3]
    found = MINUTES.fullmatch(word)
    if found:
        if Fraction(found[2]) >= 60:
            raise OutOfRange
        return int(found[1]) * 60 + Fraction(found[2]), found[3]
    found = BARS.fullmatch(word)
    if found:
        bar, beat, tempo, beats = int(found[1]), Fraction(found[2]), Fraction(found[3]), int(found[4])
        if bar < 1 or tempo == 0 or not 1 <= beat < beats + 1:
            raise OutOfRange
        return ((bar - 1) * beats + beat - 1) * 60 / tempo, found[5]
    return None


def number_of(word, rate, block):
    """The number that a word becomes; nothing where it stays as it is."""
    found = DECIBELS.fullmatch(word)
    if found:
        return gain_of(found[1] + found[2])
    found = CYCLES.fullmatch(word)
    if found:
        return held(int(found[1]) * block, 0, MOST_FRAMES)
    found = seconds_of(word)
    if not found:
        return None
    frames = held(found[0] * rate // 1, 0, MOST_FRAMES)
    return held(-(-frames // block), 1, MOST_CYCLES) if found[1] else frames


def turned(text, rate, block):
    """The text in numbers, and what is out of range."""
    made, wrong, line = [], [], 1
    # Of the line so far: it has a word or a sign; it has a `=`; it is a table's head. And how many brackets behind a `=` are open.
    begun = has_value = is_head = False
    depth = 0
    for found in PARTS.finditer(text):
        part = found[0]
        if found["word"]:
            if (begun or depth) and not is_head and not KEY_ENDS.match(text, found.end()):
                word = part.decode("ascii", "replace")
                try:
                    number = number_of(word, rate, block)
                    part = part if number is None else b"%d" % number
                except OutOfRange:
                    wrong.append("line %d: %s is out of range" % (line, word))
            begun = True
        elif part == b"\n" and not depth:
            begun = has_value = is_head = False
        elif part == b"=":
            has_value = True
        elif part == b"[" and not begun and not depth:
            begun = is_head = True
        elif part in (b"[", b"{") and has_value:
            depth += 1
        elif part in (b"]", b"}"):
            depth = max(0, depth - 1)
        line += found[0].count(b"\n")
        made.append(part)
    return b"".join(made), wrong


def main(words):
    are_numbers = len(words) == 2 and all(re.fullmatch("[0-9]{1,6}", it) for it in words)
    if not are_numbers or not 8000 <= int(words[0]) <= 192000 or not 1 <= int(words[1]) <= 4096:
        print("usage: units.py RATE BLOCK, with a RATE of 8000 to 192000 and a BLOCK of 1 to 4096", file=sys.stderr)
        return 2
    made, wrong = turned(sys.stdin.buffer.read(), int(words[0]), int(words[1]))
    for said in wrong:
        print("units.py: %s" % said, file=sys.stderr)
    if not wrong:
        sys.stdout.buffer.write(made)
    return 1 if wrong else 0


if __name__ == "__main__":
    signal.signal(signal.SIGPIPE, signal.SIG_DFL)
    try:
        status = main(sys.argv[1:])
        sys.stdout.flush()
    except OSError as fault:
        print("units.py: %s" % ": ".join(it for it in (fault.filename, fault.strerror or str(fault)) if it), file=sys.stderr)
        # (what a full disk didn't take isn't written once more)
        os._exit(2)
    sys.exit(status)
