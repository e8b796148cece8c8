#!/usr/bin/env python3
"""Prints a session made of the WAV files of a folder.

    new_session.py [--mono] FOLDER

The session belongs into that folder, where `check` accepts it. Each file whose name ends in .wav is a source, in the order of names, and has
a track, with one region that shows it whole from frame 0 on; 32 tracks are the most. Sources and tracks are named after the files. The
engine's own device-in.wav and device-out.wav are left out. The session has the rate that most of the files have that are read, 24 bits,
and a stereo master, or with --mono, where all its tracks are mono, a mono one. Comments at its top say how the whole is exported, and which
files have no track and why, by the words of `check`, with a line of ffmpeg that makes a file that is read of one that isn't.

The status is 0, or 1 where no file has a track, or 2 where the folder can't be read."""
import collections
import json
import os
import re
import shlex
import signal
import statistics
import struct
import sys
import unicodedata

PCM, EXTENSIBLE = 1, 0xFFFE
PCM_SUBFORMAT = bytes.fromhex("0100000000001000800000aa00389b71")
# No chunk is looked for behind this byte.
LAST_PLACE = 16777216
MOST_TRACKS, MOST_CYCLES = 32, 100000
Sound = collections.namedtuple("Sound", "channels rate frames")


class Unread(Exception):
    """Why a file isn't read, and its channels and rate where they are known."""
    def __init__(self, words, channels=0, rate=0):
        self.words, self.channels, self.rate = words, channels, rate


def form_of(fields):
    """Channels, rate and bytes of a frame, by a chunk `fmt `."""
    tag, channels, rate, _, align, bits = struct.unpack("<HHIIHH", fields[:16])
    is_extended = tag == EXTENSIBLE and fields[16] + 256 * fields[17] >= 22 and fields[24:] == PCM_SUBFORMAT
    rules = ((tag == PCM or is_extended, "format", tag), (1 <= channels <= 8, "channels", channels), (bits in (8, 16, 24), "bits", bits),
             (8000 <= rate <= 192000, "rate", rate), (align == channels * bits // 8, "align", align))
    for holds, word, number in rules:
        if not holds:
            raise Unread("%s %d" % (word, number), channels, rate)
    return channels, rate, align


def sound_of(file):
    """What the head of a file says, read as the engine reads it."""
    size, start = os.fstat(file.fileno()).st_size, file.read(12)
    if len(start) < 12 or start[:4] != b"RIFF":
        raise Unread("not-riff")
    if start[8:] != b"WAVE":
        raise Unread("not-wave")
    whole, at, form = struct.unpack("<I", start[4:8])[0], 12, None
    while at <= min(LAST_PLACE, whole):
        file.seek(at)
        head = file.read(8)
        if len(head) < 8:
            break
        name, long = struct.unpack("<4sI", head)
        if name == b"data":
            if not form:
                raise Unread("no-format")
            if size < at + 8 + long:
                raise Unread("truncated %d %d" % (long, max(0, size - at - 8)), *form[:2])
            return Sound(form[0], form[1], long // form[2])
        if name == b"fmt " and not form:
            fields = file.read(min(long, 40))
            if long < 16 or size < at + 8 + long or (fields[:2] == b"\xfe\xff" and long < 40):
                raise Unread("format-short %d" % long)
            form = form_of(fields)
        at += 8 + long + long % 2
    raise Unread("head-too-long %d" % at if at > LAST_PLACE else "no-data")


def legal(stem, taken):
    """A name made of a file's, which none of those taken is."""
    plain = unicodedata.normalize("NFKD", stem).encode("ascii", "ignore").decode().lower()
    plain = re.sub("[^a-z0-9_]+", "_", plain).strip("_")
    plain = ("t" + plain if plain[:1].isdigit() else plain or "track")[:24]
    name, number = plain, 1
    while name in taken:
        number += 1
        name = "%s_%d" % (plain[: 23 - len(str(number))], number)
    taken.add(name)
    return name


def typed(name):
    """A file's name as bash and ffmpeg take it, in one line."""
    name = "./" + name if name.startswith("-") or ":" in name else name
    if name.isprintable():
        return shlex.quote(name)
    raw = name.encode("utf-8", "surrogateescape")
    return "$'%s'" % "".join(chr(it) if 32 <= it < 127 and it not in b"\\'" else "\\x%02x" % it for it in raw)


def looked_at(folder, names):
    """The sounds of files by their names, and why others aren't read."""
    sounds, unread = {}, {}
    for name in names:
        path = os.path.join(folder, name.encode("utf-8", "surrogateescape"))
        if not os.path.isfile(path):
            continue
        try:
            with open(path, "rb") as file:
                sounds[name] = sound_of(file)
            name.encode()
        except UnicodeEncodeError:
            unread[name] = Unread("its name isn't UTF-8", *sounds.pop(name)[:2])
        except OSError as fault:
            unread[name] = Unread(fault.strerror)
        except Unread as why:
            unread[name] = why
    return sounds, unread


def left_out(sounds, unread, rate):
    """Takes the sounds away that have no track, and gives the comments that say why."""
    comments, taken = [], set()
    for name, sound in list(sounds.items()):
        if sound.channels > 2:
            unread[name] = Unread("%d channels" % sound.channels, sound.channels)
        elif sound.rate != rate:
            unread[name] = Unread("rate-differs %d %d" % (sound.rate, rate), sound.channels)
        elif sound.frames == 0:
            comments.append("%s holds no frame, and has no track" % typed(name))
        if name in unread or sound.frames == 0:
            del sounds[name]
    for name in sorted(unread):
        made = legal(os.path.splitext(name)[0], taken) + "-24.wav"
        comments.append("%s isn't read (%s)%s" % (typed(name), unread[name].words, "; %s is there" % made if made in sounds else ":"))
        if made not in sounds:
            sides = " -ac 2" if unread[name].channels > 2 else ""
            comments.append("  ffmpeg -i %s%s -ar %d -c:a pcm_s24le %s" % (typed(name), sides, rate, made))
    for name in list(sounds)[MOST_TRACKS:]:
        comments.append("%s is left out: a session has %d tracks at most" % (typed(name), MOST_TRACKS))
        del sounds[name]
    return comments


def session_of(sounds, comments, rate, channels, takes):
    """The lines of the session."""
    longest = max((it.frames for it in sounds.values()), default=0)
    block = next((it for it in (1024, 2048) if longest <= it * MOST_CYCLES), 4096)
    cycles = -(-longest // block)
    lines = ["# The longest file has %d frames. Cycles of %d frames that cover it: %d." % (longest, block, cycles)] if longest else []
    for at in range(0, cycles, MOST_CYCLES):
        lines.append("#   ardour_engine export session.toml %d %d" % (at * block, min(MOST_CYCLES, cycles - at)))
    lines += ["# (A run has %d cycles at most. Each writes device-out.wav anew.)" % MOST_CYCLES] if cycles > MOST_CYCLES else []
    lines += ["# " + it for it in comments]
    lines += ["[session]", "version = 2", "rate = %d" % rate, "bits = 24", "channels = %d" % channels, "block = %d" % block, "depth = 16"]
    lines += ['takes = "%s"' % takes] if takes != "take" else []
    taken = {"master"}
    named = [(legal(os.path.splitext(name)[0], taken), name, sound) for name, sound in sounds.items()]
    for name, file, sound in named:
        # (what TOML wants escaped is what JSON wants so, and one sign more)
        written = json.dumps(file, ensure_ascii=False).replace("\x7f", "\\u007f")
        lines += ["", "[[source]]", 'name = "%s"' % name, "file = %s" % written, "channels = %d" % sound.channels]
    for name, _, sound in named:
        lines += ["", "[[track]]", 'name = "%s"' % name, "channels = %d" % sound.channels]
        lines += ["", "[[track.region]]", "id = 1", 'source = "%s"' % name, "length = %d" % sound.frames, "at = 0"]
    return lines


def main(words):
    folders = [it for it in words if it != "--mono"]
    if len(folders) != 1 or folders[0].startswith("-"):
        print("usage: new_session.py [--mono] FOLDER", file=sys.stderr)
        return 2
    names = sorted(os.fsencode(it).decode("utf-8", "surrogateescape") for it in os.listdir(folders[0]))
    waves = [it for it in names if it.lower().endswith(".wav") and it not in ("device-in.wav", "device-out.wav")]
    sounds, unread = looked_at(os.fsencode(folders[0]), waves)
    rates = [it.rate for it in sounds.values() if it.channels <= 2] or [it.rate for it in unread.values() if 8000 <= it.rate <= 192000]
    rate = statistics.mode(rates or [48000])
    comments = left_out(sounds, unread, rate)
    is_mono = "--mono" in words and all(it.channels == 1 for it in sounds.values())
    # (a play doesn't begin where a name begins as its takes would)
    takes = next((it for it in ("take" + "_" * n for n in range(20)) if not any(name.startswith(it + "-") for name in names)), "take")
    lines = session_of(sounds, comments, rate, 1 if is_mono else 2, takes)
    sys.stdout.buffer.write("".join(it + "\n" for it in lines).encode())
    if not sounds:
        print("new_session.py: no file of %s has a track" % folders[0], file=sys.stderr)
    return 0 if sounds else 1


if __name__ == "__main__":
    signal.signal(signal.SIGPIPE, signal.SIG_DFL)
    try:
        status = main(sys.argv[1:])
        sys.stdout.flush()
    except OSError as fault:
        print("new_session.py: %s" % ": ".join(it for it in (fault.filename, fault.strerror or str(fault)) if it), file=sys.stderr)
        # (what a full disk didn't take isn't written once more)
        os._exit(2)
    sys.exit(status)
