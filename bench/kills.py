#!/usr/bin/env python3
"""What a recording leaves that doesn't come to its end.

    bench/kills.py [KILLS]

Eight tracks record eight inputs, and the program is ended at a random moment: KILLS times by SIGKILL (200 with no word), and a tenth as often by
SIGINT and by SIGTERM. Then, as root, two tracks record into a tmpfs of one page, of two, and so on up to what the run needs. After each the
file of each take is looked at: its head tells of no more frames than stand in the file, of all but less than a second of them, and they
are the first frames of the input; sox, ffmpeg (where they are there) and the program itself open it. A file that had no room for its head, or
was ended within it, is counted apart. ARDOUR_ENGINE names another program than the one that is built. The status is 1 where a file is wrong."""
import os
import random
import shutil
import signal
import struct
import subprocess
import sys
import tempfile
import time

TOP = os.path.dirname(os.path.dirname(os.path.abspath(__file__)))
PROGRAM = os.environ.get("ARDOUR_ENGINE", os.path.join(TOP, "crates/ardour_engine/out/ardour_engine"))
RATE, BLOCK, BYTES = 48000, 256, 3
TOOLS = [["sox", "--i"], ["ffprobe", "-v", "error"]]


def head(channels, frames):
    data = frames * channels * BYTES
    form = struct.pack("<HHIIHH", 1, channels, RATE, RATE * channels * BYTES, channels * BYTES, 8 * BYTES)
    return b"RIFF" + struct.pack("<I", 36 + data + data % 2) + b"WAVEfmt " + struct.pack("<I", 16) + form + b"data" + struct.pack("<I", data)


def make(folder, tracks, frames):
    """An input of noise, and a session of so many armed tracks. Gives the sound of each input."""
    sounds = [os.urandom(frames * BYTES) for _ in range(tracks)]
    with open(os.path.join(folder, "device-in.wav"), "wb") as file:
        file.write(head(tracks, frames))
        file.write(b"".join(sound[i:i + BYTES] for i in range(0, frames * BYTES, BYTES) for sound in sounds))
    with open(os.path.join(folder, "s.toml"), "w") as file:
        file.write("[session]\nversion = 1\nrate = %d\nbits = 24\nchannels = 1\nblock = %d\ndepth = 16\n" % (RATE, BLOCK))
        for k in range(tracks):
            file.write('[[track]]\nname = "t%d"\nchannels = 1\ninput = %d\narm = true\n' % (k, k))
    return sounds


def begun(folder, cycles):
    run = subprocess.Popen([PROGRAM, "play", "s.toml", str(cycles), "--serial"], cwd=folder, stdin=subprocess.PIPE, stdout=subprocess.DEVNULL,
                           stderr=subprocess.DEVNULL)
    run.stdin.write(b"record on\nroll\n")
    run.stdin.close()
    return run


def what_is_wrong(path, sound):
    """None where the file is right, "" where it has no room for a head."""
    with open(path, "rb") as file:
        held = file.read()
    if len(held) < 44:
        return ""
    stand, told = (len(held) - 44) // BYTES, struct.unpack("<I", held[40:44])[0] // BYTES
    if held[:44] != head(1, told):
        return "the head isn't one of %d frames" % told
    if not (told <= stand and stand - told < RATE + BLOCK and (told or stand < BLOCK + 1)):
        return "the head tells of %d frames, and %d stand" % (told, stand)
    if held[44:44 + stand * BYTES] != sound[:stand * BYTES]:
        return "the sound isn't that of the input"
    for tool in TOOLS:
        if shutil.which(tool[0]) and subprocess.run([*tool, path], stdout=subprocess.DEVNULL, stderr=subprocess.DEVNULL).returncode:
            return tool[0] + " doesn't open it"
    return None


def is_opened(path):
    """The program itself takes the file as a source."""
    with tempfile.TemporaryDirectory() as folder:
        os.symlink(path, os.path.join(folder, "a.wav"))
        with open(os.path.join(folder, "s.toml"), "w") as file:
            file.write("[session]\nversion = 1\nrate = %d\nbits = 24\nchannels = 1\nblock = 4\ndepth = 2\n" % RATE)
            file.write('[[source]]\nname = "a"\nfile = "a.wav"\nchannels = 1\n')
        words = [PROGRAM, "check", "s.toml"]
        return subprocess.run(words, cwd=folder, stdout=subprocess.DEVNULL, stderr=subprocess.DEVNULL).returncode == 0


def look(folder, sounds, counts):
    """Looks at the takes, and takes them away."""
    for k, sound in enumerate(sounds):
        name = "take-t%d-1.wav" % k
        path = os.path.join(folder, name)
        if not os.path.exists(path):
            continue
        wrong = what_is_wrong(path, sound)
        if wrong is None and not is_opened(path):
            wrong = "the program doesn't open it"
        counts["right" if wrong is None else "without a head" if wrong == "" else "wrong"] += 1
        if wrong:
            print("%s: %s" % (name, wrong))
        os.remove(path)


def kill(folder, sounds, cycles, by, times, longest):
    counts = {"right": 0, "without a head": 0, "wrong": 0}
    for _ in range(times):
        run = begun(folder, cycles)
        time.sleep(random.uniform(0, longest))
        run.send_signal(by)
        run.wait()
        look(folder, sounds, counts)
    print("%s, %d times: %s" % (by.name, times, ", ".join("%d %s" % (n, word) for word, n in counts.items())))
    return counts["wrong"]


def fill(made, sounds, cycles, pages):
    counts = {"right": 0, "without a head": 0, "wrong": 0}
    statuses = set()
    for size in range(1, pages + 1):
        with tempfile.TemporaryDirectory() as folder:
            subprocess.run(["mount", "-t", "tmpfs", "-o", "size=%dk" % (4 * size), "tmpfs", folder], check=True)
            try:
                for name in ("s.toml", "device-in.wav"):
                    os.symlink(os.path.join(made, name), os.path.join(folder, name))
                run = begun(folder, cycles)
                statuses.add(run.wait())
                look(folder, sounds, counts)
            finally:
                subprocess.run(["umount", folder], check=True)
    print("tmpfs of 1 to %d pages: %s; statuses %s" % (pages, ", ".join("%d %s" % (n, word) for word, n in counts.items()), sorted(statuses)))
    return counts["wrong"]


def main():
    kills = int(sys.argv[1]) if sys.argv[1:] else 200
    wrong = 0
    with tempfile.TemporaryDirectory() as folder:
        cycles = 30 * RATE // BLOCK
        sounds = make(folder, 8, cycles * BLOCK)
        start = time.monotonic()
        status = begun(folder, cycles).wait()
        longest = time.monotonic() - start
        print("a whole run takes %.2f s, status %d" % (longest, status))
        look(folder, sounds, {"right": 0, "without a head": 0, "wrong": 0})
        for by, times in ((signal.SIGKILL, kills), (signal.SIGINT, kills // 10), (signal.SIGTERM, kills // 10)):
            wrong += kill(folder, sounds, cycles, by, times, longest)
    if os.geteuid() == 0:
        with tempfile.TemporaryDirectory() as folder:
            cycles = 3 * RATE // BLOCK
            sounds = make(folder, 2, cycles * BLOCK)
            wrong += fill(folder, sounds, cycles, 3 * cycles * BLOCK * BYTES // 4096 + 8)
    return 1 if wrong else 0


if __name__ == "__main__":
    sys.exit(main())
