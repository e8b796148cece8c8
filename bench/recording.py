#!/usr/bin/env python3
"""What it costs that a take's head is made anew each second.

    bench/recording.py [ROUNDS]

32 tracks record 1,500 cycles of 1,024 frames of an input of eight channels, in turn with the heads made anew and with these writes left out
(bench/heads.c); the least and the middle processor time and the least time by the clock of each are printed (25 rounds with no word).
ARDOUR_ENGINE names another program than the one that is built."""
import glob
import os
import resource
import struct
import subprocess
import sys
import tempfile
import time

BENCH = os.path.dirname(os.path.abspath(__file__))
PROGRAM = os.environ.get("ARDOUR_ENGINE", os.path.join(BENCH, "../crates/ardour_engine/out/ardour_engine"))
RATE, BLOCK, BYTES, CHANNELS, TRACKS, CYCLES = 48000, 1024, 3, 8, 32, 1500


def make(folder):
    data = BLOCK * CYCLES * CHANNELS * BYTES
    form = struct.pack("<HHIIHH", 1, CHANNELS, RATE, RATE * CHANNELS * BYTES, CHANNELS * BYTES, 8 * BYTES)
    with open(os.path.join(folder, "device-in.wav"), "wb") as file:
        file.write(b"RIFF" + struct.pack("<I", 36 + data) + b"WAVEfmt " + struct.pack("<I", 16) + form + b"data" + struct.pack("<I", data))
        block = os.urandom(BLOCK * CHANNELS * BYTES)
        for _ in range(CYCLES):
            file.write(block)
    with open(os.path.join(folder, "s.toml"), "w") as file:
        file.write("[session]\nversion = 1\nrate = %d\nbits = 24\nchannels = 2\nblock = %d\ndepth = 16\n" % (RATE, BLOCK))
        for k in range(TRACKS):
            file.write('[[track]]\nname = "t%d"\nchannels = 1\ninput = %d\narm = true\n' % (k, k % CHANNELS))


def recorded(folder, shim, leaves_out):
    """Processor time and time by the clock of one recording."""
    for take in glob.glob(os.path.join(folder, "take-*")):
        os.remove(take)
    words = dict(os.environ, LD_PRELOAD=shim, **({"LEAVE_OUT": "1"} if leaves_out else {}))
    before, began = resource.getrusage(resource.RUSAGE_CHILDREN), time.monotonic()
    run = subprocess.run([PROGRAM, "play", "s.toml", str(CYCLES), "--serial"], input=b"record on\nroll\n", stdout=subprocess.DEVNULL, env=words, cwd=folder)
    after = resource.getrusage(resource.RUSAGE_CHILDREN)
    if run.returncode:
        sys.exit("the run ended with %d" % run.returncode)
    return after.ru_utime + after.ru_stime - before.ru_utime - before.ru_stime, time.monotonic() - began


def main():
    rounds = int(sys.argv[1]) if len(sys.argv) > 1 else 25
    with tempfile.TemporaryDirectory() as folder:
        make(folder)
        shim = os.path.join(folder, "heads.so")
        subprocess.run(["gcc", "-O2", "-shared", "-fPIC", "-o", shim, os.path.join(BENCH, "heads.c"), "-ldl"], check=True)
        times = {False: [], True: []}
        for _ in range(rounds):
            for leaves_out in times:
                times[leaves_out].append(recorded(folder, shim, leaves_out))
    for leaves_out, said in ((False, "heads made anew"), (True, "left out")):
        cpu, clock = zip(*times[leaves_out])
        print("%-16s processor %.3f least, %.3f middle; clock %.3f least" % (said, min(cpu), sorted(cpu)[rounds // 2], min(clock)))


main()
