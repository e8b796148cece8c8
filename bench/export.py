"""Times the program's exports beside plain loops in C and beside sox: see export.sh. The words: the program, the two programs of export.c."""
import filecmp
import os
import shutil
import sys

import workloads

RUNS = 3
ROUNDS = 7


def timed(words):
    """Seconds of processor time, user and system, and megabytes at the most, of one run, with those that it starts."""
    child = os.fork()
    if child == 0:
        nothing = os.open(os.devnull, os.O_WRONLY)
        os.dup2(nothing, 1)
        os.execvp(words[0], words)
    _, status, used = os.wait4(child, 0)
    if status:
        sys.exit("%s failed" % words[0])
    return used.ru_utime + used.ru_stime, used.ru_maxrss / 1024


def least(runs):
    return min(time for time, _ in runs), max(room for _, room in runs)


def beside(name, frames, sox, programs):
    """All programs over one session, in turns; the masters of ours and of C have to be one."""
    cycles = str(workloads.cycles_of(frames))
    ways = {"here": [programs[0], "export", "s.toml", "0", cycles], "gcc -O2": [programs[1], cycles], "gcc -O3 -march=native": [programs[2], cycles]}
    if sox and shutil.which("sox"):
        ways["sox"] = sox
    runs = {way: [] for way in ways}
    for _ in range(RUNS):
        for way, words in ways.items():
            runs[way].append(timed(words))
            if way.startswith("gcc") and not filecmp.cmp("device-out.wav", "out.wav", shallow=False):
                sys.exit("the masters differ: %s, %s" % (name, way))
    here = least(runs["here"])[0]
    for way in ways:
        time, room = least(runs[way])
        print("%-6s %-22s %7.3f s  %6.1f MB  here is %5.2f times that" % (name, way, time, room, here / time), flush=True)


def a_cycle(words, cycles):
    """Microseconds of processor time a cycle of the session that stands there, by these words, without the opening."""
    whole, begun = (least([timed(words + [str(n)]) for _ in range(RUNS)])[0] for n in (cycles, 1))
    return (whole - begun) * 1e6 / (cycles - 1)


def cost(program, plain):
    """That of a minute here, and by plain loops."""
    cycles = workloads.cycles_of(workloads.MINUTE)
    found = tuple(a_cycle(words, cycles) for words in ([program, "export", "s.toml", "0"], [plain]))
    return "here %8.2f, gcc -O2 %8.2f microseconds a cycle" % found


def nothing(program):
    """That of tracks on which nothing lies, and how often it is that of one: the least of some rounds over all sessions in turn, so that a slow
    moment of the machine falls on all alike."""
    sessions = [(block, tracks) for block in (64, 256, 1024, 4096) for tracks in (1, 8, 16, 32)]
    cycles, best = 10000, {}
    for _ in range(ROUNDS):
        for block, tracks in sessions:
            workloads.nothing(tracks, block)
            for n in (cycles, 1):
                time = timed([program, "export", "s.toml", "0", str(n)])[0]
                best[block, tracks, n] = min(time, best.get((block, tracks, n), time))
    for block, tracks in sessions:
        found, one = ((best[block, t, cycles] - best[block, t, 1]) * 1e6 / (cycles - 1) for t in (tracks, 1))
        print("blocks of %4d, %2d tracks of nothing: %8.2f microseconds a cycle, %5.2f times one track" % (block, tracks, found, found / one), flush=True)


def main():
    programs, which = sys.argv[1:4], sys.argv[4:]
    for name, make in workloads.WORKLOADS.items():
        if not which or name in which:
            beside(name, *make(), programs)
    if not which or "grid" in which:
        for tracks in (1, 2, 4, 8, 16, 32):
            workloads.grid(tracks, 1)
            print("%2d tracks, a region each: %s" % (tracks, cost(*programs[:2])), flush=True)
        for regions in (1, 4, 16, 64, 256):
            workloads.grid(8, regions)
            print("8 tracks, %3d regions one behind the other: %s" % (regions, cost(*programs[:2])), flush=True)
        for regions in (1, 4, 16, 64):
            workloads.grid(8, regions, stacked=True)
            print("8 tracks, %3d transparent regions over one another: %s" % (regions, cost(*programs[:2])), flush=True)
    if not which or "nothing" in which:
        nothing(programs[0])


main()
