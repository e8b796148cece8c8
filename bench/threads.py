"""Plays sessions on threads by thread_speed, and says what each thread took. The words: the program, the folder of the tune, an empty folder."""
import os
import shutil
import subprocess
import sys
import time

import workloads

TICK = os.sysconf("SC_CLK_TCK")
PATIENCE = 4000000000


def taken(pid):
    """Seconds of processor time of each thread, the oldest first: the process, control, the butler."""
    found = {}
    try:
        for thread in os.listdir("/proc/%d/task" % pid):
            with open("/proc/%d/task/%s/stat" % (pid, thread)) as stat:
                words = stat.read().rpartition(")")[2].split()
            found[int(thread)] = (int(words[11]) + int(words[12])) / TICK
    except OSError:
        pass
    return found


def played(program, cycles, most, rest, pauses=0, patience=PATIENCE):
    """By the clock, of each thread, and what was written."""
    began = time.time()
    child = subprocess.Popen([program, "s.toml", str(cycles), str(most), str(patience), str(rest), str(pauses)], stdout=subprocess.PIPE)
    seen = {}
    while child.poll() is None:
        for thread, seconds in taken(child.pid).items():
            seen[thread] = max(seconds, seen.get(thread, 0))
        time.sleep(0.005)
    took = time.time() - began
    said = child.stdout.read().decode().split()
    if child.returncode or int(said[0]) != cycles:
        sys.exit("not played: %s" % said)
    threads = [seen[it] for it in sorted(seen)] + [0.0, 0.0, 0.0]
    return took, threads[0], threads[2], int(said[1])


def told(name, cycles, program, most, rest):
    best = min((played(program, cycles, most, rest) for _ in range(3)), key=lambda it: it[0])
    print("%-6s %5d %4d   clock %6.2f   process %6.2f   butler %6.2f   late %d" % (name, most, rest, *best), flush=True)


def main(program, tune, made):
    folders = {}
    for name, make in workloads.WORKLOADS.items():
        os.makedirs(os.path.join(made, name))
        os.chdir(os.path.join(made, name))
        folders[name] = workloads.cycles_of(make()[0])
    os.makedirs(os.path.join(made, "tune"))
    os.chdir(os.path.join(made, "tune"))
    for file, name in (("session.toml", "s.toml"), ("make_tune.py", "make_tune.py")):
        shutil.copyfile(os.path.join(tune, file), name)
    subprocess.run([sys.executable, "make_tune.py"], check=True, stdout=subprocess.DEVNULL)
    folders["tune"] = 1250
    for name, cycles in folders.items():
        os.chdir(os.path.join(made, name))
        for most in (1, 8, 64, 4096):
            told(name, cycles, program, most, 10)
        for rest in (1, 100):
            told(name, cycles, program, 8, rest)
    # nothing is allowed for five seconds, in rests of control
    for rest in (1, 10, 100):
        took, process, butler, _ = played(program, 1, 8, rest, 5000 // rest)
        print("rest %4d: clock %.2f, butler %.3f: %.2f %% of a core" % (rest, took, butler, 100 * butler / took), flush=True)


if __name__ == "__main__":
    main(*sys.argv[1:])
