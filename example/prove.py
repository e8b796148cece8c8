#!/usr/bin/env python3
"""Proves crates side by side, and says how far it is.

    prove.py CRATE ..            these crates and all below them, each in `rt check`
    prove.py --about CRATE ..    how many there are, and about how many minutes that takes here from nothing

A check holds its crate and all below, so the checks of one checkout wait for each other: they run in copies of the repository (as many
as there are processors, at most four), and a copy takes over what was proved in another. First come the crates with the longest way
of others behind them. The copies lie in a folder of their own beside the temporary files, stay there when this is stopped, so that a
second start goes on, and are removed once all is proved and this checkout has taken it over. How long each check took is in
example/seconds.txt: as seen on four cores that had far more to do, so a start says too many minutes rather than too few, until it has gone on
for a while. `--times FILE` before the crates writes it anew."""
import hashlib
import os
import queue
import re
import shutil
import signal
import subprocess
import sys
import tempfile
import threading
import time

TOP = os.path.dirname(os.path.dirname(os.path.abspath(__file__)))
COPIES = os.path.join(tempfile.gettempdir(), "ardour-copies-%d-%s" % (os.getuid(), hashlib.sha256(TOP.encode()).hexdigest()[:8]))
SECONDS = os.path.join(TOP, "example/seconds.txt")
PARTS = ("src", "specs", "proofs")


def libraries():
    """The libraries of the repository that each crate lists, in the order of crates.txt."""
    found = {}
    with open(os.path.join(TOP, "crates.txt")) as lines:
        for line in lines:
            listed = re.match(r"([a-z0-9_]+)(?: [^:]*)?:(.*)", line.partition("#")[0])
            if listed:
                found[listed[1]] = listed[2].split()
    return {crate: [it for it in listed if it in found] for crate, listed in found.items()}


def below(crate, listed, found):
    for it in listed[crate]:
        if it not in found:
            below(it, listed, found)
            found.append(it)
    return found


def measured():
    """How many seconds the check of each crate took where that was measured."""
    try:
        with open(SECONDS) as lines:
            return {words[0]: float(words[1]) for words in map(str.split, lines) if len(words) == 2}
    except OSError:
        return {}


def same(one, other):
    try:
        with open(one, "rb") as a, open(other, "rb") as b:
            return a.read() == b.read()
    except OSError:
        return False


def copy_to(copy):
    """Makes a copy of the crates, or brings one up to this checkout; what was proved in it stays."""
    for name in ("crates.txt", "HANDLES"):
        os.makedirs(copy, exist_ok=True)
        shutil.copyfile(os.path.join(TOP, name), os.path.join(copy, name))
    for crate in os.listdir(os.path.join(TOP, "crates")):
        for part in PARTS:
            wanted, here = os.path.join(TOP, "crates", crate, part), os.path.join(copy, "crates", crate, part)
            for at, _, names in os.walk(here):
                for name in names:
                    if not os.path.exists(os.path.join(wanted, os.path.relpath(at, here), name)):
                        os.remove(os.path.join(at, name))
            for at, _, names in os.walk(wanted):
                to = os.path.join(here, os.path.relpath(at, wanted))
                os.makedirs(to, exist_ok=True)
                for name in names:
                    if not same(os.path.join(at, name), os.path.join(to, name)):
                        shutil.copyfile(os.path.join(at, name), os.path.join(to, name))


class Run:
    def __init__(self, crates, listed, copies):
        self.listed, self.left, self.total, self.done, self.running = listed, list(crates), len(crates), set(), {}
        self.free, self.answers, self.failed, self.children, self.lock = list(copies), queue.Queue(), None, set(), threading.Lock()
        known = measured()
        usual = sum(known.values()) / len(known) if known else 60.0
        self.weight = {it: known.get(it, usual) for it in crates}
        self.behind = dict(self.weight)
        # (a crate comes after those below it)
        for crate in reversed(crates):
            for it in listed[crate]:
                self.behind[it] = max(self.behind[it], self.weight[it] + self.behind[crate])
        self.took, self.began = {}, time.time()

    def check(self, crate, copy):
        began = time.time()
        with tempfile.TemporaryFile("w+", errors="replace") as said:
            with self.lock:
                if self.failed:
                    return
                child = subprocess.Popen(["rt", "check"], cwd=os.path.join(copy, "crates", crate), stdin=subprocess.DEVNULL, stdout=said,
                                         stderr=subprocess.STDOUT, start_new_session=True)
                self.children.add(child)
            status = child.wait()
            self.children.discard(child)
            said.seek(0)
            self.answers.put((crate, copy, status, said.read(), time.time() - began))

    def minutes_left(self, copies):
        """By what was measured, and by how much slower or faster it goes here; at least the longest way that is left."""
        spent = sum(self.took.values())
        pace = spent / sum(self.weight[it] for it in self.took) if spent else 1.0
        waiting = [it for it in self.weight if it not in self.done]
        if not waiting:
            return 0
        return pace * max(sum(self.weight[it] for it in waiting) / copies, max(self.behind[it] for it in waiting)) / 60

    def go(self):
        copies = len(self.free)
        while self.left or self.running:
            ready = [it for it in self.left if all(low in self.done for low in self.listed[it])]
            for crate in sorted(ready, key=lambda it: -self.behind[it])[: len(self.free)]:
                self.left.remove(crate)
                copy = self.free.pop(0)
                self.running[crate] = threading.Thread(target=self.check, args=(crate, copy), daemon=True)
                self.running[crate].start()
            crate, copy, status, said, took = self.answers.get()
            del self.running[crate]
            self.free.append(copy)
            if status:
                print("        %-18s NOT PROVED\n%s" % (crate, said[-3000:]), flush=True)
                return False
            self.done.add(crate)
            self.took[crate] = took
            left = self.minutes_left(copies)
            print("%3d of %d  %-18s proved in %3d s   about %d minutes left" % (len(self.done), self.total, crate, took, round(left)), flush=True)
        return True

    def end(self):
        with self.lock:
            self.failed = True
            for child in list(self.children):
                try:
                    os.killpg(child.pid, signal.SIGTERM)
                except OSError:
                    pass


def take_over(crates):
    """Has this checkout take over what was proved in the copies, and removes them."""
    for crate in crates:
        ran = subprocess.run(["rt", "check"], cwd=os.path.join(TOP, "crates", crate), stdin=subprocess.DEVNULL, stdout=subprocess.PIPE,
                             stderr=subprocess.STDOUT, errors="replace")
        if ran.returncode:
            print("        %-18s NOT PROVED\n%s" % (crate, ran.stdout[-3000:]), flush=True)
            return False
    shutil.rmtree(COPIES, ignore_errors=True)
    return True


def main(words):
    option = words.pop(0) if words[:1] in (["--about"], ["--times"]) else None
    times = words.pop(0) if option == "--times" else None
    listed, wanted = libraries(), []
    for crate in words:
        wanted += [it for it in [*below(crate, listed, []), crate] if it not in wanted]
    copies = [os.path.join(COPIES, str(at)) for at in range(max(1, min(len(os.sched_getaffinity(0)), 4)))]
    run = Run(wanted, listed, copies)
    if option == "--about":
        print("%d %d" % (len(wanted), round(run.minutes_left(len(copies)))))
        return 0
    try:
        for copy in copies:
            copy_to(copy)
        is_well = run.go()
        if is_well and times:
            with open(times, "w") as to:
                to.writelines("%s %d\n" % (it, round(took)) for it, took in run.took.items())
        is_well = is_well and take_over(words)
    except KeyboardInterrupt:
        is_well = None
        print("\nStopped. What was proved is kept: the next start goes on from there.", flush=True)
    if not is_well:
        run.end()
        return 130 if is_well is None else 1
    return 0


if __name__ == "__main__":
    sys.exit(main(sys.argv[1:]))
