#!/usr/bin/env bash
# Times plays on threads: the tune of example/ and three sessions of workloads.py, by turns of 1, 8, 64 and 4,096 items and rests of 1, 10 and 100
# milliseconds, as seconds by the clock and of each thread's processor; and what a butler costs that has nothing to do. The program is
# thread_speed/main.txt; it is proved and built in a copy of this repository, or is the one that the first word names.
cd "$(dirname "$0")" || exit 1
made=$(mktemp -d)
trap 'rm -rf "$made"' EXIT
ours=$1
if [ -z "$ours" ]; then
  mkdir -p "$made/repository" && cp -r ../crates ../crates.txt ../HANDLES "$made/repository"
  here=$made/repository/crates/thread_speed
  mkdir -p "$here/src" "$here/proofs/opening/start_of"
  for file in main opening joining; do cp thread_speed/$file.txt "$here/src/$file.rt"; done
  cp thread_speed/start_of.txt "$here/proofs/opening/start_of/Answers.antt"
  cp thread_speed/listed.txt "$made/line" && cat "$made/line" >> "$made/repository/crates.txt"
  (cd "$here" && rt run -- > "$made/log" 2>&1)
  ours=$here/out/thread_speed
  [ -x "$ours" ] || { tail -40 "$made/log" >&2; exit 1; }
fi
tune=$PWD/../example
PYTHONDONTWRITEBYTECODE=1 python3 threads.py "$ours" "$tune" "$made"
