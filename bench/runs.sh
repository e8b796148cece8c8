#!/usr/bin/env bash
# Judges 10,000 drawn runs on three threads: sessions, scripts and faults of the numbers 0 to 9,999. The program is thread_runs/main.txt; it is
# proved and built in a copy of this repository, or is the one that the first word names.
cd "$(dirname "$0")" || exit 1
made=$(mktemp -d)
trap 'rm -rf "$made"' EXIT
ours=$1
if [ -z "$ours" ]; then
  mkdir -p "$made/repository" && cp -r ../crates ../crates.txt ../HANDLES "$made/repository"
  here=$made/repository/crates/thread_runs
  mkdir -p "$here/src" && cp thread_runs/main.txt "$here/src/main.rt"
  cat thread_runs/listed.txt >> "$made/repository/crates.txt"
  (cd "$here" && rt run -- > "$made/log" 2>&1)
  ours=$here/out/thread_runs
  [ -x "$ours" ] || { tail -40 "$made/log" >&2; exit 1; }
fi
"$ours" 0 10000
