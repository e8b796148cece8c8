#!/usr/bin/env bash
# Times `export` of the sessions of workloads.py beside plain loops in C (export.c), compiled twice, and beside sox where it is there: seconds
# of processor time, user and system, the least of three runs of each, which take turns, and the most memory. The masters have to be
# those of C, byte by byte. Then what a cycle costs with so many tracks and regions. With words (stems, many, long, grid, nothing) only these. The
# program has to be built (a pass of the tests builds it).
cd "$(dirname "$0")" || exit 1
program=$PWD/../crates/ardour_engine/out/ardour_engine here=$PWD
[ -x "$program" ] || { echo "ardour_engine isn't built" >&2; exit 1; }
made=$(mktemp -d)
trap 'rm -rf "$made"' EXIT
gcc -O2 -o "$made/plain" export.c && gcc -O3 -march=native -o "$made/native" export.c && cd "$made" || exit 1
PYTHONDONTWRITEBYTECODE=1 python3 "$here/export.py" "$program" "$made/plain" "$made/native" "$@"
