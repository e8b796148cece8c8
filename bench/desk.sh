#!/usr/bin/env bash
# Times the mix of a made session of 32 tracks and four busses, by blocks of 256 frames, beside plain loops in C: microseconds of
# processor time a block, the least of five runs. The program is desk_speed/main.txt; it is proved and built in a copy of this
# repository.
cd "$(dirname "$0")" || exit 1
made=$(mktemp -d)
trap 'rm -rf "$made"' EXIT
gcc -O2 -o "$made/plain" desk.c && gcc -O3 -march=native -o "$made/native" desk.c || exit 1
mkdir -p "$made/repository" && cp -r ../crates ../crates.txt ../HANDLES "$made/repository"
here=$made/repository/crates/desk_speed
mkdir -p "$here/src" "$here"/proofs/{put,put_all,fill_places,mixed}
cp desk_speed/main.txt "$here/src/main.rt"
cp desk_speed/put.txt "$here/proofs/put/Answers.antt"
for part in put_all fill_places mixed; do cp desk_speed/$part.txt "$here/proofs/$part/Invariants.antt"; done
sed -n 's/^sound_tests: /desk_speed: /p' ../crates.txt >> "$made/repository/crates.txt"
(cd "$here" && rt run -- none 1 > "$made/log" 2>&1)
ours=$here/out/desk_speed
[ -x "$ours" ] || { tail -20 "$made/log" >&2; exit 1; }

# The least processor time of five runs, in microseconds a block.
least() {
  for _ in 1 2 3 4 5; do { TIMEFORMAT=%U; time "$@" 20000 > /dev/null; } 2>&1 | tail -n 1; done |
    sort -n | head -n 1 | awk '{ printf "%.2f", $1 * 1e6 / 20000 }'
}

printf 'here %s, silent tracks %s, gcc-O2 %s, gcc-O3 %s\n' \
  "$(least "$ours" all)" "$(least "$ours" none)" "$(least "$made/plain")" "$(least "$made/native")"
