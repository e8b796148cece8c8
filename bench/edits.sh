#!/usr/bin/env bash
# Times edits of a made session of 32 tracks with 256 regions each: microseconds of processor time an edit, its line read as well, the
# least of three runs of 10,000. The program is edit_speed/main.txt; it is proved and built in a copy of this repository.
cd "$(dirname "$0")" || exit 1
made=$(mktemp -d)
trap 'rm -rf "$made"' EXIT
mkdir -p "$made/repository" && cp -r ../crates ../crates.txt ../HANDLES "$made/repository"
here=$made/repository/crates/edit_speed
mkdir -p "$here/src"
cp edit_speed/main.txt "$here/src/main.rt"
sed -n 's/^session_tests: /edit_speed: /p' ../crates.txt >> "$made/repository/crates.txt"
(cd "$here" && rt run -- none 1 > "$made/log" 2>&1)
ours=$here/out/edit_speed
[ -x "$ours" ] || { tail -40 "$made/log" >&2; exit 1; }

# The least processor time of three runs, in seconds.
least() {
  for _ in 1 2 3; do { TIMEFORMAT='%U %S'; time "$ours" "$@" > /dev/null; } 2>&1 | tail -n 1 | awk '{ print $1 + $2 }'; done | sort -n | head -n 1
}

opening=$(least none 0)
for which in solo gain point connect rgain layer move; do
  printf '%s %s\n' "$which" "$(awk "BEGIN { printf \"%.2f\", ($(least $which 10000) - $opening) * 100 }")"
done
