#!/usr/bin/env bash
# Times the report of a made run of 100,000 entries of one track, written into memory and read back: microseconds of processor time a
# line, the least of three runs. The program is report_speed/main.txt; it is proved and built in a copy of this repository.
cd "$(dirname "$0")" || exit 1
made=$(mktemp -d)
trap 'rm -rf "$made"' EXIT
mkdir -p "$made/repository" && cp -r ../crates ../crates.txt ../HANDLES "$made/repository"
here=$made/repository/crates/report_speed
mkdir -p "$here/src"
cp report_speed/main.txt "$here/src/main.rt"
sed -n 's/^file_tests: /report_speed: /p' ../crates.txt >> "$made/repository/crates.txt"
(cd "$here" && rt run -- none 1 > "$made/log" 2>&1)
ours=$here/out/report_speed
[ -x "$ours" ] || { tail -40 "$made/log" >&2; exit 1; }

# The least processor time of three runs, in seconds.
least() {
  for _ in 1 2 3; do { TIMEFORMAT='%U %S'; time "$ours" "$@" > /dev/null; } 2>&1 | tail -n 1 | awk '{ print $1 + $2 }'; done | sort -n | head -n 1
}

none=$(least none 100000) written=$(least write 100000) both=$(least read 100000)
awk "BEGIN { printf \"written %.2f, read %.2f\n\", ($written - $none) * 10, ($both - $written) * 10 }"
