#!/usr/bin/env bash
# Times each kernel over blocks of 4,096 frames beside the same loop in C, as nanoseconds of processor time a frame: the least of
# five runs. The program that calls our kernels is kernel_speed/main.txt; it is proved and built in a copy of this repository.
cd "$(dirname "$0")" || exit 1
made=$(mktemp -d)
trap 'rm -rf "$made"' EXIT
gcc -O2 -o "$made/plain" kernels.c measure.c && gcc -O3 -march=native -o "$made/native" kernels.c measure.c || exit 1
mkdir -p "$made/repository" && cp -r ../crates ../crates.txt ../HANDLES "$made/repository"
here=$made/repository/crates/kernel_speed
mkdir -p "$here/src" "$here/proofs/fill_places"
cp kernel_speed/main.txt "$here/src/main.rt"
cp kernel_speed/fill_places.txt "$here/proofs/fill_places/Invariants.antt"
echo 'kernel_speed: sound_model ses_units ramp_fixed mix_kernel wav_codec' >> "$made/repository/crates.txt"
(cd "$here" && rt run -- none 1 > "$made/log" 2>&1)
ours=$here/out/kernel_speed
[ -x "$ours" ] || { tail -20 "$made/log" >&2; exit 1; }

# The least processor time of five runs, in nanoseconds a frame.
least() {
  for _ in 1 2 3 4 5; do { TIMEFORMAT=%U; time "$1" "$2" 50000 > /dev/null; } 2>&1 | tail -n 1; done |
    sort -n | head -n 1 | awk '{ printf "%.2f", $1 * 1e9 / (50000 * 4096) }'
}

printf '%-12s %6s %8s %8s\n' kernel here gcc-O2 gcc-O3
for kernel in add_scaled add_even add_sides cover lay_over clip_all scale_block scale_each clip_file fade_block fade_slow lane_block decode_24 encode_24; do
  printf '%-12s %6s %8s %8s\n' $kernel "$(least "$ours" $kernel)" "$(least "$made/plain" $kernel)" "$(least "$made/native" $kernel)"
done
