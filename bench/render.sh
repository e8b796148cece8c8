#!/usr/bin/env bash
# Times `render` of 2,000,000 frames of one track with one region beside plain loops in C (render.c): seconds of processor time, the
# least of three runs. The program has to be built (a pass of the tests builds it).
cd "$(dirname "$0")" || exit 1
program=$PWD/../crates/ardour_engine/out/ardour_engine
[ -x "$program" ] || { echo "ardour_engine isn't built" >&2; exit 1; }
made=$(mktemp -d)
trap 'rm -rf "$made"' EXIT
gcc -O2 -o "$made/plain" render.c && cd "$made" || exit 1
frames=2000000
python3 - $frames <<'PYTHON'
import random, struct, sys
frames = int(sys.argv[1])
random.seed(1)
data = struct.pack('<%dh' % frames, *(random.randrange(-32768, 32768) for _ in range(frames)))
form = struct.pack('<4sI4s4sIHHIIHH4sI', b'RIFF', 36 + len(data), b'WAVE', b'fmt ', 16, 1, 1, 48000, 96000, 2, 16, b'data', len(data))
open('a.wav', 'wb').write(form + data)
PYTHON
cat > s.toml <<TOML
[session]
version = 1
rate = 48000
bits = 16
channels = 1
block = 256
depth = 8

[[source]]
name = "a"
file = "a.wav"
channels = 1

[[track]]
name = "t"
channels = 1

[[track.region]]
id = 1
source = "a"
length = $frames
at = 0
TOML

# The least processor time of three runs, in seconds.
least() {
  for _ in 1 2 3; do { TIMEFORMAT='%U %S'; time "$@" > /dev/null; } 2>&1 | tail -n 1 | awk '{ print $1 + $2 }'; done | sort -n | head -n 1
}

ours=$(least "$program" render s.toml 0 $frames)
plain=$(least ./plain $frames)
cmp device-out.wav out.wav || exit 1
printf 'here %s, gcc-O2 %s, times %s\n' "$ours" "$plain" "$(awk "BEGIN { printf \"%.1f\", $ours / $plain }")"
