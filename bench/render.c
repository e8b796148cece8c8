/* One track of one region, frame by frame, as plain loops: the file a.wav of the current folder (mono, 16 bits, 44 bytes before its
 * frames) is read whole, each frame is scaled, faded, clipped, scaled by track and master, and the file out.wav is written. The word:
 * how many frames. */
#include <stdint.h>
#include <stdio.h>
#include <stdlib.h>
#include <string.h>

static int64_t scale(int64_t s, int64_t g) { return (s * g) >> 16; }
static int32_t clip(int64_t v) { return v < INT32_MIN ? INT32_MIN : v > INT32_MAX ? INT32_MAX : (int32_t)v; }

static int64_t fade(int64_t i, int64_t length, int64_t in, int64_t out) {
  if (i < in) return 65536 * i / in;
  return i >= length - out ? 65536 * (length - 1 - i) / out : 65536;
}

int main(int words, char **word) {
  int64_t frames = words > 1 ? atoll(word[1]) : 0;
  int64_t gain = words > 2 ? atoll(word[2]) : 65536, in = words > 3 ? atoll(word[3]) : 0;
  uint8_t *file = malloc(44 + 2 * frames), *made = malloc(44 + 2 * frames);
  FILE *from = fopen("a.wav", "rb"), *to = fopen("out.wav", "wb");
  if (!file || !made || !from || !to || fread(file, 1, 44 + 2 * frames, from) != (size_t)(44 + 2 * frames)) return 1;
  memcpy(made, file, 44);
  for (int64_t i = 0; i < frames; i++) {
    int64_t s = (int16_t)(file[44 + 2 * i] | file[45 + 2 * i] << 8) * 256;
    int32_t track = clip(scale(scale(s, gain), fade(i, frames, in, in)));
    int32_t post = clip(scale(track, gain));
    int32_t master = clip(scale(clip(scale(post, 65536)), gain));
    int64_t v = master >> 8;
    v = v < -32768 ? -32768 : v > 32767 ? 32767 : v;
    made[44 + 2 * i] = v & 255;
    made[45 + 2 * i] = v >> 8 & 255;
  }
  return fwrite(made, 1, 44 + 2 * frames, to) != (size_t)(44 + 2 * frames);
}
