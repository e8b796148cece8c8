// Runs one loop over blocks of 4,096 frames, as kernel_speed/main.txt does. The words: which loop, and how many blocks.
#include <stdint.h>
#include <stdlib.h>
#include <string.h>
void add_scaled(int64_t *, const int32_t *, const uint32_t *, long);
void add_even(int64_t *, const int32_t *, int64_t, long);
void cover(int64_t *, const int32_t *, const uint32_t *, long);
void clip_all(const int64_t *, int32_t *, long);
void scale_block(const int32_t *, int64_t, int32_t *, long);
void scale_each(const int32_t *, const uint32_t *, int32_t *, long);
void add_sides(int64_t *, const int32_t *, int64_t, int64_t, int64_t, long);
void clip_file(const int32_t *, int32_t *, long);
void fade_block(uint64_t, uint64_t, uint32_t *, long);
void fade_slow(uint64_t, uint64_t, uint32_t *, long);
void lane_block(uint64_t, uint64_t, int64_t, int64_t, const uint64_t *, uint32_t *, long);
void decode_24(const uint8_t *, int32_t *, long);
void encode_24(const int32_t *, uint8_t *, long);
enum { N = 4096 };
int64_t sums[N];
int32_t samples[N], out[N];
uint32_t gains[N], fades[N], values[N];
uint64_t places[N];
uint8_t bytes[3 * N];
int main(int count, char **words) {
  if (count != 3) return 2;
  const char *which = words[1];
  uint32_t rounds = strtoul(words[2], 0, 10);
  for (int i = 0; i < N; i++) samples[i] = i * 2000, places[i] = 5000 + i, gains[i] = 65000, fades[i] = 6 + i / 8;
#define RUN(name, before, call) \
  if (!strcmp(which, name)) \
    for (uint32_t r = 0; r < rounds; r++) { before; call; }
#define POKE samples[r % N] = r % 65536
#define FILL for (int i = 0; i < N; i++) sums[i] = r % N
  RUN("add_scaled", POKE; FILL, add_scaled(sums, samples, gains, N))
  RUN("add_even", POKE; FILL, add_even(sums, samples, 50000, N))
  RUN("add_sides", FILL, add_sides(sums, samples, 50000, 50000, 50000, N / 2))
  RUN("cover", POKE; FILL, cover(sums, samples, fades, N))
  RUN("lay_over", POKE; FILL, add_scaled(sums, samples, fades, N))
  RUN("clip_all", sums[r % N] = (int64_t)r << 20, clip_all(sums, out, N))
  RUN("scale_block", POKE, scale_block(samples, 50000, out, N))
  RUN("scale_each", POKE, scale_each(samples, gains, out, N))
  RUN("clip_file", POKE, clip_file(samples, out, N))
  RUN("fade_block", , fade_block(500000, r % 1024 * 400, values, N))
  RUN("fade_slow", , fade_slow(500000, r % 1024 * 400, values, N))
  RUN("lane_block", , lane_block(2000, 1000000, 65536, 50000, places, values, N))
  RUN("decode_24", bytes[r % N] = r, decode_24(bytes, samples, N))
  RUN("encode_24", POKE, encode_24(samples, bytes, N))
  return (sums[77] ^ out[78] ^ values[79] ^ bytes[81] ^ samples[82]) == 0 ? 0 : 1;
}
