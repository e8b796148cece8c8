// The loops of the kernels as C, to be measured beside them.
#include <stdint.h>

void add_scaled(int64_t *a, const int32_t *v, const uint32_t *g, long n) {
  for (long i = 0; i < n; i++) a[i] += ((int64_t)v[i] * (int64_t)g[i]) >> 16;
}
void add_even(int64_t *a, const int32_t *v, int64_t g, long n) {
  for (long i = 0; i < n; i++) a[i] += ((int64_t)v[i] * g) >> 16;
}
void cover(int64_t *a, const int32_t *v, const uint32_t *f, long n) {
  for (long i = 0; i < n; i++)
    a[i] = (((int64_t)v[i] * (int64_t)f[i]) >> 16) + ((a[i] * (int64_t)(65536 - f[i])) >> 16);
}
static inline int32_t clip(int64_t s) { return s < INT32_MIN ? INT32_MIN : s > INT32_MAX ? INT32_MAX : (int32_t)s; }
void clip_all(const int64_t *a, int32_t *o, long n) {
  for (long i = 0; i < n; i++) o[i] = clip(a[i]);
}
void scale_block(const int32_t *v, int64_t g, int32_t *o, long n) {
  for (long i = 0; i < n; i++) o[i] = clip(((int64_t)v[i] * g) >> 16);
}
void scale_each(const int32_t *v, const uint32_t *g, int32_t *o, long n) {
  for (long i = 0; i < n; i++) o[i] = clip(((int64_t)v[i] * (int64_t)g[i]) >> 16);
}
void add_sides(int64_t *a, const int32_t *v, int64_t g, int64_t l, int64_t r, long n) {
  for (long i = 0; i < n; i++) {
    int64_t x = ((int64_t)v[i] * g) >> 16;
    a[2 * i] += (x * l) >> 16, a[2 * i + 1] += (x * r) >> 16;
  }
}
void clip_file(const int32_t *v, int32_t *o, long n) {
  for (long i = 0; i < n; i++) {
    int32_t x = v[i] >> 8;
    o[i] = x < -32768 ? -32768 : x > 32767 ? 32767 : x;
  }
}
// A fade-in by one division a frame, as its formula says, and in the slow shape.
void fade_block(uint64_t fade, uint64_t first, uint32_t *o, long n) {
  for (long i = 0; i < n; i++) o[i] = (uint32_t)(65536 * (first + i) / fade);
}
void fade_slow(uint64_t fade, uint64_t first, uint32_t *o, long n) {
  for (long i = 0; i < n; i++) {
    uint64_t v = 65536 * (first + i) / fade;
    o[i] = (uint32_t)(v * v >> 16);
  }
}
// A piece of a lane that falls, by one division a frame.
void lane_block(uint64_t x0, uint64_t x1, int64_t g0, int64_t g1, const uint64_t *x, uint32_t *o, long n) {
  for (long i = 0; i < n; i++) {
    int64_t rise = (g1 - g0) * (int64_t)(x[i] - x0), over = (int64_t)(x1 - x0);
    o[i] = (uint32_t)(g0 + rise / over - (rise % over < 0));
  }
}
void decode_24(const uint8_t *b, int32_t *o, long n) {
  for (long i = 0; i < n; i++) o[i] = (int32_t)((uint32_t)b[3 * i] << 8 | (uint32_t)b[3 * i + 1] << 16 | (uint32_t)b[3 * i + 2] << 24) >> 8;
}
void encode_24(const int32_t *v, uint8_t *b, long n) {
  for (long i = 0; i < n; i++) {
    int32_t x = v[i] < -8388608 ? -8388608 : v[i] > 8388607 ? 8388607 : v[i];
    b[3 * i] = x, b[3 * i + 1] = x >> 8, b[3 * i + 2] = x >> 16;
  }
}
