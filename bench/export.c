/* An export as plain C. The session is the file s.toml of the current folder, one key a line as workloads.py writes it: sources of 16 or
 * 24 bits, 44 bytes before their frames, which are read whole; tracks with regions; then busses, and last the master; outputs and sends
 * lead to busses further down, and one channel may lead into two. Block by block the regions of a track that meet the block are laid over
 * one another, the lowest first, and the routes are mixed; the file out.wav is written. The word: how many blocks. */
#include <stdint.h>
#include <stdio.h>
#include <stdlib.h>
#include <string.h>

enum { UNITY = 65536, BLOCK = 4096, SOURCES = 64, ROUTES = 64, REGIONS = 256, SENDS = 8, HEAD = 44 };

typedef struct { char name[32], file[32]; uint8_t *data; int64_t count, channels, size; } Source;
typedef struct { char to[32]; int64_t *sums, wide, gain, pre; } Send;

typedef struct {
  char source[32];
  const uint8_t *data;
  int64_t size, id, start, length, at, layer, gain, opaque, fade_in, fade_out, shape_in, shape_out;
} Region;

typedef struct {
  char name[32], out[32];
  int64_t *target, wide, gain, left, right, channels;
  int is_track, sends, regions;
  Send send[SENDS];
  Region region[REGIONS];
} Route;

static struct { int64_t rate, bits, channels, block, depth, version; } session;
static Source source[SOURCES];
static Route route[ROUTES];
static int sources, routes;
static int64_t bus_sums[ROUTES][2 * BLOCK], track_sums[2 * BLOCK];
static int32_t fades[BLOCK], read_in[2 * BLOCK], input[2 * BLOCK], post[2 * BLOCK];
static uint8_t made[6 * BLOCK];

static void must(int right, const char *what) {
  if (!right) fprintf(stderr, "wrong: %s\n", what), exit(1);
}

/* ---- the session */

static int number(const char *key, const char *value, const char *name, int64_t *to) {
  return strcmp(key, name) ? 0 : (*to = !strcmp(value, "true") || !strcmp(value, "slow") ? 1 : atoll(value), 1);
}

static int text(const char *key, const char *value, const char *name, char *to) {
  return strcmp(key, name) ? 0 : (strcpy(to, value), 1);
}

#define NUMBER(object, field) number(key, value, #field, &(object)->field)
#define TEXT(object, field) text(key, value, #field, (object)->field)

static void take(const char *part, const char *key, const char *value) {
  Source *s = source + sources - 1;
  Route *q = route + routes - 1;
  if (!strcmp(part, "session")) {
    must(NUMBER(&session, rate) || NUMBER(&session, bits) || NUMBER(&session, channels) || NUMBER(&session, block) ||
      NUMBER(&session, depth) || NUMBER(&session, version), key);
  } else if (!strcmp(part, "source")) {
    must(TEXT(s, name) || TEXT(s, file) || NUMBER(s, channels), key);
  } else if (strstr(part, ".send")) {
    Send *l = q->send + q->sends - 1;
    must(TEXT(l, to) || NUMBER(l, pre) || NUMBER(l, gain), key);
  } else if (strstr(part, ".region")) {
    Region *r = q->region + q->regions - 1;
    must(TEXT(r, source) || NUMBER(r, id) || NUMBER(r, start) || NUMBER(r, length) || NUMBER(r, at) || NUMBER(r, layer) || NUMBER(r, gain) ||
      NUMBER(r, opaque) || NUMBER(r, fade_in) || NUMBER(r, fade_out) || NUMBER(r, shape_in) || NUMBER(r, shape_out), key);
  } else {
    must(TEXT(q, name) || TEXT(q, out) || NUMBER(q, gain) || NUMBER(q, left) || NUMBER(q, right) || NUMBER(q, channels), key);
  }
}

static void begin(const char *part) {
  Route *q = route + routes - 1;
  if (!strcmp(part, "source")) {
    must(sources++ < SOURCES, part);
  } else if (strstr(part, ".send")) {
    must(q->sends < SENDS, part);
    q->send[q->sends++].gain = UNITY;
  } else if (strstr(part, ".region")) {
    must(q->regions < REGIONS, part);
    Region *r = q->region + q->regions++;
    r->gain = UNITY;
    r->opaque = 1;
  } else if (strcmp(part, "session")) {
    must(routes++ < ROUTES, part);
    q++;
    q->is_track = !strcmp(part, "track");
    q->gain = q->left = q->right = UNITY;
    q->channels = session.channels;
    strcpy(q->name, "master");
    strcpy(q->out, strcmp(part, "master") ? "master" : "");
  }
}

/* A bus, which stands after the route that leads to it. */
static int bus_of(const char *name, int after) {
  for (int r = after + 1; r < routes; r++)
    if (!strcmp(route[r].name, name) && !route[r].is_track) return r;
  return must(0, name), 0;
}

static int by_layer(const void *a, const void *b) {
  const Region *r = a, *q = b;
  return r->layer != q->layer ? r->layer - q->layer : r->id - q->id;
}

static void read_source(Source *s) {
  uint8_t head[HEAD];
  FILE *from = fopen(s->file, "rb");
  must(from && fread(head, 1, HEAD, from) == HEAD && !fseek(from, 0, SEEK_END), s->file);
  s->size = s->channels * head[34] / 8;
  s->count = (ftell(from) - HEAD) / s->size;
  s->data = malloc(s->size * s->count);
  must(s->data && !fseek(from, HEAD, SEEK_SET) && fread(s->data, s->size, s->count, from) == (size_t)s->count, s->file);
  fclose(from);
}

static void read_session(void) {
  char line[128], part[32] = "", key[32], value[32];
  FILE *from = fopen("s.toml", "r");
  must(from != NULL, "s.toml");
  while (fgets(line, sizeof line, from)) {
    if (sscanf(line, "[%31[a-z.]", part) == 1 || sscanf(line, "[[%31[a-z.]", part) == 1) begin(part);
    else if (sscanf(line, "%31[a-z_] = \"%31[^\"]", key, value) == 2 || sscanf(line, "%31[a-z_] = %31[a-z0-9]", key, value) == 2)
      take(part, key, value);
    else must(0, line);
  }
  fclose(from);
  must(session.block > 0 && session.block <= BLOCK, "session");
  for (int s = 0; s < sources; s++) read_source(source + s);
  for (int r = 0; r < routes; r++) {
    Route *q = route + r;
    if (q->out[0]) {
      int to = bus_of(q->out, r);
      q->target = bus_sums[to];
      q->wide = route[to].channels > q->channels;
    }
    for (int l = 0; l < q->sends; l++) {
      int to = bus_of(q->send[l].to, r);
      q->send[l].sums = bus_sums[to];
      q->send[l].wide = route[to].channels > q->channels;
    }
    qsort(q->region, q->regions, sizeof(Region), by_layer);
    for (Region *g = q->region; g < q->region + q->regions; g++) {
      for (Source *s = source; s < source + sources; s++)
        if (!strcmp(s->name, g->source) && g->start + g->length <= s->count) g->data = s->data + s->size * g->start, g->size = s->size;
      must(g->data != NULL && (g->size == 2 * q->channels || g->size == 3 * q->channels), g->source);
    }
  }
}

/* ---- a track: n is a number of frames or of samples */

static inline int64_t scale(int64_t s, int64_t g) { return (s * g) >> 16; }
static inline int32_t clip(int64_t v) { return v < INT32_MIN ? INT32_MIN : v > INT32_MAX ? INT32_MAX : (int32_t)v; }

/* Puts the values of a fade that rises over so many frames, from frame k on, forwards or backwards. */
static void fade(int32_t *to, int by, int64_t n, int64_t k, int64_t over, int slow) {
  int64_t value = UNITY * k / over, rest = UNITY * k % over, step = UNITY / over, more = UNITY % over;
  for (int64_t i = 0; i < n; i++, to += by) {
    *to = slow ? value * value >> 16 : value;
    value += step;
    rest += more;
    if (rest >= over) value++, rest -= over;
  }
}

/* The loops of one width of samples in memory: opaque or not, faded or whole, of one channel or, faded, of two. */
#define LAYS(name, type, factor) \
  static void name##_faded(int64_t *restrict sums, const type *restrict x, int32_t gain, int opaque, int64_t n) { \
    if (opaque) \
      for (int64_t i = 0; i < n; i++) sums[i] = scale(scale(x[i] * factor, gain), fades[i]) + scale(sums[i], UNITY - fades[i]); \
    else \
      for (int64_t i = 0; i < n; i++) sums[i] += scale(scale(x[i] * factor, gain), fades[i]); \
  } \
  static void name##_faded_two(int64_t *restrict sums, const type *restrict x, int32_t gain, int opaque, int64_t n) { \
    if (opaque) \
      for (int64_t i = 0; i < 2 * n; i++) sums[i] = scale(scale(x[i] * factor, gain), fades[i / 2]) + scale(sums[i], UNITY - fades[i / 2]); \
    else \
      for (int64_t i = 0; i < 2 * n; i++) sums[i] += scale(scale(x[i] * factor, gain), fades[i / 2]); \
  } \
  static void name##_whole(int64_t *restrict sums, const type *restrict x, int32_t gain, int opaque, int64_t n) { \
    if (opaque) \
      for (int64_t i = 0; i < n; i++) sums[i] = scale(x[i] * factor, gain); \
    else \
      for (int64_t i = 0; i < n; i++) sums[i] += scale(x[i] * factor, gain); \
  } \
  static void name(int64_t *restrict sums, const type *restrict x, const Region *r, int64_t channels, int is_whole, int64_t n) { \
    if (is_whole) name##_whole(sums, x, r->gain, r->opaque, channels * n); \
    else if (channels == 1) name##_faded(sums, x, r->gain, r->opaque, n); \
    else name##_faded_two(sums, x, r->gain, r->opaque, n); \
  }
LAYS(lay_short, int16_t, 256)
LAYS(lay_read, int32_t, 1)

/* Samples of 24 bits, read in. */
static void read_24(const uint8_t *restrict b, int32_t *restrict to, int64_t n) {
  for (int64_t i = 0; i < n; i++)
    to[i] = (int32_t)((uint32_t)b[3 * i] << 8 | (uint32_t)b[3 * i + 1] << 16 | (uint32_t)b[3 * i + 2] << 24) >> 8;
}

/* Lays a region over the sums of the block that begins at a place, by its fades and what lies between, and says whether it meets it. */
static int lay(const Region *r, int64_t channels, int64_t from) {
  int64_t i = from > r->at ? from - r->at : 0, end = from + session.block - r->at, out = r->length - r->fade_out, next;
  if (end > r->length) end = r->length;
  if (i >= end) return 0;
  for (int64_t *sums = track_sums + channels * (r->at + i - from); i < end; sums += channels * (next - i), i = next) {
    next = i < r->fade_in ? r->fade_in : i < out ? out : r->length;
    if (next > end) next = end;
    if (i < r->fade_in) fade(fades, 1, next - i, i, r->fade_in, r->shape_in);
    else if (i >= out) fade(fades + (next - i - 1), -1, next - i, r->length - next, r->fade_out, r->shape_out);
    int is_whole = i >= r->fade_in && i < out;
    const uint8_t *data = r->data + r->size * i;
    if (r->size == 2 * channels) {
      lay_short(sums, (const int16_t *)data, r, channels, is_whole, next - i);
    } else {
      read_24(data, read_in, channels * (next - i));
      lay_read(sums, read_in, r, channels, is_whole, next - i);
    }
  }
  return 1;
}

static int render(const Route *q, int64_t from) {
  int sounds = 0;
  for (int r = 0; r < q->regions; r++) sounds |= lay(q->region + r, q->channels, from);
  return sounds;
}

/* ---- the desk */

static void give_sides(int64_t *restrict sums, const int32_t *restrict v, int32_t gain, int32_t left, int32_t right, int64_t n) {
  for (int64_t i = 0; i < n; i++) {
    int64_t s = gain == UNITY ? v[i] : scale(v[i], gain);
    sums[2 * i] += scale(s, left);
    sums[2 * i + 1] += scale(s, right);
  }
}

static void give_each(int64_t *restrict sums, const int32_t *restrict v, int32_t gain, int64_t n) {
  for (int64_t i = 0; i < n; i++) sums[i] += scale(v[i], gain);
}

/* Adds what a route gives of its samples at a gain: of one channel to both sides of a wide one, else each channel to its own. */
static void give(int64_t *sums, int64_t wide, const Route *q, const int32_t *v, int32_t gain) {
  if (wide) give_sides(sums, v, gain, q->left, q->right, session.block);
  else give_each(sums, v, gain, q->channels * session.block);
}

/* Takes the sums of a route, which are silent afterwards, and passes them on, clipped, through its fader and its sends. */
static void mix(const Route *q, int64_t *restrict sums) {
  int64_t n = q->channels * session.block;
  int32_t gain = q->gain;
  for (int64_t i = 0; i < n; i++) {
    input[i] = clip(sums[i]);
    sums[i] = 0;
    post[i] = clip(scale(input[i], gain));
  }
  if (q->target) give(q->target, q->wide, q, post, UNITY);
  for (int l = 0; l < q->sends; l++) give(q->send[l].sums, q->send[l].wide, q, q->send[l].pre ? input : post, q->send[l].gain);
}

static void put(FILE *to, uint32_t value, int bytes) {
  for (; bytes--; value >>= 8) fputc(value & 255, to);
}

/* The samples of the master's block as the file has them. */
static void encode(int64_t n) {
  if (session.bits == 16)
    for (int64_t i = 0; i < n; i++) ((int16_t *)made)[i] = post[i] >> 8 < -32768 ? -32768 : post[i] >> 8 > 32767 ? 32767 : post[i] >> 8;
  else
    for (int64_t i = 0; i < n; i++) {
      int32_t v = post[i] < -8388608 ? -8388608 : post[i] > 8388607 ? 8388607 : post[i];
      made[3 * i] = v, made[3 * i + 1] = v >> 8, made[3 * i + 2] = v >> 16;
    }
}

int main(int words, char **word) {
  read_session();
  int64_t blocks = words > 1 ? atoll(word[1]) : 0, block = session.block, align = session.channels * session.bits / 8, size = blocks * block * align;
  FILE *to = fopen("out.wav", "wb");
  must(to != NULL, "out.wav");
  fputs("RIFF", to), put(to, 36 + size + size % 2, 4), fputs("WAVEfmt ", to), put(to, 16, 4), put(to, 1, 2), put(to, session.channels, 2);
  put(to, session.rate, 4), put(to, session.rate * align, 4), put(to, align, 2), put(to, session.bits, 2), fputs("data", to), put(to, size, 4);
  for (int64_t b = 0; b < blocks; b++) {
    for (int r = 0; r < routes; r++) {
      if (!route[r].is_track) mix(route + r, bus_sums[r]);
      else if (render(route + r, b * block)) mix(route + r, track_sums);
    }
    encode(session.channels * block);
    must(fwrite(made, align, block, to) == (size_t)block, "out.wav");
  }
  if (size % 2) fputc(0, to);
  must(!fclose(to), "out.wav");
  return 0;
}
