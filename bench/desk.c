/* The mix of desk_speed/main.txt as plain loops: 32 tracks of one channel, every fourth along a lane, into four busses of two, with a
 * send each. The words: how many blocks. */
#include <stdint.h>
#include <stdlib.h>

enum { FRAMES = 256, TRACKS = 32, BUSSES = 4 };

static int64_t scale(int64_t s, int64_t g) { return (s * g) >> 16; }
static int32_t clip(int64_t v) { return v < INT32_MIN ? INT32_MIN : v > INT32_MAX ? INT32_MAX : (int32_t)v; }

static int32_t input[TRACKS][FRAMES], post[FRAMES], bus[2 * FRAMES], master[2 * FRAMES];
static int64_t sums[BUSSES][2 * FRAMES], total[2 * FRAMES];

static int64_t lane(int64_t x) { return 65536 + ((1000 - 65536) * x - 999999999) / 1000000000; }

static void block(int64_t first) {
  for (int b = 0; b < BUSSES; b++)
    for (int i = 0; i < 2 * FRAMES; i++) sums[b][i] = 0;
  for (int t = 0; t < TRACKS; t++) {
    for (int i = 0; i < FRAMES; i++) post[i] = clip(scale(input[t][i], t % 4 ? 50000 : lane(first + i)));
    for (int i = 0; i < FRAMES; i++) {
      sums[t % 4][2 * i] += scale(post[i], 40000);
      sums[t % 4][2 * i + 1] += scale(post[i], 30000);
    }
    for (int i = 0; i < FRAMES; i++) {
      int64_t sent = scale(input[t][i], 20000);
      sums[(t + 1) % 4][2 * i] += scale(sent, 40000);
      sums[(t + 1) % 4][2 * i + 1] += scale(sent, 30000);
    }
  }
  for (int i = 0; i < 2 * FRAMES; i++) total[i] = 0;
  for (int b = 0; b < BUSSES; b++) {
    for (int i = 0; i < 2 * FRAMES; i++) bus[i] = clip(scale(clip(sums[b][i]), 60000));
    for (int i = 0; i < 2 * FRAMES; i++) total[i] += bus[i];
  }
  for (int i = 0; i < 2 * FRAMES; i++) master[i] = clip(total[i]);
}

int main(int count, char **words) {
  int64_t sum = 0;
  int rounds = count > 1 ? atoi(words[1]) : 0;
  for (int t = 0; t < TRACKS; t++)
    for (int i = 0; i < FRAMES; i++) input[t][i] = 1000000;
  for (int r = 0; r < rounds; r++) {
    block((int64_t)FRAMES * (r % 1000000));
    sum += master[0];
  }
  return sum == 0 ? 0 : 1;
}
