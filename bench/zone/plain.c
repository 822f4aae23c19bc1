// Times a malloc of 256 bytes and its free: so many pairs, the least of 40 tries.
#include <stdio.h>
#include <stdlib.h>
#include <time.h>

#define PAIRS 200000
#define TRIES 40

static double now_ns(void) {
  struct timespec at;
  clock_gettime(CLOCK_MONOTONIC, &at);
  return at.tv_sec * 1e9 + at.tv_nsec;
}

int main(void) {
  double least = 1e18;
  for (int turn = 0; turn < TRIES; turn++) {
    double begin = now_ns();
    for (int i = 0; i < PAIRS; i++) {
      void *volatile block = malloc(256);
      if (!block) return 1;
      free(block);
    }
    double took = now_ns() - begin;
    if (took < least) least = took;
  }
  printf("%d pairs: malloc %.0f ns\n", PAIRS, least);
  return 0;
}
