/* The calls that bench/libcds.sh times, for C11 and for C++. Who includes it has defined
 *     static int insert_key(int thread, uint64_t key), remove_key, has_key    1 if the key was put in, taken out, is there; 0 if not
 *     static void begin_thread(void), end_thread(void)
 * A quarter of the keys' numbers or more are put in first. Then each thread makes its calls: of a hundred so many ask whether a key is there, and of the
 * others every second one puts a key in. What is there at the end has to be what the answers say. */
#include <pthread.h>
#include <stdint.h>
#include <stdio.h>
#include <stdlib.h>
#include <time.h>

enum { MOST_THREADS = 8 };

static uint64_t mix_keys, mix_calls, mix_asked;
static long mix_left[MOST_THREADS];
static pthread_barrier_t mix_gate;

static void *mix_thread(void *number) {
  int thread = (int)(intptr_t)number;
  long left = 0;
  uint64_t seed = 88172645463325252u + 7919u * (uint64_t)thread;
  begin_thread();
  pthread_barrier_wait(&mix_gate);
  for (uint64_t call = 0; call < mix_calls; call++) {
    seed ^= seed << 13, seed ^= seed >> 7, seed ^= seed << 17;
    uint64_t key = (seed >> 32) % mix_keys, chance = (seed & 0xffff) % 100;
    if (chance < mix_asked) (void)has_key(thread, key);
    else if ((chance - mix_asked) % 2) left += insert_key(thread, key);
    else left -= remove_key(thread, key);
  }
  mix_left[thread] = left;
  end_thread();
  return 0;
}

static double mix_seconds(void) { /* of processor time, of all threads */
  struct timespec now;
  clock_gettime(CLOCK_PROCESS_CPUTIME_ID, &now);
  return (double)now.tv_sec + 1e-9 * (double)now.tv_nsec;
}

/* The words are THREADS KEYS CALLS ASKED, where CALLS are those of all threads together. Prints millions of calls a second of processor time. */
static int mix(char **words) {
  int threads = atoi(words[1]);
  long there = 0, found = 0;
  pthread_t running[MOST_THREADS];
  mix_keys = strtoull(words[2], 0, 10), mix_calls = strtoull(words[3], 0, 10) / (uint64_t)threads, mix_asked = strtoull(words[4], 0, 10);
  for (uint64_t key = 0; key < mix_keys; key++)
    if (key * 2654435761u >> 7 & 1) there += insert_key(0, key);
  pthread_barrier_init(&mix_gate, 0, (unsigned)threads);
  double start = mix_seconds();
  for (int thread = 0; thread < threads; thread++)
    if (pthread_create(&running[thread], 0, mix_thread, (void *)(intptr_t)thread)) return 2;
  for (int thread = 0; thread < threads; thread++) pthread_join(running[thread], 0), there += mix_left[thread];
  double took = mix_seconds() - start;
  for (uint64_t key = 0; key < mix_keys; key++) found += has_key(0, key);
  printf("%.2f\n", 1e-6 * (double)(mix_calls * (uint64_t)threads) / took);
  return found != there;
}
