/* logged.c: two threads add to one counter, and log what they do as the end of a certificate. The text is that of counter.oa:
 *     cc -std=c11 -pthread examples/logged.c -o logged
 *     (sed '/^script/,$d' examples/counter.oa; ./logged) | ./oa judge check
 * writes `accepted`. With -DSTORE a store stands in place of the exchange, and a log in which both threads load one sum is rejected.
 */
#include <pthread.h>
#include <stdatomic.h>
#include <stdio.h>

enum { CALLS = 500 };
static atomic_ulong total;
static unsigned long reply[2][CALLS];
static pthread_mutex_t order = PTHREAD_MUTEX_INITIALIZER;

/* Makes an access and logs it, so that the lines stand in the order of the accesses. */
#define LOGGED(me, access)        \
  do {                            \
    pthread_mutex_lock(&order);   \
    access;                       \
    printf("access %d 0\n", me);  \
    pthread_mutex_unlock(&order); \
  } while (0)

static unsigned long add(int me) {
  unsigned long old;
  int done;
  printf("begin %d add 1\n", me);
  do {
    LOGGED(me, old = total);
#ifdef STORE
    LOGGED(me, total = old + 1; done = 1);
#else
    LOGGED(me, done = atomic_compare_exchange_strong(&total, &old, old + 1));
#endif
  } while (!done);
  return old + 1;
}

static void *work(void *number) {
  int me = *(int *)number;
  for (int i = 0; i < CALLS; i++) reply[me][i] = add(me);
  return NULL;
}

int main(void) {
  pthread_t thread[2];
  int number[2] = {0, 1};
  for (int c = 0; c < 2; c++) {
    printf("script %d\n", c);
    for (int i = 0; i < CALLS; i++) puts("add 1");
  }
  puts("schedule\nevents");
  for (int c = 0; c < 2; c++) pthread_create(&thread[c], NULL, work, &number[c]);
  for (int c = 0; c < 2; c++) pthread_join(thread[c], NULL);
  puts("replies");
  for (int c = 0; c < 2; c++)
    for (int i = 0; i < CALLS; i++) printf("reply %d %lu\n", c, reply[c][i]);
}
