/* The calls of libcds_mix.h on the C11 that tools/oa2c makes of `use set 64`, for bench/libcds.sh. Besides 64
 * slots for the nodes before all keys and one for each key there are so many a thread as libcds lets a thread keep retired nodes. */
#include "set.h"

static oa_pool pool;

static int answer(int end, uint64_t reply) {
  if (end == OA_NUMBER) return (int)reply;
  abort(); /* no slot was left */
}

#define CALL(name, operation)                                                      \
  static int name(int thread, uint64_t key) {                                      \
    uint64_t reply = 0;                                                            \
    int end = operation(oa_caller_of(&pool, (unsigned)thread), key, &reply);       \
    return answer(end, reply);                                                     \
  }
CALL(insert_key, set_insert)
CALL(remove_key, set_remove)
CALL(has_key, set_contains)
static void begin_thread(void) {}
static void end_thread(void) {}

#include "libcds_mix.h"

int main(int count, char **words) {
  if (count != 6) return 2;
  unsigned threads = (unsigned)atoi(words[1]);
  uint64_t slots = 64 + strtoull(words[2], 0, 10) + threads * strtoull(words[5], 0, 10);
  if (!oa_open(&pool, &set_LAYOUT, &slots, threads, 0)) return 2;
  int status = mix(words);
  oa_close(&pool);
  return status;
}
