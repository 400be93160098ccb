/* Callers on threads claim slots of a pool and retire them, through a header of oac whose name is `pool`: tools/test_oac builds it. Each checks that
 * no slot is given out twice, and none that a hazard names. The lines of a retirement stand here by hand: oac emits none yet.
 *
 * usage: oac_claims CALLERS CALLS SLOTS..: so many calls by each caller, with so many slots of each kind. With NO_HAZARDS the hazards are left out,
 * to see that the checks tell. */
#define pool_IMPLEMENTATION
#include "pool.h"

#include <pthread.h>
#include <stdio.h>

static struct pool_Pool *pool;
static uint64_t calls, kinds;

/* By slot: whether a caller holds it, and whether a hazard names it that was stored before it was retired. */
static _Atomic unsigned char *held, *guarded;
static _Atomic uint64_t full, claimed, kept;

static uint64_t claim(struct pool_Caller *caller, uint64_t kind) {
  switch (kind) {
    case 0: return pool_Claim0(caller);
#ifdef POOL_2
    case 1: return pool_Claim1(caller);
#endif
#ifdef POOL_4
    case 2: return pool_Claim2(caller);
    case 3: return pool_Claim3(caller);
#endif
  }
  abort();
}

static void fail(char const *what, uint64_t slot) {
  printf("%s: slot %llu\n", what, (unsigned long long)slot);
  exit(1);
}

/* The two accesses of a retirement. */
static void retire(uint64_t slot) {
  uint64_t phase = pool_LOAD(&pool->phase.word);
  pool_STORE(&pool->status[slot], 4 * phase + 2);
}

static uint64_t of_kind(uint64_t slot) {
  uint64_t kind = kinds - 1;
  while (slot < pool->first[kind]) kind--;
  return kind;
}

/* Claims a slot of a kind, if there is one, and takes hold of it. */
static uint64_t hold(struct pool_Caller *caller, uint64_t kind) {
  uint64_t slot = claim(caller, kind);
  if (slot == UINT64_MAX) fail("the phases are over", 0);
  if (slot == 0) {
    full++;
    return 0;
  }
  if (slot > pool->slots || of_kind(slot) != kind) fail("a slot of another kind", slot);
  if (atomic_exchange(&held[slot], 1)) fail("a slot that is held was given out", slot);
  if (guarded[slot]) fail("a slot that a hazard names was given out", slot);
  if (pool->status[slot] % 4 != 1) fail("a status that doesn't say used", slot);
  claimed++;
  return slot;
}

/* Every fourth slot stays guarded while the next ones are claimed and retired. */
static void *run(void *number) {
  struct pool_Caller *caller = pool_Caller_of(pool, (uint64_t)(uintptr_t)number);
  uint64_t guard = 0, seed = caller->number + 1;
  for (uint64_t i = 0; i < calls; i++) {
    seed = seed * 6364136223846793005u + 1442695040888963407u;
    uint64_t slot = hold(caller, (seed >> 33) % kinds);
    if (slot == 0) continue;
    if (guard == 0 && i % 4 == 0) {
      guard = slot;
      kept++;
#ifndef NO_HAZARDS
      pool_STORE(&pool->row[caller->number].hazard[i % 8], slot);
#endif
      guarded[slot] = 1;
    }
    atomic_store(&held[slot], 0);
    retire(slot);
    if (guard != 0 && i % 4 == 3) {
      guarded[guard] = 0;
      for (unsigned r = 0; r < 8; r++) pool_STORE(&pool->row[caller->number].hazard[r], 0);
      guard = 0;
    }
  }
  return NULL;
}

int main(int count, char **words) {
  uint64_t callers = (uint64_t)atoll(words[1]), slots[4] = {0};
  calls = (uint64_t)atoll(words[2]);
  kinds = (uint64_t)count - 3;
  for (uint64_t k = 0; k < kinds; k++) slots[k] = (uint64_t)atoll(words[3 + k]);
  pool = pool_Open(slots, callers, 0);
  if (pool == NULL || kinds != pool_KINDS) return 2;
  held = calloc(pool->slots + 1, 1), guarded = calloc(pool->slots + 1, 1);
  pthread_t threads[256];
  for (uint64_t c = 0; c < callers; c++) pthread_create(&threads[c], NULL, run, (void *)(uintptr_t)c);
  for (uint64_t c = 0; c < callers; c++) pthread_join(threads[c], NULL);
  printf("claimed %llu full %llu kept %llu sweeps %llu\n", (unsigned long long)claimed, (unsigned long long)full, (unsigned long long)kept,
         (unsigned long long)(pool->phase.word - 1));
  free((void *)held), free((void *)guarded);
  pool_Close(pool);
  return 0;
}
