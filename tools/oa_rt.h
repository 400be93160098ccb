/* oa_rt.h: the memory of optimistic access in C11, for the headers that tools/oa2c writes. It is tested, and not proved.
 *
 * The routines make the accesses of docs/scheme.md ("A caller of compiled code"), one by one and in its order. Nodes stand in a row of slots, from 1
 * on; slot 0 is null, its fields read 0 and nothing is written there. A reference is the word 2 * slot + mark. A slot's status is 4 * phase, and
 * 1 more if it is used, 2 more if it is retired. The head of a chain of ready slots is a phase and the slot on top in one word.
 *
 * How to use it (tools/README.md has a whole program):
 *     oa_pool pool;
 *     if (!oa_open(&pool, &set_LAYOUT, slots, callers, 0)) ..;  // slots: how many of each kind of node; no memory: 0
 *     set_insert(oa_caller_of(&pool, n), key, &reply);          // by one thread at a time for each n < callers
 *     oa_close(&pool);
 */
#ifndef OA_RT_H
#define OA_RT_H

#include <stdatomic.h>
#include <stdint.h>
#include <stdlib.h>
#include <string.h>

typedef _Atomic uint64_t oa_word;

/* What an operation answers: a number in *reply, nothing, or that no slot or no phase was left. */
enum { OA_NUMBER = 1, OA_NONE = 0, OA_FULL = -1, OA_PHASES = -2 };

enum { OA_REGISTERS = 8, OA_NEWS = 4, OA_MOST_KINDS = 4, OA_LINE = 64 };

/* The low bits of a head are the slot on top, the others the phase. So there are 2^OA_SLOT_BITS - 1 slots at most, and the last phase is below
 * 2^(64 - OA_SLOT_BITS): a sweep that finds it answers OA_PHASES, and nothing wraps round. */
#ifndef OA_SLOT_BITS
#define OA_SLOT_BITS 24
#endif
#define OA_SLOT_MASK ((UINT64_C(1) << OA_SLOT_BITS) - 1)
#define OA_MOST_PHASE (UINT64_MAX >> OA_SLOT_BITS)

/* The memory order of each access. All are sequentially consistent, which is what is proved of the model. Beside each stands what the scheme asks; who
 * defines another order before this header is included takes the proof of that into their own hands (docs/porting.md says more). */
#ifndef OA_ORDER_SEEN /* load of the own warning as a method run begins: before each later load of the run. Acquire has it. */
#define OA_ORDER_SEEN memory_order_seq_cst
#endif
#ifndef OA_ORDER_READ /* load of a root or field: sees what was written before the node was shown, and the warnings before its slot was given out. Acquire. */
#define OA_ORDER_READ memory_order_seq_cst
#endif
#ifndef OA_ORDER_CHECK /* load of the own warning at a check: after each earlier load of the run; after each earlier guard too (store, then load). */
#define OA_ORDER_CHECK memory_order_seq_cst
#endif
#ifndef OA_ORDER_GUARD /* store of a hazard: before the check that follows. Store, then load: sequentially consistent, or a full fence between. */
#define OA_ORDER_GUARD memory_order_seq_cst
#endif
#ifndef OA_ORDER_CLEAR /* store of 0 in a hazard: after what was done with the node. Release. */
#define OA_ORDER_CLEAR memory_order_seq_cst
#endif
#ifndef OA_ORDER_PUT /* store in a field of a fresh node: who sees it sees the warnings before the slot was given out. Release. */
#define OA_ORDER_PUT memory_order_seq_cst
#endif
#ifndef OA_ORDER_EXCHANGE /* exchange of a root or field: shows what was put, and stands before the load of a retirement (store, then load). */
#define OA_ORDER_EXCHANGE memory_order_seq_cst
#endif
#ifndef OA_ORDER_TAG /* load of the phase by a retirement: after the exchange that took the node out (store, then load). */
#define OA_ORDER_TAG memory_order_seq_cst
#endif
#ifndef OA_ORDER_RETIRED /* store of a status by a retirement: after the exchange. Release. */
#define OA_ORDER_RETIRED memory_order_seq_cst
#endif
#ifndef OA_ORDER_PHASE /* load of the phase by a sweep: before its warnings. Acquire. */
#define OA_ORDER_PHASE memory_order_seq_cst
#endif
#ifndef OA_ORDER_RAISE /* exchange of the phase by a sweep: before its warnings, a full fence between, which pairs with that before a tag. */
#define OA_ORDER_RAISE memory_order_seq_cst
#endif
#ifndef OA_ORDER_WARN /* raise of a warning: before the loads of hazards (store, then load): sequentially consistent, or a full fence between. */
#define OA_ORDER_WARN memory_order_seq_cst
#endif
#ifndef OA_ORDER_HAZARD /* load of a hazard by a sweep: after all warnings, and before the exchanges of statuses. Acquire after that fence. */
#define OA_ORDER_HAZARD memory_order_seq_cst
#endif
#ifndef OA_ORDER_STATUS /* load of a status by a sweep: sees the exchange that took the node out. Acquire. */
#define OA_ORDER_STATUS memory_order_seq_cst
#endif
#ifndef OA_ORDER_READY /* exchange of a status from retired to ready. It alone decides which sweep pushes the slot. Acquire and release. */
#define OA_ORDER_READY memory_order_seq_cst
#endif
#ifndef OA_ORDER_TOP /* load of a head: sees the link of the slot on top, and the warnings before it was pushed. Acquire. */
#define OA_ORDER_TOP memory_order_seq_cst
#endif
#ifndef OA_ORDER_LINK /* load and store of a link: between the accesses of the head. Relaxed, if those have their orders. */
#define OA_ORDER_LINK memory_order_seq_cst
#endif
#ifndef OA_ORDER_PUSH /* exchange of a head by a sweep: shows the link, and the warnings. Release. */
#define OA_ORDER_PUSH memory_order_seq_cst
#endif
#ifndef OA_ORDER_TAKE /* exchange of a head by a claim: sees the warnings before the push. Acquire. */
#define OA_ORDER_TAKE memory_order_seq_cst
#endif
#ifndef OA_ORDER_USED /* store of a status by a claim: before the slot's retirement, which comes by the same word. Relaxed. */
#define OA_ORDER_USED memory_order_seq_cst
#endif

/* A program that has the steps in an order of its own, as tools/oa_drive.c, defines OA_STEP: it stands before each access, with its kind. */
enum { OA_STEP_OTHER, OA_STEP_LOAD, OA_STEP_CHECK, OA_STEP_EXCHANGE };
#ifndef OA_STEP
#define OA_STEP(kind) ((void)0)
#endif

/* A program that logs its run as a certificate defines OA_EVENT: it stands behind what the certificate of a run has, and where a wrap-up begins. */
enum { OA_EVENT_ACCESS, OA_EVENT_NEW, OA_EVENT_RESTART, OA_EVENT_FULL, OA_EVENT_PHASES, OA_EVENT_LIST_END, OA_EVENT_WRAP_UP, OA_EVENT_ANSWER };
#ifndef OA_EVENT
#define OA_EVENT(event) ((void)0)
#endif

#define OA_LOAD(word, order, kind) (OA_STEP(kind), atomic_load_explicit((word), (order)))
#define OA_STORE(word, value, order) (OA_STEP(OA_STEP_OTHER), atomic_store_explicit((word), (value), (order)))
#define OA_ON_FAILURE(order) \
  ((order) == memory_order_acq_rel ? memory_order_acquire : (order) == memory_order_release ? memory_order_relaxed : (order))
#define OA_SWAP(word, expected, value, order) \
  atomic_compare_exchange_strong_explicit((word), &(uint64_t){expected}, (value), (order), OA_ON_FAILURE(order))

/* A caller's own words, which all callers see. */
typedef struct {
  _Alignas(OA_LINE) oa_word warning;
  oa_word hazard[OA_REGISTERS];
} oa_own;

struct oa_pool;

/* A caller. It is used by one thread at a time; what a claim took and no exchange has shown stays in its cradles. */
typedef struct {
  _Alignas(OA_LINE) struct oa_pool *pool;
  oa_own *own;
  uint64_t cradle[OA_NEWS * OA_MOST_KINDS];
  uint64_t claims, restarts; /* counted for whoever asks */
  uint64_t *gathered;        /* of a sweep: the slots in hazard words, and a bit for each slot that is one of them */
  uint64_t *named;
} oa_caller;

/* A first value: the number of an initial node from 1 on, or else a number (0 for null). */
typedef struct {
  uint64_t node, number;
} oa_start;

/* What a text declares. By kind of node: its fields, the words between two of its nodes, and how many initial nodes it has. */
typedef struct {
  unsigned kinds, roots, root_stride;
  const unsigned *fields, *stride, *nodes;
  const oa_start *root;   /* by root */
  const oa_start *values; /* of the initial nodes, kind by kind, field by field */
} oa_layout;

typedef struct oa_pool {
  const oa_layout *layout;
  unsigned callers;
  uint64_t last;                     /* the last phase */
  uint64_t first[OA_MOST_KINDS + 1]; /* the first slot of each kind, and one above the last slot */
  oa_word *root;
  oa_word *field[OA_MOST_KINDS]; /* by kind: rows of words, the first of which is null's */
  oa_word *status, *link;        /* by slot */
  oa_own *own;
  oa_caller *caller;
  struct {
    _Alignas(OA_LINE) oa_word word;
  } phase, head[OA_MOST_KINDS];
} oa_pool;

/* ---- checks and guards */

/* Whether the caller was warned since its method run began. If so the run begins again, and `seen` is the warning that was found. */
static inline int oa_is_warned(oa_caller *caller, uint64_t *seen) {
  uint64_t found = OA_LOAD(&caller->own->warning, OA_ORDER_CHECK, OA_STEP_CHECK);
  if (found == *seen) return 0;
  *seen = found;
  caller->restarts++;
  OA_EVENT(OA_EVENT_RESTART);
  return 1;
}

static inline void oa_guard(oa_own *own, unsigned *guards, unsigned number, uint64_t reference) {
  uint64_t slot = reference >> 1;
  OA_STORE(&own->hazard[number], slot, OA_ORDER_GUARD);
  *guards = (*guards & ~(1u << number)) | (unsigned)(slot != 0) << number;
}

/* Clears each guard that isn't 0, but for those of the registers in `kept`. */
static inline void oa_clear(oa_own *own, unsigned *guards, unsigned kept) {
  for (unsigned r = 0; *guards & ~kept; r++) {
    if (!((*guards & ~kept) >> r & 1)) continue;
    OA_STORE(&own->hazard[r], 0, OA_ORDER_CLEAR);
    *guards &= ~(1u << r);
  }
}

/* OA_NO_CHECKS and OA_NO_GUARDS leave them out, to see what goes wrong then. */
#ifdef OA_NO_CHECKS
#define OA_CHK(caller, seen) ((void)(caller), (void)(seen), 0)
#else
#define OA_CHK(caller, seen) oa_is_warned(caller, seen)
#endif
#ifdef OA_NO_GUARDS
#define OA_GRD(own, guards, number, reference) ((void)(guards), (void)(reference))
#else
#define OA_GRD(own, guards, number, reference) oa_guard(own, guards, number, reference)
#endif

#define OA_SEEN(caller) OA_LOAD(&(caller)->own->warning, OA_ORDER_SEEN, OA_STEP_OTHER)

static inline uint64_t oa_read(oa_word *word) {
  uint64_t found = OA_LOAD(word, OA_ORDER_READ, OA_STEP_LOAD);
  OA_EVENT(OA_EVENT_ACCESS);
  return found;
}

static inline void oa_put(oa_word *word, uint64_t value) {
  OA_STORE(word, value, OA_ORDER_PUT);
  OA_EVENT(OA_EVENT_ACCESS);
}

/* The words of a reference's node, where `below` slots stand before those of its kind; null's are the first. */
static inline oa_word *oa_row(oa_word *rows, uint64_t reference, uint64_t below, unsigned stride) {
  uint64_t slot = reference >> 1;
  return rows + (slot > below ? slot - below : 0) * stride;
}

static inline int oa_exchange(oa_word *word, uint64_t expected, uint64_t value) {
  OA_STEP(OA_STEP_EXCHANGE);
  int done = OA_SWAP(word, expected, value, OA_ORDER_EXCHANGE);
  OA_EVENT(OA_EVENT_ACCESS);
  return done;
}

/* An exchange of a field of the node that `object` names. On null it is a load, and fails. */
static inline int oa_exchange_of(uint64_t object, oa_word *word, uint64_t expected, uint64_t value) {
  if (object >> 1) return oa_exchange(word, expected, value);
  (void)oa_read(word);
  return 0;
}

/* ---- retirements */

static inline void oa_retire(oa_pool *pool, uint64_t reference) {
  uint64_t slot = reference >> 1;
  if (!slot) return;
  uint64_t tag = OA_LOAD(&pool->phase.word, OA_ORDER_TAG, OA_STEP_OTHER);
  OA_STORE(&pool->status[slot], 4 * tag + 2, OA_ORDER_RETIRED);
}

/* ---- sweeps and claims */

static inline void oa_push(oa_pool *pool, unsigned kind, uint64_t slot, uint64_t phase) {
  for (;;) {
    uint64_t top = OA_LOAD(&pool->head[kind].word, OA_ORDER_TOP, OA_STEP_OTHER), stamp = top >> OA_SLOT_BITS;
    OA_STORE(&pool->link[slot], top & OA_SLOT_MASK, OA_ORDER_LINK);
    OA_STEP(OA_STEP_OTHER);
    if (OA_SWAP(&pool->head[kind].word, top, (stamp > phase ? stamp : phase) << OA_SLOT_BITS | slot, OA_ORDER_PUSH)) return;
  }
}

static inline void oa_warn(oa_word *warning, uint64_t phase) { /* a fetch-max, which C11 lacks */
  OA_STEP(OA_STEP_OTHER);
  uint64_t found = atomic_load_explicit(warning, memory_order_relaxed);
  while (!atomic_compare_exchange_weak_explicit(warning, &found, found > phase ? found : phase, OA_ORDER_WARN, OA_ON_FAILURE(OA_ORDER_WARN))) continue;
}

/* Loads all hazard words, and notes which slots they name. Returns how many were noted. */
static inline unsigned oa_gather(oa_caller *caller) {
  oa_pool *pool = caller->pool;
  unsigned count = 0;
  for (unsigned c = 0; c < pool->callers; c++)
    for (unsigned r = 0; r < OA_REGISTERS; r++) {
      uint64_t slot = OA_LOAD(&pool->own[c].hazard[r], OA_ORDER_HAZARD, OA_STEP_OTHER);
      caller->gathered[count++] = slot;
      caller->named[slot / 64] |= UINT64_C(1) << slot % 64;
    }
  return count;
}

/* Begins the next phase, warns every caller, and makes ready each slot that was retired before and that no hazard word names. */
static int oa_sweep(oa_caller *caller) {
  oa_pool *pool = caller->pool;
  uint64_t phase = OA_LOAD(&pool->phase.word, OA_ORDER_PHASE, OA_STEP_OTHER), next = phase + 1;
  if (phase == pool->last) return OA_PHASES;
  OA_STEP(OA_STEP_OTHER);
  (void)OA_SWAP(&pool->phase.word, phase, next, OA_ORDER_RAISE);
  for (unsigned c = 0; c < pool->callers; c++) oa_warn(&pool->own[c].warning, next);
  unsigned gathered = oa_gather(caller);
  for (unsigned kind = pool->layout->kinds; kind-- > 0;)
    for (uint64_t slot = pool->first[kind + 1]; slot-- > pool->first[kind];) {
      uint64_t status = OA_LOAD(&pool->status[slot], OA_ORDER_STATUS, OA_STEP_OTHER);
      if (status % 4 != 2 || status / 4 >= next || caller->named[slot / 64] >> slot % 64 & 1) continue;
      OA_STEP(OA_STEP_OTHER);
      if (OA_SWAP(&pool->status[slot], status, 4 * next, OA_ORDER_READY)) oa_push(pool, kind, slot, next);
    }
  while (gathered > 0) caller->named[caller->gathered[--gathered] / 64] = 0;
  return OA_NONE;
}

/* Takes the slot on top of a chain. Returns 0 if there is none. */
static inline uint64_t oa_look(oa_caller *caller, unsigned kind) {
  oa_pool *pool = caller->pool;
  for (;;) {
    uint64_t top = OA_LOAD(&pool->head[kind].word, OA_ORDER_TOP, OA_STEP_OTHER), slot = top & OA_SLOT_MASK, stamp = top >> OA_SLOT_BITS;
    if (!slot) return 0;
    uint64_t next = OA_LOAD(&pool->link[slot], OA_ORDER_LINK, OA_STEP_OTHER);
    OA_STEP(OA_STEP_OTHER);
    if (!OA_SWAP(&pool->head[kind].word, top, stamp << OA_SLOT_BITS | next, OA_ORDER_TAKE)) continue;
    caller->claims++;
    OA_STORE(&pool->status[slot], 4 * stamp + 1, OA_ORDER_USED);
    return slot;
  }
}

/* Fills a cradle: a look, and after each of at most two sweeps another. Returns OA_NONE, OA_FULL or OA_PHASES. */
static int oa_claim(oa_caller *caller, unsigned kind, unsigned cradle) {
  for (unsigned sweeps = 0; !(caller->cradle[cradle] = oa_look(caller, kind)); sweeps++) {
    if (sweeps == 2) return OA_FULL;
    if (oa_sweep(caller) == OA_PHASES) return OA_PHASES;
  }
  return OA_NONE;
}

/* The fresh node of a `new`: that of its cradle, or else a claimed one. Its fields become 0. */
static inline int oa_new(oa_caller *caller, unsigned kind, unsigned number, unsigned fields, unsigned stride, uint64_t *reference) {
  unsigned cradle = OA_NEWS * kind + number;
  if (!caller->cradle[cradle]) {
    int end = oa_claim(caller, kind, cradle);
    if (end != OA_NONE) {
      OA_EVENT(end == OA_FULL ? OA_EVENT_FULL : OA_EVENT_PHASES);
      return end;
    }
  }
  *reference = 2 * caller->cradle[cradle];
  oa_word *row = oa_row(caller->pool->field[kind], *reference, caller->pool->first[kind] - 1, stride);
  for (unsigned field = 0; field < fields; field++) OA_STORE(&row[field], 0, OA_ORDER_PUT);
  OA_EVENT(OA_EVENT_NEW);
  return OA_NONE;
}

/* An exchange of a commit has shown this node: it is in no cradle any more. */
static inline void oa_shown(oa_caller *caller, uint64_t reference) {
  for (unsigned cradle = 0; cradle < OA_NEWS * caller->pool->layout->kinds; cradle++)
    if (caller->cradle[cradle] == reference >> 1) caller->cradle[cradle] = 0;
}

/* ---- opening and closing */

static inline void oa_close(oa_pool *pool) {
  for (unsigned c = 0; pool->caller && c < pool->callers; c++) {
    free(pool->caller[c].gathered);
    free(pool->caller[c].named);
  }
  for (unsigned kind = 0; kind < OA_MOST_KINDS; kind++) free(pool->field[kind]);
  free(pool->caller);
  free(pool->own);
  free(pool->root);
  free(pool->status);
  free(pool->link);
}

static inline void *oa_zeroed(size_t count, size_t size) {
  size_t bytes = (count * size + OA_LINE - 1) / OA_LINE * OA_LINE;
  void *found = aligned_alloc(OA_LINE, bytes ? bytes : OA_LINE);
  return found ? memset(found, 0, bytes) : found;
}

/* The word of a first value: a reference to the slot of an initial node, or a number. */
static inline uint64_t oa_start_word(const oa_pool *pool, oa_start start) {
  uint64_t node = start.node;
  if (!node) return start.number;
  for (unsigned kind = 0;; node -= pool->layout->nodes[kind++])
    if (node <= pool->layout->nodes[kind]) return 2 * (pool->first[kind] + node - 1);
}

static inline int oa_take_memory(oa_pool *pool) {
  const oa_layout *layout = pool->layout;
  uint64_t slots = pool->first[layout->kinds];
  pool->own = oa_zeroed(pool->callers, sizeof *pool->own);
  pool->caller = oa_zeroed(pool->callers, sizeof *pool->caller);
  pool->root = oa_zeroed((size_t)layout->roots * layout->root_stride, sizeof *pool->root);
  pool->status = oa_zeroed(slots, sizeof *pool->status);
  pool->link = oa_zeroed(slots, sizeof *pool->link);
  if (!pool->own || !pool->caller || !pool->root || !pool->status || !pool->link) return 0;
  for (unsigned kind = 0; kind < layout->kinds; kind++) {
    pool->field[kind] = oa_zeroed((pool->first[kind + 1] - pool->first[kind] + 1) * layout->stride[kind], sizeof *pool->root);
    if (!pool->field[kind]) return 0;
  }
  for (unsigned c = 0; c < pool->callers; c++) {
    oa_caller *caller = &pool->caller[c];
    caller->pool = pool;
    caller->own = &pool->own[c];
    caller->gathered = oa_zeroed((size_t)pool->callers * OA_REGISTERS, sizeof *caller->gathered);
    caller->named = oa_zeroed(slots / 64 + 1, sizeof *caller->named);
    if (!caller->gathered || !caller->named) return 0;
  }
  return 1;
}

/* The words at the start, in the phase 1: the initial nodes stand in the first slots of their kind, and the others are ready, the least on top. */
static inline void oa_start_words(oa_pool *pool) {
  const oa_layout *layout = pool->layout;
  const oa_start *value = layout->values;
  atomic_init(&pool->phase.word, 1);
  for (unsigned c = 0; c < pool->callers; c++) atomic_init(&pool->own[c].warning, 1);
  for (unsigned root = 0; root < layout->roots; root++) atomic_init(&pool->root[root * layout->root_stride], oa_start_word(pool, layout->root[root]));
  for (unsigned kind = 0; kind < layout->kinds; kind++) {
    uint64_t first = pool->first[kind], end = pool->first[kind + 1], ready = first + layout->nodes[kind];
    for (uint64_t slot = first; slot < ready; slot++) {
      oa_word *row = pool->field[kind] + (slot - first + 1) * layout->stride[kind];
      for (unsigned field = 0; field < layout->fields[kind]; field++) atomic_init(&row[field], oa_start_word(pool, *value++));
      atomic_init(&pool->status[slot], 4 + 1);
    }
    for (uint64_t slot = ready; slot < end; slot++) {
      atomic_init(&pool->status[slot], 4);
      atomic_init(&pool->link[slot], slot + 1 < end ? slot + 1 : 0);
    }
    atomic_init(&pool->head[kind].word, UINT64_C(1) << OA_SLOT_BITS | (ready < end ? ready : 0));
  }
}

/* Opens a pool with so many slots of each kind, the last phase being `last` (0: the greatest there can be). Returns 0, and has nothing open, if the
 * slots are too few or too many, or if there is no memory. */
static inline int oa_open(oa_pool *pool, const oa_layout *layout, const uint64_t *slots, unsigned callers, uint64_t last) {
  memset(pool, 0, sizeof *pool);
  pool->layout = layout;
  pool->callers = callers;
  pool->last = last && last < OA_MOST_PHASE ? last : OA_MOST_PHASE;
  pool->first[0] = 1;
  for (unsigned kind = 0; kind < layout->kinds; kind++) {
    if (slots[kind] < layout->nodes[kind] || slots[kind] > OA_SLOT_MASK - pool->first[kind]) return 0;
    pool->first[kind + 1] = pool->first[kind] + slots[kind];
  }
  if (!oa_take_memory(pool)) {
    oa_close(pool);
    return 0;
  }
  oa_start_words(pool);
  return 1;
}

static inline oa_caller *oa_caller_of(oa_pool *pool, unsigned number) { return &pool->caller[number]; }

#endif
