/* oa_drive.c: makes the calls of a text that tools/oa2c has turned into C11, for tools/test_oa2c. The text's header is text.h, its prefix `text`.
 *
 *     replay              makes the steps of a schedule as `oa replay` does, and prints the same report (built with OA_REPLAY)
 *     log SEED            makes the callers' steps in an order that follows from the seed, and prints what a certificate has behind its document
 *     run                 makes the calls of each script on a thread, and prints the same lines as `oa run`
 *     own OPS ..          random calls on threads, each caller with keys of its own: the answers are those of the caller alone
 *     fifo|bag PUT,TAKE   each number that was put is taken once; of `fifo` those of one caller in their order
 *     cell STORE,READ     a reader finds numbers that were stored, those of one caller in their order, and that of the start before all
 *     sum ADD             each `ADD 1` answers another sum, without gaps
 *     echo OPS            each call answers its argument
 *     count PUT,TAKE      each PUT answers its argument, and as many are left to take as were put and not taken
 *     same CHANGE,READ    each READ answers the same number
 *     swap SWAP           two calls swap their arguments
 *
 * All but the first three take SEED CALLS CALLERS KEYS and a count of slots for each kind. The status is 1 if an answer is wrong, or is short. Built with
 * OA_REPLAY they make the callers' steps on one thread, in an order that follows from the seed.
 * `replay`, `log` and `run` read from standard input what tools/test_oa2c makes of the end of a document:
 *     slots S ..   phases F L   fuel N   script   call OP ARGUMENT ..   turn step|op|load|check|exchange C N
 */
#ifdef OA_REPLAY
#include <ucontext.h>
static void before_step(int kind);
static void log_event(int event);
#define OA_STEP(kind) before_step(kind)
#define OA_EVENT(event) log_event(event)
#endif
#define OA_TABLE
#ifndef OA_SLOT_BITS
#define OA_SLOT_BITS 13
#endif
#include "text.h"

#include <inttypes.h>
#include <pthread.h>
#include <stdio.h>

enum { MOST_CALLERS = 8, MOST_ARGUMENTS = 4, MOST_TRIES = 100000, STACK = 1 << 16 };
enum { OA_SPENT = -3, OA_UNREACHED = -4 };

typedef struct {
  unsigned op;
  uint64_t argument[MOST_ARGUMENTS];
  int end;
  uint64_t reply;
} a_call;

typedef struct {
  a_call *call;
  size_t count, room, ended;
} a_script;

static const unsigned operations = sizeof text_OPERATIONS / sizeof *text_OPERATIONS;
static oa_pool pool;
static a_script script[MOST_CALLERS];
static unsigned callers;
static uint64_t slots[OA_MOST_KINDS], first_phase = 1, last_phase = 1000000000, fuel = 1000000;

static void fail(const char *why) {
  fprintf(stderr, "oa_drive: %s\n", why);
  exit(2);
}

static void *room_for(void *old, size_t bytes) {
  void *found = realloc(old, bytes);
  if (!found) fail("no memory");
  return found;
}

static a_call *add_call(unsigned c, unsigned op) {
  a_script *to = &script[c];
  if (to->count == to->room) to->call = room_for(to->call, (to->room = 2 * to->room + 16) * sizeof *to->call);
  to->call[to->count] = (a_call){.op = op, .end = OA_UNREACHED};
  return &to->call[to->count++];
}

static unsigned operation_named(const char *name) {
  for (unsigned op = 0; op < operations; op++)
    if (!strcmp(text_OPERATIONS[op].name, name)) return op;
  fail("there is no such operation");
  return 0;
}

static int again_where_full; /* a call that finds no slot is made again */

static void make(oa_caller *caller, a_call *call) {
  for (unsigned tries = 0; tries < MOST_TRIES; tries++) {
    call->reply = 0;
    call->end = text_OPERATIONS[call->op].call(caller, call->argument, &call->reply);
    if (call->end != OA_FULL || !again_where_full) return;
  }
}

static void open_pool(const uint64_t *sizes, unsigned count) {
  if (!oa_open(&pool, &text_LAYOUT, sizes, count, last_phase - first_phase + 1)) fail("the pool can't be opened");
}

/* ---- the report */

static int show_call(unsigned c, size_t at, const a_call *call) {
  printf("%u %zu %s", c, at, text_OPERATIONS[call->op].name);
  for (unsigned i = 0; i < text_OPERATIONS[call->op].arguments; i++) printf(" %" PRIu64, call->argument[i]);
  switch (call->end) {
    case OA_NUMBER: printf(": %" PRIu64 "\n", call->reply); break;
    case OA_NONE: printf(": none\n"); break;
    case OA_FULL: printf(": full\n"); break;
    case OA_PHASES: printf(": phases %" PRIu64 "\n", last_phase); break;
    case OA_SPENT: printf(": spent\n"); break;
    default: printf(": unreached\n");
  }
  return call->end < 0;
}

static int report(void) {
  uint64_t replies = 0, is_short = 0, claims = 0, restarts = 0;
  for (unsigned c = 0; c < callers; c++) {
    for (size_t at = 0; at < script[c].count; at++)
      if (show_call(c, at, &script[c].call[at])) is_short++;
      else replies++;
    claims += pool.caller[c].claims;
    restarts += pool.caller[c].restarts;
  }
  uint64_t phase = atomic_load(&pool.phase.word) + first_phase - 1;
  printf("replies %" PRIu64 " short %" PRIu64 " phase %" PRIu64 " claims %" PRIu64 " restarts %" PRIu64 "\n", replies, is_short, phase, claims, restarts);
  return is_short > 0;
}

/* ---- reading */

typedef struct {
  char kind[16];
  unsigned caller;
  uint64_t count;
} a_turn;

static a_turn *turn;
static size_t turns;

static void read_call(char *rest) {
  char *word = strtok(rest, " ");
  a_call *call = add_call(callers - 1, operation_named(word));
  for (unsigned i = 0; (word = strtok(NULL, " ")) && i < MOST_ARGUMENTS; i++) call->argument[i] = strtoull(word, NULL, 10);
}

static void read_document(void) {
  char line[512], word[16];
  int at;
  while (fgets(line, sizeof line, stdin)) {
    line[strcspn(line, "\n")] = 0;
    if (sscanf(line, "%15s%n", word, &at) != 1) continue;
    char *rest = line + at;
    if (!strcmp(word, "slots"))
      for (unsigned kind = 0; kind < OA_MOST_KINDS; kind++) slots[kind] = strtoull(rest, &rest, 10);
    else if (!strcmp(word, "phases")) sscanf(rest, "%" SCNu64 " %" SCNu64, &first_phase, &last_phase);
    else if (!strcmp(word, "fuel")) sscanf(rest, "%" SCNu64, &fuel);
    else if (!strcmp(word, "script")) callers++;
    else if (!strcmp(word, "call")) read_call(rest);
    else {
      turn = room_for(turn, (turns + 1) * sizeof *turn);
      if (sscanf(rest, "%15s %u %" SCNu64, turn[turns].kind, &turn[turns].caller, &turn[turns].count) != 3) fail("no such line");
      turns++;
    }
  }
}

/* ---- random numbers */

static uint64_t random_state;

static uint64_t next_random(void) { /* xorshift64*, Vigna 2016 */
  random_state ^= random_state >> 12;
  random_state ^= random_state << 25;
  random_state ^= random_state >> 27;
  return random_state * UINT64_C(2685821657736338717);
}

/* ---- the steps of a schedule: each caller is a coroutine that stands before its next access */

#ifdef OA_REPLAY
static ucontext_t scheduler, of_caller[MOST_CALLERS];
static int wanted[MOST_CALLERS], over[MOST_CALLERS];
static uint64_t spent[MOST_CALLERS], steps;
static unsigned running;

static void before_step(int kind) {
  unsigned c = running;
  if (c == callers) return; /* the callers are over, and a call is made for a check */
  wanted[c] = kind;
  if (spent[c] == fuel) {
    script[c].call[script[c].ended].end = OA_SPENT;
    over[c] = 1;
  }
  swapcontext(&of_caller[c], &scheduler);
  spent[c]++;
}

/* What a certificate has of a run. The callers make their accesses one after the other, so the order of the lines is theirs. */
static int logs;
static int wrap_up_looked[MOST_CALLERS]; /* whether its wrap-up has made an access */
static uint64_t nodes;

static void log_event(int event) {
  unsigned c = running;
  if (!logs) return;
  switch (event) {
    case OA_EVENT_NEW: printf("access %u %" PRIu64 "\n", c, ++nodes); break;
    case OA_EVENT_RESTART: printf("restart %u\n", c); break;
    case OA_EVENT_FULL: printf("full %u\n", c); break;
    case OA_EVENT_PHASES: printf("phases %u %" PRIu64 "\n", c, last_phase); break;
    case OA_EVENT_ACCESS:
    case OA_EVENT_LIST_END: printf("access %u 0\n", c); break;
    case OA_EVENT_ANSWER:
      if (wrap_up_looked[c]) printf("access %u 0\n", c);
  }
  wrap_up_looked[c] = event == OA_EVENT_ACCESS;
}

static void log_begin(unsigned c, const a_call *call) {
  if (!logs) return;
  printf("begin %u %s", c, text_OPERATIONS[call->op].name);
  for (unsigned i = 0; i < text_OPERATIONS[call->op].arguments; i++) printf(" %" PRIu64, call->argument[i]);
  printf("\n");
}

static void make_script(void) {
  unsigned c = running;
  for (; script[c].ended < script[c].count; script[c].ended++) {
    spent[c] = 0;
    log_begin(c, &script[c].call[script[c].ended]);
    make(oa_caller_of(&pool, c), &script[c].call[script[c].ended]);
  }
  over[c] = 1;
}

static void go_on(unsigned c) {
  running = c;
  swapcontext(&scheduler, &of_caller[c]);
}

static void begin_scripts(void) {
  for (unsigned c = 0; c < callers; c++) {
    getcontext(&of_caller[c]);
    of_caller[c].uc_stack = (stack_t){.ss_sp = room_for(NULL, STACK), .ss_size = STACK};
    of_caller[c].uc_link = &scheduler;
    makecontext(&of_caller[c], make_script, 0);
    go_on(c);
  }
}

static void step(unsigned c) {
  if (c >= callers || over[c]) {
    printf("shape 10 at %" PRIu64 "\n", steps);
    exit(7);
  }
  if (steps == 20000000) {
    printf("shape 11 at %" PRIu64 "\n", steps);
    exit(7);
  }
  steps++;
  go_on(c);
}

static int kind_of(const char *word) {
  return !strcmp(word, "load") ? OA_STEP_LOAD : !strcmp(word, "check") ? OA_STEP_CHECK : OA_STEP_EXCHANGE;
}

static void make_turn(const a_turn *t) {
  unsigned c = t->caller;
  uint64_t left = t->count;
  if (!strcmp(t->kind, "step")) {
    for (; left > 0; left--) step(c);
  } else if (!strcmp(t->kind, "op")) {
    for (size_t goal = c < callers ? script[c].ended + left : 1; c >= callers || script[c].ended < goal;) step(c);
  } else {
    for (;; step(c)) /* a spent caller still wants its access, though it has no step to make */
      if (c < callers && script[c].ended < script[c].count && wanted[c] == kind_of(t->kind) && --left == 0) return;
  }
}

/* Bursts of steps, most of them short, so that a caller may stand still while others go far. Returns 0 if they don't come to an end. */
static int make_steps_at_random(void) {
  begin_scripts();
  for (unsigned left = callers; left > 0;) {
    unsigned c = next_random() % callers;
    for (uint64_t burst = next_random() % 64 ? next_random() % 40 : next_random() % 4000; burst > 0 && !over[c]; burst--, steps++) go_on(c);
    if (steps > 20000000) return 0;
    left = 0;
    for (unsigned other = 0; other < callers; other++) left += !over[other];
  }
  running = callers;
  return 1;
}

static void log_replies(void) {
  printf("replies\n");
  for (unsigned c = 0; c < callers; c++)
    for (size_t at = 0; at < script[c].count; at++) {
      const a_call *call = &script[c].call[at];
      if (call->end == OA_NUMBER) printf("reply %u %" PRIu64 "\n", c, call->reply);
      if (call->end == OA_NONE) printf("reply %u none\n", c);
      if (call->end == OA_FULL) printf("reply %u full\n", c);
      if (call->end == OA_PHASES) printf("reply %u phases %" PRIu64 "\n", c, last_phase);
    }
}

static int write_log(uint64_t seed) {
  for (unsigned kind = 0; kind < text_LAYOUT.kinds; kind++) nodes += text_LAYOUT.nodes[kind];
  random_state = seed * 2 + 1;
  logs = 1;
  printf("events\n");
  if (!make_steps_at_random()) fail("the calls don't come to an end");
  log_replies();
  return 0;
}

static int replay(void) {
  begin_scripts();
  for (size_t t = 0; t < turns; t++) make_turn(&turn[t]);
  for (unsigned c = 0; c < callers; c++)
    while (!over[c]) step(c);
  return report();
}
#endif

/* ---- threads */

#ifndef OA_REPLAY
static pthread_barrier_t gate;

static void *run_script(void *number) {
  unsigned c = (unsigned)(uintptr_t)number;
  pthread_barrier_wait(&gate);
  for (size_t at = 0; at < script[c].count; at++) make(oa_caller_of(&pool, c), &script[c].call[at]);
  return NULL;
}

static void run_threads(void) {
  pthread_t thread[MOST_CALLERS];
  pthread_barrier_init(&gate, NULL, callers);
  for (unsigned c = 0; c < callers; c++)
    if (pthread_create(&thread[c], NULL, run_script, (void *)(uintptr_t)c)) fail("no thread");
  for (unsigned c = 0; c < callers; c++) pthread_join(thread[c], NULL);
  pthread_barrier_destroy(&gate);
}
#endif

/* ---- random calls */

/* Numbers that differ between calls, and tell the caller and the place of its call. */
static uint64_t number_of(unsigned c, size_t at) { return ((uint64_t)at + 1) * MOST_CALLERS + c; }

static void make_up(const unsigned *op, unsigned count, size_t calls, uint64_t keys, int alternate) {
  for (unsigned c = 0; c < callers; c++)
    for (size_t at = 0; at < calls; at++) {
      a_call *call = add_call(c, op[alternate ? at % count : next_random() % count]);
      for (unsigned i = 0; i < MOST_ARGUMENTS; i++) call->argument[i] = number_of(c, at);
      if (keys) call->argument[0] = next_random() % keys * callers + c;
    }
}

static int is_short(const a_call *call) {
  if (call->end >= 0) return 0;
  printf("a call of %s is short (%d)\n", text_OPERATIONS[call->op].name, call->end);
  return 1;
}

/* Each caller's calls, made alone on a pool of their own, have the answers that they had on threads. */
static int check_own(void) {
  for (unsigned c = 0; c < callers; c++) {
    uint64_t ample[OA_MOST_KINDS] = {4096, 2048, 1024, 512};
    a_call last = {0};
    oa_close(&pool);
    open_pool(ample, 1);
    for (size_t at = 0; at < script[c].count; at++) {
      a_call *call = &script[c].call[at];
      last = *call;
      make(oa_caller_of(&pool, 0), &last);
      if (is_short(call)) return 1;
      if (last.end == call->end && last.reply == call->reply) continue;
      printf("%u %zu %s %" PRIu64 ": %d %" PRIu64 ", and alone %d %" PRIu64 "\n", c, at, text_OPERATIONS[call->op].name, call->argument[0], call->end,
             call->reply, last.end, last.reply);
      return 1;
    }
  }
  return 0;
}

/* The numbers that calls of `take` answered were put, by a call that was made, and each is taken once; in order if `ordered`. */
static int check_taken(unsigned put, unsigned take, int ordered, int once) {
  static uint8_t *seen[MOST_CALLERS];
  for (unsigned c = 0; c < callers; c++) memset(seen[c] = room_for(NULL, script[c].count + 1), 0, script[c].count + 1);
  for (unsigned c = 0; c < callers; c++) {
    uint64_t before[MOST_CALLERS] = {0};
    int is_first = 1; /* the number that was there at the start may be found, which is below all that are put */
    for (size_t at = 0; at < script[c].count; at++) {
      a_call *call = &script[c].call[at];
      if (is_short(call)) return 1;
      if (call->op != take || call->end != OA_NUMBER || (call->reply < MOST_CALLERS && (is_first || once))) continue;
      is_first = 0;
      unsigned from = call->reply % MOST_CALLERS;
      uint64_t place = call->reply / MOST_CALLERS;
      int was_put = place > 0 && from < callers && place <= script[from].count && script[from].call[place - 1].op == put;
      if (!was_put || (once && seen[from][place]++) || (ordered && (once ? place <= before[from] : place < before[from]))) {
        printf("%u %zu: %" PRIu64 " was taken twice, out of order, or was never put\n", c, at, call->reply);
        return 1;
      }
      before[from] = place;
    }
  }
  return 0;
}

/* What is put and not taken is left: so many, and these are taken at the end by one caller. */
static int check_left(unsigned put, unsigned take) {
  uint64_t left = 0;
  for (unsigned c = 0; c < callers; c++)
    for (size_t at = 0; at < script[c].count; at++)
      left += (uint64_t)(script[c].call[at].op == put) - (uint64_t)(script[c].call[at].op == take && script[c].call[at].end == OA_NUMBER);
  uint64_t found = 0;
  for (a_call call = {.op = take}; found <= left; found++) {
    make(oa_caller_of(&pool, 0), &call);
    if (call.end != OA_NUMBER) break;
  }
  if (found != left) printf("%" PRIu64 " are left, and %" PRIu64 " were found\n", left, found);
  return found != left;
}

static int compare_numbers(const void *a, const void *b) {
  uint64_t x = *(const uint64_t *)a, y = *(const uint64_t *)b;
  return (x > y) - (x < y);
}

static int check_sum(void) {
  static uint64_t *found;
  size_t count = 0;
  for (unsigned c = 0; c < callers; c++)
    for (size_t at = 0; at < script[c].count; at++) {
      found = room_for(found, (count + 1) * sizeof *found);
      found[count++] = script[c].call[at].reply;
    }
  qsort(found, count, sizeof *found, compare_numbers);
  for (size_t at = 1; at < count; at++)
    if (found[at] != found[at - 1] + 1) {
      printf("the sums %" PRIu64 " and %" PRIu64 " follow each other\n", found[at - 1], found[at]);
      return 1;
    }
  return 0;
}

/* What a call of these modes answers follows from its argument, from that of its partner, or from another's answer. */
static int check_each(const char *mode, const unsigned *op) {
  const a_call *first = NULL;
  for (unsigned c = 0; c < callers; c++)
    for (size_t at = 0; at < script[c].count; at++) {
      const a_call *call = &script[c].call[at];
      unsigned from = call->reply % MOST_CALLERS;
      uint64_t place = call->reply / MOST_CALLERS;
      int right = call->reply == call->argument[0];
      if (is_short(call)) return 1;
      if (!strcmp(mode, "count") && call->op != op[0]) continue;
      if (!strcmp(mode, "same") && call->op != op[1]) continue;
      if (!first) first = call;
      if (!strcmp(mode, "same")) right = call->reply == first->reply;
      if (!strcmp(mode, "swap"))
        right = place > 0 && from < callers && place <= script[from].count && script[from].call[place - 1].reply == call->argument[0];
      if (call->end == OA_NUMBER && right) continue;
      printf("%u %zu %s %" PRIu64 ": %d %" PRIu64 "\n", c, at, text_OPERATIONS[call->op].name, call->argument[0], call->end, call->reply);
      return 1;
    }
  return 0;
}

static int check(const char *mode, const unsigned *op) {
  if (!strcmp(mode, "own")) return check_own();
  if (!strcmp(mode, "sum")) return check_sum();
  if (!strcmp(mode, "cell")) return check_taken(op[0], op[1], 1, 0);
  if (!strcmp(mode, "count")) return check_each(mode, op) || check_left(op[0], op[1]);
  if (!strcmp(mode, "echo") || !strcmp(mode, "same") || !strcmp(mode, "swap")) return check_each(mode, op);
  return check_taken(op[0], op[1], !strcmp(mode, "fifo"), 1) || check_left(op[0], op[1]);
}

static int stress(int count, char **word) {
  if (count < 8) fail("MODE OPS SEED CALLS CALLERS KEYS SLOTS ..");
  const char *mode = word[1];
  unsigned op[16], ops = 0;
  for (char *name = strtok(word[2], ","); name && ops < 16; name = strtok(NULL, ",")) op[ops++] = operation_named(name);
  random_state = strtoull(word[3], NULL, 10) * 2 + 1;
  callers = (unsigned)strtoul(word[5], NULL, 10);
  for (int at = 7; at < count && at < 7 + OA_MOST_KINDS; at++) slots[at - 7] = strtoull(word[at], NULL, 10);
  int sum = !strcmp(mode, "sum"), own = !strcmp(mode, "own");
  make_up(op, ops, strtoull(word[4], NULL, 10), own ? strtoull(word[6], NULL, 10) : 0, !own);
  for (unsigned c = 0; sum && c < callers; c++)
    for (size_t at = 0; at < script[c].count; at++) script[c].call[at].argument[0] = 1;
  again_where_full = 1;
  fuel = UINT64_MAX;
  last_phase = OA_MOST_PHASE;
  open_pool(slots, callers);
#ifdef OA_REPLAY
  if (!make_steps_at_random()) {
    printf("wrong: the calls don't come to an end\n");
    return 1;
  }
#else
  run_threads();
#endif
  uint64_t claims = 0, restarts = 0, phase = atomic_load(&pool.phase.word);
  for (unsigned c = 0; c < callers; c++) claims += pool.caller[c].claims, restarts += pool.caller[c].restarts;
  int wrong = check(mode, op);
  printf("%s, phase %" PRIu64 ", claims %" PRIu64 ", restarts %" PRIu64 "\n", wrong ? "wrong" : "right", phase, claims, restarts);
  return wrong;
}

int main(int count, char **word) {
  if (count < 2) fail("replay, log, run, own, fifo, bag, cell, sum, echo, count, same or swap");
  if (strcmp(word[1], "replay") && strcmp(word[1], "log") && strcmp(word[1], "run")) return stress(count, word);
  read_document();
  open_pool(slots, callers);
#ifdef OA_REPLAY
  return count == 3 && !strcmp(word[1], "log") ? write_log(strtoull(word[2], NULL, 10)) : replay();
#else
  run_threads();
  return report();
#endif
}
