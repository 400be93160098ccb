/* Runs a program on documents that are made from others by small changes, and looks at how it ends and what it writes.
   fuzz PROGRAM COUNT SEED GOOD FILE..
   Three out of four are made from the first GOOD files. The changes keep to the form of lines mostly, since the first faulty line ends the reading.
   For bench/fuzz.sh, which compiles it. No part of the product. */
#define _GNU_SOURCE
#include <errno.h>
#include <fcntl.h>
#include <regex.h>
#include <signal.h>
#include <spawn.h>
#include <stdint.h>
#include <stdio.h>
#include <stdlib.h>
#include <string.h>
#include <sys/mman.h>
#include <sys/stat.h>
#include <sys/wait.h>
#include <time.h>
#include <unistd.h>

enum { MOST = 1 << 17, PATIENCE = 20 };
extern char **environ;

static uint64_t state, count_of_good;
static uint64_t drawn(uint64_t below) { /* xorshift64*, Vigna */
  state ^= state >> 12;
  state ^= state << 25;
  state ^= state >> 27;
  return (state * 2685821657736338717u >> 16) % below;
}

static char *documents[4096];
static size_t lengths[4096], count_of_documents;
static char text[2 * MOST];
static size_t length;

static const char *const words[] = {
    "0", "1", "2", "3", "7", "8", "9", "63", "64", "65", "255", "256", "257", "4096", "4097", "65535", "65536", "100000", "1000000", "1000001",
    "1125899906842624", "1125899906842625", "18446744073709551615", "18446744073709551616", "00", "n0", "n1", "n7", "n8", "r0", "r1", "r7", "r8",
    "null", "@0", "@1", "@2", "@256", "num", "ref", "key", "next", "value", "head", "tail", "b0", "set", "mov", "add", "sub", "rem", "mark", "unmark",
    "root", "pick", "load", "new", "put", "cas", "casroot", "jump", "ifeq", "ifless", "ifmarked", "commit", "with", "withroot", "return",
    "returnnone", "again", "chk", "grd", "retire", "oa", "oat", "use", "list", "queue", "field", "nodes", "node", "op", "gen", "wrap", "slots",
    "phases", "fuel", "script", "schedule", "step", "upto", "check", "exchange", "insert", "remove", "contains", "enqueue", "dequeue", "events",
    "begin", "access", "restart", "full", "replies", "reply", "none", "#", "\t", "~", "\x7f"};

static void put(size_t at, size_t taken, const char *with, size_t size) {
  if (length - taken + size > MOST) return;
  memmove(text + at + size, text + at + taken, length - at - taken);
  memcpy(text + at, with, size);
  length += size - taken;
}

/* where the line that holds a place begins, and where the next one does */
static size_t line_start(size_t at) {
  while (at > 0 && text[at - 1] != '\n') at--;
  return at;
}
static size_t line_end(size_t at) {
  while (at < length && text[at] != '\n') at++;
  return at < length ? at + 1 : at;
}

/* A token at or after a place. */
static int token(size_t at, size_t *from, size_t *to) {
  while (at < length && strchr(" \t\n", text[at])) at++;
  for (*from = *to = at; *to < length && !strchr(" \t\n", text[*to]);) ++*to;
  return *to > *from;
}

/* a word to put in place of another: mostly one of its kind, a number or a register */
static const char *word_for(size_t from, size_t to) {
  static char made[24];
  int is_number = text[from] >= '0' && text[from] <= '9';
  int is_register = to - from == 2 && (text[from] == 'n' || text[from] == 'r') && text[from + 1] >= '0' && text[from + 1] <= '7';
  if (drawn(4) == 0 || (!is_number && !is_register)) return words[drawn(sizeof words / sizeof *words)];
  if (is_register)
    snprintf(made, sizeof made, "%c%d", drawn(5) ? text[from] : "nr"[drawn(2)], (int)drawn(8));
  else if (drawn(4) == 0)
    return words[drawn(23)];
  else
    snprintf(made, sizeof made, "%d", (int)drawn(drawn(2) ? 6 : 24));
  return made;
}

static void change(void) {
  static char held[MOST];
  size_t at = drawn(length + 1), from, to, size;
  char byte;
  switch (drawn(15)) {
  case 0: /* another byte */
    byte = (char)drawn(256);
    if (at < length) text[at] = drawn(2) ? byte : (char)(text[at] ^ 1 << drawn(8));
    return;
  case 1: /* a byte more */
    byte = (char)(drawn(4) ? ' ' + drawn(95) : drawn(256));
    put(at, 0, &byte, 1);
    return;
  case 2: /* some bytes less */
    size = 1 + drawn(8);
    put(at, size < length - at ? size : length - at, "", 0);
    return;
  case 3: /* another word in place of one, more often than the rest */
  case 4:
  case 10:
  case 11:
  case 12:
  case 13:
    if (token(at, &from, &to)) {
      const char *word = word_for(from, to);
      put(from, to - from, word, strlen(word));
    }
    return;
  case 5: /* a word from elsewhere in the document */
    if (token(at, &from, &to)) {
      size_t other, end;
      if (token(drawn(length + 1), &other, &end)) {
        memcpy(held, text + other, end - other);
        put(from, to - from, held, end - other);
      }
    }
    return;
  case 6: /* a line less */
    from = line_start(at);
    put(from, line_end(at) - from, "", 0);
    return;
  case 7: /* a line twice */
    from = line_start(at), size = line_end(at) - from;
    memcpy(held, text + from, size);
    put(line_start(drawn(length + 1)), 0, held, size);
    return;
  case 8: /* a line moved */
    from = line_start(at), size = line_end(at) - from;
    memcpy(held, text + from, size);
    put(from, size, "", 0);
    put(line_start(drawn(length + 1)), 0, held, size);
    return;
  case 9: /* the end cut off, or that of another document put there */
    if (drawn(3) == 0) length = at;
    else {
      size_t other = drawn(count_of_documents), begin = drawn(lengths[other] + 1);
      length = drawn(2) ? line_start(at) : at;
      put(length, 0, documents[other] + begin, lengths[other] - begin);
    }
    return;
  default: /* a number one more or one less */
    for (from = at; from < length && (text[from] < '0' || text[from] > '9'); from++) {}
    if (from < length) text[from] += text[from] == '9' ? -1 : text[from] == '0' ? 1 : drawn(2) ? 1 : -1;
  }
}

enum { RUN, REPLAY, CHECK, SHOW, COMPILE, UPGRADE, MAKE, JUDGE, WORKLOAD, COMMANDS };
static const char *const commands[] = {"run", "replay", "check", "show", "compile", "upgrade", "judge make", "judge check", "workload"};

/* Words that may stand after `workload`, those that its grammar has first. */
enum { GOOD_COUNTS = 5, GOOD_CALLERS = 4, WORDS = 10 };
static const char *const counts[WORDS] = {"1", "2", "8", "40", "101", "0", "100001", "008", "18446744073709551617", ""};
static const char *const callers[WORDS] = {"1", "2", "3", "8", "0", "9", "02", "-1", "18446744073709551617", "2 "};

/* The words of the call, with a null after the last; answers whether they are in the grammar. */
static int draw_words(int command, char **call) {
  call[1] = command == MAKE || command == JUDGE ? "judge" : (char *)commands[command];
  call[2] = command == MAKE ? "make" : command == JUDGE ? "check" : NULL;
  call[3] = NULL;
  if (command != WORKLOAD) return 1;
  size_t count = drawn(2) ? drawn(GOOD_COUNTS) : drawn(WORDS), caller = drawn(2) ? drawn(GOOD_CALLERS) : drawn(WORDS), size = drawn(8) ? 4 : 1 + drawn(5);
  call[2] = (char *)counts[count], call[3] = (char *)callers[caller], call[4] = (char *)counts[0];
  call[size] = NULL;
  return size == 4 && count < GOOD_COUNTS && caller < GOOD_CALLERS;
}

static int begins(const char *said, const char *with) { return strncmp(said, with, strlen(with)) == 0; }
static const char *last_line(const char *said) {
  size_t size = strlen(said);
  if (size == 0 || said[size - 1] != '\n') return "";
  for (size--; size > 0 && said[size - 1] != '\n'; size--) {}
  return said + size;
}

static regex_t fault_line, refusal_line, shape_line, rejected_line, done_line, partial_line, workload_lines;
static int matches(const regex_t *form, const char *line) { return regexec(form, line, 0, NULL, 0) == 0; }

/* whether a status may come of the command, with what was written beside it */
static int is_in_table(int command, int is_right, int status, const char *said, int explained) {
  int runs = command == RUN || command == REPLAY;
  if (explained != (status != 0)) return 0;
  if (!is_right) return status == 2 && strcmp(said, "usage\n") == 0;
  if (command == WORKLOAD) return status == 0 && matches(&workload_lines, said); /* the document is left unread */
  switch (status) {
  case 0:
    return runs ? matches(&done_line, last_line(said)) : command == CHECK || command == JUDGE ? strcmp(said, "accepted\n") == 0
         : begins(said, command == COMPILE ? "oat 2\n" : "oa 2\n");
  case 1: return command == MAKE ? begins(said, "oa 2\n") : runs && matches(&partial_line, last_line(said));
  case 5: return matches(&fault_line, said);
  case 6: return command != SHOW && command != UPGRADE && matches(&refusal_line, said);
  case 7: return (runs || command == MAKE || command == JUDGE) && matches(&shape_line, said);
  case 11: return command == JUDGE && matches(&rejected_line, said);
  default: return 0; /* the input is short and whole, and there is memory */
  }
}

static void compiled(regex_t *form, const char *pattern) {
  if (regcomp(form, pattern, REG_EXTENDED | REG_NOSUB) != 0) exit(2);
}

static int memory_file(const char *name) {
  int file = memfd_create(name, 0);
  if (file < 0) perror("memfd_create"), exit(2);
  return file;
}

static void read_documents(int count, char **files) {
  for (int i = 0; i < count && count_of_documents < 4096; i++) {
    FILE *file = fopen(files[i], "rb");
    if (!file) perror(files[i]), exit(2);
    char *held = malloc(MOST);
    size_t size = held ? fread(held, 1, MOST, file) : 0;
    fclose(file);
    documents[count_of_documents] = held;
    lengths[count_of_documents++] = size;
  }
}

static void tell_failure(uint64_t number, const char *command, int raw, const char *said) {
  char name[64];
  snprintf(name, sizeof name, "fuzz-%llu.oa", (unsigned long long)number);
  FILE *file = fopen(name, "wb");
  if (file) fwrite(text, 1, length, file), fclose(file);
  printf("document %llu (%s), %s: %s %d, written: %.200s\n", (unsigned long long)number, name, command, WIFSIGNALED(raw) ? "signal" : "status",
         WIFSIGNALED(raw) ? WTERMSIG(raw) : WEXITSTATUS(raw), said);
  fflush(stdout);
}

int main(int argc, char **argv) {
  if (argc < 6) return fputs("usage: fuzz PROGRAM COUNT SEED GOOD FILE..\n", stderr), 2;
  char *program = argv[1];
  uint64_t wanted = strtoull(argv[2], NULL, 10), tally[16][COMMANDS] = {{0}}, bad = 0, slow = 0;
  state = strtoull(argv[3], NULL, 10) * 2 + 1;
  for (int i = 0; i < 16; i++) drawn(2);
  count_of_good = strtoull(argv[4], NULL, 10);
  int judged = getenv("certificates") != NULL; /* certificates alone */
  read_documents(argc - 5, argv + 5);
  if (count_of_good == 0 || count_of_good > count_of_documents) return fputs("fuzz: no such count of good files\n", stderr), 2;
  compiled(&fault_line, "^line [1-9][0-9]* fault [1-8]\n$");
  compiled(&refusal_line, "^refused N([1-9]|1[0-5]) op [a-z][a-z0-9_]{0,15} (gen|wrap) (0|[1-9][0-9]*)\n$");
  compiled(&shape_line, "^shape ([1-9]|1[01]) at (0|[1-9][0-9]*)\n$");
  compiled(&rejected_line, "^rejected [123] at (0|[1-9][0-9]*)\n$");
  compiled(&done_line, "^replies [0-9]+ short 0 phase [0-9]+ claims [0-9]+ restarts [0-9]+\n$");
  compiled(&partial_line, "^replies [0-9]+ short [1-9][0-9]* phase [0-9]+ claims [0-9]+ restarts [0-9]+\n$");
  compiled(&workload_lines, "^part 1 callers [1-8] operations [0-9]+ ones [0-9]+ zeros [0-9]+ short 0\n"
                            "part 2 operations [0-9]+ ones [0-9]+ zeros [0-9]+ short 0 phase [0-9]+ claims [0-9]+ restarts [0-9]+\n$");
  int in = memory_file("in"), out = memory_file("out"), err = memory_file("err");
  posix_spawn_file_actions_t files;
  posix_spawn_file_actions_init(&files);
  posix_spawn_file_actions_adddup2(&files, in, 0);
  posix_spawn_file_actions_adddup2(&files, out, 1);
  posix_spawn_file_actions_adddup2(&files, err, 2);
  sigset_t child, before;
  sigemptyset(&child);
  sigaddset(&child, SIGCHLD);
  sigprocmask(SIG_BLOCK, &child, &before);
  posix_spawnattr_t how;
  posix_spawnattr_init(&how);
  posix_spawnattr_setsigmask(&how, &before);
  posix_spawnattr_setflags(&how, POSIX_SPAWN_SETSIGMASK);
  static char said[4096 * 512];
  for (uint64_t number = 0; number < wanted; number++) {
    size_t base = drawn(drawn(4) ? count_of_good : count_of_documents);
    memcpy(text, documents[base], length = lengths[base]);
    for (uint64_t changes = drawn(2) ? 1 : 1 + drawn(4); changes > 0; changes--) change();
    int command = judged ? JUDGE : drawn(16) ? (int)drawn(WORKLOAD) : WORKLOAD, raw;
    if (ftruncate(in, 0) || ftruncate(out, 0) || ftruncate(err, 0) || pwrite(in, text, length, 0) != (ssize_t)length) return perror("memfd"), 2;
    lseek(in, 0, SEEK_SET), lseek(out, 0, SEEK_SET), lseek(err, 0, SEEK_SET);
    char *call[6] = {program};
    int is_right = draw_words(command, call);
    pid_t id;
    if (posix_spawn(&id, program, &files, &how, call, environ) != 0) return perror(program), 2;
    struct timespec patience = {PATIENCE, 0};
    int timed_out = 0;
    while (waitpid(id, &raw, WNOHANG) == 0)
      if (sigtimedwait(&child, NULL, &patience) < 0 && errno == EAGAIN) timed_out = 1, kill(id, SIGKILL);
    if (timed_out) {
      slow++, tell_failure(number, commands[command], raw, "");
      continue;
    }
    ssize_t size = pread(out, said, sizeof said - 1, 0);
    said[size < 0 ? 0 : size] = 0;
    int status = WIFEXITED(raw) ? WEXITSTATUS(raw) : 15;
    tally[status < 15 ? status : 15][command]++;
    struct stat told;
    fstat(err, &told);
    if (status > 11 || (size_t)size != strlen(said) || !is_in_table(command, is_right, status, said, told.st_size > 0)) bad++, tell_failure(number, commands[command], raw, said);
  }
  printf("%llu documents, seed %s, %zu to begin with\nstatus", (unsigned long long)wanted, argv[3], count_of_documents);
  for (int command = 0; command < COMMANDS; command++) printf(" %s", commands[command]);
  puts("");
  for (int status = 0; status < 16; status++) {
    uint64_t sum = 0;
    for (int command = 0; command < COMMANDS; command++) sum += tally[status][command];
    if (sum == 0) continue;
    printf(status == 15 ? "other" : "%d", status);
    for (int command = 0; command < COMMANDS; command++) printf(" %llu", (unsigned long long)tally[status][command]);
    puts("");
  }
  printf("%llu outside the table, %llu stopped after %d seconds\n", (unsigned long long)bad, (unsigned long long)slow, PATIENCE);
  return bad > 0;
}
