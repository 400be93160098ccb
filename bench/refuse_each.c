/* Runs a program once for each of its requests for memory, or for each EVERY-th, with that one refused by refuse.so, and looks how it ends.
   refuse_each PROGRAM LIBRARY EVERY UNWRITTEN DOCUMENT FILE WORD..
   The program's words are WORD.., its standard input is FILE, which DOCUMENT names in what is written. With UNWRITTEN 1 each request is refused once more
   with a standard output that can't be written. For bench/refuse.sh, which compiles it. No part of the product. */
#define _GNU_SOURCE
#include <errno.h>
#include <fcntl.h>
#include <signal.h>
#include <spawn.h>
#include <stdio.h>
#include <stdlib.h>
#include <string.h>
#include <sys/mman.h>
#include <sys/stat.h>
#include <sys/wait.h>
#include <time.h>
#include <unistd.h>

enum { PATIENCE = 600, STATUS_WRITE_FAULT = 8, STATUS_MEMORY = 9, COUNTS = 9 };

struct ending { long requests, live, refused; int status; };

static char *environment[3], at_word[32], library_word[4096];
static int in, out, full, err, counts;
static sigset_t child;
static posix_spawnattr_t how;

static void fail(const char *what) { perror(what), exit(2); }

static int memory_file(const char *name) {
  int file = memfd_create(name, 0);
  if (file < 0) fail("memfd_create");
  return fcntl(file, F_DUPFD_CLOEXEC, 20);
}

static void emptied(int file) {
  if (ftruncate(file, 0) != 0) fail("ftruncate");
  lseek(file, 0, SEEK_SET);
}

/* one run with this request refused, or none by 0 */
static struct ending run(char **words, long at, int output) {
  struct ending end = {0, -1, 0, -1};
  posix_spawn_file_actions_t files;
  posix_spawn_file_actions_init(&files);
  posix_spawn_file_actions_adddup2(&files, in, 0);
  posix_spawn_file_actions_adddup2(&files, output, 1);
  posix_spawn_file_actions_adddup2(&files, err, 2);
  posix_spawn_file_actions_adddup2(&files, counts, COUNTS);
  snprintf(at_word, sizeof at_word, "REFUSE_AT=%ld", at);
  emptied(out), emptied(err), emptied(counts);
  lseek(in, 0, SEEK_SET);
  pid_t id;
  if (posix_spawn(&id, words[0], &files, &how, words, environment) != 0) fail(words[0]);
  posix_spawn_file_actions_destroy(&files);
  struct timespec patience = {PATIENCE, 0};
  int raw;
  while (waitpid(id, &raw, WNOHANG) == 0)
    if (sigtimedwait(&child, NULL, &patience) < 0 && errno == EAGAIN) kill(id, SIGKILL);
  if (WIFEXITED(raw)) end.status = WEXITSTATUS(raw);
  char line[100] = "";
  if (pread(counts, line, sizeof line - 1, 0) > 0) sscanf(line, "%ld %ld %ld", &end.requests, &end.live, &end.refused);
  return end;
}

/* the standard output of the last run */
static char *written(size_t *size) {
  struct stat found;
  if (fstat(out, &found) != 0) fail("fstat");
  char *held = malloc(found.st_size + 1);
  if (!held || pread(out, held, found.st_size, 0) != found.st_size) fail("pread");
  *size = found.st_size;
  return held;
}

int main(int argc, char **argv) {
  if (argc < 8) return fputs("usage: refuse_each PROGRAM LIBRARY EVERY UNWRITTEN DOCUMENT FILE WORD..\n", stderr), 2;
  long every = atol(argv[3]), memory = 0, unneeded = 0, unwritten = 0, runs = 0, bad = 0;
  char *document = argv[5], *words[8] = {argv[1]}, command[256] = "";
  for (int i = 7; i < argc && i < 14; i++) words[i - 6] = argv[i], strcat(strcat(command, i > 7 ? " " : ""), argv[i]);
  snprintf(library_word, sizeof library_word, "LD_PRELOAD=%s", argv[2]);
  environment[0] = at_word, environment[1] = library_word;
  int opened = open(argv[6], O_RDONLY | O_CLOEXEC);
  in = opened < 0 ? -1 : fcntl(opened, F_DUPFD_CLOEXEC, 20);
  opened = open("/dev/full", O_WRONLY | O_CLOEXEC);
  full = opened < 0 ? -1 : fcntl(opened, F_DUPFD_CLOEXEC, 20);
  if (in < 0 || full < 0 || every < 1) fail(argv[6]);
  out = memory_file("out"), err = memory_file("err"), counts = memory_file("counts");
  sigemptyset(&child);
  sigaddset(&child, SIGCHLD);
  sigset_t before;
  sigprocmask(SIG_BLOCK, &child, &before);
  posix_spawnattr_init(&how);
  posix_spawnattr_setsigmask(&how, &before);
  posix_spawnattr_setflags(&how, POSIX_SPAWN_SETSIGMASK);

  struct ending usual = run(words, 0, out);
  size_t size, said_size;
  char *whole = written(&size);
  if (usual.live != 0) bad++, printf("%s, %s: %ld blocks are left\n", document, command, usual.live);
  for (long at = every; at <= usual.requests; at += every) {
    struct ending end = run(words, at, out);
    char *said = written(&said_size);
    const char *wrong = end.live != 0 ? "blocks are left" : end.refused != 1 ? "it wasn't made" : NULL;
    if (!wrong && end.status == STATUS_MEMORY && said_size == 7 && memcmp(said, "memory\n", 7) == 0) memory++;
    else if (!wrong && end.status == usual.status && said_size == size && memcmp(said, whole, size) == 0) unneeded++;
    else bad++, printf("%s, %s, request %ld: %s, status %d, written: %.*s\n", document, command, at, wrong ? wrong : "another end", end.status, said_size < 100 ? (int)said_size : 100, said);
    free(said);
    runs++;
    if (argv[4][0] == '1') {
      end = run(words, at, full);
      if (end.live == 0 && end.status == STATUS_WRITE_FAULT) unwritten++;
      else bad++, printf("%s, %s, request %ld: with no room to write, status %d, %ld blocks are left\n", document, command, at, end.status, end.live);
      runs++;
    }
    if (bad > 20) break;
  }
  struct stat found;
  fstat(in, &found);
  printf("%s (%ld bytes), %s: %ld requests, %ld runs: memory %ld, as if none was refused %ld; with no room to write, write fault %ld\n", document, (long)found.st_size, command, usual.requests, runs,
         memory, unneeded, unwritten);
  return bad > 0;
}
