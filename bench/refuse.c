/* Loaded before the C library (LD_PRELOAD), it refuses one request for memory of the program, and tells at the end how many requests there were,
   how many blocks are still allocated, and whether one was refused. Requests of libraries are granted, and not counted.
   REFUSE_AT names the request, from 1 on, or none by 0. The line is written to the file descriptor 9. For bench/refuse.sh, which compiles it. No part
   of the product. */
#define _GNU_SOURCE
#include <errno.h>
#include <link.h>
#include <stdatomic.h>
#include <stdint.h>
#include <stdio.h>
#include <stdlib.h>
#include <string.h>
#include <sys/syscall.h>
#include <unistd.h>

extern void *__libc_malloc(size_t);
extern void *__libc_calloc(size_t, size_t);
extern void *__libc_realloc(void *, size_t);
extern void *__libc_memalign(size_t, size_t);
extern void __libc_free(void *);

static uintptr_t first, past; /* where the program's own code stands */
static atomic_long requests, live, refused;
static long refuse_at;

static int find_program(struct dl_phdr_info *info, size_t size, void *unused) {
  (void)size, (void)unused;
  for (int i = 0; i < info->dlpi_phnum; i++)
    if (info->dlpi_phdr[i].p_type == PT_LOAD && info->dlpi_phdr[i].p_flags & PF_X) {
      first = info->dlpi_addr + info->dlpi_phdr[i].p_vaddr;
      past = first + info->dlpi_phdr[i].p_memsz;
    }
  return 1; /* the first object is the program */
}

__attribute__((constructor)) static void begin(void) {
  const char *at = getenv("REFUSE_AT");
  refuse_at = at ? atol(at) : 0;
  dl_iterate_phdr(find_program, NULL);
}

/* The program ends by this call, which runs no destructors. */
void _exit(int status) {
  char line[100];
  int size = snprintf(line, sizeof line, "%ld %ld %ld\n", (long)requests, (long)live, (long)refused);
  if (write(9, line, size) < 0) {}
  for (;;) syscall(SYS_exit_group, status);
}

static int is_own(void *caller) { return (uintptr_t)caller - first < past - first; }

/* whether a request of the program is to be granted */
static int is_granted(void *caller) {
  if (!is_own(caller)) return 1;
  if (atomic_fetch_add(&requests, 1) + 1 != refuse_at) return 1;
  atomic_fetch_add(&refused, 1);
  errno = ENOMEM;
  return 0;
}

static void *counted(void *caller, void *block) {
  if (block && is_own(caller)) atomic_fetch_add(&live, 1);
  return block;
}

void *malloc(size_t size) {
  void *caller = __builtin_return_address(0);
  return is_granted(caller) ? counted(caller, __libc_malloc(size)) : NULL;
}

void *calloc(size_t count, size_t size) {
  void *caller = __builtin_return_address(0);
  return is_granted(caller) ? counted(caller, __libc_calloc(count, size)) : NULL;
}

void *realloc(void *block, size_t size) {
  void *caller = __builtin_return_address(0);
  if (!is_granted(caller)) return NULL;
  void *moved = __libc_realloc(block, size);
  if (is_own(caller) && !block && moved) atomic_fetch_add(&live, 1);
  if (is_own(caller) && block && !moved && size == 0) atomic_fetch_sub(&live, 1);
  return moved;
}

void *memalign(size_t alignment, size_t size) {
  void *caller = __builtin_return_address(0);
  return is_granted(caller) ? counted(caller, __libc_memalign(alignment, size)) : NULL;
}

void *aligned_alloc(size_t alignment, size_t size) {
  void *caller = __builtin_return_address(0);
  return is_granted(caller) ? counted(caller, __libc_memalign(alignment, size)) : NULL;
}

int posix_memalign(void **block, size_t alignment, size_t size) {
  void *caller = __builtin_return_address(0);
  if (!is_granted(caller)) return ENOMEM;
  void *given = __libc_memalign(alignment, size);
  if (!given) return ENOMEM;
  *block = counted(caller, given);
  return 0;
}

void free(void *block) {
  if (block && is_own(__builtin_return_address(0))) atomic_fetch_sub(&live, 1);
  __libc_free(block);
}
