/* Loaded before the C library (LD_PRELOAD), it hands a program's standard input and output on in pieces of at most PIECE bytes, and fails one read
   (READ_FAILS, counted from 1; 0 for none) or one write (WRITE_FAILS) of these with EIO. For bench/faults.py, which compiles it. No part of the
   product. */
#define _GNU_SOURCE
#include <errno.h>
#include <stdatomic.h>
#include <stdlib.h>
#include <sys/syscall.h>
#include <unistd.h>

static atomic_long reads, writes;
static long read_fails, write_fails, piece;

static long number(const char *name) {
  const char *text = getenv(name);
  return text ? atol(text) : 0;
}

__attribute__((constructor)) static void begin(void) {
  read_fails = number("READ_FAILS"), write_fails = number("WRITE_FAILS"), piece = number("PIECE");
}

static size_t cut(size_t size) { return piece && size > (size_t)piece ? (size_t)piece : size; }

ssize_t read(int file, void *bytes, size_t size) {
  if (file != 0) return syscall(SYS_read, file, bytes, size);
  if (atomic_fetch_add(&reads, 1) + 1 == read_fails) return errno = EIO, -1;
  return syscall(SYS_read, file, bytes, cut(size));
}

ssize_t write(int file, const void *bytes, size_t size) {
  if (file != 1) return syscall(SYS_write, file, bytes, size);
  if (atomic_fetch_add(&writes, 1) + 1 == write_fails) return errno = EIO, -1;
  return syscall(SYS_write, file, bytes, cut(size));
}
