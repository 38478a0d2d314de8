/* What compiled code asks of C where the kit has no archive for it: the heap, errno and the words of the command line. It does what the
 * kit's liblibc_c.a and libos_c.a do for x86-64 with glibc. Nothing proves it; tests/packages/system compares it with those. */
#include <errno.h>
#include <stdbool.h>
#include <stddef.h>
#include <stdlib.h>
#include <sys/types.h>

/* Whether a call got memory, and where it is; where it didn't, an address that nobody reads or writes. */
struct tried {
  bool ok;
  unsigned char *p;
};

static unsigned char none;

static struct tried tried(void *p) {
  return (struct tried){p != NULL, p != NULL ? p : &none};
}

/* malloc may answer NULL for 0 bytes, and realloc may free there: so as many bytes as the alignment are asked for. */
struct tried rattle_alloc(size_t n, size_t alignment) {
  return tried(malloc(n != 0 ? n : alignment));
}

struct tried rattle_realloc(unsigned char *p, size_t kept, size_t n, size_t alignment) {
  (void)kept;
  return tried(realloc(p, n != 0 ? n : alignment));
}

void rattle_dealloc(unsigned char *p) {
  free(p);
}

/* The library for C asks for the heap alone. */
#ifndef HEAP_ONLY
int rattle_errno(void) {
  return errno;
}

void rattle_set_errno(int error) {
  errno = error;
}

static int count;
static char **words;

#ifdef WRAP_MAIN
/* musl passes no arguments to the functions of .init_array: the linker's --wrap=main puts this before main. */
int __real_main(int argc, char **argv, char **envp);
int __wrap_main(int argc, char **argv, char **envp);
int __wrap_main(int argc, char **argv, char **envp) {
  count = argc;
  words = argv;
  return __real_main(argc, argv, envp);
}
#else
/* glibc passes main's arguments to the functions of .init_array. */
static void keep(int argc, char **argv, char **envp) {
  (void)envp;
  count = argc;
  words = argv;
}
__attribute__((section(".init_array"), used)) static void (*const kept)(int, char **, char **) = keep;
#endif

/* Puts word i at the start of the buffer. Its length in bytes; -1 where there is no such word; -2 where it is longer than the buffer,
 * which then is full. */
ssize_t rattle_arg(size_t i, unsigned char *buffer, size_t size) {
  if (i >= (size_t)count || words[i] == NULL) {
    return -1;
  }
  size_t n = 0;
  for (; words[i][n] != 0; n++) {
    if (n == size) {
      return -2;
    }
    buffer[n] = (unsigned char)words[i][n];
  }
  return (ssize_t)n;
}
#endif
