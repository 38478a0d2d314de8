/* Made calls of the heap, errno and the command line's words, as compiled code makes them, with allocations refused now and then: writes
 * what each answered. tests/packages/system links it with package/system/system.c, and with the kit's archives, and compares the two. With
 * COPIES it compares package/system/copies.c with the C library's memmove; with HEAP it asks package/system/heap.c for blocks. */
#include <malloc.h>
#include <stdbool.h>
#include <stdint.h>
#include <stdio.h>
#include <stdlib.h>
#include <string.h>
#include <sys/types.h>

static uint64_t state;

static unsigned below(unsigned most) {
  state = state * 6364136223846793005u + 1442695040888963407u;
  return (unsigned)(state >> 33) % most;
}

#ifdef COPIES
void *own_memcpy(void *restrict to, const void *restrict from, size_t n);
void *own_memmove(void *to, const void *from, size_t n);

enum { ROOM = 1024 };

/* The bytes of both after a copy of n bytes between these places. */
static int copies_as_the_library(size_t to, size_t from, size_t n) {
  unsigned char own[ROOM], wanted[ROOM];
  for (size_t i = 0; i < ROOM; i++) {
    own[i] = wanted[i] = (unsigned char)below(256);
  }
  bool apart = to + n <= from || from + n <= to;
  void *answer = apart && below(2) ? own_memcpy(own + to, own + from, n) : own_memmove(own + to, own + from, n);
  memmove(wanted + to, wanted + from, n);
  return answer == own + to && memcmp(own, wanted, ROOM) == 0;
}

int main(void) {
  for (size_t n = 0; n <= 200; n++) {
    for (size_t to = 300; to <= 500; to += 1 + n / 32) {
      if (!copies_as_the_library(to, 400, n)) {
        return printf("FAILED %zu bytes from 400 to %zu\n", n, to), 1;
      }
    }
  }
  for (int i = 0; i < 100000; i++) {
    size_t n = below(ROOM / 2), to = below(ROOM / 2), from = below(ROOM / 2);
    if (!copies_as_the_library(to, from, n)) {
      return printf("FAILED %zu bytes from %zu to %zu\n", n, from, to), 1;
    }
  }
  return 0;
}
#elif defined HEAP
void *__wrap_malloc(size_t n);
void __wrap_free(void *p);
void *counted_malloc(size_t n);

static size_t calls, asked;
void *counted_malloc(size_t n) {
  calls++;
  asked = n;
  return malloc(n);
}

/* Two blocks of n bytes that lie apart, taken and freed; none is asked for more bytes. */
static bool gets_two_blocks(size_t n) {
  asked = n;
  unsigned char *a = __wrap_malloc(n), *b = __wrap_malloc(n);
  size_t room = malloc_usable_size(a), other = malloc_usable_size(b);
  bool good = asked == n && room >= n && other >= n && (a + room <= b || b + other <= a);
  __wrap_free(a);
  __wrap_free(b);
  return good;
}

int main(void) {
  enum { MOST = 150000, TURNS = 1000, AT_ONCE = 3 };
  for (size_t n = 1; n <= MOST; n++) {
    if (!gets_two_blocks(n) || !gets_two_blocks(MOST - n) || !gets_two_blocks(below(MOST))) {
      return printf("FAILED blocks of %zu bytes\n", n), 1;
    }
  }
  calls = 0;
  for (int turn = 0; turn < TURNS; turn++) {
    void *blocks[AT_ONCE];
    for (int i = 0; i < AT_ONCE; i++) {
      blocks[i] = __wrap_malloc(848);
    }
    for (int i = 0; i < AT_ONCE; i++) {
      __wrap_free(blocks[i]);
    }
  }
  return calls > AT_ONCE ? printf("FAILED %zu calls of malloc for three blocks\n", calls), 1 : 0;
}
#else
struct tried {
  bool ok;
  unsigned char *p;
};
struct tried rattle_alloc(size_t n, size_t alignment);
struct tried rattle_realloc(unsigned char *p, size_t kept, size_t n, size_t alignment);
void rattle_dealloc(unsigned char *p);
int rattle_errno(void);
void rattle_set_errno(int error);
ssize_t rattle_arg(size_t i, unsigned char *buffer, size_t size);

/* The linker's --wrap=malloc and --wrap=realloc: one call in four gets nothing. */
static bool refuses;
void *__real_malloc(size_t n);
void *__real_realloc(void *p, size_t n);
void *__wrap_malloc(size_t n);
void *__wrap_realloc(void *p, size_t n);
void *__wrap_malloc(size_t n) {
  return refuses ? NULL : __real_malloc(n);
}
void *__wrap_realloc(void *p, size_t n) {
  return refuses ? NULL : __real_realloc(p, n);
}

enum { BLOCKS = 8 };
static struct {
  unsigned char *p;
  size_t n, alignment;
  bool is_held;
} blocks[BLOCKS];

static bool holds(unsigned i, size_t n) {
  for (size_t k = 0; k < n; k++) {
    if (blocks[i].p[k] != (unsigned char)(i + k)) {
      return false;
    }
  }
  return true;
}

static void keep(unsigned i, unsigned char *p, size_t n) {
  blocks[i].p = p;
  blocks[i].n = n;
  blocks[i].is_held = true;
  for (size_t k = 0; k < n; k++) {
    p[k] = (unsigned char)(i + k);
  }
}

static void free_block(unsigned i) {
  printf(" free %d", holds(i, blocks[i].n));
  rattle_dealloc(blocks[i].p);
  blocks[i].is_held = false;
}

static void ask_heap(unsigned i) {
  size_t n = below(5) == 0 ? 0 : below(below(2) ? 40 : 5000);
  refuses = below(4) == 0;
  if (!blocks[i].is_held) {
    blocks[i].alignment = (size_t)1 << below(5);
    struct tried tried = rattle_alloc(n, blocks[i].alignment);
    printf(" alloc %zu %d %d", n, tried.ok, tried.p != NULL);
    if (tried.ok) {
      keep(i, tried.p, n);
    }
  } else if (below(3) != 0) {
    size_t old = blocks[i].n, kept = old < n ? old : n;
    struct tried tried = rattle_realloc(blocks[i].p, kept, n, blocks[i].alignment);
    printf(" realloc %zu %zu %d %d", old, n, tried.ok, tried.p != NULL);
    if (tried.ok) {
      blocks[i].p = tried.p;
      printf(" %d", holds(i, kept));
      keep(i, tried.p, n);
    }
  } else {
    free_block(i);
  }
  refuses = false;
}

static void ask_words(void) {
  static unsigned char buffer[64];
  memset(buffer, '.', sizeof buffer);
  size_t i = below(8) == 0 ? SIZE_MAX - below(3) : below(9), size = below(sizeof buffer + 1);
  printf(" word %zu %zu %zd %.64s", i, size, rattle_arg(i, buffer, size), (const char *)buffer);
}

int main(int argc, char **argv) {
  (void)argc;
  (void)argv;
  for (int sequence = 0; sequence < 100000; sequence++) {
    state = (uint64_t)sequence;
    int error = (int)below(200);
    rattle_set_errno(error);
    printf("%d", rattle_errno() == error);
    for (unsigned count = below(20); count > 0; count--) {
      if (below(5) == 0) {
        ask_words();
      } else {
        ask_heap(below(BLOCKS));
      }
    }
    for (unsigned i = 0; i < BLOCKS; i++) {
      if (blocks[i].is_held) {
        free_block(i);
      }
    }
    printf("\n");
  }
  return 0;
}
#endif
