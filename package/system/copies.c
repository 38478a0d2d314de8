/* memcpy and memmove of a static program for x86-64 over musl. musl's own begin "rep movsq" whatever the length, and with them a run
 * takes 1.6 times as long (2026-11-30: web 0.302 s against 0.188). Nothing proves it; tests/packages/system compares it with glibc's. */
#include <emmintrin.h>
#include <stddef.h>
#include <stdint.h>

#define LOAD(p) _mm_loadu_si128((const __m128i *)(p))
#define STORE(p, v) _mm_storeu_si128((__m128i *)(p), v)

void *memcpy(void *restrict to, const void *restrict from, size_t n);
void *memmove(void *to, const void *from, size_t n);

/* At most 32 bytes: both ends are read before either is written, so the two may overlap. */
static inline __attribute__((always_inline)) void move_32_at_most(unsigned char *to, const unsigned char *from, size_t n) {
  if (n >= 16) {
    __m128i a = LOAD(from), b = LOAD(from + n - 16);
    STORE(to, a);
    STORE(to + n - 16, b);
  } else if (n >= 8) {
    uint64_t a, b;
    __builtin_memcpy(&a, from, 8);
    __builtin_memcpy(&b, from + n - 8, 8);
    __builtin_memcpy(to, &a, 8);
    __builtin_memcpy(to + n - 8, &b, 8);
  } else if (n >= 4) {
    uint32_t a, b;
    __builtin_memcpy(&a, from, 4);
    __builtin_memcpy(&b, from + n - 4, 4);
    __builtin_memcpy(to, &a, 4);
    __builtin_memcpy(to + n - 4, &b, 4);
  } else if (n != 0) {
    unsigned char a = from[0], b = from[n / 2], c = from[n - 1];
    to[0] = a;
    to[n / 2] = b;
    to[n - 1] = c;
  }
}

/* More than 32 bytes, from the front, where no byte is written before it is read; the last 32 are read first. */
static inline void move_forwards(unsigned char *to, const unsigned char *from, size_t n) {
  __m128i a = LOAD(from + n - 32), b = LOAD(from + n - 16);
  for (size_t i = 0; i + 32 < n; i += 32) {
    __m128i c = LOAD(from + i), d = LOAD(from + i + 16);
    STORE(to + i, c);
    STORE(to + i + 16, d);
  }
  STORE(to + n - 32, a);
  STORE(to + n - 16, b);
}

static inline void move_backwards(unsigned char *to, const unsigned char *from, size_t n) {
  __m128i a = LOAD(from), b = LOAD(from + 16);
  for (size_t i = n; i > 32; i -= 32) {
    __m128i c = LOAD(from + i - 32), d = LOAD(from + i - 16);
    STORE(to + i - 32, c);
    STORE(to + i - 16, d);
  }
  STORE(to, a);
  STORE(to + 16, b);
}

void *memmove(void *to, const void *from, size_t n) {
  if (n <= 32) {
    move_32_at_most(to, from, n);
  } else if ((uintptr_t)to - (uintptr_t)from >= n) {
    move_forwards(to, from, n);
  } else {
    move_backwards(to, from, n);
  }
  return to;
}

void *memcpy(void *restrict to, const void *restrict from, size_t n) {
  return memmove(to, from, n);
}
