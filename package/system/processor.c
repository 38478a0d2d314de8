/* The library for x86-64 is compiled for x86-64-v2, as the program is: on a processor that lacks a feature of it a call would end by a
 * signal. So whoever loads the library there, or starts a program that it is linked into, is told so, and the process ends with 127.
 * Nothing proves it. */
#include <cpuid.h>
#include <unistd.h>

/* Whether cpuid answers this function, with all these bits of ecx. */
static int has(unsigned function, unsigned bits) {
  unsigned a, b, c, d;
  return __get_cpuid(function, &a, &b, &c, &d) && (c & bits) == bits;
}

__attribute__((constructor)) static void look_at_processor(void) {
  static const char lacks[] = "libirikit: this machine lacks a feature of x86-64-v2, which the library was built for\n";
  if (!has(1, bit_SSE3 | bit_SSSE3 | bit_SSE4_1 | bit_SSE4_2 | bit_POPCNT | bit_CMPXCHG16B) || !has(0x80000001, bit_LAHF_LM)) {
    ssize_t written = write(STDERR_FILENO, lacks, sizeof lacks - 1);
    (void)written;
    _exit(127);
  }
}
