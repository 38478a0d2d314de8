/* What the program for x86-64 asks of glibc and musl lacks. It looks as it starts whether the processor has what it is compiled for
 * (x86-64-v2), by glibc's __x86_get_cpuid_feature_leaf, and says so by __write where it hasn't. Nothing proves it. */
#include <cpuid.h>
#include <unistd.h>

/* glibc's struct cpuid_feature (sys/platform/x86.h): what cpuid answers, and which of it can be used. */
struct cpuid_feature {
  unsigned cpuid[4];
  unsigned active[4];
};

const struct cpuid_feature *__x86_get_cpuid_feature_leaf(unsigned leaf);
const struct cpuid_feature *__x86_get_cpuid_feature_leaf(unsigned leaf) {
  static struct cpuid_feature all[2];
  static const unsigned functions[2] = {1, 0x80000001};
  static const struct cpuid_feature none;
  /* glibc's order is 1, 7, 0x80000001. */
  int i = leaf == 0 ? 0 : leaf == 2 ? 1 : -1;
  unsigned found[4];
  if (i < 0 || !__get_cpuid(functions[i], &found[0], &found[1], &found[2], &found[3])) {
    return &none;
  }
  for (int k = 0; k < 4; k++) {
    all[i].cpuid[k] = all[i].active[k] = found[k];
  }
  return &all[i];
}

ssize_t __write(int file, const void *from, size_t n);
ssize_t __write(int file, const void *from, size_t n) {
  return write(file, from, n);
}
