/* Loads the library by its file, as a program over musl does, and answers a link against a base: the wheel for musl, without Python. */
#include "irikit.h"

#include <dlfcn.h>
#include <stdio.h>
#include <string.h>

int main(int argc, char **argv) {
  char out[1024];
  size_t detail = 0;
  void *library = argc == 4 ? dlopen(argv[1], RTLD_NOW) : NULL;
  if (library == NULL) {
    return printf("%s\n", argc == 4 ? dlerror() : "usage: musl_library LIBRARY BASE LINK"), 2;
  }
  __typeof__(irikit_canonical) *canonical;
  *(void **)&canonical = dlsym(library, "irikit_canonical");
  if (canonical == NULL) {
    return printf("%s\n", dlerror()), 2;
  }
  uint8_t status = canonical(IRIKIT_URI, IRIKIT_NORMAL, argv[2], strlen(argv[2]), argv[3], strlen(argv[3]), out, sizeof out, &detail);
  printf("%.*s\n", (int)detail, out);
  return status;
}
