/* malloc and free of a static program over musl, by the linker's --wrap. Where a few blocks are taken and freed by turns musl gives pages
 * back to the system and asks for them again, and documents in JSON take eight times as long (2026-12-02: a hundred thousand 1.45 s of
 * processor time against 0.17). So some freed blocks of each size are held, and taken again. None is made larger than it is asked for: by
 * the sizes of the lists a register took 1.15 bytes of memory for a byte in place of 1.09. Nothing proves it; tests/packages/system asks
 * it. */
#include <malloc.h>
#include <stddef.h>

void *__real_malloc(size_t n);
void __real_free(void *p);
void *__wrap_malloc(size_t n);
void __wrap_free(void *p);

enum { LARGEST = 131072, LISTS = 48, HELD = 8 };

struct block {
  void *at;
  size_t size;
};

/* Blocks that were freed, by their size: to 16, 32 and so on to 128 bytes, then to four sizes up to each next power of two. Of those in a
 * full list the next one gives its place to a new one. */
static struct list {
  size_t count, next;
  struct block blocks[HELD];
} lists[LISTS];

/* The list for n bytes, 1 to LARGEST. */
static struct list *list_for(size_t n) {
  unsigned shift = 4;
  while ((n - 1) >> shift > 7) {
    shift++;
  }
  return lists + (shift - 4) * 4 + ((n - 1) >> shift);
}

/* The block that was freed last of those that are large enough; the last one comes to its place. */
void *__wrap_malloc(size_t n) {
  struct list *list = n != 0 && n <= LARGEST ? list_for(n) : NULL;
  for (size_t i = list != NULL ? list->count : 0; i-- != 0;) {
    if (list->blocks[i].size >= n) {
      void *at = list->blocks[i].at;
      list->blocks[i] = list->blocks[--list->count];
      return at;
    }
  }
  return __real_malloc(n);
}

void __wrap_free(void *p) {
  size_t size = malloc_usable_size(p);
  if (size == 0 || size > LARGEST) {
    __real_free(p);
    return;
  }
  struct list *list = list_for(size);
  size_t place = list->count;
  if (place < HELD) {
    list->count++;
  } else {
    place = list->next++ % HELD;
    __real_free(list->blocks[place].at);
  }
  list->blocks[place] = (struct block){p, size};
}
