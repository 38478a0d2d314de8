/* Loaded before a program (LD_PRELOAD), for tests/devices/allocations and tests/devices/refused: refuses the allocation whose number
 * REFUSED_ALLOCATION is, from 1, and writes at the program's end into the file COUNTED_ALLOCATIONS how many there were. */
#include <errno.h>
#include <stdio.h>
#include <stdlib.h>

extern void *__libc_malloc(size_t);
extern void *__libc_calloc(size_t, size_t);
extern void *__libc_realloc(void *, size_t);
extern void *__libc_memalign(size_t, size_t);

static int counts;
static unsigned long long count, refused;

static int is_refused(void)
{
	if (!counts || ++count != refused)
		return 0;
	errno = ENOMEM;
	return 1;
}

void *malloc(size_t size)
{
	return is_refused() ? NULL : __libc_malloc(size);
}

void *calloc(size_t number, size_t size)
{
	return is_refused() ? NULL : __libc_calloc(number, size);
}

void *realloc(void *block, size_t size)
{
	return is_refused() ? NULL : __libc_realloc(block, size);
}

void *aligned_alloc(size_t alignment, size_t size)
{
	return is_refused() ? NULL : __libc_memalign(alignment, size);
}

int posix_memalign(void **to, size_t alignment, size_t size)
{
	void *block = is_refused() ? NULL : __libc_memalign(alignment, size);
	if (!block)
		return ENOMEM;
	*to = block;
	return 0;
}

__attribute__((constructor)) static void begin(void)
{
	const char *number = getenv("REFUSED_ALLOCATION");
	refused = number ? strtoull(number, NULL, 10) : 0;
	counts = 1;
}

__attribute__((destructor)) static void end(void)
{
	const char *name = getenv("COUNTED_ALLOCATIONS");
	counts = 0;
	FILE *file = name ? fopen(name, "w") : NULL;
	if (file) {
		fprintf(file, "%llu\n", count);
		fclose(file);
	}
}
