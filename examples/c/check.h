/* What the checks share. */
#include <irikit.h>
#include <stdio.h>
#include <stdlib.h>
#include <string.h>

/* 1 where it doesn't hold, which is said. */
static inline size_t wrong(int holds, const char *what) {
    if (!holds)
        printf("FAILED %s\n", what);
    return !holds;
}

/* Whether a buffer of this size in which `detail` bytes of a text of this length were to stand has its first bytes, and
 * after them dots as before. */
static inline int is_over(const char *out, size_t size, const char *text, size_t len, size_t room) {
    size_t prefix = size < len ? size : len;
    if (memcmp(out, text, prefix))
        return 0;
    for (size_t i = prefix; i < room; i++)
        if (out[i] != '.')
            return 0;
    return 1;
}
