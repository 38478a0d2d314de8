/* canon uri|iri: reads a base line and reference lines, and answers each reference line as `irikit canon` does. */
#define _GNU_SOURCE
#include <irikit.h>
#include <stdio.h>
#include <stdlib.h>
#include <string.h>

/* Takes the next line without its LF and one CR before it. */
static int next_line(char **line, size_t *room, size_t *len) {
    ssize_t got = getline(line, room, stdin);
    if (got < 0)
        return 0;
    *len = (size_t)got;
    if (*len > 0 && (*line)[*len - 1] == '\n')
        --*len;
    if (*len > 0 && (*line)[*len - 1] == '\r')
        --*len;
    return 1;
}

static void refuse(const char *what, size_t fault) {
    char words[64];
    size_t len;
    irikit_fault_words(fault, words, sizeof words, &len);
    printf("%s %.*s\n", what, (int)len, words);
}

int main(int argc, char **argv) {
    if (argc != 2 || (strcmp(argv[1], "uri") && strcmp(argv[1], "iri")))
        return 2;
    uint32_t grammar = strcmp(argv[1], "iri") ? IRIKIT_URI : IRIKIT_IRI;
    char *base = NULL, *line = NULL, *out = NULL;
    size_t base_room = 0, room = 0, size = 0, base_len = 0, len, detail;
    int bad = 0;
    next_line(&base, &base_room, &base_len);
    if (irikit_validate(grammar, IRIKIT_ABSOLUTE, base, base_len, &detail) != IRIKIT_OK) {
        refuse("base", detail);
        return 3;
    }
    while (next_line(&line, &room, &len)) {
        if (size < base_len + len + 3) {
            size = 2 * (base_len + len + 3);
            free(out);
            if (!(out = malloc(size)))
                return 6;
        }
        if (irikit_canonical(grammar, IRIKIT_NORMAL, base, base_len, line, len, out, size, &detail) == IRIKIT_OK) {
            fputs("ok ", stdout);
            fwrite(out, 1, detail, stdout);
            putchar('\n');
        } else {
            refuse("bad", detail);
            bad = 1;
        }
    }
    return ferror(stdin) ? 4 : fflush(stdout) ? 5 : bad;
}
