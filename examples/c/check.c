/* check ROWS [TURNS]: the rows of a file of grammars, bases, references and answers; a buffer of each size; empty and NULL
 * pieces; eight threads, each so many times over the rows (2000). Names each row that fails. */
#define _GNU_SOURCE
#include "check.h"
#include <pthread.h>

#define THREADS 8
#define MOST_ROWS 1000

struct row {
    uint32_t grammar;
    const char *base, *reference, *answer;
};

static struct row rows[MOST_ROWS];
static size_t count, turns = 2000;

static void read_rows(const char *name) {
    FILE *file = fopen(name, "r");
    char *line = NULL;
    size_t room = 0;
    if (!file) {
        perror(name);
        exit(2);
    }
    while (count < MOST_ROWS && getline(&line, &room, file) > 0) {
        char *rest = line, *grammar = strsep(&rest, "\t");
        rows[count].grammar = strcmp(grammar, "iri") ? IRIKIT_URI : IRIKIT_IRI;
        rows[count].base = strsep(&rest, "\t");
        rows[count].reference = strsep(&rest, "\t");
        rows[count].answer = strsep(&rest, "\n");
        count++;
        line = NULL;
        room = 0;
    }
    fclose(file);
}

/* The answer of the program to a row. */
static void answer_of(const struct row *row, char *answer, size_t size) {
    char out[256];
    size_t detail;
    uint8_t status = irikit_canonical(row->grammar, IRIKIT_NORMAL, row->base, strlen(row->base), row->reference,
                                      strlen(row->reference), out, sizeof out, &detail);
    const char *word = status == IRIKIT_OK ? "ok" : status == IRIKIT_BAD_BASE ? "base" : "bad";
    if (status != IRIKIT_OK)
        irikit_fault_words(detail, out, sizeof out, &detail);
    snprintf(answer, size, "%s %.*s", word, (int)detail, out);
}

static size_t check_rows(void) {
    size_t failed = 0;
    for (size_t i = 0; i < count; i++) {
        char answer[300];
        answer_of(&rows[i], answer, sizeof answer);
        if (strcmp(answer, rows[i].answer)) {
            failed++;
            printf("FAILED %s against %s: wanted %s, got %s\n", rows[i].reference, rows[i].base, rows[i].answer, answer);
        }
    }
    return failed;
}

static void *check_often(void *unused) {
    size_t failed = 0;
    (void)unused;
    for (size_t i = 0; i < turns; i++)
        failed += check_rows();
    return (void *)failed;
}

/* A call that writes a text of a row, by a number. */
static uint8_t write_text(int call, const struct row *row, char *out, size_t size, size_t *detail) {
    const char *reference = row->reference;
    if (call == 0)
        return irikit_canonical(row->grammar, IRIKIT_NORMAL, row->base, strlen(row->base), reference, strlen(reference), out,
                                size, detail);
    if (call == 1)
        return irikit_map_to_uri(reference, strlen(reference), out, size, detail);
    return irikit_fault_words(IRIKIT_INVALID_SCHEME + (row - rows), out, size, detail);
}

/* A buffer of each size up to two more than is wanted, which the text fills as far as it goes; the bytes after it stay. */
static size_t check_sizes(const struct row *row, int call) {
    size_t failed = 0, len = 0;
    uint8_t whole = write_text(call, row, NULL, 0, &len);
    int has_text = whole == IRIKIT_OK || whole == IRIKIT_SHORT;
    len = has_text ? len : 0;
    char *text = malloc(len + 2), *out = malloc(len + 2);
    for (size_t size = len + 2; size-- > 0;) {
        size_t detail = 9;
        memset(out, '.', len + 2);
        uint8_t status = write_text(call, row, out, size, &detail);
        if (size == len + 1)
            memcpy(text, out, len + 2);
        failed += wrong(status == (!has_text ? whole : size < len ? IRIKIT_SHORT : IRIKIT_OK), "the status of a size");
        failed += wrong(!has_text || detail == len, "the length that is wanted");
        failed += wrong(is_over(out, size, text, len, len + 2), "the text as far as it goes, and nothing after it");
    }
    free(text);
    free(out);
    return failed;
}

static size_t check_empty(void) {
    size_t failed = 0, detail = 9;
    char out[16];
    struct irikit_parts parts;
    failed += wrong(irikit_canonical(IRIKIT_URI, IRIKIT_NORMAL, "a:", 2, NULL, 0, out, sizeof out, &detail) == IRIKIT_OK && detail == 2,
                        "NULL as a reference");
    failed += wrong(irikit_canonical(IRIKIT_URI, IRIKIT_NORMAL, "a:", 2, "", 0, NULL, 0, &detail) == IRIKIT_SHORT && detail == 2,
                        "NULL as a buffer");
    failed += wrong(irikit_canonical(IRIKIT_URI, IRIKIT_NORMAL, NULL, 0, "", 0, out, sizeof out, &detail) == IRIKIT_BAD_BASE
                        && detail == IRIKIT_UNEXPECTED_RELATIVE, "NULL as a base");
    failed += wrong(irikit_canonical(IRIKIT_URI, IRIKIT_PRESERVING, "a:", 2, "", 0, out, sizeof out, &detail) == IRIKIT_UNKNOWN && detail == 0,
                        "a mode that no canonical text has");
    failed += wrong(irikit_canonical(IRIKIT_URI, IRIKIT_BY_SCHEME, "ws://a:80", 9,
                        "", 0, out, sizeof out, &detail) == IRIKIT_OK && detail == 7
                        && !memcmp(out, "ws://a/", 7), "a default port");
    failed += wrong(irikit_validate(IRIKIT_IRI, IRIKIT_REFERENCE, NULL, 0, &detail) == IRIKIT_OK && detail == 0, "NULL is a reference");
    failed += wrong(irikit_validate(IRIKIT_IRI, IRIKIT_WITH_SCHEME, "", 0, &detail) == IRIKIT_BAD_TEXT, "an empty text is no URI");
    failed += wrong(irikit_is_normalized(IRIKIT_URI, IRIKIT_NORMAL, NULL, 0, &detail) == IRIKIT_BAD_TEXT, "NULL is no URI");
    failed += wrong(irikit_map_to_uri(NULL, 0, NULL, 0, &detail) == IRIKIT_OK && detail == 0, "NULL is mapped to nothing");
    failed += wrong(irikit_fault_words(IRIKIT_INVALID_UTF8 + 1, out, sizeof out, &detail) == IRIKIT_UNKNOWN && detail == 0, "a fault that is none");
    failed += wrong(irikit_split(IRIKIT_URI, NULL, 0, &parts, &detail) == IRIKIT_OK && parts.path.offset == 0 && parts.path.len == 0
                        && parts.scheme.offset == IRIKIT_NOWHERE && parts.host.offset == IRIKIT_NOWHERE,
                                            "the parts of NULL");
    return failed;
}

/* A text that is mapped, in a buffer of each size; and modes that it hasn't. */
static size_t check_to_uri(void) {
    static const char *wanted = "a:/%C3%A9b%C3%A9";
    static const uint32_t others[] = {0, IRIKIT_PRESERVING, IRIKIT_IRI, IRIKIT_NORMAL + 256, IRIKIT_NORMAL + 65536};
    char out[24];
    size_t failed = 0, detail = 9;
    for (size_t size = 0; size < sizeof out; size++) {
        memset(out, '.', sizeof out);
        uint8_t status = irikit_canonical_to_uri(IRIKIT_NORMAL, "a:/", 3, "\xC3\xA9" "b\xC3\xA9", 5, out, size, &detail);
        failed += wrong(status == (size < 16 ? IRIKIT_SHORT : IRIKIT_OK) && detail == 16 && is_over(out, size, wanted, 16, sizeof out), "a mapped text");
    }
    memset(out, '.', sizeof out);
    for (int i = 0; i < 5; i++)
        failed += wrong(irikit_canonical_to_uri(others[i], "a:", 2, "b", 1, out, sizeof out, &detail) == IRIKIT_UNKNOWN && detail == 0
                            && is_over(out, 0, "", 0, sizeof out), "a mode that no mapped text has");
    failed += wrong(irikit_canonical_to_uri(IRIKIT_NORMAL, NULL, 0, "%", 1, out, sizeof out, &detail) == IRIKIT_BAD_BASE
                        && detail == IRIKIT_UNEXPECTED_RELATIVE, "NULL as the base of a mapped text");
    return failed;
}

/* The example of RFC 3986 section 3, whose parts stand in the order of the struct's fields below. */
static size_t check_parts(void) {
    const char *text = "foo://u@example.com:8042/over/there?name=ferret#nose";
    const char *wanted[] = {"foo", "u@example.com:8042", "/over/there", "name=ferret", "nose", "u", "example.com", "8042"};
    struct irikit_parts parts;
    size_t failed = 0, detail;
    failed += wrong(irikit_split(IRIKIT_URI, text, strlen(text), &parts, &detail) == IRIKIT_OK, "the status of a split");
    const struct irikit_slot *slot = &parts.scheme;
    for (int i = 0; i < 8; i++)
        failed += wrong(slot[i].len == strlen(wanted[i]) && !memcmp(text + slot[i].offset, wanted[i], slot[i].len),
                            wanted[i]);
    return failed;
}

/* Texts whose first fault is in one part, which the grammar of RFC 3986 section 3 doesn't take. */
static size_t check_faulty(void) {
    static const struct {
        uint32_t kind;
        const char *text;
        size_t fault, offset, len;
    } texts[] = {
        {IRIKIT_WITH_SCHEME, "1a:b", IRIKIT_INVALID_SCHEME, 0, 2},
        {IRIKIT_WITH_SCHEME, "a/b", IRIKIT_UNEXPECTED_RELATIVE, 0, 0},
        {IRIKIT_REFERENCE, "//u u@h/", IRIKIT_INVALID_USERINFO, 2, 3},
        {IRIKIT_REFERENCE, "s://[::1:8/", IRIKIT_INVALID_HOST, 4, 4},
        {IRIKIT_REFERENCE, "s:/a b?c", IRIKIT_INVALID_PATH, 2, 4},
        {IRIKIT_RELATIVE, "a:b", IRIKIT_INVALID_PATH, 0, 3},
        {IRIKIT_REFERENCE, "?%#", IRIKIT_INVALID_QUERY, 1, 1},
        {IRIKIT_REFERENCE, "a#b#", IRIKIT_INVALID_FRAGMENT, 2, 2},
        {IRIKIT_ABSOLUTE, "s:a#b", IRIKIT_UNEXPECTED_FRAGMENT, 4, 1},
        {IRIKIT_REFERENCE, "a\xFF" "b", IRIKIT_INVALID_UTF8, 1, 2},
    };
    size_t failed = 0;
    for (size_t i = 0; i < sizeof texts / sizeof *texts; i++) {
        struct irikit_slot part = {9, 9};
        size_t detail = 99;
        size_t len = strlen(texts[i].text);
        uint8_t status = irikit_validate(IRIKIT_URI, texts[i].kind, texts[i].text, len, &detail);
        failed += wrong(status == IRIKIT_BAD_TEXT && detail == texts[i].fault, texts[i].text);
        status = irikit_fault_part(texts[i].kind, texts[i].fault, texts[i].text, len, &part, &detail);
        failed += wrong(status == IRIKIT_OK && !detail && part.offset == texts[i].offset && part.len == texts[i].len, texts[i].text);
    }
    return failed;
}

int main(int argc, char **argv) {
    pthread_t threads[THREADS];
    size_t failed = 0;
    if (argc < 2)
        return 2;
    read_rows(argv[1]);
    turns = argc > 2 ? strtoul(argv[2], NULL, 10) : turns;
    failed += check_rows() + check_empty() + check_to_uri() + check_parts() + check_faulty();
    for (size_t i = 0; i < 3 * count; i++)
        failed += check_sizes(&rows[i / 3], i % 3);
    for (int i = 0; i < THREADS; i++)
        failed += wrong(!pthread_create(&threads[i], NULL, check_often, NULL), "a thread");
    for (int i = 0; i < THREADS; i++) {
        void *detail;
        pthread_join(threads[i], &detail);
        failed += (size_t)detail;
    }
    printf("C: %zu rows, %zu failed\n", count, failed);
    return failed || !count;
}
