/* check_lines: many lines in one call, against one base and each against its own page, in buffers of each size; pieces that are empty; numbers that stand for nothing.
 * Names each that fails. */
#include "check.h"

#define ROOM 1024

static const char *base = "http://a/b/c/d;p?q";
static const char *lines = "../g\n%4\r\n\ng:80\n//a:80\nno end";
/* The same, and on the last two lines another page. */
static const char *pairs = "http://a/b/c/d;p?q\t../g\nhttp://a/b/c/d;p?q\t%4\r\nhttp://a/b/c/d;p?q\t\nhttp://b/\tg:80\nhttp://b/\t//a:80\nno end";
static const char *answers[] = {"ok http://a/b/g\n", "bad invalid path\n", "ok http://a/b/c/d;p?q\n", "ok g:80\n",
                    "ok http://a:80\n"};
#define LINES 5
static const size_t ends_of_lines[LINES] = {5, 9, 10, 15, 22}, ends_of_pairs[LINES] = {24, 47, 67, 82, 99};

static uint8_t call(uint32_t grammar, uint32_t mode, const char *text, char *out, size_t size, size_t *consumed,
                    size_t *detail) {
    return irikit_canonical_lines(grammar, mode, base, strlen(base), text, strlen(text), out, size, consumed, detail);
}

/* The call for the text of lines or of pairs, or for what is left of it. */
static uint8_t answer(int paired, size_t at, char *out, size_t size, size_t *consumed, size_t *detail) {
    if (!paired) return call(IRIKIT_URI, IRIKIT_NORMAL, lines + at, out, size, consumed, detail);
    return irikit_canonical_pairs(IRIKIT_URI, IRIKIT_NORMAL, pairs + at, strlen(pairs + at), out, size, consumed, detail);
}

/* The answers that have room stand whole and are counted; the next is cut off. */
static size_t check_sizes(int paired) {
    const size_t *ends = paired ? ends_of_pairs : ends_of_lines;
    char whole[ROOM] = "";
    size_t failed = 0;
    for (int i = 0; i < LINES; i++)
        strcat(whole, answers[i]);
    for (size_t size = 0; size <= strlen(whole) + 2; size++) {
        char out[ROOM];
        size_t consumed = 9, detail = 9, done = 0, written = 0;
        while (done < LINES && written + strlen(answers[done]) <= size)
            written += strlen(answers[done++]);
        memset(out, '.', sizeof out);
        uint8_t status = answer(paired, 0, out, size, &consumed, &detail);
        failed += wrong(status == (done < LINES ? IRIKIT_SHORT : IRIKIT_OK), "the status of a size");
        failed += wrong(detail == written && consumed == (done ? ends[done - 1] : 0), "the detail");
        failed += wrong(is_over(out, size, whole, strlen(whole), sizeof out), "what stands in the buffer");
    }
    return failed;
}

/* Calls that go on where the one before them stopped give what one call gives. */
static size_t check_going_on(int paired) {
    const size_t *ends = paired ? ends_of_pairs : ends_of_lines;
    char whole[ROOM] = "", wanted[ROOM] = "", out[24];
    size_t failed = 0, at = 0, consumed, detail;
    uint8_t status;
    for (int i = 0; i < LINES; i++)
        strcat(wanted, answers[i]);
    do {
        status = answer(paired, at, out, sizeof out, &consumed, &detail);
        strncat(whole, out, detail);
        at += consumed;
    } while (status == IRIKIT_SHORT && consumed);
    failed += wrong(status == IRIKIT_OK && at == ends[LINES - 1], "the end of calls that go on");
    failed += wrong(!strcmp(whole, wanted), "the answers of calls that go on");
    return failed;
}

static size_t check_others(void) {
    char out[64];
    size_t failed = 0, consumed = 9, detail = 9;
    memset(out, '.', sizeof out);
    failed += wrong(call(IRIKIT_NORMAL, IRIKIT_NORMAL, lines, out, 64, &consumed, &detail) == IRIKIT_UNKNOWN && !consumed && !detail,
                        "a grammar that is none");
    consumed = detail = 9;
    failed += wrong(call(IRIKIT_URI, IRIKIT_PRESERVING, lines, out, 64, &consumed, &detail) == IRIKIT_UNKNOWN && !consumed && !detail,
                        "a mode that no canonical text has");
    consumed = 9;
    failed += wrong(irikit_canonical_lines(IRIKIT_URI, IRIKIT_NORMAL, "a", 1, lines, 5, out, 64, &consumed, &detail) == IRIKIT_BAD_BASE
                        && !consumed
                        && detail == IRIKIT_UNEXPECTED_RELATIVE, "a base that is none");
    failed += wrong(is_over(out, 0, "", 0, sizeof out), "a buffer that stays");
    failed += wrong(irikit_canonical_lines(IRIKIT_URI, IRIKIT_NORMAL, "a:", 2, NULL, 0, NULL, 0, &consumed, &detail) == IRIKIT_OK
                        && !consumed && !detail,
                    "NULL as lines");
    failed += wrong(irikit_canonical_lines(IRIKIT_URI, IRIKIT_NORMAL, "a:", 2, "\n", 1, NULL, 0, &consumed, &detail) == IRIKIT_SHORT
                        && !consumed && !detail,
                    "NULL as a buffer");
    failed += wrong(call(IRIKIT_URI, IRIKIT_BY_SCHEME, "//a:80\n//a:81\n", out, 64, &consumed, &detail) == IRIKIT_OK && detail == 29
                        && !memcmp(out, "ok http://a/\nok http://a:81/\n", 29), "scheme rules");
    return failed;
}

static size_t check_pairs(void) {
    static const char *refused = "a\tb\na:\na:\tb\tc\n", *answered = "base expected an absolute IRI but got a relative IRI\nbad line\nbad invalid path\n";
    char out[96];
    size_t failed = 0, consumed = 9, detail = 9;
    failed += wrong(irikit_canonical_pairs(IRIKIT_IRI, IRIKIT_NORMAL, refused, strlen(refused), out, sizeof out, &consumed, &detail) == IRIKIT_OK
                        && consumed == strlen(refused) && detail == strlen(answered) && !memcmp(out, answered, detail),
                    "pages and links that are refused");
    failed += wrong(irikit_canonical_pairs(IRIKIT_URI, IRIKIT_BY_SCHEME, "a:\t//b\nhttp://a:80\t\n", 21, out, sizeof out, &consumed, &detail) == IRIKIT_OK
                        && detail == 22 && !memcmp(out, "ok a://b\nok http://a/\n", 22), "scheme rules of pairs");
    failed += wrong(irikit_canonical_pairs(IRIKIT_URI, IRIKIT_NORMAL, NULL, 0, NULL, 0, &consumed, &detail) == IRIKIT_OK && !consumed && !detail,
                    "NULL as pairs");
    return failed;
}

int main(void) {
    size_t failed = check_others() + check_pairs();
    for (int paired = 0; paired < 2; paired++)
        failed += check_sizes(paired) + check_going_on(paired);
    printf("C: lines, %zu failed\n", failed);
    return failed != 0;
}
