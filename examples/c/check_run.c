/* check_run: the program's run over memory, in buffers of each size, and words that are no command. Names each that
 * fails. */
#include "check.h"

static const char *input = "http://a/b\n../c\n%\n\n", *output = "ok http://a/c\nbad invalid path\nok http://a/b\n";

/* Where the output has no room, what stands in the buffer is a prefix of it, of out_len bytes. */
static size_t check_sizes(void) {
    size_t failed = 0, len = strlen(output);
    for (size_t size = 0; size <= len + 2; size++) {
        char out[64];
        size_t out_len = 99;
        memset(out, '.', sizeof out);
        uint8_t status = irikit_run("canon uri", 9, input, strlen(input), out, size, &out_len);
        failed += wrong(status == (size < len ? IRIKIT_RUN_SHORT : IRIKIT_RUN_BAD_ANSWER), "the status of a size");
        failed += wrong(out_len <= size && (size < len || out_len == len) && is_over(out, out_len, output, len, sizeof out),
                            "the output");
    }
    return failed;
}

static size_t check_words(const char *words, const char *text, uint8_t status, const char *wanted) {
    char out[4096];
    size_t out_len = 99;
    memset(out, '.', sizeof out);
    uint8_t is = irikit_run(words, strlen(words), text, strlen(text), out, sizeof out, &out_len);
    return wrong(is == status && out_len == strlen(wanted) && is_over(out, sizeof out, wanted, out_len, sizeof out), words);
}

int main(void) {
    size_t failed = check_sizes(), out_len = 99;
    failed += check_words("", "", IRIKIT_RUN_NO_COMMAND, "") + check_words("canon  uri", "a:\n", IRIKIT_RUN_NO_COMMAND, "");
    failed += check_words("canon \xff", "a:\n", IRIKIT_RUN_NO_COMMAND, "");
    failed += check_words("canon uri", "a\n", IRIKIT_RUN_BAD_BASE,
                        "base expected an absolute IRI but got a relative IRI\n");
    failed += check_words("canon iri", "a:\n\xc3\xa9\n", IRIKIT_RUN_OK, "ok a:\xc3\xa9\n");
    failed += check_words("canon uri scheme", "http://a:80\n\n", IRIKIT_RUN_OK, "ok http://a/\n");
    failed += check_words("expand uri", "http://a/\ns q two words\nt s{?q}\n", IRIKIT_RUN_OK,
                        "ok http://a/s?q=two%20words\n");
    failed += wrong(irikit_run(NULL, 0, NULL, 0, NULL, 0, &out_len) == IRIKIT_RUN_NO_COMMAND && !out_len, "NULL");
    failed += wrong(irikit_run("canon uri", 9, NULL, 0, NULL, 0, &out_len) != IRIKIT_RUN_OK && !out_len, "NULL as an input");
    printf("C: runs, %zu failed\n", failed);
    return failed != 0;
}
