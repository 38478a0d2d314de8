/* check_robots: the rules of a robots file for one crawler, in buffers of each size, and what they say of targets. Names each that
 * fails. */
#include "check.h"

static const char *file = "User-agent: *\nDisallow: /a\r\nAllow: /a/b # all\rUser-agent: other\nDisallow: /\n";
static const char *rules = "disallow /a\nallow /a/b\n";

static size_t check_sizes(void) {
    size_t failed = 0, len = strlen(rules);
    for (size_t size = 0; size <= len + 2; size++) {
        char out[64];
        size_t detail = 99;
        memset(out, '.', sizeof out);
        uint8_t status = irikit_robots_rules("bot", 3, file, strlen(file), out, size, &detail);
        failed += wrong(status == (size < len ? IRIKIT_SHORT : IRIKIT_OK) && detail == len, "the status of a size");
        failed += wrong(is_over(out, size, rules, len, sizeof out), "the rules");
    }
    return failed;
}

static size_t check_token(const char *token, uint8_t status, const char *wanted) {
    char out[64];
    size_t detail = 99;
    memset(out, '.', sizeof out);
    uint8_t is = irikit_robots_rules(token, strlen(token), file, strlen(file), out, sizeof out, &detail);
    return wrong(is == status && detail == strlen(wanted) && is_over(out, sizeof out, wanted, detail, sizeof out), token);
}

static size_t check_target(uint32_t grammar, const char *target, uint8_t status, size_t fault) {
    size_t detail = 99;
    uint8_t is = irikit_robots_allows(grammar, rules, strlen(rules), target, strlen(target), &detail);
    return wrong(is == status && detail == fault, target);
}

int main(void) {
    size_t failed = check_sizes(), detail = 99;
    failed += check_token("OTHER", IRIKIT_OK, "disallow /\n") + check_token("", IRIKIT_BAD_TOKEN, "");
    failed += check_token("bot/1", IRIKIT_BAD_TOKEN, "") + check_token("b\xff", IRIKIT_BAD_TOKEN, "");
    failed += check_target(IRIKIT_URI, "http://h/a", IRIKIT_DISALLOWED, 0) + check_target(IRIKIT_URI, "http://h/%61/b?c", IRIKIT_OK, 0);
    failed += check_target(IRIKIT_IRI, "http://h", IRIKIT_OK, 0) + check_target(IRIKIT_IRI, "a:/a\xc3\xa9", IRIKIT_DISALLOWED, 0);
    failed += check_target(IRIKIT_URI, "/a", IRIKIT_BAD_TEXT, IRIKIT_UNEXPECTED_RELATIVE) + check_target(IRIKIT_NORMAL, "a:", IRIKIT_UNKNOWN, 0);
    failed += wrong(irikit_robots_rules("bot", 3, NULL, 0, NULL, 0, &detail) == IRIKIT_OK && !detail, "NULL as a file");
    failed += wrong(irikit_robots_allows(IRIKIT_URI, NULL, 0, "a:", 2, &detail) == IRIKIT_OK && !detail, "NULL as rules");
    printf("C: robots files, %zu failed\n", failed);
    return failed != 0;
}
