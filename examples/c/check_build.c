/* check_build: texts built from parts, each in a buffer of each size; parts that make none; numbers that stand for nothing. Names each that fails. */
#include "check.h"

#define MOST 8
#define P(part, text) {IRIKIT_##part, {text, sizeof text - 1}}

/* Parts, and what they make: a text, or a status and its detail. */
struct row {
    uint32_t grammar, kind;
    struct irikit_given parts[MOST];
    size_t count;
    const char *wanted;
    uint8_t status;
    size_t detail;
};

static const struct row rows[] = {
    /* RFC 3986 sections 1.1.2 and 3. */
    {IRIKIT_URI, IRIKIT_WITH_SCHEME, {P(SCHEME, "foo"), P(HOST, "example.com"), P(PORT, "8042"), P(PATH, "/over/there"),
      P(QUERY, "name=ferret"), P(FRAGMENT, "nose")}, 6, "foo://example.com:8042/over/there?name=ferret#nose", 0, 0},
    {IRIKIT_URI, IRIKIT_WITH_SCHEME, {P(PATH, "example:animal:ferret:nose"), P(SCHEME, "urn")}, 2, "urn:example:animal:ferret:nose", 0, 0},
    {IRIKIT_URI, IRIKIT_ABSOLUTE, {P(SCHEME, "ldap"), P(HOST, "[2001:db8::7]"), P(PATH, "/c=GB"), P(QUERY, "objectClass?one")}, 4,
     "ldap://[2001:db8::7]/c=GB?objectClass?one", 0, 0},
    {IRIKIT_URI, IRIKIT_RELATIVE, {P(PATH, "g"), P(QUERY, "y")}, 2, "g?y", 0, 0},
    {IRIKIT_URI, IRIKIT_REFERENCE, {P(USERINFO, "u:p"), P(PATH, "")}, 2, "//u:p@", 0, 0},
    {IRIKIT_URI, IRIKIT_REFERENCE, {P(PORT, "")}, 1, "//:", 0, 0},
    {IRIKIT_URI, IRIKIT_REFERENCE, {P(HOST, "h"), P(PATH, "//g")}, 2, "//h//g", 0, 0},
    {IRIKIT_URI, IRIKIT_REFERENCE, {P(QUERY, ""), P(FRAGMENT, "")}, 2, "?#", 0, 0},
    {IRIKIT_IRI, IRIKIT_WITH_SCHEME, {P(SCHEME, "urn"), P(PATH, "ros\xc3\xa9")}, 2, "urn:ros\xc3\xa9", 0, 0},
    {IRIKIT_URI, IRIKIT_REFERENCE, {P(PATH, " "), P(PATH, "a"), P(PATH, "b")}, 3, "b", 0, 0},
    {IRIKIT_URI, IRIKIT_REFERENCE, {P(PATH, "")}, 0, "", 0, 0},
    /* The first faulty part, what the kind refuses, and the rules of a path (section 3.3). */
    {IRIKIT_URI, IRIKIT_REFERENCE, {P(FRAGMENT, "#"), P(SCHEME, "1")}, 2, NULL, IRIKIT_BAD_PART, IRIKIT_INVALID_SCHEME},
    {IRIKIT_URI, IRIKIT_REFERENCE, {P(HOST, "["), P(USERINFO, "@")}, 2, NULL, IRIKIT_BAD_PART, IRIKIT_INVALID_USERINFO},
    {IRIKIT_URI, IRIKIT_REFERENCE, {P(HOST, "["), P(PORT, "a")}, 2, NULL, IRIKIT_BAD_PART, IRIKIT_INVALID_HOST},
    {IRIKIT_URI, IRIKIT_REFERENCE, {P(PORT, "a"), P(PATH, "?")}, 2, NULL, IRIKIT_BAD_PART, IRIKIT_INVALID_PORT},
    {IRIKIT_URI, IRIKIT_REFERENCE, {P(PATH, "?"), P(QUERY, "#")}, 2, NULL, IRIKIT_BAD_PART, IRIKIT_INVALID_PATH},
    {IRIKIT_URI, IRIKIT_REFERENCE, {P(QUERY, "#"), P(FRAGMENT, "#")}, 2, NULL, IRIKIT_BAD_PART, IRIKIT_INVALID_QUERY},
    {IRIKIT_URI, IRIKIT_WITH_SCHEME, {P(FRAGMENT, "#")}, 1, NULL, IRIKIT_BAD_PART, IRIKIT_INVALID_FRAGMENT},
    {IRIKIT_URI, IRIKIT_WITH_SCHEME, {P(PATH, "//a")}, 1, NULL, IRIKIT_BAD_PART, IRIKIT_UNEXPECTED_RELATIVE},
    {IRIKIT_URI, IRIKIT_ABSOLUTE, {P(SCHEME, "a"), P(FRAGMENT, "")}, 2, NULL, IRIKIT_BAD_PART, IRIKIT_UNEXPECTED_FRAGMENT},
    {IRIKIT_URI, IRIKIT_RELATIVE, {P(SCHEME, "a")}, 1, NULL, IRIKIT_BAD_PART, IRIKIT_INVALID_SCHEME},
    {IRIKIT_URI, IRIKIT_REFERENCE, {P(PATH, "//a")}, 1, NULL, IRIKIT_BAD_PART, IRIKIT_INVALID_PATH},
    {IRIKIT_URI, IRIKIT_REFERENCE, {P(PATH, "a:b")}, 1, NULL, IRIKIT_BAD_PART, IRIKIT_INVALID_PATH},
    {IRIKIT_URI, IRIKIT_REFERENCE, {P(HOST, "h"), P(PATH, "a")}, 2, NULL, IRIKIT_BAD_PART, IRIKIT_INVALID_PATH},
    {IRIKIT_URI, IRIKIT_WITH_SCHEME, {P(SCHEME, "urn"), P(PATH, "ros\xc3\xa9")}, 2, NULL, IRIKIT_BAD_PART, IRIKIT_INVALID_PATH},
    {IRIKIT_URI, IRIKIT_REFERENCE, {P(SCHEME, "1"), P(QUERY, "\xff"), P(QUERY, "")}, 3, NULL, IRIKIT_BAD_PART, IRIKIT_INVALID_UTF8},
    {IRIKIT_NORMAL, IRIKIT_REFERENCE, {P(PATH, "a")}, 1, NULL, IRIKIT_UNKNOWN, 0},
    {IRIKIT_URI, IRIKIT_IN_REG_NAME, {P(PATH, "a")}, 1, NULL, IRIKIT_UNKNOWN, 0},
    {IRIKIT_URI, IRIKIT_REFERENCE, {{IRIKIT_FRAGMENT + 1, {"\xff", 1}}}, 1, NULL, IRIKIT_UNKNOWN, 0},
};

static size_t check_row(const struct row *row, size_t number) {
    size_t failed = 0, len = row->wanted ? strlen(row->wanted) : 0;
    char name[32];
    snprintf(name, sizeof name, "row %zu", number);
    for (size_t size = 0; size <= len + 1; size++) {
        char out[64];
        size_t detail = 9;
        memset(out, '.', sizeof out);
        uint8_t status = irikit_build(row->grammar, row->kind, row->parts, row->count, out, size, &detail);
        if (row->wanted)
            failed += wrong(status == (size < len ? IRIKIT_SHORT : IRIKIT_OK) && detail == len
                                && is_over(out, size, row->wanted, len, sizeof out), name);
        else
            failed += wrong(status == row->status && detail == row->detail && is_over(out, 0, "", 0, sizeof out), name);
    }
    return failed;
}

int main(void) {
    size_t failed = 0;
    for (size_t i = 0; i < sizeof rows / sizeof *rows; i++)
        failed += check_row(&rows[i], i);
    printf("C: %zu texts from parts, %zu failed\n", sizeof rows / sizeof *rows, failed);
    return failed != 0;
}
