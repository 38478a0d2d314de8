/* check_edits: resolution, targets, normal forms and the steps to them, encoding, decoding and edits, each in buffers of each
 * size; what is refused; numbers that stand for nothing; pieces that are NULL. Names each that fails. */
#include "check.h"

enum call { RESOLVE, TARGET, NORMALIZE, STEPS, ENCODE, DECODE, MASK, REPLACE_PASSWORD, REMOVE_FRAGMENT, SET_FRAGMENT, HOST, REG_NAME,
            REMOVE_PASSWORD };

/* A call with its numbers and texts, and what it answers: a text, or a status and its detail. */
struct row {
    enum call call;
    uint32_t grammar, place; /* of a normal form and of steps: the mode; 0 of a call without one */
    const char *text, *part, *wanted;
    uint8_t status;
    size_t detail;
};

static const struct row rows[] = {
    /* RFC 3986 sections 5.2.4, 5.4 and 6.2. */
    {RESOLVE, IRIKIT_URI, 0, "http://a/b/c/d;p?q", "../../../g", "http://a/g", 0, 0},
    {RESOLVE, IRIKIT_URI, 0, "HTTP://A/b%7ec", "#%7e", "HTTP://A/b%7ec#%7e", 0, 0},
    {RESOLVE, IRIKIT_URI, 0, "a", "%", NULL, IRIKIT_BAD_BASE, IRIKIT_UNEXPECTED_RELATIVE},
    {RESOLVE, IRIKIT_URI, 0, "a:", "%", NULL, IRIKIT_BAD_REFERENCE, IRIKIT_INVALID_PATH},
    {RESOLVE, IRIKIT_NORMAL, 0, "a:", "", NULL, IRIKIT_UNKNOWN, 0},
    {TARGET, IRIKIT_URI, 0, "http://a/b/c/d;p?q", "../../../g", "http://a/b/c/../../../g", 0, 0},
    {TARGET, IRIKIT_URI, 0, "HTTP://A", "b%7ec?#", "HTTP://A/b%7ec?#", 0, 0},
    {TARGET, IRIKIT_URI, 0, "a:/b/./c?q", "", "a:/b/./c?q", 0, 0},
    {TARGET, IRIKIT_IRI, 0, "a:b", "/../\xc3\xa9", "a:/../\xc3\xa9", 0, 0},
    {TARGET, IRIKIT_URI, 0, "a", "%", NULL, IRIKIT_BAD_BASE, IRIKIT_UNEXPECTED_RELATIVE},
    {TARGET, IRIKIT_URI, 0, "a:", "%", NULL, IRIKIT_BAD_REFERENCE, IRIKIT_INVALID_PATH},
    {TARGET, IRIKIT_NORMAL, 0, "a:", "", NULL, IRIKIT_UNKNOWN, 0},
    {NORMALIZE, IRIKIT_URI, IRIKIT_NORMAL, "eXAMPLE://a/./b/../b/%63/%7bfoo%7d", NULL, "example://a/b/c/%7Bfoo%7D", 0, 0},
    {NORMALIZE, IRIKIT_URI, IRIKIT_NORMAL, "http://example.com:80", NULL, "http://example.com:80", 0, 0},
    {NORMALIZE, IRIKIT_URI, IRIKIT_BY_SCHEME, "http://example.com:80", NULL, "http://example.com/", 0, 0},
    {NORMALIZE, IRIKIT_IRI, IRIKIT_NORMAL, "a:/..//b\xc3\xa9", NULL, "a:/.//b\xc3\xa9", 0, 0},
    {NORMALIZE, IRIKIT_URI, IRIKIT_NORMAL, "a", NULL, NULL, IRIKIT_BAD_TEXT, IRIKIT_UNEXPECTED_RELATIVE},
    {NORMALIZE, IRIKIT_URI, IRIKIT_PRESERVING, "a:b/../C%7e", NULL, "a:b/../C~", 0, 0},
    {NORMALIZE, IRIKIT_URI, IRIKIT_PRESERVING, "a:/b/../C%7e", NULL, "a:/C~", 0, 0},
    {NORMALIZE, IRIKIT_URI, IRIKIT_PRESERVING + 1, "a:", NULL, NULL, IRIKIT_UNKNOWN, 0},
    {STEPS, IRIKIT_URI, IRIKIT_NORMAL, "exAmple://a/./b/../b/%63/%7bfoo%7d", NULL,
     "scheme letter 2\ndecode path 10\nhex digit path 14\nhex digit path 20\ndot segments\n", 0, 0},
    {STEPS, IRIKIT_URI, IRIKIT_NORMAL, "http://U%7e@Host:?%7E#%7e%7f", NULL,
     "decode authority 1\nhost letter 3\nempty port\ndecode query 0\ndecode fragment 0\nhex digit fragment 3\n", 0, 0},
    {STEPS, IRIKIT_URI, IRIKIT_NORMAL, "http://example.com:80", NULL, "", 0, 0},
    {STEPS, IRIKIT_URI, IRIKIT_BY_SCHEME, "http://example.com:80", NULL, "default port\nempty path\n", 0, 0},
    {STEPS, IRIKIT_URI, IRIKIT_BY_SCHEME, "http://example.com:", NULL, "empty port\nempty path\n", 0, 0},
    {STEPS, IRIKIT_URI, IRIKIT_BY_SCHEME, "example://example.com:80", NULL, "", 0, 0},
    {STEPS, IRIKIT_URI, IRIKIT_NORMAL, "a:/%c3%a9", NULL, "hex digit path 2\nhex digit path 5\n", 0, 0},
    {STEPS, IRIKIT_IRI, IRIKIT_NORMAL, "a:/%c3%a9", NULL, "decode path 1\n", 0, 0},
    {STEPS, IRIKIT_URI, IRIKIT_NORMAL, "a", NULL, NULL, IRIKIT_BAD_TEXT, IRIKIT_UNEXPECTED_RELATIVE},
    {STEPS, IRIKIT_URI, IRIKIT_PRESERVING, "a:", NULL, NULL, IRIKIT_UNKNOWN, 0},
    {STEPS, IRIKIT_NORMAL, IRIKIT_NORMAL, "a:", NULL, NULL, IRIKIT_UNKNOWN, 0},
    /* What each place keeps (RFC 3986 sections 2.2, 2.3, 3.2.1, 3.2.2, 3.3, 3.4 and 3.5). */
    {ENCODE, IRIKIT_URI, IRIKIT_IN_REG_NAME, "a-._~!$&'()*+,;=:@/?#[]% ", NULL, "a-._~!$&'()*+,;=%3A%40%2F%3F%23%5B%5D%25%20", 0, 0},
    {ENCODE, IRIKIT_URI, IRIKIT_IN_USER, "a-._~!$&'()*+,;=:@/?#[]% ", NULL, "a-._~!$&'()*+,;=%3A%40%2F%3F%23%5B%5D%25%20", 0, 0},
    {ENCODE, IRIKIT_URI, IRIKIT_IN_SEGMENT, "a-._~!$&'()*+,;=:@/?#[]% ", NULL, "a-._~!$&'()*+,;=:@%2F%3F%23%5B%5D%25%20", 0, 0},
    {ENCODE, IRIKIT_URI, IRIKIT_IN_PATH, "a-._~!$&'()*+,;=:@/?#[]% ", NULL, "a-._~!$&'()*+,;=:@/%3F%23%5B%5D%25%20", 0, 0},
    {ENCODE, IRIKIT_URI, IRIKIT_IN_QUERY, "a-._~!$&'()*+,;=:@/?#[]% ", NULL, "a-._~!$&'()*+,;=:@/?%23%5B%5D%25%20", 0, 0},
    {ENCODE, IRIKIT_URI, IRIKIT_IN_FRAGMENT, "a-._~!$&'()*+,;=:@/?#[]% ", NULL, "a-._~!$&'()*+,;=:@/?%23%5B%5D%25%20", 0, 0},
    {ENCODE, IRIKIT_URI, IRIKIT_ANYWHERE, "a-._~!:@", NULL, "a-._~%21%3A%40", 0, 0},
    {ENCODE, IRIKIT_URI, IRIKIT_IN_REFERENCE, "a-._~!$&'()*+,;=:@/?#[]% ", NULL, "a-._~!$&'()*+,;=:@/?#[]%25%20", 0, 0},
    /* RFC 3987 section 2.2: `iprivate` stands in a query alone. */
    {ENCODE, IRIKIT_URI, IRIKIT_IN_PATH, "\xc3\xa9", NULL, "%C3%A9", 0, 0},
    {ENCODE, IRIKIT_IRI, IRIKIT_IN_PATH, "\xc3\xa9\xee\x80\x80", NULL, "\xc3\xa9%EE%80%80", 0, 0},
    {ENCODE, IRIKIT_IRI, IRIKIT_IN_QUERY, "\xc3\xa9\xee\x80\x80", NULL, "\xc3\xa9\xee\x80\x80", 0, 0},
    {ENCODE, IRIKIT_URI, IRIKIT_IN_PATH, "\xc3", NULL, NULL, IRIKIT_BAD_TEXT, IRIKIT_INVALID_UTF8},
    {ENCODE, IRIKIT_URI, IRIKIT_IN_REFERENCE + 1, "a", NULL, NULL, IRIKIT_UNKNOWN, 0},
    {ENCODE, IRIKIT_NORMAL, IRIKIT_IN_REG_NAME, "a", NULL, NULL, IRIKIT_UNKNOWN, 0},
    /* The examples of the URL Standard, section 1.3, and `%` that begin no percent-encoded octet. */
    {DECODE, 0, 0, "%25%s%1G", NULL, "%%s%1G", 0, 0},
    {DECODE, 0, 0, "%2541%%41%4%", NULL, "%41%A%4%", 0, 0},
    {DECODE, 0, 0, "\xff%fF", NULL, "\xff\xff", 0, 0},
    /* RFC 3986 sections 3.2.1 and 7.5. */
    {MASK, IRIKIT_URI, 0, "ftp://u:p:w@h:2/a#f", NULL, "ftp://u:@h:2/a#f", 0, 0},
    {MASK, IRIKIT_URI, 0, "//:@h", NULL, "//:@h", 0, 0},
    {MASK, IRIKIT_URI, 0, "//u@h/a:b@c", NULL, "//u@h/a:b@c", 0, 0},
    {MASK, IRIKIT_IRI, 0, "//\xc3\xa9:\xc3\xa9@h", NULL, "//\xc3\xa9:@h", 0, 0},
    {MASK, IRIKIT_URI, 0, "//\xc3\xa9:p@h", NULL, NULL, IRIKIT_BAD_TEXT, IRIKIT_INVALID_USERINFO},
    {MASK, IRIKIT_NORMAL, 0, "", NULL, NULL, IRIKIT_UNKNOWN, 0},
    {REMOVE_PASSWORD, IRIKIT_URI, 0, "ftp://u:p:w@h:2/a#f", NULL, "ftp://u@h:2/a#f", 0, 0},
    {REMOVE_PASSWORD, IRIKIT_URI, 0, "//:@h", NULL, "//@h", 0, 0},
    {REMOVE_PASSWORD, IRIKIT_URI, 0, "//u@h/a:b@c", NULL, "//u@h/a:b@c", 0, 0},
    {REMOVE_PASSWORD, IRIKIT_URI, 0, "//u:[@h", NULL, NULL, IRIKIT_BAD_TEXT, IRIKIT_INVALID_USERINFO},
    {REMOVE_PASSWORD, IRIKIT_NORMAL, 0, "", NULL, NULL, IRIKIT_UNKNOWN, 0},
    {REPLACE_PASSWORD, IRIKIT_URI, 0, "ftp://u:p:w@h:2/a#f", "***", "ftp://u:***@h:2/a#f", 0, 0},
    {REPLACE_PASSWORD, IRIKIT_URI, 0, "//u@h/a:b@c", "***", "//u@h/a:b@c", 0, 0},
    {REPLACE_PASSWORD, IRIKIT_IRI, 0, "//:@h", "\xc3\xa9", "//:\xc3\xa9@h", 0, 0},
    {REPLACE_PASSWORD, IRIKIT_URI, 0, "//u:p@h", "\xc3", NULL, IRIKIT_BAD_PART, IRIKIT_INVALID_UTF8},
    {REPLACE_PASSWORD, IRIKIT_URI, 0, "%", "\xc3", NULL, IRIKIT_BAD_TEXT, IRIKIT_INVALID_PATH},
    {REPLACE_PASSWORD, IRIKIT_NORMAL, 0, "", "", NULL, IRIKIT_UNKNOWN, 0},
    /* RFC 3986 section 3.5. */
    {REMOVE_FRAGMENT, IRIKIT_URI, 0, "foo://h/p?q#f", NULL, "foo://h/p?q", 0, 0},
    {REMOVE_FRAGMENT, IRIKIT_URI, 0, "a#", NULL, "a", 0, 0},
    {REMOVE_FRAGMENT, IRIKIT_URI, 0, "a", NULL, "a", 0, 0},
    {REMOVE_FRAGMENT, IRIKIT_URI, 0, "a##", NULL, NULL, IRIKIT_BAD_TEXT, IRIKIT_INVALID_FRAGMENT},
    {REMOVE_FRAGMENT, IRIKIT_NORMAL, 0, "a", NULL, NULL, IRIKIT_UNKNOWN, 0},
    {SET_FRAGMENT, IRIKIT_URI, 0, "foo://h/p?q#f", "n/?", "foo://h/p?q#n/?", 0, 0},
    {SET_FRAGMENT, IRIKIT_URI, 0, "a", "", "a#", 0, 0},
    {SET_FRAGMENT, IRIKIT_IRI, 0, "", "\xc3\xa9", "#\xc3\xa9", 0, 0},
    {SET_FRAGMENT, IRIKIT_URI, 0, "a", "\xc3\xa9", NULL, IRIKIT_BAD_PART, IRIKIT_INVALID_FRAGMENT},
    {SET_FRAGMENT, IRIKIT_URI, 0, "a", "\xff", NULL, IRIKIT_BAD_PART, IRIKIT_INVALID_UTF8},
    {SET_FRAGMENT, IRIKIT_URI, 0, "%", "#", NULL, IRIKIT_BAD_TEXT, IRIKIT_INVALID_PATH},
    {SET_FRAGMENT, IRIKIT_NORMAL, 0, "a", "", NULL, IRIKIT_UNKNOWN, 0},
    /* RFC 3986 section 3.2.2. */
    {HOST, IRIKIT_URI, 0, "ftp://u:p@h:2/a?h#h", "[2001:db8::7]", "ftp://u:p@[2001:db8::7]:2/a?h#h", 0, 0},
    {HOST, IRIKIT_URI, 0, "//192.0.2.16:80/", "", "//:80/", 0, 0},
    {HOST, IRIKIT_IRI, 0, "//h", "\xc3\xa9", "//\xc3\xa9", 0, 0},
    {HOST, IRIKIT_URI, 0, "//h", "\xc3\xa9", NULL, IRIKIT_BAD_PART, IRIKIT_INVALID_HOST},
    {HOST, IRIKIT_URI, 0, "//h", "a:1", NULL, IRIKIT_BAD_PART, IRIKIT_INVALID_HOST},
    {HOST, IRIKIT_URI, 0, "//h", "\xff", NULL, IRIKIT_BAD_PART, IRIKIT_INVALID_UTF8},
    {HOST, IRIKIT_URI, 0, "mailto:u@h", "a", NULL, IRIKIT_NO_HOST, 0},
    {HOST, IRIKIT_URI, 0, "mailto:u@h", "[", NULL, IRIKIT_BAD_PART, IRIKIT_INVALID_HOST},
    {HOST, IRIKIT_URI, 0, "%", "[", NULL, IRIKIT_BAD_TEXT, IRIKIT_INVALID_PATH},
    {HOST, IRIKIT_NORMAL, 0, "//h", "a", NULL, IRIKIT_UNKNOWN, 0},
    {REG_NAME, IRIKIT_URI, 0, "//h/", "[::]", "//[::]/", 0, 0},
    {REG_NAME, IRIKIT_URI, 0, "//192.0.2.16:80/", "a", NULL, IRIKIT_NO_HOST, 0},
    {REG_NAME, IRIKIT_URI, 0, "//[::]", "a", NULL, IRIKIT_NO_HOST, 0},
    {REG_NAME, IRIKIT_URI, 0, "//[::]", "[", NULL, IRIKIT_BAD_PART, IRIKIT_INVALID_HOST},
    {REG_NAME, IRIKIT_NORMAL, 0, "//h", "a", NULL, IRIKIT_UNKNOWN, 0},
};

static uint8_t call(const struct row *row, char *out, size_t size, size_t *detail) {
    size_t len = strlen(row->text);
    switch (row->call) {
    case RESOLVE:
        return irikit_resolve(row->grammar, row->text, len, row->part, strlen(row->part), out, size, detail);
    case TARGET:
        return irikit_target(row->grammar, row->text, len, row->part, strlen(row->part), out, size, detail);
    case STEPS: return irikit_steps(row->grammar, row->place, row->text, len, out, size, detail);
    case NORMALIZE: return irikit_normalize(row->grammar, row->place, row->text, len, out, size, detail);
    case ENCODE: return irikit_encode(row->grammar, row->place, row->text, len, out, size, detail);
    case DECODE: return irikit_decode(row->text, len, out, size, detail);
    case MASK: return irikit_mask_password(row->grammar, row->text, len, out, size, detail);
    case REMOVE_PASSWORD: return irikit_remove_password(row->grammar, row->text, len, out, size, detail);
    case REPLACE_PASSWORD:
        return irikit_replace_password(row->grammar, row->text, len, row->part, strlen(row->part), out, size, detail);
    case REMOVE_FRAGMENT: return irikit_remove_fragment(row->grammar, row->text, len, out, size, detail);
    case HOST: return irikit_replace_host(row->grammar, row->text, len, row->part, strlen(row->part), out, size, detail);
    case REG_NAME:
        return irikit_replace_reg_name(row->grammar, row->text, len, row->part, strlen(row->part), out, size, detail);
    default: return irikit_set_fragment(row->grammar, row->text, len, row->part, strlen(row->part), out, size, detail);
    }
}

static size_t check_row(const struct row *row) {
    size_t failed = 0, len = row->wanted ? strlen(row->wanted) : 0;
    for (size_t size = 0; size <= len + 1; size++) {
        char out[128];
        size_t detail = 9;
        memset(out, '.', sizeof out);
        uint8_t status = call(row, out, size, &detail);
        if (row->wanted)
            failed += wrong(status == (size < len ? IRIKIT_SHORT : IRIKIT_OK) && detail == len
                                && is_over(out, size, row->wanted, len, sizeof out), row->text);
        else
            failed += wrong(status == row->status && detail == row->detail && is_over(out, 0, "", 0, sizeof out), row->text);
    }
    return failed;
}

static size_t check_null(void) {
    size_t failed = 0, detail = 9;
    failed += wrong(irikit_target(IRIKIT_URI, "a:", 2, NULL, 0, NULL, 0, &detail) == IRIKIT_SHORT && detail == 2, "NULL as a reference");
    failed += wrong(irikit_steps(IRIKIT_URI, IRIKIT_NORMAL, NULL, 0, NULL, 0, &detail) == IRIKIT_BAD_TEXT && detail == IRIKIT_UNEXPECTED_RELATIVE,
                        "no steps from NULL");
    failed += wrong(irikit_encode(IRIKIT_URI, IRIKIT_IN_REG_NAME, NULL, 0, NULL, 0, &detail) == IRIKIT_OK && !detail, "NULL to encode");
    failed += wrong(irikit_decode(NULL, 0, NULL, 0, &detail) == IRIKIT_OK && !detail, "NULL to decode");
    failed += wrong(irikit_mask_password(IRIKIT_URI, NULL, 0, NULL, 0, &detail) == IRIKIT_OK && !detail, "NULL to mask");
    failed += wrong(irikit_remove_password(IRIKIT_URI, NULL, 0, NULL, 0, &detail) == IRIKIT_OK && !detail, "NULL without a password");
    failed += wrong(irikit_replace_password(IRIKIT_URI, NULL, 0, NULL, 0, NULL, 0, &detail) == IRIKIT_OK && !detail,
                        "NULL as a password");
    failed += wrong(irikit_remove_fragment(IRIKIT_URI, NULL, 0, NULL, 0, &detail) == IRIKIT_OK && !detail, "NULL without a fragment");
    failed += wrong(irikit_set_fragment(IRIKIT_URI, NULL, 0, NULL, 0, NULL, 0, &detail) == IRIKIT_SHORT && detail == 1,
                        "NULL as a fragment");
    failed += wrong(irikit_replace_host(IRIKIT_URI, NULL, 0, NULL, 0, NULL, 0, &detail) == IRIKIT_NO_HOST && !detail, "NULL as a host");
    failed += wrong(irikit_replace_reg_name(IRIKIT_URI, NULL, 0, NULL, 0, NULL, 0, &detail) == IRIKIT_NO_HOST && !detail, "NULL as a name");
    failed += wrong(irikit_build(IRIKIT_URI, IRIKIT_REFERENCE, NULL, 0, NULL, 0, &detail) == IRIKIT_OK && !detail, "no parts");
    struct irikit_given empty = {IRIKIT_HOST, {NULL, 0}};
    failed += wrong(irikit_build(IRIKIT_URI, IRIKIT_REFERENCE, &empty, 1, NULL, 0, &detail) == IRIKIT_SHORT && detail == 2, "NULL in a part");
    return failed;
}

int main(void) {
    size_t failed = check_null();
    for (size_t i = 0; i < sizeof rows / sizeof *rows; i++)
        failed += check_row(&rows[i]);
    printf("C: %zu edits, %zu failed\n", sizeof rows / sizeof *rows, failed);
    return failed != 0;
}
