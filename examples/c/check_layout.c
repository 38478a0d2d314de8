/* check_layout: the size and the offsets of every struct, as C has them and as the library reads and writes them: each struct is
 * given, or read, as plain words in the order of its fields. Names each that fails. */
#include "check.h"

#define WORD sizeof(size_t)
#define AT(type, field, words) wrong(offsetof(struct type, field) == (words) * WORD, #type "." #field)
#define HAS(type, words) wrong(sizeof(struct type) == (words) * WORD, #type)

static size_t check_offsets(void) {
    size_t failed = wrong(sizeof(char *) == WORD, "a pointer has the size of a length");
    failed += HAS(irikit_slot, 2) + AT(irikit_slot, offset, 0) + AT(irikit_slot, len, 1);
    failed += HAS(irikit_parts, 16) + AT(irikit_parts, scheme, 0) + AT(irikit_parts, authority, 2) + AT(irikit_parts, path, 4);
    failed += AT(irikit_parts, query, 6) + AT(irikit_parts, fragment, 8) + AT(irikit_parts, userinfo, 10);
    failed += AT(irikit_parts, host, 12) + AT(irikit_parts, port, 14);
    failed += HAS(irikit_text, 2) + AT(irikit_text, bytes, 0) + AT(irikit_text, len, 1);
    failed += HAS(irikit_given, 3) + AT(irikit_given, part, 0) + AT(irikit_given, text, 1);
    failed += HAS(irikit_variable, 5) + AT(irikit_variable, name, 0) + AT(irikit_variable, kind, 2);
    return failed + AT(irikit_variable, values, 3) + AT(irikit_variable, count, 4);
}

/* The parts of the example of RFC 3986 section 3, with a userinfo, as the library writes them. */
static size_t check_written(void) {
    static const char text[] = "foo://u@example.com:8042/over/there?name=ferret#nose";
    const size_t wanted[16] = {0, 3, 6, 18, 24, 11, 36, 11, 48, 4, 6, 1, 8, 11, 20, 4};
    struct irikit_parts parts;
    size_t words[17], detail = 9;
    memset(words, 0x55, sizeof words);
    size_t after = words[16];
    uint8_t status = irikit_split(IRIKIT_URI, text, sizeof text - 1, &parts, &detail);
    memcpy(words, &parts, sizeof parts);
    return wrong(status == IRIKIT_OK && !memcmp(words, wanted, sizeof wanted) && words[16] == after, "the parts as words");
}

/* Two variables and two parts, as the library reads them: the second shows the size of the first. */
static size_t check_read(void) {
    const size_t values[] = {(size_t)"b", 1, (size_t)"cd", 2, (size_t)"efg", 3};
    const size_t variables[] = {(size_t)"nm", 2, IRIKIT_LIST, (size_t)values, 2, (size_t)"x", 1, IRIKIT_STRING, (size_t)(values + 4), 1};
    const size_t parts[] = {IRIKIT_PATH, (size_t)"p", 1, IRIKIT_QUERY, (size_t)"qr", 2};
    struct irikit_variable two[2];
    struct irikit_given given[2];
    char out[32];
    size_t failed = 0, detail = 9, place = 9;
    memcpy(two, variables, sizeof two);
    uint8_t status = irikit_expand(IRIKIT_URI, "{nm*}/{x}", 9, two, 2, out, sizeof out, &detail, &place);
    failed += wrong(status == IRIKIT_OK && detail == 8 && !memcmp(out, "b,cd/efg", 8), "variables as words");
    memcpy(given, parts, sizeof given);
    status = irikit_build(IRIKIT_URI, IRIKIT_REFERENCE, given, 2, out, sizeof out, &detail);
    return failed + wrong(status == IRIKIT_OK && detail == 4 && !memcmp(out, "p?qr", 4), "parts as words");
}

int main(void) {
    size_t failed = check_offsets() + check_written() + check_read();
    printf("C: the layout of 5 structs, %zu failed\n", failed);
    return failed != 0;
}
