/* check_templates ROWS: the examples of RFC 6570, each in a buffer of each size; faults and their places; variables that
 * aren't as their kind asks; pieces that are empty; names of variables. Names each that fails. */
#define _GNU_SOURCE
#include "check.h"

#define TEXT(text) {text, sizeof text - 1}
#define STRING(name, text) {TEXT(name), IRIKIT_STRING, &(const struct irikit_text)TEXT(text), 1}
#define SEVERAL(name, kind, texts) {TEXT(name), kind, texts, sizeof texts / sizeof *texts}

static const struct irikit_text count[] = {TEXT("one"), TEXT("two"), TEXT("three")}, dom[] = {TEXT("example"), TEXT("com")},
                                list[] = {TEXT("red"), TEXT("green"), TEXT("blue")},
                                keys[] = {TEXT("semi"), TEXT(";"), TEXT("dot"), TEXT("."), TEXT("comma"), TEXT(",")};

/* The variables of RFC 6570 section 3.2. */
static const struct irikit_variable variables[] = {
    SEVERAL("count", IRIKIT_LIST, count), SEVERAL("dom", IRIKIT_LIST, dom), SEVERAL("list", IRIKIT_LIST, list),
    SEVERAL("keys", IRIKIT_PAIRS, keys), STRING("dub", "me/too"), STRING("hello", "Hello World!"), STRING("half", "50%"),
    STRING("var", "value"), STRING("who", "fred"), STRING("base", "http://example.com/home/"), STRING("path", "/foo/bar"),
    STRING("v", "6"), STRING("x", "1024"), STRING("y", "768"), STRING("empty", ""),
    {TEXT("empty_keys"), IRIKIT_PAIRS, NULL, 0}, {TEXT("undef"), IRIKIT_UNDEFINED, NULL, 0},
};
#define COUNT (sizeof variables / sizeof *variables)

static uint8_t expand(const char *text, char *out, size_t size, size_t *detail, size_t *place) {
    return irikit_expand(IRIKIT_URI, text, strlen(text), variables, COUNT, out, size, detail, place);
}

static size_t check_row(const char *template_text, const char *wanted) {
    size_t failed = 0, len = strlen(wanted);
    for (size_t size = 0; size <= len + 1; size++) {
        char out[256];
        size_t detail = 9, place = 9;
        memset(out, '.', sizeof out);
        uint8_t status = expand(template_text, out, size, &detail, &place);
        failed += wrong(status == (size < len ? IRIKIT_SHORT : IRIKIT_OK) && detail == len && !place
                            && is_over(out, size, wanted, len, sizeof out), template_text);
    }
    return failed;
}

static size_t check_rows(const char *name, size_t *rows) {
    FILE *file = fopen(name, "r");
    char *line = NULL;
    size_t room = 0, failed = 0;
    if (!file) {
        perror(name);
        exit(2);
    }
    while (getline(&line, &room, file) > 0) {
        char *rest = line, *template_text = strsep(&rest, "\t");
        failed += check_row(template_text, strsep(&rest, "\n"));
        (*rows)++;
    }
    free(line);
    fclose(file);
    return failed;
}

static size_t check_refused(const char *template_text, size_t fault, size_t wanted) {
    char out[8];
    size_t detail = 9, place = 9;
    memset(out, '.', sizeof out);
    uint8_t status = expand(template_text, out, sizeof out, &detail, &place);
    return wrong(status == IRIKIT_BAD_TEXT && detail == fault && place == wanted && is_over(out, 0,
                        "", 0, sizeof out), template_text);
}

/* One variable that isn't as its kind asks, after one that is. */
static size_t check_variable(struct irikit_variable second, uint8_t status, const char *what) {
    struct irikit_variable both[] = {STRING("v", "6"), second};
    char out[8];
    size_t detail = 9, place = 9;
    memset(out, '.', sizeof out);
    uint8_t is = irikit_expand(IRIKIT_IRI, "{v}", 3, both, 2, out, sizeof out, &detail, &place);
    if (status == IRIKIT_OK)
        return wrong(is == status && detail == 1 && !place && is_over(out, 8, "6", 1, sizeof out), what);
    return wrong(is == status && !detail && place == 1 && is_over(out, 0, "", 0, sizeof out), what);
}

static size_t check_variables(void) {
    const struct irikit_text nothing = {NULL, 0}, no_utf8 = {"\xff", 1}, both[] = {TEXT("a"), {"\xc3", 1}};
    size_t failed = 0;
    failed += check_variable((struct irikit_variable){{NULL, 0}, IRIKIT_UNDEFINED, NULL, 0}, IRIKIT_OK,
                        "a name that is NULL");
    failed += check_variable((struct irikit_variable){TEXT("w"), IRIKIT_STRING, &nothing, 1}, IRIKIT_OK,
                        "a text that is NULL");
    failed += check_variable((struct irikit_variable){TEXT("w"), IRIKIT_LIST, NULL, 0}, IRIKIT_OK, "a list that is NULL");
    failed += check_variable((struct irikit_variable)STRING("v", "7"), IRIKIT_OK, "a second variable of a name");
    failed += check_variable((struct irikit_variable){TEXT("w"), IRIKIT_UNDEFINED, both, 1}, IRIKIT_BAD_VARIABLE,
                        "a text too many");
    failed += check_variable((struct irikit_variable){TEXT("w"), IRIKIT_STRING, NULL, 0}, IRIKIT_BAD_VARIABLE,
                        "a string of none");
    failed += check_variable((struct irikit_variable){TEXT("w"), IRIKIT_PAIRS, both, 1}, IRIKIT_BAD_VARIABLE,
                        "half a pair");
    failed += check_variable((struct irikit_variable){TEXT("w"), IRIKIT_PAIRS + 1, NULL, 0}, IRIKIT_BAD_VARIABLE, "a kind that is none");
    failed += check_variable((struct irikit_variable){TEXT("w"), IRIKIT_STRING, &no_utf8, 1}, IRIKIT_BAD_VARIABLE,
                        "no UTF-8");
    failed += check_variable((struct irikit_variable){TEXT("w"), IRIKIT_LIST, both, 2}, IRIKIT_BAD_VARIABLE,
                        "an item of no UTF-8");
    return failed;
}

static size_t check_others(void) {
    const struct irikit_text word = {NULL, 0};
    const struct irikit_variable empty = {TEXT("e"), IRIKIT_STRING, &word, 1};
    char out[8];
    size_t failed = 0, detail = 9, place = 9;
    failed += wrong(irikit_expand(IRIKIT_NORMAL, "", 0, NULL, 0, out, 8, &detail, &place) == IRIKIT_UNKNOWN && !detail && !place,
                        "a grammar that is none");
    failed += wrong(irikit_expand(IRIKIT_URI, NULL, 0, NULL, 0, NULL, 0, &detail, &place) == IRIKIT_OK && !detail && !place,
                        "NULL as a template");
    failed += wrong(irikit_expand(IRIKIT_URI, "{e}a{?e}", 8, &empty, 1, out, 8, &detail, &place) == IRIKIT_OK && detail == 4
                        && !memcmp(out, "a?e=", 4), "a value that is NULL");
    failed += wrong(irikit_expand(IRIKIT_IRI, "\xc3\xa9", 2, NULL, 0, out, 8, &detail, &place) == IRIKIT_OK && detail == 2,
                        "an IRI's literal");
    failed += wrong(irikit_expand(IRIKIT_URI, "\xc3\xa9", 2, NULL, 0, out, 8, &detail, &place) == IRIKIT_OK && detail == 6,
                        "a URI's literal");
    return failed;
}

enum { SLOTS = 8 };

/* Whether the first `written` slots are those that are wanted, and the others as they were. */
static int are_slots(const struct irikit_slot *slots, size_t written, const struct irikit_slot *wanted) {
    int right = 1;
    for (size_t i = 0; i < SLOTS; i++) {
        struct irikit_slot is = i < written ? wanted[i] : (struct irikit_slot){7, 7};
        right &= slots[i].offset == is.offset && slots[i].len == is.len;
    }
    return right;
}

/* Where the names stand, in slots of each count: `^` stands below each of their bytes. */
static size_t check_names(const char *text, const char *below) {
    struct irikit_slot wanted[SLOTS];
    size_t failed = 0, names = 0;
    for (size_t at = 0; below[at]; at++) {
        if (below[at] != '^')
            continue;
        wanted[names++] = (struct irikit_slot){at, strspn(below + at, "^")};
        at += wanted[names - 1].len - 1;
    }
    for (size_t count = 0; count <= SLOTS; count++) {
        struct irikit_slot slots[SLOTS];
        size_t detail = 9, place = 9;
        for (size_t i = 0; i < SLOTS; i++)
            slots[i] = (struct irikit_slot){7, 7};
        uint8_t status = irikit_template_variables(text, strlen(text), slots, count, &detail, &place);
        failed += wrong(status == (count < names ? IRIKIT_SHORT : IRIKIT_OK) && detail == names && !place
                            && are_slots(slots, count < names ? count : names, wanted), text);
    }
    return failed;
}

/* The templates of RFC 6570 sections 1.1 and 1.2, and faults with their places. */
static size_t check_variable_names(void) {
    static const struct { const char *text; size_t fault, place; } refused[] = {
        {"ab{", IRIKIT_EXPRESSION_NOT_CLOSED, 2}, {"a}", IRIKIT_INVALID_CHARACTER, 1}, {"\xff", IRIKIT_TEMPLATE_INVALID_UTF8, 0},
        {"{=v}", IRIKIT_UNSUPPORTED_OPERATOR, 1}, {"a%4", IRIKIT_INVALID_PERCENT_ENCODING, 1},
    };
    size_t failed = 0, detail = 9, place = 9;
    failed += check_names("http://example.com/~{username}/",
                          "                     ^^^^^^^^  ");
    failed += check_names("http://example.com/dictionary/{term:1}/{term}",
                          "                               ^^^^     ^^^^ ");
    failed += check_names("http://www.example.com/foo{?query,number}",
                          "                            ^^^^^ ^^^^^^ ");
    failed += check_names("{+x,hello,y:33}%7b{.list*}{a%41.b_}",
                          "  ^ ^^^^^ ^         ^^^^   ^^^^^^^ ");
    failed += check_names("\xc3\xa9{a}", "   ^ ") + check_names("/a", "");
    for (size_t i = 0; i < sizeof refused / sizeof *refused; i++) {
        const char *text = refused[i].text;
        uint8_t status = irikit_template_variables(text, strlen(text), NULL, 0, &detail, &place);
        failed += wrong(status == IRIKIT_BAD_TEXT && detail == refused[i].fault && place == refused[i].place, text);
    }
    failed += wrong(irikit_template_variables(NULL, 0, NULL, 0, &detail, &place) == IRIKIT_OK && !detail && !place, "NULL without names");
    return failed;
}

int main(int argc, char **argv) {
    size_t failed = 0, rows = 0;
    if (argc != 2)
        return 2;
    failed += check_rows(argv[1], &rows) + check_variables() + check_others() + check_variable_names();
    failed += check_refused("ab{", IRIKIT_EXPRESSION_NOT_CLOSED, 2) + check_refused("a}", IRIKIT_INVALID_CHARACTER, 1);
    failed += check_refused("\xff", IRIKIT_TEMPLATE_INVALID_UTF8, 0) + check_refused("{=v}", IRIKIT_UNSUPPORTED_OPERATOR,
                        1);
    failed += check_refused("a%4", IRIKIT_INVALID_PERCENT_ENCODING, 1) + check_refused("a{list:1}",
                        IRIKIT_UNEXPECTED_VALUE_TYPE, 2);
    printf("C: %zu templates, %zu failed\n", rows, failed);
    return failed || !rows;
}
