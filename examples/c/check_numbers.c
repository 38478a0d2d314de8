/* check_numbers: each call with each number up to 1,000, and with numbers that 8, 16 or 31 bits would take for others; those that stand
 * for nothing write nothing but the detail; and the words for each kind of fault in a buffer of each size. Names each that fails. */
#include "check.h"

#define ROOM 64

/* The calls that tell one number more. */
#define LINES 1
#define EXPAND 18
#define PAIRS 19
#define CALLS 20

static char out[ROOM];
static size_t detail, place, consumed;
static struct irikit_parts parts, before;

/* A call that takes these numbers besides its texts; a call that has no mode, kind or place takes the first alone. */
static uint8_t call(int number, uint32_t grammar, uint32_t other) {
    const struct irikit_given part = {IRIKIT_PATH, {"b", 1}};
    switch (number) {
    case 0: return irikit_canonical(grammar, other, "a:", 2, "b", 1, out, ROOM, &detail);
    case LINES: return irikit_canonical_lines(grammar, other, "a:", 2, "b\n", 2, out, ROOM, &consumed, &detail);
    case 2: return irikit_steps(grammar, other, "a:%7e", 5, out, ROOM, &detail);
    case 3: return irikit_normalize(grammar, other, "a:", 2, out, ROOM, &detail);
    case 4: return irikit_is_normalized(grammar, other, "a:", 2, &detail);
    case 5: return irikit_validate(grammar, other, "a:", 2, &detail);
    case 6: return irikit_build(grammar, other, &part, 1, out, ROOM, &detail);
    case 7: return irikit_encode(grammar, other, "a", 1, out, ROOM, &detail);
    case 8: return irikit_split(grammar, "a:", 2, &parts, &detail);
    case 9: return irikit_resolve(grammar, "a:", 2, "b", 1, out, ROOM, &detail);
    case 10: return irikit_target(grammar, "a:", 2, "b", 1, out, ROOM, &detail);
    case 11: return irikit_mask_password(grammar, "//a:b@c", 7, out, ROOM, &detail);
    case 12: return irikit_remove_password(grammar, "//a:b@c", 7, out, ROOM, &detail);
    case 13: return irikit_replace_password(grammar, "//a:b@c", 7, "d", 1, out, ROOM, &detail);
    case 14: return irikit_remove_fragment(grammar, "a#b", 3, out, ROOM, &detail);
    case 15: return irikit_set_fragment(grammar, "a#b", 3, "c", 1, out, ROOM, &detail);
    case 16: return irikit_replace_host(grammar, "//a", 3, "b", 1, out, ROOM, &detail);
    case 17: return irikit_replace_reg_name(grammar, "//a", 3, "b", 1, out, ROOM, &detail);
    case PAIRS: return irikit_canonical_pairs(grammar, other, "a:\tb\n", 5, out, ROOM, &consumed, &detail);
    default: return irikit_expand(grammar, "a", 1, NULL, 0, out, ROOM, &detail, &place);
    }
}

/* The first and the last mode, kind or place of each call; a call without any takes what it is given. */
static const struct {
    uint32_t first, last;
} others[CALLS] = {
    {IRIKIT_NORMAL, IRIKIT_BY_SCHEME}, {IRIKIT_NORMAL, IRIKIT_BY_SCHEME}, {IRIKIT_NORMAL, IRIKIT_BY_SCHEME},
    {IRIKIT_NORMAL, IRIKIT_PRESERVING}, {IRIKIT_NORMAL, IRIKIT_PRESERVING}, {IRIKIT_REFERENCE, IRIKIT_RELATIVE},
    {IRIKIT_REFERENCE, IRIKIT_RELATIVE}, {IRIKIT_IN_REG_NAME, IRIKIT_IN_REFERENCE}, {0, UINT32_MAX}, {0, UINT32_MAX}, {0, UINT32_MAX},
    {0, UINT32_MAX}, {0, UINT32_MAX}, {0, UINT32_MAX}, {0, UINT32_MAX}, {0, UINT32_MAX}, {0, UINT32_MAX}, {0, UINT32_MAX},
    {0, UINT32_MAX}, {IRIKIT_NORMAL, IRIKIT_BY_SCHEME},
};

static int is_one_of(uint32_t number, uint32_t first, uint32_t last) {
    return first <= number && number <= last;
}

static size_t check_call(int number, uint32_t grammar, uint32_t other, const char *what) {
    char name[64];
    memset(out, '.', ROOM);
    memset(&parts, 0x55, sizeof parts);
    detail = place = consumed = 9;
    uint8_t status = call(number, grammar, other);
    snprintf(name, sizeof name, "%s, call %d: %lu %lu", what, number, (unsigned long)grammar, (unsigned long)other);
    if (is_one_of(grammar, IRIKIT_URI, IRIKIT_IRI) && is_one_of(other, others[number].first, others[number].last))
        return wrong(status != IRIKIT_UNKNOWN, name);
    int stays = is_over(out, 0, "", 0, ROOM) && !memcmp(&parts, &before, sizeof parts);
    return wrong(status == IRIKIT_UNKNOWN && !detail && consumed == (number == LINES || number == PAIRS ? 0 : 9) && place == (number == EXPAND ? 0 : 9)
                     && stays, name);
}

/* A number in the grammar's place, and in that of the mode, kind or place. */
static size_t check_number(int call, uint32_t number) {
    return check_call(call, number, others[call].first, "a grammar") + check_call(call, IRIKIT_URI, number, "a mode, kind or place")
           + check_call(call, IRIKIT_IRI, number, "a mode, kind or place");
}

static size_t check_numbers(void) {
    const uint32_t past[] = {1u << 8, 1u << 16, 1u << 31, 1u << 8 | 1u << 16};
    size_t failed = 0;
    memset(&before, 0x55, sizeof before);
    for (int call = 0; call < CALLS; call++) {
        for (uint32_t number = 0; number < 1000; number++)
            failed += check_number(call, number);
        for (int i = 0; i < 4; i++)
            for (uint32_t number = 0; number < 1000; number++)
                failed += check_number(call, number + past[i]);
        failed += check_number(call, UINT32_MAX);
    }
    return failed;
}

/* The words for a fault, or of none: those of templates have an odd `which`. */
static uint8_t words(int which, size_t fault, char *buffer, size_t size) {
    return which ? irikit_template_fault_words(fault, buffer, size, &detail) : irikit_fault_words(fault, buffer, size, &detail);
}

static size_t check_words(int which, size_t fault) {
    char text[ROOM], name[48];
    size_t failed = 0, len;
    snprintf(name, sizeof name, "words %d %zu", which, fault);
    failed += wrong(words(which, fault, text, ROOM) == IRIKIT_OK && detail > 0 && detail < ROOM, name);
    len = detail;
    for (size_t size = 0; size <= len; size++) {
        memset(out, '.', ROOM);
        uint8_t status = words(which, fault, out, size);
        failed += wrong(status == (size < len ? IRIKIT_SHORT : IRIKIT_OK) && detail == len && is_over(out, size, text, len, ROOM), name);
    }
    return failed;
}

/* The first and the last kind of fault, and of a template's. */
static const size_t faults[][2] = {
    {IRIKIT_INVALID_SCHEME, IRIKIT_INVALID_UTF8}, {IRIKIT_EXPRESSION_NOT_CLOSED, IRIKIT_UNSUPPORTED_OPERATOR}};

static size_t check_no_words(int which, size_t fault) {
    memset(out, '.', ROOM);
    detail = 9;
    uint8_t status = words(which, fault, out, ROOM);
    return wrong(status == IRIKIT_UNKNOWN && !detail && is_over(out, 0, "", 0, ROOM), "a fault that is none");
}

static size_t check_faults(void) {
    size_t failed = 0;
    for (int which = 0; which < 2; which++) {
        for (size_t fault = 0; fault < 1000; fault++)
            failed += fault < faults[which][0] || fault > faults[which][1] ? check_no_words(which, fault) : check_words(which, fault);
        failed += check_no_words(which, faults[which][0] + 256) + check_no_words(which, faults[which][0] + 65536);
        failed += check_no_words(which, SIZE_MAX);
    }
    return failed;
}

/* Parts and kinds of values that are none, by the numbers around those that are, and the greatest. */
static size_t check_structs(void) {
    const size_t no_part[] = {0, IRIKIT_SCHEME - 1, IRIKIT_FRAGMENT + 1, IRIKIT_SCHEME + 256, SIZE_MAX};
    const size_t no_kind[] = {0, IRIKIT_UNDEFINED - 1, IRIKIT_PAIRS + 1, IRIKIT_UNDEFINED + 256, SIZE_MAX};
    size_t failed = 0;
    for (int i = 0; i < 5; i++) {
        struct irikit_given part = {no_part[i], {NULL, 0}};
        struct irikit_variable variable = {{NULL, 0}, no_kind[i], NULL, 0};
        memset(out, '.', ROOM);
        detail = place = 9;
        uint8_t status = irikit_build(IRIKIT_URI, IRIKIT_REFERENCE, &part, 1, out, ROOM, &detail);
        failed += wrong(status == IRIKIT_UNKNOWN && !detail, "a part that is none");
        detail = 9;
        status = irikit_expand(IRIKIT_URI, "a", 1, &variable, 1, out, ROOM, &detail, &place);
        failed += wrong(status == IRIKIT_BAD_VARIABLE && !detail && !place, "a kind of value that is none");
        failed += wrong(is_over(out, 0, "", 0, ROOM), "a buffer that stays");
    }
    return failed;
}

/* The part that has a fault, by each kind of text and each kind of fault, and by numbers that are none. */
static size_t check_fault_part(uint32_t kind, size_t fault) {
    struct irikit_slot part = {5, 5};
    detail = 9;
    uint8_t status = irikit_fault_part(kind, fault, "a:", 2, &part, &detail);
    int stays = part.offset == 5 && part.len == 5, known = is_one_of(kind, IRIKIT_REFERENCE, IRIKIT_RELATIVE)
                                                           && fault >= IRIKIT_INVALID_SCHEME && fault <= IRIKIT_INVALID_UTF8;
    return wrong(status == (known ? IRIKIT_OK : IRIKIT_UNKNOWN) && !detail && stays == !known, "the part of a fault");
}

static size_t check_fault_parts(void) {
    size_t failed = 0;
    for (uint32_t kind = 0; kind < 1000; kind++)
        failed += check_fault_part(kind, IRIKIT_INVALID_PATH) + check_fault_part(kind + 256, IRIKIT_INVALID_PATH);
    for (uint32_t kind = IRIKIT_REFERENCE; kind <= IRIKIT_RELATIVE; kind++)
        for (size_t fault = 0; fault < 1000; fault++)
            failed += check_fault_part(kind, fault) + check_fault_part(kind, fault + 65536);
    return failed + check_fault_part(IRIKIT_REFERENCE, SIZE_MAX);
}

/* The library that runs is the one that this was compiled for. */
static size_t check_version(void) {
    return wrong(irikit_version() == IRIKIT_VERSION, "the version");
}

int main(void) {
    size_t failed = check_numbers() + check_faults() + check_fault_parts() + check_structs() + check_version();
    printf("C: numbers of %d calls, %zu failed\n", CALLS, failed);
    return failed != 0;
}
