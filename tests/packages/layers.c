/* The requests of tests/packages/layers by the calls for C. Each call measures first, with no room, and then has just the room that it asked for. */
#include <irikit.h>
#include <stdio.h>
#include <stdlib.h>
#include <string.h>

#define MOST 24
static char *words[MOST];
static struct irikit_text texts[MOST];
static size_t count, detail, place, consumed;

static const char *const GRAMMARS[] = {"uri", "iri", 0}, *const MODES[] = {"normal", "scheme", "preserving", 0},
    *const KINDS[] = {"reference", "with-scheme", "absolute", "relative", 0},
    *const PLACES[] = {"reg-name", "user", "segment", "path", "query", "fragment", "anywhere", "reference", 0},
    *const WHOSE[] = {"", "", "", "text", "base", "reference", "number", "variable", "part", "host"};

static uint32_t number(const char *const *names, uint32_t first, const char *name) {
    for (uint32_t i = 0; names[i]; i++)
        if (strcmp(names[i], name) == 0) return first + i;
    return 0;
}

static void hex(const char *bytes, size_t len) {
    putchar(' ');
    if (len == 0) putchar('.');
    for (size_t i = 0; i < len; i++) printf("%02x", (unsigned char)bytes[i]);
}

/* A text of hex digits, in place; `.` is the empty one, `~` none. */
static struct irikit_text text(char *word) {
    struct irikit_text made = {word[0] == '~' ? NULL : word, 0};
    if (word[0] == '.' || word[0] == '~') return made;
    for (char *at = word; *at; at += 2) {
        char two[3] = {at[0], at[1], 0};
        word[made.len++] = (char)strtoul(two, NULL, 16);
    }
    return made;
}

static void refused(uint8_t status) {
    char out[64];
    size_t len, fault = detail;
    printf("no %s", WHOSE[status]);
    if (status != IRIKIT_NO_HOST && status != IRIKIT_BAD_VARIABLE && status != IRIKIT_UNKNOWN && irikit_fault_words(fault, out, sizeof out, &len) == IRIKIT_OK)
        hex(out, len);
}

/* What a call that writes a text says, with the room that it asked for. */
#define WRITES(call)                                     \
    do {                                                 \
        char *out = NULL;                                \
        size_t size = 0;                                 \
        uint8_t status = call;                           \
        if (status == IRIKIT_SHORT) {                    \
            out = malloc(size = detail);                   \
            status = call;                               \
        }                                                \
        if (status == IRIKIT_OK) printf("ok"), hex(out, detail); \
        else refused(status);                            \
        free(out);                                       \
    } while (0)
#define ONE(i) texts[i].bytes, texts[i].len

static void split(uint32_t grammar) {
    struct irikit_parts parts;
    uint8_t status = irikit_split(grammar, ONE(0), &parts, &detail);
    if (status != IRIKIT_OK) {
        refused(status);
        return;
    }
    const struct irikit_slot slots[] = {parts.scheme, parts.authority, parts.path, parts.query, parts.fragment, parts.userinfo, parts.host, parts.port};
    printf("ok");
    for (size_t i = 0; i < 8; i++)
        if (slots[i].offset == IRIKIT_NOWHERE) printf(" ~");
        else hex(texts[0].bytes + slots[i].offset, slots[i].len);
}

static void build(uint32_t grammar, uint32_t kind) {
    struct irikit_given given[7];
    size_t made = 0;
    for (size_t i = 0; i < count; i++)
        if (texts[i].bytes) given[made].part = IRIKIT_SCHEME + i, given[made++].text = texts[i];
    WRITES(irikit_build(grammar, kind, given, made, out, size, &detail));
}

static void fault(uint32_t grammar, uint32_t kind) {
    struct irikit_slot part;
    uint8_t status = irikit_validate(grammar, kind, ONE(0), &detail);
    if (status == IRIKIT_OK) {
        printf("ok");
        return;
    }
    refused(status);
    if (irikit_fault_part(kind, detail, ONE(0), &part, &detail) == IRIKIT_OK && part.offset != IRIKIT_NOWHERE) printf(" %zu %zu", part.offset, part.len);
}

static void template_refused(uint8_t status) {
    char out[64];
    size_t len;
    if (status != IRIKIT_BAD_TEXT) {
        printf("no %s %zu", WHOSE[status], place);
    } else if (irikit_template_fault_words(detail, out, sizeof out, &len) == IRIKIT_OK) {
        printf("no template %zu", place), hex(out, len);
    }
}

/* The variable `v`, of the kind that the option names. */
static void expand(uint32_t grammar, const char *kind) {
    const uint32_t kinds = kind[0] == 's' ? IRIKIT_STRING : kind[0] == 'l' ? IRIKIT_LIST : IRIKIT_PAIRS;
    const struct irikit_variable v = {{"v", 1}, kinds, texts + 1, count - 1};
    char *out = NULL;
    size_t size = 0;
    uint8_t status = irikit_expand(grammar, ONE(0), &v, 1, out, size, &detail, &place);
    if (status == IRIKIT_SHORT) {
        out = malloc(size = detail);
        status = irikit_expand(grammar, ONE(0), &v, 1, out, size, &detail, &place);
    }
    if (status == IRIKIT_OK) printf("ok"), hex(out, detail);
    else template_refused(status);
    free(out);
}

static void names(void) {
    struct irikit_slot *slots = malloc((texts[0].len / 2 + 1) * sizeof *slots);
    uint8_t status = irikit_template_variables(ONE(0), slots, texts[0].len / 2 + 1, &detail, &place);
    if (status == IRIKIT_OK) printf("ok");
    else template_refused(status);
    for (size_t i = 0; status == IRIKIT_OK && i < detail; i++) hex(texts[0].bytes + slots[i].offset, slots[i].len);
    free(slots);
}

static void lines(uint32_t grammar, uint32_t mode) {
    size_t size = texts[1].len * 3 + 64 * (texts[0].len + texts[1].len + 64);
    char *out = malloc(size), *given = malloc(texts[1].len + 1);
    size_t len = texts[1].len;
    memcpy(given, texts[1].bytes, len);
    if (len != 0 && given[len - 1] != '\n') given[len++] = '\n';
    uint8_t status = irikit_canonical_lines(grammar, mode, ONE(0), given, len, out, size, &consumed, &detail);
    if (status == IRIKIT_OK) printf("ok"), hex(out, detail);
    else refused(status);
    free(out), free(given);
}

static void pairs(uint32_t grammar, uint32_t mode) {
    size_t size = 64 * (texts[0].len + 1);
    char *out = malloc(size), *given = malloc(texts[0].len + 1);
    size_t len = texts[0].len;
    memcpy(given, texts[0].bytes, len);
    if (len != 0 && given[len - 1] != '\n') given[len++] = '\n';
    uint8_t status = irikit_canonical_pairs(grammar, mode, given, len, out, size, &consumed, &detail);
    if (status == IRIKIT_OK) printf("ok"), hex(out, detail);
    else refused(status);
    free(out), free(given);
}

/* Each of several references; `~` for one that is refused. */
static void many(uint32_t grammar, uint32_t mode) {
    size_t size = texts[0].len + 3, longest = 0;
    for (size_t i = 1; i < count; i++) longest = texts[i].len > longest ? texts[i].len : longest;
    char *out = malloc(size += longest);
    for (size_t i = 1; i < count; i++) {
        uint8_t status = irikit_canonical(grammar, mode, ONE(0), ONE(i), out, size, &detail);
        if (status == IRIKIT_BAD_BASE) {
            refused(status);
            break;
        }
        if (i == 1) printf("ok");
        if (status == IRIKIT_OK) hex(out, detail);
        else printf(" ~");
    }
    free(out);
}

static void answer(void) {
    uint32_t grammar = number(GRAMMARS, IRIKIT_URI, words[1]), mode = number(MODES, IRIKIT_NORMAL, words[2]), kind = number(KINDS, IRIKIT_REFERENCE, words[2]);
    uint32_t in = number(PLACES, IRIKIT_IN_REG_NAME, words[2]);
    const char *call = words[0];
#define IS(name) strcmp(call, name) == 0
    if (IS("canonical")) WRITES(irikit_canonical(grammar, mode, ONE(0), ONE(1), out, size, &detail));
    else if (IS("uri")) WRITES(irikit_canonical_to_uri(mode, ONE(0), ONE(1), out, size, &detail));
    else if (IS("resolve")) WRITES(irikit_resolve(grammar, ONE(0), ONE(1), out, size, &detail));
    else if (IS("target")) WRITES(irikit_target(grammar, ONE(0), ONE(1), out, size, &detail));
    else if (IS("normalize")) WRITES(irikit_normalize(grammar, mode, ONE(0), out, size, &detail));
    else if (IS("steps")) WRITES(irikit_steps(grammar, mode, ONE(0), out, size, &detail));
    else if (IS("map")) WRITES(irikit_map_to_uri(ONE(0), out, size, &detail));
    else if (IS("encode")) WRITES(irikit_encode(grammar, in, ONE(0), out, size, &detail));
    else if (IS("decode")) WRITES(irikit_decode(ONE(0), out, size, &detail));
    else if (IS("mask")) WRITES(irikit_mask_password(grammar, ONE(0), out, size, &detail));
    else if (IS("remove")) WRITES(irikit_remove_password(grammar, ONE(0), out, size, &detail));
    else if (IS("password")) WRITES(irikit_replace_password(grammar, ONE(0), ONE(1), out, size, &detail));
    else if (IS("fragment") && texts[1].bytes) WRITES(irikit_set_fragment(grammar, ONE(0), ONE(1), out, size, &detail));
    else if (IS("fragment")) WRITES(irikit_remove_fragment(grammar, ONE(0), out, size, &detail));
    else if (IS("host")) WRITES(irikit_replace_host(grammar, ONE(0), ONE(1), out, size, &detail));
    else if (IS("name")) WRITES(irikit_replace_reg_name(grammar, ONE(0), ONE(1), out, size, &detail));
    else if (IS("split")) split(grammar);
    else if (IS("build")) build(grammar, kind);
    else if (IS("fault")) fault(grammar, kind);
    else if (IS("expand")) expand(grammar, words[2]);
    else if (IS("names")) names();
    else if (IS("lines")) lines(grammar, mode);
    else if (IS("pairs")) pairs(grammar, mode);
    else if (IS("many")) many(grammar, mode);
    else if (IS("normal")) {
        uint8_t status = irikit_is_normalized(grammar, mode, ONE(0), &detail);
        if (status == IRIKIT_OK || status == IRIKIT_NOT_NORMAL) printf(status == IRIKIT_OK ? "ok yes" : "ok no");
        else refused(status);
    }
}

int main(void) {
    char *line = NULL;
    size_t room = 0;
    while (getline(&line, &room, stdin) > 0) {
        size_t found = 0;
        for (char *word = strtok(line, " \n"); word && found < MOST; word = strtok(NULL, " \n")) words[found++] = word;
        count = found - 3;
        for (size_t i = 0; i < count; i++) texts[i] = text(words[i + 3]);
        answer();
        putchar('\n');
    }
    free(line);
    return 0;
}
