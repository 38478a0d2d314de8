/* irikit: canonical texts of URI and IRI references (RFC 3986, RFC 3987), by proved code.
 *
 * How texts cross: each text is a pointer and a length in bytes. It needs no NUL at its end, and may have NULs in it (no
 * grammar takes them). A length may be 0, and then its pointer may be NULL. No call writes a NUL.
 *
 * What the caller owes: each pointer points to as many bytes as its length says; the pointers to what is written besides
 * `out` aren't NULL; no other thread writes to what is passed while the call runs; what is written overlaps with nothing
 * else that is passed.
 *
 * What it runs on: Linux with x86-64 or arm64, and glibc 2.17 or later. For x86-64 it is compiled for x86-64-v2 (processors of 2009 and
 * later): on another processor the loader, or the library as it is loaded, says so, and the process ends with 127.
 *
 * What each call does: it reads what is passed, writes to `out` and to what its comment names, allocates nothing, keeps
 * nothing, and returns. (irikit_robots_rules, irikit_robots_allows and irikit_run allocate, and free all of it.) So calls may run
 * in several threads at once, each with its own `out` and `detail`.
 *
 * Stack, as measured on x86-64: a call needs at most 6 KiB; where it removes dot segments from a long path, half a KiB more for each
 * doubling of its length: 8 KiB for a path of 64 KiB, 10 KiB for a mebibyte, 13 KiB for 64 MiB. irikit_run needs 2 KiB more than
 * that, 24 KiB for `docs`, and 128 KiB for its most deeply nested document.
 *
 * Numbers: those of the enums below but statuses differ from each other, so that one in the place of another, as a mode for a
 * grammar, is answered as unknown. So is every other number.
 *
 * Statuses: each call but irikit_run and irikit_version returns one of irikit_status, and always writes `detail`, the number that
 * goes with it:
 *
 *   IRIKIT_OK, IRIKIT_SHORT   where a text is written: its length in bytes; of a template's variables: how many there are.
 *                             Otherwise 0
 *   IRIKIT_BAD_..             the kind of the first fault from the left, one of irikit_fault, or of a template one of
 *                             irikit_template_fault; of IRIKIT_BAD_VARIABLE and IRIKIT_BAD_TOKEN 0
 *   IRIKIT_NOT_NORMAL, IRIKIT_UNKNOWN, IRIKIT_NO_HOST, IRIKIT_MEMORY, IRIKIT_DISALLOWED   0
 *
 * Where more than one status would be right, the first of these is returned, unless a call's comment says otherwise: IRIKIT_UNKNOWN;
 * IRIKIT_BAD_TEXT or IRIKIT_BAD_BASE; IRIKIT_BAD_REFERENCE; IRIKIT_BAD_PART; IRIKIT_NO_HOST; IRIKIT_SHORT.
 *
 * A text that is written stands at the start of `out`, and what comes after it stays as it was. Where it is longer than
 * `size`, `out` holds its first `size` bytes, the status is IRIKIT_SHORT, and `detail` is the size that is wanted: so a call
 * with size 0 measures. At every other status `out` stays as it was. irikit_canonical_lines, irikit_canonical_pairs and
 * irikit_run say in their comments what they write of more than has room.
 */
#ifndef IRIKIT_H
#define IRIKIT_H

#include <stddef.h>
#include <stdint.h>

#ifdef __cplusplus
extern "C" {
#endif

/* The version of this header as one number: 10000 * MAJOR + 100 * MINOR + PATCH. */
#define IRIKIT_VERSION 200

/* The version of the library that runs, as one number. So a caller sees whether it is the one that he was compiled for.
 *
 * Takes, writes: nothing.
 * Returns: 10000 * MAJOR + 100 * MINOR + PATCH.
 *
 *   irikit_version();  // IRIKIT_VERSION */
uint32_t irikit_version(void);

/* What a call returns. */
enum irikit_status {
    IRIKIT_OK = 0,            /* done; of a test: yes */
    IRIKIT_SHORT = 1,         /* the text is longer than the buffer */
    IRIKIT_NOT_NORMAL = 2,    /* the text is valid, and isn't its own normal form */
    IRIKIT_BAD_TEXT = 3,      /* the text is refused */
    IRIKIT_BAD_BASE = 4,      /* the base is refused */
    IRIKIT_BAD_REFERENCE = 5, /* the base is valid, and the reference is refused */
    IRIKIT_UNKNOWN = 6,       /* a number for a grammar, a mode, a kind, a place, a fault or a part stands for none */
    IRIKIT_BAD_VARIABLE = 7,  /* a variable hasn't as many texts as its kind asks, or has one that isn't UTF-8 */
    IRIKIT_BAD_PART = 8,      /* the text is valid, or there is none yet, and what is to stand in it is refused */
    IRIKIT_NO_HOST = 9,       /* the text has no host, or none of the kind that may be replaced */
    IRIKIT_MEMORY = 10,       /* allocation failed */
    IRIKIT_BAD_TOKEN = 11,    /* the crawler's product token is none */
    IRIKIT_DISALLOWED = 12    /* the rules don't allow the target */
};

/* The grammars. */
enum irikit_grammar {
    IRIKIT_URI = 100, /* RFC 3986: ASCII alone */
    IRIKIT_IRI = 101  /* RFC 3987: characters past ASCII too, as UTF-8 */
};

/* The modes of normal form. */
enum irikit_mode {
    IRIKIT_NORMAL = 200,    /* RFC 3986 section 6.2.2, and an empty port removed (section 6.2.3) */
    IRIKIT_BY_SCHEME = 201, /* that, without the default port of http, https, ws, wss and ftp, and with `/` for an empty path
                               beside an authority (section 6.2.3) */
    IRIKIT_PRESERVING = 202 /* as IRIKIT_NORMAL, but a path without authority that doesn't begin with a slash keeps its dot
                               segments; of irikit_normalize and irikit_is_normalized alone */
};

/* The kinds of whole texts. */
enum irikit_kind {
    IRIKIT_REFERENCE = 300,   /* URI-reference (RFC 3986 section 4.1) */
    IRIKIT_WITH_SCHEME = 301, /* URI (section 3) */
    IRIKIT_ABSOLUTE = 302,    /* absolute-URI: with a scheme and without a fragment (section 4.3) */
    IRIKIT_RELATIVE = 303     /* relative-ref: without a scheme (section 4.2) */
};

/* The places of a reference, by what stands as it is there beside `unreserved` and, in IRIs, characters past ASCII. */
enum irikit_place {
    IRIKIT_IN_REG_NAME = 400,   /* sub-delims (RFC 3986 section 3.2.2) */
    IRIKIT_IN_USER = 401,       /* sub-delims: the user or the password (section 3.2.1) */
    IRIKIT_IN_SEGMENT = 402,    /* sub-delims : @ (section 3.3) */
    IRIKIT_IN_PATH = 403,       /* sub-delims : @ / (section 3.3) */
    IRIKIT_IN_QUERY = 404,      /* sub-delims : @ / ? (section 3.4) */
    IRIKIT_IN_FRAGMENT = 405,   /* sub-delims : @ / ? (section 3.5) */
    IRIKIT_ANYWHERE = 406,      /* nothing (section 2.3) */
    IRIKIT_IN_REFERENCE = 407   /* sub-delims and gen-delims (section 2.2) */
};

/* The kinds of faults. irikit_fault_words gives the words for them. */
enum irikit_fault {
    IRIKIT_INVALID_SCHEME = 500,
    IRIKIT_INVALID_USERINFO = 501,
    IRIKIT_INVALID_HOST = 502,
    IRIKIT_INVALID_REG_NAME = 503,
    IRIKIT_INVALID_PORT = 504,
    IRIKIT_INVALID_PATH = 505,
    IRIKIT_INVALID_QUERY = 506,
    IRIKIT_INVALID_FRAGMENT = 507,
    IRIKIT_UNEXPECTED_FRAGMENT = 508, /* a fragment in an absolute URI */
    IRIKIT_UNEXPECTED_RELATIVE = 509, /* no scheme where one must stand */
    IRIKIT_INVALID_UTF8 = 510
};

/* The offset of a part that doesn't stand in the text. An empty part has an offset, and the length 0. */
#define IRIKIT_NOWHERE SIZE_MAX

/* Where a part stands in its text, in bytes. */
struct irikit_slot {
    size_t offset;
    size_t len;
};

/* Where the parts of a reference stand, without the delimiters around them, and where those of its authority do. The path
 * always stands; the host stands where the authority does. */
struct irikit_parts {
    struct irikit_slot scheme;
    struct irikit_slot authority;
    struct irikit_slot path;
    struct irikit_slot query;
    struct irikit_slot fragment;
    struct irikit_slot userinfo;
    struct irikit_slot host;
    struct irikit_slot port;
};

/* A text inside a struct. Where `len` is 0, `bytes` may be NULL. */
struct irikit_text {
    const char *bytes;
    size_t len;
};

/* ---- Texts ---- */

/* Whether a text is of a kind, by its first fault.
 *
 * Takes: the number of a grammar and of a kind; the text.
 * Writes: nothing but `*detail`.
 * Returns: IRIKIT_OK: it is; IRIKIT_BAD_TEXT: it isn't; IRIKIT_UNKNOWN: grammar or kind.
 *
 *   irikit_validate(IRIKIT_URI, IRIKIT_REFERENCE, "../b", 4, &detail);    // IRIKIT_OK
 *   irikit_validate(IRIKIT_URI, IRIKIT_WITH_SCHEME, "../b", 4, &detail);  // IRIKIT_BAD_TEXT, detail IRIKIT_UNEXPECTED_RELATIVE */
uint8_t irikit_validate(uint32_t grammar, uint32_t kind, const char *text, size_t len, size_t *detail);

/* The words for a kind of fault, as `irikit canon` answers them, in ASCII.
 *
 * Takes: the number of a kind of fault; a buffer, for which 64 bytes suffice.
 * Writes: the words to `out`.
 * Returns: IRIKIT_OK; IRIKIT_SHORT; IRIKIT_UNKNOWN: no kind has this number.
 *
 *   irikit_fault_words(IRIKIT_INVALID_PATH, out, sizeof out, &detail);  // "invalid path" */
uint8_t irikit_fault_words(size_t fault, char *out, size_t size, size_t *detail);

/* Where the part of a text stands that has a kind of fault, as another call returned it for that text: the part that the fault names, in
 * the split of the text by its first delimiters, whatever stands in its parts. A scheme is cut off only where what stands before
 * the first `:` is one; otherwise the whole is read as relative: as a reference `1a:b` has a faulty path, and no scheme.
 *
 *   IRIKIT_INVALID_SCHEME       what stands before the first `:`
 *   IRIKIT_UNEXPECTED_RELATIVE  the start of the text, with length 0
 *   IRIKIT_INVALID_UTF8         all that follows the longest front of the text that is UTF-8; so also of every other kind of
 *                               fault, where the text isn't UTF-8
 *
 * The part of the fault that irikit_validate tells of a text as this kind stands in the text, and isn't in the production of its
 * name.
 *
 * Takes: the number of the kind of text that was wanted: of IRIKIT_RELATIVE it is split without a scheme; the number of a kind of
 * fault; the text.
 * Writes: `part`, where the status is IRIKIT_OK; otherwise it stays as it was. Its offset is IRIKIT_NOWHERE where the text has no
 * such part, and so hasn't this fault.
 * Returns: IRIKIT_OK; IRIKIT_UNKNOWN: kind or fault.
 *
 *   const char *text = "//u@h h:8/p";
 *   irikit_fault_part(IRIKIT_REFERENCE, IRIKIT_INVALID_HOST, text, 11, &part, &detail);
 *   fwrite(text + part.offset, 1, part.len, stdout);  // "h h" */
uint8_t irikit_fault_part(uint32_t kind, size_t fault, const char *text, size_t len, struct irikit_slot *part, size_t *detail);

/* The parts of a reference.
 *
 * Takes: the number of a grammar; the text.
 * Writes: `parts`, where the status is IRIKIT_OK; otherwise it stays as it was.
 * Returns: IRIKIT_OK; IRIKIT_BAD_TEXT: it is no reference; IRIKIT_UNKNOWN: grammar.
 *
 *   const char *text = "//u@h:8/p";
 *   irikit_split(IRIKIT_URI, text, 9, &parts, &detail);
 *   fwrite(text + parts.host.offset, 1, parts.host.len, stdout);  // "h" */
uint8_t irikit_split(uint32_t grammar, const char *text, size_t len, struct irikit_parts *parts, size_t *detail);

/* The normal form of a text with a scheme (RFC 3986 section 6.2.2; by scheme rules section 6.2.3).
 *
 * Takes: the number of a grammar and of a mode; the text, a URI of the grammar; a buffer.
 * Writes: the normal form to `out`. It has at most len + 3 bytes.
 * Returns: IRIKIT_OK; IRIKIT_SHORT; IRIKIT_BAD_TEXT: it is no URI; IRIKIT_UNKNOWN: grammar or mode.
 *
 *   irikit_normalize(IRIKIT_URI, IRIKIT_BY_SCHEME, "HTTP://a:80", 11, out, sizeof out, &detail);  // "http://a/" */
uint8_t irikit_normalize(uint32_t grammar, uint32_t mode, const char *text, size_t len, char *out, size_t size, size_t *detail);

/* Whether a text with a scheme is its own normal form.
 *
 * Takes: the number of a grammar and of a mode; the text, a URI of the grammar.
 * Writes: nothing but `*detail`.
 * Returns: IRIKIT_OK: it is; IRIKIT_NOT_NORMAL: it isn't; IRIKIT_BAD_TEXT: it is no URI; IRIKIT_UNKNOWN: grammar or mode.
 *
 *   irikit_is_normalized(IRIKIT_URI, IRIKIT_NORMAL, "http://a:80/", 12, &detail);     // IRIKIT_OK
 *   irikit_is_normalized(IRIKIT_URI, IRIKIT_BY_SCHEME, "http://a:80/", 12, &detail);  // IRIKIT_NOT_NORMAL */
uint8_t irikit_is_normalized(uint32_t grammar, uint32_t mode, const char *text, size_t len, size_t *detail);

/* The steps that lead a text with a scheme to its normal form (RFC 3986 section 6.2.2; by scheme rules section 6.2.3), from
 * left to right, in words:
 *
 *   scheme letter N      the capital at N of the scheme becomes small
 *   host letter N        the capital at N of the authority becomes small
 *   hex digit PART N     the small hex digit at N of a percent-encoded octet becomes a capital
 *   decode PART N        the percent-encoded character at N becomes itself
 *   empty port           the empty port goes with its colon
 *   dot segments         the dot segments of the path go; a `/.` stays where no authority does and `//` would follow it
 *   default port         the scheme's default port goes with its colon
 *   empty path           the empty path becomes `/`
 *
 * PART is `authority`, `path`, `query` or `fragment`. N counts bytes from the start of that part, as it is once the steps
 * before are done; dot segments go last of the path.
 *
 * Takes: the number of a grammar; IRIKIT_NORMAL or IRIKIT_BY_SCHEME; the text, a URI of the grammar; a buffer.
 * Writes: to `out`, the steps, each with an LF after it: nothing where the text is its own normal form.
 * Returns: IRIKIT_OK; IRIKIT_SHORT; IRIKIT_BAD_TEXT: it is no URI; IRIKIT_UNKNOWN: grammar or mode.
 *
 *   irikit_steps(IRIKIT_URI, IRIKIT_BY_SCHEME, "Http://a:80/%7e", 15, out, sizeof out, &detail);
 *   fwrite(out, 1, detail, stdout);  // "scheme letter 0\ndecode path 1\ndefault port\n" */
uint8_t irikit_steps(uint32_t grammar, uint32_t mode, const char *text, size_t len, char *out, size_t size, size_t *detail);

/* A reference of IRIs, mapped to one of URIs (RFC 3987 section 3.1): each character past ASCII becomes the
 * percent-encoded octets of its UTF-8.
 *
 * Takes: the text, a URI-reference of IRIs; a buffer.
 * Writes: the mapped text to `out`. It has at most 3 * len bytes.
 * Returns: IRIKIT_OK; IRIKIT_SHORT; IRIKIT_BAD_TEXT: it is no reference of IRIs.
 *
 *   irikit_map_to_uri("http://a/\xC3\xA9", 11, out, sizeof out, &detail);  // "http://a/%C3%A9" */
uint8_t irikit_map_to_uri(const char *text, size_t len, char *out, size_t size, size_t *detail);

/* A raw text, percent-encoded for its place in a reference (RFC 3986 sections 2.1 and 2.4): what may not stand there, `%`
 * among it, becomes the percent-encoded octets of its UTF-8.
 *
 * Takes: the number of a grammar and of a place; the text, in UTF-8; a buffer.
 * Writes: the encoded text to `out`. It has at most 3 * len bytes.
 * Returns: IRIKIT_BAD_TEXT: it isn't UTF-8, whatever the numbers are; then IRIKIT_UNKNOWN: grammar or place; IRIKIT_SHORT;
 * IRIKIT_OK.
 *
 *   irikit_encode(IRIKIT_URI, IRIKIT_IN_SEGMENT, "50% off/a", 9, out, sizeof out, &detail);  // "50%25%20off%2Fa" */
uint8_t irikit_encode(uint32_t grammar, uint32_t place, const char *text, size_t len, char *out, size_t size, size_t *detail);

/* The bytes that a text decodes to (the URL Standard, section 1.3): each percent-encoded octet gives its byte, and
 * all else, a `%` that begins none among it, stays. They needn't be UTF-8.
 *
 * Takes: any bytes; a buffer.
 * Writes: the decoded bytes to `out`. They are at most `len`.
 * Returns: IRIKIT_OK; IRIKIT_SHORT.
 *
 *   irikit_decode("50%25%20off%2Fa", 15, out, sizeof out, &detail);  // "50% off/a" */
uint8_t irikit_decode(const char *text, size_t len, char *out, size_t size, size_t *detail);

/* ---- Links ---- */

/* The canonical text of a reference: resolved against the base (RFC 3986 section 5.2), in normal form.
 *
 * Takes: the number of a grammar and of a mode; the base, an absolute-URI of the grammar; the reference, which may be a URI;
 * a buffer.
 * Writes: the canonical text to `out`. It has at most base_len + reference_len + 3 bytes.
 * Returns: IRIKIT_OK; IRIKIT_SHORT; IRIKIT_BAD_BASE, IRIKIT_BAD_REFERENCE: the first fault of the one or the other, the base
 * first; IRIKIT_UNKNOWN: grammar or mode.
 * Time: each call reads its base, so many references against one take at most half in irikit_canonical_lines.
 *
 *   irikit_canonical(IRIKIT_URI, IRIKIT_NORMAL, "http://A/b", 10, "%7e", 3, out, sizeof out, &detail);  // "http://a/~"
 *   irikit_canonical(IRIKIT_URI, IRIKIT_NORMAL, "http://A/b", 10, "%", 1, out, sizeof out, &detail);  // IRIKIT_BAD_REFERENCE */
uint8_t irikit_canonical(uint32_t grammar, uint32_t mode, const char *base, size_t base_len, const char *reference,
                         size_t reference_len, char *out, size_t size, size_t *detail);

/* The canonical text of a reference of IRIs, mapped to a URI (RFC 3987 section 3.1): each character past ASCII becomes the
 * percent-encoded octets of its UTF-8. It is what irikit_canonical by IRIKIT_IRI gives, mapped, and so the canonical text by IRIKIT_URI of
 * base and reference, both mapped. A host past ASCII becomes percent-encoded octets too, and not Punycode (IDNA): a client that looks it up
 * in the DNS makes Punycode of it.
 *
 * Takes: the number of a mode; the base, an absolute-URI of IRIs; the reference; a buffer.
 * Writes: the URI to `out`. It has at most 3 * (base_len + reference_len + 3) bytes.
 * Returns: as irikit_canonical; IRIKIT_UNKNOWN: mode.
 *
 *   irikit_canonical_to_uri(IRIKIT_NORMAL, "http://a/", 9, "\xC3\xA9", 2, out, sizeof out, &detail);  // "http://a/%C3%A9" */
uint8_t irikit_canonical_to_uri(uint32_t mode, const char *base, size_t base_len, const char *reference, size_t reference_len,
                                char *out, size_t size, size_t *detail);

/* A reference resolved against a base (RFC 3986 section 5.2), not in normal form.
 *
 * Takes: the number of a grammar; the base, an absolute-URI of the grammar; the reference, which may be a URI; a buffer.
 * Writes: the resolved text to `out`. It has at most base_len + reference_len + 3 bytes.
 * Returns: IRIKIT_OK; IRIKIT_SHORT; IRIKIT_BAD_BASE, IRIKIT_BAD_REFERENCE: the first fault of the one or the other, the base
 * first; IRIKIT_UNKNOWN: grammar.
 *
 *   irikit_resolve(IRIKIT_URI, "http://A/b/c", 12, "../%7e", 6, out, sizeof out, &detail);  // "http://A/%7e" */
uint8_t irikit_resolve(uint32_t grammar, const char *base, size_t base_len, const char *reference, size_t reference_len,
                       char *out, size_t size, size_t *detail);

/* The target of a reference against a base (RFC 3986 section 5.2.2), with its dot segments.
 *
 * Takes: the number of a grammar; the base, an absolute-URI of the grammar; the reference, which may be a URI; a buffer.
 * Writes: the target to `out`. It has at most base_len + reference_len + 1 bytes.
 * Returns: IRIKIT_OK; IRIKIT_SHORT; IRIKIT_BAD_BASE, IRIKIT_BAD_REFERENCE: the first fault of the one or the other, the base
 * first; IRIKIT_UNKNOWN: grammar.
 *
 *   irikit_target(IRIKIT_URI, "http://A/b/c", 12, "../%7e", 6, out, sizeof out, &detail);  // "http://A/b/../%7e" */
uint8_t irikit_target(uint32_t grammar, const char *base, size_t base_len, const char *reference, size_t reference_len,
                      char *out, size_t size, size_t *detail);

/* ---- Templates ---- */

/* The kinds of values of variables (RFC 6570 section 2.3), and how many texts each has. */
enum irikit_value {
    IRIKIT_UNDEFINED = 600, /* 0 */
    IRIKIT_STRING = 601,    /* 1 */
    IRIKIT_LIST = 602,      /* one for each item */
    IRIKIT_PAIRS = 603      /* two for each pair: its key, then its value */
};

/* A variable. Where `count` is 0, `values` may be NULL. Of two with one name the first counts. */
struct irikit_variable {
    struct irikit_text name;
    size_t kind;
    const struct irikit_text *values;
    size_t count;
};

/* The kinds of faults of templates (RFC 6570 section 2). */
enum irikit_template_fault {
    IRIKIT_EXPRESSION_NOT_CLOSED = 700,
    IRIKIT_INVALID_CHARACTER = 701,
    IRIKIT_INVALID_EXPRESSION = 702,
    IRIKIT_INVALID_PERCENT_ENCODING = 703,
    IRIKIT_TEMPLATE_INVALID_UTF8 = 704,
    IRIKIT_UNEXPECTED_VALUE_TYPE = 705, /* a prefix modifier on a list, or on pairs, that isn't empty */
    IRIKIT_UNSUPPORTED_OPERATOR = 706
};

/* The expansion of a URI template (RFC 6570 section 3).
 *
 * Takes: the number of a grammar; the template; variables; a buffer.
 * Writes: the expansion to `out`; `*place`, which is 0 at every status but the two below.
 * Returns: IRIKIT_BAD_VARIABLE: `*place` is the index of the first such variable, whatever grammar and template are; then
 * IRIKIT_UNKNOWN: grammar; IRIKIT_BAD_TEXT: `*detail` is the template's first fault, one of irikit_template_fault, and `*place` its
 * place in bytes; IRIKIT_SHORT; IRIKIT_OK.
 * Time: since nothing is allocated, variables are looked through for each name of the template. So it grows with the names times
 * `count`: 1,000 of each take 2 ms, 10,000 of each 75 ms.
 *
 *   struct irikit_text word = {"two words", 9};
 *   struct irikit_variable q = {{"q", 1}, IRIKIT_STRING, &word, 1};
 *   irikit_expand(IRIKIT_URI, "/s{?q}", 6, &q, 1, out, sizeof out, &detail, &place);  // "/s?q=two%20words" */
uint8_t irikit_expand(uint32_t grammar, const char *template_text, size_t template_len,
                      const struct irikit_variable *variables, size_t count, char *out, size_t size, size_t *detail,
                      size_t *place);

/* Where the names of a template's variables stand, from left to right, each as often as it stands there; or the template's
 * first fault.
 *
 * Takes: the template; `count` slots, of which no template wants more than template_len / 2.
 * Writes: to the start of `names`, where each name stands, as far as there is room; to `*detail`, how many names there are;
 * `*place`, which is 0 but at IRIKIT_BAD_TEXT.
 * Returns: IRIKIT_OK: it is a template; IRIKIT_SHORT: it has more than `count` names; IRIKIT_BAD_TEXT: `*detail` is its first
 * fault, one of irikit_template_fault, and `*place` its place in bytes; then `names` stays as it was.
 *
 *   const char *text = "/s{?q,n*}";
 *   irikit_template_variables(text, 9, names, 4, &detail, &place);  // IRIKIT_OK, detail 2
 *   fwrite(text + names[1].offset, 1, names[1].len, stdout);  // "n"
 *   irikit_template_variables("/s{", 3, names, 4, &detail, &place);  // IRIKIT_BAD_TEXT, place 2 */
uint8_t irikit_template_variables(const char *template_text, size_t template_len, struct irikit_slot *names, size_t count,
                                  size_t *detail, size_t *place);

/* The words for a kind of fault of a template, as `irikit expand` answers them, in ASCII.
 *
 * Takes: the number of a kind, one of irikit_template_fault; a buffer, for which 64 bytes suffice.
 * Writes: the words to `out`.
 * Returns: IRIKIT_OK; IRIKIT_SHORT; IRIKIT_UNKNOWN: no kind has this number.
 *
 *   irikit_template_fault_words(IRIKIT_EXPRESSION_NOT_CLOSED, out, sizeof out, &detail);  // "expression not closed" */
uint8_t irikit_template_fault_words(size_t fault, char *out, size_t size, size_t *detail);

/* ---- Edits ---- */

/* A reference without its password: what follows the first `:` of its userinfo (RFC 3986 section 3.2.1) is omitted.
 *
 * Takes: the number of a grammar; the text, a URI-reference of the grammar; a buffer.
 * Writes: the masked text to `out`. It has at most `len` bytes.
 * Returns: IRIKIT_OK; IRIKIT_SHORT; IRIKIT_BAD_TEXT; IRIKIT_UNKNOWN: grammar.
 *
 *   irikit_mask_password(IRIKIT_URI, "http://u:pw@h/", 14, out, sizeof out, &detail);  // "http://u:@h/" */
uint8_t irikit_mask_password(uint32_t grammar, const char *text, size_t len, char *out, size_t size, size_t *detail);

/* A reference without its password and the `:` before it.
 *
 * Takes: the number of a grammar; the text, a URI-reference of the grammar; a buffer.
 * Writes: the text to `out`. It has at most `len` bytes.
 * Returns: IRIKIT_OK; IRIKIT_SHORT; IRIKIT_BAD_TEXT; IRIKIT_UNKNOWN: grammar.
 *
 *   irikit_remove_password(IRIKIT_URI, "http://u:pw@h/", 14, out, sizeof out, &detail);  // "http://u@h/" */
uint8_t irikit_remove_password(uint32_t grammar, const char *text, size_t len, char *out, size_t size, size_t *detail);

/* A reference with another text in place of its password; one without a colon in its userinfo stays as it is. The new text
 * is written as it stands, so the whole is a reference again only where it may stand in a userinfo (IRIKIT_IN_USER encodes
 * it so).
 *
 * Takes: the number of a grammar; the text, a URI-reference of the grammar; the new password, in UTF-8; a buffer.
 * Writes: the text to `out`. It has at most len + password_len bytes.
 * Returns: IRIKIT_OK; IRIKIT_SHORT; IRIKIT_BAD_TEXT; IRIKIT_BAD_PART: the password isn't UTF-8; IRIKIT_UNKNOWN: grammar.
 *
 *   irikit_replace_password(IRIKIT_URI, "http://u:pw@h/", 14, "***", 3, out, sizeof out, &detail);  // "http://u:***@h/" */
uint8_t irikit_replace_password(uint32_t grammar, const char *text, size_t len, const char *password, size_t password_len,
                                char *out, size_t size, size_t *detail);

/* A reference without its fragment and the `#` before it (RFC 3986 section 3.5).
 *
 * Takes: the number of a grammar; the text, a URI-reference of the grammar; a buffer.
 * Writes: the text to `out`. It has at most `len` bytes.
 * Returns: IRIKIT_OK; IRIKIT_SHORT; IRIKIT_BAD_TEXT; IRIKIT_UNKNOWN: grammar.
 *
 *   irikit_remove_fragment(IRIKIT_URI, "a?b#c", 5, out, sizeof out, &detail);  // "a?b" */
uint8_t irikit_remove_fragment(uint32_t grammar, const char *text, size_t len, char *out, size_t size, size_t *detail);

/* A reference with a fragment in place of its own, or after a text that has none (RFC 3986 section 3.5).
 *
 * Takes: the number of a grammar; the text, a URI-reference of the grammar; the fragment without `#`; a buffer.
 * Writes: the text to `out`. It has at most len + fragment_len + 1 bytes.
 * Returns: IRIKIT_OK; IRIKIT_SHORT; IRIKIT_BAD_TEXT; IRIKIT_BAD_PART: the fragment's first fault; IRIKIT_UNKNOWN: grammar.
 *
 *   irikit_set_fragment(IRIKIT_URI, "a?b#c", 5, "d", 1, out, sizeof out, &detail);  // "a?b#d" */
uint8_t irikit_set_fragment(uint32_t grammar, const char *text, size_t len, const char *fragment, size_t fragment_len,
                            char *out, size_t size, size_t *detail);

/* A reference with another host in place of its own (RFC 3986 section 3.2.2).
 *
 * Takes: the number of a grammar; the text, a URI-reference of the grammar; the new host, an IP literal with its brackets; a
 * buffer.
 * Writes: the text to `out`. It has at most len + host_len bytes.
 * Returns: IRIKIT_OK; IRIKIT_SHORT; IRIKIT_BAD_TEXT; IRIKIT_BAD_PART: the new host is none; IRIKIT_NO_HOST: the text has no
 * authority; IRIKIT_UNKNOWN: grammar.
 *
 *   irikit_replace_host(IRIKIT_URI, "http://a:80/", 12, "[::1]", 5, out, sizeof out, &detail);  // "http://[::1]:80/" */
uint8_t irikit_replace_host(uint32_t grammar, const char *text, size_t len, const char *host, size_t host_len, char *out,
                            size_t size, size_t *detail);

/* A reference with another host in place of a registered name (RFC 3986 section 3.2.2).
 *
 * Takes, writes: as irikit_replace_host.
 * Returns: as irikit_replace_host; IRIKIT_NO_HOST also where the text's host is an IP literal or an IPv4 address.
 *
 *   irikit_replace_reg_name(IRIKIT_URI, "//192.0.2.16/", 13, "a", 1, out, sizeof out, &detail);  // IRIKIT_NO_HOST */
uint8_t irikit_replace_reg_name(uint32_t grammar, const char *text, size_t len, const char *host, size_t host_len, char *out,
                                size_t size, size_t *detail);

/* The parts that a text is built from. */
enum irikit_part {
    IRIKIT_SCHEME = 800,
    IRIKIT_USERINFO = 801,
    IRIKIT_HOST = 802,
    IRIKIT_PORT = 803,
    IRIKIT_PATH = 804,
    IRIKIT_QUERY = 805,
    IRIKIT_FRAGMENT = 806
};

/* A part that is given: its number, and its text without the delimiters around it (a host with its brackets). */
struct irikit_given {
    size_t part;
    struct irikit_text text;
};

/* A text built from parts (RFC 3986 section 5.3). A part that isn't given is absent, and the path is empty then; an authority
 * stands where userinfo, host or port is given. Of two of one part the later counts.
 *
 * Takes: the number of a grammar and of a kind; parts, in any order; a buffer.
 * Writes: the text to `out`. It has at most 7 bytes more than the texts of the parts together.
 * Returns: IRIKIT_UNKNOWN: a part; then IRIKIT_BAD_PART, `*detail` IRIKIT_INVALID_UTF8: a text isn't UTF-8, whatever grammar and kind
 * are; then IRIKIT_UNKNOWN: grammar or kind; then IRIKIT_BAD_PART: the parts make no text of the kind: `*detail` is the first faulty part's
 * kind of fault, in the order of irikit_part, then what the kind refuses, then IRIKIT_INVALID_PATH for a path that can't stand there
 * (section 3.3); IRIKIT_SHORT; IRIKIT_OK.
 *
 *   struct irikit_given parts[] = {{IRIKIT_SCHEME, {"http", 4}}, {IRIKIT_HOST, {"a", 1}}, {IRIKIT_PATH, {"/b", 2}}};
 *   irikit_build(IRIKIT_URI, IRIKIT_WITH_SCHEME, parts, 3, out, sizeof out, &detail);  // "http://a/b" */
uint8_t irikit_build(uint32_t grammar, uint32_t kind, const struct irikit_given *parts, size_t count, char *out, size_t size,
                     size_t *detail);

/* ---- Many lines ---- */

/* Many references against one base: what irikit_canonical gives for each line, in one call.
 *
 * Takes: the number of a grammar and of a mode; the base, an absolute-URI of the grammar; lines, each ended by an LF. One CR
 * before the LF isn't part of the reference; what follows the last LF is left alone. A buffer.
 * Writes: to `out`, the answers one after the other, each `ok TEXT` or `bad WORDS` and an LF, as far as there is room; to
 * `*detail`, how many bytes the answers have that stand there whole; to `*consumed`, how many bytes of `lines` these answer,
 * LFs among them. So the next call goes on with `lines + *consumed`.
 * Returns: IRIKIT_OK: all lines are answered; IRIKIT_SHORT: the next answer has no room (one has at most the line's length +
 * base_len + 7 bytes, or 64); IRIKIT_BAD_BASE: `*detail` is its first fault; IRIKIT_UNKNOWN: grammar or mode. At the last two
 * `*consumed` is 0.
 * Time: at most 6 % more instructions than `irikit canon` takes. But since nothing is allocated, dot segments of the base are removed, and
 * its path and query put into normal form, for each line anew. So with such a base it grows with the lines times the base's length; `canon`
 * by irikit_run does so once for all lines.
 *
 *   irikit_canonical_lines(IRIKIT_URI, IRIKIT_NORMAL, "http://a/b", 10, "c\n../d\n", 7, out, sizeof out, &consumed, &detail);
 *   fwrite(out, 1, detail, stdout);  // "ok http://a/c\nok http://a/d\n" */
uint8_t irikit_canonical_lines(uint32_t grammar, uint32_t mode, const char *base, size_t base_len, const char *lines,
                               size_t lines_len, char *out, size_t size, size_t *consumed, size_t *detail);

/* Many references, each against a page of its own: what irikit_canonical gives for each line, in one call. Each answer is that of its
 * own line alone, so a list of pairs may be cut at any LF. A page that is that of the line before isn't read again.
 *
 * Takes: the number of a grammar and of a mode; lines, each ended by an LF: a page, which is an absolute-URI of the grammar, a tab, and a
 * reference. A second tab is a fault of the reference. One CR before the LF isn't part of the reference; what follows the last LF is left
 * alone. A buffer.
 * Writes: to `out`, the answers one after the other, each with an LF, as far as there is room: `ok TEXT`; `bad WORDS` for the reference's
 * first fault; `base WORDS` for the page's, which is judged first; `bad line` where there is no tab. To `*detail`, how many bytes the
 * answers have that stand there whole; to `*consumed`, how many bytes of `lines` these answer, LFs among them. So the next call goes on
 * with `lines + *consumed`.
 * Returns: IRIKIT_OK: all lines are answered; IRIKIT_SHORT: the next answer has no room (one has at most the line's length + 6 bytes, or
 * 64); IRIKIT_UNKNOWN: grammar or mode, and `*consumed` is 0.
 * Time: as of irikit_canonical_lines, with dot segments of the page's path.
 *
 *   const char *pairs = "http://a/b\tc\nhttp://h/\t%\n";
 *   irikit_canonical_pairs(IRIKIT_URI, IRIKIT_NORMAL, pairs, strlen(pairs), out, sizeof out, &consumed, &detail);
 *   fwrite(out, 1, detail, stdout);  // "ok http://a/c\nbad invalid path\n" */
uint8_t irikit_canonical_pairs(uint32_t grammar, uint32_t mode, const char *lines, size_t lines_len, char *out, size_t size,
                               size_t *consumed, size_t *detail);

/* ---- Robots files ---- */

/* The rules of a robots file for one crawler (RFC 9309 section 2.2), as lines that irikit_robots_allows reads: so a file is read once,
 * and many links are judged. They are the rules of the groups whose user-agent is the token without case, or where no line names it, of
 * those of `*` (section 2.2.1).
 *
 * Takes: the crawler's product token: one or more ASCII letters, `_` and `-`; the file, whose lines end in CR, LF or both, and may be
 * any bytes: a line that isn't UTF-8, or is no user-agent line and no rule, is ignored; a buffer. It allocates.
 * Writes: to `out`, the rules in the order of the file, each `allow PATTERN` or `disallow PATTERN` and an LF; patterns mapped to URIs
 * and in triplet normal form, as they are compared (section 2.2.2).
 * Returns: IRIKIT_OK; IRIKIT_SHORT; IRIKIT_BAD_TOKEN; IRIKIT_MEMORY.
 *
 *   irikit_robots_rules("bot", 3, "User-agent: *\nDisallow: /a # all\n", 33, out, sizeof out, &detail);  // "disallow /a\n" */
uint8_t irikit_robots_rules(const char *token, size_t token_len, const char *file, size_t file_len, char *out, size_t size,
                            size_t *detail);

/* Whether rules allow a target: the longest pattern in bytes that matches its path and query decides, and an allow rule of patterns
 * that are equally long; what none matches is allowed, and `/robots.txt` always is (RFC 9309 section 2.2.2). `*` in a pattern matches
 * any text, and `$` at its end the end (section 2.2.3). That the target is of the site whose file it is, the caller sees to.
 *
 * Takes: the number of a grammar; rules, a line each, as irikit_robots_rules writes them; the target, a URI of the grammar: what
 * irikit_canonical writes for a link. It allocates.
 * Writes: nothing but `*detail`.
 * Returns: IRIKIT_OK: they do; IRIKIT_DISALLOWED: they don't; IRIKIT_BAD_TEXT: the target is no URI; IRIKIT_UNKNOWN: grammar;
 * IRIKIT_MEMORY.
 *
 *   irikit_robots_allows(IRIKIT_URI, "disallow /a\n", 12, "http://h/b", 10, &detail);   // IRIKIT_OK
 *   irikit_robots_allows(IRIKIT_URI, "disallow /a\n", 12, "http://h/ab", 11, &detail);  // IRIKIT_DISALLOWED */
uint8_t irikit_robots_allows(uint32_t grammar, const char *rules, size_t rules_len, const char *target, size_t len, size_t *detail);

/* ---- Run ---- */

/* The statuses of a run of the program. */
enum irikit_run_status {
    IRIKIT_RUN_OK = 0,            /* the input was read to its end, and no answer is bad (`bad`, of `parts` `{"bad"`, of `pairs` also
                                   * `base`, of `expand` and `docs` also `template`) */
    IRIKIT_RUN_BAD_ANSWER = 1,    /* the input was read to its end, and an answer is bad */
    IRIKIT_RUN_NO_COMMAND = 2,    /* the words are no command */
    IRIKIT_RUN_BAD_BASE = 3,      /* the base, or what stands in its place, is refused */
    IRIKIT_RUN_SHORT = 5,         /* the output has no room: what was written is a prefix of it */
    IRIKIT_RUN_MEMORY = 6,        /* allocation failed; never of words that are no command, of `--help` and of `--version` */
    IRIKIT_RUN_LONG_LINE = 7,     /* a line has more than 1,048,576 bytes */
    IRIKIT_RUN_LONG_INPUT = 8     /* the input has more than 1,073,741,824 bytes */
};

/* What the program `irikit` does with words and an input: canon, pairs, parts, expand, register, links, docs, robots, gen,
 * `--help`, `--version`. It allocates, and has freed all of it when it returns. It looks at the words first: for those that are no command, for
 * `--help` and `--version` it allocates nothing.
 *
 * Takes: the words with one space between each two; the input; a buffer.
 * Writes: the output over the start of `out`; its length in bytes to `*out_len`, whatever the status is.
 * Returns: one of irikit_run_status, which are the program's.
 *
 *   irikit_run("canon uri", 9, "http://a/b\n../c\n", 16, out, sizeof out, &out_len);  // "ok http://a/c\n" */
uint8_t irikit_run(const char *words, size_t words_len, const char *input, size_t input_len, char *out, size_t size,
                   size_t *out_len);

#ifdef __cplusplus
}
#endif

#endif
