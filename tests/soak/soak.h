/* tests/soak/soak: its lines (tests/soak/soak_lines.c), other spellings of them (tests/soak/soak_spellings.c), how the program is asked
 * (tests/soak/soak_asks.c), and what is asked (tests/soak/soak.c, and of inputs from afl-fuzz tests/fuzz/fuzz*.c). */
#ifndef SOAK_H
#define SOAK_H

#include <stddef.h>
#include <stdint.h>
#include <string.h>

struct text {
	const uint8_t *at;
	size_t len;
};

/* Bytes that grow. */
struct bytes {
	uint8_t *at;
	size_t len, room;
};

struct numbers {
	uint64_t state;
};

/* How a reference is read. */
struct reading {
	int iri, by_scheme;
	struct text base;
};
/* The number of its grammar in irikit.h. */
#define GRAMMAR(reading) ((reading).iri ? IRIKIT_IRI : IRIKIT_URI)
/* And that of its mode. */
#define MODE(reading) ((reading).by_scheme ? IRIKIT_BY_SCHEME : IRIKIT_NORMAL)

/* A reference in its parts, of which each but the path may be absent: NULL. */
struct parts {
	struct text scheme, authority, path, query, fragment;
};

void put(struct bytes *to, const void *from, size_t len);
void put_byte(struct bytes *to, uint8_t byte);
void put_text(struct bytes *to, struct text text);
void put_word(struct bytes *to, const char *word);

/* A number below another one. */
uint32_t below(struct numbers *numbers, uint32_t count);

/* The parts of an authority, of which userinfo and port may be absent: NULL. */
struct authority {
	struct text userinfo, host, port;
};

int is_same(struct text one, struct text other);
int is_letter(uint8_t byte);
int is_digit(uint8_t byte);
int is_hex(uint8_t byte);
int is_unreserved(uint8_t byte);
int is_ucschar(uint32_t code);
size_t character(struct text text, size_t at, uint32_t *code);
int is_utf8(struct text text);

/* The octet that is percent-encoded at a place. */
uint8_t octet_at(struct text text, size_t at);

/* Whether percent-encoded octets have capital digits, and none is an unreserved character's (RFC 3986 section 6.2.2). */
int has_normal_octets(int iri, struct text text);

struct parts split(struct text text);
struct authority split_authority(struct text authority);
int is_ascii(struct text host);
int is_dot(struct text segment);
int is_word(struct text text, const char *word);
const char *default_port(const struct reading *reading, struct text scheme);
int is_same_scheme(struct text one, struct text other);

/* Puts a reference, or nearly one, without LF and without CR at its end. */
void put_line(struct numbers *numbers, int iri, struct bytes *to);

/* Puts a base, or nearly one. */
void put_base(struct numbers *numbers, int iri, struct bytes *to);

/* Puts another spelling of a reference that is in the grammar: its canonical text against the base is the same. */
void put_spelling(struct numbers *numbers, const struct reading *reading, struct text reference, struct bytes *to);

/* Puts the JSON that `parts` answers for a canonical text, over what was there. */
struct text object_of(struct text text, struct bytes *to);

/* Puts octets past ASCII as percent-encoded octets (RFC 3987 section 3.1), over what was there. */
struct text mapped(struct text text, struct bytes *to);

/* Whether a path has segments that dot removal takes out, or that are such once decoded. */
int has_dots(struct parts parts, int encoded);

/* Whether a text with a scheme may be an answer: it has nothing that normal form takes out. */
int is_normal(const struct reading *reading, struct text text);

/* The length of an answer that is any which begins with `ok `. */
#define ANY SIZE_MAX
#define WORD(word) ((struct text){(const uint8_t *)(word), sizeof (word) - 1})

/* A line that is asked for and its answer, as places in what is asked, and what makes it the answer. */
struct row {
	size_t line, line_len, wanted, wanted_len;
	const char *property;
};

struct asked {
	struct bytes input, wanted;
	struct row *rows;
	size_t count, room;
};

struct output {
	int status;
	uint8_t *at;
	struct text *lines;
	size_t count;
};

/* A part: its lines, their first answers, and how many were good, how many answers were asked for, and the faults. A run may take so
 * many seconds of a processor. */
struct soak {
	const char *program, *grammar, *mode;
	unsigned seconds;
	uint64_t seed;
	struct reading reading;
	struct numbers making, spelling;
	struct text *lines, *answers;
	size_t count, good, asked, faults;
};

void *taken(void *block, size_t size);
int is_good(struct text answer);

/* Whether a text begins with a word. */
int begins_with(struct text text, const char *word);
struct text text_of(struct text answer);
void fault(struct soak *soak, const char *property, struct text base, struct text line, struct text wanted, struct text got);

/* Runs a command over an input, of which the last LF may go; after the grammar it has these words, a space between each two, or none: NULL.
 * Where a signal ended it, the status is 128 more than its number. */
struct output run(struct soak *soak, const char *command, const char *words, const struct bytes *input);

/* Makes the lines and a base, and asks for their answers. */
void begin(struct soak *soak);

/* Begins what is asked against a base. */
struct asked against(struct soak *soak, struct text base);

/* Adds a line, with a letter and a space before it, and its answer; where there is no letter, an answer alone. */
void ask(struct soak *soak, struct asked *asked, const char *letter, struct text line, struct text wanted, const char *property);

/* Whether all is answered so; what is asked is let go then. */
void check(struct soak *soak, struct asked *asked, struct text base, const char *command, const char *words);

#endif
