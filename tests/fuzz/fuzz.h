/* tests/fuzz/fuzz: main and what afl-fuzz is told (fuzz.c), how a call is made and what it answered (fuzz_answers.c), and what is asked
 * about an input: of the library for C (fuzz_references.c, fuzz_forms.c, fuzz_edits.c, fuzz_building.c, fuzz_templates.c,
 * fuzz_lines.c, fuzz_run.c), and of the commands of the program (fuzz_commands.c). */
#ifndef FUZZ_H
#define FUZZ_H

#include "soak.h"
#include <irikit.h>

uint64_t mixed(uint64_t hash, uint64_t more);

/* Tells afl-fuzz the words of an answer, and of a text each three sorts of characters that follow each other. */
void tell(uint64_t kind, struct text text);

/* Ends the run where a property doesn't hold. */
void holds(int yes, const char *property);

/* What a call may be passed at most, in bytes, and an input of the calls. */
#define MOST (1 << 19)
#define MOST_INPUT (1 << 13)
/* A buffer for what may have any length. */
#define ROOM (1 << 13)

/* Places for what is passed to a call: so many bytes, after which memory ends or, where the input says so, with which it begins. */
enum slot { BASE, REFERENCE, OUT, TOLD, TOLD_TOO, PARTS, VALUES, SLOTS };

void begin_answers(int at_start, uint64_t seed);
uint8_t *place(enum slot slot, size_t len);
const char *placed(enum slot slot, struct text text);
#define TOLD_PLACE ((size_t *)place(TOLD, sizeof (size_t)))
#define TOLD_TOO_PLACE ((size_t *)place(TOLD_TOO, sizeof (size_t)))

/* An answer: its text, or what stood in the buffer. */
struct answer {
	uint8_t status;
	size_t detail;
	struct text out;
};

/* Fills the buffer of SIZE bytes, and what is looked at after it. */
void fill(size_t size);

/* What a call answered with a buffer of SIZE bytes: OUT has the text as far as it goes, and as ever what is after it. */
struct answer answered(uint8_t status, size_t size);

/* How many bytes of a text a buffer has in which there is no room for it: fewer than its length, if it has any. */
size_t fewer(struct text text);

/* A call with the buffer OUT of SIZE bytes, and TOLD; and one with TOLD alone. */
#define ANSWERED(call, size, ...) \
	(fill(size), answered(call(__VA_ARGS__, (char *)place(OUT, size), (size), TOLD_PLACE), (size)))
#define TESTED(call, ...) (fill(0), answered(call(__VA_ARGS__, TOLD_PLACE), 0))

/* Whether a call writes a text, which doesn't stand in OUT: all of it where there is room, and its beginning where there isn't. */
#define WRITES(text, call, ...) \
	(is_text(ANSWERED(call, (text).len, __VA_ARGS__), text) && is_beginning(ANSWERED(call, fewer(text), __VA_ARGS__), text))

int is_answer(struct answer answer, uint8_t status, size_t detail);
int is_text(struct answer answer, struct text text);
int is_beginning(struct answer answer, struct text text);

/* A text that is kept where no call writes. */
struct text kept(struct bytes *to, struct text text);

struct answer validated(uint32_t grammar, uint32_t kind, struct text text);
struct answer canonical(uint32_t grammar, uint32_t mode, struct text base, struct text reference, size_t size);

/* An input of the calls: its first octet stands for the grammar, and for numbers that may be none. The whole of what is after it is two
 * texts with an LF between them; without an LF the first is absent: NULL. */
struct input {
	uint8_t first;
	uint32_t grammar;
	struct text whole, one, other;
};

/* A number that stands for no grammar: one near those that do, of another enum, or that fewer bits would take for one. */
uint32_t no_grammar(uint8_t number);

/* The grammar of an input, and for a few first octets a number that is none. */
uint32_t grammar_of(struct input input);

int is_one_of(size_t number, size_t first, size_t last);
#define IS_GRAMMAR(number) is_one_of(number, IRIKIT_URI, IRIKIT_IRI)

void check_references(struct input input);
void check_forms(struct input input);
void check_edits(struct input input);
void check_building(struct input input);
void check_templates(struct input input);
void check_lines(struct input input);
void check_run(struct input input);

/* Of a command, whose words stand after the program and before NULL, the input is the program's. Its texts are fed back to `canon`, and its
 * links to `links`. */
void check_command(const char *const *words, struct text given);

#endif
