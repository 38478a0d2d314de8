/* What tests/fuzz/fuzz asks of the calls for normal forms and their steps, and for percent-encoding. */
#include "fuzz.h"
#include <stdio.h>
#include <stdlib.h>

/* The most bytes of a step, its LF among them, and how many there may be for each byte of a text and besides. */
#define STEP 32
#define BESIDES 8

#define FORM(call, size, grammar, mode, text) ANSWERED(call, size, grammar, mode, placed(REFERENCE, text), (text).len)

/* A text of which steps are done: its parts are cut anew for each. */
static struct text part_of(struct bytes *text, const char *name)
{
	struct parts parts = split((struct text){text->at, text->len});
	return !strcmp(name, "authority") ? parts.authority : !strcmp(name, "path") ? parts.path
	       : !strcmp(name, "query") ? parts.query : !strcmp(name, "fragment") ? parts.fragment : parts.scheme;
}

/* Puts another text in the place of so many bytes. */
static void replace(struct bytes *text, const uint8_t *at, size_t len, struct text by)
{
	struct bytes after = {0}, before = *text;
	put(&after, at + len, before.at + before.len - at - len);
	text->len = at - before.at;
	put_text(text, by);
	put(text, after.at, after.len);
	free(after.at);
}

static void decode(struct bytes *text, struct text part, size_t place)
{
	uint8_t octets[4];
	size_t count = 0, len = 0;
	uint32_t code;
	for (const uint8_t *at = part.at + place; !len && count < 4 && part.at + part.len - at >= 3 && *at == '%'; at += 3) {
		octets[count++] = octet_at(part, at - part.at);
		len = character((struct text){octets, count}, 0, &code);
	}
	holds(len == count && len, "a step decodes a character");
	replace(text, part.at + place, 3 * len, (struct text){octets, len});
}

/* Does a step that names a place. */
static void do_at(struct bytes *text, const char *step, const char *name, size_t place)
{
	struct text part = part_of(text, name);
	holds(part.at && place < part.len, "the place of a step");
	uint8_t *at = (uint8_t *)part.at + place;
	if (!strcmp(step, "decode")) {
		decode(text, part, place);
		return;
	}
	int capital = !strcmp(step, "hex digit");
	holds(is_letter(*at) && (*at & 32) == (capital ? 32 : 0), "a step is for a letter of the other case");
	*at ^= 32;
}

/* Does a step on the way to a normal form, from which a path without dot segments is taken. */
static void do_step(struct bytes *text, const char *step, struct text form)
{
	char name[STEP] = "scheme";
	unsigned place;
	struct authority authority = split_authority(part_of(text, "authority"));
	if (sscanf(step, "scheme letter %u", &place) == 1) {
		do_at(text, "scheme letter", "scheme", place);
	} else if (sscanf(step, "host letter %u", &place) == 1) {
		do_at(text, "host letter", "authority", place);
	} else if (sscanf(step, "hex digit %s %u", name, &place) == 2) {
		do_at(text, "hex digit", name, place);
	} else if (sscanf(step, "decode %s %u", name, &place) == 2) {
		do_at(text, "decode", name, place);
	} else if (!strcmp(step, "dot segments")) {
		struct text path = part_of(text, "path");
		replace(text, path.at, path.len, split(form).path);
	} else if (!strcmp(step, "empty path")) {
		replace(text, part_of(text, "path").at, 0, WORD("/"));
	} else {
		holds(!strcmp(step, authority.port.len ? "default port" : "empty port") && authority.port.at, "a step is known");
		replace(text, authority.port.at - 1, authority.port.len + 1, WORD(""));
	}
}

/* The steps that are written lead to the normal form. */
static void check_steps(uint32_t grammar, uint32_t mode, struct text text, struct text form)
{
	struct bytes done = {0}, to = {0};
	struct text steps = kept(&to, FORM(irikit_steps, STEP * (text.len + BESIDES), grammar, mode, text).out);
	put_text(&done, text);
	for (const uint8_t *at = steps.at, *lf; at < steps.at + steps.len; at = lf + 1) {
		char step[STEP] = "";
		lf = memchr(at, '\n', steps.at + steps.len - at);
		holds(lf && lf - at < STEP, "a step is a line");
		memcpy(step, at, lf - at);
		do_step(&done, step, form);
	}
	holds(is_same((struct text){done.at, done.len}, form), "the steps lead to the normal form");
	holds(WRITES(steps, irikit_steps, grammar, mode, placed(REFERENCE, text), text.len), "the steps in a buffer of their length");
	free(done.at);
	free(to.at);
}

/* The normal form of a text that is a URI. */
static void check_form(uint32_t grammar, uint32_t mode, struct text text)
{
	struct bytes to = {0};
	struct answer answer = FORM(irikit_normalize, text.len + 3, grammar, mode, text);
	holds(answer.status == IRIKIT_OK, "a normal form has at most three bytes more than its text");
	struct text form = kept(&to, answer.out);
	tell(mode, form);
	holds(WRITES(form, irikit_normalize, grammar, mode, placed(REFERENCE, text), text.len), "a normal form in buffers");
	holds(is_text(FORM(irikit_normalize, form.len, grammar, mode, form), form), "a normal form is its own");
	answer = TESTED(irikit_is_normalized, grammar, mode, placed(REFERENCE, text), text.len);
	holds(is_answer(answer, is_same(form, text) ? IRIKIT_OK : IRIKIT_NOT_NORMAL, 0), "a text is normal where it is its normal form");
	if (mode == IRIKIT_PRESERVING) {
		answer = FORM(irikit_normalize, text.len + 3, grammar, IRIKIT_NORMAL, text);
		struct bytes normal = {0};
		struct text wanted = kept(&normal, answer.out);
		holds(is_text(FORM(irikit_normalize, wanted.len, grammar, IRIKIT_NORMAL, form), wanted), "what keeps dots has the normal form");
		free(normal.at);
	} else {
		struct reading reading = {grammar == IRIKIT_IRI, mode == IRIKIT_BY_SCHEME, {0}};
		holds(is_normal(&reading, form), "a normal form has nothing that goes");
		holds(is_text(canonical(grammar, mode, WORD("x:"), text, form.len), form), "the canonical text of a URI is its normal form");
		check_steps(grammar, mode, text, form);
	}
	free(to.at);
}

static void check_mode(uint32_t grammar, uint32_t mode, struct text text)
{
	struct answer uri = validated(grammar, IRIKIT_WITH_SCHEME, text);
	int known = IS_GRAMMAR(grammar) && is_one_of(mode, IRIKIT_NORMAL, IRIKIT_PRESERVING);
	if (known && uri.status == IRIKIT_OK) {
		check_form(grammar, mode, text);
		return;
	}
	int status = known ? IRIKIT_BAD_TEXT : IRIKIT_UNKNOWN;
	size_t detail = known ? uri.detail : 0;
	struct answer answer = TESTED(irikit_is_normalized, grammar, mode, placed(REFERENCE, text), text.len);
	holds(is_answer(answer, status, detail), "what isn't tested");
	holds(is_answer(FORM(irikit_normalize, text.len, grammar, mode, text), status, detail), "what has no normal form");
	if (mode == IRIKIT_PRESERVING)
		status = IRIKIT_UNKNOWN, detail = 0;
	holds(is_answer(FORM(irikit_steps, text.len, grammar, mode, text), status, detail), "what has no steps");
}

#define PLACES (IRIKIT_IN_REFERENCE - IRIKIT_IN_REG_NAME + 1)

/* A place in a reference: what is before and after a text that stands there. */
static const struct {
	const char *before, *after;
} places[PLACES] = {{"//", ""}, {"//", "@"}, {"/a", ""}, {"/a", ""}, {"?", ""}, {"#", ""}, {"#", ""}, {"", ""}};

static void check_encoded(uint32_t grammar, uint32_t number, struct text text, struct text encoded)
{
	struct bytes whole = {0};
	put_word(&whole, places[number - IRIKIT_IN_REG_NAME].before);
	put_text(&whole, encoded);
	put_word(&whole, places[number - IRIKIT_IN_REG_NAME].after);
	struct answer answer = validated(grammar, IRIKIT_REFERENCE, (struct text){whole.at, whole.len});
	holds(number == IRIKIT_IN_REFERENCE || answer.status == IRIKIT_OK, "what is encoded stands in its place");
	holds(has_normal_octets(grammar == IRIKIT_IRI, encoded), "what is encoded has capital digits, and no unreserved character is");
	holds(WRITES(encoded, irikit_encode, grammar, number, placed(REFERENCE, text), text.len), "what is encoded in buffers");
	holds(WRITES(text, irikit_decode, placed(REFERENCE, encoded), encoded.len), "what is encoded is decoded");
	free(whole.at);
}

static void check_encoding(uint32_t grammar, uint32_t number, struct text text)
{
	struct bytes to = {0};
	struct answer answer = FORM(irikit_encode, 3 * text.len, grammar, number, text);
	tell(number, answer.out);
	if (!is_utf8(text)) {
		holds(is_answer(answer, IRIKIT_BAD_TEXT, IRIKIT_INVALID_UTF8), "what isn't UTF-8 isn't encoded");
	} else if (!IS_GRAMMAR(grammar) || !is_one_of(number, IRIKIT_IN_REG_NAME, IRIKIT_IN_REFERENCE)) {
		holds(is_answer(answer, IRIKIT_UNKNOWN, 0), "a place that is none");
	} else {
		holds(answer.status == IRIKIT_OK, "what is encoded has at most three times the bytes");
		check_encoded(grammar, number, text, kept(&to, answer.out));
	}
	free(to.at);
}

static void check_decoding(struct text text)
{
	struct bytes to = {0};
	put_word(&to, "");
	for (size_t i = 0; i < text.len; i++) {
		int is_octet = text.len - i > 2 && text.at[i] == '%' && is_hex(text.at[i + 1]) && is_hex(text.at[i + 2]);
		put_byte(&to, is_octet ? octet_at(text, i) : text.at[i]);
		i += 2 * is_octet;
	}
	struct text decoded = {to.at, to.len};
	holds(WRITES(decoded, irikit_decode, placed(REFERENCE, text), text.len), "what is decoded");
	free(to.at);
}

void check_forms(struct input input)
{
	uint8_t number = input.first >> 2;
	uint32_t grammar = grammar_of(input);
	for (uint32_t mode = IRIKIT_NORMAL - 1; mode <= IRIKIT_PRESERVING + 1; mode++)
		check_mode(grammar, mode, input.other);
	check_encoding(grammar, IRIKIT_IN_REG_NAME - 1 + number % (PLACES + 2), input.other);
	check_decoding(input.other);
}
