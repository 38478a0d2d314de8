/* The lines of tests/soak/soak. parts.h has the lists of tests/soak/reference_parts.py. */
#include "soak.h"
#include <stdio.h>
#include <stdlib.h>
#include "parts.h"

#define PICK(numbers, list) (list)[below((numbers), sizeof (list) / sizeof *(list))]

void put(struct bytes *to, const void *from, size_t len)
{
	if (!to->at || to->room - to->len < len) {
		to->room = 2 * to->room + len + 1;
		to->at = realloc(to->at, to->room);
		if (!to->at) {
			perror("soak");
			exit(2);
		}
	}
	if (len)
		memcpy(to->at + to->len, from, len);
	to->len += len;
}

void put_word(struct bytes *to, const char *word)
{
	put(to, word, strlen(word));
}

void put_text(struct bytes *to, struct text text)
{
	put(to, text.at, text.len);
}

void put_byte(struct bytes *to, uint8_t byte)
{
	put(to, &byte, 1);
}

/* splitmix64, of which the upper half is used. */
uint32_t below(struct numbers *numbers, uint32_t count)
{
	uint64_t mixed = numbers->state += 0x9e3779b97f4a7c15;
	mixed = (mixed ^ mixed >> 30) * 0xbf58476d1ce4e5b9;
	mixed = (mixed ^ mixed >> 27) * 0x94d049bb133111eb;
	mixed ^= mixed >> 31;
	return (mixed >> 32) * count >> 32;
}

/* Whether a part has nothing that no part of the grammar has. */
static int is_fit(struct text part, int iri)
{
	for (size_t i = 0; i < part.len; i++) {
		uint8_t byte = part.at[i];
		if (byte == '%' && !(part.len - i > 2 && is_hex(part.at[i + 1]) && is_hex(part.at[i + 2])))
			return 0;
		if (byte >= 0x80 ? !iri : byte == 0 || (!is_unreserved(byte) && !strchr("%!$&'()*+,;=:@/?#", byte)))
			return 0;
	}
	return 1;
}

static void put_fit(struct numbers *numbers, int fit, int iri, const struct text *list, size_t count, struct bytes *to)
{
	struct text part = list[below(numbers, count)];
	for (int tries = 0; fit && tries < 9 && !is_fit(part, iri); tries++)
		part = list[below(numbers, count)];
	put_text(to, part);
}

#define PUT_FIT(list) put_fit(numbers, fit, iri, (list), sizeof (list) / sizeof *(list), to)

/* A reference of parts, three in four times of such that fit; one in fifty is long. */
static void put_assembled(struct numbers *numbers, int iri, struct bytes *to)
{
	int fit = below(numbers, 4) != 0;
	if (!fit || below(numbers, 2))
		put_text(to, fit ? FIT_SCHEMES[below(numbers, sizeof FIT_SCHEMES / sizeof *FIT_SCHEMES)] : PICK(numbers, SCHEMES));
	size_t before = to->len;
	if (below(numbers, 2))
		put_text(to, PICK(numbers, AUTHORITIES));
	int rooted = below(numbers, to->len > before ? 20 : 2) != 0;
	uint32_t count = below(numbers, below(numbers, 50) ? 6 : 400);
	for (uint32_t i = 0; i < count; i++) {
		if (i || rooted)
			put_byte(to, '/');
		PUT_FIT(SEGMENTS);
		for (uint32_t more = below(numbers, 1000) ? 0 : below(numbers, 700); more; more--)
			PUT_FIT(SEGMENTS);
	}
	PUT_FIT(TAILS);
}

/* The bytes from a place on, with some of them changed. */
static void change(struct numbers *numbers, struct bytes *to, size_t from)
{
	for (uint32_t times = 1 + below(numbers, 3); times; times--) {
		size_t at = from + below(numbers, to->len - from + 1), gone = below(numbers, 3) < 2 && at < to->len;
		struct text letter = PICK(numbers, LETTERS);
		uint8_t byte = below(numbers, 256);
		if (below(numbers, 4) == 0)
			letter = (struct text){&byte, 1};
		if (gone && below(numbers, 2))
			letter.len = 0;
		struct bytes rest = {0};
		put(&rest, to->at + at + gone, to->len - at - gone);
		to->len = at;
		put_text(to, letter);
		put(to, rest.at, rest.len);
		free(rest.at);
	}
}

void put_base(struct numbers *numbers, int iri, struct bytes *to)
{
	size_t from = to->len;
	uint32_t kind = below(numbers, 10);
	if (kind < 7) {
		put_text(to, iri && below(numbers, 4) == 0 ? PICK(numbers, IRI_BASES) : PICK(numbers, BASES));
	} else {
		put_text(to, PICK(numbers, FIT_SCHEMES));
		put_assembled(numbers, iri, to);
	}
	if (kind == 6)
		change(numbers, to, from);
	for (size_t i = from; i < to->len; i++)
		if (to->at[i] == '\n' || to->at[i] == '\r')
			to->at[i] = '/';
}

void put_line(struct numbers *numbers, int iri, struct bytes *to)
{
	size_t from = to->len;
	uint32_t kind = below(numbers, 100);
	if (kind < 80)
		put_assembled(numbers, iri, to);
	else if (kind < 84)
		put_text(to, PICK(numbers, BASES));
	else if (kind < 96)
		for (uint32_t count = below(numbers, 24); count; count--)
			put_text(to, PICK(numbers, LETTERS));
	else
		for (uint32_t count = below(numbers, 60); count; count--)
			put_byte(to, below(numbers, 256));
	if (kind >= 60 && kind < 84)
		change(numbers, to, from);
	for (size_t i = from; i < to->len; i++)
		if (to->at[i] == '\n')
			to->at[i] = '/';
	if (to->len > from && to->at[to->len - 1] == '\r')
		to->at[to->len - 1] = '%';
}
