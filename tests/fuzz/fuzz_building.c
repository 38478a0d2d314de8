/* What tests/fuzz/fuzz asks of the call that builds a text from parts. An input has a line for each part: a letter for which one it is,
 * and its text. */
#include "fuzz.h"
#include <stdlib.h>

#define PART_COUNT 7
#define MOST_PARTS 32
/* Where a part stands in the order of their numbers. */
#define AT(part) ((part) - IRIKIT_SCHEME)

/* How many parts are given, whether each is known and UTF-8, and the last text of each, or NULL. */
struct given {
	size_t count;
	int known, utf8;
	struct text last[PART_COUNT];
};

/* Reads the lines, and puts the parts where a call takes them. */
static struct given read_parts(struct text text)
{
	struct given given = {.known = 1, .utf8 = 1};
	struct irikit_given parts[MOST_PARTS];
	const char *copy = placed(REFERENCE, text);
	const uint8_t *end = text.at + text.len;
	for (const uint8_t *at = text.at, *next; at < end && given.count < MOST_PARTS; at = next) {
		const uint8_t *lf = memchr(at, '\n', end - at);
		struct text one = {at + 1, (lf ? lf : end) - at - 1};
		next = lf ? lf + 1 : end;
		if (at == lf)
			continue;
		size_t part = *at >= 'a' && *at < 'a' + PART_COUNT ? IRIKIT_SCHEME + (*at - 'a') : *at;
		parts[given.count++] = (struct irikit_given){part, {copy + (one.at - text.at), one.len}};
		int known = is_one_of(part, IRIKIT_SCHEME, IRIKIT_FRAGMENT);
		given.known &= known;
		given.utf8 &= is_utf8(one);
		if (known)
			given.last[AT(part)] = one;
	}
	memcpy(place(PARTS, given.count * sizeof *parts), parts, given.count * sizeof *parts);
	return given;
}

/* The text of parts (RFC 3986 section 5.3). */
static struct text recomposed(struct bytes *to, const struct text *last)
{
	static const char *const before[] = {"", "", "", ":", "", "?", "#"}, *const after[] = {":", "@", "", "", "", "", ""};
	int has_authority = last[AT(IRIKIT_USERINFO)].at || last[AT(IRIKIT_HOST)].at || last[AT(IRIKIT_PORT)].at;
	put_word(to, "");
	for (int part = 0; part < PART_COUNT; part++) {
		if (part == AT(IRIKIT_USERINFO) && has_authority)
			put_word(to, "//");
		if (!last[part].at)
			continue;
		put_word(to, before[part]);
		put_text(to, last[part]);
		put_word(to, after[part]);
	}
	return (struct text){to->at, to->len};
}

/* Whether a text may be a part at all: it is that part of a reference in which it stands. */
static int is_part(uint32_t grammar, int part, struct text text)
{
	static const char *const before[] = {"", "//", "//", "//:", "//h/", "?", "#"}, *const after[] = {":", "@", "", "", "", "", ""};
	struct bytes whole = {0};
	put_word(&whole, before[part]);
	put_text(&whole, text);
	put_word(&whole, after[part]);
	struct text reference = {whole.at, whole.len};
	struct parts parts = split(reference);
	struct authority authority = split_authority(parts.authority);
	struct text path = {parts.path.at + 1, parts.path.len - 1};
	struct text found[] = {parts.scheme, authority.userinfo, authority.host, authority.port, path, parts.query, parts.fragment};
	int is = validated(grammar, IRIKIT_REFERENCE, reference).status == IRIKIT_OK && found[part].at == whole.at + strlen(before[part])
	         && found[part].len == text.len;
	free(whole.at);
	return is;
}

/* Whether a path can't stand there (section 3.3). */
static int is_misplaced(const struct text *last)
{
	struct text path = last[AT(IRIKIT_PATH)];
	const uint8_t *slash = path.len ? memchr(path.at, '/', path.len) : NULL;
	if (last[AT(IRIKIT_USERINFO)].at || last[AT(IRIKIT_HOST)].at || last[AT(IRIKIT_PORT)].at)
		return path.len && path.at[0] != '/';
	if (path.len > 1 && path.at[0] == '/' && path.at[1] == '/')
		return 1;
	return !last[AT(IRIKIT_SCHEME)].at && path.len && memchr(path.at, ':', slash ? (size_t)(slash - path.at) : path.len) != NULL;
}

/* The first fault of parts; IRIKIT_OK and 0 where they make a text. */
static struct answer first_fault(uint32_t grammar, uint32_t kind, const struct given *given)
{
	static const size_t faults[] = {IRIKIT_INVALID_SCHEME, IRIKIT_INVALID_USERINFO, IRIKIT_INVALID_HOST, IRIKIT_INVALID_PORT,
		IRIKIT_INVALID_PATH, IRIKIT_INVALID_QUERY, IRIKIT_INVALID_FRAGMENT};
	const struct text *last = given->last;
	if (!given->known)
		return (struct answer){.status = IRIKIT_UNKNOWN};
	if (!given->utf8)
		return (struct answer){IRIKIT_BAD_PART, IRIKIT_INVALID_UTF8, {0}};
	if (!IS_GRAMMAR(grammar) || !is_one_of(kind, IRIKIT_REFERENCE, IRIKIT_RELATIVE))
		return (struct answer){.status = IRIKIT_UNKNOWN};
	for (int part = 0; part < PART_COUNT; part++)
		if (last[part].at && !is_part(grammar, part, last[part]))
			return (struct answer){IRIKIT_BAD_PART, faults[part], {0}};
	if ((kind == IRIKIT_WITH_SCHEME || kind == IRIKIT_ABSOLUTE) && !last[AT(IRIKIT_SCHEME)].at)
		return (struct answer){IRIKIT_BAD_PART, IRIKIT_UNEXPECTED_RELATIVE, {0}};
	if (kind == IRIKIT_ABSOLUTE && last[AT(IRIKIT_FRAGMENT)].at)
		return (struct answer){IRIKIT_BAD_PART, IRIKIT_UNEXPECTED_FRAGMENT, {0}};
	if (kind == IRIKIT_RELATIVE && last[AT(IRIKIT_SCHEME)].at)
		return (struct answer){IRIKIT_BAD_PART, IRIKIT_INVALID_SCHEME, {0}};
	if (is_misplaced(last))
		return (struct answer){IRIKIT_BAD_PART, IRIKIT_INVALID_PATH, {0}};
	return (struct answer){.status = IRIKIT_OK};
}

void check_building(struct input input)
{
	uint8_t number = input.first >> 2;
	uint32_t grammar = grammar_of(input), kind = IRIKIT_REFERENCE + number % (IRIKIT_RELATIVE - IRIKIT_REFERENCE + 2);
	struct bytes to = {0}, copy = {0};
	struct text text = kept(&copy, input.whole);
	struct given given = read_parts(text);
	struct answer wanted = first_fault(grammar, kind, &given);
	struct text whole = recomposed(&to, given.last);
	tell(mixed(wanted.status, wanted.detail), whole);
	read_parts(text);
#define BUILT (const struct irikit_given *)place(PARTS, given.count * sizeof (struct irikit_given)), given.count
	if (wanted.status == IRIKIT_OK) {
		holds(WRITES(whole, irikit_build, grammar, kind, BUILT), "the text of parts");
		holds(validated(grammar, kind, whole).status == IRIKIT_OK, "the text of parts is of its kind");
	} else {
		holds(is_answer(ANSWERED(irikit_build, whole.len, grammar, kind, BUILT), wanted.status, wanted.detail), "parts that make no text");
	}
	free(to.at);
	free(copy.at);
}
