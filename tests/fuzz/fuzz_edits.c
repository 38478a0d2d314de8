/* What tests/fuzz/fuzz asks of the calls that edit a text, or build one from parts. */
#include "fuzz.h"
#include <stdlib.h>

#define EDITED(call, size, grammar, text) ANSWERED(call, size, grammar, placed(REFERENCE, text), (text).len)
#define EDITED_BY(call, size, grammar, text, part) \
	ANSWERED(call, size, grammar, placed(REFERENCE, text), (text).len, placed(BASE, part), (part).len)

/* A text from its start to one place, another text, and it from a later place to its end. */
static struct text spliced(struct bytes *to, struct text text, const uint8_t *until, struct text by, const uint8_t *from)
{
	to->len = 0;
	put(to, text.at, until - text.at);
	put_text(to, by);
	put(to, from, text.at + text.len - from);
	return (struct text){to->at, to->len};
}

/* What an edit comes to: a status, and its detail or the text. */
struct edited {
	uint8_t status;
	size_t detail;
	struct text text;
};

/* Whether an edit with a text for a part, or without one, answers so, in buffers of any size. */
typedef uint8_t edit(uint32_t grammar, const char *text, size_t len, char *out, size_t size, size_t *detail);
typedef uint8_t edit_by(uint32_t grammar, const char *text, size_t len, const char *part, size_t part_len, char *out, size_t size,
                        size_t *detail);

static void check_edit(edit *call, uint32_t grammar, struct text text, struct edited wanted, const char *property)
{
	if (wanted.status == IRIKIT_OK)
		holds(WRITES(wanted.text, call, grammar, placed(REFERENCE, text), text.len), property);
	else
		holds(is_answer(EDITED(call, text.len, grammar, text), wanted.status, wanted.detail), property);
}

static void check_edit_by(edit_by *call, uint32_t grammar, struct text text, struct text part, struct edited wanted,
                          const char *property)
{
	if (wanted.status == IRIKIT_OK)
		holds(WRITES(wanted.text, call, grammar, placed(REFERENCE, text), text.len, placed(BASE, part), part.len), property);
	else
		holds(is_answer(EDITED_BY(call, text.len, grammar, text, part), wanted.status, wanted.detail), property);
}

static struct edited refused(uint8_t status, size_t detail)
{
	return (struct edited){status, detail, {0}};
}

/* What a text is refused with by each edit; the status is IRIKIT_OK where it isn't. */
static struct edited of_text(uint32_t grammar, struct text text)
{
	struct answer answer = validated(grammar, IRIKIT_REFERENCE, text);
	return refused(answer.status, answer.detail);
}

/* The edits of the password: what is after the first colon of the userinfo. */
static void check_password(uint32_t grammar, struct text text, struct text part)
{
	struct bytes to = {0};
	struct edited wanted = of_text(grammar, text), by = wanted;
	struct text userinfo = wanted.status == IRIKIT_OK ? split_authority(split(text).authority).userinfo : (struct text){0};
	const uint8_t *colon = userinfo.len ? memchr(userinfo.at, ':', userinfo.len) : NULL;
	const uint8_t *end = colon ? userinfo.at + userinfo.len : text.at + text.len, *after = colon ? colon + 1 : end;
	wanted.text = spliced(&to, text, after, WORD(""), end);
	check_edit(irikit_mask_password, grammar, text, wanted, "a text without its password");
	wanted.text = spliced(&to, text, colon ? colon : end, WORD(""), end);
	check_edit(irikit_remove_password, grammar, text, wanted, "a text without its password and the colon");
	if (by.status == IRIKIT_OK && !is_utf8(part))
		by = refused(IRIKIT_BAD_PART, IRIKIT_INVALID_UTF8);
	by.text = spliced(&to, text, after, colon ? part : WORD(""), end);
	check_edit_by(irikit_replace_password, grammar, text, part, by, "a text with another password");
	free(to.at);
}

static void check_fragment(uint32_t grammar, struct text text, struct text part)
{
	struct bytes to = {0}, whole = {0};
	struct edited wanted = of_text(grammar, text);
	const uint8_t *end = text.at + text.len, *hash = text.len ? memchr(text.at, '#', text.len) : NULL;
	wanted.text = spliced(&to, text, hash ? hash : end, WORD(""), end);
	check_edit(irikit_remove_fragment, grammar, text, wanted, "a text without its fragment");
	put_word(&whole, "#");
	put_text(&whole, part);
	struct answer of = validated(grammar, IRIKIT_REFERENCE, (struct text){whole.at, whole.len});
	if (wanted.status == IRIKIT_OK && of.status != IRIKIT_OK)
		wanted = refused(IRIKIT_BAD_PART, of.detail);
	wanted.text = spliced(&to, text, hash ? hash : end, (struct text){whole.at, whole.len}, end);
	check_edit_by(irikit_set_fragment, grammar, text, part, wanted, "a text with another fragment");
	free(to.at);
	free(whole.at);
}

/* RFC 3986 section 3.2.2: an IP literal, or four numbers below 256 without zeros before them. */
static int is_address(struct text host)
{
	size_t numbers = 0, at = 0;
	if (host.len && host.at[0] == '[')
		return 1;
	for (; at < host.len && numbers < 4; numbers++, at++) {
		unsigned number = 0;
		size_t start = at;
		for (; at < host.len && is_digit(host.at[at]) && at - start < 3; at++)
			number = 10 * number + host.at[at] - '0';
		if (at == start || number > 255 || (host.at[start] == '0' && at - start > 1) || (at < host.len && host.at[at] != '.'))
			return 0;
	}
	return numbers == 4 && at == host.len + 1;
}

/* Whether a text is a host: it is that of a reference which begins with it as an authority. */
static int is_host(uint32_t grammar, struct text part)
{
	struct bytes whole = {0};
	put_word(&whole, "//");
	put_text(&whole, part);
	struct text text = {whole.at, whole.len};
	int is = validated(grammar, IRIKIT_REFERENCE, text).status == IRIKIT_OK
	         && is_same(split_authority(split(text).authority).host, part) && split(text).authority.len == part.len;
	free(whole.at);
	return is;
}

static void check_host(uint32_t grammar, struct text text, struct text part)
{
	struct bytes to = {0};
	struct edited wanted = of_text(grammar, text);
	struct text authority = wanted.status == IRIKIT_OK ? split(text).authority : (struct text){0};
	if (wanted.status == IRIKIT_OK && !is_host(grammar, part))
		wanted = refused(IRIKIT_BAD_PART, is_utf8(part) ? IRIKIT_INVALID_HOST : IRIKIT_INVALID_UTF8);
	else if (wanted.status == IRIKIT_OK && !authority.at)
		wanted = refused(IRIKIT_NO_HOST, 0);
	struct text host = authority.at ? split_authority(authority).host : (struct text){0};
	if (wanted.status == IRIKIT_OK)
		wanted.text = spliced(&to, text, host.at, part, host.at + host.len);
	check_edit_by(irikit_replace_host, grammar, text, part, wanted, "a text with another host");
	if (wanted.status == IRIKIT_OK && is_address(host))
		wanted = refused(IRIKIT_NO_HOST, 0);
	check_edit_by(irikit_replace_reg_name, grammar, text, part, wanted, "a text with a host in place of a registered name");
	free(to.at);
}

void check_edits(struct input input)
{
	uint8_t number = input.first >> 2;
	struct text part = input.one.at ? input.one : WORD("a:b");
	uint32_t grammar = grammar_of(input);
	tell(number % 2, part);
	check_password(grammar, input.other, part);
	check_fragment(grammar, input.other, part);
	check_host(grammar, input.other, part);
}
