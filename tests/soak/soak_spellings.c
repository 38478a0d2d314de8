/* Other spellings of a reference, for tests/soak/soak and tests/fuzz/fuzz. */
#include "soak.h"
#include <stdio.h>

static uint8_t other_case(struct numbers *numbers, uint8_t byte)
{
	return is_letter(byte) && below(numbers, 2) ? byte ^ 32 : byte;
}

static void put_octets(struct numbers *numbers, struct bytes *to, struct text octets)
{
	static const char *const digits[] = {"0123456789abcdef", "0123456789ABCDEF"};
	for (size_t i = 0; i < octets.len; i++) {
		put_byte(to, '%');
		put_byte(to, digits[below(numbers, 2)][octets.at[i] >> 4]);
		put_byte(to, digits[below(numbers, 2)][octets.at[i] & 15]);
	}
}

/* A text with some unreserved characters as percent-encoded octets, whose digits have either case, as have letters of a host. */
static void respell(struct numbers *numbers, int iri, int host, struct text text, struct bytes *to)
{
	for (size_t i = 0, len; i < text.len; i += len) {
		uint32_t code = 0;
		uint8_t byte = text.at[i];
		len = byte == '%' ? 3 : character(text, i, &code);
		struct text one = {text.at + i, len};
		if (byte == '%') {
			put_byte(to, '%');
			put_byte(to, other_case(numbers, text.at[i + 1]));
			put_byte(to, other_case(numbers, text.at[i + 2]));
			continue;
		}
		uint8_t letter = len == 1 && host ? other_case(numbers, byte) : byte;
		if (len == 1)
			one.at = &letter;
		if ((len == 1 ? is_unreserved(byte) : iri && is_ucschar(code)) && below(numbers, 8) == 0)
			put_octets(numbers, to, one);
		else
			put_text(to, one);
	}
}

static void respell_authority(struct numbers *numbers, const struct reading *reading, struct text authority, const char *known,
                              struct bytes *to)
{
	struct authority parts = split_authority(authority);
	if (parts.userinfo.at) {
		respell(numbers, reading->iri, 0, parts.userinfo, to);
		put_byte(to, '@');
	}
	if (parts.host.len && parts.host.at[0] == '[')
		for (size_t i = 0; i < parts.host.len; i++)
			put_byte(to, other_case(numbers, parts.host.at[i]));
	else
		respell(numbers, reading->iri, is_ascii(parts.host), parts.host, to);
	if (parts.port.len && !(known && is_word(parts.port, known))) {
		put_byte(to, ':');
		put_text(to, parts.port);
	} else if (below(numbers, 3)) {
		put_byte(to, ':');
		if (known && below(numbers, 2))
			put_word(to, known);
	}
}

/* Segments that dot removal (section 5.2.4) takes out again. `..` takes the one before it out where the path that is left begins with a
 * slash (`up`), and an empty segment doesn't begin an authority where there is one, or a segment that isn't empty, before it (`deep`). */
static void put_steps(struct numbers *numbers, int up, int deep, struct bytes *to)
{
	static const char *const steps[] = {"./", "%2e/", "././", "x/../", "x/%2E./", "x/./y/../.%2e/", "/../", "//.././../"};
	if (below(numbers, 6) == 0)
		put_word(to, steps[below(numbers, up && deep ? 8 : up ? 6 : 3)]);
}

static void respell_path(struct numbers *numbers, const struct reading *reading, struct parts parts, struct bytes *to)
{
	struct parts base = split(reading->base);
	struct text path = parts.path;
	int relative = !parts.scheme.at && !parts.authority.at;
	int up = path.at[0] == '/' || (relative && (base.authority.at || (base.path.len && base.path.at[0] == '/')));
	int deep = parts.authority.at != NULL;
	if (path.at[0] != '/')
		put_steps(numbers, up, 0, to);
	for (size_t start = 0;;) {
		const uint8_t *slash = memchr(path.at + start, '/', path.len - start);
		size_t end = slash ? (size_t)(slash - path.at) : path.len;
		struct text segment = {path.at + start, end - start};
		respell(numbers, reading->iri, 0, segment, to);
		up |= !is_dot(segment);
		deep |= segment.len > 0;
		if (!slash) {
			if (is_dot(segment) && below(numbers, 2))
				put_byte(to, '/');
			return;
		}
		put_byte(to, '/');
		put_steps(numbers, up, deep, to);
		start = end + 1;
	}
}

void put_spelling(struct numbers *numbers, const struct reading *reading, struct text reference, struct bytes *to)
{
	struct parts parts = split(reference);
	const char *known = default_port(reading, parts.scheme.at ? parts.scheme : split(reading->base).scheme);
	for (size_t i = 0; i < parts.scheme.len; i++)
		put_byte(to, other_case(numbers, parts.scheme.at[i]));
	if (parts.scheme.at)
		put_byte(to, ':');
	if (parts.authority.at) {
		put_word(to, "//");
		respell_authority(numbers, reading, parts.authority, known, to);
	}
	/* By scheme rules an empty path beside an authority is a slash. */
	int either = known && parts.authority.at && (parts.path.len == 0 || is_word(parts.path, "/"));
	if (either && below(numbers, 2))
		put_byte(to, '/');
	else if (!either && parts.path.len)
		respell_path(numbers, reading, parts, to);
	if (parts.query.at) {
		put_byte(to, '?');
		respell(numbers, reading->iri, 0, parts.query, to);
	}
	if (parts.fragment.at) {
		put_byte(to, '#');
		respell(numbers, reading->iri, 0, parts.fragment, to);
	}
}

static void put_member(struct bytes *to, const char *name, struct text value)
{
	if (!value.at)
		return;
	put_word(to, to->len ? ",\"" : "{\"");
	put_word(to, name);
	put_word(to, "\":\"");
	put_text(to, value);
	put_byte(to, '"');
}

struct text object_of(struct text text, struct bytes *to)
{
	struct parts parts = split(text);
	struct authority authority = split_authority(parts.authority);
	to->len = 0;
	put_member(to, "text", text);
	put_member(to, "scheme", parts.scheme);
	put_member(to, "userinfo", authority.userinfo);
	put_member(to, "host", authority.host);
	put_member(to, "port", authority.port);
	put_member(to, "path", parts.path);
	put_member(to, "query", parts.query);
	put_member(to, "fragment", parts.fragment);
	put_byte(to, '}');
	return (struct text){to->at, to->len};
}

/* RFC 3987 section 3.1: octets past ASCII as percent-encoded octets. */
struct text mapped(struct text text, struct bytes *to)
{
	char octet[8];
	to->len = 0;
	for (size_t i = 0; i < text.len; i++)
		if (text.at[i] < 0x80)
			put_byte(to, text.at[i]);
		else
			put(to, octet, snprintf(octet, sizeof octet, "%%%02X", text.at[i]));
	return (struct text){to->at, to->len};
}
