/* The classes of characters, the parts of a reference, and what normal form takes out, for tests/soak/soak. */
#include "soak.h"

int is_same(struct text one, struct text other)
{
	return one.len == other.len && (one.len == 0 || memcmp(one.at, other.at, one.len) == 0);
}

int is_letter(uint8_t byte)
{
	return (byte | 32) >= 'a' && (byte | 32) <= 'z';
}

int is_digit(uint8_t byte)
{
	return byte >= '0' && byte <= '9';
}

int is_hex(uint8_t byte)
{
	return is_digit(byte) || ((byte | 32) >= 'a' && (byte | 32) <= 'f');
}

/* RFC 3986 section 2.3. */
int is_unreserved(uint8_t byte)
{
	return is_letter(byte) || is_digit(byte) || (byte && strchr("-._~", byte));
}

/* The length of the well-formed character at a place, and its code; 0 for none (RFC 3629 section 4). */
size_t character(struct text text, size_t at, uint32_t *code)
{
	static const uint32_t least[] = {0, 0, 0x80, 0x800, 0x10000};
	uint8_t first = text.at[at];
	size_t len = first < 0x80 ? 1 : first < 0xc0 ? 0 : first < 0xe0 ? 2 : first < 0xf0 ? 3 : first < 0xf8 ? 4 : 0;
	if (len == 0 || text.len - at < len)
		return 0;
	*code = len == 1 ? first : first & (0x7f >> len);
	for (size_t i = 1; i < len; i++) {
		if ((text.at[at + i] & 0xc0) != 0x80)
			return 0;
		*code = *code << 6 | (text.at[at + i] & 0x3f);
	}
	return *code < least[len] || *code > 0x10ffff || (*code >= 0xd800 && *code < 0xe000) ? 0 : len;
}

int is_utf8(struct text text)
{
	uint32_t code;
	for (size_t i = 0, len; i < text.len; i += len)
		if ((len = character(text, i, &code)) == 0)
			return 0;
	return 1;
}

/* ucschar of RFC 3987 section 2.2. */
int is_ucschar(uint32_t code)
{
	if (code < 0x10000)
		return (code >= 0xa0 && code < 0xd800) || (code >= 0xf900 && code < 0xfdd0) || (code >= 0xfdf0 && code < 0xfff0);
	return (code & 0xffff) < 0xfffe && code < 0xf0000 && (code < 0xe0000 || code >= 0xe1000);
}

/* RFC 3986 appendix B, of a reference in the grammar: what is before a colon is a scheme where no other delimiter is before that. */
struct parts split(struct text text)
{
	struct parts parts = {0};
	size_t at = 0, start = 0;
#define UNTIL(delimiters) \
	for (start = at; at < text.len && !(text.at[at] && strchr(delimiters, text.at[at])); at++) \
		;
	UNTIL(":/?#")
	if (at < text.len && text.at[at] == ':')
		parts.scheme = (struct text){text.at, at++};
	else
		at = 0;
	if (text.len - at >= 2 && text.at[at] == '/' && text.at[at + 1] == '/') {
		at += 2;
		UNTIL("/?#")
		parts.authority = (struct text){text.at + start, at - start};
	}
	UNTIL("?#")
	parts.path = (struct text){text.at + start, at - start};
	if (at < text.len && text.at[at] == '?') {
		at++;
		UNTIL("#")
		parts.query = (struct text){text.at + start, at - start};
	}
	if (at < text.len)
		parts.fragment = (struct text){text.at + at + 1, text.len - at - 1};
	return parts;
}

int is_same_scheme(struct text one, struct text other)
{
	if (one.len != other.len)
		return 0;
	for (size_t i = 0; i < one.len; i++)
		if (one.at[i] != other.at[i] && !(is_letter(one.at[i]) && one.at[i] == (other.at[i] ^ 32)))
			return 0;
	return 1;
}

/* Whether all characters and percent-encoded octets of a host are ASCII. */
int is_ascii(struct text host)
{
	for (size_t i = 0; i < host.len; i++)
		if (host.at[i] >= 0x80 || (host.at[i] == '%' && !is_digit(host.at[i + 1])) || (host.at[i] == '%' && host.at[i + 1] > '7'))
			return 0;
	return 1;
}

/* The default port by scheme rules (RFC 3986 section 6.2.3). */
const char *default_port(const struct reading *reading, struct text scheme)
{
	static const char *const ports[][2] = {{"http", "80"}, {"ws", "80"}, {"https", "443"}, {"wss", "443"}, {"ftp", "21"}};
	for (size_t i = 0; reading->by_scheme && i < 5; i++)
		if (is_same_scheme(scheme, (struct text){(const uint8_t *)ports[i][0], strlen(ports[i][0])}))
			return ports[i][1];
	return NULL;
}

/* Section 3.2, of an authority that is in the grammar or absent. */
struct authority split_authority(struct text authority)
{
	struct authority parts = {.host = authority};
	if (!authority.at)
		return parts;
	const uint8_t *end = authority.at + authority.len, *at = authority.len ? memchr(authority.at, '@', authority.len) : NULL;
	if (at) {
		parts.userinfo = (struct text){authority.at, at - authority.at};
		parts.host = (struct text){at + 1, end - at - 1};
	}
	const uint8_t *from = parts.host.len && parts.host.at[0] == '[' ? memchr(parts.host.at, ']', parts.host.len) : parts.host.at;
	const uint8_t *colon = from && from < end ? memchr(from, ':', end - from) : NULL;
	if (colon) {
		parts.host.len = colon - parts.host.at;
		parts.port = (struct text){colon + 1, end - colon - 1};
	}
	return parts;
}

int is_word(struct text text, const char *word)
{
	return is_same(text, (struct text){(const uint8_t *)word, strlen(word)});
}

int is_dot(struct text segment)
{
	size_t dots = 0;
	for (size_t i = 0; i < segment.len; dots++) {
		if (segment.at[i] == '.')
			i++;
		else if (segment.len - i > 2 && memcmp(segment.at + i, "%2", 2) == 0 && (segment.at[i + 2] | 32) == 'e')
			i += 3;
		else
			return 0;
	}
	return dots == 1 || dots == 2;
}

static int is_capital(uint8_t byte)
{
	return is_letter(byte) && !(byte & 32);
}

static int is_small(uint8_t byte)
{
	return is_letter(byte) && byte & 32;
}

uint8_t octet_at(struct text text, size_t at)
{
	uint8_t high = text.at[at + 1], low = text.at[at + 2];
	return (high > '9' ? (high & 15) + 9 : high & 15) << 4 | (low > '9' ? (low & 15) + 9 : low & 15);
}

int has_normal_octets(int iri, struct text text)
{
	for (size_t i = 0; i < text.len; i++) {
		uint8_t octets[4];
		uint32_t code = 0;
		size_t count = 0;
		for (size_t j = i; count < 4 && j + 2 < text.len && text.at[j] == '%'; j += 3)
			octets[count++] = octet_at(text, j);
		size_t len = count ? character((struct text){octets, count}, 0, &code) : 0;
		if (count && (is_small(text.at[i + 1]) || is_small(text.at[i + 2])))
			return 0;
		if (len == 1 ? is_unreserved(code) : len > 1 && iri && is_ucschar(code))
			return 0;
	}
	return 1;
}

static int has_capitals(struct text text)
{
	for (size_t i = 0; i < text.len; i++)
		if (text.at[i] == '%')
			i += 2;
		else if (is_capital(text.at[i]))
			return 1;
	return 0;
}

int has_dots(struct parts parts, int encoded)
{
	struct text path = parts.path;
	/* Without an authority `/.` is before a path that begins with two slashes, which would be read as an authority otherwise. */
	size_t start = !parts.authority.at && path.len > 3 && memcmp(path.at, "/.//", 4) == 0 ? 2 : 0;
	for (size_t end = start; end <= path.len; start = ++end) {
		while (end < path.len && path.at[end] != '/')
			end++;
		struct text segment = {path.at + start, end - start};
		if (is_dot(segment) && (encoded || !memchr(segment.at, '%', segment.len)))
			return 1;
	}
	return 0;
}

int is_normal(const struct reading *reading, struct text text)
{
	struct parts parts = split(text);
	struct authority authority = split_authority(parts.authority);
	struct text path = parts.path;
	const char *known = default_port(reading, parts.scheme);
	if (!parts.scheme.at || has_capitals(parts.scheme) || !has_normal_octets(reading->iri, text))
		return 0;
	if ((is_ascii(authority.host) && has_capitals(authority.host)) || (authority.port.at && authority.port.len == 0))
		return 0;
	if (known && parts.authority.at && (path.len == 0 || is_word(authority.port, known)))
		return 0;
	return !has_dots(parts, 1);
}
