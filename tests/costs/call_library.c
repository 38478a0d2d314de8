/* call_library CALL uri|iri: one call of the library for C over what stands on standard input, and on standard output the text that it
 * writes. So tests/costs/shares counts what a call takes for a byte. CALL is a name of CALLS; where a call takes two texts, the name after the
 * hyphen says which of them is given, and the other is short, or after a base what follows its line. The status is 0, or 2 where there is no
 * such call. */
#include <irikit.h>
#include <stdio.h>
#include <stdlib.h>
#include <string.h>

#define MOST (1 << 21)
#define ROOM (24 * (size_t)MOST)
/* A short text, as a pointer and a length. */
#define SHORT_TEXT(text) text, sizeof text - 1
#define BASE SHORT_TEXT("http://a/b/c")
/* What follows the first line of the text, or a short reference. */
#define REST rest, rest_len
#define AUTHORITY SHORT_TEXT("http://u:p@h:80/p")
#define WITH SHORT_TEXT("w")

static char text[MOST + 64], out[ROOM];
static const char *rest = "../x";
static size_t len, base_len, rest_len = 4, detail, consumed, place;
static uint32_t grammar;
static struct irikit_parts parts;
static struct irikit_slot slots[MOST / 2];

static uint8_t canonical(void) { return irikit_canonical(grammar, IRIKIT_NORMAL, BASE, text, len, out, ROOM, &detail); }
static uint8_t canonical_base(void) { return irikit_canonical(grammar, IRIKIT_NORMAL, text, base_len, REST, out, ROOM, &detail); }
static uint8_t canonical_scheme(void) { return irikit_canonical(grammar, IRIKIT_BY_SCHEME, BASE, text, len, out, ROOM, &detail); }
static uint8_t to_uri(void) { return irikit_canonical_to_uri(IRIKIT_NORMAL, BASE, text, len, out, ROOM, &detail); }
static uint8_t to_uri_base(void) { return irikit_canonical_to_uri(IRIKIT_NORMAL, text, base_len, REST, out, ROOM, &detail); }
static uint8_t resolve(void) { return irikit_resolve(grammar, BASE, text, len, out, ROOM, &detail); }
static uint8_t resolve_base(void) { return irikit_resolve(grammar, text, base_len, REST, out, ROOM, &detail); }
static uint8_t target(void) { return irikit_target(grammar, BASE, text, len, out, ROOM, &detail); }
static uint8_t target_base(void) { return irikit_target(grammar, text, base_len, REST, out, ROOM, &detail); }
static uint8_t normalize(void) { return irikit_normalize(grammar, IRIKIT_NORMAL, text, len, out, ROOM, &detail); }
static uint8_t normalize_scheme(void) { return irikit_normalize(grammar, IRIKIT_BY_SCHEME, text, len, out, ROOM, &detail); }
static uint8_t preserve(void) { return irikit_normalize(grammar, IRIKIT_PRESERVING, text, len, out, ROOM, &detail); }
static uint8_t steps(void) { return irikit_steps(grammar, IRIKIT_BY_SCHEME, text, len, out, ROOM, &detail); }
static uint8_t map(void) { return irikit_map_to_uri(text, len, out, ROOM, &detail); }
static uint8_t encode(void) { return irikit_encode(grammar, IRIKIT_IN_SEGMENT, text, len, out, ROOM, &detail); }
static uint8_t decode(void) { return irikit_decode(text, len, out, ROOM, &detail); }
static uint8_t mask(void) { return irikit_mask_password(grammar, text, len, out, ROOM, &detail); }
static uint8_t remove_password(void) { return irikit_remove_password(grammar, text, len, out, ROOM, &detail); }
static uint8_t password(void) { return irikit_replace_password(grammar, text, len, WITH, out, ROOM, &detail); }
static uint8_t password_with(void) { return irikit_replace_password(grammar, AUTHORITY, text, len, out, ROOM, &detail); }
static uint8_t remove_fragment(void) { return irikit_remove_fragment(grammar, text, len, out, ROOM, &detail); }
static uint8_t fragment(void) { return irikit_set_fragment(grammar, text, len, WITH, out, ROOM, &detail); }
static uint8_t fragment_with(void) { return irikit_set_fragment(grammar, AUTHORITY, text, len, out, ROOM, &detail); }
static uint8_t host(void) { return irikit_replace_host(grammar, text, len, WITH, out, ROOM, &detail); }
static uint8_t host_with(void) { return irikit_replace_host(grammar, AUTHORITY, text, len, out, ROOM, &detail); }
static uint8_t name(void) { return irikit_replace_reg_name(grammar, text, len, WITH, out, ROOM, &detail); }
static uint8_t name_with(void) { return irikit_replace_reg_name(grammar, AUTHORITY, text, len, out, ROOM, &detail); }

/* ---- Calls that write no text. */

static uint8_t no_text(uint8_t status)
{
	detail = 0;
	return status;
}

static uint8_t split(void) { return no_text(irikit_split(grammar, text, len, &parts, &detail)); }
static uint8_t is_normalized(void) { return no_text(irikit_is_normalized(grammar, IRIKIT_NORMAL, text, len, &detail)); }
static uint8_t validate_reference(void) { return no_text(irikit_validate(grammar, IRIKIT_REFERENCE, text, len, &detail)); }
static uint8_t validate_scheme(void) { return no_text(irikit_validate(grammar, IRIKIT_WITH_SCHEME, text, len, &detail)); }
static uint8_t validate_absolute(void) { return no_text(irikit_validate(grammar, IRIKIT_ABSOLUTE, text, len, &detail)); }
static uint8_t validate_relative(void) { return no_text(irikit_validate(grammar, IRIKIT_RELATIVE, text, len, &detail)); }
static uint8_t fault_part(void)
{
	return no_text(irikit_fault_part(IRIKIT_REFERENCE, IRIKIT_INVALID_PATH, text, len, slots, &detail));
}
static uint8_t names(void) { return no_text(irikit_template_variables(text, len, slots, MOST / 2, &detail, &place)); }
static uint8_t allows(void) { return no_text(irikit_robots_allows(grammar, SHORT_TEXT("disallow /*b\nallow /\n"), text, len, &detail)); }

/* ---- Calls that take more than one text. */

static uint8_t expand(const char *template_text, size_t template_len, size_t kind, struct irikit_text value, size_t count)
{
	static struct irikit_text values[MOST];
	for (size_t i = 0; i < count; i++)
		values[i] = value;
	struct irikit_variable v = {{"v", 1}, kind, values, count};
	return irikit_expand(grammar, template_text, template_len, &v, 1, out, ROOM, &detail, &place);
}

static uint8_t expand_template(void) { return expand(text, len, IRIKIT_STRING, (struct irikit_text){WITH}, 1); }
static uint8_t expand_value(void) { return expand(SHORT_TEXT("{v}{+v}"), IRIKIT_STRING, (struct irikit_text){text, len}, 1); }
static uint8_t expand_list(void) { return expand(SHORT_TEXT("{?v*}"), IRIKIT_LIST, (struct irikit_text){WITH}, len); }

/* The names of the text, between commas, are the variables, and its template has each of them. */
static uint8_t expand_names(void)
{
	static struct irikit_variable variables[MOST / 2];
	size_t count = 0, from = 1;
	memmove(text + 1, text, len);
	text[0] = '{';
	text[len + 1] = '}';
	for (size_t i = 1; i <= len + 1; i++)
		if (text[i] == ',' || text[i] == '}') {
			variables[count++] = (struct irikit_variable){{text + from, i - from}, IRIKIT_UNDEFINED, NULL, 0};
			from = i + 1;
		}
	return irikit_expand(grammar, text, len + 2, variables, count, out, ROOM, &detail, &place);
}

static uint8_t build(void)
{
	struct irikit_given given[] = {{IRIKIT_SCHEME, {SHORT_TEXT("urn")}}, {IRIKIT_PATH, {text, len}}, {IRIKIT_QUERY, {text, len}},
	                               {IRIKIT_FRAGMENT, {text, len}}};
	return irikit_build(grammar, IRIKIT_WITH_SCHEME, given, 4, out, ROOM, &detail);
}

static uint8_t build_many(void)
{
	static struct irikit_given given[MOST];
	for (size_t i = 0; i < len; i++)
		given[i] = (struct irikit_given){IRIKIT_QUERY + i % 2, {WITH}};
	return irikit_build(grammar, IRIKIT_REFERENCE, given, len, out, ROOM, &detail);
}

/* The base stands on the first line, as for `canon`. */
static uint8_t lines(void)
{
	return irikit_canonical_lines(grammar, IRIKIT_NORMAL, text, base_len, REST, out, ROOM, &consumed, &detail);
}

static uint8_t pairs(void) { return irikit_canonical_pairs(grammar, IRIKIT_NORMAL, text, len, out, ROOM, &consumed, &detail); }
static uint8_t robots_rules(void) { return irikit_robots_rules(SHORT_TEXT("bot"), text, len, out, ROOM, &detail); }
static uint8_t run(void) { return irikit_run(SHORT_TEXT("canon iri"), text, len, out, ROOM, &detail); }
static uint8_t run_words(void) { return irikit_run(text, len, SHORT_TEXT("http://a\n"), out, ROOM, &detail); }

static const struct {
	const char *name;
	uint8_t (*call)(void);
} CALLS[] = {
	{"canonical", canonical}, {"canonical-base", canonical_base}, {"canonical-scheme", canonical_scheme}, {"canonical-to-uri", to_uri},
	{"canonical-to-uri-base", to_uri_base}, {"resolve", resolve}, {"resolve-base", resolve_base}, {"target", target},
	{"target-base", target_base}, {"normalize", normalize}, {"normalize-scheme", normalize_scheme}, {"normalize-preserving", preserve},
	{"steps", steps}, {"map", map}, {"encode", encode}, {"decode", decode}, {"mask-password", mask}, {"remove-password", remove_password},
	{"replace-password", password}, {"replace-password-with", password_with}, {"remove-fragment", remove_fragment},
	{"set-fragment", fragment}, {"set-fragment-with", fragment_with}, {"replace-host", host}, {"replace-host-with", host_with},
	{"replace-reg-name", name}, {"replace-reg-name-with", name_with}, {"split", split}, {"is-normalized", is_normalized},
	{"validate-reference", validate_reference}, {"validate-scheme", validate_scheme}, {"validate-absolute", validate_absolute},
	{"validate-relative", validate_relative}, {"fault-part", fault_part}, {"template-variables", names},
	{"expand-template", expand_template}, {"expand-value", expand_value}, {"expand-list", expand_list}, {"expand-names", expand_names},
	{"build", build}, {"build-many", build_many}, {"lines", lines}, {"canonical-pairs", pairs}, {"robots-rules", robots_rules},
	{"robots-allows", allows}, {"run", run}, {"run-words", run_words},
};

int main(int argc, char **argv)
{
	len = fread(text, 1, MOST, stdin);
	const char *end = memchr(text, '\n', len);
	base_len = end ? (size_t)(end - text) : len;
	if (end) {
		rest = end + 1;
		rest_len = len - base_len - 1;
	}
	for (size_t i = 0; argc == 3 && i < sizeof CALLS / sizeof *CALLS; i++)
		if (strcmp(argv[1], CALLS[i].name) == 0) {
			grammar = strcmp(argv[2], "iri") == 0 ? IRIKIT_IRI : IRIKIT_URI;
			uint8_t status = CALLS[i].call();
			if (CALLS[i].call == run || CALLS[i].call == run_words || status == IRIKIT_OK)
				fwrite(out, 1, detail, stdout);
			return 0;
		}
	return 2;
}
