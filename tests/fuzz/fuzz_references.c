/* What tests/fuzz/fuzz asks of the calls that read a text, or a reference beside a base. */
#include "fuzz.h"
#include <stdlib.h>

/* A reference resolved against a base, in one way or another. */
#define RESOLVED(call, grammar, base, reference, size) \
	ANSWERED(call, size, grammar, placed(BASE, base), (base).len, placed(REFERENCE, reference), (reference).len)

static void check_kinds(uint32_t grammar, struct text text)
{
	struct answer reference = validated(grammar, IRIKIT_REFERENCE, text), uri = validated(grammar, IRIKIT_WITH_SCHEME, text);
	struct answer absolute = validated(grammar, IRIKIT_ABSOLUTE, text), relative = validated(grammar, IRIKIT_RELATIVE, text);
	int is = reference.status == IRIKIT_OK, has_scheme = uri.status == IRIKIT_OK;
	size_t no_scheme = text.len && memchr(text.at, ':', text.len) ? IRIKIT_INVALID_SCHEME : IRIKIT_UNEXPECTED_RELATIVE;
	struct parts parts = is ? split(text) : (struct parts){0};
	tell(reference.detail, WORD("a"));
	tell(uri.detail, WORD("b"));
	holds(has_scheme == (is && parts.scheme.at), "a reference is a URI where it has a scheme");
	holds((relative.status == IRIKIT_OK) == (is && !parts.scheme.at), "a reference is relative where it has none");
	holds((absolute.status == IRIKIT_OK) == (has_scheme && !parts.fragment.at), "a URI is absolute where it has no fragment");
	holds(is || reference.detail < IRIKIT_UNEXPECTED_FRAGMENT || reference.detail == IRIKIT_INVALID_UTF8,
	      "the fault of a reference");
	holds(!has_scheme || absolute.status == IRIKIT_OK || is_answer(absolute, IRIKIT_BAD_TEXT, IRIKIT_UNEXPECTED_FRAGMENT),
	      "the fault of a URI with a fragment as an absolute one");
	holds(!is || has_scheme || is_answer(uri, IRIKIT_BAD_TEXT, no_scheme), "the fault of a relative reference as a URI");
	holds(!is || validated(IRIKIT_IRI, IRIKIT_REFERENCE, text).status == IRIKIT_OK, "a reference of URIs is one of IRIs");
}

static int is_slot(struct text text, struct irikit_slot slot, struct text part)
{
	size_t offset = part.at ? (size_t)(part.at - text.at) : IRIKIT_NOWHERE;
	return slot.offset == offset && slot.len == part.len;
}

/* The part that has the fault of a text that is no reference. */
static void check_fault_part(size_t fault, struct text text)
{
	struct irikit_slot *part = (struct irikit_slot *)place(PARTS, sizeof *part);
	struct answer answer = TESTED(irikit_fault_part, IRIKIT_REFERENCE, fault, placed(REFERENCE, text), text.len, part);
	holds(is_answer(answer, IRIKIT_OK, 0), "a fault has its part");
	holds(part->offset <= text.len && part->len <= text.len - part->offset, "a part that has a fault stands in its text");
	holds(part->len, "no empty part has a fault");
}

static void check_parts(uint32_t grammar, struct text text)
{
	struct irikit_parts *parts = (struct irikit_parts *)place(PARTS, sizeof *parts);
	memset(parts, '.', sizeof *parts);
	struct answer reference = validated(grammar, IRIKIT_REFERENCE, text);
	struct answer answer = TESTED(irikit_split, grammar, placed(REFERENCE, text), text.len, parts);
	holds(is_answer(answer, reference.status, reference.detail), "a split is that of a reference");
	if (answer.status != IRIKIT_OK) {
		for (size_t i = 0; i < sizeof *parts; i++)
			holds(((uint8_t *)parts)[i] == '.', "the parts of what is no reference stay");
		check_fault_part(answer.detail, text);
		return;
	}
	struct parts wanted = split(text);
	struct authority authority = split_authority(wanted.authority);
	holds(is_slot(text, parts->scheme, wanted.scheme) && is_slot(text, parts->authority, wanted.authority)
	      && is_slot(text, parts->path, wanted.path) && is_slot(text, parts->query, wanted.query)
	      && is_slot(text, parts->fragment, wanted.fragment), "the parts of a reference");
	holds(is_slot(text, parts->userinfo, authority.userinfo) && is_slot(text, parts->host, authority.host)
	      && is_slot(text, parts->port, authority.port), "the parts of an authority");
}

static void check_mapping(struct text text)
{
	struct answer reference = validated(IRIKIT_IRI, IRIKIT_REFERENCE, text);
	struct bytes to = {0};
	struct text wanted = mapped(text, &to);
	if (reference.status != IRIKIT_OK) {
		struct answer answer = ANSWERED(irikit_map_to_uri, wanted.len, placed(REFERENCE, text), text.len);
		holds(is_answer(answer, reference.status, reference.detail), "what is no reference isn't mapped");
	} else {
		holds(WRITES(wanted, irikit_map_to_uri, placed(REFERENCE, text), text.len), "the text of a mapping");
		holds(validated(IRIKIT_URI, IRIKIT_REFERENCE, wanted).status == IRIKIT_OK, "a mapped reference is one of URIs");
	}
	free(to.at);
}

static void check_numbers(uint8_t number, struct text text)
{
	size_t fault = IRIKIT_INVALID_SCHEME - 1 + number;
	uint32_t none = no_grammar(number), no_kind = IRIKIT_RELATIVE + 1 + number;
	struct answer words = ANSWERED(irikit_fault_words, 64, fault);
	if (!is_one_of(fault, IRIKIT_INVALID_SCHEME, IRIKIT_INVALID_UTF8)) {
		holds(is_answer(words, IRIKIT_UNKNOWN, 0), "the words of a fault that is none");
	} else {
		holds(words.status == IRIKIT_OK && words.detail, "the words of a fault");
		size_t detail = words.detail, size = text.len % detail;
		words = ANSWERED(irikit_fault_words, size, fault);
		holds(is_answer(words, IRIKIT_SHORT, detail), "the words of a fault in a shorter buffer");
	}
	holds(is_answer(canonical(none, IRIKIT_NORMAL, text, text, 9), IRIKIT_UNKNOWN, 0), "a grammar that is none");
	holds(is_answer(validated(none, IRIKIT_REFERENCE, text), IRIKIT_UNKNOWN, 0), "a grammar of a test that is none");
	holds(is_answer(RESOLVED(irikit_resolve, none, text, text, 9), IRIKIT_UNKNOWN, 0), "a grammar of a resolution that is none");
	holds(is_answer(RESOLVED(irikit_target, none, text, text, 9), IRIKIT_UNKNOWN, 0), "a grammar of a target that is none");
	holds(is_answer(validated(IRIKIT_URI, no_kind, text), IRIKIT_UNKNOWN, 0), "a kind that is none");
}

static int has_text(uint32_t grammar, struct text base, struct text reference, struct text wanted)
{
	return is_text(canonical(grammar, IRIKIT_NORMAL, base, reference, wanted.len), wanted);
}

/* The canonical text of a good reference against a good base, and of other spellings of it. */
static void check_text(const struct reading *reading, struct text reference, struct text text, struct numbers *numbers)
{
	uint32_t grammar = GRAMMAR(*reading);
	struct bytes other = {0}, base = {0}, wanted = {0};
	holds(is_beginning(canonical(grammar, IRIKIT_NORMAL, reading->base, reference, fewer(text)), text), "a text in a shorter buffer");
	holds(is_normal(reading, text), "a text has nothing that normal form takes out");
	holds(has_text(grammar, reading->base, text, text), "a text is its own");
	holds(has_text(grammar, WORD("y://a/b?q"), text, text), "a text is its own against another base");
	put_spelling(numbers, reading, reference, &other);
	holds(has_text(grammar, reading->base, (struct text){other.at, other.len}, text), "another spelling has its text");
	other.len = 0;
	put_spelling(numbers, reading, text, &other);
	holds(has_text(grammar, reading->base, (struct text){other.at, other.len}, text), "another spelling of a text has it");
	struct text mapped_text = mapped(text, &wanted), mapped_base = mapped(reading->base, &base);
	holds(has_text(IRIKIT_URI, mapped_base, mapped(reference, &other), mapped_text), "a mapped text is that of what is mapped");
	free(other.at);
	free(base.at);
	free(wanted.at);
}

static void check_canonical(const struct reading *reading, struct text reference, struct numbers *numbers)
{
	struct answer base = validated(GRAMMAR(*reading), IRIKIT_ABSOLUTE, reading->base);
	struct answer of = validated(GRAMMAR(*reading), IRIKIT_REFERENCE, reference);
	struct answer answer = canonical(GRAMMAR(*reading), IRIKIT_NORMAL, reading->base, reference, reading->base.len + reference.len + 3);
	struct bytes text = {0};
	tell(answer.status, answer.out);
	if (base.status != IRIKIT_OK) {
		holds(is_answer(answer, IRIKIT_BAD_BASE, base.detail), "a base that is refused");
	} else if (of.status != IRIKIT_OK) {
		holds(is_answer(answer, IRIKIT_BAD_REFERENCE, of.detail), "a reference that is refused");
	} else {
		holds(answer.status == IRIKIT_OK, "at most three bytes more than base and reference");
		put_text(&text, answer.out);
		check_text(reading, reference, (struct text){text.at, text.len}, numbers);
		free(text.at);
	}
}

/* How much of a base is before a reference that has no scheme (RFC 3986 section 5.2.2). */
static size_t before(struct text base, struct parts own)
{
	struct parts parts = split(base);
	const uint8_t *end = parts.path.at + parts.path.len;
	if (own.authority.at)
		return parts.scheme.len + 1;
	if (!own.path.len)
		return own.query.at ? (size_t)(end - base.at) : base.len;
	if (own.path.at[0] == '/')
		return parts.path.at - base.at;
	while (end > parts.path.at && end[-1] != '/')
		end--;
	return end - base.at;
}

/* The target of a reference, with its dot segments. */
static struct text target_of(struct bytes *to, struct text base, struct text reference)
{
	struct parts from = split(base), own = split(reference);
	int begins_path = from.authority.at && !from.path.len && !own.authority.at && own.path.len && own.path.at[0] != '/';
	to->len = 0;
	if (!own.scheme.at) {
		put(to, base.at, before(base, own));
		put_word(to, begins_path ? "/" : "");
	}
	put_text(to, reference);
	return (struct text){to->at, to->len};
}

/* What is resolved, and the target: the normal form of both is the canonical text. */
static void check_resolved(uint32_t grammar, struct text base, struct text reference, struct text resolved)
{
	struct bytes to = {0}, targets = {0};
	struct text text = kept(&to, canonical(grammar, IRIKIT_NORMAL, base, reference, base.len + reference.len + 3).out);
	struct text target = target_of(&targets, base, reference);
	size_t few = fewer(resolved), few_of_target = fewer(target);
	struct parts own = split(reference);
	int keeps = !own.scheme.at && !own.authority.at && !own.path.len;
	holds(is_text(RESOLVED(irikit_target, grammar, base, reference, target.len), target), "a target");
	holds(is_beginning(RESOLVED(irikit_target, grammar, base, reference, few_of_target), target), "a target in a shorter buffer");
	holds(is_beginning(RESOLVED(irikit_resolve, grammar, base, reference, few), resolved), "a resolution in a shorter buffer");
	holds(validated(grammar, IRIKIT_WITH_SCHEME, resolved).status == IRIKIT_OK, "a resolved reference is a URI");
	holds(keeps ? is_same(resolved, target) : !has_dots(split(resolved), 0), "what is resolved has no dots but those of the base");
	holds(has_text(grammar, WORD("y:"), resolved, text), "a canonical text is what is resolved, in normal form");
	holds(has_text(grammar, WORD("y:"), target, text), "a canonical text is the target, in normal form");
	free(to.at);
	free(targets.at);
}

static void check_resolution(uint32_t grammar, struct text base, struct text reference)
{
	struct answer of_base = validated(grammar, IRIKIT_ABSOLUTE, base), of = validated(grammar, IRIKIT_REFERENCE, reference);
	size_t most = base.len + reference.len + 3;
	struct bytes resolved = {0};
	struct answer target = RESOLVED(irikit_target, grammar, base, reference, most);
	struct answer answer = RESOLVED(irikit_resolve, grammar, base, reference, most);
	if (of_base.status != IRIKIT_OK) {
		holds(is_answer(answer, IRIKIT_BAD_BASE, of_base.detail) && is_answer(target, IRIKIT_BAD_BASE, of_base.detail), "a base that is refused");
	} else if (of.status != IRIKIT_OK) {
		holds(is_answer(answer, IRIKIT_BAD_REFERENCE, of.detail), "a reference that isn't resolved");
		holds(is_answer(target, IRIKIT_BAD_REFERENCE, of.detail), "a reference that has no target");
	} else {
		holds(answer.status == IRIKIT_OK, "at most three bytes more than base and reference");
		check_resolved(grammar, base, reference, kept(&resolved, answer.out));
	}
	free(resolved.at);
}

void check_references(struct input input)
{
	struct reading reading = {input.grammar == IRIKIT_IRI, 0, input.one.at ? input.one : WORD("http://a/b/c/d;p?q")};
	struct numbers numbers = {mixed(input.other.len, input.first)};
	check_canonical(&reading, input.other, &numbers);
	check_resolution(input.grammar, reading.base, input.other);
	check_kinds(input.grammar, reading.base);
	check_kinds(input.grammar, input.other);
	check_parts(input.grammar, input.other);
	check_mapping(input.other);
	check_numbers(input.first >> 2, input.other);
}
