/* What tests/fuzz/fuzz asks of the calls for URI templates. An input is a template, and a line for each variable: a letter for its kind,
 * its name, and where it has values `=` and these with commas between them. */
#include "fuzz.h"
#include <stdlib.h>

#define IS_FAULT(number) is_one_of(number, IRIKIT_EXPRESSION_NOT_CLOSED, IRIKIT_UNSUPPORTED_OPERATOR)
#define MOST_VARIABLES 32
#define MOST_VALUES 256

/* Variables as a call takes them, and the first that isn't as its kind asks. */
struct variables {
	size_t count, values, unsound;
};

static struct irikit_text as_passed(struct text text, const uint8_t *from, const char *copy)
{
	return (struct irikit_text){copy + (text.at - from), text.len};
}

/* Whether a kind has so many values (RFC 6570 section 2.3). */
static int is_kind_of(size_t kind, size_t count)
{
	return kind == IRIKIT_UNDEFINED ? count == 0 : kind == IRIKIT_STRING ? count == 1 : kind == IRIKIT_LIST
	       || (kind == IRIKIT_PAIRS && count % 2 == 0);
}

/* Reads a variable, whose values are put after those that are there; whether it is as its kind asks. */
static int read_variable(struct text line, struct text all, const char *copy, struct irikit_variable *to,
                         struct irikit_text *values)
{
	static const char kinds[] = "uslp";
	const char *kind = line.at[0] ? strchr(kinds, line.at[0]) : NULL;
	const uint8_t *end = line.at + line.len, *equals = memchr(line.at, '=', line.len);
	struct text name = {line.at + 1, (equals ? equals : end) - line.at - 1};
	int sound = 1;
	*to = (struct irikit_variable){as_passed(name, all.at, copy), kind ? IRIKIT_UNDEFINED + (size_t)(kind - kinds) : line.at[0], values, 0};
	for (const uint8_t *at = equals; at && at < end && to->count < MOST_VALUES / MOST_VARIABLES;) {
		const uint8_t *comma = memchr(at + 1, ',', end - at - 1);
		struct text value = {at + 1, (comma ? comma : end) - at - 1};
		values[to->count++] = as_passed(value, all.at, copy);
		sound &= is_utf8(value);
		at = comma;
	}
	return sound && is_kind_of(to->kind, to->count);
}

/* Reads the lines, and puts variables and values where a call takes them. */
static struct variables read_variables(struct text text)
{
	struct irikit_variable read[MOST_VARIABLES], *variables;
	struct irikit_text values[MOST_VALUES], *passed;
	struct variables is = {.unsound = SIZE_MAX};
	const char *copy = placed(BASE, text);
	const uint8_t *end = text.at + text.len;
	for (const uint8_t *at = text.at, *next; at < end && is.count < MOST_VARIABLES; at = next) {
		const uint8_t *lf = memchr(at, '\n', end - at);
		next = lf ? lf + 1 : end;
		if (at == lf)
			continue;
		int sound = read_variable((struct text){at, (lf ? lf : end) - at}, text, copy, read + is.count, values + is.values);
		if (!sound && is.unsound == SIZE_MAX)
			is.unsound = is.count;
		is.values += read[is.count++].count;
	}
	passed = memcpy(place(VALUES, is.values * sizeof *values), values, is.values * sizeof *values);
	variables = memcpy(place(PARTS, is.count * sizeof *read), read, is.count * sizeof *read);
	for (size_t i = 0; i < is.count; i++)
		variables[i].values = passed + (read[i].values - values);
	return is;
}

static uint8_t expand(uint32_t grammar, struct text text, const struct variables *variables, char *out, size_t size, size_t *detail)
{
	const struct irikit_variable *passed = (const struct irikit_variable *)place(PARTS, variables->count * sizeof *passed);
	return irikit_expand(grammar, placed(REFERENCE, text), text.len, passed, variables->count, out, size, detail, TOLD_TOO_PLACE);
}

/* That names stand in a text one after the other, and have what a name has (RFC 6570 section 2.3). */
static void check_names(struct text text, const struct irikit_slot *names, size_t count)
{
	for (size_t i = 0, end = 0; i < count; i++) {
		holds(names[i].offset > end || (i == 0 && names[i].offset), "names stand one after the other");
		holds(names[i].len && names[i].offset < text.len && names[i].len < text.len - names[i].offset, "a name stands in its template");
		for (size_t at = names[i].offset; at < names[i].offset + names[i].len; at++)
			holds(is_letter(text.at[at]) || is_digit(text.at[at]) || memchr("_.%", text.at[at], 3), "the characters of a name");
		end = names[i].offset + names[i].len;
	}
}

/* Where the names of a template stand, in as many slots and in fewer; its fault, or IRIKIT_OK. */
static struct answer check_variables(struct text text)
{
	size_t most = text.len / 2, few = fewer((struct text){NULL, most}), size = most * sizeof (struct irikit_slot);
	struct irikit_slot *names = (struct irikit_slot *)place(OUT, size);
	fill(size);
	uint8_t status = irikit_template_variables(placed(REFERENCE, text), text.len, names, most, TOLD_PLACE, TOLD_TOO_PLACE);
	size_t detail = *TOLD_PLACE, where = *TOLD_TOO_PLACE, written = status == IRIKIT_OK ? detail * sizeof *names : 0;
	struct answer fault = {status, status == IRIKIT_OK ? 0 : detail, {text.at, status == IRIKIT_OK ? 0 : where}};
	struct bytes kept = {0};
	int refused = status == IRIKIT_BAD_TEXT && IS_FAULT(detail) && where <= text.len;
	holds(status == IRIKIT_OK ? detail <= most && !where : refused, "how names are counted");
	for (size_t i = written; i < size; i++)
		holds(((uint8_t *)names)[i] == '.', "slots after the names stay");
	if (status == IRIKIT_OK)
		check_names(text, names, detail);
	put(&kept, names, written);
	few = few < detail ? few : detail;
	names = (struct irikit_slot *)place(OUT, few * sizeof *names);
	uint8_t again = irikit_template_variables(placed(REFERENCE, text), text.len, names, few, TOLD_PLACE, TOLD_TOO_PLACE);
	holds(status != IRIKIT_OK || again == (few < detail ? IRIKIT_SHORT : IRIKIT_OK), "names in fewer slots");
	holds(status != IRIKIT_OK || (*TOLD_PLACE == detail && !memcmp(names, kept.at, few * sizeof *names)), "the first names");
	free(kept.at);
	return fault;
}

/* Of reserved and unreserved characters and percent-encoded octets, of IRIs characters past ASCII too. */
static int is_expansion(uint32_t grammar, struct text text)
{
	for (size_t i = 0; i < text.len; i++) {
		uint8_t byte = text.at[i];
		if (byte == '%' && !(text.len - i > 2 && is_hex(text.at[i + 1]) && is_hex(text.at[i + 2])))
			return 0;
		if (byte < 0x80 ? !byte || (!is_unreserved(byte) && !strchr("%:/?#[]@!$&'()*+,;=", byte)) : grammar == IRIKIT_URI)
			return 0;
	}
	return is_utf8(text);
}

/* The expansions of a template without a fault by both grammars; that of IRIs, mapped, is that of URIs. */
static void check_expansion(struct text text, const struct variables *variables)
{
	struct bytes iri = {0}, uri = {0}, to = {0};
	struct answer answer = ANSWERED(expand, ROOM, IRIKIT_IRI, text, variables);
	if (answer.status == IRIKIT_OK) {
		struct text expanded = kept(&iri, answer.out);
		tell(0, expanded);
		holds(*TOLD_TOO_PLACE == 0 && is_expansion(IRIKIT_IRI, expanded), "an expansion");
		holds(WRITES(expanded, expand, IRIKIT_IRI, text, variables), "an expansion in buffers");
		expanded = kept(&uri, ANSWERED(expand, ROOM, IRIKIT_URI, text, variables).out);
		holds(is_expansion(IRIKIT_URI, expanded), "an expansion of URIs");
		holds(is_same(expanded, mapped((struct text){iri.at, iri.len}, &to)), "an expansion of IRIs, mapped, is that of URIs");
	} else if (answer.status != IRIKIT_SHORT) {
		holds(is_answer(answer, IRIKIT_BAD_TEXT, IRIKIT_UNEXPECTED_VALUE_TYPE), "the one fault of a value");
		holds(*TOLD_TOO_PLACE < text.len, "the place of a value's fault");
	}
	free(iri.at);
	free(uri.at);
	free(to.at);
}

static void check_words(uint8_t number, struct text text)
{
	size_t fault = IRIKIT_EXPRESSION_NOT_CLOSED - 1 + number;
	struct answer words = ANSWERED(irikit_template_fault_words, 64, fault);
	holds(IS_FAULT(fault) ? words.status == IRIKIT_OK && words.detail : is_answer(words, IRIKIT_UNKNOWN, 0), "the words of a fault");
	if (IS_FAULT(fault)) {
		size_t detail = words.detail;
		words = ANSWERED(irikit_template_fault_words, text.len % detail, fault);
		holds(is_answer(words, IRIKIT_SHORT, detail), "the words of a fault in a shorter buffer");
	}
}

void check_templates(struct input input)
{
	uint8_t number = input.first >> 2;
	uint32_t grammar = grammar_of(input);
	struct text text = input.one.at ? input.one : input.other, lines = input.one.at ? input.other : WORD("");
	struct answer fault = check_variables(text), answer;
	struct variables variables = read_variables(lines);
	tell(mixed(fault.status, fault.detail), text);
	check_words(number, text);
	answer = ANSWERED(expand, ROOM, grammar, text, &variables);
	size_t where = *TOLD_TOO_PLACE;
	if (variables.unsound != SIZE_MAX)
		holds(is_answer(answer, IRIKIT_BAD_VARIABLE, 0) && where == variables.unsound, "a variable that isn't as its kind asks");
	else if (!IS_GRAMMAR(grammar))
		holds(is_answer(answer, IRIKIT_UNKNOWN, 0) && !where, "a grammar that is none");
	else if (fault.status == IRIKIT_BAD_TEXT)
		holds(is_answer(answer, IRIKIT_BAD_TEXT, fault.detail) && where == fault.out.len, "a template that is refused");
	else
		check_expansion(text, &variables);
}
