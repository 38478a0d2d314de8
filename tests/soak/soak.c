/* soak PROGRAM uri|iri normal|scheme SEED LINES: a part of tests/soak/soak. Makes lines and a base from the seed, asks the program for
 * their answers, and then in other ways whose answers are known by the first. Prints each fault, and at the end how many lines were
 * made, how many were answered `ok`, how many answers were asked for, and the faults. Built with LIBRARY, it asks the library for C
 * too. */
#include "soak.h"
#include <stdio.h>
#include <stdlib.h>
#include "parts.h"
#ifdef LIBRARY
#include <irikit.h>
#endif

#define SLOTS (1 << 18)

static const char *mode_of(const struct soak *soak)
{
	return soak->reading.by_scheme ? soak->mode : NULL;
}

/* The words of a command, and by scheme rules those with `scheme` after them. */
static const char *in_mode(const struct soak *soak, const char *words, const char *by_scheme)
{
	return soak->reading.by_scheme ? by_scheme : words;
}

static struct text other_base(struct soak *soak)
{
	struct text scheme = split(soak->reading.base).scheme, base;
	do
		base = BASES[below(&soak->spelling, sizeof BASES / sizeof *BASES)];
	while (is_same_scheme(scheme, split(base).scheme));
	return base;
}

/* Against a base with another scheme: a line with a scheme has its answer, and so has a text that was answered; and a fault is the
 * line's own. */
static void check_other_base(struct soak *soak)
{
	struct text base = other_base(soak), any = {0};
	struct asked asked = against(soak, base);
	for (size_t i = 0; i < soak->count; i++) {
		struct text answer = soak->answers[i], line = soak->lines[i];
		if (!is_good(answer)) {
			ask(soak, &asked, "", line, answer, "a fault is the same against another base");
			continue;
		}
		ask(soak, &asked, "", line, split(line).scheme.at ? answer : any, "a link with a scheme has one text against every base");
		ask(soak, &asked, "", text_of(answer), answer, "an answer is its own text against a base with another scheme");
	}
	check(soak, &asked, base, "canon", mode_of(soak));
}

/* Each answer is its own answer, and that of other spellings of the line and of itself. */
static void check_spellings(struct soak *soak)
{
	struct asked asked = against(soak, soak->reading.base);
	struct bytes other = {0};
	for (size_t i = 0; i < soak->count; i++) {
		struct text answer = soak->answers[i];
		if (!is_good(answer))
			continue;
		ask(soak, &asked, "", text_of(answer), answer, "an answer is its own text");
		other.len = 0;
		put_spelling(&soak->spelling, &soak->reading, soak->lines[i], &other);
		ask(soak, &asked, "", (struct text){other.at, other.len}, answer, "another spelling of a line has its text");
		other.len = 0;
		put_spelling(&soak->spelling, &soak->reading, text_of(answer), &other);
		ask(soak, &asked, "", (struct text){other.at, other.len}, answer, "another spelling of an answer has its text");
	}
	free(other.at);
	check(soak, &asked, soak->reading.base, "canon", mode_of(soak));
}

/* A page of `pairs`, with its tab and a NUL. */
static const char *page_of(struct bytes *page, struct text base)
{
	put_text(page, base);
	put_byte(page, '\t');
	put_byte(page, 0);
	return (const char *)page->at;
}

/* A line on a page has the answer that `canon` gives with the page as base, whatever page the line before has, or none; with `to uri` that
 * mapped to a URI. */
static void check_pairs(struct soak *soak, int to_uri)
{
	struct asked asked = {0};
	struct bytes page = {0}, other = {0}, wanted = {0};
	const char *on_page = page_of(&page, soak->reading.base), *on_other = page_of(&other, other_base(soak));
	for (size_t i = 0; i < soak->count; i++) {
		struct text answer = to_uri ? mapped(soak->answers[i], &wanted) : soak->answers[i];
		ask(soak, &asked, on_page, soak->lines[i], answer, "a link on a page has its answer against that base");
		if (below(&soak->spelling, 4) == 0)
			ask(soak, &asked, on_other, WORD("x:y"), WORD("ok x:y"), "a link with a scheme has one text on every page");
		if (below(&soak->spelling, 32) == 0)
			ask(soak, &asked, "a/b\t", soak->lines[i], WORD("base expected an absolute IRI but got a relative IRI"), "a page that is no base");
		if (below(&soak->spelling, 32) == 0)
			ask(soak, &asked, "", WORD("http://a/b"), WORD("bad line"), "a line without a tab");
	}
	check(soak, &asked, soak->reading.base, "pairs", to_uri ? in_mode(soak, "to uri", "to uri scheme") : mode_of(soak));
	free(page.at);
	free(other.at);
	free(wanted.at);
}

/* A text by scheme rules stays itself without them. */
static void check_without_rules(struct soak *soak)
{
	struct asked asked = against(soak, soak->reading.base);
	for (size_t i = 0; i < soak->count; i++)
		if (is_good(soak->answers[i]))
			ask(soak, &asked, "", text_of(soak->answers[i]), soak->answers[i], "a text by scheme rules stays itself without them");
	check(soak, &asked, soak->reading.base, "canon", NULL);
}

/* The text of an IRI, mapped to a URI, is that of base and line, both mapped. */
static void check_mapped(struct soak *soak)
{
	struct bytes base_bytes = {0}, line = {0}, wanted = {0};
	struct text base = mapped(soak->reading.base, &base_bytes);
	struct asked asked = against(soak, base);
	for (size_t i = 0; i < soak->count; i++)
		if (is_good(soak->answers[i]))
			ask(soak, &asked, "", mapped(soak->lines[i], &line), mapped(soak->answers[i], &wanted), "a mapped text is that of the mapped line");
	const char *grammar = soak->grammar;
	soak->grammar = "uri";
	check(soak, &asked, base, "canon", mode_of(soak));
	soak->grammar = grammar;
	free(base_bytes.at);
	free(line.at);
	free(wanted.at);
}

/* `to uri` has the text mapped to a URI, and the same faults. */
static void check_to_uri(struct soak *soak)
{
	struct asked asked = against(soak, soak->reading.base);
	struct bytes wanted = {0};
	for (size_t i = 0; i < soak->count; i++)
		ask(soak, &asked, "", soak->lines[i], mapped(soak->answers[i], &wanted), "`to uri` maps the text that canon answers");
	check(soak, &asked, soak->reading.base, "canon", in_mode(soak, "to uri", "to uri scheme"));
	free(wanted.at);
}

/* `parts` has the components of the text that `canon` answers, or its fault. */
static void check_parts(struct soak *soak)
{
	struct asked asked = against(soak, soak->reading.base);
	struct bytes wanted = {0};
	for (size_t i = 0; i < soak->count; i++) {
		struct text answer = soak->answers[i], object;
		if (is_good(answer)) {
			object = object_of(text_of(answer), &wanted);
		} else {
			wanted.len = 0;
			put_word(&wanted, "{\"bad\":\"");
			put(&wanted, answer.at + 4, answer.len - 4);
			put_word(&wanted, "\"}");
			object = (struct text){wanted.at, wanted.len};
		}
		ask(soak, &asked, "", soak->lines[i], object, "`parts` has the components of the text");
	}
	check(soak, &asked, soak->reading.base, "parts", mode_of(soak));
	free(wanted.at);
}

/* By appendix B of RFC 8288, with `lax`, a field's links are those whose targets are references, with each value; what begins with no `<`
 * is passed over. A line may have no `>`, which ends its target, and is UTF-8. */
static void check_lax(struct soak *soak)
{
	struct asked asked = against(soak, soak->reading.base);
	struct bytes field = {0}, wanted = {0};
	for (size_t i = 0; i < soak->count; i++) {
		struct text answer = soak->answers[i], line = soak->lines[i];
		if (!is_utf8(line) || (line.len && memchr(line.at, '>', line.len)))
			continue;
		field.len = wanted.len = 0;
		put_word(&field, below(&soak->spelling, 2) ? "bar, <" : " ,\tb\"a,<c>\"r;x,<");
		put_text(&field, line);
		put_word(&field, ">;type=font/woff2 ,,<y:z>;REL=next");
		put_word(&wanted, "ok ");
		if (is_good(answer)) {
			put_byte(&wanted, '<');
			put_text(&wanted, text_of(answer));
			put_word(&wanted, ">; type=\"font/woff2\", ");
		}
		put_word(&wanted, "<y:z>; rel=\"next\"");
		ask(soak, &asked, "", (struct text){field.at, field.len}, (struct text){wanted.at, wanted.len}, "links that `lax` takes");
	}
	check(soak, &asked, soak->reading.base, "links", in_mode(soak, "lax", "lax scheme"));
	free(field.at);
	free(wanted.at);
}

/* An entry of the register: its text, the numbers of its lines, each with a comma, and its place; 0 in a slot that is free. */
struct entry {
	struct text text;
	struct bytes lines;
	size_t place;
};

static struct entry *slot_of(struct entry *slots, struct text text)
{
	uint64_t hash = 14695981039346656037u;
	for (size_t i = 0; i < text.len; i++)
		hash = (hash ^ text.at[i]) * 1099511628211u;
	size_t at = (hash ^ hash >> 32) % SLOTS;
	while (slots[at].place && !is_same(slots[at].text, text))
		at = (at + 1) % SLOTS;
	return slots + at;
}

static void ask_entries(struct soak *soak, struct asked *asked, struct entry **order, size_t count)
{
	for (size_t i = 0; i < count; i++) {
		char detail[32];
		struct bytes wanted = {0};
		snprintf(detail, sizeof detail, "%zu ", i + 1);
		put_word(&wanted, detail);
		put(&wanted, order[i]->lines.at, order[i]->lines.len - 1);
		put_byte(&wanted, ' ');
		put_text(&wanted, order[i]->text);
		ask(soak, asked, NULL, order[i]->text, (struct text){wanted.at, wanted.len}, "the entries of register");
		free(wanted.at);
		free(order[i]->lines.at);
	}
}

/* `register` takes lines with one answer for one link, tells its entry by another spelling, and lists each with its lines. */
static void check_register(struct soak *soak)
{
	struct asked asked = against(soak, soak->reading.base);
	struct entry *slots = calloc(SLOTS, sizeof *slots), **order = taken(NULL, (soak->count + 1) * sizeof *order);
	struct bytes other = {0};
	size_t count = 0;
	char detail[64];
	for (size_t i = 0, number = 2; i < soak->count; i++, number++) {
		struct text answer = soak->answers[i];
		if (!is_good(answer)) {
			ask(soak, &asked, "a ", soak->lines[i], answer, "register tells the fault that canon tells");
			continue;
		}
		struct entry *entry = slot_of(slots, text_of(answer));
		int is_new = entry->place == 0;
		if (is_new) {
			*entry = (struct entry){text_of(answer), {0}, count + 1};
			order[count++] = entry;
		}
		put(&entry->lines, detail, snprintf(detail, sizeof detail, "%zu,", number));
		int len = snprintf(detail, sizeof detail, "%s %zu", is_new ? "new" : "old", entry->place);
		ask(soak, &asked, "a ", soak->lines[i], (struct text){(uint8_t *)detail, len}, "register takes lines with one text for one link");
		if (below(&soak->spelling, 4) == 0) {
			other.len = 0;
			put_spelling(&soak->spelling, &soak->reading, soak->lines[i], &other);
			len = snprintf(detail, sizeof detail, "at %zu", entry->place);
			ask(soak, &asked, "f ", (struct text){other.at, other.len}, (struct text){(uint8_t *)detail, len}, "register finds another spelling");
			number++;
		}
	}
	ask_entries(soak, &asked, order, count);
	free(other.at);
	free(order);
	free(slots);
	check(soak, &asked, soak->reading.base, "register", mode_of(soak));
}

#ifdef LIBRARY
/* The answer of the library for C to a line, with a buffer of a size. */
static uint8_t called(const struct soak *soak, struct text line, uint8_t *out, size_t size, size_t *detail)
{
	struct text base = soak->reading.base;
	return irikit_canonical(GRAMMAR(soak->reading), MODE(soak->reading), (const char *)base.at, base.len, (const char *)line.at, line.len,
	                        (char *)out, size, detail);
}

/* The library for C has the program's text, in a buffer of its length and in a shorter one, and the program's words. */
static void check_library(struct soak *soak)
{
	for (size_t i = 0; i < soak->count; i++) {
		struct text answer = soak->answers[i], line = soak->lines[i], text = is_good(answer) ? text_of(answer) : (struct text){0};
		size_t detail = 0, size = text.len ? below(&soak->spelling, text.len) : 0, words = 0;
		uint8_t *out = taken(NULL, text.len + 1), *few = taken(NULL, size + 1), fault_words[64] = "bad ";
		uint8_t status = called(soak, line, out, text.len, &detail);
		if (is_good(answer)) {
			if (status != IRIKIT_OK || !is_same(text, (struct text){out, detail}))
				fault(soak, "the library's text", soak->reading.base, line, text, (struct text){out, detail < text.len ? detail : text.len});
			if (called(soak, line, few, size, &detail) != IRIKIT_SHORT || detail != text.len || memcmp(few, out, size))
				fault(soak, "the library's text in a shorter buffer", soak->reading.base, line, text, (struct text){few, size});
			if (irikit_is_normalized(GRAMMAR(soak->reading), MODE(soak->reading), (const char *)text.at, text.len, &detail) != IRIKIT_OK)
				fault(soak, "an answer is in normal form by the library", soak->reading.base, line, text, text);
		} else {
			irikit_fault_words(detail, (char *)fault_words + 4, sizeof fault_words - 4, &words);
			if (status != IRIKIT_BAD_REFERENCE || !is_same(answer, (struct text){fault_words, words + 4}))
				fault(soak, "the library's fault", soak->reading.base, line, answer, (struct text){fault_words, words + 4});
		}
		free(out);
		free(few);
	}
	soak->asked += soak->count;
}
#endif

int main(int argc, char **argv)
{
	if (argc != 6)
		return 2;
	struct soak soak = {.program = argv[1], .grammar = argv[2], .mode = argv[3], .seconds = 120, .seed = strtoull(argv[4], NULL, 10)};
	soak.reading = (struct reading){.iri = argv[2][0] == 'i', .by_scheme = argv[3][0] == 's'};
	soak.making.state = soak.seed * 0x9fb21c651e98df25;
	soak.spelling.state = ~soak.making.state;
	soak.count = strtoull(argv[5], NULL, 10);
	soak.lines = taken(NULL, (soak.count + 1) * sizeof *soak.lines);
	begin(&soak);
	check_other_base(&soak);
	check_spellings(&soak);
	check_pairs(&soak, 0);
	check_pairs(&soak, 1);
	check_to_uri(&soak);
	check_parts(&soak);
	check_lax(&soak);
	if (soak.reading.iri)
		check_mapped(&soak);
	if (soak.reading.by_scheme)
		check_without_rules(&soak);
	check_register(&soak);
#ifdef LIBRARY
	check_library(&soak);
#endif
	printf("lines %zu good %zu asked %zu faults %zu\n", soak.count, soak.good, soak.asked, soak.faults);
	return soak.faults != 0;
}
