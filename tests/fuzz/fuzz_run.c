/* What tests/fuzz/fuzz asks of the program's run, called from C. */
#include "fuzz.h"
#include <stdlib.h>

/* The program's run with some words. */
static uint8_t run_with(const char *words, struct text input, size_t size)
{
	fill(size);
	return irikit_run(words, strlen(words), placed(REFERENCE, input), input.len, (char *)place(OUT, size), size, TOLD_PLACE);
}

/* The run of a command over an input: the same in a buffer of the output's length, and its beginning in a shorter one. */
static void check_output(const char *words, struct text input, struct bytes *output)
{
	uint8_t status = run_with(words, input, ROOM);
	size_t out_len = *TOLD_PLACE;
	struct text wanted = kept(output, (struct text){place(OUT, ROOM), out_len});
	tell(status, wanted);
	holds(status <= IRIKIT_RUN_BAD_BASE || (status == IRIKIT_RUN_SHORT && out_len <= ROOM), "how a run ends");
	holds(status != IRIKIT_RUN_NO_COMMAND || !out_len, "what is no command writes nothing");
	if (status == IRIKIT_RUN_SHORT)
		return;
	holds(run_with(words, input, out_len) == status && *TOLD_PLACE == out_len, "a run in a buffer of its length");
	holds(is_same((struct text){place(OUT, out_len), out_len}, wanted), "the output of a run");
	size_t size = fewer(wanted);
	holds(!out_len || run_with(words, input, size) == IRIKIT_RUN_SHORT, "a run in a shorter buffer");
	holds(!out_len || (*TOLD_PLACE <= size && !memcmp(place(OUT, size), wanted.at, *TOLD_PLACE)), "a run's output begins as ever");
}

static uint8_t answer_lines(int grammar, struct text base, struct text lines, char *out, size_t size, size_t *out_len)
{
	return irikit_canonical_lines(grammar, IRIKIT_NORMAL, placed(BASE, base), base.len, placed(REFERENCE, lines), lines.len, out, size,
	                              TOLD_TOO_PLACE, out_len);
}

/* `canon` answers what the call for many lines answers, if the base is taken and an LF ends the last line. */
static void check_canon(int grammar, struct text input, struct text output)
{
	const uint8_t *end = input.at + input.len, *lf = memchr(input.at, '\n', input.len), *from = lf ? lf + 1 : end;
	struct text base = {input.at, (lf ? lf : end) - input.at}, lines = {from, end - from};
	base.len -= base.len && base.at[base.len - 1] == '\r';
	if (validated(grammar, IRIKIT_ABSOLUTE, base).status != IRIKIT_OK || (lines.len && lines.at[lines.len - 1] != '\n'))
		return;
	holds(is_text(ANSWERED(answer_lines, output.len, grammar, base, lines), output), "a run answers as the call for many lines does");
}

void check_run(struct input input)
{
	static const char *const words[] = {"canon uri", "canon iri", "canon uri scheme", "canon iri to uri", "parts iri", "expand uri", "expand iri",
		"register uri", "links iri", "docs uri", "robots uri examplebot", "pairs uri", "pairs iri scheme", "gen uri 9", "--help",
		"canon  uri", "docs", "expand iri scheme", "register uri scheme", "links uri scheme", "docs iri scheme",
		"robots uri examplebot scheme", "links uri lax", "links iri lax scheme", "canon uri to uri", "canon iri to uri scheme", "parts uri scheme",
		"pairs uri to uri", "pairs iri to uri scheme", "links lax"};
	size_t number = (input.first >> 2) % (sizeof words / sizeof *words);
	struct bytes to = {0};
	check_output(words[number], input.whole, &to);
	if (number <= IRIKIT_IRI && to.len < ROOM)
		check_canon(number, input.whole, (struct text){to.at, to.len});
	free(to.at);
}
