/* What tests/fuzz/fuzz asks of the call that answers many lines. */
#include "fuzz.h"
#include <stdlib.h>

/* What is asked: a base, and lines against it. */
struct question {
	uint32_t grammar, mode;
	struct text base, lines;
};

static uint8_t call(const struct question *asked, struct text lines, char *out, size_t size, size_t *detail)
{
	return irikit_canonical_lines(asked->grammar, asked->mode, placed(BASE, asked->base), asked->base.len, placed(REFERENCE, lines),
	                              lines.len, out, size, TOLD_TOO_PLACE, detail);
}

/* The answers to lines that an LF ends, by the call for one. */
static void put_answers(const struct question *asked, struct bytes *answers)
{
	const uint8_t *end = asked->lines.at + asked->lines.len;
	put_word(answers, "");
	for (const uint8_t *at = asked->lines.at, *lf; (lf = at < end ? memchr(at, '\n', end - at) : NULL); at = lf + 1) {
		struct text line = {at, lf - at - (lf > at && lf[-1] == '\r')};
		struct answer answer = canonical(asked->grammar, asked->mode, asked->base, line, asked->base.len + line.len + 3);
		if (answer.status == IRIKIT_OK) {
			put_word(answers, "ok ");
			put_text(answers, answer.out);
		} else {
			holds(answer.status == IRIKIT_BAD_REFERENCE, "the answer of a line");
			size_t fault = answer.detail;
			put_word(answers, "bad ");
			put_text(answers, ANSWERED(irikit_fault_words, 64, fault).out);
		}
		put_byte(answers, '\n');
	}
}

/* How many bytes are up to the last LF of the first SIZE bytes. */
static size_t whole_lines(struct text text, size_t size)
{
	while (size && text.at[size - 1] != '\n')
		size--;
	return size;
}

static size_t count_of(struct text text)
{
	size_t count = 0;
	for (size_t i = 0; i < text.len; i++)
		count += text.at[i] == '\n';
	return count;
}

/* One call in a buffer of a size: the answers that have room stand whole and are counted, with as many lines. */
static size_t check_call(const struct question *asked, struct text lines, struct text answers, size_t size)
{
	fill(size);
	uint8_t status = call(asked, lines, (char *)place(OUT, size), size, TOLD_PLACE);
	size_t detail = *TOLD_PLACE, consumed = *TOLD_TOO_PLACE, written = size < answers.len ? size : answers.len;
	holds(status == (size < answers.len ? IRIKIT_SHORT : IRIKIT_OK), "how many lines end");
	holds(detail == whole_lines(answers, written), "the answers that are counted stand whole");
	holds(consumed <= lines.len && (!consumed || lines.at[consumed - 1] == '\n'), "lines are consumed whole");
	holds(count_of((struct text){lines.at, consumed}) == count_of((struct text){answers.at, detail}), "each line has its answer");
	holds(!written || !memcmp(place(OUT, size), answers.at, written), "the answers of many lines");
	for (size_t i = written; i < size; i++)
		holds(place(OUT, size)[i] == '.', "what is after the answers stays");
	return consumed;
}

/* Calls in smaller buffers, of which each goes on where the one before it stopped. */
static void check_calls(const struct question *asked, struct text answers)
{
	struct text lines = asked->lines, left = answers;
	check_call(asked, lines, left, answers.len);
	check_call(asked, lines, left, answers.len + 7);
	for (size_t size = fewer(answers), consumed = 1; left.len && consumed; ) {
		consumed = check_call(asked, lines, left, size);
		size_t answered = whole_lines(left, size < left.len ? size : left.len);
		lines = (struct text){lines.at + consumed, lines.len - consumed};
		left = (struct text){left.at + answered, left.len - answered};
	}
}

void check_lines(struct input input)
{
	uint8_t number = input.first >> 2;
	struct text given = input.one.at ? input.one : WORD("http://a/b");
	struct question asked = {grammar_of(input), IRIKIT_NORMAL + number % 3, given, input.other};
	int known = IS_GRAMMAR(asked.grammar) && asked.mode <= IRIKIT_BY_SCHEME;
	struct answer base = validated(input.grammar, IRIKIT_ABSOLUTE, asked.base);
	struct bytes to = {0};
	if (known && base.status == IRIKIT_OK) {
		put_answers(&asked, &to);
		tell(asked.mode, (struct text){to.at, to.len});
		check_calls(&asked, (struct text){to.at, to.len});
	} else {
		struct answer answer = ANSWERED(call, 9, &asked, asked.lines);
		holds(is_answer(answer, known ? IRIKIT_BAD_BASE : IRIKIT_UNKNOWN, known ? base.detail : 0), "lines that are refused");
		holds(!*TOLD_TOO_PLACE, "no lines are consumed that are refused");
	}
	free(to.at);
}
