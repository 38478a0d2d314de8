/* What the commands of the program answer to an input of tests/fuzz/fuzz. */
#include "fuzz.h"
#include <stdio.h>
#include <stdlib.h>

/* How the answers of a command begin; the good ones before `bad `. */
static const struct {
	const char *name, *beginnings[7];
} commands[] = {{"canon", {"ok ", "bad "}}, {"parts", {"{\"text\":\"", "{\"bad\":\""}}, {"links", {"ok ", "bad "}}, {"docs", {"ok ", "bad ", "template "}},
	{"expand", {"ok ", "bad ", "template "}}, {"register", {"new ", "old ", "gone ", "at ", "none", "bad "}},
	{"robots", {"allow ", "disallow ", "other ", "bad "}}, {"pairs", {"ok ", "bad ", "base "}}};

/* The beginning of an answer of a command; NULL for none. */
static const char *beginning_of(const char *command, struct text answer)
{
	for (size_t i = 0; i < sizeof commands / sizeof *commands; i++)
		for (const char *const *word = commands[i].beginnings; !strcmp(commands[i].name, command) && *word; word++)
			if (begins_with(answer, *word))
				return *word;
	return NULL;
}

/* Whether an answer that begins so makes the status 1. */
static int is_refusal(const char *beginning)
{
	static const char *const refusals[] = {"bad ", "template ", "base ", "{\"bad\":\""};
	for (size_t i = 0; beginning && i < sizeof refusals / sizeof *refusals; i++)
		if (strcmp(beginning, refusals[i]) == 0)
			return 1;
	return 0;
}

/* What is fed back of an answer with such a beginning; of an entry of `register`, which has none, what is after the second
 * space; of `parts` what is before the next quote. */
static struct text fed_back(const char *command, const char *beginning, struct text answer)
{
	size_t skipped = beginning ? strlen(beginning) : 0;
	for (int spaces = beginning ? 2 : 0; spaces < 2 && skipped < answer.len; skipped++)
		spaces += answer.at[skipped] == ' ';
	int is_text = !beginning || (strcmp(command, "register") && !is_refusal(beginning));
	const uint8_t *from = answer.at + skipped, *end = answer.at + answer.len;
	if (is_text && !strcmp(command, "parts"))
		end = memchr(from, '"', end - from);
	holds(end != NULL, "a text in quotes");
	return is_text ? (struct text){from, end - from} : (struct text){0};
}

/* Whether there are as many answers as lines, or of a command whose lines needn't have one, at most so many. */
static int is_count(const char *command, size_t lines, size_t answers)
{
	if (strcmp(command, "robots") == 0 || strcmp(command, "expand") == 0)
		return answers <= lines;
	return strcmp(command, "register") ? answers == lines : answers >= lines;
}

static size_t lines_of(struct text input)
{
	size_t count = input.len && input.at[input.len - 1] != '\n';
	for (size_t i = 0; i < input.len; i++)
		count += input.at[i] == '\n';
	return count;
}

/* Where a parameter ends: `; `, a name without capital letters, and where it has a value `="`, the value and `"`. */
static size_t after_parameter(struct text text, size_t at)
{
	holds(text.len - at > 2 && text.at[at + 1] == ' ', "how a parameter begins");
	for (at += 2; at < text.len && !strchr("=;, \"", text.at[at]); at++)
		holds(text.at[at] < 'A' || text.at[at] > 'Z', "the name of a parameter is in lower case");
	if (at == text.len || text.at[at] != '=')
		return at;
	holds(text.len - at > 2 && text.at[at + 1] == '"', "a value is quoted");
	for (at += 2; at < text.len && text.at[at] != '"'; at++)
		at += text.at[at] == '\\';
	holds(at < text.len, "how a value ends");
	return at + 1;
}

/* The one form in which links are written, and their targets. */
static void check_links(const struct reading *reading, struct text text)
{
	for (size_t at = 0; at < text.len;) {
		const uint8_t *end = text.at[at] == '<' ? memchr(text.at + at, '>', text.len - at) : NULL;
		struct text target = {text.at + at + 1, end ? end - text.at - at - 1 : 0};
		holds(end && is_normal(reading, target), "a link is a target in normal form");
		for (at = end - text.at + 1; at < text.len && text.at[at] == ';';)
			at = after_parameter(text, at);
		holds(at == text.len || (text.len - at > 2 && !memcmp(text.at + at, ", ", 2)), "what is between links");
		at += 2;
	}
}

/* The answers of a run that ended well, and what `canon`, or `links`, answers to their texts: themselves. */
static void check_answers(struct soak *soak, const char *command, struct output output, size_t lines)
{
	struct asked asked = against(soak, WORD("y://a/b?q"));
	int bad = 0, links = strcmp(command, "links") == 0, parts = strcmp(command, "parts") == 0;
	struct bytes wanted = {0};
	for (size_t i = 0; i < output.count; i++) {
		struct text answer = output.lines[i];
		const char *beginning = i < lines ? beginning_of(command, answer) : NULL;
		holds(i >= lines || beginning, "how an answer begins");
		struct text text = fed_back(command, beginning, answer);
		int is_bad = is_refusal(beginning);
		bad |= is_bad;
		tell(is_bad ? mixed(answer.len, answer.at[answer.len - 1]) : (size_t)beginning, answer);
		if (!text.at)
			continue;
		if (links)
			check_links(&soak->reading, text);
		else
			holds(is_normal(&soak->reading, text), "a text has nothing that normal form takes out");
		holds(!parts || is_same(answer, object_of(text, &wanted)), "the components of a text");
		wanted.len = 0;
		put_word(&wanted, "ok ");
		put_text(&wanted, text);
		ask(soak, &asked, "", text, (struct text){wanted.at, wanted.len}, "what an answer tells is told of itself");
	}
	holds(output.status == bad, "the status is 1 where an answer is bad");
	check(soak, &asked, WORD("y://a/b?q"), links ? "links" : "canon", soak->reading.by_scheme ? "scheme" : NULL);
	holds(soak->faults == 0, "what an answer tells is told of itself");
	free(wanted.at);
}

void check_command(const char *const *words, struct text given)
{
	const char *command = words[1], *last = words[2], *to_uri = NULL;
	struct soak soak = {.program = words[0], .grammar = words[2], .seconds = 1};
	struct bytes input = {0}, rest = {0};
	for (const char *const *word = words + 3; *word; last = *word++) {
		put_word(&rest, rest.len ? " " : "");
		put_word(&rest, *word);
		to_uri = strcmp(*word, "to") ? to_uri : *word;
	}
	put_byte(&rest, 0);
	soak.mode = (const char *)rest.at;
	soak.reading = (struct reading){words[2][0] == 'i' && !to_uri, strcmp(last, "scheme") == 0, {0}};
	put_text(&input, given);
	struct output output = run(&soak, command, rest.len > 1 ? soak.mode : NULL, &input);
	/* What is mapped to a URI is one. */
	soak.grammar = to_uri ? "uri" : soak.grammar;
	/* The lines that may have an answer. */
	size_t lines = lines_of(given);
	lines -= lines && strcmp(command, "pairs");
	if (output.status == 3)
		holds(output.count == 1 && output.lines[0].len > 5 && !memcmp(output.lines[0].at, "base ", 5), "a base that is refused");
	else if (output.status >= 2 || !is_count(command, lines, output.count)) {
		fprintf(stderr, "FAILED status %d, %zu answers to %zu lines\n", output.status, output.count, lines);
		abort();
	}
	if (output.status == 3)
		tell(output.lines[0].len, output.lines[0]);
	else
		check_answers(&soak, command, output, lines);
	free(output.at);
	free(output.lines);
	free(input.at);
	free(rest.at);
}
