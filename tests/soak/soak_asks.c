/* How tests/soak/soak asks the program: the first answers, and then lines whose answers are known. */
#define _GNU_SOURCE
#include "soak.h"
#include <errno.h>
#include <stdio.h>
#include <stdlib.h>
#include <sys/mman.h>
#include <sys/resource.h>
#include <sys/wait.h>
#include <unistd.h>

/* How many faults of a part are shown. */
#define SHOWN 10

void *taken(void *block, size_t size)
{
	block = realloc(block, size);
	if (!block) {
		perror("soak");
		exit(2);
	}
	return block;
}

static void show(const char *name, struct text text)
{
	printf("  %s '", name);
	for (size_t i = 0; i < text.len; i++)
		printf(text.at[i] < ' ' || text.at[i] > '~' || text.at[i] == '\\' || text.at[i] == '\'' ? "\\x%02x" : "%c", text.at[i]);
	puts("'");
}

void fault(struct soak *soak, const char *property, struct text base, struct text line, struct text wanted, struct text got)
{
	if (soak->faults++ >= SHOWN)
		return;
	printf("FAILED seed %llu, %s %s: %s\n", (unsigned long long)soak->seed, soak->grammar, soak->mode, property);
	show("base  ", base);
	show("line  ", line);
	show("wanted", wanted);
	show("got   ", got);
}

int begins_with(struct text text, const char *word)
{
	return text.len >= strlen(word) && memcmp(text.at, word, strlen(word)) == 0;
}

int is_good(struct text answer)
{
	return begins_with(answer, "ok ");
}

/* Whether an answer makes the status 1. */
static int is_refusal(struct text answer)
{
	return begins_with(answer, "bad ") || begins_with(answer, "base ") || begins_with(answer, "{\"bad\"");
}

struct text text_of(struct text answer)
{
	return (struct text){answer.at + 3, answer.len - 3};
}

static _Noreturn void fail(const char *what)
{
	fprintf(stderr, "soak: %s: %s\n", what, strerror(errno));
	exit(2);
}

static struct output read_output(int file)
{
	struct output output = {0};
	size_t len = lseek(file, 0, SEEK_END), room = 0;
	output.at = taken(NULL, len + 1);
	if (pread(file, output.at, len, 0) != (ssize_t)len)
		fail("pread");
	for (size_t start = 0; start < len;) {
		const uint8_t *lf = memchr(output.at + start, '\n', len - start);
		size_t end = lf ? (size_t)(lf - output.at) : len;
		if (output.count == room)
			output.lines = taken(output.lines, (room = 2 * room + 1000) * sizeof *output.lines);
		output.lines[output.count++] = (struct text){output.at + start, end - start};
		start = end + 1;
	}
	return output;
}

/* The program in the place of this one. */
static _Noreturn void become(const struct soak *soak, const char *command, const char *words)
{
	char *list[10] = {(char *)soak->program, (char *)command, (char *)soak->grammar}, *left = words ? strdup(words) : NULL;
	for (int i = 3; i < 9 && (list[i] = strsep(&left, " ")); i++)
		;
	execv(soak->program, list);
	_exit(127);
}

struct output run(struct soak *soak, const char *command, const char *words, const struct bytes *input)
{
	int in = memfd_create("input", MFD_CLOEXEC), out = memfd_create("output", MFD_CLOEXEC), status = 0;
	size_t len = input->len;
	if (len > 1 && input->at[len - 1] == '\n' && input->at[len - 2] != '\n' && below(&soak->spelling, 8) == 0)
		len--;
	if (in < 0 || out < 0 || write(in, input->at, len) != (ssize_t)len || lseek(in, 0, SEEK_SET))
		fail("memfd_create");
	fflush(stdout);
	pid_t child = fork();
	if (child == 0) {
		dup2(in, 0);
		dup2(out, 1);
		setrlimit(RLIMIT_CPU, &(struct rlimit){soak->seconds, soak->seconds + 1});
		become(soak, command, words);
	}
	if (child < 0 || waitpid(child, &status, 0) != child)
		fail("fork");
	struct output output = read_output(out);
	output.status = WIFEXITED(status) ? WEXITSTATUS(status) : 128 + WTERMSIG(status);
	if (output.status == 127)
		fail(soak->program);
	close(in);
	close(out);
	return output;
}

static void put_input(struct soak *soak, struct bytes *input, struct text line)
{
	put_text(input, line);
	put_word(input, below(&soak->spelling, 16) ? "\n" : "\r\n");
}

struct asked against(struct soak *soak, struct text base)
{
	struct asked asked = {0};
	put_input(soak, &asked.input, base);
	return asked;
}

void ask(struct soak *soak, struct asked *asked, const char *letter, struct text line, struct text wanted, const char *property)
{
	if (asked->count == asked->room)
		asked->rows = taken(asked->rows, (asked->room = 2 * asked->room + 1000) * sizeof *asked->rows);
	struct row *row = asked->rows + asked->count++;
	*row = (struct row){asked->input.len, 0, asked->wanted.len, wanted.at ? wanted.len : ANY, property};
	if (letter) {
		put_word(&asked->input, letter);
		put_input(soak, &asked->input, line);
		row->line_len = asked->input.len - row->line - 1;
	}
	put_text(&asked->wanted, wanted);
}

void check(struct soak *soak, struct asked *asked, struct text base, const char *command, const char *words)
{
	struct output output = run(soak, command, words, &asked->input);
	int bad = 0;
	for (size_t i = 0; i < asked->count && i < output.count; i++) {
		struct row *row = asked->rows + i;
		struct text got = output.lines[i], line = {asked->input.at + row->line, row->line_len};
		struct text wanted = row->wanted_len == ANY ? WORD("ok ..") : (struct text){asked->wanted.at + row->wanted, row->wanted_len};
		bad |= is_refusal(wanted);
		if (row->wanted_len == ANY ? !is_good(got) : !is_same(wanted, got))
			fault(soak, row->property, base, line, wanted, got);
	}
	if (output.status != bad || output.count != asked->count) {
		char detail[99];
		int len = snprintf(detail, sizeof detail, "status %d, %zu lines of %zu", output.status, output.count, asked->count);
		fault(soak, "status and number of answers", base, WORD(""), WORD(""), (struct text){(uint8_t *)detail, len});
	}
	soak->asked += asked->count;
	free(output.at);
	free(output.lines);
	free(asked->input.at);
	free(asked->wanted.at);
	free(asked->rows);
}

/* What an answer has to be, whatever the line means. */
static void check_form(struct soak *soak, struct text line, struct text answer)
{
	/* The words for a fault, and the delimiter without which a line has no such part. */
	static const struct {
		const char *words;
		char delimiter;
	} faults[] = {{"bad invalid userinfo", '@'}, {"bad invalid host", '/'}, {"bad invalid path", 0}, {"bad invalid query", '?'},
		{"bad invalid fragment", '#'}};
	int known = 0;
	if (!is_utf8(line)) {
		if (!is_same(answer, WORD("bad invalid utf-8 bytes")))
			fault(soak, "a line that is no UTF-8", soak->reading.base, line, WORD("bad invalid utf-8 bytes"), answer);
		return;
	}
	for (size_t i = 0; i < sizeof faults / sizeof *faults; i++)
		known |= is_word(answer, faults[i].words) && (!faults[i].delimiter || memchr(line.at, faults[i].delimiter, line.len));
	if (!known && !is_good(answer))
		fault(soak, "words of an answer", soak->reading.base, line, WORD("ok .. or bad .."), answer);
	if (is_good(answer) && !is_normal(&soak->reading, text_of(answer)))
		fault(soak, "a text has nothing that normal form takes out", soak->reading.base, line, WORD("none of it"), answer);
	if (is_good(answer) && answer.len > soak->reading.base.len + line.len + 6)
		fault(soak, "at most three bytes more than base and reference", soak->reading.base, line, WORD("fewer"), answer);
}

/* Against the first base that is taken. */
void begin(struct soak *soak)
{
	struct bytes lines = {0}, input = {0}, base = {0};
	struct output output;
	int bad = 0;
	for (size_t i = 0; i < soak->count; i++) {
		size_t from = lines.len;
		put_line(&soak->making, soak->reading.iri, &lines);
		soak->lines[i].len = lines.len - from;
	}
	for (size_t i = 0, at = 0; i < soak->count; at += soak->lines[i++].len)
		soak->lines[i].at = lines.at + at;
	do {
		base.len = input.len = 0;
		put_base(&soak->spelling, soak->reading.iri, &base);
		soak->reading.base = (struct text){base.at, base.len};
		put_input(soak, &input, soak->reading.base);
		for (size_t i = 0; i < soak->count; i++)
			put_input(soak, &input, soak->lines[i]);
		output = run(soak, "canon", soak->mode[0] == 's' ? soak->mode : NULL, &input);
	} while (output.status == 3);
	for (size_t i = 0; i < soak->count && i < output.count; i++) {
		check_form(soak, soak->lines[i], output.lines[i]);
		soak->good += is_good(output.lines[i]);
		bad |= !is_good(output.lines[i]);
	}
	if (output.status != bad || output.count != soak->count) {
		printf("seed %llu: status %d, %zu answers to %zu lines\n", (unsigned long long)soak->seed, output.status, output.count, soak->count);
		exit(1);
	}
	soak->answers = output.lines;
	soak->asked += soak->count;
}
