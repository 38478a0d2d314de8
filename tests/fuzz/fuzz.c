/* fuzz TARGET | fuzz PROGRAM COMMAND GRAMMAR [WORD..]: checks an input of tests/fuzz/fuzz by what its answers have to be without a second
 * program. Where one isn't so, it says what on standard error, and ends by abort(). A target is some calls of the library for C. */
#include "fuzz.h"
#include <stdio.h>
#include <stdlib.h>
#include <sys/time.h>
#include <unistd.h>

__AFL_FUZZ_INIT();

/* What afl-fuzz is told of answers, in the way in which the compiler tells it of code that is reached. */
static uint32_t features[1 << 14] __attribute__((section("__sancov_guards"), used));
void __sanitizer_cov_trace_pc_guard(uint32_t *guard);

uint64_t mixed(uint64_t hash, uint64_t more)
{
	hash = (hash ^ more) * 0x9fb21c651e98df25;
	return hash ^ hash >> 32;
}

void tell(uint64_t kind, struct text text)
{
	uint32_t last = 0;
	for (size_t i = 0; i < text.len; i++) {
		uint8_t byte = text.at[i], sort = is_letter(byte) ? 'a' : is_digit(byte) ? '0' : byte >= 0x80 ? 'u' : byte;
		if (sort == (last & 255))
			continue;
		last = last << 8 | sort;
		__sanitizer_cov_trace_pc_guard(features + mixed(kind, last & 0xffffff) % (sizeof features / sizeof *features));
	}
}

void holds(int yes, const char *property)
{
	if (!yes) {
		fprintf(stderr, "FAILED %s\n", property);
		abort();
	}
}

static const struct {
	const char *name;
	void (*check)(struct input);
} targets[] = {{"references", check_references}, {"forms", check_forms}, {"edits", check_edits}, {"building", check_building},
	{"templates", check_templates}, {"lines", check_lines}, {"run", check_run}};

static void check_calls(const char *name, struct text given)
{
	static const uint8_t none;
	if (given.len == 0 || given.len > MOST_INPUT)
		return;
	uint8_t first = given.at[0];
	struct text whole = {given.at + 1, given.len - 1};
	const uint8_t *lf = memchr(whole.at, '\n', whole.len);
	struct input input = {first, first & 1 ? IRIKIT_IRI : IRIKIT_URI, whole, {0}, whole};
	if (lf) {
		input.one = (struct text){whole.at, lf - whole.at};
		input.other = (struct text){lf + 1, whole.at + whole.len - lf - 1};
	}
	if (!input.other.len)
		input.other.at = &none;
	begin_answers(first >> 1 & 1, mixed(given.len, first));
	for (size_t i = 0; i < sizeof targets / sizeof *targets; i++)
		if (strcmp(targets[i].name, name) == 0)
			targets[i].check(input);
}

int main(int argc, char **argv)
{
	const struct itimerval second = {.it_value = {.tv_sec = 1}};
	const char *const *words = (const char *const *)argv + 1;
	if (argc != 2 && argc < 4)
		return 2;
	__AFL_INIT();
	const uint8_t *given = __AFL_FUZZ_TESTCASE_BUF;
	while (__AFL_LOOP(10000)) {
		struct text input = {given, (size_t)__AFL_FUZZ_TESTCASE_LEN};
		setitimer(ITIMER_VIRTUAL, &second, NULL);
		if (argc > 2)
			check_command(words, input);
		else
			check_calls(words[0], input);
	}
	return 0;
}
