/* How tests/fuzz/fuzz makes a call of the library for C, and what it answered. */
#include "fuzz.h"
#include <sys/mman.h>

#define PAGE 4096
/* How many bytes after a buffer are looked at where the memory goes on. */
#define AFTER 64

static int at_start;
static uint64_t sizes;

void begin_answers(int start, uint64_t seed)
{
	at_start = start;
	sizes = seed;
}

uint8_t *place(enum slot slot, size_t len)
{
	static uint8_t *rooms;
	size_t room = MOST + 2 * PAGE;
	if (!rooms) {
		rooms = mmap(NULL, SLOTS * room, PROT_NONE, MAP_PRIVATE | MAP_ANONYMOUS, -1, 0);
		for (int i = 0; i < SLOTS; i++)
			holds(!mprotect(rooms + i * room + PAGE, MOST, PROT_READ | PROT_WRITE), "mprotect");
	}
	holds(len <= MOST, "room for what is passed");
	return rooms + slot * room + PAGE + (at_start ? 0 : MOST - len);
}

const char *placed(enum slot slot, struct text text)
{
	return memcpy(place(slot, text.len), text.at ? text.at : (const uint8_t *)"", text.len);
}

static size_t looked_at(size_t size)
{
	return at_start && size + AFTER <= MOST ? size + AFTER : size;
}

void fill(size_t size)
{
	memset(place(OUT, size), '.', looked_at(size));
}

struct answer answered(uint8_t status, size_t size)
{
	struct answer answer = {status, *TOLD_PLACE, {place(OUT, size), size}};
	size_t written = status == IRIKIT_OK || status == IRIKIT_SHORT ? answer.detail : 0;
	holds((status == IRIKIT_SHORT) == (written > size), "a text is short where its buffer is");
	for (size_t i = written; i < looked_at(size); i++)
		holds(answer.out.at[i] == '.', "what is after a text stays");
	answer.out.len = written < size ? written : size;
	return answer;
}

size_t fewer(struct text text)
{
	return text.len ? mixed(sizes, text.len) % text.len : 0;
}

int is_answer(struct answer answer, uint8_t status, size_t detail)
{
	return answer.status == status && answer.detail == detail;
}

int is_text(struct answer answer, struct text text)
{
	return is_answer(answer, IRIKIT_OK, text.len) && is_same(answer.out, text);
}

int is_beginning(struct answer answer, struct text text)
{
	return is_answer(answer, text.len ? IRIKIT_SHORT : IRIKIT_OK, text.len)
	       && (answer.out.len == 0 || memcmp(answer.out.at, text.at, answer.out.len) == 0);
}

struct text kept(struct bytes *to, struct text text)
{
	to->len = 0;
	put_text(to, text);
	return (struct text){to->at, to->len};
}

struct answer validated(uint32_t grammar, uint32_t kind, struct text text)
{
	return TESTED(irikit_validate, grammar, kind, placed(REFERENCE, text), text.len);
}

struct answer canonical(uint32_t grammar, uint32_t mode, struct text base, struct text reference, size_t size)
{
	return ANSWERED(irikit_canonical, size, grammar, mode, placed(BASE, base), base.len, placed(REFERENCE, reference), reference.len);
}

uint32_t no_grammar(uint8_t number)
{
	static const uint32_t none[] = {0, 1, IRIKIT_URI - 1, IRIKIT_IRI + 1, IRIKIT_NORMAL, IRIKIT_URI + 256, IRIKIT_IRI + 65536,
		UINT32_MAX};
	return none[number % (sizeof none / sizeof *none)];
}

uint32_t grammar_of(struct input input)
{
	uint8_t number = input.first >> 2;
	return number < 60 ? input.grammar : no_grammar(number);
}

int is_one_of(size_t number, size_t first, size_t last)
{
	return first <= number && number <= last;
}
