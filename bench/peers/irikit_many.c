/* The library for C: as many lines a call as were read. argv[1] is uri or iri. */
#include <irikit.h>
#include <stdio.h>
#include <stdlib.h>
#include <string.h>
#include <unistd.h>

#define READ 65536

static char *base, *lines, *out;
static size_t base_length, length, room = 2 * READ, out_room;

/* Answers the lines that are whole, and keeps what follows them. */
static int answer_lines(uint32_t grammar)
{
	size_t at = 0, consumed, detail;
	uint8_t status;
	do {
		status = irikit_canonical_lines(grammar, IRIKIT_NORMAL, base, base_length, lines + at, length - at, out, out_room,
		                                &consumed, &detail);
		if (status != IRIKIT_OK && status != IRIKIT_SHORT)
			return 3;
		for (size_t put = 0; put < detail;) {
			ssize_t wrote = write(1, out + put, detail - put);
			if (wrote < 0)
				return 5;
			put += (size_t)wrote;
		}
		at += consumed;
	} while (status == IRIKIT_SHORT);
	length -= at;
	memmove(lines, lines + at, length);
	return 0;
}

static int take_base(void)
{
	char *end = memchr(lines, '\n', length);
	if (!end)
		return 3;
	base_length = (size_t)(end - lines);
	base = malloc(base_length + 1);
	if (!base)
		return 6;
	memcpy(base, lines, base_length);
	length -= base_length + 1;
	memmove(lines, end + 1, length);
	return 0;
}

static int make_room(void)
{
	if (length + READ > room)
		room = 2 * (length + READ);
	if (!lines || room > out_room) {
		lines = realloc(lines, room);
		out_room = room + base_length + 64;
		free(out);
		out = malloc(out_room);
	}
	return lines && out ? 0 : 6;
}

int main(int argc, char **argv)
{
	uint32_t grammar = argc > 1 && !strcmp(argv[1], "iri") ? IRIKIT_IRI : IRIKIT_URI;
	for (;;) {
		int failed = make_room();
		ssize_t got = failed ? 0 : read(0, lines + length, READ);
		if (failed || got <= 0)
			return failed ? failed : got ? 4 : 0;
		length += (size_t)got;
		failed = base ? 0 : take_base();
		failed = failed ? failed : answer_lines(grammar);
		if (failed)
			return failed;
	}
}
