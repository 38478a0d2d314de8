/* The library for C: one call a reference. argv[1] is uri or iri. */
#include "lines.h"

#include <irikit.h>

static uint32_t grammar;
static char *base, *out;
static size_t base_length, room, detail;

static int take_base(const char *line, size_t length)
{
	base = strndup(line, length);
	base_length = length;
	return base && irikit_validate(grammar, IRIKIT_ABSOLUTE, base, length, &detail) == IRIKIT_OK;
}

static void resolve(const char *line, size_t length)
{
	if (room < base_length + length + 3) {
		room = 2 * (base_length + length + 3);
		free(out);
		out = malloc(room);
		if (!out)
			exit(6);
	}
	uint8_t status = irikit_canonical(grammar, IRIKIT_NORMAL, base, base_length, line, length, out, room, &detail);
	answer(status == IRIKIT_OK ? out : NULL, detail);
}

int main(int argc, char **argv)
{
	grammar = argc > 1 && !strcmp(argv[1], "iri") ? IRIKIT_IRI : IRIKIT_URI;
	return run(take_base, resolve);
}
