/* The loop of the drivers in C: the first line of standard input is the base, each further line a reference, and each
 * reference gets a line `ok TEXT` or `bad`. Without that LF and one CR before it a line is a text that ends with NUL. */
#define _GNU_SOURCE
#include <stdio.h>
#include <stdlib.h>
#include <string.h>

static char *next_line(size_t *length)
{
	static char *line;
	static size_t room;
	ssize_t got = getline(&line, &room, stdin);
	if (got < 0)
		return NULL;
	if (got > 0 && line[got - 1] == '\n')
		line[--got] = 0;
	if (got > 0 && line[got - 1] == '\r')
		line[--got] = 0;
	*length = (size_t)got;
	return line;
}

static void answer(const char *text, size_t length)
{
	if (text) {
		fwrite("ok ", 1, 3, stdout);
		fwrite(text, 1, length, stdout);
		putchar('\n');
	} else {
		fwrite("bad\n", 1, 4, stdout);
	}
}

/* `take_base` answers 0 where it refuses the base; `resolve` calls `answer` once. */
static int run(int (*take_base)(const char *, size_t), void (*resolve)(const char *, size_t))
{
	size_t length;
	setvbuf(stdin, NULL, _IOFBF, 65536);
	setvbuf(stdout, NULL, _IOFBF, 65536);
	char *line = next_line(&length);
	if (!line || !take_base(line, length))
		return 3;
	while ((line = next_line(&length)))
		resolve(line, length);
	return fflush(stdout) ? 5 : 0;
}
