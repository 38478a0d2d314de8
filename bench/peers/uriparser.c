/* uriparser: parse, add the base, normalize, recompose. */
#include <uriparser/Uri.h>

#include "lines.h"

static UriUriA base;

static int take_base(const char *line, size_t length)
{
	const char *at;
	char *kept = strndup(line, length);
	return kept && uriParseSingleUriA(&base, kept, &at) == URI_SUCCESS;
}

static void recompose(const UriUriA *target)
{
	static char *text;
	static int room;
	int wanted, written;
	if (uriToStringCharsRequiredA(target, &wanted) != URI_SUCCESS) {
		answer(NULL, 0);
		return;
	}
	if (room <= wanted) {
		room = 2 * wanted + 1;
		text = realloc(text, (size_t)room);
		if (!text)
			exit(6);
	}
	if (uriToStringA(text, target, wanted + 1, &written) == URI_SUCCESS)
		answer(text, (size_t)written - 1);
	else
		answer(NULL, 0);
}

static void resolve(const char *line, size_t length)
{
	UriUriA reference, target;
	const char *at;
	if (uriParseSingleUriExA(&reference, line, line + length, &at) != URI_SUCCESS) {
		answer(NULL, 0);
		return;
	}
	if (uriAddBaseUriA(&target, &reference, &base) != URI_SUCCESS) {
		answer(NULL, 0);
	} else {
		if (uriNormalizeSyntaxA(&target) == URI_SUCCESS)
			recompose(&target);
		else
			answer(NULL, 0);
		uriFreeUriMembersA(&target);
	}
	uriFreeUriMembersA(&reference);
}

int main(void)
{
	return run(take_base, resolve);
}
