/* GLib's GUri: parse against the base, to text. Its texts are decoded and encoded anew, and dot segments removed. */
#include <glib.h>

#include "lines.h"

static GUri *base;

static int take_base(const char *line, size_t length)
{
	(void)length;
	base = g_uri_parse(line, G_URI_FLAGS_NONE, NULL);
	return base != NULL;
}

static void resolve(const char *line, size_t length)
{
	(void)length;
	GUri *target = g_uri_parse_relative(base, line, G_URI_FLAGS_NONE, NULL);
	if (!target) {
		answer(NULL, 0);
		return;
	}
	char *text = g_uri_to_string(target);
	answer(text, strlen(text));
	g_free(text);
	g_uri_unref(target);
}

int main(void)
{
	return run(take_base, resolve);
}
