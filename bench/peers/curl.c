/* libcurl's URL API: the reference set on a copy of the base's handle, to text. It follows other rules than RFC 3986. */
#include <curl/curl.h>

#include "lines.h"

static CURLU *base;

static int take_base(const char *line, size_t length)
{
	(void)length;
	base = curl_url();
	return base && curl_url_set(base, CURLUPART_URL, line, CURLU_NON_SUPPORT_SCHEME) == CURLUE_OK;
}

static void resolve(const char *line, size_t length)
{
	CURLU *target = curl_url_dup(base);
	char *text = NULL;
	(void)length;
	if (curl_url_set(target, CURLUPART_URL, line, CURLU_NON_SUPPORT_SCHEME) == CURLUE_OK
	    && curl_url_get(target, CURLUPART_URL, &text, 0) == CURLUE_OK)
		answer(text, strlen(text));
	else
		answer(NULL, 0);
	curl_free(text);
	curl_url_cleanup(target);
}

int main(void)
{
	return run(take_base, resolve);
}
