/* run_library WORDS..: irikit_run of the library for C over standard input, as the program does with these words: its output, and its
 * status. It takes no memory of its own, for tests/devices/refused. */
#include <irikit.h>
#include <string.h>
#include <unistd.h>

static char words[4096], input[1 << 20], output[1 << 22];

int main(int argc, char **argv)
{
	size_t words_len = 0, len = 0, detail;
	for (int i = 1; i < argc && words_len + strlen(argv[i]) < sizeof words; i++) {
		size_t word = strlen(argv[i]);
		if (i > 1)
			words[words_len++] = ' ';
		memcpy(words + words_len, argv[i], word);
		words_len += word;
	}
	for (ssize_t got; (got = read(0, input + len, sizeof input - len)) > 0;)
		len += (size_t)got;
	uint8_t status = irikit_run(words, words_len, input, len, output, sizeof output, &detail);
	for (size_t at = 0; at < detail;) {
		ssize_t wrote = write(1, output + at, detail - at);
		if (wrote <= 0)
			return 99;
		at += (size_t)wrote;
	}
	return status;
}
