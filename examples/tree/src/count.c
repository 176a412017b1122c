/* Part of the example. */
/* Counts the lines of a text. */
#include <stddef.h>

static int is_end(char byte)
{
	return byte == '\n';
}

/* The number of line ends. */
size_t count(const char *text, size_t length)
{
	size_t lines = 0;
	for (size_t at = 0; at < length; at++)
		if (is_end(text[at]))
			lines++;
	return lines;
}

/* A text without a line end. */
int is_open(const char *text, size_t length)
{
	return length > 0 && !count(text, length);
}
