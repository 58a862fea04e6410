/* Prints a line for each frame of a film: its number, its width, its height and its greatest sample.
 *
 * It does what the recorder's command list has to do at the least: it reads the film 64 KiB at a time, widens each
 * frame's samples into memory that it asks for anew, and goes over them there.
 */
#include <ctype.h>
#include <fcntl.h>
#include <stdint.h>
#include <stdio.h>
#include <stdlib.h>
#include <unistd.h>

static unsigned char buffer[1 << 16];
static size_t at, held;
static int film;

static void stop(const char *why)
{
	fprintf(stderr, "greatest: %s\n", why);
	exit(1);
}

static int more(void)
{
	ssize_t given = read(film, buffer, sizeof buffer);

	if (given < 0)
		stop("the film can't be read");
	at = 0, held = (size_t)given;
	return held > 0;
}

static int next(void)
{
	return at < held || more() ? buffer[at++] : EOF;
}

/* A number of a header, with the one byte after it. */
static unsigned long number(void)
{
	unsigned long value = 0;
	int byte = next();

	while (isspace(byte) || byte == '#') {
		if (byte == '#')
			while (byte != '\n' && byte != EOF)
				byte = next();
		byte = next();
	}
	if (!isdigit(byte))
		stop("a header has no number");
	for (; isdigit(byte); byte = next())
		if ((value = 10 * value + (unsigned long)(byte - '0')) > 65535)
			stop("a number is over 65535");
	return value;
}

static void widen_bytes(uint16_t *samples, size_t count)
{
	while (count) {
		size_t part = held - at < count ? held - at : count;

		for (size_t i = 0; i < part; i++)
			samples[i] = buffer[at + i];
		at += part, samples += part, count -= part;
		if (count && !more())
			stop("the film ends in a frame");
	}
}

static void widen_pairs(uint16_t *samples, size_t count)
{
	while (count) {
		size_t pairs = (held - at) / 2, part = pairs < count ? pairs : count;

		for (size_t i = 0; i < part; i++)
			samples[i] = (uint16_t)(buffer[at + 2 * i] << 8 | buffer[at + 2 * i + 1]);
		at += 2 * part, samples += part, count -= part;
		if (count) {
			/* A pair may lie across two reads. */
			int high = next(), low = next();

			if (low == EOF)
				stop("the film ends in a frame");
			*samples++ = (uint16_t)(high << 8 | low);
			count--;
		}
	}
}

int main(int count, char **words)
{
	unsigned long frame = 0;

	if (count != 2)
		stop("it takes one film");
	film = open(words[1], O_RDONLY);
	if (film < 0)
		stop("the film can't be opened");
	for (int byte; (byte = next()) != EOF; frame++) {
		int kind = next();

		if (byte != 'P' || (kind != '5' && kind != '6'))
			stop("no image where one is to begin");
		unsigned long width = number(), height = number(), maxval = number();
		size_t length = (size_t)width * height * (kind == '6' ? 3 : 1);
		uint16_t *samples = malloc(length * sizeof *samples), greatest = 0;

		if (!samples)
			stop("no memory");
		if (maxval > 255)
			widen_pairs(samples, length);
		else
			widen_bytes(samples, length);
		for (size_t i = 0; i < length; i++)
			greatest = samples[i] > greatest ? samples[i] : greatest;
		free(samples);
		printf("%lu %lu %lu %u\n", frame, width, height, (unsigned)greatest);
	}
	return 0;
}
