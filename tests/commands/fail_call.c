/* Fails a call of the program that it is preloaded into, counted from 1: FAIL_READ=N the read number N of a file, FAIL_WRITE=N the
   write number N to standard output, and TAKE_NOTHING=N has that write take no byte. A read fails by the system's error of the
   number ERROR, or else by EIO. With TOLD=FILE each read of a file that gives nothing adds a line to FILE: "end" or "failed". */
#define _GNU_SOURCE
#include <dlfcn.h>
#include <errno.h>
#include <stdatomic.h>
#include <stdio.h>
#include <stdlib.h>
#include <unistd.h>

static atomic_ulong reads, writes;

static int is_number(const char *name, unsigned long number)
{
	const char *said = getenv(name);

	return said && strtoul(said, NULL, 10) == number;
}

static void tell(const char *line)
{
	int error = errno;
	const char *name = getenv("TOLD");
	FILE *told = name ? fopen(name, "a") : NULL;

	if (told) {
		fputs(line, told);
		fclose(told);
	}
	errno = error;
}

ssize_t read(int file, void *bytes, size_t room)
{
	ssize_t (*next)(int, void *, size_t) = dlsym(RTLD_NEXT, "read");
	const char *error = getenv("ERROR");
	ssize_t given;

	if (file > 2 && is_number("FAIL_READ", atomic_fetch_add(&reads, 1) + 1)) {
		errno = error ? atoi(error) : EIO;
		given = -1;
	} else {
		given = next(file, bytes, room);
	}
	if (file > 2 && room > 0 && given <= 0)
		tell(given < 0 ? "failed\n" : "end\n");
	return given;
}

ssize_t write(int file, const void *bytes, size_t count)
{
	ssize_t (*next)(int, const void *, size_t) = dlsym(RTLD_NEXT, "write");
	unsigned long number;

	if (file != 1)
		return next(file, bytes, count);
	number = atomic_fetch_add(&writes, 1) + 1;
	if (is_number("FAIL_WRITE", number)) {
		errno = EIO;
		return -1;
	}
	return is_number("TAKE_NOTHING", number) ? 0 : next(file, bytes, count);
}
