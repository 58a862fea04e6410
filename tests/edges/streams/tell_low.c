/* Adds to the file that TOLD names the path of each file that the program it is preloaded into opens as descriptor 0, 1 or
   2, but the folder / and /dev/null, which may hold the place of a stream that is closed. */
#define _GNU_SOURCE
#include <dlfcn.h>
#include <fcntl.h>
#include <stdarg.h>
#include <stdlib.h>
#include <string.h>
#include <sys/syscall.h>
#include <unistd.h>

enum { TOLD_AS = 900 };

static void tell(const char *path)
{
	const char *name = getenv("TOLD");
	int file = name ? syscall(SYS_open, name, O_WRONLY | O_CREAT | O_APPEND | O_CLOEXEC, 0666) : -1, told;

	if (file < 0)
		return;
	told = fcntl(file, F_DUPFD_CLOEXEC, TOLD_AS);
	if (syscall(SYS_write, told, path, strlen(path)) < 0 || syscall(SYS_write, told, "\n", 1) < 0)
		abort();
	syscall(SYS_close, told);
	syscall(SYS_close, file);
}

int open(const char *path, int flags, ...)
{
	int (*next)(const char *, int, mode_t) = (int (*)(const char *, int, mode_t))dlsym(RTLD_NEXT, "open");
	va_list more;
	mode_t mode;
	int file;

	va_start(more, flags);
	mode = flags & O_CREAT ? va_arg(more, mode_t) : 0;
	va_end(more);
	file = next(path, flags, mode);
	if (file >= 0 && file <= 2 && strcmp(path, "/") != 0 && strcmp(path, "/dev/null") != 0)
		tell(path);
	return file;
}
