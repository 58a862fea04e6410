/* Is linked with launcher/start.c and tells what that leaves. With `record` it has two threads read standard input, where
   nothing comes, until each was interrupted and the file of JLSREC_STOP has a byte, and then sleeps: it is to be ended by
   a signal. With `record itself` it writes that byte itself. */
#include <fcntl.h>
#include <errno.h>
#include <pthread.h>
#include <stdio.h>
#include <stdlib.h>
#include <string.h>
#include <sys/stat.h>
#include <unistd.h>

static int is_stopped(void)
{
	struct stat file;

	return stat(getenv("JLSREC_STOP"), &file) == 0 && file.st_size > 0;
}

static void *read_on(void *unused)
{
	char byte;

	(void)unused;
	while (!is_stopped())
		if (read(0, &byte, 1) >= 0 || errno != EINTR)
			abort();
	return NULL;
}

int main(int count, char **words)
{
	const char *path = getenv("JLSREC_STOP"), *columns = getenv("COLUMNS"), *lines = getenv("LINES");
	pthread_t other;

	printf("%s, %s columns", path ? "a file" : "no file", columns ? columns : "no");
	printf(lines ? ", %s lines\n" : "\n", lines);
	fflush(stdout);
	if (count < 2 || strcmp(words[1], "record") != 0 || !path)
		return 0;
	printf("%s\n", is_stopped() ? "stopped at once" : "not stopped");
	fflush(stdout);
	if (count > 2 && strcmp(words[2], "itself") == 0 && write(open(path, O_WRONLY), "s", 1) != 1)
		abort();
	if (pthread_create(&other, NULL, read_on, NULL) != 0)
		abort();
	read_on(NULL);
	pthread_join(other, NULL);
	puts("stopped");
	fflush(stdout);
	while (sleep(100) > 0)
		;
	return 0;
}
