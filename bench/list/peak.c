/* Runs a command with no output, and prints the most memory that it had resident, in KiB. */
#include <fcntl.h>
#include <stdio.h>
#include <sys/resource.h>
#include <sys/wait.h>
#include <unistd.h>

int main(int count, char **words)
{
	struct rusage used;
	int status;
	pid_t child = count > 1 ? fork() : -1;

	if (child == 0) {
		dup2(open("/dev/null", O_WRONLY), STDOUT_FILENO);
		execv(words[1], words + 1);
		_exit(127);
	}
	if (child < 0 || wait4(child, &status, 0, &used) < 0 || status != 0) {
		fprintf(stderr, "peak: the command failed\n");
		return 1;
	}
	printf("%ld\n", used.ru_maxrss);
	return 0;
}
