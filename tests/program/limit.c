/* Becomes PROGRAM, with the same words, and has it ended by SIGALRM if it hasn't ended by itself after SECONDS. It reads and
   writes nothing, and makes no second process, so that a library that is preloaded finds PROGRAM's own calls alone. */
#include <signal.h>
#include <unistd.h>

int main(int count, char **words)
{
	static char name[] = PROGRAM;

	(void)count;
	words[0] = name;
	signal(SIGALRM, SIG_DFL);
	alarm(SECONDS);
	execv(name, words);
	return 126;
}
