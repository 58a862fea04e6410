/* Holds threads of the program that it is preloaded into: HOLD_THREADS=N has the first N that are made, or with HOLD_AFTER=M the
   first N after M others, begin only once the file HOLD_UNTIL=FILE is there. With MAKE_SLOWLY=MICROSECONDS each takes so long to make. */
#define _GNU_SOURCE
#include <dlfcn.h>
#include <pthread.h>
#include <stdatomic.h>
#include <stdlib.h>
#include <unistd.h>

struct work {
	void *(*start)(void *);
	void *argument;
};

static atomic_ulong threads;

static void *hold(void *pointer)
{
	struct work work = *(struct work *)pointer;

	free(pointer);
	while (access(getenv("HOLD_UNTIL"), F_OK) != 0)
		usleep(10000);
	return work.start(work.argument);
}

int pthread_create(pthread_t *thread, const pthread_attr_t *attributes, void *(*start)(void *), void *argument)
{
	int (*create)(pthread_t *, const pthread_attr_t *, void *(*)(void *), void *) = dlsym(RTLD_NEXT, "pthread_create");
	const char *held = getenv("HOLD_THREADS");
	const char *after = getenv("HOLD_AFTER");
	const char *slowly = getenv("MAKE_SLOWLY");
	unsigned long number = atomic_fetch_add(&threads, 1);
	unsigned long first = after ? strtoul(after, NULL, 10) : 0;
	struct work *work;

	if (slowly)
		usleep(strtoul(slowly, NULL, 10));
	if (!held || number < first || number >= first + strtoul(held, NULL, 10))
		return create(thread, attributes, start, argument);
	work = malloc(sizeof *work);
	if (!work)
		abort();
	*work = (struct work){ start, argument };
	return create(thread, attributes, hold, work);
}
