/* Refuses threads to the program that it is preloaded into: REFUSE_THREAD=N refuses number N, counted from 1, and
   REFUSE_THREAD=0 all. With ASKED=FILE each thread that is asked for adds a line to FILE. */
#define _GNU_SOURCE
#include <dlfcn.h>
#include <errno.h>
#include <pthread.h>
#include <stdatomic.h>
#include <stdio.h>
#include <stdlib.h>

static atomic_ulong threads;

int pthread_create(pthread_t *thread, const pthread_attr_t *attributes, void *(*start)(void *), void *argument)
{
	int (*create)(pthread_t *, const pthread_attr_t *, void *(*)(void *), void *) = dlsym(RTLD_NEXT, "pthread_create");
	const char *refused = getenv("REFUSE_THREAD");
	const char *asked = getenv("ASKED");
	FILE *file = asked ? fopen(asked, "a") : NULL;
	unsigned long number = atomic_fetch_add(&threads, 1) + 1;

	if (file) {
		fputs("a thread\n", file);
		fclose(file);
	}
	if (refused && (number == strtoul(refused, NULL, 10) || !strtoul(refused, NULL, 10)))
		return EAGAIN;
	return create(thread, attributes, start, argument);
}
