/* Lets as many threads of a program start as THREADS says, and no other: it is loaded before the C library. */
#define _GNU_SOURCE
#include <dlfcn.h>
#include <errno.h>
#include <pthread.h>
#include <stdatomic.h>
#include <stdlib.h>

typedef int create(pthread_t *, const pthread_attr_t *, void *(*)(void *), void *);

static atomic_int started;

int pthread_create(pthread_t *thread, const pthread_attr_t *how, void *(*body)(void *), void *given)
{
	const char *threads = getenv("THREADS");
	if (atomic_fetch_add(&started, 1) >= (threads ? atoi(threads) : 0))
		return EAGAIN;
	create *own = (create *)dlsym(RTLD_NEXT, "pthread_create");
	return own(thread, how, body, given);
}
