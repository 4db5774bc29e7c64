/* Starts no thread before the last one has ended: it is loaded before the C library. */
#define _GNU_SOURCE
#include <dlfcn.h>
#include <pthread.h>
#include <semaphore.h>

typedef int create(pthread_t *, const pthread_attr_t *, void *(*)(void *), void *);

struct work {
	void *(*body)(void *);
	void *given;
	sem_t has_ended;
};

static void *run(void *given)
{
	struct work *work = given;
	void *answer = work->body(work->given);
	sem_post(&work->has_ended);
	return answer;
}

int pthread_create(pthread_t *thread, const pthread_attr_t *how, void *(*body)(void *), void *given)
{
	create *own = (create *)dlsym(RTLD_NEXT, "pthread_create");
	struct work work = {.body = body, .given = given};
	sem_init(&work.has_ended, 0, 0);
	int status = own(thread, how, run, &work);
	if (!status)
		while (sem_wait(&work.has_ended))
			;
	return status;
}
