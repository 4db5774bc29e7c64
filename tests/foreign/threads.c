/*
 * Threads that call at the same time, each on another game, and each time with the same answer as alone:
 *
 *     threads GAME..
 */
#include "council.h"
#include <pthread.h>
#include <stdio.h>
#include <stdlib.h>
#include <string.h>

enum { ROOM = 1 << 20, CALLS = 20, GAMES = 16, STACK = 512 * 1024 };

struct job {
	char game[70000], alone[ROOM];
	size_t game_length;
	uint64_t length;
	uint32_t status;
	bool differs;
};

static uint32_t call(const struct job *job, int number, char *text, uint64_t *length)
{
	struct council_options options = {.size = sizeof options, .tally = number % 2 == 0, .list = number % 2 == 1, .sizes = 1};
	return council_report(job->game, job->game_length, &options, text, ROOM, length);
}

static void *work(void *at)
{
	struct job *job = at;
	char *text = malloc(ROOM);
	uint64_t length = 0;
	if (!text)
		exit(99);
	for (int i = 0; i < CALLS; i++) {
		(void)call(job, i + 1, text, &length);
		if (call(job, 0, text, &length) != job->status || length != job->length || memcmp(text, job->alone, (size_t)length))
			job->differs = true;
	}
	free(text);
	return NULL;
}

int main(int count, char **names)
{
	static struct job jobs[GAMES];
	pthread_t threads[GAMES];
	pthread_attr_t small;
	int games = count - 1 < GAMES ? count - 1 : GAMES, wrong = 0;
	pthread_attr_init(&small);
	pthread_attr_setstacksize(&small, STACK);
	for (int i = 0; i < games; i++) {
		FILE *file = fopen(names[i + 1], "rb");
		if (!file)
			return 98;
		jobs[i].game_length = fread(jobs[i].game, 1, sizeof jobs[i].game, file);
		fclose(file);
		jobs[i].status = call(&jobs[i], 0, jobs[i].alone, &jobs[i].length);
	}
	for (int i = 0; i < games; i++)
		if (pthread_create(&threads[i], &small, work, &jobs[i]))
			return 97;
	for (int i = 0; i < games; i++) {
		pthread_join(threads[i], NULL);
		wrong += jobs[i].differs;
	}
	printf("%d of %d differ\n", wrong, games);
	return wrong != 0;
}
