/*
 * The program, over the call of the library:
 *
 *     report [--tally] [--list] [--sizes] [--notation] [--most N] [--room N] <GAME
 *
 * begins with a buffer of so much room, and calls again where the text is longer. What stands behind a buffer must stay.
 * It ends with the program's status, by the name that the header has for it.
 */
#include "council.h"
#include <stdio.h>
#include <stdlib.h>
#include <string.h>

static const char mark[] = "behind";

static char *buffer_of(size_t room)
{
	char *text = malloc(room + sizeof mark);
	if (!text)
		exit(99);
	memcpy(text + room, mark, sizeof mark);
	return text;
}

static void look_behind(const char *text, size_t room)
{
	if (memcmp(text + room, mark, sizeof mark)) {
		fputs("a byte behind the buffer was changed\n", stderr);
		exit(98);
	}
}

int main(int count, char **words)
{
	static char game[100000];
	struct council_options options = {.size = sizeof options};
	size_t room = 4096, game_length = fread(game, 1, sizeof game, stdin);
	uint64_t length = 0;
	for (int i = 1; i < count; i++) {
		if (!strcmp(words[i], "--tally"))
			options.tally = 1;
		else if (!strcmp(words[i], "--list"))
			options.list = 1;
		else if (!strcmp(words[i], "--sizes"))
			options.sizes = 1;
		else if (!strcmp(words[i], "--notation"))
			options.notation = 1;
		else if (!strcmp(words[i], "--swings"))
			options.swings = 1;
		else if (!strcmp(words[i], "--only-swings"))
			options.only_swings = 1;
		else if (!strcmp(words[i], "--most") && i + 1 < count)
			options.most = strtoul(words[++i], NULL, 10);
		else if (!strcmp(words[i], "--room") && i + 1 < count)
			room = strtoul(words[++i], NULL, 10);
		else
			return 97;
	}
	char *text = buffer_of(room);
	uint32_t status = council_report(game, game_length, &options, text, room, &length);
	look_behind(text, room);
	if (length > room) {
		size_t whole = (size_t)length;
		char *again = buffer_of(whole);
		if (council_report(game, game_length, &options, again, whole, &length) != status || length != whole) {
			fputs("two calls differ\n", stderr);
			return 96;
		}
		look_behind(again, whole);
		if (memcmp(text, again, room)) {
			fputs("a short buffer has other bytes\n", stderr);
			return 95;
		}
		free(text);
		text = again;
	}
	if (status == COUNCIL_REPORT) {
		fwrite(text, 1, (size_t)length, stdout);
	} else {
		fputs("council: ", stderr);
		fwrite(text, 1, (size_t)length, stderr);
		fputs("\n", stderr);
	}
	free(text);
	switch (status) {
	case COUNCIL_REPORT:
		return 0;
	case COUNCIL_OPTIONS:
		return 2;
	case COUNCIL_GAME:
		return 3;
	case COUNCIL_TOO_MANY:
		return 4;
	case COUNCIL_MEMORY:
		return 5;
	default:
		return 94;
	}
}
