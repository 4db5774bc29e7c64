/*
 * A caller that was compiled with an older council.h, whose options ended after `list`. It has
 * functions of its own under the names that another library of Rattle brings.
 *
 *     older                prints the report of a game with its list
 */
#include <stddef.h>
#include <stdint.h>
#include <stdio.h>

struct council_options {
	uint64_t size, most, visits, states, tally, list;
};

uint32_t council_report_raw(const char *game, size_t game_length, const uint64_t *options, size_t words,
			    char *text, size_t room, uint64_t *length);

void *rattle_alloc(size_t size, size_t align)
{
	(void)size, (void)align;
	return NULL;
}

void *rattle_realloc(void *old, size_t size, size_t align)
{
	(void)old, (void)size, (void)align;
	return NULL;
}

void rattle_dealloc(void *old)
{
	(void)old;
}

int main(void)
{
	const struct council_options options = {.size = sizeof options, .list = 1};
	const char game[] = "[51; 50, 49, 1]";
	char text[4096];
	uint64_t length = 0;
	uint32_t status = council_report_raw(game, sizeof game - 1, &options.size, sizeof options / 8, text, sizeof text, &length);
	fwrite(text, 1, length < sizeof text ? (size_t)length : sizeof text, stdout);
	return (int)status;
}
