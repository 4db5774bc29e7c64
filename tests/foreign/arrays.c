/*
 * The numbers that council_indices gives for arrays, compared with the report of the same game:
 *
 *     arrays random GAMES SEED     random games, with every array between pages that nobody may touch
 *     arrays lengths               every length of every buffer, for ten games
 *     arrays faults GAMES SEED     random games with slips: the first of them is named
 *     arrays lists GAMES SEED      the coalitions of random games, in buffers of every length
 *     arrays threads               the same games by eight threads at once
 *     arrays visits                walks that may make few visits
 *     arrays kinds                 games that states count while a walk would take minutes
 *     arrays stop                  a flag ends each call
 *     arrays options               options of other versions, and some that no call takes
 *     arrays words                 the words of each status, in buffers of every length
 *     arrays one                   one game, to refuse its allocations
 *     arrays double                reads numbers "top high, low, bottom high, low", prints doubles
 */
#include "council.h"
#include <inttypes.h>
#include <pthread.h>
#include <stdio.h>
#include <stdlib.h>
#include <string.h>
#include <sys/mman.h>
#include <time.h>

enum { MEMBERS = 40, RULES = 4, PAGE = 4096, ROOM = 1 << 16, THREADS = 8 };

/* fails in the one place that says why */
static void fail(const char *why, long number)
{
	fprintf(stderr, "%s (%ld)\n", why, number);
	exit(1);
}

/* ---- memory between pages that nobody may touch: it ends where one of these begins */
static void *guarded(size_t size)
{
	size_t whole = (size + PAGE - 1) / PAGE * PAGE;
	char *at = mmap(NULL, whole + 2 * PAGE, PROT_READ | PROT_WRITE, MAP_PRIVATE | MAP_ANONYMOUS, -1, 0);
	if (at == MAP_FAILED)
		fail("no memory", (long)size);
	mprotect(at, PAGE, PROT_NONE);
	mprotect(at + PAGE + whole, PAGE, PROT_NONE);
	return at + PAGE + whole - size;
}

static void let_go(void *block, size_t size)
{
	size_t whole = (size + PAGE - 1) / PAGE * PAGE;
	munmap((char *)block - (whole - size) - PAGE, whole + 2 * PAGE);
}

/* ---- games */
struct game {
	size_t rules, members;
	uint64_t quotas[RULES], weights[RULES * MEMBERS], ways[COUNCIL_MAX_WAYS];
};

static uint64_t draw(uint64_t *state, uint64_t below)
{
	*state ^= *state << 13;
	*state ^= *state >> 7;
	*state ^= *state << 17;
	return *state % below;
}

/* two rules: either; three: two of them, or the first and one of the others */
static void add_ways(struct game *game, uint64_t *state)
{
	const uint64_t ways[][3] = {{1, 2}, {3, 5, 6}, {3, 5}, {1, 6}};
	if (game->rules == 2 && draw(state, 2))
		memcpy(game->ways, ways[0], sizeof ways[0]);
	if (game->rules == 3 && draw(state, 4))
		memcpy(game->ways, ways[1 + draw(state, 3)], sizeof ways[0]);
}

static struct game make(uint64_t *state, size_t most)
{
	struct game game = {.rules = 1 + draw(state, 4) * draw(state, 2), .members = 1 + draw(state, most)};
	uint64_t scale[] = {2, 10, 100, 1000000000000};
	for (size_t r = 0; r < game.rules; r++) {
		uint64_t total = 0, below = 1 + scale[draw(state, 4)];
		for (size_t i = 0; i < game.members; i++)
			total += game.weights[r * game.members + i] = draw(state, below);
		if (!total)
			total = game.weights[r * game.members] = 1;
		game.quotas[r] = 1 + draw(state, total);
	}
	add_ways(&game, state);
	return game;
}

static struct council_options with_ways(const struct game *game)
{
	struct council_options options = {.size = sizeof options};
	memcpy(options.ways, game->ways, sizeof options.ways);
	return options;
}

static struct council_summary no_summary(void)
{
	struct council_summary summary;
	memset(&summary, 0xAA, sizeof summary);
	summary.size = sizeof summary;
	summary.member_size = sizeof(struct council_member);
	return summary;
}

/* ---- the report of the same game */
static char *write_game(const struct game *game, char *at)
{
	at += sprintf(at, "quotas = [");
	for (size_t r = 0; r < game->rules; r++)
		at += sprintf(at, "%s%" PRIu64, r ? ", " : "", game->quotas[r]);
	at += sprintf(at, "]\n");
	for (size_t k = 0; k < COUNCIL_MAX_WAYS && game->ways[k]; k++) {
		at += sprintf(at, k ? ", [" : "ways = [[");
		for (int r = 0, some = 0; r < RULES; r++)
			if (game->ways[k] >> r & 1)
				at += sprintf(at, some++ ? ", %d" : "%d", r + 1);
		*at++ = ']';
	}
	at += sprintf(at, game->ways[0] ? "]\n" : "");
	for (size_t i = 0; i < game->members; i++) {
		at += sprintf(at, "[[member]]\nname = \"%zu\"\nweights = [", i + 1);
		for (size_t r = 0; r < game->rules; r++)
			at += sprintf(at, "%s%" PRIu64, r ? ", " : "", game->weights[r * game->members + i]);
		at += sprintf(at, "]\n");
	}
	return at;
}

static uint32_t report(const struct game *game, bool swings, char *text, uint64_t *length)
{
	char file[ROOM];
	struct council_options options = {.size = sizeof options, .tally = 1, .sizes = 1, .swings = swings};
	size_t size = (size_t)(write_game(game, file) - file);
	return council_report(file, size, &options, text, ROOM, length);
}

static char *write_wide(struct council_wide wide, char *at)
{
	char digits[48];
	size_t count = 0;
	do {
		/* long division by 10, half a word at a time */
		uint64_t parts[] = {wide.high >> 32, wide.high & 0xffffffff, wide.low >> 32, wide.low & 0xffffffff}, rest = 0;
		for (int k = 0; k < 4; k++) {
			parts[k] += rest << 32;
			rest = parts[k] % 10;
			parts[k] /= 10;
		}
		wide.high = parts[0] << 32 | parts[1];
		wide.low = parts[2] << 32 | parts[3];
		digits[count++] = (char)('0' + rest);
	} while (wide.high | wide.low);
	while (count)
		*at++ = digits[--count];
	*at = 0;
	return at;
}

/* the field of an index in a report, without its decimals */
static char *write_index(struct council_fraction index, char *at)
{
	at = write_wide(index.top, at);
	*at++ = '/';
	at = write_wide(index.bottom, at);
	*at++ = '\t';
	return at;
}

/* copies the decimals of an index, which are cut off; the double must be just as far above them */
static char *copy_decimals(const char *line, struct council_fraction index, char *at)
{
	size_t size = strcspn(line, "\t");
	double above = council_double(index) - strtod(line, NULL);
	if (above < -1e-12 || above > 1e-6)
		fail("a double is not near its index", 0);
	memcpy(at, line, size);
	return at + size;
}

/* compares the numbers with the text of a report */
static void compare(const struct game *game, bool swings, const struct council_member *results, const struct council_summary *summary,
		    long number)
{
	char text[ROOM], own[1024];
	uint64_t length = 0;
	size_t member = 0;
	if (report(game, swings, text, &length) != COUNCIL_REPORT)
		fail("there is no report", number);
	text[length] = 0;
	char *next = NULL;
	for (char *line = strtok_r(text, "\n", &next); line; line = strtok_r(NULL, "\n", &next)) {
		uint64_t size, count;
		if (!strncmp(line, "minimal\t", 8) && strtoull(line + 8, NULL, 10) != summary->coalitions)
			fail("another number of coalitions", number);
		if (!strncmp(line, "winning\t", 8) && strtoull(line + 8, NULL, 10) != summary->winning)
			fail("another number of winning coalitions", number);
		if (!strncmp(line, "act\t", 4)) {
			*write_index(summary->act, own) = 0;
			if (strncmp(line + 4, own, strlen(own)))
				fail("another power to act", number);
		}
		if (sscanf(line, "size\t%" SCNu64 "\t%" SCNu64, &size, &count) == 2 && summary->of_size[size] != count)
			fail("another number of a size", number);
		if (!strncmp(line, "total\t", 6)) {
			char *at = line + 5;
			for (size_t r = 0; r < game->rules; r++)
				if (strtoull(at + 1, &at, 10) != summary->totals[r])
					fail("another total", number);
		}
		if (strncmp(line, "member\t", 7))
			continue;
		/* the fields after the name and the weights */
		const struct council_member *it = &results[member++];
		const struct council_fraction indices[] = {it->deegan_packel, it->public_good, it->banzhaf, it->penrose, it->shapley_shubik, it->prevent, it->initiate};
		char *at = own, *from = strchr(strchr(line + 7, '\t') + 1, '\t') + 1, *rest = from;
		for (int k = 0; k < (swings ? 7 : 2); k++) {
			if (k == 0 || k == 2)
				at += sprintf(at, "%" PRIu64 "\t", k ? it->swings : it->coalitions);
			at = write_index(indices[k], at);
			if ((size_t)(at - own) >= strlen(from))
				fail("another line of a member", number);
			rest = from + (at - own);
			at = copy_decimals(rest, indices[k], at);
			if (from[at - own] == '\t')
				*at++ = '\t';
		}
		*at = 0;
		if (strcmp(own, from))
			fail("another line of a member", number);
	}
	if (member != game->members)
		fail("another number of members", number);
}

/* calls with every array between guards */
static void call_guarded(const struct game *game, bool swings, long number)
{
	size_t quotas_size = game->rules * sizeof *game->quotas, count = game->rules * game->members;
	size_t results_size = game->members * sizeof(struct council_member);
	uint64_t *quotas = guarded(quotas_size), *weights = guarded(count * sizeof *weights);
	struct council_member *results = guarded(results_size);
	struct council_summary *summary = guarded(sizeof *summary);
	memcpy(quotas, game->quotas, quotas_size);
	memcpy(weights, game->weights, count * sizeof *weights);
	struct council_options options = {.size = sizeof options, .swings = swings};
	memcpy(options.ways, game->ways, sizeof options.ways);
	*summary = no_summary();
	if (council_indices(quotas, game->rules, weights, count, &options, results, game->members, summary) != COUNCIL_REPORT)
		fail("there are no numbers", number);
	if (memcmp(quotas, game->quotas, quotas_size) || memcmp(weights, game->weights, count * sizeof *weights))
		fail("what is only read was changed", number);
	compare(game, swings, results, summary, number);
	let_go(quotas, quotas_size);
	let_go(weights, count * sizeof *weights);
	let_go(results, results_size);
	let_go(summary, sizeof *summary);
}

static void run_random(long games, uint64_t state)
{
	for (long number = 0; number < games; number++) {
		struct game game = make(&state, number % 50 ? 12 : MEMBERS / 2);
		call_guarded(&game, number % 3 == 0, number);
	}
}

/* ---- lists: what the report lists, name by name */
static void compare_list(const struct game *game, const uint64_t *masks, size_t found, long number)
{
	static __thread char text[1 << 20];
	char file[ROOM], *next = NULL;
	struct council_options options = {.size = sizeof options, .list = 1};
	uint64_t length = 0;
	size_t at = 0, size = (size_t)(write_game(game, file) - file);
	if (council_report(file, size, &options, text, sizeof text - 1, &length) != COUNCIL_REPORT || length >= sizeof text)
		fail("there is no list", number);
	text[length] = 0;
	for (char *line = strtok_r(text, "\n", &next); line; line = strtok_r(NULL, "\n", &next)) {
		uint64_t mask = 0;
		if (strncmp(line, "coalition\t", 10))
			continue;
		/* the names, after the size and the weights, are the numbers of the members */
		char *names = strchr(strchr(line + 10, '\t') + 1, '\t');
		while (names)
			mask |= (uint64_t)1 << (strtoul(names + 1, NULL, 10) - 1), names = strchr(names + 1, '\t');
		if (at >= found || masks[at++] != mask)
			fail("another coalition", number);
	}
	if (at != found)
		fail("another number of coalitions listed", number);
}

/* What council_each handed out. */
struct handed {
	uint64_t masks[1 << 10];
	size_t number, block, calls, most_calls;
};

static bool take_block(void *context, const uint64_t *masks, size_t number)
{
	struct handed *handed = context;
	if (number > handed->block || handed->number + number > sizeof handed->masks / sizeof *masks)
		fail("a block is too long", (long)number);
	memcpy(handed->masks + handed->number, masks, number * sizeof *masks);
	handed->number += number;
	return ++handed->calls < handed->most_calls;
}

/* Each block but the last is whole, and the function stops the calls. */
static void compare_blocks(const struct game *game, size_t count, const uint64_t *masks, size_t all, long number)
{
	struct council_summary summary = no_summary();
	struct council_options options = with_ways(game);
	for (size_t block = 1; block <= all + 1; block++)
		for (size_t calls = 1; calls <= all + 1; calls += all) {
			struct handed handed = {.block = block, .most_calls = calls};
			size_t wanted = calls == 1 && block < all ? block : all;
			if (council_each(game->quotas, game->rules, game->weights, count, &options, game->members, all, block, take_block, &handed, &summary))
				fail("no blocks", number);
			if (handed.number != wanted || memcmp(handed.masks, masks, wanted * sizeof *masks))
				fail("other blocks", number);
			if (handed.calls != (wanted + block - 1) / block)
				fail("blocks that are not whole", number);
		}
	struct handed none = {.block = 1, .most_calls = 1};
	if (council_each(game->quotas, game->rules, game->weights, count, &options, game->members, all - 1, 1, take_block, &none, &summary) != COUNCIL_TOO_MANY || none.calls)
		fail("blocks of too many", number);
}

static void run_lists(long games, uint64_t state)
{
	for (long number = 0; number < games; number++) {
		struct game game = make(&state, 8);
		struct council_member results[MEMBERS];
		struct council_summary summary = no_summary();
		struct council_options options = with_ways(&game);
		size_t count = game.rules * game.members;
		if (council_indices(game.quotas, game.rules, game.weights, count, &options, results, game.members, &summary))
			fail("there are no numbers", number);
		size_t all = (size_t)summary.coalitions;
		for (size_t room = 0; room <= all + 2; room++) {
			uint64_t *masks = guarded(room * sizeof *masks);
			memset(masks, 0x55, room * sizeof *masks);
			summary = no_summary();
			uint32_t status = council_list(game.quotas, game.rules, game.weights, count, &options, game.members, masks, room, &summary);
			size_t found = room < all ? 0 : all;
			if (status != (room < all ? COUNCIL_TOO_MANY : COUNCIL_REPORT) || (!status && summary.coalitions != all))
				fail("another status of a list", number);
			for (size_t i = found; i < room; i++)
				if (masks[i] != 0x5555555555555555)
					fail("a mask that is none was changed", number);
			if (!status)
				compare_list(&game, masks, found, number);
			if (room == all && number % 8 == 0)
				compare_blocks(&game, count, masks, all, number);
			let_go(masks, room * sizeof *masks);
		}
	}
}

/* ---- lengths that do not fit, and sizes of other versions */
static void run_lengths(void)
{
	uint64_t state = 7;
	struct council_options with_swings = {.size = sizeof with_swings, .swings = 1};
	for (long number = 0; number < 10; number++) {
		struct game game = make(&state, 6);
		size_t count = game.rules * game.members;
		for (size_t rules = 0; rules <= game.rules + 1; rules++)
			for (size_t weights = 0; weights <= count + 1; weights++)
				for (size_t members = 0; members <= game.members + 1; members++) {
					uint64_t *its_quotas = guarded(rules * sizeof(uint64_t)), *its_weights = guarded(weights * sizeof(uint64_t));
					size_t size = members * sizeof(struct council_member);
					struct council_member *results = guarded(size);
					struct council_summary summary = no_summary(), before = summary;
					memset(results, 0x55, size);
					for (size_t r = 0; r < rules; r++)
						its_quotas[r] = 1;
					for (size_t w = 0; w < weights; w++)
						its_weights[w] = 1;
					uint32_t status = council_indices(its_quotas, rules, its_weights, weights, &with_swings, results, members, &summary);
					uint32_t wanted = weights != rules * members       ? COUNCIL_SIZE
							  : rules < 1 || rules > 4 || !members ? COUNCIL_GAME
											       : COUNCIL_REPORT;
					if (status != wanted)
						fail("another status of lengths", number);
					if (status == COUNCIL_SIZE && memcmp(&summary, &before, sizeof summary))
						fail("a summary was changed", number);
					if (status == COUNCIL_GAME && summary.fault != (rules < 1 || rules > 4 ? COUNCIL_FAULT_RULES : COUNCIL_FAULT_MEMBERS))
						fail("another fault of lengths", number);
					for (size_t i = 0; status && i < size; i++)
						if (((char *)results)[i] != 0x55)
							fail("a result was changed", number);
					let_go(its_quotas, rules * sizeof(uint64_t));
					let_go(its_weights, weights * sizeof(uint64_t));
					let_go(results, size);
				}
	}
	for (int wrong = 0; wrong < 4; wrong++) {
		uint64_t quota = 1, weight = 1;
		struct council_member result;
		struct council_summary summary = no_summary();
		summary.size += wrong & 1;
		summary.member_size -= wrong >> 1;
		if (council_indices(&quota, 1, &weight, 1, NULL, &result, 1, &summary) != (wrong ? COUNCIL_SIZE : COUNCIL_REPORT))
			fail("another status of sizes", wrong);
	}
}

/* ---- the first fault: members before rules, weights before quotas */
static void run_faults(long games, uint64_t state)
{
	for (long number = 0; number < games; number++) {
		struct game game = make(&state, MEMBERS);
		struct council_member results[MEMBERS];
		struct council_summary summary = no_summary();
		uint64_t fault = 0, member = 0, rule = 0;
		for (uint64_t slips = draw(&state, 4); slips; slips--) {
			size_t r = draw(&state, game.rules), i = draw(&state, game.members);
			if (draw(&state, 2))
				game.weights[r * game.members + i] = draw(&state, 2) ? UINT64_MAX : 1000000000001;
			else
				game.quotas[r] = draw(&state, 2) ? 0 : UINT64_MAX - draw(&state, 2);
		}
		for (size_t i = game.members; i--;)
			for (size_t r = game.rules; r--;)
				if (game.weights[r * game.members + i] > 1000000000000)
					fault = COUNCIL_FAULT_WEIGHT, member = i + 1, rule = r + 1;
		for (size_t r = game.rules; r-- && fault != COUNCIL_FAULT_WEIGHT;) {
			uint64_t total = 0;
			for (size_t i = 0; i < game.members; i++)
				total += game.weights[r * game.members + i];
			if (!game.quotas[r] || game.quotas[r] > total)
				fault = COUNCIL_FAULT_QUOTA, rule = r + 1;
		}
		if (!fault)
			continue;
		uint32_t status = council_indices(game.quotas, game.rules, game.weights, game.rules * game.members, NULL, results, game.members, &summary);
		if (status != COUNCIL_GAME || summary.fault != fault || summary.member != member || summary.rule != rule)
			fail("another fault", number);
	}
	uint64_t none[MEMBERS + 1] = {0}, quota = 0;
	struct council_member results[MEMBERS + 1];
	struct council_summary summary = no_summary();
	if (council_indices(&quota, 1, none, MEMBERS + 1, NULL, results, MEMBERS + 1, &summary) != COUNCIL_GAME || summary.fault != COUNCIL_FAULT_MEMBERS)
		fail("41 members", 0);
}

/* ---- threads */
static void *work(void *at)
{
	uint64_t state = *(uint64_t *)at;
	run_random(100, state);
	return NULL;
}

static void run_threads(void)
{
	pthread_t threads[THREADS];
	uint64_t states[THREADS];
	for (int i = 0; i < THREADS; i++) {
		states[i] = 1 + (uint64_t)i % 2;
		if (pthread_create(&threads[i], NULL, work, &states[i]))
			fail("no thread", i);
	}
	for (int i = 0; i < THREADS; i++)
		pthread_join(threads[i], NULL);
}

/* ---- visits and states: 40 members with weights of ten digits under two rules have too many states */
static struct game far_game(void)
{
	struct game game = {.rules = 2, .members = MEMBERS};
	uint64_t state = 3;
	for (size_t i = 0; i < MEMBERS; i++) {
		game.weights[i] = draw(&state, 10000000000);
		game.weights[MEMBERS + i] = draw(&state, 10000000000);
		game.quotas[0] += game.weights[i] / 2;
		game.quotas[1] += game.weights[MEMBERS + i] / 2;
	}
	return game;
}

static void run_visits(void)
{
	struct game game = far_game();
	struct council_member results[MEMBERS], before[MEMBERS];
	struct council_summary summary = no_summary();
	memset(results, 0x55, sizeof results);
	memcpy(before, results, sizeof results);
	struct council_options options = {.size = sizeof options, .states = 1 << 16};
	uint64_t mask = 0, length = 0;
	char file[ROOM], text[ROOM];
	size_t size = (size_t)(write_game(&game, file) - file);
	for (options.visits = 1; options.visits <= 1000000; options.visits *= 1000000) {
		if (council_indices(game.quotas, 2, game.weights, 2 * MEMBERS, &options, results, MEMBERS, &summary) != COUNCIL_TOO_LONG)
			fail("a walk ended", (long)options.visits);
		if (council_report(file, size, &options, text, ROOM, &length) != COUNCIL_TOO_LONG)
			fail("a report ended", (long)options.visits);
		options.tally = 1;
		if (council_report(file, size, &options, text, ROOM, &length) != COUNCIL_TOO_LONG)
			fail("a tally ended", (long)options.visits);
		options.tally = 0;
	}
	options.visits = 1;
	if (council_list(game.quotas, 2, game.weights, 2 * MEMBERS, &options, MEMBERS, &mask, 1, &summary) != COUNCIL_TOO_LONG || mask)
		fail("a list ended", 0);
	options.swings = 1;
	if (council_indices(game.quotas, 2, game.weights, 2 * MEMBERS, &options, results, MEMBERS, &summary) != COUNCIL_STATES)
		fail("swings of too many states", 0);
	if (memcmp(before, results, sizeof results) || summary.fault || summary.member || summary.rule)
		fail("too long, and something was written", 0);
}

/* ---- games of few kinds have few states, and so many coalitions that a walk takes minutes */
struct kind {
	size_t count;
	uint64_t weights[3];
};

static void list_kinds(size_t rules, const uint64_t *quotas, const struct kind *kinds, size_t count)
{
	size_t members = 0;
	for (size_t k = 0; k < count; k++)
		members += kinds[k].count;
	uint64_t weights[3 * MEMBERS], masks[1000];
	for (size_t k = 0, i = 0; k < count; k++)
		for (size_t left = kinds[k].count; left > 0; left--, i++)
			for (size_t r = 0; r < rules; r++)
				weights[r * members + i] = kinds[k].weights[r];
	struct council_summary summary = no_summary();
	struct council_options options = {.size = sizeof options, .visits = 1 << 23, .most = 1};
	for (; options.most <= 1000; options.most += 999)
		if (council_list(quotas, rules, weights, rules * members, &options, members, masks, 1000, &summary) != COUNCIL_TOO_MANY)
			fail("a walk of kinds", (long)options.most);
	struct council_member results[MEMBERS];
	options.most = 0;
	if (council_indices(quotas, rules, weights, rules * members, &options, results, members, &summary) != COUNCIL_REPORT || summary.coalitions < 1000000)
		fail("a count of kinds", (long)members);
}

static void run_kinds(void)
{
	const struct kind producers[] = {{18, {3, 20}}, {6, {100, 2}}, {4, {50, 1}}, {12, {20, 200}}};
	const struct kind groups[] = {{13, {50, 363, 484}}, {13, {1, 61, 66}}, {13, {15, 12, 1}}};
	list_kinds(2, (uint64_t[]){657, 1666}, producers, 4);
	list_kinds(3, (uint64_t[]){572, 3779, 4776}, groups, 3);
}

/* ---- a flag that another thread sets ends each call soon; and one that is set before, at once */
static volatile uint32_t stop;

static void *set_stop(void *unused)
{
	struct timespec moment = {.tv_nsec = 30000000};
	(void)unused;
	nanosleep(&moment, NULL);
	stop = 1;
	return NULL;
}

static uint32_t call_to_stop(int number, const struct game *game, const struct council_options *options)
{
	static struct council_member results[MEMBERS];
	static uint64_t masks[COUNCIL_MAX_COALITIONS];
	static char file[ROOM], text[ROOM];
	struct council_summary summary = no_summary();
	uint64_t length;
	switch (number) {
	case 0:
		return council_indices(game->quotas, 2, game->weights, 2 * MEMBERS, options, results, MEMBERS, &summary);
	case 1:
		return council_list(game->quotas, 2, game->weights, 2 * MEMBERS, options, MEMBERS, masks, COUNCIL_MAX_COALITIONS, &summary);
	default:
		return council_report(file, (size_t)(write_game(game, file) - file), options, text, ROOM, &length);
	}
}

static void run_stop(void)
{
	struct game game = far_game();
	struct council_options options = {.size = sizeof options, .stop = &stop};
	for (int number = 0; number < 8; number++) {
		struct timespec start, end;
		pthread_t thread;
		stop = 0;
		/* by states, and by a walk after few of them; a report listed and counted */
		options.states = number / 4 ? 1 << 12 : COUNCIL_MAX_STATES;
		options.tally = number % 4 == 3;
		options.most = options.tally ? 0 : COUNCIL_MAX_COALITIONS;
		if (pthread_create(&thread, NULL, set_stop, NULL))
			fail("no thread", number);
		clock_gettime(CLOCK_MONOTONIC, &start);
		if (call_to_stop(number % 4, &game, &options) != COUNCIL_STOPPED)
			fail("a call was not stopped", number);
		clock_gettime(CLOCK_MONOTONIC, &end);
		pthread_join(thread, NULL);
		/* (a busy machine may take its time) */
		if (end.tv_sec - start.tv_sec > 10)
			fail("a call was stopped late", (long)(end.tv_sec - start.tv_sec));
		if (call_to_stop(number % 4, &game, &options) != COUNCIL_STOPPED)
			fail("a call was not stopped at once", number);
	}
	/* what ended is forgotten */
	struct council_options again = {.size = sizeof again, .stop = &stop};
	uint64_t quota = 1, weight = 1;
	struct council_member result;
	struct council_summary summary = no_summary();
	stop = 0;
	if (council_indices(&quota, 1, &weight, 1, &again, &result, 1, &summary))
		fail("a call after one that was stopped", 0);
}

/* ---- options of older and newer versions, and some that no call takes */
static void run_options(void)
{
	uint64_t quota = 51, weights[] = {50, 49, 1}, words[24] = {0};
	struct council_member results[3];
	struct council_summary summary = no_summary();
	/* each shorter struct is one of an older version; a longer one may only add 0 */
	for (uint64_t count = 0; count <= 24; count++) {
		words[0] = 8 * count;
		if (council_indices_raw(&quota, 1, weights, 3, words, count, results, 3, &summary))
			fail("options of another version", (long)count);
		for (uint64_t last = 17; last < count; last++) {
			words[last] = 1;
			if (council_indices_raw(&quota, 1, weights, 3, words, count, results, 3, &summary) != COUNCIL_OPTIONS)
				fail("an option that is not known", (long)last);
			words[last] = 0;
		}
		words[0] += 8;
		if (council_indices_raw(&quota, 1, weights, 3, words, count, results, 3, &summary) != COUNCIL_SIZE && count)
			fail("a size that is none", (long)count);
	}
	const uint64_t wrong[][3] = {{1, 4000001, 0}, {3, COUNCIL_MAX_STATES + 1, 0}, {4, 2, 0}, {5, 2, 0}, {9, 2, 0}, {4, 1, 5}, {4, 1, 1}};
	for (size_t k = 0; k < sizeof wrong / sizeof *wrong; k++) {
		struct council_options options = {.size = sizeof options};
		((uint64_t *)&options)[wrong[k][0]] = wrong[k][1];
		if (wrong[k][2])
			((uint64_t *)&options)[wrong[k][2]] = 1;
		struct council_summary before = summary;
		if (council_indices(&quota, 1, weights, 3, &options, results, 3, &summary) != COUNCIL_OPTIONS || memcmp(&before, &summary, sizeof summary))
			fail("options that no call takes", (long)k);
	}
	/* a file has ways of its own */
	struct council_options ways = {.size = sizeof ways, .ways = {1}};
	char text[64];
	uint64_t length;
	if (council_report("[1; 1]", 6, &ways, text, sizeof text, &length) != COUNCIL_OPTIONS || strcmp(text, "bad options"))
		fail("ways of a file", 0);
	/* ways of arrays that are none */
	const uint64_t bad[][2] = {{2, 0}, {1, 1}, {1ull << 63, 1}};
	for (size_t k = 0; k < sizeof bad / sizeof *bad; k++) {
		ways.ways[0] = bad[k][0];
		ways.ways[1] = bad[k][1];
		if (council_indices(&quota, 1, weights, 3, &ways, results, 3, &summary) != COUNCIL_GAME || summary.fault != COUNCIL_FAULT_WAYS)
			fail("ways that are none", (long)k);
	}
	/* NULL with no length */
	if (council_report(NULL, 0, NULL, NULL, 0, &length) != COUNCIL_GAME || council_indices(NULL, 0, NULL, 0, NULL, NULL, 0, &summary) != COUNCIL_GAME)
		fail("no address", 0);
}

/* ---- words */
static void run_words(void)
{
	struct council_summary summary = no_summary();
	const char *words[] = {"", "", "bad options", "", "too many minimal winning coalitions", "out of memory", "too many states for the swings", "too many visits", "bad size", ""};
	summary.fault = COUNCIL_FAULT_WEIGHT;
	summary.member = 40;
	words[COUNCIL_GAME] = "bad weight of member 40";
	for (uint32_t status = 0; status < 10; status++)
		for (size_t room = 0; room < 40; room++) {
			char *text = guarded(room);
			uint64_t length = 99;
			memset(text, 'x', room);
			council_explain(status, &summary, text, room, &length);
			size_t shown = length < room ? (size_t)length : room;
			if (length != strlen(words[status]) || memcmp(text, words[status], shown))
				fail("other words", (long)status);
			for (size_t i = shown; i < room; i++)
				if (text[i] != 'x')
					fail("a byte after the words was changed", (long)status);
			let_go(text, room);
		}
	if (council_version() != COUNCIL_VERSION)
		fail("another version", (long)council_version());
}

/* ---- one game: status 5 is what the test with refused allocations looks for */
static int run_one(void)
{
	uint64_t state = 5;
	struct game game = make(&state, 12);
	struct council_member results[MEMBERS];
	struct council_summary summary = no_summary();
	struct council_options options = {.size = sizeof options, .swings = 1};
	uint32_t status = council_indices(game.quotas, game.rules, game.weights, game.rules * game.members, &options, results, game.members, &summary);
	return (int)status;
}

static void print_doubles(void)
{
	struct council_fraction it;
	while (scanf("%" SCNu64 "%" SCNu64 "%" SCNu64 "%" SCNu64, &it.top.high, &it.top.low, &it.bottom.high, &it.bottom.low) == 4)
		printf("%a\n", council_double(it));
}

int main(int count, char **words)
{
	if (count == 4 && !strcmp(words[1], "random"))
		run_random(atol(words[2]), strtoull(words[3], NULL, 10));
	else if (count == 4 && !strcmp(words[1], "faults"))
		run_faults(atol(words[2]), strtoull(words[3], NULL, 10));
	else if (count == 4 && !strcmp(words[1], "lists"))
		run_lists(atol(words[2]), strtoull(words[3], NULL, 10));
	else if (count == 2 && !strcmp(words[1], "lengths"))
		run_lengths();
	else if (count == 2 && !strcmp(words[1], "threads"))
		run_threads();
	else if (count == 2 && !strcmp(words[1], "visits"))
		run_visits();
	else if (count == 2 && !strcmp(words[1], "kinds"))
		run_kinds();
	else if (count == 2 && !strcmp(words[1], "stop"))
		run_stop();
	else if (count == 2 && !strcmp(words[1], "options"))
		run_options();
	else if (count == 2 && !strcmp(words[1], "words"))
		run_words();
	else if (count == 2 && !strcmp(words[1], "one"))
		return run_one();
	else if (count == 2 && !strcmp(words[1], "double"))
		print_doubles();
	else
		return 97;
	return 0;
}
