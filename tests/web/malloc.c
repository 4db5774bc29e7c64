/* malloc of the module under a random load, with sanitizers: blocks hold what was written, and memory has an end. */
#include <stdint.h>
#include <stdio.h>
#include <stdlib.h>
#include <string.h>
#include <sys/mman.h>

#define ROOM (1ul << 31)
static uint64_t first, pages = 2;
static uint64_t grow(uint64_t more) { return pages + more > ROOM >> 16 ? ~0ul : (pages += more) - more; }
#define FIRST (first + 24)
#define LIMIT (first + ROOM)
#define __builtin_wasm_memory_size(it) (first / 65536 + pages)
#define __builtin_wasm_memory_grow(it, more) grow(more)
#define malloc its_malloc
#define realloc its_realloc
#define free its_free
#define memcpy its_memcpy
#define memmove its_memmove
#define memset its_memset
#include "../../web/malloc.c"
#undef memset

enum { BLOCKS = 3000 };
static struct { char *p; uint64_t size; unsigned char mark; } blocks[BLOCKS];
static uint64_t seed = 88172645463325252ul;
static uint64_t below(uint64_t n)
{
	seed ^= seed << 13, seed ^= seed >> 7, seed ^= seed << 17;
	return seed % n;
}
static void check(int good, const char *what) { if (!good) printf("%s\n", what), exit(1); }

/* Checks that a block has its mark all over. */
static void holds(int i, uint64_t size)
{
	for (uint64_t byte = 0; byte < size; byte++)
		check((unsigned char)blocks[i].p[byte] == blocks[i].mark, "a block does not hold what was written");
}

static void load(int steps)
{
	for (int step = 0; step < steps; step++) {
		int i = below(BLOCKS);
		uint64_t size = below(10) ? below(300) : below(8) ? below(20000) : below(3000000), kept = size < blocks[i].size ? size : blocks[i].size;
		char *made = 0;
		if (blocks[i].p) holds(i, blocks[i].size);
		if (!blocks[i].p) made = its_malloc(size);
		else if (below(2)) its_free(blocks[i].p), size = 0;
		else made = its_realloc(blocks[i].p, size), blocks[i].p = made, holds(i, kept);
		check((uint64_t)made % 16 == 0, "16 does not divide the place of a block");
		blocks[i].p = made, blocks[i].size = size, blocks[i].mark = below(256);
		if (made) check((uint64_t)made >= FIRST && (uint64_t)made + size <= top, "a block is above the top"), memset(made, blocks[i].mark, size);
	}
}

int main(void)
{
	first = (uint64_t)mmap(0, ROOM + 65536, PROT_READ | PROT_WRITE, MAP_PRIVATE | MAP_ANONYMOUS | MAP_NORESERVE, -1, 0);
	check(first != (uint64_t)MAP_FAILED, "no memory for the test");
	first = (first + 65535) / 65536 * 65536;
	load(30000);
	for (int i = 0; i < BLOCKS; i++) if (blocks[i].p) its_free(blocks[i].p), blocks[i].p = 0;
	check(top < FIRST + 64, "what was freed is not one again");
	/* up to the end, in blocks of 64 MB; then there is no more, and what was there stays */
	int number = 0;
	while (number < BLOCKS && (blocks[number].p = its_malloc(64ul << 20))) number++;
	check(number == 31, "not 31 blocks of 64 MB fit into 2 GB");
	check(!its_malloc(2ul << 30) && !its_malloc(~0ul), "too much is given");
	blocks[0].mark = 7, memset(blocks[0].p, 7, 1000);
	check(!its_realloc(blocks[0].p, 128ul << 20), "a growth past the end is given"), holds(0, 1000);
	requests_left = 2;
	check(its_malloc(1) && its_malloc(1) && !its_malloc(1) && !its_malloc(1), "a request after the last is met");
	printf("ok\n");
}
