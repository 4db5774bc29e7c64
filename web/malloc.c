/*
 * malloc, realloc and free of the module for browsers, which tools/heap.c calls.
 *
 * A block begins with a word: its size in bytes, up to the next block, and in the two lowest bits whether it and the
 * block before it are in use. A free block also has links to others of its bin, and its size once more in its last
 * word. No two neighbours are both free, and none is free before `top`, where no block has been yet.
 */
typedef unsigned long u64;
typedef struct block { u64 word; union { struct { struct block *next, **link; }; char bytes[16]; }; } block;
#ifndef FIRST
extern unsigned char __heap_base;
#define FIRST ((u64)&__heap_base)
#define LIMIT (1ul << 31) /* no memory is given past this address */
#endif
enum { USED = 1, BEFORE = 2, WORD = 8, LEAST = 32, BINS = 216, TRIES = 64, LARGE = 1 << 22 };

u64 requests_left = ~0ul; /* tests set it: how many requests are met before all are refused */
u64 __stack_chk_guard = 0x595e9fbd94fda766ul;
void __stack_chk_fail(void) { __builtin_trap(); }

static u64 top, end, filled[4]; /* a bit for each bin that is not empty */
static block *bins[BINS];

static u64 size_of(block *it) { return it->word & ~3ul; }
static block *after(block *it) { return (block *)((u64)it + size_of(it)); }
static u64 round_up(u64 n) { return n > LIMIT ? LIMIT : n < LEAST - WORD ? LEAST : (n + WORD + 15) & ~15ul; }

/* Returns the bin of a size: one for each size below 512 bytes, and then eight for each doubling. */
static int bin_of(u64 size) {
	u64 units = size >> 4;
	int power = 63 - __builtin_clzl(units);
	return units < 32 ? (int)units : 32 + (power - 5) * 8 + (int)(units >> (power - 3) & 7);
}

static void link_free(block *it) {
	int bin = bin_of(((u64 *)after(it))[-1] = size_of(it));
	it->next = bins[bin], it->link = &bins[bin];
	if (it->next) it->next->link = &it->next;
	bins[bin] = it, filled[bin / 64] |= 1ul << bin % 64;
}

static void unlink_free(block *it) {
	int bin = bin_of(size_of(it));
	*it->link = it->next;
	if (it->next) it->next->link = it->link;
	if (!bins[bin]) filled[bin / 64] &= ~(1ul << bin % 64);
}

/* Frees a block in use, and joins it with its neighbours. */
static void release(block *it) {
	block *next = after(it);
	u64 size = size_of(it), before = it->word & BEFORE ? 0 : ((u64 *)it)[-1];
	if (before) it = (block *)((u64)it - before), size += before, unlink_free(it);
	if ((u64)next == top) { top = (u64)it; return; }
	if (!(next->word & USED)) unlink_free(next), size += size_of(next);
	it->word = size | BEFORE;
	link_free(it), after(it)->word &= ~(u64)BEFORE;
}

/* Takes a block as in use, but only as large as it must be: the rest is freed. */
static void take(block *it, u64 size) {
	u64 rest = size_of(it) - size;
	it->word |= USED;
	if ((u64)after(it) != top) after(it)->word |= BEFORE;
	if (rest < LEAST) return;
	it->word -= rest, after(it)->word = rest | USED | BEFORE;
	release(after(it));
}

/* Moves the top up by so many bytes, if there is as much memory. */
static int move_top(u64 more) {
	if (!top) top = ((FIRST + 15) & ~15ul) + WORD, end = __builtin_wasm_memory_size(0) << 16;
	u64 pages = top + more > end ? (top + more - end + 65535) >> 16 : 0;
	if (end + (pages << 16) > LIMIT || (pages && __builtin_wasm_memory_grow(0, pages) == ~0ul)) return 0;
	end += pages << 16, top += more;
	return 1;
}

/* Returns the best of the first blocks in the first bin that has one of this size, if any. */
static block *find(u64 size) {
	block *best = 0;
	for (int bin = bin_of(size), tries = 0; !best && bin < BINS; bin++, tries = 0)
		if (!(filled[bin / 64] >> bin % 64)) bin |= 63; /* none in the rest of this word */
		else for (block *it = bins[bin]; it && tries < TRIES; it = it->next, tries++)
			if (size_of(it) >= size && (!best || size_of(it) < size_of(best))) best = it;
	return best;
}

/* Returns a block in use of this size, or 0. */
static block *get(u64 size) {
	block *it = find(size);
	if (!it && !move_top(size)) return 0;
	if (it) unlink_free(it);
	else it = (block *)(top - size), it->word = size | BEFORE;
	return take(it, size), it;
}

static int refuses(void) { return !requests_left || (requests_left -= ~requests_left ? 1 : 0, 0); }
void free(void *p) { release((block *)((u64)p - WORD)); }
void *malloc(u64 n) {
	block *it = refuses() ? 0 : get(round_up(n));
	return it ? it->bytes : 0;
}

/* Makes a block hold n bytes, in its place if what follows is free. Large blocks grow: one that moves leaves room. */
void *realloc(void *p, u64 n) {
	block *it = (block *)((u64)p - WORD), *next = after(it), *gap = 0, *made;
	u64 size = round_up(n), has = size_of(it), more = size > has ? size - has : 0;
	if (more && refuses()) return 0;
	if (more && (u64)next == top) it->word += move_top(more) ? more : 0;
	else if (more && !(next->word & USED) && size_of(next) >= more) unlink_free(next), it->word += size_of(next);
	if (size_of(it) >= size) return take(it, size), p;
	if (size > LARGE && (u64)next != top && size_of(next) > LARGE) gap = get(size_of(next) / 2);
	made = get(size), gap ? release(gap) : (void)0;
	return made ? __builtin_memcpy(made->bytes, p, has - WORD), release(it), made->bytes : 0;
}

void *memcpy(void *to, const void *from, u64 n) { return __builtin_memcpy(to, from, n); }
void *memmove(void *to, const void *from, u64 n) { return __builtin_memmove(to, from, n); }
void *memset(void *to, int byte, u64 n) { return __builtin_memset(to, byte, n); }
