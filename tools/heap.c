/*
 * The heap of the library for other languages: that of C, until a caller stops the call.
 *
 * A call of the library asks for memory again and again while it computes, and ends if it is refused. So whoever sets the
 * flag that council_watch was given ends the call: the heap then refuses all memory to calls of that thread.
 */
typedef unsigned long word; /* of 64 bits, as size_t */

/* An answer: the address of a block, or ok is 0 if memory was refused. */
struct answer {
	word ok, at;
};

void *malloc(word size);
void *realloc(void *block, word size);
void free(void *block);

static _Thread_local const volatile unsigned *flag;

__attribute__((visibility("default"))) void council_watch(const volatile unsigned *stop)
{
	flag = stop;
}

static int is_stopped(void)
{
	return flag && __atomic_load_n(flag, __ATOMIC_RELAXED);
}

/* the address of no memory */
static word nothing[2];

static struct answer answer_with(void *block)
{
	struct answer answer = { block != 0, (word)(block ? block : nothing) };
	return answer;
}

struct answer rattle_alloc(word size, word alignment)
{
	return answer_with(is_stopped() ? 0 : malloc(size ? size : alignment));
}

struct answer rattle_realloc(void *block, word kept, word size, word alignment)
{
	return answer_with(is_stopped() ? 0 : realloc(block, size ? size : alignment));
}

void rattle_dealloc(void *block)
{
	free(block);
}
