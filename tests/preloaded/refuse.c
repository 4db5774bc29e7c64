/* Refuses memory, to see what a program does then. It is loaded before the C library:
 *
 *     REFUSE_AT=3 LD_PRELOAD=./refuse.so PROGRAM      refuses the third allocation alone
 *     REFUSE_FROM=3 LD_PRELOAD=./refuse.so PROGRAM    refuses the third and each later one
 *     REFUSE_OVER=65536 LD_PRELOAD=./refuse.so PROGRAM    refuses each of more bytes than that
 *
 * Calls of malloc, calloc, realloc, aligned_alloc, memalign and posix_memalign count from 1, from the
 * start of `main` on, in all threads together: what the C library itself takes before is no part of
 * the program. What it takes later counts, as the memory of a thread that starts. At the first
 * refusal one line, `refuse: allocation 3`, goes to the file descriptor REFUSE_TO, or to standard
 * error where it is not set.
 *
 * With REFUSE_CALL=1 only one call of the program is met: the allocations count from the line `call`
 * that it writes to standard output until it writes there again.
 */
#define _GNU_SOURCE
#include <dlfcn.h>
#include <errno.h>
#include <stdatomic.h>
#include <stddef.h>
#include <stdlib.h>
#include <string.h>
#include <sys/syscall.h>
#include <unistd.h>

/* The C library's own, under the names that no preloaded library takes from them. */
extern void *__libc_malloc(size_t size);
extern void *__libc_calloc(size_t count, size_t size);
extern void *__libc_realloc(void *old, size_t size);
extern void *__libc_memalign(size_t align, size_t size);

static atomic_int counting;
static atomic_ulong allocations;
static atomic_int told;
static unsigned long refuse_at, refuse_from, refuse_over;
static int refuse_to = STDERR_FILENO;
static int one_call;

static void tell(unsigned long number)
{
	char line[48], digits[24];
	size_t length = 0, places = 0;
	for (const char *c = "refuse: allocation "; *c; c++)
		line[length++] = *c;
	do
		digits[places++] = (char)('0' + number % 10);
	while (number /= 10);
	while (places)
		line[length++] = digits[--places];
	line[length++] = '\n';
	int kept = errno;
	if (write(refuse_to, line, length) < 0)
		_exit(99);
	errno = kept;
}

static int is_refused(size_t size)
{
	if (!atomic_load(&counting))
		return 0;
	unsigned long number = atomic_fetch_add(&allocations, 1) + 1;
	if (number != refuse_at && (!refuse_from || number < refuse_from) && (!refuse_over || size <= refuse_over))
		return 0;
	if (!atomic_exchange(&told, 1))
		tell(number);
	errno = ENOMEM;
	return 1;
}

void *malloc(size_t size)
{
	return is_refused(size) ? NULL : __libc_malloc(size);
}

void *calloc(size_t count, size_t size)
{
	return is_refused(count * size) ? NULL : __libc_calloc(count, size);
}

void *realloc(void *old, size_t size)
{
	return is_refused(size) ? NULL : __libc_realloc(old, size);
}

void *memalign(size_t align, size_t size)
{
	return is_refused(size) ? NULL : __libc_memalign(align, size);
}

void *aligned_alloc(size_t align, size_t size)
{
	return memalign(align, size);
}

int posix_memalign(void **made, size_t align, size_t size)
{
	if (is_refused(size))
		return ENOMEM;
	void *it = __libc_memalign(align, size);
	if (!it)
		return ENOMEM;
	*made = it;
	return 0;
}

ssize_t write(int to, const void *bytes, size_t length)
{
	if (one_call && to == STDOUT_FILENO)
		atomic_store(&counting, length >= 4 && !memcmp(bytes, "call", 4));
	return syscall(SYS_write, to, bytes, length);
}

static unsigned long number_in(const char *name)
{
	const char *text = getenv(name);
	return text ? strtoul(text, NULL, 10) : 0;
}

static int (*program)(int, char **, char **);

static int counted_main(int words, char **word, char **environment)
{
	refuse_at = number_in("REFUSE_AT");
	refuse_from = number_in("REFUSE_FROM");
	refuse_over = number_in("REFUSE_OVER");
	if (getenv("REFUSE_TO"))
		refuse_to = (int)number_in("REFUSE_TO");
	one_call = getenv("REFUSE_CALL") != NULL;
	atomic_store(&counting, !one_call);
	int status = program(words, word, environment);
	atomic_store(&counting, 0);
	return status;
}

/* The C library calls it with the program's `main`, which is run by `counted_main` in its place. */
int __libc_start_main(int (*main)(int, char **, char **), int words, char **word, void (*init)(void),
		      void (*fini)(void), void (*loader)(void), void *stack)
{
	int (*start)(int (*)(int, char **, char **), int, char **, void (*)(void), void (*)(void), void (*)(void),
		     void *) = NULL;
	*(void **)&start = dlsym(RTLD_NEXT, "__libc_start_main");
	program = main;
	return start(counted_main, words, word, init, fini, loader, stack);
}
