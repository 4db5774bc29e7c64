/* The calls of libcouncil.so for R, which looks up their addresses: numbers of 128 bits become texts. */
#include <signal.h>
#include <string.h>
#include <R.h>
#include <Rinternals.h>
#include <R_ext/Rdynload.h>
#include "council.h"

#define INDICES 7

typedef uint32_t indices_call(const uint64_t *, size_t, const uint64_t *, size_t, const uint64_t *, size_t, struct council_member *, size_t, struct council_summary *);
typedef uint32_t list_call(const uint64_t *, size_t, const uint64_t *, size_t, const uint64_t *, size_t, size_t, uint64_t *, size_t, struct council_summary *);
typedef void watch_call(const volatile uint32_t *);

/* an interrupt sets it, and ends the call */
static volatile uint32_t stop;

static void interrupt(int number)
{
	(void)number;
	stop = 1;
}

static uint64_t *read_words(SEXP numbers)
{
	R_xlen_t count = XLENGTH(numbers);
	uint64_t *words = (uint64_t *)R_alloc((size_t)count + 1, sizeof *words);
	for (R_xlen_t at = 0; at < count; at++)
		words[at] = (uint64_t)REAL(numbers)[at];
	return words;
}

/* Writes a number before the end of a text, and returns where it begins. */
static char *write_wide(char *end, struct council_wide wide)
{
	uint64_t limbs[4] = { wide.high >> 32, wide.high & 0xffffffff, wide.low >> 32, wide.low & 0xffffffff }, rest;
	do {
		rest = 0;
		for (int at = 0; at < 4; at++) {
			rest = rest << 32 | limbs[at];
			limbs[at] = rest / 10;
			rest %= 10;
		}
		*--end = (char)('0' + rest);
	} while (limbs[0] | limbs[1] | limbs[2] | limbs[3]);
	return end;
}

static SEXP write_fraction(struct council_fraction fraction)
{
	char text[88], *at = text + sizeof text - 1;
	*at = 0;
	at = write_wide(at, fraction.bottom);
	*--at = '/';
	return mkChar(write_wide(at, fraction.top));
}

/* Returns the names of the members of each mask, the heaviest first. */
static SEXP name_coalitions(const uint64_t *masks, R_xlen_t count, SEXP names, SEXP ranked)
{
	SEXP all = PROTECT(allocVector(VECSXP, count));
	for (R_xlen_t at = 0; at < count; at++) {
		R_xlen_t size = 0, place;
		for (uint64_t rest = masks[at]; rest; rest &= rest - 1)
			size++;
		SEXP one = allocVector(STRSXP, size);
		SET_VECTOR_ELT(all, at, one);
		for (size = place = 0; place < XLENGTH(ranked); place++) {
			int member = INTEGER(ranked)[place] - 1;
			if (masks[at] >> member & 1)
				SET_STRING_ELT(one, size++, STRING_ELT(names, member));
		}
	}
	UNPROTECT(1);
	return all;
}

/* Returns the status of a game, its numbers, those of each member and each fraction, and the coalitions if there is room. */
static SEXP ask(SEXP calls, SEXP quotas, SEXP weights, SEXP options, SEXP names, SEXP ranked, SEXP room)
{
	size_t rules = (size_t)XLENGTH(quotas), members = (size_t)XLENGTH(names), most = (size_t)asReal(room);
	uint64_t *least = read_words(quotas), *votes = read_words(weights), *words = read_words(options), *masks = NULL;
	struct council_member *each = (struct council_member *)R_alloc(members, sizeof *each);
	struct council_summary listed = { .size = sizeof listed, .member_size = sizeof *each }, summary = listed;
	watch_call *watch = (watch_call *)R_ExternalPtrAddrFn(VECTOR_ELT(calls, 2));
	struct sigaction mine, kept;
	uint32_t status = 0;
	if (most)
		masks = (uint64_t *)R_alloc(most, sizeof *masks);
	memset(&mine, 0, sizeof mine);
	mine.sa_handler = interrupt;
	stop = 0;
	sigaction(SIGINT, &mine, &kept);
	watch(&stop);
	if (most)
		status = ((list_call *)R_ExternalPtrAddrFn(VECTOR_ELT(calls, 1)))(least, rules, votes, rules * members,
			words, (size_t)XLENGTH(options), members, masks, most, &listed);
	if (!status)
		status = ((indices_call *)R_ExternalPtrAddrFn(VECTOR_ELT(calls, 0)))(least, rules, votes, rules * members,
			words, (size_t)XLENGTH(options), each, members, &summary);
	watch(NULL);
	sigaction(SIGINT, &kept, NULL);
	if (stop) {
		raise(SIGINT);
		R_CheckUserInterrupt();
	}
	SEXP made = PROTECT(allocVector(VECSXP, 5));
	SET_VECTOR_ELT(made, 0, ScalarReal(status));
	if (!status) {
		SEXP numbers = allocVector(REALSXP, 2), counts, texts;
		SET_VECTOR_ELT(made, 1, numbers);
		REAL(numbers)[0] = (double)summary.coalitions;
		REAL(numbers)[1] = (double)summary.winning;
		SET_VECTOR_ELT(made, 2, counts = allocMatrix(REALSXP, (int)members, 2));
		SET_VECTOR_ELT(made, 3, texts = allocVector(STRSXP, (R_xlen_t)(members * INDICES + 1)));
		for (size_t at = 0; at < members; at++) {
			REAL(counts)[at] = (double)each[at].coalitions;
			REAL(counts)[at + members] = (double)each[at].swings;
			for (size_t index = 0; index < INDICES; index++)
				SET_STRING_ELT(texts, (R_xlen_t)(index * members + at), write_fraction((&each[at].deegan_packel)[index]));
		}
		SET_STRING_ELT(texts, (R_xlen_t)(members * INDICES), write_fraction(summary.act));
		if (most)
			SET_VECTOR_ELT(made, 4, name_coalitions(masks, (R_xlen_t)listed.coalitions, names, ranked));
	}
	UNPROTECT(1);
	return made;
}

void R_init_council(DllInfo *info)
{
	static const R_CallMethodDef calls[] = { { "ask", (DL_FUNC)&ask, 7 }, { NULL, NULL, 0 } };
	R_registerRoutines(info, NULL, calls, NULL, NULL);
	R_useDynamicSymbols(info, FALSE);
	R_forceSymbols(info, TRUE);
}
