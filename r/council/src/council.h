/*
 * Weighted voting games, for C and whatever can call C. See docs/LIBRARY.md.
 *
 * Give a game as arrays and take numbers (council_indices) or coalitions (council_list), or give the bytes of a game file
 * and take a report (council_report). No call starts a thread, keeps anything from one call to the next, or gives out
 * memory. Threads of yours may call at the same time, each with buffers of its own.
 *
 * A pointer may be NULL if its length is 0. What a call writes to may overlap nothing else of the call. Call from no
 * signal handler, and not in the forked child of a process with threads. A call needs 512 KB of stack.
 *
 * The functions council_.._raw are those of the library, for languages that cannot read this file: they take the options
 * as an array of words, and no NULL. The functions without _raw are inline, and call them.
 */
#ifndef COUNCIL_H
#define COUNCIL_H

#include <stdbool.h>
#include <stddef.h>
#include <stdint.h>
#include <stdlib.h>

#ifdef __cplusplus
extern "C" {
#endif

/* The version of this file, and the one of the library: 10200 is 1.2.0. */
#define COUNCIL_VERSION 10200
uint32_t council_version(void);

/* The limits of games and of calls. */
#define COUNCIL_MAX_MEMBERS 40
#define COUNCIL_SIZES 41 /* how many sizes a coalition can have: 0 to 40 members */
#define COUNCIL_MAX_RULES 4
#define COUNCIL_MAX_WAYS 6
#define COUNCIL_MAX_WEIGHT 1000000000000 /* of one member */
#define COUNCIL_MAX_COALITIONS 4000000 /* that are listed */
#define COUNCIL_MAX_STATES 134217728

/*
 * What a call is asked for. Set size to sizeof(struct council_options), and what you do not ask for to 0:
 *
 *     struct council_options options = { sizeof options };
 *
 * A struct of an older version of this file is shorter: what it lacks is 0. One of a newer version is longer: the status is
 * COUNCIL_OPTIONS if a field that the library does not know is not 0. NULL is a struct with every field 0.
 */
struct council_options {
	uint64_t size;            /* sizeof(struct council_options) */
	uint64_t most;            /* refuse a game with more minimal winning coalitions, 1 to 4000000; 0 means 1000000 */
	uint64_t visits;          /* the most visits of a walk; 0 means any number. Ten million take a second or two */
	uint64_t states;          /* the most states that are kept, 1 to 2^27; 0 means 2^24 */
	uint64_t tally;           /* 1: count the coalitions, any number, and keep none; not with most or list */
	uint64_t list;            /* 1: a line for each minimal winning coalition */
	uint64_t sizes;           /* 1: a line for each size of a coalition */
	uint64_t notation;        /* 1: a line [q; w1, .., wn] for each rule */
	uint64_t swings;          /* 1: swings too, and the indices that rest on them */
	uint64_t only_swings;     /* 1: only these of a report */
	uint64_t ways[COUNCIL_MAX_WAYS]; /* of arrays: the rules of each way, binary digit r - 1 for rule r; all 0: one way, all rules */
	const volatile uint32_t *stop; /* the call ends soon after *stop is not 0; NULL: it goes on to its end */
};

/* How a call ends. The numbers up to 6 are the statuses of the program. */
enum council_status {
	COUNCIL_REPORT = 0,    /* the text is the report, or the numbers are there */
	COUNCIL_OPTIONS = 2,   /* no call takes these options */
	COUNCIL_GAME = 3,      /* the bytes or arrays hold no game: you get the first fault */
	COUNCIL_TOO_MANY = 4,  /* there are more minimal winning coalitions than most, or than there is room for */
	COUNCIL_MEMORY = 5,    /* memory was refused */
	COUNCIL_STATES = 6,    /* the swings of more than 20 members take more states than may be kept */
	COUNCIL_TOO_LONG = 7,  /* of more than 20 members: a walk made as many visits as it may */
	COUNCIL_SIZE = 8,      /* a length or the size of a struct is none that the call takes */
	COUNCIL_STOPPED = 9    /* *stop was not 0 */
};

/* A number of 128 bits: high * 2^64 + low. */
struct council_wide {
	uint64_t high, low;
};

/* A fraction in lowest terms, its bottom 1 to 10^30; or 0/0 if nobody asked. */
struct council_fraction {
	struct council_wide top, bottom;
};

/* The numbers of a member. Those of swings are 0 unless you ask for them. */
struct council_member {
	uint64_t coalitions;                     /* how many minimal winning coalitions have the member */
	uint64_t swings;                         /* how many winning coalitions lose without it */
	struct council_fraction deegan_packel;
	struct council_fraction public_good;
	struct council_fraction banzhaf;         /* this and all below are of swings */
	struct council_fraction penrose;         /* also called the absolute Banzhaf index */
	struct council_fraction shapley_shubik;
	struct council_fraction prevent;         /* Coleman's power to prevent action */
	struct council_fraction initiate;        /* Coleman's power to initiate action */
	uint64_t reserved[6];                    /* 0; for later versions */
};

/* The numbers of a game, or its fault. Set the two sizes before the call. */
struct council_summary {
	uint64_t size;         /* sizeof(struct council_summary) */
	uint64_t member_size;  /* sizeof(struct council_member) */
	uint64_t fault;        /* an enum council_fault if the status is COUNCIL_GAME, else 0 */
	uint64_t member;       /* the member that the fault is of, from 1; 0 if of none */
	uint64_t rule;         /* the rule that it is of, from 1; 0 if of none */
	uint64_t coalitions;   /* how many minimal winning coalitions there are, 1 to 2^40 */
	uint64_t winning;      /* how many coalitions win; 0 unless you ask for swings */
	uint64_t of_size[COUNCIL_SIZES];      /* how many minimal winning coalitions have each size, from 0 on */
	uint64_t totals[COUNCIL_MAX_RULES];   /* the total of the weights of each rule; 0 past the last rule */
	struct council_fraction act;          /* Coleman's power of the body to act; of swings */
	uint64_t reserved[12];                /* 0; for later versions */
};

/* The faults of arrays, in the order in which they are looked for. */
enum council_fault {
	COUNCIL_FAULT_RULES = 13,    /* not 1 to 4 rules */
	COUNCIL_FAULT_WAYS = 15,     /* a rule that is not there, or in no way; or a way that has all rules of another one */
	COUNCIL_FAULT_MEMBERS = 7,   /* not 1 to 40 members */
	COUNCIL_FAULT_WEIGHT = 10,   /* a weight above 10^12: the first such member, its first such rule */
	COUNCIL_FAULT_QUOTA = 11     /* a quota of 0, or above the total of its weights: the first such rule */
};

uint32_t council_report_raw(const char *game, size_t game_length, const uint64_t *options, size_t words,
			    char *text, size_t room, uint64_t *length);
uint32_t council_indices_raw(const uint64_t *quotas, size_t rules, const uint64_t *weights, size_t count,
			     const uint64_t *options, size_t words,
			     struct council_member *results, size_t members, struct council_summary *summary);
uint32_t council_list_raw(const uint64_t *quotas, size_t rules, const uint64_t *weights, size_t count,
			  const uint64_t *options, size_t words, size_t members,
			  uint64_t *masks, size_t room, struct council_summary *summary);

/*
 * After *flag is not 0, the calls of this thread end with COUNCIL_MEMORY; NULL ends that. Another thread or a signal
 * handler may set the flag. For callers of the raw functions: the others watch options->stop, and give COUNCIL_STOPPED.
 */
void council_watch(const volatile uint32_t *flag);

/* What the inline functions hand over for NULL. */
#define COUNCIL_OR(pointer, other) ((pointer) ? (pointer) : (other))

/* The words of options for a raw function. A size that is no number of words is none that a call takes. */
static inline size_t council_words(const struct council_options *options)
{
	return !options ? 0 : options->size % 8 || !options->size ? 1 : (size_t)(options->size / 8);
}

/* Has a flag watched, and tells after the call whether the flag ended it. */
static inline uint32_t council_watched(const struct council_options *options, uint32_t status)
{
	council_watch(NULL);
	if (status == COUNCIL_MEMORY && options && options->size >= sizeof *options && options->stop && *options->stop)
		return COUNCIL_STOPPED;
	return status;
}

static inline void council_begin(const struct council_options *options)
{
	if (options && options->size >= sizeof *options)
		council_watch(options->stop);
}

/*
 * Reads the bytes of a game file, and puts its report into text, or the words of a fault: as much as fits into room bytes,
 * and a byte 0 after it if there is room. *length is then the length of the whole text: if it is more than room, call
 * again with room for *length bytes. A file names its ways itself, so options->ways must be 0.
 *
 * A call takes from malloc a few hundred MB for a game of many states, and for a list 8 to 16 bytes for each coalition;
 * for a while up to three times what it puts into text.
 */
static inline uint32_t council_report(const char *game, size_t game_length, const struct council_options *options,
				      char *text, size_t room, uint64_t *length)
{
	char nothing;
	const uint64_t none = 0;
	uint32_t status;
	council_begin(options);
	status = council_watched(options, council_report_raw(COUNCIL_OR(game, ""), game_length,
		options ? &options->size : &none, council_words(options), COUNCIL_OR(text, &nothing), room, length));
	if (*length < room)
		text[*length] = 0;
	return status;
}

/*
 * Takes a game as arrays: a quota for each rule, and count weights, rules * members of them: those of the first rule,
 * then those of the second, and so on. A coalition wins if it meets all rules, or with ways all rules of some way. Puts
 * the numbers of member i into results[i], and those of the game into *summary. Of the options, visits, states, swings,
 * ways and stop have an effect.
 *
 * The coalitions are counted by states, and if these are too many, by a walk. A walk makes at most one visit for each
 * member and each set of members; under one rule, for each member and each coalition.
 *
 * If the status is not 0, the results are unchanged; if it is COUNCIL_OPTIONS or COUNCIL_SIZE, so is the summary. Else its
 * fault, member and rule say what is wrong.
 */
static inline uint32_t council_indices(const uint64_t *quotas, size_t rules, const uint64_t *weights, size_t count,
				       const struct council_options *options,
				       struct council_member *results, size_t members, struct council_summary *summary)
{
	const uint64_t none = 0;
	struct council_member nobody;
	council_begin(options);
	return council_watched(options, council_indices_raw(COUNCIL_OR(quotas, &none), rules, COUNCIL_OR(weights, &none),
		count, options ? &options->size : &none, council_words(options), COUNCIL_OR(results, &nobody), members, summary));
}

/*
 * Takes a game as arrays, as council_indices does, and puts its minimal winning coalitions into masks: binary digit i of a
 * mask is 1 if member i is in. Their order is that of --list: by rank place, the heaviest first. summary->coalitions
 * becomes their number, and the rest of masks is unchanged. Of the options, visits, states, ways and stop have an effect.
 *
 * If there are more than room, or than 4000000, the status is COUNCIL_TOO_MANY; council_indices says how many there are.
 * If the status is not 0, masks is unchanged.
 */
static inline uint32_t council_list(const uint64_t *quotas, size_t rules, const uint64_t *weights, size_t count,
				    const struct council_options *options, size_t members,
				    uint64_t *masks, size_t room, struct council_summary *summary)
{
	uint64_t none = 0;
	council_begin(options);
	return council_watched(options, council_list_raw(COUNCIL_OR(quotas, &none), rules, COUNCIL_OR(weights, &none),
		count, options ? &options->size : &none, council_words(options), members,
		COUNCIL_OR(masks, &none), room, summary));
}

/*
 * Hands the coalitions that council_list finds, at most `most` of them, to a function of yours: in their order, `block`
 * of them at a time (1 or more) and what is left at the end. It goes on until the function returns false. The memory for
 * all masks is taken before the first call, and freed after the last one.
 *
 * The status and the summary are those of council_list; if there is no memory for the masks, the status is COUNCIL_MEMORY
 * and the summary unchanged. If the status is not 0, the function was not called.
 */
static inline uint32_t council_each(const uint64_t *quotas, size_t rules, const uint64_t *weights, size_t count,
				    const struct council_options *options, size_t members, size_t most, size_t block,
				    bool (*function)(void *context, const uint64_t *masks, size_t number), void *context,
				    struct council_summary *summary)
{
	size_t room = most < COUNCIL_MAX_COALITIONS ? most : COUNCIL_MAX_COALITIONS, at = 0, number;
	uint64_t *masks = (uint64_t *)malloc((room + 1) * sizeof *masks);
	uint32_t status = COUNCIL_MEMORY;
	if (masks)
		status = council_list(quotas, rules, weights, count, options, members, masks, room, summary);
	if (!status)
		for (; at < summary->coalitions; at += number) {
			number = block && block < summary->coalitions - at ? block : (size_t)summary->coalitions - at;
			if (!function(context, masks + at, number))
				break;
		}
	free(masks);
	return status;
}

/*
 * Puts the words of a status into text, as much as fits into room bytes, with no byte 0 after them: "bad weight of member
 * 2". The status is that of council_indices, council_list or council_each, and *summary what it left. *length is then the
 * length of all the words; 0 for COUNCIL_REPORT and COUNCIL_STOPPED, and for what no call gives.
 */
void council_explain(uint32_t status, const struct council_summary *summary, char *text, size_t room, uint64_t *length);

/* Returns the double nearest to a fraction, a tie to the even one; 0 for 0/0. */
static inline double council_double(struct council_fraction fraction)
{
	uint64_t high = fraction.top.high, low = fraction.top.low, bits = 0;
	double unit = 1;
	if (!(high | low))
		return 0;
	/* long division, up to 55 bits of the quotient; the last one says whether anything is left */
	for (;;) {
		int over = high > fraction.bottom.high || (high == fraction.bottom.high && low >= fraction.bottom.low);
		if (over) {
			high -= fraction.bottom.high + (low < fraction.bottom.low);
			low -= fraction.bottom.low;
			bits |= 1;
		}
		if (bits >> 54)
			break;
		high = high << 1 | low >> 63;
		low <<= 1;
		bits <<= 1;
		unit /= 2;
	}
	return (double)(bits | (uint64_t)((high | low) != 0)) * unit;
}

#ifdef __cplusplus
}
#endif

#endif
