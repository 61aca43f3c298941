/*
 * Peng-Robinson board: densities and spinodals of blends of 1 to 8 components, critical points of
 * components and of blends of two, critical lines of two components, by the Peng-Robinson equation
 * of state, as jobs in four queues. The functions are written in Rattle and proved; this header
 * declares them for C and C++.
 *
 * Build. `tools/build gateway` at the project's root writes target/staticlib/libgateway.a. Then
 *
 *     cc -I include program.c target/staticlib/libgateway.a
 *
 * Use. A supplier's numbers become a request block (pr_write_block). The block is submitted to one
 * of the four queues of a board (pr_submit). Turns (pr_turn) serve the queues one after the other,
 * at most one evaluation of the equation each, and write a record when a job's span is over. With
 * which turn that will be can be asked before a submit (pr_quote). The queue's owner may look at
 * the running job (pr_look). pr_answer makes a whole job at once and needs no board. A board is
 * PR_BOARD_BYTES bytes of the caller's memory; all zero is a fresh one. examples/c/density.c shows
 * the calls on a board.
 *
 * Units. Critical temperatures are in K, critical pressures in Pa. All else is reduced:
 *     temperature   K
 *     density       molecules per cubic angstrom; times 1e30 / 6.02214076e23 it is in mol/m^3
 *     pressure      K per cubic angstrom; times 13806490 it is in Pa
 *     curvature     d2p/drho2, K times cubic angstrom
 * Floats are IEEE 754 binary64. In blocks and records all numbers are little-endian, on every
 * machine, and need not be aligned.
 *
 * Public and secret. Public are queue, kind, number of components, lengths of buffers, tickets,
 * the first 16 bytes of a record, what pr_submit, pr_turn, pr_look, pr_quote and pr_answer return,
 * and the number of turns that pr_quote gives. The block, the sealed bytes of a record (16 to 63),
 * what a look shows and what pr_write_block returns belong to the owner of the queue. The bytes of
 * the board are secret too: they hold the blocks, also of jobs that have left. With which turn a
 * record comes out depends on public fields alone; how long one call takes is not covered by the
 * proofs and may depend on the data.
 *
 * Memory. Every pointer must be valid for its length and aligned for its type, and the buffers of
 * one call must not overlap. Any numbers and any bytes may stand there. An empty list may be NULL
 * with length 0. Nothing is allocated and no function keeps a pointer: pr_submit copies the block
 * into the board.
 *
 * Floats. The thread's floating point must be in its default state: rounding to nearest, subnormal
 * numbers kept. Linking with -ffast-math may change it. This and the memory are all that is asked
 * of the caller.
 *
 * Threads. There is no global state. Calls on different boards may run in parallel; one board must
 * not be used from two threads at once.
 */
#ifndef PENG_ROBINSON_BOARD_H
#define PENG_ROBINSON_BOARD_H

#include <stddef.h>
#include <stdint.h>

#ifdef __cplusplus
extern "C" {
#endif

/* Sizes. */

#define PR_BOARD_BYTES 24584  /* a board; all zero is a fresh one */
#define PR_BLOCK_BYTES 640    /* a request block */
#define PR_RECORD_BYTES 64    /* a record */
#define PR_REQUEST_BYTES 642  /* a request in a file: kind byte, N byte, block */
#define PR_QUEUES 4           /* queues 0 to 3 */
#define PR_QUEUE_JOBS 8       /* jobs that a queue holds, the running one included */
#define PR_COMPONENTS_MAX 8   /* components of a blend, N: 1 to 8; in kinds 7 to 9 N is 2 */

/*
 * Kinds of jobs: what is read of the request, and the values handed out, in the record's order.
 * Coefficients and interactions are checked in every kind. Values not named are +0.
 */

/* Density at a temperature and pressure. Reads fractions, temperature, pressure and the choice,
   which says where the search begins: PR_CHOICE_VAPOR, PR_CHOICE_LIQUID, or PR_CHOICE_START, which
   reads a starting density in start. Hands out density, which may be of another phase than the one
   that the search began in. */
#define PR_KIND_DENSITY 1

/* Density of the stable phase. Reads fractions, temperature and pressure. Hands out density. */
#define PR_KIND_STABLE_DENSITY 2

/* Spinodal, where dp/drho is 0, searched from a starting density. Reads fractions, temperature and
   start. Hands out pressure, density and curvature. */
#define PR_KIND_PRESSURE_SPINODAL 3

/* Spinodal of a branch. Reads fractions, temperature and the choice PR_CHOICE_VAPOR or
   PR_CHOICE_LIQUID. Hands out pressure and density. */
#define PR_KIND_SPINODAL_BRANCH 4

/* Critical point of one component. Choice is the component, 0 to N - 1. Reads temperature and
   start, with which the search begins; +0 in either means none given. Without a temperature 300,
   700 and 500 K are tried in turn, without a start 0.3 of the maximum density is taken. Hands out
   temperature and density. */
#define PR_KIND_CRITICAL_POINT 5

/* Both spinodals of one component by its stability condition. Choice is the component, 0 to N - 1.
   Reads temperature. Hands out vapour density and liquid density. Below about half of the critical
   temperature both may be the vapour's, the status being 0; kind 4 searches each branch. */
#define PR_KIND_STABILITY_SPINODALS 6

/* Critical point of a blend of two components; N is 2. Reads fractions, and temperature and start
   as kind 5 does. Hands out temperature and density. A blend may have several critical points or
   none; which one is found hangs on where the search begins. Both fractions have to be above 0:
   with one of 0 the search ends with PR_REFUSED_NOT_CONVERGED, or where a temperature is given
   with PR_REFUSED_NOT_FINITE; kind 5 has the component alone. */
#define PR_KIND_BLEND_CRITICAL_POINT 7

/* Critical points at a set temperature or pressure: points of the critical line of two components;
   N is 2. The composition is searched too. The search begins at the fractions, which are read, and
   at start, where +0 means none given and 0.3 of the maximum density is taken. Hands out the
   partial densities of the first and the second component: the density is their sum, and each over
   the sum is a fraction. As in kind 7 there may be several such points or none, not every one is
   stable, and both fractions have to be above 0: with one of 0 the search ends with
   PR_REFUSED_NOT_FINITE. */

/* At a set temperature. Reads fractions, temperature and start. Hands out the first and the second
   partial density. */
#define PR_KIND_CRITICAL_POINT_AT_TEMPERATURE 8

/* At a set pressure. Reads fractions, pressure, start, and the temperature that the search begins
   at; +0 means none given, and 300 K is taken. Hands out temperature, the first and the second
   partial density. */
#define PR_KIND_CRITICAL_POINT_AT_PRESSURE 9

/*
 * Spans: the turns of its own queue that a job of a kind takes, the one that takes it in included,
 * whatever its data. No job makes more evaluations than its span. A job alone on a fresh board, in
 * queue q, comes out with turn number (span - 1) * PR_QUEUES + q + 1.
 */
#define PR_SPAN_DENSITY 3101
#define PR_SPAN_STABLE_DENSITY 6204
#define PR_SPAN_PRESSURE_SPINODAL 30
#define PR_SPAN_SPINODAL_BRANCH 30
#define PR_SPAN_CRITICAL_POINT 150
#define PR_SPAN_STABILITY_SPINODALS 250
#define PR_SPAN_BLEND_CRITICAL_POINT 150
#define PR_SPAN_CRITICAL_POINT_AT_TEMPERATURE 200
#define PR_SPAN_CRITICAL_POINT_AT_PRESSURE 200

/* Choices of PR_KIND_DENSITY, and the first two of PR_KIND_SPINODAL_BRANCH. */
#define PR_CHOICE_VAPOR 0
#define PR_CHOICE_LIQUID 1
#define PR_CHOICE_START 2

/*
 * Refusals. Further numbers may come with later versions.
 *
 * The caller's: returned by the functions; nothing changes.
 */
#define PR_REFUSED_QUEUE 1           /* queue above 3 */
#define PR_REFUSED_KIND 2            /* kind not 1 to 9 */
#define PR_REFUSED_COMPONENTS 3      /* N not 1 to 8; kinds 7 to 9: N not 2 */
#define PR_REFUSED_QUEUE_FULL 4      /* the queue holds eight jobs */
#define PR_REFUSED_RECORD_LENGTH 5   /* record buffer under 64 bytes */
#define PR_REFUSED_BOARD 6           /* board not 24,584 bytes, or a number stored in it is out of
                                        range; never a board that began as zeros and that only
                                        these functions have written */
#define PR_REFUSED_NO_RUNNING_JOB 7  /* the queue's first job has had no turn, or there is none */
#define PR_REFUSED_BLOCK_LENGTH 8    /* block not 640 bytes */

/* The supplier's data: in a record's status, and returned by pr_write_block. Tested in the order
   11, 12, 13, 14, 17, 15, 16; the first that applies is given. */
#define PR_REFUSED_PAIRS 11             /* offsets or lengths in the block that do not fit; in
                                           pr_write_block a list's length that does not fit N */
#define PR_REFUSED_COEFFICIENTS 12      /* in any component: critical values not finite and
                                           positive, acentric factor or kappa not finite, a or b
                                           not finite and positive */
#define PR_REFUSED_INTERACTIONS 13      /* an interaction not finite */
#define PR_REFUSED_FRACTIONS 14         /* all kinds but 5 and 6: a fraction not finite or with
                                           a minus sign, -0 included */
#define PR_REFUSED_CONDITIONS 15        /* a temperature that is read not finite and positive
                                           (kinds 5, 7 and 9: nor +0), or a pressure or start
                                           that is read not finite */
#define PR_REFUSED_CHOICE 16            /* choice that is read out of the kind's range, or maximum
                                           density not finite and positive */
#define PR_REFUSED_SUM_OF_FRACTIONS 17  /* all kinds but 5 and 6: the fractions' sum, in floats
                                           from the first on, differs from 1 by more than
                                           1e-9 */

/* The equation's: in a record's status. */
#define PR_REFUSED_STARTING_DENSITY 21    /* starting density 0 or below, in kind 1 from vapour
                                             also a pressure of 0 or below */
#define PR_REFUSED_NOT_CONVERGED 22       /* search not converged */
#define PR_REFUSED_ITERATION_FAILED 23    /* iteration failed */
#define PR_REFUSED_BOTH_PHASES_FAILED 24  /* kind 2: neither vapour nor liquid was found; at high
                                             pressures the liquid alone is searched, and its own
                                             refusal given */
#define PR_REFUSED_WRONG_BRANCH 25        /* the spinodal found has not its branch's curvature,
                                             above 0 for liquid, below 0 for vapour */
#define PR_REFUSED_SUPERCRITICAL 26       /* kind 6: no spinodal found within the iterations, as
                                             above the critical temperature */
#define PR_REFUSED_NOT_FINITE 27          /* a number that an evaluation yields, or a temperature
                                             or density after a step, is not finite; in kinds 2 and
                                             5 to 7 a phase or trial may end so unseen */

/*
 * Record: offsets of its numbers. Bytes 0 to 15 are public, 16 to 63 sealed.
 * Bytes 10 to 15 and 56 to 63 are zeros. The values are +0 where the status is a refusal.
 */
#define PR_RECORD_TICKET 0        /* u64 */
#define PR_RECORD_KIND 8          /* byte */
#define PR_RECORD_QUEUE 9         /* byte */
#define PR_RECORD_SEALED 16       /* the sealed bytes begin */
#define PR_RECORD_STATUS 16       /* u64: 0, or a refusal of 11 to 17 or 21 to 27 */
#define PR_RECORD_VALUES 24       /* three floats, as the kind hands them out: 24, 32, 40 */
#define PR_RECORD_EVALUATIONS 48  /* u64: evaluations of the equation that the search made */

/*
 * Block. Four pairs of offset and length in bytes, each a u16, say where the parts stand. Offsets
 * are PR_BLOCK_PARTS or above, no part begins before the end of the one before, and the last ends
 * at PR_BLOCK_BYTES or before; an empty part has an offset all the same. Bytes outside the pairs
 * and parts are ignored. pr_write_block packs the parts from PR_BLOCK_PARTS, zeros after them.
 */
#define PR_BLOCK_COEFFICIENTS_PAIR 0  /* 24 N bytes: for each component critical temperature / K,
                                         critical pressure / Pa, acentric factor */
#define PR_BLOCK_INTERACTIONS_PAIR 4  /* 4 N (N - 1) bytes: k_ij by rows, i below j */
#define PR_BLOCK_FRACTIONS_PAIR 8     /* 8 N bytes: mole fractions */
#define PR_BLOCK_CONDITIONS_PAIR 12   /* 32 bytes: choice u64, temperature, pressure, start */
#define PR_BLOCK_PARTS 16             /* the pairs end; parts may begin */

/*
 * Writes a request block from its numbers.
 *
 * kind, n         kind of the job and number of components
 * coefficients    critical temperature / K, critical pressure / Pa and acentric factor of each
 *                 component: 3 n floats
 * interactions    k_ij by rows, i below j (k_12, k_13, .., k_23, ..): n (n - 1) / 2 floats
 * fractions       mole fractions: n floats, in every kind; kinds 5 and 6 do not read them
 * choice, temperature, pressure, start
 *                 conditions, as the kind reads them; those that it does not read may be anything
 * block           PR_BLOCK_BYTES bytes, of any content
 *
 * The lengths of the lists are counts of floats. Returns 0, all 640 bytes of the block written, or
 * the first refusal of
 *     2 PR_REFUSED_KIND, 3 PR_REFUSED_COMPONENTS, 8 PR_REFUSED_BLOCK_LENGTH, 11 PR_REFUSED_PAIRS,
 *     12 PR_REFUSED_COEFFICIENTS, 13 PR_REFUSED_INTERACTIONS, 14 PR_REFUSED_FRACTIONS,
 *     17 PR_REFUSED_SUM_OF_FRACTIONS, 15 PR_REFUSED_CONDITIONS, 16 PR_REFUSED_CHOICE,
 * the buffer as it was. A written block is never refused by 11 to 17 with the same kind and n.
 * Every float is written, read by the kind or not, with its bits, but a NaN as 7FF8000000000000.
 */
uint64_t pr_write_block(uint64_t kind, uint64_t n,
                        const double *coefficients, size_t coefficients_len,
                        const double *interactions, size_t interactions_len,
                        const double *fractions, size_t fractions_len,
                        uint64_t choice, double temperature, double pressure, double start,
                        uint8_t *block, size_t block_len);

/*
 * Submits a job to a queue of a board.
 *
 * Returns 0, the job stored as the queue's last and its ticket written: the number of jobs that
 * the queue has accepted before, modulo 2^64. Or the first refusal of
 *     6 PR_REFUSED_BOARD, 1 PR_REFUSED_QUEUE, 2 PR_REFUSED_KIND, 3 PR_REFUSED_COMPONENTS,
 *     8 PR_REFUSED_BLOCK_LENGTH, 4 PR_REFUSED_QUEUE_FULL,
 * board and ticket as they were. What stands in the block is not tested here, since the answer is
 * public: a refusal of the data comes in the record's sealed status.
 */
uint64_t pr_submit(uint8_t *board, size_t board_len, uint64_t queue, uint64_t kind, uint64_t n,
                   const uint8_t *block, size_t block_len, uint64_t *ticket);

/*
 * Takes a turn: serves the queue whose turn it is (0, 1, 2, 3, 0, ..) and steps on to the next, be
 * there a job or not. The served queue's first job makes its next evaluation, or none once its
 * search has ended. The last turn of its span writes its record and frees its place in the queue.
 *
 * Returns 1 if a record was written, into the first PR_RECORD_BYTES bytes of the buffer and no
 * others; 0 if none was, the buffer untouched. Or the first refusal of
 *     6 PR_REFUSED_BOARD, 5 PR_REFUSED_RECORD_LENGTH,
 * board and buffer as they were; neither of the two is 0 or 1. record_len is 64 or more.
 */
uint64_t pr_turn(uint8_t *board, size_t board_len, uint8_t *record, size_t record_len);

/*
 * Looks at the running job of a queue: its first job, once this has had a turn.
 *
 * Returns 0, and writes the evaluations made so far and the density of the latest one, in kinds 8
 * and 9 the sum of the partial densities; +0 before any. Or the first refusal of
 *     6 PR_REFUSED_BOARD, 1 PR_REFUSED_QUEUE, 7 PR_REFUSED_NO_RUNNING_JOB,
 * evaluations and density as they were. The board is only read.
 */
uint64_t pr_look(const uint8_t *board, size_t board_len, uint64_t queue,
                 uint64_t *evaluations, double *density);

/*
 * Quotes when a job would come out: the turns that the board has to accept, whichever queues they
 * serve, until a job of a kind, submitted to a queue now, is handed out, that turn counted.
 *
 * Returns 0, and writes the number of turns, 117 to 198528. pr_submit and then pr_turn show exactly
 * this number if no turn and no other submit to the queue comes between quote and submit. Jobs
 * submitted later stand behind and do not change it. Or the first refusal of
 *     6 PR_REFUSED_BOARD, 1 PR_REFUSED_QUEUE, 2 PR_REFUSED_KIND, 4 PR_REFUSED_QUEUE_FULL,
 * turns as it was. The board is only read, and no evaluation is made. N and the block are not
 * told here, so that the submit may still be refused by 3 or 8.
 */
uint64_t pr_quote(const uint8_t *board, size_t board_len, uint64_t queue, uint64_t kind,
                  uint64_t *turns);

/*
 * Makes a whole job at once, without a board. How long it takes shows the evaluations made: where
 * that must not be seen, use a board.
 *
 * Returns 0, and writes the sealed bytes of the record, 16 to 63, as turns on a board would; bytes
 * 0 to 15 and those from 64 on stay. A refusal of 11 to 17 or 21 to 27 is in the sealed status,
 * and 0 is returned all the same. Or the first refusal of
 *     2 PR_REFUSED_KIND, 3 PR_REFUSED_COMPONENTS, 8 PR_REFUSED_BLOCK_LENGTH,
 *     5 PR_REFUSED_RECORD_LENGTH,
 * the buffer as it was. record_len is 64 or more.
 */
uint64_t pr_answer(uint64_t kind, uint64_t n, const uint8_t *block, size_t block_len,
                   uint8_t *record, size_t record_len);

#ifdef __cplusplus
}
#endif

#endif
