/*
 * Bad input to every function of peng_robinson_board.h: lengths, numbers out of range, NaN and infinities, several
 * faults at once in the order of the tests, and what a refusal has to leave as it was, by documents 01 and 02.
 * Prints the number of checks and `ok`; the first failure is told on standard error, exit status 1.
 */
#include "peng_robinson_board.h"

#include <inttypes.h>
#include <math.h>
#include <stdio.h>
#include <stdlib.h>
#include <string.h>

static unsigned long checks;

static void check(int holds, const char *what, const char *where, int line)
{
    checks++;
    if (!holds) {
        fprintf(stderr, "bad_input: line %d, case `%s`: not so: %s\n", line, where, what);
        exit(1);
    }
}

static void check_number(uint64_t got, uint64_t wanted, const char *what, const char *where, int line)
{
    checks++;
    if (got != wanted) {
        fprintf(stderr, "bad_input: line %d, case `%s`: %s is %" PRIu64 ", not %" PRIu64 "\n",
                line, where, what, got, wanted);
        exit(1);
    }
}

#define HOLDS(condition) check(condition, #condition, where, __LINE__)
#define ANSWERS(call, wanted) check_number(call, wanted, #call, where, __LINE__)
#define LENGTH(list) (sizeof(list) / sizeof *(list))

#define KINDS PR_KIND_CRITICAL_POINT_AT_PRESSURE
#define INTERACTIONS_MAX (PR_COMPONENTS_MAX * (PR_COMPONENTS_MAX - 1) / 2)

/* Buffers are longer than they have to be: lengths that are right when cut to 16 bits, and bytes that must stay. */
#define MORE 65536

/* Wrong numbers, some of which are right when cut to fewer bits. */
#define BEYOND_32_BITS (UINT64_C(1) << 32)
#define BEYOND_63_BITS (UINT64_C(1) << 63)
static const uint64_t bad_queues[] = {
    PR_QUEUES, 9, 255, 256, 65536, BEYOND_32_BITS, BEYOND_63_BITS, UINT64_MAX};
static const uint64_t bad_kinds[] = {
    0, KINDS + 1, 255, 257, 65537, BEYOND_32_BITS + 1, BEYOND_63_BITS + 1, UINT64_MAX};
static const uint64_t bad_counts[] = {
    0, PR_COMPONENTS_MAX + 1, 255, 258, 65538, BEYOND_32_BITS + 2, BEYOND_63_BITS + 2, UINT64_MAX};
/* of the kinds that are for two components, beside these */
static const uint64_t not_two[] = {1, 3, 4, 5, 6, 7, PR_COMPONENTS_MAX};
static const uint64_t kinds_of_two[] = {
    PR_KIND_BLEND_CRITICAL_POINT, PR_KIND_CRITICAL_POINT_AT_TEMPERATURE, PR_KIND_CRITICAL_POINT_AT_PRESSURE};

static int is_of_two(uint64_t kind)
{
    for (size_t i = 0; i < LENGTH(kinds_of_two); i++)
        if (kind == kinds_of_two[i])
            return 1;
    return 0;
}

static const size_t bad_board_lengths[] = {
    0, 1, PR_BOARD_BYTES - 1, PR_BOARD_BYTES + 1, PR_BOARD_BYTES + MORE};
static const size_t bad_block_lengths[] = {
    0, 1, PR_BLOCK_BYTES - 1, PR_BLOCK_BYTES + 1, PR_REQUEST_BYTES, PR_BLOCK_BYTES + MORE};
static const size_t bad_record_lengths[] = {0, 1, PR_RECORD_SEALED, PR_RECORD_BYTES - 1};
static const size_t good_record_lengths[] = {PR_RECORD_BYTES, PR_RECORD_BYTES + 1, PR_RECORD_BYTES + MORE};
static const double not_finite[] = {NAN, -NAN, INFINITY, -INFINITY};
static const double not_positive[] = {NAN, INFINITY, -INFINITY, 0.0, -0.0, -1.0, -5e-324};

static uint64_t bits_of(double number)
{
    uint64_t bits;
    memcpy(&bits, &number, sizeof bits);
    return bits;
}

static uint64_t number_at(const uint8_t *bytes, int length)
{
    uint64_t number = 0;
    for (int i = length - 1; i >= 0; i--)
        number = number << 8 | bytes[i];
    return number;
}

static void put_number(uint8_t *bytes, int length, uint64_t number)
{
    for (int i = 0; i < length; i++)
        bytes[i] = (uint8_t)(number >> 8 * i);
}

static int all_are(const uint8_t *bytes, size_t length, uint8_t byte)
{
    for (size_t i = 0; i < length; i++)
        if (bytes[i] != byte)
            return 0;
    return 1;
}

/* What the writer is given. */
struct filing {
    uint64_t kind, n;
    double coefficients[3 * PR_COMPONENTS_MAX];
    double interactions[INTERACTIONS_MAX];
    double fractions[PR_COMPONENTS_MAX];
    size_t coefficients_length, interactions_length, fractions_length;
    uint64_t choice;
    double temperature, pressure, start;
    size_t block_length;
};

/* Propane and butane at 300 K and about 6.9 bar, with conditions that every kind accepts. */
static struct filing blend(uint64_t kind)
{
    struct filing f = {
        .kind = kind, .n = 2,
        .coefficients = {369.83, 4.248e6, 0.1523, 425.12, 3.796e6, 0.2002}, .coefficients_length = 6,
        .interactions = {0.003}, .interactions_length = 1,
        .fractions = {0.6, 0.4}, .fractions_length = 2,
        .choice = 1, .temperature = 300, .pressure = 0.05, .start = 0.001,
        .block_length = PR_BLOCK_BYTES,
    };
    return f;
}

static struct filing equal_parts_of_propane(uint64_t kind, uint64_t n)
{
    struct filing f = blend(kind);
    f.n = n;
    f.choice = 0;
    f.coefficients_length = 3 * n;
    f.interactions_length = n * (n - 1) / 2;
    f.fractions_length = n;
    for (size_t i = 0; i < n; i++) {
        memcpy(f.coefficients + 3 * i, f.coefficients, 3 * sizeof(double));
        f.fractions[i] = 1.0 / (double)n;
    }
    return f;
}

static int lists_fit(const struct filing *f)
{
    return f->coefficients_length == 3 * f->n && f->interactions_length == f->n * (f->n - 1) / 2
        && f->fractions_length == f->n;
}

/* The block by document 01's layout, made without the library: blocks that the writer refuses are wanted too. */
static size_t pack_floats(uint8_t *block, size_t pair, size_t at, const double *list, size_t length)
{
    put_number(block + pair, 2, at);
    put_number(block + pair + 2, 2, 8 * length);
    for (size_t i = 0; i < length; i++, at += 8)
        put_number(block + at, 8, isnan(list[i]) ? UINT64_C(0x7FF8000000000000) : bits_of(list[i]));
    return at;
}

static void pack(const struct filing *f, uint8_t block[PR_BLOCK_BYTES])
{
    const double conditions[4] = {0, f->temperature, f->pressure, f->start};
    memset(block, 0, PR_BLOCK_BYTES);
    size_t at = PR_BLOCK_PARTS;
    at = pack_floats(block, PR_BLOCK_COEFFICIENTS_PAIR, at, f->coefficients, f->coefficients_length);
    at = pack_floats(block, PR_BLOCK_INTERACTIONS_PAIR, at, f->interactions, f->interactions_length);
    at = pack_floats(block, PR_BLOCK_FRACTIONS_PAIR, at, f->fractions, f->fractions_length);
    pack_floats(block, PR_BLOCK_CONDITIONS_PAIR, at, conditions, 4);
    put_number(block + at, 8, f->choice);
}

/* Calls, each with the checks of what it has to leave as it was. */

static uint8_t block[PR_BLOCK_BYTES + MORE], packed[PR_BLOCK_BYTES], record[PR_RECORD_BYTES + MORE];
static uint8_t board[PR_BOARD_BYTES + MORE], board_before[PR_BOARD_BYTES + MORE];

static uint64_t write_block(const struct filing *f, const char *where)
{
    memset(block, 0xA5, sizeof block);
    uint64_t answer = pr_write_block(f->kind, f->n,
                                     f->coefficients_length ? f->coefficients : NULL, f->coefficients_length,
                                     f->interactions_length ? f->interactions : NULL, f->interactions_length,
                                     f->fractions_length ? f->fractions : NULL, f->fractions_length,
                                     f->choice, f->temperature, f->pressure, f->start, block, f->block_length);
    size_t may_change = answer == 0 ? PR_BLOCK_BYTES : 0;
    HOLDS(all_are(block + may_change, sizeof block - may_change, 0xA5));
    return answer;
}

/* pr_answer for a block of the right length; returns the sealed status. */
static uint64_t status_of(uint64_t kind, uint64_t n, const uint8_t *request, size_t record_length, const char *where)
{
    memset(record, 0x5A, sizeof record);
    ANSWERS(pr_answer(kind, n, request, PR_BLOCK_BYTES, record, record_length), 0);
    HOLDS(all_are(record, PR_RECORD_SEALED, 0x5A));
    HOLDS(all_are(record + PR_RECORD_BYTES, sizeof record - PR_RECORD_BYTES, 0x5A));
    HOLDS(all_are(record + PR_RECORD_EVALUATIONS + 8, PR_RECORD_BYTES - PR_RECORD_EVALUATIONS - 8, 0));
    uint64_t status = number_at(record + PR_RECORD_STATUS, 8);
    if (status != 0)
        HOLDS(all_are(record + PR_RECORD_VALUES, 24, 0));
    if (11 <= status && status <= 17)
        HOLDS(number_at(record + PR_RECORD_EVALUATIONS, 8) == 0);
    return status;
}

/* Refused by the writer, and by the reader where the lists can stand in a block. */
static void refused(const struct filing *f, uint64_t wanted, const char *where)
{
    ANSWERS(write_block(f, where), wanted);
    if (wanted > PR_REFUSED_PAIRS) {
        pack(f, packed);
        ANSWERS(status_of(f->kind, f->n, packed, PR_RECORD_BYTES, where), wanted);
    }
}

static void accepted(const struct filing *f, const char *where)
{
    HOLDS(lists_fit(f));
    ANSWERS(write_block(f, where), 0);
    pack(f, packed);
    HOLDS(memcmp(block, packed, PR_BLOCK_BYTES) == 0);
    uint64_t status = status_of(f->kind, f->n, block, PR_RECORD_BYTES, where);
    HOLDS(status == 0 || status > 20);
}

static void answer_refused(uint64_t kind, uint64_t n, size_t block_length, size_t record_length, uint64_t wanted,
                           const char *where)
{
    memset(record, 0x5A, sizeof record);
    ANSWERS(pr_answer(kind, n, block, block_length, record, record_length), wanted);
    HOLDS(all_are(record, sizeof record, 0x5A));
}

static int board_stays(void)
{
    return memcmp(board, board_before, sizeof board) == 0;
}

static void submit_refused(size_t board_length, uint64_t queue, uint64_t kind, uint64_t n, size_t block_length,
                           uint64_t wanted, const char *where)
{
    uint64_t ticket = UINT64_C(0x0123456789ABCDEF);
    memcpy(board_before, board, sizeof board);
    ANSWERS(pr_submit(board, board_length, queue, kind, n, block, block_length, &ticket), wanted);
    HOLDS(board_stays());
    HOLDS(ticket == UINT64_C(0x0123456789ABCDEF));
}

static void turn_refused(size_t board_length, size_t record_length, uint64_t wanted, const char *where)
{
    memcpy(board_before, board, sizeof board);
    memset(record, 0x5A, sizeof record);
    ANSWERS(pr_turn(board, board_length, record, record_length), wanted);
    HOLDS(board_stays());
    HOLDS(all_are(record, sizeof record, 0x5A));
}

static void look_refused(size_t board_length, uint64_t queue, uint64_t wanted, const char *where)
{
    uint64_t evaluations = 77;
    double density = -7.5;
    memcpy(board_before, board, sizeof board);
    ANSWERS(pr_look(board, board_length, queue, &evaluations, &density), wanted);
    HOLDS(board_stays());
    HOLDS(evaluations == 77 && density == -7.5);
}

static void quote_refused(size_t board_length, uint64_t queue, uint64_t kind, uint64_t wanted, const char *where)
{
    uint64_t turns = UINT64_C(0x0123456789ABCDEF);
    memcpy(board_before, board, sizeof board);
    ANSWERS(pr_quote(board, board_length, queue, kind, &turns), wanted);
    HOLDS(board_stays());
    HOLDS(turns == UINT64_C(0x0123456789ABCDEF));
}

static uint64_t quoted(uint64_t queue, uint64_t kind, const char *where)
{
    uint64_t turns = UINT64_MAX;
    memcpy(board_before, board, sizeof board);
    ANSWERS(pr_quote(board, PR_BOARD_BYTES, queue, kind, &turns), 0);
    HOLDS(board_stays());
    return turns;
}

static void submit(uint64_t queue, uint64_t kind, uint64_t n, uint64_t ticket_wanted, const char *where)
{
    uint64_t ticket = UINT64_MAX;
    memcpy(board_before, board, sizeof board);
    ANSWERS(pr_submit(board, PR_BOARD_BYTES, queue, kind, n, block, PR_BLOCK_BYTES, &ticket), 0);
    ANSWERS(ticket, ticket_wanted);
    /* only the queue's quarter changes */
    const size_t begin = 6144 * (size_t)queue, end = begin + 6144;
    HOLDS(memcmp(board, board_before, begin) == 0);
    HOLDS(memcmp(board + end, board_before + end, sizeof board - end) == 0);
}

static uint64_t turn(size_t record_length, const char *where)
{
    memset(record, 0x5A, sizeof record);
    memcpy(board_before, board, sizeof board);
    uint64_t answer = pr_turn(board, PR_BOARD_BYTES, record, record_length);
    HOLDS(answer <= 1);
    HOLDS(memcmp(board + PR_BOARD_BYTES, board_before + PR_BOARD_BYTES, MORE) == 0);
    size_t may_change = answer == 1 ? PR_RECORD_BYTES : 0;
    HOLDS(all_are(record + may_change, sizeof record - may_change, 0x5A));
    return answer;
}

static void fresh_board(void)
{
    memset(board, 0, PR_BOARD_BYTES);
    memset(board + PR_BOARD_BYTES, 0xC3, MORE);
}

/* The writer. */

static void writer_lengths_and_counts(void)
{
    const char *where = "writer: kind, N, lengths";
    for (size_t i = 0; i < LENGTH(bad_kinds); i++) {
        struct filing f = blend(bad_kinds[i]);
        refused(&f, PR_REFUSED_KIND, where);
    }
    for (size_t i = 0; i < LENGTH(bad_counts); i++) {
        struct filing f = blend(PR_KIND_DENSITY);
        f.n = bad_counts[i];
        refused(&f, PR_REFUSED_COMPONENTS, where);
        for (size_t k = 0; k < LENGTH(kinds_of_two); k++) {
            f.kind = kinds_of_two[k];
            refused(&f, PR_REFUSED_COMPONENTS, where);
        }
    }
    for (size_t i = 0; i < LENGTH(not_two); i++) {
        struct filing f = equal_parts_of_propane(PR_KIND_CRITICAL_POINT, not_two[i]);
        accepted(&f, where);
        for (size_t k = 0; k < LENGTH(kinds_of_two); k++) {
            f.kind = kinds_of_two[k];
            refused(&f, PR_REFUSED_COMPONENTS, where);
        }
    }
    for (size_t i = 0; i < LENGTH(bad_block_lengths); i++) {
        struct filing f = blend(PR_KIND_DENSITY);
        f.block_length = bad_block_lengths[i];
        refused(&f, PR_REFUSED_BLOCK_LENGTH, where);
    }
    /* every kind asks for lists that fit N, also those that it does not read */
    for (uint64_t kind = 1; kind <= KINDS; kind++) {
        static const size_t coefficients[] = {0, 1, 3, 5, 7, 12};
        static const size_t interactions[] = {0, 2, 4};
        static const size_t fractions[] = {0, 1, 3};
        for (size_t i = 0; i < LENGTH(coefficients); i++) {
            struct filing f = blend(kind);
            f.coefficients_length = coefficients[i];
            refused(&f, PR_REFUSED_PAIRS, where);
        }
        for (size_t i = 0; i < LENGTH(interactions); i++) {
            struct filing f = blend(kind);
            f.interactions_length = interactions[i];
            refused(&f, PR_REFUSED_PAIRS, where);
        }
        for (size_t i = 0; i < LENGTH(fractions); i++) {
            struct filing f = blend(kind);
            f.fractions_length = fractions[i];
            refused(&f, PR_REFUSED_PAIRS, where);
        }
        if (is_of_two(kind))
            continue;
        /* one component: an empty list of interactions, which write_block passes as NULL */
        struct filing one = equal_parts_of_propane(kind, 1);
        one.choice = 1;
        if (kind < PR_KIND_CRITICAL_POINT)
            accepted(&one, where);
        one.choice = 0;
        accepted(&one, where);
        one.interactions_length = 1;
        refused(&one, PR_REFUSED_PAIRS, where);
        struct filing eight = equal_parts_of_propane(kind, PR_COMPONENTS_MAX);
        accepted(&eight, where);
        eight.interactions_length--;
        refused(&eight, PR_REFUSED_PAIRS, where);
    }
}

static void data_numbers(void)
{
    const char *where = "data: coefficients, interactions, fractions";
    for (uint64_t kind = 1; kind <= KINDS; kind++) {
        struct filing good = blend(kind), f;
        accepted(&good, where);
        /* any component, used or not */
        for (size_t c = 0; c < 2; c++) {
            for (size_t i = 0; i < LENGTH(not_positive); i++) {
                f = good;
                f.coefficients[3 * c] = not_positive[i];
                refused(&f, PR_REFUSED_COEFFICIENTS, where);
                f = good;
                f.coefficients[3 * c + 1] = not_positive[i];
                refused(&f, PR_REFUSED_COEFFICIENTS, where);
            }
            for (size_t i = 0; i < LENGTH(not_finite); i++) {
                f = good;
                f.coefficients[3 * c + 2] = not_finite[i];
                refused(&f, PR_REFUSED_COEFFICIENTS, where);
            }
            f = good;
            f.coefficients[3 * c + 2] = 1e200; /* kappa overflows */
            refused(&f, PR_REFUSED_COEFFICIENTS, where);
            f = good;
            f.coefficients[3 * c] = 1e200; /* a overflows */
            refused(&f, PR_REFUSED_COEFFICIENTS, where);
            f = good;
            f.coefficients[3 * c] = 1e-300; /* a is 0 */
            refused(&f, PR_REFUSED_COEFFICIENTS, where);
        }
        for (size_t i = 0; i < LENGTH(not_finite); i++) {
            f = good;
            f.interactions[0] = not_finite[i];
            refused(&f, PR_REFUSED_INTERACTIONS, where);
        }
        /* kinds 5 and 6 read no fractions */
        const int reads_fractions = kind != PR_KIND_CRITICAL_POINT && kind != PR_KIND_STABILITY_SPINODALS;
        static const double bad_fractions[] = {NAN, INFINITY, -INFINITY, -0.0, -0.4};
        for (size_t i = 0; i < 2 * LENGTH(bad_fractions); i++) {
            f = good;
            f.fractions[i % 2] = bad_fractions[i / 2];
            if (reads_fractions)
                refused(&f, PR_REFUSED_FRACTIONS, where);
            else
                accepted(&f, where);
        }
        static const double bad_sums[][2] = {
            {60, 40}, {0, 0}, {0.6, 0.400000002}, {0.6, 0.399999998}, {1.7e308, 1.7e308}};
        for (size_t i = 0; i < LENGTH(bad_sums); i++) {
            f = good;
            memcpy(f.fractions, bad_sums[i], sizeof bad_sums[i]);
            if (reads_fractions)
                refused(&f, PR_REFUSED_SUM_OF_FRACTIONS, where);
            else
                accepted(&f, where);
        }
    }
}

static void data_conditions(void)
{
    const char *where = "data: conditions";
    for (uint64_t kind = 1; kind <= KINDS; kind++) {
        struct filing good = blend(kind), f;
        /* kind 8's temperature is where the point is, and no start */
        const int may_lack_temperature = kind == PR_KIND_CRITICAL_POINT || kind == PR_KIND_BLEND_CRITICAL_POINT
            || kind == PR_KIND_CRITICAL_POINT_AT_PRESSURE;
        const int reads_pressure = kind == PR_KIND_DENSITY || kind == PR_KIND_STABLE_DENSITY
            || kind == PR_KIND_CRITICAL_POINT_AT_PRESSURE;
        const int reads_start = kind == PR_KIND_PRESSURE_SPINODAL || kind == PR_KIND_CRITICAL_POINT || is_of_two(kind);
        for (size_t i = 0; i < LENGTH(not_positive); i++) {
            f = good;
            f.temperature = not_positive[i];
            if (may_lack_temperature && bits_of(not_positive[i]) == 0)
                accepted(&f, where); /* +0: none given */
            else
                refused(&f, PR_REFUSED_CONDITIONS, where);
        }
        for (size_t i = 0; i < LENGTH(not_finite); i++) {
            f = good;
            f.pressure = not_finite[i];
            if (reads_pressure)
                refused(&f, PR_REFUSED_CONDITIONS, where);
            else
                accepted(&f, where);
            f = good;
            f.start = not_finite[i];
            if (reads_start)
                refused(&f, PR_REFUSED_CONDITIONS, where);
            else
                accepted(&f, where);
            if (kind == PR_KIND_DENSITY) {
                f.choice = PR_CHOICE_START;
                refused(&f, PR_REFUSED_CONDITIONS, where);
            }
        }
        /* the first choice out of range; kinds 2, 3 and 7 to 9 read none */
        uint64_t choices = kind == PR_KIND_DENSITY ? PR_CHOICE_START + 1 : 2;
        const uint64_t bad_choices[] = {choices, 255, 256, 65536, BEYOND_32_BITS, BEYOND_63_BITS, UINT64_MAX};
        for (size_t i = 0; i < LENGTH(bad_choices); i++) {
            f = good;
            f.choice = bad_choices[i];
            if (kind == PR_KIND_STABLE_DENSITY || kind == PR_KIND_PRESSURE_SPINODAL || is_of_two(kind))
                accepted(&f, where);
            else
                refused(&f, PR_REFUSED_CHOICE, where);
        }
        for (uint64_t choice = 0; choice < choices; choice++) {
            f = good;
            f.choice = choice;
            accepted(&f, where);
        }
        /* co-volumes so small that the maximum density overflows */
        f = equal_parts_of_propane(kind, 2);
        for (size_t c = 0; c < 2; c++) {
            f.coefficients[3 * c] = 1e-8;
            f.coefficients[3 * c + 1] = 1e307;
        }
        refused(&f, PR_REFUSED_CHOICE, where);
    }
    struct filing start_of_zero = blend(PR_KIND_PRESSURE_SPINODAL);
    start_of_zero.start = 0;
    pack(&start_of_zero, packed);
    ANSWERS(status_of(PR_KIND_PRESSURE_SPINODAL, 2, packed, PR_RECORD_BYTES, where), PR_REFUSED_STARTING_DENSITY);
}

/* Every fault at once, mended in the order of the tests. */
static void writer_order(void)
{
    const char *where = "writer: order of refusals";
    const struct filing good = blend(PR_KIND_DENSITY);
    struct filing f = good;
    f.kind = 0;
    f.n = 0;
    f.block_length = PR_BLOCK_BYTES - 1;
    f.coefficients_length = 5;
    f.interactions_length = 0;
    f.fractions_length = 3;
    f.coefficients[0] = NAN;
    f.interactions[0] = INFINITY;
    f.fractions[1] = NAN;
    f.temperature = -300;
    f.pressure = NAN;
    f.choice = 9;
    refused(&f, PR_REFUSED_KIND, where);
    f.kind = PR_KIND_DENSITY;
    refused(&f, PR_REFUSED_COMPONENTS, where);
    f.n = 2;
    refused(&f, PR_REFUSED_BLOCK_LENGTH, where);
    f.block_length = PR_BLOCK_BYTES;
    refused(&f, PR_REFUSED_PAIRS, where);
    f.coefficients_length = 6;
    refused(&f, PR_REFUSED_PAIRS, where);
    f.interactions_length = 1;
    refused(&f, PR_REFUSED_PAIRS, where);
    f.fractions_length = 2;
    pack(&f, packed);
    packed[PR_BLOCK_COEFFICIENTS_PAIR] = PR_BLOCK_PARTS - 1;
    ANSWERS(status_of(f.kind, f.n, packed, PR_RECORD_BYTES, where), PR_REFUSED_PAIRS);
    refused(&f, PR_REFUSED_COEFFICIENTS, where);
    f.coefficients[0] = good.coefficients[0];
    refused(&f, PR_REFUSED_INTERACTIONS, where);
    f.interactions[0] = good.interactions[0];
    refused(&f, PR_REFUSED_FRACTIONS, where);
    f.fractions[1] = 40;
    refused(&f, PR_REFUSED_SUM_OF_FRACTIONS, where);
    f.fractions[1] = good.fractions[1];
    refused(&f, PR_REFUSED_CONDITIONS, where);
    f.temperature = good.temperature;
    refused(&f, PR_REFUSED_CONDITIONS, where);
    f.pressure = good.pressure;
    refused(&f, PR_REFUSED_CHOICE, where);
    f.choice = good.choice;
    accepted(&f, where);
}

/* Pairs of a block made by hand. */
static void block_pairs(void)
{
    const char *where = "block: pairs";
    for (uint64_t kind = 1; kind <= KINDS; kind++) {
        const struct filing f = blend(kind);
        uint8_t good[PR_BLOCK_BYTES];
        pack(&f, good);
        for (int pair = PR_BLOCK_COEFFICIENTS_PAIR; pair <= PR_BLOCK_CONDITIONS_PAIR; pair += 4) {
            const uint64_t offset = number_at(good + pair, 2), length = number_at(good + pair + 2, 2);
            /* into the pairs or the part before; beyond the block */
            const uint64_t bad_offsets[] = {0, offset - 1, PR_BLOCK_BYTES - length + 1, PR_BLOCK_BYTES, 65535};
            const uint64_t bad_lengths[] = {0, length - 1, length + 1, 65535};
            for (size_t i = 0; i < LENGTH(bad_offsets); i++) {
                memcpy(packed, good, sizeof good);
                put_number(packed + pair, 2, bad_offsets[i]);
                ANSWERS(status_of(kind, f.n, packed, PR_RECORD_BYTES, where), PR_REFUSED_PAIRS);
            }
            for (size_t i = 0; i < LENGTH(bad_lengths); i++) {
                memcpy(packed, good, sizeof good);
                put_number(packed + pair + 2, 2, bad_lengths[i]);
                ANSWERS(status_of(kind, f.n, packed, PR_RECORD_BYTES, where), PR_REFUSED_PAIRS);
            }
        }
        /* a block of zeros; the right block for another N, which kinds of two components have not */
        memset(packed, 0, sizeof packed);
        ANSWERS(status_of(kind, f.n, packed, PR_RECORD_BYTES, where), PR_REFUSED_PAIRS);
        if (is_of_two(kind))
            continue;
        ANSWERS(status_of(kind, 1, good, PR_RECORD_BYTES, where), PR_REFUSED_PAIRS);
        ANSWERS(status_of(kind, 3, good, PR_RECORD_BYTES, where), PR_REFUSED_PAIRS);
        for (uint64_t n = 1; n <= PR_COMPONENTS_MAX; n++)
            ANSWERS(status_of(kind, n, packed, PR_RECORD_BYTES, where), PR_REFUSED_PAIRS);
    }
}

static void answer_calls(void)
{
    const char *where = "answer: kind, N, lengths";
    const struct filing f = blend(PR_KIND_DENSITY);
    ANSWERS(write_block(&f, where), 0);
    for (size_t i = 0; i < LENGTH(bad_kinds); i++)
        answer_refused(bad_kinds[i], 2, PR_BLOCK_BYTES, PR_RECORD_BYTES, PR_REFUSED_KIND, where);
    for (size_t i = 0; i < LENGTH(bad_counts); i++)
        answer_refused(PR_KIND_DENSITY, bad_counts[i], PR_BLOCK_BYTES, PR_RECORD_BYTES, PR_REFUSED_COMPONENTS, where);
    for (size_t i = 0; i < LENGTH(not_two); i++)
        for (size_t k = 0; k < LENGTH(kinds_of_two); k++)
            answer_refused(kinds_of_two[k], not_two[i], PR_BLOCK_BYTES, PR_RECORD_BYTES, PR_REFUSED_COMPONENTS, where);
    for (size_t i = 0; i < LENGTH(bad_block_lengths); i++)
        answer_refused(PR_KIND_DENSITY, 2, bad_block_lengths[i], PR_RECORD_BYTES, PR_REFUSED_BLOCK_LENGTH, where);
    for (size_t i = 0; i < LENGTH(bad_record_lengths); i++)
        answer_refused(PR_KIND_DENSITY, 2, PR_BLOCK_BYTES, bad_record_lengths[i], PR_REFUSED_RECORD_LENGTH, where);
    for (size_t i = 0; i < LENGTH(good_record_lengths); i++)
        ANSWERS(status_of(PR_KIND_DENSITY, 2, block, good_record_lengths[i], where), 0);

    where = "answer: order of refusals";
    answer_refused(0, 0, 0, 0, PR_REFUSED_KIND, where);
    answer_refused(PR_KIND_DENSITY, 0, 0, 0, PR_REFUSED_COMPONENTS, where);
    answer_refused(PR_KIND_DENSITY, 2, 0, 0, PR_REFUSED_BLOCK_LENGTH, where);
    answer_refused(PR_KIND_DENSITY, 2, PR_BLOCK_BYTES, 0, PR_REFUSED_RECORD_LENGTH, where);
}

/* The board. */

static void board_refuses_all(size_t length, const char *where)
{
    submit_refused(length, 0, PR_KIND_DENSITY, 2, PR_BLOCK_BYTES, PR_REFUSED_BOARD, where);
    turn_refused(length, PR_RECORD_BYTES, PR_REFUSED_BOARD, where);
    look_refused(length, 0, PR_REFUSED_BOARD, where);
    quote_refused(length, 0, PR_KIND_DENSITY, PR_REFUSED_BOARD, where);
    /* 6 comes before the others */
    submit_refused(length, PR_QUEUES, 0, 0, 0, PR_REFUSED_BOARD, where);
    turn_refused(length, 0, PR_REFUSED_BOARD, where);
    look_refused(length, PR_QUEUES, PR_REFUSED_BOARD, where);
    quote_refused(length, PR_QUEUES, 0, PR_REFUSED_BOARD, where);
}

static void board_lengths_and_damage(void)
{
    const char *where = "board: lengths";
    fresh_board();
    for (size_t i = 0; i < LENGTH(bad_board_lengths); i++)
        board_refuses_all(bad_board_lengths[i], where);

    where = "board: damaged";
    const size_t turn_at = PR_BOARD_BYTES - 8; /* the turn, u64, 0 to 3 */
    static const uint64_t bad_turns[] = {4, 256, BEYOND_32_BITS, BEYOND_63_BITS, UINT64_MAX};
    for (size_t i = 0; i < LENGTH(bad_turns); i++) {
        fresh_board();
        put_number(board + turn_at, 8, bad_turns[i]);
        board_refuses_all(PR_BOARD_BYTES, where);
    }
    memset(board, 0xFF, sizeof board);
    board_refuses_all(PR_BOARD_BYTES, where);
}

static void submit_calls(void)
{
    const char *where = "submit: queue, kind, N, lengths";
    const size_t all = PR_BOARD_BYTES;
    fresh_board();
    for (size_t i = 0; i < LENGTH(bad_queues); i++)
        submit_refused(all, bad_queues[i], PR_KIND_DENSITY, 2, PR_BLOCK_BYTES, PR_REFUSED_QUEUE, where);
    for (size_t i = 0; i < LENGTH(bad_kinds); i++)
        submit_refused(all, 0, bad_kinds[i], 2, PR_BLOCK_BYTES, PR_REFUSED_KIND, where);
    for (size_t i = 0; i < LENGTH(bad_counts); i++)
        submit_refused(all, 0, PR_KIND_DENSITY, bad_counts[i], PR_BLOCK_BYTES, PR_REFUSED_COMPONENTS, where);
    for (size_t i = 0; i < LENGTH(not_two); i++)
        for (size_t k = 0; k < LENGTH(kinds_of_two); k++)
            submit_refused(all, 0, kinds_of_two[k], not_two[i], PR_BLOCK_BYTES, PR_REFUSED_COMPONENTS, where);
    for (size_t i = 0; i < LENGTH(bad_block_lengths); i++)
        submit_refused(all, 0, PR_KIND_DENSITY, 2, bad_block_lengths[i], PR_REFUSED_BLOCK_LENGTH, where);

    /* Any bytes are accepted as a block; eight jobs to a queue, then 4, in every queue of its own. */
    where = "submit: a full queue";
    for (uint64_t queue = 0; queue < PR_QUEUES; queue++) {
        for (uint64_t job = 0; job < PR_QUEUE_JOBS; job++) {
            const uint64_t kind = (job + queue) % KINDS + 1;
            memset(block, (int)(0x11 * job), PR_BLOCK_BYTES);
            submit(queue, kind, is_of_two(kind) ? 2 : job + 1, job, where);
        }
        submit_refused(all, queue, PR_KIND_DENSITY, 2, PR_BLOCK_BYTES, PR_REFUSED_QUEUE_FULL, where);
    }

    where = "submit: order of refusals";
    submit_refused(all - 1, PR_QUEUES, 0, 0, 0, PR_REFUSED_BOARD, where);
    submit_refused(all, PR_QUEUES, 0, 0, 0, PR_REFUSED_QUEUE, where);
    submit_refused(all, 0, 0, 0, 0, PR_REFUSED_KIND, where);
    submit_refused(all, 0, PR_KIND_DENSITY, 0, 0, PR_REFUSED_COMPONENTS, where);
    submit_refused(all, 0, PR_KIND_DENSITY, 2, 0, PR_REFUSED_BLOCK_LENGTH, where);
    submit_refused(all, 0, PR_KIND_DENSITY, 2, PR_BLOCK_BYTES, PR_REFUSED_QUEUE_FULL, where);
}

/* Refusals; numbers by the spans; and while a queue fills up, turns go on and its oldest job leaves, a record comes with
   the turn that was quoted. */
static void quotes(void)
{
    const char *where = "quote: queue, kind, a full queue";
    const size_t all = PR_BOARD_BYTES;
    static const uint64_t spans[KINDS + 1] = {
        0, PR_SPAN_DENSITY, PR_SPAN_STABLE_DENSITY, PR_SPAN_PRESSURE_SPINODAL, PR_SPAN_SPINODAL_BRANCH,
        PR_SPAN_CRITICAL_POINT, PR_SPAN_STABILITY_SPINODALS, PR_SPAN_BLEND_CRITICAL_POINT,
        PR_SPAN_CRITICAL_POINT_AT_TEMPERATURE, PR_SPAN_CRITICAL_POINT_AT_PRESSURE};
    fresh_board();
    memset(block, 0, PR_BLOCK_BYTES);
    for (size_t i = 0; i < LENGTH(bad_queues); i++)
        quote_refused(all, bad_queues[i], PR_KIND_DENSITY, PR_REFUSED_QUEUE, where);
    for (size_t i = 0; i < LENGTH(bad_kinds); i++)
        quote_refused(all, 0, bad_kinds[i], PR_REFUSED_KIND, where);
    for (uint64_t queue = 0; queue < PR_QUEUES; queue++)
        for (uint64_t kind = 1; kind <= KINDS; kind++)
            ANSWERS(quoted(queue, kind, where), (spans[kind] - 1) * PR_QUEUES + queue + 1);
    for (uint64_t job = 0; job < PR_QUEUE_JOBS; job++) {
        ANSWERS(quoted(1, PR_KIND_CRITICAL_POINT, where),
                (job * PR_SPAN_SPINODAL_BRANCH + PR_SPAN_CRITICAL_POINT - 1) * PR_QUEUES + 1 + 1);
        submit(1, PR_KIND_SPINODAL_BRANCH, 1, job, where);
    }
    for (uint64_t kind = 1; kind <= KINDS; kind++)
        quote_refused(all, 1, kind, PR_REFUSED_QUEUE_FULL, where);

    where = "quote: order of refusals";
    quote_refused(all - 1, PR_QUEUES, 0, PR_REFUSED_BOARD, where);
    quote_refused(all, PR_QUEUES, 0, PR_REFUSED_QUEUE, where);
    quote_refused(all, 1, 0, PR_REFUSED_KIND, where);
    quote_refused(all, 1, PR_KIND_DENSITY, PR_REFUSED_QUEUE_FULL, where);

    where = "quote: as submit and turns show";
    static uint8_t kept[sizeof board];
    fresh_board();
    for (uint64_t job = 0; job < PR_QUEUE_JOBS - 1; job++) {
        submit(2, PR_KIND_PRESSURE_SPINODAL + job, 2, job, where);
        for (uint64_t turns = 0; turns < 9 * job; turns++)
            (void)turn(PR_RECORD_BYTES, where);
        memcpy(kept, board, sizeof board);
        for (uint64_t queue = 0; queue < PR_QUEUES; queue++) {
            const uint64_t last_turn = quoted(queue, PR_KIND_SPINODAL_BRANCH, where);
            submit(queue, PR_KIND_SPINODAL_BRANCH, 2, queue == 2 ? job + 1 : 0, where);
            for (uint64_t turns = 1; turns <= last_turn; turns++) {
                const int out = turn(PR_RECORD_BYTES, where) == 1 && record[PR_RECORD_QUEUE] == queue
                    && number_at(record + PR_RECORD_TICKET, 8) == (queue == 2 ? job + 1 : 0);
                HOLDS(out == (turns == last_turn));
            }
            memcpy(board, kept, sizeof board);
        }
    }
}

/* A job of zeros in each queue, refused calls before every turn: records come by the schedule all the same. */
static void turns_and_looks(void)
{
    const char *where = "turns and looks";
    const size_t all = PR_BOARD_BYTES;
    fresh_board();
    for (uint64_t queue = 0; queue < PR_QUEUES; queue++)
        look_refused(all, queue, PR_REFUSED_NO_RUNNING_JOB, where);
    memset(block, 0, PR_BLOCK_BYTES);
    for (uint64_t queue = 0; queue < PR_QUEUES; queue++) {
        submit(queue, PR_KIND_PRESSURE_SPINODAL, 1, 0, where);
        look_refused(all, queue, PR_REFUSED_NO_RUNNING_JOB, where); /* no turn yet */
    }
    for (uint64_t turns = 1; turns <= PR_SPAN_PRESSURE_SPINODAL * PR_QUEUES; turns++) {
        turn_refused(all, bad_record_lengths[turns % LENGTH(bad_record_lengths)], PR_REFUSED_RECORD_LENGTH, where);
        turn_refused(all - 1, PR_RECORD_BYTES, PR_REFUSED_BOARD, where);
        look_refused(all, bad_queues[turns % LENGTH(bad_queues)], PR_REFUSED_QUEUE, where);
        submit_refused(all, turns % PR_QUEUES, 0, 1, PR_BLOCK_BYTES, PR_REFUSED_KIND, where);
        const uint64_t queue = (turns - 1) % PR_QUEUES;
        const int last = turns > (PR_SPAN_PRESSURE_SPINODAL - 1) * PR_QUEUES;
        ANSWERS(turn(good_record_lengths[turns % LENGTH(good_record_lengths)], where), (uint64_t)last);
        if (last) {
            uint8_t wanted[PR_RECORD_BYTES] = {0};
            wanted[PR_RECORD_KIND] = PR_KIND_PRESSURE_SPINODAL;
            wanted[PR_RECORD_QUEUE] = (uint8_t)queue;
            wanted[PR_RECORD_STATUS] = PR_REFUSED_PAIRS;
            HOLDS(memcmp(record, wanted, sizeof wanted) == 0);
            look_refused(all, queue, PR_REFUSED_NO_RUNNING_JOB, where);
        } else {
            uint64_t evaluations = 77;
            double density = -7.5;
            memcpy(board_before, board, sizeof board);
            ANSWERS(pr_look(board, all, queue, &evaluations, &density), 0);
            HOLDS(board_stays());
            HOLDS(evaluations == 0 && bits_of(density) == 0); /* refused data: no evaluation */
        }
    }
    /* an empty board's turns answer 0 and step on: the next job of queue 0 waits for its turn */
    ANSWERS(turn(PR_RECORD_BYTES, where), 0);
    submit(0, PR_KIND_PRESSURE_SPINODAL, 1, 1, where);
    for (int i = 0; i < PR_QUEUES - 1; i++) {
        ANSWERS(turn(PR_RECORD_BYTES, where), 0);
        look_refused(all, 0, PR_REFUSED_NO_RUNNING_JOB, where);
    }
    ANSWERS(turn(PR_RECORD_BYTES, where), 0);
    uint64_t evaluations;
    double density;
    ANSWERS(pr_look(board, all, 0, &evaluations, &density), 0);

    where = "look: order of refusals";
    look_refused(all - 1, PR_QUEUES, PR_REFUSED_BOARD, where);
    look_refused(all, PR_QUEUES, PR_REFUSED_QUEUE, where);
    look_refused(all, 1, PR_REFUSED_NO_RUNNING_JOB, where);
}

/* Bad data are accepted by submit, as good ones, take the whole span, and are refused in the sealed status. */
static void data_refused_in_the_record(void)
{
    const char *where = "data refused in the record";
    struct filing faults[7];
    static const uint64_t statuses[] = {
        0, PR_REFUSED_COEFFICIENTS, PR_REFUSED_INTERACTIONS, PR_REFUSED_FRACTIONS, PR_REFUSED_SUM_OF_FRACTIONS,
        PR_REFUSED_CONDITIONS, PR_REFUSED_CHOICE};
    for (size_t i = 0; i < LENGTH(faults); i++)
        faults[i] = blend(PR_KIND_SPINODAL_BRANCH);
    faults[1].coefficients[5] = NAN;
    faults[2].interactions[0] = -INFINITY;
    faults[3].fractions[0] = -0.6;
    faults[4].fractions[0] = 60;
    faults[5].temperature = 0;
    faults[6].choice = PR_CHOICE_START;
    for (uint64_t queue = 0; queue < PR_QUEUES; queue++) {
        for (size_t i = 0; i < LENGTH(faults); i++) {
            uint8_t sealed[PR_RECORD_BYTES];
            pack(&faults[i], block);
            ANSWERS(status_of(PR_KIND_SPINODAL_BRANCH, 2, block, PR_RECORD_BYTES, where), statuses[i]);
            memcpy(sealed, record, sizeof sealed);
            fresh_board();
            submit(queue, PR_KIND_SPINODAL_BRANCH, 2, 0, where);
            const uint64_t last_turn = (PR_SPAN_SPINODAL_BRANCH - 1) * PR_QUEUES + queue + 1;
            for (uint64_t turns = 1; turns <= last_turn; turns++)
                ANSWERS(turn(PR_RECORD_BYTES, where), turns == last_turn);
            for (size_t at = PR_RECORD_SEALED; at < PR_RECORD_BYTES; at++)
                HOLDS(record[at] == sealed[at]);
        }
    }
}

/* The place of a job is free after its record, and only then. */
static void place_freed(void)
{
    const char *where = "a freed place";
    fresh_board();
    memset(block, 0, PR_BLOCK_BYTES);
    for (uint64_t job = 0; job < PR_QUEUE_JOBS; job++)
        submit(2, PR_KIND_SPINODAL_BRANCH, 1, job, where);
    const int last_turn = (PR_SPAN_SPINODAL_BRANCH - 1) * PR_QUEUES + 2 + 1;
    for (int turns = 1; turns <= last_turn; turns++) {
        submit_refused(PR_BOARD_BYTES, 2, PR_KIND_DENSITY, 1, PR_BLOCK_BYTES, PR_REFUSED_QUEUE_FULL, where);
        ANSWERS(turn(PR_RECORD_BYTES, where), turns == last_turn);
    }
    submit(2, PR_KIND_DENSITY, 1, PR_QUEUE_JOBS, where);
    submit_refused(PR_BOARD_BYTES, 2, PR_KIND_DENSITY, 1, PR_BLOCK_BYTES, PR_REFUSED_QUEUE_FULL, where);
}

int main(void)
{
    writer_lengths_and_counts();
    data_numbers();
    data_conditions();
    writer_order();
    block_pairs();
    answer_calls();
    board_lengths_and_damage();
    submit_calls();
    quotes();
    turns_and_looks();
    data_refused_in_the_record();
    place_freed();
    printf("%lu checks\nok\n", checks);
    return fflush(stdout) == 0 && !ferror(stdout) ? 0 : 1;
}
