/*
 * The liquid density of a blend of propane and butane, drawn from a fresh board: block, submit, turns, look, record.
 * Then two calls that are refused. Exit status 0 only if every call answered as peng_robinson_board.h says.
 */
#include "peng_robinson_board.h"

#include <inttypes.h>
#include <stdio.h>
#include <string.h>

/* Molecules per cubic angstrom to mol/m^3. */
#define MOL_PER_CUBIC_METRE (1e30 / 6.02214076e23)

#define LOOK_AFTER 13
#define LAST_TURN ((PR_SPAN_DENSITY - 1) * PR_QUEUES + 1)

/* Numbers in records are little-endian on every machine, so they are put together byte by byte. */
static uint64_t u64_at(const uint8_t *bytes)
{
    uint64_t number = 0;
    for (int i = 7; i >= 0; i--)
        number = number << 8 | bytes[i];
    return number;
}

static double float_at(const uint8_t *bytes)
{
    uint64_t bits = u64_at(bytes);
    double number;
    memcpy(&number, &bits, sizeof number);
    return number;
}

static uint64_t bits_of(double number)
{
    uint64_t bits;
    memcpy(&bits, &number, sizeof bits);
    return bits;
}

static int failed(const char *call, uint64_t answer)
{
    fprintf(stderr, "density: %s answered %" PRIu64 "\n", call, answer);
    return 1;
}

static uint8_t board[PR_BOARD_BYTES]; /* zeros: a fresh board */
static uint8_t board_before[PR_BOARD_BYTES];
static uint8_t block[PR_BLOCK_BYTES];
static uint8_t block_before[PR_BLOCK_BYTES];

int main(void)
{
    /* propane, butane: critical temperature / K, critical pressure / Pa, acentric factor */
    const double coefficients[] = {369.83, 4.248e6, 0.1523, 425.12, 3.796e6, 0.2002};
    const double interactions[] = {0.003};
    const double fractions[] = {0.6, 0.4};
    const double percentages[] = {60, 40};
    const double temperature = 300, pressure = 0.05; /* K, K per cubic angstrom (about 6.9 bar) */

    uint64_t answer = pr_write_block(PR_KIND_DENSITY, 2, coefficients, 6, interactions, 1, fractions, 2,
                                     PR_CHOICE_LIQUID, temperature, pressure, 0, block, sizeof block);
    if (answer != 0)
        return failed("pr_write_block", answer);

    uint64_t ticket;
    answer = pr_submit(board, sizeof board, 0, PR_KIND_DENSITY, 2, block, sizeof block, &ticket);
    if (answer != 0)
        return failed("pr_submit", answer);
    printf("submitted to queue 0: ticket %" PRIu64 "\n", ticket);

    uint8_t record[PR_RECORD_BYTES];
    int turns = 0;
    do {
        answer = pr_turn(board, sizeof board, record, sizeof record);
        turns++;
        if (answer > 1 || (answer == 1) != (turns == LAST_TURN))
            return failed("pr_turn", answer);
        if (turns == LOOK_AFTER) {
            uint64_t evaluations;
            double density;
            uint64_t looked = pr_look(board, sizeof board, 0, &evaluations, &density);
            if (looked != 0)
                return failed("pr_look", looked);
            printf("look after %d turns: evaluations %" PRIu64 ", density %.3f mol/m^3, bits %016" PRIX64 "\n",
                   turns, evaluations, density * MOL_PER_CUBIC_METRE, bits_of(density));
        }
    } while (answer == 0);

    double density = float_at(record + PR_RECORD_VALUES);
    printf("record after %d turns:\n", turns);
    printf("  ticket %" PRIu64 "\n", u64_at(record + PR_RECORD_TICKET));
    printf("  kind %u\n", (unsigned)record[PR_RECORD_KIND]);
    printf("  queue %u\n", (unsigned)record[PR_RECORD_QUEUE]);
    printf("  status %" PRIu64 "\n", u64_at(record + PR_RECORD_STATUS));
    printf("  density %.3f mol/m^3, bits %016" PRIX64 "\n", density * MOL_PER_CUBIC_METRE, bits_of(density));
    printf("  evaluations %" PRIu64 "\n", u64_at(record + PR_RECORD_EVALUATIONS));

    /* Refusals by number; a refused call changes nothing. */
    const uint64_t ticket_before = ticket;
    memcpy(board_before, board, sizeof board);
    answer = pr_submit(board, sizeof board, 9, PR_KIND_DENSITY, 2, block, sizeof block, &ticket);
    if (answer != PR_REFUSED_QUEUE || memcmp(board, board_before, sizeof board) != 0 || ticket != ticket_before)
        return failed("pr_submit to queue 9", answer);
    printf("submit to queue 9: refused %" PRIu64 ", board and ticket unchanged\n", answer);

    memcpy(block_before, block, sizeof block);
    answer = pr_write_block(PR_KIND_DENSITY, 2, coefficients, 6, interactions, 1, percentages, 2,
                            PR_CHOICE_LIQUID, temperature, pressure, 0, block, sizeof block);
    if (answer != PR_REFUSED_SUM_OF_FRACTIONS || memcmp(block, block_before, sizeof block) != 0)
        return failed("pr_write_block of percentages", answer);
    printf("fractions 60 and 40: refused %" PRIu64 ", block unchanged\n", answer);

    /* Output that could not be written is a failure too. */
    return fflush(stdout) == 0 && !ferror(stdout) ? 0 : 1;
}
