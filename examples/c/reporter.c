/* The laboratory's reporter: runs a customer's block and then the
 * laboratory's, reads the end store, and says from the journal who wrote the
 * oldest row of the laboratory's curve.
 *
 * The customer measures a ratio, and names that row as the place where its
 * report shall go. The laboratory's block copies the ratio to where the customer
 * says. It sends rule 0, access control, and may write there: without the
 * journal the row would only hold another number. Under the default rule, full
 * provenance, it would be refused by 16. */
#include "report.h"

#include <inttypes.h>
#include <stdio.h>
#include <stdlib.h>

/* The customer's: its sample, and where its report shall go. The laboratory's:
 * the report, and the oldest row of its curve. */
enum { SAMPLE = 0, PLACE = 1, REPORT = 2, OLDEST_ROW = 3, SLOTS = 4 };
/* A step of the budget is at most one write: as many entries are enough. */
enum { BLOCKS = 2, BUDGET = 10, ENTRIES = BUDGET };

/* The sample's ratio, 0.815042637915, scaled by 10 to the 12th; and what stands
 * for one that is not measured, the least integer. */
#define RATIO INT64_C(815042637915)
#define NOT_MEASURED INT64_MIN

static const struct slot slots[SLOTS] = {
    [SAMPLE] = {CUSTOMER, MUNTYZHAP_KIND_INTEGER, NOT_MEASURED},
    [PLACE] = {CUSTOMER, MUNTYZHAP_KIND_WRITE_VIEW, REPORT},
    [REPORT] = {LABORATORY, MUNTYZHAP_KIND_INTEGER, NOT_MEASURED},
    [OLDEST_ROW] = {LABORATORY, MUNTYZHAP_KIND_INTEGER, 50000},
};

/* sample := its ratio; place := the curve's oldest row */
static struct block customer_block(void)
{
    struct block block = plain_block(CUSTOMER);

    put_byte(&block.code, MUNTYZHAP_SEQUENCE);
    put_byte(&block.code, 2);

    put_assignment(&block.code, SAMPLE);
    put_literal(&block.code, MUNTYZHAP_KIND_INTEGER, RATIO);

    put_assignment(&block.code, PLACE);
    put_literal(&block.code, MUNTYZHAP_KIND_WRITE_VIEW, OLDEST_ROW);
    return block;
}

/* what place names := what sample holds */
static struct block laboratory_block(void)
{
    struct block block = plain_block(LABORATORY);

    put_byte(&block.code, MUNTYZHAP_ASSIGNMENT);
    put_read(&block.code, PLACE);
    put_read(&block.code, SAMPLE);
    return block;
}

static void print_writers(const struct block *blocks,
                          const struct muntyzhap_entry *journal, size_t count)
{
    for (size_t i = 0; i < count; i++) {
        if (journal[i].slot != OLDEST_ROW)
            continue;
        printf("the curve's oldest row was written by block %zu, region %d: ",
               journal[i].block, blocks[journal[i].block].region);
        print_change(&journal[i]);
        putchar('\n');
    }
}

int main(void)
{
    const struct block blocks[BLOCKS] = {customer_block(), laboratory_block()};
    const struct bytes store = store_sheet(slots, SLOTS);
    const struct bytes programme = programme_sheet(blocks, BLOCKS);
    uint8_t out[SLOTS * MUNTYZHAP_SLOT_BYTES];
    struct muntyzhap_entry journal[ENTRIES];
    const struct muntyzhap_answer answer = muntyzhap_run(
        store.at, store.length, programme.at, programme.length,
        MUNTYZHAP_ACCESS_CONTROL, BUDGET, out, sizeof out, journal, ENTRIES);
    size_t filled;

    if (answer.number != MUNTYZHAP_FINISHED) {
        fprintf(stderr, "refused by %" PRIu32 "\n", answer.number);
        return EXIT_FAILURE;
    }
    printf("finished: %zu blocks, %" PRIu32 " steps\n", answer.block,
           answer.steps);
    print_slots(slots, SLOTS, out);
    filled = entries_filled(out, SLOTS);
    print_writers(blocks, journal, filled);
    print_journal_by_slot(journal, filled, SLOTS);
    return EXIT_SUCCESS;
}
