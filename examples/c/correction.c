/* Corrections computed in blocks. The laboratory's block takes its offset from
 * the age that the customer's block measured, and writes the corrected age to a
 * slot of the customer's: full provenance lets it.
 *
 * A second programme is a confused deputy: the laboratory's block moves its own
 * offset by what the customer measured. A sum's label is the meet of both its
 * operands', so it is the customer's, though one operand is the laboratory's:
 * under access control the customer moves the offset; full provenance refuses
 * it by 16. */
#include "play.h"

#include <stdio.h>
#include <stdlib.h>

/* The customer's: an age in years, as measured and corrected. The
 * laboratory's: by how much its ages are too high. */
enum { MEASURED = 0, CORRECTED = 1, OFFSET = 2, SLOTS = 3 };
enum { BLOCKS = 2 };

/* What the customer measures, and what its sample should have measured. */
enum { AGE = 4372, EXPECTED = 4300 };

static const struct slot slots[SLOTS] = {
    [MEASURED] = {CUSTOMER, MUNTYZHAP_KIND_INTEGER, 0},
    [CORRECTED] = {CUSTOMER, MUNTYZHAP_KIND_INTEGER, 0},
    [OFFSET] = {LABORATORY, MUNTYZHAP_KIND_INTEGER, 405},
};

/* measured := its age */
static struct block customer_block(void)
{
    struct block block = plain_block(CUSTOMER);

    put_assignment(&block.code, MEASURED);
    put_literal(&block.code, MUNTYZHAP_KIND_INTEGER, AGE);
    return block;
}

/* if measured < offset then corrected := 0
 * else corrected := measured - offset */
static struct block correcting_block(void)
{
    struct block block = plain_block(LABORATORY);

    put_byte(&block.code, MUNTYZHAP_IF);
    put_byte(&block.code, MUNTYZHAP_LESS_THAN);
    put_read(&block.code, MEASURED);
    put_read(&block.code, OFFSET);

    put_assignment(&block.code, CORRECTED);
    put_literal(&block.code, MUNTYZHAP_KIND_INTEGER, 0);

    put_assignment(&block.code, CORRECTED);
    put_byte(&block.code, MUNTYZHAP_DIFFERENCE);
    put_read(&block.code, MEASURED);
    put_read(&block.code, OFFSET);
    return block;
}

/* offset := offset + (measured - expected) */
static struct block moving_block(void)
{
    struct block block = plain_block(LABORATORY);

    put_assignment(&block.code, OFFSET);
    put_byte(&block.code, MUNTYZHAP_SUM);
    put_read(&block.code, OFFSET);
    put_byte(&block.code, MUNTYZHAP_DIFFERENCE);
    put_read(&block.code, MEASURED);
    put_literal(&block.code, MUNTYZHAP_KIND_INTEGER, EXPECTED);
    return block;
}

int main(void)
{
    const struct block corrects[BLOCKS] = {customer_block(),
                                           correcting_block()};
    const struct block moves[BLOCKS] = {customer_block(), moving_block()};

    puts("the customer's age is corrected");
    play(slots, SLOTS, corrects, BLOCKS, MUNTYZHAP_FULL_PROVENANCE);
    puts("the laboratory's offset is moved by the customer's age");
    play(slots, SLOTS, moves, BLOCKS, MUNTYZHAP_ACCESS_CONTROL);
    play(slots, SLOTS, moves, BLOCKS, MUNTYZHAP_FULL_PROVENANCE);
    return EXIT_SUCCESS;
}
