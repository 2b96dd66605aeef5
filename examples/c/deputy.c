/* A confused deputy. The customer says where its result shall go and names a
 * slot of the laboratory's. The laboratory's block may write there: under
 * access control it does; under full provenance, the default rule, it is
 * refused by 16.
 *
 * Then the laboratory has to take the customer's result into its curve. Full
 * provenance refuses that by 16 as well, unless the block is endorsed down to
 * this customer. Even so it may take nothing from beside or below the
 * customer: the other customer's result is refused, and so is the sum of both,
 * whose label is the bottom. */
#include "play.h"

#include <stdio.h>
#include <stdlib.h>

/* The customer's: where its result shall go, and its result. The
 * laboratory's: a row of its curve, and whether it has delivered. The other
 * customer's: its result. */
enum {
    PLACE = 0,
    RESULT = 1,
    CURVE = 2,
    DELIVERED = 3,
    OTHER_RESULT = 4,
    SLOTS = 5
};

static const struct slot slots[SLOTS] = {
    [PLACE] = {CUSTOMER, MUNTYZHAP_KIND_WRITE_VIEW, RESULT},
    [RESULT] = {CUSTOMER, MUNTYZHAP_KIND_INTEGER, 0},
    [CURVE] = {LABORATORY, MUNTYZHAP_KIND_INTEGER, 50000},
    [DELIVERED] = {LABORATORY, MUNTYZHAP_KIND_TRUTH, 0},
    [OTHER_RESULT] = {OTHER_CUSTOMER, MUNTYZHAP_KIND_INTEGER, 0},
};

/* The customer names the curve's row as the place for its result. */
static struct block naming_block(void)
{
    struct block block = plain_block(CUSTOMER);

    put_assignment(&block.code, PLACE);
    put_literal(&block.code, MUNTYZHAP_KIND_WRITE_VIEW, CURVE);
    return block;
}

/* The laboratory notes the delivery and writes where the customer says. */
static struct block delivering_block(void)
{
    struct block block = plain_block(LABORATORY);

    put_byte(&block.code, MUNTYZHAP_SEQUENCE);
    put_byte(&block.code, 2);

    put_assignment(&block.code, DELIVERED);
    put_literal(&block.code, MUNTYZHAP_KIND_TRUTH, 1);

    put_byte(&block.code, MUNTYZHAP_ASSIGNMENT);
    put_read(&block.code, PLACE);
    put_literal(&block.code, MUNTYZHAP_KIND_INTEGER, 42);
    return block;
}

static void deliver(void)
{
    const struct block blocks[] = {naming_block(), delivering_block()};
    const size_t count = sizeof blocks / sizeof blocks[0];

    puts("the laboratory writes where the customer says");
    play(slots, SLOTS, blocks, count, MUNTYZHAP_ACCESS_CONTROL);
    play(slots, SLOTS, blocks, count, MUNTYZHAP_FULL_PROVENANCE);
    play(slots, SLOTS, blocks, count, MUNTYZHAP_DEFAULT);
}

/* A customer's result, in a slot of its own. */
static struct block measuring_block(uint8_t customer, uint8_t slot,
                                    integer result)
{
    struct block block = plain_block(customer);

    put_assignment(&block.code, slot);
    put_literal(&block.code, MUNTYZHAP_KIND_INTEGER, result);
    return block;
}

/* curve := what the slot holds */
static struct block taking(struct block block, uint8_t slot)
{
    put_assignment(&block.code, CURVE);
    put_read(&block.code, slot);
    return block;
}

/* curve := the sum of both customers' results */
static struct block taking_both(struct block block)
{
    put_assignment(&block.code, CURVE);
    put_byte(&block.code, MUNTYZHAP_SUM);
    put_read(&block.code, RESULT);
    put_read(&block.code, OTHER_RESULT);
    return block;
}

/* Both customers measure; then the laboratory's block runs. */
static void take(const char *said, struct block laboratory)
{
    const struct block blocks[] = {
        measuring_block(CUSTOMER, RESULT, 50120),
        measuring_block(OTHER_CUSTOMER, OTHER_RESULT, 49870),
        laboratory,
    };

    puts(said);
    play(slots, SLOTS, blocks, sizeof blocks / sizeof blocks[0],
         MUNTYZHAP_FULL_PROVENANCE);
}

int main(void)
{
    const struct block plain = plain_block(LABORATORY);
    const struct block endorsed = endorsed_block(LABORATORY, CUSTOMER);

    deliver();
    take("the laboratory takes the customer's result, not endorsed",
         taking(plain, RESULT));
    take("the customer's result, endorsed down to the customer",
         taking(endorsed, RESULT));
    take("the other customer's result, endorsed down to the customer",
         taking(endorsed, OTHER_RESULT));
    take("the sum of both results, endorsed down to the customer",
         taking_both(endorsed));
    return EXIT_SUCCESS;
}
