#include "play.h"
#include "report.h"

#include <inttypes.h>
#include <stdio.h>

/* A step of the budget is at most one write: as many entries are enough. */
enum { BUDGET = 10, ENTRIES = BUDGET };

static const char *rule_name(uint32_t rule)
{
    switch (rule) {
    case MUNTYZHAP_ACCESS_CONTROL:
        return "access control";
    case MUNTYZHAP_CAPABILITY:
        return "capability";
    case MUNTYZHAP_EXPLICIT_PROVENANCE:
        return "explicit provenance";
    case MUNTYZHAP_FULL_PROVENANCE:
        return "full provenance";
    case MUNTYZHAP_DEFAULT:
        return "the default rule";
    default:
        return "no rule";
    }
}

/* What a refusal means; here only the one that the examples meet. */
static const char *meaning(uint32_t answer)
{
    if (answer != MUNTYZHAP_PROVENANCE_TOO_LOW)
        return "see muntyzhap.h";
    return "provenance too low: the meet of the labels of target, value and, "
           "under rule 3, branch stands neither at or above the owner of the "
           "slot to be written nor, if the block is endorsed, at or above its "
           "floor";
}

void play(const struct slot *slots, size_t slot_count,
          const struct block *blocks, size_t block_count, uint32_t rule)
{
    const struct bytes store = store_sheet(slots, slot_count);
    const struct bytes programme = programme_sheet(blocks, block_count);
    /* A slot takes more than half as many bytes of the store sheet, which
     * found room. */
    uint8_t out[2 * ROOM];
    struct muntyzhap_entry journal[ENTRIES];
    const struct muntyzhap_answer answer = muntyzhap_run(
        store.at, store.length, programme.at, programme.length, rule, BUDGET,
        out, slot_count * MUNTYZHAP_SLOT_BYTES, journal, ENTRIES);

    printf("rule %" PRIu32 ", %s\n", rule, rule_name(rule));
    if (answer.number == MUNTYZHAP_FINISHED) {
        printf("finished: %zu blocks, %" PRIu32 " steps\n", answer.block,
               answer.steps);
        print_slots(slots, slot_count, out);
        print_journal(journal, entries_filled(out, slot_count));
        return;
    }
    printf("refused by %" PRIu32 " in block %zu at offset %zu, ",
           answer.number, answer.block, answer.offset);
    printf("steps done %" PRIu32 ": %s\n", answer.steps,
           meaning(answer.number));
    printf("the command there: %s\n",
           command_name(blocks, answer.block, answer.offset));
}
