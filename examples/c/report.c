#include "report.h"

#include <inttypes.h>
#include <stdio.h>

/* A number of so many bytes, the lowest first. */
static uint64_t number_at(const uint8_t *at, size_t count)
{
    uint64_t number = 0;

    while (count > 0)
        number = number << 8 | at[--count];
    return number;
}

/* What the output says of a slot: its value, then its count of writes. */
static struct muntyzhap_value value_of(const uint8_t *slot)
{
    const struct muntyzhap_value value = {
        slot[0], number_at(slot + 1, MUNTYZHAP_PAYLOAD_BYTES)};

    return value;
}

static uint64_t count_of(const uint8_t *slot)
{
    return number_at(slot + MUNTYZHAP_VALUE_BYTES, MUNTYZHAP_COUNT_BYTES);
}

/* The integer whose two's complement these bits are. */
static integer signed_number(uint64_t bits)
{
    return bits > INT64_MAX ? -(integer)~bits - 1 : (integer)bits;
}

static void print_value(struct muntyzhap_value value)
{
    switch (value.kind) {
    case MUNTYZHAP_KIND_INTEGER:
        printf("integer %" PRId64, signed_number(value.payload));
        break;
    case MUNTYZHAP_KIND_TRUTH:
        printf("truth value %s", value.payload == 1 ? "true" : "false");
        break;
    case MUNTYZHAP_KIND_READ_VIEW:
        printf("read view of slot %" PRIu64, value.payload);
        break;
    case MUNTYZHAP_KIND_WRITE_VIEW:
        printf("write view of slot %" PRIu64, value.payload);
        break;
    default:
        printf("unknown kind %d", value.kind);
    }
}

void print_slots(const struct slot *slots, size_t count, const uint8_t *out)
{
    for (size_t i = 0; i < count; i++, out += MUNTYZHAP_SLOT_BYTES) {
        printf("slot %zu, owner %d: ", i, slots[i].owner);
        print_value(value_of(out));
        printf(", writes %" PRIu64 "\n", count_of(out));
    }
}

size_t entries_filled(const uint8_t *out, size_t slot_count)
{
    size_t filled = 0;

    for (; slot_count > 0; slot_count--, out += MUNTYZHAP_SLOT_BYTES)
        filled += (size_t)count_of(out);
    return filled;
}

void print_change(const struct muntyzhap_entry *entry)
{
    print_value(entry->new_value);
    printf(" over ");
    print_value(entry->old_value);
}

void print_journal(const struct muntyzhap_entry *journal, size_t count)
{
    for (size_t i = 0; i < count; i++) {
        printf("entry %zu: block %zu at offset %zu wrote ", i,
               journal[i].block, journal[i].offset);
        print_value(journal[i].new_value);
        printf(" to slot %zu over ", journal[i].slot);
        print_value(journal[i].old_value);
        putchar('\n');
    }
}

/* How many entries name a slot. */
static size_t naming(const struct muntyzhap_entry *journal, size_t count,
                     size_t slot)
{
    size_t found = 0;

    for (size_t i = 0; i < count; i++)
        if (journal[i].slot == slot)
            found++;
    return found;
}

void print_journal_by_slot(const struct muntyzhap_entry *journal, size_t count,
                           size_t slot_count)
{
    for (size_t slot = 0; slot < slot_count; slot++) {
        const size_t found = naming(journal, count, slot);

        if (found > 0)
            printf("slot %zu, %zu %s\n", slot, found,
                   found == 1 ? "write" : "writes");
        for (size_t i = 0; i < count; i++) {
            if (journal[i].slot != slot)
                continue;
            printf("  entry %zu: block %zu at offset %zu wrote ", i,
                   journal[i].block, journal[i].offset);
            print_change(&journal[i]);
            putchar('\n');
        }
    }
}
