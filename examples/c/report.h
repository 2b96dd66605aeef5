/* What a run leaves, in words. */
#ifndef REPORT_H
#define REPORT_H

#include "sheets.h"

/* Prints a line for each slot of the end store that a finished run left. */
void print_slots(const struct slot *slots, size_t count, const uint8_t *out);

/* How many entries of its journal a finished run filled: as many as its slots'
 * counts of writes add up to. */
size_t entries_filled(const uint8_t *out, size_t slot_count);

/* Prints what was written and what had been there, without a line feed. */
void print_change(const struct muntyzhap_entry *entry);

/* Prints a line for each of so many entries, in their order. */
void print_journal(const struct muntyzhap_entry *journal, size_t count);

/* The same by slot, under a heading for each that was written. */
void print_journal_by_slot(const struct muntyzhap_entry *journal, size_t count,
                           size_t slot_count);

#endif
