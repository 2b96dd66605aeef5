/* One run under a rule, and how it ended, in words. */
#ifndef PLAY_H
#define PLAY_H

#include "sheets.h"

/* Runs the blocks over the slots, and prints the rule, and then the end store
 * and what was written, or the refusal. */
void play(const struct slot *slots, size_t slot_count,
          const struct block *blocks, size_t block_count, uint32_t rule);

#endif
