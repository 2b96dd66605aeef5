/* Calls at their edges. A rule is passed as an int, as a C program or a script
 * may have it: no byte of it is cut off. What has no bytes may be NULL. A
 * journal may have any length; a refusal leaves every byte of output and
 * journal as it was, and a run that finishes every byte past its entries. A run
 * that is paused writes output and pause sheet, and one that finishes leaves
 * every byte of the pause sheet as it was. */
#include "sheets.h"

#include <inttypes.h>
#include <stdio.h>
#include <stdlib.h>
#include <string.h>

enum { SLOTS = 1, OUT_BYTES = SLOTS * MUNTYZHAP_SLOT_BYTES };

static const struct slot slots[SLOTS] = {{CUSTOMER, MUNTYZHAP_KIND_INTEGER, 7}};

static void say(const char *name, uint32_t answer)
{
    if (answer == MUNTYZHAP_FINISHED)
        printf("%s: finished or good\n", name);
    else
        printf("%s: refused by %" PRIu32 "\n", name, answer);
}

/* A run of the first so many slots and these bytes, with no steps. */
static uint32_t run(size_t count, const uint8_t *programme, size_t length,
                    int rule, uint8_t *out, size_t out_length)
{
    const struct bytes store = store_sheet(slots, count);

    return muntyzhap_run(store.at, store.length, programme, length, rule, 0,
                         out, out_length, NULL, 0)
        .number;
}

static void try_rules(const struct bytes *programme)
{
    static const int rules[] = {0, 3, 255, 256, 257, 258, 259, 511, 65536, -1};
    uint8_t out[OUT_BYTES];
    char name[32];

    for (size_t i = 0; i < sizeof rules / sizeof rules[0]; i++) {
        snprintf(name, sizeof name, "rule %d", rules[i]);
        say(name, run(SLOTS, programme->at, programme->length, rules[i], out,
                      sizeof out));
    }
}

static void try_null(const struct bytes *programme)
{
    const int rule = MUNTYZHAP_DEFAULT;
    uint8_t out[OUT_BYTES];
    size_t block, offset;

    say("check of store NULL", muntyzhap_check_store(NULL, 0));
    say("check of table NULL", muntyzhap_check_table(NULL, 0));
    say("check of programme NULL",
        muntyzhap_check_programme(NULL, 0, PRINCIPALS, SLOTS, &block, &offset));
    say("store NULL", muntyzhap_run(NULL, 0, programme->at, programme->length,
                                    rule, 0, out, sizeof out, NULL, 0)
                          .number);
    say("programme NULL", run(SLOTS, NULL, 0, rule, out, sizeof out));
    say("output NULL for one slot",
        run(SLOTS, programme->at, programme->length, rule, NULL, 0));
    say("output NULL for no slots",
        run(0, programme->at, programme->length, rule, NULL, 0));
    say("all NULL",
        muntyzhap_run(NULL, 0, NULL, 0, rule, 0, NULL, 0, NULL, 0).number);
}

/* Two writes: slot 0 := 8, then slot 0 := 9. */
static struct bytes writing(void)
{
    struct block block = plain_block(CUSTOMER);

    put_byte(&block.code, MUNTYZHAP_SEQUENCE);
    put_byte(&block.code, 2);
    for (integer written = 8; written <= 9; written++) {
        put_assignment(&block.code, 0);
        put_literal(&block.code, MUNTYZHAP_KIND_INTEGER, written);
    }
    return programme_sheet(&block, 1);
}

/* What a run was lent, with a mark in every byte. */
enum { WRITES = 2, MOST_ENTRIES = WRITES + 2, MARK = 0xA5 };

struct lent {
    uint8_t out[OUT_BYTES];
    struct muntyzhap_entry journal[MOST_ENTRIES];
};

/* Whether so many bytes are as they were. */
static int untouched(const void *from, size_t length)
{
    const uint8_t *at = from;

    while (length > 0)
        if (at[--length] != MARK)
            return 0;
    return 1;
}

/* Says whether the output was written, how many entries from the first on were,
 * and whether the rest is as it was. */
static void say_untouched(const struct lent *lent)
{
    size_t first = 0;

    while (first < MOST_ENTRIES &&
           !untouched(&lent->journal[first], sizeof lent->journal[first]))
        first++;
    printf("  output %s, entries filled %zu, %s\n",
           untouched(lent->out, sizeof lent->out) ? "untouched" : "written",
           first,
           untouched(&lent->journal[first],
                     (MOST_ENTRIES - first) * sizeof lent->journal[first])
               ? "the rest untouched"
               : "the rest touched");
}

static void try_journals(void)
{
    const struct bytes store = store_sheet(slots, SLOTS);
    const struct bytes programme = writing();
    struct lent lent;
    char name[32];

    for (size_t length = 0; length <= MOST_ENTRIES; length++) {
        memset(&lent, MARK, sizeof lent);
        snprintf(name, sizeof name, "journal of length %zu", length);
        say(name, muntyzhap_run(store.at, store.length, programme.at,
                                programme.length, MUNTYZHAP_DEFAULT, WRITES,
                                lent.out, sizeof lent.out,
                                length > 0 ? lent.journal : NULL, length)
                      .number);
        say_untouched(&lent);
    }
}

/* What a stretch was lent, with a mark in every byte, and a byte too many. */
struct stretch {
    uint8_t out[OUT_BYTES];
    uint8_t pause[MUNTYZHAP_PAUSE_BYTES + 1];
};

static void say_written(const struct stretch *lent)
{
    printf("  output %s, pause sheet %s\n",
           untouched(lent->out, sizeof lent->out) ? "untouched" : "written",
           untouched(lent->pause, sizeof lent->pause) ? "untouched"
                                                      : "written");
}

/* A first stretch of the two writes, with a pause sheet of this length. */
static struct stretch start(const char *name, uint32_t budget, size_t length)
{
    const struct bytes store = store_sheet(slots, SLOTS);
    const struct bytes programme = writing();
    struct stretch lent;

    memset(&lent, MARK, sizeof lent);
    say(name,
        muntyzhap_start(store.at, store.length, programme.at, programme.length,
                        MUNTYZHAP_DEFAULT, budget, lent.out, sizeof lent.out,
                        length > 0 ? lent.pause : NULL, length)
            .number);
    say_written(&lent);
    return lent;
}

/* The next stretch from this output and pause sheet, which may be NULL. */
static void carry_on(const char *name, uint32_t budget, const uint8_t *out,
                     const uint8_t *pause)
{
    const struct bytes store = store_sheet(slots, SLOTS);
    const struct bytes programme = writing();
    struct stretch lent;

    memset(&lent, MARK, sizeof lent);
    say(name, muntyzhap_carry_on(
                  store.at, store.length, programme.at, programme.length,
                  MUNTYZHAP_DEFAULT, budget, out, out == NULL ? 0 : OUT_BYTES,
                  pause, pause == NULL ? 0 : MUNTYZHAP_PAUSE_BYTES, lent.out,
                  sizeof lent.out, lent.pause, MUNTYZHAP_PAUSE_BYTES)
                  .number);
    say_written(&lent);
}

static void try_pauses(void)
{
    struct stretch paused;

    start("pause sheet NULL", 1, 0);
    start("pause sheet of 255 bytes", 1, MUNTYZHAP_PAUSE_BYTES - 1);
    start("pause sheet of 257 bytes", 1, MUNTYZHAP_PAUSE_BYTES + 1);
    start("budget for all", WRITES, MUNTYZHAP_PAUSE_BYTES);
    paused = start("budget for one write", 1, MUNTYZHAP_PAUSE_BYTES);
    carry_on("carried on with budget 0", 0, paused.out, paused.pause);
    carry_on("carried on to the end", WRITES, paused.out, paused.pause);
    carry_on("old output NULL", WRITES, NULL, paused.pause);
    carry_on("old pause sheet NULL", WRITES, paused.out, NULL);
    paused.pause[MUNTYZHAP_PAUSE_BYTES - 1] = 1;
    carry_on("an unused byte altered", WRITES, paused.out, paused.pause);
}

/* Says whether the program was compiled with the header of the library that it
 * runs with. */
static void try_version(void)
{
    if (muntyzhap_version() == MUNTYZHAP_VERSION_NUMBER)
        puts("version: the library's is the header's");
    else
        printf("version: the library's number is %" PRIu32
               ", the header is of " MUNTYZHAP_VERSION "\n",
               muntyzhap_version());
}

int main(void)
{
    const struct bytes none = programme_sheet(NULL, 0);

    try_version();
    try_rules(&none);
    try_null(&none);
    try_journals();
    try_pauses();
    return EXIT_SUCCESS;
}
