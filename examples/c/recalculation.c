/* Long work in slices. The laboratory's curve has drifted, and its block works
 * out anew, row by row, what the rows add up to. After each slice the program
 * says how many steps of the budget are done. After two slices it stops, and
 * saves a checkpoint to the file that it is given; run again, it takes that up.
 * The file has the pause sheet and then the output, and one that the example in
 * Rust has saved will do as well. */
#include "report.h"

#include <inttypes.h>
#include <stdio.h>
#include <stdlib.h>

/* The laboratory's: by how much each row has drifted, the row that is next, and
 * what the rows add up to. */
enum { DRIFT = 0, ROW = 1, TOTAL = 2, SLOTS = 3 };
enum { ROWS = 100 };
/* The steps of all slices and of one, and how many slices until it stops. */
enum { BUDGET = 400, SLICE = 100, SLICES = 2 };

static const struct slot slots[SLOTS] = {
    [DRIFT] = {LABORATORY, MUNTYZHAP_KIND_INTEGER, -3},
    [ROW] = {LABORATORY, MUNTYZHAP_KIND_INTEGER, 0},
    [TOTAL] = {LABORATORY, MUNTYZHAP_KIND_INTEGER, 5000000},
};

/* What a slice leaves, and the next one is carried on from. */
struct checkpoint {
    uint8_t pause[MUNTYZHAP_PAUSE_BYTES];
    uint8_t out[SLOTS * MUNTYZHAP_SLOT_BYTES];
};

/* while row < rows do (total := total + drift; row := row + 1) */
static struct block adding_block(void)
{
    struct block block = plain_block(LABORATORY);

    put_byte(&block.code, MUNTYZHAP_WHILE);
    put_byte(&block.code, MUNTYZHAP_LESS_THAN);
    put_read(&block.code, ROW);
    put_literal(&block.code, MUNTYZHAP_KIND_INTEGER, ROWS);
    put_byte(&block.code, MUNTYZHAP_SEQUENCE);
    put_byte(&block.code, 2);

    put_assignment(&block.code, TOTAL);
    put_byte(&block.code, MUNTYZHAP_SUM);
    put_read(&block.code, TOTAL);
    put_read(&block.code, DRIFT);

    put_assignment(&block.code, ROW);
    put_byte(&block.code, MUNTYZHAP_SUM);
    put_read(&block.code, ROW);
    put_literal(&block.code, MUNTYZHAP_KIND_INTEGER, 1);
    return block;
}

/* Reads the checkpoint that was saved, if there is one. */
static int load(const char *file, struct checkpoint *checkpoint)
{
    FILE *from = fopen(file, "rb");
    size_t length;

    if (from == NULL)
        return 0;
    length = fread(checkpoint, 1, sizeof *checkpoint, from);
    if (length != sizeof *checkpoint || fgetc(from) != EOF) {
        fprintf(stderr, "%s is not a checkpoint\n", file);
        exit(EXIT_FAILURE);
    }
    fclose(from);
    return 1;
}

static void save(const char *file, const struct checkpoint *checkpoint)
{
    FILE *to = fopen(file, "wb");

    if (to == NULL || fwrite(checkpoint, sizeof *checkpoint, 1, to) != 1 ||
        fclose(to) != 0) {
        perror(file);
        exit(EXIT_FAILURE);
    }
}

/* The steps so far, which a pause sheet starts with. */
static uint32_t steps_so_far(const struct checkpoint *checkpoint)
{
    uint32_t steps = 0;

    for (size_t i = MUNTYZHAP_STEPS_BYTES; i > 0; i--)
        steps = steps << 8 | checkpoint->pause[i - 1];
    return steps;
}

/* A slice, from a checkpoint or, where that is NULL, from the start. */
static struct muntyzhap_answer slice(const struct checkpoint *from,
                                     struct checkpoint *to)
{
    const struct block block = adding_block();
    const struct bytes store = store_sheet(slots, SLOTS);
    const struct bytes programme = programme_sheet(&block, 1);
    const uint32_t done = from == NULL ? 0 : steps_so_far(from);
    const uint32_t budget = done < BUDGET - SLICE ? done + SLICE : BUDGET;

    if (from == NULL)
        return muntyzhap_start(store.at, store.length, programme.at,
                               programme.length, MUNTYZHAP_FULL_PROVENANCE,
                               budget, to->out, sizeof to->out, to->pause,
                               sizeof to->pause);
    return muntyzhap_carry_on(store.at, store.length, programme.at,
                              programme.length, MUNTYZHAP_FULL_PROVENANCE,
                              budget, from->out, sizeof from->out, from->pause,
                              sizeof from->pause, to->out, sizeof to->out,
                              to->pause, sizeof to->pause);
}

/* Says how the work ended, and gives the program's status. */
static int end(struct muntyzhap_answer answer, const struct checkpoint *left,
               const char *file)
{
    if (answer.number != MUNTYZHAP_FINISHED) {
        fprintf(stderr, "refused by %" PRIu32 "\n", answer.number);
        return EXIT_FAILURE;
    }
    printf("finished: %zu blocks, %" PRIu32 " steps\n", answer.block,
           answer.steps);
    print_slots(slots, SLOTS, left->out);
    remove(file);
    return EXIT_SUCCESS;
}

static int work(const char *file)
{
    /* The last one, and the one that is being written. */
    struct checkpoint last, next;
    struct muntyzhap_answer answer = {0};
    int is_begun = load(file, &last);

    if (is_begun)
        printf("taken up after %" PRIu32 " of %d steps\n", steps_so_far(&last),
               BUDGET);
    else
        puts("started");
    for (int done = 0; done < SLICES; done++) {
        answer = slice(is_begun ? &last : NULL, &next);
        if (answer.number != MUNTYZHAP_BUDGET_SPENT)
            return end(answer, &next, file);
        printf("%" PRIu32 " of %d steps\n", answer.steps, BUDGET);
        last = next;
        is_begun = 1;
    }
    save(file, &last);
    printf("stopped in block %zu at offset %zu\n", answer.block, answer.offset);
    print_slots(slots, SLOTS, last.out);
    return EXIT_SUCCESS;
}

int main(int count, char **arguments)
{
    if (count == 2)
        return work(arguments[1]);
    fputs("name a file for the checkpoint\n", stderr);
    return EXIT_FAILURE;
}
