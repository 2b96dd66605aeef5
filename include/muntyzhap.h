/*
 * The proved runner for C and C++: the library muntyzhap, static or shared. In
 * the repository the static one is target/staticlib/libcapi.a.
 *
 * A sheet or an output is passed as a pointer and its length in bytes, a
 * journal as a pointer and its number of entries. Where the length is 0 the
 * pointer may be NULL: nothing is read or written through it. The pointers to
 * block and offset may never be NULL. Buffers and numbers that a call writes
 * must not overlap each other, a sheet or what is carried on from. The calls
 * keep no pointer, take no memory from the heap and hold no state, so threads
 * may call them at the same time over buffers of their own. A call takes about
 * 106 KiB of stack.
 *
 * A call's time is bounded by the bytes of its sheets and by its budget: the
 * bytes are gone over once, before the first step, and skips and sequences
 * cost nothing afterwards. A run that finishes with a journal is played a
 * second time, up to its last assignment, to fill it; one that is refused is
 * not. The longest refused call that was found, of a million steps with 255
 * operations each, took 0.74 s on an AMD EPYC (Genoa).
 *
 * Every input has an answer: any bytes may be passed as a sheet, an old output
 * or an old pause sheet.
 */
#ifndef MUNTYZHAP_H
#define MUNTYZHAP_H

#include <stddef.h>
#include <stdint.h>

#ifdef __cplusplus
extern "C" {
#endif

/* Version */

/* Of this header. muntyzhap_version tells that of the library that a program
 * runs with. */
#define MUNTYZHAP_VERSION "0.1.0"
#define MUNTYZHAP_VERSION_MAJOR 0
#define MUNTYZHAP_VERSION_MINOR 1
#define MUNTYZHAP_VERSION_PATCH 0
/* The three as one number, so that a later version has a larger one. */
#define MUNTYZHAP_VERSION_NUMBER                                               \
    (MUNTYZHAP_VERSION_MAJOR * 1000000 + MUNTYZHAP_VERSION_MINOR * 1000 +      \
     MUNTYZHAP_VERSION_PATCH)

/* Answers */

#define MUNTYZHAP_FINISHED 0

/* Refused for the store sheet: no place. */

/* Its length isn't what its sizes say, or it can't hold them. */
#define MUNTYZHAP_STORE_LENGTH 1
/* Its number of principals or of slots is outside its limit. */
#define MUNTYZHAP_STORE_LIMITS 2
/* Its order table is not good. */
#define MUNTYZHAP_ORDER_TABLE 3
/* A slot's owner is not one of the principals. */
#define MUNTYZHAP_OWNER 4
/* A slot's value is ill-formed. */
#define MUNTYZHAP_VALUE 5

/* Refused for the programme sheet: 9 and 10 at the block and offset of a byte,
 * the others with no place. */

/* Its length isn't what its sizes say, it can't hold them, or its block
 * lengths don't add up to its code. */
#define MUNTYZHAP_PROGRAMME_LENGTH 6
/* Its number of blocks or of code bytes is outside its limit. */
#define MUNTYZHAP_PROGRAMME_LIMITS 7
/* A block's region, or an endorsed block's floor, is not one of the principals.
 * Which of the two, and in which block, the answer does not tell. */
#define MUNTYZHAP_REGION 8
/* Unknown byte, bad count or literal, code that ends early, bytes left over. */
#define MUNTYZHAP_ILL_FORMED_CODE 9
/* Commands nested too deep, or reads and operations in an expression: at the
 * first byte of the one that is too many. */
#define MUNTYZHAP_NESTED_TOO_DEEP 10

/* Refused for the other arguments: no place. */

/* The rule or the budget is not one that there is. */
#define MUNTYZHAP_ARGUMENTS 11
/* An output, old or new, has not MUNTYZHAP_SLOT_BYTES for each slot, or a pause
 * sheet not MUNTYZHAP_PAUSE_BYTES. */
#define MUNTYZHAP_OUTPUT_LENGTH 12
/* The checkpoint, an old output and its pause sheet, is not good: its path
 * leads to no assignment, if or while of the programme, a label on it does not
 * stand at or below the one outside or is another one in a sequence, an unused
 * byte is not 0, a value is ill-formed, or counts add up to more than the
 * steps. Judged after 12. A good one need not be one that a call wrote: labels,
 * values and counts can be altered so that it stays good. */
#define MUNTYZHAP_CHECKPOINT 19

/* Refused while a block runs, at the block and offset of the first byte of the
 * command whose step is forbidden. */

/* Wrong kind for a guard, a read or a target, or an operand of a sum, a
 * difference or a less-than that is not an integer. Both operands are evaluated
 * before their kinds are judged. */
#define MUNTYZHAP_WRONG_KIND 13
/* The region does not stand at or above the slot's owner. */
#define MUNTYZHAP_NO_AUTHORITY 14
/* A literal or the result of a read, in an operand too, that is a write view
 * whose slot's owner does not stand at or below the region. */
#define MUNTYZHAP_WRITE_VIEW_NOT_ALLOWED 15
/* The meet of the labels of target, value and, under rule 3, branch stands
 * neither at or above the slot's owner nor, in an endorsed block, at or above
 * the block's floor. */
#define MUNTYZHAP_PROVENANCE_TOO_LOW 16
/* The budget is spent. From muntyzhap_start and muntyzhap_carry_on this is no
 * refusal but a pause: output and pause sheet are written. */
#define MUNTYZHAP_BUDGET_SPENT 17
/* An assignment comes, and no entry of the journal is free. Judged after 17 and
 * before anything of the assignment's target is evaluated. By muntyzhap_run
 * alone: the other two take no journal. */
#define MUNTYZHAP_JOURNAL_FULL 18

/* Rules */

#define MUNTYZHAP_ACCESS_CONTROL 0
#define MUNTYZHAP_CAPABILITY 1
/* The rules of provenance judge labels; they alone look at whether a block is
 * endorsed, and down to which floor. */
#define MUNTYZHAP_EXPLICIT_PROVENANCE 2
/* Its isolation from an adversary holds where no endorsed block outside the
 * adversary's reach has a floor at or below the adversary. */
#define MUNTYZHAP_FULL_PROVENANCE 3
/* The default rule, which document 01 calls the house rule: full provenance. */
#define MUNTYZHAP_DEFAULT 255

/* Limits */

#define MUNTYZHAP_MOST_PRINCIPALS 32
#define MUNTYZHAP_MOST_SLOTS 256
#define MUNTYZHAP_MOST_BLOCKS 64
#define MUNTYZHAP_MOST_CODE 16384
/* How deep commands nest, a block's own command being depth 1. */
#define MUNTYZHAP_MOST_DEPTH 32
/* How deep an expression nests, reads and operations together; a literal has
 * depth 0. */
#define MUNTYZHAP_MOST_NESTED 8
#define MUNTYZHAP_MOST_BUDGET 1000000

/* Bytes of the sheets and of the output */

/* A payload: one number, the lowest byte first. */
#define MUNTYZHAP_PAYLOAD_BYTES 8
/* A value, in sheets, code and output: its kind byte and its payload. */
#define MUNTYZHAP_VALUE_BYTES (1 + MUNTYZHAP_PAYLOAD_BYTES)
/* How often a slot was written: one number, the lowest byte first. */
#define MUNTYZHAP_COUNT_BYTES 4
/* A slot in the output: its value, then its count. A store sheet has no
 * counts: there a slot has MUNTYZHAP_VALUE_BYTES besides its owner. */
#define MUNTYZHAP_SLOT_BYTES (MUNTYZHAP_VALUE_BYTES + MUNTYZHAP_COUNT_BYTES)
/* A signed integer, two's complement: an int64_t. */
#define MUNTYZHAP_KIND_INTEGER 0
/* The payload is 0 for false or 1 for true. */
#define MUNTYZHAP_KIND_TRUTH 1
/* The payload of a view is the number of a slot. */
#define MUNTYZHAP_KIND_READ_VIEW 2
#define MUNTYZHAP_KIND_WRITE_VIEW 3

/* A programme sheet starts with its sizes, the number of blocks in one byte and
 * of code bytes in two. Then come three arrays with an entry for each block:
 * its region in one byte, its length in two, its floor in one; then the code.
 * What comes from its floor, a principal, or from above it, an endorsed block
 * may write to any slot that its region may write. The floor byte of a block
 * that is not endorsed may be any, and means nothing. */

/* What a region byte has besides its principal when the block is endorsed. A
 * floor byte is its principal's number and nothing besides. */
#define MUNTYZHAP_ENDORSED 0x80

/* A pause sheet says where a run stands between two stretches. It starts with
 * the steps so far, the length of a path in one byte and the number of a block
 * in one. The path leads from the block's own command to the one whose step is
 * next, and has an entry for each command that is open around that one, 31 at
 * most. Then come two arrays with a byte for each entry, one right after the
 * other: the child taken, from 0 (a then-part is 0, an else-part 1, a body 0),
 * and the label of the branch inside it, a principal. The other bytes are 0. */
#define MUNTYZHAP_PAUSE_BYTES 256
/* The steps so far: one number, the lowest byte first. */
#define MUNTYZHAP_STEPS_BYTES 4

/* First bytes of expressions */

/* A value follows. Its label is the top. */
#define MUNTYZHAP_LITERAL 0x10
/* One expression follows, which must give a read view. The label is the meet of
 * the view's label and the owner of the slot that is read. */
#define MUNTYZHAP_READ 0x11
/* Two expressions follow an operation. The left one is evaluated first, then
 * the right; then kinds are judged. The label is the meet of both labels. */

/* The sum, and the left less the right, of two integers, both wrapping at 64
 * bits. */
#define MUNTYZHAP_SUM 0x12
#define MUNTYZHAP_DIFFERENCE 0x13
/* Of two integers: whether the left one is less, both as signed. */
#define MUNTYZHAP_LESS_THAN 0x14
/* Of values of any kinds: whether kind and payload agree. */
#define MUNTYZHAP_EQUAL 0x15

/* First bytes of commands */

#define MUNTYZHAP_SKIP 0x20
#define MUNTYZHAP_ASSIGNMENT 0x21
#define MUNTYZHAP_SEQUENCE 0x22
#define MUNTYZHAP_IF 0x23
#define MUNTYZHAP_WHILE 0x24

/* What a run answers and writes */

/* What a slot holds, with a MUNTYZHAP_KIND_ for its kind. The payload has all
 * its bits: of an integer it is what (uint64_t) makes of an int64_t. */
struct muntyzhap_value {
    uint8_t kind;
    uint64_t payload;
};

/* An entry of a journal: one assignment that a run made. Compare entries by
 * their fields: what a call leaves between these is any bytes. */
struct muntyzhap_entry {
    /* The block whose command it was, from 0, and the command's first byte in
     * that block's code, from 0. */
    size_t block;
    size_t offset;
    /* The slot that was written, from 0; what it held before, and what it held
     * then. The two may be equal. */
    size_t slot;
    struct muntyzhap_value old_value;
    struct muntyzhap_value new_value;
};

/* How a run ended. */
struct muntyzhap_answer {
    /* MUNTYZHAP_FINISHED, or the refusal, 1 to 19. */
    uint32_t number;
    /* The place of 9, 10 or 13 to 18; else offset 0, and block 0 for a refusal
     * and the number of blocks for a run that finished. */
    size_t block;
    size_t offset;
    /* The steps done, in all stretches; a forbidden step is not counted. */
    uint32_t steps;
};

/* The sizes that the library has them in: where one differs, this doesn't
 * compile. */
typedef char muntyzhap_value_has_16_bytes
    [sizeof(struct muntyzhap_value) == 16 ? 1 : -1];
typedef char muntyzhap_entry_has_56_bytes
    [sizeof(struct muntyzhap_entry) == 56 ? 1 : -1];
typedef char muntyzhap_answer_has_32_bytes
    [sizeof(struct muntyzhap_answer) == 32 ? 1 : -1];

/* Calls */

/*
 * The library's version, numbered as MUNTYZHAP_VERSION_NUMBER is. Where the two
 * differ, the program was compiled with the header of another version.
 */
uint32_t muntyzhap_version(void);

/*
 * Checks a store sheet. Answers 0 if it is good, else its refusal, 1 to 5.
 *
 * sheet, sheet_length: the sheet.
 */
uint32_t muntyzhap_check_store(const uint8_t *sheet, size_t sheet_length);

/*
 * Checks a table sheet, which is a store sheet that ends after its owners.
 * Answers 0 if it is good, else its refusal, 1 to 4.
 *
 * sheet, sheet_length: the sheet.
 */
uint32_t muntyzhap_check_table(const uint8_t *sheet, size_t sheet_length);

/*
 * Checks a programme sheet for a store. Answers 0 if it is good, else its
 * refusal, 6 to 10.
 *
 * sheet, sheet_length: the sheet.
 * n: the number of principals of the store.
 * slots: the number of slots of the store.
 * block, offset: always written: the place of 9 or 10, else 0.
 */
uint32_t muntyzhap_check_programme(const uint8_t *sheet, size_t sheet_length,
                                   size_t n, size_t slots, size_t *block,
                                   size_t *offset);

/*
 * Checks both sheets and the arguments and runs the blocks in order. Answers
 * number 0 if they finish. Then out is the end store, for each slot in order
 * its value and how often it was written; and the journal has an entry for each
 * assignment, in the order in which they were made. So the counts add up to the
 * entries filled, and a slot's count is how many of them name it. Entries past
 * these keep what they held. Else the number is the refusal, 1 to 18, and every
 * byte of out and of the journal stays as it was.
 *
 * store, store_length: the store sheet.
 * programme, programme_length: the programme sheet.
 * rule: the number of a rule. One that is not 0, 1, 2, 3 or 255 is refused by
 *   MUNTYZHAP_ARGUMENTS; no byte of it is cut off.
 * budget: the most steps, 0 to MUNTYZHAP_MOST_BUDGET. A step is one guard
 *   judged or one assignment made.
 * out, out_length: the output, MUNTYZHAP_SLOT_BYTES for each slot.
 * journal, journal_length: the journal, of any length, 0 too. It takes an entry
 *   for each assignment that the run makes; where it is too short the run is
 *   refused by MUNTYZHAP_JOURNAL_FULL. An assignment is a step, so one with as
 *   many entries as the budget has steps, MUNTYZHAP_MOST_BUDGET at most, is
 *   never too short. A longer one changes nothing.
 */
struct muntyzhap_answer
muntyzhap_run(const uint8_t *store, size_t store_length,
              const uint8_t *programme, size_t programme_length, uint32_t rule,
              uint32_t budget, uint8_t *out, size_t out_length,
              struct muntyzhap_entry *journal, size_t journal_length);

/*
 * The first stretch of a run that can be paused. Checks both sheets and the
 * arguments and runs the blocks in order, without a journal, until they finish
 * or the budget is spent.
 *
 * Answers number 0 if they finish. Then out is the end store, and every byte of
 * pause stays as it was. Answers 17 if the budget is spent. Then out holds each
 * slot's value and how often it was written so far, and pause is the pause
 * sheet: the two are the checkpoint that muntyzhap_carry_on takes. Else the
 * number is the refusal, 1 to 16, and every byte of both stays as it was.
 *
 * store, store_length: the store sheet.
 * programme, programme_length: the programme sheet.
 * rule: the number of a rule, as of muntyzhap_run.
 * budget: the most steps of this stretch, 0 to MUNTYZHAP_MOST_BUDGET.
 * out, out_length: the output, MUNTYZHAP_SLOT_BYTES for each slot.
 * pause, pause_length: the pause sheet, MUNTYZHAP_PAUSE_BYTES.
 */
struct muntyzhap_answer
muntyzhap_start(const uint8_t *store, size_t store_length,
                const uint8_t *programme, size_t programme_length,
                uint32_t rule, uint32_t budget, uint8_t *out, size_t out_length,
                uint8_t *pause, size_t pause_length);

/*
 * The next stretch of such a run, from the checkpoint that the stretch before
 * left. It answers and writes as muntyzhap_start does, and answers 19 for a
 * checkpoint that is not good. Under one rule, with a budget not below the
 * steps so far, it answers and writes what muntyzhap_start does with this
 * budget.
 *
 * A checkpoint has to come back as it was written, with the store and the
 * programme that it was written for: not each that doesn't is refused by 19.
 * So keep it where nobody else can write. The isolation of full provenance over
 * several stretches holds where every one ran under it, from a muntyzhap_start
 * on, and each checkpoint came back so.
 *
 * store, store_length: the store sheet. Its values are judged, by 5, and then
 *   not used: what the slots hold is in old.
 * programme, programme_length: the programme sheet.
 * rule: the number of a rule, as of muntyzhap_run. It may be another than
 *   before: the next step is the first that it judges. Labels of branches are
 *   kept under every rule.
 * budget: the most steps of all stretches together, 0 to MUNTYZHAP_MOST_BUDGET.
 *   One at or below the steps so far gives 17 at once, and the checkpoint as it
 *   was.
 * old, old_length: the output of the stretch before. Only read.
 * sheet, sheet_length: its pause sheet. Only read.
 * out, out_length: the output, MUNTYZHAP_SLOT_BYTES for each slot.
 * pause, pause_length: the pause sheet, MUNTYZHAP_PAUSE_BYTES.
 */
struct muntyzhap_answer
muntyzhap_carry_on(const uint8_t *store, size_t store_length,
                   const uint8_t *programme, size_t programme_length,
                   uint32_t rule, uint32_t budget, const uint8_t *old,
                   size_t old_length, const uint8_t *sheet, size_t sheet_length,
                   uint8_t *out, size_t out_length, uint8_t *pause,
                   size_t pause_length);

#ifdef __cplusplus
}
#endif

#endif
