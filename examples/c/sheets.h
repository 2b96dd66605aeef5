/* Sheets written from named parts. */
#ifndef SHEETS_H
#define SHEETS_H

#include "muntyzhap.h"

/* Room enough for the sheets of the examples. */
enum { ROOM = 256 };

/* Bytes written one after the other. */
struct bytes {
    uint8_t at[ROOM];
    size_t length;
};

/* The integers of a payload, which is as wide as they are. */
typedef int64_t integer;
typedef char integer_is_a_payload
    [sizeof(integer) == MUNTYZHAP_PAYLOAD_BYTES ? 1 : -1];

/* A slot: who owns it, and the kind and payload that it opens with. */
struct slot {
    uint8_t owner;
    uint8_t kind;
    integer payload;
};

/* A block: its region byte, its floor byte and its one command. */
struct block {
    uint8_t region;
    uint8_t floor;
    struct bytes code;
};

enum {
    CUSTOMER = 0,
    LABORATORY = 1,
    OTHER_CUSTOMER = 2,
    BOTTOM = 3,
    PRINCIPALS = 4
};

/* Who stands at or below each: the laboratory is above its customers. These are
 * unrelated, so it takes a principal below both. */
extern const uint32_t ORDER[PRINCIPALS];

/* A block that has no code yet, for a principal: not endorsed, or endorsed down
 * to a floor. */
struct block plain_block(uint8_t region);
struct block endorsed_block(uint8_t region, uint8_t floor);

/* Parts of a command. No room left ends the program. */
void put_byte(struct bytes *to, uint8_t byte);
void put_literal(struct bytes *to, uint8_t kind, integer payload);
void put_read(struct bytes *to, uint8_t slot);
/* The start of an assignment to a slot; a value expression follows. */
void put_assignment(struct bytes *to, uint8_t slot);

/* Whole sheets. */
struct bytes store_sheet(const struct slot *slots, size_t count);
struct bytes programme_sheet(const struct block *blocks, size_t count);

/* The name of the command whose first byte stands at a place, or "none". */
const char *command_name(const struct block *blocks, size_t block,
                         size_t offset);

#endif
