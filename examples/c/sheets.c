#include "sheets.h"

#include <stdio.h>
#include <stdlib.h>

const uint32_t ORDER[PRINCIPALS] = {
    [CUSTOMER] = 1u << CUSTOMER | 1u << BOTTOM,
    [LABORATORY] = 1u << CUSTOMER | 1u << LABORATORY | 1u << OTHER_CUSTOMER |
                   1u << BOTTOM,
    [OTHER_CUSTOMER] = 1u << OTHER_CUSTOMER | 1u << BOTTOM,
    [BOTTOM] = 1u << BOTTOM,
};

/* What the floor byte of a block is that is not endorsed. It means nothing. */
enum { NO_FLOOR = 0 };

struct block plain_block(uint8_t region)
{
    const struct block block = {region, NO_FLOOR, {{0}, 0}};

    return block;
}

struct block endorsed_block(uint8_t region, uint8_t floor)
{
    const struct block block = {region | MUNTYZHAP_ENDORSED, floor, {{0}, 0}};

    return block;
}

void put_byte(struct bytes *to, uint8_t byte)
{
    if (to->length == ROOM) {
        fputs("no room for the sheet\n", stderr);
        exit(EXIT_FAILURE);
    }
    to->at[to->length++] = byte;
}

/* A number of so many bytes, the lowest first. */
static void put_number(struct bytes *to, uint64_t number, size_t count)
{
    for (; count > 0; count--) {
        put_byte(to, (uint8_t)(number & 0xFF));
        number >>= 8;
    }
}

static void put_bytes(struct bytes *to, const struct bytes *from)
{
    for (size_t i = 0; i < from->length; i++)
        put_byte(to, from->at[i]);
}

/* A negative payload becomes two's complement. */
static void put_value(struct bytes *to, uint8_t kind, integer payload)
{
    put_byte(to, kind);
    put_number(to, (uint64_t)payload, MUNTYZHAP_PAYLOAD_BYTES);
}

void put_literal(struct bytes *to, uint8_t kind, integer payload)
{
    put_byte(to, MUNTYZHAP_LITERAL);
    put_value(to, kind, payload);
}

void put_read(struct bytes *to, uint8_t slot)
{
    put_byte(to, MUNTYZHAP_READ);
    put_literal(to, MUNTYZHAP_KIND_READ_VIEW, slot);
}

void put_assignment(struct bytes *to, uint8_t slot)
{
    put_byte(to, MUNTYZHAP_ASSIGNMENT);
    put_literal(to, MUNTYZHAP_KIND_WRITE_VIEW, slot);
}

struct bytes store_sheet(const struct slot *slots, size_t count)
{
    struct bytes sheet = {{0}, 0};

    put_number(&sheet, PRINCIPALS, 1);
    put_number(&sheet, count, 2);
    for (size_t i = 0; i < PRINCIPALS; i++)
        put_number(&sheet, ORDER[i], 4);
    for (size_t i = 0; i < count; i++)
        put_byte(&sheet, slots[i].owner);
    for (size_t i = 0; i < count; i++)
        put_value(&sheet, slots[i].kind, slots[i].payload);
    return sheet;
}

struct bytes programme_sheet(const struct block *blocks, size_t count)
{
    struct bytes sheet = {{0}, 0};
    size_t code = 0;

    for (size_t i = 0; i < count; i++)
        code += blocks[i].code.length;
    put_number(&sheet, count, 1);
    put_number(&sheet, code, 2);
    for (size_t i = 0; i < count; i++)
        put_byte(&sheet, blocks[i].region);
    for (size_t i = 0; i < count; i++)
        put_number(&sheet, blocks[i].code.length, 2);
    for (size_t i = 0; i < count; i++)
        put_byte(&sheet, blocks[i].floor);
    for (size_t i = 0; i < count; i++)
        put_bytes(&sheet, &blocks[i].code);
    return sheet;
}

const char *command_name(const struct block *blocks, size_t block,
                         size_t offset)
{
    if (offset >= blocks[block].code.length)
        return "none";
    switch (blocks[block].code.at[offset]) {
    case MUNTYZHAP_SKIP:
        return "skip";
    case MUNTYZHAP_ASSIGNMENT:
        return "assignment";
    case MUNTYZHAP_SEQUENCE:
        return "sequence";
    case MUNTYZHAP_IF:
        return "if";
    case MUNTYZHAP_WHILE:
        return "while";
    default:
        return "none";
    }
}
