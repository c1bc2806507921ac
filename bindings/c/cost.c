/*
 * Carries out each call of a side with this many names, all of which clash, so that cost.py can compare how many
 * instructions it takes with more names: cost COUNT
 */
#include "heal.h"

#include <stdio.h>
#include <stdlib.h>

#define REQUIRE(condition)                                               \
    do {                                                                 \
        if (!(condition)) {                                              \
            fprintf(stderr, "line %d: %s\n", __LINE__, #condition);      \
            abort();                                                     \
        }                                                                \
    } while (0)

static uint32_t names;

static size_t name_of(uint32_t i, uint8_t name[16])
{
    return (size_t)snprintf((char *)name, 16, "name%u", i);
}

/* Registers every name that isn't registered. */
static void register_all(heal_side *half, uint32_t node)
{
    heal_registration owned = {.owner = {node, 1}, .resolver = HEAL_NOTIFY}, found;
    uint8_t name[16];

    for (uint32_t i = 0; i < names; i++) {
        size_t len = name_of(i, name);
        if (heal_side_whereis(half, name, len, &found) != 0)
            REQUIRE(heal_side_register(half, name, len, &owned) == 0);
    }
}

static void unregister_all(heal_side *half)
{
    uint8_t name[16];

    for (uint32_t i = 0; i < names; i++)
        REQUIRE(heal_side_unregister(half, name, name_of(i, name)) == 0);
}

/* Walks over the rows. */
static void list_all(heal_side *half)
{
    heal_row row;
    uint32_t number = heal_side_row(half, 0, &row), count = 0;

    for (; number == 0; count++)
        number = heal_side_row_after(half, row.name.bytes, row.name.len, &row);
    REQUIRE(number == HEAL_NO_ROW && count == names);
}

/* Lets a half hear the message, and frees it. */
static void deliver(heal_bytes *message, heal_side *half, uint32_t (*hear)(heal_side *, const uint8_t *, size_t))
{
    static uint8_t bytes[1 << 20];
    size_t len = 0;

    REQUIRE(heal_bytes_len(message, &len) == 0 && len <= sizeof bytes);
    REQUIRE(heal_bytes_copy(message, bytes, len) == 0);
    REQUIRE(hear(half, bytes, len) == 0);
    heal_bytes_free(message);
}

/* Opens an exchange on both halves, and withdraws a name. */
static void open(heal_side half[2], heal_bytes message[2], uint64_t number)
{
    for (int i = 0; i < 2; i++)
        REQUIRE(heal_side_begin(&half[i], number, 7, 0, &message[i]) == 0);
    for (int i = 0; i < 2; i++)
        deliver(&message[1 - i], &half[i], heal_side_hear);
    for (int i = 0; i < 2; i++)
        REQUIRE(heal_side_withdraw(&half[i], (const uint8_t *)"name7", 5) == 0);
}

static void finish(heal_side half[2], heal_bytes message[2], heal_outcome *outcome)
{
    for (int i = 0; i < 2; i++) {
        REQUIRE(heal_side_settle(&half[i]) == 0);
        REQUIRE(heal_side_close_list(&half[i], &message[i]) == 0);
    }
    for (int i = 0; i < 2; i++)
        deliver(&message[1 - i], &half[i], heal_side_hear_list);
    for (int i = 0; i < 2; i++)
        REQUIRE(heal_side_finish(&half[i], outcome) == 0);
}

int main(int argc, char **argv)
{
    heal_side half[2] = {{0}, {0}};
    heal_bytes message[2] = {{0}, {0}};
    heal_outcome outcome = {0};
    heal_clash clash;

    REQUIRE(argc == 2);
    names = (uint32_t)strtoul(argv[1], NULL, 10);
    for (int i = 0; i < 2; i++) {
        REQUIRE(heal_side_new(i == 1, &half[i]) == 0);
        register_all(&half[i], 1 + (uint32_t)i);
    }
    open(half, message, 1);
    REQUIRE(heal_side_abandon(&half[0]) == 0 && heal_side_give_up(&half[1]) == 0);
    for (int i = 0; i < 2; i++)
        register_all(&half[i], 1 + (uint32_t)i);
    open(half, message, 2);
    finish(half, message, &outcome);
    for (uint32_t i = 0; i < names; i++)
        REQUIRE(heal_outcome_clash(&outcome, i, &clash) == 0);
    heal_outcome_free(&outcome);
    for (int i = 0; i < 2; i++) {
        REQUIRE(heal_side_renew(&half[i]) == 0);
        register_all(&half[i], 1 + (uint32_t)i);
        list_all(&half[i]);
        unregister_all(&half[i]);
        heal_side_free(&half[i]);
    }
    return 0;
}
