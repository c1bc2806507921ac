/*
 * Checks that two sides hold no more memory after a thousand exchanges than after ten, with repeated offers, abandoned
 * exchanges and edits between them. Counts the bytes that are allocated and not freed. Link with
 * -Wl,--wrap=malloc,--wrap=realloc,--wrap=free.
 */
#include "heal.h"

#include <malloc.h>
#include <stdio.h>
#include <stdlib.h>

enum { NAMES = 256, FEW = 10, MANY = 1000, EDITS = 20, REPEATS = 5, LONG = 32768 };

#define REQUIRE(condition)                                               \
    do {                                                                 \
        if (!(condition)) {                                              \
            fprintf(stderr, "line %d: %s\n", __LINE__, #condition);      \
            abort();                                                     \
        }                                                                \
    } while (0)

static size_t held;      /* bytes allocated and not freed */
static size_t most_held; /* the most so far */

void *__real_malloc(size_t size);
void *__real_realloc(void *old, size_t size);
void __real_free(void *old);
void *__wrap_malloc(size_t size);
void *__wrap_realloc(void *old, size_t size);
void __wrap_free(void *old);

static void *count(void *made)
{
    held += malloc_usable_size(made);
    if (held > most_held)
        most_held = held;
    return made;
}

void *__wrap_malloc(size_t size)
{
    return count(__real_malloc(size));
}

void *__wrap_realloc(void *old, size_t size)
{
    size_t before = malloc_usable_size(old);
    void *made = __real_realloc(old, size);

    if (made != NULL)
        held -= before;
    return count(made);
}

void __wrap_free(void *old)
{
    held -= malloc_usable_size(old);
    __real_free(old);
}

static size_t name_of(int i, uint8_t name[8])
{
    return (size_t)snprintf((char *)name, 8, "n%d", i);
}

/* Gives a name to a new owner on one half. */
static void register_again(heal_side *half, uint32_t node, int i, uint32_t serial)
{
    heal_registration owned = {.owner = {node, serial}, .resolver = HEAL_NOTIFY};
    uint8_t name[8];
    size_t len = name_of(i, name);

    heal_side_unregister(half, name, len);
    REQUIRE(heal_side_register(half, name, len, &owned) == 0);
}

/* Lets a half hear a message several times. */
static void hear(heal_side *half, heal_bytes *message, uint32_t (*call)(heal_side *, const uint8_t *, size_t))
{
    static uint8_t bytes[1 << 16];
    size_t len = 0;

    REQUIRE(heal_bytes_len(message, &len) == 0 && len <= sizeof bytes);
    REQUIRE(heal_bytes_copy(message, bytes, len) == 0);
    for (int i = 0; i < REPEATS; i++)
        REQUIRE(call(half, bytes, len) == 0);
}

/* Opens an exchange on both halves, up to the rulings. */
static void open(heal_side half[2], uint64_t number)
{
    heal_bytes message[2] = {{0}, {0}};

    for (int i = 0; i < 2; i++)
        REQUIRE(heal_side_begin(&half[i], number, 7, 0, &message[i]) == 0);
    for (int i = 0; i < 2; i++)
        hear(&half[i], &message[1 - i], heal_side_hear);
    for (int i = 0; i < 2; i++) {
        REQUIRE(heal_side_settle(&half[i]) == 0);
        heal_bytes_free(&message[i]);
    }
}

/* Finishes the open exchange on both halves; half A withdraws a name. */
static void finish(heal_side half[2])
{
    heal_bytes message[2] = {{0}, {0}};
    heal_outcome outcome = {0};

    REQUIRE(heal_side_withdraw(&half[0], (const uint8_t *)"n0", 2) == 0);
    for (int i = 0; i < 2; i++)
        REQUIRE(heal_side_close_list(&half[i], &message[i]) == 0);
    for (int i = 0; i < 2; i++)
        hear(&half[i], &message[1 - i], heal_side_hear_list);
    for (int i = 0; i < 2; i++) {
        REQUIRE(heal_side_finish(&half[i], &outcome) == 0);
        heal_bytes_free(&message[i]);
    }
    heal_outcome_free(&outcome);
}

/* Edits, an exchange that is given up, and one that is finished. */
static void round_of(heal_side half[2], uint32_t round)
{
    size_t events = 0;

    for (int i = 0; i < EDITS; i++)
        register_again(&half[round % 2], 1 + round % 2, (int)(round * EDITS + (uint32_t)i) % NAMES, NAMES + round);
    register_again(&half[0], 1, 0, 2 * round + 1);
    register_again(&half[1], 2, 0, 2 * round + 2);
    open(half, 2 * round + 1);
    REQUIRE(heal_side_abandon(&half[0]) == 0);
    REQUIRE(heal_side_give_up(&half[1]) == 0);
    open(half, 2 * round + 2);
    finish(half);
    for (int i = 0; i < 2; i++)
        if (heal_side_events(&half[i], &events) == 0 && events > LONG)
            REQUIRE(heal_side_renew(&half[i]) == 0);
}

int main(void)
{
    heal_side half[2] = {{0}, {0}};
    size_t held_few = 0, most_few = 0;

    for (int i = 0; i < 2; i++) {
        REQUIRE(heal_side_new(i == 1, &half[i]) == 0);
        for (int k = 0; k < NAMES; k++)
            register_again(&half[i], 1 + (uint32_t)i, k, (uint32_t)k);
    }
    for (uint32_t round = 0; round < MANY; round++) {
        round_of(half, round);
        if (round + 1 == FEW) {
            held_few = held;
            most_few = most_held;
        }
    }
    printf("%d exchanges: %zu bytes held, %zu at most; %d exchanges: %zu and %zu\n", 2 * FEW, held_few, most_few, 2 * MANY,
        held, most_held);
    fflush(stdout);
    /* A tree with the same names may have a few nodes more. */
    REQUIRE(held <= held_few + held_few / 5 && most_held <= most_few + most_few / 5);
    for (int i = 0; i < 2; i++)
        heal_side_free(&half[i]);
    REQUIRE(held == 0 || held < 4096);
    return 0;
}
