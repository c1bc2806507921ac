/*
 * Checks which calls of an exchange build a table, by the bytes that they allocate. `begin` allocates its offer alone, `hear` builds the
 * other half's table, and `finish` the merge, unless no name clashes and one of the two tables has all names: then it shares that
 * one. Link with -Wl,--wrap=malloc,--wrap=realloc.
 */
#include "heal.h"

#include <stdio.h>
#include <stdlib.h>

/* Each of two tables that share rows has room for a mark for each. */
enum { NAMES = 4096, ROW = 80, SMALL = 4096, MARKS = NAMES };

#define REQUIRE(condition)                                               \
    do {                                                                 \
        if (!(condition)) {                                              \
            fprintf(stderr, "line %d: %s\n", __LINE__, #condition);      \
            abort();                                                     \
        }                                                                \
    } while (0)

static size_t allocated; /* the bytes of all allocations so far, those that were freed too */

void *__real_malloc(size_t size);
void *__real_realloc(void *old, size_t size);
void *__wrap_malloc(size_t size);
void *__wrap_realloc(void *old, size_t size);

void *__wrap_malloc(size_t size)
{
    allocated += size;
    return __real_malloc(size);
}

void *__wrap_realloc(void *old, size_t size)
{
    allocated += size;
    return __real_realloc(old, size);
}

/* Makes a half with the names from `from` on, each of an owner on this node. */
static void live_apart(heal_side *half, int is_b, uint32_t node, int from, int until)
{
    REQUIRE(heal_side_new(is_b, half) == 0);
    for (int i = from; i < until; i++) {
        heal_registration owned = {.owner = {node, (uint32_t)i}, .resolver = HEAL_NOTIFY};
        uint8_t name[8];
        size_t len = (size_t)snprintf((char *)name, sizeof name, "n%d", i);

        REQUIRE(heal_side_register(half, name, len, &owned) == 0);
    }
}

/* The bytes that a call allocates. */
#define BYTES_OF(call) (allocated = 0, REQUIRED(call), allocated)
#define REQUIRED(call) ((call) == 0 ? (void)0 : (fprintf(stderr, "line %d: %s\n", __LINE__, #call), abort()))

static uint8_t bytes[1 << 19];

static size_t taken(heal_bytes *message)
{
    size_t len = 0;

    REQUIRE(heal_bytes_len(message, &len) == 0 && len <= sizeof bytes);
    REQUIRE(heal_bytes_copy(message, bytes, len) == 0);
    heal_bytes_free(message);
    return len;
}

/* What the calls of both halves allocate in an exchange. */
struct allocations {
    size_t begin[2], message[2], hear[2], finish[2];
};

static struct allocations exchange(heal_side half[2])
{
    static uint8_t offers[2][sizeof bytes];
    heal_bytes message[2] = {{0}, {0}};
    heal_outcome outcome[2] = {{0}, {0}};
    struct allocations seen = {{0}, {0}, {0}, {0}};

    for (int i = 0; i < 2; i++) {
        seen.begin[i] = BYTES_OF(heal_side_begin(&half[i], 1, 7, 0, &message[i]));
        seen.message[i] = taken(&message[i]);
        for (size_t k = 0; k < seen.message[i]; k++)
            offers[i][k] = bytes[k];
    }
    for (int i = 0; i < 2; i++) {
        seen.hear[i] = BYTES_OF(heal_side_hear(&half[i], offers[1 - i], seen.message[1 - i]));
        REQUIRE(heal_side_settle(&half[i]) == 0);
    }
    for (int i = 0; i < 2; i++)
        REQUIRE(heal_side_close_list(&half[i], &message[i]) == 0);
    for (int i = 0; i < 2; i++) {
        size_t len = taken(&message[1 - i]);

        REQUIRE(heal_side_hear_list(&half[i], bytes, len) == 0);
    }
    for (int i = 0; i < 2; i++)
        seen.finish[i] = BYTES_OF(heal_side_finish(&half[i], &outcome[i]));
    for (int i = 0; i < 2; i++)
        heal_outcome_free(&outcome[i]);
    return seen;
}

/* The bytes that a buffer takes which doubles until it has room for these. */
static size_t doubled(size_t len)
{
    size_t room = 1;

    while (room < len)
        room *= 2;
    return 2 * room;
}

/* Heals two halves, A with NAMES names and B with `of_b` names of owners on this node, and prints what their calls allocate. */
static struct allocations heal(const char *what, uint32_t node_of_b, int of_b)
{
    heal_side half[2] = {{0}, {0}};
    struct allocations seen;
    size_t names[2] = {0, 0};

    live_apart(&half[0], 0, 1, 0, NAMES);
    live_apart(&half[1], 1, node_of_b, 0, of_b);
    seen = exchange(half);
    for (int i = 0; i < 2; i++) {
        printf("%s, half %c: begin %zu for an offer of %zu, hear %zu, finish %zu bytes\n", what, "AB"[i], seen.begin[i],
            seen.message[i], seen.hear[i], seen.finish[i]);
        REQUIRE(heal_side_count(&half[i], &names[i]) == 0 && names[i] == NAMES);
        REQUIRE(seen.begin[i] < doubled(seen.message[i]) + 2 * MARKS + SMALL);
        heal_side_free(&half[i]);
    }
    return seen;
}

int main(void)
{
    struct allocations seen = heal("all names clash", 2, NAMES);

    for (int i = 0; i < 2; i++)
        REQUIRE(seen.hear[i] > NAMES * ROW && seen.finish[i] > NAMES * ROW);
    seen = heal("equal tables", 1, NAMES);
    for (int i = 0; i < 2; i++)
        REQUIRE(seen.hear[i] > NAMES * ROW && seen.finish[i] < 2 * MARKS + SMALL);
    seen = heal("B has a quarter of A's rows", 1, NAMES / 4);
    for (int i = 0; i < 2; i++)
        REQUIRE(seen.finish[i] < 2 * MARKS + SMALL);
    return 0;
}
