/*
 * Makes each allocation of a scenario fail in turn. A call whose allocation fails returns 90 and changes nothing, or succeeds
 * with less room to spare. A refused call then succeeds, and the scenario ends as with enough memory. Link with
 * -Wl,--wrap=malloc,--wrap=realloc.
 */
#include "heal.h"

#include <stdio.h>
#include <stdlib.h>
#include <string.h>

#define REQUIRE(condition)                                            \
    do {                                                              \
        if (!(condition)) {                                           \
            fprintf(stderr, "allocation %lu, line %d: %s\n", failing, \
                    __LINE__, #condition);                            \
            abort();                                                  \
        }                                                             \
    } while (0)

static unsigned long failing; /* the allocation that fails, counted from 1; 0 for none */
static unsigned long made;    /* how many were made */
static unsigned long refused; /* how many calls returned 90 */

void *__real_malloc(size_t size);
void *__real_realloc(void *old, size_t size);
void *__wrap_malloc(size_t size);
void *__wrap_realloc(void *old, size_t size);

void *__wrap_malloc(size_t size)
{
    return ++made == failing ? NULL : __real_malloc(size);
}

void *__wrap_realloc(void *old, size_t size)
{
    return ++made == failing ? NULL : __real_realloc(old, size);
}

/* What the scenario works on. */
struct state {
    heal_side sides[2];
    heal_bytes messages[2];
    heal_outcome outcomes[2];
    heal_program program;
};

static uint64_t mix(uint64_t hash, const void *data, size_t len)
{
    const uint8_t *bytes = data;

    for (size_t i = 0; i < len; i++)
        hash = (hash ^ bytes[i]) * 0x100000001b3u;
    return hash;
}

static uint64_t mix_registration(uint64_t hash, const heal_registration *it)
{
    hash = mix(hash, &it->owner, sizeof it->owner);
    hash = mix(hash, &it->stamp, sizeof it->stamp);
    return mix(hash, it->program, sizeof it->program);
}

/* A hash of the side's rows. */
static uint64_t rows_of(heal_side *side)
{
    heal_row row;
    uint64_t hash = 0xcbf29ce484222325u;
    uint32_t number = heal_side_row(side, 0, &row);

    while (number == 0) {
        hash = mix(hash, row.name.bytes, sizeof row.name.bytes);
        hash = mix_registration(hash, &row.registration);
        number = heal_side_row_after(side, row.name.bytes, row.name.len, &row);
    }
    REQUIRE(number == HEAL_NO_ROW);
    return hash;
}

static uint64_t hash_of_side(heal_side *side)
{
    size_t events = 0;

    if (side->at == NULL)
        return 0;
    REQUIRE(heal_side_events(side, &events) == 0);
    return mix(rows_of(side), &events, sizeof events);
}

/* A hash of all that a refused call must leave unchanged. */
static uint64_t hash_of(struct state *state)
{
    uint64_t hash = hash_of_side(&state->sides[0]) ^ 3 * hash_of_side(&state->sides[1]);

    hash = mix(hash, state->messages, sizeof state->messages);
    hash = mix(hash, state->outcomes, sizeof state->outcomes);
    return mix(hash, &state->program, sizeof state->program);
}

/* Carries out a call. If it is refused because its allocation failed, checks that nothing has changed, and calls again. */
#define CALL(state, expression)                                    \
    do {                                                           \
        uint64_t before_ = hash_of(state);                         \
        unsigned long first_ = made;                               \
        uint32_t answer_ = (expression);                           \
        if (answer_ != 0 && first_ < failing && failing <= made) { \
            REQUIRE(answer_ == 90);                                \
            REQUIRE(hash_of(state) == before_);                    \
            refused++;                                             \
            answer_ = (expression);                                \
        }                                                          \
        REQUIRE(answer_ == 0);                                     \
    } while (0)

static const uint8_t FIRST[] = {0xb7, 0, 0, 0, 1, 0, 0, 0, 0x95, 0, 0, 0, 0, 0, 0, 0}; /* mov64 r0, 1; exit */

static const uint8_t *text(const char *name)
{
    return (const uint8_t *)name;
}

static void live_apart(struct state *state, int which)
{
    heal_side *side = &state->sides[which];
    heal_registration registration = {.owner = {1 + (uint32_t)which, 1}, .stamp = 5, .resolver = HEAL_EXIT};
    uint32_t slot;

    CALL(state, heal_side_new(which == 1, side));
    CALL(state, heal_side_upload(side, FIRST, sizeof FIRST, registration.program, &slot));
    CALL(state, heal_side_register(side, text("cache"), 5, &registration));
    CALL(state, heal_side_register(side, text("gone"), 4, &registration));
    registration.resolver = HEAL_PROGRAM;
    CALL(state, heal_side_register(side, text("db"), 2, &registration));
    CALL(state, heal_side_register(side, text("old"), 3, &registration));
    CALL(state, heal_side_unregister(side, text("old"), 3));
    CALL(state, heal_side_renew(side));
}

/* Lets a side receive the message of the other side, which has no fault, and frees the message. */
static void deliver(struct state *state, int to, uint32_t (*receive)(heal_side *, const uint8_t *, size_t),
    uint32_t (*fault_of)(const uint8_t *, size_t, heal_fault *))
{
    heal_bytes *message = &state->messages[1 - to];
    heal_fault fault;
    uint8_t copy[4096];
    size_t len = 0;

    REQUIRE(heal_bytes_len(message, &len) == 0 && len <= sizeof copy);
    REQUIRE(heal_bytes_copy(message, copy, len) == 0);
    CALL(state, fault_of(copy, len, &fault));
    CALL(state, receive(&state->sides[to], copy, len));
    heal_bytes_free(message);
}

static void heal(struct state *state, uint64_t number)
{
    for (int i = 0; i < 2; i++)
        CALL(state, heal_side_begin(&state->sides[i], number, 7, 60, &state->messages[i]));
    for (int i = 0; i < 2; i++) {
        deliver(state, i, heal_side_hear, heal_offer_fault);
        CALL(state, heal_side_settle(&state->sides[i]));
    }
    CALL(state, heal_side_withdraw(&state->sides[0], text("gone"), 4));
    for (int i = 0; i < 2; i++)
        CALL(state, heal_side_close_list(&state->sides[i], &state->messages[i]));
    for (int i = 0; i < 2; i++) {
        deliver(state, i, heal_side_hear_list, heal_list_fault);
        CALL(state, heal_side_finish(&state->sides[i], &state->outcomes[i]));
    }
}

static void judge(struct state *state)
{
    heal_ended ended = {0};
    uint8_t record[HEAL_RECORD_LEN] = {0};
    uint8_t id[HEAL_ID_LEN];
    uint32_t slot;

    CALL(state, heal_program_load(FIRST, sizeof FIRST, &state->program, &slot));
    CALL(state, heal_program_judge(&state->program, record, &ended));
    CALL(state, heal_program_id(&state->program, id));
    REQUIRE(ended.r0 == 1 && ended.steps == 2);
}

/* The whole scenario. Returns a hash of the table that both sides have at its end. */
static uint64_t run(void)
{
    struct state state;
    uint64_t rows;

    memset(&state, 0, sizeof state);
    made = 0;
    judge(&state);
    live_apart(&state, 0);
    live_apart(&state, 1);
    CALL(&state, heal_side_begin(&state.sides[0], 1, 7, 60, &state.messages[0]));
    CALL(&state, heal_side_abandon(&state.sides[0]));
    heal(&state, 2);
    rows = rows_of(&state.sides[0]);
    REQUIRE(rows_of(&state.sides[1]) == rows);
    for (int i = 0; i < 2; i++) {
        heal_side_free(&state.sides[i]);
        heal_bytes_free(&state.messages[i]);
        heal_outcome_free(&state.outcomes[i]);
    }
    heal_program_free(&state.program);
    return rows;
}

int main(void)
{
    uint64_t ample = run();
    unsigned long count = made;

    for (failing = 1; failing <= count; failing++)
        REQUIRE(run() == ample);
    REQUIRE(refused > 0);
    printf("%lu allocations, each failed once: %lu calls refused\n", count, refused);
    return 0;
}
