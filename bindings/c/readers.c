/*
 * Checks that the calls that take a side, an outcome, a message or a program as `const`, and return no other handle, write nothing, so
 * that any number of them may run at the same time. Makes each of them while all memory of the library is write-protected, and then all
 * of them in eight threads at once, for as many seconds as the argument states.
 *
 * Link it with -Wl,--wrap=malloc,--wrap=realloc,--wrap=free: the library then allocates from one mapping.
 */
#include "heal.h"

#include <pthread.h>
#include <stdbool.h>
#include <stdio.h>
#include <stdlib.h>
#include <string.h>
#include <sys/mman.h>
#include <time.h>

enum { THREADS = 8, NAMES = 100, ROOM = 64 << 20 };

#define REQUIRE(CONDITION) require((CONDITION), #CONDITION, __LINE__)

static void require(bool holds, const char *condition, int line)
{
    if (holds)
        return;
    fprintf(stderr, "readers.c:%d: %s\n", line, condition);
    exit(1);
}

/* ---- Memory of the library ---- */

/* Every block begins with its size, in 16 bytes. Nothing is given back. */
static uint8_t *room;
static size_t used;

void *__wrap_malloc(size_t size)
{
    size_t whole = 16 + ((size + 15) & ~(size_t)15);
    uint8_t *block = room + used;

    if (whole > ROOM - used)
        return NULL;
    used += whole;
    memcpy(block, &size, sizeof size);
    return block + 16;
}

void __wrap_free(void *block)
{
    (void)block;
}

void *__wrap_realloc(void *block, size_t size)
{
    void *made = __wrap_malloc(size);
    size_t old = 0;

    if (block == NULL || made == NULL)
        return made;
    memcpy(&old, (uint8_t *)block - 16, sizeof old);
    memcpy(made, block, old < size ? old : size);
    return made;
}

/* ---- What is read ---- */

/* The handles lie in the protected memory too. */
struct handles {
    heal_program program;
    heal_side side;  /* in an open exchange, with a withdrawn name */
    heal_side idle;
    heal_side none;  /* empty */
    heal_bytes message;
    heal_outcome outcome;
};

/* The registration with the later stamp keeps the name, or the first if the stamps are equal. */
static const uint8_t LATER_STAMP[] = {
    0x79, 0x12, 0x38, 0, 0, 0, 0, 0, 0x79, 0x13, 0x60, 0, 0, 0, 0, 0, 0xb7, 0x00, 0x00, 0, 1, 0, 0, 0,
    0x3d, 0x32, 0x01, 0, 0, 0, 0, 0, 0xb7, 0x00, 0x00, 0, 2, 0, 0, 0, 0x95, 0x00, 0x00, 0, 0, 0, 0, 0,
};

static size_t name_of(unsigned i, uint8_t name[16])
{
    return (size_t)snprintf((char *)name, 16, "n%03u", i);
}

/* Creates a side with `NAMES` names, owned by the node. */
static void fill(heal_side *side, bool second)
{
    heal_registration registration = {.owner = {second ? 2 : 1, 0}};
    uint8_t name[16];

    REQUIRE(heal_side_new(second, side) == 0);
    for (unsigned i = 0; i < NAMES; i++) {
        size_t len = name_of(i, name);

        registration.owner.serial = i;
        REQUIRE(heal_side_register(side, name, len, &registration) == 0);
    }
}

static uint8_t *bytes_of(const heal_bytes *message, size_t *len)
{
    uint8_t *bytes;

    REQUIRE(heal_bytes_len(message, len) == 0);
    bytes = malloc(*len);
    REQUIRE(bytes != NULL && heal_bytes_copy(message, bytes, *len) == 0);
    return bytes;
}

/* Heals two sides with one number. Side A, which is `handles->idle`, then has the merge. */
static void heal(struct handles *handles)
{
    heal_side other = {0};
    heal_side *sides[2] = {&handles->idle, &other};
    heal_bytes offers[2] = {{0}, {0}}, lists[2] = {{0}, {0}};
    size_t len;

    fill(&other, true);
    for (int i = 0; i < 2; i++)
        REQUIRE(heal_side_begin(sides[i], 1, 0, 0, &offers[i]) == 0);
    for (int i = 0; i < 2; i++) {
        uint8_t *offer = bytes_of(&offers[1 - i], &len);

        REQUIRE(heal_side_hear(sides[i], offer, len) == 0);
        REQUIRE(heal_side_settle(sides[i]) == 0);
        REQUIRE(heal_side_close_list(sides[i], &lists[i]) == 0);
    }
    for (int i = 0; i < 2; i++) {
        uint8_t *list = bytes_of(&lists[1 - i], &len);

        REQUIRE(heal_side_hear_list(sides[i], list, len) == 0);
        REQUIRE(heal_side_finish(sides[i], &handles->outcome) == 0);
    }
    heal_side_free(&other);
}

static void prepare(struct handles *handles)
{
    uint32_t slot;

    memset(handles, 0, sizeof *handles);
    REQUIRE(heal_program_load(LATER_STAMP, sizeof LATER_STAMP, &handles->program, &slot) == 0);
    fill(&handles->idle, false);
    heal(handles);
    fill(&handles->side, false);
    REQUIRE(heal_side_begin(&handles->side, 1, 0, 0, &handles->message) == 0);
    REQUIRE(heal_side_withdraw(&handles->side, (const uint8_t *)"n000", 4) == 0);
}

/* ---- Reading ---- */

static void read_program(const struct handles *handles)
{
    uint8_t record[HEAL_RECORD_LEN] = {0}, id[HEAL_ID_LEN];
    heal_ended ended = {0};

    REQUIRE(heal_program_judge(&handles->program, record, &ended) == 0 && ended.r0 == 1 && ended.steps == 5);
    REQUIRE(heal_program_id(&handles->program, id) == 0);
}

static void read_side(const heal_side *side, size_t events, bool withdrew)
{
    heal_registration found;
    heal_side_state state;
    heal_name first;
    uint8_t id[HEAL_ID_LEN];
    heal_row row;
    size_t count = 0, counted = 0, rows = 1;
    uint8_t name[16];

    REQUIRE(heal_side_count(side, &count) == 0 && count == NAMES);
    REQUIRE(heal_side_events(side, &counted) == 0 && counted == events);
    REQUIRE(heal_side_row(side, NAMES - 1, &row) == 0 && row.registration.owner.serial == NAMES - 1);
    REQUIRE(heal_side_row(side, 0, &row) == 0);
    while (heal_side_row_after(side, row.name.bytes, row.name.len, &row) == 0)
        rows++;
    REQUIRE(rows == NAMES);
    REQUIRE(heal_side_query(side, &state) == 0 && state.withdrawn == (withdrew ? 1 : 0));
    REQUIRE(heal_side_program(side, 0, id) == HEAL_NO_ROW);
    REQUIRE(heal_side_withdrawn(side, 0, &first) == (withdrew ? 0 : HEAL_NO_ROW));
    REQUIRE(heal_side_live(side, 0, &row) == 0 && row.registration.owner.serial == (withdrew ? 1 : 0));
    for (rows = withdrew ? 2 : 1; heal_side_live_after(side, row.name.bytes, row.name.len, &row) == 0;)
        rows++;
    REQUIRE(rows == NAMES);
    for (unsigned i = 0; i < NAMES; i++) {
        size_t len = name_of(i, name);

        if (i == 0 && withdrew)
            REQUIRE(heal_side_whereis(side, name, len, &found) == 31);
        else
            REQUIRE(heal_side_whereis(side, name, len, &found) == 0 && found.owner.serial == i);
    }
}

static void read_message(const heal_bytes *message)
{
    static const uint8_t magic[] = {'H', 'E', 'A', 'L', 'X', 'C', 1, 1};
    uint8_t copy[1 << 16];
    heal_span lent = HEAL_NO_BYTES;
    size_t len = 0;

    REQUIRE(heal_bytes_len(message, &len) == 0 && len < sizeof copy);
    REQUIRE(heal_bytes_copy(message, copy, len) == 0 && memcmp(copy, magic, sizeof magic) == 0);
    REQUIRE(heal_bytes_lend(message, &lent) == 0 && lent.len == len && memcmp(copy, lent.data, len) == 0);
}

static void read_outcome(const heal_outcome *outcome)
{
    heal_clash clash;
    heal_notice notice;
    size_t merged = 0, clashes = 0;
    uint64_t number = 0;
    heal_name name;

    REQUIRE(heal_outcome_withdrawn(outcome, HEAL_B, 0, &name) == HEAL_NO_ROW);
    REQUIRE(heal_outcome_number(outcome, &number) == 0 && number == 1);
    REQUIRE(heal_outcome_merged(outcome, &merged) == 0 && merged == NAMES);
    REQUIRE(heal_outcome_clashes(outcome, &clashes) == 0 && clashes == NAMES);
    for (unsigned i = 0; i < NAMES; i++) {
        REQUIRE(heal_outcome_clash(outcome, i, &clash) == 0 && clash.first.owner.serial == i && clash.notices == 1);
        REQUIRE(heal_outcome_notice(outcome, i, 0, &notice) == 0 && notice.to.serial == i);
    }
}

static void read_all(const struct handles *handles)
{
    size_t count = 0;

    read_program(handles);
    read_side(&handles->idle, NAMES + 5 + NAMES, false);
    read_side(&handles->side, NAMES + 2, true);
    read_message(&handles->message);
    read_outcome(&handles->outcome);
    REQUIRE(heal_side_count(&handles->none, &count) == 91);
}

/* ---- Threads ---- */

static double end;

static double now(void)
{
    struct timespec time;

    clock_gettime(CLOCK_MONOTONIC, &time);
    return (double)time.tv_sec + (double)time.tv_nsec / 1e9;
}

static void *read_again_and_again(void *handles)
{
    do
        read_all(handles);
    while (now() < end);
    return NULL;
}

int main(int argc, char **argv)
{
    struct handles *handles;
    pthread_t threads[THREADS];

    room = mmap(NULL, ROOM, PROT_READ | PROT_WRITE, MAP_PRIVATE | MAP_ANONYMOUS, -1, 0);
    REQUIRE(room != MAP_FAILED);
    handles = malloc(sizeof *handles);
    REQUIRE(handles != NULL);
    prepare(handles);
    REQUIRE(mprotect(room, ROOM, PROT_READ) == 0);
    read_all(handles);
    end = now() + (argc > 1 ? atof(argv[1]) : 1);
    for (int i = 0; i < THREADS; i++)
        REQUIRE(pthread_create(&threads[i], NULL, read_again_and_again, handles) == 0);
    for (int i = 0; i < THREADS; i++)
        REQUIRE(pthread_join(threads[i], NULL) == 0);
    return 0;
}
