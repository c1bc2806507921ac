/*
 * Checks what heal.h states of replicas: the layout of structs, the refusals of each call, entries and snapshots that are
 * repeated, lost, cut and changed, an exchange between two primaries, which calls take no memory, and each allocation refused in turn:
 * a call that returns 90 changes nothing, and succeeds when it is made again. Link with -Wl,--wrap=malloc,--wrap=realloc.
 */
#include "heal.h"

#include <stdbool.h>
#include <stdio.h>
#include <stdlib.h>
#include <string.h>

#define REQUIRE(condition)                                                                       \
    do {                                                                                         \
        if (!(condition)) {                                                                      \
            fprintf(stderr, "allocation %lu, line %d: %s\n", failing, __LINE__, #condition);     \
            abort();                                                                             \
        }                                                                                        \
    } while (0)

/* The call returns this number; once out of memory it may return 90 first. */
#define RETURNS(number, call)                                                                           \
    do {                                                                                                \
        uint32_t got_ = (call);                                                                         \
        if (got_ == HEAL_E_OUT_OF_MEMORY && failing != 0) {                                             \
            refused++;                                                                                  \
            got_ = (call);                                                                              \
        }                                                                                               \
        if (got_ != (number)) {                                                                         \
            fprintf(stderr, "allocation %lu, line %d: %u from %s\n", failing, __LINE__, (unsigned)got_, \
                    #call);                                                                             \
            abort();                                                                                    \
        }                                                                                               \
    } while (0)

#define AT(type, field, offset) _Static_assert(offsetof(type, field) == (offset), #type "." #field " is elsewhere")
#define SIZE(type, size) _Static_assert(sizeof(type) == (size), #type " has another size")

SIZE(heal_replica, sizeof(void *));
SIZE(heal_life, 16);
AT(heal_life, node, 8);
SIZE(heal_position, 40);
AT(heal_position, view, 16);
AT(heal_position, op, 24);
AT(heal_position, reserved, 32);
SIZE(heal_replica_state, 80);
AT(heal_replica_state, names, 40);
AT(heal_replica_state, latest, 56);
AT(heal_replica_state, has_begun, 64);
AT(heal_replica_state, is_primary, 68);
AT(heal_replica_state, reserved, 72);
SIZE(heal_front, 16);
AT(heal_front, size, 8);

static unsigned long failing; /* the allocation that fails, counted from 1; 0 for none */
static unsigned long made;    /* how many were made */
static unsigned long refused; /* how many calls returned 90 */

void *__real_malloc(size_t size);
void *__real_realloc(void *old, size_t size);
void *__wrap_malloc(size_t size);
void *__wrap_realloc(void *old, size_t size);

void *__wrap_malloc(size_t size)
{
    return ++made == failing ? NULL : __real_malloc(size);
}

void *__wrap_realloc(void *old, size_t size)
{
    return ++made == failing ? NULL : __real_realloc(old, size);
}

/* Always 1: mov64 r0, 1; exit. */
static const uint8_t FIRST[] = {0xb7, 0, 0, 0, 1, 0, 0, 0, 0x95, 0, 0, 0, 0, 0, 0, 0};

/* The call succeeds and allocates nothing. */
#define TAKES_NO_MEMORY(call)            \
    do {                                 \
        unsigned long made_before_ = made; \
        REQUIRE((call) == 0);            \
        REQUIRE(made == made_before_);   \
    } while (0)

/* Bytes of a message. */
struct message {
    uint8_t *bytes;
    size_t len;
};

static const uint8_t *text(const char *name)
{
    return (const uint8_t *)name;
}

static heal_replica started(uint32_t node, uint64_t incarnation)
{
    heal_life life = {.incarnation = incarnation, .node = node};
    heal_replica replica = {0};

    RETURNS(0, heal_replica_start(&life, &replica));
    return replica;
}

static heal_replica_state state_of(const heal_replica *replica)
{
    heal_replica_state state;

    RETURNS(0, heal_replica_query(replica, &state));
    return state;
}

static struct message taken(heal_bytes *bytes)
{
    struct message copy = {NULL, 0};

    RETURNS(0, heal_bytes_len(bytes, &copy.len));
    copy.bytes = __real_malloc(copy.len);
    RETURNS(0, heal_bytes_copy(bytes, copy.bytes, copy.len));
    heal_bytes_free(bytes);
    return copy;
}

static struct message snapshot_of(const heal_replica *replica)
{
    heal_bytes bytes = {0};

    RETURNS(0, heal_replica_snapshot(replica, &bytes));
    return taken(&bytes);
}

static struct message registered(heal_replica *replica, const char *name, const heal_registration *registration)
{
    heal_bytes bytes = {0};

    RETURNS(0, heal_replica_register(replica, text(name), strlen(name), registration, &bytes));
    return taken(&bytes);
}

static struct message added(heal_replica *replica, const char *name, heal_owner owner)
{
    heal_registration registration = {.owner = owner, .resolver = HEAL_NOTIFY};

    return registered(replica, name, &registration);
}

static uint32_t apply(heal_replica *replica, struct message entry)
{
    return heal_replica_apply(replica, entry.bytes, entry.len);
}

static uint32_t follow(heal_replica *replica, struct message snapshot)
{
    return heal_replica_follow(replica, snapshot.bytes, snapshot.len);
}

static uint32_t find(const heal_replica *replica, const char *name)
{
    heal_registration found;

    return heal_replica_whereis(replica, text(name), strlen(name), &found);
}

/* Both replicas are at one position, and have the same rows. */
static void agree(const heal_replica *one, const heal_replica *other)
{
    heal_replica_state a = state_of(one), b = state_of(other);
    heal_row row[2];
    uint32_t number[2] = {heal_replica_row(one, 0, &row[0]), heal_replica_row(other, 0, &row[1])};
    uint64_t rows = 0;

    REQUIRE(memcmp(&a.at, &b.at, sizeof a.at) == 0 && a.names == b.names && a.limit == b.limit && a.latest == b.latest);
    for (; number[0] == 0; rows++) {
        REQUIRE(number[1] == 0 && memcmp(&row[0], &row[1], sizeof row[0]) == 0);
        number[0] = heal_replica_row_after(one, row[0].name.bytes, row[0].name.len, &row[0]);
        number[1] = heal_replica_row_after(other, row[1].name.bytes, row[1].name.len, &row[1]);
    }
    REQUIRE(number[0] == HEAL_NO_ROW && number[1] == HEAL_NO_ROW && rows == a.names);
}

/* Refused edits leave the replica and the handle of the entry unchanged. */
static void check_edits(void)
{
    heal_replica primary = started(1, 1), backup = started(2, 1), none = {0};
    heal_registration registration = {.owner = {1, 1}, .resolver = HEAL_EXIT}, unknown = registration;
    heal_program program = {0}, empty = {0};
    heal_bytes entry = {0};
    struct message snapshot = snapshot_of(&primary), added_db;
    uint32_t slot;
    size_t len;

    RETURNS(0, follow(&backup, snapshot));
    REQUIRE(state_of(&primary).is_primary && !state_of(&backup).is_primary && state_of(&primary).limit == HEAL_MAX_NAMES);
    added_db = registered(&primary, "db", &registration);
    REQUIRE(state_of(&primary).at.op == 1);
    RETURNS(44, heal_replica_register(&primary, text(""), 0, &registration, &entry));
    unknown.resolver = 4;
    RETURNS(76, heal_replica_register(&primary, text("x"), 1, &unknown, &entry));
    unknown.resolver = HEAL_PROGRAM;
    RETURNS(41, heal_replica_register(&primary, text("x"), 1, &unknown, &entry));
    RETURNS(30, heal_replica_register(&primary, text("db"), 2, &registration, &entry));
    RETURNS(31, heal_replica_unregister(&primary, text("x"), 1, &entry));
    RETURNS(44, heal_replica_unregister(&primary, text(" "), 1, &entry));
    RETURNS(95, heal_replica_register(&backup, text("db"), 2, &registration, &entry));
    RETURNS(95, heal_replica_unregister(&backup, text("db"), 2, &entry));
    RETURNS(95, heal_replica_begin(&backup, 1, &entry));
    RETURNS(95, heal_replica_limit(&backup, 10, &entry));
    RETURNS(92, heal_replica_limit(&primary, 0, &entry));
    RETURNS(92, heal_replica_limit(&primary, HEAL_MOST_NAMES + 1, &entry));
    RETURNS(91, heal_bytes_len(&entry, &len));
    RETURNS(0, heal_replica_begin(&primary, 7, &entry));
    RETURNS(35, heal_replica_begin(&primary, 7, &entry));
    REQUIRE(state_of(&primary).latest == 7 && state_of(&primary).has_begun);
    RETURNS(0, heal_replica_limit(&primary, 1, &entry));
    RETURNS(32, heal_replica_register(&primary, text("x"), 1, &registration, &entry));
    RETURNS(0, heal_program_load(FIRST, sizeof FIRST, &program, &slot));
    RETURNS(0, heal_replica_upload(&primary, &program, &entry));
    RETURNS(95, heal_replica_upload(&backup, &program, &entry));
    RETURNS(91, heal_replica_upload(&primary, &empty, &entry));
    RETURNS(91, heal_replica_upload(&none, &program, &entry));
    RETURNS(91, heal_replica_register(&none, text("x"), 1, &registration, &entry));
    RETURNS(0, apply(&backup, added_db));
    RETURNS(0, find(&backup, "db"));
    RETURNS(31, find(&backup, "x"));
    RETURNS(44, find(&backup, ""));
    RETURNS(91, find(&none, "db"));
    heal_bytes_free(&entry);
    heal_program_free(&program);
    heal_replica_free(&primary);
    heal_replica_free(&primary);
    heal_replica_free(&backup);
    free(snapshot.bytes);
    free(added_db.bytes);
}

/* Entries that are repeated, lost and of another view; a program that an entry of a registration names. */
static void check_entries(void)
{
    heal_replica primary = started(1, 1), backup = started(2, 1), other = started(3, 1);
    heal_registration registration = {.owner = {1, 9}, .resolver = HEAL_PROGRAM};
    heal_program program = {0};
    heal_bytes bytes = {0};
    struct message first = snapshot_of(&primary), entry[3];
    uint32_t slot;

    RETURNS(0, follow(&backup, first));
    RETURNS(98, follow(&primary, first));
    RETURNS(0, heal_program_load(FIRST, sizeof FIRST, &program, &slot));
    RETURNS(0, heal_replica_upload(&primary, &program, &bytes));
    entry[0] = taken(&bytes);
    RETURNS(0, heal_program_id(&program, registration.program));
    entry[1] = registered(&primary, "coin", &registration);
    RETURNS(0, heal_replica_unregister(&primary, text("coin"), 4, &bytes));
    entry[2] = taken(&bytes);
    RETURNS(97, apply(&backup, entry[1]));
    RETURNS(96, apply(&other, entry[0]));
    RETURNS(0, apply(&backup, entry[0]));
    RETURNS(0, apply(&backup, entry[1]));
    RETURNS(0, apply(&backup, entry[1]));
    RETURNS(0, apply(&backup, entry[0]));
    REQUIRE(state_of(&backup).at.op == 2);
    RETURNS(0, find(&backup, "coin"));
    RETURNS(0, apply(&backup, entry[2]));
    agree(&primary, &backup);
    /* A backup that leads has all that it needs to go on: the program too. */
    RETURNS(0, heal_replica_lead(&backup));
    free(registered(&backup, "coin", &registration).bytes);
    REQUIRE(state_of(&backup).at.view == 2 && state_of(&backup).at.primary.node == 2 && state_of(&backup).at.op == 1);
    for (int i = 0; i < 3; i++)
        free(entry[i].bytes);
    free(first.bytes);
    heal_program_free(&program);
    heal_replica_free(&primary);
    heal_replica_free(&backup);
    heal_replica_free(&other);
}

/* A log is read up to its last whole message; every changed byte is noticed. */
static void check_log(void)
{
    heal_replica primary = started(1, 5), reader = started(2, 1);
    heal_replica_state before;
    struct message snapshot, entry;
    heal_front front;

    free(added(&primary, "a", (heal_owner){1, 1}).bytes);
    snapshot = snapshot_of(&primary);
    entry = added(&primary, "b", (heal_owner){1, 2});
    RETURNS(0, heal_log_front(NULL, 0, &front));
    REQUIRE(front.kind == HEAL_LOG_END && front.size == 0);
    RETURNS(0, heal_log_front(snapshot.bytes, snapshot.len, &front));
    REQUIRE(front.kind == HEAL_SNAPSHOT && front.size == snapshot.len);
    RETURNS(0, heal_log_front(entry.bytes, entry.len, &front));
    REQUIRE(front.kind == HEAL_ENTRY && front.size == entry.len);
    for (size_t len = 1; len < entry.len; len++) {
        RETURNS(0, heal_log_front(entry.bytes, len, &front));
        REQUIRE(front.kind == HEAL_LOG_CUT && front.size == 0);
        RETURNS(70, heal_replica_apply(&reader, entry.bytes, len));
    }
    for (size_t i = 0; i < 24; i++) {
        entry.bytes[i] ^= 0x40;
        uint32_t number = heal_log_front(entry.bytes, entry.len, &front);
        REQUIRE(number == (i == 6 ? 82 : i < 8 ? 71 : 84));
        entry.bytes[i] ^= 0x40;
    }
    RETURNS(71, heal_log_front(text("no log at all"), 13, &front));
    RETURNS(71, apply(&reader, snapshot));
    RETURNS(71, follow(&reader, entry));
    RETURNS(0, follow(&reader, snapshot));
    before = state_of(&reader);
    for (size_t i = 0; i < entry.len; i++) {
        entry.bytes[i] ^= 0x10;
        uint32_t number = apply(&reader, entry);
        REQUIRE(number >= 70 && number <= 84);
        entry.bytes[i] ^= 0x10;
    }
    for (size_t i = 0; i < snapshot.len; i++) {
        snapshot.bytes[i] ^= 0x01;
        uint32_t number = follow(&reader, snapshot);
        REQUIRE(number >= 70 && number <= 84);
        snapshot.bytes[i] ^= 0x01;
    }
    REQUIRE(state_of(&reader).at.op == before.at.op && state_of(&reader).names == before.names);
    RETURNS(0, apply(&reader, entry));
    agree(&primary, &reader);
    free(snapshot.bytes);
    free(entry.bytes);
    heal_replica_free(&primary);
    heal_replica_free(&reader);
}

static void deliver(heal_bytes *message, heal_side *side, uint32_t hear(heal_side *, const uint8_t *, size_t))
{
    struct message sent = taken(message);

    RETURNS(0, hear(side, sent.bytes, sent.len));
    free(sent.bytes);
}

/* Two primaries exchange. One starts a view with the outcome, and all nodes of both halves follow it. */
static void check_exchange(void)
{
    heal_replica node[3] = {started(1, 1), started(2, 1), started(3, 1)};
    heal_side side[2] = {{0}, {0}};
    heal_bytes message[2] = {{0}, {0}}, entry = {0};
    heal_outcome outcome = {0};
    heal_position from;
    struct message snapshot;

    free(added(&node[0], "db", (heal_owner){1, 1}).bytes);
    free(added(&node[2], "db", (heal_owner){3, 1}).bytes);
    free(added(&node[2], "web", (heal_owner){3, 2}).bytes);
    RETURNS(74, heal_replica_side(&node[0], 2, &side[0]));
    for (int i = 0; i < 2; i++) {
        heal_replica *primary = &node[2 * i];

        RETURNS(0, heal_replica_side(primary, i == 0 ? HEAL_A : HEAL_B, &side[i]));
        RETURNS(0, heal_replica_begin(primary, 4, &entry));
        RETURNS(0, heal_side_begin(&side[i], 4, 0, 0, &message[i]));
    }
    from = state_of(&node[0]).at;
    RETURNS(33, heal_replica_change(&node[0], &from, &side[0]));
    for (int i = 0; i < 2; i++)
        deliver(&message[1 - i], &side[i], heal_side_hear);
    for (int i = 0; i < 2; i++) {
        RETURNS(0, heal_side_settle(&side[i]));
        RETURNS(0, heal_side_close_list(&side[i], &message[i]));
    }
    for (int i = 0; i < 2; i++) {
        deliver(&message[1 - i], &side[i], heal_side_hear_list);
        RETURNS(0, heal_side_finish(&side[i], &outcome));
    }
    /* An edit that was made meanwhile isn't lost: the outcome is refused. */
    free(added(&node[2], "late", (heal_owner){3, 3}).bytes);
    from.primary.node = 3;
    RETURNS(49, heal_replica_change(&node[2], &from, &side[1]));
    from.primary.node = 1;
    RETURNS(0, heal_replica_change(&node[0], &from, &side[0]));
    REQUIRE(state_of(&node[0]).is_primary && state_of(&node[0]).latest == 4 && state_of(&node[0]).names == 2);
    snapshot = snapshot_of(&node[0]);
    for (int i = 1; i < 3; i++) {
        RETURNS(0, follow(&node[i], snapshot));
        agree(&node[0], &node[i]);
    }
    RETURNS(35, heal_replica_begin(&node[0], 4, &entry));
    free(snapshot.bytes);
    heal_bytes_free(&entry);
    heal_outcome_free(&outcome);
    for (int i = 0; i < 2; i++)
        heal_side_free(&side[i]);
    for (int i = 0; i < 3; i++)
        heal_replica_free(&node[i]);
}

/* Calls that take no memory. */
static void check_without_memory(void)
{
    heal_replica node = started(1, 1);
    struct message entry = added(&node, "db", (heal_owner){1, 1}), snapshot = snapshot_of(&node);
    heal_replica_state state;
    heal_registration found;
    heal_row row;
    heal_front front;

    TAKES_NO_MEMORY(heal_replica_lead(&node));
    TAKES_NO_MEMORY(heal_replica_query(&node, &state));
    TAKES_NO_MEMORY(heal_replica_whereis(&node, text("db"), 2, &found));
    TAKES_NO_MEMORY(heal_replica_row(&node, 0, &row));
    TAKES_NO_MEMORY(heal_replica_row_after(&node, text("a"), 1, &row));
    TAKES_NO_MEMORY(heal_log_front(entry.bytes, entry.len, &front));
    TAKES_NO_MEMORY(heal_log_front(snapshot.bytes, snapshot.len, &front));
    free(entry.bytes);
    free(snapshot.bytes);
    heal_replica_free(&node);
}

static void run(void)
{
    made = 0;
    check_edits();
    check_entries();
    check_exchange();
}

int main(void)
{
    unsigned long count;

    check_log();
    check_without_memory();
    run();
    count = made;
    for (failing = 1; failing <= count; failing++)
        run();
    REQUIRE(refused > 0);
    printf("%lu allocations of replicas, each failed once: %lu calls refused\n", count, refused);
    return 0;
}
