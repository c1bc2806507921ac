/*
 * Checks what heal.h states, against the library: the layout of structs, the events that each call adds, a side whose journal is
 * full, the order of refusals, repeated messages, and a winner that was withdrawn.
 */
#include "heal.h"

#include <stdbool.h>
#include <stdio.h>
#include <stdlib.h>
#include <string.h>

#define REQUIRE(condition)                                          \
    do {                                                            \
        if (!(condition)) {                                         \
            fprintf(stderr, "line %d: %s\n", __LINE__, #condition); \
            abort();                                                \
        }                                                           \
    } while (0)

/* The call returns this number. */
#define RETURNS(number, call)                                                          \
    do {                                                                               \
        uint32_t got_ = (call);                                                        \
        if (got_ != (number)) {                                                        \
            fprintf(stderr, "line %d: %u from %s\n", __LINE__, (unsigned)got_, #call); \
            abort();                                                                   \
        }                                                                              \
    } while (0)

/* The call returns this number and adds this many events. */
#define ADDS(events, number, side, call)                    \
    do {                                                    \
        size_t before_ = events_of(side);                   \
        RETURNS(number, call);                              \
        REQUIRE(events_of(side) == before_ + (events)); \
    } while (0)

#define AT(type, field, offset) \
    _Static_assert(offsetof(type, field) == (offset), #type "." #field " is elsewhere")
#define SIZE(type, size) \
    _Static_assert(sizeof(type) == (size), #type " has another size")

SIZE(heal_program, sizeof(void *));
SIZE(heal_side, sizeof(void *));
SIZE(heal_bytes, sizeof(void *));
SIZE(heal_outcome, sizeof(void *));
SIZE(heal_span, 24);
AT(heal_span, len, 8);
AT(heal_span, reserved, 16);
SIZE(heal_owner, 8);
AT(heal_owner, serial, 4);
SIZE(heal_registration, 80);
AT(heal_registration, stamp, 8);
AT(heal_registration, weight, 16);
AT(heal_registration, extra, 24);
AT(heal_registration, resolver, 40);
AT(heal_registration, program, 44);
AT(heal_registration, reserved, 76);
SIZE(heal_name, 40);
AT(heal_name, bytes, 4);
AT(heal_name, reserved, 36);
SIZE(heal_row, 128);
AT(heal_row, registration, 40);
AT(heal_row, reserved, 120);
SIZE(heal_facts, 24);
AT(heal_facts, uptime, 8);
AT(heal_facts, reserved, 16);
SIZE(heal_ended, 16);
AT(heal_ended, steps, 8);
AT(heal_ended, reserved, 12);
SIZE(heal_clash, 232);
AT(heal_clash, first, 40);
AT(heal_clash, second, 120);
AT(heal_clash, word, 200);
AT(heal_clash, verdict, 208);
AT(heal_clash, keeps, 212);
AT(heal_clash, first_half, 216);
AT(heal_clash, notices, 220);
AT(heal_clash, reserved, 224);
SIZE(heal_side_state, 64);
AT(heal_side_state, is_open, 4);
AT(heal_side_state, has_heard, 8);
AT(heal_side_state, has_closed, 12);
AT(heal_side_state, has_heard_list, 16);
AT(heal_side_state, missing, 20);
AT(heal_side_state, has_begun, 24);
AT(heal_side_state, reserved, 28);
AT(heal_side_state, number, 32);
AT(heal_side_state, latest, 40);
AT(heal_side_state, missing_clash, 48);
AT(heal_side_state, withdrawn, 56);
SIZE(heal_head, 32);
AT(heal_head, version, 4);
AT(heal_head, side, 8);
AT(heal_head, reserved, 12);
AT(heal_head, number, 16);
AT(heal_head, seed, 24);
SIZE(heal_fault, 32);
AT(heal_fault, place, 4);
AT(heal_fault, at, 8);
AT(heal_fault, reason, 16);
AT(heal_fault, slot, 20);
AT(heal_fault, reserved, 24);
SIZE(heal_notice, 24);
AT(heal_notice, to, 4);
AT(heal_notice, other, 12);
AT(heal_notice, reserved, 20);

/* A message in memory of this program. */
struct message {
    uint8_t *bytes;
    size_t len;
};

static size_t events_of(heal_side *side)
{
    size_t events = 0;

    RETURNS(0, heal_side_events(side, &events));
    return events;
}

static const uint8_t *text(const char *name)
{
    return (const uint8_t *)name;
}

static uint32_t add(heal_side *side, const char *name, heal_owner owner)
{
    heal_registration registration = {.owner = owner};

    return heal_side_register(side, text(name), strlen(name), &registration);
}

static uint32_t find(heal_side *side, const char *name)
{
    heal_registration found;

    return heal_side_whereis(side, text(name), strlen(name), &found);
}

/* Creates a side with `db`, owned by 1.1 on side A and by 2.1 on side B. */
static heal_side side_with_db(bool second)
{
    heal_side side = {0};

    RETURNS(0, heal_side_new(second, &side));
    RETURNS(0, add(&side, "db", (heal_owner){second ? 2 : 1, 1}));
    return side;
}

/* A message is lent with the bytes that a copy has, as long as it isn't freed; an empty handle lends nothing. */
static void check_lent(void)
{
    heal_side side = side_with_db(false);
    heal_bytes offer = {0};
    heal_span lent = HEAL_NO_BYTES, again = HEAL_NO_BYTES;
    const uint8_t *none = lent.data;
    uint8_t copy[512];
    size_t len = 0;

    RETURNS(91, heal_bytes_lend(&offer, &lent));
    REQUIRE(lent.data == none && lent.len == 0);
    RETURNS(0, heal_side_begin(&side, 1, 0, 0, &offer));
    RETURNS(0, heal_bytes_lend(&offer, &lent));
    RETURNS(0, heal_bytes_len(&offer, &len));
    REQUIRE(len > 0 && len <= sizeof copy && lent.len == len);
    RETURNS(0, heal_bytes_copy(&offer, copy, len));
    heal_side_free(&side);
    REQUIRE(memcmp(copy, lent.data, len) == 0);
    RETURNS(0, heal_bytes_lend(&offer, &again));
    REQUIRE(again.data == lent.data && again.len == lent.len);
    heal_bytes_free(&offer);
}

/* Copies a message and frees it. */
static struct message taken(heal_bytes *sent)
{
    struct message message = {NULL, 0};

    RETURNS(0, heal_bytes_len(sent, &message.len));
    message.bytes = malloc(message.len);
    REQUIRE(message.bytes != NULL);
    RETURNS(0, heal_bytes_copy(sent, message.bytes, message.len));
    heal_bytes_free(sent);
    return message;
}

static struct message begun(heal_side *side, uint64_t number, uint64_t seed)
{
    heal_bytes offer = {0};

    RETURNS(0, heal_side_begin(side, number, seed, 0, &offer));
    return taken(&offer);
}

static struct message closed(heal_side *side)
{
    heal_bytes list = {0};

    RETURNS(0, heal_side_close_list(side, &list));
    return taken(&list);
}

static uint32_t hear(heal_side *side, struct message offer)
{
    return heal_side_hear(side, offer.bytes, offer.len);
}

static uint32_t hear_list(heal_side *side, struct message list)
{
    return heal_side_hear_list(side, list.bytes, list.len);
}

static void discard(struct message *messages, size_t count)
{
    for (size_t i = 0; i < count; i++)
        free(messages[i].bytes);
}

/* Returns the offer of another side, with `count` names. */
static struct message offer_of(bool second, uint64_t number, uint64_t seed, unsigned count)
{
    heal_side side = {0};
    struct message offer;
    char name[16];

    RETURNS(0, heal_side_new(second, &side));
    for (unsigned i = 0; i < count; i++) {
        snprintf(name, sizeof name, "n%u", i);
        RETURNS(0, add(&side, name, (heal_owner){9, i}));
    }
    offer = begun(&side, number, seed);
    heal_side_free(&side);
    return offer;
}

/* Returns the list of another side that withdraws its only name, `db`, or nothing. */
static struct message list_of(bool second, uint64_t number, bool withdraws)
{
    heal_side side = side_with_db(second);
    struct message list;

    free(begun(&side, number, 0).bytes);
    if (withdraws)
        RETURNS(0, heal_side_withdraw(&side, text("db"), 2));
    list = closed(&side);
    heal_side_free(&side);
    return list;
}

/* Registers and unregisters a name until the side has this many events. */
static void fill(heal_side *side, size_t events)
{
    if ((events - events_of(side)) % 2 == 1)
        RETURNS(0, add(side, "odd", (heal_owner){7, 7}));
    while (events_of(side) < events) {
        RETURNS(0, add(side, "even", (heal_owner){8, 8}));
        RETURNS(0, heal_side_unregister(side, text("even"), 4));
    }
}

/* Each call adds one event; calls that read, `upload`, and refused calls add none. */
static void check_events(void)
{
    static const uint8_t first[] = {0xb7, 0, 0, 0, 1, 0, 0, 0, 0x95, 0, 0, 0, 0, 0, 0, 0};
    heal_side side = side_with_db(false);
    heal_bytes message = {0};
    heal_outcome outcome = {0};
    struct message sent[] = {offer_of(true, 1, 0, 0), list_of(true, 1, false)};
    uint8_t id[HEAL_ID_LEN];
    uint32_t slot;

    REQUIRE(events_of(&side) == 1);
    ADDS(0, 0, &side, heal_side_upload(&side, first, sizeof first, id, &slot));
    ADDS(1, 0, &side, add(&side, "x", (heal_owner){1, 2}));
    ADDS(0, 30, &side, add(&side, "x", (heal_owner){1, 2}));
    ADDS(1, 0, &side, heal_side_unregister(&side, text("x"), 1));
    ADDS(1, 0, &side, heal_side_begin(&side, 1, 0, 0, &message));
    ADDS(1, 0, &side, hear(&side, sent[0]));
    ADDS(1, 0, &side, hear(&side, sent[0]));
    ADDS(1, 0, &side, heal_side_withdraw(&side, text("db"), 2));
    ADDS(1, 0, &side, heal_side_close_list(&side, &message));
    ADDS(1, 0, &side, hear_list(&side, sent[1]));
    ADDS(1, 0, &side, heal_side_finish(&side, &outcome));
    RETURNS(0, heal_side_renew(&side));
    REQUIRE(events_of(&side) <= 2);
    heal_side_free(&side);
    heal_bytes_free(&message);
    heal_outcome_free(&outcome);
    discard(sent, 2);
}

/* `settle` adds one event for each clash that it judges. */
static void check_events_of_settle(void)
{
    heal_side side = side_with_db(false), other = side_with_db(true);
    struct message sent = begun(&other, 1, 0);

    free(begun(&side, 1, 0).bytes);
    RETURNS(0, hear(&side, sent));
    ADDS(1, 0, &side, heal_side_settle(&side));
    ADDS(0, 0, &side, heal_side_settle(&side));
    ADDS(1, 0, &side, heal_side_abandon(&side));
    RETURNS(0, heal_side_renew(&side));
    REQUIRE(events_of(&side) <= 3);
    heal_side_free(&side);
    heal_side_free(&other);
    free(sent.bytes);
}

/* An idle side whose count of events is full can be renewed. */
static void check_full_and_idle(void)
{
    heal_side side = side_with_db(false);
    heal_bytes message = {0};

    fill(&side, HEAL_MAX_EVENTS);
    RETURNS(40, add(&side, "x", (heal_owner){1, 2}));
    RETURNS(40, heal_side_unregister(&side, text("db"), 2));
    RETURNS(40, heal_side_begin(&side, 1, 0, 0, &message));
    RETURNS(0, heal_side_renew(&side));
    RETURNS(0, add(&side, "x", (heal_owner){1, 2}));
    heal_side_free(&side);
}

/* An exchange that fills the count can only be given up. The side's rows can be read. */
static void check_full_and_open(void)
{
    heal_side side = side_with_db(false);
    heal_bytes message = {0};
    heal_outcome outcome = {0};
    struct message sent[] = {offer_of(true, 1, 0, 1), offer_of(true, 1, 5, 1), offer_of(true, 2, 0, 1), offer_of(false, 1, 0, 1),
                             list_of(true, 1, false)};
    heal_row row;

    fill(&side, HEAL_MAX_EVENTS - 1);
    free(begun(&side, 1, 0).bytes);
    RETURNS(40, hear(&side, sent[0]));
    RETURNS(36, hear(&side, sent[1]));
    RETURNS(40, hear(&side, sent[2]));
    RETURNS(40, hear(&side, sent[3]));
    RETURNS(40, hear_list(&side, sent[4]));
    RETURNS(40, heal_side_withdraw(&side, text("db"), 2));
    RETURNS(40, heal_side_close_list(&side, &message));
    RETURNS(39, heal_side_settle(&side));
    RETURNS(39, heal_side_finish(&side, &outcome));
    RETURNS(40, heal_side_abandon(&side));
    RETURNS(33, heal_side_renew(&side));
    RETURNS(33, add(&side, "x", (heal_owner){1, 2}));
    RETURNS(33, heal_side_begin(&side, 2, 0, 0, &message));
    RETURNS(0, find(&side, "db"));
    RETURNS(0, heal_side_row(&side, 0, &row));
    RETURNS(0, heal_side_give_up(&side));
    RETURNS(34, heal_side_abandon(&side));
    RETURNS(35, heal_side_begin(&side, 1, 0, 0, &message));
    RETURNS(0, add(&side, "x", (heal_owner){1, 2}));
    RETURNS(0, find(&side, "db"));
    heal_side_free(&side);
    discard(sent, 5);
}

/* The row after a name is the first above it, whether or not the name has a row. */
static void check_rows(void)
{
    heal_side side = side_with_db(false), none = {0};
    heal_row first, row;

    RETURNS(0, add(&side, "a", (heal_owner){1, 2}));
    RETURNS(0, add(&side, "dba", (heal_owner){1, 3}));
    RETURNS(0, heal_side_row(&side, 0, &first));
    RETURNS(0, heal_side_row_after(&side, first.name.bytes, first.name.len, &row));
    REQUIRE(row.name.len == 2 && memcmp(row.name.bytes, "db", 2) == 0);
    RETURNS(0, heal_side_row_after(&side, text("db"), 2, &row));
    REQUIRE(row.name.len == 3 && row.registration.owner.serial == 3);
    RETURNS(0, heal_side_row_after(&side, text("c"), 1, &row));
    REQUIRE(row.name.len == 2);
    RETURNS(HEAL_NO_ROW, heal_side_row_after(&side, text("dba"), 3, &row));
    RETURNS(44, heal_side_row_after(&side, text(""), 0, &row));
    RETURNS(91, heal_side_row_after(&none, text("a"), 1, &row));
    REQUIRE(row.name.len == 2);
    heal_side_free(&side);
}

/* `settle` returns 40 if the count has no room for its rulings, and `finish` if it has none for one event. */
static void check_no_room(void)
{
    heal_side side = side_with_db(false), other = side_with_db(true);
    heal_outcome outcome = {0};
    struct message sent[] = {begun(&other, 1, 0), list_of(true, 1, false)};

    fill(&side, HEAL_MAX_EVENTS - 2);
    free(begun(&side, 1, 0).bytes);
    RETURNS(0, hear(&side, sent[0]));
    RETURNS(40, heal_side_settle(&side));
    heal_side_free(&side);
    side = side_with_db(false);
    fill(&side, HEAL_MAX_EVENTS - 5);
    free(begun(&side, 1, 0).bytes);
    RETURNS(0, hear(&side, sent[0]));
    RETURNS(0, heal_side_settle(&side));
    free(closed(&side).bytes);
    RETURNS(0, hear_list(&side, sent[1]));
    RETURNS(40, heal_side_finish(&side, &outcome));
    RETURNS(40, heal_side_abandon(&side));
    RETURNS(33, heal_side_renew(&side));
    RETURNS(0, heal_side_give_up(&side));
    REQUIRE(events_of(&side) <= 3);
    heal_side_free(&side);
    heal_side_free(&other);
    discard(sent, 2);
}

/* The first bytes of a message, so that it is refused by its head or, if that is fine, for its end. */
static struct message cut(struct message sent)
{
    return (struct message){sent.bytes, 30 < sent.len ? 30 : sent.len - 1};
}

/* The head comes first, then 34, 45 and 46, then all bytes. 36, 37 and 42 are for the other side's first offer of the open number
   alone. */
static void check_order_of_hear(void)
{
    enum { VALID, SEED_AND_SIZE, SIZE, NUMBER, NUMBER_AND_OWN, OWN, KINDS };
    heal_side side = side_with_db(false);
    struct message sent[KINDS] = {
        [VALID] = offer_of(true, 1, 0, 1),
        [SEED_AND_SIZE] = offer_of(true, 1, 5, HEAL_MAX_NAMES),
        [SIZE] = offer_of(true, 1, 0, HEAL_MAX_NAMES),
        [NUMBER] = offer_of(true, 2, 5, HEAL_MAX_NAMES),
        [NUMBER_AND_OWN] = offer_of(false, 2, 5, HEAL_MAX_NAMES),
        [OWN] = offer_of(false, 1, 5, HEAL_MAX_NAMES),
    };

    RETURNS(70, heal_side_hear(&side, NULL, 0));
    RETURNS(70, heal_side_hear(&side, sent[VALID].bytes, 24));
    RETURNS(34, hear(&side, sent[VALID]));
    RETURNS(34, hear(&side, cut(sent[VALID])));
    free(begun(&side, 1, 0).bytes);
    RETURNS(70, heal_side_hear(&side, NULL, 0));
    RETURNS(70, hear(&side, cut(sent[VALID])));
    RETURNS(45, hear(&side, cut(sent[NUMBER])));
    RETURNS(46, hear(&side, cut(sent[OWN])));
    RETURNS(45, hear(&side, sent[NUMBER]));
    RETURNS(45, hear(&side, sent[NUMBER_AND_OWN]));
    RETURNS(46, hear(&side, sent[OWN]));
    RETURNS(36, hear(&side, sent[SEED_AND_SIZE]));
    RETURNS(37, hear(&side, sent[SIZE]));
    RETURNS(0, hear(&side, sent[VALID]));
    RETURNS(83, hear(&side, sent[SEED_AND_SIZE]));
    RETURNS(45, hear(&side, sent[NUMBER]));
    RETURNS(46, hear(&side, sent[OWN]));
    heal_side_free(&side);
    discard(sent, KINDS);
}

/* The head comes first, then 34, 45 and 46, then all bytes. The list may come before the offer. */
static void check_order_of_hear_list(void)
{
    enum { VALID, NUMBER, NUMBER_AND_OWN, OWN, KINDS };
    heal_side side = side_with_db(false);
    struct message sent[KINDS] = {
        [VALID] = list_of(true, 1, false),
        [NUMBER] = list_of(true, 2, false),
        [NUMBER_AND_OWN] = list_of(false, 2, false),
        [OWN] = list_of(false, 1, false),
    };

    RETURNS(70, heal_side_hear_list(&side, NULL, 0));
    RETURNS(34, hear_list(&side, sent[VALID]));
    RETURNS(34, hear_list(&side, cut(sent[VALID])));
    free(begun(&side, 1, 0).bytes);
    RETURNS(70, heal_side_hear_list(&side, NULL, 0));
    RETURNS(70, hear_list(&side, cut(sent[VALID])));
    RETURNS(45, hear_list(&side, cut(sent[NUMBER])));
    RETURNS(46, hear_list(&side, cut(sent[OWN])));
    RETURNS(45, hear_list(&side, sent[NUMBER]));
    RETURNS(45, hear_list(&side, sent[NUMBER_AND_OWN]));
    RETURNS(46, hear_list(&side, sent[OWN]));
    RETURNS(0, hear_list(&side, sent[VALID]));
    heal_side_free(&side);
    discard(sent, KINDS);
}

/* After the first offer and the first list of the number, the same ones change nothing, and others are refused. */
static void check_second_messages(void)
{
    heal_side side = side_with_db(false);
    heal_outcome outcome = {0};
    struct message sent[] = {offer_of(true, 1, 0, 2), offer_of(true, 1, 9, 5), list_of(true, 1, false), list_of(true, 1, true)};
    size_t merged = 0;

    free(begun(&side, 1, 0).bytes);
    ADDS(1, 0, &side, hear(&side, sent[0]));
    ADDS(1, 0, &side, hear(&side, sent[0]));
    ADDS(0, 83, &side, hear(&side, sent[1]));
    RETURNS(0, heal_side_settle(&side));
    free(closed(&side).bytes);
    ADDS(1, 0, &side, hear_list(&side, sent[2]));
    ADDS(1, 0, &side, hear_list(&side, sent[2]));
    ADDS(0, 83, &side, hear_list(&side, sent[3]));
    RETURNS(0, heal_side_finish(&side, &outcome));
    RETURNS(0, heal_outcome_merged(&outcome, &merged));
    REQUIRE(merged == 3);
    RETURNS(0, find(&side, "db"));
    RETURNS(0, find(&side, "n1"));
    RETURNS(31, find(&side, "n2"));
    heal_side_free(&side);
    heal_outcome_free(&outcome);
    discard(sent, 4);
}

/* Both heal at word 0. Side A withdraws `db` or not. */
static void exchange(heal_side side[2], heal_outcome outcome[2], bool withdraws)
{
    struct message offer[2], list[2];

    for (int i = 0; i < 2; i++)
        offer[i] = begun(&side[i], 1, 0);
    for (int i = 0; i < 2; i++) {
        RETURNS(0, hear(&side[i], offer[1 - i]));
        RETURNS(0, heal_side_settle(&side[i]));
    }
    if (withdraws)
        RETURNS(0, heal_side_withdraw(&side[0], text("db"), 2));
    for (int i = 0; i < 2; i++)
        list[i] = closed(&side[i]);
    for (int i = 0; i < 2; i++) {
        RETURNS(0, hear_list(&side[i], list[1 - i]));
        RETURNS(0, heal_side_finish(&side[i], &outcome[i]));
    }
    discard(offer, 2);
    discard(list, 2);
}

/* Both have `db`, and heal at word 0, at which `exit` keeps the first. */
static void heal(heal_side side[2], heal_outcome outcome[2], bool withdraws)
{
    for (int i = 0; i < 2; i++)
        side[i] = side_with_db(i == 1);
    exchange(side, outcome, withdraws);
}

/* A withdrawn registration takes part in its clash. If it wins, nobody keeps the name, and the outcome has no notice. */
static void check_withdrawn_winner(bool withdraws)
{
    heal_side side[2] = {{0}, {0}};
    heal_outcome outcome[2] = {{0}, {0}};
    heal_clash clash;
    heal_notice notice;
    heal_name name;
    uint64_t number = 0;

    heal(side, outcome, withdraws);
    for (int i = 0; i < 2; i++) {
        RETURNS(0, heal_outcome_clash(&outcome[i], 0, &clash));
        REQUIRE(clash.verdict == HEAL_FIRST && clash.first.owner.node == 1 && clash.first_half == HEAL_A);
        REQUIRE(clash.keeps == (withdraws ? HEAL_NEITHER : HEAL_FIRST) && clash.notices == (withdraws ? 0 : 1));
        RETURNS(withdraws ? 92 : 0, heal_outcome_notice(&outcome[i], 0, 0, &notice));
        REQUIRE(withdraws || (notice.kind == HEAL_NOTICE_EXIT && notice.to.node == 2));
        RETURNS(0, heal_outcome_number(&outcome[i], &number));
        REQUIRE(number == 1);
        RETURNS(withdraws ? 0 : 92, heal_outcome_withdrawn(&outcome[i], HEAL_A, 0, &name));
        REQUIRE(!withdraws || (name.len == 2 && memcmp(name.bytes, "db", 2) == 0));
        RETURNS(92, heal_outcome_withdrawn(&outcome[i], HEAL_A, 1, &name));
        RETURNS(92, heal_outcome_withdrawn(&outcome[i], HEAL_B, 0, &name));
        RETURNS(74, heal_outcome_withdrawn(&outcome[i], 2, 0, &name));
        RETURNS(withdraws ? 31 : 0, find(&side[i], "db"));
        RETURNS(withdraws ? 0 : 30, add(&side[i], "db", (heal_owner){2, 1}));
        heal_side_free(&side[i]);
        heal_outcome_free(&outcome[i]);
    }
}

/* The half of the first registration is the one that registered it, whichever half that is. */
static void check_first_half(void)
{
    heal_side side[2] = {{0}, {0}};
    heal_outcome outcome[2] = {{0}, {0}};
    heal_registration early = {.owner = {1, 1}}, late = {.owner = {3, 1}};
    struct message offer[2], list[2];
    heal_clash clash;

    for (int i = 0; i < 2; i++) {
        side[i] = side_with_db(i == 1);
        RETURNS(0, heal_side_register(&side[i], text("x"), 1, i == 0 ? &late : &early));
        offer[i] = begun(&side[i], 1, 0);
    }
    for (int i = 0; i < 2; i++) {
        RETURNS(0, hear(&side[i], offer[1 - i]));
        RETURNS(0, heal_side_settle(&side[i]));
        list[i] = closed(&side[i]);
    }
    for (int i = 0; i < 2; i++) {
        RETURNS(0, hear_list(&side[i], list[1 - i]));
        RETURNS(0, heal_side_finish(&side[i], &outcome[i]));
        RETURNS(0, heal_outcome_clash(&outcome[i], 0, &clash));
        REQUIRE(clash.name.len == 2 && clash.first_half == HEAL_A && clash.first.owner.node == 1);
        RETURNS(0, heal_outcome_clash(&outcome[i], 1, &clash));
        REQUIRE(clash.name.len == 1 && clash.first_half == HEAL_B && clash.first.owner.node == 1);
        heal_side_free(&side[i]);
        heal_outcome_free(&outcome[i]);
    }
    discard(offer, 2);
    discard(list, 2);
}

/* Reserved fields are zero in results, and what they held before doesn't matter. */
#define ZEROES(name, call)                   \
    do {                                     \
        memset(&(name), 0xff, sizeof(name)); \
        RETURNS(0, call);                    \
        REQUIRE((name).reserved == 0);       \
    } while (0)

static void check_reserved(void)
{
    heal_side side[2] = {{0}, {0}};
    heal_outcome outcome[2] = {{0}, {0}};
    heal_bytes offer = {0};
    heal_clash clash;
    heal_notice notice;
    heal_name name;
    heal_row row;
    heal_fault fault;
    heal_head head;
    heal_side_state state;
    heal_span lent;

    heal(side, outcome, false);
    ZEROES(clash, heal_outcome_clash(&outcome[0], 0, &clash));
    REQUIRE(clash.name.reserved == 0 && clash.first.reserved == 0 && clash.second.reserved == 0);
    ZEROES(notice, heal_outcome_notice(&outcome[0], 0, 0, &notice));
    ZEROES(row, heal_side_row(&side[0], 0, &row));
    RETURNS(0, heal_side_begin(&side[0], 2, 0, 0, &offer));
    RETURNS(0, heal_side_withdraw(&side[0], text("db"), 2));
    ZEROES(name, heal_side_withdrawn(&side[0], 0, &name));
    ZEROES(state, heal_side_query(&side[0], &state));
    ZEROES(lent, heal_bytes_lend(&offer, &lent));
    ZEROES(fault, heal_offer_fault(lent.data, lent.len, &fault));
    ZEROES(head, heal_message_peek(lent.data, lent.len, &head));
    heal_bytes_free(&offer);
    for (int i = 0; i < 2; i++) {
        heal_side_free(&side[i]);
        heal_outcome_free(&outcome[i]);
    }
}

/* In an open exchange the withdrawn names can be listed, and the others without them. */
static void check_withdrawn_names(void)
{
    heal_side side = side_with_db(false), none = {0};
    heal_name name;
    heal_row row;

    RETURNS(0, add(&side, "a", (heal_owner){1, 2}));
    RETURNS(0, add(&side, "x", (heal_owner){1, 3}));
    RETURNS(92, heal_side_withdrawn(&side, 0, &name));
    free(begun(&side, 1, 0).bytes);
    RETURNS(0, heal_side_withdraw(&side, text("db"), 2));
    RETURNS(0, heal_side_withdraw(&side, text("a"), 1));
    RETURNS(0, heal_side_withdrawn(&side, 0, &name));
    REQUIRE(name.len == 2 && memcmp(name.bytes, "db", 2) == 0);
    RETURNS(0, heal_side_withdrawn(&side, 1, &name));
    REQUIRE(name.len == 1 && name.bytes[0] == 'a');
    RETURNS(92, heal_side_withdrawn(&side, 2, &name));
    RETURNS(0, heal_side_live(&side, 0, &row));
    REQUIRE(row.name.len == 1 && row.name.bytes[0] == 'x' && row.registration.owner.serial == 3);
    RETURNS(92, heal_side_live(&side, 1, &row));
    RETURNS(0, heal_side_live_after(&side, text("a"), 1, &row));
    REQUIRE(row.name.bytes[0] == 'x');
    RETURNS(HEAL_NO_ROW, heal_side_live_after(&side, text("x"), 1, &row));
    RETURNS(44, heal_side_live_after(&side, text(""), 0, &row));
    RETURNS(91, heal_side_live_after(&none, text("a"), 1, &row));
    RETURNS(91, heal_side_live(&none, 0, &row));
    RETURNS(91, heal_side_withdrawn(&none, 0, &name));
    heal_side_free(&side);
}

/* A program that no row names can be forgotten, and leaves room for another one. */
static void check_forget(void)
{
    uint8_t code[] = {0xb7, 0, 0, 0, 0, 0, 0, 0, 0x95, 0, 0, 0, 0, 0, 0, 0};
    uint8_t ids[HEAL_MAX_PROGRAMS][HEAL_ID_LEN], id[HEAL_ID_LEN];
    heal_side side = side_with_db(false), none = {0};
    heal_registration registration = {.owner = {1, 1}, .resolver = HEAL_PROGRAM};
    uint32_t slot;

    RETURNS(92, heal_side_program(&side, 0, id));
    for (unsigned i = 0; i < HEAL_MAX_PROGRAMS; i++) {
        code[4] = (uint8_t)i;
        RETURNS(0, heal_side_upload(&side, code, sizeof code, ids[i], &slot));
    }
    code[5] = 1;
    RETURNS(43, heal_side_upload(&side, code, sizeof code, id, &slot));
    memcpy(registration.program, ids[7], sizeof id);
    RETURNS(0, heal_side_register(&side, text("x"), 1, &registration));
    ADDS(0, 94, &side, heal_side_forget(&side, ids[7]));
    ADDS(0, 0, &side, heal_side_forget(&side, ids[8]));
    RETURNS(41, heal_side_forget(&side, ids[8]));
    RETURNS(0, heal_side_upload(&side, code, sizeof code, id, &slot));
    RETURNS(43, heal_side_upload(&side, (code[5] = 2, code), sizeof code, id, &slot));
    RETURNS(0, heal_side_unregister(&side, text("x"), 1));
    RETURNS(0, heal_side_forget(&side, ids[7]));
    RETURNS(41, heal_side_register(&side, text("x"), 1, &registration));
    RETURNS(0, heal_side_program(&side, 0, ids[0]));
    for (size_t i = 1; i < HEAL_MAX_PROGRAMS - 1; i++) {
        RETURNS(0, heal_side_program(&side, i, ids[i]));
        REQUIRE(memcmp(ids[i - 1], ids[i], sizeof id) < 0);
    }
    RETURNS(92, heal_side_program(&side, HEAL_MAX_PROGRAMS - 1, id));
    RETURNS(91, heal_side_forget(&none, id));
    RETURNS(91, heal_side_program(&none, 0, id));
    heal_side_free(&side);
}

/* The code of a program can be read back: of an uploaded one, and of one that came with the other half's registration. */
static void check_code(void)
{
    static const uint8_t code[] = {0xb7, 0, 0, 0, 1, 0, 0, 0, 0x95, 0, 0, 0, 0, 0, 0, 0};
    heal_side side[2] = {side_with_db(false), {0}}, none = {0};
    heal_outcome outcome[2] = {{0}, {0}};
    heal_registration registration = {.owner = {2, 7}, .resolver = HEAL_PROGRAM};
    heal_bytes read = {0};
    uint8_t id[HEAL_ID_LEN], bytes[sizeof code];
    uint32_t slot;

    RETURNS(0, heal_side_new(HEAL_B, &side[1]));
    RETURNS(0, heal_side_upload(&side[1], code, sizeof code, id, &slot));
    memcpy(registration.program, id, sizeof id);
    RETURNS(0, heal_side_register(&side[1], text("coin"), 4, &registration));
    RETURNS(41, heal_side_code(&side[0], id, &read));
    RETURNS(91, heal_bytes_copy(&read, bytes, sizeof bytes));
    exchange(side, outcome, false);
    for (int i = 0; i < 2; i++) {
        memset(bytes, 0, sizeof bytes);
        RETURNS(0, heal_side_code(&side[i], id, &read));
        RETURNS(0, heal_bytes_copy(&read, bytes, sizeof bytes));
        REQUIRE(memcmp(bytes, code, sizeof code) == 0);
        RETURNS(0, heal_side_unregister(&side[i], text("coin"), 4));
        RETURNS(i == 0 ? 41 : 0, heal_side_code(&side[i], id, &read));
    }
    RETURNS(91, heal_side_code(&none, id, &read));
    heal_bytes_free(&read);
    for (int i = 0; i < 2; i++) {
        heal_side_free(&side[i]);
        heal_outcome_free(&outcome[i]);
    }
}

/* What the exchange lacks at each step, and what else the side knows. */
static void check_state(void)
{
    heal_side side = side_with_db(false), other = side_with_db(true), none = {0};
    heal_outcome outcome = {0};
    heal_side_state state;
    struct message offer = begun(&other, 7, 0), list;

    RETURNS(91, heal_side_query(&none, &state));
    RETURNS(0, heal_side_query(&side, &state));
    REQUIRE(state.side == HEAL_A && !state.is_open && !state.has_begun && state.missing == HEAL_LACKS_NOTHING);
    free(begun(&side, 7, 0).bytes);
    RETURNS(0, heal_side_query(&side, &state));
    REQUIRE(state.is_open && state.number == 7 && state.has_begun && state.latest == 7 && state.missing == HEAL_LACKS_OFFER);
    RETURNS(0, hear(&side, offer));
    RETURNS(0, heal_side_query(&side, &state));
    REQUIRE(state.has_heard && state.missing == HEAL_LACKS_RULING && state.missing_clash == 0 && !state.has_closed);
    RETURNS(39, heal_side_finish(&side, &outcome));
    RETURNS(0, heal_side_settle(&side));
    RETURNS(0, heal_side_withdraw(&side, text("db"), 2));
    RETURNS(0, heal_side_query(&side, &state));
    REQUIRE(state.missing == HEAL_LACKS_OWN_LIST && state.withdrawn == 1);
    free(closed(&side).bytes);
    RETURNS(0, heal_side_query(&side, &state));
    REQUIRE(state.has_closed && state.missing == HEAL_LACKS_LIST && !state.has_heard_list);
    list = closed(&other);
    RETURNS(0, hear_list(&side, list));
    RETURNS(0, heal_side_query(&side, &state));
    REQUIRE(state.has_heard_list && state.missing == HEAL_LACKS_NOTHING);
    RETURNS(0, heal_side_finish(&side, &outcome));
    RETURNS(0, heal_side_query(&other, &state));
    REQUIRE(state.side == HEAL_B && state.is_open);
    RETURNS(0, heal_side_query(&side, &state));
    REQUIRE(!state.is_open && state.number == 0 && state.latest == 7 && state.withdrawn == 0 && !state.has_heard);
    heal_side_free(&side);
    heal_side_free(&other);
    heal_outcome_free(&outcome);
    free(offer.bytes);
    free(list.bytes);
}

/* The first fields of messages are read without the rest. */
static void check_heads(void)
{
    struct message offer = offer_of(true, 0x0102030405060708, 9, 3), list = list_of(false, 5, true);
    heal_head head;

    RETURNS(0, heal_message_peek(offer.bytes, 25, &head));
    REQUIRE(head.kind == HEAL_OFFER && head.version == 1 && head.side == HEAL_B && head.reserved == 0);
    REQUIRE(head.number == 0x0102030405060708 && head.seed == 9);
    RETURNS(70, heal_message_peek(offer.bytes, 24, &head));
    RETURNS(0, heal_message_peek(list.bytes, 17, &head));
    REQUIRE(head.kind == HEAL_LIST && head.side == HEAL_A && head.number == 5 && head.seed == 0);
    RETURNS(70, heal_message_peek(list.bytes, 16, &head));
    RETURNS(70, heal_message_peek(NULL, 0, &head));
    list.bytes[8] = 3;
    RETURNS(74, heal_message_peek(list.bytes, list.len, &head));
    list.bytes[6] = 2;
    RETURNS(82, heal_message_peek(list.bytes, list.len, &head));
    list.bytes[0] = 0;
    RETURNS(71, heal_message_peek(list.bytes, list.len, &head));
    REQUIRE(head.kind == HEAL_LIST && head.number == 5);
    free(offer.bytes);
    free(list.bytes);
}

/* Whether the fault is this one. */
static bool is_fault(heal_fault fault, uint32_t number, uint32_t place, uint64_t at, uint32_t reason, uint32_t slot)
{
    return fault.number == number && fault.place == place && fault.at == at && fault.reason == reason && fault.slot == slot;
}

/* Faults of messages have their place; for rejected code also the code's refusal and its slot. */
static void check_faults(void)
{
    static const uint8_t first[] = {0xb7, 0, 0, 0, 1, 0, 0, 0, 0x95, 0, 0, 0, 0, 0, 0, 0};
    heal_side side = {0};
    struct message offer, list = list_of(true, 1, true);
    heal_registration registration = {.owner = {1, 1}, .resolver = HEAL_PROGRAM};
    heal_fault fault;
    uint32_t slot;

    RETURNS(0, heal_side_new(HEAL_A, &side));
    RETURNS(0, heal_side_upload(&side, first, sizeof first, registration.program, &slot));
    RETURNS(0, add(&side, "a", (heal_owner){1, 2}));
    RETURNS(0, heal_side_register(&side, text("b"), 1, &registration));
    offer = begun(&side, 1, 0);
    RETURNS(0, heal_offer_fault(offer.bytes, offer.len, &fault));
    REQUIRE(is_fault(fault, 0, HEAL_AT_NONE, 0, 0, 0));
    RETURNS(70, heal_offer_fault(NULL, 0, &fault));
    REQUIRE(is_fault(fault, 70, HEAL_AT_BYTE, 0, 0, 0));
    RETURNS(71, heal_offer_fault(list.bytes, list.len, &fault));
    REQUIRE(is_fault(fault, 71, HEAL_AT_BYTE, 0, 0, 0));
    /* The code ends the message. Its last instruction becomes a copy of R1 to R2, after which nothing comes. */
    offer.bytes[offer.len - 8] = 0xbf;
    offer.bytes[offer.len - 7] = 0x12;
    RETURNS(81, heal_offer_fault(offer.bytes, offer.len, &fault));
    REQUIRE(is_fault(fault, 81, HEAL_AT_ITEM, 1, 13, 1));
    RETURNS(0, heal_list_fault(list.bytes, list.len, &fault));
    REQUIRE(is_fault(fault, 0, HEAL_AT_NONE, 0, 0, 0));
    RETURNS(70, heal_list_fault(list.bytes, list.len - 1, &fault));
    REQUIRE(fault.place == HEAL_AT_BYTE && fault.at < list.len);
    list.bytes[8] = 2;
    RETURNS(74, heal_list_fault(list.bytes, list.len, &fault));
    REQUIRE(is_fault(fault, 74, HEAL_AT_BYTE, 8, 0, 0));
    heal_side_free(&side);
    free(offer.bytes);
    free(list.bytes);
}

/* A program that reads the last byte of its context runs on contexts of its length alone, and is rejected for shorter ones. */
static void check_bpf(void)
{
    static const uint32_t lengths[] = {1, 64, 160, 32768};
    static uint8_t context[65535];
    uint8_t last[] = {0x71, 0x10, 0, 0, 0, 0, 0, 0, 0x95, 0, 0, 0, 0, 0, 0, 0};
    static const uint8_t seven[] = {0xb7, 0, 0, 0, 7, 0, 0, 0, 0x95, 0, 0, 0, 0, 0, 0, 0};
    /* r2 = r1; r2 += 32767; r2 += 32767; r0 = *(u8 *)(r2 + 0); exit */
    static const uint8_t far[] = {0xbf, 0x12, 0, 0, 0, 0, 0, 0, 0x07, 0x02, 0, 0, 0xff, 0x7f, 0, 0, 0x07, 0x02, 0, 0,
        0xff, 0x7f, 0, 0, 0x71, 0x20, 0, 0, 0, 0, 0, 0, 0x95, 0, 0, 0, 0, 0, 0, 0};
    heal_bpf bpf = {0};
    heal_ended ended = {0};
    uint32_t slot = 0;

    memset(context, 0, sizeof context);
    for (size_t i = 0; i < sizeof lengths / sizeof *lengths; i++) {
        uint32_t len = lengths[i];
        last[2] = (uint8_t)(len - 1);
        last[3] = (uint8_t)((len - 1) >> 8);
        RETURNS(0, heal_bpf_load(last, sizeof last, len, &bpf, &slot));
        context[len - 1] = 0xa5;
        RETURNS(0, heal_bpf_run(&bpf, context, len, &ended));
        REQUIRE(ended.r0 == 0xa5 && ended.steps == 2 && ended.reserved == 0);
        RETURNS(93, heal_bpf_run(&bpf, context, len - 1, &ended));
        RETURNS(93, heal_bpf_run(&bpf, context, len + 1, &ended));
        RETURNS(21, heal_bpf_load(last, sizeof last, len - 1, &bpf, &slot));
        REQUIRE(slot == 0 && ended.r0 == 0xa5);
        context[len - 1] = 0;
        RETURNS(0, heal_bpf_run(&bpf, context, len, &ended));
        REQUIRE(ended.r0 == 0);
    }
    context[65534] = 0x5a;
    RETURNS(0, heal_bpf_load(far, sizeof far, 65535, &bpf, &slot));
    RETURNS(0, heal_bpf_run(&bpf, context, 65535, &ended));
    REQUIRE(ended.r0 == 0x5a && ended.steps == 5);
    RETURNS(21, heal_bpf_load(far, sizeof far, 65534, &bpf, &slot));
    REQUIRE(slot == 3);
    RETURNS(92, heal_bpf_load(seven, sizeof seven, 65536, &bpf, &slot));
    RETURNS(0, heal_bpf_load(seven, sizeof seven, 0, &bpf, &slot));
    RETURNS(0, heal_bpf_run(&bpf, NULL, 0, &ended));
    REQUIRE(ended.r0 == 7 && ended.steps == 2);
    heal_bpf_free(&bpf);
    REQUIRE(bpf.at == NULL);
    RETURNS(91, heal_bpf_run(&bpf, NULL, 0, &ended));
    RETURNS(1, heal_bpf_load(NULL, 0, 8, &bpf, &slot));
    REQUIRE(bpf.at == NULL && ended.r0 == 7);
    heal_bpf_free(&bpf);
}

/* The version is that of the header, and there are two ids of sides. */
static void check_version_and_ids(void)
{
    heal_side side = {0};

    REQUIRE(heal_version() == HEAL_VERSION);
    RETURNS(74, heal_side_new(2, &side));
    REQUIRE(side.at == NULL);
}

/* A side has the names and the events of its limit, which is from 1 to 1,048,576. */
static void check_limits(void)
{
    heal_registration registration = {.resolver = HEAL_EXIT};
    heal_side side = {0};
    size_t events = 0;

    RETURNS(74, heal_side_new_within(2, 0, &side));
    RETURNS(92, heal_side_new_within(HEAL_A, 0, &side));
    RETURNS(92, heal_side_new_within(HEAL_A, HEAL_MOST_NAMES + 1, &side));
    REQUIRE(side.at == NULL);
    RETURNS(0, heal_side_new_within(HEAL_A, HEAL_MOST_NAMES, &side));
    RETURNS(0, heal_side_new_within(HEAL_A, 1, &side));
    RETURNS(0, heal_side_register(&side, (const uint8_t *)"a", 1, &registration));
    RETURNS(32, heal_side_register(&side, (const uint8_t *)"b", 1, &registration));
    for (int i = 0; i < 7; i++) {
        RETURNS(0, heal_side_unregister(&side, (const uint8_t *)"a", 1));
        RETURNS(0, heal_side_register(&side, (const uint8_t *)"a", 1, &registration));
    }
    RETURNS(0, heal_side_unregister(&side, (const uint8_t *)"a", 1));
    RETURNS(0, heal_side_events(&side, &events));
    REQUIRE(events == 16);
    RETURNS(40, heal_side_register(&side, (const uint8_t *)"a", 1, &registration));
    RETURNS(0, heal_side_renew(&side));
    RETURNS(0, heal_side_register(&side, (const uint8_t *)"a", 1, &registration));
    RETURNS(32, heal_side_register(&side, (const uint8_t *)"b", 1, &registration));
    heal_side_free(&side);
}

int main(void)
{
    check_version_and_ids();
    check_limits();
    check_bpf();
    check_first_half();
    check_reserved();
    check_withdrawn_names();
    check_faults();
    check_lent();
    check_forget();
    check_code();
    check_state();
    check_heads();
    check_events();
    check_events_of_settle();
    check_full_and_idle();
    check_full_and_open();
    check_rows();
    check_no_room();
    check_order_of_hear();
    check_order_of_hear_list();
    check_second_messages();
    check_withdrawn_winner(false);
    check_withdrawn_winner(true);
    return 0;
}
