/*
 * Times the calls of two halves in one exchange of NAMES names, all of which clash and are withdrawn on half A: exchange NAMES.
 * Prints a line for each call, `CALL MICROSECONDS`, of one half, and `exchange`, the nanoseconds for each name of an exchange of
 * both halves without withdrawals, from the first begin to the last finish. With -DBEFORE it is compiled against the header of version
 * 97b80b0, which copies messages; later versions lend them.
 */
#include "heal.h"

#include <stdio.h>
#include <stdlib.h>
#include <time.h>

#ifdef BEFORE
#define SETTLE(side) heal_side_settle(side, 0)
#else
#define SETTLE(side) heal_side_settle(side)
#endif

static double now_us(void)
{
    struct timespec t;

    clock_gettime(CLOCK_MONOTONIC, &t);
    return t.tv_sec * 1e6 + t.tv_nsec / 1e3;
}

static void must(uint32_t refused, const char *call)
{
    if (refused == 0)
        return;
    fprintf(stderr, "%s: refused %u\n", call, refused);
    exit(1);
}

static int name_of(uint32_t number, char name[16])
{
    return snprintf(name, 16, "name%05u", number);
}

static void fill(heal_side *side, uint32_t names, uint32_t node)
{
    char name[16];

    for (uint32_t i = 0; i < names; i++) {
        heal_registration registration = {.owner = {node, i}, .stamp = 5, .resolver = HEAL_NOTIFY};
        int len = name_of(i, name);

        must(heal_side_register(side, (const uint8_t *)name, (size_t)len, &registration), "register");
    }
}

/* A message, with its bytes. */
struct sent {
    heal_bytes message;
    const uint8_t *bytes;
    size_t len;
};

#ifdef BEFORE
static void read_bytes(struct sent *sent)
{
    uint8_t *copy;

    must(heal_bytes_len(&sent->message, &sent->len), "len");
    copy = malloc(sent->len);
    must(heal_bytes_copy(&sent->message, copy, sent->len), "copy");
    sent->bytes = copy;
}
#else
static void read_bytes(struct sent *sent)
{
    heal_span lent = HEAL_NO_BYTES;

    must(heal_bytes_lend(&sent->message, &lent), "lend");
    sent->bytes = lent.data;
    sent->len = lent.len;
}
#endif

static void list_rows(heal_side *side, uint32_t names)
{
    heal_row row;

#ifdef BEFORE
    for (uint32_t i = 0; i < names; i++)
        must(heal_side_row(side, i, &row), "row");
#else
    must(heal_side_row(side, 0, &row), "row");
    for (uint32_t i = 1; i < names; i++)
        must(heal_side_row_after(side, row.name.bytes, row.name.len, &row), "row_after");
#endif
}

/* Heals two halves. Prints the time of each call of half A if it withdraws its names, and else that of the whole. */
static void heal(uint32_t names, int withdraws)
{
    heal_side side[2] = {{0}, {0}};
    heal_outcome outcome = {0};
    struct sent offer[2] = {0}, list[2] = {0};
    double start, time[6] = {0};
    char name[16];

    for (uint32_t i = 0; i < 2; i++) {
        must(heal_side_new(i, &side[i]), "new");
        fill(&side[i], names, i + 1);
    }
    start = now_us();
    for (int i = 1; i >= 0; i--) {
        double before = now_us();
        must(heal_side_begin(&side[i], 1, 7, 0, &offer[i].message), "begin");
        time[0] = now_us() - before;
        read_bytes(&offer[i]);
    }
    for (int i = 1; i >= 0; i--) {
        double before = now_us();
        must(heal_side_hear(&side[i], offer[1 - i].bytes, offer[1 - i].len), "hear");
        time[1] = now_us() - before;
        before = now_us();
        must(SETTLE(&side[i]), "settle");
        time[2] = now_us() - before;
    }
    for (uint32_t i = 0; withdraws && i < names; i++)
        must(heal_side_withdraw(&side[1], (const uint8_t *)name, (size_t)name_of(i, name)), "withdraw");
    for (int i = 0; i < 2; i++) {
        must(heal_side_close_list(&side[i], &list[i].message), "close_list");
        read_bytes(&list[i]);
    }
    for (int i = 1; i >= 0; i--) {
        double before = now_us();
        must(heal_side_hear_list(&side[i], list[1 - i].bytes, list[1 - i].len), "hear_list");
        time[3] = now_us() - before;
        before = now_us();
        must(heal_side_finish(&side[i], &outcome), "finish");
        time[4] = now_us() - before;
    }
    if (withdraws) {
        printf("begin %.1f\nhear %.1f\nsettle %.1f\nhear_list %.1f\n", time[0], time[1], time[2], time[3]);
    } else {
        printf("exchange %.1f\nfinish %.1f\n", (now_us() - start) * 1000 / names, time[4]);
        start = now_us();
        list_rows(&side[0], names);
        printf("rows %.1f\n", now_us() - start);
    }
    for (int i = 0; i < 2; i++) {
        heal_side_free(&side[i]);
        heal_bytes_free(&offer[i].message);
        heal_bytes_free(&list[i].message);
    }
    heal_outcome_free(&outcome);
}

int main(int argc, char **argv)
{
    uint32_t names = argc > 1 ? (uint32_t)strtoul(argv[1], NULL, 10) : 4096;

    heal(names, 1);
    heal(names, 0);
    return 0;
}
