/*
 * Times an exchange of two sides with many names: sizes NAMES [CLASHING [cold]]. Of 100 names CLASHING (100 by default) clash, and the
 * built-in `notify` judges; both sides register the others alike. With `cold`, each call that is timed begins with none of its memory
 * in the caches. Prints a line for each call, `CALL NANOSECONDS-A-NAME`, for one side; `rest` and `exchange`, the bytes that a side
 * holds for each name at rest and in an open exchange that heard the other's offer, without the messages; and, without `cold`, `peak`, the
 * most bytes for each name that the process had, with both sides and their messages.
 */
#include "heal.h"

#include <malloc.h>
#include <stdio.h>
#include <stdlib.h>
#include <sys/resource.h>
#include <time.h>

enum { NAME_LEN = 7, OTHER_LEN = 256 << 20, LINE_LEN = 64 };

static double now_ns(void)
{
    struct timespec t;

    clock_gettime(CLOCK_MONOTONIC, &t);
    return t.tv_sec * 1e9 + t.tv_nsec;
}

static void must(uint32_t refused, const char *call)
{
    if (refused == 0)
        return;
    fprintf(stderr, "%s: refused %u\n", call, refused);
    exit(1);
}

static double held(void)
{
    struct mallinfo2 info = mallinfo2();

    return (double)(info.uordblks + info.hblkhd);
}

/* The most memory that the process had, in bytes. */
static double most(void)
{
    struct rusage usage;

    getrusage(RUSAGE_SELF, &usage);
    return usage.ru_maxrss * 1024.0;
}

/* Writes the name of this number: a letter and six hex digits, so that numbers and names have one order. */
static void name_of(uint32_t number, uint8_t name[NAME_LEN])
{
    static const char digits[] = "0123456789abcdef";

    name[0] = 'n';
    for (int i = 0; i < 6; i++)
        name[1 + i] = (uint8_t)digits[number >> (20 - 4 * i) & 15];
}

/* Registers the names, those that clash for an owner of this node. */
static void fill(heal_side *side, uint32_t names, uint32_t clashing, uint32_t node)
{
    heal_registration registration = {.owner = {1, 1}, .resolver = HEAL_NOTIFY};
    uint8_t name[NAME_LEN];

    for (uint32_t i = 0; i < names; i++) {
        name_of(i, name);
        registration.owner.node = i % 100 < clashing ? node : 1;
        must(heal_side_register(side, name, NAME_LEN, &registration), "register");
    }
}

static void look_up(const heal_side *side, uint32_t names)
{
    heal_registration registration;
    uint8_t name[NAME_LEN];

    for (uint32_t i = 0; i < names; i++) {
        name_of(i, name);
        must(heal_side_whereis(side, name, NAME_LEN, &registration), "whereis");
    }
}

static void copied(const heal_bytes *message, uint8_t **bytes, size_t *len)
{
    must(heal_bytes_len(message, len), "len");
    *bytes = malloc(*len);
    must(heal_bytes_copy(message, *bytes, *len), "copy");
}

/* Memory that is read before a call to fill the caches with it, or null. */
static volatile uint8_t *other;

/* The start of what is timed, and the time for each name since. */
static double start;
static uint32_t count;

static void begin_timing(void)
{
    for (size_t i = 0; other != NULL && i < OTHER_LEN; i += LINE_LEN)
        other[i]++;
    start = now_ns();
}

static void timed(const char *call)
{
    printf("%s %.1f\n", call, (now_ns() - start) / count);
}

int main(int argc, char **argv)
{
    heal_side a = {0}, b = {0};
    heal_bytes offer_a = {0}, offer_b = {0}, list_a = {0}, list_b = {0};
    heal_outcome outcome_a = {0}, outcome_b = {0};
    uint8_t *bytes_a, *bytes_b, *names_a, *names_b;
    size_t len_a, len_b, listed_a, listed_b, merged = 0;
    uint32_t clashing;
    double before, rest, least;

    count = argc >= 2 ? (uint32_t)strtoul(argv[1], NULL, 10) : 4096;
    clashing = argc >= 3 ? (uint32_t)strtoul(argv[2], NULL, 10) : 100;
    if (argc >= 4)
        other = calloc(OTHER_LEN, 1);
    least = most();
    must(heal_side_new_within(HEAL_A, 2 * count < 1048576 ? 2 * count : 1048576, &a), "new");
    must(heal_side_new_within(HEAL_B, 2 * count < 1048576 ? 2 * count : 1048576, &b), "new");
    fill(&b, count, clashing, 2);
    before = held();
    begin_timing();
    fill(&a, count, clashing, 1);
    timed("register");
    rest = held() - before;
    begin_timing();
    look_up(&a, count);
    timed("whereis");
    must(heal_side_begin(&b, 1, 7, 0, &offer_b), "begin");
    copied(&offer_b, &bytes_b, &len_b);
    heal_bytes_free(&offer_b);
    begin_timing();
    must(heal_side_begin(&a, 1, 7, 0, &offer_a), "begin");
    timed("begin");
    copied(&offer_a, &bytes_a, &len_a);
    heal_bytes_free(&offer_a);
    begin_timing();
    must(heal_side_hear(&a, bytes_b, len_b), "hear");
    timed("hear");
    printf("rest %.0f\nexchange %.0f\n", rest / count, (held() - before - (double)(len_a + len_b)) / count);
    must(heal_side_hear(&b, bytes_a, len_a), "hear");
    begin_timing();
    must(heal_side_settle(&a), "settle");
    timed("settle");
    must(heal_side_settle(&b), "settle");
    must(heal_side_close_list(&a, &list_a), "close_list");
    must(heal_side_close_list(&b, &list_b), "close_list");
    copied(&list_a, &names_a, &listed_a);
    copied(&list_b, &names_b, &listed_b);
    must(heal_side_hear_list(&a, names_b, listed_b), "hear_list");
    must(heal_side_hear_list(&b, names_a, listed_a), "hear_list");
    begin_timing();
    must(heal_side_finish(&a, &outcome_a), "finish");
    timed("finish");
    must(heal_side_finish(&b, &outcome_b), "finish");
    must(heal_side_count(&a, &merged), "count");
    if (merged != count) {
        fprintf(stderr, "%zu names are left, where notify keeps one of both owners\n", merged);
        return 1;
    }
    if (other == NULL)
        printf("peak %.0f\n", (most() - least) / count);
    return 0;
}
