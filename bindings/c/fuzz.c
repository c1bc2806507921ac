/*
 * libFuzzer's target over untrusted bytes. The first byte of an input chooses the call: heal_program_load, heal_side_hear or
 * heal_side_hear_list. Aborts if a refusal changes a handle, if a number is none of the call's, or if a message that is
 * heard isn't the one that the other side sends.
 *
 * With -DFUZZ_FILES it is a program that runs the files named on its command line: the regression test.
 */
#include "heal.h"

#include <stdbool.h>
#include <stdio.h>
#include <stdlib.h>
#include <string.h>

#define REQUIRE(condition)                                            \
    do {                                                              \
        if (!(condition)) {                                           \
            fprintf(stderr, "line %d: %s\n", __LINE__, #condition);   \
            abort();                                                  \
        }                                                             \
    } while (0)

static bool is_of_program(uint32_t number)
{
    return (number >= 1 && number <= 7) || (number >= 10 && number <= 26) || number == 90;
}

static bool is_of_message(uint32_t number)
{
    return (number >= 70 && number <= 82) || number == 90;
}

/* An accepted program ends within as many steps as it has instructions, on any record. */
static void load(const uint8_t *data, size_t len)
{
    heal_program program = {0};
    heal_ended ended = {0};
    uint8_t record[HEAL_RECORD_LEN];
    uint32_t slot = 77;
    uint32_t number = heal_program_load(data, len, &program, &slot);

    if (number != 0) {
        REQUIRE(is_of_program(number) && program.at == NULL);
        return;
    }
    for (size_t i = 0; i < sizeof record; i++)
        record[i] = (uint8_t)(i * 37 + len);
    REQUIRE(heal_program_judge(&program, record, &ended) == 0);
    REQUIRE(ended.steps >= 1 && ended.steps <= len / 8);
    heal_program_free(&program);
}

/* A side A with an open exchange 1 of seed 2. */
static void open_side(heal_side *side)
{
    heal_registration registration = {.owner = {1, 1}, .stamp = 5};
    heal_bytes offer = {0};

    REQUIRE(heal_side_new(false, side) == 0);
    REQUIRE(heal_side_register(side, (const uint8_t *)"db", 2, &registration) == 0);
    REQUIRE(heal_side_register(side, (const uint8_t *)"web", 3, &registration) == 0);
    REQUIRE(heal_side_begin(side, 1, 2, 3, &offer) == 0);
    heal_bytes_free(&offer);
}

static size_t events_of(heal_side *side)
{
    size_t events = 0;

    REQUIRE(heal_side_events(side, &events) == 0);
    return events;
}

/* An offer is heard, and then settles; or it is refused, and changes nothing. */
static void hear(const uint8_t *data, size_t len)
{
    heal_side side = {0};
    size_t before;
    uint32_t number;

    open_side(&side);
    before = events_of(&side);
    number = heal_side_hear(&side, data, len);
    if (number == 0) {
        REQUIRE(events_of(&side) == before + 1);
        REQUIRE(heal_side_settle(&side) == 0);
    } else {
        REQUIRE(is_of_message(number) || number == 36 || number == 37 || number == 42 || number == 45 || number == 46);
        REQUIRE(events_of(&side) == before && heal_side_settle(&side) == 39);
    }
    heal_side_free(&side);
}

static void hear_list(const uint8_t *data, size_t len)
{
    heal_side side = {0};
    size_t before;
    uint32_t number;

    open_side(&side);
    before = events_of(&side);
    number = heal_side_hear_list(&side, data, len);
    REQUIRE(number == 0 || is_of_message(number) || number == 45 || number == 46);
    REQUIRE(events_of(&side) == before + (number == 0));
    heal_side_free(&side);
}

int LLVMFuzzerTestOneInput(const uint8_t *data, size_t len)
{
    if (len == 0)
        return 0;
    switch (data[0] % 3) {
    case 0:
        load(data + 1, len - 1);
        break;
    case 1:
        hear(data + 1, len - 1);
        break;
    default:
        hear_list(data + 1, len - 1);
    }
    return 0;
}

#ifdef FUZZ_FILES
static void run_file(const char *path)
{
    static uint8_t data[1 << 20];
    FILE *file = fopen(path, "rb");
    size_t len;

    REQUIRE(file != NULL);
    len = fread(data, 1, sizeof data, file);
    fclose(file);
    LLVMFuzzerTestOneInput(data, len);
}

int main(int count, char **paths)
{
    REQUIRE(count > 1);
    for (int i = 1; i < count; i++)
        run_file(paths[i]);
    printf("%d inputs, no finding\n", count - 1);
    return 0;
}
#endif
