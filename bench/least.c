/*
 * Times the least that `begin` has to do: least NAMES. Copies 49 bytes of each row, which is what a row of `sizes.c` takes in a message, from
 * blocks as large as those of a side after names were registered in their order, and in the same order. Prints `least NANOSECONDS-A-NAME`.
 *
 * A node of the map has room for 11 names and their registrations, and holds six. A registration is a separate block.
 */
#include <stdint.h>
#include <stdio.h>
#include <stdlib.h>
#include <string.h>
#include <time.h>

enum { ROOM = 11, HELD = 6, NAME_LEN = 33, NAME_IN_MESSAGE = 8, FIELDS_LEN = 40, ROW_ROOM = 64 };

typedef struct {
    uint64_t owners;
    uint8_t fields[80];
} registration;

typedef struct {
    void *parent;
    uint16_t place, count;
    uint8_t names[ROOM][NAME_LEN];
    registration *registrations[ROOM];
} node;

static double now_ns(void)
{
    struct timespec t;

    clock_gettime(CLOCK_MONOTONIC, &t);
    return t.tv_sec * 1e9 + t.tv_nsec;
}

static void *or_exit(void *block)
{
    if (block == NULL)
        exit(1);
    return block;
}

static node **filled(uint32_t names)
{
    node **nodes = or_exit(calloc(names / HELD + 1, sizeof *nodes));

    for (uint32_t i = 0; i < names; i++) {
        if (i % HELD == 0)
            nodes[i / HELD] = or_exit(calloc(1, sizeof(node)));
        node *of = nodes[i / HELD];
        of->registrations[of->count] = or_exit(malloc(sizeof(registration)));
        memset(of->registrations[of->count], (int)i, sizeof(registration));
        memcpy(of->names[of->count++], &i, sizeof i);
    }
    return nodes;
}

/* Returns the end of the message. */
static uint8_t *spelled(node **nodes, uint32_t names, uint8_t *to)
{
    for (uint32_t i = 0; i < names; i++) {
        const node *of = nodes[i / HELD];
        const registration *held = of->registrations[i % HELD];
        memcpy(to, of->names[i % HELD], NAME_IN_MESSAGE);
        memcpy(to + NAME_IN_MESSAGE, held->fields, FIELDS_LEN);
        to[NAME_IN_MESSAGE + FIELDS_LEN] = held->fields[FIELDS_LEN];
        to += NAME_IN_MESSAGE + FIELDS_LEN + 1;
    }
    return to;
}

int main(int argc, char **argv)
{
    uint32_t names = argc == 2 ? (uint32_t)strtoul(argv[1], NULL, 10) : 4096;
    node **other = filled(names), **nodes = filled(names);

    /* As in sizes.c, the other side begins first. */
    uint8_t *message = or_exit(malloc((size_t)names * ROW_ROOM));
    size_t len = (size_t)(spelled(other, names, message) - message);
    uint8_t *copy = or_exit(malloc(len));
    memcpy(copy, message, len);
    free(message);

    double start = now_ns();
    message = or_exit(malloc((size_t)names * ROW_ROOM));
    spelled(nodes, names, message);
    printf("least %.1f\n", (now_ns() - start) / names);
    return memcmp(message, copy, len) != 0;
}
