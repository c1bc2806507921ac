/*
 * Times the calls of replicas with NAMES names: replicas NAMES. Prints a line for each, the nanoseconds for each name: `register` on
 * a side; `edit` on a primary, with its entry lent; `apply` on a backup; and in microseconds for all names: `snapshot`, lent, in
 * memory that the process touches for the first time, and `again`, in memory that it has touched; `follow`; and `memcpy` of as many
 * bytes, into memory that it touches for the first time.
 */
#include "heal.h"

#include <stdio.h>
#include <stdlib.h>
#include <string.h>
#include <time.h>

static double now_ns(void)
{
    struct timespec t;

    clock_gettime(CLOCK_MONOTONIC, &t);
    return t.tv_sec * 1e9 + t.tv_nsec;
}

static void must(uint32_t refused, const char *call)
{
    if (refused == 0)
        return;
    fprintf(stderr, "%s: refused %u\n", call, refused);
    exit(1);
}

static size_t name_of(uint32_t number, uint8_t name[16])
{
    return (size_t)snprintf((char *)name, 16, "name%07u", number);
}

/* The bytes of a message, as a program would send or store them. */
static heal_span lent_by(const heal_bytes *message)
{
    heal_span lent = HEAL_NO_BYTES;

    must(heal_bytes_lend(message, &lent), "lend");
    return lent;
}

/* Starts a replica that may have NAMES names. */
static void start(heal_replica *replica, uint32_t node, uint32_t names)
{
    heal_life life = {.incarnation = 1, .node = node};
    heal_bytes entry = {0};

    must(heal_replica_start(&life, replica), "start");
    must(heal_replica_limit(replica, names, &entry), "limit");
    heal_bytes_free(&entry);
}

/* Registers the name of this number, and returns the length of the entry. */
static size_t edit(heal_replica *primary, uint32_t number, heal_bytes *entry)
{
    static const heal_registration registration = {.owner = {1, 1}, .stamp = 5, .resolver = HEAL_NOTIFY};
    uint8_t name[16];

    must(heal_replica_register(primary, name, name_of(number, name), &registration, entry), "register");
    return lent_by(entry).len;
}

/* Writes the snapshot of an empty replica, and then the entries of NAMES edits. Returns where each message ends. */
static size_t *write_log(uint8_t *log, uint32_t names)
{
    size_t *ends = malloc((names + 1) * sizeof *ends), at;
    heal_replica primary = {0};
    heal_bytes message = {0};

    start(&primary, 1, names);
    must(heal_replica_snapshot(&primary, &message), "snapshot");
    for (uint32_t i = 0;; i++) {
        heal_span lent = lent_by(&message);
        at = i == 0 ? 0 : ends[i - 1];
        memcpy(log + at, lent.data, lent.len);
        ends[i] = at + lent.len;
        if (i == names)
            break;
        edit(&primary, i, &message);
    }
    heal_bytes_free(&message);
    heal_replica_free(&primary);
    return ends;
}

/* Times registering on a side, which the edits are compared with. */
static void time_side(uint32_t names)
{
    heal_registration registration = {.owner = {1, 1}, .stamp = 5, .resolver = HEAL_NOTIFY};
    heal_side side = {0};
    uint8_t name[16];
    double began;

    must(heal_side_new_within(HEAL_A, names, &side), "new");
    began = now_ns();
    for (uint32_t i = 0; i < names; i++)
        must(heal_side_register(&side, name, name_of(i, name), &registration), "register");
    printf("register %.0f\n", (now_ns() - began) / names);
    heal_side_free(&side);
}

/* Times the edits of a primary, and applying them on a backup. */
static void time_edits(heal_replica *primary, heal_replica *backup, const uint8_t *log, const size_t *ends, uint32_t names)
{
    heal_bytes entry = {0};
    size_t sent = 0;
    double began = now_ns();

    for (uint32_t i = 0; i < names; i++)
        sent += edit(primary, i, &entry);
    printf("edit %.0f\n", (now_ns() - began) / names);
    if (sent != ends[names] - ends[0])
        exit(1);
    began = now_ns();
    for (uint32_t i = 0; i < names; i++)
        must(heal_replica_apply(backup, log + ends[i], ends[i + 1] - ends[i]), "apply");
    printf("apply %.0f\n", (now_ns() - began) / names);
    heal_bytes_free(&entry);
}

/* Times a snapshot, and following it. */
static void time_snapshots(const heal_replica *primary, heal_replica *late)
{
    heal_bytes message = {0};
    heal_span lent;
    uint8_t *copy;
    double began = now_ns();

    must(heal_replica_snapshot(primary, &message), "snapshot");
    printf("snapshot %.1f\n", (now_ns() - began) / 1000);
    heal_bytes_free(&message);
    began = now_ns();
    must(heal_replica_snapshot(primary, &message), "snapshot");
    printf("again %.1f\n", (now_ns() - began) / 1000);
    lent = lent_by(&message);
    copy = malloc(lent.len);
    began = now_ns();
    memcpy(copy, lent.data, lent.len);
    printf("memcpy %.1f\n", (now_ns() - began) / 1000);
    began = now_ns();
    must(heal_replica_follow(late, copy, lent.len), "follow");
    printf("follow %.1f\n", (now_ns() - began) / 1000);
    heal_bytes_free(&message);
    free(copy);
}

int main(int argc, char **argv)
{
    uint32_t names = argc > 1 ? (uint32_t)strtoul(argv[1], NULL, 10) : 4096;
    heal_life second = {.incarnation = 1, .node = 2}, third = {.incarnation = 1, .node = 3};
    heal_replica primary = {0}, backup = {0}, late = {0};
    uint8_t *log = malloc(((size_t)names + 1) * 256);
    size_t *ends = write_log(log, names);

    start(&primary, 1, names);
    must(heal_replica_start(&second, &backup), "start");
    must(heal_replica_start(&third, &late), "start");
    must(heal_replica_follow(&backup, log, ends[0]), "follow");
    time_side(names);
    time_edits(&primary, &backup, log, ends, names);
    time_snapshots(&primary, &late);
    heal_replica_free(&primary);
    heal_replica_free(&backup);
    heal_replica_free(&late);
    free(log);
    free(ends);
    return 0;
}
