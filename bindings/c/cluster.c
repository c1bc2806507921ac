/* A cluster of four nodes, split into two parts of two, heals. Prints the owner of the name that each node has then. */
#include "heal.h"

#include <stdio.h>
#include <stdlib.h>

static const uint8_t DB[] = {'d', 'b'};

/* Ends the program if a call is refused. */
static void must(uint32_t refusal)
{
    uint8_t words[128];
    size_t len;

    if (refusal == 0)
        return;
    len = heal_refusal_words(refusal, words, sizeof words);
    fprintf(stderr, "refused %u: %.*s\n", refusal, len > sizeof words ? 0 : (int)len, (char *)words);
    exit(1);
}

/* The calls that hear a message: of a replica, and of a side. */
typedef uint32_t replica_hears(heal_replica *, const uint8_t *, size_t);
typedef uint32_t side_hears(heal_side *, const uint8_t *, size_t);

/* Copies a message and frees it, as a transport would. */
static uint8_t *copy_of(heal_bytes *message, size_t *len)
{
    uint8_t *bytes;

    must(heal_bytes_len(message, len));
    bytes = malloc(*len);
    if (bytes == NULL)
        must(90);
    must(heal_bytes_copy(message, bytes, *len));
    heal_bytes_free(message);
    return bytes;
}

/* Delivers a message to a replica. */
static void to_replica(heal_bytes *message, heal_replica *replica, replica_hears *hear)
{
    size_t len;
    uint8_t *bytes = copy_of(message, &len);

    must(hear(replica, bytes, len));
    free(bytes);
}

/* Delivers a message to a side. */
static void to_side(heal_bytes *message, heal_side *side, side_hears *hear)
{
    size_t len;
    uint8_t *bytes = copy_of(message, &len);

    must(hear(side, bytes, len));
    free(bytes);
}

static void follow(heal_replica *replica, const heal_replica *primary)
{
    heal_bytes snapshot = {0};

    must(heal_replica_snapshot(primary, &snapshot));
    to_replica(&snapshot, replica, heal_replica_follow);
}

/* Starts a part of two nodes: a primary, and a backup that follows it and applies its entry of a name. */
static void start_part(heal_replica *primary, heal_replica *backup, uint32_t node)
{
    heal_life first = {.incarnation = 1, .node = node}, second = {.incarnation = 1, .node = node + 1};
    heal_registration registration = {.owner = {node, 10}};
    heal_bytes entry = {0};

    must(heal_replica_start(&first, primary));
    must(heal_replica_start(&second, backup));
    follow(backup, primary);
    must(heal_replica_register(primary, DB, sizeof DB, &registration, &entry));
    to_replica(&entry, backup, heal_replica_apply);
}

/* Begins an exchange: the backup has its number before the side begins. Returns the position of the primary. */
static heal_position begin(heal_replica *primary, heal_replica *backup, uint32_t id, heal_side *side, heal_bytes *offer)
{
    heal_replica_state state;
    heal_bytes entry = {0};

    must(heal_replica_side(primary, id, side));
    must(heal_replica_begin(primary, 1, &entry));
    to_replica(&entry, backup, heal_replica_apply);
    must(heal_replica_query(primary, &state));
    must(heal_side_begin(side, 1, 7, 0, offer));
    return state.at;
}

/* The primaries of the two parts exchange, and the first starts a view with the outcome. */
static void heal_split(heal_replica primary[2], heal_replica backup[2])
{
    heal_side side[2] = {{0}, {0}};
    heal_bytes message[2] = {{0}, {0}};
    heal_outcome outcome = {0};
    heal_position before[2];

    for (int i = 0; i < 2; i++)
        before[i] = begin(&primary[i], &backup[i], i == 0 ? HEAL_A : HEAL_B, &side[i], &message[i]);
    for (int i = 0; i < 2; i++)
        to_side(&message[1 - i], &side[i], heal_side_hear);
    for (int i = 0; i < 2; i++) {
        must(heal_side_settle(&side[i]));
        must(heal_side_close_list(&side[i], &message[i]));
    }
    for (int i = 0; i < 2; i++)
        to_side(&message[1 - i], &side[i], heal_side_hear_list);
    for (int i = 0; i < 2; i++)
        must(heal_side_finish(&side[i], &outcome));
    must(heal_replica_change(&primary[0], &before[0], &side[0]));
    heal_outcome_free(&outcome);
    heal_side_free(&side[0]);
    heal_side_free(&side[1]);
}

int main(void)
{
    heal_replica primary[2] = {{0}, {0}}, backup[2] = {{0}, {0}};
    heal_replica *nodes[] = {&primary[0], &backup[0], &primary[1], &backup[1]};
    static const int NUMBERS[] = {1, 2, 4, 5};
    heal_registration found;

    for (int i = 0; i < 2; i++)
        start_part(&primary[i], &backup[i], i == 0 ? 1 : 4);
    heal_split(primary, backup);
    for (int i = 1; i < 4; i++)
        follow(nodes[i], nodes[0]);
    for (int i = 0; i < 4; i++) {
        must(heal_replica_whereis(nodes[i], DB, sizeof DB, &found));
        printf("node %d: db %u.%u\n", NUMBERS[i], found.owner.node, found.owner.serial);
        heal_replica_free(nodes[i]);
    }
    return 0;
}
